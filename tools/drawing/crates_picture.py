"""Lays out the graph of the crates: each crate in a row above those that it uses, with an arrow to each of them, unless a path leads there too. The crates of
a group lie in one band."""
import re

from gcflip_drawing.pair_text import Unreadable
from gcflip_drawing.picture import Picture

BOX_WIDTH, BOX, GAP, LEFT, TOP = 138, 24, 6, 8, 8
# The distance of the first track from the boxes, and of a track from the next one.
FIRST_TRACK, TRACK = 26, 20
# Where the arrow to a crate ends at its box, below its upper side. Those to the crates that it uses begin below.
HEAD = 5
# The size of the dot where an arrow of a further user joins.
DOT = 5
# The height of a band's heading, how far a band reaches beyond its boxes, and the distance of two bands.
HEADING, EDGE, BAND_GAP = 15, 4, 5
# A line that begins a group of crates.
GROUP = re.compile(r"# == (.+)")


def read_crates(text):
    """Returns the crates that each crate of the list uses, without the toolchain's, and the groups: a heading, and the crates. Each group uses itself and
    those before it."""
    listed, groups = {}, {}
    for line in text.split("\n"):
        heading = GROUP.fullmatch(line)
        if heading:
            groups[heading[1]] = []
        name, colon, uses = line.split("#")[0].partition(":")
        if colon:
            listed[name.split()[0]] = uses.split()
            if groups:
                groups[list(groups)[-1]].append(name.split()[0])
    if not listed:
        raise Unreadable("there is no crate in the list")
    return {name: [use for use in uses if use in listed] for name, uses in listed.items()}, groups


def levels_of(uses):
    """Returns the level of each crate: one more than the highest level that it uses."""
    levels = {}

    def level(name):
        if name not in levels:
            levels[name] = 1 + max([level(use) for use in uses[name]] + [-1])
        return levels[name]

    for name in uses:
        level(name)
    return levels


def covered(uses, name):
    """Returns the crates that a crate uses through another one."""
    found = set()
    waiting = [further for use in uses[name] for further in uses[use]]
    while waiting:
        use = waiting.pop()
        if use not in found:
            found.add(use)
            waiting.extend(uses[use])
    return found


def arrows_of(uses):
    """Returns the arrows: each crate with each crate that it uses, unless it also uses that one through another."""
    return [(name, use) for name in uses for use in uses[name] if use not in covered(uses, name)]


def length_of(order, arrows):
    """Returns how many rows all arrows together go down, if each crate has a row."""
    rows = {name: row for row, name in enumerate(order)}
    return sum(rows[lower] - rows[upper] for upper, lower in arrows)


def ordered(uses, arrows, groups):
    """Returns the crates from the top row to the bottom one, each above those that it uses, and those of a group next to each other. No crate can change its
    place with the one below of its group so that the arrows get shorter."""
    levels, ranks = levels_of(uses), {name: rank for rank, members in enumerate(groups.values(), 1) for name in members}
    order = sorted(uses, key=lambda name: (-ranks.get(name, 0), -levels[name], name))
    is_better = True
    while is_better:
        is_better = False
        for row in range(len(order) - 1):
            swapped = [*order[:row], order[row + 1], order[row], *order[row + 2:]]
            may_swap = ranks.get(order[row]) == ranks.get(order[row + 1]) and order[row + 1] not in uses[order[row]]
            if may_swap and length_of(swapped, arrows) < length_of(order, arrows):
                order, is_better = swapped, True
    return order


def tracks_of(order, arrows):
    """Returns the track of each crate that is used, which is an upright line from its topmost user down to its own row. Short ones are at the left, and one
    track has several if they have no row in common."""
    rows = {name: row for row, name in enumerate(order)}
    first = {}
    for upper, lower in arrows:
        first[lower] = min(rows[upper], first.get(lower, rows[upper]))
    tracks, found = [], {}
    for name in sorted(first, key=lambda name: (rows[name] - first[name], rows[name])):
        taken = set(range(first[name], rows[name] + 1))
        track = next((at for at, others in enumerate(tracks) if not others & taken), len(tracks))
        if track == len(tracks):
            tracks.append(set())
        tracks[track] |= taken
        found[name] = track
    return found


def placed(order, groups):
    """Returns the upper end of each crate's box, and of each band its group and its upper and lower end. Crates of no group have no band."""
    tops, bands, y, last = {}, [], TOP, None
    for name in order:
        group = group_of(name, groups)
        if group is not None and group != last:
            y += BAND_GAP if bands else 0
            bands.append([group, y, y])
            y += HEADING
        tops[name], last = y, group
        if group is not None:
            bands[-1][2] = y + BOX + EDGE
        y += BOX + GAP
    return tops, bands


def branches_of(name, arrows, tracks):
    """Returns where the arrows of a crate begin, by the crates that it uses. Those with tracks farther to the right begin higher, so that they do not cross
    the others there."""
    used = sorted((lower for upper, lower in arrows if upper == name), key=lambda use: -tracks[use])
    return {use: HEAD + (BOX - HEAD) * at / (len(used) + 1) for at, use in enumerate(used, 1)}


def draw_arrows(picture, order, arrows, tops, groups):
    """Draws for each crate that is used one line with a branch from each user, and with its head at the crate."""
    tracks, right = tracks_of(order, arrows), LEFT + BOX_WIDTH
    branches = {name: branches_of(name, arrows, tracks) for name in order}
    for name in sorted(tracks, key=lambda name: tops[name]):
        x, y, role = right + FIRST_TRACK + tracks[name] * TRACK, tops[name] + HEAD, role_of("uses", group_of(name, groups))
        starts = [tops[user] + branches[user][name] for user in order if name in branches[user]]
        picture.line([(right, starts[0]), (x, starts[0]), (x, y)], role)
        for start in starts[1:]:
            picture.line([(right, start), (x, start)], role)
            picture.box(x - DOT / 2, start - DOT / 2, DOT, DOT, "joint")
        picture.arrow((x, y), ((x + right) / 2, y), (right, y), role)


def group_of(name, groups):
    """Returns the heading of a crate's group, or None."""
    return next((heading for heading, members in groups.items() if name in members), None)


def role_of(kind, group):
    """Returns the role of a box, a band or a line of a group: its kind, and the last word of the group's heading."""
    return kind if group is None else "%s-%s" % (kind, group.split()[-1].lower())


def drawn(crates, title):
    """Returns the picture of the crates: those that each crate uses, and the groups, as `read_crates` returns them."""
    (uses, groups), picture = crates, Picture(title)
    arrows = arrows_of(uses)
    order = ordered(uses, arrows, groups)
    tops, bands = placed(order, groups)
    right = LEFT + BOX_WIDTH + FIRST_TRACK + max(tracks_of(order, arrows).values(), default=0) * TRACK + LEFT
    for group, top, bottom in bands:
        picture.box(LEFT - EDGE, top, right - 2 * (LEFT - EDGE), bottom - top, role_of("band", group))
    draw_arrows(picture, order, arrows, tops, groups)
    for group, top, _ in bands:
        picture.text(LEFT, top + HEADING - 4, group, "small")
    for name in order:
        picture.box(LEFT, tops[name], BOX_WIDTH, BOX, role_of("crate", group_of(name, groups)), name)
    return picture.sized(right, tops[order[-1]] + BOX + EDGE + TOP)
