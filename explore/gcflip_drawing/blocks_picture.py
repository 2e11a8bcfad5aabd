"""Lays out a scene of large heaps: each space as rows of blocks. Neighbouring blocks of one sort are joined."""
from collections import Counter
from typing import NamedTuple

from .bundles import BAND, Line, draw_lines, is_bundled
from .heap import RAW
from .picture import MARGIN, Picture
from .scene import counted, objects_of
from .words_picture import LINES, ROOT_X, bundle_entry, draw_caption

BLOCK, ROW = 8, 10
MOST_LINES = 64
# If several sorts tie for the most words of a block, the first one in this list wins.
SORTS = ["unknown", "object", "raw", "garbage", "reserved", "free"]


class Blocks(NamedTuple):
    """The blocks in a row, the most rows of a space, and whether entirely free rows are drawn."""

    columns: int = 110
    rows: int = 48
    is_whole: bool = False

    def width(self):
        return self.columns * BLOCK

    def words(self, scene):
        """Returns the number of words of a block in the picture of a scene."""
        words = [space.size if self.is_whole else len(space.words) for space, _ in scene.spaces()]
        return max(1, -(-max(words) // (self.columns * self.rows)))


def blocks_of(width):
    """Returns the grid for a picture of this width, with which both spaces fit on one screen."""
    return Blocks(max(30, min(160, (width - 2 * ROOT_X) // BLOCK)), 20, True)


class Side:
    """A space in the picture, with the sort of each of its blocks."""

    def __init__(self, space, is_old, top, blocks, scale):
        self.space, self.is_old, self.top, self.blocks, self.scale = space, is_old, top, blocks, scale
        kept = (blocks, scale)
        if kept not in space.block_sorts:
            space.block_sorts[kept] = self.sorts_of_blocks()
        self.sorts = space.block_sorts[kept]
        self.rows = -(-len(self.sorts) // blocks.columns)

    def sorts_of_blocks(self):
        """Returns the most frequent sort of word in each block."""
        end, size, scale = len(self.space.words), self.space.size, self.scale
        row = self.blocks.columns * scale
        drawn = max(end, size if self.blocks.is_whole else min(size, -(-end // row) * row))
        counts = [[0] * len(SORTS) for _ in range(-(-drawn // scale))]

        def add(first, count, sort):
            """Counts words of a sort, which stand one behind the other."""
            while count > 0:
                part = min(count, scale - first % scale)
                counts[first // scale][sort] += part
                first, count = first + part, count - part

        places = {sort: at for at, sort in enumerate(SORTS)}
        behind = min(end, 1)
        add(0, behind, places["reserved"])
        live, plain, raw, garbage = self.space.live, places["object"], places["raw"], places["garbage"]
        for start, header in self.space.objects.headers.items():
            behind, block = start + (header & 65535) + 2, start // scale
            sort = garbage if start not in live else raw if header >= RAW else plain
            # Most objects are within one block.
            if behind <= (block + 1) * scale:
                counts[block][sort] += behind - start
            else:
                add(start, behind - start, sort)
        add(behind, end - behind, places["unknown"])
        add(end, drawn - end, places["free"])
        return [SORTS[max(range(len(SORTS)), key=count.__getitem__)] for count in counts]

    def place(self, address):
        """Returns the middle of the block that has an address."""
        return self.middle(address // self.scale)

    def middle(self, block):
        columns = self.blocks.columns
        return ROOT_X + (block % columns + 0.5) * BLOCK, self.top + (block // columns + 0.5) * ROW

    def height(self):
        return self.rows * ROW

    def runs(self):
        """Yields the runs of blocks of one sort within a row: first block, number of blocks, sort."""
        at, columns = 0, self.blocks.columns
        while at < len(self.sorts):
            end, row_end = at + 1, (at // columns + 1) * columns
            while end < min(len(self.sorts), row_end) and self.sorts[end] == self.sorts[at]:
                end += 1
            yield at, end - at, self.sorts[at]
            at = end


def draw_space(picture, side):
    for first, count, sort in side.runs():
        x, y = ROOT_X + first % side.blocks.columns * BLOCK, side.top + first // side.blocks.columns * ROW
        tip = "%s, words %d to %d: %s" % (side.space.name, first * side.scale, (first + count) * side.scale - 1, sort)
        picture.box(x, y, count * BLOCK, ROW, sort, tip=tip)


def heading(space):
    roots = sum(1 for word in space.roots if word != 0)
    return "%s: %s, %d of them free, %s, %s that %s not nil" % (
        space.name, counted(space.size, "word"), space.size - len(space.words), objects_of(space), counted(roots, "root"), "is" if roots == 1 else "are")


class Joined:
    """How many pairs lead from each block of the old space to each of the new one. It remembers what it counted last."""

    def __init__(self):
        self.pairs, self.asked, self.found = None, None, None

    def counts(self, pairs, ends, scales):
        """Returns the counts for pairs with words at both addresses. Nobody may change the pairs."""
        if self.pairs is not pairs or self.asked != (ends, scales):
            self.found = Counter((first // scales[0], second // scales[1]) for first, second in pairs if first < ends[0] and second < ends[1])
            self.pairs, self.asked = pairs, (ends, scales)
        return Counter(self.found)


JOINED = Joined()


def lines_between(old, new, joined, step):
    """Returns the lines between objects at whose addresses there are words: one in `step` by itself, and one for all others from the same block to the
    same block."""
    ends, scales = (len(old.space.words), len(new.space.words)), (old.scale, new.scale)
    drawn = [(first, second) for first, second in joined[::step] if first < ends[0] and second < ends[1]]
    counts = JOINED.counts(joined, ends, scales)
    counts.subtract((first // scales[0], second // scales[1]) for first, second in drawn)
    return [Line(old.place(first), new.place(second)) for first, second in drawn] + [
        Line(old.middle(first), new.middle(second), is_drawn=False, count=count) for (first, second), count in counts.items() if count > 0]


def draw_joined(picture, sides, scene, width):
    """Draws lines between objects that belong together, in bundles that count all of them. Beyond their bundles, evenly spaced ones are
    drawn, as many as stay readable. Returns their entry in the legend, and whether there are bundles."""
    step = max(1, -(-len(scene.joined) // MOST_LINES))
    old, new = sides
    lines = lines_between(old, new, scene.joined, step)
    draw_lines(picture, lines, width, old.top + old.height(), new.top, scene.joined_as)
    return "%ss" % scene.joined_as if step == 1 else "one %s in %d" % (scene.joined_as, step), is_bundled(lines)


def draw_faults(picture, sides, scene):
    """Marks the blocks with the refused words, and the pair that is refused."""
    places = []
    for mark in scene.marks_of("fault"):
        side = sides[0 if mark.is_old else 1]
        if mark.address < len(side.space.words):
            x, y = side.place(mark.address)
            picture.box(x - 6, y - 8, 12, 16, "fault", tip="address %d" % mark.address)
            # There is a heading above the first row of the old space.
            above = mark.is_old and y > side.top + ROW
            picture.text(min(x + 10, ROOT_X + side.blocks.width() - 60), y - 10 if above else y + 20, "word %d" % mark.address, "small")
            places.append((x, y))
    if len(places) == 2:
        picture.line(places, "fault")


def draw_logged(picture, sides, scene):
    for mark in scene.marks_of("logged")[:MOST_LINES]:
        x, y = sides[0 if mark.is_old else 1].place(mark.address)
        picture.box(x - 5, y - 6, 10, 12, "logged", tip=mark.tip)


def draw_scan(picture, side, scan):
    """Draws the scan pointer at a block."""
    x, y = side.place(scan.address)
    picture.area([(x - 7, y - 14), (x + 7, y - 14), (x, y - 1)], "scan")
    picture.text(x + 9, y - 6, "scan", "small")


def draw_legend(picture, legend, y, scale, lines, right):
    """Draws a sample of each role with its name, in as many lines as needed. Returns the base of the last line."""
    x = ROOT_X
    words = "a block is %s wide" % ("one word" if scale == 1 else "%d words" % scale)
    for role, name in [item for item in legend if item[0] not in ("root", "changed")] + [("", words)]:
        if role in LINES:
            name = lines + name[len(role):]
        sample = 34 if role in LINES else 18 if role else -6
        if x > ROOT_X and x + sample + 6 + 6 * len(name) + MARGIN > right:
            x, y = ROOT_X, y + 20
        if role in LINES:
            picture.line([(x, y + 6), (x + sample, y + 6)], role)
        elif role:
            picture.box(x, y, sample, 12, role)
        picture.text(x + sample + 6, y + 10, name, "small")
        x += sample + 16 + 7 * len(name)
    return y


def drawn_in_blocks(scene, blocks=Blocks()):
    """Returns the picture of a scene with too many words to draw one by one."""
    picture, width = Picture(scene.title), ROOT_X * 2 + blocks.width()
    scale = blocks.words(scene)
    heading_y = picture.paragraph(ROOT_X, draw_caption(picture, scene, width), heading(scene.old), "label", width)
    sides = [Side(scene.old, True, heading_y + 10, blocks, scale)]
    bottom = sides[0].top + sides[0].height()
    if scene.new:
        sides.append(Side(scene.new, False, bottom + BAND, blocks, scale))
        bottom = picture.paragraph(ROOT_X, sides[1].top + sides[1].height() + 20, heading(scene.new), "label", width)
    for side in sides:
        draw_space(picture, side)
    lines, bundled = draw_joined(picture, sides, scene, width) if scene.new else ("", False)
    draw_logged(picture, sides, scene)
    draw_faults(picture, sides, scene)
    if scene.scan is not None:
        draw_scan(picture, sides[1], scene.scan)
    bottom = draw_legend(picture, scene.legend + bundle_entry(scene, bundled), bottom + 16, scale, lines, width)
    return picture.sized(width, bottom + 26)
