"""Lays out a scene word by word: each space as rows of cells, references as arrows, and a dotted line between objects that belong
together."""
from typing import NamedTuple

from gcflip.inference import root_name

from .bundles import BAND, Line, beside, draw_lines, is_bundled, is_upright
from .heap import references, shown, target
from .picture import MARGIN, Picture, text_width
from .scene import counted, objects_of

CELL, HEIGHT = 50, 30
ROOT_X, ROOT_WIDTH = 24, 96
GAP = 34
# The distance of the spaces if lines between them are upright, and if they are not.
BETWEEN, BETWEEN_SLANTED = 44, 72
# An entirely free row is lower, and nothing is drawn between such rows.
FREE_HEIGHT, FREE_GAP, LABEL_GAP = 10, 4, 16
# A caption and a legend need this many columns.
LEAST_COLUMNS = 11
MOST_SHOWN_ROOTS = 24
# The margin at the right, which is smaller in a picture that is narrow.
RIGHT, NARROW_RIGHT = 24, 12
# In a narrower picture the roots are in rows of their own, above the old space and below the new one.
LEAST_WIDTH_WITH_ROOTS_AT_THE_LEFT = 460
ROOT_GAP = 8
# In a space with more rows, the names of an object's roots are next to its address, and no arrows are drawn from them.
MOST_ROWS_WITH_ARROWS = 2


class Grid(NamedTuple):
    """How a space is laid out in rows."""

    columns: int = 16
    has_roots: bool = True
    """Whether roots are at the left, with arrows to their targets. Otherwise they are in rows, and each object has the names of its roots."""
    is_whole: bool = False
    """Whether all free words are drawn, or only as many as fill the last row."""

    def left(self):
        return 176 if self.has_roots else ROOT_X

    def right(self):
        return RIGHT if self.has_roots else NARROW_RIGHT


def grid_of(width, is_whole=False):
    """Returns the grid for a picture of about this width. Roots are at the left if enough columns remain."""
    has_roots = width >= LEAST_WIDTH_WITH_ROOTS_AT_THE_LEFT
    margins = Grid(has_roots=has_roots).left() + Grid(has_roots=has_roots).right()
    return Grid(max(4, min(24, (width - margins) // CELL)), has_roots, is_whole)


class Side:
    """A space in the picture, with the positions of its words."""

    def __init__(self, space, is_old, top, grid, marks=()):
        self.space, self.is_old, self.top, self.grid = space, is_old, top, grid
        self.rows = max(1, -(-self.drawn_words() // grid.columns))
        # The rows with words of objects, if the free rows after them are drawn lower.
        self.high_rows = max(1, -(-len(space.words) // grid.columns)) if grid.is_whole else self.rows
        self.has_arrows = grid.has_roots and self.high_rows <= MOST_ROWS_WITH_ARROWS
        # For each line to the other space: the row in which it ends, and where it is across the picture.
        self.lines = []
        self.changed = {mark.address + i for mark in marks if mark.is_old == is_old and mark.role == "changed" for i in range(mark.size)}

    def label(self, thing):
        """Returns the label of an object: its address, and how many fields are left out."""
        address, more = self.space.address_of(thing.start), self.space.more_fields(thing.start)
        return "%d and %s" % (address, counted(more, "more field")) if more else str(address)

    def roots_of(self, thing):
        """Returns the names of the roots that refer to an object, as a second label, if there are no arrows from them."""
        address = self.space.address_of(thing.start)
        names = [] if self.has_arrows else [
            name for name, word in zip(root_names(len(self.space.roots)), self.space.roots) if target(word, self.space.beyond) == address]
        return "\u2190 " + ", ".join(names) if names else ""

    def drawn_words(self):
        """Returns the number of words that have a cell."""
        end, size = len(self.space.words), self.space.size
        if self.grid.is_whole:
            return max(end, size)
        return max(end, min(size, -(-(end + 1) // self.grid.columns) * self.grid.columns))

    def row_top(self, row):
        first = self.top + (GAP if self.is_old else 0)
        if row < self.high_rows:
            return first + row * (HEIGHT + GAP)
        between = LABEL_GAP - GAP if self.is_old else 0
        return first + self.high_rows * (HEIGHT + GAP) + between + (row - self.high_rows) * (FREE_HEIGHT + FREE_GAP)

    def row_height(self, address):
        return HEIGHT if address // self.grid.columns < self.high_rows else FREE_HEIGHT

    def place(self, address):
        """Returns the upper left corner of a word's cell."""
        return self.grid.left() + address % self.grid.columns * CELL, self.row_top(address // self.grid.columns)

    def height(self):
        if self.rows == self.high_rows:
            return self.rows * (HEIGHT + GAP)
        return self.row_top(self.rows) - self.top

    def edge(self, address):
        """Returns the middle of the side of a cell at which arrows within the space end."""
        x, y = self.place(address)
        return x + CELL / 2, y if self.is_old else y + HEIGHT

    def inner_edge(self, address):
        """Returns the middle of the side that faces the other space."""
        x, y = self.place(address)
        return x + CELL / 2, y + HEIGHT if self.is_old else y

    def passing(self, row):
        """Returns where lines to the other space pass a row in which they do not end."""
        return sorted(x for end, x in self.lines if (end < row if self.is_old else end > row))

    def beside_labels(self, row):
        """Returns where lines to the other space pass the labels of a row."""
        return sorted(x for end, x in self.lines if (end <= row if self.is_old else end >= row))

    def away(self, distance):
        """Returns a distance away from the other space."""
        return -distance if self.is_old else distance

    def segments(self, start, size):
        """Yields the part of a run of words in each row, as first address and number of words."""
        while size > 0:
            count = min(size, self.grid.columns - start % self.grid.columns)
            yield start, count
            start, size = start + count, size - count


# A cell has room for so many characters, and the names of an object's roots have at least room for so many.
MOST_IN_CELL, LEAST_OF_ROOTS = 6, 5
# The distance of a text from an arrow or from a line that may be one of several.
BESIDE_AN_ARROW = 13
# An object that goes on in the next row reaches so far beyond the end of its row, and begins as far before the next one.
BEYOND = 9
# The distance of a label from a line between the spaces, and that of a free cell.
BESIDE_A_LINE, FREE_BESIDE_A_LINE = 3, 5


def short(text, most=MOST_IN_CELL):
    return text if len(text) <= most else text[: most - 1] + "\u2026"


def draw_word(picture, side, address, role, text, tip):
    """Draws a word in its cell. A text of two words that is too long has two lines."""
    x, y = side.place(address)
    role = "changed" if address in side.changed else role
    first, _, second = text.partition(" ")
    if second and len(text) > MOST_IN_CELL:
        picture.box(x + 3, y + 3, CELL - 6, HEIGHT - 6, role, "", tip)
        picture.text(x + CELL / 2, y + 13, short(first), "small", "middle")
        picture.text(x + CELL / 2, y + 24, short(second), "small", "middle")
    else:
        picture.box(x + 3, y + 3, CELL - 6, HEIGHT - 6, role, short(text), tip)


def draw_outline(picture, side, thing):
    """Draws the outline of an object. Where it goes on in the next row, both ends have a mark."""
    for address, count in side.segments(thing.start, thing.size()):
        x, y = side.place(address)
        tip = "object at %d" if address == thing.start else "rest of the object at %d"
        before = BEYOND if address != thing.start else 0
        after = BEYOND if address + count < thing.start + thing.size() else 0
        picture.box(x - before, y, before + count * CELL + after, HEIGHT, side.space.sort(thing), tip=tip % side.space.address_of(thing.start) + side.space.tail)
        if before:
            draw_broken_end(picture, x - BEYOND, y)
        if after:
            draw_broken_end(picture, x + count * CELL, y)


def draw_broken_end(picture, x, y):
    """Draws the mark of an object that goes on in another row."""
    middle = y + HEIGHT / 2
    picture.area([(x + 1, middle - 5), (x + BEYOND - 2, middle), (x + 1, middle + 5)], "broken")


def draw_object(picture, side, thing):
    draw_outline(picture, side, thing)
    name = "raw" if thing.raw else "kind"
    draw_word(picture, side, thing.start, "head", "%s %d" % (name, thing.kind), "header: kind %d, %s" % (thing.kind, counted(thing.count + side.space.more_fields(thing.start), "field")))
    link = side.space.words[thing.start + 1]
    draw_word(picture, side, thing.start + 1, "head", "link %d" % link, "link word %d" % link)
    for i, word in enumerate(thing.fields):
        said = str(word) if thing.raw else shown(word, side.space.beyond)
        draw_word(picture, side, thing.start + 2 + i, "cell", said, "field %d: word %d" % (i, word))
    draw_labels(picture, side, thing)


def draw_labels(picture, side, thing):
    """Draws the address of an object, with the names of its roots, and names the object at each of its rests."""
    (_, count), *rests = side.segments(thing.start, thing.size())
    (left, _), y, row = side.place(thing.start), label_base(side, thing.start), thing.start // side.grid.columns
    label, end, lines = side.label(thing), left + count * CELL, side.beside_labels(row)
    draw_names_of_rests(picture, side, side.space.address_of(thing.start), rests)
    x = free_place(left + 2, end, label, lines)
    picture.text(x, y, label, "small")
    # Arrows that end at the object have their ends between the two labels. The next object has its label behind this one.
    beside_it = max(left + CELL / 2 + BESIDE_AN_ARROW, x + text_width(label + " ", "small"))
    roots = side.roots_of(thing)
    if roots:
        roots = fitting(roots, beside_it, end, lines)
        picture.text(free_place(beside_it, end, roots, lines), y, roots, "small")


def draw_names_of_rests(picture, side, name, rests):
    """Writes below each rest of an object, which is a first word and a number of words, whose it is."""
    for address, count in rests:
        (x, y), row = side.place(address), address // side.grid.columns
        lines = side.beside_labels(row) if side.is_old else side.passing(row)
        left, end, shorter = x - BEYOND, x + count * CELL, "of %d" % name
        text = next((text for text in ("rest of %d" % name, shorter, "\u2026%d" % name) if has_room(text, left, end, lines)), shorter)
        picture.text(free_place(left, end, text, lines), y + HEIGHT + 11, text, "small")


def label_base(side, address):
    """Returns the base of the labels of the row that has a word."""
    y = side.inner_edge(address)[1]
    return y + 11 if side.is_old else y - 4


def free_place(left, end, text, lines):
    """Returns the first place of a label from `left` on at which it is beside these lines. If it would leave `end` there, it is at `left`."""
    x, width = left, text_width(text, "small")
    for line in lines:
        if x - BESIDE_A_LINE < line < x + width + BESIDE_A_LINE:
            x = line + BESIDE_A_LINE
    return x if x + width <= end else left


def has_room(text, left, end, lines):
    """Returns whether a label has room from `left` to `end`, beside these lines."""
    x, width = free_place(left, end, text, lines), text_width(text, "small")
    return x + width <= end and not any(x < line < x + width for line in lines)


def fitting(text, left, end, lines):
    """Returns as much of a label as has room beside these lines, but not less than a few characters."""
    parts = (short(text, most) for most in range(len(text), LEAST_OF_ROOTS, -1))
    return next((part for part in parts if has_room(part, left, end, lines)), short(text, LEAST_OF_ROOTS))


def draw_rest(picture, side):
    """Draws the reserved word, words that belong to no object, and free words."""
    words, known = side.space.words, set(range(side.space.reserved))
    for thing in side.space.objects.values():
        known.update(range(thing.start, thing.start + thing.size()))
    if side.space.reserved and words:
        draw_word(picture, side, 0, "reserved", str(words[0]), "word 0 is reserved")
    for address in range(side.space.reserved, len(words)):
        if address not in known:
            draw_word(picture, side, address, "unknown", str(words[address]), "word %d" % words[address])
    free = range(len(words), min(side.space.size, side.drawn_words()))
    for address, count in side.segments(free.start, len(free)):
        x, y = side.place(address)
        height = side.row_height(address)
        inset = 3 if height == HEIGHT else 0
        text = "%d free" % (side.space.size - len(words)) if address == free.start and height == HEIGHT else ""
        parts = list(parts_between(x + 3, x + count * CELL - 3, side.passing(address // side.grid.columns)))
        named = max(parts, key=lambda part: part[1] - part[0], default=None)
        for part in parts:
            said = text if part == named and text_width(text, "value") <= part[1] - part[0] - 2 else ""
            picture.box(part[0], y + inset, part[1] - part[0], height - 2 * inset, "free", said)


def parts_between(left, right, lines):
    """Yields the parts of free cells, as left and right end, between the lines that pass them."""
    for line in lines:
        if left < line + FREE_BESIDE_A_LINE and line - FREE_BESIDE_A_LINE < right:
            if line - FREE_BESIDE_A_LINE > left:
                yield left, line - FREE_BESIDE_A_LINE
            left = line + FREE_BESIDE_A_LINE
    if left < right:
        yield left, right


def draw_references(picture, side):
    for thing in side.space.objects.values():
        for i, address in references(thing, side.space.beyond):
            place = side.space.place_of(address)
            if place in side.space.objects:
                role = "reference" if thing.start in side.space.live else "stale"
                draw_reference(picture, side, thing.start + 2 + i, place, role)


def draw_reference(picture, side, start, end, role):
    (x, y), (to_x, to_y) = side.edge(start), side.edge(end)
    if y == to_y:
        bend = min(2 * GAP - 16, 22 + abs(to_x - x) / 8)
        picture.arrow((x, y), ((x + to_x) / 2, y + side.away(bend)), (to_x, to_y), role)
    else:
        # From row to row the arrow starts at the side of the cell that faces its target.
        from_y = side.inner_edge(start)[1] if (to_y > y) == side.is_old else y
        end_y = side.inner_edge(end)[1] if (to_y < y) == side.is_old else to_y
        picture.arrow((x, from_y), ((x + to_x) / 2 + 20, (from_y + end_y) / 2), (to_x, end_y), role)


def root_names(count):
    """Returns names of the places in a list of roots that fit into a box. They are slots if the length fits some number of mutators."""
    if count < 32 or count % 16:
        return ["root %d" % place for place in range(count)]
    shared = ["g%d" % place for place in range(16)]
    one = "r%d" if count == 32 else "m%d r%d"
    own = [one % (k if count == 32 else (m, k)) for m in range(count // 16 - 1) for k in range(16)]
    return shared + own


def shown_roots(space, wanted):
    """Returns the places of the roots that are drawn: those that are not nil, and the one that the checker names."""
    places = [place for place, word in enumerate(space.roots) if word != 0][:MOST_SHOWN_ROOTS]
    if wanted is not None and wanted < len(space.roots) and wanted not in places:
        places.append(wanted)
    return places


def roots_in_a_row(width):
    """Returns how many roots have room in a row of a picture of this width."""
    return max(1, (width - ROOT_X - RIGHT + ROOT_GAP) // (ROOT_WIDTH + ROOT_GAP))


def height_of_root_rows(space, wanted, width):
    """Returns the height of the rows with the roots of a space."""
    return -(-len(shown_roots(space, wanted)) // roots_in_a_row(width)) * HEIGHT


def draw_root(picture, side, place, x, y, scene):
    """Draws a root, and marks it if it changed or the checker names it."""
    roots = side.space.roots
    word, name = roots[place], root_names(len(roots))[place]
    role = "changed" if (side.is_old, place) in scene.changed_roots else "root"
    tip = "%s: word %d" % (root_name(place, len(roots)), word)
    picture.box(x, y, ROOT_WIDTH, HEIGHT - 8, role, "%s  %s" % (name, short(shown(word, side.space.beyond), 9)), tip)
    if place == scene.root:
        picture.box(x - 3, y - 3, ROOT_WIDTH + 6, HEIGHT - 2, "fault")


def draw_root_rows(picture, side, y, width, scene):
    """Draws the roots of a space in rows."""
    for at, place in enumerate(shown_roots(side.space, scene.root)):
        line, column = divmod(at, roots_in_a_row(width))
        draw_root(picture, side, place, ROOT_X + column * (ROOT_WIDTH + ROOT_GAP), y + line * HEIGHT, scene)


def draw_roots(picture, side, scene):
    """Draws the roots at the left of a space, and arrows to their targets."""
    roots = side.space.roots
    places = shown_roots(side.space, scene.root)
    for line, place in enumerate(places):
        y = side.row_top(0) + line * (HEIGHT - 4)
        word = roots[place]
        draw_root(picture, side, place, ROOT_X, y, scene)
        aim = side.space.place_of(target(word, side.space.beyond))
        if aim in side.space.objects and side.has_arrows:
            x, edge_y = side.edge(aim)
            start = (ROOT_X + ROOT_WIDTH, y + (HEIGHT - 8) / 2)
            picture.arrow(start, ((start[0] + x) / 2, edge_y + side.away(30)), (x - 12, edge_y), "rooted")
    hidden = sum(1 for word in roots if word != 0) - len(places)
    if hidden > 0:
        picture.text(ROOT_X, side.row_top(0) + len(places) * (HEIGHT - 4) + 12, "and %d more" % hidden, "small")


def joined_lines(sides, scene):
    """Returns the lines between objects that belong together, at whose addresses there are words."""
    old, new = sides
    return [Line(old.inner_edge(first), new.inner_edge(second), first // old.grid.columns, second // new.grid.columns)
            for first, second in scene.joined if first < len(old.space.words) and second < len(new.space.words)]


def draw_marks(picture, side, scene):
    for mark in scene.marks:
        if mark.is_old == side.is_old and mark.role != "changed" and mark.address < side.drawn_words():
            for part, count in side.segments(mark.address, mark.size):
                x, y = side.place(part)
                picture.box(x - 1, y - 1, count * CELL + 2, HEIGHT + 2, mark.role, tip=mark.tip)


def draw_scan(picture, side, scan):
    """Draws the scan pointer at the border of a word, left of an address that may be there."""
    x, y = side.place(scan.address)
    x += CELL if scan.is_behind else 0
    picture.area([(x - 13, y - 12), (x - 1, y - 12), (x - 7, y - 1)], "scan")
    # There is no room for a text before a row.
    if x > ROOT_X + CELL / 2:
        picture.text(x - 15, y - 4, "scan", "small", "end")


def heading(space):
    return space.said or "%s: %s, end %d, %s" % (space.name, counted(space.size, "word"), len(space.words), objects_of(space))


# Roles that a legend shows by a line.
LINES = ("pair", "link")


def draw_legend(picture, legend, y, right):
    """Draws a sample of each role with its name, in as many lines as needed. Returns the base of the last line."""
    x = ROOT_X
    for role, name in legend:
        sample = 34 if role in LINES else 18
        if x > ROOT_X and x + sample + 6 + 6 * len(name) + MARGIN > right:
            x, y = ROOT_X, y + 20
        if role in LINES:
            picture.line([(x, y + 6), (x + sample, y + 6)], role)
        else:
            picture.box(x, y, sample, 12, role)
        picture.text(x + sample + 6, y + 10, name, "small")
        x += sample + 16 + 7 * len(name)
    return y


def bundle_entry(scene, bundled):
    """Returns the entry of the legend for bundles, if there are any."""
    return [(scene.joined_as + "-bundle", "bundle of %ss" % scene.joined_as)] if bundled else []


def side_of(scene, space, is_old, top, grid):
    """Returns a side of the picture, and its height with the roots."""
    side = Side(space, is_old, top, grid, scene.marks)
    roots = len(shown_roots(space, scene.root)) * (HEIGHT - 4) + 16 if grid.has_roots else 0
    return side, max(side.height(), roots + (GAP if is_old else 0))


def draw_side(picture, side, scene):
    draw_rest(picture, side)
    for thing in side.space.objects.values():
        draw_object(picture, side, thing)
    draw_references(picture, side)
    if side.grid.has_roots:
        draw_roots(picture, side, scene)


def width_of(scene, grid):
    """Returns the width of the picture: that of its longest row, or of a caption."""
    least = LEAST_COLUMNS if scene.caption or scene.old.said else 0
    longest = max(Side(space, is_old, 0, grid).drawn_words() for space, is_old in scene.spaces())
    return grid.left() + min(grid.columns, max(least, longest)) * CELL + grid.right()


def drawn_word_by_word(scene, grid=Grid()):
    """Returns the picture of a scene."""
    picture, width = Picture(scene.title), width_of(scene, grid)
    heading_y = picture.paragraph(ROOT_X, draw_caption(picture, scene, width), heading(scene.old), "label", width)
    # The rows of roots, if they are not at the left: where they begin, and their height.
    rows = [(heading_y + 10, 0 if grid.has_roots else height_of_root_rows(scene.old, scene.root, width))]
    old, old_height = side_of(scene, scene.old, True, heading_y + 2 + rows[0][1], grid)
    sides, bottom, bundled = [old], old.top + old_height, False
    if scene.new:
        lines = joined_lines([old, Side(scene.new, False, 0, grid)], scene)
        bundled = is_bundled(lines)
        between = BAND if bundled else BETWEEN if all(map(is_upright, lines)) else BETWEEN_SLANTED
        new, new_height = side_of(scene, scene.new, False, bottom + between, grid)
        old.lines = [(line.row, beside(line.start, line.row)) for line in lines]
        new.lines = [(line.end_row, beside(line.end, line.end_row)) for line in lines]
        sides.append(new)
        rows.append((new.top + new_height + 4, 0 if grid.has_roots else height_of_root_rows(scene.new, scene.root, width)))
        bottom = picture.paragraph(ROOT_X, sum(rows[1]) + 14, heading(scene.new), "label", width)
        draw_lines(picture, joined_lines(sides, scene), width, old.top + old.height(), new.top, scene.joined_as)
    for side, (y, height) in zip(sides, rows):
        draw_side(picture, side, scene)
        if height > 0:
            draw_root_rows(picture, side, y, width, scene)
    for side in sides:
        draw_marks(picture, side, scene)
    if scene.scan is not None:
        draw_scan(picture, sides[1], scene.scan)
    bottom = draw_legend(picture, scene.legend + bundle_entry(scene, bundled), bottom + 18, width)
    return picture.sized(width, bottom + 26)


def draw_caption(picture, scene, width):
    """Draws the title, the caption and its explanation, if there are any. Returns the base line of the heading below."""
    if not scene.caption:
        return 20
    picture.text(ROOT_X, 26, scene.title, "title")
    bottom = picture.paragraph(ROOT_X, 48, *scene.caption, width)
    if scene.explanation:
        bottom = picture.paragraph(ROOT_X, bottom + 18, scene.explanation, "label", width)
    return bottom + 24
