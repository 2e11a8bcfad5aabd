"""Gathers the lines between two spaces into bundles: lines that begin near one another and end near one another share their way through
the band between the spaces."""
from typing import NamedTuple

# Fewer lines are drawn one by one; still fewer if they pass behind rows.
LEAST_LINES, LEAST_BEHIND_ROWS = 9, 4
# The width of a picture has so many parts. Lines from one part to one part are a bundle.
PARTS = 6
# The band between the spaces, and how far inside it the bundles begin and end.
BAND, INSIDE = 120, 28
# Labels beside a space are not farther from it than this. Lines are upright there.
LABELS = 15
# Half the width of a bundle with all lines; others have their share of it, within these.
WHOLE, THIN, THICK = 16, 1, 7
# Lines that begin in rows above one another are beside one another, so that each can be told from the next.
BESIDE = (0, 5, -5, 10, -10)
# A bundle with at least such a part of the lines says their number.
TOLD = 1 / 12


class Line(NamedTuple):
    """A line from an object to its replica: where it begins and ends, and the rows of these places. It may be drawn by its bundle alone, and then
    stands for as many lines as `count` says."""

    start: tuple
    end: tuple
    row: int = 0
    end_row: int = 0
    is_drawn: bool = True
    count: int = 1


def lines_in(lines):
    """Returns the number of lines that these stand for."""
    return sum(line.count for line in lines)


def is_bundled(lines):
    """Returns whether lines are drawn in bundles."""
    rows = max([max(line.row, line.end_row) for line in lines], default=0)
    return lines_in(lines) >= (LEAST_LINES if rows == 0 else LEAST_BEHIND_ROWS)


def bundles_of(lines, width):
    """Returns the bundles of lines in a picture of this width, each as a list of lines."""
    found = {}
    for line in lines:
        key = tuple(int(place[0] * PARTS // width) for place in (line.start, line.end))
        found.setdefault(key, []).append(line)
    return list(found.values())


def middle(lines, end):
    """Returns the mean place across the picture at which lines begin, or end."""
    return sum((line.end if end else line.start)[0] * line.count for line in lines) / lines_in(lines)


def beside(place, row):
    """Returns the x of a line that begins at a place in this row."""
    return place[0] + BESIDE[row % len(BESIDE)]


def draw_way(picture, begin, end, half, role):
    """Draws the way that the lines of a bundle share, with half its width."""
    (x, y), (to_x, to_y) = begin, end
    length = ((to_x - x) ** 2 + (to_y - y) ** 2) ** 0.5
    across, down = half * (to_y - y) / length, half * (to_x - x) / length
    picture.area([(x - across, y + down), (x + across, y - down), (to_x + across, to_y - down), (to_x - across, to_y + down)], role)


def is_upright(line):
    """Returns whether a line has one place across the picture."""
    return beside(line.start, line.row) == beside(line.end, line.end_row)


def draw_few_lines(picture, lines, upper, lower, role):
    """Draws each line by itself. It is upright up to the labels of both spaces, so that it crosses no row aslant and no label."""
    for line in lines:
        first, last = beside(line.start, line.row), beside(line.end, line.end_row)
        way = [] if is_upright(line) else [(first, upper + LABELS), (last, lower - LABELS)]
        picture.line([(first, line.start[1]), *way, (last, line.end[1])], role)


def draw_lines(picture, lines, width, upper, lower, role):
    """Draws lines from the space above `upper` to the space below `lower`, each by itself if they are few. A bundle is the thicker the more
    lines it has."""
    if not is_bundled(lines):
        draw_few_lines(picture, lines, upper, lower, role)
        return
    high, low = upper + INSIDE, lower - INSIDE
    total = lines_in(lines)
    for bundle in bundles_of(lines, width):
        count = lines_in(bundle)
        begin, end = (middle(bundle, False), high), (middle(bundle, True), low)
        for line in bundle:
            first, last = beside(line.start, line.row), beside(line.end, line.end_row)
            if count == 1:
                picture.line([(first, line.start[1]), (first, high), (last, low), (last, line.end[1])], role)
            elif line.is_drawn:
                picture.line([(first, line.start[1]), (first, upper + LABELS), begin], role)
                picture.line([end, (last, lower - LABELS), (last, line.end[1])], role)
        if count > 1:
            draw_way(picture, begin, end, max(THIN, min(THICK, WHOLE * count / total)), role + "-bundle")
        if count > 1 and count >= TOLD * total:
            x, y = begin[0] + (end[0] - begin[0]) / 4, high + (low - high) / 4
            picture.text(x + THICK + 3, y + 4, str(count), "small")
