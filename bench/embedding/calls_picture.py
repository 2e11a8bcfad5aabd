"""Draws how long the calls of programs took: for each program, how many calls took 1 to 2 microseconds, 2 to 4, and so on.

With two programs the picture is 400 pixels high, so that it fits on README's first screen."""
import math

from gcflip_drawing.picture import MARGIN, Picture

# The picture is narrow, so that a phone shows it in full size.
LEFT, TOP, HEIGHT, BAR, GAP, BELOW = 80, 76, 110, 12, 4, 52
# One in so many rows has its label.
LABELLED = 4
# The roles of the two checkers, what they are called, and where their names stand.
WAYS = [("copied", "standing checker (default)", MARGIN), ("log", "whole check at each flip", MARGIN + 200)]
TIMES, CALLS = "time of one call, less than", "calls"


def label(row):
    """Returns the time at which a row of calls ends, where row 0 ends at a microsecond."""
    return "%d us" % 2 ** row if row < 10 else "%d ms" % 2 ** (row - 10)


def height(count, decades):
    """Returns the height of a bar: each power of ten is as high as any other, and one call is half as high."""
    return 0 if count == 0 else HEIGHT * (math.log10(count) + 0.5) / (decades + 0.5)


def draw_program(picture, name, ways, rows, top):
    decades = math.ceil(math.log10(max(max(counts) for counts in ways)))
    bottom, right = top + HEIGHT, LEFT + rows * (BAR + GAP)
    picture.text(LEFT, top - 10, name, "label")
    picture.text(LEFT - 6, top - 10, CALLS, "small", "end")
    for decade in range(0, decades + 1, 2):
        y = bottom - height(10 ** decade, decades)
        picture.line([(LEFT, y), (right, y)], "grid")
        picture.text(LEFT - 6, y + 4, "{:,}".format(10 ** decade), "small", "end")
    for (role, way, _), counts, shift in zip(WAYS, ways, (0, BAR / 2)):
        for row, count in enumerate(counts):
            if count:
                high = height(count, decades)
                tip = "%s: %d calls below %s" % (way, count, label(row))
                picture.box(LEFT + row * (BAR + GAP) + GAP / 2 + shift, bottom - high, BAR / 2, high, role, tip=tip)
    picture.line([(LEFT, bottom), (right, bottom)], "axis")
    for row in range(0, rows, LABELLED):
        at = LEFT + (row + 1) * (BAR + GAP)
        picture.line([(at, bottom), (at, bottom + 4)], "axis")
        picture.text(at, bottom + 16, label(row), "small", "middle")
    picture.text(right, bottom + 28, TIMES, "small", "end")


def drawn(programs):
    """Returns the picture of programs: each with its name, and the counts of both ways."""
    rows = max(len(counts) for _, ways in programs for counts in ways)
    picture = Picture("Calls of the incremental collector by their times")
    picture.text(MARGIN, 24, "Calls by their times", "title")
    for role, way, left in WAYS:
        picture.box(left, 36, 18, 12, role)
        picture.text(left + 24, 46, way, "small")
    for number, (name, ways) in enumerate(programs):
        draw_program(picture, name, ways, rows, TOP + 20 + number * (HEIGHT + BELOW))
    return picture.sized(LEFT + rows * (BAR + GAP) + MARGIN, TOP + len(programs) * (HEIGHT + BELOW))
