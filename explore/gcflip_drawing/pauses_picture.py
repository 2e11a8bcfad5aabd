"""Lays out how long the calls of a played trace took: for each event, or for the events of a column, the longest call."""
import math

from .picture import Picture
from .timeline import LEFT, RIGHT, draw_area, draw_axis, draw_cursor, draw_legend, spans

# The least nanoseconds of the scale, which has a line for each power of ten.
LEAST = 100
# So many times, or a few more, are put in order to find those that few calls exceed.
MOST_SORTED = 50000
UNITS = [(10 ** 9, "s"), (10 ** 6, "ms"), (10 ** 3, "\u00b5s"), (1, "ns")]
LEGEND = [("used", "the longest call there"), ("flip", "one that flips"), ("collection", "a collection is open")]


def shown_time(nanoseconds):
    """Returns a time with two digits or more, and its unit."""
    size, unit = next((size, unit) for size, unit in UNITS if nanoseconds >= size or size == 1)
    value = nanoseconds / size
    return "%.*f %s" % (1 if size > 1 and value < 9.95 else 0, value, unit)


def longest(run, times):
    """Returns the longest time of each column of a run."""
    return [max(times[run.first_event(column):min(run.played, run.first_event(column + 1))]) for column in range(len(run.columns))]


def decades(times):
    """Returns the number of powers of ten from the least time of the scale to the first one that no time exceeds."""
    return max(2, math.ceil(math.log10(max([LEAST, *times]) / LEAST)))


def drawn(run, times):
    """Returns the picture of the nanoseconds of each event that was played."""
    picture, columns = Picture("Time of each call"), longest(run, times)
    top, floor, count = run.frame.top(), run.frame.top() + run.frame.height, decades(columns)

    def height(time):
        return floor - math.log10(max(LEAST, time) / LEAST) * run.frame.height / count

    for first, width in spans([column.is_open for column in run.columns]):
        picture.box(run.x(first), top, width * run.step(), run.frame.height, "collection", tip="a collection is open")
    for power in range(count + 1):
        time = LEAST * 10 ** power
        picture.line([(LEFT, height(time)), (run.right(), height(time))], "grid")
        picture.text(LEFT - 8, height(time) + 4, shown_time(time), "small", "end")
    draw_area(picture, run, columns, height, floor, "used")
    for at, (column, time) in enumerate(zip(run.columns, columns)):
        if "flip" in column.marks:
            picture.box(run.x(at), height(time), max(1.5, run.step()), floor - height(time), "flip", tip="flips, %s" % shown_time(time))
    picture.line([(LEFT, top), (LEFT, floor), (run.right(), floor)], "axis")
    draw_cursor(picture, run, floor)
    bottom = draw_legend(picture, run, draw_axis(picture, run, floor + 8) + 12, LEGEND)
    return picture.sized(run.right() + RIGHT, bottom + 28)


def told(events, times):
    """Says how long the calls of the first events took."""
    if not times:
        return "No event was played yet."
    ordered = sorted(times[::max(1, len(times) // MOST_SORTED)])
    most = max(times)
    at = times.index(most)
    few = "Of %d calls, half took at most %s, and 99 of 100 at most %s." % (len(times), *[shown_time(ordered[(len(ordered) - 1) * part // 100]) for part in (50, 99)])
    return "%s The longest took %s: event %d, '%s'." % (few, shown_time(most), at + 1, events[at].line)
