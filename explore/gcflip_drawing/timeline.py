"""Lays out a played trace as a timeline: words in use, collections, log entries, and marks for flips and for missing room."""
from typing import NamedTuple

from .picture import Picture

LEFT, RIGHT = 96, 70
LOG, LANE = 36, 16
TOP = 74
# So many events have a label each, if each label has so many pixels.
MOST_LABELS, LABEL_WIDTH = 48, 11
MOST_LOGS = 4
LANES = [("flip", "flips"), ("drop", "dropped"), ("full", "full"), ("no-room", "no room")]
MARKS = {"dropped": "drop", "full": "full", "no room": "no-room"}


class Measure(NamedTuple):
    """The state after an event."""

    reply: str
    size: int
    """The words of the mutators' space."""
    used: int
    """Its words in use, up to its end."""
    copied: int
    """The words up to the end of an open collection's new space, or 0."""
    is_open: bool
    entries: "tuple[int, ...]"
    """The entries of each mutator's log."""


class Frame(NamedTuple):
    """The size of the chart, and whether it has its title and the lines of events."""

    width: int = 860
    height: int = 190
    has_texts: bool = True

    def top(self):
        return TOP if self.has_texts else 24

    def has_labels(self, count):
        """Returns whether each of so many events has a label."""
        return self.has_texts and count <= min(MOST_LABELS, self.width // LABEL_WIDTH)


def frame_of(width):
    """Returns the frame of a picture of this width, at least 300."""
    return Frame(width - LEFT - RIGHT)


class Column:
    """A summary of the events in one column of the picture: the size of the space, the most words, the most entries of each log,
    and the marks."""

    def __init__(self, mutators):
        self.size, self.used, self.copied, self.is_open, self.marks = 0, 0, 0, False, set()
        self.entries = [0] * mutators

    def add(self, measure):
        self.size, self.used = measure.size, max(self.used, measure.used)
        # As with the curves, what counts is the state after the event: a flip ends its collection.
        self.is_open = self.is_open or measure.is_open
        self.copied = max(self.copied, measure.copied)
        self.entries = [max(most, entries) for most, entries in zip(self.entries, measure.entries)]
        if mark_of(measure.reply):
            self.marks.add(mark_of(measure.reply))


def mark_of(reply):
    """Returns the mark for a reply, or None."""
    return "flip" if reply.startswith("flipped") else MARKS.get(reply)


class Run:
    """A trace of `count` events. The first ones were played and have a measure each. Has the columns of the chart, the replies if
    there are few, and the count of each mark."""

    def __init__(self, mutators, count, measures, frame=Frame()):
        self.frame, self.columns, self.replies, self.mutators, self.played = frame, [], [], mutators, 0
        # The measure of the last event whose state was added.
        self.last = None
        self.counts = {name: 0 for name, _ in LANES}
        self.count = count
        self.labelled = frame.has_labels(count)
        self.all_columns = min(count, frame.width)
        self.extend(measures)

    def extend(self, measures):
        """Adds the measures of further events."""
        for at, measure in enumerate(measures, self.played):
            self.reach(at)
            self.columns[-1].add(measure)
            self.last = measure
            if mark_of(measure.reply):
                self.counts[mark_of(measure.reply)] += 1
            if self.labelled:
                self.replies.append(measure.reply)
            self.played = at + 1

    def column_of(self, at):
        """Returns the number of the column of an event."""
        return at if self.count <= self.frame.width else at * self.frame.width // self.count

    def first_event(self, column):
        """Returns the number of the first event of a column."""
        return column if self.count <= self.frame.width else -(-column * self.count // self.frame.width)

    def reach(self, at):
        """Adds the column of an event, if it is not there yet."""
        if self.column_of(at) >= len(self.columns):
            self.columns.append(Column(self.mutators))

    def stay(self, end):
        """Adds the events up to a position, which leave the state as it is and have no mark. Looks only at the columns that they reach."""
        while self.played < end:
            before = len(self.columns)
            self.reach(self.played)
            if len(self.columns) > before:
                self.columns[-1].add(self.last._replace(reply=""))
            # The first event of the next column, or the end.
            self.played = min(end, self.first_event(len(self.columns)))

    def until(self, column, last, counts):
        """Returns the run of the events before a column, with the state after them and the counts of their marks. Further events can be added to it."""
        run = Run(self.mutators, self.count, [], self.frame)
        run.columns, run.played, run.last, run.counts = self.columns[:column], self.first_event(column), last, counts
        run.replies = self.replies[:run.played]
        return run

    def step(self):
        """Returns the width of a column."""
        return self.frame.width / max(1, self.all_columns)

    def x(self, column):
        return LEFT + column * self.step()

    def right(self):
        return LEFT + self.frame.width

    def most_words(self):
        """Returns the number of words at the top of the chart: the whole space, unless that would flatten the curves."""
        sizes = max([column.size for column in self.columns] + [1])
        words = max([max(column.used, column.copied) for column in self.columns] + [1])
        return max(sizes, words) if 3 * words >= sizes else words * 5 // 4

    def shows_size(self):
        """Returns whether the size of the space is within the chart."""
        return max([column.size for column in self.columns] + [0]) <= self.most_words()

    def logs(self):
        """Returns the entries of each log by columns, with the log's name. Leaves out logs that stay empty, and combines many
        logs."""
        found = [("log %d" % m, list(entries)) for m, entries in enumerate(zip(*[column.entries for column in self.columns]))]
        found = [(name, entries) for name, entries in found if max(entries) > 0]
        if len(found) > MOST_LOGS:
            return [("all logs", [sum(column.entries) for column in self.columns])]
        return found


def stairs(run, values, height, first=0):
    """Returns the points of a curve with a value in each column from the first one on. `height` gives the position of a value."""
    points = []
    for at, value in enumerate(values, first):
        points += [(run.x(at), height(value)), (run.x(at + 1), height(value))]
    return points


def spans(flags):
    """Yields the runs of columns in which a flag is set, as first column and number of columns."""
    at = 0
    while at < len(flags):
        end = at
        while end < len(flags) and flags[end]:
            end += 1
        if end > at:
            yield at, end - at
        at = max(end, at + 1)


def draw_area(picture, run, values, height, floor, role):
    """Fills the area below a curve where it is above zero."""
    for first, count in spans([value > 0 for value in values]):
        part = stairs(run, values[first:first + count], height, first)
        picture.area([(part[0][0], floor)] + part + [(part[-1][0], floor)], role)


def tick(most):
    """Returns the distance of ticks on an axis: 1, 2 or 5 times a power of ten, so that there are at most 8."""
    step = 1
    while most // step > 8:
        step = step * 5 // 2 if str(step)[0] == "2" else step * 2
    return step


def draw_words(picture, run):
    """Draws the chart of words: the size of the space, the words in use, those of an open collection's new space."""
    most, top = run.most_words(), run.frame.top()
    floor = top + run.frame.height

    def height(words):
        return floor - words * run.frame.height / most

    for first, count in spans([column.is_open for column in run.columns]):
        picture.box(run.x(first), top, count * run.step(), run.frame.height, "collection", tip="a collection is open")
    for words in range(0, most + 1, tick(most)):
        picture.line([(LEFT, height(words)), (run.right(), height(words))], "grid")
        picture.text(LEFT - 8, height(words) + 4, str(words), "small", "end")
    draw_area(picture, run, [column.used for column in run.columns], height, floor, "used")
    draw_area(picture, run, [column.copied for column in run.columns], height, floor, "copied")
    if run.columns and run.shows_size():
        picture.line(stairs(run, [column.size for column in run.columns], height), "limit")
    picture.line([(LEFT, top), (LEFT, floor), (run.right(), floor)], "axis")
    picture.text(LEFT - 8, top - 10, "words", "small", "end")


def draw_marks(picture, run, top):
    """Draws a lane for each sort of mark that the trace has. Returns the lower end."""
    for role, name in LANES:
        if run.counts[role] == 0:
            continue
        picture.text(LEFT - 8, top + 11, name, "small", "end")
        for first, count in spans([role in column.marks for column in run.columns]):
            inset = min(run.step() / 4, 8)
            picture.box(run.x(first) + inset, top + 2, max(1.5, count * run.step() - 2 * inset), LANE - 4, role)
        picture.text(run.right() + 8, top + 11, str(run.counts[role]), "small")
        top += LANE
    return top


def draw_logs(picture, run, top):
    """Draws a chart for each log that ever has an entry. Returns the lower end."""
    for name, entries in run.logs():
        most, floor = max(entries), top + LOG
        draw_area(picture, run, entries, lambda count: floor - count * (LOG - 6) / most, floor, "log")
        picture.line([(LEFT, top), (LEFT, floor), (run.right(), floor)], "axis")
        picture.text(LEFT - 8, floor - LOG / 2 + 4, name, "small", "end")
        picture.text(run.right() + 8, floor - LOG / 2 + 4, "most: %d" % most, "small")
        top = floor + 8
    return top


def draw_axis(picture, run, top):
    """Draws numbers of events, unless each event has a label. Returns the lower end."""
    if not run.labelled:
        for part in (0, 0.25, 0.5, 0.75, 1) if run.frame.width >= 400 else (0, 1):
            anchor = "end" if part == 1 else "start" if part == 0 else "middle"
            picture.text(LEFT + part * run.frame.width, top + 12, "event %d" % round(part * run.count), "small", anchor)
        return top + 20
    return top


def draw_labels(picture, run, events, top):
    """Draws the line and the reply of each event, turned. Returns the lower end."""
    labels = ["%s: %s" % (event.line, reply) for event, reply in zip(events, run.replies)]
    height = 6.4 * max([len(label) for label in labels] + [0]) + 8
    for at, label in enumerate(labels):
        picture.text(run.x(at) + run.step() / 2 + 4, top + 4, label, "small", "end", turned=True)
    return top + height


LEGEND = [("used", "words in use"), ("copied", "words in the new space"), ("collection", "a collection is open"), ("log", "log entries")]


def draw_legend(picture, run, y, entries):
    """Draws a sample of each role with its name, in as many lines as needed. Returns the base of the last line."""
    x = 24
    for role, name in entries:
        sample = 28 if role == "limit" else 18
        if x > 24 and x + sample + 6 + 6 * len(name) > run.right() + RIGHT:
            x, y = 24, y + 20
        if role == "limit":
            picture.line([(x, y + 6), (x + sample, y + 6)], role)
        else:
            picture.box(x, y, sample, 12, role)
        picture.text(x + sample + 6, y + 10, name, "small")
        x += sample + 26 + 6 * len(name)
    return y


def draw_cursor(picture, run, floor):
    """Draws a line after the last event that was played."""
    x = run.x(len(run.columns))
    picture.line([(x, run.frame.top()), (x, floor)], "cursor")


def drawn(trace, measures, title, frame=Frame()):
    """Returns the picture of a trace, from a measure for each event that was played."""
    return drawn_run(trace, Run(trace.mutators, len(trace.events), measures, frame), title)


def drawn_run(trace, run, title):
    """Returns the picture of a trace, from the run of it."""
    picture, frame = Picture(title), run.frame
    if frame.has_texts:
        picture.text(24, 26, title, "title")
        mutators = "1 mutator" if trace.mutators == 1 else "%d mutators" % trace.mutators
        events = "1 event" if run.count == 1 else "%d events" % run.count
        picture.text(24, 46, "%s, %s, a space of %d words" % (events, mutators, trace.size), "label")
    draw_words(picture, run)
    top = draw_marks(picture, run, frame.top() + frame.height + 4)
    top = draw_logs(picture, run, top + 8)
    if not frame.has_texts:
        draw_cursor(picture, run, top)
    top = draw_axis(picture, run, top)
    if run.labelled:
        top = draw_labels(picture, run, trace.events, top + 4)
    bottom = draw_legend(picture, run, top + 12, LEGEND + ([("limit", "size of the space")] if run.shows_size() else []))
    return picture.sized(run.right() + RIGHT, bottom + 28)
