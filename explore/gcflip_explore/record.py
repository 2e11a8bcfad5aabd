"""What is known of a trace that was played: its replies, its states, and checkpoints."""
from __future__ import annotations

import array
import bisect

from gcflip_drawing.timeline import LANES, Frame, Measure, Run, mark_of
from gcflip_drawing.trace_text import Event, Trace

from .checkpoints import Checkpoint, opening, taken
from .stage import Stage

# The checkpoints of a record have at most so many words and log entries together, of 8 bytes each.
MOST_WORDS = 4 << 20
# From a checkpoint to the next one there are at least so many events, and one for so many words, and one for so many log entries, so that the copies take
# little time beside the events.
LEAST_EVENTS = 1024
WORDS_OF_AN_EVENT, ENTRIES_OF_AN_EVENT = 64, 4
MOST_SUMMARIES = 2


class Record:
    """The first events of a trace, as far as they were ever played: their lines and replies, the states to which they lead, and checkpoints."""

    def __init__(self, size: int, mutators: int) -> None:
        self.size, self.mutators = size, mutators
        self.lines: list[str] = []
        self.replies: list[str] = []
        # The nanoseconds that the call of each event took.
        self.times = array.array("Q")
        # The states that differ from those before them, or that a mark of the timeline stands for, each with the number of its event.
        self.states: list[tuple[int, Measure]] = []
        # The numbers of the events that have a mark, by the mark.
        self.marks: dict[str, list[int]] = {role: [] for role, _ in LANES}
        self.checkpoints = [opening(size, mutators)]
        # The words and log entries of all checkpoints, the least distance from one to the next, and the position before which none is kept.
        self.words, self.least, self.due = 0, LEAST_EVENTS, LEAST_EVENTS
        # The trace that was compared last, and the number of the first event that differs, or None if none does.
        self.compared: tuple[Trace, int | None] | None = None
        # The last summaries of the states for the timeline, the last one first: that of a trace stays while a line is inserted and taken back.
        self.summaries: list[Run] = []

    def add(self, event: Event, reply: str, stage: Stage, time: int) -> None:
        """Adds an event with its reply and the nanoseconds of its call. The stage is in the state after it."""
        at = len(self.lines)
        self.lines.append(event.line)
        self.replies.append(reply)
        self.times.append(time)
        last = self.states[-1][1] if self.states else None
        if last is None or event.mutator is None or event.name in ("new", "raw") or event.name == "put" and last.is_open:
            state, mark = stage.measured(reply), mark_of(reply)
            if last is None or state[1:] != last[1:] or mark:
                self.states.append((at, state))
            if mark:
                self.marks[mark].append(at)
        if at + 1 >= self.due:
            self.keep(stage)

    def common(self, trace: Trace) -> int:
        """Returns how many of the first events are those of a trace that has the same heap."""
        if self.compared is None or self.compared[0] is not trace:
            differing = (at for at, (line, event) in enumerate(zip(self.lines, trace.events)) if line != event.line)
            self.compared = trace, next(differing, None)
        differs = self.compared[1]
        return min(len(self.lines), len(trace.events)) if differs is None else differs

    def first(self, count: int) -> Record:
        """Returns a record of the first events."""
        found = Record(self.size, self.mutators)
        found.lines, found.replies, found.times = self.lines[:count], self.replies[:count], self.times[:count]
        found.states = self.states[:bisect.bisect_left(self.states, (count,))]
        found.marks = {mark: events[:bisect.bisect_left(events, count)] for mark, events in self.marks.items()}
        found.least = self.least
        found.hold([checkpoint for checkpoint in self.checkpoints if checkpoint.position <= count])
        return found

    # ---- checkpoints

    def keep(self, stage: Stage) -> None:
        """Keeps a checkpoint, if enough events lie behind the last one. If all together have too many words, leaves out every second one, and doubles the
        distance of later ones."""
        at, counts = len(self.lines), stage.counts()
        self.due = self.checkpoints[-1].position + max(
            self.least, (counts.end + counts.new_end) // WORDS_OF_AN_EVENT, counts.logged // ENTRIES_OF_AN_EVENT)
        if at < self.due:
            return
        self.checkpoints.append(taken(stage, at))
        self.words += self.checkpoints[-1].size()
        if self.words > MOST_WORDS:
            self.least *= 2
            self.hold(self.checkpoints[::2])
        self.due = self.checkpoints[-1].position + self.least

    def hold(self, checkpoints: list[Checkpoint]) -> None:
        """Sets the checkpoints that are kept."""
        self.checkpoints = checkpoints
        self.words = sum(checkpoint.size() for checkpoint in checkpoints)
        self.due = checkpoints[-1].position + self.least

    def checkpoint_before(self, position: int) -> Checkpoint:
        """Returns the last checkpoint up to a position."""
        return next(checkpoint for checkpoint in reversed(self.checkpoints) if checkpoint.position <= position)

    # ---- what the page shows

    def state_after(self, count: int) -> Measure | None:
        """Returns the state after the first events, which may have the reply of an earlier event, or None after none."""
        at = bisect.bisect_left(self.states, (count,))
        return self.states[at - 1][1] if at > 0 else None

    def flip(self, trace: Trace, number: int) -> int | None:
        """Returns the position of a trace before its flip with this number, counted from 1, or None if that is not known."""
        flips = self.marks["flip"]
        if not 1 <= number <= len(flips) or (self.size, self.mutators) != (trace.size, trace.mutators):
            return None
        return flips[number - 1] if flips[number - 1] < self.common(trace) else None

    def flips(self, count: int) -> int:
        """Returns the number of flips among the first events."""
        return bisect.bisect_left(self.marks["flip"], count)

    def run_of(self, count: int, frame: Frame, total: int) -> Run:
        """Returns the summary of the first events, of a trace of `total` events."""
        whole = next((run for run in self.summaries if (run.count, run.frame) == (total, frame)), None) or Run(self.mutators, total, [], frame)
        self.summaries = [whole, *(run for run in self.summaries if run is not whole)][:MOST_SUMMARIES]
        if whole.played < count:
            self.extend(whole, count)
        if whole.played == count:
            return whole
        column = whole.column_of(count)
        first = whole.first_event(column)
        part = whole.until(column, self.state_after(first), {mark: bisect.bisect_left(events, first) for mark, events in self.marks.items()})
        self.extend(part, count)
        return part

    def extend(self, run: Run, end: int) -> None:
        """Adds the states up to an event to a summary."""
        for at, state in self.states[bisect.bisect_left(self.states, (run.played,)):bisect.bisect_left(self.states, (end,))]:
            run.stay(at)
            run.extend([state])
        run.stay(end)
