"""A heap on which the events of a trace are played, and what is read of it."""
from __future__ import annotations

import array
import ctypes
from typing import Callable, Iterator, NamedTuple

from gcflip import Heap, Image
from gcflip.heap import SLOTS
from gcflip.library import Counts, LogEntry
from gcflip_drawing.timeline import Measure
from gcflip_drawing.trace_text import Trace

from .acts import Acts


class Words(NamedTuple):
    """The words of both spaces and the root words of the slots. `new` is None while no collection is open."""

    old: Image
    new: Image | None


class Stage:
    """A heap with functions that act on it and read it. Only one call at a time may use it. Its extra roots, if it has some, hold nil and are left out."""

    def __init__(self, heap: Heap) -> None:
        self.heap = heap
        self.mutators = [heap.mutator(number) for number in range(heap.counts().mutators)]
        self.acts = Acts(heap)
        self._counts, self._length, self._entry = Counts(), ctypes.c_size_t(), LogEntry()
        self._count = heap._prepared("counts", self._counts)
        self._measure_log = [heap._prepared("log_length", mutator.number, self._length) for mutator in self.mutators]
        self._read_entry = heap._prepared("log_entry")

    def counts(self) -> Counts:
        """Reads the counts. The next call of this function changes what it returned."""
        self._count()
        return self._counts

    def log_length(self, measure: Callable[[], int]) -> int:
        measure()
        return self._length.value

    def measured(self, reply: str) -> Measure:
        """Returns the state after an event with this reply."""
        counts = self.counts()
        entries = tuple(map(self.log_length, self._measure_log)) if counts.logged else (0,) * len(self.mutators)
        return Measure(reply, counts.size, counts.end, counts.new_end, bool(counts.is_open), entries)

    def words(self) -> Words:
        image, counts = self.heap.image(), self.counts()
        new = Image(self.heap.new_words(), [], counts.new_size) if counts.is_open else None
        return Words(Image(image.words, image.roots[:SLOTS + SLOTS * len(self.mutators)], image.size), new)

    def scan(self) -> tuple[int, int]:
        """Returns the place and the field of the scan pointer."""
        counts = self.counts()
        return counts.scan_place, counts.scan_field

    def log(self, mutator: int) -> array.array[int]:
        """Returns the entries of a mutator's log, the oldest first: the object and the field of each."""
        found = array.array("I")
        for number in range(self.log_length(self._measure_log[mutator])):
            self._read_entry(mutator, number, self._entry)
            found.extend((self._entry.object, self._entry.field))
        return found

    def logs(self) -> list[array.array[int]]:
        return [self.log(mutator.number) for mutator in self.mutators]


def played(trace: Trace) -> Iterator[Measure]:
    """Plays a trace on a heap of its own, and yields the state after each event. Raises OSError if the library cannot be loaded, and OutOfMemory."""
    with Heap(trace.size, trace.mutators) as heap:
        stage = Stage(heap)
        for event in trace.events:
            yield stage.measured(stage.acts.of(event)())
