"""Checkpoints: copies of the state of a heap after some events of a trace, and heaps that are made from them.

The library copies no heap. So `rebuilt` opens another one, and leads it to the same state by calls of mutators and of the collector. The
definitions of the collector give all later replies as functions of that state. `rebuilt` makes the objects in the order of their addresses, while
extra roots hold them, and writes their fields. It places the replicas in their order, scans up to the scan pointer, and writes again what the
logs name. At the end it reads the heap, and compares it with the checkpoint word by word.
"""
from __future__ import annotations

import array
from typing import Iterator, NamedTuple

from gcflip import Heap, Image, OutOfMemory
from gcflip.heap import SLOTS, extra_place
from gcflip.library import Answer
from gcflip_drawing.heap import RAW, header_of, length_of, target, walk

from .stage import Stage, Words

NO_MEMORY = int(Answer.NO_MEMORY)
CALLS = ("new_raw", "root_store", "root_load", "root_clear", "set_number", "set_nil", "raw_write", "step_begin_sized", "step_roots", "step_scan", "step_apply")
# Those on roots by their places.
ON_ROOTS = ("new", "put", "put_number", "put_nil")
# The shared slots for the object to write and for the value to write. The first one is the first of all roots.
OBJECT, VALUE = SLOTS, SLOTS + 1


class Checkpoint(NamedTuple):
    """The state of a heap after the first `position` events of a trace."""

    position: int
    words: Words
    scan: tuple[int, int]
    """The place and the field of the scan pointer."""
    logs: list[array.array[int]]
    """For each mutator the object and the field of each entry of its log, the oldest first."""

    def size(self) -> int:
        """Returns the number of words of objects, and of log entries."""
        old, new = self.words
        return len(old.words) - 1 + (len(new.words) - 1 if new else 0) + sum(len(log) // 2 for log in self.logs)


def opening(size: int, mutators: int) -> Checkpoint:
    """Returns the state of a heap that was just opened."""
    return Checkpoint(0, Words(Image(zeros(1), zeros(SLOTS + SLOTS * mutators), size), None), (0, 0), [array.array("I") for _ in range(mutators)])


def zeros(count: int) -> array.array[int]:
    return array.array("Q", bytes(8 * count))


def taken(stage: Stage, position: int) -> Checkpoint:
    """Copies the state of a heap."""
    return Checkpoint(position, stage.words(), stage.scan(), stage.logs())


def rebuilt(checkpoint: Checkpoint) -> Stage:
    """Returns a heap with the state of a checkpoint. Raises OutOfMemory."""
    making = Making(checkpoint)
    making.make_objects()
    making.fill_objects()
    if checkpoint.words.new:
        making.collect(checkpoint.words.new.size)
    making.set_roots()
    made = Stage(making.heap)
    if taken(made, checkpoint.position) != checkpoint:
        raise RuntimeError("the heap that was made from a checkpoint differs from it")
    return made


class Replica(NamedTuple):
    """An object of a new space."""

    original: int
    fields: array.array[int]
    """The words of its fields, with each reference to a replica replaced by one to the original."""
    done: int
    """The number of its first fields that were copied with the object, or scanned."""
    steps: int
    """The number of scan steps that it took."""


def replicas(checkpoint: Checkpoint) -> Iterator[Replica]:
    """Yields the objects of the new space of a checkpoint, if it has one, in their order."""
    new, (place, field) = checkpoint.words.new, checkpoint.scan
    for start, header in (walk(new.words, True).headers.items() if new else ()):
        is_raw, _, count = header_of(header, True)
        words, original = new.words[start + 2:start + 2 + count], new.words[start + 1]
        if is_raw:
            # A raw object is copied whole, and one step passes it.
            yield Replica(original, words, count, int(start < place))
            continue
        fields = array.array("Q", [word if target(word) is None else 2 * new.words[target(word) + 1] for word in words])
        done = count if start < place else field if start == place else 0
        yield Replica(original, fields, done, done + int(start < place))


class Making:
    """A heap that is led to the state of a checkpoint. Each object is in the extra root with its number, counted by addresses."""

    def __init__(self, checkpoint: Checkpoint) -> None:
        self.old, self.logs = checkpoint.words.old, checkpoint.logs
        self.replicas = list(replicas(checkpoint))
        self.headers = walk(self.old.words, True).headers
        self.root_of = {start: root for root, start in enumerate(self.headers)}
        self.heap = Heap(self.old.size, len(self.logs), len(self.headers))
        self.calls = {name: self.heap._prepared(name) for name in CALLS}
        self.calls.update({name: self.heap._prepared_on_roots(name) for name in ON_ROOTS})
        self.first = extra_place(len(self.logs), 0)

    def call(self, name: str, *numbers: int) -> None:
        """Makes a call whose arguments are in range. Raises OutOfMemory."""
        if self.calls[name](*numbers) == NO_MEMORY:
            raise OutOfMemory(name)

    def set(self, mutator: int, slot: int, word: int) -> None:
        """Puts the value of a word into a slot."""
        start = target(word)
        if start is not None:
            self.call("root_load", mutator, slot, self.root_of[start])
        elif word:
            self.call("set_number", mutator, slot, word >> 1)
        else:
            self.call("set_nil", mutator, slot)

    def write(self, mutator: int, start: int, field: int, word: int) -> None:
        """Lets a mutator write a word into a field of the object at `start`."""
        place = self.first + self.root_of[start]
        if self.headers[start] >= RAW or word & 1:
            self.call("put_number", mutator, place, field, word if self.headers[start] >= RAW else word >> 1)
        elif word:
            self.call("put", mutator, place, field, self.first + self.root_of[word >> 1])
        else:
            self.call("put_nil", mutator, place, field)

    def make_objects(self) -> None:
        for start, header in self.headers.items():
            is_raw, kind, count = header_of(header, True)
            if is_raw:
                self.call("new_raw", 0, OBJECT, kind, count)
                self.call("root_store", 0, self.root_of[start], OBJECT)
            else:
                self.call("new", self.first + self.root_of[start], kind, count)

    def fill_objects(self) -> None:
        """Writes all fields. Where the collector has brought a replica's field up to date, the original gets the value of that moment."""
        words = self.old.words[:]
        for replica in self.replicas:
            at = replica.original + 2
            words[at:at + replica.done] = replica.fields[:replica.done]
        for start, header in self.headers.items():
            fields = words[start + 2:start + 2 + length_of(header)]
            if any(fields):
                self.fill(start, fields)

    def fill(self, start: int, fields: array.array[int]) -> None:
        """Writes the fields of an object, which all hold nil or 0."""
        if self.headers[start] >= RAW:
            self.set(0, OBJECT, 2 * start)
            self.call("raw_write", 0, OBJECT, 0, VALUE, fields.buffer_info()[0], len(fields))
            return
        for field, word in enumerate(fields):
            if word:
                self.write(0, start, field, word)

    def collect(self, size: int) -> None:
        """Opens a collection, and leads it to the state of the checkpoint."""
        self.call("step_begin_sized", size)
        for replica in self.replicas:
            # The target of the first root is copied.
            self.set(0, OBJECT, 2 * replica.original)
            self.call("step_roots")
        for _ in range(sum(replica.steps for replica in self.replicas)):
            self.call("step_scan")
        self.apply_entries()
        for mutator, log in enumerate(self.logs):
            for start, field in zip(log[::2], log[1::2]):
                self.write(mutator, start, field, self.old.words[start + 2 + field])

    def apply_entries(self) -> None:
        """Writes the fields of replicas that got their value from a log entry before they are scanned."""
        for replica in self.replicas:
            for field in range(replica.done, len(replica.fields)):
                if replica.fields[field]:
                    self.write(0, replica.original, field, replica.fields[field])
                    self.call("step_apply", 0)

    def set_roots(self) -> None:
        """Sets the slots, and clears the extra roots."""
        for place, word in enumerate(self.old.roots):
            self.set(max(0, place // SLOTS - 1), place + SLOTS if place < SLOTS else place % SLOTS, word)
        self.call("root_clear", 0, len(self.headers))
