"""Arrays of any length in a heap, laid out as those of `herbpond_arrays.h`.

An array is an object with two fields: its length, and its elements. Up to PART elements are in one part. More are in parts of PART elements each, to which a
spine refers. So a push copies at most PART elements, or the references to all parts. The program chooses the array's kind, and does not write the two
fields itself. Nothing here is proved.

>>> from gcflip import Heap, values
>>> from gcflip.arrays import Arrays
>>> heap = Heap(200000)
>>> arrays = Arrays(heap, 0, (29, 30, 31))
>>> arrays.new_array(0, 7, 70000)
>>> values.set_int(heap, 1, -5)
>>> arrays.put(0, 69999, 1)
>>> arrays.push(0, 1)
>>> arrays.length(0)
70001
>>> heap.close()
"""
from __future__ import annotations

import contextlib
from typing import Iterator, Tuple

from . import values
from .errors import Full, NoField, NoNumber, OutOfMemory, OutOfRange
from .heap import Heap, Object, Pace
from .kinds import KIND_PART, KIND_SPINE

PART = 4096
"""How many elements a part holds."""
MOST_PARTS = 65535
MOST_ELEMENTS = MOST_PARTS * PART
"""The most elements of an array."""
FIRST_ROOM = 8
LENGTH, ELEMENTS, ARRAY_FIELDS = 0, 1, 2
# The words of an object beside its fields.
HEADER = 2


class Arrays:
    """The calls on arrays of a heap, by one mutator. They write three roots of their own, which hold nil between calls; the program passes no call one of these.
    A call that makes objects makes room for them by collections, and raises Full if there is none after whole collections, or OutOfMemory if there is
    none and a collection gets no memory. A log that cannot grow gives the open collection up."""

    def __init__(self, heap: Heap, mutator: int, own: Tuple[int, int, int]) -> None:
        self.heap, self.mutator = heap, mutator
        self._old, self._new, self._scratch = own
        self._pace = Pace()

    def new_array(self, root: int, kind: int, length: int) -> None:
        """Makes an array of `length` nils, and puts a reference to it into the root. Raises OutOfRange if `length` is negative or above MOST_ELEMENTS. The root
        keeps its value if the call fails."""
        if not 0 <= length <= MOST_ELEMENTS:
            raise OutOfRange("no array has %d elements" % length)
        parts = 0 if length <= PART else -(-length // PART)
        first = parts or length
        with self._forgetting():
            self._reserve(ARRAY_FIELDS + HEADER + first + HEADER + parts * (PART + HEADER))
            self.heap.new(self._new, kind, ARRAY_FIELDS)
            if length > 0:
                self.heap.new(self._old, KIND_SPINE if parts else KIND_PART, first)
                self._store(self._new, ELEMENTS, self._old)
            for k in range(parts):
                self.heap.new(self._scratch, KIND_PART, PART)
                self._store(self._old, k, self._scratch)
            self._write_length(self._new, length)
            self.heap.copy(root, self._new)

    def length(self, array: int) -> int:
        """Returns the length of the array in the root. Raises NoObject or NoField if the root refers to no array, and NoNumber if the object's first field is no
        length."""
        length = values.field(self.heap, array, LENGTH)
        if not isinstance(length, int) or length < 0:
            raise NoNumber
        return length

    def get(self, root: int, array: int, i: int) -> None:
        """Copies element `i` of the array into the root, which may be that of the array. Raises NoField if the array has no such element."""
        with self._forgetting():
            field = self._part(array, i, self.length(array))
            self.heap.get(root, self._old, field)

    def put(self, array: int, i: int, source: int) -> None:
        """Writes the value of root `source` into element `i` of the array. Raises NoField if the array has no such element."""
        with self._forgetting():
            self._write(array, i, source, self.length(array))

    def push(self, array: int, source: int) -> None:
        """Adds the value of root `source` at the end of the array, which keeps its elements if the call fails. Raises Full also if it has MOST_ELEMENTS of them."""
        with self._forgetting():
            length = self.length(array)
            # A root that does not exist is refused before the array takes a spine, since only a longer one has it.
            self.heap.look(source)
            if length < PART and length == self._count(array):
                fields = min(FIRST_ROOM if length < FIRST_ROOM // 2 else 2 * length, PART)
                self._reserve(fields + HEADER)
                self._lengthen(array, KIND_PART, length, fields)
            elif length >= PART and length % PART == 0:
                self._extend(array, length // PART)
            self._write(array, length, source, length + 1)
            self._write_length(array, length + 1)

    @contextlib.contextmanager
    def _forgetting(self) -> Iterator[None]:
        """Clears the own roots behind a call."""
        try:
            yield
        finally:
            for own in (self._old, self._new, self._scratch):
                self.heap.set_nil(own)

    def _reserve(self, words: int) -> None:
        self.heap.reserve(self._pace, words)

    def _store(self, root: int, field: int, source: int) -> None:
        self.heap.put_sure(self.mutator, root, field, source)

    def _write_length(self, array: int, length: int) -> None:
        values.write_number(self.heap, self.mutator, array, LENGTH, values.code_of_int(length))

    def _count(self, array: int) -> int:
        """Returns the number of fields of the object with the elements, or of the spine."""
        elements = self.heap.peek(array, ELEMENTS)
        return elements.length if isinstance(elements, Object) else 0

    def _part(self, array: int, i: int, length: int) -> int:
        """Puts the part with element i of an array of this length into the first own root, and returns the number of its field."""
        if not 0 <= i < length:
            raise NoField
        self.heap.get(self._old, array, ELEMENTS)
        if length > PART:
            self.heap.get(self._old, self._old, i // PART)
        return i % PART

    def _write(self, array: int, i: int, source: int, length: int) -> None:
        field = self._part(array, i, length)
        self._store(self._old, field, source)

    def _lengthen(self, array: int, kind: int, count: int, fields: int) -> None:
        """Gives the array an object with more fields for its elements or parts, which are `count` now. There is room for it."""
        self.heap.get(self._old, array, ELEMENTS)
        self.heap.new(self._new, kind, fields)
        if count > 0:
            self._copy_fields(count)
        self._store(array, ELEMENTS, self._new)

    def _copy_fields(self, count: int) -> None:
        try:
            self.heap.copy_fields(self.mutator, self._new, 0, self._old, 0, count)
        except OutOfMemory:
            self.heap.give_up()
            self.heap.copy_fields(self.mutator, self._new, 0, self._old, 0, count)

    def _extend(self, array: int, parts: int) -> None:
        """Adds a part to an array of `parts` full ones. Without a spine, it has one part."""
        if parts == MOST_PARTS:
            raise Full
        is_full = parts == 1 or parts == self._count(array)
        fields = FIRST_ROOM if parts == 1 else min(2 * parts, MOST_PARTS)
        self._reserve((fields + HEADER if is_full else 0) + PART + HEADER)
        self.heap.new(self._scratch, KIND_PART, PART)
        if parts == 1:
            self.heap.get(self._old, array, ELEMENTS)
            self.heap.new(self._new, KIND_SPINE, fields)
            self._store(self._new, 0, self._old)
            self._store(array, ELEMENTS, self._new)
        elif is_full:
            self._lengthen(array, KIND_SPINE, parts, fields)
        self.heap.get(self._old, array, ELEMENTS)
        self._store(self._old, parts, self._scratch)
