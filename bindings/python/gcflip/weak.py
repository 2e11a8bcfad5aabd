"""Weak handles of objects, and tokens for finalizers, as those of `herbpond.h`.

A weak handle does not keep its object alive. Once the object died, the handle gives nothing, and the table tells the program the handle's token, which may be
any object of Python. So a finalizer gets what the program needs to clean up, and never the object.

Handles follow their objects over each flip that a call of the table makes. A program that flips by other calls calls `Table.follow` after each flip, before
the next collection begins. Nothing here is proved. A program that calls `Table.weak_get` gives up two claims, as one that calls `Heap.refer`.

>>> from gcflip import Heap
>>> from gcflip.weak import Table
>>> heap = Heap(100)
>>> table = Table(heap)
>>> heap.new(0, 1, 1)
>>> handle = table.weak_new(0, "close the file")
>>> heap.set_nil(0)
>>> table.collect()
>>> table.weak_get(0, handle), list(table.dead())
(False, ['close the file'])
>>> heap.close()
"""
from __future__ import annotations

import contextlib
from typing import Any, Iterator, Optional

from .errors import Full, NoObject, OutOfMemory, OutOfRange
from .heap import Heap, Pace, Step

MOST_STEPS = (1 << 32) - 1


class Table:
    """The weak handles of a heap. A handle is a number from 1 on, and no two of a table are the same. A flip takes constant time for each handle, and no other
    call takes longer because there are handles. All calls but `weak_free` raise OutOfRange where `follow` does."""

    def __init__(self, heap: Heap) -> None:
        self.heap = heap
        # The addresses of the objects that are alive, and the tokens of handles that were not freed.
        self._alive: dict[int, int] = {}
        self._tokens: dict[int, Any] = {}
        self._dead: list[int] = []
        self._last = 0
        self._flips = self._count_flips()

    def weak_new(self, root: int, token: Any) -> int:
        """Returns a weak handle of the object that the root refers to, with a token of the program's choice. Raises NoObject if it refers to none."""
        self.follow()
        address = self.heap.address(root)
        self._last += 1
        self._alive[self._last], self._tokens[self._last] = address, token
        return self._last

    def weak_get(self, root: int, weak: int) -> bool:
        """Puts a reference to the object of a handle into the root, and returns True. Returns False if the object died or the handle was freed; the root then
        keeps its value. Raises OutOfRange if the table gave no such handle."""
        self.heap.look(root)
        self.follow()
        self._check(weak)
        if weak not in self._alive:
            return False
        self.heap.refer(root, self._alive[weak])
        return True

    def weak_free(self, weak: int) -> None:
        """Frees a handle, whose token is not told any more. Does nothing if it was freed before. Raises OutOfRange if the table gave no such handle."""
        self._check(weak)
        self._alive.pop(weak, None)
        self._tokens.pop(weak, None)

    def dead(self) -> Iterator[Any]:
        """Yields the tokens of the handles whose objects died, and frees each of these handles. Each token is told once."""
        self.follow()
        while self._dead:
            weak = self._dead.pop()
            if weak in self._tokens:
                yield self._tokens.pop(weak)

    def follow(self) -> None:
        """Follows the objects of handles over a new flip. Raises OutOfRange if two flips passed, or if the next collection began: the table then cannot know where
        the objects are."""
        flips = self._count_flips()
        if flips != self._flips and self._alive:
            if flips != self._flips + 1:
                raise OutOfRange("the table has missed a flip")
            self._move_all()
        self._flips = flips

    def collect(self) -> None:
        """Ends the open collection, and performs a whole one, which frees all that no root reaches now. Raises OutOfMemory if memory was refused."""
        if self.heap.counts().is_open:
            self._flip()
        self._flip()

    def reserve(self, pace: Pace, words: int) -> None:
        """Makes room for so many words: performs the steps that are due, and whole collections if fewer words are free then. Raises Full if fewer are free after a
        whole collection, and OutOfMemory if there is no room and a collection gets no memory."""
        # An allocation that has room does not wait for the memory of a collection.
        with contextlib.suppress(OutOfMemory):
            self.heap.work_paced(pace, words)
        self.follow()
        if self.heap.room() < words:
            self.collect()
            self.heap.remember(pace)
        if self.heap.room() < words:
            raise Full

    def _flip(self) -> None:
        """Ends the open collection by its flip, or performs a whole one if none is open."""
        last: Optional[Step] = None
        while last is not Step.FLIPPED:
            last = self.heap.work(MOST_STEPS).last
            if last is Step.NO_ROOM:
                self.heap.give_up()
        self.follow()

    def _move_all(self) -> None:
        """Writes to each handle where the last flip moved its object, or adds it to those of the dead."""
        moved: dict[int, int] = {}
        dead: list[int] = []
        for weak, address in self._alive.items():
            try:
                moved[weak] = self.heap.moved(address)
            except NoObject:
                dead.append(weak)
        self._alive = moved
        self._dead += dead

    def _check(self, weak: int) -> None:
        if not 0 < weak <= self._last:
            raise OutOfRange("the table gave no handle %d" % weak)

    def _count_flips(self) -> int:
        checks = self.heap.flip_checks()
        return checks.along + checks.whole
