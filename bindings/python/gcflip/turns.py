"""Turns: one call at a time on a heap."""
from __future__ import annotations

import os
import threading
from typing import Callable, TypeVar

from . import library
from .errors import Reentered
from .library import LIBRARY
from .quick import Flag

Returned = TypeVar("Returned")


class Turn(Flag):
    """Lets in one call at a time: other threads wait, and the thread that is in a call already is refused. The extension makes no call while `busy` is
    set, and otherwise one that no other thread interrupts."""

    def __init__(self) -> None:
        # The lock is taken again by its own thread, which finds that it is busy instead of waiting for itself.
        self.lock = threading.RLock()
        self.busy = False

    def take(self, act: Callable[[], Returned]) -> Returned:
        """Runs a function while no other one runs. Raises Reentered if this thread runs one already."""
        with self.lock:
            if self.busy:
                raise Reentered("a call on this heap was made from within another one")
            try:
                self.busy = True
                return act()
            finally:
                self.busy = False


def _close(handle: library.Handle, turn: Turn, process: int) -> None:
    """Frees a heap when no call uses it any more. In a forked child the lock may belong to a thread that the child does not have, so that the
    child does not wait for it."""
    if turn.lock.acquire(blocking=os.getpid() == process):
        before, turn.busy = turn.busy, True
        try:
            LIBRARY.gcflip_heap_close(handle)
        finally:
            turn.busy = before
            turn.lock.release()
