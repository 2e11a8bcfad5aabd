"""Functions that perform the events of traces. Long traces repeat few lines, so the call of each line is prepared once and kept."""
from __future__ import annotations

import ctypes
from typing import Callable

from gcflip import Heap, Step
from gcflip.heap import NOTHING_DONE, REFUSED
from gcflip.library import Answer, View
from gcflip_drawing.trace_text import Event

Act = Callable[[], str]
"""Performs an event, and returns the line of its reply as `gcflip play` prints it. Raises OutOfMemory; the event is then not performed."""

COMMANDS = {"new": "new_object", "raw": "new_raw", "num": "set_number", "nil": "set_nil", "move": "move", "put": "put", "same": "same"}
STEPS = {"begin": "step_begin", "roots": "step_roots", "scan": "step_scan", "apply": "step_apply", "drop": "step_give_up"}
# The lines of the answers that say all by themselves.
LINES: dict[int, str] = {
    Answer.DONE: "done", Answer.MADE: "made", Answer.SAME: "yes", Answer.NOT_SAME: "no", Answer.NIL: "saw nil",
    **{answer: refused.reply for answer, refused in REFUSED.items()},
    **{Answer[step.name]: step.value for step in Step},
}
# So many lines are kept.
MOST_KEPT = 65536


def line_of(answer: int) -> str:
    """Returns the line of an answer. Raises the exception of a call that did nothing."""
    if answer in NOTHING_DONE:
        raise NOTHING_DONE[answer]("play")
    return LINES[answer]


class Acts:
    """The functions for the events of traces that are played on one heap. Only one call at a time may use the heap."""

    def __init__(self, heap: Heap) -> None:
        self.heap = heap
        self.kept: dict[str, Act] = {}

    def of(self, event: Event) -> Act:
        """Returns the function that performs an event."""
        act = self.kept.get(event.line)
        if act is None:
            if len(self.kept) >= MOST_KEPT:
                self.kept.clear()
            act = self.kept[event.line] = self.made(event)
        return act

    def made(self, event: Event) -> Act:
        if event.mutator is None:
            return self.step(event)
        if event.name == "get":
            return self.get(event.mutator, *event.numbers)
        if event.name == "look":
            return self.look(event.mutator, *event.numbers)
        return self.called(COMMANDS[event.name], event.mutator, *event.numbers)

    def called(self, name: str, *numbers: int) -> Act:
        call = self.heap._prepared(name, *numbers)
        return lambda: line_of(call())

    def step(self, event: Event) -> Act:
        if event.name == "flip":
            return self.flip()
        return self.called("step_begin_sized" if event.name == "begin" and event.numbers else STEPS[event.name], *event.numbers)

    def flip(self) -> Act:
        pairs = ctypes.c_uint32()
        call = self.heap._prepared("step_flip", pairs)

        def act() -> str:
            answer = call()
            return "flipped %d" % pairs.value if answer == Answer.FLIPPED else line_of(answer)

        return act

    def look(self, mutator: int, slot: int) -> Act:
        view = View()
        call = self.heap._prepared("look", mutator, slot, view)

        def act() -> str:
            answer = call()
            if answer == Answer.NUMBER:
                return "saw num %d" % view.number
            if answer in (Answer.OBJECT, Answer.RAW_OBJECT):
                return "saw %s %d %d" % ("obj" if answer == Answer.OBJECT else "raw", view.kind, view.count)
            return line_of(answer)

        return act

    def get(self, mutator: int, slot: int, source: int, field: int) -> Act:
        number = ctypes.c_uint64()
        call, look = self.heap._prepared("get", mutator, slot, source, field, number), self.look(mutator, slot)

        def act() -> str:
            answer = call()
            if answer == Answer.NUMBER:
                return "saw num %d" % number.value
            return look() if answer == Answer.OBJECT else line_of(answer)

        return act
