"""The exceptions of the package. A call that raises one has changed nothing, except `put_number` and `put_nil` of a mutator, as they say, and calls that make
room: these may have performed steps of the collector."""
from __future__ import annotations

import enum


class GcflipError(Exception):
    """The base of all exceptions of the package. Its text says more, or is `sentence`."""

    sentence = ""
    """What gcflip_answer_text of C says of the answer: what it means and, behind a colon, what to do. Exceptions of the checker have texts of their own."""

    def __str__(self) -> str:
        return super().__str__() or self.sentence


# ---- Classes, which are those of gcflip_class_of in C. Each exception has one of them.


class Lack(GcflipError):
    """Something has no room left: memory, the heap, a frame, or an array. The program can make room, and call again."""


class Mismatch(GcflipError):
    """A value, a text, a copy, or the state of a collection is not what the call needs. The program can go on without it."""


class Misuse(GcflipError):
    """The program has a mistake, or its memory was written over."""


# ---- Of all calls


class OutOfMemory(Lack, MemoryError):
    """An allocation failed. The call can be retried."""

    sentence = "The system refused memory: free some, or give the collection up, and call again."


class OutOfRange(Misuse, ValueError):
    """An argument is out of its range."""

    sentence = "An argument is out of its range: correct the program; the header gives the ranges."


class Closed(Misuse, ValueError):
    """The heap is closed."""

    sentence = "The handle has no heap: open it before other calls, and use it no more after it was closed."


class Damaged(Misuse):
    """The heap's words are not those of a heap. It is proved that this does not happen, unless other code writes into the heap's memory."""

    sentence = "Other code wrote into the heap's memory: copy what is needed, and end the program."


class Reentered(Misuse, RuntimeError):
    """This thread is in a call on the heap already: a signal handler or a finaliser called the heap from within that call."""


# ---- Of the checker


class Refusal(enum.IntEnum):
    """The conditions of a certificate, in the order in which they are checked. Pairs, fields and roots are counted from 0."""

    OldShape = 1
    """No valid object starts at address `place` of the old image although one has to, or `place` is 0."""
    NewShape = 2
    """The same for the new image."""
    RootCount = 3
    """The images have different numbers of roots."""
    OldNotStart = 4
    """No object starts at the old address of pair `place`."""
    NewNotStart = 5
    """No object starts at the new address of pair `place`."""
    NotRising = 6
    """The new address of pair `place` is not above that of the pair before it."""
    Twice = 7
    """An earlier pair has the old address of pair `place`."""
    HeaderDiffers = 8
    """The objects of pair `place` have different headers."""
    FieldDiffers = 9
    """Field `field` of the objects of pair `place` does not correspond."""
    RootDiffers = 10
    """Root `place` does not correspond."""


class Refused(Mismatch):
    """The checker refused the certificate. Its text is the line that `gcflip check` prints."""

    def __init__(self, refusal: Refusal, place: int, field: int) -> None:
        super().__init__(refusal, place, field)
        self.refusal = refusal
        """The first condition that fails."""
        self.place = place
        """The address, the pair or the root, as `Refusal` says; 0 for RootCount."""
        self.field = field
        """The field, for FieldDiffers; else 0."""

    def __str__(self) -> str:
        places = {Refusal.RootCount: "", Refusal.FieldDiffers: " %d %d" % (self.place, self.field)}
        return "refused %d %s%s" % (self.refusal, self.refusal.name, places.get(self.refusal, " %d" % self.place))


class TooManyPairs(Lack, ValueError):
    """The certificate has 2^32 pairs or more."""


class Faulty(Mismatch):
    """A snapshot has a fault, so there is no verdict. Its text is the first line of the explanation."""


class BadText(Mismatch, ValueError):
    """The text is not a pair text. The exception's text is the line that `gcflip check` prints."""


class BadLine(BadText):
    """The text has a bad line; this is the first one."""

    def __init__(self, line: int) -> None:
        super().__init__("pair: bad line %d" % line)
        self.line = line
        """The number of the line, counted from 1."""


class EndsEarly(BadText):
    """The text ends before its last line does."""

    def __init__(self) -> None:
        super().__init__("pair: ends early")


class TextTooLarge(BadText):
    """The text has more than 67108864 bytes."""

    def __init__(self) -> None:
        super().__init__("pair: too large")


# ---- Of the heap


class FrameFull(Lack):
    """The frame has no root left."""

    sentence = "The frame has no root left: drop values, or use a frame of more roots."


class FrameEmpty(Mismatch):
    """The frame holds no value."""

    sentence = "The frame holds no value: push one before a pop."


class Parked(Mismatch):
    """The mutator has stopped at `try_safepoint` of gcflip.beside, and its collector has not let it go on."""

    sentence = "The mutator has stopped at a safepoint: let it go on before its next command."


class HeapRefused(GcflipError):
    """The heap refused a command or a step."""

    reply = ""
    """The reply that `gcflip play` prints."""


class Full(HeapRefused, Lack):
    """The heap has no room for the object."""

    reply = "full"
    sentence = "The heap has no room for the object: collect until a collection that begins now has flipped, and call again."


class NoObject(HeapRefused, Mismatch):
    """The slot does not refer to an object."""

    reply = "no object"
    sentence = "There is no such object: look at the value before its fields, and forget the address of an object that died."


class NoField(HeapRefused, Mismatch, IndexError):
    """The object has no such field."""

    reply = "no field"
    sentence = "The object has fewer fields: compare with the number of fields that a look tells."


class NoNumber(HeapRefused, Mismatch):
    """The object is raw and the value is not a number."""

    reply = "no number"
    sentence = "The object is raw, and the value is no number: put a number, or make an object that is not raw."


class Busy(HeapRefused, Mismatch):
    """A collection is open already."""

    reply = "busy"
    sentence = "A collection is open already: go on with it, or give it up."


class Idle(HeapRefused, Mismatch):
    """No collection is open."""

    reply = "idle"
    sentence = "No collection is open: begin one first."


class NotReady(HeapRefused, Mismatch):
    """The collection is not ready for its flip."""

    reply = "not ready"
    sentence = "The collection is not ready for its flip: perform the useful steps before it."


class FlipRefused(HeapRefused, Misuse):
    """The checker refused the certificate of a flip. It is proved that this does not happen."""

    reply = "refused"
    sentence = "The checker refused the flip, because other code wrote into the heap's memory: end the program."
