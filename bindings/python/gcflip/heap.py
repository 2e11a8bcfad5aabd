"""The collected heap: objects of words for 1 to 16 mutators, with an incremental, replicating collector."""
from __future__ import annotations

import array
import ctypes
import enum
import functools
import operator
import os
import weakref
from typing import Any, Callable, Iterable, Iterator, NamedTuple, NoReturn, Optional, Sequence, Union

from . import library, quick, refs, turns
from .checker import Block, Image, Row, _pairs_of
from .errors import (Busy, Closed, Damaged, FlipRefused, FrameEmpty, FrameFull, Full, GcflipError, HeapRefused, Idle, NoField, NoNumber, NoObject, NotReady,
                     OutOfMemory, OutOfRange, Parked)
from .library import COUNTS, HEAP, LIBRARY, MUTATOR, ROOTS, SLOT, Answer, CheckingNumber, StepName, in_range
from .renamed import renamed

SLOTS = 16
HASH_FACTOR = 0x9e3779b97f4a7c15
NOTHING_DONE: dict[int, type[GcflipError]] = {
    Answer.NO_MEMORY: OutOfMemory,
    Answer.OUT_OF_RANGE: OutOfRange,
    Answer.CLOSED: Closed,
    Answer.DAMAGED: Damaged,
    Answer.PARKED: Parked,
    Answer.FRAME_FULL: FrameFull,
    Answer.FRAME_EMPTY: FrameEmpty,
}
REFUSED: dict[int, type[HeapRefused]] = {
    Answer.FULL: Full,
    Answer.NO_OBJECT: NoObject,
    Answer.NO_FIELD: NoField,
    Answer.NO_NUMBER: NoNumber,
    Answer.BUSY: Busy,
    Answer.IDLE: Idle,
    Answer.NOT_READY: NotReady,
    Answer.FLIP_REFUSED: FlipRefused,
}


def own(number: int) -> int:
    """Returns the mutator's own slot with this number, 0 to 15; in a trace it is r0 to r15."""
    return _slot(number, 0)


def shared(number: int) -> int:
    """Returns the shared slot with this number, 0 to 15; in a trace it is g0 to g15."""
    return _slot(number, SLOTS)


def _slot(number: int, first: int) -> int:
    if not 0 <= number < SLOTS:
        raise OutOfRange("there is no slot %d" % number)
    return first + number


def place(slot: int, mutator: int = 0) -> int:
    """Returns the place of a slot in the list of a heap's roots, for the heap's commands that take any root: 0 to 15 are the shared slots, and then come
    those of each mutator. So it is not the slot's number, where a mutator's own come first. Raises OutOfRange if there is no such slot."""
    if not 0 <= slot < 2 * SLOTS or mutator < 0:
        raise OutOfRange("mutator %d has no slot %d" % (mutator, slot))
    return slot - SLOTS if slot >= SLOTS else SLOTS + SLOTS * mutator + slot


def extra_place(mutators: int, root: int) -> int:
    """Returns the place of an extra root of a heap with so many mutators: behind those of all slots. Raises OutOfRange for a negative number."""
    if mutators < 0 or root < 0:
        raise OutOfRange("there is no extra root %d" % root)
    return SLOTS + SLOTS * mutators + root


class Object(NamedTuple):
    """A reference as mutators see it: the object's kind and the number of its fields, without an address."""

    kind: int
    length: int
    raw: bool = False
    """Whether its fields are plain numbers."""


Value = Union[None, int, Object]
"""A value as mutators see it: None for nil, a number, or an object."""


class Held(NamedTuple):
    """The value of a slot, for a field of a new object: `Mutator.new_with`. Or of the root at a place: `Heap.new_with`."""

    slot: int


FieldSource = Union[None, int, Held]
"""What a field of a new object takes: None for nil, a number, or the value of a slot or a root."""


class Step(enum.Enum):
    """What a step of the collector did. Its value is the reply that `gcflip play` prints."""

    BEGUN = "begun"
    """A collection is open now."""
    CLEAN = "clean"
    """Nothing is left for this step."""
    COPIED = "copied"
    """A root's target has a replica now."""
    PASSED = "passed"
    """The scan pointer moved on to the next replica."""
    SCANNED = "scanned"
    """One field was scanned."""
    APPLIED = "applied"
    """One log entry was applied."""
    FLIPPED = "flipped"
    """Mutators continue in the new space."""
    DROPPED = "dropped"
    """The collection was given up."""
    NO_ROOM = "no room"
    """The new space has no room for a replica, so nothing changed. The collection stays open; `give_up` ends it. This never happens if the new space
    is at least as large as the heap."""


def _step_of(answer: int) -> Step:
    return Step[Answer(answer).name]


class Useful(NamedTuple):
    """The useful step: the name of the method that performs it, and the mutator whose log `apply` applies, or None."""

    name: str
    mutator: int | None


class Work(NamedTuple):
    """What `work` did."""

    steps: int
    """The number of steps performed; 0 if looks took all units."""
    copied: int
    """The number of words that replicas took in the new space during these steps."""
    last: Step | None
    """What the last step did, or None if none was performed."""
    pairs: int
    """The number of pairs, if the last step was a flip; else 0."""
    looks: int
    """The number of looks at extra roots that found nothing to copy."""


class Stats(NamedTuple):
    """What a heap did for references that own a root, `make` and the like, since it was opened."""

    objects: int
    """The objects that they made."""
    words: int
    """The words that these took."""
    flips: int
    """All flips of the heap."""
    steps: int
    """The steps of the collector in their calls."""
    copied: int
    """The words that replicas took in these steps."""
    longest: int
    """The most steps in one call of the collector."""
    full: int
    """The objects for which there was no room after whole collections."""


def _work_of(work: library.Work) -> Work:
    return Work(work.steps, work.copied, _step_of(work.last) if work.steps else None, work.pairs, work.looks)


class Pace:
    """When a collection begins and how fast it goes on, and what paced work remembers of the call before. A pace belongs to one heap.

    A collection begins where the heap has `factor` hundredths, 100 to 10000, of the words that the last flip left, but at least `least` words,
    or where half of the room that the flip left is used up. `rate` steps are due for each word allocated, each entry logged and
    each 32 looks that stores to extra roots ask for; with 0 the counts decide. A call ends after `words` units or twice as many looks, or once it has copied `words` words; with 0 it performs all steps that
    are due.
    """

    def __init__(self, factor: int = 200, rate: int = 0, least: int = 65536, words: int = 1024) -> None:
        self._raw = library.RawPace(*in_range((factor, rate, least, words), [ctypes.c_uint32] * 4), 1, 1, 0, 0, 0)

    @property
    def owed(self) -> int:
        """The number of steps that were due at the last call and that its bound left undone. The next call adds them to those that are due."""
        return int(self._raw.owed)


class Frame:
    """The extra roots from `first` on and below `end` as a stack, which a mutator's `push` and `pop` use. A heap can have several frames, if no root is in two
    of them. `len` returns the number of values."""

    def __init__(self, first: int, end: int) -> None:
        self._raw = library.RawFrame(*in_range((first, end, first, first), [ctypes.c_uint32] * 4))

    def __len__(self) -> int:
        return int(self._raw.top - self._raw.first)

    @property
    def roots(self) -> range:
        """The extra roots that hold the values, the oldest one first."""
        return range(self._raw.first, self._raw.top)

    @property
    def dropped_roots(self) -> range:
        """The extra roots that may still hold dropped values."""
        return range(self._raw.top, max(self._raw.top, self._raw.high))

    def truncate(self, length: int) -> None:
        """Drops the newest values, so that this many are left. Does nothing if there are no more. Their roots keep what they refer to alive until
        `trim_frame` clears them, or a push overwrites them."""
        length, = in_range((length,), [ctypes.c_uint32])
        self._raw.top = min(self._raw.top, self._raw.first + length)


class Counts(NamedTuple):
    """How full the heap is, and how far an open collection has come."""

    size: int
    """The words of the heap."""
    end: int
    """The first word that no object takes."""
    free: int
    """The words that no object takes."""
    mutators: int
    extra_roots: int
    """How many the heap was opened with."""
    is_open: bool
    """Whether a collection is open. All numbers below but `roots_left` are 0 if none is."""
    new_size: int
    """The words of the new space."""
    new_end: int
    """Its first word that no replica takes."""
    scan_place: int
    """The address of the replica at the scan pointer, or `new_end`."""
    scan_field: int
    """The number of its fields that are scanned."""
    logged: int
    """The entries in all logs."""
    roots_left: int
    """The looks until the open collection knows each extra root, or those of one that begins now."""


class Checking(enum.Enum):
    """When the checker looks at a collection."""

    ALONG = "along"
    """At each field when the collector brings it up to date. A flip then looks at a count and at the roots."""
    AT_FLIP = "at flip"
    """At both spaces whole, when the collection flips."""


class FlipChecks(NamedTuple):
    """How many flips each checker has accepted since the heap was opened."""

    along: int
    """The flips that the checker that goes along accepted."""
    whole: int
    """Those that were accepted by both spaces whole."""


class LogEntry(NamedTuple):
    """A field that a mutator wrote while a collection was open."""

    object: int
    """The address of the object."""
    field: int


class Heap(quick.Quickened):
    """A heap, and a context manager that closes it. Several threads may call it: a lock lets in one call at a time.

    All calls raise Closed after `close`, OutOfRange if an argument is out of its range, and Reentered if this thread is in a call on the heap
    already, as in a signal handler. A heap cannot be copied or pickled.
    """

    def __init__(self, size: int, mutators: int = 1, extra_roots: int = 0, checking: Checking = Checking.ALONG, whole_each: int = 0) -> None:
        """Opens an empty heap of `size` words, 1 to 4294967295, for 1 to 16 mutators, with up to 1048576 extra roots. All roots hold
        nil. If the checker goes along with the collection, each flip with the number `whole_each`, counted from the last one, checks both
        spaces whole; with 0 none does. Raises OutOfMemory."""
        numbers = in_range((size, extra_roots, mutators, CheckingNumber[checking.name], whole_each),
                           [ctypes.c_uint32, ctypes.c_uint32, ctypes.c_uint8, ctypes.c_uint8, ctypes.c_uint32])
        self._turn = turns.Turn()
        self._handle = library.Handle()
        self._extra_roots = numbers[1]
        self._call("open", library.Options(ctypes.sizeof(library.Options), *numbers))
        self._close = weakref.finalize(self, turns._close, self._handle, self._turn, os.getpid())
        self._pool = refs.RootPool(extra_place(numbers[2], 0), self._extra_roots, Pace())
        quick.bind(self, self._handle, self._turn, 0)

    def __enter__(self) -> Heap:
        return self

    def __exit__(self, *exception: object) -> None:
        self.close()

    def close(self) -> None:
        """Frees the heap. Does nothing if it is closed already."""
        self._turn.take(self._close)

    def __reduce_ex__(self, protocol: object) -> NoReturn:
        raise TypeError("a heap cannot be copied or pickled")

    def mutator(self, number: int) -> Mutator:
        """Returns the mutator with this number, counted from 0."""
        number = operator.index(number)
        if not 0 <= number < self.counts().mutators:
            raise OutOfRange("there is no mutator %d" % number)
        return Mutator(self, number)

    def make(self, kind: int, length: int) -> refs.Ref:
        """Makes an object of a kind, 0 to 255, with `length` fields, at most 65535, all nil, and returns a reference to it, which owns an extra root. First
        performs the steps of the collector that are due, and whole collections if there is still no room. A heap that was opened with n + 1 extra roots
        has room for n references; the program does not use these roots in another way. Raises FrameFull if no root is left, Full if there is no room
        after whole collections, and OutOfMemory if there is none and a collection gets no memory."""
        return refs.made(self, self._pool, self.new, kind, length)

    def make_raw(self, kind: int, length: int) -> refs.Ref:
        """Makes a raw object of a kind, whose fields are plain numbers, all 0, and returns a reference to it. Otherwise like `make`."""
        return refs.made(self, self._pool, self.new_raw, kind, length)

    def make_bytes(self, kind: int, data: bytes | bytearray | memoryview) -> refs.Ref:
        """Makes a text of these bytes, and returns a reference to it. Raises OutOfRange for more than 458,745 bytes, and OutOfMemory also if a collection is
        open whose log gets no memory. Otherwise like `make`."""
        data = memoryview(data).tobytes()

        def new(root: int, kind: int, _length: int) -> None:
            self.new_bytes(refs.MUTATOR, root, kind, data)

        return refs.made(self, self._pool, new, kind, refs.fields_for(len(data)))

    def growing(self, most: int) -> None:
        """Lets `make` and the like grow the heap up to `most` words, as `hp_growing` of `herbpond.h`. A collection takes a larger space if there is too little
        room, or if more than half of the heap was in use after the last flip. With 0 it does not grow. Raises OutOfRange for 2^32 or more."""
        self._pool.most, = in_range((most,), [ctypes.c_uint32])

    def stats(self) -> Stats:
        """Returns what the heap did for references that own a root, `make` and the like, since it was opened."""
        checks, counted = self.flip_checks(), self._pool.counted
        return Stats(counted.objects, counted.words, checks.along + checks.whole, counted.steps, counted.copied, counted.longest, counted.full)

    def _flip(self, pool: refs.RootPool) -> None:
        """Ends the open collection by its flip, or performs a whole one if none is open, and lets the pace remember it."""
        while True:
            work = self.work((1 << 32) - 1)
            pool.counted.worked(work)
            if work.last is Step.FLIPPED:
                break
            if work.last is Step.NO_ROOM:
                self.give_up()
        self.remember(pool.pace)

    def clear_roots(self, first: int, end: int) -> None:
        """Puts nil into the extra roots from `first` on, and below `end`. Raises OutOfRange if the heap does not have all of them, or if `first` is
        above `end`."""
        self._call("root_clear", first, end)

    def trim_frame(self, frame: Frame, most: int) -> None:
        """Puts nil into at most `most` of the roots that hold values dropped from the frame, the last ones. Raises OutOfRange if the heap does not have all
        roots of the frame."""
        self._call("frame_trim", frame._raw, most)

    # ---- Collector steps

    def begin(self, size: int | None = None) -> Step:
        """Opens a collection whose new space is as large as the heap, or has `size` words: BEGUN. Raises Busy and OutOfMemory."""
        return self._step("begin") if size is None else self._step("begin_sized", size)

    def roots(self) -> Step:
        """Replicates the target of the first root whose target has no replica: COPIED, CLEAN or NO_ROOM. Raises Idle."""
        return self._step("roots")

    def scan(self) -> Step:
        """Brings the field at the scan pointer up to date, or moves on to the next replica: SCANNED, PASSED, CLEAN or NO_ROOM. Raises
        Idle."""
        return self._step("scan")

    def apply(self, mutator: int) -> Step:
        """Applies the oldest entry of a mutator's log: APPLIED, CLEAN or NO_ROOM. Raises Idle."""
        return self._step("apply", mutator)

    def flip(self) -> int:
        """Flips if the collection is ready and a checker accepts it, and returns the number of pairs. Raises NotReady, Idle and
        OutOfMemory."""
        pairs = ctypes.c_uint32()
        self._call("step_flip", pairs)
        return pairs.value

    def give_up(self) -> Step:
        """Ends the collection without a flip: DROPPED. Keeps the new space for the next one. Raises Idle."""
        return self._step("give_up")

    def touch(self) -> None:
        """Writes to all memory of both spaces and of the checker's tables once, so that no later call meets a page of theirs for the first
        time. While a collection is open, its new space is left out. Raises OutOfMemory."""
        self._call("touch")

    def flip_checks(self) -> FlipChecks:
        """Returns how many flips each checker has accepted since the heap was opened."""
        checks = library.RawFlipChecks()
        self._call("flip_checks", checks)
        return FlipChecks(checks.along, checks.whole)

    def check(self) -> int:
        """Checks both spaces of the open collection whole, and returns the number of pairs. Changes nothing. Raises NotReady, Idle and
        OutOfMemory. That it raises Refused is proved never to occur, unless other code writes into the heap's memory."""
        verdict = library.Verdict()
        return _pairs_of(self._call("check", verdict), verdict)

    def useful(self) -> Useful:
        """Returns the useful step, and performs none. It begins a collection if none is open. Otherwise it is the first of roots, scan and
        apply with something left to do, and the flip if none of them has."""
        step = library.RawStep()
        self._call("useful", step)
        name = StepName(step.name)
        return Useful(name.name.lower(), step.mutator if name == StepName.APPLY else None)

    def work(self, most: int, size: int | None = None) -> Work:
        """Performs at most `most` units of work, which is not 0: useful steps, as `useful` names them, and looks at extra roots. Up to 32 looks
        search for a step; if they do not find it, they are a unit. If a step begins a collection, the new space is as large as the heap, or has
        `size` words, at least 1.

        The call ends after a flip, and after a step that finds no room. If an
        allocation fails, it ends before that step; it raises OutOfMemory only if that was the first step.
        """
        work = library.Work()
        if size is None:
            self._call("work", most, work)
        else:
            self._call("work_sized", most, size, work)
        return _work_of(work)

    def work_within(self, most: int, words: int) -> Work:
        """Does the same as `work`, but also ends after the step with which the replicas of this call take `words` words or more. A step copies
        at most one object, so the call passes `words` by less than one object. With 0 words it performs at most one step."""
        work = library.Work()
        self._call("work_within", most, words, work)
        return _work_of(work)

    def work_paced(self, pace: Pace, wanted: int = 0) -> Work | None:
        """Performs the useful steps that are due before the program allocates `wanted` words, and remembers the heap in the pace. Returns None
        if none is due. Ends early for the reasons of `work`, and once it has performed as many units, or copied as many words, as the
        pace allows; the pace then owes the other steps. Raises OutOfRange if the pace's factor is out of range, and OutOfMemory if an
        allocation of the first step fails; then nothing has changed."""
        work = library.Work()
        self._call("work_paced", pace._raw, wanted, work)
        return _work_of(work) if work.steps or work.looks else None

    def reserve(self, pace: Pace, words: int) -> Work | None:
        """Makes room for so many words: performs the steps that are due, as `work_paced` does, and collections if fewer words are free then. Reports all
        steps, or returns None if there were none. Raises Full if fewer words are free though a whole collection flipped, and OutOfMemory if none did,
        because memory was refused or the open collection's new space is too small. Raises OutOfRange if the pace's factor is out of range."""
        work = library.Work()
        if self._call_roots("reserve", pace._raw, words, work) == Answer.STARVED:
            raise OutOfMemory("reserve: " + OutOfMemory.sentence)
        return _work_of(work) if work.steps or work.looks else None

    def collect(self) -> Work:
        """Performs a whole collection that begins now, so that what is garbage now is gone, and reports all steps. First ends the open collection, if there is
        one. Raises OutOfMemory if memory was refused, or a new space was too small. In the second case
        the collection is still open, and `give_up` gives it up."""
        work = library.Work()
        if self._call_roots("collect", work) != Answer.DONE:
            raise OutOfMemory("collect: " + OutOfMemory.sentence)
        return _work_of(work)

    def safepoint(self, pace: Pace) -> None:
        """Performs the steps that are due, as `reserve` does for no word: for a loop that writes and makes no object."""
        self.reserve(pace, 0)

    def release(self) -> None:
        """Frees the space that waits for the next collection, which then allocates it. After this call `moved` raises OutOfRange. Raises Busy, and frees
        nothing, while a collection is open."""
        self._call_roots("release")

    def steps_due(self, pace: Pace, wanted: int = 0) -> int:
        """Returns the number of steps that are due. `work_paced` performs them, unless a step or the pace's bound ends it early."""
        wanted, = in_range((wanted,), [ctypes.c_uint32])
        return int(LIBRARY.gcflip_pace_due(pace._raw, self._turn.take(self._counts), wanted))

    def remember(self, pace: Pace) -> None:
        """Makes the pace remember the heap as it is, as if it had just flipped: before the first paced work on a heap in use, and after a flip
        by another call."""
        self._call("pace", pace._raw)

    # ---- Commands on roots by their places. Those on a mutator's slots have the same names.

    def new(self, root: int, kind: int, length: int) -> None:
        """Makes an object of a kind, 0 to 255, with `length` fields, at most 65535, all nil, and puts a reference to it into the root at this place,
        as `place` or `extra_place` tells it. Raises Full. Like each of these calls, it raises OutOfRange if there is no such root."""
        self._call_roots("new", root, kind, length)

    def new_raw(self, root: int, kind: int, length: int) -> None:
        """Makes a raw object of a kind with `length` fields, all 0, and puts a reference to it into the root. Raises Full."""
        self._call_roots("new_raw", root, kind, length)

    def new_pair(self, mutator: int, root: int, kind: int, first: int, second: int) -> None:
        """Makes an object of a kind with two fields, which take the values of roots `first` and `second`. This is `new_from` with these two roots."""
        self._call_roots("new_pair", mutator, root, kind, first, second)

    def new_from(self, mutator: int, root: int, kind: int, sources: Sequence[int]) -> None:
        """Makes an object of a kind with a field for each source, at most 65535, which takes that root's value, and puts a reference to it into the root. The
        root is set first, so a field that takes its value refers to the object itself. While a collection is open, this mutator's log takes the fields.
        Raises Full, and OutOfMemory while a collection is open."""
        sources = list(sources)
        mutator, root, kind, *places = in_range((mutator, root, kind, *sources), (*ROOTS["new_from"][:3], *[library.PLACE] * len(sources)))
        numbers = (ctypes.c_uint32 * max(1, len(places)))(*places)
        self._turn.take(lambda: self._made_roots("new_from", mutator, root, kind, numbers, len(places)))

    def new_with(self, mutator: int, root: int, kind: int, fields: Iterable[FieldSource]) -> None:
        """Makes an object of a kind with a field for each of these: None, a number below 2^63, or the value of the root at a place, as `Held(place)`. This is a
        `new`, and in order a `put_number` for each number and a `put` for each root. No other root changes. A field that takes the root itself
        refers to the new object. Raises Full, and OutOfMemory while a collection is open."""
        mutator, root, kind = in_range((mutator, root, kind), ROOTS["new_with"][:3])
        records = [_record(field, library.PLACE) for field in fields]
        row = (library.Field * max(1, len(records)))(*records)
        self._turn.take(lambda: self._made_roots("new_with", mutator, root, kind, row, len(records)))

    def gather(self, mutator: int, root: int, kind: int, first: int, count: int) -> None:
        """Makes an object of a kind with `count` fields, which take the values of the roots from `first` on. This is `new_from` with these roots."""
        self._call_roots("gather", mutator, root, kind, first, count)

    def spread(self, first: int, source: int, count: int) -> None:
        """Reads the first `count` fields of the object that root `source` refers to into the roots from `first` on. All are read or none. Raises NoObject,
        NoField if the object has fewer fields, and OutOfRange also if `source` is one of these roots."""
        self._call_roots("spread", first, source, count)

    def set_number(self, root: int, number: int) -> None:
        """Puts a number below 2^63 into the root."""
        self._call_roots("set_number", root, number)

    def set_nil(self, root: int) -> None:
        """Puts nil into the root."""
        self._call_roots("set_nil", root)

    def clear(self, first: int, end: int) -> None:
        """Puts nil into the roots from `first` on, and below `end`. Raises OutOfRange if the heap does not have all of them, or if `first` is above `end`."""
        self._call_roots("clear", first, end)

    def copy(self, root: int, source: int) -> None:
        """Copies the value of root `source` into the root."""
        self._call_roots("copy", root, source)

    def get(self, root: int, source: int, field: int) -> Value:
        """Reads a field of the object that root `source` refers to into the root, and returns its value. Raises NoObject and NoField."""
        numbers = in_range((root, source, field), ROOTS["get"])

        def found() -> Value:
            number, view = ctypes.c_uint64(), library.View()
            answer = self._made_roots("get", *numbers, number)
            view.number = number.value
            return _seen(self._made_roots("look", numbers[0], view) if answer == Answer.OBJECT else answer, view)

        return self._turn.take(found)

    def peek(self, root: int, field: int) -> Value:
        """Returns the value of a field of the object that the root refers to. No root takes it. Raises NoObject and NoField."""
        view = library.View()
        return _seen(self._call_roots("peek", root, field, view), view)

    def put(self, mutator: int, root: int, field: int, source: int) -> None:
        """Writes the value of root `source` into a field of the object that the root refers to. While a collection is open, this mutator's log takes the
        field, whoever's the roots are. Raises NoObject, NoField, NoNumber, and OutOfMemory while a collection is open."""
        self._call_roots("put", mutator, root, field, source)

    def put_sure(self, mutator: int, root: int, field: int, source: int) -> None:
        """Does what `put` does, but never runs out of memory: where the log cannot grow, it first gives the open collection up. Raises NoObject, NoField,
        NoNumber."""
        self._call_roots("put_sure", mutator, root, field, source)

    def put_number(self, mutator: int, root: int, field: int, number: int) -> None:
        """Writes a number below 2^63 into a field of the object that the root refers to, as `put` writes a value. No root changes. Raises NoObject,
        NoField, and OutOfMemory while a collection is open."""
        self._call_roots("put_number", mutator, root, field, number)

    def put_nil(self, mutator: int, root: int, field: int) -> None:
        """Writes nil into a field of the object that the root refers to, as `put` writes a value. No root changes. Raises NoObject, NoField, NoNumber if
        the object is raw, and OutOfMemory while a collection is open."""
        self._call_roots("put_nil", mutator, root, field)

    def fill(self, mutator: int, root: int, first: int, end: int, source: int) -> None:
        """Writes the value of root `source` into the fields from `first` to `end - 1` of the object that the root refers to, as `put` writes it into one. All
        are written or none. Raises NoObject, NoField, NoNumber, OutOfRange also if `end` is below `first`, and OutOfMemory while a collection is open."""
        self._call_roots("fill", mutator, root, first, end, source)

    def copy_fields(self, mutator: int, root: int, field: int, source: int, first: int, count: int) -> None:
        """Copies `count` fields: from field `first` on, of the object that root `source` refers to, to field `field` and on of the object that the root refers
        to. Each takes, in rising order, the value that the other field has then. No root changes. All are copied or none. Raises NoObject, NoField, NoNumber,
        and OutOfMemory while a collection is open."""
        self._call_roots("copy_fields", mutator, root, field, source, first, count)

    def new_bytes(self, mutator: int, root: int, kind: int, data: bytes) -> None:
        """Makes a text of these bytes, a raw object of a kind with a field for each seven of them, and puts a reference to it into the root. No other root
        changes. Raises Full, OutOfRange also for more than 458,745 bytes, and OutOfMemory while a collection is open."""
        data = bytes(data)
        self._call_roots("new_bytes", mutator, root, kind, data, len(data))

    def bytes_join(self, mutator: int, root: int, kind: int, first: int, second: int) -> None:
        """Makes a text with the bytes of the texts of roots `first` and `second`, one behind the other, and puts a reference to it into the root, which may be
        one of both. No byte leaves the heap. Raises NoObject if one of both refers to no text, and what `new_bytes` raises."""
        self._call_roots("bytes_join", mutator, root, kind, first, second)

    def bytes_part(self, mutator: int, root: int, kind: int, source: int, at: int, count: int) -> None:
        """Makes a text with `count` bytes of the text of root `source`, from byte `at` on, and puts a reference to it into the root, which may be `source`. No
        byte leaves the heap. Raises NoObject if it refers to no text, NoField if the text has fewer bytes, and what `new_bytes` raises."""
        self._call_roots("bytes_part", mutator, root, kind, source, at, count)

    def bytes_length(self, root: int) -> int:
        """Returns the number of bytes of the text that the root refers to. Raises NoObject if it refers to none."""
        count = ctypes.c_uint32()
        self._call_roots("bytes_length", root, count)
        return count.value

    def bytes_read(self, root: int, at: int = 0, count: Optional[int] = None) -> bytes:
        """Returns `count` bytes of the text that the root refers to, from byte `at` on, or all that follow. Raises NoObject if it refers to none, and NoField
        if the text has fewer bytes."""
        root, at = in_range((root, at), ROOTS["bytes_read"][:2])
        if count is not None:
            count, = in_range((count,), [ctypes.c_uint32])

        def read() -> bytes:
            length = ctypes.c_uint32()
            self._made_roots("bytes_length", root, length)
            wanted = max(0, length.value - at) if count is None else count
            found = ctypes.create_string_buffer(wanted)
            self._made_roots("bytes_read", root, at, found, wanted)
            return found.raw

        return self._turn.take(read)

    def bytes_write(self, mutator: int, root: int, at: int, data: bytes) -> None:
        """Writes these bytes over those of the text that the root refers to, from byte `at` on. The text keeps its length, and no root changes. All are written
        or none. While a collection is open, the mutator's log takes the fields that change. Raises NoObject if the root refers to no text, NoField if the text
        has fewer bytes, OutOfRange also for more than 458,745 bytes, and OutOfMemory while a collection is open."""
        data = bytes(data)
        self._call_roots("bytes_write", mutator, root, at, data, len(data))

    def bytes_same(self, first: int, second: int) -> bool:
        """Returns whether both roots refer to texts with the same bytes. Raises NoObject if one of both refers to no text."""
        return self._call_roots("bytes_same", first, second) == Answer.SAME

    def bytes_compare(self, first: int, second: int) -> int:
        """Returns the order of both roots' texts: -1, 0 or 1, by unsigned bytes, and a shorter beginning comes first. Raises NoObject if one of both refers to
        no text."""
        order = ctypes.c_int32()
        self._call_roots("bytes_compare", first, second, order)
        return order.value

    def bytes_hash(self, root: int, seed: int) -> int:
        """Returns a hash of the bytes of the text that the root refers to, as `hp_bytes_hash` of `herbpond.h`. It depends on the seed, which has 64 bits, and on
        nothing else: texts with the same bytes have the same hash. Raises NoObject if it refers to no text."""
        seed, = in_range((seed,), [ctypes.c_uint64])
        text = self.bytes_read(root)
        result = (seed ^ len(text)) * HASH_FACTOR % (1 << 64)
        for at in range(0, len(text), 8):
            result = (result ^ int.from_bytes(text[at:at + 8], "little")) * HASH_FACTOR % (1 << 64)
            result ^= result >> 32
        return result

    def words_read(self, root: int, at: int = 0, count: Optional[int] = None) -> array.array[int]:
        """Returns `count` words of the vector that the root refers to, from word `at` on, or all that follow. Each raw object is a vector of 64-bit words, 63 of
        them in 64 fields. `array.array("d", words.tobytes())` takes them for doubles. Raises NoObject if the root refers to no raw object, and NoField if the
        vector has fewer words."""
        root, at = in_range((root, at), ROOTS["words_read"][:2])
        if count is not None:
            count, = in_range((count,), [ctypes.c_uint32])

        def read() -> array.array[int]:
            view = library.View()
            self._made_roots("look", root, view)
            wanted = max(0, words_in(view.count) - at) if count is None else count
            found = _zeros(wanted)
            self._made_roots("words_read", root, at, found.buffer_info()[0], wanted)
            return found

        return self._turn.take(read)

    def words_write(self, mutator: int, root: int, at: int, words: Row) -> None:
        """Writes these words over those of the vector that the root refers to, from word `at` on. A buffer of 64-bit words is read in place. No root changes. All
        are written or none. While a collection is open, the mutator's log takes the fields that change. Raises NoObject if the root refers to no raw object,
        NoField if the vector has fewer words, OverflowError for a number that has no 64 bits, and OutOfMemory while a collection is open."""
        mutator, root, at = in_range((mutator, root, at), ROOTS["words_write"][:3])
        row = Block(words, "Q")
        self._turn.take(lambda: self._made_roots("words_write", mutator, root, at, row.address, row.count))

    def raw_read(self, root: int, first: int, count: int) -> array.array[int]:
        """Returns the numbers in `count` fields of the raw object that the root refers to, from field `first` on. Raises NoObject if it refers to no raw object,
        NoField if the object has fewer fields, and OutOfRange also for a count above 65535."""
        root, first, count = in_range((root, first, count), (*ROOTS["raw_read"][:2], ctypes.c_uint16))
        numbers = _zeros(count)
        self._turn.take(lambda: self._made_roots("raw_read", root, first, numbers.buffer_info()[0], count))
        return numbers

    def raw_write(self, mutator: int, root: int, first: int, numbers: Row) -> None:
        """Writes numbers into fields of the raw object that the root refers to, from field `first` on, as `put_number` writes one. A buffer of 64-bit words is
        read in place. No root changes. All are written or none. Raises NoObject and NoField as `raw_read` does, NoNumber if a number is 2^63 or more, and
        OutOfMemory while a collection is open."""
        mutator, root, first = in_range((mutator, root, first), ROOTS["raw_write"][:3])
        row = Block(numbers, "Q")
        self._turn.take(lambda: self._made_roots("raw_write", mutator, root, first, row.address, row.count))

    def is_same(self, first: int, second: int) -> bool:
        """Returns whether both roots hold nil, equal numbers, or references to one object."""
        return self._call_roots("same", first, second) == Answer.SAME

    def look(self, root: int) -> Value:
        """Returns the root's value."""
        view = library.View()
        return _seen(self._call_roots("look", root, view), view)

    def address(self, root: int) -> int:
        """Returns the address of the object that the root refers to. The next flip gives objects other addresses. Raises NoObject if it refers to none."""
        address = ctypes.c_uint32()
        self._call_roots("address", root, address)
        return address.value

    def refer(self, root: int, address: int) -> None:
        """Puts a reference to the object that starts at this address into the root, as `Mutator.refer` does. Raises NoObject if no object starts there; the root
        then keeps its value."""
        self._call_roots("refer", root, address)

    # ---- Old names

    new_root = renamed("new_root", new)
    new_raw_root = renamed("new_raw_root", new_raw)
    new_pair_root = renamed("new_pair_root", new_pair)
    new_from_root = renamed("new_from_root", new_from)
    copy_root = renamed("copy_root", copy)
    get_root = renamed("get_root", get)
    put_root = renamed("put_root", put)
    put_number_root = renamed("put_number_root", put_number)
    put_nil_root = renamed("put_nil_root", put_nil)
    look_root = renamed("look_root", look)
    address_root = renamed("address_root", address)
    refer_root = renamed("refer_root", refer)
    drop = renamed("drop", give_up)

    # ---- Reading

    def counts(self) -> Counts:
        """Reads how full the heap is, and how far an open collection has come."""
        counts = self._turn.take(self._counts)
        return Counts(**{name: getattr(counts, name) for name in COUNTS})._replace(is_open=bool(counts.is_open))

    def room(self) -> int:
        """Returns the number of free words, which is 0 after the heap was closed. An object takes as many as it has fields, and 2 more."""
        return self._turn.take(self._room)

    def log_length(self, mutator: int) -> int:
        """Reads the length of a mutator's log, which is 0 while no collection is open."""
        length = ctypes.c_size_t()
        self._call("log_length", mutator, length)
        return length.value

    def log_entry(self, mutator: int, number: int) -> LogEntry:
        """Reads an entry of a mutator's log. Entry 0 is the oldest."""
        entry = library.LogEntry()
        self._call("log_entry", mutator, number, entry)
        return LogEntry(entry.object, entry.field)

    def image(self) -> Image:
        """Copies the heap's words, links included, and the root words: the 16 shared slots, the 16 of each mutator, and the extra roots. Raises
        Damaged if other code wrote over a header or the end of the heap."""
        def copied() -> Image:
            counts = self._counts()
            words, roots = _zeros(counts.end), _zeros(SLOTS + SLOTS * counts.mutators + self._extra_roots)
            self._made("image", words.buffer_info()[0], len(words), roots.buffer_info()[0], len(roots))
            return Image(words, roots, counts.size)

        return self._turn.take(copied)

    def new_words(self) -> array.array[int]:
        """Copies the words of the open collection's new space. A replica's link is its original's address. Raises OutOfRange if no
        collection is open, and Damaged if other code wrote over a header or the end of that space."""
        def copied() -> array.array[int]:
            words = _zeros(self._counts().new_end)
            self._made("new_words", words.buffer_info()[0], len(words))
            return words

        return self._turn.take(copied)

    def moved(self, old: int) -> int:
        """Returns the address to which the last flip moved the object that had the address `old` before it. Raises NoObject if the object
        died, and OutOfRange if a collection has begun since the flip, or if no flip has been. If no object had that
        address, it may raise either, or return any number."""
        address = ctypes.c_uint32()
        self._call_roots("moved", old, address)
        return address.value

    def object_at(self, address: int) -> Object | None:
        """Returns the object that starts at this address, or None if none does. Any number below 2^32 may be given. A walk over the heap begins at 1, and goes
        on at address + length + 2, up to the end of the heap. It also meets objects that no root reaches."""
        view = library.View()
        found = _seen(self._call_roots("object_at", address, view), view)
        return found if isinstance(found, Object) else None

    def objects(self) -> Iterator[tuple[int, Object]]:
        """Yields the addresses and the objects of the heap, in order, also those that no root reaches. Ends where the heap was changed so that no object starts
        at the next address."""
        address = 1
        while (found := self.object_at(address)) is not None:
            yield address, found
            address += words_of(found.length)

    def __iter__(self) -> Iterator[Object]:
        """Yields the objects of the heap in the order of their addresses, as `objects` does."""
        return (found for _, found in self.objects())

    def field_at(self, address: int, field: int) -> tuple[Value, int | None]:
        """Returns the value of a field of the object that starts at this address, and the address of the object that the value refers to. Returns None for both
        if no object starts at the address. Raises NoField if the object has no such field."""
        view = library.View()
        value = _seen(self._call_roots("field_at", address, field, view), view)
        return value, int(view.number) if isinstance(value, Object) else None

    def _room(self) -> int:
        return int(LIBRARY.gcflip_room(self._handle))

    def _counts(self) -> library.Counts:
        """Reads the counts. The caller has the turn, so they stay true until it ends."""
        counts = library.Counts()
        self._made("counts", counts)
        return counts

    # ---- Calls

    def _step(self, name: str, *numbers: int) -> Step:
        return _step_of(self._call("step_" + name, *numbers))

    def _call(self, name: str, *arguments: Any) -> Answer:
        """Makes a call and returns its reply. Raises the exception for a refusal."""
        numbers = in_range(arguments, HEAP[name])
        return self._turn.take(lambda: self._made(name, *numbers))

    def _made(self, name: str, *arguments: Any) -> Answer:
        """Does the same if the arguments are in range and it is this call's turn."""
        return _answered(name, getattr(LIBRARY, "gcflip_heap_" + name)(self._handle, *arguments))

    def _call_roots(self, name: str, *arguments: Any) -> Answer:
        """Makes a command on roots by their places, and returns its reply, as `_call` does."""
        numbers = in_range(arguments, ROOTS[name])
        return self._turn.take(lambda: self._made_roots(name, *numbers))

    def _made_roots(self, name: str, *arguments: Any) -> Answer:
        """Does the same if the arguments are in range and it is this call's turn."""
        return _answered(name, getattr(LIBRARY, "gcflip_" + name)(self._handle, *arguments))

    def _prepared(self, name: str, *arguments: Any) -> Callable[[], int]:
        """Returns a function that makes one call again and again, and returns its answer. It checks the arguments once, and does not wait for other
        calls: the caller sees to it that only one call at a time uses the heap, and makes none after the heap was closed."""
        call = getattr(LIBRARY, "gcflip_heap_" + name)
        return functools.partial(call, self._handle, *in_range(arguments, HEAP[name]))

    def _prepared_on_roots(self, name: str) -> Callable[..., int]:
        """Returns a function that makes a call on roots by their places, under the same conditions. It takes the arguments, and does not check them."""
        return functools.partial(getattr(LIBRARY, "gcflip_" + name), self._handle)

    def _new_from(self, mutator: int, slot: int, kind: int, sources: Sequence[int]) -> None:
        """Makes an object whose fields take the values of slots."""
        sources = list(sources)
        mutator, slot, kind, *slots = in_range((mutator, slot, kind, *sources), (MUTATOR, SLOT, ctypes.c_uint8, *[SLOT] * len(sources)))
        numbers = (ctypes.c_uint8 * max(1, len(slots)))(*slots)
        self._turn.take(lambda: self._made("new_from", mutator, slot, kind, numbers, len(slots)))

    def _new_with(self, mutator: int, slot: int, kind: int, through: int, fields: Iterable[FieldSource]) -> None:
        """Makes an object whose fields take numbers and the values of slots."""
        mutator, slot, kind, through = in_range((mutator, slot, kind, through), (MUTATOR, SLOT, ctypes.c_uint8, SLOT))
        records = [_record(field) for field in fields]
        row = (library.Field * max(1, len(records)))(*records)
        self._turn.take(lambda: self._made("new_with", mutator, slot, kind, through, row, len(records)))

    def _raw_read(self, mutator: int, slot: int, first: int, count: int) -> array.array[int]:
        """Copies numbers of a raw object."""
        mutator, slot, first, count = in_range((mutator, slot, first, count), (MUTATOR, SLOT, ctypes.c_uint16, ctypes.c_uint16))
        numbers = _zeros(count)
        self._turn.take(lambda: self._made("raw_read", mutator, slot, first, numbers.buffer_info()[0], count))
        return numbers

    def _raw_write(self, mutator: int, slot: int, first: int, source: int, numbers: Row) -> None:
        """Writes numbers to a raw object."""
        mutator, slot, first, source = in_range((mutator, slot, first, source), (MUTATOR, SLOT, ctypes.c_uint16, SLOT))
        words = Block(numbers, "Q")
        self._turn.take(lambda: self._made("raw_write", mutator, slot, first, source, words.address, words.count))

    def _get(self, mutator: int, slot: int, source: int, field: int) -> Value:
        """Reads a field into a slot, and looks at the slot before another thread can change it."""
        numbers = in_range((mutator, slot, source, field), HEAP["get"])

        def found() -> Value:
            number, view = ctypes.c_uint64(), library.View()
            answer = self._made("get", *numbers, number)
            view.number = number.value
            return _seen(self._made("look", *numbers[:2], view) if answer == Answer.OBJECT else answer, view)

        return self._turn.take(found)


def _answered(name: str, number: int) -> Answer:
    """Returns the reply of a call. Raises the exception for a refusal."""
    answer = Answer(number)
    if answer in NOTHING_DONE:
        raise NOTHING_DONE[answer]("%s: %s" % (name, NOTHING_DONE[answer].sentence))
    if answer in REFUSED:
        raise REFUSED[answer]()
    return answer


def _record(field: FieldSource, kind: Any = SLOT) -> library.Field:
    """Returns C's record. `kind` is the type of the number of what holds a value."""
    if field is None:
        return library.Field(0, 0)
    if isinstance(field, Held):
        return library.Field(2, *in_range((field.slot,), (kind,)))
    return library.Field(1, *in_range((field,), (ctypes.c_uint64,)))


def _zeros(count: int) -> array.array[int]:
    return array.array("Q", bytes(8 * count))


def words_of(length: int) -> int:
    """Returns the number of words that an object with `length` fields takes."""
    return length + 2


def words_in(fields: int) -> int:
    """Returns the number of 64-bit words that the fields of a raw object have: 63 for each 64 fields."""
    return fields - (fields + 63) // 64


class Mutator(quick.Quickened):
    """A client of a heap, with sixteen slots of its own (`own`) in addition to the shared ones (`shared`). Slots are roots. All mutators
    share the extra roots, which a heap has if it was opened with them; they are numbered from 0."""

    def __init__(self, heap: Heap, number: int) -> None:
        self.heap = heap
        self.number = number
        quick.bind(self, heap._handle, heap._turn, number)

    def __copy__(self) -> Mutator:
        return Mutator(self.heap, self.number)

    def new(self, slot: int, kind: int, length: int) -> None:
        """Makes an object of a kind, 0 to 255, with `length` fields, at most 65535, all nil, and puts a reference to it into the
        slot. The object takes length + 2 words. Raises Full."""
        self._call("new_object", slot, kind, length)

    def new_raw(self, slot: int, kind: int, length: int) -> None:
        """Makes a raw object, whose fields are plain numbers, all 0. Otherwise like `new`."""
        self._call("new_raw", slot, kind, length)

    def set_number(self, slot: int, number: int) -> None:
        """Puts a number below 2^63 into the slot."""
        self._call("set_number", slot, number)

    def set_nil(self, slot: int) -> None:
        """Puts nil into the slot."""
        self._call("set_nil", slot)

    def copy(self, slot: int, source: int) -> None:
        """Copies the value of slot `source` into the slot."""
        self._call("move", slot, source)

    def load(self, slot: int, root: int) -> None:
        """Copies the value of an extra root into the slot."""
        self._call("root_load", slot, root)

    def store(self, root: int, source: int) -> None:
        """Copies the value of slot `source` into an extra root."""
        self._call("root_store", root, source)

    def push(self, frame: Frame, source: int) -> None:
        """Copies the value of slot `source` to the top of the frame, and moves its top up. Raises FrameFull, and OutOfRange if the heap does not have all
        roots of the frame."""
        self._call("frame_push", source, frame._raw)

    def pop(self, frame: Frame, slot: int) -> None:
        """Moves the top of the frame down, copies the value there into the slot, and puts nil into that root. Raises FrameEmpty, and OutOfRange if the heap
        does not have all roots of the frame."""
        self._call("frame_pop", slot, frame._raw)

    def get(self, slot: int, source: int, field: int) -> Value:
        """Reads a field of the object that slot `source` refers to into the slot, and returns its value. Raises NoObject and NoField."""
        return self.heap._get(self.number, slot, source, field)

    def raw_read(self, slot: int, first: int, count: int) -> array.array[int]:
        """Copies `count` numbers of the raw object that the slot refers to, those of field `first` and of the fields after it. No slot
        changes. Raises NoObject if the slot refers to no raw object, and NoField if the object has fewer fields."""
        return self.heap._raw_read(self.number, slot, first, count)

    def raw_write(self, slot: int, first: int, source: int, numbers: Row) -> None:
        """Writes numbers to the raw object that the slot refers to, into field `first` and the fields after it. For each number this is a `set_number`
        of slot `source` and a `put` of it, in one call, so `source` keeps the last number. A buffer of 64-bit words is read in place. All
        numbers are written or none. Raises NoObject if the slot refers to no raw object, NoField if the object has fewer fields, NoNumber for
        a number of 2^63 or more, OutOfRange if `slot` and `source` are one, OverflowError for a number that has no 64 bits, and OutOfMemory
        while a collection is open."""
        self.heap._raw_write(self.number, slot, first, source, numbers)

    def address(self, slot: int) -> int:
        """Returns the address of the object that the slot refers to. The next flip gives objects other addresses. Raises NoObject if it
        refers to none."""
        address = ctypes.c_uint32()
        self._call("address", slot, address)
        return address.value

    def refer(self, slot: int, address: int) -> None:
        """Puts a reference to the object that starts at this address into the slot, for a table of weak references that follows its addresses by
        `Heap.moved`. Any number below 2**32 may be given; others raise OutOfRange. Raises NoObject if no object starts there; the slot then keeps its value. Takes constant time
        with a standing checker; otherwise it walks over the objects before the address."""
        self._call("refer", slot, address)

    def put(self, slot: int, field: int, source: int) -> None:
        """Writes the value of slot `source` into a field of the object that the slot refers to. Raises NoObject, NoField, NoNumber,
        and OutOfMemory while a collection is open."""
        self._call("put", slot, field, source)

    def put_number(self, slot: int, field: int, source: int, number: int) -> None:
        """Puts a number below 2^63 into slot `source`, and then writes it into a field like `put`. If the call raises NoObject or NoField,
        slot `source` has the number; if it raises OutOfMemory, nothing changed."""
        self._call("put_number", slot, field, source, number)

    def put_nil(self, slot: int, field: int, source: int) -> None:
        """Puts nil into slot `source`, and then writes it into a field like `put`. If the call raises NoObject, NoField or NoNumber, slot
        `source` has nil; if it raises OutOfMemory, nothing changed."""
        self._call("put_nil", slot, field, source)

    def copy_fields(self, slot: int, field: int, source: int, first: int, through: int, count: int) -> None:
        """Copies `count` fields of the object that slot `source` refers to, field `first` and the fields after it, to field `field` and the fields
        after it of the object that the slot refers to. For each field this is a `get` into slot `through` and a `put` of it, in rising order and
        in one call, so `through` keeps the last value; within one object, a field that was written is read as it was written. All fields are
        copied or none. Raises NoObject if one of the two slots refers to no object, NoField if one of the objects has fewer fields, NoNumber if
        the slot's object is raw and one of the values is no number, OutOfRange if `through` is one of the two, and OutOfMemory while a
        collection is open."""
        self._call("copy_fields", slot, field, source, first, through, count)

    def new_pair(self, slot: int, kind: int, first: int, second: int) -> None:
        """Makes an object with two fields, which take the values of two slots, and puts a reference to it into the slot: a `new` and two
        `put`. If `first` or `second` is the slot itself, that field refers to the new object. Raises Full, and OutOfMemory while a
        collection is open; then nothing changed."""
        self._call("new_pair", slot, kind, first, second)

    def new_from(self, slot: int, kind: int, sources: Sequence[int]) -> None:
        """Makes an object with a field for each of these slots, at most 65535, as `new_pair` does for two. Each field takes its slot's value."""
        self.heap._new_from(self.number, slot, kind, sources)

    def new_with(self, slot: int, kind: int, through: int, fields: Iterable[FieldSource]) -> None:
        """Makes an object with a field for each of `fields`, at most 65535, and puts a reference to it into the slot. A field takes nil, a number
        below 2^63, or what a slot holds, as `Held(slot)`. It is a `new`, a `put_number` through slot `through` for each number and a `put` for each
        slot, in one call. So `through` keeps the last number, and a field that takes the slot itself refers to the new object. Raises Full,
        OutOfRange if the two slots are one, and OutOfMemory while a collection is open; then nothing changed."""
        self.heap._new_with(self.number, slot, kind, through, fields)

    def is_same(self, first: int, second: int) -> bool:
        """Returns whether both slots hold nil, equal numbers, or references to one object."""
        return self._call("same", first, second) == Answer.SAME

    def look(self, slot: int) -> Value:
        """Returns the slot's value."""
        view = library.View()
        return _seen(self._call("look", slot, view), view)

    raw = renamed("raw", new_raw)
    num = renamed("num", set_number)
    nil = renamed("nil", set_nil)
    move = renamed("move", copy)
    cons = renamed("cons", new_pair)
    same = renamed("same", is_same)

    def _call(self, name: str, *arguments: Any) -> Answer:
        return self.heap._call(name, self.number, *arguments)


def _seen(answer: Answer, view: library.View) -> Value:
    if answer == Answer.NIL:
        return None
    if answer == Answer.NUMBER:
        return int(view.number)
    return Object(view.kind, view.count, answer == Answer.RAW_OBJECT)


quick.quicken(Heap, Mutator, Object)
