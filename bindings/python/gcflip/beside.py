"""A heap whose collector works in a thread of its own, beside the program.

The collector copies objects while the program reads and writes them, without a lock. It stops the program only at safepoints, where every flip has to pass
the checker. A safepoint is a call, `Mutator.safepoint`. A program that makes none is never stopped, and then no collection ends.

The proofs are about the calls of `gcflip_beside.h`. The thread is one of the library's C source, `gcflip_thread.c`, which is not proved, and never
touches Python. The library is `libgcflip_beside.so`, which `make -C bindings/c beside` builds, or the file that the environment variable
GCFLIP_BESIDE_LIBRARY names.
"""
from __future__ import annotations

import array
import ctypes
import enum
import os
import weakref
from ctypes import POINTER, c_size_t, c_uint32, c_uint64, c_void_p
from typing import Any, Callable, Dict, List, NamedTuple, NoReturn, Sequence, Tuple

from . import library
from .errors import Closed, Reentered
from .heap import FlipChecks, Frame, Object, Pace, Value, _answered, _seen
from .library import PLACE, Answer, in_range
from .turns import Turn

__all__ = ["Counts", "Mutator", "Safepoint"]


class RawOptions(ctypes.Structure):
    _fields_ = [(name, c_uint32) for name in ("bytes", "size", "extra_roots", "whole_each")]


class RawCounts(ctypes.Structure):
    _fields_ = [(name, c_uint64) for name in ("flips", "failed", "stops", "most_stops", "throttled", "waited", "longest_wait")]


# The commands by their names without `gcflip_beside_`. Each takes the mutator's end first.
COMMANDS: Dict[str, List[Any]] = {
    "new": [PLACE, c_uint32, c_uint32],
    "new_raw": [PLACE, c_uint32, c_uint32],
    "new_pair": [PLACE, c_uint32, PLACE, PLACE],
    "set_number": [PLACE, c_uint64],
    "set_nil": [PLACE],
    "copy": [PLACE, PLACE],
    "get": [PLACE, PLACE, c_uint32, POINTER(c_uint64)],
    "put": [PLACE, c_uint32, PLACE],
    "put_number": [PLACE, c_uint32, c_uint64],
    "put_nil": [PLACE, c_uint32],
    "peek": [PLACE, c_uint32, POINTER(library.View)],
    "clear": [PLACE, PLACE],
    "new_from": [PLACE, c_uint32, POINTER(c_uint32), c_size_t],
    "gather": [PLACE, c_uint32, PLACE, c_uint32],
    "spread": [PLACE, PLACE, c_uint32],
    "fill": [PLACE, c_uint32, c_uint32, PLACE],
    "copy_fields": [PLACE, c_uint32, PLACE, c_uint32, c_uint32],
    "raw_read": [PLACE, c_uint32, POINTER(c_uint64), c_size_t],
    "raw_write": [PLACE, c_uint32, POINTER(c_uint64), c_size_t],
    "frame_push": [PLACE, POINTER(library.RawFrame)],
    "frame_pop": [PLACE, POINTER(library.RawFrame)],
    "frame_trim": [POINTER(library.RawFrame), c_uint32],
    "same": [PLACE, PLACE],
    "look": [PLACE, POINTER(library.View)],
    "address": [PLACE, POINTER(c_uint32)],
    "moved": [c_uint32, POINTER(c_uint32)],
    "refer": [PLACE, c_uint32],
    "object_at": [c_uint32, POINTER(library.View)],
    "field_at": [c_uint32, c_uint32, POINTER(library.View)],
    "room": [],
    "roots": [],
    "flips": [],
}
# What a command returns that does not return an answer, or a count of 32 bits.
RESULTS: Dict[str, Any] = {"flips": c_uint64}
# What the library calls after a flip.
FOLLOWER = ctypes.CFUNCTYPE(None, c_void_p)
# The calls of the thread by their names without `gcflip_thread_`, with what they return.
THREADS: Dict[str, Tuple[Any, List[Any]]] = {
    "open_with": (c_uint32, [POINTER(c_void_p), POINTER(RawOptions), POINTER(library.RawPace)]),
    "mutator": (c_void_p, [c_void_p]),
    "safepoint": (c_uint32, [c_void_p]),
    "try_safepoint": (c_uint32, [c_void_p]),
    "collect": (c_uint32, [c_void_p]),
    "reserve": (c_uint32, [c_void_p, c_uint32]),
    "growing": (None, [c_void_p, c_uint32]),
    "size": (c_uint32, [c_void_p]),
    "on_flip": (None, [c_void_p, FOLLOWER, c_void_p]),
    "read": (None, [c_void_p, POINTER(RawCounts)]),
    "flip_checks": (None, [c_void_p, POINTER(library.RawFlipChecks)]),
    "close": (None, [c_void_p]),
}
NAME = "libgcflip_beside.so"
PLACES = (os.path.join(library.HERE, NAME), os.path.join(library.HERE, "..", "..", "c", "out", NAME))
HINT = "build it by 'make -C bindings/c beside', or set GCFLIP_BESIDE_LIBRARY to its path"


def place() -> str:
    """Returns the file that the environment variable GCFLIP_BESIDE_LIBRARY names, else one in its place in a wheel or in the repository, else the name that the
    loader searches for."""
    named = os.environ.get("GCFLIP_BESIDE_LIBRARY")
    return named if named else next((os.path.normpath(path) for path in PLACES if os.path.exists(path)), NAME)


class Calls:
    """The calls of the library by their names. Those that may wait let other threads of Python run meanwhile, and the commands, which are short, do not."""

    def __init__(self, path: str) -> None:
        try:
            waiting, short = ctypes.CDLL(path), ctypes.PyDLL(path)
            for name, (result, arguments) in THREADS.items():
                self.declare(waiting, "thread_" + name, result, arguments)
            for name, arguments in COMMANDS.items():
                self.declare(short, name, RESULTS.get(name, c_uint32), [c_void_p, *arguments], "gcflip_beside_")
        except (OSError, AttributeError) as error:
            raise OSError("%s is not the library of this module: %s; %s" % (path, error, HINT)) from None

    def declare(self, of: ctypes.CDLL, name: str, result: Any, arguments: List[Any], prefix: str = "gcflip_") -> None:
        call = getattr(of, prefix + name)
        call.restype, call.argtypes = result, arguments
        setattr(self, name, call)

    def __getattr__(self, name: str) -> Any:
        raise AttributeError(name)


LOADED: Dict[str, Calls] = {}


def calls() -> Calls:
    """Returns the calls of the library. The first use loads it, and raises OSError if it cannot be loaded."""
    path = place()
    if path not in LOADED:
        LOADED[path] = Calls(path)
    return LOADED[path]


class Counts(NamedTuple):
    """What has happened since the heap was opened. Times are in nanoseconds."""

    flips: int
    """The flips that were made."""
    failed: int
    """The flips for which memory ran out."""
    stops: int
    """The safepoints at which the mutator stopped."""
    most_stops: int
    """The stops of the flip that took most."""
    throttled: int
    """The safepoints that waited until the collector had caught up, or had flipped."""
    waited: int
    """The time that the mutator waited at safepoints, together."""
    longest_wait: int
    """The longest wait of a safepoint."""


class Safepoint(enum.Enum):
    """Where a mutator stands after `try_safepoint`."""

    RUNS = enum.auto()
    """It runs."""
    AHEAD = enum.auto()
    """It runs, but has allocated faster than the collector copies, so `safepoint` would wait. A program that goes on may find the heap full."""
    PARKED = enum.auto()
    """It has stopped. Commands raise Parked until a later safepoint lets it go on."""


STANDS = {Answer.DONE: Safepoint.RUNS, Answer.NOT_YET: Safepoint.AHEAD, Answer.PARKED: Safepoint.PARKED}


def _close(of: Calls, thread: int, turn: Turn, process: int) -> None:
    """Ends the thread and frees the heap when no call uses it any more. A forked child has no such thread, and leaves the heap's memory as it is."""
    if os.getpid() != process:
        return
    with turn.lock:
        of.thread_close(thread)


def _follower(of: weakref.ref[Mutator]) -> Any:
    """Returns what the library calls after a flip. It does not keep the mutator alive."""
    def flipped(_: object) -> None:
        mutator = of()
        if mutator is not None:
            mutator._flipped()

    return FOLLOWER(flipped)


class Mutator:
    """A heap of `size` words, at least 1, with one mutator and so many extra roots, at most 1048576, whose collector has a thread of its own. All roots hold
    nil. Of the pace, `factor` and `least` count. Each flip with the number `whole_each`, counted from the last one, checks both spaces whole while the mutator
    waits; 0: none does for its number. Raises OutOfRange, and OutOfMemory also if the thread cannot be started.

    A root is named by its place: `place(shared(0))`, `place(own(0))`, `extra_place(1, 0)`. Threads may use a mutator in turn; a call waits for that of another
    thread. It is a context manager, and closed at the latest when nothing refers to it.
    """

    def __init__(self, size: int, extra_roots: int = 0, pace: Pace | None = None, whole_each: int = 0) -> None:
        numbers = in_range((size, extra_roots, whole_each), (c_uint32, c_uint32, c_uint32))
        options = RawOptions(ctypes.sizeof(RawOptions), *numbers)
        self._turn, self._calls, thread = Turn(), calls(), c_void_p()
        _answered("open", self._calls.thread_open_with(ctypes.byref(thread), ctypes.byref(options), ctypes.byref((Pace() if pace is None else pace)._raw)))
        opened = int(thread.value or 0)
        self._thread: int | None = opened
        self._end = self._calls.thread_mutator(opened)
        self._function: Callable[[], object] | None = None
        self._follower: Any = None
        self._is_following = False
        self._raised: BaseException | None = None
        self._close = weakref.finalize(self, _close, self._calls, opened, self._turn, os.getpid())

    def __enter__(self) -> Mutator:
        return self

    def __exit__(self, *exception: object) -> None:
        self.close()

    def __reduce_ex__(self, protocol: object) -> NoReturn:
        raise TypeError("a mutator cannot be copied or pickled")

    def close(self) -> None:
        """Ends the collector's thread, and frees the heap. Does nothing if it is closed already. Raises Reentered in a function of `on_flip`."""
        def closed() -> None:
            if self._is_following:
                raise Reentered("a heap cannot be closed in a function of on_flip")
            self._thread = None
            self._close()

        self._turn.take(closed)

    # ---- Safepoints

    def safepoint(self) -> None:
        """A safepoint. If the collector asks for it, the mutator stops and waits here until it may go on, after a flip or before. If the mutator has allocated
        faster than the collector copies, it waits until the collector has caught up, or has flipped."""
        _answered("safepoint", self._stop("safepoint"))

    def try_safepoint(self) -> Safepoint:
        """A safepoint that does not wait. If the collector asks for it, the mutator stops. If the collector has let it, it goes on. Returns where it stands
        then."""
        return STANDS[Answer(self._stop("try_safepoint"))]

    def collect(self) -> None:
        """Waits for the flip of the collection that is under way, or else of one that begins now. A program calls it where an allocation raises Full. Raises
        OutOfMemory if memory ran out for the flip; the heap is then as it was."""
        _answered("collect", self._stop("collect"))

    def reserve(self, words: int) -> None:
        """A safepoint after which so many words are free, so that an allocation which takes no more succeeds. If too few are free, waits for the flip of the
        collection that is under way. If they are still too few, waits for that of one which begins in this call, in a larger space if the heap may grow. Raises
        Full if that one left fewer, because live objects take the others and the heap has not grown, and OutOfMemory if memory ran out for a flip."""
        _answered("reserve", self._stop("reserve", *in_range((words,), [c_uint32])))

    def growing(self, most: int) -> None:
        """Lets the heap grow up to `most` words. A collection takes a larger space if `reserve` finds too little room, or if more than half of the heap was in use
        after the last flip. With 0 it does not grow. Raises OutOfRange for 2^32 or more."""
        words, = in_range((most,), [c_uint32])

        def grow() -> None:
            self._calls.thread_growing(self._opened(), words)

        self._turn.take(grow)

    def on_flip(self, function: Callable[[], object] | None) -> None:
        """Calls a function after each flip from now on, so that the program follows its tables by `moved`. None ends that. The call comes within `safepoint`,
        `try_safepoint`, `reserve` or `collect`, before it returns; one of them may go through several flips. The function may make all calls but `close`. No
        flip comes while it runs: safepoints in it do nothing, `collect` raises OutOfMemory, and `reserve` Full if there is too little room. What it raises,
        the safepoint raises."""
        def kept() -> None:
            if self._follower is None:
                self._follower = _follower(weakref.ref(self))
                self._calls.thread_on_flip(self._opened(), self._follower, None)
            self._opened()
            self._function = function

        self._turn.take(kept)

    # ---- Commands on roots by their places

    def new(self, root: int, kind: int, length: int) -> None:
        """Makes an object of a kind, 0 to 255, with so many fields, all nil, and puts a reference to it into the root. Raises Full; a flip may make room."""
        self._call("new", root, kind, length)

    def new_raw(self, root: int, kind: int, length: int) -> None:
        """Does the same with fields that are plain numbers, all 0."""
        self._call("new_raw", root, kind, length)

    def new_pair(self, root: int, kind: int, first: int, second: int) -> None:
        """Makes an object of a kind with two fields, which take the values of roots `first` and `second`, and puts a reference to it into the root: a `new` and
        two `put`. The root is set first, so a field that takes its value refers to the object itself. Raises Full, and OutOfMemory if the log cannot grow."""
        self._call("new_pair", root, kind, first, second)

    def new_from(self, root: int, kind: int, sources: Sequence[int]) -> None:
        """Makes an object of a kind with a field for each source, at most 65535, which takes that root's value, and puts a reference to it into the root. The
        root is set first, so a field that takes its value refers to the object itself. Raises Full, and OutOfMemory if the log cannot grow."""
        sources = list(sources)
        root, kind, *places = in_range((root, kind, *sources), (*COMMANDS["new_from"][:2], *[PLACE] * len(sources)))
        numbers = (c_uint32 * max(1, len(places)))(*places)
        self._turn.take(lambda: self._made("new_from", root, kind, numbers, len(places)))

    def gather(self, root: int, kind: int, first: int, count: int) -> None:
        """Makes an object of a kind with `count` fields, which take the values of the roots from `first` on. This is `new_from` with these roots."""
        self._call("gather", root, kind, first, count)

    def spread(self, first: int, source: int, count: int) -> None:
        """Reads the first `count` fields of the object that root `source` refers to into the roots from `first` on. All are read or none. Raises NoObject,
        NoField if the object has fewer fields, and OutOfRange also if `source` is one of these roots."""
        self._call("spread", first, source, count)

    def set_number(self, root: int, number: int) -> None:
        """Puts a number below 2^63 into the root."""
        self._call("set_number", root, number)

    def set_nil(self, root: int) -> None:
        """Puts nil into the root."""
        self._call("set_nil", root)

    def clear(self, first: int, end: int) -> None:
        """Puts nil into the roots from `first` on, and below `end`. Raises OutOfRange if the heap does not have all of them, or if `first` is above `end`."""
        self._call("clear", first, end)

    def copy(self, root: int, source: int) -> None:
        """Copies the value of root `source` into the root."""
        self._call("copy", root, source)

    def get(self, root: int, source: int, field: int) -> Value:
        """Reads a field of the object that root `source` refers to into the root, and returns its value. Raises NoObject and NoField."""
        numbers = in_range((root, source, field), COMMANDS["get"])

        def found() -> Value:
            number, view = c_uint64(), library.View()
            answer = self._made("get", *numbers, ctypes.byref(number))
            view.number = number.value
            return _seen(self._made("look", numbers[0], ctypes.byref(view)) if answer == Answer.OBJECT else answer, view)

        return self._turn.take(found)

    def peek(self, root: int, field: int) -> Value:
        """Returns the value of a field of the object that the root refers to. No root takes it. Raises NoObject and NoField."""
        view = library.View()
        return _seen(self._call("peek", root, field, ctypes.byref(view)), view)

    def put(self, root: int, field: int, source: int) -> None:
        """Writes the value of root `source` into a field of the object that the root refers to. It is logged once the collector copies. Raises NoObject,
        NoField, NoNumber, and OutOfMemory if the log cannot grow."""
        self._call("put", root, field, source)

    def put_number(self, root: int, field: int, number: int) -> None:
        """Writes a number below 2^63 into a field of the object that the root refers to, as `put` writes a value. No root changes. Raises NoObject, NoField,
        and OutOfMemory if the log cannot grow."""
        self._call("put_number", root, field, number)

    def put_nil(self, root: int, field: int) -> None:
        """Writes nil into a field of the object that the root refers to, as `put` writes a value. No root changes. Raises NoObject, NoField, NoNumber if the
        object is raw, and OutOfMemory if the log cannot grow."""
        self._call("put_nil", root, field)

    def fill(self, root: int, first: int, end: int, source: int) -> None:
        """Writes the value of root `source` into the fields from `first` to `end - 1` of the object that the root refers to, as `put` writes it into one. All
        are written or none. Raises NoObject, NoField, NoNumber, OutOfRange also if `end` is below `first`, and OutOfMemory if the log cannot grow."""
        self._call("fill", root, first, end, source)

    def copy_fields(self, root: int, field: int, source: int, first: int, count: int) -> None:
        """Copies `count` fields: from field `first` on, of the object that root `source` refers to, to field `field` and on of the object that the root refers
        to. Each takes, in rising order, the value that the other field has then. No root changes. All are copied or none. Raises NoObject, NoField, NoNumber,
        and OutOfMemory if the log cannot grow."""
        self._call("copy_fields", root, field, source, first, count)

    def raw_read(self, root: int, first: int, count: int) -> array.array[int]:
        """Copies `count` numbers of the raw object that the root refers to, those of field `first` and of the fields after it. No root changes. Raises NoObject
        if the root refers to no raw object, and NoField if the object has fewer fields."""
        root, first, count = in_range((root, first, count), (PLACE, c_uint32, c_size_t))
        if count > 65535:
            count = 65536  # no object has so many fields, and no array of more is made
        words = (c_uint64 * max(1, count))()
        self._turn.take(lambda: self._made("raw_read", root, first, words, count))
        return array.array("Q", words[:count])

    def raw_write(self, root: int, first: int, numbers: Sequence[int]) -> None:
        """Writes numbers to the raw object that the root refers to, into field `first` and the fields after it, as `put_number` writes one. No root changes. All
        are written or none. Raises NoObject if the root refers to no raw object, NoField if the object has fewer fields, NoNumber for a number of 2^63 or
        more, OutOfRange for one that has no 64 bits, and OutOfMemory if the log cannot grow."""
        numbers = list(numbers)
        root, first, *words = in_range((root, first, *numbers), (PLACE, c_uint32, *[c_uint64] * len(numbers)))
        row = (c_uint64 * max(1, len(words)))(*words)
        self._turn.take(lambda: self._made("raw_write", root, first, row, len(words)))

    def push(self, frame: Frame, source: int) -> None:
        """Copies the value of root `source` to the top of the frame, and moves its top up. Raises FrameFull, and OutOfRange if the heap does not have all roots
        of the frame."""
        self._call("frame_push", source, ctypes.byref(frame._raw))

    def pop(self, frame: Frame, root: int) -> None:
        """Moves the top of the frame down, copies the value there into the root, and puts nil into that of the frame. Raises FrameEmpty, and OutOfRange if the
        heap does not have all roots of the frame."""
        self._call("frame_pop", root, ctypes.byref(frame._raw))

    def trim_frame(self, frame: Frame, most: int) -> None:
        """Puts nil into at most `most` of the roots that hold values dropped from the frame, the last ones. Raises OutOfRange if the heap does not have all
        roots of the frame."""
        self._call("frame_trim", ctypes.byref(frame._raw), most)

    def is_same(self, first: int, second: int) -> bool:
        """Returns whether both roots hold nil, equal numbers, or references to one object."""
        return self._call("same", first, second) == Answer.SAME

    def look(self, root: int) -> Value:
        """Returns the root's value."""
        view = library.View()
        return _seen(self._call("look", root, ctypes.byref(view)), view)

    # ---- Addresses

    def address(self, root: int) -> int:
        """Returns the address of the object that the root refers to. The next flip gives objects other addresses. Raises NoObject if it refers to none."""
        address = c_uint32()
        self._call("address", root, ctypes.byref(address))
        return address.value

    def moved(self, old: int) -> int:
        """Returns the address to which the last flip moved the object that had the address `old` before it. Raises NoObject if the object died, and OutOfRange
        before the first flip. If no object had that address, it may raise NoObject, or return any number."""
        address = c_uint32()
        self._call("moved", old, ctypes.byref(address))
        return address.value

    def refer(self, root: int, address: int) -> None:
        """Puts a reference to the object that starts at this address into the root, for a table of weak references that follows its addresses by `moved`. Any
        number below 2**32 may be given; others raise OutOfRange. Raises NoObject if no object starts there; the root then keeps its value."""
        self._call("refer", root, address)

    def object_at(self, address: int) -> Object | None:
        """Returns the object that starts at this address, or None if none does. Any number below 2**32 may be given. A walk over the heap begins at 1, and goes
        on at address + length + 2, up to the end of the heap. It also meets objects that no root reaches."""
        view = library.View()
        found = _seen(self._call("object_at", address, ctypes.byref(view)), view)
        return found if isinstance(found, Object) else None

    def field_at(self, address: int, field: int) -> tuple[Value, int | None]:
        """Returns the value of a field of the object that starts at this address, and the address of the object that the value refers to. Returns None for both
        if no object starts at the address. Raises NoField if the object has no such field."""
        view = library.View()
        value = _seen(self._call("field_at", address, field, ctypes.byref(view)), view)
        return value, int(view.number) if isinstance(value, Object) else None

    # ---- Counts

    def flips(self) -> int:
        """Returns the number of flips that the mutator has gone through. It is 0 while the mutator has stopped. As long as it stays the same, so do all
        addresses."""
        return self._counted("flips")

    def size(self) -> int:
        """Returns the number of words of the heap in which the mutator runs, or ran before it stopped. A flip may make it larger after `growing`."""
        def size() -> int:
            return int(self._calls.thread_size(self._opened()))

        return self._turn.take(size)

    def room(self) -> int:
        """Returns the number of free words, which is 0 while the mutator has stopped. An object takes as many as it has fields, and 2 more."""
        return self._counted("room")

    def roots(self) -> int:
        """Returns the number of roots: 32 slots and the extra ones. It is 0 while the mutator has stopped."""
        return self._counted("roots")

    def counts(self) -> Counts:
        """Returns what has happened since the heap was opened."""
        found = RawCounts()

        def read() -> None:
            self._calls.thread_read(self._opened(), ctypes.byref(found))

        self._turn.take(read)
        return Counts(*(int(getattr(found, name)) for name in Counts._fields))

    def flip_checks(self) -> FlipChecks:
        """Returns how many flips each checker has accepted since the heap was opened."""
        checks = library.RawFlipChecks()

        def read() -> None:
            self._calls.thread_flip_checks(self._opened(), ctypes.byref(checks))

        self._turn.take(read)
        return FlipChecks(checks.along, checks.whole)

    def _opened(self) -> int:
        """Returns the address of the heap with its thread. Raises Closed."""
        if self._thread is None:
            raise Closed("the heap is closed")
        return self._thread

    def _stop(self, name: str, *arguments: Any) -> int:
        """Makes a safepoint, and returns its answer. Raises what a function of `on_flip` raised."""
        def stopped() -> int:
            answer = int(getattr(self._calls, "thread_" + name)(self._opened(), *arguments))
            raised, self._raised = self._raised, None
            if raised is not None:
                raise raised
            return answer

        return self._turn.take(stopped)

    def _flipped(self) -> None:
        """Calls the function of `on_flip` within a safepoint, which keeps other threads out. The function's own calls get their turns."""
        if self._function is None or self._raised is not None:
            return
        self._is_following, self._turn.busy = True, False
        try:
            self._function()
        except BaseException as raised:
            self._raised = raised
        finally:
            self._is_following, self._turn.busy = False, True

    def _call(self, name: str, *arguments: Any) -> Answer:
        """Makes a command, and returns its reply. Raises the exception for a refusal, and OutOfRange for an argument that does not fit its type."""
        numbers = in_range(arguments, COMMANDS[name])
        return self._turn.take(lambda: self._made(name, *numbers))

    def _made(self, name: str, *arguments: Any) -> Answer:
        """Does the same if the arguments are in range and it is this call's turn."""
        self._opened()
        return _answered(name, getattr(self._calls, name)(self._end, *arguments))

    def _counted(self, name: str) -> int:
        def counted() -> int:
            self._opened()
            return int(getattr(self._calls, name)(self._end))

        return self._turn.take(counted)
