"""Finds the shared library, and declares its structs and calls."""
from __future__ import annotations

import ctypes
import enum
import operator
import os
from ctypes import POINTER, c_bool, c_char_p, c_int32, c_size_t, c_uint8, c_uint16, c_uint32, c_uint64, c_void_p
from typing import Any, Dict, List, Sequence

from .errors import OutOfRange


# The version that this package is for, as gcflip_version tells it. A library may differ from it in its last part.
VERSION = 200


class Handle(ctypes.Structure):
    _fields_ = [("at", c_void_p)]


class Verdict(ctypes.Structure):
    _fields_ = [("refusal", c_uint32), ("pairs", c_uint32), ("place", c_uint64), ("field", c_uint64)]


class View(ctypes.Structure):
    _fields_ = [("kind", c_uint32), ("count", c_uint32), ("number", c_uint64)]


class RawStep(ctypes.Structure):
    _fields_ = [("name", c_uint32), ("mutator", c_uint32)]


class Work(ctypes.Structure):
    _fields_ = [("steps", c_uint32), ("copied", c_uint32), ("last", c_uint32), ("pairs", c_uint32), ("looks", c_uint32)]


class Answer(enum.IntEnum):
    """The numbers that calls return, as in gcflip_answers.h. With 1 to 15 the call did nothing."""

    DONE = 0
    YES = 0
    NO_MEMORY = 1
    OUT_OF_RANGE = 2
    CLOSED = 3
    OPEN = 4
    TOO_MANY = 7
    TOO_LARGE = 8
    FAULTY = 9
    NOT_BEGUN = 10
    DAMAGED = 11
    PARKED = 12
    NOT_YET = 13
    MADE = 16
    FULL = 17
    NO_OBJECT = 18
    NO_FIELD = 19
    NO_NUMBER = 20
    SAME = 21
    NOT_SAME = 22
    NIL = 24
    NUMBER = 25
    OBJECT = 26
    RAW_OBJECT = 27
    FRAME_FULL = 28
    FRAME_EMPTY = 29
    BUSY = 32
    BEGUN = 33
    IDLE = 34
    CLEAN = 35
    NO_ROOM = 36
    COPIED = 37
    PASSED = 38
    SCANNED = 39
    APPLIED = 40
    NOT_READY = 41
    FLIP_REFUSED = 42
    FLIPPED = 43
    DROPPED = 44
    STARVED = 45
    REFUSED = 48
    BAD_LINE = 49
    ENDS_EARLY = 50
    NO_PATH = 51
    LONG_PATH = 52


class StepName(enum.IntEnum):
    """The numbers that stand for steps."""

    BEGIN = 1
    BEGIN_SIZED = 2
    ROOTS = 3
    SCAN = 4
    APPLY = 5
    FLIP = 6
    GIVE_UP = 7


class CheckingNumber(enum.IntEnum):
    """The numbers that stand for ways of checking."""

    ALONG = 0
    AT_FLIP = 1


COUNTS = ("size", "end", "free", "mutators", "extra_roots", "is_open", "new_size", "new_end", "scan_place", "scan_field", "logged", "roots_left")


class Counts(ctypes.Structure):
    _fields_ = [(name, c_uint32) for name in COUNTS]


class LogEntry(ctypes.Structure):
    _fields_ = [("object", c_uint32), ("field", c_uint32)]


class Field(ctypes.Structure):
    """What a field of a new object takes: `holds` is 0 for nil, 1 for a number, and 2 for the value of a slot."""

    _fields_ = [("holds", c_uint32), ("value", c_uint64)]


class RawPace(ctypes.Structure):
    _fields_ = [(name, c_uint32) for name in ("factor", "rate", "least", "words", "left", "end", "logged", "owed", "roots")]


class RawFrame(ctypes.Structure):
    _fields_ = [(name, c_uint32) for name in ("first", "end", "top", "high")]


class Options(ctypes.Structure):
    """What a heap is opened with. `bytes` is the size of this record."""

    _fields_ = [("bytes", c_uint32), ("size", c_uint32), ("extra_roots", c_uint32), ("mutators", c_uint8), ("checking", c_uint8),
                ("whole_each", c_uint32)]


class RawFlipChecks(ctypes.Structure):
    _fields_ = [("along", c_uint64), ("whole", c_uint64)]


IMAGE: List[Any] = [c_uint32, c_uint32, c_bool, c_void_p, c_size_t, c_void_p, c_size_t]
SLOT = c_uint8
MUTATOR = c_uint8
PLACE = c_uint32

# The calls by their names without `gcflip_`. Those on a heap take a handle first.
CHECKS: Dict[str, List[Any]] = {
    "version": [],
    "pace_due": [POINTER(RawPace), POINTER(Counts), c_uint32],
    "check": [*IMAGE, *IMAGE, c_void_p, c_size_t, POINTER(Verdict)],
    "check_text": [c_void_p, c_size_t, POINTER(Verdict)],
    "infer": [*IMAGE, *IMAGE, c_void_p, c_size_t, POINTER(c_size_t), POINTER(Verdict)],
    "path": [*IMAGE, c_uint32, POINTER(c_uint64), c_void_p, c_size_t, POINTER(c_size_t)],
}
HEAP: Dict[str, List[Any]] = {
    "open": [POINTER(Options)],
    "touch": [],
    "close": [],
    "new_object": [MUTATOR, SLOT, c_uint8, c_uint16],
    "new_raw": [MUTATOR, SLOT, c_uint8, c_uint16],
    "set_number": [MUTATOR, SLOT, c_uint64],
    "set_nil": [MUTATOR, SLOT],
    "move": [MUTATOR, SLOT, SLOT],
    "get": [MUTATOR, SLOT, SLOT, c_uint16, POINTER(c_uint64)],
    "put": [MUTATOR, SLOT, c_uint16, SLOT],
    "put_number": [MUTATOR, SLOT, c_uint16, SLOT, c_uint64],
    "put_nil": [MUTATOR, SLOT, c_uint16, SLOT],
    "copy_fields": [MUTATOR, SLOT, c_uint16, SLOT, c_uint16, SLOT, c_uint16],
    "new_pair": [MUTATOR, SLOT, c_uint8, SLOT, SLOT],
    "new_from": [MUTATOR, SLOT, c_uint8, c_void_p, c_size_t],
    "new_with": [MUTATOR, SLOT, c_uint8, SLOT, c_void_p, c_size_t],
    "same": [MUTATOR, SLOT, SLOT],
    "look": [MUTATOR, SLOT, POINTER(View)],
    "root_load": [MUTATOR, SLOT, c_uint32],
    "root_store": [MUTATOR, c_uint32, SLOT],
    "root_clear": [c_uint32, c_uint32],
    "frame_push": [MUTATOR, SLOT, POINTER(RawFrame)],
    "frame_pop": [MUTATOR, SLOT, POINTER(RawFrame)],
    "frame_trim": [POINTER(RawFrame), c_uint32],
    "step_begin": [],
    "step_begin_sized": [c_uint32],
    "step_roots": [],
    "step_scan": [],
    "step_apply": [MUTATOR],
    "step_flip": [POINTER(c_uint32)],
    "step_give_up": [],
    "flip_checks": [POINTER(RawFlipChecks)],
    "check": [POINTER(Verdict)],
    "useful": [POINTER(RawStep)],
    "work": [c_uint32, POINTER(Work)],
    "pace": [POINTER(RawPace)],
    "work_paced": [POINTER(RawPace), c_uint32, POINTER(Work)],
    "work_sized": [c_uint32, c_uint32, POINTER(Work)],
    "work_within": [c_uint32, c_uint32, POINTER(Work)],
    "counts": [POINTER(Counts)],
    "log_length": [MUTATOR, POINTER(c_size_t)],
    "log_entry": [MUTATOR, c_size_t, POINTER(LogEntry)],
    "image": [c_void_p, c_size_t, c_void_p, c_size_t],
    "new_words": [c_void_p, c_size_t],
    "raw_read": [MUTATOR, SLOT, c_uint16, c_void_p, c_size_t],
    "raw_write": [MUTATOR, SLOT, c_uint16, SLOT, c_void_p, c_size_t],
    "address": [MUTATOR, SLOT, POINTER(c_uint32)],
    "moved": [c_uint32, POINTER(c_uint32)],
    "refer": [MUTATOR, SLOT, c_uint32],
}
# The commands on roots by their places, and calls that read, which take a handle first, too. Their names have no `heap_`.
ROOTS: Dict[str, List[Any]] = {
    "new": [PLACE, c_uint32, c_uint32],
    "new_raw": [PLACE, c_uint32, c_uint32],
    "new_pair": [c_uint32, PLACE, c_uint32, PLACE, PLACE],
    "new_from": [c_uint32, PLACE, c_uint32, c_void_p, c_size_t],
    "new_with": [c_uint32, PLACE, c_uint32, c_void_p, c_size_t],
    "gather": [c_uint32, PLACE, c_uint32, PLACE, c_uint32],
    "spread": [PLACE, PLACE, c_uint32],
    "set_number": [PLACE, c_uint64],
    "set_nil": [PLACE],
    "clear": [PLACE, PLACE],
    "copy": [PLACE, PLACE],
    "get": [PLACE, PLACE, c_uint32, POINTER(c_uint64)],
    "peek": [PLACE, c_uint32, POINTER(View)],
    "put": [c_uint32, PLACE, c_uint32, PLACE],
    "put_sure": [c_uint32, PLACE, c_uint32, PLACE],
    "put_number": [c_uint32, PLACE, c_uint32, c_uint64],
    "put_nil": [c_uint32, PLACE, c_uint32],
    "fill": [c_uint32, PLACE, c_uint32, c_uint32, PLACE],
    "copy_fields": [c_uint32, PLACE, c_uint32, PLACE, c_uint32, c_uint32],
    "same": [PLACE, PLACE],
    "look": [PLACE, POINTER(View)],
    "new_bytes": [c_uint32, PLACE, c_uint32, c_char_p, c_size_t],
    "bytes_join": [c_uint32, PLACE, c_uint32, PLACE, PLACE],
    "bytes_part": [c_uint32, PLACE, c_uint32, PLACE, c_uint32, c_uint32],
    "bytes_length": [PLACE, POINTER(c_uint32)],
    "bytes_read": [PLACE, c_uint32, c_void_p, c_size_t],
    "bytes_write": [c_uint32, PLACE, c_uint32, c_char_p, c_size_t],
    "bytes_same": [PLACE, PLACE],
    "bytes_compare": [PLACE, PLACE, POINTER(c_int32)],
    "words_read": [PLACE, c_uint32, c_void_p, c_size_t],
    "words_write": [c_uint32, PLACE, c_uint32, c_void_p, c_size_t],
    "raw_read": [PLACE, c_uint32, c_void_p, c_size_t],
    "raw_write": [c_uint32, PLACE, c_uint32, c_void_p, c_size_t],
    "address": [PLACE, POINTER(c_uint32)],
    "moved": [c_uint32, POINTER(c_uint32)],
    "refer": [PLACE, c_uint32],
    "object_at": [c_uint32, POINTER(View)],
    "field_at": [c_uint32, c_uint32, POINTER(View)],
    "room": [],
    "reserve": [POINTER(RawPace), c_uint32, POINTER(Work)],
    "collect": [POINTER(Work)],
    "release": [],
}


def declare(library: ctypes.CDLL, name: str, arguments: list[Any]) -> None:
    call = getattr(library, name)
    call.argtypes = arguments
    call.restype = c_uint32


NAME = "libgcflip.so"
HERE = os.path.dirname(os.path.abspath(__file__))
# A wheel has the library beside this file. In the repository 'make -C bindings/c' builds it.
PLACES = (os.path.join(HERE, NAME), os.path.join(HERE, "..", "..", "c", "out", NAME))
HINT = "build it by 'make -C bindings/c', or set GCFLIP_LIBRARY to its path"


def place() -> str:
    """Returns the file that the environment variable GCFLIP_LIBRARY names, else one in its place in a wheel or in the repository, else the name
    that the loader searches for."""
    named = os.environ.get("GCFLIP_LIBRARY")
    return named if named else next((os.path.normpath(path) for path in PLACES if os.path.exists(path)), NAME)


def opened(path: str) -> ctypes.CDLL:
    """Loads the library from a file, and declares its calls. Raises OSError, whose text is one line, for a file that is missing, is no library,
    or is of another version."""
    try:
        library = ctypes.CDLL(path)
    except OSError as error:
        raise OSError("%s; %s" % (error, HINT)) from None
    try:
        for name, arguments in CHECKS.items():
            declare(library, "gcflip_" + name, arguments)
        found = library.gcflip_version() // 100
        if found != VERSION // 100:
            raise OSError("%s has version %s, and this package needs %s; %s" % (path, _shown(found), _shown(VERSION // 100), HINT))
        for name, arguments in HEAP.items():
            declare(library, "gcflip_heap_" + name, [POINTER(Handle), *arguments])
        for name, arguments in ROOTS.items():
            declare(library, "gcflip_" + name, [POINTER(Handle), *arguments])
    except AttributeError as error:
        raise OSError("%s is not the library of this package: %s; %s" % (path, error, HINT)) from None
    return library


def _shown(version: int) -> str:
    return "%d.%d" % (version // 100, version % 100)


class Library:
    """The calls of the shared library by their names. The first use of one loads the library, and raises OSError if it cannot be loaded."""

    def __getattr__(self, name: str) -> Any:
        call = getattr(opened(place()), name)
        setattr(self, name, call)
        return call


LIBRARY = Library()


def library_version() -> str:
    """Returns the version of the shared library. Raises OSError if it cannot be loaded."""
    number = LIBRARY.gcflip_version()
    return "%d.%d.%d" % (number // 10000, number // 100 % 100, number % 100)


NUMBERS = (c_uint8, c_uint16, c_uint32, c_uint64, c_size_t)


def in_range(values: Sequence[Any], types: Sequence[Any]) -> list[Any]:
    """Returns the arguments of a call, with each number as an int, so that the call itself runs no code of the caller. Raises OutOfRange unless
    each number fits its type, since ctypes would truncate it, and TypeError for what is no number."""
    return [_fitting(operator.index(value), kind) if kind in NUMBERS else value for value, kind in zip(values, types)]


def _fitting(value: int, kind: Any) -> int:
    if not 0 <= value < 1 << 8 * ctypes.sizeof(kind):
        raise OutOfRange("%d is negative or has more than %d bits" % (value, 8 * ctypes.sizeof(kind)))
    return value
