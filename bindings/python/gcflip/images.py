"""Checks collections of another runtime: `bindings/c/gcflip_images.h`, for adapters that read dumps.

A `Collection` has a snapshot before a collection and one after it. An adapter places the objects of each by their addresses, sets their fields, adds roots, and
asks. docs/CERTIFY.md shows how. The calls of a row take an array of words at once, so that a large heap does not need a call for each of its words.
"""
from __future__ import annotations

import ctypes
import enum
import operator
from array import array
from ctypes import CFUNCTYPE, POINTER, c_bool, c_char_p, c_size_t, c_uint32, c_uint64, c_void_p
from typing import Any, Callable, Dict, List, Optional, Tuple

from .checker import Block, Row
from .errors import Faulty, OutOfMemory, OutOfRange, Refusal, Refused, TooManyPairs
from .library import LIBRARY, Answer, Verdict

# The calls by their names without `gcflip_`, with the types of their results and arguments.
CALLS: Dict[str, Tuple[Any, List[Any]]] = {
    "collection_open": (c_void_p, []),
    "collection_clear": (None, [c_void_p]),
    "collection_close": (None, [c_void_p]),
    "before": (c_void_p, [c_void_p]),
    "after": (c_void_p, [c_void_p]),
    "snapshot_clear": (None, [c_void_p]),
    "snapshot_object": (c_uint32, [c_void_p, c_uint64, c_uint32, c_uint64]),
    "snapshot_words": (c_uint32, [c_void_p, c_uint64, c_uint32, c_void_p, c_uint64]),
    "snapshot_bytes": (c_uint32, [c_void_p, c_uint64, c_uint32, c_void_p, c_uint64]),
    "snapshot_find": (c_uint32, [c_void_p, c_uint64]),
    "snapshot_reference": (c_uint64, [c_void_p, c_uint64]),
    "snapshot_inside": (c_uint64, [c_void_p, c_uint64, c_uint32]),
    "snapshot_constant": (c_uint64, [c_void_p, c_uint64]),
    "snapshot_fixed": (c_uint64, [c_void_p, c_uint64]),
    "snapshot_doubtful": (c_uint64, [c_void_p, c_uint64, c_char_p]),
    "snapshot_set": (None, [c_void_p, c_uint32, c_uint64, c_uint64]),
    "snapshot_set_words": (None, [c_void_p, c_uint32, c_uint64, c_void_p, c_uint64, c_void_p]),
    "snapshot_root": (None, [c_void_p, c_uint64]),
    "snapshot_roots": (None, [c_void_p, c_void_p, c_uint64, c_void_p]),
    "snapshot_next": (c_uint64, [c_void_p, c_uint64, c_uint64, c_uint64]),
    "snapshot_set_weak": (None, [c_void_p, c_uint32, c_uint64, c_uint64]),
    "snapshot_weak_root": (None, [c_void_p, c_uint64]),
    "snapshot_doubts": (c_size_t, [c_void_p, c_void_p, c_void_p]),
    "collection_pair": (None, [c_void_p, c_uint64, c_uint64]),
    "collection_check": (c_uint32, [c_void_p, POINTER(Verdict)]),
    "collection_infer": (c_uint32, [c_void_p, POINTER(Verdict)]),
    "collection_fault": (c_uint32, [c_void_p]),
    "collection_pairs": (c_size_t, [c_void_p]),
    "collection_has_replica": (c_bool, [c_void_p, c_uint64]),
    "collection_explain": (None, [c_void_p, c_void_p, c_void_p]),
    "collection_write": (c_uint32, [c_void_p, c_void_p]),
    "collection_old_addresses": (c_size_t, [c_void_p, c_uint64, c_uint64, c_void_p, c_void_p]),
}

_OF_ROOT = CFUNCTYPE(c_void_p, c_void_p, c_uint64)
_OF_KIND = CFUNCTYPE(c_void_p, c_void_p, c_uint32)
_OF_FIELD = CFUNCTYPE(c_void_p, c_void_p, c_uint64, c_uint32, c_uint64)
_OF_OBJECT = CFUNCTYPE(c_void_p, c_void_p, c_void_p, c_uint64, c_uint32)


class _RawNames(ctypes.Structure):
    _fields_ = [("given", c_void_p), ("root", _OF_ROOT), ("kind", _OF_KIND), ("field", _OF_FIELD), ("object", _OF_OBJECT)]


class _Calls:
    """The calls with their types. The first use of one declares it."""

    def __getattr__(self, name: str) -> Any:
        call = getattr(LIBRARY, "gcflip_" + name)
        call.restype, call.argtypes = CALLS[name]
        setattr(self, name, call)
        return call


_CALLS = _Calls()


class Words(enum.Enum):
    """What the words of a row become."""

    REFERENCES = "reference"
    CONSTANTS = "constant"
    FIXED = "fixed"


_FUNCTIONS: Dict[Words, int] = {}


def _function(words: Words) -> int:
    """Returns the address of the library's function that makes a word of an image of each word of a row."""
    if words not in _FUNCTIONS:
        _FUNCTIONS[words] = ctypes.cast(getattr(_CALLS, "snapshot_" + words.value), c_void_p).value or 0
    return _FUNCTIONS[words]


def _fit(number: int, bits: int) -> int:
    """Returns a number that has no more bits. ctypes would truncate it."""
    fitting = operator.index(number)
    if fitting >> bits != 0:
        raise OutOfRange("%d is negative or has more than %d bits" % (fitting, bits))
    return fitting


def _row(row: Row) -> Tuple[int, int, Any]:
    """Returns where the words of a row are, how many they are, and what has to live meanwhile."""
    words: Any = array("Q", row) if isinstance(row, (tuple, list)) else row
    if isinstance(words, array) and words.typecode == "Q":
        return (*words.buffer_info(), words)
    block = Block(words, "Q")
    return block.address, block.count, block


class Names:
    """The runtime's names for what is printed. A function that is None, or returns None, lets the number be printed."""

    def __init__(self, root: Optional[Callable[[int], Optional[str]]] = None, kind: Optional[Callable[[int], Optional[str]]] = None,
                 field: Optional[Callable[[int, int, int], Optional[str]]] = None, object: Optional[Callable[[int, int], Optional[str]]] = None) -> None:
        self._name: Any = None  # the library reads a name before it asks for the next one
        self.raw = _RawNames(None, self._calling(_OF_ROOT, root, 1), self._calling(_OF_KIND, kind, 1), self._calling(_OF_FIELD, field, 1),
                             self._calling(_OF_OBJECT, object, 2))

    def _calling(self, prototype: Any, function: Optional[Callable[..., Optional[str]]], skipped: int) -> Any:
        """Returns a function of C that calls this one without the first arguments, or NULL."""
        if function is None:
            return prototype(0)
        named = function

        def called(*arguments: Any) -> Optional[int]:
            name = named(*arguments[skipped:])
            if name is None:
                return None
            self._name = buffer = ctypes.create_string_buffer(name.encode())
            return ctypes.addressof(buffer)
        return prototype(called)


class _Printed:
    """A file of C in memory: its text is what a call printed."""

    def __enter__(self) -> "_Printed":
        self.libc = ctypes.CDLL(None)
        self.libc.open_memstream.restype = c_void_p
        self.libc.fclose.argtypes = [c_void_p]
        self.libc.free.argtypes = [c_void_p]
        self.at, self.size = c_void_p(), c_size_t()
        self.file = self.libc.open_memstream(ctypes.byref(self.at), ctypes.byref(self.size))
        if not self.file:
            raise OutOfMemory()
        return self

    def __exit__(self, *_: Any) -> None:
        self.libc.fclose(self.file)
        self.text = ctypes.string_at(self.at, self.size.value).decode("utf-8", "replace") if self.at else ""
        self.libc.free(self.at)


class Snapshot:
    """A heap at one moment. `Collection` makes it. An address is a number to it. Numbers that do not fit raise OutOfRange."""

    def __init__(self, at: int, owner: "_Handle") -> None:
        self._at, self._owner = at, owner
        self._reasons: Dict[str, Any] = {}

    def clear(self) -> None:
        """Empties the snapshot."""
        _CALLS.snapshot_clear(self._at)

    def object(self, address: int, kind: int, fields: int) -> int:
        """Places an object with fields, of which none is set. Returns its place, or 0 after a fault."""
        return int(_CALLS.snapshot_object(self._at, _fit(address, 64), _fit(kind, 32), _fit(fields, 64)))

    def words(self, address: int, kind: int, words: Row) -> int:
        """Places an object of plain words. Returns its place, or 0 after a fault."""
        at, count, _held = _row(words)
        return int(_CALLS.snapshot_words(self._at, _fit(address, 64), _fit(kind, 32), at, count))

    def bytes(self, address: int, kind: int, content: Any) -> int:
        """Places a byte string. Returns its place, or 0 after a fault."""
        block = Block(memoryview(content).cast("B"), "B")
        return int(_CALLS.snapshot_bytes(self._at, _fit(address, 64), _fit(kind, 32), block.address, block.count))

    def find(self, address: int) -> int:
        """Returns the place of the object that starts at this address, or 0."""
        return int(_CALLS.snapshot_find(self._at, _fit(address, 64)))

    def reference(self, address: int) -> int:
        """Returns the word of a reference to the object at this address, which may be placed later."""
        return int(_CALLS.snapshot_reference(self._at, _fit(address, 64)))

    def inside(self, address: int, offset: int) -> int:
        """Returns the word of a reference to this byte of the object at an address."""
        return int(_CALLS.snapshot_inside(self._at, _fit(address, 64), _fit(offset, 32)))

    def constant(self, word: int) -> int:
        """Returns the word for 64 bits that are no reference."""
        return int(_CALLS.snapshot_constant(self._at, _fit(word, 64)))

    def fixed(self, address: int) -> int:
        """Returns the word of a reference to an object that cannot move, and that no snapshot has."""
        return int(_CALLS.snapshot_fixed(self._at, _fit(address, 64)))

    def doubtful(self, word: int, why: str) -> int:
        """Returns a word that corresponds to nothing. The reason is printed."""
        reason = self._reasons.setdefault(why, why.encode())  # the library keeps its address
        return int(_CALLS.snapshot_doubtful(self._at, _fit(word, 64), reason))

    def set(self, place: int, field: int, word: int) -> None:
        """Sets a field to a word that one of the calls above returned."""
        _CALLS.snapshot_set(self._at, _fit(place, 32), _fit(field, 64), _fit(word, 64))

    def set_row(self, place: int, first: int, row: Row, words: Words) -> None:
        """Sets fields that lie one behind the other to what these words become."""
        at, count, _held = _row(row)
        _CALLS.snapshot_set_words(self._at, _fit(place, 32), _fit(first, 64), at, count, _function(words))

    def root(self, word: int) -> None:
        """Adds a root."""
        _CALLS.snapshot_root(self._at, _fit(word, 64))

    def roots(self, row: Row, words: Words) -> None:
        """Adds roots: what these words become."""
        at, count, _held = _row(row)
        _CALLS.snapshot_roots(self._at, at, count, _function(words))

    def next(self, first: int, end: int, alignment: int) -> int:
        """Returns an address from `first` on and below `end` that a word led to and where nothing was placed, or 0 if there is none left."""
        return int(_CALLS.snapshot_next(self._at, _fit(first, 64), _fit(end, 64), _fit(alignment, 64)))

    def set_weak(self, place: int, field: int, target: int) -> None:
        """Sets a field to a weak reference to the object at this address, or to a cleared one with 0."""
        _CALLS.snapshot_set_weak(self._at, _fit(place, 32), _fit(field, 64), _fit(target, 64))

    def weak_root(self, target: int) -> None:
        """Adds a root that is a weak reference."""
        _CALLS.snapshot_weak_root(self._at, _fit(target, 64))

    def doubts(self, names: Optional[Names] = None) -> str:
        """Returns lines about words that are doubtful and fields that were never set, or an empty text if there are none."""
        with _Printed() as printed:
            _CALLS.snapshot_doubts(self._at, _raw(names), printed.file)
        return printed.text


def _raw(names: Optional[Names]) -> Any:
    return None if names is None else ctypes.addressof(names.raw)


class _Handle:
    """A collection of the library, which is freed when nothing refers to it or to a snapshot of it any more."""

    def __init__(self) -> None:
        self.at = _CALLS.collection_open()
        if not self.at:
            raise OutOfMemory()

    def __del__(self) -> None:
        if getattr(self, "at", None):
            _CALLS.collection_close(self.at)


class Collection:
    """A collection of another runtime: its snapshots before and after, and pairs. Use it in one thread at a time."""

    def __init__(self) -> None:
        handle = _Handle()
        self._handle, self._at = handle, handle.at
        self.before = Snapshot(_CALLS.before(self._at), handle)
        self.after = Snapshot(_CALLS.after(self._at), handle)

    def clear(self) -> None:
        """Empties both snapshots and the list of pairs."""
        _CALLS.collection_clear(self._at)

    def pair(self, old_address: int, new_address: int) -> None:
        """Adds the pair of the objects at these addresses."""
        _CALLS.collection_pair(self._at, _fit(old_address, 64), _fit(new_address, 64))

    def check(self) -> int:
        """Checks the collection with the pairs that were added, and returns their number with those of the library.

        Raises Refused, Faulty if a snapshot has a fault, OutOfMemory or TooManyPairs. `explain` says more."""
        return self._asked(_CALLS.collection_check)

    def infer(self) -> int:
        """The same without pairs, which it finds."""
        return self._asked(_CALLS.collection_infer)

    def _asked(self, call: Any) -> int:
        verdict = Verdict()
        answer = call(self._at, verdict)
        if answer == Answer.REFUSED:
            raise Refused(Refusal(verdict.refusal), verdict.place, verdict.field)
        if answer == Answer.FAULTY:
            raise Faulty(self.explain().split("\n")[0])
        if answer != Answer.YES:
            raise TooManyPairs() if answer == Answer.TOO_MANY else OutOfMemory()
        return int(verdict.pairs)

    def pairs(self) -> int:
        """Returns the number of pairs of the last check."""
        return int(_CALLS.collection_pairs(self._at))

    def has_replica(self, new_address: int) -> bool:
        """Returns whether a pair of the last check has the object of the snapshot after at this address."""
        return bool(_CALLS.collection_has_replica(self._at, _fit(new_address, 64)))

    def explain(self, names: Optional[Names] = None) -> str:
        """Returns what the last check found, in lines."""
        with _Printed() as printed:
            _CALLS.collection_explain(self._at, _raw(names), printed.file)
        return printed.text

    def text(self) -> str:
        """Returns a pair text of the snapshots, or a text of both images if they are large. It is empty if a snapshot has a fault."""
        with _Printed() as printed:
            _CALLS.collection_write(self._at, printed.file)
        return printed.text

    def old_addresses(self, first: int = 0, end: int = 0, names: Optional[Names] = None) -> str:
        """Returns lines about constants of the snapshot after that are addresses of the snapshot before, or lie from `first` on and below `end`."""
        with _Printed() as printed:
            _CALLS.collection_old_addresses(self._at, _fit(first, 64), _fit(end, 64), _raw(names), printed.file)
        return printed.text
