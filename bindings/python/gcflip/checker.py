"""The checker, which decides whether one heap image may replace another."""
from __future__ import annotations

import array
import ctypes
from ctypes import c_uint32
from dataclasses import dataclass
from typing import Any, Dict, Iterable, Sequence, Tuple, Type, Union

from .errors import BadLine, EndsEarly, OutOfMemory, Refusal, Refused, TextTooLarge, TooManyPairs
from .library import LIBRARY, Answer, Verdict, in_range

Row = Union[Sequence[int], "array.array[int]", memoryview]
"""Words. An `array` of type 'Q', a NumPy array of `uint64`, or another contiguous buffer of 64-bit words is read in place, also if it is read-only. Other
sequences are copied."""

Pairs = Union[Iterable[Tuple[int, int]], "array.array[int]", memoryview]
"""Pairs of an old address and a new one. A contiguous buffer of 32-bit words, two for each pair, is read in place."""


@dataclass(frozen=True)
class Image:
    """A heap image, as docs/FORMATS.md describes its words."""

    words: Row
    """The words 0 to end - 1 of the space."""
    roots: Row
    """The root words."""
    size: int | None = None
    """The words of the space, 1 to 4294967295; by default the length of `words`."""
    raws: bool = True
    """Whether header words of raw objects are valid."""


class _Buffer(ctypes.Structure):
    """What Python's C API tells of a buffer: Py_buffer."""

    _fields_ = [("at", ctypes.c_void_p), ("owner", ctypes.py_object), ("bytes", ctypes.c_ssize_t), ("item", ctypes.c_ssize_t), ("readonly", ctypes.c_int),
                ("dimensions", ctypes.c_int), ("format", ctypes.c_char_p), ("shape", ctypes.c_void_p), ("strides", ctypes.c_void_p),
                ("suboffsets", ctypes.c_void_p), ("internal", ctypes.c_void_p)]


_GET, _RELEASE = ctypes.pythonapi.PyObject_GetBuffer, ctypes.pythonapi.PyBuffer_Release
_GET.argtypes, _GET.restype = [ctypes.py_object, ctypes.POINTER(_Buffer), ctypes.c_int], ctypes.c_int
_RELEASE.argtypes, _RELEASE.restype = [ctypes.POINTER(_Buffer)], None
_SIMPLE = 0


class Block:
    """Numbers in memory that does not move while the block lives. A buffer is used where it is, also if it is read-only."""

    def __init__(self, numbers: Any, code: str) -> None:
        self.view = _view(numbers, code)
        self.count = self.view.nbytes // self.view.itemsize
        self.held, self.empty = _Buffer(), ctypes.c_uint64()
        _GET(self.view, self.held, _SIMPLE)
        # An empty array needs an address too.
        self.address: int = self.held.at if self.count else ctypes.addressof(self.empty)

    def __del__(self) -> None:
        if hasattr(self, "held"):
            _RELEASE(self.held)


def _view(numbers: Any, code: str) -> memoryview:
    """Returns a view of numbers of this type, either of the buffer itself or of a new array."""
    try:
        view = memoryview(numbers)
    except TypeError:
        return memoryview(array.array(code, numbers))
    wanted = array.array(code).itemsize
    if view.itemsize != wanted or view.format.lstrip("@=<") not in ("B", "I", "L", "Q") or not view.c_contiguous:
        raise TypeError("a row has to be contiguous, of unsigned numbers of %d bytes" % wanted)
    return view


def _flat(pairs: Pairs) -> Any:
    """Returns the addresses of pairs one after the other, as a buffer already has them."""
    try:
        return memoryview(pairs)  # type: ignore[arg-type]
    except TypeError:
        listed: Iterable[Any] = pairs
        return [address for old_address, new_address in listed for address in (old_address, new_address)]


def check(old: Image, new: Image, pairs: Pairs) -> int:
    """Checks a certificate against two images, and returns the number of its pairs.

    Makes no assumption about the images and the pairs. Other threads may run during the call, but must not write to them.

    If the call returns, it is proved that every object that the old roots reach has exactly one replica, equal to it field by
    field; that every path finds the same in both heaps; and that every list of commands gets the same replies from both, up
    to the first allocation for which one of them has no room.

    Raises Refused if a condition fails, OutOfMemory, TooManyPairs for 2^32 pairs or more, OutOfRange for a size of more than 32
    bits, and OverflowError for a word or an address that is too large.
    """
    addresses = Block(_flat(pairs), "I")
    if addresses.count % 2 == 1:
        raise TypeError("a pair has two addresses")
    verdict = Verdict()
    blocks = [Block(row, "Q") for image in (old, new) for row in (image.words, image.roots)]
    answer = LIBRARY.gcflip_check(*arguments_of(old, *blocks[:2]), *arguments_of(new, *blocks[2:]), addresses.address,
                                  addresses.count // 2, verdict)
    return _pairs_of(answer, verdict)


def arguments_of(image: Image, words: Block, roots: Block) -> tuple[Any, ...]:
    """Returns an image's arguments of a call."""
    size, count = in_range((words.count if image.size is None else image.size, words.count), [c_uint32, c_uint32])
    return size, count, image.raws, words.address, words.count, roots.address, roots.count


def check_text(text: bytes | bytearray | memoryview) -> int:
    """Checks the pair of images in a text of the format `heappair 1` or `heappair 2`, and returns the number of its pairs, as
    `check` does. Reads the text in place.

    Raises BadLine, EndsEarly or TextTooLarge if the text is not a pair text, else what `check` raises.
    """
    verdict = Verdict()
    block = Block(memoryview(text).cast("B"), "B")
    return _pairs_of(LIBRARY.gcflip_check_text(block.address, block.count, verdict), verdict)


def _pairs_of(answer: int, verdict: Verdict) -> int:
    """Returns the number of pairs of a yes. Raises the exception for any other answer."""
    if answer == Answer.REFUSED:
        raise Refused(Refusal(verdict.refusal), verdict.place, verdict.field)
    if answer == Answer.BAD_LINE:
        raise BadLine(verdict.place)
    errors: Dict[int, Type[Exception]] = {Answer.NO_MEMORY: OutOfMemory, Answer.TOO_MANY: TooManyPairs, Answer.TOO_LARGE: TextTooLarge, Answer.ENDS_EARLY: EndsEarly}
    if answer in errors:
        raise errors[answer]()
    return int(verdict.pairs)
