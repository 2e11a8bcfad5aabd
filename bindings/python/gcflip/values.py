"""Integers, doubles and specials in a heap, with the codes of `herbpond.h`, so that a heap means the same in C.

A number of the heap has 63 bits. Its lowest bit is 0 for an integer, and 1 for the others. Doubles from 2^-254 up to 2^257, zeros, infinities and NaN are
numbers, as Ruby's flonums. Each NaN becomes the same one. Other doubles are raw objects of two fields. A special is a number from 0 to 2^52 - 1, which the
program gives a meaning: a truth value, a character, or a symbol.

Nothing here is proved. The functions call a `gcflip.Heap`, whose roots they take by their places.

>>> from gcflip import Heap, values
>>> heap = Heap(100)
>>> values.set_int(heap, 0, -5)
>>> values.set_double(heap, 0, 1, 1e-300)  # a box, which is a raw object
>>> values.value(heap, 0), values.double(heap, 1)
(-5, 1e-300)
>>> heap.close()
"""
from __future__ import annotations

import math
import struct
from typing import NamedTuple, Optional, Union

from .errors import NoNumber, OutOfMemory, OutOfRange
from .heap import Heap, Object
from .heap import Value as HeapValue

LEAST_INT, MOST_INT = -(1 << 61), (1 << 61) - 1
"""The least and the largest integer that a number stands for."""
SPECIALS = 1 << 52
"""How many specials there are. They are counted from 0."""
KIND_BOX = 255
"""The kind of a raw object that holds a double. A program uses other kinds."""


class Special(NamedTuple):
    """A special, by its number."""

    number: int


Value = Union[None, int, float, Special, Object]
"""What a root or a field holds: None for nil, an integer, a double that is a number, a special, or an object."""

BOX = Object(KIND_BOX, 2, True)
# A code is the number without its lowest bit. Bit 61 of a double's code is its sign, and bits 0 to 60 are those of the double. Bits 52 to 60 are 256 for no
# such double. A code with 256 there is a special if bit 61 is clear, and one of five other doubles if it is set.
SIGN, RARE, RARE_BITS = 1 << 61, 256 << 52, 511 << 52
HALF, LARGEST = (1 << 32) - 1, (1 << 63) - 1
# Zeros and infinities, each before its negative one, and NaN.
RARE_DOUBLES = (0.0, -0.0, math.inf, -math.inf, math.nan)
NAN = 4


def code_of_int(integer: int) -> int:
    """Returns the number of an integer. Raises OutOfRange if it is below LEAST_INT or above MOST_INT."""
    if not LEAST_INT <= integer <= MOST_INT:
        raise OutOfRange("the integer %d has no number" % integer)
    return integer << 1 & LARGEST


def code_of_special(special: int) -> int:
    """Returns the number of a special. Raises OutOfRange if it is negative, or SPECIALS or above."""
    if not 0 <= special < SPECIALS:
        raise OutOfRange("there is no special %d" % special)
    return (RARE | special) << 1 | 1


def code_of_double(real: float) -> Optional[int]:
    """Returns the number of a double, or None for one that needs a box."""
    bits = _bits_of(real)
    if 0x300 < bits >> 52 & 0x7FF < 0x500:
        return (bits >> 63 << 61 | bits & (SIGN - 1)) << 1 | 1
    if math.isnan(real):
        rare = NAN
    elif real == 0:
        rare = bits >> 63
    elif math.isinf(real):
        rare = 2 + (bits >> 63)
    else:
        return None
    return (SIGN | RARE | rare) << 1 | 1


def value_of(number: int) -> Union[int, float, Special]:
    """Returns the value that a number below 2^63 stands for."""
    code = (number & LARGEST) >> 1
    if number & 1 == 0:
        return code - (1 << 62) if code & SIGN else code
    if code & RARE_BITS != RARE:
        exponent = 1 << 61 if code >> 60 & 1 else 1 << 62
        return _double_of(code >> 61 << 63 | code & (SIGN - 1) | exponent)
    return RARE_DOUBLES[min(code & 7, NAN)] if code & SIGN else Special(code & (SPECIALS - 1))


def value(heap: Heap, root: int) -> Value:
    """Returns what the root holds."""
    return _meant(heap.look(root))


def field(heap: Heap, root: int, number: int) -> Value:
    """Returns the value of a field of the object that the root refers to. No root takes it. Raises NoObject or NoField."""
    return _meant(heap.peek(root, number))


def set_int(heap: Heap, root: int, integer: int) -> None:
    """Puts an integer into the root. Raises OutOfRange if it is below LEAST_INT or above MOST_INT."""
    heap.set_number(root, code_of_int(integer))


def set_special(heap: Heap, root: int, special: int) -> None:
    """Puts a special into the root. Raises OutOfRange if it is negative, or SPECIALS or above."""
    heap.set_number(root, code_of_special(special))


def set_double(heap: Heap, mutator: int, root: int, real: float) -> None:
    """Puts a double into the root: a number, or a reference to a box of its low and its high half, which takes four words. If a log cannot grow while a box
    is filled, the open collection is given up. Raises OutOfRange if there is no such mutator, and Full if the heap has no room for the box."""
    heap.log_length(mutator)
    number = code_of_double(real)
    if number is not None:
        heap.set_number(root, number)
        return
    heap.new_raw(root, BOX.kind, BOX.length)
    bits = _bits_of(real)
    write_number(heap, mutator, root, 0, bits & HALF)
    write_number(heap, mutator, root, 1, bits >> 32)


def double(heap: Heap, root: int) -> float:
    """Returns the double in the root: a number, or that of a box. Raises NoNumber if the root holds another value."""
    found = value(heap, root)
    if isinstance(found, float):
        return found
    if found != BOX:
        raise NoNumber
    low, high = heap.peek(root, 0), heap.peek(root, 1)
    assert isinstance(low, int) and isinstance(high, int)
    return _double_of((low | high << 32) & (1 << 64) - 1)


def put_int(heap: Heap, mutator: int, root: int, number: int, integer: int) -> None:
    """Writes an integer into a field of the object that the root refers to, as `Heap.put_number` writes its number. Raises OutOfRange if it is below LEAST_INT
    or above MOST_INT."""
    heap.put_number(mutator, root, number, code_of_int(integer))


def write_number(heap: Heap, mutator: int, root: int, number: int, content: int) -> None:
    """Writes a number below 2^63 into a field, as `Heap.put_number` does, and gives the open collection up if its log cannot grow."""
    try:
        heap.put_number(mutator, root, number, content)
    except OutOfMemory:
        heap.give_up()
        heap.put_number(mutator, root, number, content)


def _meant(found: HeapValue) -> Value:
    return value_of(found) if isinstance(found, int) else found


def _bits_of(real: float) -> int:
    bits, = struct.unpack("<Q", struct.pack("<d", real))
    assert isinstance(bits, int)
    return bits


def _double_of(bits: int) -> float:
    real, = struct.unpack("<d", struct.pack("<Q", bits))
    assert isinstance(real, float)
    return real
