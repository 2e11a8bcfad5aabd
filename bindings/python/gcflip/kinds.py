"""What a program says of kinds, for printers, walks and checks, as the table of kinds of `herbpond.h`.

>>> from gcflip import Heap
>>> from gcflip.kinds import Kind, fits, kind_name
>>> kinds = [Kind("text"), Kind("point", 2, [0, 1])]
>>> [kind_name(kinds, kind) for kind in (0, 1, 2, 255)]
['text', 'point', '', 'box']
>>> heap = Heap(100)
>>> heap.new(0, 1, 2)
>>> heap.put_number(0, 0, 0, 7)
>>> fits(heap, kinds, 0, 1)  # field 1 is None
False
>>> heap.put_number(0, 0, 1, 8)
>>> fits(heap, kinds, 0, 1)
True
"""
from __future__ import annotations

from typing import TYPE_CHECKING, Collection, NamedTuple, Optional, Sequence

if TYPE_CHECKING:
    from .heap import Heap

KIND_SPINE, KIND_PART = 253, 254
"""The kinds of objects that arrays are made of. A program uses other kinds."""


class Kind(NamedTuple):
    """What a program says of a kind."""

    name: str
    """Its name, or "" if it has none."""
    fields: Optional[int] = None
    """The number of fields of each object, or None if objects may have any."""
    numbers: Collection[int] = ()
    """The fields that hold numbers. A raw object holds numbers alone, and needs none here."""


OWN = (Kind("spine"), Kind("part"), Kind("box", 2))


def kind_of(kinds: Sequence[Kind], kind: int) -> Kind | None:
    """Returns the description of a kind, or None if it has none. `kinds` are kinds 0 and on."""
    if 0 <= kind < len(kinds):
        return kinds[kind]
    return OWN[kind - KIND_SPINE] if 0 <= kind - KIND_SPINE < len(OWN) else None


def kind_name(kinds: Sequence[Kind], kind: int) -> str:
    """Returns the name of a kind, or "" if it has none."""
    found = kind_of(kinds, kind)
    return found.name if found else ""


def object_fits(heap: Heap, kinds: Sequence[Kind], address: int) -> bool:
    """Returns whether the object at this address has the fields that the description of its kind says: so many, with a number in each that holds one. A field
    that was not written yet holds None, which is no number. An object of a kind without a description fits. Where no object starts, none fits."""
    found = heap.object_at(address)
    if found is None:
        return False
    kind = kind_of(kinds, found.kind)
    if kind is None:
        return True
    return kind.fields in (None, found.length) and all(isinstance(heap.field_at(address, field)[0], int) for field in kind.numbers if field < found.length)


def fits(heap: Heap, kinds: Sequence[Kind], root: int, kind: int) -> bool:
    """Returns whether the root refers to an object of this kind that fits it."""
    found = heap.look(root)
    return found is not None and not isinstance(found, int) and found.kind == kind and object_fits(heap, kinds, heap.address(root))
