"""Two images without a certificate: the pairs that every certificate has, and paths that say where a fault is."""
from __future__ import annotations

import ctypes
from ctypes import c_size_t, c_uint32, c_uint64
from dataclasses import dataclass
from typing import List, Optional, Tuple

from .checker import Image, Block, arguments_of
from .errors import OutOfMemory, Refusal, Refused
from .library import LIBRARY, Answer, Verdict, in_range


@dataclass(frozen=True)
class Path:
    """A path from a root: the place of the root in the list of roots, and the fields that lead on from it."""

    place: int
    fields: Tuple[int, ...]

    def words(self, roots: int) -> str:
        """Names the path. `roots` is the length of the list of roots: if that is the number of slots of some mutators, the root has a slot's name."""
        return " . ".join([root_name(self.place, roots), *("field %d" % field for field in self.fields)])


def root_name(place: int, roots: int) -> str:
    """Names the root at this place of a list of this length: `g3 (place 3)`, `r0 of mutator 1 (place 32)`, or `root 5`."""
    if roots < 32 or roots % 16 != 0 or roots > 272:
        return "root %d" % place
    slot = "g%d" % place if place < 16 else "r%d of mutator %d" % (place % 16, place // 16 - 1)
    return "%s (place %d)" % (slot, place)


@dataclass(frozen=True)
class Comparison:
    """What two images say without a certificate."""

    pairs: List[Tuple[int, int]]
    """The pairs that every certificate has which holds of the images, in the order of new addresses."""
    refused: Optional[Refused]
    """None if the pairs are a certificate that holds. Otherwise no certificate holds, and this is the checker's refusal of the pairs."""


def compare(old: Image, new: Image) -> Comparison:
    """Infers the pairs of two images, and checks them.

    Makes no assumption about the images. If `refused` is None, the soundness theorem holds of the pairs, as after `check`. Raises
    OutOfMemory, OutOfRange for a size of more than 32 bits, and OverflowError for a word that is too large.
    """
    blocks = [Block(row, "Q") for image in (old, new) for row in (image.words, image.roots)]
    room = blocks[2].count // 2 + 1
    found = (c_uint32 * (2 * room))()
    count, verdict = c_size_t(), Verdict()
    answer = LIBRARY.gcflip_infer(*arguments_of(old, *blocks[:2]), *arguments_of(new, *blocks[2:]), ctypes.addressof(found), room,
                                  count, verdict)
    if answer == Answer.NO_MEMORY:
        raise OutOfMemory()
    addresses = found[:2 * count.value]
    refused = Refused(Refusal(verdict.refusal), verdict.place, verdict.field) if answer == Answer.REFUSED else None
    return Comparison(list(zip(addresses[::2], addresses[1::2])), refused)


def path_to(image: Image, address: int) -> Optional[Path]:
    """Returns a shortest path from a root to a reference to this address, or None if no path leads there or the image is not shaped.

    Raises OutOfMemory, OutOfRange for an address or a size of more than 32 bits, and OverflowError for a word that is too large.
    """
    address, = in_range((address,), [c_uint32])
    words, roots = Block(image.words, "Q"), Block(image.roots, "Q")
    room = 16
    while True:
        place, count, fields = c_uint64(), c_size_t(), (c_uint64 * room)()
        answer = LIBRARY.gcflip_path(*arguments_of(image, words, roots), address, place, ctypes.addressof(fields), room, count)
        if answer == Answer.NO_MEMORY:
            raise OutOfMemory()
        if answer != Answer.LONG_PATH:
            return Path(place.value, tuple(fields[:count.value])) if answer == Answer.YES else None
        room = count.value


def explained(old: Image, new: Image, pairs: List[Tuple[int, int]], refused: Refused) -> str:
    """Says in words where a refusal of these pairs is: the path from a root, and what stands there in both images.

    The pairs may be inferred or a collector's own. Where no path leads to the place, its address is given.
    """
    refusal, place = refused.refusal, refused.place
    if refusal in (Refusal.OldShape, Refusal.NewShape):
        image = old if refusal == Refusal.OldShape else new
        word = "word %d is no header, or its object runs past the end" % place if place else "its size, its end or word 0 is wrong"
        return "the %s image is no heap: %s%s" % (refusal.name[:3].lower(), word, ": %d" % image.words[place] if 0 < place < len(image.words) else "")
    if refusal == Refusal.RootCount:
        return "the images have different numbers of roots: old %d, new %d" % (len(old.roots), len(new.roots))
    if refusal == Refusal.RootDiffers:
        return "%s: old %s, new %s" % (root_name(place, len(old.roots)), shown(old.roots[place]), shown(new.roots[place]))
    if refusal in (Refusal.HeaderDiffers, Refusal.FieldDiffers):
        return _explained_pair(old, new, pairs[place], refused)
    return {Refusal.OldNotStart: "no object starts at the old address %d of pair %d" % (pairs[place][0], place),
            Refusal.NewNotStart: "no object starts at the new address %d of pair %d" % (pairs[place][1], place),
            Refusal.NotRising: "the new address %d of pair %d is not above that of the pair before it" % (pairs[place][1], place),
            Refusal.Twice: "an earlier pair has the old address %d of pair %d" % (pairs[place][0], place)}[refusal]


def _explained_pair(old: Image, new: Image, pair: Tuple[int, int], refused: Refused) -> str:
    """Explains a refusal of the objects of a pair."""
    path = path_to(old, pair[0])
    where = path.words(len(old.roots)) if path else "object %d, which no root reaches" % pair[0]
    if refused.refusal == Refusal.HeaderDiffers:
        return "%s: old %s, new %s" % (where, _shown_header(old.words[pair[0]]), _shown_header(new.words[pair[1]]))
    words = [int(image.words[address + 2 + refused.field]) for image, address in ((old, pair[0]), (new, pair[1]))]
    if _is_raw(old.words[pair[0]]):
        return "%s . field %d: old %d, new %d" % (where, refused.field, words[0], words[1])
    return "%s . field %d: old %s, new %s" % (where, refused.field, shown(words[0]), shown(words[1]))


def shown(word: int) -> str:
    """Says what a root word, or a field word of an object that is not raw, means."""
    if word == 0:
        return "nil"
    return str(word // 2) if word % 2 == 1 else "a reference to %d" % (word // 2)


LEAST_RAW = 50331648
LENGTHS = 65536


def _is_raw(header: int) -> bool:
    return header >= LEAST_RAW


def _shown_header(header: int) -> str:
    length = header % LENGTHS
    fields = "1 field" if length == 1 else "%d fields" % length
    return "%s of kind %d with %s" % ("a raw object" if _is_raw(header) else "an object", header // LENGTHS % 256, fields)
