"""Checks pair texts and image texts, draws them, and spoils pairs."""
from __future__ import annotations

import bisect
import copy
import gc
import random
from typing import Any, NamedTuple

import gcflip
from gcflip import BadText, Refused, check_text, compare, explained
from gcflip.inference import root_name
from gcflip_drawing.blocks_picture import blocks_of
from gcflip_drawing.excerpt import MOST_OBJECTS, excerpt_of, starts_between
from gcflip_drawing.heap import Object, beyond, header_of, shown
from gcflip_drawing.images_text import read_images
from gcflip_drawing.pair_picture import scene_of
from gcflip_drawing.pair_text import Image, PairText, Unreadable, read_accepted
from gcflip_drawing.scene import Scene, Space, counted
from gcflip_drawing.scene_picture import drawn_in_width, is_in_blocks
from gcflip_drawing.scene_text import told
from gcflip_drawing.verdicts import Verdict
from gcflip_drawing.words_picture import drawn_word_by_word, grid_of


class Place(NamedTuple):
    """The place of a word in a pair text: among the words or the roots of a heap."""

    heap: str
    row: str
    at: int


HEADING = b"heapimages "
INFERRED = "The pairs were found from the two images."


class Opened(NamedTuple):
    """A text that was read and checked: its pair, the verdict, where a refusal is, the scene, and what was drawn of it, by widths."""

    pair: PairText
    verdict: Verdict
    where: str
    scene: Scene
    drawings: dict[int, dict[str, Any]]


# The texts that were opened last, the last one behind the others: a pair, and the one from which it was spoiled. Nobody may change what they have.
KEPT: dict[bytes, Opened] = {}
MOST_KEPT = 2


def keep(text: bytes, found: Opened) -> Opened:
    """Keeps what was found of a text for later requests about it, and returns it."""
    KEPT.pop(text, None)
    KEPT[text] = found
    for other in list(KEPT)[:-MOST_KEPT]:
        KEPT.pop(other, None)
    return found


def opened(text: bytes) -> Opened:
    """Reads and checks a pair text, or an image text, whose pairs are inferred, unless that was done already. Raises BadText or Unreadable."""
    found = KEPT.get(text)
    if found is None:
        found = found_for(text, *(compared(text) if text.startswith(HEADING) else read_and_checked(text)))
        # Python looks for garbage now, so that the next answer does not wait until it has looked at all these pairs.
        gc.collect()
    return keep(text, found)


def found_for(text: bytes, pair: PairText, refused: Refused | None, **known: Space) -> Opened:
    """Returns what the page shows of a text, whose pair and refusal are known. A space that is known need not be searched again."""
    verdict = Verdict(str(refused) if refused else "yes %d" % len(pair.pairs))
    scene = scene_of(pair, "The pair of heaps", verdict, **known)
    # The page shows the verdict above the picture.
    scene.caption = None
    place = where(pair, refused)
    if text.startswith(HEADING):
        place = "%s %s" % (INFERRED, place) if place else INFERRED
    return Opened(pair, verdict, place, scene, {})


def checked(text: bytes, width: int) -> dict[str, Any]:
    """Returns the line that the checker prints for a text, its meaning, where a refusal is, and the picture if the text is a pair text or
    an image text."""
    try:
        found = opened(text)
        if width not in found.drawings:
            found.drawings[width] = drawn(found, width)
        return found.drawings[width]
    except BadText as fault:
        return {"line": str(fault), "fault": True, "bad_line": getattr(fault, "line", None)}
    except Unreadable as unreadable:
        return {"line": "images: %s" % unreadable, "fault": True, "bad_line": None}


def read_and_checked(text: bytes) -> tuple[PairText, Refused | None]:
    """Returns the pair of a text, and the checker's refusal, or None if it says yes. Raises BadText."""
    refused = refusal_of(text)
    return read_accepted(text.decode("ascii")), refused


def refusal_of(text: bytes) -> Refused | None:
    """Returns the checker's refusal of a pair text, or None if it says yes. Raises BadText."""
    try:
        check_text(text)
    except Refused as refusal:
        return refusal
    return None


def compared(text: bytes) -> tuple[PairText, Refused | None]:
    """Returns the same for an image text, with the pairs that are found. Raises Unreadable."""
    found = read_images(text.decode("ascii", "replace"))
    for name in ("old", "new"):
        if name not in found:
            raise Unreadable("there is no %s image" % name)
    comparison = compare(*(image_of(found[name], True) for name in ("old", "new")))
    return PairText(True, found["old"], found["new"], comparison.pairs), comparison.refused


def image_of(image: Image, raws: bool) -> gcflip.Image:
    return gcflip.Image(image.words, image.roots, image.size, raws)


def where(pair: PairText, refused: Refused | None) -> str:
    """Says where a refusal is: the path from a root, and what stands there in both heaps."""
    return explained(image_of(pair.old, pair.raws), image_of(pair.new, pair.raws), pair.pairs, refused) if refused else ""


def with_change(scene: Scene, changed: Place) -> Scene:
    """Returns a scene with a mark of a word that was just changed."""
    marked = copy.copy(scene)
    marked.marks, marked.changed_roots = list(scene.marks), set(scene.changed_roots)
    marked.note_changed(changed.heap == "old", changed.row, changed.at)
    marked.legend = [*scene.legend, ("changed", "just changed")]
    return marked


def drawn(found: Opened, width: int, changed: Place | None = None) -> dict[str, Any]:
    """Returns the verdict on a pair, and its picture. `block` is the number of words of a block, if the picture is one of blocks."""
    pair, verdict = found.pair, found.verdict
    scene = with_change(found.scene, changed) if changed else found.scene
    return {"line": verdict.line, "fault": False, "refused": verdict.refusal is not None, "meaning": verdict.meaning(), "where": found.where,
            "picture": drawn_in_width(scene, width).described(), "told": told(scene), "place": place_of(pair, verdict),
            "block": blocks_of(width).words(scene) if is_in_blocks(scene) else None,
            "near": near(scene, pair, verdict, width) if is_in_blocks(scene) else None}


def near(scene: Scene, pair: PairText, verdict: Verdict, width: int) -> dict[str, Any] | None:
    """Returns the picture of the refused objects of a scene that is drawn in blocks, if objects are refused."""
    for is_old in (True, False):
        address = verdict.address(is_old, pair.pairs)
        if address is not None:
            return zoomed(scene, is_old, address, address, width)
    return None


def zoomed(scene: Scene, is_old: bool, first: int, last: int, width: int, skipped: int = 0) -> dict[str, Any] | None:
    """Returns the picture of the first objects with a word from `first` to `last`, behind those that are skipped, word by word, with their replicas or
    originals. None if there is no object."""
    excerpt = excerpt_of(scene, is_old, first, last, skipped)
    return drawn_word_by_word(excerpt, grid_of(width)).described() if excerpt.old.words or excerpt.new.words else None


# Of a large object, so many words are shown before and after the refused one.
AROUND = 6


def place_of(pair: PairText, verdict: Verdict) -> list[dict[str, Any]]:
    """Returns what stands at the place of a refusal, for each heap: a heading, and rows with the part of the object, the address, the word, its
    meaning, the line of the pair text, and whether it is the refused word."""
    found = []
    for heap, is_old in (("old", True), ("new", False)):
        image: Image = getattr(pair, heap)
        first = first_line(pair, heap)
        address = verdict.address(is_old, pair.pairs)
        if verdict.root() is not None and verdict.root() < len(image.roots):
            word = image.roots[verdict.root()]
            row = row_of_place(root_name(verdict.root(), len(image.roots)), None, word, shown(word, beyond(image.words)), first + 1 + len(image.words) + 1 + verdict.root(), True)
            found.append({"heading": "%s heap" % heap, "rows": [row]})
        elif address is not None and address < len(image.words):
            found.append({"heading": "%s heap" % heap, "rows": object_rows(image, pair.raws, address, verdict.field(), first)})
    return found


def objects_between(text: bytes, heap: str, first: int, last: int, width: int, skipped: int = 0) -> dict[str, Any]:
    """Returns some objects of a heap with a word from `first` to `last`, behind those that are skipped: tables of the first words of each, their picture,
    and how many objects the range has. Raises BadText or Unreadable."""
    pair, _, _, scene, _ = opened(text)
    image: Image = getattr(pair, heap)
    starts = starts_between(scene.old if heap == "old" else scene.new, first, last)
    shown_ones = starts[skipped:skipped + MOST_OBJECTS]
    tables = [{"heading": "object at %d of the %s heap" % (start, heap),
               "rows": object_rows(image, pair.raws, start, None, first_line(pair, heap), False)} for start in shown_ones]
    return {"places": tables, "picture": zoomed(scene, heap == "old", first, last, width, skipped), "count": len(starts), "skipped": skipped,
            "shown": len(shown_ones)}


def first_line(pair: PairText, heap: str) -> int:
    """Returns the number of the line that begins a heap: `old SIZE END` or `new SIZE END`."""
    return 2 if heap == "old" else 2 + 1 + len(pair.old.words) + 1 + len(pair.old.roots)


def row_of_place(part: str, address: int | None, word: int, meaning: str, line: int, is_refused: bool) -> dict[str, Any]:
    # Words have up to 20 digits, more than a number of JavaScript keeps exactly.
    return {"part": part, "address": address, "word": str(word), "meaning": meaning, "line": line, "refused": is_refused}


def object_rows(image: Image, raws: bool, address: int, field: int | None, first: int, is_refused: bool = True) -> list[dict[str, Any]]:
    """Returns the rows of the words of an object, or of the one word at an address where no object starts."""
    header = header_of(image.words[address], raws)
    size = min(header[2] + 2 if header else 1, len(image.words) - address)
    refused = 0 if field is None else 2 + field
    rows = []
    for at in range(max(0, refused - AROUND), min(size, refused + AROUND + 1)):
        word = image.words[address + at]
        part = ("header" if header else "no header", "link")[at] if at < 2 else "field %d" % (at - 2)
        meaning = described_header(header) if at == 0 else "" if at == 1 else str(word) if header and header[0] else shown(word, beyond(image.words))
        rows.append(row_of_place(part, address + at, word, meaning, first + 1 + address + at, is_refused and at == refused))
    return rows


def described_header(header: tuple[bool, int, int] | None) -> str:
    return "" if header is None else "%s of kind %d, %s" % ("raw object" if header[0] else "object", header[1], counted(header[2], "field"))


def row_of(pair: PairText, heap: str, row: str) -> list[int]:
    image: Image = getattr(pair, heap)
    return getattr(image, row)


def space_of(scene: Scene, place: Place) -> Space:
    return scene.old if place.heap == "old" else scene.new


def name_of(scene: Scene, place: Place) -> str:
    """Says what a word is: a root, or a part of an object."""
    if place.row == "roots":
        return "%s of the %s heap" % (root_name(place.at, len(space_of(scene, place).roots)), place.heap)
    if place.at == 0:
        return "the reserved word 0 of the %s heap" % place.heap
    thing = object_around(scene, place)
    if thing is not None:
        part = {0: "the header", 1: "the link"}.get(place.at - thing.start, "field %d" % (place.at - thing.start - 2))
        return "%s of the object at %d of the %s heap" % (part, thing.start, place.heap)
    return "word %d of the %s heap" % (place.at, place.heap)


def object_around(scene: Scene, place: Place) -> Object | None:
    """Returns the object that has a word, or None if the word belongs to none, or is a root."""
    if place.row == "roots":
        return None
    space = space_of(scene, place)
    at = bisect.bisect_right(space.starts, place.at) - 1
    thing = space.objects[space.starts[at]] if at >= 0 else None
    return thing if thing is not None and place.at < thing.start + thing.size() else None


def other_words(word: int, chosen: random.Random) -> list[int]:
    """Returns words that could replace a word: nil, a number, a reference, the next word, or one bit changed."""
    found = [0, 2 * chosen.randrange(100) + 1, 2 * chosen.randrange(1, 16), word + 1, word ^ 1 << chosen.randrange(26)]
    return [other for other in found if other != word and other < 1 << 64]


def why_accepted(scene: Scene, place: Place) -> str:
    """Explains why the checker says yes although a word changed."""
    thing = object_around(scene, place)
    if thing is not None and place.at == thing.start + 1:
        return "It is a link word, and no check reads links."
    paired = {places[0 if place.heap == "old" else 1] for places in scene.joined}
    if thing is not None and thing.start not in paired:
        return "It belongs to an object that is in no pair, and that no reachable object refers to: garbage, which need not be copied."
    return "The pair still meets all conditions."


def place_to_spoil(pair: PairText, chosen: random.Random) -> Place:
    """Returns the place of a word of one heap, or in one case of four of one of its roots that are not nil."""
    heap = chosen.choice(["old", "new"])
    roots = [at for at, word in enumerate(row_of(pair, heap, "roots")) if word != 0]
    if roots and chosen.randrange(4) == 0:
        return Place(heap, "roots", chosen.choice(roots))
    return Place(heap, "words", chosen.randrange(len(row_of(pair, heap, "words"))))


def with_word(pair: PairText, place: Place, word: int) -> PairText:
    """Returns a pair with another word at a place. It shares the heap that stays as it is."""
    changed = {name: getattr(pair, name) for name in ("old", "new")}
    image = changed[place.heap]
    rows = {"words": image.words, "roots": image.roots}
    rows[place.row] = [*rows[place.row][:place.at], word, *rows[place.row][place.at + 1:]]
    changed[place.heap] = Image(image.size, **rows)
    return PairText(pair.raws, changed["old"], changed["new"], pair.pairs)


def with_image(scene: Scene, image: Image, raws: bool, place: Place, before: int, after: int) -> Space:
    """Returns the space of a place with another image, in which only the word there differs."""
    space, thing = space_of(scene, place), object_around(scene, place)
    if place.row == "words" and (thing is None or place.at == thing.start):
        return Space(space.name, image, raws)
    other: Space = space.with_image(image)
    # A link leads nowhere.
    if thing is None or thing.start in space.live and not thing.raw and place.at > thing.start + 1:
        other.lead_on(before, after)
    return other


# So many bytes of a text are searched at once.
PIECE = 1 << 20


def line_start(text: bytes, line: int) -> int:
    """Returns where a line of a text begins. Lines are counted from 1."""
    at, behind = 0, line - 1
    while True:
        count = text.count(b"\n", at, at + PIECE)
        if count > behind or at + PIECE >= len(text):
            break
        at, behind = at + PIECE, behind - count
    for _ in range(behind):
        at = text.index(b"\n", at) + 1
    # The line that begins before a piece goes on in it.
    return text.rfind(b"\n", 0, at) + 1


def spoiled(text: bytes, width: int, chosen: random.Random) -> dict[str, Any]:
    """Changes one random word of a pair text. Returns the new text, where it differs, the change in words, and what the checker says. Raises BadText."""
    if text.startswith(HEADING):
        refusal_of(text)
    found = opened(text)
    pair = found.pair
    place = place_to_spoil(pair, chosen)
    before = row_of(pair, place.heap, place.row)[place.at]
    after = chosen.choice(other_words(before, chosen))
    other = with_word(pair, place, after)
    image: Image = getattr(pair, place.heap)
    at = line_start(text, first_line(pair, place.heap) + 1 + place.at + (1 + len(image.words) if place.row == "roots" else 0))
    new_text = b"%s%d%s" % (text[:at], after, text[at + len(str(before)):])
    # The pair is known, so that the new text is checked, and not read. Nor is all of a space searched again.
    spaces = {"old": found.scene.old, "new": found.scene.new}
    spaces[place.heap] = with_image(found.scene, getattr(other, place.heap), pair.raws, place, before, after)
    new = keep(new_text, found_for(new_text, other, refusal_of(new_text), **spaces))
    said = "Changed %s from %d to %d." % (name_of(found.scene, place), before, after)
    shown = drawn(new, width, place)
    if not shown["refused"]:
        said += " The checker still says yes. " + why_accepted(new.scene, place)
    return {**shown, "text": new_text, "change": {"at": at, "from": str(before), "to": str(after)}, "said": said}
