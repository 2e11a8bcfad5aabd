"""Describes the picture of a heap while a trace is played: its space, and the new space of an open collection with links, scan pointer
and log entries."""
from typing import NamedTuple

from .heap import target, walk
from .pair_text import Image
from .scene import Mark, Scan, Scene, Space

LEGEND = [("object", "reachable"), ("raw", "raw"), ("garbage", "unreachable"), ("free", "free"), ("root", "root"), ("changed", "just changed")]
LEGEND_OF_A_COLLECTION = [("logged", "field of a log entry"), ("scan", "scan pointer")]


class State(NamedTuple):
    """The state of a heap that is drawn. All addresses are the library's."""

    old: Image
    new: "Image | None"
    """The new space of an open collection. Its roots are those that a flip would make."""
    scan: "tuple[int, int]"
    """The replica at the scan pointer, and the number of its fields that are scanned."""
    logs: "list[list[tuple[int, int]]]"
    """The object and the field of each entry of each mutator's log."""
    is_ready: bool
    """Whether the collection is ready, so that the checker would be asked now."""
    changed: "tuple[Changed, ...]"
    """What the last event changed."""


class Changed(NamedTuple):
    """A word of the old or new space, or a root word, that the last event changed. `row` is words or roots."""

    is_old: bool
    row: str
    address: int


def replicas(new_words):
    """Returns the pairs of an open collection: each replica's link is its original's address."""
    return [(new_words[start + 1], start) for start in walk(new_words, True)]


def new_roots(old, new_words):
    """Returns the root words that a flip would make. A root whose target has no replica becomes nil."""
    places = dict(replicas(new_words))
    return [word if target(word) is None else 2 * places.get(target(word), 0) for word in old.roots]


def logged(state, places):
    """Yields marks of the fields that log entries name, in the originals and in their replicas."""
    for mutator, log in enumerate(state.logs):
        for thing, field in log:
            tip = "logged by mutator %d" % mutator
            yield Mark(True, thing + 2 + field, 1, "logged", tip)
            if thing in places:
                yield Mark(False, places[thing] + 2 + field, 1, "logged", tip + ", to be brought up to date")


def scan_of(state, objects):
    """Returns the place of the scan pointer: before the next field, or after an object whose fields are all scanned."""
    start, field = state.scan
    if start not in objects:
        return Scan(len(state.new.words) - 1, True)
    is_behind = field == objects[start].count
    return Scan(start + 2 + field - (1 if is_behind else 0), is_behind)


def scene_of(state, title):
    """Returns the scene of a state."""
    if state.new is None:
        scene = Scene(title, Space("space", state.old))
    else:
        old, pairs = Space("old space", state.old), replicas(state.new.words)
        live = {new for original, new in pairs if original in old.live}
        # The roots refer to the old space until the flip.
        new = Space("new space", Image(state.new.size, state.new.words, []), live=live)
        scene = Scene(title, old, new, pairs, "pair" if state.is_ready else "link")
        scene.scan = scan_of(state, new.objects)
        scene.marks += logged(state, dict(pairs))
    for changed in state.changed:
        scene.note_changed(*changed)
    scene.legend = legend_of(state)
    return scene


def legend_of(state):
    if state.new is None:
        return LEGEND
    line = ("pair", "pair of the certificate") if state.is_ready else ("link", "link of original and replica")
    return LEGEND + LEGEND_OF_A_COLLECTION + [line]
