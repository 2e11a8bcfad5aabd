"""Describes the picture of a pair text: both heaps, the pairs of the certificate, and the place that the checker refuses."""
from . import scene_picture
from .scene import Mark, Scene, Space

LEGEND = [("object", "reachable"), ("raw", "raw"), ("garbage", "unreachable"), ("free", "free"), ("root", "root"), ("fault", "refused"),
          ("pair", "pair of the certificate")]


# Of a longer path, so many steps are shown at its start and as many at its end.
SHOWN_STEPS = 6


def shortened(where):
    """Leaves out the middle steps of a long path."""
    steps = where.split(" . ")
    if len(steps) <= 2 * SHOWN_STEPS + 1:
        return where
    left_out = "\u2026 %d fields \u2026" % (len(steps) - 2 * SHOWN_STEPS)
    return " . ".join(steps[:SHOWN_STEPS] + [left_out] + steps[-SHOWN_STEPS:])


def faults(scene, pairs, verdict):
    """Yields marks for what the checker refused: an object, one of its fields, or a word."""
    for space, is_old in scene.spaces():
        address = verdict.address(is_old, pairs)
        if address is None:
            continue
        first, size = address, 1
        if verdict.refusal in ("Twice", "NotRising") and address in space.objects:
            size = space.objects[address].size()
        elif verdict.refusal == "FieldDiffers":
            first = address + 2 + verdict.field()
        yield Mark(is_old, first, size, "fault", "refused")


def scene_of(text, title, verdict, where="", old=None, new=None):
    """Returns the scene of a pair text. `verdict` is the checker's, or None if it was not asked. `where` says in words where a refusal is. A space may be
    known from another scene."""
    scene = Scene(title, old or Space("old space", text.old, text.raws), new or Space("new space", text.new, text.raws), text.pairs)
    scene.legend, scene.caption = LEGEND, ("not checked", "label")
    if verdict:
        scene.caption = (verdict.caption(), "refusal" if verdict.refusal else "verdict")
        scene.explanation, scene.root = shortened(where), verdict.root()
        scene.marks = list(faults(scene, text.pairs, verdict))
    return scene


def drawn(text, title, verdict, where=""):
    """Returns the picture of a pair text with its title, the verdict, and where a refusal is."""
    return scene_picture.drawn(scene_of(text, title, verdict, where))
