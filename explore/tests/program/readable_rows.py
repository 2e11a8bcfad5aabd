"""Tests of drawings in rows: objects that are broken across rows have marks and names, and no line leads through a label or a free cell."""
import os
import re

from .picture_parts import TOP, corners, crosses, curve_of, overlapping, shapes_of, strictly_within, wrong, wrong_drawing

from gcflip_drawing import pair_picture  # noqa: E402
from gcflip_drawing.excerpt import excerpt_of  # noqa: E402
from gcflip_drawing.pair_text import read_pair  # noqa: E402
from gcflip_drawing.words_picture import drawn_word_by_word, grid_of  # noqa: E402

# A picture for a phone is drawn for this width.
NARROW = 390
# The examples of pairs.
EXAMPLES = ("garbage_left_behind", "number_moved_as_a_reference", "numbers_like_references", "one_replica_for_two", "replica_out_of_date")


def example(name):
    with open(os.path.join(TOP, "examples", name), encoding="ascii") as file:
        return file.read()


def paired(count, columns):
    """Returns a pair text of objects with two fields, and of replicas in another order: every `columns`-th object first."""
    order = [k for first in range(columns) for k in range(first, count, columns)]
    words = "0\n" + "16777218\n0\n1\n1\n" * count
    lines = "".join("%d %d\n" % (1 + 4 * k, 1 + 4 * at) for at, k in sorted(enumerate(order), key=lambda item: item[1]))
    space = "%d %d\n%sroots 0\n" % (4 * count + 1, 4 * count + 1, words)
    return "heappair 1\nold %snew %spairs %d\n%send\n" % (space, space, count, lines)


def box_of(text):
    """Returns the box of the letters of a text."""
    (left, top), (right, _) = corners(text)
    return {"x": left, "y": top, "width": right - left, "height": text["y"] - top}


def labels_of(picture):
    """Returns the labels of objects and of their roots, which are beside rows of objects."""
    rows = {(shape["y"], shape["y"] + shape["height"]) for shape in picture.shapes if "object at " in (shape.get("tip") or "")}
    return [shape for shape in shapes_of(picture, "small") if shape["kind"] == "text" and any(top - 14 < shape["y"] < top or bottom < shape["y"] < bottom + 14 for top, bottom in rows)]


def under_lines(picture):
    """Returns texts that a line, an arrow or an area is drawn over."""
    found = []
    for at, shape in enumerate(picture.shapes):
        if shape["kind"] == "text" and not shape["turned"]:
            later = [other for other in picture.shapes[at:] if other["kind"] in ("line", "arrow", "area")]
            found += [shape["text"] for other in later if crosses(curve_of(other) if other["kind"] == "arrow" else other["points"], box_of(shape))]
    return found


def crossed_by_pairs(picture):
    """Returns labels and free cells that a line of a pair leads through."""
    lines = [shape["points"] for shape in shapes_of(picture, "pair") if shape["kind"] == "line"]
    labels = [shape["text"] for shape in labels_of(picture) if any(crosses(points, box_of(shape)) for points in lines)]
    return labels + ["free at %d, %d" % (box["x"], box["y"]) for box in shapes_of(picture, "free") if any(crosses(points, box) for points in lines)]


def unmarked_ends(picture):
    """Returns what is wrong with objects that are broken across rows: an end without its mark, a rest that does not say whose it is, or a mark too many."""
    marks = [shape["points"] for shape in shapes_of(picture, "broken")]
    parts = [shape for shape in picture.shapes if "object at " in (shape.get("tip") or "")]
    # A rest is drawn behind the part before it.
    broken = [(before, after) for before, after in zip(parts, parts[1:]) if after["tip"].startswith("rest ")]
    wrong_ends, wanted = [], 2 * len(broken)
    for before, after in broken:
        name = re.search(r"object at (\d+)", after["tip"]).group(1)
        for box, left in ((before, before["x"] + before["width"] - 10), (after, after["x"])):
            end = {"x": left, "y": box["y"], "width": 10, "height": box["height"]}
            wrong_ends += [] if any(all(strictly_within(point, end) for point in points) for points in marks) else ["an end of %s has no mark" % name]
        below = [text["text"] for text in labels_of(picture) if 0 < text["y"] - after["y"] - after["height"] < 14 and after["x"] <= text["x"] < after["x"] + after["width"]]
        wrong_ends += [] if any(text in ("rest of " + name, "of " + name, "\u2026" + name) for text in below) else ["a rest of %s is named %s" % (name, below)]
    return wrong_ends + ([] if len(marks) == wanted else ["%d marks, wanted %d" % (len(marks), wanted)])


# A raw object of 60 fields with its replica, of which a row has a part.
LONG = "heappair 2\n%s%spairs 1\n1 1\nend\n" % tuple("%s 80 63\n0\n%d\n1\n%sroots 1\n2\n" % (name, 50331648 + 60, "7\n" * 60) for name in ("old", "new"))


def readable(_program, _folder):
    """Checks that objects that are broken across rows have marks and names, that no text is under a line, and that lines of pairs lead through no label and
    no free cell."""
    texts = {name: example(name + ".pair") for name in EXAMPLES}
    # In the third one each field refers to the first object, so that arrows lead through labels.
    texts.update({"three pairs": paired(3, 2), "eight pairs": paired(8, 3), "references": paired(8, 1).replace("\n1\n1\n", "\n2\n2\n"),
                  "fifteen pairs": paired(15, 2), "one long object": LONG})
    scenes = {name: pair_picture.scene_of(read_pair(text), name, None) for name, text in texts.items()}
    # Addresses of four digits have no room left of their lines.
    scenes["an excerpt"] = excerpt_of(pair_picture.scene_of(read_pair(paired(300, 3)), "excerpt", None), True, 1000, 1009)
    for name, scene in scenes.items():
        for width, is_whole in ((NARROW, False), (NARROW, True), (700, True), (768, False), (1000, False)):
            drawn = drawn_word_by_word(scene, grid_of(width, is_whole))
            case = "%s, %d wide%s" % (name, width, ", whole" if is_whole else "")
            yield "drawing of " + case, wrong_drawing(drawn) or overlapping(drawn) and "overlap: %s, %s" % overlapping(drawn)
            yield "broken objects of " + case, wrong(unmarked_ends(drawn), [])
            yield "texts in front, " + case, wrong(under_lines(drawn), [])
            # On a phone eight lines leave no room for labels beside them.
            if width != NARROW or len(scene.joined) < 8:
                yield "lines of pairs of " + case, wrong(crossed_by_pairs(drawn), [])
    broken = drawn_word_by_word(pair_picture.scene_of(read_pair(LONG), "long", None), grid_of(NARROW))
    yield "a long object is broken", None if len(shapes_of(broken, "broken")) > 20 else "%d marks" % len(shapes_of(broken, "broken"))
