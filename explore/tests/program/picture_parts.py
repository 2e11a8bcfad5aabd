"""The parts of a picture, and what can be wrong with it: shapes outside of the frame, texts that overlap, roles without a style."""
import os
import re
import sys
import xml.etree.ElementTree as ElementTree

TOP = os.path.normpath(os.path.join(os.path.dirname(os.path.abspath(__file__)), "..", "..", ".."))
SVG = "{http://www.w3.org/2000/svg}"
sys.path[:0] = [os.path.join(TOP, "tools"), os.path.join(TOP, "bindings", "python"), os.path.join(TOP, "explore")]

from drawing import svg  # noqa: E402
from gcflip_drawing.picture import text_width  # noqa: E402


def shapes_of(picture, role):
    return [shape for shape in picture.shapes if shape["role"] == role]


def curve_of(arrow):
    """Returns points of the curve of an arrow, which is drawn towards its second point."""
    start, bend, end = arrow["points"]
    return [tuple((1 - t) ** 2 * a + 2 * t * (1 - t) * b + t * t * c for a, b, c in zip(start, bend, end)) for t in [part / 64 for part in range(65)]]


def corners(shape):
    """Returns the points of a shape that have to be inside the frame."""
    if shape["kind"] == "box":
        return [(shape["x"], shape["y"]), (shape["x"] + shape["width"], shape["y"] + shape["height"])]
    if shape["kind"] == "arrow":
        return curve_of(shape)
    if shape["kind"] != "text":
        return shape["points"]
    x, y, width = shape["x"], shape["y"], text_width(shape["text"], shape["role"])
    if shape["turned"]:
        return [(x, y), (x, y + width)]
    before = {"start": 0, "middle": width / 2, "end": width}[shape["anchor"]]
    return [(x - before, y - 8), (x - before + width, y + 3)]


def outside(picture):
    """Returns a shape that leaves the frame, or None."""
    for shape in picture.shapes:
        for x, y in corners(shape):
            if not (0 <= x <= picture.width and 0 <= y <= picture.height):
                return shape
    return None


def too_wide(picture):
    """Returns a text that does not fit into its box, or None."""
    for shape in picture.shapes:
        if shape["kind"] == "box" and shape["text"] and text_width(shape["text"], "value") > shape["width"] + 1:
            return shape
    return None


def overlapping(picture):
    """Returns two texts on one line that overlap, or None."""
    texts = [shape for shape in picture.shapes if shape["kind"] == "text" and not shape["turned"]]
    spans = sorted((shape["y"], min(x for x, _ in corners(shape)), max(x for x, _ in corners(shape)), shape["text"]) for shape in texts)
    return next(((one[3], other[3]) for one, other in zip(spans, spans[1:]) if one[0] == other[0] and one[2] > other[1] + 1), None)


def wrong_drawing(picture):
    """Returns what is wrong with a picture and its SVG, or None."""
    stray = outside(picture)
    if stray:
        return "outside of %d by %d: %s" % (picture.width, picture.height, stray)
    if too_wide(picture):
        return "too wide for its box: %s" % too_wide(picture)
    root = ElementTree.fromstring(svg.render(picture))
    drawn = [node for node in root if node.tag in (SVG + "rect", SVG + "polyline", SVG + "polygon", SVG + "path")]
    wanted = sum(1 for shape in picture.shapes if shape["kind"] != "text")
    # The ground is one more.
    if root.tag != SVG + "svg" or len(drawn) != wanted + 1:
        return "%d shapes of %d are drawn" % (len(drawn) - 1, wanted)
    classes = {node.get("class") for node in root.iter() if node.get("class")}
    styled = set(re.findall(r"(?m)^(?:text)?\.([\w-]+) \{", root.find(SVG + "style").text))
    return "no style for %s" % (classes - styled) if classes - styled else None


def strictly_within(point, box):
    return box["x"] < point[0] < box["x"] + box["width"] and box["y"] < point[1] < box["y"] + box["height"]


def crosses(points, box):
    """Returns whether a line through these points has a point strictly within a box."""
    return any(strictly_within((start[0] + (end[0] - start[0]) * part / 256, start[1] + (end[1] - start[1]) * part / 256), box)
               for start, end in zip(points, points[1:]) for part in range(257))


def wrong(found, wanted):
    return None if found == wanted else "%s, wanted %s" % (found, wanted)
