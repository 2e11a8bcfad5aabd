"""Renders a picture as SVG."""
import re
from xml.sax.saxutils import escape

from gcflip_drawing.picture import BOLD, TEXT_SIZES

FONT = "font-family: 'DejaVu Sans', Verdana, Helvetica, sans-serif; fill: #24292f"

# The style of each role of a shape.
STYLES = {
    "ground": "fill: #ffffff",
    "panel": "fill: #f6f8fa; stroke: #d0d7de",
    "object": "fill: #ddf4ff; stroke: #0969da; stroke-width: 1.5",
    "raw": "fill: #fff8c5; stroke: #9a6700; stroke-width: 1.5",
    "garbage": "fill: #eaeef2; stroke: #8c959f; stroke-width: 1.5",
    "free": "fill: none; stroke: #d0d7de; stroke-dasharray: 3 3",
    "reserved": "fill: #d0d7de; stroke: #8c959f",
    "changed": "fill: #ffdcf1; stroke: #bf3989",
    "broken": "fill: #57606a",
    "logged": "fill: none; stroke: #bc4c00; stroke-width: 3",
    "scan": "fill: #8250df",
    "unknown": "fill: #ffebe9; stroke: #cf222e",
    "cell": "fill: #ffffff; stroke: #afb8c1",
    "head": "fill: none; stroke: none",
    "root": "fill: #ffffff; stroke: #8250df; stroke-width: 1.5",
    "fault": "fill: none; stroke: #cf222e; stroke-width: 3",
    "crate": "fill: #ddf4ff; stroke: #0969da; stroke-width: 1.5",
    "crate-language": "fill: #eaeef2; stroke: #57606a; stroke-width: 1.5",
    "crate-words": "fill: #fff1e5; stroke: #bc4c00; stroke-width: 1.5",
    "crate-model": "fill: #ddf4ff; stroke: #0969da; stroke-width: 1.5",
    "crate-collector": "fill: #d5f2f3; stroke: #1b7c83; stroke-width: 1.5",
    "crate-checkers": "fill: #dafbe1; stroke: #1a7f37; stroke-width: 1.5",
    "crate-threads": "fill: #fff8c5; stroke: #9a6700; stroke-width: 1.5",
    "crate-c": "fill: #fbefff; stroke: #8250df; stroke-width: 1.5",
    "crate-recording": "fill: #ffeff7; stroke: #bf3989; stroke-width: 1.5",
    "crate-program": "fill: #ffebe9; stroke: #cf222e; stroke-width: 1.5",
    "crate-tests": "fill: #ffffff; stroke: #8c959f; stroke-width: 1.5",
    "band-language": "fill: #57606a; fill-opacity: 0.08",
    "band-words": "fill: #bc4c00; fill-opacity: 0.08",
    "band-model": "fill: #0969da; fill-opacity: 0.08",
    "band-collector": "fill: #1b7c83; fill-opacity: 0.08",
    "band-checkers": "fill: #1a7f37; fill-opacity: 0.08",
    "band-threads": "fill: #9a6700; fill-opacity: 0.08",
    "band-c": "fill: #8250df; fill-opacity: 0.08",
    "band-recording": "fill: #bf3989; fill-opacity: 0.08",
    "band-program": "fill: #cf222e; fill-opacity: 0.08",
    "band-tests": "fill: #8c959f; fill-opacity: 0.08",
    "reference": "stroke: #0969da; stroke-width: 1.4; fill: none",
    "stale": "stroke: #8c959f; stroke-width: 1.2; fill: none",
    "rooted": "stroke: #8250df; stroke-width: 1.4; fill: none",
    "pair": "stroke: #1a7f37; stroke-width: 1.6; stroke-dasharray: 2 4; fill: none",
    "link": "stroke: #6e7781; stroke-width: 1.6; stroke-dasharray: 2 4; fill: none",
    "pair-bundle": "fill: #1a7f37; fill-opacity: 0.3",
    "link-bundle": "fill: #6e7781; fill-opacity: 0.3",
    "uses": "stroke: #57606a; stroke-width: 1.5; fill: none",
    "uses-language": "stroke: #57606a; stroke-width: 1.5; fill: none",
    "uses-words": "stroke: #bc4c00; stroke-width: 1.5; fill: none",
    "uses-model": "stroke: #0969da; stroke-width: 1.5; fill: none",
    "uses-collector": "stroke: #1b7c83; stroke-width: 1.5; fill: none",
    "uses-checkers": "stroke: #1a7f37; stroke-width: 1.5; fill: none",
    "uses-threads": "stroke: #9a6700; stroke-width: 1.5; fill: none",
    "uses-c": "stroke: #8250df; stroke-width: 1.5; fill: none",
    "uses-recording": "stroke: #bf3989; stroke-width: 1.5; fill: none",
    "uses-program": "stroke: #cf222e; stroke-width: 1.5; fill: none",
    "uses-tests": "stroke: #8c959f; stroke-width: 1.5; fill: none",
    "joint": "fill: #57606a",
    "axis": "stroke: #57606a; fill: none",
    "grid": "stroke: #eaeef2; fill: none",
    "limit": "stroke: #8c959f; stroke-dasharray: 5 4; fill: none",
    "cursor": "stroke: #8250df; stroke-width: 2; fill: none",
    "collection": "fill: #ddf4ff",
    "used": "fill: #54aeff; fill-opacity: 0.35; stroke: #0969da; stroke-width: 1.4",
    "copied": "fill: #4ac26b; fill-opacity: 0.45; stroke: #1a7f37; stroke-width: 1.4",
    "log": "fill: #d4a72c; fill-opacity: 0.45; stroke: #9a6700; stroke-width: 1.2",
    "flip": "fill: #1a7f37",
    "drop": "fill: #57606a",
    "full": "fill: #cf222e",
    "no-room": "fill: #bc4c00",
}

# The colour of a reader who prefers a dark ground, for each colour of a style.
DARK = {
    "#ffffff": "#0d1117", "#24292f": "#e6edf3", "#57606a": "#a5adb8", "#6e7781": "#9198a1", "#8c959f": "#7d8590", "#afb8c1": "#545d68",
    "#d0d7de": "#30363d", "#eaeef2": "#21262d", "#f6f8fa": "#161b22", "#0969da": "#58a6ff", "#ddf4ff": "#0c2d4f", "#54aeff": "#1f6feb",
    "#1a7f37": "#56d364", "#dafbe1": "#12341d", "#4ac26b": "#2ea043", "#9a6700": "#d4a72c", "#fff8c5": "#3d3000", "#d4a72c": "#9e6a03",
    "#cf222e": "#ff7b72", "#ffebe9": "#46161a", "#bc4c00": "#f0883e", "#fff1e5": "#47230b", "#8250df": "#c297ff", "#fbefff": "#33204f",
    "#bf3989": "#f778ba", "#ffdcf1": "#5b1746", "#ffeff7": "#4a1536", "#1b7c83": "#76d7dc", "#d5f2f3": "#0d3b3e",
}

TEXT_COLOURS = {"small": "#57606a", "verdict": "#1a7f37", "refusal": "#cf222e"}

HEADS = ["reference", "stale", "rooted", *(role for role in STYLES if role.startswith("uses"))]


def number(value):
    return ("%.1f" % value).rstrip("0").rstrip(".")


def point(place):
    return "%s,%s" % (number(place[0]), number(place[1]))


def box(shape):
    tip = "<title>%s</title>" % escape(shape["tip"]) if shape["tip"] else ""
    drawn = '<rect class="%s" x="%s" y="%s" width="%s" height="%s" rx="2">%s</rect>' % (
        shape["role"], number(shape["x"]), number(shape["y"]), number(shape["width"]), number(shape["height"]), tip)
    if not shape["text"]:
        return drawn
    return drawn + '<text class="value" x="%s" y="%s" text-anchor="middle">%s</text>' % (
        number(shape["x"] + shape["width"] / 2), number(shape["y"] + shape["height"] / 2 + 4), escape(shape["text"]))


def text(shape):
    turn = ' transform="rotate(-90 %s %s)"' % (number(shape["x"]), number(shape["y"])) if shape["turned"] else ""
    return '<text class="%s" x="%s" y="%s" text-anchor="%s"%s>%s</text>' % (
        shape["role"], number(shape["x"]), number(shape["y"]), shape["anchor"], turn, escape(shape["text"]))


def line(shape):
    return '<polyline class="%s" points="%s"/>' % (shape["role"], " ".join(point(place) for place in shape["points"]))


def area(shape):
    return '<polygon class="%s" points="%s"/>' % (shape["role"], " ".join(point(place) for place in shape["points"]))


def arrow(shape):
    start, bend, end = shape["points"]
    head = ' marker-end="url(#head-%s)"' % shape["role"] if shape["role"] in HEADS else ""
    return '<path class="%s" d="M%s Q%s %s"%s/>' % (shape["role"], point(start), point(bend), point(end), head)


RENDERERS = {"box": box, "text": text, "line": line, "area": area, "arrow": arrow}


def style_sheet(shapes):
    """Returns the rules for the roles that these shapes have."""
    roles = {"ground"} | {shape["role"] for shape in shapes if shape["kind"] != "text"}
    texts = {shape["role"] for shape in shapes if shape["kind"] == "text"} | ({"value"} if any(shape["kind"] == "box" and shape["text"] for shape in shapes) else set())
    rules = ["text { %s }" % FONT]
    rules += [".%s { %s }" % (role, style) for role, style in STYLES.items() if role in roles]
    for role, size in TEXT_SIZES.items():
        bold = "; font-weight: bold" if role in BOLD else ""
        colour = "; fill: %s" % TEXT_COLOURS[role] if role in TEXT_COLOURS else ""
        # A line that runs behind a small text keeps away from its letters, as in the page.
        halo = "; stroke: #ffffff; stroke-width: 3px; paint-order: stroke" if role == "small" else ""
        if role in texts:
            rules.append("text.%s { font-size: %dpx%s%s%s }" % (role, size, bold, colour, halo))
    rules += [".head-%s { fill: %s }" % (role, STYLES[role].split("stroke: ")[1].split(";")[0]) for role in heads_of(shapes)]
    return "\n".join(rules + dark_rules(rules))


def dark_rules(rules):
    """Returns the rules that replace the colours of these where the reader prefers a dark ground."""
    found = []
    for rule in rules:
        name, _, style = rule.rstrip(" }").partition(" { ")
        coloured = [re.sub("#[0-9a-f]{6}", lambda colour: DARK[colour.group()], part) for part in style.split("; ") if "#" in part]
        if coloured:
            found.append("  %s { %s }" % (name, "; ".join(coloured)))
    return ["@media (prefers-color-scheme: dark) {", *found, "}"]


def heads_of(shapes):
    """Returns the roles of the arrows that have a head."""
    arrows = {shape["role"] for shape in shapes if shape["kind"] == "arrow"}
    return [role for role in HEADS if role in arrows]


def markers(shapes):
    """Yields the heads of the arrows among these shapes."""
    for role in heads_of(shapes):
        yield ('<marker id="head-%s" viewBox="0 0 8 8" refX="8" refY="4" markerWidth="7" markerHeight="7" orient="auto">'
               '<path class="head-%s" d="M0,0 L8,4 L0,8 z"/></marker>' % (role, role))


def render(picture):
    """Returns the SVG document of a picture."""
    lines = ['<svg xmlns="http://www.w3.org/2000/svg" viewBox="0 0 %s %s" width="%s" height="%s">' % (
        (number(picture.width), number(picture.height)) * 2)]
    lines.append("<title>%s</title>" % escape(picture.title))
    lines.append("<style>\n%s\n</style>" % style_sheet(picture.shapes))
    heads = list(markers(picture.shapes))
    if heads:
        lines.append("<defs>\n%s\n</defs>" % "\n".join(heads))
    lines.append('<rect class="ground" x="0" y="0" width="%s" height="%s"/>' % (number(picture.width), number(picture.height)))
    lines += [RENDERERS[shape["kind"]](shape) for shape in picture.shapes]
    return "\n".join(lines) + "\n</svg>\n"
