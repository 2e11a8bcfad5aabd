"""Lays out a scene as a graph of the reachable objects, for heaps that are too large for words and too small for blocks. Graphviz places them."""
import shutil
import subprocess

from .heap import references, target
from .picture import Picture
from .scene import counted
from .words_picture import ROOT_X, draw_caption, draw_legend, heading, root_names

# Graphviz tells inches.
INCH = 72
MOST_OBJECTS = 1500
BETWEEN = 50
# A reference is drawn as a line of so many parts for each curve that Graphviz tells.
PARTS = 6


class NoGraph(Exception):
    """Why a scene has no graph."""


def shown_in(space, refused):
    """Returns the objects that are drawn, by their starts: the reachable ones, and those that the checker names."""
    return {start: thing for start, thing in space.objects.items()
            if start in space.live or any(start <= address < start + thing.size() for address in refused)}


def told(space, objects):
    """Returns the graph in Graphviz's language: roots, and the objects behind them."""
    lines = ["digraph { rankdir=LR; nodesep=0.08; ranksep=0.4; node [shape=box, fixedsize=true, height=0.25, width=0.95]; edge [arrowhead=none];"]
    for place, word in enumerate(space.roots):
        if target(word) in objects:
            lines.append("r%d -> o%d;" % (place, target(word)))
    for thing in objects.values():
        lines.append("o%d;" % thing.start)
        lines += ["o%d -> o%d;" % (thing.start, address) for _, address in references(thing) if address in objects]
    return "\n".join([*lines, "}"])


def placed(space, objects):
    """Returns the size of the graph, its nodes with their middles and sizes, and its edges with their tails and points. Raises NoGraph."""
    if len(objects) > MOST_OBJECTS:
        raise NoGraph("the %s has more than %d reachable objects" % (space.name, MOST_OBJECTS))
    if shutil.which("dot") is None:
        raise NoGraph("Graphviz's 'dot' is not on the path")
    ran = subprocess.run(["dot", "-Tplain"], input=told(space, objects).encode(), stdout=subprocess.PIPE, stderr=subprocess.PIPE, timeout=300)
    if ran.returncode != 0:
        raise NoGraph("dot says: %s" % ran.stderr.decode("utf-8", "replace").strip())
    nodes, edges, height, width = {}, [], 0.0, 0.0
    for words in (line.split(" ") for line in ran.stdout.decode().split("\n")):
        if words[0] == "graph":
            width, height = float(words[2]) * INCH, float(words[3]) * INCH
        elif words[0] == "node":
            nodes[words[1]] = [float(word) * INCH for word in words[2:6]]
        elif words[0] == "edge":
            numbers = [float(word) * INCH for word in words[4:4 + 2 * int(words[3])]]
            edges.append((words[1], list(zip(numbers[::2], numbers[1::2]))))
    return width, height, nodes, edges


def along(points):
    """Returns points along the Bezier curves of a spline."""
    found = [points[0]]
    for at in range(0, len(points) - 1, 3):
        corners = points[at:at + 4]
        for part in range(1, PARTS + 1):
            t = part / PARTS
            weights = (1 - t) ** 3, 3 * t * (1 - t) ** 2, 3 * t * t * (1 - t), t ** 3
            found.append(tuple(sum(weight * corner[k] for weight, corner in zip(weights, corners)) for k in (0, 1)))
    return found


def draw_space(picture, scene, space, is_old, top):
    """Draws the graph of a space. Returns its width and its lower end."""
    originals = {new: old for old, new in scene.joined} if not is_old else {}
    refused = {mark.address for mark in scene.marks_of("fault") if mark.is_old == is_old}
    width, height, nodes, edges = placed(space, shown_in(space, refused))
    names = root_names(len(space.roots))

    def point(place):
        return ROOT_X + place[0], top + height - place[1]

    for tail, points in edges:
        ends = [point(place) for place in along(points)]
        role = "rooted" if tail[0] == "r" else "reference" if int(tail[1:]) in space.live else "stale"
        picture.line(ends[:-1], role)
        picture.arrow(ends[-2], ends[-2], ends[-1], role)
    for name, (x, y, wide, high) in nodes.items():
        left, upper = point((x - wide / 2, y + high / 2))
        if name[0] == "r":
            picture.box(left, upper, wide, high, "root", names[int(name[1:])])
            continue
        thing = space.objects[int(name[1:])]
        label = "%d" % thing.start if thing.start not in originals else "%d of %d" % (thing.start, originals[thing.start])
        tip = "object at %d: kind %d, %s" % (thing.start, thing.kind, counted(thing.count, "field"))
        picture.box(left, upper, wide, high, space.sort(thing), label if len(label) <= 10 else "%d" % thing.start, tip)
        if any(thing.start <= address < thing.start + thing.size() for address in refused):
            picture.box(left - 3, upper - 3, wide + 6, high + 6, "fault")
    return width, top + height


def drawn_as_graph(scene):
    """Returns the picture of a scene. In the new space an object is labelled with its original. Raises NoGraph."""
    picture, width = Picture(scene.title), 760
    bottom = draw_caption(picture, scene, width)
    for space, is_old in scene.spaces():
        picture.text(ROOT_X, bottom, heading(space), "label")
        wide, bottom = draw_space(picture, scene, space, is_old, bottom + 14)
        width, bottom = max(width, wide + 2 * ROOT_X), bottom + BETWEEN
    bottom = draw_legend(picture, [item for item in scene.legend if item[0] not in ("free", "pair", "link", "changed")], bottom - 20, width)
    return picture.sized(width, bottom + 26)
