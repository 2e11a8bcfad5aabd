"""Tests of tools/draw: pictures are well-formed, stay inside their frame, and have the right number of objects and arrows. A
text that cannot be drawn gets a message.

It tests tools/draw: counts of objects and arrows, nothing outside the frame, no text outside its cell, graphs of objects where Graphviz is, bundles
of pairs that meet their lines, marks and names of objects that are broken across rows, lines of pairs that lead through no label and no free cell,
texts in front of lines, excerpts of large heaps, timelines of played traces, pictures of several widths, the path to a refused place, messages; the
bands of the crates and their groups in ARCHITECTURE; in the pictures drawn by hand no curve runs through a box; each text of a picture in a document
is at least 9 pixels high on a phone; each colour of a picture has another one for readers who prefer a dark ground; the kept pictures are up to date;
its reader names the faults of traces as the program does.
"""
import json
import os
import re
import shutil
import subprocess
import sys
import xml.etree.ElementTree as ElementTree
from unittest import mock

from . import pairs
from .c_builds import library
from .documents import documents
from .harness import Skipped, file_of, run
from .picture_parts import SVG, TOP, overlapping, shapes_of, strictly_within, wrong, wrong_drawing
from .readable_rows import NARROW, example, paired, readable
from .traces import PLAYED, refused_texts, trace_and_replies

# The module picture_parts has put the packages on the path.
from drawing import crates_picture, svg  # noqa: E402
from gcflip_explore.stage import played  # noqa: E402
from gcflip_drawing import pair_picture, timeline  # noqa: E402
from gcflip_drawing.excerpt import excerpt_of  # noqa: E402
from gcflip_drawing.graph_picture import drawn_as_graph  # noqa: E402
from gcflip_drawing.pair_text import read_pair, written  # noqa: E402
from gcflip_drawing.picture import Picture  # noqa: E402
from gcflip_drawing.trace_text import BadTrace, read_trace  # noqa: E402
from gcflip_drawing.verdicts import MEANINGS, Verdict  # noqa: E402
from gcflip_drawing.words_picture import drawn_word_by_word, grid_of  # noqa: E402

TOOL = os.path.join(TOP, "tools", "draw")


def draw(*words, shared="no library", path=None):
    """Runs tools/draw with this shared library and path, and returns its status, its standard output and its standard error."""
    environment = dict(os.environ, GCFLIP_LIBRARY=shared, PYTHONDONTWRITEBYTECODE="1")
    if path is not None:
        environment["PATH"] = path
    done = subprocess.run([sys.executable, TOOL, *words], stdout=subprocess.PIPE, stderr=subprocess.PIPE, timeout=120, env=environment)
    return done.returncode, done.stdout.decode(), done.stderr.decode()


def shared_library(folder):
    """Returns the path of the shared library, or None, with a line that says so, if it cannot be built."""
    built = library(folder)
    return built and os.path.join(built.lib, "libgcflip.so")


# ---- pairs

# For each example: its objects in both spaces, references in fields, roots that are references, and pairs.
COUNTS = {
    "garbage_left_behind": (3, 0, 2, 1),
    "number_moved_as_a_reference": (4, 0, 4, 2),
    "numbers_like_references": (4, 0, 4, 2),
    "one_replica_for_two": (3, 0, 4, 2),
    "replica_out_of_date": (4, 4, 2, 2),
}


def drawn_example(name):
    return pair_picture.drawn(read_pair(example(name + ".pair")), name, Verdict(example(name + ".verdict").strip()))


def counted(picture):
    """Counts the objects, references, roots that refer to objects, and pairs of a picture. The legend has one more pair."""
    tips = [shape["tip"] for shape in picture.shapes if shape["kind"] == "box" and shape["tip"].startswith("object at ")]
    arrows = [shape["role"] for shape in picture.shapes if shape["kind"] == "arrow"]
    return (len(tips), sum(1 for role in arrows if role in ("reference", "stale")), arrows.count("rooted"),
            len([shape for shape in shapes_of(picture, "pair") if shape["kind"] == "line"]) - 1)


def examples(_program, _folder):
    for name, wanted in COUNTS.items():
        found = counted(drawn_example(name))
        yield "counts of %s" % name, None if found == wanted else "counted %s, wanted %s" % (found, wanted)
    garbage = [shape for shape in shapes_of(drawn_example("garbage_left_behind"), "garbage") if shape["tip"]]
    found = [shape["tip"] for shape in garbage]
    yield "garbage is grey", None if found == ["object at 1"] else "grey: %s" % found


def small_pairs(_program, _folder):
    for name, text, verdict in pairs.texts_and_verdicts():
        drawn = pair_picture.drawn(read_pair(text.decode()), name, Verdict(verdict))
        yield "drawing of %s" % name, wrong_drawing(drawn)
    for name in COUNTS:
        drawn = drawn_example(name)
        yield "drawing of %s" % name, wrong_drawing(drawn) or overlapping(drawn) and "overlap: %s, %s" % overlapping(drawn)
    text, verdict = pairs.all_paired(40, 3)
    drawn = pair_picture.drawn(read_pair(text.decode()), "six rows", Verdict(verdict))
    yield "drawing of six rows", wrong_drawing(drawn)
    for width in (NARROW, 700, 1000):
        rows = drawn_word_by_word(pair_picture.scene_of(read_pair(text.decode()), "rows", Verdict(verdict)), grid_of(width))
        yield "labels of rows, %d wide" % width, wrong_drawing(rows) or overlapping(rows) and "overlap: %s, %s" % overlapping(rows)
    # Arrows from roots would cross the rows.
    yield "counts of six rows", None if counted(drawn)[:3] == (80, 0, 0) else "counted %s" % (counted(drawn),)
    linked = "heappair 1\nold 200 3\n0\n33488896\n101\nroots 0\nnew 1 1\n0\nroots 0\npairs 0\nend\n"
    drawn = pair_picture.drawn(read_pair(linked), "a long link", None)
    texts = [shape["text"] for shape in drawn.shapes if shape["kind"] == "text"]
    yield "drawing of a long link", wrong_drawing(drawn)
    yield "links and kinds of three digits are whole", None if {"255", "101", "link", "kind"} <= set(texts) else "texts: %s" % texts
    yield "drawing without a verdict", wrong_drawing(
        pair_picture.drawn(read_pair(example("replica_out_of_date.pair")), "not checked", None))


def graphs(_program, _folder):
    """Checks graphs of objects: each object has its box, each reference and each root its arrow, and each replica the name of its original."""
    if shutil.which("dot") is None:
        yield "graphs of objects", Skipped("there is no dot on the path")
        return
    for name, (objects, arrows, roots, _) in COUNTS.items():
        verdict = Verdict(example(name + ".verdict").strip())
        drawn = drawn_as_graph(pair_picture.scene_of(read_pair(example(name + ".pair")), name, verdict))
        tips = [shape["tip"] for shape in drawn.shapes if shape["kind"] == "box" and shape["tip"].startswith("object at ")]
        heads = [shape["role"] for shape in drawn.shapes if shape["kind"] == "arrow"]
        found = len(tips), len(heads) - heads.count("rooted"), heads.count("rooted")
        # The one unreachable object is left out.
        wanted = objects - (1 if name == "garbage_left_behind" else 0), arrows, roots
        yield "graph of %s" % name, wrong_drawing(drawn) or (None if found == wanted else "counted %s" % (found,))
        ends = [shape["points"][-1] for shape in drawn.shapes if shape["kind"] == "arrow"]
        boxes = [shape for shape in drawn.shapes if shape["kind"] == "box" and shape["tip"].startswith("object at ")]
        loose = [end for end in ends if not any(box["x"] - 2 <= end[0] <= box["x"] + box["width"] + 2 and box["y"] - 2 <= end[1] <= box["y"] + box["height"] + 2
                                                for box in boxes)]
        yield "arrows in the graph of %s end at objects" % name, None if not loose else "at %s" % loose
        named = [shape["text"] for shape in drawn.shapes if shape["kind"] == "box" and " of " in shape["text"]]
        wanted = len({new for _, new in read_pair(example(name + ".pair")).pairs})
        yield "originals in the graph of %s" % name, None if len(named) == wanted else "named %s" % named
    text, verdict = pairs.all_paired(400, 1, altered=(300,))
    drawn = drawn_as_graph(pair_picture.scene_of(read_pair(text.decode()), "400 objects", Verdict(verdict)))
    faults_in = [shape for shape in shapes_of(drawn, "fault") if shape["kind"] == "box"]
    # The legend has one more.
    yield "graph of 400 objects", wrong_drawing(drawn) or (None if len(faults_in) == 3 else "%d marks" % len(faults_in))
    status, _, said = draw(os.path.join(TOP, "examples", "replica_out_of_date.pair"), "--graph", "--program", "none", path="")
    yield "a graph without Graphviz", None if status == 1 and said.endswith("Graphviz's 'dot' is not on the path\n") else said


def within(inner, outer):
    return (outer["x"] <= inner["x"] and inner["x"] + inner["width"] <= outer["x"] + outer["width"]
            and outer["y"] <= inner["y"] and inner["y"] + inner["height"] <= outer["y"] + outer["height"])


def marked(picture):
    """Returns the tips of the words inside a mark of the checker. The mark of the legend has none inside."""
    faults = [shape for shape in shapes_of(picture, "fault") if shape["kind"] == "box"]
    words = [shape for shape in picture.shapes if shape["kind"] == "box" and "word" in shape["tip"]]
    return [word["tip"] for fault in faults for word in words if within(word, fault)]


def faults(_program, _folder):
    """Checks that the place that the checker names is marked."""
    found = marked(drawn_example("replica_out_of_date"))
    yield "a field is marked in both heaps", None if found == ["field 1: word 19", "field 1: word 0"] else "marked %s" % found
    text = read_pair(pairs.text_of(pairs.CHECKED["a_root_refers_to_a_field"][0]).decode())
    found = marked(pair_picture.drawn(text, "root", Verdict("refused 10 RootDiffers 0")))
    yield "a root is marked in both heaps", None if found == ["root 0: word 6", "root 0: word 6"] else "marked %s" % found
    text = read_pair(pairs.text_of(pairs.CHECKED["no_room_for_the_last_link"][0]).decode())
    found = marked(pair_picture.drawn(text, "shape", Verdict("refused 1 OldShape 3")))
    yield "a word that is not a header is marked", None if found == ["word 5"] else "marked %s" % found
    yield "a yes has no mark", None if marked(drawn_example("garbage_left_behind")) == [] else "something is marked"
    refusals = {Verdict(verdict).refusal for _, _, verdict in pairs.texts_and_verdicts()} - {None}
    yield "each refusal is explained", None if refusals == set(MEANINGS) else "not tried: %s" % (set(MEANINGS) - refusals)


def large_pairs(_program, _folder):
    """Checks that thousands of objects become blocks."""
    refused, verdict = pairs.all_paired(5000, 1, altered=(4000,))
    for name, (text, verdict) in [("5000 objects", (refused, verdict)), ("all objects that have room", pairs.greatest_text())]:
        drawn = pair_picture.drawn(read_pair(text.decode()), name, Verdict(verdict))
        yield "drawing of %s" % name, wrong_drawing(drawn)
        yield "few shapes of %s" % name, None if len(drawn.shapes) < 1000 else "%d shapes" % len(drawn.shapes)
    drawn = pair_picture.drawn(read_pair(refused.decode()), "refused", Verdict("refused 8 HeaderDiffers 4000"))
    found = [shape["tip"] for shape in shapes_of(drawn, "fault") if shape["kind"] == "box" and shape["tip"]]
    # Each object takes two words.
    wanted = ["address 8001", "address 8001"]
    yield "the refused objects of a large pair are marked", None if found == wanted else "marked %s" % found


def slanted(picture):
    """Returns parts of lines of pairs that are not upright beside or behind a row of a space. Those of the legend are level."""
    rows = [(shape["y"], shape["y"] + shape["height"]) for shape in picture.shapes if shape["kind"] == "box" and "object at " in shape["tip"]]
    parts = [(start, end) for shape in shapes_of(picture, "pair") if shape["kind"] == "line" for start, end in zip(shape["points"], shape["points"][1:])]
    return [(start, end) for start, end in parts if start[0] != end[0] and any(max(start[1], end[1]) > top + 1 and min(start[1], end[1]) < bottom - 1 for top, bottom in rows)]


def bundles(_program, _folder):
    """Checks that many pairs are drawn as bundles: each pair has its two ends, the numbers of the bundles and the single lines make
    all pairs, and no line crosses a row."""
    for count, columns in [(8, 3), (11, 4), (40, 1), (40, 7), (45, 45)]:
        name, drawn = "%d pairs in %d columns" % (count, columns), pair_picture.drawn(read_pair(paired(count, columns)), "pairs", None)
        # The last one is the legend's.
        lines = [shape["points"] for shape in shapes_of(drawn, "pair") if shape["kind"] == "line"][:-1]
        ways = [points[1:3] for points in lines if len(points) == 4]
        ways += [shape["points"][1:3] for shape in shapes_of(drawn, "pair-bundle") if shape["kind"] == "area"]
        middle = sum(y for way in ways for _, y in way) / max(1, 2 * len(ways))
        starts = {points[0] for points in lines if points[0][1] < middle}
        ends = {points[-1] for points in lines if points[-1][1] > middle}
        yield "drawing of %s" % name, wrong_drawing(drawn)
        yield "ends of %s" % name, None if len(starts) == len(ends) == count else "%d starts, %d ends" % (len(starts), len(ends))
        yield "rows of %s" % name, None if not slanted(drawn) else "slanted: %s" % slanted(drawn)
        inner = {points[-1] for points in lines if len(points) == 3 and points[0] in starts} | {points[0] for points in lines if len(points) == 3 and points[-1] in ends}
        corners_of = [shape["points"] for shape in shapes_of(drawn, "pair-bundle") if shape["kind"] == "area"]
        joints = {(round((first[0] + second[0]) / 2), round((first[1] + second[1]) / 2)) for a, b, c, d in corners_of for first, second in ((a, b), (c, d))}
        loose = [place for place in inner if (round(place[0]), round(place[1])) not in joints]
        yield "lines of %s meet their bundles" % name, None if not loose else "loose: %s" % loose
        # Of the rows with an object in the same column, five have lines beside one another.
        same = max(sum(1 for x, _ in starts if x == at) for at, _ in starts)
        yield "lines of %s are beside one another" % name, None if same <= -(-count // 20) else "%d at one place" % same
    drawn = pair_picture.drawn(read_pair(paired(3000, 1)), "3000 pairs", None)
    told = sum(int(shape["text"]) for shape in shapes_of(drawn, "small") if shape["text"].isdigit())
    yield "drawing of 3000 pairs", wrong_drawing(drawn)
    # The replicas keep the order of the objects, so that the lines are in few bundles, each large enough to say its number.
    yield "bundles of 3000 pairs", None if told == 3000 else "they count %d" % told


def excerpts(_program, _folder):
    """Checks excerpts of large heaps: the objects of a range, with their replicas, roots, references, and the place of a refusal."""
    # Objects of two fields: word 0 is reserved, and object k begins at 1 + 4 k. Of 300, the replicas of 0, 3, 6, .. come first.
    lines = paired(300, 3).split("\n")
    at = {k: number for number, k in enumerate([k for first in range(3) for k in range(first, 300, 3)])}
    # Object 10 refers to object 11 and to object 200, and roots to the objects 12 and 200.
    lines[2 + 41 + 2], lines[2 + 41 + 3] = str(2 * 45), str(2 * 801)
    text = "\n".join(lines).replace("roots 0", "roots 3\n0\n%d\n%d" % (2 * 49, 2 * 801), 1)
    scene = pair_picture.scene_of(read_pair(text), "excerpts", Verdict("refused 9 FieldDiffers 11 1"))
    drawn = drawn_word_by_word(excerpt_of(scene, True, 44, 49), grid_of(700))
    tips = [shape["tip"] for shape in drawn.shapes if shape["kind"] == "box" and shape["tip"].startswith("object at ")]
    wanted = ["object at %d of the old space" % (1 + 4 * k) for k in (10, 11, 12)]
    wanted += ["object at %d of the new space" % place for place in sorted(1 + 4 * at[k] for k in (10, 11, 12))]
    yield "drawing of an excerpt", wrong_drawing(drawn)
    yield "the objects of an excerpt", None if tips == wanted else "they are %s" % tips
    arrows = [shape["role"] for shape in drawn.shapes if shape["kind"] == "arrow"]
    yield "the arrows of an excerpt", None if sorted(arrows) == ["rooted", "stale"] else "they are %s" % arrows
    texts = [shape["text"] for shape in drawn.shapes if shape["kind"] == "box"]
    yield "a reference that leaves an excerpt", None if "\u2192801" in texts else "the words are %s" % texts
    yield "the roots of an excerpt", wrong([text for text in texts if "root " in text], ["root 1  \u219249"])
    found = marked(drawn)
    yield "the refused place of an excerpt", None if found == ["field 1: word 1", "field 1: word 1"] else "marked %s" % found
    # An object alone comes with those that it refers to.
    alone = excerpt_of(scene, True, 41, 41)
    yield "what an object refers to", None if sorted(alone.old.places) == [41, 45, 801] else "it is %s" % sorted(alone.old.places)
    replica = 1 + 4 * at[10]
    found = excerpt_of(scene, False, replica, replica)
    yield "the original of a replica", None if (list(found.old.places), list(found.new.places)) == ([41], [replica]) else "it is %s" % found.old.places
    yield "an excerpt without objects", None if not excerpt_of(scene, True, 1300, 1400).old.words else "it has words"
    long = "heappair 1\nold 200 103\n0\n16777316\n0\n%sroots 0\nnew 1 1\n0\nroots 0\npairs 0\nend\n" % ("1\n" * 100)
    drawn = drawn_word_by_word(excerpt_of(pair_picture.scene_of(read_pair(long), "long", None), True, 50, 50), grid_of(700))
    said = [shape["text"] for shape in drawn.shapes if shape["kind"] == "text"]
    yield "an object of 100 fields is cut", wrong_drawing(drawn) or (None if "1 and 60 more fields" in said else "texts: %s" % said)


def written_pairs(_program, _folder):
    """Checks that a pair text is written as it was read."""
    for name, text, _ in pairs.texts_and_verdicts():
        yield "%s is written again" % name, None if written(read_pair(text.decode())) == text.decode() else "it differs"


# ---- traces

def run_of(name):
    """Returns the timeline's run of an example."""
    trace = read_trace(example(name + ".trace").encode())
    return timeline.Run(trace.mutators, len(trace.events), played(trace))


def faults_of_traces(program, folder):
    """Checks that a text that is not a trace gets the line that the program prints."""
    for name, text, line in refused_texts():
        try:
            found = "read %s" % (read_trace(text),)
        except BadTrace as error:
            found = str(error)
        said = run(program, ["play", file_of(folder, "text", text)])
        yield "fault of %s" % name, None if found == line == said.first_error_line() else "%r, and the program says %r" % (found, said.stderr)


# The marks of some traces: flips, dropped collections, allocations without room, steps without room.
MARKS = {"second_collection": (2, 0, 1, 0), "too_small_and_then_larger": (1, 1, 1, 2), "refusals": (0, 0, 1, 0),
         "log_across_two_mutators": (1, 0, 0, 0)}


def timelines(_program, folder):
    """Plays traces on the library in this process."""
    shared = shared_library(folder)
    if shared is None:
        return
    with mock.patch.dict(os.environ, GCFLIP_LIBRARY=shared):
        yield from played_timelines()


def played_timelines():
    for name, conversation in PLAYED.items():
        text, _ = trace_and_replies(conversation)
        trace = read_trace(text)
        yield "timeline of %s" % name, wrong_drawing(timeline.drawn(trace, played(trace), name))
    for name, wanted in MARKS.items():
        run = run_of(name)
        found = tuple(run.counts[role] for role in ("flip", "drop", "full", "no-room"))
        yield "marks of %s" % name, None if found == wanted else "counted %s, wanted %s" % (found, wanted)
    run = run_of("second_collection")
    # The flips are the events 11 and 20; each ends its collection, as the curve of the new space does.
    yield "the shading ends with the flip", None if [(column.is_open, column.copied > 0) for column in run.columns[9:11]] == [(True, True), (False, False)] else str(
        [(column.is_open, column.copied) for column in run.columns[9:11]])
    run = run_of("write_while_scanning")
    found = [(column.used, column.copied, sum(column.entries)) for column in run.columns]
    # An object of one field takes 3 words, and word 0 is reserved. The log has its entry from the put to the apply.
    wanted = [(4, 0, 0)] * 2 + [(4, 1, 0)] + [(4, 4, 0)] * 2 + [(4, 4, 1)] * 3 + [(4, 4, 0)] + [(4, 0, 0)] * 2
    yield "curves of write_while_scanning", None if found == wanted else "found %s" % found
    found = run_of("log_across_two_mutators").logs()
    # Mutator 0 writes in event 6, and its entry is applied in event 11. Mutator 1 writes in event 9, applied in event 10.
    wanted = [("log 0", [0] * 6 + [1] * 5 + [0] * 4), ("log 1", [0] * 9 + [1] + [0] * 5)]
    yield "logs of log_across_two_mutators", None if found == wanted else "found %s" % found
    yield "timeline without events", wrong_drawing(timeline.drawn(read_trace(b"heaptrace 1\nspace 8 mutators 1\n"), [], "empty"))
    made = subprocess.run([sys.executable, os.path.join(TOP, "bench", "make_collections"), "262144"], stdout=subprocess.PIPE)
    trace = read_trace(made.stdout)
    drawn = timeline.drawn(trace, played(trace), "many events")
    yield "timeline of many events", wrong_drawing(drawn)
    yield "few shapes of many events", None if len(drawn.shapes) < 2500 else "%d shapes" % len(drawn.shapes)


# ---- crates

def lines_of(picture, role):
    """Returns the points of all lines and arrows whose roles begin so."""
    return [shape["points"] for shape in picture.shapes if shape["kind"] in ("line", "arrow") and shape["role"].startswith(role)]


def touches(point, box):
    """Returns whether a point is at the right side of a box."""
    return point[0] == box["x"] + box["width"] and box["y"] <= point[1] <= box["y"] + box["height"]


def joined_crates(picture, boxes):
    """Returns the crates that lines join, the upper one of each pair first: from the right side of a crate to an upright line, and from its lower end to the
    crate at the arrow's head."""
    lines = [(shape["role"], shape["points"]) for shape in picture.shapes if shape["kind"] == "line" and shape["role"].startswith("uses")]
    found = set()
    for arrow in picture.shapes:
        if arrow["kind"] != "arrow":
            continue
        (x, bottom), _, head = arrow["points"]
        lower = next(name for name, box in boxes.items() if touches(head, box))
        # The line of the topmost user goes down to the arrow, and the others end at it.
        top = next(points[1][1] for role, points in lines if points[-1] == (x, bottom))
        for role, points in lines:
            if role == arrow["role"] and (points[-1] == (x, bottom) or len(points) == 2 and points[1][0] == x and top < points[1][1] < bottom):
                found.add((next(name for name, box in boxes.items() if touches(points[0], box)), lower))
    return found


def bands_of(picture, boxes):
    """Returns the crates whose boxes are within each band of a picture, by the band's heading."""
    found = {}
    for band in picture.shapes:
        if band["role"].startswith("band"):
            heading = next(shape["text"] for shape in picture.shapes if shape["kind"] == "text" and strictly_within((shape["x"], shape["y"]), band))
            found[heading] = {name for name, box in boxes.items() if strictly_within((box["x"], box["y"]), band)
                              and strictly_within((box["x"] + box["width"], box["y"] + box["height"]), band)}
    return found


def crates(_program, _folder):
    uses = {"top": ["left", "right", "low"], "left": ["low"], "right": ["low"], "low": []}
    found = sorted(crates_picture.arrows_of(uses))
    wanted = [("left", "low"), ("right", "low"), ("top", "left"), ("top", "right")]
    yield "a crate that is used through another one has no arrow", None if found == wanted else "arrows %s" % found
    yield "drawing of four crates", wrong_drawing(crates_picture.drawn((uses, {}), "four"))
    many = {"top": list("abcdef"), **{name: [] for name in "abcdef"}}
    drawn = crates_picture.drawn((many, {}), "many")
    found = joined_crates(drawn, {shape["text"]: shape for shape in drawn.shapes if shape["kind"] == "box" and shape["text"]})
    yield "a crate that uses six others", wrong_drawing(drawn) or wrong(found, {("top", name) for name in "abcdef"})
    with open(os.path.join(TOP, "crates.txt"), encoding="utf-8") as file:
        listed, groups = crates_picture.read_crates(file.read())
    drawn = crates_picture.drawn((listed, groups), "crates.txt")
    boxes = {shape["text"]: shape for shape in drawn.shapes if shape["kind"] == "box" and shape["text"]}
    through = {name for points in lines_of(drawn, "uses") for start, end in zip(points, points[1:]) for part in range(65) for name, box in boxes.items()
               if strictly_within((start[0] + (end[0] - start[0]) * part / 64, start[1] + (end[1] - start[1]) * part / 64), box)}
    yield "drawing of crates.txt", wrong_drawing(drawn)
    yield "no line runs through a crate", None if boxes and not through else "through %s" % sorted(through)
    found, wanted = joined_crates(drawn, boxes), set(crates_picture.arrows_of(listed))
    yield "the lines of crates.txt join what its arrows say", None if found == wanted else "too many: %s, missing: %s" % (found - wanted, wanted - found)
    upward = [(upper, lower) for upper, lower in wanted if boxes[upper]["y"] >= boxes[lower]["y"]]
    yield "each crate is above those that it uses", None if not upward else "not so: %s" % upward
    grouped = [name for members in groups.values() for name in members]
    yield "each crate is in one group", None if sorted(grouped) == sorted(listed) else "in groups: %s" % sorted(grouped)
    yield "each band has its crates, and no other", wrong(bands_of(drawn, boxes), {name: set(members) for name, members in groups.items()})
    with open(os.path.join(TOP, "docs", "ARCHITECTURE.md"), encoding="utf-8") as file:
        rows = re.findall(r"(?m)^\| (?:\*\*(.*?)\*\*: [^|]*)?\| (\w+) \| [^|]+ \|$", file.read())
    told, last = {}, ""
    for group, crate in rows:
        last = group or last
        told.setdefault(last, []).append(crate)
    yield "docs/ARCHITECTURE.md has the same groups", wrong(list(told.items()), list(groups.items()))


# ---- the tool

# Texts that cannot be drawn, and a part of the message for each.
UNREADABLE = {
    "nothing": (b"", "the first line is neither"),
    "another_text": (b"hello\n", "the first line is neither"),
    "a_picture": (b"\x89PNG\r\n\x1a\n", "is no character of a text"),
    "a_cut_pair": (b"heappair 1\nold 8 3\n0\n", "the text ends before a word of the old heap"),
    "no_last_line_feed": (b"heaptrace 1\nspace 8 mutators 1\nm 0 look r0", "trace: bad line 3"),
    "a_pair_without_its_last_line_feed": (b"heappair 1\nold 8 1\n0", "the last line lacks its line feed"),
    "a_wrong_word": (b"heappair 1\nold 8 1\nx\n", "line 3 is not a word of the old heap"),
    "a_wrong_event": (b"heaptrace 1\nspace 8 mutators 1\nm 0 look r0\nm 0 peek r0\n", "trace: bad line 4"),
    "a_mutator_too_many": (b"heaptrace 1\nspace 8 mutators 1\nm 1 look r0\n", "trace: no such mutator at line 3"),
    "a_space_too_large": (b"heaptrace 1\nspace 1048577 mutators 1\n", "trace: bad header"),
}


def messages(program, folder):
    shared = shared_library(folder)
    if shared is None:
        return
    for name, (text, part) in UNREADABLE.items():
        status, written, said = draw(file_of(folder, name, text), "--program", program, shared=shared)
        right = status == 1 and written == "" and said.startswith("draw: ") and part in said and said.count("\n") == 1
        yield "message for %s" % name, None if right else "status %d, said %r" % (status, said)
    status, _, said = draw(os.path.join(folder, "no such file"))
    yield "message for no file", None if status == 1 and "No such file" in said else "status %d, said %r" % (status, said)
    status, written, said = draw(os.path.join(TOP, "examples", "replica_out_of_date.pair"), "--program", os.path.join(folder, "none"))
    right = status == 0 and "not checked" in written and "not checked" in said
    yield "a pair without a program is drawn and not checked", None if right else "status %d, said %r" % (status, said)
    out = os.path.join(folder, "none.svg")
    status, written, said = draw(os.path.join(TOP, "examples", "second_collection.trace"), "-o", out)
    told = said.startswith("draw: ") and said.endswith("; build it by 'make -C bindings/c', or set GCFLIP_LIBRARY to its path\n") and said.count("\n") == 1
    right = (status, written) == (1, "") and told and not os.path.exists(out)
    yield "a trace without the library", None if right else "status %d, said %r" % (status, said)


# For each example that is refused: where, as docs/FORMATS.md reads its words. The pictures of two of them are kept.
REFUSED_AT = {
    "replica_out_of_date": "r0 of mutator 0 (place 16) . field 1: old 9, new nil",
    "number_moved_as_a_reference": "root 0 . field 0: old 8, new 2",
    "one_replica_for_two": "the new address 1 of pair 1 is not above that of the pair before it",
}


def joined_texts(picture, role):
    """Returns the texts of a role, which may go on in the next line, as one."""
    return " ".join(shape["text"] for shape in picture["shapes"] if shape["kind"] == "text" and shape["role"] == role)


def paths(program, folder):
    """Checks that the picture of a refused pair names the path from a root, and what stands there in both heaps."""
    shared = shared_library(folder)
    if shared is None:
        return
    for name, wanted in REFUSED_AT.items():
        status, drawn, said = draw(os.path.join(TOP, "examples", name + ".pair"), "--json", "--program", program, shared=shared)
        right = status == 0 and said == "" and wanted in joined_texts(json.loads(drawn), "label")
        yield "path in %s" % name, None if right else "status %d, said %r, drew %s" % (status, said, drawn)
    for name, text, verdict in pairs.texts_and_verdicts():
        status, drawn, said = draw(file_of(folder, "pair", text), "--program", program, shared=shared)
        right = status == 0 and said == "" and verdict in drawn
        yield "refusal or yes of %s" % name, None if right else "status %d, said %r" % (status, said)
    pair = os.path.join(TOP, "examples", "replica_out_of_date.pair")
    status, drawn, said = draw(pair, "--program", program)
    right = status == 0 and "refused 9 FieldDiffers 0 1" in drawn and "field 1: old" not in drawn and said.startswith("draw: no path to the fault: ")
    yield "a refused pair without the library", None if right else "status %d, said %r" % (status, said)
    status, drawn, said = draw(os.path.join(TOP, "examples", "garbage_left_behind.pair"), "--program", program)
    yield "a yes without the library", None if status == 0 and said == "" else "status %d, said %r" % (status, said)


def long_paths(_program, _folder):
    """Checks that a path of many steps leaves out those in the middle, and stays inside the frame."""
    steps = ["root 0"] + ["field %d" % number for number in range(5000)]
    where = " . ".join(steps) + ": old 7, new 39"
    shown = pair_picture.shortened(where)
    # Six steps at each end; the root is one, and so is the last field with what stands there.
    wanted = "root 0 . field 0 . field 1 . field 2 . field 3 . field 4 . \u2026 4989 fields \u2026 . field 4994"
    right = shown.startswith(wanted) and shown.endswith(" . field 4998 . field 4999: old 7, new 39")
    yield "a long path", None if right else shown
    for count in (12, 13):
        short = " . ".join(steps[:count])
        yield "a path of %d steps" % count, None if pair_picture.shortened(short) == short else pair_picture.shortened(short)
    for name, text in [("words", example("replica_out_of_date.pair")), ("blocks", pairs.all_paired(5000, 1)[0].decode())]:
        drawn = pair_picture.drawn(read_pair(text), name, Verdict("refused 9 FieldDiffers 0 0"), where)
        yield "drawing of a long path in %s" % name, wrong_drawing(drawn)
        yield "a long path in %s" % name, None if shown in joined_texts(drawn.described(), "label") else "it is not shown"


def tool(program, folder):
    """Runs the tool, which asks the checker and writes the picture or its description."""
    pair = os.path.join(TOP, "examples", "replica_out_of_date.pair")
    out = os.path.join(folder, "out.svg")
    status, written, said = draw(pair, "-o", out, "--program", program)
    right = (status, written) == (0, "") and said.startswith("draw: no path to the fault: ") and said.count("\n") == 1
    yield "a file is written", None if right else "status %d, said %r" % (status, said)
    with open(out, encoding="utf-8") as file:
        yield "the verdict is shown", None if "refused 9 FieldDiffers 0 1" in file.read() else "there is no verdict in the picture"
    status, written, _ = draw(pair, "--json", "--program", program)
    described = json.loads(written)
    right = status == 0 and len(described["shapes"]) == len(drawn_example("replica_out_of_date").shapes)
    yield "the description has all shapes", None if right else "%d shapes" % len(described["shapes"])
    # This refusal is told by the pairs alone, so that it needs no library.
    status, written, said = draw(os.path.join(TOP, "examples", "one_replica_for_two.pair"), "--json", "--program", program)
    right = (status, said) == (0, "") and REFUSED_AT["one_replica_for_two"] in joined_texts(json.loads(written), "label")
    yield "a place that needs no path", None if right else "status %d, said %r" % (status, said)


def kept_pictures():
    """Yields the pictures in the repository, each with the words for tools/draw: the file from which it is drawn, and the width of an example."""
    folder = os.path.join(TOP, "examples", "pictures")
    for name in sorted(os.listdir(folder)):
        stem = os.path.join(TOP, "examples", os.path.splitext(name)[0])
        source = next(stem + ending for ending in (".pair", ".trace") if os.path.exists(stem + ending))
        yield os.path.join(folder, name), ["--width", str(NARROW), os.path.relpath(source, TOP)]
    yield os.path.join(TOP, "docs", "pictures", "crates.svg"), ["crates.txt"]


def kept(program, folder):
    """Compares each picture in the repository with the tool's current output."""
    shared = shared_library(folder)
    if shared is None:
        return
    for picture, words in kept_pictures():
        _, written, _ = draw(*words[:-1], os.path.join(TOP, words[-1]), "--program", program, shared=shared)
        name = os.path.relpath(picture, TOP)
        with open(picture, encoding="utf-8") as file:
            same = file.read() == written
        yield "%s is up to date" % name, None if same else "draw it again: tools/draw %s -o %s" % (" ".join(words), name)


# A phone shows a document in a column of 358 pixels. No text of a picture is lower than 9 pixels there.
COLUMN, LEAST_TEXT = 358, 9
SHOWN = re.compile(r"!\[[^]]*\]\(([^)]*\.svg)\)")


def shown_pictures():
    """Returns the SVG pictures that documents show, and those of the examples."""
    found = {os.path.join("examples", "pictures", name) for name in os.listdir(os.path.join(TOP, "examples", "pictures"))}
    for document in documents():
        with open(os.path.join(TOP, document), encoding="utf-8") as file:
            found |= {os.path.normpath(os.path.join(os.path.dirname(document), picture)) for picture in SHOWN.findall(file.read())}
    return sorted(found)


def sizes_of_texts(root):
    """Returns the height of each text of a picture, and of each part with a style of its own, by the rules of its style sheet."""
    rules = re.findall(r"(?m)^(text|(?:text)?\.[\w-]+) \{ .*?font-size: (\d+)px", root.find(SVG + "style").text)
    heights = {name.split(".")[-1]: int(size) for name, size in rules}
    texts = [node for node in root.iter() if node.tag in (SVG + "text", SVG + "tspan") and (node.text or "").strip()]
    return [(node.text, heights.get(node.get("class"), heights.get("text"))) for node in texts]


def legible(_program, _folder):
    """Checks that each text of a picture in a document can be read on a phone."""
    pictures = shown_pictures()
    for name in pictures:
        root = ElementTree.parse(os.path.join(TOP, name)).getroot()
        scale = min(1, COLUMN / float(root.get("viewBox").split()[2]))
        texts = sizes_of_texts(root)
        small = [text for text, height in texts if height is None or height * scale < LEAST_TEXT]
        yield "texts of %s" % name, None if texts and not small else "too small: %s" % small
    yield "pictures are shown", None if len(pictures) > 10 else "only %s" % pictures


# A colour, and a style sheet's rules for a dark ground, which are its last ones.
COLOUR = re.compile("#[0-9a-f]{6}")
DARK_RULES = re.compile(r"@media \(prefers-color-scheme: dark\) \{\n(.*)\n\}\Z", re.DOTALL)


def colours_of(rules):
    """Returns for each rule, by its name, the number of its colours. A rule that has none is left out."""
    rules = (rule.split(" { ") for rule in rules.split("\n") if COLOUR.search(rule))
    return {name.strip(): len(COLOUR.findall(style)) for name, style in rules}


def without_dark_colours(text):
    """Returns what in an SVG text keeps its colour where the reader prefers a dark ground."""
    style = text.split("<style>\n", 1)[1].split("\n</style>", 1)[0]
    dark = DARK_RULES.search(style)
    if dark is None:
        return ["no rules"]
    light, others = colours_of(style[:dark.start()]), colours_of(dark.group(1))
    outside = COLOUR.findall(text.replace(style, ""))
    return sorted(name for name, count in light.items() if others.get(name) != count) + outside


def dark(_program, _folder):
    """Checks that each picture of a document has a dark ground for readers who prefer it: each colour has another one there, and no shape has one of its own."""
    for name in shown_pictures():
        with open(os.path.join(TOP, name), encoding="utf-8") as file:
            yield "dark colours of %s" % name, wrong(without_dark_colours(file.read()), [])
    same = [colour for colour, other in svg.DARK.items() if colour == other]
    yield "each colour has another one", wrong(same, [])


def widths(program, folder):
    """Checks pictures of several widths: nothing is outside, they are about as wide as they should be, and the verdict is whole."""
    shared = shared_library(folder)
    if shared is None:
        return
    for width in (300, NARROW, 700, 1600):
        for name in ("second_collection.trace", "log_across_two_mutators.trace", "replica_out_of_date.pair", "number_moved_as_a_reference.pair"):
            case = "%s, %d wide" % (name, width)
            status, written, said = draw("--json", "--width", str(width), os.path.join(TOP, "examples", name), "--program", program, shared=shared)
            described = json.loads(written) if status == 0 else {"title": said, "shapes": [], "width": 0, "height": 0}
            drawn = Picture(described["title"])
            drawn.shapes, drawn.width, drawn.height = described["shapes"], described["width"], described["height"]
            # A title or a heading may be longer than a very narrow picture, and rows end with a cell.
            right = 0.6 * min(width, 1000) <= drawn.width <= max(width, 356)
            yield case, wrong_drawing(drawn) or (None if right else "it is %d wide" % drawn.width)
        shown = joined_texts(described, "refusal")
        yield "verdict, %d wide" % width, None if "refused 9 FieldDiffers 1 0 (in pair 1, field 0 does not correspond)" in shown else shown
    for word in ("299", "4001", "wide", "-5"):
        status, written, said = draw("--width", word, os.path.join(TOP, "examples", "second_collection.trace"))
        yield "the width %s" % word, None if status == 2 and written == "" and "invalid width value" in said else "status %d, said %r" % (status, said)
    status, written, said = draw("--width", "400", "--graph", os.path.join(TOP, "examples", "replica_out_of_date.pair"))
    yield "the width of a graph", None if status == 2 and written == "" and "as wide as Graphviz makes it" in said else "status %d, said %r" % (status, said)


# Points of a path: of 'M', 'L' and 'C', with absolute coordinates.
PART = re.compile(r"([MLC])([^MLC]*)")


def points_of(path):
    """Returns points along a path, close to each other."""
    found = []
    for command, numbers in PART.findall(path):
        values = [float(part) for part in re.split(r"[ ,]+", numbers.strip())]
        ends = list(zip(values[::2], values[1::2]))
        if command == "M":
            found.append(ends[0])
        elif command == "L":
            for end in ends:
                start = found[-1]
                found += [tuple(start[k] + (end[k] - start[k]) * at / 50 for k in (0, 1)) for at in range(1, 51)]
        else:
            corners = [found[-1], *ends]
            for at in range(1, 51):
                t = at / 50
                weights = (1 - t) ** 3, 3 * t * (1 - t) ** 2, 3 * t * t * (1 - t), t ** 3
                found.append(tuple(sum(weight * corner[k] for weight, corner in zip(weights, corners)) for k in (0, 1)))
    return found


# Boxes that stand for a place, and that curves may run through.
OPEN_BOXES = ("space", "band", "free", "ground")


def crossed(root):
    """Returns a path that runs through a box in which it neither begins nor ends, or None."""
    boxes = [[float(box.get(name)) for name in ("x", "y", "width", "height")] for box in root.iter(SVG + "rect")
             if box.get("class") and box.get("class") not in OPEN_BOXES]

    def inside(point, box, margin):
        return box[0] - margin < point[0] < box[0] + box[2] + margin and box[1] - margin < point[1] < box[1] + box[3] + margin

    for path in root.findall(SVG + "path"):
        if path.get("class"):
            points = points_of(path.get("d"))
            for box in boxes:
                if any(inside(point, box, -1) for point in points) and not inside(points[0], box, 3) and not inside(points[-1], box, 3):
                    return path.get("d")
    return None


def far_ends(root):
    """Returns an arrow whose head is at no box and no text, or None."""
    things = [[float(box.get(name)) for name in ("x", "y", "width", "height")] for box in root.iter(SVG + "rect") if box.get("class")]
    things += [[float(text.get("x")) - 60, float(text.get("y")) - 20, 120, 20] for text in root.iter(SVG + "text")]
    for path in root.iter(SVG + "path"):
        x, y = points_of(path.get("d"))[-1] if path.get("marker-end") else (things[0][0], things[0][1])
        if not any(left - 3 <= x <= left + width + 3 and top - 3 <= y <= top + height + 3 for left, top, width, height in things):
            return path.get("d")
    return None


def drawn_by_hand(_program, _folder):
    for name in ("spaces", "flip", "levels"):
        path = os.path.join(TOP, "docs", "pictures", name + ".svg")
        root = ElementTree.parse(path).getroot()
        _, _, width, height = [float(part) for part in root.get("viewBox").split()]
        boxes = [node for node in root.iter(SVG + "rect")]
        inside = all(0 <= float(box.get("x")) and float(box.get("x")) + float(box.get("width")) <= width
                     and 0 <= float(box.get("y")) and float(box.get("y")) + float(box.get("height")) <= height for box in boxes)
        yield "docs/pictures/%s.svg" % name, None if boxes and inside else "a box is outside of the frame"
        yield "curves of docs/pictures/%s.svg" % name, crossed(root) and "%s runs through a box" % crossed(root)
        yield "ends of arrows of docs/pictures/%s.svg" % name, far_ends(root) and "%s ends at nothing" % far_ends(root)


GROUPS = [examples, small_pairs, graphs, faults, large_pairs, bundles, readable, excerpts, written_pairs, faults_of_traces, timelines, crates, messages, tool, widths, paths, long_paths, kept,
          legible, dark, drawn_by_hand]
