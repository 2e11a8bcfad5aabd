"""Tests of the page of gcflip_explore in a headless browser. Each reply and verdict is compared with the program's."""
import json
import os
import re
import time
import xml.etree.ElementTree as ElementTree

from . import pairs
from .drawings import drawn_example
from .examples import content, names_of
from .harness import file_of, run
from .picture_parts import SVG, svg
from .web_page import complaints, page, wrong

# The module drawings has put the package on the path.
from gcflip_drawing.picture import Picture  # noqa: E402

with open(os.path.join(os.path.dirname(os.path.abspath(__file__)), "contrast.js"), encoding="utf-8") as script:
    CONTRAST = script.read()


def verdict_of(program, folder, text, number):
    """Returns the program's verdict on the pair of the n-th flip of a trace."""
    pair = run(program, ["pair", file_of(folder, "flips", text), str(number)]).stdout
    return run(program, ["check", file_of(folder, "pair", pair)]).stdout.decode().strip()


def plays(program, folder):
    """Plays each example step by step. The replies next to the lines are the program's, and so is the verdict before each flip."""
    with page(folder) as shown:
        if shown is None:
            return
        for name in names_of(".trace"):
            shown.set("#trace-examples", name)
            text = content(name + ".trace")
            replies = run(program, text=text).stdout.decode().split("\n")[:-1]
            shown.wait_for("event", "of %d events" % len(replies))
            found, flips = [], 0
            for at, reply in enumerate(replies, 1):
                if reply.startswith("flipped"):
                    flips += 1
                    verdict = shown.run("return document.querySelector('#certificate-verdict code').textContent;")
                    yield "verdict before flip %d of %s" % (flips, name), wrong(verdict, verdict_of(program, folder, text, flips))
                shown.step(at, len(replies))
                found.append(shown.replies().get(at + 2))
                if "undefined" in shown.text("event"):
                    yield "event %d of %s" % (at, name), shown.text("event")
            yield "replies to %s" % name, wrong(found, replies)
            boxes = [shown.run("return document.querySelectorAll('#%s svg rect').length;" % place) for place in ("picture", "timeline")]
            yield "pictures of %s" % name, None if min(boxes) > 0 else "nothing is drawn"
        # 'Back' plays again from a checkpoint, here from the start.
        shown.set("#trace-examples", "write_while_scanning")
        shown.wait_for("event", "of 11 events")
        shown.click("play-run")
        shown.wait_for("event", "Event 11 of 11")
        shown.click("play-back")
        shown.wait_for("event", "Event 10 of 11")
        yield "replies after a step back", wrong([shown.replies().get(line) for line in (12, 13)], ["flipped 1", None])
        shown.click("play-start")
        shown.wait_for("event", "of 11 events")
        shown.click("play-flip")
        shown.wait_for("event", "Event 9 of 11")
        yield "to the next flip stops before it", wrong("c apply 0" in shown.text("event"), True)
        shown.click("play-flip")
        shown.wait_for("message", "no further flip")
        yield "no complaint", complaints(shown)


def buttons(program, folder):
    """Acts as the mutators, and drives two whole collections: one step by step, and one with 'Work'."""
    with page(folder) as shown:
        if shown is None:
            return
        shown.set("#trace-editor textarea", "heaptrace 1\nspace 24 mutators 2\n")
        shown.wait_for("event", "of 0 events")
        acts = [("new", {"to": "g0", "kind": 1, "fields": 2}), ("num", {"to": "r0", "number": 9223372036854775807}), ("begin", {}),
                ("roots", {}), ("scan", {}), ("put", {"object": "g0", "field": 0, "value": "r0"}), ("scan", {}), ("scan", {}), ("flip", {}),
                ("apply", {"mutator": 0}), ("flip", {}), ("get", {"to": "r1", "object": "g0", "field": 0}), ("same", {"slot": "r0", "and": "r1"}),
                ("begin sized", {"words": 12}), ("drop", {}), ("raw", {"to": "r2", "kind": 3, "fields": 1}), ("move", {"to": "r3", "from": "r2"}),
                ("nil", {"to": "r2"}), ("look", {"slot": "r3"})]
        for at, (name, words) in enumerate(acts, 1):
            shown.command(name, **words)
            shown.wait_for("event", "Event %d of %d" % (at, at))
        wanted = ["made", "done", "begun", "copied", "scanned", "done", "scanned", "passed", "not ready", "applied", "flipped 1",
                  "saw num 9223372036854775807", "yes", "begun", "dropped", "made", "done", "done", "saw raw 3 1"]
        shown.set("#commands-mutator", "1")
        shown.command("new", to="r0", kind=2, fields=0)
        shown.wait_for("event", "m 1 new r0 2 0")
        at = len(acts) + 1
        for at in range(at + 1, at + 30):
            shown.click("play-work")
            shown.wait_for("event", "Event %d of %d" % (at, at))
            if "flipped" in shown.text("event"):
                break
        text = shown.trace()
        played = run(program, text=text.encode())
        yield "the trace of the buttons is a trace", wrong((played.status, played.stderr), (0, b""))
        replies = played.stdout.decode().split("\n")[:-1]
        yield "the replies to it", wrong(replies[:len(wanted)], wanted)
        # Three objects are left: g0's, r3's, and that of mutator 1. 'Work' begins, copies each root's target, scans 2 fields,
        # passes 3 replicas, and flips.
        work = ["begun", "copied", "copied", "copied", "scanned", "scanned", "passed", "passed", "passed", "flipped 3"]
        yield "the replies to work", wrong(replies[len(wanted):], ["made"] + work)
        found = []
        shown.click("play-start")
        shown.wait_for("event", "of %d events" % len(replies))
        for at in range(1, len(replies) + 1):
            shown.step(at, len(replies))
            found.append(shown.replies().get(at + 2))
        yield "the replies beside the lines", wrong(found, replies)
        yield "the version was raised", wrong(text.split("\n")[0], "heaptrace 3")
        shown.command("num", to="r0", number="x")
        yield "an invalid number is not sent", wrong(shown.trace(), text)
        yield "no complaint", complaints(shown)


def wrong_texts(program, folder):
    """Checks that a fault of the trace appears at its line, with the program's message, and disappears once it is corrected."""
    with page(folder) as shown:
        if shown is None:
            return
        good = content("write_while_scanning.trace").decode()
        lines = good.split("\n")
        texts = {"a bad line": "\n".join(lines[:4] + ["m 0 peek r0"] + lines[4:]), "no line feed": good[:-1] + "x",
                 "no such mutator": good + "m 1 nil r0\n", "a bad header": good.replace("32", "032"), "nothing": "", "an empty line": good + "\n"}
        for name, text in texts.items():
            shown.set("#trace-editor textarea", text)
            said = run(program, text=text.encode()).first_error_line()
            shown.wait_for("trace-fault", said)
            number = re.search(r"\d+$", said)
            line = int(number.group()) if number else 1
            yield "the fault of %s is at its line" % name, wrong(shown.replies().get(line), said)
            yield "%s cannot be played" % name, wrong(shown.run("return document.getElementById('play-step').getAttribute('aria-disabled');"), "true")
            shown.set("#trace-editor textarea", good)
            shown.wait("document.getElementById('trace-fault').hidden")
        for at in range(1, 7):
            shown.step(at, 11)
        shown.set("#trace-editor textarea", good.replace("c roots", "c roots\nc roots"))
        shown.wait_for("event", "of 12")
        yield "an edit keeps the events before it played", wrong("Event 4 of 12" in shown.text("event") or shown.text("event"), True)
        shown.drop("#picture", "returns.trace", good.replace("\n", "\r\n").encode())
        shown.wait_for("trace-fault", "trace: bad header")
        yield "a dropped file with carriage returns is read unchanged", None
        shown.drop("#trace", "good.trace", good.encode())
        shown.wait("document.getElementById('trace-fault').hidden")
        yield "a dropped trace is opened", wrong(shown.trace(), good)
        shown.drop("#trace", "good.pair", content("garbage_left_behind.pair"))
        shown.wait("!document.getElementById('panel-checker').hidden")
        shown.wait_for("verdict-line", "yes 1")
        yield "a dropped pair is opened in its tab", None
        shown.drop("#pair", "good.trace", content("second_collection.trace"))
        shown.wait("!document.getElementById('panel-collector').hidden")
        shown.wait_for("event", "of 20 events")
        yield "a dropped trace is opened in its tab", None
        shown.run("""const transfer = new DataTransfer();
            transfer.items.add(new File([new Uint8Array(67108865)], "large"));
            document.getElementById("trace").dispatchEvent(new DragEvent("drop", { dataTransfer: transfer, bubbles: true, cancelable: true }));""")
        shown.wait_for("message", "This page takes texts of up to 64 MiB")
        yield "a file that is too large gets a message", None
        yield "no complaint", complaints(shown)


# The marks that the drawing of an example has.
FAULTS = {"garbage_left_behind": 0, "number_moved_as_a_reference": 2, "numbers_like_references": 0, "one_replica_for_two": 1,
          "replica_out_of_date": 2}
LEGEND_MARKS = 1


def checks(program, folder):
    """Checks in the checker's tab that examples, dropped files and spoiled words get the program's verdicts."""
    with page(folder) as shown:
        if shown is None:
            return
        shown.click("tab-checker")

        def marks():
            return shown.run("return document.querySelectorAll('#pair-picture rect.fault').length;") - LEGEND_MARKS

        for name in names_of(".pair"):
            shown.set("#pair-examples", name)
            verdict = content(name + ".verdict").decode().strip()
            shown.wait_for("verdict-line", verdict)
            yield "verdict on %s" % name, wrong(shown.text("verdict-line").split(" (")[0], verdict)
            yield "marks of %s" % name, wrong(marks(), FAULTS[name])
        good, refused = content("garbage_left_behind.pair"), content("replica_out_of_date.pair")
        files_to_drop = {"a refused pair": refused, "a cut pair": good[:40], "a pair with a bad line": good.replace(b"\nold", b"\nelder", 1),
                         "bytes of no text": b"heappair 1\n\xff\xfe\n", "nothing": b"", "carriage returns": good.replace(b"\n", b"\r\n"),
                         "5000 objects": pairs.all_paired(5000, 1, altered=(4000,))[0], "a good pair": good}
        for name, data in files_to_drop.items():
            said = run(program, ["check", file_of(folder, "dropped", data)])
            line = said.stdout.decode().strip() or said.first_error_line()
            shown.drop("#panel-checker", name, data)
            shown.wait_for("verdict-line", line)
            yield "verdict on %s" % name, wrong(shown.text("verdict-line").split(" (")[0], line)
            drawn = shown.run("return document.querySelectorAll('#pair-picture svg').length;")
            yield "picture of %s" % name, wrong(drawn, 0 if line.startswith("pair: ") else 1)
        seen = set()
        for number in range(25):
            if number > 0:
                # The pair that is shown is spoiled, so the good one is taken back first.
                shown.click("mend")
                shown.wait_for("verdict-line", "yes 1")
            shown.run("document.getElementById('spoiled').textContent = '';")
            shown.click("spoil")
            shown.wait("document.getElementById('spoiled').textContent")
            text = shown.run("return document.querySelector('#pair-editor textarea').value;")
            line = run(program, ["check", file_of(folder, "spoiled", text.encode())]).stdout.decode().strip()
            seen.add(line.split(" ")[0])
            # The verdict comes from the server, after the words are changed.
            shown.wait_for("verdict-line", line)
            unmarked = line.startswith("refused") and marks() == 0
            if shown.text("verdict-line").split(" (")[0] != line or unmarked:
                yield "spoiled pair %d" % number, "%r, wanted %r, %d marks" % (shown.text("verdict-line"), line, marks())
        yield "spoiled pairs are refused", wrong("refused" in seen, True)
        spoiled_once = shown.run("return document.querySelector('#pair-editor textarea').value;")
        shown.run("document.getElementById('spoiled').textContent = '';")
        shown.click("spoil")
        shown.wait("document.getElementById('spoiled').textContent")
        shown.click("mend")
        shown.wait("document.querySelector('#pair-editor textarea').value === %s" % json.dumps(spoiled_once))
        yield "a refused pair that was spoiled comes back", None
        shown.click("mend")
        shown.wait_for("verdict-line", "yes 1")
        yield "undone", wrong(shown.run("return document.querySelector('#pair-editor textarea').value;"), good.decode())
        shown.click("tab-collector")
        shown.click("play-flip")
        shown.wait_for("event", "Event 9 of 11")
        shown.click("certificate-text")
        shown.wait_for("verdict-line", "yes 1")
        text = shown.run("return document.querySelector('#pair-editor textarea').value;")
        yield "the certificate as a pair text", wrong(run(program, ["check", file_of(folder, "seen", text.encode())]).stdout, b"yes 1\n")
        yield "no complaint", complaints(shown)


FIRST_TRACE, SECOND_TRACE = "write_while_scanning", "sharing_and_a_cycle"


# The boxes of the spaces of a drawing that are not whole in view.
OUT_OF_VIEW = """return [...document.querySelectorAll("#%s svg :is(.object, .raw, .garbage, .reserved, .free)")].map((it) => it.getBoundingClientRect())
    .filter((it) => it.top < 0 || it.left < 0 || it.bottom > innerHeight || it.right > innerWidth).length;"""


def tour(program, folder):
    """Checks that each stop of the tour shows the event that it is about, with the program's reply and whole spaces on a laptop, and that the reader's own
    trace comes back."""
    own = "heaptrace 1\nspace 24 mutators 1\nm 0 new r0 7 1\nm 0 look r0\n"
    with page(folder) as shown:
        if shown is None:
            return
        stops = shown.run("return (await import('./tour.js')).STOPS;")
        replies = {name: run(program, text=content(name + ".trace")).stdout.decode().split("\n")[:-1] for name in (FIRST_TRACE, SECOND_TRACE)}
        first = [stop for stop in stops if "trace" not in stop]
        yield "the tour goes through the whole first trace", wrong([stop["position"] for stop in first], list(range(len(replies[FIRST_TRACE]) + 1)))
        told = [replies[stop.get("trace", FIRST_TRACE)][stop["position"] - 1] for stop in stops[1:]]
        yield "the tour's replies", wrong([stop.get("reply") for stop in stops[1:]], told)
        yield "the tour's second trace", wrong({stop.get("trace") for stop in stops}, {None, SECOND_TRACE})
        shown.set("#trace-editor textarea", own)
        shown.wait_for("event", "of 2 events")
        shown.step(1, 2)
        shown.resize(1280, 800)
        shown.click("tour-start")
        for at, stop in enumerate(stops):
            shown.wait_for("tour-title", stop["title"])
            count = len(replies[stop.get("trace", FIRST_TRACE)])
            if stop.get("checks"):
                shown.wait_for("verdict-line", stop["checks"])
                text = shown.run("return document.querySelector('#pair-editor textarea').value;")
                verdict = run(program, ["check", file_of(folder, "tour", text.encode())]).stdout.decode().strip()
                yield "the verdict of stop %d" % at, wrong(verdict, stop["checks"])
            else:
                shown.wait_for("event", "Event %d of %d" % (stop["position"], count) if at else "Before the first of %d" % count)
            pointed = shown.run("return [...document.querySelectorAll('.pointed')].map((it) => it.id).sort();")
            yield "what stop %d points at" % at, wrong(pointed, sorted(stop["look"]))
            hidden = shown.run("return [...document.querySelectorAll('.pointed')].filter((it) => !it.offsetParent).map((it) => it.id);")
            yield "what stop %d points at is shown" % at, wrong(hidden, [])
            shown.wait("document.activeElement.id === 'tour-title'")
            drawing = "pair-picture" if stop.get("checks") else "picture"
            # It is drawn again if its place has another width.
            shown.wait("Math.abs(document.querySelector('#%s svg').getBoundingClientRect().width - document.getElementById('%s').clientWidth) < 60" % (drawing, drawing))
            yield "both spaces of stop %d are in view" % at, wrong(shown.run(OUT_OF_VIEW % drawing), 0)
            if at == 6:
                said = shown.text("certificate-body")
                yield "the tour's checker refuses", wrong("refused 9 FieldDiffers 0 0" in said, True)
                yield "the tour's checker says where", wrong("r0 of mutator 0 (place 16) . field 0: old 9, new nil" in said, True)
                yield "the tour's log has an entry", wrong("object at 1, field 0" in shown.text("logs-body"), True)
            shown.click("tour-next")
        shown.wait("document.getElementById('tour').hidden")
        shown.wait_for("event", "Event 1 of 2")
        yield "the reader's own trace comes back", wrong(shown.trace(), own)
        shown.click("tab-checker")
        yield "the reader's pair comes back", wrong(shown.text("verdict-line").split(" (")[0], "yes 1")
        yield "no complaint", complaints(shown)


def saved(shown, button):
    """Presses a button that saves a text, and returns the text and the name of its file."""
    return shown.run("""const make = URL.createObjectURL, click = HTMLAnchorElement.prototype.click;
        let blob, name;
        URL.createObjectURL = (it) => { blob = it; return make.call(URL, it); };
        HTMLAnchorElement.prototype.click = function () { name = this.download; };
        document.getElementById(%s).click();
        Object.assign(URL, { createObjectURL: make });
        HTMLAnchorElement.prototype.click = click;
        return [await blob.text(), name];""" % json.dumps(button))


def reloaded(shown):
    """Loads the page again from the address that it shows."""
    shown.run("window.isOld = true; location.reload();")
    shown.wait("!window.isOld && document.body && document.body.dataset.ready")


def nothing_is_lost(_program, folder):
    """Checks that changes can be taken back, that texts can be saved, and that a reload shows what was shown."""
    with page(folder) as shown:
        if shown is None:
            return
        good = content("write_while_scanning.trace").decode()
        shown.step(1, 11)
        shown.click("play-work")
        shown.wait_for("event", "Event 2 of 12")
        shown.click("play-undo")
        shown.wait_for("event", "Event 1 of 11")
        yield "an inserted line is taken back", wrong((shown.trace(), shown.run("return document.getElementById('trace-examples').value;")), (good, FIRST_TRACE))
        shown.set("#trace-editor textarea", "m")
        shown.wait_for("trace-fault", "bad header")
        shown.click("play-undo")
        shown.wait("document.getElementById('trace-fault').hidden")
        yield "an edit is taken back", wrong(shown.trace(), good)
        shown.set("#trace-examples", SECOND_TRACE)
        shown.wait_for("event", "of 21 events")
        shown.click("play-undo")
        shown.wait_for("event", "Event 1 of 11")
        yield "a trace that was replaced comes back", wrong(shown.trace(), good)
        yield "a saved trace", wrong(saved(shown, "trace-save"), [good, "write_while_scanning.trace"])
        yield "a saved pair", wrong(saved(shown, "pair-save"), [content("garbage_left_behind.pair").decode(), "garbage_left_behind.pair"])
        shown.step(2, 11)
        reloaded(shown)
        yield "a reload shows the same event", wrong("Event 2 of 11" in shown.text("event"), True)
        own = "heaptrace 1\nspace 24 mutators 1\nm 0 new r0 7 1\nm 0 look r0\n"
        shown.set("#trace-editor textarea", own)
        shown.wait_for("event", "of 2 events")
        shown.step(1, 2)
        shown.click("tab-checker")
        shown.click("spoil")
        shown.wait("document.getElementById('spoiled').textContent")
        pair = shown.run("return document.querySelector('#pair-editor textarea').value;")
        reloaded(shown)
        yield "a reload shows the same tab", wrong(shown.run("return document.getElementById('panel-checker').hidden;"), False)
        yield "a reload shows the reader's pair", wrong(shown.run("return document.querySelector('#pair-editor textarea').value;"), pair)
        shown.click("tab-collector")
        yield "a reload shows the reader's trace", wrong((shown.trace(), "Event 1 of 2" in shown.text("event")), (own, True))
        yield "no complaint", complaints(shown)


def places(_program, folder):
    """Checks the ways to an event: the timeline, a line number, a number; the speed; numbers of four digits; keys that are switched off."""
    long = "heaptrace 1\nspace 24 mutators 1\n" + "m 0 look r0\n" * 1200
    with page(folder) as shown:
        if shown is None:
            return
        shown.run("""const svg = document.querySelector("#timeline svg"), box = svg.getBoundingClientRect();
            const axis = svg.querySelector("polyline.axis").getBoundingClientRect();
            svg.dispatchEvent(new MouseEvent("click", { bubbles: true, clientX: axis.left + axis.width * 5 / 11, clientY: box.top + 40 }));""")
        shown.wait_for("event", "Event 5 of 11")
        yield "a click on the timeline", None
        shown.run("document.querySelector('#trace-editor .numbers [data-line=\"9\"]').click();")
        shown.wait_for("event", "Event 7 of 11")
        yield "a click on a line number", None
        shown.set("#play-to", "10")
        shown.wait_for("event", "Event 10 of 11")
        yield "a number", None
        shown.run("document.getElementById('keys').click(); document.activeElement.blur();")
        shown.press("f")
        shown.press("w")
        shown.press("ArrowLeft")
        shown.wait_for("event", "Event 9 of 11")
        yield "keys that are switched off", wrong(shown.trace(), content("write_while_scanning.trace").decode())
        shown.prefer(color_scheme="light", reduced_motion="no-preference")
        shown.set("#play-speed", "150")
        shown.click("play-start")
        shown.wait_for("event", "Before the first")
        began = time.monotonic()
        shown.click("play-run")
        shown.wait_for("event", "Event 11 of 11")
        yield "a fast run", None if time.monotonic() - began < 6 else "%.1f seconds" % (time.monotonic() - began)
        shown.set("#trace-editor textarea", long)
        shown.wait_for("event", "of 1200 events")
        shown.set("#play-to", "1200")
        shown.wait_for("event", "Event 1200 of 1200")
        cut = shown.run("""return [...document.querySelectorAll("#trace-editor .numbers div")].filter((it) => it.scrollWidth > it.clientWidth)
            .map((it) => it.textContent);""")
        yield "line numbers of four digits", wrong((cut, "1202" in shown.text("trace-editor")), ([], True))
        shown.set("#trace-examples", "second_collection")
        shown.wait_for("event", "of 20 events")
        # Its flips are the events 11 and 20.
        shown.set("#play-to-flip", "2")
        shown.wait_for("event", "Event 19 of 20")
        shown.set("#play-to-flip", "3")
        shown.wait_for("message", "This trace has 2 flips.")
        yield "a flip by its number", None
        # A text that is too long for the editor is shown in part.
        shown.drop_text("#trace", "long", "heaptrace 1\nspace 24 mutators 1\n" + "m 0 look r0\n" * 39999 + "m 0 nil r1\n")
        shown.wait_for("event", "of 40000 events")
        shown.set("#play-to", "40000")
        shown.wait_for("event", "Event 40000 of 40000")
        found = shown.run("""const before = Number(document.getElementById("trace-editor").dataset.before);
            return [document.querySelector("#trace-editor textarea").value.split("\\n")[40002 - 1 - before],
                document.querySelector("#trace-editor .numbers .current").textContent];""")
        yield "the current line of a long text", wrong(found, ["m 0 nil r1", "40002"])
        yield "no complaint", complaints(shown)


# The widths of a laptop, a tablet and a phone, with their heights.
SCREENS = [(1280, 800), (768, 1024), (390, 844)]


def roots_are_drawn(_program, folder):
    """Checks that roots are drawn at each width, that the buttons to act are in view, and that a text says what the drawing shows."""
    with page(folder) as shown:
        if shown is None:
            return
        for at in range(1, 5):
            shown.step(at, 11)
        for width, height in SCREENS:
            shown.resize(width, height, width < 500)
            time.sleep(0.6)
            names = shown.run("return [...document.querySelectorAll('#picture svg text')].map((it) => it.textContent);")
            yield "roots at %d" % width, None if any(name.startswith("r0 ") for name in names) else "drawn: %s" % names
            if width < 460:
                yield "the roots of an object at %d" % width, None if "\u2190 r0" in names else "drawn: %s" % names
            shown.click("to-commands")
            top = shown.run("return document.getElementById('steps-body').getBoundingClientRect().bottom;")
            yield "the buttons to act at %d" % width, None if 0 < top <= height else "they end at %s" % top
        shown.resize(1280, 800)
        shown.run("scrollTo(0, 0);")
        top = shown.run("return document.getElementById('commands-title').getBoundingClientRect().bottom;")
        yield "they are in view on a laptop", None if top < 700 else "they begin at %s" % top
        said = shown.run("return [...document.querySelectorAll('#picture-text li')].map((it) => it.textContent);")
        wanted = {"r0 of mutator 0 (place 16): the object at 1", "object at 1, kind 1, link 1, 1 field: nil"}
        yield "the drawing as text", None if wanted <= set(said) else "said %s" % said
        yield "one name for a root", wrong("r0 of mutator 0 (place 16)" in shown.text("roots-body"), True)
        yield "no complaint", complaints(shown)


# The frames of objects that the excerpt of large heaps shows.
FRAMES = """return [...document.querySelectorAll("#pair-looked .near rect title")].map((it) => it.textContent).filter((it) => it.startsWith("object at"));"""


def refused_places(_program, folder):
    """Checks that a refused pair opens at its place: both words, their objects, and the line in the editor, also in a long text."""
    with page(folder) as shown:
        if shown is None:
            return
        shown.click("tab-checker")
        for name, count, altered in [("5000 objects", 5000, 4000), ("70000 objects", 70000, 60000)]:
            text, verdict = pairs.all_paired(count, 1, altered=(altered,))
            shown.drop_text("#panel-checker", name, text.decode())
            shown.wait_for("verdict-line", verdict)
            rows = shown.run("""return [...document.querySelectorAll("#pair-place tr.refused")].map((it) => [...it.children].map((cell) => cell.innerText));""")
            lines = text.decode().split("\n")
            yield "%s: both words" % name, wrong(len(rows), 2)
            for row in rows:
                yield "%s: the word in line %s" % (name, row[4]), wrong(lines[int(row[4]) - 1], row[2])
            visible = shown.run("return [...document.querySelectorAll('#pair-editor .numbers .bad')].map((it) => it.textContent);")
            yield "%s: the line in the editor" % name, wrong(visible, [rows[0][4]])
            place = shown.run("""const it = document.querySelector("#pair-editor textarea");
                return it.value.split("\\n")[%d - 1 - Number(document.querySelector("#pair-editor").dataset.before)];""" % int(rows[0][4]))
            yield "%s: the text in the editor" % name, wrong(place, rows[0][2])
            # An object without fields takes two words, and is its own replica.
            both = ["object at %d of the %s space" % (1 + 2 * altered, heap) for heap in ("old", "new")]
            yield "%s: the refused objects word by word" % name, wrong(shown.run(FRAMES), both)
            shown.run("document.querySelector('#pair-picture rect.garbage').dispatchEvent(new MouseEvent('click', { bubbles: true }));")
            shown.wait("document.querySelector('#pair-looked table')")
            frames = shown.run(FRAMES)
            first = int(re.search(r"\d+", frames[0]).group())
            wanted = ["object at %d of the %s space" % (first + 2 * k, heap) for heap in ("old", "new") for k in range(len(frames) // 2)]
            yield "%s: the objects of a block word by word" % name, wrong((frames, len(frames) // 2 > 1), (wanted, True))
            looked = shown.run("return [...document.querySelectorAll('#pair-looked tbody tr')].map((it) => [...it.children].map((cell) => cell.innerText));")
            yield "%s: the objects of a block" % name, wrong([row[2] for row in looked], [lines[int(row[4]) - 1] for row in looked])
            shown.run("""const frame = [...document.querySelectorAll("#pair-looked .near rect")].filter((it) => it.textContent.startsWith("object at"))[1];
                const { left, top } = frame.getBoundingClientRect();
                frame.dispatchEvent(new MouseEvent("click", { bubbles: true, clientX: left + 5, clientY: top + 5 }));""")
            shown.wait("document.querySelectorAll('#pair-looked table').length === 1")
            wanted = ["object at %d of the %s space" % (first + 2, heap) for heap in ("old", "new")]
            yield "%s: an object that is clicked" % name, wrong(shown.run(FRAMES), wanted)
            shown.run("document.querySelector('#pair-looked .near').dataset.old = 'yes';")
            shown.resize(1100, 900)
            shown.wait("document.querySelector('#pair-looked .near') && !document.querySelector('#pair-looked .near').dataset.old && document.querySelector('#pair-looked table')")
            yield "%s: it is there in another width" % name, wrong(shown.run(FRAMES), wanted)
            shown.resize(1360, 900)
            time.sleep(1)
        yield "no complaint", complaints(shown)


# Clicks in the middle of the first long run of blocks of the old space, and returns the words that the run has.
CLICK_A_RUN = """const run = [...document.querySelectorAll("#pair-picture rect")].find((it) => it.textContent.startsWith("old space") && it.width.baseVal.value > 80);
    const { left, width, top } = run.getBoundingClientRect();
    run.dispatchEvent(new MouseEvent("click", { bubbles: true, clientX: left + width / 2, clientY: top + 2 }));
    return run.textContent.match(/\\d+/g).slice(0, 2).map(Number);"""


def zooms(_program, folder):
    """Checks that a long pair text opens as blocks, and that the reader gets to each object: by a click on a block, from page to page, and by the number of a
    word."""
    fields = 3
    size = fields + 2
    _, text, verdict, count = next(pairs.long_texts(120000, 60000, fields))
    with page(folder, file_of(folder, "long.pair", text.encode())) as shown:
        if shown is None:
            return
        shown.wait_for("verdict-line", verdict)
        yield "it opens in the checker's tab", wrong(shown.run("return document.getElementById('panel-checker').hidden;"), False)
        first, last = shown.run(CLICK_A_RUN)
        shown.wait("document.querySelector('#pair-looked [role=status]')")
        said = shown.run("return document.querySelector('#pair-looked [role=status]').textContent;")
        found = [int(word) for word in re.findall(r"\d+", said)]
        # The click is half of the run behind its first word. Between two blocks it is in the right one.
        middle = (first + last + 1) // 2
        right = said.startswith("The old heap, words ") and first < found[0] <= middle <= found[1] < last
        yield "a click shows the block there", None if right else "%r, of a run from %d to %d" % (said, first, last)
        wanted = [1 + size * number for number in range(count) if 1 + size * number <= found[1] and 1 + size * (number + 1) > found[0]]
        yield "a block has more objects than a page", None if len(wanted) > 8 else "%d" % len(wanted)
        yield "the objects of the block", wrong(shown.run(FRAMES)[:8], ["object at %d of the old space" % address for address in wanted[:8]])
        shown.set("#look-word", "30000")
        shown.set("#look-heap", "new")
        shown.run("document.querySelector('#look-at button').click();")
        shown.wait("document.querySelector('#pair-looked [role=status]')?.textContent.startsWith('The new heap, word 30000: 1 object.')")
        yield "the object with a word", wrong("object at %d of the new space" % (1 + size * ((30000 - 1) // size)) in shown.run(FRAMES), True)
        # A block has more objects than a page.
        shown.run(CLICK_A_RUN)
        shown.wait("document.querySelector('#pair-looked [role=status]')?.textContent.includes('objects 1 to 8 of ')")
        before = shown.run(FRAMES)
        shown.run("[...document.querySelectorAll('#pair-looked button')].find((it) => it.textContent === 'Next').click();")
        shown.wait("document.querySelector('#pair-looked [role=status]')?.textContent.includes('objects 9 to ')")
        after = [int(re.search(r"\d+", frame).group()) for frame in shown.run(FRAMES)]
        yield "the next objects of the block", wrong(after[0], int(re.search(r"\d+", before[7]).group()) + size)
        shown.run("[...document.querySelectorAll('#pair-looked button')].find((it) => it.textContent === 'Previous').click();")
        shown.wait("document.querySelector('#pair-looked [role=status]')?.textContent.includes('objects 1 to 8 of ')")
        yield "the previous objects of the block", wrong(shown.run(FRAMES), before)
        yield "no complaint", complaints(shown)


def keyboard(_program, folder):
    """Checks that keys play the trace, except while a text is edited, and that arrows reach the tabs."""
    with page(folder) as shown:
        if shown is None:
            return
        for key, wanted in [("ArrowRight", "Event 1 of 11"), ("ArrowRight", "Event 2 of 11"), ("ArrowLeft", "Event 1 of 11"), ("f", "Event 9 of 11"),
                            ("Home", "Before the first"), ("r", "Event 11 of 11"), ("w", "Event 12 of 12"), ("u", "Event 11 of 11"), ("w", "Event 12 of 12")]:
            shown.press(key)
            shown.wait_for("event", wanted)
            yield "the key %s" % key, None
        before, event = shown.trace(), shown.text("event")
        shown.run("const area = document.querySelector('#trace-editor textarea'); area.focus(); area.setSelectionRange(0, 0);")
        shown.press("w")
        shown.press("ArrowLeft")
        shown.wait_for("trace-fault", "trace: bad header")
        yield "keys in the editor are text", wrong((shown.trace(), shown.text("event")), ("w" + before, event))
        shown.run("document.getElementById('tab-collector').focus();")
        shown.press("ArrowRight")
        selected = shown.run("""return [document.activeElement.id, document.getElementById("panel-checker").hidden,
            document.getElementById("panel-collector").hidden];""")
        yield "the next tab", wrong(selected, ["tab-checker", False, True])
        unnamed = shown.run("""return [...document.querySelectorAll("button, input, select, textarea")].filter((it) => !(it.innerText || "").trim()
            && !it.getAttribute("aria-label") && !(it.labels && it.labels.length)).map((it) => it.outerHTML);""")
        yield "each control has a name", wrong(unnamed, [])
        yield "no complaint", complaints(shown)


def picture_of(described):
    """Returns the picture of a description."""
    picture = Picture(described["title"])
    picture.width, picture.height, picture.shapes = described["width"], described["height"], described["shapes"]
    return picture


def hurry(_program, folder):
    """Acts without waiting: each click counts, edits that were not reported yet come first, and a new width changes no position."""
    with page(folder) as shown:
        if shown is None:
            return
        shown.run("for (let i = 0; i < 5; i += 1) { document.getElementById('play-step').click(); }")
        shown.wait_for("event", "Event 5 of 11")
        yield "five clicks at once are five steps", None
        shown.run("for (let i = 0; i < 2; i += 1) { document.getElementById('play-work').click(); }")
        # The one field is scanned and nothing was written, so 'Work' passes the replica, and flips.
        shown.wait_for("event", "flipped 1")
        yield "work twice at once", wrong([shown.replies().get(line) for line in (8, 9)], ["passed", "flipped 1"])
        shown.set("#trace-examples", "write_while_scanning")
        shown.wait_for("event", "of 11 events")
        shown.run("""const area = document.querySelector("#trace-editor textarea");
            area.value = area.value.replace("m 0 new r0 1 1", "m 0 new r0 1 7");
            area.dispatchEvent(new Event("input"));
            document.getElementById("play-step").click();""")
        shown.wait_for("event", "with 7 fields")
        yield "an edit comes before the click behind it", None
        shown.run("""document.getElementById("tour-start").click();
            for (let i = 0; i < 6; i += 1) { document.getElementById("tour-next").click(); }""")
        shown.wait_for("event", "Event 6 of 11")
        yield "six clicks through the tour", wrong("out of date" in shown.text("tour-title"), True)
        shown.resize(700, 900)
        shown.run("for (let i = 0; i < 3; i += 1) { document.getElementById('play-step').click(); }")
        shown.wait("document.querySelector('#picture svg').getBoundingClientRect().width < 660")
        time.sleep(0.5)
        yield "another width at the same position", wrong("Event 9 of 11" in shown.text("event"), True)
        yield "no complaint", complaints(shown)


def pauses(_program, folder):
    """Checks that the reader sees the time of each call: a sentence and a picture, which go with the event, and a click that goes to an event."""
    with page(folder) as shown:
        if shown is None:
            return
        yield "no times before the reader asks", wrong(shown.run("return document.querySelectorAll('#pauses svg').length;"), 0)
        shown.step(1, 11)
        shown.run("document.querySelector('#pauses-view summary').click();")
        shown.wait_for("pauses-text", "Of 1 calls, half took at most ")
        shown.step(2, 11)
        shown.wait_for("pauses-text", "Of 2 calls, half took at most ")
        said = shown.text("pauses-text")
        longest = re.search(r"The longest took [\d.]+ (?:ns|\u00b5s|ms|s): event ([12]), '(.*)'\.$", said)
        lines = content("write_while_scanning.trace").decode().split("\n")[2:]
        yield "the longest call", None if longest and longest.group(2) == lines[int(longest.group(1)) - 1] else said
        shown.click("play-run")
        shown.wait_for("pauses-text", "Of 11 calls, ")
        yield "the flip is marked", wrong(shown.run("return [...document.querySelectorAll('#pauses rect.flip title')].length;"), 1)
        shown.run("""const svg = document.querySelector("#pauses svg"), axis = svg.querySelector("polyline.axis").getBoundingClientRect();
            svg.dispatchEvent(new MouseEvent("click", { bubbles: true, clientX: axis.left + axis.width * 5 / 11, clientY: axis.top + 9 }));""")
        shown.wait_for("event", "Event 5 of 11")
        yield "a click goes to the event", None
        yield "no complaint", complaints(shown)


def progress(_program, folder):
    """Checks that a bar is shown while the server takes long for an answer, and not for a quick one."""
    with page(folder) as shown:
        if shown is None:
            return
        shown.run("window.quick = window.fetch;")
        shown.step(1, 11)
        yield "no bar for a quick answer", wrong(shown.run("return document.getElementById('busy').hidden;"), True)
        shown.run("window.fetch = async (...words) => { await new Promise((done) => { window.release = done; }); return window.quick(...words); };")
        shown.click("play-step")
        shown.wait("!document.getElementById('busy').hidden")
        yield "a bar for a slow answer", wrong(shown.run("return document.querySelector('#busy progress').getBoundingClientRect().width > 0;"), True)
        shown.run("window.release(); window.fetch = window.quick;")
        shown.wait_for("event", "Event 2 of 11")
        yield "the bar goes with the answer", wrong(shown.run("return document.getElementById('busy').hidden;"), True)
        yield "no complaint", complaints(shown)


def shapes_in_page(shown, picture):
    """Returns the shapes that the page draws for a description: names, roles and attributes."""
    return shown.run("""const { render } = await import("./picture.js");
        return [...render(%s).children].filter((it) => it.tagName !== "defs").map((it) => [it.tagName, it.getAttribute("class"),
            Object.fromEntries(["x", "y", "width", "height", "points", "d", "text-anchor", "transform"].filter((name) => it.hasAttribute(name))
                .map((name) => [name, it.getAttribute(name)])), it.textContent]);""" % json.dumps(picture))


def numbers_of(value):
    return [round(float(number), 1) for number in re.findall(r"-?\d+(?:\.\d+)?", value)]


def same_drawing(_program, folder):
    """Checks that the page and tools/draw draw the same shapes for a description."""
    with page(folder) as shown:
        if shown is None:
            return
        told = shown.server.ask("play", text=content("log_across_two_mutators.trace").decode(), position=10, known=0, width=900)
        pictures = {name: picture_of(told[name]) for name in ("picture", "timeline")}
        pictures.update({name: drawn_example(name) for name in ("replica_out_of_date", "garbage_left_behind")})
        for name, picture in pictures.items():
            shapes = ("rect", "text", "polyline", "polygon", "path")
            nodes = [node for node in ElementTree.fromstring(svg.render(picture)) if node.tag[len(SVG):] in shapes]
            # The first one is the ground.
            wanted = [[node.tag[len(SVG):], node.get("class"), "".join(node.itertext())] for node in nodes[1:]]
            found = shapes_in_page(shown, picture.described())
            yield "shapes of %s" % name, wrong([[shape[0], shape[1], shape[3]] for shape in found], wanted)
            places = [{key: numbers_of(value) for key, value in shape[2].items() if key != "text-anchor"} for shape in found]
            theirs = [{key: numbers_of(node.get(key)) for key in shape[2] if key != "text-anchor"}
                      for node, shape in zip(nodes[1:], found)]
            yield "places of %s" % name, wrong(places, theirs)
        yield "no complaint", complaints(shown)


def large(program, folder):
    """Checks that thousands of objects become blocks, and that a step stays quick."""
    text = "heaptrace 1\nspace 65536 mutators 1\n" + "m 0 new r0 1 3\nm 0 put r0 0 r1\nm 0 move r1 r0\n" * 5000
    text += "c begin\n" + "c roots\nc scan\n" * 2000
    with page(folder, file_of(folder, "large.trace", text.encode())) as shown:
        if shown is None:
            return
        shown.wait_for("event", "of 19001 events")
        shown.run("window.began = performance.now();")
        shown.click("play-run")
        shown.wait_for("event", "Event 19001 of 19001")
        replies = run(program, text=text.encode()).stdout.decode().split("\n")
        yield "the last reply", wrong(shown.replies().get(19003), replies[19000])

        def told():
            found = [shown.run("return document.getElementById('%s').innerHTML;" % name) for name in ("event", "picture", "picture-text", "timeline", "roots", "certificate")]
            # Each drawing has names of its own for the heads of its arrows.
            return [re.sub(r"picture-\d+-", "", html) for html in found]

        shown.click("play-back")
        shown.wait_for("event", "Event 19000 of 19001")
        back = told()
        shown.step(19001, 19001)
        shown.run("window.began = performance.now();")
        shown.click("play-work")
        shown.wait_for("event", "Event 19002 of 19002")
        took = shown.run("return performance.now() - window.began;")
        yield "a step takes less than 3 seconds", None if took < 3000 else "%.1f s" % (took / 1000)
        count = shown.run("return document.querySelectorAll('*').length;")
        yield "few elements", None if count < 4000 else "%d elements" % count
        # The page of another tab has no players yet, so that the server plays the trace anew.
        shown.run("window.isOld = true;")
        shown.open(shown.server.address)
        shown.wait("!window.isOld && document.body && document.body.dataset.ready")
        shown.wait_for("event", "Before the first of 19001 events")
        shown.set("#play-to", "19000")
        shown.wait_for("event", "Event 19000 of 19001")
        yield "a step back shows what playing anew shows", wrong(back, told())
        yield "no complaint", complaints(shown)


def looks(_program, folder):
    """Checks the contrast in light and dark, that nothing is too wide for small screens, and that readers can turn off motion."""
    with page(folder) as shown:
        if shown is None:
            return
        shown.set("#trace-examples", "string_while_copied")
        count = len(content("string_while_copied.replies").split(b"\n")) - 1
        shown.wait_for("event", "of %d events" % count)
        for at in range(1, 14):
            shown.step(at, count)
        for scheme in ("light", "dark"):
            shown.prefer(color_scheme=scheme, reduced_motion="reduce")
            for tab in ("collector", "checker", "trust"):
                shown.click("tab-" + tab)
                found = shown.run(CONTRAST)
                right = not found["low"] and found["count"] > 10
                yield "contrast of %s, %s" % (tab, scheme), None if right else str(found)
        for width in (1360, 1024, 760, 390, 320):
            shown.resize(width, 844, width < 500)
            for tab in ("collector", "checker", "trust"):
                shown.click("tab-" + tab)
                time.sleep(0.4)
                # Room for a scroll bar is reserved, so that the page may be narrower.
                over = shown.run("return Math.max(0, document.documentElement.scrollWidth - document.documentElement.clientWidth);")
                yield "%s is not wider than %d" % (tab, width), wrong(over, 0)
        shown.click("tab-collector")
        small = shown.run("""return [...document.querySelectorAll("button, select, input:not([type=file])")].filter((it) => it.offsetParent
            && it.getBoundingClientRect().height < 24).map((it) => it.outerHTML);""")
        yield "controls are at least 24 pixels high", wrong(small, [])
        animated = shown.run("return [...document.querySelectorAll('*')].filter((it) => getComputedStyle(it).animationName !== 'none').length;")
        yield "no motion for readers who want none", wrong(animated, 0)
        yield "no complaint", complaints(shown)
