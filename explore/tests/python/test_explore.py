"""Tests of the Python code of gcflip_explore: players, the useful step, certificates, spoiled pairs and requests."""
import contextlib
import functools
import random
import unittest
from unittest import mock

import gcflip
from gcflip_explore import checking, checkpoints, playing, record, requests, stage, state
from gcflip_drawing import timeline
from gcflip_drawing.heap import walk
from gcflip_drawing.pair_text import Image, read_accepted, read_pair, written
from gcflip_drawing.scene import Scene, Space
from gcflip_drawing.trace_text import event_of, heading, read_trace

TRACES = [example for example in requests.examples() if example["kind"] == "trace"]
PAIRS = [example for example in requests.examples() if example["kind"] == "pair"]
# Small objects of both sorts, writes while a collection is open, and a new space that is too small for a while.
LONG = ("heaptrace 3\nspace 64 mutators 2\nm 0 new g0 1 2\nm 1 raw r1 2 3\nm 0 put g0 0 r1\nm 0 new r0 3 1\nm 0 put g0 1 r0\nc begin 7\n"
        "c roots\nc scan\nm 1 put g0 0 r1\nm 0 put g0 1 r3\nc drop\nc begin\nm 0 put r0 0 g0\n")
# Entries are applied before the fields are scanned, once with a target that has no replica; the fields and a raw object are then written again.
EARLY = ("heaptrace 3\nspace 64 mutators 2\nm 0 new g0 1 3\nm 0 num r0 7\nm 0 new r1 2 1\nm 1 raw r1 2 2\nm 0 put g0 0 r0\nc begin\nc roots\nm 0 put g0 1 r0\n"
         "c apply 0\nm 0 put g0 2 r1\nc apply 0\nm 1 put g0 2 r1\nc roots\nm 1 num r2 5\nm 1 put r1 1 r2\nc scan\nm 0 put g0 0 g0\nc scan\nc apply 1\nc scan\n")


def positions():
    """Yields each trace with each of its positions."""
    for text in [example["text"] for example in TRACES] + [LONG, EARLY]:
        trace = read_trace(text.encode())
        for position in range(len(trace.events) + 1):
            yield text, trace, position


def with_line(text, found):
    """Returns the text of a trace with the line that an answer says was inserted, as the page makes it."""
    lines, at = text.split("\n"), found["position"] + 1
    return "\n".join(["heaptrace %d" % found["version"], *lines[1:at], found["line"], *lines[at:]])


def played(trace, position):
    player = playing.opened(trace.size, trace.mutators)
    player.play_to(trace, position)
    return player


class Players(unittest.TestCase):
    def test_useful_step_is_that_of_work(self):
        """Checks from each position that the useful steps up to a flip are those of `Heap.work`, and lead to the same heap."""
        for _, trace, position in positions():
            one, other = played(trace, position), played(trace, position)
            for _ in range(40):
                line, work = one.useful_line(), other.heap.work(1)
                reply = one.play(event_of(line))
                self.assertEqual(reply, "flipped %d" % work.pairs if work.last is gcflip.Step.FLIPPED else work.last.value)
                self.assertEqual(one.heap.counts(), other.heap.counts())
                self.assertEqual((one.stage.words(), one.stage.logs()), (other.stage.words(), other.stage.logs()))
                if reply.startswith("flipped") or reply == "no room":
                    break

    def test_a_line_is_kept_for_each_event(self):
        for _, trace, position in positions():
            player = played(trace, position)
            self.assertEqual(player.record.lines, [event.line for event in trace.events[:position]])
            self.assertEqual(len(player.replies()), position)

    def test_going_back_shows_what_going_on_showed(self):
        players = playing.Players()
        for text in {text for text, _, _ in positions()}:
            trace = read_trace(text.encode())
            there = list(range(len(trace.events) + 1))
            forth = [state.described(players.at(trace, position), trace, 900) for position in there]
            back = [state.described(players.at(trace, position), trace, 900) for position in reversed(there)]
            self.assertEqual(forth, back[::-1])

    def test_few_heaps_stay_open(self):
        players = playing.Players()
        for size in range(8, 40):
            players.at(read_trace(b"heaptrace 1\nspace %d mutators 1\nm 0 new r0 1 1\n" % size), 1)
        self.assertEqual(len(players.players), playing.MOST_PLAYERS)

    def test_a_put_changes_one_word_of_the_old_space(self):
        trace = read_trace(b"heaptrace 1\nspace 8 mutators 1\nm 0 new r0 1 1\nm 0 num r1 4\nm 0 put r0 0 r1\n")
        changed = [tuple(change) for change in played(trace, 3).changed]
        self.assertEqual(changed, [(True, "words", 3)])
        # An object of one field takes the words 1 to 3, and r0 is the root after the 16 shared slots.
        changed = [tuple(change) for change in played(trace, 1).changed]
        self.assertEqual(changed, [(True, "words", 1), (True, "words", 2), (True, "words", 3), (True, "roots", 16)])


def kinds_of(stage):
    """Returns what is particular about the state of a heap, for the heaps that are made from checkpoints."""
    (old, new), (place, field), found = stage.words(), stage.scan(), set()
    if new is None:
        return {"no collection"}
    originals = {start: new.words[start + 1] for start in walk(new.words, True)}
    for start, thing in walk(new.words, True).items():
        for at, word in enumerate(thing.fields):
            is_reference = not thing.raw and word > 0 and word % 2 == 0
            is_old = (2 * originals[word // 2] if is_reference else word) != old.words[originals[start] + 2 + at]
            is_scanned = start < place or start == place and at < field
            found |= {"a raw replica that is out of date"} if thing.raw and is_old else set()
            found |= {"a scanned field that is out of date"} if not thing.raw and is_scanned and is_old else set()
            found |= {"a field that was applied before its scan"} if not thing.raw and not is_scanned and word else set()
    found |= {"a scan pointer within an object"} if field > 0 else set()
    found |= {"a scan pointer behind the last field"} if place in originals and 0 < field == walk(new.words, True)[place].count else set()
    entries = {entry for log in stage.logs() for entry in log[::2]}
    found |= {"an entry of an object without a replica"} if entries - set(originals.values()) else set()
    return found | ({"another size"} if old.size != new.size else set())


class Checkpoints(unittest.TestCase):
    """Heaps that are made from checkpoints, and players that go back by them."""

    def assert_same(self, one, other):
        """Checks that two heaps are in the same state. One that was made from a checkpoint has extra roots, which hold nil, and may have looks left."""
        self.assertEqual(one.heap.counts()._replace(extra_roots=0, roots_left=0), other.heap.counts()._replace(extra_roots=0, roots_left=0))
        self.assertEqual((one.words(), one.logs()), (other.words(), other.logs()))
        count = len(one.words().old.roots)
        self.assertEqual((one.heap.image().roots[:count], set(other.heap.image().roots[count:]) - {0}), (other.heap.image().roots[:count], set()))

    def test_a_heap_from_a_checkpoint_is_in_its_state(self):
        """Makes a heap from each position of the examples and of random traces, and goes on with both heaps: replies and states are equal after each event."""
        kinds, tried = set(), [(trace, position, 1) for _, trace, position in positions()]
        tried += [(trace, position, 40) for trace in random_traces() for position in range(0, len(trace.events), 7)]
        for trace, position, step in tried:
            one = played(trace, position).stage
            kinds |= kinds_of(one)
            other = checkpoints.rebuilt(checkpoints.taken(one, position))
            self.assert_same(one, other)
            for at, event in enumerate(trace.events[position:]):
                self.assertEqual(one.acts.of(event)(), other.acts.of(event)(), (position, at, event))
                if at % step == 0:
                    self.assert_same(one, other)
            for _ in range(200):
                self.assertEqual(one.heap.useful(), other.heap.useful())
                self.assertEqual(one.heap.work(1), other.heap.work(1))
                self.assert_same(one, other)
                if not one.heap.counts().is_open:
                    break
        self.assertEqual(kinds, {"no collection", "another size", "an entry of an object without a replica", "a raw replica that is out of date",
                                 "a scanned field that is out of date", "a field that was applied before its scan", "a scan pointer within an object",
                                 "a scan pointer behind the last field"})

    def test_a_heap_that_differs_is_not_shown(self):
        """Makes a heap without some of the calls that lead it to its state: each one is missed."""
        missed = set()
        for _, trace, position in positions():
            checkpoint = checkpoints.taken(played(trace, position).stage, position)
            for name in ("make_objects", "fill_objects", "collect", "apply_entries", "set_roots"):
                with mock.patch.object(checkpoints.Making, name), contextlib.suppress(RuntimeError):
                    checkpoints.rebuilt(checkpoint)
                    continue
                missed.add(name)
        self.assertEqual(missed, {"make_objects", "fill_objects", "collect", "apply_entries", "set_roots"})

    def test_going_back_shows_what_playing_anew_shows(self):
        """Goes through positions of random traces in random orders and one by one, with checkpoints after few events, across flips and dropped collections."""
        for number, trace in enumerate(random_traces()):
            with mock.patch.object(record, "LEAST_EVENTS", 5):
                players, chosen = playing.Players(), random.Random(number)
                end = len(trace.events)
                kept = [checkpoint.position for checkpoint in players.at(trace, end).record.checkpoints]
                self.assertTrue(len(kept) > 20 and players.players[0].flips() > 1, (kept, players.players[0].flips()))
                order = [position + aside for position in kept for aside in (1, 0, -1) if 0 <= position + aside <= end]
                chosen.shuffle(order)
                for position in [*order[:24], *range(end, end - 12, -1), 0, end, 3, end - 1]:
                    found = state.described(players.at(trace, position), trace, 340)
                    self.assertEqual(found, state.described(played(trace, position), trace, 340), position)
                self.assertEqual(len(players.players), 1)

    def test_an_inserted_line_and_its_undo(self):
        """Inserts a line after going back, takes it back, and goes on, with checkpoints after few events. Each answer is that of a server that never played
        anything."""
        def answer(desk, name, trace_text, position, **data):
            return desk.answer(name, {"text": trace_text, "position": position, "known": 0, "width": 340, **data})

        for trace in random_traces()[1:3]:
            text = heading(3, trace.size, trace.mutators) + "".join(event.line + "\n" for event in trace.events)
            with mock.patch.object(record, "LEAST_EVENTS", 5):
                desk, end = requests.Desk(), len(trace.events)
                answer(desk, "play", text, end)
                for position, line in ((end - 1, None), (123, "m 0 num r0 77"), (123, None), (46, "c drop"), (45, "c begin 70"), (2, "m 0 new r0 0 1")):
                    found = answer(desk, "insert", text, position, line=line)
                    self.assertEqual(found, answer(requests.Desk(), "insert", text, position, line=line))
                    longer = with_line(text, found)
                    for one, at in ((longer, position + 1), (text, position), (text, position - 1), (longer, position + 2), (longer, position - 2), (text, end)):
                        self.assertEqual(answer(desk, "play", one, at), answer(requests.Desk(), "play", one, at))
                self.assertLessEqual(len(desk.session("").players.players), playing.MOST_PLAYERS)

    def test_a_late_step_back_plays_few_events(self):
        """Counts the events that are played for steps back from the last of 20,001 events, for an inserted line, for one that is taken back, and for other
        places: they are those behind the last checkpoint."""
        text = "heaptrace 1\nspace 64 mutators 1\nm 0 new r0 1 1\n" + "m 0 num r1 7\nm 0 put r0 0 r1\nm 0 get r2 r0 0\nm 0 look r2\n" * 5000
        desk, played, play = requests.Desk(), [], playing.Player.play

        def counting(player, event):
            played.append(event)
            return play(player, event)

        def count(name="play", **data):
            played.clear()
            found = desk.answer(name, {"text": text, "known": data["position"], "width": 900, **data})
            return found["position"], len(played), with_line(text, found) if name == "insert" else None

        with mock.patch.object(playing.Player, "play", counting):
            every = record.LEAST_EVENTS
            self.assertEqual(count(position=20001)[:2], (20001, 20001))
            # Behind the checkpoint at 19,456.
            for position in (20000, 19999, 19998):
                self.assertEqual(count(position=position)[:2], (position, position - 19 * every))
            # At a checkpoint, the event before it is played to show what it changed.
            self.assertEqual(count(position=19 * every)[:2], (19 * every, every))
            self.assertEqual(count(position=19 * every + 1)[:2], (19 * every + 1, 1))
            self.assertEqual(count(position=7000)[:2], (7000, 7000 - 6 * every))
            self.assertEqual(count(position=0)[:2], (0, 0))
            self.assertEqual(count(position=20001)[:2], (20001, 20001 - 19 * every))
            # A line is inserted before the last event, and taken back. Both texts keep their places.
            position, events, longer = count("insert", position=20000, line="m 0 nil r0")
            self.assertEqual((position, events), (20001, 20000 - 19 * every + 1))
            self.assertEqual(count(position=20000)[:2], (20000, 20000 - 19 * every))
            self.assertEqual(count(text=longer, position=20002)[:2], (20002, 2))
            self.assertEqual(count(text=longer, position=20000)[:2], (20000, 20000 - 19 * every))

    def test_checkpoints_are_bounded(self):
        """With a lower bound than usual, every second checkpoint is left out again and again, and what is shown is still right."""
        trace = random_traces()[3]
        with mock.patch.object(record, "LEAST_EVENTS", 2), mock.patch.object(record, "MOST_WORDS", 700):
            players = playing.Players()
            kept = players.at(trace, len(trace.events)).record
            self.assertEqual(kept.words, sum(checkpoint.size() for checkpoint in kept.checkpoints))
            self.assertTrue(0 < kept.words <= 700 and kept.least >= 8, (kept.words, kept.least))
            distances = [second.position - first.position for first, second in zip(kept.checkpoints, kept.checkpoints[1:])]
            self.assertTrue(len(distances) > 1 and max(distances) < 200, distances)
            for position in range(len(trace.events), 0, -17):
                self.assertEqual(state.described(players.at(trace, position), trace, 900), state.described(played(trace, position), trace, 900))

    def test_large_heaps_and_long_logs_have_few_checkpoints(self):
        """A checkpoint of many words comes after one event for 64 of them, and one of a long log after one event for four entries."""
        large = "heaptrace 1\nspace 1048576 mutators 1\n" + "m 0 new r0 0 65535\n" * 12 + "m 0 look r0\n" * 40000
        # Word 0 and 12 objects of 65,537 words.
        every = (1 + 12 * 65537) // 64
        long = "heaptrace 1\nspace 64 mutators 1\nm 0 new r0 0 1\nm 0 num r1 1\nc begin\nc roots\n" + "m 0 put r0 0 r1\n" * 10000
        # Four events are not logged. From 4,096 on, a fourth of the log is longer than 1,024 before the next checkpoint: p = 4096 + (p - 4) / 4 at 5,460.
        for text, wanted in ((large, [0, every, 2 * every, 3 * every]), (long, [0, 1024, 2048, 3072, 4096, 5460])):
            trace = read_trace(text.encode())
            players = playing.Players()
            found = [checkpoint.position for checkpoint in players.at(trace, len(trace.events)).record.checkpoints]
            self.assertTrue(all(abs(one - other) < 5 for one, other in zip(found, wanted)), found)
            self.assertLess(len(found), 9)
            position = len(trace.events) - 1
            self.assert_same(players.at(trace, position).stage, playing.Players().at(trace, position).stage)

    def test_a_heap_without_memory_changes_nothing(self):
        trace = random_traces()[1]
        with mock.patch.object(record, "LEAST_EVENTS", 5):
            players = playing.Players()
            players.at(trace, 300)
            for call in ("open", "step_begin_sized"):
                with mock.patch.dict(vars(gcflip.heap.LIBRARY), {"gcflip_heap_" + call: lambda *_numbers: gcflip.heap.Answer.NO_MEMORY}):
                    with self.assertRaises(gcflip.OutOfMemory):
                        players.at(trace, 299)
                self.assertEqual([(player.position, player.heap.counts().is_open) for player in players.players],
                                 [(300, played(trace, 300).heap.counts().is_open)])
            self.assertEqual(state.described(players.at(trace, 299), trace, 340), state.described(played(trace, 299), trace, 340))
            # A player that runs out of memory within an event is given up.
            for name, fault in (("taken", MemoryError), ("taken", gcflip.OutOfMemory("put"))):
                with mock.patch.object(record, name, side_effect=fault), self.assertRaises(MemoryError):
                    players.at(trace, 330)
                self.assertEqual(players.players, [])
                self.assertEqual(state.described(players.at(trace, 330), trace, 340), state.described(played(trace, 330), trace, 340))
                players.at(trace, 299)
                players.players[0].record = players.players[0].record.first(299)


class Pictures(unittest.TestCase):
    def pictures(self):
        """Yields the pictures and timelines of all positions, in several widths, and of heaps of many rows."""
        rows = "heaptrace 3\nspace 190 mutators 2\nm 0 new r0 1 40\nm 0 new g0 2 70\nm 0 put r0 0 g0\nm 0 put g0 69 r0\nc begin\nc roots\nc roots\n"
        many = "heaptrace 2\nspace 9000 mutators 1\n" + "m 0 new r0 1 3\n" * 900 + "c begin 5000\nc roots\n"
        tried = [(trace, position) for _, trace, position in positions()]
        tried += [(read_trace(text.encode()), text.count("\n") - 2) for text in (rows, many)]
        for trace, position in tried:
            for width in (0, 320, 620, 1300):
                told = state.described(played(trace, position), trace, width)
                yield told["picture"]
                yield told["timeline"]

    def test_all_shapes_are_inside(self):
        for picture in self.pictures():
            for shape in picture["shapes"]:
                points = shape.get("points") or [(shape["x"], shape["y"]), (shape["x"] + shape.get("width", 0), shape["y"] + shape.get("height", 0))]
                for x, y in points:
                    self.assertTrue(0 <= x <= picture["width"] and 0 <= y <= picture["height"], (shape, picture["width"], picture["height"]))

    def test_the_picture_of_times_fits(self):
        for _, trace, position in positions():
            for width in (326, 620, 1300):
                picture = state.pauses(played(trace, position), trace, width)["picture"]
                self.assertLessEqual(picture["width"], width)
                for shape in picture["shapes"]:
                    points = shape.get("points") or [(shape["x"], shape["y"]), (shape["x"] + shape.get("width", 0), shape["y"] + shape.get("height", 0))]
                    self.assertTrue(all(0 <= x <= width and 0 <= y <= picture["height"] for x, y in points), shape)

    def test_the_legend_stands_below(self):
        for picture in self.pictures():
            names = [shape for shape in picture["shapes"] if shape.get("text") in ("reachable", "words in use")]
            self.assertEqual(len(names), 1)
            boxes = [shape for shape in picture["shapes"] if shape["kind"] == "box"]
            # A sample of the legend is 18 wide and 12 high, and no word has that size.
            above = [box["y"] + box["height"] for box in boxes if (box["width"], box["height"]) != (18, 12)]
            self.assertLess(max(above, default=0), names[0]["y"] - 10)

    def test_garbage_is_grey(self):
        """Checks unreachable objects. The one at 1 became so during the collection, as did its replica. A root refers to the one at 4."""
        text = next(example["text"] for example in TRACES if example["name"] == "root_made_after_the_scan")
        trace = read_trace(text.encode())
        boxes = state.described(played(trace, 13), trace, 900)["picture"]["shapes"]
        found = [(box["tip"], box["role"]) for box in boxes if box.get("tip", "").startswith("object at ")]
        self.assertEqual(found, [("object at 1", "garbage"), ("object at 4", "object")] * 2)

    def test_log_entries_and_scan_pointer_are_marked(self):
        text = next(example["text"] for example in TRACES if example["name"] == "write_while_scanning")
        trace = read_trace(text.encode())
        shapes = state.described(played(trace, 6), trace, 900)["picture"]["shapes"]
        fields = [shape for shape in shapes if shape.get("tip", "").startswith("field 0: word ")]
        marks = [shape for shape in shapes if shape["role"] == "logged" and shape["tip"]]
        self.assertEqual([shape["tip"] for shape in fields], ["field 0: word 19", "field 0: word 0"])
        for field, mark in zip(fields, marks):
            self.assertTrue(mark["x"] <= field["x"] and mark["x"] + mark["width"] >= field["x"] + field["width"])
            self.assertTrue(mark["y"] <= field["y"] and mark["y"] + mark["height"] >= field["y"] + field["height"])
        # The only field is scanned, so the pointer's tip is at the right end of its cell, on the new space.
        pointer = next(shape for shape in shapes if shape["kind"] == "area")
        self.assertLess(abs(pointer["points"][2][0] - fields[1]["x"] - fields[1]["width"]), 10)
        self.assertLess(abs(pointer["points"][2][1] - fields[1]["y"]), 6)

    def test_the_scan_pointer_stays_in_its_row(self):
        """Checks that once the last field of a row is scanned, the pointer is after it, and not before the next row."""
        trace = read_trace(b"heaptrace 1\nspace 12 mutators 1\nm 0 new r0 1 3\nc begin\nc roots\nc scan\nc scan\nc scan\n")
        shapes = state.described(played(trace, 6), trace, 348)["picture"]["shapes"]
        # The picture has six columns, so the object's words 1 to 5 fill the first row.
        last = [shape for shape in shapes if shape.get("tip") == "field 2: word 0"][1]
        tip = next(shape for shape in shapes if shape["kind"] == "area")["points"][2]
        self.assertTrue(last["x"] < tip[0] < last["x"] + last["width"] + 3 and last["y"] - 6 < tip[1] < last["y"], (last, tip))

    def test_narrow_pictures_are_narrow(self):
        for _, trace, position in positions():
            self.assertLessEqual(state.described(played(trace, position), trace, 340)["picture"]["width"], 372)


class Certificates(unittest.TestCase):
    def test_conditions_hold_where_a_flip_passes(self):
        """Checks that the listed conditions hold exactly if the library flips, and that the flip reports the pairs of the listed
        certificate."""
        seen = set()
        for _, trace, position in positions():
            player = played(trace, position)
            if not player.heap.counts().is_open:
                continue
            told = state.collection(player, player.stage.words())
            reply = player.play(event_of("c flip"))
            seen.add(told["ready"])
            self.assertEqual(told["ready"], reply != "not ready", (trace.events[:position], reply))
            if told["ready"]:
                self.assertEqual(("flipped " + told["verdict"][len("yes "):], told["count"]), (reply, len(told["pairs"])))
        self.assertEqual(seen, {False, True})

    def test_a_flip_leaves_what_the_certificate_promised(self):
        """Checks that the words and roots of the new heap are those of the certificate, except for links."""
        for _, trace, position in positions():
            player = played(trace, position)
            words = player.stage.words()
            if words.new is None:
                continue
            promised = state.Certificate(words).new
            if player.play(event_of("c flip")).startswith("flipped"):
                image = player.heap.image()
                links = {start + 1 for start in walk(list(image.words), True)}
                self.assertEqual([word for at, word in enumerate(image.words) if at not in links],
                                 [word for at, word in enumerate(promised.words) if at not in links])
                self.assertEqual(list(image.roots), list(promised.roots))

    def test_the_text_gets_the_same_verdict(self):
        for _, trace, position in positions():
            words = played(trace, position).stage.words()
            if words.new is not None:
                certificate = state.Certificate(words)
                told = checking.checked(certificate.text().encode(), 900)
                self.assertEqual((told["line"], told["where"]), (certificate.verdict().line, certificate.where()))

    def test_where_a_flip_would_lose_a_write(self):
        """The replica has nil where the write of 9 is still in the log."""
        trace = read_trace(b"heaptrace 1\nspace 32 mutators 1\nm 0 new r0 1 1\nm 0 num r1 9\nc begin\nc roots\nc scan\nm 0 put r0 0 r1\n")
        words = played(trace, 6).stage.words()
        self.assertEqual(state.Certificate(words).where(), "r0 of mutator 0 (place 16) . field 0: old 9, new nil")


    def test_a_root_without_a_replica_becomes_nil(self):
        trace = read_trace(b"heaptrace 1\nspace 16 mutators 1\nm 0 new r0 1 0\nm 0 new r1 2 0\nm 0 num r2 5\nc begin\nc roots\n")
        # Only r0's target, at 1, has a replica, at 1 as well.
        roots = list(state.Certificate(played(trace, 5).stage.words()).new.roots)
        self.assertEqual([(place, word) for place, word in enumerate(roots) if word != 0], [(16, 2), (18, 11)])


class Checking(unittest.TestCase):
    def test_spoiling_changes_one_word(self):
        chosen = random.Random(4)
        good = next(example["text"] for example in PAIRS if example["name"] == "numbers_like_references")
        lines, refusals = good.split("\n"), set()
        for _ in range(200):
            found = checking.spoiled(good.encode(), 900, chosen)
            text, (at, before, after) = found["text"].decode(), found["change"].values()
            differing = [at for at, line in enumerate(text.split("\n")) if line != lines[at]]
            self.assertEqual((len(differing), found["fault"]), (1, False))
            self.assertEqual(text, good[:at] + after + good[at + len(before):])
            # What is known of a spoiled pair is what reading it tells.
            shown = checking.checked(found["text"], 900)
            checking.KEPT.clear()
            self.assertEqual(shown, checking.checked(found["text"], 900))
            self.assertEqual((shown["line"], shown["where"]), (found["line"], found["where"]))
            refusals.add(found["line"].split(" ")[1] if found["refused"] else "yes")
            self.assertEqual("still says yes" in found["said"], not found["refused"])
        # A wrong root, header, field or shape, and a link, which no check reads.
        self.assertLessEqual({"yes", "1", "2", "9", "10"}, refusals)

    def test_lines_are_found(self):
        """Searches a text in pieces of every small size for the start of each line."""
        text = b"heappair 2\nold 9 9\n0\n16777217\n\n7\nend\n"
        starts = [0] + [at + 1 for at, byte in enumerate(text) if byte == 10][:-1]
        for size in range(1, len(text) + 2):
            with mock.patch.object(checking, "PIECE", size):
                self.assertEqual([checking.line_start(text, line) for line in range(1, len(starts) + 1)], starts)

    def test_the_spoiled_word_is_named(self):
        good = next(example["text"] for example in PAIRS if example["name"] == "garbage_left_behind").encode()
        scene = checking.opened(good).scene
        names = {("old", "words", 0): "the reserved word 0 of the old heap", ("new", "roots", 16): "r0 of mutator 0 (place 16) of the new heap",
                 ("old", "words", 5): "the header of the object at 5 of the old heap",
                 ("new", "words", 2): "the link of the object at 1 of the new heap",
                 ("old", "words", 8): "field 1 of the object at 5 of the old heap"}
        for place, name in names.items():
            self.assertEqual(checking.name_of(scene, checking.Place(*place)), name)

    def test_why_a_change_is_accepted(self):
        good = next(example["text"] for example in PAIRS if example["name"] == "garbage_left_behind").encode()
        scene = checking.opened(good).scene
        self.assertIn("link", checking.why_accepted(scene, checking.Place("old", "words", 6)))
        self.assertIn("garbage", checking.why_accepted(scene, checking.Place("old", "words", 3)))

    def test_a_changed_reference_changes_what_is_reachable(self):
        """Changes each word of a heap with a shared object, a cycle and garbage to each reference, nil and a number. What is reachable then is what a search of the
        whole heap finds."""
        header = 16777218
        words, roots = [0, header, 0, 10, 18, header, 0, 18, 2, header, 0, 18, 0, header, 0, 50397185, 2], [2, 0]
        for place in [checking.Place("old", "roots", at) for at in range(2)] + [checking.Place("old", "words", at) for at in range(1, len(words))]:
            for after in (0, 7, 2, 10, 18, 26, 28, 4000):
                scene = Scene("", Space("old space", Image(20, words, roots)))
                self.assertEqual(sorted(scene.old.live), [1, 5, 9])
                row = words if place.row == "words" else roots
                image = Image(20, list(words), list(roots))
                (image.words if place.row == "words" else image.roots)[place.at] = after
                found = checking.with_image(scene, image, True, place, row[place.at], after)
                wanted = Space("old space", image)
                self.assertEqual((found.live, found.unreachable, dict(found.objects.headers)), (wanted.live, wanted.unreachable, dict(wanted.objects.headers)), (place, after))

    def test_a_refusal_says_where(self):
        bad = next(example["text"] for example in PAIRS if example["name"] == "replica_out_of_date").encode()
        self.assertEqual(checking.checked(bad, 900)["where"], "r0 of mutator 0 (place 16) . field 1: old 9, new nil")
        good = next(example["text"] for example in PAIRS if example["name"] == "garbage_left_behind").encode()
        self.assertEqual(checking.checked(good, 900)["where"], "")

    def test_references_beyond_a_million_words(self):
        """Checks that a reference to an address that no pair text has is one in an image text, and that its object is reachable."""
        first = "50397183/0/" + "0/" * 65535
        words = 1 + 16 * 65537 + 3

        def image(name):
            return "%s %d %d/0/" % (name, words, words) + first * 16 + "16777217/0/%d/roots 1/%d/" % (2 * (words - 3), 2 * (words - 3))

        self.assertGreater(words - 3, 1048576)
        text = ("heapimages 1/%s%send/" % (image("old"), image("new"))).replace("/", "\n").encode()
        found = checking.checked(text, 900)
        self.assertEqual(found["line"], "yes 1")
        self.assertIn("17 objects, 16 of them unreachable", found["told"][0])
        self.assertEqual(found["told"][1], "root 0: the object at %d" % (words - 3))
        looked = checking.objects_between(text, "old", words - 1, words - 1, 900)
        self.assertEqual(looked["places"][0]["rows"][2]["meaning"], "\u2192%d" % (words - 3))
        self.assertTrue([shape for shape in looked["picture"]["shapes"] if shape["role"] == "reference"])

    def test_pairs_of_images_are_inferred(self):
        old, new = "old 9 7/0/16777217/0/8/16777217/0/15/roots 1/2", "new 9 7/0/16777217/0/8/16777217/0/%s/roots 1/2"
        for last, line, where in (("15", "yes 2", ""), ("79", "refused 9 FieldDiffers 1 0", " root 0 . field 0 . field 0: old 7, new 39")):
            text = ("heapimages 1/%s/%s/end/" % (old, new % last)).replace("/", "\n").encode()
            found = checking.checked(text, 900)
            self.assertEqual((found["line"], found["where"]), (line, checking.INFERRED + where))
            self.assertIn("picture", found)
        for text, fault in ((b"heapimages 1\nend\n", "images: line 2 is not the size and the end of an image"),
                            (b"heapimages 1\nold 1 1\n0\nroots 0\nend\n", "images: there is no new image")):
            self.assertEqual(checking.checked(text, 900), {"line": fault, "fault": True, "bad_line": None})

    def test_texts_that_cannot_be_spoiled(self):
        for text in (b"", b"heappair 1\n", b"\xff"):
            with self.assertRaises(gcflip.BadText):
                checking.spoiled(text, 900, random.Random(1))


class Requests(unittest.TestCase):
    def setUp(self):
        self.desk = requests.Desk()

    def ask(self, name, **data):
        return self.desk.answer(name, {"position": 0, "known": 0, "width": 900, **data})

    def test_the_next_flip(self):
        text = next(example["text"] for example in TRACES if example["name"] == "second_collection")
        # Its flips are the events 11 and 20.
        self.assertEqual(self.ask("play", text=text, to_flip=True)["position"], 10)
        self.assertEqual(self.ask("play", text=text, position=10, to_flip=True)["position"], 19)
        self.assertEqual(self.ask("play", text=text, position=19, to_flip=True)["position"], 19)

    def test_an_inserted_line_raises_the_version(self):
        text = "heaptrace 1\nspace 16 mutators 1\nm 0 nil r0\nm 0 nil r1\n"
        found = self.ask("insert", text=text, position=1, line="c begin 9")
        longer = with_line(text, found)
        self.assertEqual(longer, "heaptrace 2\nspace 16 mutators 1\nm 0 nil r0\nc begin 9\nm 0 nil r1\n")
        self.assertEqual((found["position"], found["total"], found["replies"]), (2, 3, ["done", "begun"]))
        found = self.ask("insert", text=longer, position=3, known=2, line="m 0 raw r0 1 2")
        self.assertEqual(found["version"], 3)
        self.assertEqual(found["replies"], ["done", "made"])

    def test_a_version_is_never_lowered(self):
        text = "heaptrace 3\nspace 16 mutators 1\n"
        self.assertEqual(with_line(text, self.ask("insert", text=text, line="m 0 nil r0")), "heaptrace 3\nspace 16 mutators 1\nm 0 nil r0\n")

    def test_requests_that_are_refused(self):
        good = {"text": "heaptrace 1\nspace 8 mutators 1\nm 0 nil r0\n"}
        wrong = [("play", {"text": 7}), ("play", {**good, "position": 2}), ("play", {**good, "position": -1}),
                 ("play", {**good, "position": True}), ("play", {**good, "width": 1 << 40}), ("play", {**good, "width": None}),
                 ("play", {**good, "known": "0"}), ("insert", {**good, "line": "m 0 dance"}), ("insert", {**good, "line": 7}),
                 ("insert", {**good, "line": "m 0 nil r0\nm 0 nil r1"}), ("pair", good), ("spoil", {"text": "heappair 1\n"})]
        for name, data in wrong:
            with self.subTest(name=name, data=data), self.assertRaises(requests.BadRequest):
                self.ask(name, **data)
        for data in (None, [], "text", 7):
            with self.subTest(data=data), self.assertRaises(requests.BadRequest):
                self.desk.answer("play", data)

    def test_a_text_is_sent_once(self):
        """Checks that requests without a text are about the trace that was played last, also one with an inserted line, and that the server says so if it
        has none."""
        text = "heaptrace 1\nspace 16 mutators 1\nm 0 num r0 3\nm 0 look r0\n"
        unknown = {"unknown": True}
        for name in ("play", "insert", "pair"):
            self.assertEqual(self.ask(name, line="m 0 nil r0"), unknown)
        self.assertEqual(self.ask("play", text=text, position=2)["replies"], ["done", "saw num 3"])
        self.assertEqual(self.ask("play", position=1), self.ask("play", text=text, position=1))
        self.assertEqual(self.ask("insert", position=1, line="m 0 nil r0")["replies"], ["done", "done"])
        self.assertEqual(self.ask("play", position=3)["replies"], ["done", "done", "saw nil"])
        self.assertEqual(self.ask("insert", position=1, line="m 1 nil r0")["fault"]["line"], 4)
        self.assertEqual(self.ask("play", position=3)["replies"], ["done", "done", "saw nil"])
        self.assertEqual(self.ask("play", position=2, before=True)["replies"], ["done", "saw num 3"])
        self.assertEqual(self.ask("play", position=2, before=True), unknown)
        self.assertEqual(self.ask("play", text=text, position=2)["total"], 2)
        self.assertEqual(self.ask("play", position=0, session="another"), unknown)
        self.assertIn("fault", self.ask("play", text="heaptrace 1\n"))
        self.assertEqual(self.ask("play"), unknown)

    def test_a_trace_that_is_too_long(self):
        heading = "heaptrace 1\nspace 8 mutators 1\n"
        # A trace may have 7 bytes more.
        text = heading + "m 0 nil r0\n" * ((16777216 - len(heading)) // 11)
        self.assertEqual(self.ask("insert", text=text, line="m 0 nil r15")["fault"], {"message": "trace: too large", "line": None})
        found = self.ask("play", text=heading + "m 0 nil r0\n" * (16777216 // 11))
        self.assertEqual(found["fault"], {"message": "trace: too large", "line": None})

    def test_flips_by_their_numbers(self):
        text = next(example["text"] for example in TRACES if example["name"] == "second_collection")
        self.assertEqual([self.ask("play", text=text, flip=number)["position"] for number in (1, 2)], [10, 19])
        for number, count in ((3, "2 flips"), (0, "2 flips")):
            with self.assertRaisesRegex(requests.BadRequest, "This trace has %s" % count):
                self.ask("play", text=text, flip=number)

    def test_states_are_those_of_the_library(self):
        """Checks after each event that the last state, which is read only where an event can change it, is what the library counts."""
        for _, trace, position in positions():
            player = played(trace, position)
            if position > 0:
                counts, lengths = player.heap.counts(), tuple(player.heap.log_length(number) for number in range(trace.mutators))
                self.assertEqual(player.record.states[-1][1][1:], (counts.size, counts.end, counts.new_end, counts.is_open, lengths))

    def test_the_timeline_of_states_is_that_of_all_events(self):
        """Checks timelines with fewer columns than events and with more, which are made from states alone and grow with the events played."""
        for text in [example["text"] for example in TRACES] + [LONG]:
            trace = read_trace(text.encode())
            for width in (3, 7, 900):
                frame, player = timeline.Frame(width, 100, False), playing.opened(trace.size, trace.mutators)
                measures = []
                for event in trace.events:
                    measures.append(player.stage.measured(player.play(event)))
                    if len(measures) % 3 == 0:
                        player.record.run_of(len(measures), frame, len(trace.events))
                # The last one is that of all events, and the others are cut out of it.
                for count in (len(measures), *range(len(measures))):
                    wanted = timeline.drawn(trace, measures[:count], "", frame).described()
                    found = player.record.run_of(count, frame, len(trace.events))
                    self.assertEqual(timeline.drawn_run(trace, found, "").described(), wanted)

    def test_a_late_flip_is_opened_in_one_pass(self):
        """Counts the work for opening a trace before a late flip: each event is played once, and the library is asked for the state only where an
        event can change it. From there a step plays one event, and a flip that was passed plays only from the checkpoint before it."""
        round_of = "m 0 new r0 1 1\n" + "m 0 num r1 7\nm 0 put r0 0 r1\nm 0 get r2 r0 0\n" * 50 + "c begin\nc roots\nc flip\nc scan\nc scan\nc flip\n"
        rounds, events = 40, 157
        text = "heaptrace 1\nspace 64 mutators 1\n" + round_of * rounds
        done = {"played": 0, "measured": 0}
        play, measured = playing.Player.play, stage.Stage.measured

        def counted(name, act):
            def counting(player, argument):
                done[name] += 1
                return act(player, argument)
            return counting

        def work(**data):
            done.update(played=0, measured=0)
            return self.ask("play", text=text, **data)["position"], done["played"], done["measured"]

        with mock.patch.object(playing.Player, "play", counted("played", play)), mock.patch.object(stage.Stage, "measured", counted("measured", measured)):
            last = rounds * events - 1
            # In each round, the allocation and the six steps can change the state.
            self.assertEqual(work(flip=rounds), (last, last, 7 * rounds - 1))
            self.assertEqual(work(position=last + 1), (last + 1, 1, 1))
            # The states of events that were played once are known.
            kept = (last - 1) // record.LEAST_EVENTS * record.LEAST_EVENTS
            self.assertEqual(work(flip=rounds), (last, last - kept, 0))
            self.assertEqual(work(flip=3), (3 * events - 1, 3 * events - 1, 0))
            # The player that is there goes on from its flip to the next one.
            self.assertEqual(work(position=3 * events - 1, to_flip=True), (4 * events - 1, events, 0))
            self.assertEqual(work(position=last + 1, to_flip=True), (last + 1, last + 1 - kept, 0))
            # A flip that no player has passed is reached from the last one that was opened.
            self.desk = requests.Desk()
            self.assertEqual([work(flip=number)[:2] for number in (3, 5)], [(3 * events - 1, 3 * events - 1), (5 * events - 1, 2 * events)])

    def test_accepted_pairs_are_those_that_are_read(self):
        for example in PAIRS:
            self.assertEqual(written(read_accepted(example["text"])), example["text"])

    def test_objects_of_a_range(self):
        text = next(example["text"] for example in PAIRS if example["name"] == "replica_out_of_date")
        # Each heap has an object of two fields at 1, and one of a single field at 5.
        for first, last, wanted in [(1, 1, [1]), (4, 4, [1]), (4, 5, [1, 5]), (0, 1048575, [1, 5]), (7, 7, [5]), (8, 9, [])]:
            found = self.ask("look", text=text, heap="new", first=first, last=last)["places"]
            self.assertEqual([place["rows"][0]["address"] for place in found], wanted)
        lines = text.split("\n")
        for heap in ("old", "new"):
            for place in self.ask("look", text=text, heap=heap, first=0, last=20)["places"]:
                self.assertTrue(all(lines[row["line"] - 1] == row["word"] for row in place["rows"]))
        with self.assertRaises(requests.BadRequest):
            self.ask("look", text="heappair 1\n", heap="old", first=0, last=1)

    def test_times_of_calls(self):
        """Plays events whose calls take 200, 3,000, 40,000 .. nanoseconds by a clock of the test, goes back, and inserts an event. An event keeps the time of its
        first call, and a trace that is played from its start has times of its own."""
        takes = [200, 3000, 40000, 90, 5000000, 700, 800, 900, 12345, 67890, 1]
        clock = [reading for at, took in enumerate(takes) for reading in (10 ** 9 * at, 10 ** 9 * at + took)]
        text = "heaptrace 1\nspace 16 mutators 1\nm 0 num r0 3\nm 0 look r0\nm 0 nil r0\nc begin\nc flip\n"
        with mock.patch.object(playing, "perf_counter_ns", mock.Mock(side_effect=clock)):
            self.assertEqual(self.ask("pauses", text=text)["told"], "No event was played yet.")
            told = self.ask("pauses", text=text, position=5)["told"]
            self.assertEqual(told, "Of 5 calls, half took at most 3.0 \u00b5s, and 99 of 100 at most 40 \u00b5s. The longest took 5.0 ms: event 5, 'c flip'.")
            # Two events are played again, and their times stay.
            told = self.ask("pauses", text=text, position=2)["told"]
            self.assertEqual(told, "Of 2 calls, half took at most 200 ns, and 99 of 100 at most 200 ns. The longest took 3.0 \u00b5s: event 2, 'm 0 look r0'.")
            self.ask("insert", text=text, position=2, line="m 0 nil r1")
            self.assertEqual(list(self.desk.session("").players.players[0].record.times), [900, 12345, 67890])

    def test_the_picture_of_times(self):
        """Checks the scale, and the area of two calls of 1 and of 10 microseconds, on a chart of 160 by 110 pixels for 10 microseconds and 2 powers of ten."""
        with mock.patch.object(playing, "perf_counter_ns", mock.Mock(side_effect=[0, 1000, 0, 10000])):
            found = self.ask("pauses", text="heaptrace 1\nspace 16 mutators 1\nm 0 num r0 3\nm 0 nil r0\n", position=2, width=0)["picture"]["shapes"]
        self.assertEqual([shape["text"] for shape in found if shape.get("anchor") == "end"][:3], ["100 ns", "1.0 \u00b5s", "10 \u00b5s"])
        area, = [shape["points"] for shape in found if shape["kind"] == "area"]
        left, top, floor = timeline.LEFT, 24, 134
        self.assertEqual([(x, round(y)) for x, y in area], [(left, floor), (left, 79), (left + 80, 79), (left + 80, top), (left + 160, top), (left + 160, floor)])

    def test_a_request_without_memory_is_refused(self):
        for fault in (MemoryError(), gcflip.OutOfMemory("play")):
            with self.subTest(fault=type(fault)), mock.patch.dict(self.desk.answers, {"play": mock.Mock(side_effect=fault)}):
                with self.assertRaisesRegex(requests.BadRequest, "Out of memory"):
                    self.ask("play", text="heaptrace 1\nspace 8 mutators 1\n")

    def test_an_event_of_no_mutator_is_a_fault(self):
        found = self.ask("insert", text="heaptrace 1\nspace 8 mutators 1\n", line="m 1 nil r0")
        self.assertEqual(found["fault"], {"message": "trace: no such mutator at line 3", "line": 3})

    def test_examples_say_what_to_look_at(self):
        for example in requests.examples():
            self.assertGreater(len(example["about"]), 40, example["name"])

    def test_written_pairs_are_those_that_were_read(self):
        for example in PAIRS:
            self.assertEqual(written(read_pair(example["text"])), example["text"])

    def test_a_heap_in_use_stays_as_it_is(self):
        """Checks that a refused request leaves the players unchanged."""
        text = TRACES[0]["text"]
        before = self.ask("play", text=text, position=1)
        with self.assertRaises(requests.BadRequest):
            self.ask("play", text=text, position=1000)
        self.assertEqual(self.ask("play", text=text, position=1), before)


FORMS = ["m K new S 7 N", "m K raw S 7 N", "m K num S 9", "m K nil S", "m K move S S", "m K get S S N", "m K put S N S", "m K put S N S",
         "m K look S", "c begin", "c begin 70", "c roots", "c roots", "c scan", "c scan", "c scan", "c apply K", "c flip", "c drop"]


def random_line(chosen, mutators, forms=FORMS):
    """Returns a random line of a trace."""
    words = {"K": lambda: chosen.randrange(mutators), "S": lambda: chosen.choice(["r0", "r15", "g0"]), "N": lambda: chosen.randrange(4)}
    return " ".join(str(words[word]()) if word in words else word for word in chosen.choice(forms).split(" "))


def random_trace(seed, events, size, mutators):
    """Returns a random trace in which every second event is a useful step on average, so that it flips now and then."""
    chosen = random.Random(seed)
    forms = FORMS + ["m K put S N S"] * 8 + ["m K num S 9"] * 3 + ["c apply K"] * 2
    player = playing.opened(size, mutators)
    for _ in range(events):
        line = random_line(chosen, mutators, forms).replace(" 9", " %d" % chosen.randrange(99))
        player.play(event_of(player.useful_line() if chosen.random() < 0.5 or line == "c drop" and chosen.random() < 0.7 else line))
    return read_trace((heading(3, size, mutators) + "".join(line + "\n" for line in player.record.lines)).encode())


@functools.lru_cache(maxsize=1)
def random_traces():
    """Returns random traces in heaps of several sizes, also around the bound between words and blocks."""
    return [random_trace(seed, 400, size, mutators) for seed, (size, mutators) in enumerate([(40, 1), (60, 2), (80, 3), (193, 2), (400, 1)])]


class RandomTraces(unittest.TestCase):
    """Plays traces that random buttons make, in heaps of sizes around the bound between words and blocks."""

    def test_buttons_and_certificates(self):
        chosen, desk, flips = random.Random(11), requests.Desk(), 0
        for _ in range(30):
            mutators = chosen.choice([1, 2])
            text, position, replies = "heaptrace 3\nspace %d mutators %d\n" % (chosen.choice([8, 40, 192, 193]), mutators), 0, []
            for _ in range(60):
                data = {"text": text, "position": position, "known": position, "width": chosen.choice([0, 340, 900])}
                if chosen.randrange(4) > 0:
                    data["line"] = random_line(chosen, mutators)
                found = desk.answer("insert", data)
                text, position, replies = with_line(text, found), found["position"], replies + found["replies"]
                if found["collection"] and found["collection"]["ready"]:
                    pair = desk.answer("pair", {"text": text, "position": position})["text"]
                    self.assertEqual(desk.answer("check", {"text": pair, "width": 900})["line"], found["collection"]["verdict"])
                    self.assertTrue(found["collection"]["verdict"].startswith("yes "))
            again = playing.opened(*read_trace(text.encode())[1:3])
            self.assertEqual([again.play(event) for event in read_trace(text.encode()).events], replies)
            flips += sum(reply.startswith("flipped") for reply in replies)
        self.assertGreater(flips, 30)


class Bounds(unittest.TestCase):
    def test_the_largest_heap_is_drawn(self):
        text = "heaptrace 1\nspace 1048576 mutators 16\n" + "m 15 new r15 255 65535\n" * 15 + "c begin\nc roots\n"
        found = requests.Desk().answer("play", {"text": text, "position": 17, "known": 0, "width": 900})
        self.assertLess(len(found["picture"]["shapes"]), 1000)


if __name__ == "__main__":
    unittest.main()
