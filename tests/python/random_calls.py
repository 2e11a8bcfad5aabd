"""Performs the calls on standard input, a line each, and prints a line for each. tests/program/random_calls.py makes the calls and knows the lines."""
import sys

import gcflip
from gcflip.heap import Frame, Held, Mutator, Pace, Step

REPLIES = {gcflip.Full: "full", gcflip.NoObject: "no object", gcflip.NoField: "no field", gcflip.NoNumber: "no number", gcflip.Busy: "busy",
           gcflip.Idle: "idle", gcflip.NotReady: "not ready", gcflip.OutOfRange: "out of range", gcflip.Closed: "closed",
           gcflip.OutOfMemory: "no memory", gcflip.FrameFull: "frame full", gcflip.FrameEmpty: "frame empty"}
# What the binding calls some of the calls.
NAMES = {"root_load": "load", "root_store": "store", "raw": "new_raw", "num": "set_number", "nil": "set_nil", "move": "copy", "cons": "new_pair",
         "drop": "give_up"}
PLACED = {"place_new": "new", "place_raw": "new_raw", "place_pair": "new_pair", "place_new_from": "new_from", "place_new_with": "new_with", "place_put_sure": "put_sure",
          "place_fill": "fill", "place_copy_fields": "copy_fields", "place_gather": "gather", "place_spread": "spread", "place_refer": "refer", "place_address": "address",
          "place_num": "set_number", "place_nil": "set_nil", "place_clear": "clear", "place_copy": "copy", "place_get": "get", "place_peek": "peek",
          "place_put": "put", "place_put_number": "put_number", "place_put_nil": "put_nil", "place_same": "is_same", "place_look": "look",
          "place_new_bytes": "new_bytes", "place_join": "bytes_join", "place_part": "bytes_part", "place_write": "bytes_write", "place_text": "bytes_read", "place_order": "bytes_compare",
          "place_write_words": "words_write", "place_words": "words_read", "place_raw_write": "raw_write", "place_raw_read": "raw_read"}
DONE = {"new": "made", "raw": "made", "cons": "made", "num": "done", "nil": "done", "move": "done", "put": "done", "put_number": "done",
        "put_nil": "done", "copy_fields": "done", "root_load": "done", "root_store": "done", "refer": "done"}


def seen(value):
    if value is None:
        return "saw nil"
    if isinstance(value, int):
        return "saw num %d" % value
    return "saw %s %d %d" % ("raw" if value.raw else "obj", value.kind, value.length)


def worked(work):
    flipped = " %d" % work.pairs if work.last is Step.FLIPPED else ""
    assert flipped or work.pairs == 0
    assert work.steps > 0 or (work.looks > 0 and work.copied == 0 and work.last is None)
    return "worked %d %d %d %s%s" % (work.steps, work.copied, work.looks, work.last.value if work.last else "done", flipped)


def field_sources(numbers):
    """Returns what two numbers for each field say. A record that says nothing known becomes a number that is too large."""
    return [(None, value, Held(value))[holds] if holds < 3 else 1 << 63 for holds, value in zip(numbers[::2], numbers[1::2])]


def of_mutator(heap, name, numbers):
    """Makes a mutator's call."""
    mutator = Mutator(heap, numbers[0])
    if name in ("get", "look"):
        return seen(getattr(mutator, name)(*numbers[1:]))
    if name == "same":
        return "yes" if mutator.is_same(*numbers[1:]) else "no"
    if name == "new_from":
        mutator.new_from(*numbers[1:3], numbers[4:])
        return "made"
    if name == "new_with":
        mutator.new_with(*numbers[1:4], field_sources(numbers[5:]))
        return "made"
    if name == "raw_read":
        return " ".join(["read", *map(str, mutator.raw_read(*numbers[1:]))])
    if name == "address":
        return "address %d" % mutator.address(*numbers[1:])
    if name == "raw_write":
        assert mutator.raw_write(*numbers[1:4], numbers[5:]) is None
        return "done"
    assert getattr(mutator, NAMES.get(name, name))(*numbers[1:]) is None
    return DONE[name]


def by_places(heap, name, numbers):
    """Makes a command on roots by their places."""
    call = getattr(heap, PLACED[name])
    if name in ("place_get", "place_peek", "place_look"):
        return seen(call(*numbers))
    if name == "place_same":
        return "yes" if call(*numbers) else "no"
    if name == "place_address":
        return "address %d" % call(*numbers)
    if name == "place_text":
        return " ".join(["text", *map(str, call(*numbers))])
    if name == "place_raw_read":
        return " ".join(["read", *map(str, call(*numbers))])
    if name == "place_words":
        return " ".join(["words", *map(str, call(*numbers))])
    if name == "place_order":
        return "order %d" % call(*numbers)
    if name in ("place_new_bytes", "place_write"):
        numbers[3:] = [bytes(numbers[3:])]
    if name in ("place_new_from", "place_write_words", "place_raw_write"):
        numbers[3:] = [numbers[3:]]
    if name == "place_new_with":
        numbers[3:] = [field_sources(numbers[3:])]
    assert call(*numbers) is None
    makes = ("place_new", "place_raw", "place_pair", "place_new_from", "place_new_with", "place_gather", "place_new_bytes", "place_join", "place_part")
    return "made" if name in makes else "done"


def on_frame(heap, name, numbers):
    """Makes a call on a frame, whose numbers come first. Its top and its `high` are printed also if the call is refused."""
    frame = Frame(*numbers[:2])
    frame._raw.top, frame._raw.high = numbers[2:4]
    reply = "done"
    try:
        if name == "frame_trim":
            heap.trim_frame(frame, numbers[4])
        elif name == "frame_push":
            Mutator(heap, numbers[4]).push(frame, numbers[5])
        else:
            Mutator(heap, numbers[4]).pop(frame, numbers[5])
    except gcflip.GcflipError as error:
        reply = REPLIES[type(error)]
    assert [frame._raw.first, frame._raw.end] == numbers[:2]
    return "%s %d %d" % (reply, frame._raw.top, frame._raw.high)


def reading(heap, name, numbers):
    """Makes a call that reads."""
    if name == "counts":
        counts = heap.counts()
        assert counts.is_open is (counts.new_size > 0)
        return "counts " + " ".join(str(int(number)) for number in counts)
    if name == "log":
        entries = [heap.log_entry(numbers[0], k) for k in range(heap.log_length(numbers[0]))]
        return " ".join(["log %d" % len(entries)] + ["%d:%d" % entry for entry in entries])
    if name == "image":
        image = heap.image()
        assert image.size == heap.counts().size and (len(image.words), len(image.roots)) == tuple(numbers) and image.raws
        return "image " + " ".join(map(str, [*image.words, *image.roots]))
    return "words " + " ".join(map(str, heap.new_words()))


# The pace of the heap that is open.
paces = [Pace()]


def paced(heap, wanted):
    """Works at the pace, and returns what was done and what the pace remembers."""
    pace = paces[-1]
    due = heap.steps_due(pace, wanted)
    work = heap.work_paced(pace, wanted)
    assert (work is None) == (due == 0)
    assert work is None or work.steps + work.looks // 32 + pace.owed >= due or work.last in (Step.FLIPPED, Step.NO_ROOM)
    return remembered(work, pace)


def remembered(work, pace):
    """Returns what a call at a pace did, if it did something, and what the pace remembers."""
    return "%s, %d %d %d %d %d" % (worked(work) if work else "nothing", pace._raw.left, pace._raw.end, pace._raw.logged, pace.owed, pace._raw.roots)


def reserved(heap, words):
    """Makes room, and returns what was done, unless that failed, and what the pace remembers."""
    reply, work = "done", None
    try:
        work = heap.reserve(paces[-1], words)
    except (gcflip.Full, gcflip.OutOfMemory) as error:
        reply = REPLIES[type(error)]
    assert (reply == "done") == (heap.room() >= words)
    return "%s, %s" % (reply, remembered(work, paces[-1]))


def performed(heap, name, numbers):
    """Makes a call on a heap, and returns its line."""
    if name == "pace":
        pace = Pace(*numbers)
        heap.remember(pace)
        paces.append(pace)
        return "done"
    if name == "work_paced":
        return paced(heap, *numbers)
    if name == "reserve":
        return reserved(heap, *numbers)
    if name == "collect":
        return "done, " + worked(heap.collect())
    if name == "release":
        heap.release()
        return "done"
    if name in PLACED:
        return by_places(heap, name, numbers)
    if name.startswith("frame_"):
        return on_frame(heap, name, numbers)
    if name == "object_at":
        return seen(heap.object_at(*numbers))
    if name == "field_at":
        value, at = heap.field_at(*numbers)
        return ("at %d, " % at if at is not None else "") + seen(value)
    if name == "room":
        return "room %d" % heap.room()
    if name == "root_clear":
        heap.clear_roots(*numbers)
        return "done"
    if name == "close":
        heap.close()
        return "done"
    if name in ("counts", "log", "image", "new_words"):
        return reading(heap, name, numbers)
    if name in ("work", "work_sized"):
        return worked(heap.work(*numbers))
    if name == "work_within":
        return worked(heap.work_within(*numbers))
    if name == "moved":
        return "moved %d" % heap.moved(*numbers)
    if name == "useful":
        return "useful " + " ".join(str(part) for part in heap.useful() if part is not None)
    if name == "flip":
        return "flipped %d" % heap.flip()
    if name in ("begin", "begin_sized"):
        return heap.begin(*numbers).value
    if name in ("roots", "scan", "apply", "drop"):
        return getattr(heap, NAMES.get(name, name))(*numbers).value
    return of_mutator(heap, name, numbers)


def main():
    heap, is_open = None, False
    for line in sys.stdin:
        name, *words = line.split()
        numbers = [int(word) for word in words]
        try:
            if name == "open":
                heap, is_open = gcflip.Heap(*numbers), True
                reply = "done"
            elif heap is None or (name == "close" and not is_open):
                # Closing twice does nothing here, and the binding has no heap without words.
                reply = "closed"
            else:
                is_open = is_open and name != "close"
                reply = performed(heap, name, numbers)
        except gcflip.GcflipError as error:
            reply = REPLIES[type(error)]
        print(reply)


main()
