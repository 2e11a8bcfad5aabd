"""Tests of traces with collections: their reports, the pairs of their flips, and their mutators' commands run in threads."""
import os

from . import traces
from .harness import Outcome, difference, file_of, refusal, run
from .streams import CANNOT_WRITE, to_full_device, to_pipe_without_reader
from .traces import COLLECTED, PLAYED, trace_and_replies

NO_SUCH_FLIP = refusal("trace: no such flip", 3)

# The names of a report's lines, which are also the replies that they count.
COUNTED = ["made", "full", "begun", "copied", "scanned", "applied"]

REPORT_OF_COLLECT_WHEN_FULL = b"""events 12
made 3
full 1
begun 1
copied 1
scanned 2
applied 0
flips 1
pairs 1
dropped 0
refused 0
end 7
free 2
"""


def root_lines(places):
    """Returns the lines of the thirty-two roots of one mutator. `places` has the words that are not nil."""
    return "".join("%d\n" % places.get(place, 0) for place in range(32))


def words(*numbers):
    return "".join("%d\n" % number for number in numbers)


PAIR_OF_COLLECT_WHEN_FULL = (
    "heappair 2\nold 9 9\n" + words(0, 16842754, 0, 0, 0, 16842754, 1, 0, 0)
    + "roots 32\n" + root_lines({16: 10})
    + "new 9 5\n" + words(0, 16842754, 5, 0, 0)
    + "roots 32\n" + root_lines({16: 2})
    + "pairs 1\n5 1\nend\n"
).encode()

SECOND_PAIR = (
    "heappair 2\nold 9 7\n" + words(0, 16842754, 1, 0, 0, 16777216, 5)
    + "roots 32\n" + root_lines({16: 2, 17: 10})
    + "new 9 7\n" + words(0, 16842754, 1, 0, 0, 16777216, 5)
    + "roots 32\n" + root_lines({16: 2, 17: 10})
    + "pairs 2\n1 1\n5 5\nend\n"
).encode()


# The words of a raw object are its numbers, even those that look like references.
RAW_PAIR = (
    "heappair 2\nold 16 5\n" + words(0, 50790402, 1, 8, 10)
    + "roots 32\n" + root_lines({16: 2, 17: 21})
    + "new 16 5\n" + words(0, 50790402, 1, 8, 10)
    + "roots 32\n" + root_lines({16: 2, 17: 21})
    + "pairs 1\n1 1\nend\n"
).encode()


def trace_file(folder, name):
    text, _ = trace_and_replies(PLAYED[name])
    return file_of(folder, name, text)


def reports(program, folder):
    found = run(program, ["report", trace_file(folder, "collect_when_full")])
    yield "report of collect_when_full", difference(found, Outcome(stdout=REPORT_OF_COLLECT_WHEN_FULL))
    for name, conversation in PLAYED.items():
        text, replies = trace_and_replies(conversation)
        yield "report of %s" % name, wrong_counts(run(program, ["report", file_of(folder, name, text)]), replies)
    for name, text, line in traces.refused_texts():
        found = run(program, ["report", file_of(folder, "refused", text)])
        yield "%s, reported" % name, difference(found, refusal(line, 3))


def wrong_counts(found, replies):
    """Returns why a report's counts are not those of the replies, or None."""
    if found.status != 0 or found.stderr:
        return difference(found, Outcome(stdout=found.stdout))
    report = [line.split(" ") for line in found.stdout.decode().splitlines()]
    lines = replies.decode().splitlines()
    flips = [int(line.split(" ")[1]) for line in lines if line.startswith("flipped ")]
    wanted = [["events", str(len(lines))]] + [[name, str(lines.count(name))] for name in COUNTED]
    wanted += [["flips", str(len(flips))], ["pairs", str(sum(flips))]]
    wanted += [["dropped", str(lines.count("dropped"))], ["refused", str(lines.count("refused"))]]
    if report[:-2] != wanted or [line[0] for line in report[-2:]] != ["end", "free"]:
        return "report %s, wanted %s, end and free" % (report, wanted)
    return None


def flips_of(conversation):
    """Returns the numbers of pairs of a conversation's flips, in order."""
    _, replies = trace_and_replies(conversation)
    return [int(line.split(b" ")[1]) for line in replies.splitlines() if line.startswith(b"flipped ")]


def pairs(program, folder):
    path = trace_file(folder, "second_collection")
    yield "first pair", difference(run(program, ["pair", path, "1"]), Outcome(stdout=PAIR_OF_COLLECT_WHEN_FULL))
    yield "second pair", difference(run(program, ["pair", path, "2"]), Outcome(stdout=SECOND_PAIR))
    path = trace_file(folder, "raw_object_written_while_it_is_copied")
    yield "pair of a raw object", difference(run(program, ["pair", path, "1"]), Outcome(stdout=RAW_PAIR))
    for name, conversation in COLLECTED.items():
        path = trace_file(folder, name)
        flips = flips_of(conversation)
        for number, count in enumerate(flips, start=1):
            found = run(program, ["pair", path, str(number)])
            checked = run(program, ["check", file_of(folder, "pair", found.stdout)])
            yield "pair %d of %s is accepted" % (number, name), difference(checked, Outcome(b"yes %d\n" % count))
        for number in [len(flips) + 1, 4294967295]:
            yield "no flip %d in %s" % (number, name), difference(run(program, ["pair", path, str(number)]), NO_SUCH_FLIP)
    for name, text, line in traces.refused_texts():
        found = run(program, ["pair", file_of(folder, "refused", text), "1"])
        yield "%s, for its pair" % name, difference(found, refusal(line, 3))


def commands_of(text, mutator):
    """Returns the commands of a mutator in a trace, in order."""
    return [line for line in text.decode().splitlines()[2:] if line.startswith("m %d " % mutator)]


def wrong_run(program, folder, text, found, turns):
    """Returns why a recorded run in threads is not one of the trace, or None."""
    if found.status != 0 or found.stderr:
        return difference(found, Outcome(stdout=found.stdout))
    recorded = found.stdout
    # No useful step begins a collection with its own size, so a version above 1 means raw objects.
    raws = any(b" raw " in line for line in text.splitlines())
    if recorded.splitlines()[:2] != [b"heaptrace 3" if raws else b"heaptrace 1", text.splitlines()[1]]:
        return "recorded %r" % recorded.splitlines()[:2]
    for mutator in range(16):
        if commands_of(recorded, mutator) != commands_of(text, mutator):
            return "the commands of mutator %d are %s" % (mutator, commands_of(recorded, mutator))
    steps = [line for line in recorded.splitlines() if line.startswith(b"c ")]
    if len(steps) != turns:
        return "%d steps, wanted %d" % (len(steps), turns)
    played = run(program, ["play", file_of(folder, "recorded", recorded)])
    replies = played.stdout.splitlines()
    if played.status != 0 or len(replies) != len(recorded.splitlines()) - 2:
        return "the recorded trace plays to %d replies, status %s" % (len(replies), played.status)
    # A useful step always has something to do.
    idle = {b"busy", b"idle", b"clean", b"not ready", b"refused", b"no room"}
    told = [reply for line, reply in zip(recorded.splitlines()[2:], replies) if line.startswith(b"c ")]
    return "a step was answered %s" % idle.intersection(told) if idle.intersection(told) else None


def threads(program, folder):
    text, _ = trace_and_replies(PLAYED["full_leaves_the_slot_as_it_was"])
    path = file_of(folder, "one script", text)
    yield "one script and no turn is the trace itself", difference(run(program, ["threads", path, "0"]), Outcome(text))
    shared = b"heaptrace 1\nspace 64 mutators 2\nm 0 new g0 1 1\nm 0 num r0 5\nm 0 put g0 0 r0\nm 1 get r1 g0 0\n"
    path = file_of(folder, "two scripts", shared)
    for turns in [0, 1, 40, 1000]:
        found = run(program, ["threads", path, str(turns)])
        yield "two scripts and %d turns" % turns, wrong_run(program, folder, shared, found, turns)
    for name in ["log_across_two_mutators", "cycle_of_two_is_carried_over", "last_write_of_two_mutators_wins",
                 "raw_object_written_while_it_is_copied"]:
        text, _ = trace_and_replies(PLAYED[name])
        found = run(program, ["threads", file_of(folder, name, text), "25"])
        yield "scripts of %s" % name, wrong_run(program, folder, text, found, 25)
    sized, _ = trace_and_replies(PLAYED["too_small_and_then_larger"])
    found = run(program, ["threads", file_of(folder, "sized", sized), "3"])
    yield "scripts of a trace with sizes", wrong_run(program, folder, sized, found, 3)
    for name, text, line in traces.refused_texts():
        found = run(program, ["threads", file_of(folder, "refused", text), "1"])
        yield "%s, in threads" % name, difference(found, refusal(line, 3))


def three_scripts(count):
    """Returns a trace of three mutators with this many commands."""
    commands = ["new r%d 7 3", "put r%d 2 r5", "get r%d r5 0", "move g3 r%d", "num r%d 9", "look r%d", "nil r%d"]
    lines = ["m %d %s\n" % (k % 3, commands[k // 3 % 7] % (k // 21 % 16)) for k in range(count)]
    return ("heaptrace 1\nspace 1048576 mutators 3\n" + "".join(lines)).encode()


def many_threads(program, folder):
    """Runs sixteen scripts of many commands together with a busy collector."""
    scripts = ["m %d new r%d 1 2\nm %d put r%d 1 r%d\n" % (m, k % 16, m, k % 16, (k + 1) % 16) for k in range(200) for m in range(16)]
    text = ("heaptrace 1\nspace 1048576 mutators 16\n" + "".join(scripts)).encode()
    found = run(program, ["threads", file_of(folder, "sixteen scripts", text), "20000"])
    yield "sixteen scripts", wrong_run(program, folder, text, found, 20000)
    text = three_scripts(100000)
    found = run(program, ["threads", file_of(folder, "three scripts", text), "200000"])
    yield "three scripts of 100000 commands in all", wrong_run(program, folder, text, found, 200000)


def writers(program, folder):
    path = trace_file(folder, "collect_when_full")
    missing = os.path.join(folder, "nothing", "here")
    for asked in [["report", path], ["pair", path, "1"], ["threads", path, "5"]]:
        for name, writer in [("full_device", to_full_device), ("pipe_without_reader", to_pipe_without_reader)]:
            yield "%s to %s" % (asked[0], name), difference(writer(program, asked), CANNOT_WRITE)
        found = run(program, [asked[0], missing] + asked[2:])
        yield "%s of a missing file" % asked[0], difference(found, refusal("cannot read", 4))
        found = run(program, [asked[0], folder] + asked[2:])
        yield "%s of a folder" % asked[0], difference(found, refusal("cannot read", 4))
    with open("/dev/full", "wb") as full:
        found = run(program, ["pair", path, "2"], stdout=full)
    yield "no such flip with a full device", difference(found, NO_SUCH_FLIP)


GROUPS = [reports, pairs, threads, many_threads, writers]
