"""Tests of tools/pace_model: heaps of a few words worked by hand, the rules of its policies, its recording, its command line and its recorder.

The collections on the recording were counted by the library, in runs of bench/embedding/programs.c. No number was taken from the model.
"""
import math
import os
import sys

from .c_builds import TOP, done, library
from .harness import file_of

sys.path.insert(0, os.path.join(TOP, "tools"))

from pacing.heap import BLOCK, Heap, Outcome, Run, Spent, TooSmall, least_utilisation  # noqa: E402
from pacing.policies import Constant, Guarded, ShareOfTime, WorkOverRoom, grown, late, of_heap, of_room, policies  # noqa: E402
from pacing.recording import Costs, Line, Program, costs_of, programs_of  # noqa: E402

TOOL = os.path.join(TOP, "tools", "pace_model")
BENCH = os.path.join(TOP, "bench", "embedding")
# A call of any kind takes an instruction, a step 5, and an entry 7.
COSTS = Costs(1, 1, 1, 1, 5, 7)
# A program makes 100 words, each by a call, and asks for 10 at once; 20 words are live, which take as many steps. The second also logs an entry for each other
# word, and keeps a word of five. The third keeps 3000 words and makes 6000.
PLAIN, WRITING, LARGE = Line(100, 10, 0, 0, 0, 100, 0, 20, 20, 0), Line(100, 10, 0, 0, 0, 100, 50, 20, 20, 20), Line(6000, 10, 0, 0, 0, 6000, 0, 3000, 3000, 0)


class Dues:
    """A policy that begins at half of the room and asks for these steps, one number a call, and for none after them."""

    def __init__(self, *numbers):
        self.numbers = list(numbers)
        self.beginning = of_room(0.5)

    def due(self, _heap, _spent, _room):
        return self.numbers.pop(0) if self.numbers else 0


# The size of a heap, its program's line, a policy, the outcome, and the end of the words in use, for calls of ten words.
PLAYED = {
    # It begins at word 51. Calls at 61 and 71 perform 10 steps each, and the one at 81 flips. 21 words are left, and 20 more follow.
    "a step a word": (101, PLAIN, Constant(of_room(0.5), 1), Outcome([60, 10], [50, 50], 0, 1, 20, 30), 41),
    # The call at 61 owes 15 times 2 steps, where 22 copy, 5 apply entries, and one flips. 23 words are left. The next beginning is at 62.
    "entries and words that stay": (101, WRITING, Constant(of_room(0.5), 2), Outcome([60], [22 * 5 + 5 * 7], 0, 1, 27, 40), 63),
    # It begins at 31 and at 61 has no room. The rest of the collection leaves 21 words. The next one begins at 41.
    "no steps until the room ends": (61, PLAIN, Constant(of_room(0.5), 0), Outcome([60], [100], 1, 1, 20, 40), 61),
    # No collection begins before the room ends.
    "the world stops": (61, PLAIN, Constant(of_heap(9), 1), Outcome([60], [100], 1, 1, 20, 40), 61),
    # A call may ask for 30 words. So there is too little room at 41, three times: after 40 words, and twice after 20 more.
    "a long object": (61, PLAIN._replace(most=30), Constant(of_room(0.5), 0), Outcome([40, 20, 20], [100, 100, 100], 3, 3, 60, 20), 41),
    # Of 1500 steps a call performs 1024, and the next one the other 476. None is due after that, and the room lasts.
    "steps that are owed": (10001, LARGE, Dues(1500), Outcome([5010, 10], [1024 * 5, 476 * 5], 0, 0, 1500, 980), 6001),
    # Owed steps are due beside new ones: 476 and 600 make 1076, of which 1024 are performed. The other 52 follow.
    "steps that are owed add up": (10001, LARGE, Dues(1500, 600), Outcome([5010, 10, 10], [5120, 5120, 52 * 5], 0, 0, 2100, 970), 6001),
}


def shown(outcome):
    return [[round(number, 6) for number in part] if isinstance(part, list) else round(part, 6) for part in outcome]


def by_hand(_program, _folder):
    """Heaps of a few words, whose calls are worked out in the comments."""
    for name, (size, line, policy, wanted, end) in PLAYED.items():
        run = Run(Program("hand", size, [line]), policy, COSTS, 10)
        found = run.outcome()
        yield name, None if (shown(found), run.heap.end) == (shown(wanted), end) else "%s to %d, not %s to %d" % (found, run.heap.end, wanted, end)


def counts(end, passed, entries, left=30, size=200):
    """Returns an open heap with these counts."""
    heap = Heap(size)
    heap.begin(0, 0)
    heap.end, heap.passed, heap.entries, heap.left = end, passed, entries, left
    return heap


# A word and two entries since the call before, and 100 instructions of the program's own.
SPENT = Spent(1, 2, 100)
# A policy, the room, and what it asks for. Left are 10 words, 5 entries and the flip: 16 steps. The first rows are those of tests/c/pace.c.
DUE = [
    ("2 + work over room", WorkOverRoom(None, 2), 149, 3 * 2), ("2 + work over room", WorkOverRoom(None, 2), 5, 3 * (2 + 3)),
    ("2 + work over room", WorkOverRoom(None, 2), 3, 3 * (2 + 5)), ("1 + work over room", WorkOverRoom(None, 1), 5, 3 * (1 + 3)),
    ("rate 4", Constant(None, 4), 3, 3 * 4), ("guard 4", Guarded(None, 2, 4), 5, 3 * 2), ("guard 4", Guarded(None, 2, 4), 4, 3 * 2),
    ("guard 4", Guarded(None, 2, 4), 3, 3 * (1 + 6)), ("guard 1", Guarded(None, 9, 1), 8, 3 * 9), ("a fifth of the time", ShareOfTime(None, 0.2, 5), 3, 100 * 4 / 5),
]
# Where a collection begins on a heap of 200 words of which the last flip left 30.
BEGINNINGS = [("factor 200", grown(200, 10), 60), ("at least 80", grown(200, 80), 80), ("halfway at the latest", grown(200, 500), 115),
              ("3/4 of the heap", of_heap(0.75), 150), ("half of the room", of_room(0.5), 115), ("none of the room", of_room(0), 30), ("late", late, 140)]
# The same, where the last flip left other numbers of words.
LATE = [(1, 100), (10, 150), (25, 150), (40, 120), (50, 125), (120, 160)]
# Three calls of 30, 40 and 50 with 20 and 5 between them: a window, and what calls take of it at most. From the second call to the end are 95.
WINDOWS = [(40, 40), (60, 55), (95, 90), (100, 90), (145, 120), (1000, 120)]


def rules(_program, _folder):
    """What a program's calls cost, what policies ask for, where they begin, and the least share of windows."""
    own = Costs(2, 3, 5, 7, 0, 0).of_program(Line(0, 0, 11, 13, 17, 19, 0, 0, 0, 0))
    yield "costs of calls", None if own == 2 * 11 + 3 * 13 + 5 * 17 + 7 * 19 else "%d" % own
    for name, policy, room, wanted in DUE:
        found = policy.due(counts(51, 40, 5), SPENT, room)
        yield "%s, room %d" % (name, room), None if abs(found - wanted) < 1e-9 else "%s, not %s" % (found, wanted)
    for name, beginning, wanted in BEGINNINGS:
        found = beginning(counts(51, 40, 5))
        yield "begins: %s" % name, None if found == wanted else "%s, not %s" % (found, wanted)
    for left, wanted in LATE:
        found = late(counts(51, 40, 5, left))
        yield "begins late after %d" % left, None if found == wanted else "%s, not %s" % (found, wanted)
    for window, most in WINDOWS:
        found = least_utilisation(Outcome([10, 20, 5], [30, 40, 50], 0, 0, 0, 0), window)
        yield "window of %d" % window, None if abs(found - (1 - most / window)) < 1e-9 else "%s" % found


# The collections that the library performs where the world stops.
STOPPED = {"gcbench": 12, "trees": 5, "queue": 8, "cache": 9, "live8": 2}
# Those with a pace, and whether the program has to wait. By default a collection of trees takes less than a line, so that the model is a third off.
PACED = {"default: factor 200, 2 + work over room": {"gcbench": (27, False), "queue": (36, False), "cache": (26, False), "live8": (6, False)},
         "half of the room, 2 + work over room": {"gcbench": (23, False), "trees": (10, False), "queue": (16, False), "cache": (18, False), "live8": (3, False)},
         "half of the room, rate 1": {"gcbench": (17, True), "trees": (8, False), "queue": (12, True), "cache": (13, True), "live8": (2, True)},
         "half of the room, rate 2, guard 10": {"gcbench": (21, False), "trees": (10, False), "queue": (16, False), "cache": (17, False), "live8": (3, False)}}


def text_of(path):
    with open(path, encoding="ascii") as file:
        return file.read()


def recorded(_program, _folder):
    """On the recording the model performs as many collections as the library, but for an eighth. It stalls where the library has a program wait."""
    costs, programs = costs_of(text_of(os.path.join(BENCH, "commands.txt"))), {program.name: program for program in programs_of(text_of(os.path.join(BENCH, "counts.txt")))}
    compared = policies(costs.step)
    for name, wanted in STOPPED.items():
        found = Run(programs[name], Constant(of_heap(9), 1), costs).outcome()
        yield "%s, where the world stops" % name, None if found.collections == found.stalls == wanted else "%d collections, not %d" % (found.collections, wanted)
    for policy, counted in PACED.items():
        for name, (wanted, waits) in counted.items():
            found = Run(programs[name], compared[policy], costs).outcome()
            differs = abs(found.collections - wanted) > wanted / 8 or (found.stalls > 0) != waits
            yield "%s, %s" % (name, policy), "%d collections, not %d, and %d stalls" % (found.collections, wanted, found.stalls) if differs else None
    # Where 70 % of the heap are live, the guard decides whether a program stalls.
    for name in ("cache", "live8", "vm_deep"):
        tight = programs[name]._replace(heap=int(max(line.live for line in programs[name].lines) / 0.7))
        found = [Run(tight, compared["half of the room, rate 2" + more], costs).outcome().stalls for more in ("", ", guard 10")]
        yield "%s, with a guard" % name, None if found[0] > 0 and found[1] == 0 else "%d stalls without, and %d with it" % tuple(found)


class Watched(Run):
    """A run that keeps the most words that a flip left."""

    most_left = 0

    def call(self, *wanted):
        super().call(*wanted)
        self.most_left = max(self.most_left, self.heap.left)


def light(program, most, bound, policy, costs):
    """Returns the program on the smallest heap of a row of sizes of which the law speaks: what each flip left, and twice the words that a call wants, are
    at most the part (most - 1) / (most + 1) of it."""
    words, size = wanted_words(program), max(line.live for line in program.lines) * (most + 1) // (most - 1)
    while True:
        sized = program._replace(heap=size)
        run = Watched(sized, policy, costs, most_steps=bound)
        try:
            run.outcome()
        except TooSmall:
            run.most_left = size
        if (most + 1) * (run.most_left + 2 * words) + size <= most * size:
            return sized
        size += size // 16


def wanted_words(program):
    """Returns the most words that a call of the program wants, and that it allocates between two calls."""
    return max(BLOCK, *(line.most for line in program.lines))


def bounded(_program, _folder):
    """With the bound of a call that the law bounded_calls_find_room of gc_pace names, no recorded program stalls. With fewer steps than words it does."""
    costs, programs = costs_of(text_of(os.path.join(BENCH, "commands.txt"))), {program.name: program for program in programs_of(text_of(os.path.join(BENCH, "counts.txt")))}
    policy = policies(costs.step)["default: factor 200, 2 + work over room"]
    for name in ("trees", "queue", "vm_deep", "lisp_queue"):
        program = programs[name]
        words, entries = wanted_words(program), max(math.ceil(line.entries / line.words * BLOCK) for line in program.lines)
        for most in (2, 3):
            bound = (4 * most + 2) * words + entries + 1
            sized = light(program, most, bound, policy, costs)
            found = [Run(sized, policy, costs, most_steps=steps).outcome().stalls for steps in (bound, words // 4)]
            yield "%s, bounded, %d" % (name, most), None if found[0] == 0 < found[1] else "%d stalls, and %d with few steps" % tuple(found)


# In the model a call comes before each 64 words. This heap is the first one above, with 64 words in place of 10.
RECORDING = b"# a program\nprogram hand heap 641\n640 64 0 0 0 640 0 128 128 0\n"
TABLE = b"# command now goal\nget_object 1\nput 1\nmove 1\nnew_2 10000 - 9\nstep 100000\napply 1\n"
HEAD = "| program | policy | MMU at 1 ms | at 10 ms | stalls | collections | steps a word | collector's share | longest call, ms |\n%s|\n" % ("|---" * 9)
# The calls take 6.4 M, and 0.64 M lie between them: of 10 M instructions 9.36 are theirs. All takes 19.2 M, which is less than 10 ms.
ROW = "| hand | half of the room, rate 1 | 0.064 | - | 0 | 1 | 0.20 | 0.67 | 0.640 |\n"
# With a heap of 256 words there is no room from the call at word 193 on. So each of the last 7 calls performs a whole collection, of 12.8 M instructions.
TIGHT = "| hand | 3/4 of the heap, rate 3 | 0.000 | - | 7 | 7 | 1.40 | 0.93 | 1.280 |\n"
# A heap of 142 words has no room for 64 beside the 128 that are live.
SMALL = "| hand | 3/4 of the heap, rate 3 | - | - | - | - | - | - | - |\n"
UNREADABLE = {"a line too short": (b"program hand heap 641\n1 2 3\n", "line 2 is neither a program nor 10 counts"),
              "no program": (b"# nothing\n640 64 0 0 0 640 0 128 128 0\n", "line 2 is neither a program nor 10 counts")}


def tool(_program, folder):
    """The command line prints a row for each program and policy, and refuses other texts."""
    costs = ["--costs", file_of(folder, "costs", TABLE)]
    found = done([sys.executable, TOOL, *costs, "--program", "hand", "--policy", "half of the room, rate 1", file_of(folder, "counts", RECORDING)])
    rows = [row for row in found.stdout.decode().splitlines(keepends=True) if "rate 1.5" not in row]
    tight = done([sys.executable, TOOL, *costs, "--live", "0.5", "--policy", "3/4 of the heap", file_of(folder, "counts", RECORDING)])
    yield "half of the heap is live", None if (tight.status, tight.stdout.decode()) == (0, HEAD + TIGHT) else repr(tight)
    small = done([sys.executable, TOOL, *costs, "--live", "0.9", "--policy", "3/4 of the heap", file_of(folder, "counts", RECORDING)])
    yield "too small a heap", None if (small.status, small.stdout.decode()) == (0, HEAD + SMALL) else repr(small)
    yield "a row", None if (found.status, "".join(rows)) == (0, HEAD + ROW) else repr(found)
    for name, (text, fault) in UNREADABLE.items():
        found = done([sys.executable, TOOL, *costs, file_of(folder, "other", text)])
        yield name, None if (found.status, found.stdout, found.stderr.decode()) == (2, b"", "pace_model: %s\n" % fault) else repr(found)
    yield "no such file", None if done([sys.executable, TOOL, os.path.join(folder, "missing")]).status == 2 else "no fault"


# What recorded_counts.c asks for in intervals of 8 words, as record_counts.c counts it. In the first one both objects are copied for roots, and have 2 fields and
# an end each: 8 steps. In the second one the raw object is copied and passed, and the pair copied, its 2 fields scanned and its end passed. The put and the number
# are 2 entries, and the pair 2 more. In the third the pair is garbage at the end, but was live at first, and an object without fields is copied and passed.
RECORDED = [[8, 4, 2, 2, 1, 2, 2, 0, 0, 8], [9, 5, 0, 0, 2, 2, 2, 8, 8, 6], [2, 2, 0, 0, 0, 1, 0, 13, 10, 2]]


def recorder(_program, folder):
    """The recorder counts what a program asks for, and performs no work of the program's own."""
    built = library(folder)
    if built is None:
        return
    recorder_file, options = done([sys.executable, os.path.join(BENCH, "record_counts"), "--print-options"]).stdout.decode().split(" ", 1)
    path, why = built.build(["gcc", "-Wno-unused-parameter"], "recorded_counts.c", [recorder_file, *built.archive(), *options.split()])
    counts = os.path.join(folder, "counts")
    ran = done([path], env=dict(os.environ, COUNTS_FILE=counts, COUNTS_WORDS="8")) if why is None else None
    lines = [[int(number) for number in line.split()] for line in text_of(counts).splitlines()] if ran and ran.status == 0 else []
    yield "what a program asks for", why or (None if lines == RECORDED else "%s: %s" % (ran, lines))


GROUPS = [by_hand, rules, recorded, bounded, tool, recorder]
