"""A heap with a replicating collector, as a pace sees it: words and steps, and no objects. A policy paces the collector while a recorded program runs.

A call of work comes before each block of words that the program allocates. A collection that begins has to copy what is live then. It also has to copy what the
program makes and keeps meanwhile, and to apply the entries logged meanwhile. It ends with a flip once nothing is left. Then the words in use are those that it
copied. Between the beginnings of two lines of a recording, what is live changes evenly.
"""
from typing import List, NamedTuple

# The words for which a program asks at once, and the most steps that one call performs by default.
BLOCK, MOST_STEPS = 64, 1024
# Parts of steps are rounded.
TOLERANCE = 1e-6


class Outcome(NamedTuple):
    """What a policy made of a program. Times are in instructions."""
    own: List[float]   # the program's own time before each call of work that performs steps
    took: List[float]  # the time of that call
    stalls: int        # how often there was less room than the program wanted
    collections: int
    steps: float
    rest: float        # the program's own time after the last of these calls


class TooSmall(ValueError):
    """A heap has no room for what a program wants, even after a whole collection."""


class Spent(NamedTuple):
    """What a program did since the call before."""
    words: float
    entries: float
    own: float   # its own time, in instructions

    def both(self):
        return self.words + self.entries


class Heap:
    def __init__(self, size):
        self.size = size
        self.end = self.left = 1   # words in use: now, and after the last flip. Word 0 is never used.
        self.is_open = False
        self.scans = self.entries = 0.0   # the steps left in the open collection
        self.copied = 0.0   # the words that all replicas take in the end
        self.passed = 0.0   # the words of those that are scanned
        self.owed = 0.0     # the steps that were due and not performed

    def room(self):
        return self.size - self.end

    def steps_left(self):
        """Returns the bound on the steps left that the counts tell: all words in use that are not scanned, the entries, and the flip."""
        return self.end - 1 - self.passed + self.entries + 1

    def begin(self, live, live_steps):
        self.is_open = True
        self.scans, self.entries, self.copied, self.passed, self.owed = float(live_steps), 0.0, float(min(live, self.end - 1)), 0.0, 0.0

    def add(self, words, entries, added, density):
        """Adds what the program does: words allocated, entries logged, and steps for the new objects that stay, each of which takes so many words."""
        self.end += words
        if self.is_open:
            self.entries += entries
            self.scans += added
            self.copied = min(self.copied + added * density, self.end - 1)

    def perform(self, most):
        """Performs at most so many steps, and returns how many scanned and how many applied an entry. The last one of a collection is its flip."""
        flips = self.scans + self.entries + 1 <= most + TOLERANCE
        scans = min(most, self.scans)
        entries = min(most - scans, self.entries)
        self.passed += (self.copied - self.passed) * scans / self.scans if self.scans else 0
        self.scans -= scans
        self.entries -= entries
        if flips:
            self.is_open = False
            self.end = self.left = 1 + int(self.copied)
        return scans, entries


def between(first, second, part):
    return first + (second - first) * part


class Run:
    """A program on a heap that a policy paces."""

    def __init__(self, program, policy, costs, block=BLOCK, most_steps=MOST_STEPS):
        self.heap = Heap(program.heap)
        self.program, self.policy, self.costs, self.block, self.most_steps = program, policy, costs, block, most_steps
        self.own, self.took = [], []
        self.since = 0.0   # the program's own time since the last call that performed steps
        # The words, the entries and the program's own time since the last call.
        self.words = self.logged = self.busy = 0.0
        self.stalls = self.collections = 0
        self.steps = 0.0

    def perform(self, most):
        """Performs at most so many steps, and returns how long that takes."""
        was_open = self.heap.is_open
        scans, entries = self.heap.perform(most)
        self.steps += scans + entries
        self.collections += was_open and not self.heap.is_open
        return scans * self.costs.step + entries * self.costs.entry

    def whole(self, live, live_steps):
        """Ends the open collection, or performs a whole one."""
        if not self.heap.is_open:
            self.heap.begin(live, live_steps)
        return self.perform(float("inf"))

    def call(self, wanted, live, live_steps):
        """Performs the steps that are due before the program allocates so many words."""
        heap, took = self.heap, 0.0
        if heap.is_open:
            due = min(heap.owed + self.policy.due(heap, Spent(self.words, self.logged, self.busy), max(heap.room() - wanted, 1)), heap.steps_left())
            now = min(due, self.most_steps)
            took = self.perform(now)
            heap.owed = due - now if heap.is_open else 0.0
        elif heap.end >= self.policy.beginning(heap):
            heap.begin(live, live_steps)
        while heap.room() < wanted:
            self.stalls += 1
            took += self.whole(live, live_steps)
            if heap.room() < wanted and heap.left > 1 + live:
                took += self.whole(live, live_steps)
            elif heap.room() < wanted:
                raise TooSmall
        if took:
            self.own.append(self.since)
            self.took.append(took)
            self.since = 0.0
        self.words = self.logged = self.busy = 0.0

    def idle_blocks(self, wanted):
        """Returns how many calls find nothing to do from now on."""
        words = min(self.policy.beginning(self.heap), self.heap.size - wanted) - self.heap.end
        return 0 if self.heap.is_open else max(0, int(words // self.block))

    def line(self, line, following):
        own = self.costs.of_program(line) / line.words
        entries, added = line.entries / line.words, line.added / line.words
        density = line.live / line.live_steps if line.live_steps else 4 / 3
        wanted, gone = max(self.block, line.most), 0
        while gone < line.words:
            part = gone / line.words
            blocks = self.idle_blocks(wanted)
            if blocks == 0:
                self.call(wanted, between(line.live, following.live, part), between(line.live_steps, following.live_steps, part))
                blocks = 1
            words = min(blocks * self.block, line.words - gone)
            self.heap.add(words, entries * words, added * words, density)
            self.words += words
            self.logged += entries * words
            self.busy += own * words
            self.since += own * words
            gone += words

    def outcome(self):
        lines = self.program.lines
        for line, following in zip(lines, lines[1:] + lines[-1:]):
            self.line(line, following)
        return Outcome(self.own, self.took, self.stalls, self.collections, self.steps, self.since)


def least_utilisation(outcome, window):
    """Returns the least share of a window of so many instructions that was left to the program. No window has more of the calls of work than one that begins
    with one."""
    own, took = outcome.own, outcome.took
    most = inside = length = 0.0   # `length` is the time from the beginning of call `first` to the end of call `beyond - 1`
    beyond = 0
    for first in range(len(took)):
        while beyond < len(took) and (beyond == first or length + own[beyond] < window):
            length += (own[beyond] if beyond > first else 0) + took[beyond]
            inside += took[beyond]
            beyond += 1
        most = max(most, inside - max(0.0, length - window))
        inside -= took[first]
        length -= took[first] + (own[first + 1] if beyond > first + 1 else 0)
    return 1 - most / window
