"""Tests with a small stack, with less and less address space, and with a text that is larger than the address space: the outcome is the usual one or 'no
memory', and never a signal."""
from .collecting import PAIR_OF_COLLECT_WHEN_FULL, REPORT_OF_COLLECT_WHEN_FULL
from .test_memory import NO_MEMORY
from .harness import Outcome, difference, file_of, run
from .traces import PLAYED, trace_and_replies

STACK_KIB = 128
# In KiB: more address space than a usual run takes, and the steps in which it shrinks.
MOST_KIB, STEP_KIB = 6000, 4
# A long text has so many events. A reader keeps a line of it and what it reads at once, so that this address space, in KiB, is less than the text takes.
# `play` keeps the replies, of 5 bytes each, until the last line is read.
EVENTS, FEW_KIB = 1_000_000, {"report": 6000, "play": 12500}
# The status with which the loader ends a program that it cannot load.
NOT_LOADED = 127


def limited(program, limit):
    """Returns the words that run the program under a limit, such as '-s 128'."""
    return "/bin/sh", ["-c", 'ulimit %s; exec "$0" "$@"' % limit, program]


def usual(folder):
    """Returns a run of each command that has one outcome: its name, its arguments, the outcome."""
    text, replies = trace_and_replies(PLAYED["collect_when_full"])
    trace, pair = file_of(folder, "trace", text), file_of(folder, "pair", PAIR_OF_COLLECT_WHEN_FULL)
    return [("play", ["play", trace], Outcome(replies)),
            ("report", ["report", trace], Outcome(REPORT_OF_COLLECT_WHEN_FULL)),
            ("pair", ["pair", trace, "1"], Outcome(PAIR_OF_COLLECT_WHEN_FULL)),
            ("check", ["check", pair], Outcome(b"yes 1\n")),
            ("threads", ["threads", trace, "0"], None)]


def small_stack(program, folder):
    shell, words = limited(program, "-s %d" % STACK_KIB)
    text, replies = trace_and_replies(PLAYED["collect_when_full"])
    yield "small_stack, on standard input", difference(run(shell, words, text=text), Outcome(replies))
    for name, arguments, wanted in usual(folder):
        found = run(shell, [*words, *arguments])
        yield "small_stack, %s" % name, difference(found, wanted or Outcome(found.stdout))


def wrong_with_little(program, arguments, wanted):
    """Returns why a run under some limit is wrong, or None. Ends with the first limit under which the program cannot be loaded."""
    seen = {"usual": 0, "no memory": 0}
    for limit in range(MOST_KIB, 0, -STEP_KIB):
        shell, words = limited(program, "-v %d" % limit)
        found = run(shell, [*words, *arguments])
        if found.status == NOT_LOADED:
            return None if all(seen.values()) else "the outcomes seen are %s" % seen
        refused = difference(found, NO_MEMORY) is None
        if not refused and difference(found, wanted):
            return "with %d KiB: %s" % (limit, difference(found, wanted))
        seen["no memory" if refused else "usual"] += 1
    return "it ran with %d KiB" % STEP_KIB


def little_address_space(program, folder):
    for name, arguments, wanted in usual(folder):
        if wanted:
            yield "little_address_space, %s" % name, wrong_with_little(program, arguments, wanted)


def long_text(program, folder):
    trace = file_of(folder, "trace", b"heaptrace 1\nspace 32 mutators 1\n" + EVENTS * b"m 0 num r0 9\n")
    for name, limit in FEW_KIB.items():
        shell, words = limited(program, "-v %d" % limit)
        found = run(shell, [*words, name, trace])
        yield "long_text, %s" % name, difference(found, Outcome(EVENTS * b"done\n" if name == "play" else found.stdout))


GROUPS = [small_stack, little_address_space, long_text]
