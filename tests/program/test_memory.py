"""Tests that refuse each request for memory or for a thread in turn.

No contract can say that memory is left, or what the system does if it is not. So a small C library replaces the C library's
allocator and its start of threads. It refuses the n-th request of a run, for n = 1, 2 and so on until a run meets no
refusal. Then it does so again with all requests from the n-th on.

Only a check of 2048 pairs or more asks for threads. It does so once it has all other memory, and it can continue without
them. So such a check has a first request for threads:

- If it, or a later request, is refused, alone or with all later ones, the outcome is the usual one.
- If an earlier request is refused with all later ones, the outcome is `no memory`, with status 5, and nothing else.
- If an earlier request is refused alone, the outcome is `no memory`, or the usual one if the program can do without it.

In all other runs, every request is such an earlier one.
"""
import os
import shutil
import subprocess

from .collecting import PAIR_OF_COLLECT_WHEN_FULL, RAW_PAIR, REPORT_OF_COLLECT_WHEN_FULL, wrong_run
from .harness import Outcome, difference, file_of, refusal, run
from .pairs import CHECKED, LEAST, all_paired, text_of
from .traces import PLAYED, trace_and_replies

SOURCE = os.path.join(os.path.dirname(os.path.abspath(__file__)), "refusing_allocator.c")
NO_MEMORY = refusal("no memory", 5)
# Far more requests than the program makes. A run that never stops making them is a failure.
MOST_REQUESTS = 20000
TOO_MANY = "a run makes more than %d requests" % MOST_REQUESTS
LAST = 1 << 62


def compiler():
    """Returns the machine's C compiler, or else the toolchain's."""
    found = shutil.which("cc")
    if found:
        return [found]
    rt = shutil.which("rt")
    toolchain = os.path.join(os.path.dirname(os.path.dirname(os.path.realpath(rt))), "toolchain") if rt else ""
    clang = os.path.join(toolchain, "bin", "clang")
    if os.path.exists(clang):
        return [clang, "--ld-path=" + os.path.join(toolchain, "bin", "ld.lld"), "-nostdlib"]
    raise FileNotFoundError("there is neither cc nor the toolchain's clang")


def refusing_allocator(folder):
    """Builds the library, and returns its path."""
    library = os.path.join(folder, "refusing_allocator.so")
    words = ["-shared", "-fPIC", "-O1", "-fno-builtin", "-o", library, SOURCE]
    subprocess.run(compiler() + words, check=True)
    return library


class Refusing:
    """Runs of the program with some of its requests refused."""

    def __init__(self, program, folder):
        self.program = program
        self.library = refusing_allocator(folder)
        self.mark = os.path.join(folder, "refused")

    def run(self, words, text, first, last):
        """Returns the outcome, and whether a request was refused."""
        requests = {"REFUSED_FIRST": str(first), "REFUSED_LAST": str(last), "REFUSED_MARK": self.mark}
        environment = dict(os.environ, LD_PRELOAD=self.library, **requests)
        found = run(self.program, words, text=text, env=environment)
        refused = os.path.exists(self.mark)
        if refused:
            os.remove(self.mark)
        return found, refused

    def spared_behind(self, words, text, usual):
        """Returns the first request that the program can do without: if it and all later ones are refused, the outcome is
        the usual one. If there is no such request, returns one more than the number of requests. Also returns why an
        outcome is wrong, or None.
        """
        spared = None
        for first in range(1, MOST_REQUESTS):
            found, refused = self.run(words, text, first, LAST)
            if not refused:
                return spared or first, difference(found, usual)
            if spared is None and difference(found, NO_MEMORY) is None:
                continue
            spared = spared or first
            why = difference(found, usual)
            if why is not None:
                return spared, "request %d and all later ones refused: %s" % (first, why)
        return spared or MOST_REQUESTS, TOO_MANY

    def spared_alone(self, words, text, usual, spared):
        """Returns why an outcome with one refused request is wrong, or None."""
        for request in range(1, MOST_REQUESTS):
            found, refused = self.run(words, text, request, request)
            if not refused:
                return difference(found, usual)
            if request < spared and difference(found, NO_MEMORY) is None:
                continue
            why = difference(found, usual)
            if why is not None:
                return "request %d refused: %s" % (request, why)
        return TOO_MANY

    def in_turn(self, words, text, usual, in_threads):
        """Returns why an outcome is wrong, or None. Refuses one request, and also all requests from one on."""
        spared, behind = self.spared_behind(words, text, usual)
        _, refused = self.run(words, text, spared, LAST)
        if behind is None and spared == 1:
            behind = "no refusal was told"
        if behind is None and refused != in_threads:
            behind = "requests from %d on are spared" % spared if refused else "no thread was asked for"
        return behind, self.spared_alone(words, text, usual, spared)


def failures(program, folder):
    refusing = Refusing(program, folder)
    text, replies = trace_and_replies(PLAYED["cycle_of_two"])
    path = file_of(folder, "played", text)
    missing = os.path.join(folder, "nothing", "here")
    yes = file_of(folder, "yes", text_of(CHECKED["old_addresses_may_fall"][0]))
    # Long enough that the input buffer grows several times, and that threads share the pairs.
    long_text, long_verdict = all_paired(20000, 100)
    long_yes = file_of(folder, "long yes", long_text)
    # The first fault is reported, no matter which piece has no thread of its own.
    altered_text, altered_verdict = all_paired(20000, 100, (9000, 19999))
    altered = file_of(folder, "altered", altered_text)
    most_for_one_text, most_for_one_verdict = all_paired(2047, 1)
    most_for_one = file_of(folder, "most for one thread", most_for_one_text)
    least_for_two_text, least_for_two_verdict = all_paired(2048, 1)
    least_for_two = file_of(folder, "least for two threads", least_for_two_text)
    refused = file_of(folder, "refusal", text_of(CHECKED["an_original_has_two_replicas"][0]))
    bad_pair = file_of(folder, "bad pair", LEAST + b"x\n")
    collected_text, collected_replies = trace_and_replies(PLAYED["collect_when_full"])
    collected = file_of(folder, "collected", collected_text)
    raw_text, raw_replies = trace_and_replies(PLAYED["raw_object_written_while_it_is_copied"])
    raw = file_of(folder, "raw", raw_text)
    raw_pair = file_of(folder, "raw pair", RAW_PAIR)
    runs = [
        ("play_of_standard_input", [], text, Outcome(stdout=replies)),
        ("play_of_a_file", ["play", path], b"", Outcome(stdout=replies)),
        ("bad_line", [], text + b"x\n", refusal("trace: bad line 16", 3)),
        ("missing_file", ["play", missing], b"", refusal("cannot read", 4)),
        ("check_of_a_yes", ["check", yes], b"", Outcome(stdout=b"yes 2\n")),
        ("check_of_2047_pairs", ["check", most_for_one], b"", Outcome(most_for_one_verdict.encode() + b"\n")),
        ("check_of_a_refusal", ["check", refused], b"", Outcome(b"refused 7 Twice 1\n", b"", 1)),
        ("bad_line_of_a_pair", ["check", bad_pair], b"", refusal("pair: bad line 12", 3)),
        ("missing_file_to_check", ["check", missing], b"", refusal("cannot read", 4)),
        ("report_of_a_trace", ["report", collected], b"", Outcome(stdout=REPORT_OF_COLLECT_WHEN_FULL)),
        ("pair_of_a_flip", ["pair", collected, "1"], b"", Outcome(stdout=PAIR_OF_COLLECT_WHEN_FULL)),
        ("flip_that_is_not_there", ["pair", collected, "2"], b"", refusal("trace: no such flip", 3)),
        ("play_of_collections", ["play", collected], b"", Outcome(stdout=collected_replies)),
        ("play_of_a_raw_object", ["play", raw], b"", Outcome(stdout=raw_replies)),
        ("pair_of_a_raw_object", ["pair", raw, "1"], b"", Outcome(stdout=RAW_PAIR)),
        ("check_of_a_raw_object", ["check", raw_pair], b"", Outcome(stdout=b"yes 1\n")),
        ("unknown_word", ["nothing"], b"", run(program, ["nothing"])),
        ("help", ["--help"], b"", run(program, ["--help"])),
    ]
    runs_in_threads = [
        ("check_of_2048_pairs", ["check", least_for_two], b"", Outcome(least_for_two_verdict.encode() + b"\n")),
        ("check_of_a_longer_text", ["check", long_yes], b"", Outcome(long_verdict.encode() + b"\n")),
        ("check_of_a_longer_refusal", ["check", altered], b"", Outcome(altered_verdict.encode() + b"\n", b"", 1)),
    ]
    for name, words, text, usual in runs + runs_in_threads:
        in_threads = (name, words, text, usual) in runs_in_threads
        rest, one = refusing.in_turn(words, text, usual, in_threads)
        yield "each_allocation_refused, %s" % name, one
        yield "each_allocation_and_all_later_ones_refused, %s" % name, rest


# How a run of scripts in threads may end if requests are refused, apart from a complete run.
THREADS_FAULTS = [NO_MEMORY, refusal("threads: not started", 6)]


def wrong_end(program, folder, text, found, turns):
    """Returns why a run of scripts with refused requests ended as it must not, or None."""
    if any(difference(found, fault) is None for fault in THREADS_FAULTS):
        return None
    return wrong_run(program, folder, text, found, turns)


def failures_in_threads(program, folder):
    """Runs scripts in threads. Which thread makes a request depends on the schedule, so a run may end in any allowed way, and
    each way has to occur. A run that meets no refusal is complete."""
    refusing = Refusing(program, folder)
    text = b"heaptrace 1\nspace 64 mutators 2\nm 0 new g0 1 1\nm 0 num r0 5\nm 0 put g0 0 r0\nm 1 get r1 g0 0\n"
    words = ["threads", file_of(folder, "scripts", text), "40"]
    for kind, last in [("allocation_refused", lambda request: request), ("allocation_and_all_later_ones_refused", lambda _: LAST)]:
        ends = []
        for request in range(1, MOST_REQUESTS):
            found, refused = refusing.run(words, b"", request, last(request))
            why = wrong_end(program, folder, text, found, 40)
            if why is not None:
                yield "each_%s, scripts" % kind, "request %d refused: %s" % (request, why)
                break
            if not refused:
                yield "each_%s, scripts" % kind, None
                break
            ends.append(found.stderr)
        for fault in THREADS_FAULTS:
            met = None if fault.stderr in ends else "it was not met in %d runs" % len(ends)
            yield "each_%s, scripts: %s" % (kind, fault.stderr.decode().strip()), met


GROUPS = [failures, failures_in_threads]
