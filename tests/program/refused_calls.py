"""Tests that refuse each allocation of a library's call in turn.

Each test of crates/test_memory makes one call between two fences, which are requests for memory of a size that the refusing
allocator knows. The allocator refuses the n-th request between them, for n = 1, 2 and so on until a run meets no refusal. If
the call returned NoMemory, the test retries it, signals that by a request of another such size, and compares the reply and
the state.

A test is right if each of its runs passes, the last run retried nothing, and every other run retried, apart from the
requests that the call can do without. The refused requests are counted: a flip that skips the checker makes fewer, and one
whose pairs grow one by one makes more.
"""
import os
import subprocess

from .test_memory import MOST_REQUESTS, TOO_MANY, refusing_allocator
from .harness import SECONDS, limit_memory

BUILT = os.path.join(os.path.dirname(os.path.abspath(__file__)), "..", "..", "crates", "test_memory", "out", "test_memory_tests")
# The sizes that crates/test_memory/src/tests/marks.rt names.
FENCE = 1000003
RETRY = 1000033

# The number of refused requests, if it follows from the data that a call has to keep.
EXACTLY = {
    # The pairs, the new roots, and the checker's three tables.
    "collected_heaps::flip_of_1000_that_keeps_room": 5,
    # The same, and the words and roots of the kept pair.
    "collected_heaps::flip_of_1000_that_keeps_the_pair": 7,
    # The same, and an entry of the history.
    "worlds::flip_of_1000_with_a_full_history": 8,
    "worlds::flip_of_1000_with_a_spare_place": 7,
    # The starts of both images, the partners by old and by new address, and the pairs.
    "checks::pairs_inferred": 5,
    "checks::images_compared": 5,
    "checks::images_compared_in_threads": 5,
}
# From 2,048 pairs on, a flip also asks for threads. A flip that asks the sequential checker makes seven requests.
AT_LEAST = {
    "worlds::flip_of_1000_in_threads": 7,
    "worlds::flip_of_2500_in_threads": 8,
    "worlds::useful_flip_of_2500_in_threads": 8,
}


def is_for_threads(request, count):
    """Returns whether a flip's request is one for threads: after the pairs, the new roots and the tables, before the kept pair."""
    return 5 < request <= count - 2


# The requests that a call can do without, given how many it makes.
SPARED = {
    # After the checker's three tables, a check asks only for threads.
    "checks::check_of_many_pairs_in_threads": lambda request, count: request > 3,
    "worlds::flip_of_2500_in_threads": is_for_threads,
    "worlds::useful_flip_of_2500_in_threads": is_for_threads,
    # Room for all seats at once: without it, each seat asks for its own.
    "seats::shared_open": lambda request, count: request == 1,
    "seats::shared_open_of_16_collectors": lambda request, count: request == 1,
    "seats::threads_run_scripts": lambda request, count: request == 1,
}


class Run:
    """A run of a test with one request refused."""

    def __init__(self, folder, name, request):
        marks = [os.path.join(folder, kind) for kind in ("refused", "retried")]
        known = {"REFUSED_FENCE": FENCE, "REFUSED_RETRY": RETRY, "REFUSED_FIRST": request, "REFUSED_LAST": request}
        places = {"LD_PRELOAD": os.path.join(folder, "refusing_allocator.so"), "REFUSED_MARK": marks[0], "REFUSED_RETRY_MARK": marks[1]}
        environment = dict(os.environ, **places, **{word: str(number) for word, number in known.items()})
        words = [BUILT, "tests::" + name]
        done = subprocess.run(words, env=environment, capture_output=True, timeout=SECONDS, preexec_fn=limit_memory)
        self.passed = done.returncode == 0
        self.said = (done.stdout + done.stderr).decode("utf-8", "replace").strip()
        self.refused, self.retried = [os.path.exists(mark) for mark in marks]
        for mark in marks:
            if os.path.exists(mark):
                os.remove(mark)


def names():
    """Returns the names of the tests, without the 'tests::' before each."""
    listed = subprocess.run([BUILT, "--list"], capture_output=True, check=True, text=True).stdout.splitlines()
    return [line[len("tests::") : -len(": test")] for line in listed if line.endswith(": test")]


def wrong_count(name, refused):
    """Returns why this number of refused requests is wrong for the call, or None."""
    if refused == 0:
        return "no request was refused"
    if name in EXACTLY and refused != EXACTLY[name]:
        return "%d requests were refused, wanted %d" % (refused, EXACTLY[name])
    if refused < AT_LEAST.get(name, 1):
        return "%d requests were refused, wanted at least %d" % (refused, AT_LEAST[name])
    return None


def wrong_retries(name, retried):
    """Returns which refused request had the wrong answer, or None. `retried` says for each request whether it was NoMemory."""
    is_spared = SPARED.get(name, lambda request, count: False)
    for request, was_refused in enumerate(retried, 1):
        if was_refused == is_spared(request, len(retried)):
            return "request %d of %d refused: %s" % (request, len(retried), "NoMemory" if was_refused else "no NoMemory")
    return None


def wrong_refusals(folder, name):
    """Returns why the call went wrong with one of its requests refused, or None."""
    retried = []
    for request in range(1, MOST_REQUESTS):
        run = Run(folder, name, request)
        if not run.passed:
            return "request %d refused: %s" % (request, run.said)
        if not run.refused:
            if run.retried:
                return "NoMemory without a refusal"
            return wrong_count(name, len(retried)) or wrong_retries(name, retried)
        retried.append(run.retried)
    return TOO_MANY


def refused_calls(_program, folder):
    if not os.access(BUILT, os.X_OK):
        yield "refused_calls", "no tests at %s: build them by 'rt test' in crates/test_memory" % BUILT
        return
    refusing_allocator(folder)
    found = names()
    for name in [*EXACTLY, *AT_LEAST, *SPARED]:
        yield "refused_calls, %s is a test" % name, None if name in found else "it is missing"
    for name in found:
        yield "refused_calls, %s" % name, wrong_refusals(folder, name)


GROUPS = [refused_calls]
