"""Tests of the adapters for runtimes that are built from their source, Scheme 48 and Erlang.

Each adapter is compiled with a miniature of its runtime, which has what the adapter reads and a collector that does what the real one does. Faults are planted
there, and the adapter tests itself. If tests/install_runtimes has built the runtime itself, its collections are checked, too.
"""
import os
import re
import sys

from .c_builds import PROVING_SECONDS, SANITIZERS, TOP, done, library, usable
from .harness import skip

EXAMPLES = os.path.join(TOP, "examples")
# Where tests/install_runtimes builds the runtimes, outside of any clone.
CACHE = os.environ.get("GCFLIP_RUNTIMES") or os.path.join(os.path.expanduser("~"), ".cache", "gcflip", "runtimes")


class Example:
    """An example: its folder, the source of the miniature, how often that collects, what its program prints at the end, and which faults are planted in the
    miniature and, at the places that faults.txt says, in the runtime."""

    def __init__(self, name, miniature, collections, least, in_miniature, in_runtime):
        self.name, self.miniature, self.collections, self.least, self.in_miniature, self.in_runtime = name, miniature, collections, least, in_miniature, in_runtime
        self.folder = os.path.join(EXAMPLES, name)

    def runtime(self):
        """Returns where the runtime is, if it was built with the patch of this clone, or None."""
        built = os.path.join(CACHE, self.name)
        return built if os.path.exists(os.path.join(built, "patched-%d" % self.checksum())) else None

    def checksum(self):
        """Returns what the Makefile calls the patch by: the number of cksum."""
        return int(done(["sh", "-c", "cat %s | cksum" % self.patch_files()], cwd=self.folder).stdout.split()[0])

    def patch_files(self):
        """Returns the files with which the runtime is built, as the Makefile names them."""
        with open(os.path.join(self.folder, "Makefile"), encoding="utf-8") as file:
            return re.search(r"(?m)^BUILT_WITH := (.*)$", file.read()).group(1)


SCHEME48 = Example(
    "scheme48", "machine.c", 3, r"(?m)^3 collections, 3 of them checked, (\d+) pairs, none refused$",
    ("flipped_bit", "immutable_bit", "thread_missed", "field_not_updated", "weak_cleared", "weak_not_updated", "return_address_not_updated", "symbol_dropped",
     "finalizer_lost", "binding_dropped", "stack_value_missed", "channel_dropped", "due_too_early", "due_too_late", "cell_not_enqueued", "cell_keeps_queue"),
    ("thread_missed", "weak_cleared", "due_order_turned", "cell_not_enqueued"))
ERLANG = Example(
    "erlang", "process.c", 8, r"(?m)^6 minor collections and 2 major ones, (\d+) pairs, none refused; the old generation was scanned 0 times$",
    ("boxed_bit", "dictionary_missed", "cons_reference_not_updated", "boxed_copied_twice", "wrong_forwarding", "match_base_stale", "cons_copied_twice",
     "sub_binary_shifted", "cdr_bit", "promoted_not_swept", "stack_word_missed", "registers_missed", "message_missed", "tuple_shortened", "elements_exchanged",
     "conses_merged", "car_lost", "float_bit", "bignum_sign", "map_value_lost", "map_size_off", "fun_arity_off", "fun_variable_lost", "binary_size_off",
     "binary_moved", "sub_binary_offset_off", "match_offset_off", "heap_binary_byte", "reference_number_off"),
    ("boxed_bit", "dictionary_missed", "promoted_not_swept", "tuple_shortened"))
ALL = (SCHEME48, ERLANG)


def rows(example):
    """Returns the faults that are always planted, and those that are drawn."""
    with open(os.path.join(example.folder, "faults.txt"), encoding="utf-8") as file:
        parts = file.read().split("\n\n")
    return [[line.split(" | ") for line in part.split("\n") if line and not line.startswith("#")] for part in parts]


def planted(example, names, command, *options, **more):
    """Plants faults, and yields a case for each: it is found, and what is printed names it."""
    words = [sys.executable, os.path.join(EXAMPLES, "planted.py"), os.path.join(example.folder, "faults.txt"), *options, "--only", *names, "--", *command]
    ran = done(words, timeout=PROVING_SECONDS, **more)
    text = ran.stdout.decode("utf-8", "replace")
    for name in names:
        found = re.search(r"(?m)^ok: fault %s, " % name, text)
        why = re.search(r"(?m)^FAILED: fault %s, .*\n(?:(?!ok:|FAILED:).*\n)*" % name, text)
        yield "%s: fault %s" % (command[0].split("/")[-1], name), None if found else why.group() if why else text[-500:] + ran.stderr.decode("utf-8", "replace")


def miniature(example, built, folder):
    """Yields the cases of an adapter with the miniature of its runtime: compiled with sanitizers, a run, and each fault at its first place."""
    path, source = os.path.join(folder, example.name), os.path.join(example.folder, "stub", example.miniature)
    paths = [os.path.join(example.folder, "stub"), example.folder, EXAMPLES, os.path.join(built.prefix, "include")]
    flags = ["-std=gnu11", "-O1", "-pthread", "-fno-strict-aliasing", "-Wall", "-Wextra", "-Werror", *SANITIZERS]
    made = done(["gcc", *flags, *["-I" + each for each in paths], "-o", path, source, *built.archive()])
    yield "the adapter of examples/%s" % example.name, None if made.status == 0 else made.stderr.decode("utf-8", "replace")[:2000]
    if made.status != 0:
        return
    environment = dict(os.environ, ASAN_OPTIONS="detect_leaks=0")
    ran = done([path], env=environment)
    text = ran.stderr.decode("utf-8", "replace")
    pairs, owed = re.search(example.least, text), re.search(r"(?m)^(\d+) pairs are owed$", text)
    yield "the miniature of examples/%s" % example.name, None if ran.status == 0 and pairs and int(pairs.group(1)) > 100 else text
    if owed:
        yield "the pairs of examples/%s" % example.name, None if pairs and owed.group(1) == pairs.group(1) else text
    yield from planted(example, example.in_miniature, [path], "--at-once", env=environment)
    yield from self_tests(example, path, environment)


FLIPS = 400


def self_tests(example, path, environment):
    """Runs the self-test in the heap after each collection of the miniature: at least half of the flips are refused. The third heap of Erlang's miniature is a
    message for the most part, which no root reaches, so its adapter waits for the next one."""
    for at in range(1, example.collections + 1):
        ran = done([path], env=dict(environment, CERTIFY_AT=str(at), CERTIFY_FLIPS=str(FLIPS)))
        text = ran.stderr.decode("utf-8", "replace")
        told = re.findall(r"(?m)^flipped %d bits: refused (\d+), explained \d+, unexplained 0$" % FLIPS, text)
        right = ran.status == 0 and len(told) == 1 and 2 * int(told[0]) >= FLIPS
        yield "the self-test of the miniature of examples/%s, from collection %d on" % (example.name, at), None if right else text[-2000:]


def miniatures(_program, folder):
    built = library(folder)
    if built is None or not usable(folder, "the miniatures of runtimes", ["gcc", *SANITIZERS]):
        return
    for example in ALL:
        yield from miniature(example, built, folder)


# The program, and a pattern of what is printed about its collections.
PROGRAMS = {"scheme48": ("%(out)s/scheme48vm -i %(runtime)s/scheme48.image -h 2700000 < program.scm", r"(?m)^(\d+) collections, \1 of them checked, (\d+) pairs, none refused$"),
            "erlang": ("CERTIFY_WORDS=3000 ./erl %(out)s %(runtime)s 'io:format(\"~w~n\", [program:run(4, 600)])' -S 4:4",
                       r"(?m)^(\d+) minor collections and [1-9]\d* major ones, (\d+) pairs, none refused; ")}


def with_runtime(example, runtime, built, folder):
    """Yields the cases of an adapter with its runtime: a run of its program, and some faults."""
    out = os.path.join(folder, example.name)
    words = ["make", "-s", "-C", example.folder, "PREFIX=" + built.prefix, "OUT=" + out, "RUNTIME=" + runtime]
    made = done(words, timeout=PROVING_SECONDS)
    yield "examples/%s is built" % example.name, None if made.status == 0 else made.stderr.decode("utf-8", "replace")[-2000:]
    if made.status != 0:
        return
    command, pattern = PROGRAMS[example.name]
    command = ["sh", "-c", command % {"out": out, "runtime": runtime}]
    ran = done(command, cwd=example.folder, timeout=PROVING_SECONDS)
    text = (ran.stdout + ran.stderr).decode("utf-8", "replace")
    told = re.search(pattern, text)
    yield "the program of examples/%s" % example.name, None if ran.status == 0 and told and int(told.group(1)) > 10 and int(told.group(2)) > 100000 else text[-2000:]
    yield from planted(example, example.in_runtime, command, cwd=example.folder)


def runtimes(_program, folder):
    """Runs the programs of the examples, where their runtimes are built."""
    built = None
    for example in ALL:
        runtime = example.runtime()
        if runtime is None:
            skip("examples/%s with its runtime" % example.name, "none is built with this patch in %s: tests/install_runtimes builds it" % CACHE)
            continue
        built = built or library(folder)
        if built is not None:
            yield from with_runtime(example, runtime, built, folder)


def tables(_program, _folder):
    """Checks that each README has each fault, that twenty are drawn from, and that the miniature plants no other."""
    for example in ALL:
        always, drawn = rows(example)
        yield "faults of examples/%s" % example.name, None if len(drawn) == 20 and all(len(row) == 5 for row in always + drawn) else "%d are drawn" % len(drawn)
        with open(os.path.join(example.folder, "README.md"), encoding="utf-8") as file:
            text = file.read()
        missing = [row[0] for row in always + drawn if "| `%s` | %s |" % (row[0], row[3]) not in text]
        yield "table of examples/%s" % example.name, "it lacks %s" % ", ".join(missing) if missing else None
        unknown = set(example.in_miniature + example.in_runtime) - {row[0] for row in always + drawn}
        yield "names of faults of examples/%s" % example.name, "unknown: %s" % ", ".join(unknown) if unknown else None


GROUPS = [miniatures, runtimes, tables]
