"""Tests of the library for C whose collector works in another thread: programs of tests/c that call it, and the example.

It tests libgcflip_beside.a, built and installed by bindings/c, with its two headers: each answer, each close and each refused allocation, in one
thread and in two, also by valgrind; each allocation of a whole run, refused in turn in either thread; calls of many commands; calls by address, and a table of them that follows each flip; the stops of a flip; the pace of the thread; a heap that grows; random commands beside a collector's thread under seven schedules, a million in all, compared with a machine that never collects; the source
gcflip_thread.c with sanitizers, ThreadSanitizer among them; the headers by C99 and C++11; the exported symbols; a run of examples/beside. It reports
what it skips for lack of a tool.
"""
import os
import re

from .c_builds import SANITIZERS, THREAD_SANITIZER, TOP, VALGRIND, WARNINGS, Library, compilers, done, has_valgrind, helgrind, library, thread_sanitizer_options, usable
from .harness import Outcome, difference, file_of

BINDINGS = os.path.join(TOP, "bindings", "c")
HEADERS = ["gcflip_beside.h", "gcflip_thread.h"]
DECLARED = re.compile(r"^(?:\w+ \*?)(gcflip_(?:beside|thread)_\w+)\(", re.M)
# The commands of each schedule, of which beside_threads.c has seven.
COMMANDS = 150000
EXAMPLE_LINES = re.compile(rb"trees: 2000, sum of the last ones: 16117760\nflips: [1-9]\d*, stops: [1-9]\d*\nwaited at safepoints: [0-9.]+ ms, longest wait: [0-9.]+ ms\n")


class Beside(Library):
    """The library as `make install-beside` installs it."""

    def install(self, prefix, target="install-beside"):
        return super().install(prefix, target)

    def archive(self):
        return [os.path.join(self.lib, "libgcflip_beside.a")]


def programs(_program, folder):
    built = library(folder, Beside)
    if built is None:
        return
    yield "the library is installed", None if built.made.status == 0 else built.made.stderr.decode()
    for name, words, _cpp in compilers():
        if not usable(folder, name, words):
            continue
        for source in ("beside.c", "beside_bulk.c", "beside_refused.c", "beside_stops.c", "beside_pace.c", "beside_addresses.c", "beside_tables.c", "beside_grows.c"):
            path, why = built.build(words, source, built.archive())
            yield "%s by %s" % (source, name), why or difference(done([path]), Outcome())
        path, why = built.build(words, "beside_threads.c", built.archive())
        yield "beside_threads.c by %s" % name, why or difference(done([path, str(COMMANDS)]), Outcome())


def sanitized(_program, folder):
    """The source of the thread with sanitizers, and programs with the archive by valgrind. The proved archive is not instrumented."""
    built = library(folder, Beside)
    if built is None:
        return
    source = os.path.join(BINDINGS, "gcflip_thread.c")
    environment = thread_sanitizer_options(folder)
    for kind, words in [("sanitizers", SANITIZERS), ("ThreadSanitizer", THREAD_SANITIZER)]:
        if usable(folder, "beside_threads.c with %s" % kind, ["gcc", *words]):
            for name, arguments in [("beside_threads.c", ["5000", "2"]), ("beside_pace.c", []), ("beside_tables.c", ["50", "2"]), ("beside_grows.c", [])]:
                path, why = built.build(["gcc", *words], name, [source, *built.archive()])
                yield "%s with %s" % (name, kind), why or difference(done([path, *arguments], env=environment), Outcome())
    if has_valgrind("beside.c"):
        for name, words in [("beside.c", []), ("beside_bulk.c", ["100000"]), ("beside_refused.c", []), ("beside_addresses.c", []), ("beside_threads.c", ["2000", "3"]), ("beside_tables.c", ["10", "3"]), ("beside_grows.c", [])]:
            path, why = built.build(["gcc"], name, built.archive())
            yield "%s by valgrind" % name, why or difference(done([*VALGRIND, path, *words]), Outcome())


def symbols(_program, folder):
    """Each call that a header declares is exported, and no other; and the headers stand alone, in C and in C++."""
    built = library(folder, Beside)
    if built is None:
        return
    for header in HEADERS:
        text = b'#include "%s"\nint main(void) { return 0; }\n' % header.encode()
        for compiler, standard, ending in [("gcc", "-std=c99", ".c"), ("g++", "-std=c++11", ".cpp")]:
            made = done([compiler, standard, *WARNINGS, "-I" + os.path.join(built.prefix, "include"), "-c", "-o", os.path.join(folder, "header.o"), file_of(folder, "header" + ending, text)])
            yield "%s by %s" % (header, compiler), None if made.status == 0 else made.stderr.decode()
    declared = {name for header in HEADERS for name in DECLARED.findall(open(os.path.join(BINDINGS, header), encoding="utf-8").read())}
    printed = done(["nm", "--defined-only", *built.archive()]).stdout.decode()
    exported = {line.split()[-1] for line in printed.split("\n") if " T gcflip_" in line}
    yield "the calls of the headers are exported", None if declared == exported else "declared alone: %s; exported alone: %s" % (sorted(declared - exported), sorted(exported - declared))


def example(_program, folder):
    """The program of examples/beside ends with the right sum, and collections have flipped. Helgrind finds no race in it: neither in the cells, whose
    steps are atomic, nor in gcflip_thread.c."""
    built = library(folder, Beside)
    if built is None:
        return
    path = os.path.join(folder, "beside")
    made = done(["gcc", "-std=c99", "-O2", "-pthread", *WARNINGS, "-I" + os.path.join(built.prefix, "include"), "-o", path, os.path.join(TOP, "examples", "beside", "main.c"), *built.archive()])
    yield "examples/beside is built", None if made.status == 0 else made.stderr.decode()
    ran = done([path, "2000"])
    yield "examples/beside", None if ran.status == 0 and EXAMPLE_LINES.fullmatch(ran.stdout) else "status %s: %s%s" % (ran.status, ran.stdout.decode(), ran.stderr.decode())
    if has_valgrind("examples/beside"):
        raced = done([*helgrind(folder), path, "3000"])
        yield "examples/beside by helgrind", None if raced.status == 0 else "status %s: %s" % (raced.status, raced.stderr.decode()[-2000:])


GROUPS = [programs, sanitized, symbols, example]
