"""Tests of the libraries for C and C++: programs of tests/c that call them, built in every way that the machine allows.

It tests the libraries for C and C++, built and installed by bindings/c: programs of tests/c by gcc, with sanitizers, by the toolchain's clang, and by
musl-gcc where it is; the examples by valgrind, and the one with threads by helgrind; the allocator of bindings/c/examples/huge_pages.c, with
sanitizers, by valgrind and with little address space; the tests of examples/long_objects, with sanitizers and by valgrind; a short run of soak.c; how
bench/embedding merges and sums up pauses; the library for adapters with its own source under sanitizers and by valgrind, and each of its allocations
refused in turn; the words that it writes for a nursery, and its verdicts on young objects compared with those on whole heaps; a heap of 1048576 words
with an allocator that counts blocks; the limits of docs/CALLS.md, with their example of little address space; each call that a recording knows, while
it records, after it has ended and without a stream; that make compiles an object anew for each header that it includes; small runs of what
tests/long/run large does, with live objects behind 1 GiB of garbage; the instructions of a useful step, of giving up a collection, and of a begin
after a large snapshot; the bit at which an adapter crashes in the self-test; and the reads of roots in a collection of 65,536 extra roots, counted by
valgrind. It reports what it skips for lack of a tool.
"""
import json
import os
import re
import shutil
import signal
import time

from . import pairs
from .c_builds import (EXAMPLE_PROGRAMS, HUGE_HEAP, HUGE_PAGES, SANITIZERS, SOURCES, TOP, VALGRIND, compilers, done, example_sources, has_valgrind, instructions, library,
                       usable)
from .examples import FOLDER as EXAMPLES, content, names_of
from .harness import Outcome, addresses_numbered, difference, file_of, run, skip
from .traces import PLAYED, trace_and_replies

# Programs that end with status 0 and print nothing.
PROGRAMS = ["answers.c", "check.c", "refused_check.c", "check_cpp.cpp", "heap.c", "extra_roots.c", "looks.c", "places.c", "rows.c", "fields.c", "bytes.c", "words.c", "pace.c", "reserve.c", "refused_heap.c", "checking.c", "damaged.c", "rooms.c", "heap_cpp.cpp", "churn.c", "threads.c",
            "images.c", "explanations.c", "flipped_bits.c", "adapters.c", "nursery.c", "self_tests.c", "herbpond.c",
            "herbpond_weak.c", "herbpond_arrays.c", "herbpond_cpp.cpp"]


def programs(_program, folder):
    built = library(folder)
    if built is None:
        return
    yield "the library is installed", None if built.made.status == 0 else built.made.stderr.decode()
    for name, c_words, cpp_words in compilers():
        if not usable(folder, name, c_words):
            continue
        for source in PROGRAMS:
            words = cpp_words if source.endswith(".cpp") else c_words
            for kind, linked in [("archive", built.archive()), ("shared library", built.shared())]:
                path, why = built.build(words, source, linked)
                yield "%s by %s, %s" % (source, name, kind), why or difference(done([path]), Outcome())


def musl(_program, folder):
    """Links the archive with another libc: the programs in C, without a shared library, and the examples."""
    built = library(folder)
    if built is None or not usable(folder, "programs by musl-gcc", ["musl-gcc", "-static"]):
        return
    for source in [name for name in PROGRAMS if name.endswith(".c")]:
        path, why = built.build(["musl-gcc", "-static"], source, built.archive())
        yield "%s by musl-gcc" % source, why or difference(done([path]), Outcome())
    for name in sorted(EXAMPLE_OUTPUT):
        source, *more = example_sources(name)
        path, why = built.build(["musl-gcc", "-static"], source, [*more, *built.archive()])
        yield "%s by musl-gcc" % name, why or difference(printed([path]), Outcome(EXAMPLE_OUTPUT[name]))


def images(_program, folder):
    """Tests the library for images with its own source under sanitizers, and by valgrind."""
    built = library(folder)
    if built is None:
        return
    sources = [os.path.join(TOP, "bindings", "c", name) for name in ("gcflip_images.c", "images_adapter.c", "images_told.c", "images_texts.c", "images_tests.c")]
    programs_of_images = ("images.c", "explanations.c", "flipped_bits.c", "adapters.c", "self_tests.c")
    for name, more in [*((name, sources) for name in programs_of_images), ("refused_images.c", []), ("epochs.c", [])]:
        if usable(folder, "gcflip_images.c with sanitizers", ["gcc", *SANITIZERS]):
            path, why = built.build(["gcc", *SANITIZERS], name, [*more, *built.archive()])
            yield "%s, the source with sanitizers" % name, why or difference(done([path]), Outcome())
        if has_valgrind(name):
            path, why = built.build(["gcc"], name, built.archive())
            yield "%s by valgrind" % name, why or difference(done([*VALGRIND, path, "small"]), Outcome())


# The lines of the bits that self_tests.c flips until it reads at the address 2^64 - 8: all bits of four words, and the first one of the fifth.
BITS_UP_TO_THE_CRASH = 4 * 64 + 1


def crash_in_a_self_test(_program, folder):
    """An adapter that compares sums of addresses crashes in the self-test, and the last line says at which bit."""
    built = library(folder)
    if built is None:
        return
    path, why = built.build(["gcc"], "self_tests.c", built.archive())
    found = done([path, "sums"]) if why is None else Outcome()
    lines = found.stdout.decode().splitlines()
    crashed = found.status == -signal.SIGSEGV and len(lines) == BITS_UP_TO_THE_CRASH and lines[-1].startswith("bit 0 of the word at 0x")
    yield "the bit of a crash", why or (None if crashed else "status %s, last of %d lines: %s" % (found.status, len(lines), lines[-1:]))


def objects():
    """Returns the objects of the library that are compiled from C, by their sources, as the rules of bindings/c/Makefile name them."""
    with open(os.path.join(TOP, "bindings", "c", "Makefile"), encoding="utf-8") as file:
        return {source: name for name, source in re.findall(r"(?m)^\$\(OUT\)/(\w+\.o): \$\(HERE\)(\w+\.c) ", file.read())}


def rebuilt(_program, folder):
    """Checks that make compiles an object anew if its source or a header that the source includes has changed."""
    if not shutil.which("make") or not shutil.which("gcc"):
        skip("rebuilt", "no make or no gcc")
        return
    bindings = os.path.join(TOP, "bindings", "c")
    yield "each source is compiled", None if sorted(objects()) == sorted(name for name in os.listdir(bindings) if name.endswith(".c")) else str(objects())
    for source, name in objects().items():
        target = os.path.join(folder, name)
        words = ["make", "-C", bindings, "OUT=" + folder, target]
        read = done(["gcc", "-MM", source], cwd=bindings).stdout.decode().replace("\\\n", " ").split(":")[1].split()
        made = done(words)
        yield "%s is compiled" % name, None if made.status == 0 and source in read else made.stderr.decode() or "it reads %s" % read
        for changed in read:
            planned = done([*words, "-n", "-W", changed]).stdout.decode()
            yield "%s is compiled anew for %s" % (name, changed), None if " -c -o %s " % target in planned else "make would run %r" % planned


def pkg_config(_program, folder):
    built = library(folder)
    if built is None:
        return
    if not shutil.which("pkg-config"):
        skip("pkg_config", "no pkg-config")
        return
    path, why = built.build(["gcc"], "check.c", [*built.flags(), "-Wl,-rpath," + built.lib])
    yield "check.c by the words of pkg-config", why or difference(done([path]), Outcome())
    other = os.path.join(folder, "other")
    built.install(other)
    wanted = ["-I%s/include" % other, "-L%s/lib" % other, "-lgcflip"]
    yield "the words for another folder", None if built.flags(other) == wanted else "they are %s" % built.flags(other)
    loaded = os.path.basename(os.path.realpath(os.path.join(other, "lib", "libgcflip.so")))
    yield "the shared library has a version", None if loaded == "libgcflip.so.1" else "it is %s" % loaded
    built.install(other, "uninstall")
    left = [name for _, _, names in os.walk(other) for name in names]
    yield "nothing is left when it is removed", None if not left else "left: %s" % left


def texts_and_lines():
    """Checks that each pair text gets the line of its verdict, or of its fault."""
    yield from pairs.texts_and_verdicts()
    yield from pairs.refused_texts()
    lines, verdict = pairs.CHECKED["old_addresses_may_fall"]
    text = pairs.text_of(lines)
    for length in range(len(text)):
        yield "cut behind %d bytes" % length, text[:length], pairs.ENDS_EARLY
    yield "not cut", text, verdict
    for name in names_of(".pair"):
        yield "example %s" % name, content(name + ".pair"), content(name + ".verdict").decode().rstrip("\n")
    yield "longest text", b"x" * 67108864, pairs.ENDS_EARLY
    yield "one byte too many", b"x" * 67108865, "pair: too large"


def texts(_program, folder):
    built = library(folder)
    if built is None:
        return
    cases = [(name, file_of(folder, "text %d" % number, text), line) for number, (name, text, line) in enumerate(texts_and_lines())]
    yield "there are examples", None if names_of(".pair") else "no .pair in %s" % EXAMPLES
    for name, c_words, _ in compilers():
        if not usable(folder, name, c_words):
            continue
        path, why = built.build(c_words, "texts.c", built.archive())
        found = done([path, *[file for _, file, _ in cases]]) if why is None else Outcome()
        lines = found.stdout.decode().split("\n")
        yield "texts.c by %s" % name, why or difference(found, Outcome(found.stdout))
        for number, (case, _, line) in enumerate(cases):
            told = lines[number] if number < len(lines) else None
            yield "%s, by texts.c of %s" % (case, name), None if told == line else "%r, wanted %r" % (told, line)


def traces_and_replies():
    """Yields each trace without faults: its name, its bytes, the bytes of its replies."""
    for name, conversation in PLAYED.items():
        yield (name, *trace_and_replies(conversation))
    for name in names_of(".trace"):
        yield "example %s" % name, content(name + ".trace"), content(name + ".replies")


def events(trace):
    """Returns the lines after the first two."""
    return trace.split(b"\n")[2:]


def plays(_program, folder):
    """Checks that a trace gives the program's replies, and that the library's recording is the trace."""
    built = library(folder)
    if built is None:
        return
    record = os.path.join(folder, "record")
    yield "there are traces", None if names_of(".trace") else "no .trace in %s" % EXAMPLES
    for name, c_words, _ in compilers():
        if not usable(folder, name, c_words):
            continue
        path, why = built.build(c_words, "play.c", built.archive())
        for case, trace, replies in traces_and_replies():
            found = done([path, file_of(folder, "trace", trace), record]) if why is None else Outcome()
            why_not = why or difference(found, Outcome(replies))
            yield "%s, by play.c of %s" % (case, name), why_not
            with open(record, "rb") as file:
                recorded = file.read()
            yield "%s, recorded by %s" % (case, name), None if events(recorded) == events(trace) else "recorded %r" % recorded


# The replies to the events that record_work.c records. The second field is written again after its object was scanned.
REPLIES_OF_RECORDED_WORK = (
    b"made\nmade\ndone\nbegun\ncopied\ncopied\nscanned\ndone\nscanned\npassed\nscanned\npassed\napplied\nflipped 2\n"
    b"begun\ncopied\ncopied\nscanned\nscanned\npassed\nscanned\npassed\nflipped 2\nbegun\nno room\ndropped\nbegun\nno room\ndropped\nbegun\ncopied\ndropped\n"
    b"done\ndone\nmade\ndone\ndone\nmade\ndone\ndone\ndone\nmade\nfull\nfull\n"
)


def recorded_work(program, folder):
    """Checks that a recording of `work` plays to the same replies."""
    built = library(folder)
    if built is None:
        return
    record = os.path.join(folder, "record")
    path, why = built.build(["gcc", *SANITIZERS], "record_work.c", built.archive())
    yield "record_work.c", why or difference(done([path, record]), Outcome())
    yield "recorded work is played", difference(run(program, ["play", record]), Outcome(REPLIES_OF_RECORDED_WORK))


# How often record_places.c runs, and what its calls are replied to in the lines of its record.
RUNS_BY_PLACES = 20


def told(trace, replies):
    """Returns the replies to the looks and the flips of a trace."""
    return [reply for event, reply in zip(events(trace), replies.split(b"\n")) if b" look " in event or event == b"c flip"]


def recorded_places(program, folder):
    """Checks that recordings of random calls by places play, and that looks and flips get the replies that the program got."""
    built = library(folder)
    if built is None:
        return
    path, why = built.build(["gcc", *SANITIZERS], "record_places.c", built.archive())
    record = os.path.join(folder, "record")
    given_up = 0
    for seed in range(1, 1 + RUNS_BY_PLACES):
        found = done([path, record, str(seed)]) if why is None else Outcome()
        played = run(program, ["play", record])
        with open(record, "rb") as file:
            trace = file.read()
        replies = told(trace, played.stdout)
        given_up += trace.count(b"\nc drop\n")
        why_not = why or difference(found, Outcome(b"".join(reply + b"\n" for reply in replies)))
        yield "record_places.c %d" % seed, why_not or (None if replies.count(b"saw nil") > 1000 else "%d looks" % len(replies))
    yield "puts that give the collection up are recorded", None if given_up >= 5 else "%d are" % given_up


def not_in_record_ends():
    """Returns the calls that a recording knows and that tests/c/record_ends.c does not make."""
    with open(os.path.join(TOP, "bindings", "c", "gcflip_record.h"), encoding="utf-8") as file:
        known = re.findall(r"(?m)^#define (gcflip_\w+) gcflip_record_\w+$", file.read())
    with open(os.path.join(SOURCES, "record_ends.c"), encoding="utf-8") as file:
        made = re.findall(r"\bREPLIES\((gcflip_\w+)\(", file.read())
    return sorted(set(known) - set(made)) if known else ["any"]


def recording_that_ends(program, folder):
    """Checks that a recording ends at a size that no trace has, at a root that it has not, where it needs spare slots and at an address, says so, and plays up to that place; and
    that then, and without a stream, no call writes anything."""
    missing = not_in_record_ends()
    yield "record_ends.c makes each call that a recording knows", None if not missing else "not %s" % ", ".join(missing)
    built = library(folder)
    if built is None:
        return
    record = os.path.join(folder, "record")
    path, why = built.build(["gcc", *SANITIZERS], "record_ends.c", built.archive())
    said = b"gcflip_record.h: the recording ends here: a trace has no size of 1048577 words\n"
    said += said
    needed = 2 * [b"a number"] + [b"nil", b"a value"] + 4 * [b"bytes"] + 11 * [b"a root of another mutator"] + [b"words", b"numbers"]
    said += b"".join(b"gcflip_record.h: the recording ends here: gcflip_trace_spare gives no slots for %s\n" % purpose for purpose in needed)
    said += 12 * b"gcflip_record.h: the recording ends here: a trace has no root at place 272\n"
    said += 2 * b"gcflip_record.h: the recording ends here: a trace has no reference by the address 1\n"
    yield "record_ends.c", why or difference(done([path, record]), Outcome(stderr=said))
    yield "a recording that ended is played", difference(run(program, ["play", record]), Outcome(b"made\nbegun\ndropped\n"))


# What root_reads.c makes: extra roots beside the 32 slots of one mutator.
EXTRA_ROOTS, ROOT_SLOTS = 65536, 32
ALONG, AT_FLIP, GIVEN_UP, FLIPPED = "0", "1", "0", "1"


def reads_of_roots(folder, words):
    """Runs root_reads.c under valgrind's DHAT, which counts the bytes that are read of each block. Returns how often the program called `work`, and
    the number of words that the collector read of the blocks with the roots: those of the heap, and after a flip the moved ones, too."""
    out = os.path.join(folder, "dhat.out")
    ran = done(["valgrind", "--tool=dhat", "--dhat-out-file=" + out, *words])
    with open(out, encoding="utf-8") as file:
        blocks = [point for point in json.load(file)["pps"] if point["tb"] == 8 * (EXTRA_ROOTS + ROOT_SLOTS)]
    calls, by_commands = [int(number) for number in ran.stdout.split()]
    return calls, sum(point["rb"] for point in blocks) // 8 - by_commands


def root_reads(_program, folder):
    """Counts how often a whole collection reads roots. Searches read an extra root at most four times: where its target has no replica, which the choice of
    the step and the step find, where it gets its twin, and where the checker compares both. They read it once more if a row of looks ended there, as none
    does here. They read a slot at most once for each command that wrote a slot;
    where commands wrote only numbers and nil, at most once altogether. A flip reads each root that it moves, and its checker compares both: the slots alone if it goes along, and otherwise all."""
    built = library(folder)
    if built is None:
        return
    if shutil.which("valgrind") is None:
        skip("reads of roots", "valgrind is missing")
        return
    path, why = built.build(["gcc", "-O1"], "root_reads.c", built.archive())
    yield "root_reads.c", why
    for checking, commands in [(ALONG, []), (ALONG, ["moves"]), (ALONG, ["numbers"]), (AT_FLIP, [])] if why is None else []:
        calls, searched = reads_of_roots(folder, [path, checking, GIVEN_UP, *commands])
        most = 4 * EXTRA_ROOTS + ROOT_SLOTS * (calls if commands == ["moves"] else 1)
        case = "checking %s, %s" % (checking, commands or "no commands")
        yield "reads of roots by searches, %s" % case, None if EXTRA_ROOTS <= searched <= most else "%d reads, at most %d" % (searched, most)
        flipped = reads_of_roots(folder, [path, checking, FLIPPED, *commands])[1] - searched
        wanted = 3 * (ROOT_SLOTS + (EXTRA_ROOTS if checking == AT_FLIP else 0))
        yield "reads of roots by the flip, %s" % case, None if flipped == wanted else "%d reads, wanted %d" % (flipped, wanted)


def long_run(_program, folder):
    """Runs ten million operations in constant memory."""
    built = library(folder)
    if built is None:
        return
    path, why = built.build(["gcc"], "churn.c", built.archive())
    yield "churn of 10000000 operations", why or difference(done([path, "10000000"]), Outcome())


def short_soak(_program, folder):
    """Makes a short run of the program that `tests/long/run soak` runs for long."""
    built = library(folder)
    if built is None:
        return
    if usable(folder, "soak.c with sanitizers", ["gcc", *SANITIZERS]):
        seed = os.environ.get("GCFLIP_SEED") or str(int(time.time()))
        path, why = built.build(["gcc", *SANITIZERS], "soak.c", built.archive())
        found = done([path, "2", seed]) if why is None else Outcome()
        yield "soak.c, seed %s" % seed, why or difference(found, Outcome(found.stdout))
        flips = [int(number) for number in re.findall(rb"(?:flips|images)=(\d+)", found.stdout)]
        yield "soak.c flips, and compares images", None if len(flips) == 2 and min(flips) > 0 else "printed %r" % found.stdout


# Whether the system's kernel has huge pages to ask for.
HAS_HUGE_PAGES = os.path.exists("/sys/kernel/mm/transparent_hugepage")
# The output of each example, with the addresses of the machine replaced by numbers.
EXAMPLE_OUTPUT = {"extra_roots.c": b"pushed 1000\nflipped 1001\nthe last one popped has kind 0\n", "first_check.c": b"yes 1\n",
                  # Of 255 words the error takes 3, and 16 are the reserve, so that 59 cells of 4 words have room.
                  "full_heap.c": b"error 9 after 59 cells\nthe handler allocates: yes\nroom again: yes\n",
                  "first_heap.c": b"mutators go on\nmutators go on\nflipped 1\nsaw 42\n",
                  HUGE_HEAP: b"flipped 100000\nthe sum is 5000050000\nboth spaces ask for huge pages: %s\n" % (b"yes" if HAS_HUGE_PAGES else b"no"),
                  # There are 20 words. Each of the 7 objects has 3 bits of its age, and the string has 3 bytes of padding. A vector is the second
                  # object that the roots reach.
                  "semispace.c": b"yes 7\nspared 21: how many collections an object has survived\nspared 24: padding behind a byte string\n"
                                 b"flipped 1280 bits: refused 1235, explained 45, unexplained 0\nyes 7\nyes 7\nyes 7\nyes 7\nrefused 9 FieldDiffers 1 4\n"
                                 b"  the object 0x#0 (vector, 5 fields) with the replica 0x#1 (vector, 5 fields)\n  field 4\n"
                                 b"  before 0x#2 (pair, 2 fields)\n  after  0x#2: no object starts there\n"
                                 b"  that is still the old address; the replica of the object before is 0x#3 (pair, 2 fields)\n  reached by global 0\n",
                  "shared_heap.c": b"".join(b"mutator %d kept 2000 1999 1998\n" % m for m in range(3)),
                  "weak_handles.c": b"file 4 is closed\nfile 3 is open\n"}


def printed(words):
    """Runs an example, and returns its outcome with numbers for the addresses."""
    found = done(words)
    return Outcome(addresses_numbered(found.stdout), found.stderr, found.status)


def example_programs(_program, folder):
    """The programs of bindings/c/examples print what they should."""
    built = library(folder)
    if built is None:
        return
    for name in sorted(set(os.listdir(EXAMPLE_PROGRAMS)) - {os.path.basename(HUGE_PAGES)}):
        path, why = built.build_example(name)
        yield name, why or difference(printed([path]), Outcome(EXAMPLE_OUTPUT[name]))
        path, why = built.build_example(name, [])
        if has_valgrind(name):
            yield "%s by valgrind" % name, why or difference(printed([*VALGRIND, path]), Outcome(EXAMPLE_OUTPUT[name]))
            if name == "shared_heap.c":
                races = done(["valgrind", "-q", "--tool=helgrind", "--error-exitcode=99", path])
                yield "%s by helgrind" % name, why or difference(races, Outcome(EXAMPLE_OUTPUT[name]))


def image_threads(_program, folder):
    """Checks by helgrind that threads with collections of their own do not race, and that it reports threads with one collection."""
    built = library(folder)
    if built is None:
        return
    path, why = built.build(["gcc", "-g"], "image_threads.c", built.archive())
    yield "image_threads.c", why or difference(done([path]), Outcome())
    if has_valgrind("image_threads.c"):
        races = ["valgrind", "-q", "--tool=helgrind", "--error-exitcode=99", path]
        yield "image_threads.c by helgrind", why or difference(done(races), Outcome())
        status = done([*races, "shared"]).status
        yield "threads with one collection, by helgrind", None if status == 99 else "status %s, wanted 99" % status


def huge_pages(_program, folder):
    """Tests the blocks of the allocator for huge pages, and that spaces on it are touched and given back. A heap without it asks for no huge pages."""
    built = library(folder)
    if built is None:
        return
    linked = [HUGE_PAGES, *built.archive()]
    if usable(folder, "huge_pages.c with sanitizers", ["gcc", *SANITIZERS]):
        path, why = built.build(["gcc", *SANITIZERS], "huge_pages.c", linked)
        yield "huge_pages.c with sanitizers", why or difference(done([path]), Outcome())
    path, why = built.build(["gcc"], "huge_pages.c", linked)
    yield "huge_pages.c", why or difference(done([path, "plain"]), Outcome())
    if has_valgrind("huge_pages.c"):
        yield "huge_pages.c by valgrind", why or difference(done([*VALGRIND, path]), Outcome())
    path, why = built.build(["gcc", "-O1"], "pages.c", linked)
    for part in PARTS_OF_PAGES:
        yield "pages.c with huge_pages.c, %s" % part, why or difference(done([path, part]), Outcome())
    path, why = built.build(["gcc"], os.path.join(EXAMPLE_PROGRAMS, HUGE_HEAP), built.archive())
    yield "%s without its allocator" % HUGE_HEAP, why or difference(done([path]), Outcome(EXAMPLE_OUTPUT[HUGE_HEAP].replace(b"yes", b"no")))


LONG_OBJECTS = os.path.join(TOP, "examples", "long_objects")


def long_objects(_program, folder):
    """The tests of examples/long_objects pass, under sanitizers and by valgrind."""
    built = library(folder)
    if built is None:
        return
    for name in ("chunked", "rope"):
        source, test = [os.path.join(LONG_OBJECTS, name + end) for end in (".c", "_test.c")]
        path, why = built.build(["gcc", *SANITIZERS, "-I" + SOURCES], test, [source, *built.archive()])
        yield "%s with sanitizers" % os.path.basename(test), why or difference(done([path]), Outcome())
        if has_valgrind(name):
            path, why = built.build(["gcc", "-I" + SOURCES], test, [source, *built.archive()])
            yield "%s by valgrind" % os.path.basename(test), why or difference(done([*VALGRIND, path]), Outcome())


def pauses(_program, folder):
    """The pauses of bench/embedding are merged and summed up as by a direct computation."""
    built = library(folder)
    if built is None:
        return
    if usable(folder, "pauses.c with sanitizers", ["gcc", *SANITIZERS]):
        path, why = built.build(["gcc", *SANITIZERS, "-Wno-unused-function"], "pauses.c", [])
        yield "pauses.c", why or difference(done([path]), Outcome())


def large_heaps(_program, folder):
    """Runs the program of large heaps with the library's own allocator, and with one that counts blocks."""
    built = library(folder)
    if built is None:
        return
    for name, words in [("gcc with sanitizers", ["gcc", *SANITIZERS]), ("gcc, counting blocks", ["gcc", "-DCOUNTED"])]:
        if usable(folder, name, words):
            path, why = built.build(words, "large.c", built.archive())
            yield "large.c by %s" % name, why or difference(done([path]), Outcome())


def live_and_far(_program, folder):
    """Makes small runs of the programs with which `tests/long/run large` tests much live data, and live objects at the far end of a heap."""
    built = library(folder)
    if built is None:
        return
    path, why = built.build(["gcc"], "live.c", built.archive())
    found = done([path, "16", "7", "8", "infer"]) if why is None else Outcome()
    yield "live.c", why or difference(found, Outcome(found.stdout))
    path, why = built.build(["gcc"], "far.c", built.archive())
    # Behind word 0 and 2048 blocks of 65536 words there are 100000 cells of 4 words. The address is that of the last one.
    wanted = b"address=%d\n" % (1 + 2048 * 65536 + 4 * 99999)
    yield "far.c", why or difference(done([path, "2048"]), Outcome(wanted))


PARTS_OF_PAGES = ("touch", "slices", "release", "rest")


def pages(_program, folder):
    """Tests that a heap that was touched meets no new page, that old spaces of another size are given back, in slices or at a begin, and that a release gives
    back the pages behind the heap's end."""
    built = library(folder)
    if built is None:
        return
    path, why = built.build(["gcc", "-O1"], "pages.c", built.archive())
    for part in PARTS_OF_PAGES:
        yield "pages.c, %s" % part, why or difference(done([path, part]), Outcome())


# What docs/CALLS.md tells in its table of limits, in the order of the arguments of limits.c.
LIMITS = [r"words of a space \| (\d+),", r"mutators \| (\d+)", r"slots \| (\d+) of each mutator", r"slots \| .* and (\d+) that all share", r"extra roots \| (\d+);",
          r"fields of an object \| (\d+);", r"kinds \| (\d+)", r"numbers \| below 2\^(\d+)", r"bytes of a pair text, of a trace \| (\d+), "]
# The address space of the page's example in KiB, the words of a heap that begins only a smaller collection, with a standing checker and without, and
# the words of that collection.
EXAMPLE = (r"Under `ulimit -v (\d+)`, a heap of (\d+) million words opens\. It cannot begin a collection of its own size, but it can begin one of (\d+) million "
           r"words\. With `GCFLIP_AT_FLIP` a heap of (\d+) million words does the same; with a standing checker it does not open\.")


def limits(_program, folder):
    """Tests the limits of docs/CALLS.md, and its example of little address space."""
    with open(os.path.join(TOP, "docs", "CALLS.md"), encoding="utf-8") as file:
        text = file.read()
    told = [re.search(r"(?m)^\| %s" % pattern, text) for pattern in LIMITS]
    example = re.search(EXAMPLE, " ".join(text.split()))
    yield "docs/CALLS.md tells its limits", None if all(told) and example else "not all of them"
    built = library(folder)
    if built is None or not all(told) or example is None:
        return
    path, why = built.build(["gcc", "-O1"], "limits.c", built.archive())
    yield "limits.c", why or difference(done([path, *[found.group(1) for found in told]]), Outcome())
    space, along, smaller, at_flip = [int(number) for number in example.groups()]
    only_smaller = b"done\nno memory\nbegun\nflipped\n"
    for allocator, sources in [("malloc", []), ("huge_pages.c", [HUGE_PAGES])]:
        path, why = built.build(["gcc", "-O1"], "address_space.c", [*sources, *built.archive()])
        for size, checking, wanted in [(along, 0, only_smaller), (at_flip, 1, only_smaller), (at_flip, 0, b"no memory\n"), (smaller, 0, b"done\nbegun\nbegun\nflipped\n")]:
            words = ["sh", "-c", "ulimit -v %d; exec \"$0\" \"$@\"" % space, path, str(size * 10 ** 6), str(smaller * 10 ** 6), str(checking)]
            case = "%d million words, checking %d, in little address space, by %s" % (size, checking, allocator)
            yield case, why or difference(done(words), Outcome(wanted))


# The most instructions that a useful step may take on average, two for each of 272 roots. A step that looks at each of them takes at least
# six times as many.
MOST_INSTRUCTIONS = 544


def work_remembers(_program, folder):
    """Counts the instructions of useful steps: once all roots have their replicas, a step does not look at them again."""
    built = library(folder)
    if built is None or not has_valgrind("count_work.c"):
        return
    path, why = built.build(["gcc"], "count_work.c", built.archive())
    (few, why_few), (many, why_many) = [instructions(path, [steps], folder) for steps in (2000, 6000)] if why is None else [(0, why)] * 2
    # Each run performs its steps twice: one by one, and all in one call.
    average = (many - few) / 8000
    told = None if 0 < average <= MOST_INSTRUCTIONS else "%.0f on average" % average
    yield "instructions of a useful step", why_few or why_many or told


# How many times the instructions of giving up may be those in a heap of 100,000 words, where the heap has 8,000,000.
MOST_IN_A_LARGE_HEAP = 1.5


def given_up_at_once(_program, folder):
    """Counts the instructions of giving up a collection, and of the first replica after it. They do not grow with the number of replicas: no link
    is cleared, and codes are cleared by blocks of 256 words, when they are next read. Both heaps end with a whole block. Nor does giving up take
    longer in a large heap."""
    built = library(folder)
    if built is None or not has_valgrind("count_give_up.c"):
        return
    path, why = built.build(["gcc"], "count_give_up.c", built.archive())
    for step, told_as in (("give_up", "giving up"), ("roots", "the first replica after giving up")):
        option = "--toggle-collect=gcflip_heap_step_" + step
        counted = [instructions(path, ["pairs", cells], folder, option) for cells in (640, 19200)] if why is None else [(0, why)] * 2
        (few, why_few), (many, why_many) = counted
        told = None if 0 < many <= few + few // 20 else "%d with 640 objects, %d with 19,200" % (few, many)
        yield "instructions of " + told_as, why_few or why_many or told
    option = "--toggle-collect=gcflip_heap_step_give_up"
    counted = [instructions(path, ["raw", words], folder, option) for words in (100000, 8000000)] if why is None else [(0, why)] * 2
    (small, why_small), (large, why_large) = counted
    told = None if 0 < large <= small * MOST_IN_A_LARGE_HEAP else "%d in 100,000 words, %d in 8,000,000" % (small, large)
    yield "instructions of giving up in a large heap", why_small or why_large or told


# The most instructions that a begin of one object may take after a collection of many, as a multiple of those after one of a single object.
MOST_AFTER_MANY = 1.05


def begins_after_many(_program, folder):
    """Counts the instructions of begins of one object. They do not grow with the largest snapshot that the collection ever took, whose tables are
    not cleared slot by slot."""
    built = library(folder)
    if built is None or not has_valgrind("count_begins.c"):
        return
    path, why = built.build(["gcc"], "count_begins.c", built.archive())
    option = "--toggle-collect=begin_small_ones"
    counted = [instructions(path, [objects], folder, option) for objects in (1, 20000)] if why is None else [(0, why)] * 2
    (few, why_few), (many, why_many) = counted
    told = None if 0 < many <= few * MOST_AFTER_MANY else "%d after 1 object, %d after 20,000" % (few, many)
    yield "instructions of a begin after a large one", why_few or why_many or told


GROUPS = [example_programs, image_threads, huge_pages, long_objects, pauses, programs, musl, images, crash_in_a_self_test, large_heaps, live_and_far, pages, limits, work_remembers, given_up_at_once, begins_after_many, rebuilt, pkg_config, texts, plays, recorded_work, recorded_places, recording_that_ends, root_reads,
          long_run, short_soak]
