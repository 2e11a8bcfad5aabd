"""Plays random commands, steps and calls by C, Rust, Python and the program, and compares all that they show with the model of heap_model.

The seed is printed. `tests/run --only random --seed N` repeats a run. `tests/long` makes many rounds.

It tests random commands, steps and calls by C, Rust, Python and the program, compared with tests/program/heap_model.py, a model that is written from
the documents: replies, counts, logs, images, recordings, reports and pairs. It prints its seed; --seed N repeats a run.
"""
import os
import random
import re
import subprocess
import sys
import time

from .c_builds import SANITIZERS, SOURCES, WARNINGS, done, library
from .harness import Outcome, difference, file_of, run
from .python import TESTS, Python, content_of
from .random_calls import COLLECTS_ON, FRAMES, LOOSE, MOVES, PACED, PLACES, RAWS, RESERVES, TEXTS, VECTORS, random_calls, traces_of
from .rust import failed, prepared

STARTED = int(time.time())
# How many lists of calls each part plays in a round, and how long one is at least.
LISTS, CALLS = 12, 1500
SECONDS = 300


def seed():
    """Returns the seed of this run: the time at which it started, unless one is given."""
    return int(os.environ.get("GCFLIP_SEED") or STARTED)


def rounds():
    return int(os.environ.get("GCFLIP_ROUNDS") or 1)


def lists(part, *more):
    """Yields the lists of calls of a part, each with its name. Prints the seed and, at the end, how many calls there were. `more` are groups of calls
    that not every driver has."""
    print("random: %s, seed %d" % (part, seed()), flush=True)
    count = 0
    for number in range(LISTS * rounds()):
        calls = random_calls(random.Random("%d %s %d" % (seed(), part, number)), CALLS, {name: weight for group in more for name, weight in group.items()})
        count += len(calls.calls)
        yield "%s %d of seed %d" % (part, number, seed()), calls
    print("random: %s, %d calls" % (part, count), flush=True)


def first_difference(calls, printed, wanted):
    """Returns the first call whose line differs, or None."""
    for number, (call, line) in enumerate(zip(calls, wanted)):
        found = printed[number] if number < len(printed) else None
        if found != line:
            return "call %d, %s: %.300r, wanted %.300r" % (number, call[:80], found, line)
    return None if len(printed) == len(wanted) else "%d lines, wanted %d" % (len(printed), len(wanted))


def wanted_by_c(calls):
    """Returns the lines that the program in C prints: gcflip_heap_get and gcflip_get say of an object only that they saw one."""
    return ["saw obj" if call.startswith(("get ", "place_get ")) and re.match("saw (obj|raw) ", line) else line for call, line in zip(calls.calls, calls.printed)]


def played(words, calls, wanted, **more):
    """Runs a driver on the calls, and returns why it does not print what it should, or None."""
    text = "".join(call + "\n" for call in calls.calls).encode()
    found = subprocess.run(words, input=text, stdout=subprocess.PIPE, stderr=subprocess.PIPE, timeout=SECONDS, **more)
    if found.returncode != 0:
        return "status %s: %s" % (found.returncode, found.stderr.decode("utf-8", "replace")[-600:])
    return first_difference(calls.calls, found.stdout.decode().splitlines(), wanted)


def built_driver(built, name, flags):
    """Builds tests/c/random_calls.c with sanitizers, and returns the program and why it was not built, or None."""
    program = os.path.join(built.folder, name)
    words = ["gcc", "-std=gnu11", "-O1", *WARNINGS, *SANITIZERS, *flags, "-I" + os.path.join(built.prefix, "include"), "-o", program]
    made = done([*words, os.path.join(SOURCES, "random_calls.c"), *built.archive()])
    return program, None if made.status == 0 else "not built: %s" % made.stderr.decode()


def c_calls(_program, folder):
    """The calls in C give the model's replies, counts, logs and images, and leave all other outputs alone."""
    built = library(folder)
    if built is None:
        return
    driver, why = built_driver(built, "plain", [])
    for name, calls in lists("C", PACED, RESERVES, LOOSE, FRAMES, PLACES, TEXTS, VECTORS, RAWS, MOVES):
        yield name, why or played([driver], calls, wanted_by_c(calls))


def recordings(program, folder):
    """A recording is the model's trace, and the program gives it the model's replies."""
    built = library(folder)
    if built is None:
        return
    driver, why = built_driver(built, "recording", ["-DRECORD"])
    record = os.path.join(folder, "record")
    for name, calls in lists("recorded", PACED, RESERVES):
        yield name, why or played([driver, record], calls, wanted_by_c(calls))
        recorded = (content_of(record) or b"").decode().splitlines()
        yield "the recording of %s" % name, first_difference(calls.trace, recorded, calls.trace)
        for number, (lines, replies) in enumerate(traces_of(calls)):
            text = "".join(line + "\n" for line in lines).encode()
            found = run(program, ["play", file_of(folder, "trace", text)])
            yield "%s, trace %d is played" % (name, number), difference(found, Outcome("".join(reply + "\n" for reply in replies).encode()))


def wanted_of_errors(calls):
    """Returns the lines of a binding with errors, which have no report: what `reserve` or `collect` has done before one is not told, and each lack of memory
    has one name."""
    names = {"full": "full", "starved": "no memory"}

    def of_error(call, line):
        if call.startswith("reserve "):
            return re.sub("^(full|starved), .*, ", lambda found: "%s, nothing, " % names[found[1]], line)
        return "no memory" if call == "collect" and not line.startswith("done, ") else line

    return [of_error(call, line) for call, line in zip(calls.calls, calls.printed)]


def python_calls(_program, folder):
    """The calls in Python give the model's replies, counts, logs and images."""
    built = library(folder)
    if built is None:
        return
    python = Python(built, folder)
    yield "the Python package is built", python.why
    for name, calls in lists("Python", PACED, RESERVES, LOOSE, FRAMES, PLACES, TEXTS, VECTORS, RAWS, MOVES):
        yield name, played([sys.executable, os.path.join(TESTS, "random_calls.py")], calls, wanted_of_errors(calls), env=python.environment)


def wanted_by_rust(calls):
    """Returns the lines that the example in Rust prints: where no collection is open, the crate's `new_words` says so."""
    return ["idle" if call.startswith("new_words ") and line == "out of range" else line for call, line in zip(calls.calls, wanted_of_errors(calls))]


def rust_calls(_program, folder):
    """The calls in Rust give the model's replies, counts, logs and images, and leave all other outputs alone."""
    cargo = prepared(folder)
    if cargo is None:
        return
    yield "random_calls.rs is built", failed(cargo.run("build", "--example", "random_calls"))
    for name, calls in lists("Rust by all calls", PACED, RESERVES, COLLECTS_ON, LOOSE, FRAMES, PLACES, TEXTS, VECTORS, RAWS, MOVES):
        yield name, played([cargo.example("random_calls")], calls, wanted_by_rust(calls))


def rust_plays(_program, folder):
    """The example program in Rust gives the model's replies to random traces."""
    cargo = prepared(folder)
    if cargo is None:
        return
    yield "play.rs is built", failed(cargo.run("build", "--example", "play"))
    for name, calls in lists("Rust"):
        for number, (lines, replies) in enumerate(traces_of(calls)):
            source, target = file_of(folder, "trace", "".join(line + "\n" for line in lines).encode()), os.path.join(folder, "replies")
            found = done([cargo.example("play"), source, target])
            why = difference(found, Outcome()) or first_difference(lines[2:], (content_of(target) or b"").decode().splitlines(), replies)
            yield "%s, trace %d" % (name, number), why


# ---- the program

def image_text(name, image):
    words, roots, size = image
    lines = ["%s %d %d" % (name, size, len(words)), *map(str, words), "roots %d" % len(roots), *map(str, roots)]
    return "".join(line + "\n" for line in lines)


def pair_text(flip):
    """Returns the text of a flip's pair."""
    old, new, pairs = flip
    lines = ["pairs %d" % len(pairs)] + ["%d %d" % pair for pair in pairs] + ["end"]
    return ("heappair 2\n" + image_text("old", old) + image_text("new", new) + "".join(line + "\n" for line in lines)).encode()


def report_text(model, replies):
    names = ["made", "full", "begun", "copied", "scanned", "applied"]
    flips = [int(reply.split(" ")[1]) for reply in replies if reply.startswith("flipped ")]
    counts = [("events", len(replies))] + [(name, replies.count(name)) for name in names]
    counts += [("flips", len(flips)), ("pairs", sum(flips)), ("dropped", replies.count("dropped")), ("refused", 0)]
    counts += [("end", len(model.space.words)), ("free", model.space.size - len(model.space.words))]
    return "".join("%s %d\n" % count for count in counts).encode()


def plays(program, folder):
    """The program plays and reports random traces as the model does, writes the pairs of their flips, and accepts them."""
    for name, calls in lists("program"):
        for number, ((lines, replies), model) in enumerate(zip(traces_of(calls), calls.models)):
            path = file_of(folder, "trace", "".join(line + "\n" for line in lines).encode())
            case = "%s, trace %d" % (name, number)
            yield "%s is played" % case, difference(run(program, ["play", path]), Outcome("".join(reply + "\n" for reply in replies).encode()))
            yield "%s is reported" % case, difference(run(program, ["report", path]), Outcome(report_text(model, replies)))
            for n, flip in enumerate(model.flips[:3], 1):
                text = pair_text(flip)
                yield "%s, pair %d" % (case, n), difference(run(program, ["pair", path, str(n)]), Outcome(text))
                checked = run(program, ["check", file_of(folder, "pair", text)])
                yield "%s, pair %d is accepted" % (case, n), difference(checked, Outcome(b"yes %d\n" % len(flip[2])))


GROUPS = [c_calls, recordings, python_calls, rust_calls, rust_plays, plays]
