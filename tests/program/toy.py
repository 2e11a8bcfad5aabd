"""Tests of examples/toy, the runtime that is handed out to a reader of docs/CERTIFY.md.

It tests 'make check' of the folder: the runtime's own tests, the program with and without the adapter, each of the ten faults, the self-test, and what
is handed out; the runtime, the adapter and the self-test with sanitizers; which fault is drawn, and that it is written nowhere; what hand_out refuses;
and the tables of the README.
"""
import os
import re
import shutil
import sys

from .c_builds import PROVING_SECONDS, SANITIZERS, TOP, done, usable
from .harness import skip

FOLDER = os.path.join(TOP, "examples", "toy")
HAND_OUT = os.path.join(FOLDER, "hand_out")
# The lines that check.sh prints beside those about faults, where all is well.
OF_TOY = ("the runtime's own tests", "the program without an adapter", "the program without a collection",
          "twenty collections and more, with fifty thousand pairs and more", "the self-test", "what is handed out, and the comparison")
# Some of what a reader gets.
HANDED = {"README.txt", "Makefile", "CERTIFY.md", "gcflip_images.h", "libgcflip.a", "collector.o"}


def faults():
    """Returns what each fault is, by its name."""
    with open(os.path.join(FOLDER, "faults.txt"), encoding="utf-8") as file:
        rows = [line.split(" | ") for line in file.read().split("\n") if line and not line.startswith("#")]
    return {row[0]: row[3] for row in rows}


def places(folder):
    """Returns where a library would be installed, and is not, and where the checker's library is built."""
    return os.path.join(folder, "nowhere"), os.path.join(folder, "built")


def made(folder, target, out, *more):
    nowhere, built = places(folder)
    words = ["make", "-s", "-C", FOLDER, target, "PREFIX=" + nowhere, "BUILT=" + built, "OUT=" + os.path.join(folder, out), *more]
    return done(words, timeout=PROVING_SECONDS)


def can_build():
    missing = [tool for tool in ("make", "gcc", "ar") if shutil.which(tool) is None]
    if missing:
        skip("examples/toy", "no %s" % ", ".join(missing))
    return not missing


def checked(folder):
    """Runs 'make check' where no library is installed."""
    ran = made(folder, "check", "out")
    text = (ran.stdout + ran.stderr).decode("utf-8", "replace")
    yield "make check of examples/toy", None if ran.status == 0 else text[-4000:]
    told = re.findall(r"(?m)^ok: (.*)$", text)
    for line in (*OF_TOY, *["fault %s, %s" % each for each in faults().items()]):
        yield "examples/toy: %s" % line, None if line in told else "not told"


def sanitized(folder):
    """Runs the tests, the program and the self-test with sanitizers."""
    if not usable(folder, "examples/toy with sanitizers", ["gcc", *SANITIZERS]):
        return
    out = os.path.join(folder, "sanitized")
    flags = "CFLAGS=-O1 -Wpedantic -Werror " + " ".join(SANITIZERS)
    for target in ("all", os.path.join(out, "tests")):
        ran = made(folder, target, "sanitized", flags)
        yield "examples/toy with sanitizers, %s" % os.path.basename(target), None if ran.status == 0 else ran.stderr.decode("utf-8", "replace")[-2000:]
    ran = done([os.path.join(out, "tests")])
    yield "the toy's tests with sanitizers", None if ran.status == 0 else (ran.stdout + ran.stderr).decode("utf-8", "replace")
    environment = dict(os.environ, CERTIFY_AT="3", CERTIFY_FLIPS="200", ASAN_OPTIONS="detect_leaks=0")
    ran = done([os.path.join(out, "checked")], env=environment)
    told = re.search(rb"(?m)^flipped 200 bits: .*, unexplained 0$", ran.stderr)
    yield "the toy's self-test with sanitizers", None if ran.status == 0 and told else ran.stderr.decode("utf-8", "replace")[-2000:]


def hand_out(*words, **more):
    return done([sys.executable, HAND_OUT, *words], timeout=PROVING_SECONDS, **more)


def refused(why, *words, **more):
    """Returns why hand_out does not refuse these words with status 2 and this line, or None."""
    ran = hand_out(*words, **more)
    return None if ran.status == 2 and why in ran.stderr.decode() and not ran.stdout else "status %s: %s" % (ran.status, ran.stderr.decode())


def handed(target):
    """Returns the content of each file that was handed out, by its name."""
    texts = {}
    for place, _, names in os.walk(target):
        for name in names:
            with open(os.path.join(place, name), "rb") as file:
                texts[name] = file.read()
    return texts


def drawn(folder):
    """Hands the toy out, and compares each name: one is right. The folder has no name of a fault, nor what is not handed out."""
    nowhere, built = places(folder)
    target, libraries = os.path.join(folder, "handed"), ("--prefix", nowhere, "--built", built)
    ran = hand_out(target, *libraries)
    yield "the toy is handed out", None if ran.status == 0 and not ran.stdout else ran.stderr.decode()
    if ran.status != 0:
        return
    outcomes = [(name, hand_out("--compare", target, name)) for name in faults()]
    right = [name for name, outcome in outcomes if outcome.status == 0 and outcome.stdout.decode().startswith("right: %s, " % name)]
    line = "wrong: it was %s, " % (right or [""])[0]
    wrong = [name for name, outcome in outcomes if outcome.status == 1 and outcome.stdout.decode().startswith(line)]
    yield "one of ten is right", None if len(right) == 1 and len(wrong) == 9 else "right: %s, wrong: %s" % (right, wrong)
    texts = handed(target)
    told = [(name, word) for name, text in texts.items() for word in (*faults(), "adapter_kit", "changes.txt") if word.encode() in text]
    yield "no name is handed out", "there is %s" % told if told else None
    yield "what is handed out", None if HANDED <= set(texts) and "adapter.c" not in texts else str(list(texts))
    ran = hand_out(os.path.join(folder, "variable"), "--fault", "record_copied_twice", *libraries)
    found = b"records" in handed(os.path.join(folder, "variable")).get("collector.o", b"records")
    yield "no variable of a fault is handed out", ran.stderr.decode() if ran.status != 0 else "it is" if found else None
    yield "a folder that is there", refused("is there already", target, *libraries)
    nothing, without = os.path.join(folder, "empty"), dict(os.environ, CC="false")
    os.mkdir(nothing)
    yield "no compiler", refused("the collector was not compiled", os.path.join(nothing, "toy"), *libraries, env=without)
    yield "nothing is left without one", "there is %s" % os.listdir(nothing) if os.listdir(nothing) else None
    yield "no folder around it", refused("No such file", os.path.join(nothing, "none", "toy"), *libraries)
    yield "an unknown fault", refused("no fault has the name nothing", os.path.join(folder, "other"), "--fault", "nothing")
    yield "an unknown name", refused("no fault has the name nothing", "--compare", target, "nothing")
    yield "no folder", refused("a folder is missing")
    yield "a folder that was not handed out", refused("No such file", "--compare", folder, "weak_cleared")
    with open(os.path.join(target, "drawn", "seal"), "w", encoding="utf-8") as file:
        file.write("salt\nseal\n0\n")
    yield "a seal of nothing", refused("was sealed with other faults", "--compare", target, "weak_cleared")
    with open(os.path.join(target, "drawn", "seal"), "w", encoding="utf-8") as file:
        file.write("salt\n")
    yield "a seal without a hash", refused("not enough values", "--compare", target, "weak_cleared")


def examples(_program, folder):
    """Makes the toy, and hands it out. The checker's library is built once."""
    if can_build():
        yield from checked(folder)
        yield from sanitized(folder)
        yield from drawn(folder)


def tables(_program, _folder):
    """Checks that there are ten faults, and that the README has each."""
    with open(os.path.join(FOLDER, "README.md"), encoding="utf-8") as file:
        text = file.read()
    found = faults()
    yield "faults of examples/toy", None if len(found) == 10 else "there are %d" % len(found)
    missing = [name for name, what in found.items() if "| `%s` | %s |" % (name, what) not in text]
    yield "table of examples/toy", "it lacks %s" % ", ".join(missing) if missing else None


GROUPS = [examples, tables]
