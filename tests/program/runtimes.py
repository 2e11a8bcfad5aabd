"""Tests of the adapters for collectors of real runtimes. A runtime that is missing is skipped, and a line says how many cases that leaves
out.

It tests examples/ocaml, where OCaml 4.13 is: a million pairs and more of its own collector, each kind a thousand times, each planted fault refused at
its place, bits flipped in turn, under AddressSanitizer and by valgrind, and OCaml's compiler with each collection checked. examples/jvm, where a JDK
is: two collections of each of HotSpot's five collectors, with weak references that are cleared and that stay, a flipped bit and a weak reference
cleared too early found in each; one collection and both faults again with the C parts of the library and Python's rows under AddressSanitizer; bits
of each field and length of a dump flipped, and classes exchanged. The examples are made where no library is installed: they build it, or say what is
missing. tests/install installs both where it can; elsewhere a line says how many cases are skipped.
"""
import os
import re
import shutil
import subprocess
import sys
import tempfile

from .c_builds import PROVING_SECONDS, SANITIZERS, TOP, done, library, usable
from .harness import skip

OCAML = os.path.join(TOP, "examples", "ocaml")
JVM = os.path.join(TOP, "examples", "jvm")
# The lines that examples/ocaml/check.sh prints where all is well.
OF_OCAML = (
    "a million pairs and more, thirteen kinds, and two compactions", "fault 1, a bit of a promoted object", "fault 2, a root that the collector misses",
    "fault 3, a remembered field that it misses", "fault 4, a store without the barrier", "fault 5, a bit after a compaction",
    "fault 6, a weak reference that is cleared", "fault 7, a weak pointer that loses its offset",
    "fault 8, a value of a finaliser that it misses", "fault 9, a value of finalise_last that it misses", "the self-test", "under AddressSanitizer", "OCaml's compiler",
)


def version_of_ocaml():
    """Returns the version of OCaml whose compiler can be linked anew, or None."""
    if shutil.which("ocamlopt") is None:
        return None
    where = done(["ocamlopt", "-where"]).stdout.decode().strip()
    linked = os.path.exists(os.path.join(where, "compiler-libs", "ocamlcommon.cmxa"))
    return done(["ocamlopt", "-version"]).stdout.decode().strip() if linked else None


def ocaml(_program, folder):
    """Runs 'make check' of examples/ocaml: OCaml's own collector, with and without faults, and its compiler."""
    version = version_of_ocaml()
    if version is None or not version.startswith("4.13."):
        skip("%d cases of examples/ocaml" % len(OF_OCAML), "OCaml is %s, not 4.13" % (version or "missing"))
        return
    built = library(folder)
    if built is None:
        return
    words = ["make", "-s", "-C", OCAML, "check", "PREFIX=" + built.prefix, "OUT=" + os.path.join(folder, "ocaml")]
    ran = subprocess.run(words, stdout=subprocess.PIPE, stderr=subprocess.STDOUT, timeout=900)
    text = ran.stdout.decode("utf-8", "replace")
    yield "make check of examples/ocaml", None if ran.returncode == 0 else text[-4000:]
    told = re.findall(r"(?m)^ok: (.*)$", text)
    for line in OF_OCAML:
        yield "examples/ocaml: %s" % line, None if line in told else "not told"
    for line in re.findall(r"(?m)^SKIPPED: (.*)$", text):
        skip("a case of examples/ocaml", line)


# What a program needs to read a Makefile, and what it prints for each example if there is nothing else.
TO_READ = ("make", "sh", "mkdir")
COMPILER = ("cc, of the package gcc", "ar, of the package binutils")
# What builds a runtime from its source, beside Debian's keys.
TO_BUILD = ("python3, of the package python3", "cksum, of the package coreutils", "apt-get, of the package apt", "patch, of the package patch",
            "tar, of the package tar")
# A file of OCaml's, which the empty path of the test does not hide: it is missing where OCaml is not installed.
OCAML_FILE = "/usr/lib/ocaml/compiler-libs/ocamlcommon.cmxa"
OF_OCAML_FILE = () if os.path.exists(OCAML_FILE) else (OCAML_FILE + ", of the package ocaml-compiler-libs",)
MISSING = {"certify": COMPILER, "toy": ("python3, of the package python3", *COMPILER),
           "ocaml": ("ocamlopt, of the package ocaml-nox", *OF_OCAML_FILE, *COMPILER),
           "jvm": ("javac, of the package openjdk-17-jdk-headless", "python3, of the package python3", *COMPILER),
           "scheme48": (*TO_BUILD, "gzip, of the package gzip", *COMPILER),
           "erlang": (*TO_BUILD, "xz, of the package xz-utils", "perl, of the package perl", "g++, of the package g++", *COMPILER)}
KEYRING = "/usr/share/keyrings/debian-archive-keyring.gpg"
# The runs of examples/certify.
OF_CERTIFY = ("no bug", "a field that is not forwarded", "an object that is copied twice", "a root that is forgotten", "a replica that is too short")


def made_alone(folder, example, target, **more):
    """Makes a target of an example where no library is installed, with its output in the folder. Returns the outcome."""
    out, built, nowhere = [os.path.join(folder, name) for name in (example, "built", "nowhere")]
    words = [shutil.which("make"), "-C", os.path.join(TOP, "examples", example), target, "PREFIX=" + nowhere, "OUT=" + out, "BUILT=" + built]
    return done(words, timeout=PROVING_SECONDS, **more)


def examples_alone(_program, folder):
    """Makes the examples where no library is installed: they build the checker's library, or say what is missing, before they build anything."""
    missing = [tool for tool in ("make", "gcc", "ar") if not shutil.which(tool)]
    if missing:
        skip("examples where no library is installed", "no %s" % ", ".join(missing))
        return
    ran = made_alone(folder, "certify", "check")
    told = re.findall(r"(?m)^ok: (.*)$", ran.stdout.decode())
    yield "make check of examples/certify", None if ran.status == 0 and told == list(OF_CERTIFY) else ran.stdout.decode() + ran.stderr.decode()
    if version_of_ocaml() is not None:
        ran = made_alone(folder, "ocaml", "all")
        yield "examples/ocaml is built", None if ran.status == 0 else ran.stderr.decode()
    tools = os.path.join(folder, "tools")
    os.mkdir(tools)
    for tool in TO_READ:
        os.symlink(shutil.which(tool), os.path.join(tools, tool))
    for example, signs in MISSING.items():
        less = os.path.join(folder, "less")
        ran = made_alone(less, example, "check", env=dict(os.environ, PATH=tools))
        lines = re.findall(r"(?m)^missing: (.*)$", ran.stdout.decode())
        right = ran.status == 2 and [line for line in lines if not line.startswith(("rt,", KEYRING))] == list(signs) and not os.path.exists(less)
        yield "what examples/%s lacks" % example, None if right else "status %s: %s" % (ran.status, lines)


# HotSpot's collectors.
COLLECTORS = ("Serial", "Parallel", "G1", "Shenandoah", "Z")
# The faults that App plants: how the first line that certify.py prints begins, and other lines.
JVM_FAULTS = {
    "fault": ("refused 9 FieldDiffers ", ("  size of java/util/LinkedList", "  reached by the static field App.victim")),
    "cleared": ("no verdict: a weak reference was cleared, and its target has a replica: referent of java/lang/ref/WeakReference of 0x", ()),
}
# The cases of a collector: two collections, whether it moves objects, whether it clears weak references, and the faults.
OF_COLLECTOR = 4 + len(JVM_FAULTS)


class App:
    """examples/jvm/App.java, compiled, and the library that certify.py calls."""

    def __init__(self, folder, built):
        self.folder = folder
        self.environment = dict(os.environ, GCFLIP_LIBRARY=os.path.join(built.lib, "libgcflip.so"))
        self.made = done(["javac", "-nowarn", "-d", folder, os.path.join(JVM, "App.java")])

    def dumps(self, collector, *words):
        """Runs it. Returns the folder with its dumps, and why there are none, or None."""
        dumps = tempfile.mkdtemp(dir=self.folder)
        size, rounds, *more = words
        ran = done(["java", "-XX:+Use%sGC" % collector, "-Xmx256m", "-cp", self.folder, "App", size, rounds, dumps, *more])
        return dumps, None if ran.status == 0 else ran.stderr.decode("utf-8", "replace")

    def certified(self, dumps, turn, *words):
        """Returns the status and the lines of certify.py about a collection."""
        paths = [os.path.join(dumps, "%d%s.hprof" % (turn, which)) for which in "ab"]
        ran = done([sys.executable, os.path.join(JVM, "certify.py"), *paths, "App", *words], env=self.environment, timeout=3600)
        return ran.status, (ran.stdout + ran.stderr).decode("utf-8", "replace").split("\n")


def java(folder):
    """Returns the app, or None, with a line that says how many cases are skipped."""
    missing = [tool for tool in ("java", "javac") if shutil.which(tool) is None]
    if missing:
        skip("%d cases of examples/jvm" % (OF_COLLECTOR * len(COLLECTORS) + 7), "no %s" % ", ".join(missing))
        return None
    built = library(folder)
    return built and App(folder, built)


def has_collector(collector):
    """Returns whether this JVM has the collector. If not, a line says so."""
    if done(["java", "-XX:+Use%sGC" % collector, "-version"]).status == 0:
        return True
    skip("%d cases of examples/jvm" % OF_COLLECTOR, "this JVM has no %s" % collector)
    return False


def number_before(what, lines):
    """Returns the number before these words in what certify.py printed."""
    found = re.search(r"(\d+) %s" % what, "\n".join(lines))
    return int(found.group(1)) if found else 0


def faults_found(app, collector):
    """Yields a case for each fault that App plants: it is found at its place."""
    for fault, wanted in JVM_FAULTS.items():
        dumps, why = app.dumps(collector, "300", "1", fault)
        status, lines = app.certified(dumps, 0)
        found = status == 1 and lines[0].startswith(wanted[0]) and set(wanted[1]) <= set(lines)
        yield "%s, the fault %s" % (collector, fault), why or (None if found else "\n".join(lines))


def jvm(_program, folder, size="1000", rounds=2):
    """Checks collections of each collector of the JVM, and finds the faults that are planted."""
    app = java(folder)
    if app is None:
        return
    yield "App.java is compiled", None if app.made.status == 0 else app.made.stderr.decode("utf-8", "replace")
    for collector in filter(has_collector, COLLECTORS):
        moved = cleared = 0
        dumps, why = app.dumps(collector, size, str(rounds))
        for turn in range(rounds):
            status, lines = app.certified(dumps, turn)
            pairs = re.fullmatch(r"yes (\d+)", lines[0])
            moved += number_before("addresses differ", lines)
            cleared += number_before("of them null", lines)
            whole = status == 0 and pairs and int(pairs.group(1)) > 5000 and number_before("weak references", lines) > 100
            yield "%s, collection %d" % (collector, turn), why or (None if whole else "\n".join(lines))
        yield "%s moves objects" % collector, None if moved > 1000 else "it moved %d" % moved
        yield "%s clears weak references" % collector, None if cleared > 50 else "it cleared %d" % cleared
        yield from faults_found(app, collector)


def jvm_self_test(_program, folder, flips=200):
    """Flips bits of a dump in turn, and exchanges classes."""
    app = java(folder)
    if app is None:
        return
    dumps, why = app.dumps("Serial", "20", "1")
    status, lines = app.certified(dumps, 0, "--self-test", str(flips))
    told = "flipped %d bits: " % flips in "".join(lines) and "unexplained 0" in "".join(lines) and number_before("classes: spared 0", lines) > 1
    yield "the self-test of examples/jvm", why or (None if status == 0 and told else "\n".join(lines))


# The parts of the library that are C.
C_PARTS = {"allocator.o": "allocator.c", "images.o": "gcflip_images.c", "images_adapter.o": "images_adapter.c", "images_told.o": "images_told.c",
           "images_texts.o": "images_texts.c", "images_tests.o": "images_tests.c"}
# Writes behind a row that Python got from malloc.
BEYOND = "import ctypes; row = (ctypes.c_uint64 * 100)(); ctypes.memset(ctypes.addressof(row), 0, 801)"


def sanitized(folder, built):
    """Builds the shared library with its C parts under AddressSanitizer. Returns the environment in which Python loads it, and why there is none, or
    None. Python then gets each block of memory from malloc, so that a write beyond a row of an image is seen."""
    rest, path = os.path.join(folder, "rest.a"), os.path.join(folder, "libgcflip_sanitized.so")
    shutil.copy(built.archive()[0], rest)
    done(["ar", "d", rest, *C_PARTS])
    sources = [os.path.join(TOP, "bindings", "c", name) for name in C_PARTS.values()]
    words = ["gcc", "-shared", "-fPIC", "-O1", *SANITIZERS, "-o", path, *sources, "-Wl,--whole-archive", rest, "-Wl,--no-whole-archive"]
    linked = done(words)
    preload = done(["gcc", "-print-file-name=libasan.so"]).stdout.decode().strip()
    environment = dict(os.environ, GCFLIP_LIBRARY=path, LD_PRELOAD=preload, PYTHONMALLOC="malloc", ASAN_OPTIONS="detect_leaks=0")
    return environment, None if linked.status == 0 else linked.stderr.decode("utf-8", "replace")


def jvm_sanitized(_program, folder):
    """Runs certify.py over a library whose C parts are built with AddressSanitizer: a collection, and both faults."""
    app = java(folder)
    if app is None:
        return
    built = library(folder)
    if built is None or not usable(folder, "examples/jvm under AddressSanitizer", ["gcc", *SANITIZERS]):
        return
    app.environment, why = sanitized(folder, built)
    yield "the library with AddressSanitizer", why
    if why is not None:
        return
    told = done([sys.executable, "-c", BEYOND], env=app.environment)
    yield "a write beyond a row is seen", None if b"AddressSanitizer" in told.stderr and told.status != 0 else told.stderr.decode("utf-8", "replace")
    dumps, why = app.dumps("Serial", "300", "1")
    status, lines = app.certified(dumps, 0)
    pairs = re.fullmatch(r"yes (\d+)", lines[0])
    yield "examples/jvm under AddressSanitizer", why or (None if status == 0 and pairs and int(pairs.group(1)) > 1000 else "\n".join(lines)[-3000:])
    for case, why in faults_found(app, "Serial"):
        yield "%s, under AddressSanitizer" % case, why


def table_of_readme(_program, _folder):
    """Checks that the table of faults has each fault that is tested."""
    with open(os.path.join(OCAML, "README.md"), encoding="utf-8") as file:
        text = file.read()
    for line in OF_OCAML:
        fault = re.match(r"fault (\d), (.*)", line)
        row = fault and "| %s | %s |" % fault.groups()
        yield "row of %s" % line, None if row is None or row in text else "no row %r" % row


GROUPS = [examples_alone, ocaml, jvm, jvm_self_test, jvm_sanitized, table_of_readme]
