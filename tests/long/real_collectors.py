"""The part `runtimes` of tests/long: collections of real runtimes, checked, with figures. The runs are larger than those of
tests/program/runtimes.py."""
import glob
import os
import re
import shutil
import subprocess
import sys

from program import runtimes, source_runtimes
from program.c_builds import TOP, done, library

ROUNDS, SIZE = 3, "3000"
# How many bits the self-tests flip.
FLIPS = {"ocaml": "20000", "sanitizers": "2000", "jvm": "400", "scheme48": "300", "erlang": "5000"}
HOUR = 3600


class Result:
    """Figures, what failed, and the number of collections that were checked."""

    def __init__(self):
        self.figures, self.failed, self.collections = [], [], 0

    def add(self, name, value):
        self.figures.append((name, value))

    def require(self, what, holds, text=""):
        if not holds:
            self.failed.append("FAILED %s: %s" % (what, " ".join(text.split())[-300:]))


def numbers(pattern, text):
    """Returns the numbers of the last place where the pattern is found, or zeros."""
    found = re.findall(pattern, text)
    last = found[-1] if found else ("0",) * re.compile(pattern).groups
    return [int(number) for number in (last if isinstance(last, tuple) else (last,))]


def add_self_test(result, name, text):
    """Adds the counts of a self-test and the reasons for which bits were spared. None may be spared without a reason."""
    flipped, refused, explained, unexplained = numbers(r"flipped (\d+) bits: refused (\d+), explained (\d+), unexplained (\d+)", text)
    result.add("%s, bits flipped" % name, flipped)
    result.add("%s, bits refused" % name, refused)
    for count, reason in re.findall(r"(?m)^spared (\d+): (.*)$", text):
        result.add("%s, bits spared" % name, "%s, %s" % (count, reason))
    result.require("%s, the self-test" % name, flipped > 0 and unexplained == 0 and refused + explained == flipped, text)


# ---- OCaml

def compiled(result, out, folder):
    """Compiles the files of OCaml's library by its own compiler, with each minor collection checked, and by the plain one."""
    where = done(["ocamlopt", "-where"]).stdout.decode().strip()
    compilers = {"plain": ["ocamlc.opt"], "checked": [os.path.join(out, "ocamlc.checked")]}
    seconds, told, files = {"plain": 0.0, "checked": 0.0}, [], 0
    for source in sorted(glob.glob(os.path.join(where, "*.ml"))):
        objects = {}
        for name, words in compilers.items():
            place = os.path.join(folder, "compiled", name)
            shutil.rmtree(place, ignore_errors=True)
            os.makedirs(place)
            shutil.copy(source, os.path.join(place, "unit.ml"))
            started = os.times()
            ran = done([*words, "-w", "-a", "-c", "unit.ml"], cwd=place, timeout=HOUR)
            ended = os.times()
            objects[name] = content(os.path.join(place, "unit.cmo")) if ran.status == 0 else None
            if objects["plain"] is None:
                break
            seconds[name] += ended.children_user - started.children_user
            told.append(ran.stderr.decode("utf-8", "replace") if name == "checked" else "")
        if objects["plain"] is not None:
            files += 1
            result.require("ocamlc.checked, %s" % os.path.basename(source), objects["plain"] == objects["checked"], told[-1])
    collections, pairs = (sum(column) for column in zip(*[numbers(r"(\d+) minor collections, (\d+) pairs, none refused", text) for text in told]))
    result.collections += collections
    result.add("OCaml's compiler, files", files)
    result.add("OCaml's compiler, minor collections", collections)
    result.add("OCaml's compiler, pairs", pairs)
    result.add("OCaml's compiler, seconds", "%.1f, and %.1f unchecked" % (seconds["checked"], seconds["plain"]))
    result.require("ocamlc.checked", files >= 20 and collections > files and pairs > 1000000)


def content(path):
    with open(path, "rb") as file:
        return file.read()


def ocaml(result, folder):
    """Runs the programs of examples/ocaml: kinds of pairs, faults, self-tests, AddressSanitizer, valgrind, and the compiler."""
    built = library(folder)
    out = os.path.join(folder, "ocaml")
    result.add("OCaml", runtimes.version_of_ocaml())
    ran = subprocess.run(["make", "-s", "-C", runtimes.OCAML, "check", "PREFIX=" + built.prefix, "OUT=" + out], stdout=subprocess.PIPE,
                         stderr=subprocess.STDOUT, timeout=HOUR)
    text = ran.stdout.decode("utf-8", "replace")
    result.require("make check of examples/ocaml", ran.returncode == 0, text)
    told = re.findall(r"(?m)^ok: (.*)$", text)
    result.require("the cases of examples/ocaml", set(runtimes.OF_OCAML) <= set(told), ", ".join(told))
    result.add("OCaml, cases passed", len(told))
    result.require("valgrind", "by valgrind" in told, "it is missing")
    first = re.search(r"(\d+) minor collections, (\d+) pairs, none refused\n(.*)\n.*\nms: (.*)", text)
    result.require("the collections of program", first is not None, text)
    if first:
        result.collections += int(first.group(1)) + len(re.findall(r"(?m)^a compaction", text[:text.find("ok: fault")]))
        result.add("OCaml, a program, minor collections", first.group(1))
        result.add("OCaml, a program, pairs", first.group(2))
        result.add("OCaml, a program, kinds", first.group(3))
        result.add("OCaml, a program, ms", first.group(4))
    ran = done([os.path.join(out, "program"), "0", "2000", "20", FLIPS["ocaml"]], timeout=HOUR)
    add_self_test(result, "OCaml", ran.stderr.decode("utf-8", "replace"))
    ran = done([os.path.join(out, "program.asan"), "0", "2000", "20", FLIPS["sanitizers"]], timeout=HOUR, env=dict(os.environ, ASAN_OPTIONS="detect_leaks=0"))
    add_self_test(result, "OCaml under AddressSanitizer", ran.stderr.decode("utf-8", "replace"))
    result.require("AddressSanitizer", ran.status == 0, ran.stderr.decode("utf-8", "replace"))
    compiled(result, out, folder)


# ---- the JVM

def collector(result, app, name):
    """Checks three collections of one of HotSpot's collectors, and the faults that App plants."""
    dumps, why = app.dumps(name, SIZE, str(ROUNDS))
    result.require("%s, the program" % name, why is None, why or "")
    pairs, moved, weak, cleared = [], 0, 0, 0
    for turn in range(ROUNDS):
        status, lines = app.certified(dumps, turn)
        result.require("%s, collection %d" % (name, turn), status == 0, "\n".join(lines))
        pairs += numbers(r"^yes (\d+)", lines[0])
        moved += runtimes.number_before("addresses differ", lines)
        weak += runtimes.number_before("weak references", lines)
        cleared += runtimes.number_before("of them null", lines)
        result.collections += status == 0
    result.add("%s, pairs" % name, sum(pairs))
    result.add("%s, addresses that differ" % name, moved)
    result.add("%s, weak references" % name, "%d, %d of them null" % (weak, cleared))
    found = list(runtimes.faults_found(app, name))
    for case, why in found:
        result.require(case, why is None, why or "")
    result.add("%s, faults found" % name, sum(why is None for _, why in found))


def jvm(result, folder):
    app = runtimes.java(folder)
    result.require("App.java", app is not None and app.made.status == 0)
    if app is None:
        return
    result.add("JVM", done(["java", "-version"]).stderr.decode("utf-8", "replace").split("\n")[1])
    for name in filter(runtimes.has_collector, runtimes.COLLECTORS):
        collector(result, app, name)
        dumps, _ = app.dumps(name, "20", "1")
        status, lines = app.certified(dumps, 0, "--self-test", FLIPS["jvm"])
        add_self_test(result, name, "\n".join(lines))
        result.require("%s, classes that are exchanged" % name, status == 0 and runtimes.number_before("classes: spared 0", lines) > 1, "\n".join(lines))
    by_valgrind(result, app)
    under_address_sanitizer(result, app, folder)


def by_valgrind(result, app):
    """Runs certify.py by valgrind. Python then gets each block of memory from malloc. Valgrind reports some uses of its own numbers as
    uninitialised; no report may have a function of the library on its stack."""
    dumps, _ = app.dumps("Serial", "20", "1")
    words = ["valgrind", "--num-callers=40", sys.executable, os.path.join(runtimes.JVM, "certify.py")]
    ran = done([*words, os.path.join(dumps, "0a.hprof"), os.path.join(dumps, "0b.hprof"), "App"], timeout=HOUR,
               env=dict(app.environment, PYTHONMALLOC="malloc"))
    text = ran.stderr.decode("utf-8", "replace")
    pairs = numbers(r"^yes (\d+)", ran.stdout.decode("utf-8", "replace"))[0]
    result.add("JVM by valgrind, pairs", pairs)
    result.require("certify.py by valgrind", ran.status == 0 and pairs > 0 and "ERROR SUMMARY" in text, text)
    result.require("valgrind and the library", "gcflip" not in "".join(line for line in text.split("\n") if re.search(r"(?:at|by) 0x", line)), text)


def under_address_sanitizer(result, app, folder):
    """Runs certify.py over a library whose C parts are built with AddressSanitizer."""
    app.environment, why = runtimes.sanitized(folder, library(folder))
    result.require("the library with AddressSanitizer", why is None, why or "")
    dumps, _ = app.dumps("Serial", SIZE, "1")
    status, lines = app.certified(dumps, 0)
    pairs = numbers(r"^yes (\d+)", lines[0])[0]
    result.add("JVM under AddressSanitizer, pairs", pairs)
    result.require("certify.py under AddressSanitizer", status == 0 and pairs > 0, "\n".join(lines))


# ---- Scheme 48 and Erlang

# What a run prints about its collections: their numbers, and that of the pairs.
COLLECTIONS = {"scheme48": r"(?m)^(\d+) collections, \1 of them checked, (\d+) pairs, none refused\nms: (.*)$",
               "erlang": r"(?m)^([1-9]\d* minor collections and \d+ major ones), (\d+) pairs, none refused; .*\nms: (.*)$"}


def from_source(result, example, name, folder):
    """Runs 'make check' of an example whose runtime is built from its source, with all the faults."""
    built = library(folder)
    runtime = os.path.join(source_runtimes.CACHE, example.name)
    words = ["make", "-s", "-C", example.folder, "check", "PREFIX=" + built.prefix, "OUT=" + os.path.join(folder, example.name), "RUNTIME=" + runtime]
    ran = subprocess.run(words, stdout=subprocess.PIPE, stderr=subprocess.STDOUT, timeout=HOUR, env=dict(os.environ, DRAW="20", FLIPS=FLIPS[example.name]))
    text = ran.stdout.decode("utf-8", "replace")
    result.require("make check of examples/%s" % example.name, ran.returncode == 0, text)
    always, drawn = source_runtimes.rows(example)
    found = re.findall(r"(?m)^ok: fault (\w+), ", text)
    missed = "; ".join(re.findall(r"(?m)^FAILED: fault (?:.*\n)+?(?=ok:|FAILED:)", text)) or "no line tells which"
    result.require("the faults of examples/%s" % example.name, sorted(found) == sorted(row[0] for row in always + drawn), missed)
    first = re.search(COLLECTIONS[example.name], text)
    result.require("the collections of examples/%s" % example.name, first is not None, text)
    if first:
        result.collections += sum(int(number) for number in re.findall(r"\d+", first.group(1)))
        result.add("%s, collections" % name, first.group(1))
        result.add("%s, pairs" % name, first.group(2))
        result.add("%s, ms" % name, first.group(3))
    result.add("%s, faults found" % name, len(found))
    add_self_test(result, name, text)


def run(folder):
    """Runs all of it. Returns whether it passed, the figures, and what failed."""
    result = Result()
    ocaml(result, folder)
    jvm(result, folder)
    done([os.path.join(TOP, "tests", "install_runtimes"), library(folder).prefix], timeout=HOUR)
    from_source(result, source_runtimes.SCHEME48, "Scheme 48", folder)
    from_source(result, source_runtimes.ERLANG, "Erlang", folder)
    return not result.failed, [*result.figures, ("collections", result.collections)], result.failed
