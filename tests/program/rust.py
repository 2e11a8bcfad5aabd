"""Tests of bindings/rust, the crate over the library, by cargo: its own tests, its lints, its examples, and all pair texts and traces."""
import os
import re
import shutil

from .beside import Beside
from .c_builds import TOP, done, library
from .c_library import texts_and_lines, traces_and_replies
from .examples import names_of
from .harness import Outcome, difference, file_of, skip
from .python import content_of

CRATE = os.path.join(TOP, "bindings", "rust")
SECONDS = 600

# The output of the example programs, as their comments derive it.
EXAMPLE_OUTPUT = {"first_check": b"flip: 1 pairs\n", "first_heap": b"Number(42)\n", "two_threads": b"50005000\n", "typed_roots": b"45\n",
                  "layers": b"Double(-0.5) 100001 Int(7)\nSome(42)\n",
                  "extra_roots": b"pushed 1000\nflipped 1001\nthe last one popped is Object { kind: 0, fields: 0 }\n"}

# The output of the example of the feature `beside`, as its comment derives it.
BESIDE_OUTPUT = b"994995000\n"


class Cargo:
    """Cargo in the crate, with the installed library, and without a registry. It builds in a folder of the tests."""

    def __init__(self, built, folder):
        self.target = os.path.join(folder, "target")
        self.environment = dict(os.environ, GCFLIP_LIB_DIR=built.lib, CARGO_TARGET_DIR=self.target, RUSTDOCFLAGS="-D warnings")

    def run(self, *words, cwd=CRATE, **environment):
        return done(["cargo", words[0], "--offline", "--locked", *words[1:]], timeout=SECONDS, cwd=cwd, env=dict(self.environment, **environment))

    def example(self, name):
        return os.path.join(self.target, "debug", "examples", name)


def prepared(folder):
    """Returns cargo with the library, or None, with a line that says so, if either is missing."""
    if shutil.which("cargo") is None or done(["cargo", "--version"]).status != 0:
        skip("rust", "no cargo")
        return None
    built = library(folder)
    return None if built is None else Cargo(built, folder)


def failed(outcome):
    """Returns why the run failed, or None."""
    return None if outcome.status == 0 else (outcome.stdout + outcome.stderr).decode()


def counted_tests(outcome):
    """Returns the numbers of tests that passed, for each test program."""
    return [int(line.split()[3]) for line in outcome.stdout.decode().split("\n") if line.startswith("test result: ok.")]


def suites(_program, folder):
    """Runs the tests of the crate and of its documents, its lints, and checks its format and the links of its documents."""
    cargo = prepared(folder)
    if cargo is None:
        return
    tested = cargo.run("test")
    counts = counted_tests(tested)
    yield "cargo test", failed(tested)
    # Unit tests, four files of tests, and the documents; examples and the library alone may have none.
    yield "tests of each kind ran", None if len([count for count in counts if count > 0]) >= 6 else "passed: %s" % counts
    yield "a heap is not shared", None if b"heap::Heap" in tested.stdout and b"compile fail ... ok" in tested.stdout else "no such test"
    if done(["cargo", "clippy", "--version"]).status == 0:
        yield "cargo clippy", failed(cargo.run("clippy", "--all-targets", "--", "-D", "warnings"))
    else:
        skip("cargo clippy", "it is missing")
    yield "cargo doc", failed(cargo.run("doc"))
    if done(["cargo", "fmt", "--version"]).status == 0:
        yield "cargo fmt", failed(done(["cargo", "fmt", "--check"], cwd=CRATE))
    else:
        skip("cargo fmt", "it is missing")


def examples(_program, folder):
    """Checks that the example programs print what their comments say."""
    cargo = prepared(folder)
    if cargo is None:
        return
    yield "the examples are built", failed(cargo.run("build", "--examples"))
    for name, wanted in EXAMPLE_OUTPUT.items():
        yield name, difference(done([cargo.example(name)]), Outcome(wanted))
    yield from texts(cargo, folder)
    yield from plays(cargo, folder)


def collectors_thread(_program, folder):
    """Checks the feature `beside`, with both libraries in one folder: its tests, those of its documents, its lints, and its example."""
    cargo = prepared(folder)
    built = library(folder, Beside)
    if cargo is None or built is None:
        return
    yield "the library of the collector's thread is installed", failed(built.made)
    words = ["--features", "beside"]
    tested = cargo.run("test", *words, "--lib", "--test", "beside")
    yield "cargo test --features beside", failed(tested)
    yield "tests of the library and of the feature ran", None if len([count for count in counted_tests(tested) if count > 0]) == 2 else tested.stdout.decode()
    yield "tests of its documents", failed(cargo.run("test", *words, "--doc"))
    if done(["cargo", "clippy", "--version"]).status == 0:
        yield "cargo clippy --features beside", failed(cargo.run("clippy", "--all-targets", *words, "--", "-D", "warnings"))
    else:
        skip("cargo clippy --features beside", "it is missing")
    yield "cargo doc --features beside", failed(cargo.run("doc", *words))
    yield "beside is built", failed(cargo.run("build", *words, "--example", "beside"))
    yield "beside", difference(done([cargo.example("beside")]), Outcome(BESIDE_OUTPUT))


def texts(cargo, folder):
    """Checks that the examples and all other pair texts get their verdicts."""
    cases = [(name, file_of(folder, "text %d" % number, text), line) for number, (name, text, line) in enumerate(texts_and_lines())]
    found = done([cargo.example("check"), *[file for _, file, _ in cases]])
    yield "check.rs", difference(found, Outcome(found.stdout))
    lines = found.stdout.decode().split("\n")
    for number, (case, _, line) in enumerate(cases):
        told = lines[number] if number < len(lines) else None
        yield "%s, by check.rs" % case, None if told == line else "%r, wanted %r" % (told, line)
    yield "there are examples", None if names_of(".pair") else "no .pair"


def plays(cargo, folder):
    """Checks that the examples and all other traces without faults get their replies."""
    cases = [(name, os.path.join(folder, "replies %d" % number), file_of(folder, "trace %d" % number, trace), replies)
             for number, (name, trace, replies) in enumerate(traces_and_replies())]
    found = done([cargo.example("play"), *[path for _, target, source, _ in cases for path in (source, target)]])
    yield "play.rs", difference(found, Outcome())
    for case, target, _, replies in cases:
        yield "%s, by play.rs" % case, None if content_of(target) == replies else "replied %r" % content_of(target)
    yield "there are traces", None if names_of(".trace") else "no .trace"


def linking(_program, folder):
    """Checks that pkg-config finds the library, that the shared library is used without an archive, and that only a program needs one."""
    cargo = prepared(folder)
    if cargo is None:
        return
    installed = os.path.join(folder, "installed", "lib")
    nowhere = {"PKG_CONFIG_PATH": folder, "PKG_CONFIG_LIBDIR": folder}
    del cargo.environment["GCFLIP_LIB_DIR"]
    for words in (["build"], ["check", "--all-targets"], ["doc"]):
        made = cargo.run(*words, **nowhere)
        yield "cargo %s without a library" % words[0], failed(made)
        yield "cargo %s warns" % words[0], None if b"warning: gcflip@0.2.0: libgcflip is not found" in made.stderr else made.stderr.decode()
    missing = cargo.run("build", "--example", "first_heap", **nowhere)
    yield "a program without a library", None if missing.status != 0 and b"-lgcflip" in missing.stderr else missing.stderr.decode()
    documented = cargo.run("doc", DOCS_RS="1", **nowhere)
    yield "cargo doc of docs.rs", failed(documented) or (None if b"warning" not in documented.stderr else documented.stderr.decode())
    if shutil.which("pkg-config"):
        found = cargo.run("run", "-q", "--example", "first_heap", PKG_CONFIG_PATH=os.path.join(installed, "pkgconfig"))
        yield "by pkg-config", difference(found, Outcome(EXAMPLE_OUTPUT["first_heap"]))
    else:
        skip("by pkg-config", "no pkg-config")
    os.remove(os.path.join(installed, "libgcflip.a"))
    found = cargo.run("run", "-q", "--example", "first_heap", GCFLIP_LIB_DIR=installed, LD_LIBRARY_PATH=installed)
    yield "the shared library", difference(found, Outcome(EXAMPLE_OUTPUT["first_heap"]))


def packaged(_program, folder):
    """Checks the crate as cargo packs it, which has neither headers nor an archive: tests that need headers are ignored, and all others pass."""
    cargo = prepared(folder)
    if cargo is None:
        return
    packed = cargo.run("package", "--allow-dirty", "--no-verify")
    yield "cargo package", failed(packed)
    done(["tar", "-xzf", os.path.join(cargo.target, "package", "gcflip-0.2.0.crate"), "-C", folder])
    tested = cargo.run("test", cwd=os.path.join(folder, "gcflip-0.2.0"))
    yield "cargo test of the package", failed(tested)
    ignored = re.findall(r"(?m)^test (.*) \.\.\. ignored, the C headers are not there$", tested.stdout.decode())
    others = re.findall(r"(?m)^test result: ok\. (?!0 passed).* 0 ignored", tested.stdout.decode())
    yield "what it ignores", None if ignored and all(name.startswith("sys::layout::") for name in ignored) else "it is %s" % ignored
    yield "what it runs", None if len(others) >= 5 else tested.stdout.decode()


# A program that uses typed roots, with a place for more lines, and lines that may not compile there, each with the error that it is.
ROOTED = """use gcflip::rooted::{FieldOf, Kind, Root, Rooted};

pub struct Pair;
impl Kind for Pair {
    const KIND: u8 = 1;
    const FIELDS: u16 = 2;
}
pub struct Point;
impl Kind for Point {
    const KIND: u8 = 2;
    const FIELDS: u16 = 3;
}
pub const NUMBER: FieldOf<Pair, u64> = FieldOf::at(0);
pub const NEXT: FieldOf<Pair, Pair> = FieldOf::at(1);
pub const X: FieldOf<Point, u64> = FieldOf::at(0);

pub fn user<'h>(heap: &'h Rooted, other: Rooted) -> gcflip::Result<Root<'h, Pair>> {
    let (pair, point, second) = (heap.make::<Pair>()?, heap.make::<Point>()?, other.make::<Pair>()?);
    pair.put_number(NUMBER, point.get_number(X)?.unwrap_or(1))?;
    pair.put_root(NEXT, &second)?;
    %s
    Ok(pair)
}
"""
REFUSED = {"a root that outlives its heap": ("return Ok(second);", "E0515"), "a heap that is dropped too early": ("drop(other); second.put_nil(NEXT)?;", "E0505"),
           "a field of another kind": ("pair.get_number(X)?;", "E0308"), "a reference of another kind": ("pair.put_root(NEXT, &point)?;", "E0308"),
           "a number in place of a reference": ("pair.put_number(NEXT, 1)?;", "E0308"), "a reference in place of a number": ("pair.get_root(NUMBER)?;", "E0277"),
           "a field that the kind lacks": ("const BEYOND: FieldOf<Pair, u64> = FieldOf::at(2);", "E0080"),
           "a root in another thread": ("std::thread::scope(|scope| { scope.spawn(|| point.get_number(X).is_ok()); });", "E0277")}


def refused_code(_program, folder):
    """Checks that programs with a mistake about typed roots do not compile, each for its own reason, and that the program without one does."""
    cargo = prepared(folder)
    if cargo is None:
        return
    user = os.path.join(folder, "user")
    os.makedirs(os.path.join(user, "src"))
    manifest = "[package]\nname = \"user\"\nversion = \"1.0.0\"\nedition = \"2021\"\n\n[dependencies]\ngcflip = { path = \"%s\" }\n" % CRATE
    file_of(user, "Cargo.toml", manifest.encode())
    for what, (line, error) in {"no mistake": ("", None), **REFUSED}.items():
        file_of(os.path.join(user, "src"), "lib.rs", (ROOTED % line).encode())
        checked = done(["cargo", "check", "--offline"], timeout=SECONDS, cwd=user, env=cargo.environment)
        found = set(re.findall(r"(?m)^error\[(E\d+)\]", checked.stderr.decode()))
        wanted = {error} - {None}
        yield "%s: %s" % (what, error), None if found == wanted and (checked.status == 0) == (not wanted) else checked.stderr.decode()


GROUPS = [suites, examples, collectors_thread, linking, packaged, refused_code]
