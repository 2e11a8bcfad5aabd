"""Tests of bindings/python and explore: the packages over the shared library, built by their pyproject.toml, with the programs of tests/python.

It tests bindings/python, built by its pyproject.toml, by the programs of tests/python: each call and each exception but FlipRefused, which is proved
never to come; all pair texts and traces; examples/python; the Python code of explore, the page's package; files that are not the library; types, by
mypy in strict mode where it is. What uses a heap is tested with the extension, as a wheel has it, and by ctypes alone.
"""
import os
import re
import shutil
import sys

from .beside import Beside
from .c_builds import TOP, done, library
from .c_library import texts_and_lines, traces_and_replies
from .examples import names_of
from .harness import Outcome, Skipped, difference, file_of, python_with, skip

sys.path.append(os.path.join(TOP, "tools"))

from distribution.extension import NAME, built_extension  # noqa: E402

PACKAGE, PAGE = os.path.join(TOP, "bindings", "python"), os.path.join(TOP, "explore")
# The packages of each project.
PROJECTS = {PACKAGE: ("gcflip",), PAGE: ("gcflip_explore", "gcflip_drawing")}
TESTS = os.path.join(TOP, "tests", "python")
README = os.path.join(PACKAGE, "README.md")
TOUR = os.path.join(TOP, "examples", "python")


def copied(source, target):
    """Copies a folder without what Python makes, and returns the path of the copy."""
    return shutil.copytree(source, target, ignore=shutil.ignore_patterns("__pycache__"))


def built_packages(folder):
    """Returns the folder with the packages as built by their pyproject.toml, and why they could not be built, or None. Without setuptools
    it has their sources."""
    python, target = python_with("setuptools"), os.path.join(folder, "site")
    # The page's package takes the examples from the top of the repository.
    copied(os.path.join(TOP, "examples"), os.path.join(folder, "examples"))
    if python is None:
        skip("the built Python packages", "no setuptools; the sources are tested")
        for project, packages in PROJECTS.items():
            for name in packages:
                copied(os.path.join(project, name), os.path.join(target, name))
        return target, None
    for project in PROJECTS:
        # setuptools writes next to the source.
        source = copied(project, os.path.join(folder, os.path.relpath(project, TOP)))
        made = done([python, "-c", "import setuptools; setuptools.setup()", "build", "--build-lib", target], cwd=source)
        if made.status != 0:
            return target, made.stderr.decode()
    missing = wanted_files() - files_of(target)
    return target, "it lacks %s" % ", ".join(sorted(missing)) if missing else None


def wanted_files():
    """Returns the paths of all files of the packages, with those of the examples, below the folder into which they are installed."""
    examples = {os.path.join("gcflip_explore", "examples", name + ending) for ending in (".trace", ".pair") for name in names_of(ending)}
    return examples.union(*[files_of(project, packages) for project, packages in PROJECTS.items()])


def files_of(folder, packages=("",)):
    """Returns the paths of the files of some packages in a folder, or of all its files, but none that Python makes."""
    return {os.path.relpath(os.path.join(path, name), folder) for package in packages
            for path, _, names in os.walk(os.path.join(folder, package)) for name in names if not path.endswith("__pycache__")}


def with_extension(package, folder, content):
    """Returns a folder with the package and the extension, as a wheel has it."""
    target = copied(package, os.path.join(folder, "extended"))
    file_of(os.path.join(target, "gcflip"), NAME, content)
    return target


def extension():
    """Returns the extension, or None, with a line that says so, if it cannot be built."""
    try:
        return built_extension()
    except OSError as error:
        skip("the extension of the Python package", error.strerror)
        return None


class Python:
    """Python with the package, and with the extension unless `package` names the folder of one without it, and with the shared library."""

    def __init__(self, built, folder, package=None):
        self.package, self.why = (package, None) if package else built_packages(folder)
        content = None if package else extension()
        self.is_extended = content is not None
        path = with_extension(self.package, folder, content) if content else self.package
        # One test of one file reads arrays of NumPy.
        self.python = python_with("numpy") or sys.executable
        self.environment = dict(os.environ, PYTHONPATH=path, PYTHONDONTWRITEBYTECODE="1",
                                GCFLIP_LIBRARY=os.path.join(built.lib, "libgcflip.so"))

    def run(self, *words):
        return done([self.python, *words], env=self.environment)


def prepared(folder):
    """Returns Python with the package, or None, with a line that says so, if the library cannot be built."""
    built = library(folder)
    return None if built is None else Python(built, folder)


# The files of tests: those that use a heap, which are run with the extension and without, those that use none, and the one about the extension.
OF_HEAPS = ["test_heap.py", "test_layers.py", "test_places.py", "test_refs.py", "test_renamed.py", os.path.join(PAGE, "tests", "python", "test_explore.py")]
WITHOUT_HEAPS, OF_EXTENSION = ["test_checker.py", "test_inference.py", "test_images.py"], ["test_quick.py"]


def suites(_program, folder):
    """Runs the package's test files."""
    built = library(folder)
    if built is None:
        return
    python = Python(built, folder)
    yield "the packages are built", python.why
    by_ctypes = Python(built, folder, python.package)
    yield from tested(by_ctypes, [*WITHOUT_HEAPS, *OF_HEAPS], " by ctypes")
    if not python.is_extended:
        return
    yield from tested(python, [*OF_HEAPS, *OF_EXTENSION], "")
    broken = Python(built, folder, with_extension(python.package, os.path.join(folder, "broken"), b"no library"))
    for what, wanted, way in (("with the extension", b"True", python), ("without it", b"False", by_ctypes), ("with one that cannot be loaded", b"False", broken)):
        found = way.run("-c", "import gcflip.quick; print(gcflip.quick.HAS_EXTENSION, gcflip.Heap(9).mutator(0).look(0))")
        yield "the package %s" % what, difference(found, Outcome(wanted + b" None\n"))


def collectors_thread(_program, folder):
    """Runs the tests of the heap whose collector has a thread of its own, with the library that they need."""
    python, built = prepared(folder), library(folder, Beside)
    if python is None or built is None:
        return
    python.environment["GCFLIP_BESIDE_LIBRARY"] = os.path.join(built.lib, "libgcflip_beside.so")
    yield from tested(python, ["test_beside.py"], "")


def documents(_program, folder):
    """Runs the sessions of the package's README."""
    python = prepared(folder)
    if python is None:
        return
    shown = python.run("-m", "doctest", "-v", README)
    last = shown.stdout.decode().strip().split("\n")[-1]
    yield "what README shows", None if shown.status == 0 and last == "Test passed." else shown.stdout.decode()


def tested(python, files, way):
    """Runs files of tests."""
    for name in files:
        found = python.run(os.path.join(TESTS, name), "-v")
        told = found.stderr.decode()
        reasons = re.findall(r"(?m) \.\.\. skipped (['\"])(.*)\1$", told)
        for _, why in reasons:
            skip("a test of %s" % os.path.basename(name), why)
        ends = "\nOK (skipped=%d)\n" % len(reasons) if reasons else "\nOK\n"
        yield os.path.basename(name) + way, None if found.status == 0 and told.endswith(ends) else told


def texts(_program, folder):
    """Checks that the examples and all other pair texts get their verdicts."""
    python = prepared(folder)
    if python is None:
        return
    cases = [(name, file_of(folder, "text %d" % number, text), line) for number, (name, text, line) in enumerate(texts_and_lines())]
    found = python.run(os.path.join(TESTS, "texts.py"), *[file for _, file, _ in cases])
    yield "texts.py", difference(found, Outcome(found.stdout))
    lines = found.stdout.decode().split("\n")
    for number, (case, _, line) in enumerate(cases):
        told = lines[number] if number < len(lines) else None
        yield "%s, by texts.py" % case, None if told == line else "%r, wanted %r" % (told, line)
    yield "there are examples", None if names_of(".pair") else "no .pair"


def plays(_program, folder):
    """Checks that the examples and all other traces without faults get their replies."""
    python = prepared(folder)
    if python is None:
        return
    cases = [(name, os.path.join(folder, "replies %d" % number), file_of(folder, "trace %d" % number, trace), replies)
             for number, (name, trace, replies) in enumerate(traces_and_replies())]
    found = python.run(os.path.join(TESTS, "play.py"), *[path for _, target, source, _ in cases for path in (source, target)])
    yield "play.py", difference(found, Outcome())
    for case, target, _, replies in cases:
        yield "%s, by play.py" % case, None if content_of(target) == replies else "replied %r" % content_of(target)
    yield "there are examples", None if names_of(".trace") else "no .trace"


def tour(_program, folder):
    """Checks that examples/python prints its railway.output, which its README derives."""
    python = prepared(folder)
    if python is None:
        return
    wanted = content_of(os.path.join(TOUR, "railway.output"))
    yield "railway.py", difference(python.run(os.path.join(TOUR, "railway.py")), Outcome(wanted))


def content_of(path):
    """Returns the bytes of a file, or None if it does not exist."""
    if not os.path.exists(path):
        return None
    with open(path, "rb") as file:
        return file.read()


def not_found(_program, folder):
    """Checks that the package is imported without a library, and that the first call then says in one line which file is missing or wrong."""
    for name, (path, part) in wrong_libraries(folder).items():
        environment = dict(os.environ, PYTHONPATH=PACKAGE, PYTHONDONTWRITEBYTECODE="1", GCFLIP_LIBRARY=path)
        found = done([sys.executable, "-c", "import gcflip\nprint('imported')\ngcflip.library_version()"], env=environment)
        said = found.stderr.decode().strip().split("\n")[-1]
        right = found.stdout == b"imported\n" and said.startswith("OSError: ") and path in said and part in said and "set GCFLIP_LIBRARY" in said
        yield name, None if right else said


def wrong_libraries(folder):
    """Returns the path of each sort of file that is not the library, by a name, with a part of the message about it."""
    text, other, older = file_of(folder, "text.so", b"hello\n" * 1000), os.path.join(folder, "other.so"), os.path.join(folder, "older.so")
    calls = "".join("int gcflip_%s(void) { return %d; }\n" % (name, 9999 if name == "version" else 0)
                    for name in ("version", "pace_due", "check", "check_text", "infer", "path"))
    for path, source in ((other, "int nothing;\n"), (older, calls)):
        done(["gcc", "-shared", "-fPIC", "-o", path, file_of(folder, "source.c", source.encode())])
    return {"no shared library": (os.path.join(folder, "nothing.so"), "No such file"), "a text in place of the library": (text, "invalid ELF header"),
            "another library": (other, "is not the library of this package"), "a library of another version": (older, "has version 0.99, and this package needs 0.2")}


def types(_program, folder):
    """Checks by mypy, in strict mode, the modules that a program imports, and a program that uses them: it accepts all but the lines that are
    marked as wrong, and complains about each of these."""
    if shutil.which("mypy") is None:
        yield "types of the package", Skipped("there is no mypy on the path")
        return
    words = ["mypy", "--strict", "--follow-imports=silent", "--no-error-summary", "--cache-dir", os.path.join(folder, "cache")]
    modules = sorted(os.path.join(PACKAGE, "gcflip", name) for name in os.listdir(os.path.join(PACKAGE, "gcflip")) if name.endswith(".py"))
    found = done([*words, *modules], cwd=PACKAGE)
    yield "types of the package", None if found.status == 0 else found.stdout.decode()
    yield "the package says that it has types", None if os.path.exists(os.path.join(PACKAGE, "gcflip", "py.typed")) else "there is no py.typed"
    program = os.path.join(TESTS, "typed.py")
    with open(program, encoding="utf-8") as file:
        wrong = {number for number, line in enumerate(file, 1) if line.endswith("# wrong\n")}
    found = done([*words, program], env=dict(os.environ, MYPYPATH=PACKAGE))
    refused = {int(number) for number in re.findall(r"typed\.py:(\d+): error", found.stdout.decode())}
    yield "types of a program", None if refused == wrong and wrong else "refused %s, wanted %s: %s" % (refused, wrong, found.stdout.decode())


GROUPS = [suites, collectors_thread, documents, texts, plays, tour, not_found, types]
