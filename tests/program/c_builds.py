"""Builds programs over the libraries for C and C++, for the tests that need them.

bindings/c builds and installs the library. If a compiler or a sanitizer is missing, that way of building is skipped, and a
line says so.
"""
import os
import re
import shutil
import subprocess

from .harness import Outcome, file_of, skip

TOP = os.path.join(os.path.dirname(os.path.abspath(__file__)), "..", "..")
SOURCES = os.path.join(TOP, "tests", "c")
EXAMPLE_PROGRAMS = os.path.join(TOP, "bindings", "c", "examples")
# The allocator among the examples, and the program that is linked with it.
HUGE_PAGES, HUGE_HEAP = os.path.join(EXAMPLE_PROGRAMS, "huge_pages.c"), "huge_heap.c"
SECONDS = 600
# Libraries that have changed are proved first.
PROVING_SECONDS = 3600
WARNINGS = ["-Wall", "-Wextra", "-Wpedantic", "-Werror"]
SANITIZERS = ["-g", "-fsanitize=address,undefined", "-fno-sanitize-recover=all"]
# Runs a program, and ends it with status 99 if it reads what was never written, or loses a block. Its threads take turns.
VALGRIND = ["valgrind", "-q", "--error-exitcode=99", "--leak-check=full", "--fair-sched=try"]
THREAD_SANITIZER = ["-fsanitize=thread", "-g"]
# ThreadSanitizer sees a call of memcpy in the archive, and not the archive's atomic steps by which the mutator was handed over before.
HANDED_OVER = b"race:^gcflip_beside_\n"
# In glibc a wait until a time signals by itself, without the lock, which Helgrind calls dubious.
TIMED_WAITS = b"{\n   timed_waits\n   Helgrind:Misc\n   ...\n   fun:__pthread_cond_wait_common\n   fun:pthread_cond_timedwait*\n   ...\n}\n"


def done(words, timeout=SECONDS, **more):
    """Runs a command, and returns its outcome. Ends it after `timeout` seconds; the outcome's status then says so."""
    try:
        ran = subprocess.run(words, stdout=subprocess.PIPE, stderr=subprocess.PIPE, timeout=timeout, **more)
    except subprocess.TimeoutExpired as late:
        return Outcome(late.stdout or b"", late.stderr or b"", "no end after %d seconds" % timeout)
    return Outcome(ran.stdout, ran.stderr, ran.returncode)


def toolchain_clang():
    """Returns the command for the toolchain's clang, with gcc's headers, which it lacks. None if either is missing."""
    rt, gcc = shutil.which("rt"), shutil.which("gcc")
    if not rt or not gcc:
        return None
    tools = os.path.join(os.path.dirname(os.path.dirname(os.path.realpath(rt))), "toolchain", "bin")
    clang, linker = [os.path.join(tools, name) for name in ("clang", "ld.lld")]
    headers = done([gcc, "-print-file-name=include"]).stdout.decode().strip()
    return [clang, "--ld-path=" + linker, "-isystem", headers] if os.path.exists(clang) else None


def compilers():
    """Yields the ways to build a program: a name, the command for C, and the command for C++."""
    clang = toolchain_clang()
    yield "gcc", ["gcc"], ["g++"]
    yield "gcc with sanitizers", ["gcc", *SANITIZERS], ["g++", *SANITIZERS]
    if clang:
        yield "the toolchain's clang", clang, [*clang, "--driver-mode=g++"]
    else:
        skip("the toolchain's clang", "it is missing")


def example_sources(name):
    """Returns the sources of an example, which are compiled before the archive."""
    return [os.path.join(EXAMPLE_PROGRAMS, name), *([HUGE_PAGES] if name == HUGE_HEAP else [])]


class Library:
    """The library as bindings/c installs it."""

    def __init__(self, folder):
        self.folder = folder
        self.prefix = os.path.join(folder, "installed")
        self.lib = os.path.join(self.prefix, "lib")
        self.made = self.install(self.prefix)

    def install(self, prefix, target="install"):
        """Builds the library, and installs it there; or removes it, if that is the target."""
        words = ["make", "-C", os.path.join(TOP, "bindings", "c"), target, "PREFIX=" + prefix]
        return done([*words, "OUT=" + os.path.join(self.folder, "out")], timeout=PROVING_SECONDS)

    def flags(self, prefix=None):
        """Returns what pkg-config says about it."""
        environment = dict(os.environ, PKG_CONFIG_PATH=os.path.join(prefix or self.prefix, "lib", "pkgconfig"))
        return done(["pkg-config", "--cflags", "--libs", "gcflip"], env=environment).stdout.decode().split()

    def build(self, compiler, source, linked):
        """Returns the path of the program, and why it was not built, or None."""
        program = os.path.join(self.folder, "program")
        # herbpond.hpp is for C++17, and the other headers for C++11 too.
        standard = "-std=gnu11" if source.endswith(".c") else "-std=c++17" if "herbpond" in source else "-std=c++11"
        words = [*compiler, standard, "-O2", "-pthread", *WARNINGS, "-I" + os.path.join(self.prefix, "include")]
        built = done([*words, "-o", program, os.path.join(SOURCES, source), *linked])
        return program, None if built.status == 0 else "not built: %s" % built.stderr.decode()

    def build_example(self, name, sanitizers=SANITIZERS):
        """Returns the path of a program of bindings/c/examples, and why it was not built, or None."""
        program = os.path.join(self.folder, "example")
        words = ["gcc", "-std=c99", "-pthread", *WARNINGS, *sanitizers, "-I" + os.path.join(self.prefix, "include"), "-o", program]
        built = done([*words, *example_sources(name), *self.archive()])
        return program, None if built.status == 0 else "not built: %s" % built.stderr.decode()

    def archive(self):
        return [os.path.join(self.lib, "libgcflip.a")]

    def shared(self):
        return ["-L" + self.lib, "-Wl,-rpath," + self.lib, "-lgcflip"]


def library(folder, kind=Library):
    """Returns the installed library of this kind, or None, with a line that says so, if nothing can be built."""
    missing = [tool for tool in ("make", "gcc", "g++", "ar") if not shutil.which(tool)]
    if missing:
        skip("the libraries for C", "no %s" % ", ".join(missing))
        return None
    return kind(folder)


def usable(folder, name, compiler):
    """Returns whether programs built in this way run. If they do not, a line says so."""
    if not shutil.which(compiler[0]):
        skip(name, "no %s" % compiler[0])
        return False
    source = file_of(folder, "nothing.c", b"int main(void) { return 0; }\n")
    program = os.path.join(folder, "nothing")
    built = done([*compiler, "-o", program, source])
    if built.status == 0 and done([program]).status == 0:
        return True
    skip(name, "it builds no program that runs")
    return False


def built_examples(folder, name, sources):
    """Yields each way of building an example over the library, by gcc and with sanitizers: the path of its program, and why it was not built, or None."""
    built = library(folder)
    if built is None:
        return
    for way, compiler in [("gcc", ["gcc"]), ("gcc with sanitizers", ["gcc", *SANITIZERS])]:
        if usable(folder, "%s by %s" % (name, way), compiler):
            path = os.path.join(folder, "%s by %s" % (name, way))
            made = done([*compiler, "-std=c11", "-O2", *WARNINGS, "-I" + os.path.join(built.prefix, "include"), "-o", path, *sources, *built.archive()])
            yield way, path, None if made.status == 0 else "not built: %s" % made.stderr.decode()


def has_valgrind(what):
    """Returns whether valgrind is there. If not, a line says so."""
    if shutil.which("valgrind") is None:
        skip("%s by valgrind" % what, "it is missing")
        return False
    return True


def helgrind(folder):
    """Returns the words that run a program with a collector's thread by Helgrind. Its status is 9 if there is a race."""
    suppressions = "--suppressions=" + file_of(folder, "timed_waits", TIMED_WAITS)
    return ["valgrind", "-q", "--tool=helgrind", "--history-level=none", suppressions, "--error-exitcode=9"]


def thread_sanitizer_options(folder):
    """Returns the environment of a program with a collector's thread that is built with ThreadSanitizer."""
    return dict(os.environ, TSAN_OPTIONS="suppressions=" + file_of(folder, "handed_over", HANDED_OVER))


def instructions(path, arguments, folder, *options):
    """Returns how many instructions the program executes with these arguments, and why that is not known, or None. Options of callgrind say
    which of them count."""
    counted = os.path.join(folder, "counted")
    found = done(["valgrind", "--tool=callgrind", "--callgrind-out-file=" + counted, *options, path, *[str(word) for word in arguments]])
    if found.status != 0:
        return 0, "status %s: %s" % (found.status, found.stderr.decode("utf-8", "replace"))
    with open(counted, encoding="utf-8") as file:
        return int(re.search(r"(?m)^(?:summary|totals): (\d+)", file.read()).group(1)), None
