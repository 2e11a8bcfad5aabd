"""Tests of a release: tools/dist packs the program and the library as they are now. Each package is installed into an empty folder or root, runs
the first programs from there, is upgraded and removed again.

It tests what tools/dist packs: checksums, the same bytes if it packs again, lintian; each package installed into an empty folder or root, with first
programs by pkg-config, CMake, pip and cargo, an upgrade, and nothing left after its removal; completions by the shells that are there; links of the
packed documents. It reports what it skips for lack of a tool.
"""
import hashlib
import os
import re
import resource
import shutil
import subprocess
import sys
import tarfile
import tempfile
import time

from .c_builds import TOP, done, library
from .harness import Skipped, python_with
from prover.axioms import PACKED, kept

sys.path.append(os.path.join(TOP, "tools"))

from distribution import trees  # noqa: E402
from distribution.links import linked, links_in  # noqa: E402

TOOL = os.path.join(TOP, "tools", "dist")
# A user waits at most so long for the first run from a package.
SECONDS = 10
# A try of a package, and of what is built with it, ends after so many seconds.
SECONDS_OF_A_RUN = 600
# The most bytes of a file that a tried program, and its compiler, may write.
MOST_OUTPUT = 1 << 28
FIRST_HEAP = b"mutators go on\nmutators go on\nflipped 1\nsaw 42\n"
# The sum of the trees of examples/beside, as tests/program/beside.py has it, and that of its twin in Rust, whose comment derives it.
BESIDE_IN_C, BESIDE_IN_RUST = b"trees: 2000, sum of the last ones: 16117760\n", b"994995000\n"
# A list of 1,000 cells of a number and the next cell is made anew 50 times. A list takes 4,000 words, and the heap has 8,192, so it fills up. The sum is that
# of 0 to 999.
BESIDE_IN_PYTHON = """
from gcflip import Full
from gcflip.beside import Mutator

def make():
    while True:
        try:
            return mutator.new(1, 1, 2)
        except Full:
            mutator.collect()

mutator, total = Mutator(8192), 0
for turn in range(50):
    mutator.set_nil(0)
    for number in range(1000):
        make()
        mutator.set_number(2, number)
        mutator.put(1, 0, 2)
        mutator.put(1, 1, 0)
        mutator.copy(0, 1)
        mutator.safepoint()
while mutator.look(0) is not None:
    total += mutator.get(2, 0, 0)
    mutator.get(0, 0, 1)
print(total, mutator.counts().flips > 0)
"""
CMAKE = """cmake_minimum_required(VERSION 3.10)
project(first C)
find_package(gcflip 0.2 REQUIRED)
add_executable(first first_heap.c)
target_link_libraries(first gcflip::gcflip)
add_executable(first_static first_heap.c)
target_link_libraries(first_static gcflip::archive)
add_executable(beside main.c)
target_link_libraries(beside gcflip::beside)
add_executable(beside_static main.c)
target_link_libraries(beside_static gcflip::beside_archive)
"""


def packed(program, folder, name="dist"):
    """Returns the folder with a release, and why there is none, or None."""
    built = library(folder)
    if built is None:
        return None, Skipped("there is no library")
    made = built.install(built.prefix, "install-beside")
    if made.status != 0:
        return None, made.stderr.decode()
    out = os.path.join(folder, name)
    ran = done([sys.executable, TOOL, "-o", out, "--program", program, "--libraries", built.lib])
    return out, None if ran.status == 0 else ran.stderr.decode()


def only(folder, ending):
    """Returns the path of the one file of a folder with this ending."""
    found, = [os.path.join(folder, name) for name in os.listdir(folder) if name.endswith(ending)]
    return found


def version():
    """Returns the version, as the header says it."""
    with open(os.path.join(TOP, "bindings", "c", "gcflip_answers.h"), encoding="utf-8") as file:
        return re.search(r"#define GCFLIP_VERSION_TEXT \"([\d.]+)\"", file.read()).group(1)


def within(limit, began, why):
    """Returns why a first run is wrong, or that it took too long."""
    took = time.monotonic() - began
    return why or (None if took < limit else "it took %.1f seconds" % took)


def printed(words, wanted, **more):
    """Runs a command, and returns why it does not print what is wanted, or None."""
    with tempfile.TemporaryFile() as out:
        # A program that prints without end is stopped by the limit.
        limit = lambda: resource.setrlimit(resource.RLIMIT_FSIZE, (MOST_OUTPUT, MOST_OUTPUT))  # noqa: E731
        try:
            ran = subprocess.run(words, stdout=out, stderr=subprocess.PIPE, timeout=SECONDS_OF_A_RUN, preexec_fn=limit, **more)
        except subprocess.TimeoutExpired:
            return "no end after %d seconds" % SECONDS_OF_A_RUN
        out.seek(0)
        found = out.read(1000)
    return None if ran.returncode == 0 and found == wanted else "status %s, printed %r, %r" % (ran.returncode, found[:300], ran.stderr[-600:])


def beside_in_c(documents, folder, environment):
    """Builds and runs examples/beside of a package by pkg-config, and returns why it does not print its sum first, or None."""
    line = "set -o pipefail; cc -std=c99 %s/examples/beside/main.c $(pkg-config --cflags --libs gcflip_beside) -o %s/beside && %s/beside 2000 | sed -n 1p"
    return printed(["bash", "-c", line % (documents, folder, folder)], BESIDE_IN_C, env=environment)


def files_below(folder):
    return {os.path.relpath(os.path.join(path, name), folder) for path, _, names in os.walk(folder) for name in names}


def release(program, folder):
    """Checks that a release has its files, that their checksums are right, that packing twice gives the same bytes, and what is inside."""
    out, why = packed(program, folder)
    yield "a release is packed", why
    if why:
        return
    with open(os.path.join(out, "SHA256SUMS"), encoding="ascii") as file:
        sums = dict(line.split()[::-1] for line in file)
    found = {name: hashlib.sha256(open(os.path.join(out, name), "rb").read()).hexdigest() for name in os.listdir(out) if name != "SHA256SUMS"}
    yield "checksums", None if sums == found and len(found) == 5 else "they are %s" % found
    with tarfile.open(only(out, ".tar.gz")) as tar:
        trust = tar.extractfile("herbpond-%s-linux-x86_64/share/doc/herbpond/TRUST.md" % version()).read().decode()
    for product in PACKED:
        verdict = trust.partition("## %s\n" % product)[2].partition("\n## ")[0]
        if os.path.exists(kept(product)):
            yield "the verdict of %s in TRUST.md" % product, None if "logic=proved " in verdict and "axioms=" in verdict else "it is %r" % verdict
        else:
            yield "the verdict of %s in TRUST.md" % product, Skipped("no verdict was kept: 'make dist' and CI keep it")
    again, _ = packed(program, folder, "again")
    differ = [name for name in found if open(os.path.join(out, name), "rb").read() != open(os.path.join(again, name), "rb").read()]
    yield "packed again, the bytes are the same", None if not differ else ", ".join(differ)
    if shutil.which("lintian"):
        said = done(["lintian", "--allow-root", only(out, ".deb")]).stdout.decode()
        yield "lintian", None if "E: " not in said else said
    else:
        yield "lintian", Skipped("there is no lintian on the path")


def archive(program, folder):
    """Runs the first programs from the archive in an empty folder: the program, and C by pkg-config and by CMake."""
    out, why = packed(program, folder)
    if why:
        yield "the archive", why
        return
    began, place = time.monotonic(), os.path.join(folder, "empty")
    os.makedirs(place)
    done(["tar", "-xzf", only(out, ".tar.gz"), "-C", place])
    prefix = os.path.join(place, os.listdir(place)[0])
    examples = os.path.join(prefix, "share", "doc", "herbpond", "examples")
    why = printed([os.path.join(prefix, "bin", "gcflip"), "check", os.path.join(examples, "garbage_left_behind.pair")], b"yes 1\n")
    yield "the program of the archive", within(SECONDS, began, why)
    began, environment = time.monotonic(), dict(os.environ, PKG_CONFIG_PATH=os.path.join(prefix, "lib", "pkgconfig"), LD_LIBRARY_PATH=os.path.join(prefix, "lib"))
    line = "cc -std=c11 %s/first_heap.c $(pkg-config --cflags --libs gcflip) -o %s/first && %s/first" % (examples, folder, folder)
    yield "C by pkg-config", within(SECONDS, began, printed(["bash", "-c", line], FIRST_HEAP, env=environment))
    found = re.search(r"(?m)^    (gcc \S+ step1\.c \S+ \S+libgcflip\.a -o /tmp/step && /tmp/step)$", trees.read("docs/TUTORIAL.md").decode())
    yield "the tutorial's line for a release", printed(["bash", "-c", found.group(1).replace("/tmp", folder)], b"42\n", cwd=os.path.join(examples, "tutorial")) if found else "there is none"
    with open(os.path.join(os.path.dirname(examples), "README.md"), encoding="utf-8") as file:
        shown = file.read()
    yield "where README has the program", None if "$ bin/gcflip play" in shown and "crates/gcflip" not in shown else "it is elsewhere"
    began = time.monotonic()
    yield "a collector's thread in C by pkg-config", within(SECONDS, began, beside_in_c(os.path.dirname(examples), folder, environment))
    thread = os.path.join(os.path.dirname(examples), trees.THREAD_SOURCE)
    made = done(["cc", "-std=c99", "-pthread", "-c", "-I" + os.path.join(prefix, "include"), "-o", os.path.join(folder, "thread.o"), thread])
    yield "the source of the thread is compiled", None if made.status == 0 else made.stderr.decode()
    if shutil.which("cmake") is None:
        yield "C by CMake", Skipped("there is no cmake on the path")
        return
    began, source = time.monotonic(), os.path.join(folder, "cmake")
    os.makedirs(source)
    for name in ("first_heap.c", os.path.join("beside", "main.c")):
        shutil.copy(os.path.join(examples, name), source)
    with open(os.path.join(source, "CMakeLists.txt"), "w", encoding="ascii") as file:
        file.write(CMAKE)
    line = "cmake -B build -DCMAKE_PREFIX_PATH=%s > log && cmake --build build > log && build/first && build/first_static" % prefix
    yield "C by CMake", within(SECONDS, began, printed(["bash", "-c", line], 2 * FIRST_HEAP, cwd=source))
    line = "set -o pipefail; for name in beside beside_static; do build/$name 2000 | sed -n 1p; done"
    yield "a collector's thread in C by CMake", printed(["bash", "-c", line], 2 * BESIDE_IN_C, cwd=source)
    found = printed(["bash", "-c", "cmake -B other -DCMAKE_PREFIX_PATH=%s 2>&1 | grep -c 'version: 0.2.0'" % prefix], b"1\n",
                    cwd=with_version(source, "0.3"))
    yield "CMake refuses another version", found


def with_version(source, version):
    """Makes the project of CMake ask for another version."""
    path = os.path.join(source, "CMakeLists.txt")
    with open(path, encoding="ascii") as file:
        text = file.read()
    with open(path, "w", encoding="ascii") as file:
        file.write(text.replace("gcflip 0.2 ", "gcflip %s " % version))
    return source


def wheel(program, folder):
    """Installs the wheels by pip without a network, uses them, installs one again, and removes both."""
    out, why = packed(program, folder)
    if why:
        yield "the wheel", why
        return
    site = os.path.join(folder, "venv")
    # A virtual environment has pip from this module.
    found = python_with("ensurepip")
    if found is None:
        yield "the wheel", Skipped("no Python here makes a virtual environment")
        return
    made = done([found, "-m", "venv", site])
    if made.status != 0:
        yield "a virtual environment", made.stderr.decode()
        return
    before = files_below(site)
    python = os.path.join(site, "bin", "python")
    pip = [python, "-m", "pip", "--disable-pip-version-check", "--quiet"]
    named = ("GCFLIP_LIBRARY", "GCFLIP_BESIDE_LIBRARY", "LD_LIBRARY_PATH", "PYTHONPATH")
    environment = {name: value for name, value in os.environ.items() if name not in named}
    environment.update(PYTHONDONTWRITEBYTECODE="1")
    began = time.monotonic()
    install, own, page = [*pip, "install", "--no-index", "--no-compile"], only(out, "linux_x86_64.whl"), only(out, "any.whl")
    alone = done([*install, page], env=environment, cwd=folder)
    yield "the page needs gcflip", None if alone.status != 0 and b"gcflip==" + version().encode() in alone.stderr else alone.stderr.decode()
    yield "pip install", within(SECONDS, began, printed([*install, own], b"", env=environment, cwd=folder))
    code = "import gcflip; print(gcflip.library_version()); heap = gcflip.Heap(4096); heap.mutator(0).new(0, 1, 2); print(heap.work(100).pairs)"
    began = time.monotonic()
    yield "Python from the wheel", within(SECONDS, began, printed([python, "-c", code], b"0.2.0\n1\n", env=environment, cwd=folder))
    began = time.monotonic()
    why = printed([python, "-c", BESIDE_IN_PYTHON], b"499500 True\n", env=environment, cwd=folder)
    yield "a collector's thread from the wheel", within(SECONDS, began, why)
    code = "import sys, gcflip.quick; print(gcflip.quick.HAS_EXTENSION == (sys.version_info >= (3, 10)))"
    yield "the extension of the wheel", printed([python, "-c", code], b"True\n", env=environment, cwd=folder)
    without = done([python, "-m", "gcflip.explore", "--no-browser"], env=environment, cwd=folder)
    yield "the wheel of gcflip lacks the page, and says so", None if without.status == 1 and b"python3 -m gcflip_explore" in without.stderr else without.stderr.decode()
    yield "pip install of the page", printed([*install, page], b"", env=environment, cwd=folder)
    for command, told in (("gcflip_explore", ""), ("gcflip.explore", "explore: the command is now 'python3 -m gcflip_explore'\n")):
        began = time.monotonic()
        yield "the page by python -m %s" % command, within(SECONDS, began, why_no_page([python, "-m", command, "--no-browser"], told, env=environment, cwd=folder))
    yield "an upgrade", printed([*install, "--force-reinstall", own], b"", env=environment, cwd=folder)
    done([*pip, "uninstall", "--yes", "gcflip", "gcflip-explore"], env=environment, cwd=folder)
    left = files_below(site) - before
    yield "nothing is left of the wheels", None if not left else "left: %s" % sorted(left)[:5]


def why_no_page(words, told, **more):
    """Starts the server of the page, and returns why it prints no address, or tells something else on standard error, or None."""
    server = subprocess.Popen(words, stdout=subprocess.PIPE, stderr=subprocess.PIPE, text=True, **more)
    said = server.stdout.readline()
    server.terminate()
    _, complained = server.communicate()
    return None if "http://127.0.0.1:" in said and complained == told else "%r, %r" % (said, complained)


def deb(program, folder):
    """Installs the Debian package into an empty root, runs its program, installs it again, and removes it."""
    out, why = packed(program, folder)
    if why or shutil.which("dpkg") is None or os.geteuid() != 0:
        yield "the Debian package", why or Skipped("there is no dpkg, or this is not the superuser")
        return
    told = done(["dpkg-deb", "-I", only(out, ".deb"), "shlibs"]).stdout
    yield "the package tells of its shared libraries", None if told == b"libgcflip 1 herbpond\nlibgcflip_beside 1 herbpond\n" else "it says %r" % told
    root = os.path.join(folder, "root")
    for name in ("info", "updates"):
        os.makedirs(os.path.join(root, "var", "lib", "dpkg", name))
    open(os.path.join(root, "var", "lib", "dpkg", "status"), "w").close()
    words = ["dpkg", "--root=" + root, "--force-depends", "--force-script-chrootless", "--log=/dev/null"]
    began = time.monotonic()
    installed = done([*words, "-i", only(out, ".deb")])
    yield "dpkg -i", within(SECONDS, began, None if installed.status == 0 else installed.stderr.decode())
    usr = os.path.join(root, "usr")
    pair = os.path.join(usr, "share", "doc", "herbpond", "examples", "garbage_left_behind.pair")
    yield "the program of the package", printed([os.path.join(usr, "bin", "gcflip"), "check", pair], b"yes 1\n")
    environment = dict(os.environ, PKG_CONFIG_PATH=os.path.join(usr, "lib", "x86_64-linux-gnu", "pkgconfig"), LD_LIBRARY_PATH=os.path.join(usr, "lib", "x86_64-linux-gnu"))
    line = "cc -std=c11 %s/first_heap.c $(pkg-config --cflags --libs gcflip) -o %s/first && %s/first" % (os.path.dirname(pair), folder, folder)
    yield "C with the package", printed(["bash", "-c", line], FIRST_HEAP, env=environment)
    documents = os.path.dirname(os.path.dirname(pair))
    yield "a collector's thread in C with the package", beside_in_c(documents, folder, environment)
    again = done([*words, "-i", only(out, ".deb")])
    yield "an upgrade of the package", None if again.status == 0 else again.stderr.decode()
    removed = done([*words, "-P", "herbpond"])
    left = files_below(usr) if os.path.exists(usr) else set()
    yield "nothing is left of the package", None if removed.status == 0 and not left else "left: %s, %s" % (sorted(left)[:5], removed.stderr.decode())


def crate(program, folder):
    """Uses the crate, unpacked into an empty folder, where no library is installed: an example and all its tests. With the feature `system` it links the
    library of the archive, and none if that is not there."""
    out, why = packed(program, folder)
    if why or shutil.which("cargo") is None:
        yield "the crate", why or Skipped("there is no cargo on the path")
        return
    for ending in (".tar.gz", ".crate"):
        done(["tar", "-xzf", only(out, ending), "-C", folder])
    source, installed = only(folder, "gcflip-0.2.0"), os.path.join(only(folder, "linux-x86_64"), "lib")
    environment = {name: value for name, value in os.environ.items() if name not in ("GCFLIP_LIB_DIR", "PKG_CONFIG_PATH", "CARGO_TARGET_DIR")}
    environment.update(PKG_CONFIG_LIBDIR=folder)
    run = ["cargo", "run", "--quiet", "--offline", "--locked", "--example", "first_heap"]
    began = time.monotonic()
    yield "Rust's example", within(3 * SECONDS, began, printed(run, b"Number(42)\n", cwd=source, env=environment))
    began, beside = time.monotonic(), ["cargo", "run", "--quiet", "--offline", "--locked", "--features", "beside", "--example", "beside"]
    yield "Rust's example of a collector's thread", within(3 * SECONDS, began, printed(beside, BESIDE_IN_RUST, cwd=source, env=environment))
    tested = done(["cargo", "test", "--offline", "--locked"], timeout=600, cwd=source, env=environment)
    ran = re.findall(r"(?m)^test result: ok\. (\d+) passed; 0 failed; (\d+) ignored", tested.stdout.decode())
    yield "the crate's own tests", None if tested.status == 0 and len([1 for passed, _ in ran if passed != "0"]) >= 6 else tested.stderr.decode()[-1000:]
    yield "none of them is ignored", None if {ignored for _, ignored in ran} == {"0"} else "they are %s" % ran
    system = [*run, "--features", "system"]
    alone = done(system, timeout=600, cwd=source, env=environment)
    yield "no installed library, with the feature", None if alone.status != 0 and b"-lgcflip" in alone.stderr else alone.stderr.decode()[-1000:]
    found = printed(system, b"Number(42)\n", cwd=source, env=dict(environment, PKG_CONFIG_PATH=os.path.join(installed, "pkgconfig")))
    yield "the installed library, with the feature", found if shutil.which("pkg-config") else Skipped("there is no pkg-config on the path")


COMPLETE_IN_BASH = """source %s
COMP_WORDS=("$@"); COMP_CWORD=$(( $# - 1 )); _gcflip; printf '%%s\\n' "${COMPREPLY[@]}"
"""


def completions(program, folder):
    """Completes words in the shells that are there. The commands are those of the program's help."""
    place = os.path.join(TOP, "tools", "distribution")
    helped = done([program, "--help"]).stdout.decode()
    commands = sorted(re.findall(r"(?m)^  (\w+) +[A-Z]", helped.partition("Commands:")[2].partition("Options:")[0]))
    yield "the help names the commands", None if len(commands) == 6 else "they are %s" % commands
    for name in ("a file.trace", "another.trace"):
        open(os.path.join(folder, name), "w").close()
    script = os.path.join(folder, "complete")
    with open(script, "w", encoding="ascii") as file:
        file.write(COMPLETE_IN_BASH % os.path.join(place, "gcflip.bash"))
    inner = [name for name in commands if name != "help"]
    cases = [([""], sorted([*commands, "--help"])), (["p"], ["pair", "play"]), (["help", ""], inner), (["play", "a"], ["a file.trace", "another.trace"]),
             (["check", "--"], ["--help"]), (["pair", "a", ""], [""]), (["nothing", ""], [""])]
    for words, wanted in cases:
        found = sorted(done(["bash", script, "gcflip", *words], cwd=folder).stdout.decode().rstrip("\n").split("\n"))
        yield "bash completes %s" % words, None if found == wanted else "it gives %s" % found
    with open(os.path.join(place, "_gcflip"), encoding="ascii") as file:
        named = sorted(re.findall(r"(?m)^        '(\w+):", file.read()))
    yield "zsh completes the commands", None if named == commands else "it has %s" % named
    if shutil.which("zsh"):
        yield "zsh reads its file", None if done(["zsh", "-n", os.path.join(place, "_gcflip")]).status == 0 else "it does not"
    else:
        yield "zsh reads its file", Skipped("there is no zsh on the path")
    if not shutil.which("fish"):
        yield "fish completes", Skipped("there is no fish on the path")
        return
    for words, wanted in [("", commands), ("p", ["pair", "play"]), ("help ", inner), ("play a", ["a file.trace", "another.trace"])]:
        line = "source %s; complete -C'gcflip %s'" % (os.path.join(place, "gcflip.fish"), words)
        found = sorted(word.partition("\t")[0] for word in done(["fish", "--no-config", "-c", line], cwd=folder).stdout.decode().rstrip("\n").split("\n"))
        yield "fish completes %r" % words, None if found == wanted else "it gives %s" % found


def versions(_program, _folder):
    """Checks that the templates of a release have no version of their own."""
    folder = os.path.join(TOP, "tools", "distribution")
    for name in ("gcflip.1", "gcflip-config-version.cmake"):
        with open(os.path.join(folder, name), encoding="ascii") as file:
            text = file.read()
        yield "the version in %s" % name, None if "@VERSION@" in text and not re.search(r"\d+\.\d+\.\d+", text) else "it is written there"


# Links of docs/ONE.md, and what a package makes of them that has this page at doc/ONE.md, docs/TWO.md at doc/TWO.md, and a header at include/a.h.
PLACES = {"docs/ONE.md": "doc/ONE.md", "docs/TWO.md": "doc/TWO.md", "a.h": "include/a.h"}
LINKS = [("[two](TWO.md#part) and [one](#part)", "[two](TWO.md#part) and [one](#part)"), ("[it](../a.h)", "[it](../include/a.h)"), ("[it](../b.h)", "it"),
         ("x ([it](../b.h#c)). y", "x. y"), ("x ([it](../a.h)). y", "x ([it](../include/a.h)). y"), ("x ([it](../b.h), z)", "x (it, z)"), ("x ([it](http://b))", "x ([it](http://b))"),
         ("![a picture](a.svg)", "a picture"), ("[page](https://a.org/b)", "[page](https://a.org/b)"), ("```c\nf[i](x)\n```", "```c\nf[i](x)\n```")]


def links(_program, _folder):
    """Checks that each link of a document in a package leads to a file or a folder of the package."""
    packed = trees.described("share/doc/herbpond")
    there = set(packed) | {os.path.dirname(path) for path in packed}
    documents = {path: leaf.data.decode() for path, leaf in packed.items() if path.endswith(".md")}
    for path, text in documents.items():
        broken = [target for target in links_in(text) if os.path.normpath(os.path.join(os.path.dirname(path), target)) not in there]
        yield "links of %s" % path, ", ".join(broken) or None
    for source, path in trees.places("share/doc/herbpond").items():
        if path in documents:
            yield "pictures of %s" % path, None if trees.read(source).count(b"![") == documents[path].count("![") else "some are lost"
    linking = [path for path, text in documents.items() if list(links_in(text))]
    yield "documents with links", None if "share/doc/herbpond/README.md" in linking and len(linking) > 4 else "they are %s" % linking
    alone = {"the wheel": trees.readme(trees.PYTHON), "the crate": trees.crate_sources()["README.md"].data}
    for name, text in alone.items():
        yield "links of the README of %s" % name, ", ".join(links_in(text.decode())) or None
    for text, wanted in LINKS:
        found = linked(text, "docs/ONE.md", PLACES)
        yield "the link %s" % text, None if found == wanted else "it becomes %s" % found


GROUPS = [release, archive, wheel, deb, crate, completions, versions, links]
