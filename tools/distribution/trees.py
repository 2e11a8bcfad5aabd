"""The files of a release, as trees: each path with its bytes and its mode, or with the file that it links to."""
import os
import re
import subprocess
import tempfile
from typing import NamedTuple

from prover.axioms import PACKED

from .extension import NAME, built_extension
from .links import linked

TOP = os.path.normpath(os.path.join(os.path.dirname(os.path.abspath(__file__)), "..", ".."))
HERE = os.path.dirname(os.path.abspath(__file__))
SHARED, SHARED_BESIDE = "libgcflip.so.1", "libgcflip_beside.so.1"
TRUST = "docs/TRUST.md"
TUTORIAL, BESIDE = "examples/tutorial", "examples/beside"
# Where the program is built, as documents say it, and where it is in an unpacked archive.
BUILT, PACKED_PROGRAM = "crates/gcflip/out/gcflip", "bin/gcflip"
PYTHON, RUST, PAGE = "bindings/python/README.md", "bindings/rust/README.md", "docs/EXPLORE.md"
DOCUMENTS = ["README.md", "CHANGELOG.md", TRUST, "docs/FORMATS.md", "docs/TUTORIAL.md", "docs/EMBEDDING.md", "docs/CALLS.md", "docs/FAQ.md", "docs/CERTIFY.md", "docs/GLOSSARY.md", PAGE, "docs/RATTLE.md", "docs/RELATED.md"]
COMPLETIONS = {"share/bash-completion/completions/gcflip": "gcflip.bash", "share/zsh/site-functions/_gcflip": "_gcflip",
               "share/fish/vendor_completions.d/gcflip.fish": "gcflip.fish"}
HEADERS = ["gcflip_answers.h", "gcflip.h", "gcflip_heap.h", "gcflip_slots.h", "gcflip_images.h", "gcflip_record.h", "gcflip_allocator.h", "herbpond.h", "herbpond_arrays.h",
           "herbpond.hpp"]
# The headers of the heap with a collector's thread, and the source of the thread, which is not proved.
BESIDE_HEADERS, THREAD_SOURCE = ["gcflip_beside.h", "gcflip_thread.h"], "gcflip_thread.c"
ARCHIVES = ("libgcflip.a", "libgcflip_beside.a")
# The headers that the tests of the crate compare it with, and where the crate has the archives.
COMPARED = HEADERS[:4]
FOLDER_OF_CRATE = "lib/x86_64-unknown-linux-gnu"


class Leaf(NamedTuple):
    """A file, or a link if `target` is not empty."""

    data: bytes = b""
    mode: int = 0o644
    target: str = ""


def read(*path):
    with open(os.path.join(TOP, *path), "rb") as file:
        return file.read()


def outside(*path):
    """Returns the bytes of a built file."""
    with open(os.path.join(*path), "rb") as file:
        return file.read()


def version():
    """Returns the version, which the header says; the gate compares the other places with it."""
    return re.search(rb"#define GCFLIP_VERSION_TEXT \"([\d.]+)\"", read("bindings", "c", "gcflip_answers.h")).group(1).decode()


def filled(name, libdir):
    """Returns a template of this folder with the version and the folder of the libraries."""
    with open(os.path.join(HERE, name), "rb") as file:
        return file.read().replace(b"@VERSION@", version().encode()).replace(b"@LIBDIR@", libdir.encode())


def below(folder, wanted=lambda path: True):
    """Yields the files below a folder of the repository, in a fixed order, but none that a build makes."""
    for path, folders, names in os.walk(os.path.join(TOP, folder)):
        folders[:] = sorted(name for name in folders if name not in ("out", "target", "__pycache__"))
        for name in sorted(names):
            found = os.path.relpath(os.path.join(path, name), TOP)
            if wanted(found):
                yield found


def verdicts():
    """Returns what TRUST.md says of this build: the verdicts that it kept."""
    found = [b"# Verdicts of this build\n"]
    for crate in PACKED:
        kept = os.path.join(TOP, "crates", crate, "out", "verdict.txt")
        text = open(kept, "rb").read() if os.path.exists(kept) else b"no verdict was kept\n"
        found.append(b"## %s\n\n```\n%s```\n" % (crate.encode(), text))
    return b"\n" + b"\n".join(found)


def examples():
    """Returns the paths of the examples of a package, and of the page that explains them."""
    return [*below("bindings/c/examples"), "examples/README.md", *below("examples", lambda path: path.endswith((".trace", ".replies", ".pair", ".verdict")))]


def places(documents):
    """Returns the places of documents, pictures, examples and headers in the archive and in the Debian package, by their paths in the repository."""
    found = {path: "%s/%s" % (documents, os.path.basename(path)) for path in DOCUMENTS}
    found.update({path: "%s/pictures/%s" % (documents, os.path.basename(path)) for path in below("docs/pictures")})
    found.update({path: "%s/%s" % (documents, path) for folder in ("examples/pictures", TUTORIAL, BESIDE) for path in below(folder)})
    found.update({path: "%s/examples/%s" % (documents, os.path.basename(path)) for path in examples()})
    found.update({"bindings/c/" + name: "include/" + name for name in HEADERS + BESIDE_HEADERS})
    found["bindings/c/" + THREAD_SOURCE] = "%s/%s" % (documents, THREAD_SOURCE)
    return found


def described(documents):
    """Returns the documents, pictures, examples and headers of the archive and of the Debian package, as a tree."""
    placed = places(documents)
    # A document may link to all examples, and to the steps of the tutorial, by their folder.
    targets = dict(placed, **{folder: "%s/%s" % (documents, folder) for folder in ("examples", TUTORIAL, BESIDE)})
    found = {place: Leaf(read_linked(path, targets) if path.endswith(".md") else read(path)) for path, place in placed.items()}
    found[placed[TRUST]] = Leaf(found[placed[TRUST]].data + verdicts())
    return found


def read_linked(path, targets):
    """Returns a document of the repository with the links that it has in a package, and with the program where a package has it."""
    return linked(read(path).decode().replace(BUILT, PACKED_PROGRAM), path, targets).encode()


def readme(path):
    """Returns a README that stands alone, with no other file of the repository beside it."""
    return read_linked(path, {})


def stripped(path):
    """Returns a program or a shared library without what only a debugger needs."""
    with tempfile.TemporaryDirectory() as folder:
        out = os.path.join(folder, "out")
        subprocess.run(["strip", "--strip-unneeded", "-o", out, path], check=True)
        return outside(out)


def tree(program, libraries, libdir="lib"):
    """Returns the files of the archive and of the Debian package, below their prefix. `libraries` is the folder with the libraries for C."""
    found = {
        "bin/gcflip": Leaf(stripped(program), 0o755),
        **{"%s/%s" % (libdir, name): Leaf(outside(libraries, name)) for name in ARCHIVES},
        **{"%s/%s" % (libdir, name): Leaf(stripped(os.path.join(libraries, name)), 0o644) for name in (SHARED, SHARED_BESIDE)},
        **{"%s/%s" % (libdir, name.rpartition(".")[0]): Leaf(target=name) for name in (SHARED, SHARED_BESIDE)},
        **{"%s/pkgconfig/%s.pc" % (libdir, name): Leaf(package_file(name, libdir)) for name in ("gcflip", "gcflip_beside")},
        libdir + "/cmake/gcflip/gcflip-config.cmake": Leaf(filled("gcflip-config.cmake", libdir)),
        libdir + "/cmake/gcflip/gcflip-config-version.cmake": Leaf(filled("gcflip-config-version.cmake", libdir)),
        "share/man/man1/gcflip.1": Leaf(filled("gcflip.1", libdir)),
    }
    found.update({path: Leaf(filled(name, libdir)) for path, name in COMPLETIONS.items()})
    found.update(described("share/doc/herbpond"))
    return found


def package_file(name, libdir):
    """Returns the file of a library for pkg-config. It finds its prefix by its own place, so that the folder may be moved."""
    up = "/".join([".."] * (libdir.count("/") + 2))
    text = read("bindings", "c", name + ".pc.in").decode().replace("@PREFIX@", "${pcfiledir}/" + up).replace("@VERSION@", version())
    return text.replace("libdir=${prefix}/lib", "libdir=${prefix}/" + libdir).encode()


def packages(folder, *names):
    """Returns the files of some packages of a folder."""
    return {os.path.relpath(path, folder): Leaf(read(path)) for name in names for path in below("%s/%s" % (folder, name))}


def wheel_tree(libraries):
    """Returns the files of the wheel of gcflip, without its own descriptions."""
    found = {"gcflip/" + name.rpartition(".")[0]: Leaf(stripped(os.path.join(libraries, name)), 0o755) for name in (SHARED, SHARED_BESIDE)}
    found["gcflip/" + NAME] = Leaf(built_extension(), 0o755)
    return {**found, **packages("bindings/python", "gcflip")}


def page_tree():
    """Returns the files of the wheel of the page, with copies of the examples."""
    found = packages("explore", "gcflip_explore", "gcflip_drawing")
    for path in below("examples", lambda path: path.count("/") == 1 and path.endswith((".trace", ".pair", "README.md"))):
        found["gcflip_explore/examples/" + os.path.basename(path)] = Leaf(read(path))
    return found


def crate_sources():
    """Returns the files of the crate without the archives. Its tests compare it with the headers in `c`."""
    found = {os.path.relpath(path, "bindings/rust"): Leaf(readme(path) if path == RUST else read(path)) for path in below("bindings/rust")}
    return {**found, **{"c/" + name: Leaf(read("bindings", "c", name)) for name in COMPARED}}


def crate_tree(libraries):
    """Returns the files of the crate, which links the archives that it brings where no other library is named."""
    return {**crate_sources(), **{"%s/%s" % (FOLDER_OF_CRATE, name): Leaf(outside(libraries, name)) for name in ARCHIVES}}
