"""The crates of this repository, and the prover's arguments for one of them."""
import functools
import os
import subprocess

TOP = os.path.normpath(os.path.join(os.path.dirname(os.path.abspath(__file__)), "..", ".."))
CRATES = os.path.join(TOP, "crates")


class Crate:
    """A line of crates.txt: the crate's name, its flags, and the libraries that it names."""

    def __init__(self, line):
        head, _, used = line.partition(":")
        self.name, *self.flags = head.split()
        self.used = used.split()
        self.folder = os.path.join(CRATES, self.name)

    def source(self):
        """Returns the root file of the crate's source, from the crate's folder."""
        return "src/main.rt" if os.path.exists(os.path.join(self.folder, "src", "main.rt")) else "src/lib.rt"


@functools.lru_cache(maxsize=None)
def crates_listed():
    """Returns the crates of crates.txt, by their names. Reads the file once."""
    with open(os.path.join(TOP, "crates.txt"), encoding="utf-8") as lines:
        listed = [Crate(line) for line in (line.partition("#")[0].strip() for line in lines) if line]
    return {crate.name: crate for crate in listed}


def below(crate, listed):
    """Returns the names of our own libraries that the crate uses, directly or not."""
    found = set()
    for name in crate.used:
        if name in listed:
            found |= {name} | below(listed[name], listed)
    return found


def built(name):
    """Returns where the proved library of a crate is."""
    return os.path.join(CRATES, name, "out", "rlib")


def kit():
    """Returns the folder of the toolchain."""
    return os.path.dirname(subprocess.run(["rt", "doc"], stdout=subprocess.PIPE, check=True).stdout.decode().strip())


def over_built(command, crate, listed):
    """Returns the call of the prover's command, 'check' or 'build', for the crate over the libraries that are built. It is to run in the
    crate's folder or in a copy of it."""
    top = kit()
    words = [top + "/bin/rattle", command, "--crate-name", crate.name, crate.source(), "--extern", "std=%s/rlibs/std.rlib" % top]
    words += ["-L", "dependency=%s/rlibs" % top]
    for name in crate.used:
        words += ["--extern", "%s=%s/%s.rlib" % (name, built(name) if name in listed else top + "/rlibs", name)]
    for name in sorted(below(crate, listed)):
        words += ["-L", "dependency=" + built(name)]
    if "staticlib" in crate.flags:
        words += ["--crate-type", "staticlib"]
    return words + ["--links", crate.name + "=", "--antt-project", top + "/rattle/logic/antt-project.json", "--logic-built", top + "/logic_built",
                    "--jobs", "1"]
