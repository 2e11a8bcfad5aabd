#!/usr/bin/env python3
"""Runs `rt ci` at the top of a repository, and builds the archive of each static library from its proof: tests/prover/rt_ci.py

`rt ci` proves a static library and builds nothing of it, so a later build would prove it a second time. Here the proof is recorded, and the build
takes what it proved, as `rt ci` does with a program. All else is done by `rt ci` itself: every proof is from nothing, and held to its rules.
"""
import importlib.machinery
import importlib.util
import os
import subprocess
import sys
import tempfile

sys.dont_write_bytecode = True


def command():
    """Returns the toolchain's command `rt` as a module."""
    doc = subprocess.run(["rt", "doc"], stdout=subprocess.PIPE, check=True).stdout.decode().strip()
    loader = importlib.machinery.SourceFileLoader("rt", os.path.join(os.path.dirname(doc), "bin", "rt"))
    made = importlib.util.module_from_spec(importlib.util.spec_from_loader("rt", loader))
    loader.exec_module(made)
    return made


def without(words, flags):
    """Returns the words without these flags and their values."""
    return [word for before, word in zip([""] + words, words) if word not in flags and before not in flags]


def build(rt, crate, checked, words):
    """Builds the archive of a static library from its recorded proof. Prints why it could not, and returns the status."""
    words = without(words, ("--logic-built", "--jobs")) + ["--crate-checked", checked, "--toolchain", rt.KIT + "/toolchain", "--backend", "llvm"]
    words = [*rt.rtlib.guarded(), rt.rtlib.RATTLE, "build", *words, "-o", "out/lib%s.a" % crate.name]
    ran = subprocess.run(words, cwd=crate.folder, stdin=subprocess.DEVNULL, stdout=subprocess.PIPE, stderr=subprocess.STDOUT, errors="replace")
    if ran.returncode:
        print(ran.stdout, end="", file=crate.out, flush=True)
    return ran.returncode


def with_archives(rt):
    """Has `rt` prove a static library as before, and build its archive from that proof."""
    prove_and_build = rt.Crate.ci

    def ci(crate, flags, tests):
        if tests or not crate.is_static:
            return prove_and_build(crate, flags, tests)
        words = crate.words(flags, keeps=False)
        with tempfile.TemporaryDirectory() as folder:
            checked = os.path.join(folder, "checked")
            return crate.prove(["check", *words, "-o", checked]) or build(rt, crate, checked, words)

    rt.Crate.ci = ci


def main():
    rt = command()
    if not (hasattr(rt, "main") and all(hasattr(getattr(rt, "Crate", None), name) for name in ("ci", "words", "prove"))):
        print("This kit's 'rt' has no such function to replace, so 'tests/archives' proves the static libraries once more.", flush=True)
        return subprocess.run(["rt", "ci"]).returncode
    with_archives(rt)
    return rt.main(["ci"])


if __name__ == "__main__":
    sys.exit(main())
