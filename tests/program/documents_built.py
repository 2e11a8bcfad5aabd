"""Tests of the documents that need what CI builds: the commands and the programs that they show print what the documents say, and the table of
docs/TRUST.md is that of the kept verdicts."""
import os
import re
import shutil
import subprocess

from prover.axioms import PRODUCTS, row_of, verdict_of
from prover.crates import TOP

from .c_builds import done, library
from .documents import CERTIFY, blocks, compiling_line, documents, shown_commands, text_of
from .harness import Skipped, addresses_numbered


def without_program(command, program):
    """Returns the command to run, with the program under test instead of the built one."""
    return command.replace("crates/gcflip/out/gcflip", program)


def wrong_output(command, output, program):
    """Returns why a command does not print what a document shows, or None."""
    if " rt " in command and shutil.which("rt") is None:
        return Skipped("there is no rt on the path")
    found = subprocess.run(["bash", "-c", without_program(command, program)], cwd=TOP, stdout=subprocess.PIPE,
                           stderr=subprocess.PIPE, timeout=600)
    printed = found.stdout.decode("utf-8", "replace")
    return None if printed == output else "printed %r, but %r is shown" % (printed, output)


def commands(program, _folder):
    for document in documents():
        for command, output in shown_commands(document):
            yield "%s: %s" % (document, command), wrong_output(command, output, program)


def run_of_c(document, archive, folder):
    """Runs the document's line that compiles and starts a program, with this archive, and compares what it prints with the only block of text.
    Addresses of the machine may differ."""
    line, _ = compiling_line(document)
    if line is None:
        return "there is no line that compiles a program"
    line = re.sub(r"bindings/c/out/\w+\.a", archive, line).replace("bindings/c", os.path.join(TOP, "bindings", "c"))
    ran = subprocess.run(["bash", "-c", line], cwd=folder, stdout=subprocess.PIPE, stderr=subprocess.STDOUT)
    shown = ["\n".join(block) + "\n" for block in blocks(document, "text")]
    same = [addresses_numbered(ran.stdout)] == [addresses_numbered(text.encode()) for text in shown]
    return None if same and ran.returncode == 0 else "status %s, printed %r, but %r is shown" % (ran.returncode, ran.stdout, shown)


def c_programs(_program, folder):
    """Runs the lines of README and of docs/CERTIFY.md that compile and start a program, with the library as it is now, and compares what it prints with
    the block of text that they show. The program of docs/CERTIFY.md needs the checker alone."""
    built = library(folder)
    if built is None:
        yield "C of documents", Skipped("there is no library")
        return
    for document in ("README.md", CERTIFY):
        yield "C of %s runs" % document, run_of_c(document, built.archive()[0], folder)
    steps = done(["make", "-n", "-B", "-C", os.path.join(TOP, "bindings", "c"), "checker"]).stdout.decode()
    yield "the archive of the checker needs no collector", None if "/gcflip_c/" in steps and "gcflip_heap_c" not in steps else steps
    made = built.install(built.prefix, "checker")
    yield "the archive of the checker", None if made.status == 0 else made.stderr.decode()
    yield "C of %s runs with the checker alone" % CERTIFY, run_of_c(CERTIFY, os.path.join(folder, "out", "libgcflip_checker.a"), folder)


def axioms(_program, _folder):
    """Compares the table of docs/TRUST.md with what the verdicts of the products rest on."""
    for name in PRODUCTS:
        counts, why = verdict_of(name)
        yield "axioms of %s" % name, why or (None if row_of(name, counts) in text_of("docs/TRUST.md") else "docs/TRUST.md has no row %s" % row_of(name, counts))


GROUPS = [commands, c_programs, axioms]
