"""Counts the instructions of commands of gcflip on small texts by callgrind, and compares them with bench/instructions.txt.

bench/count_instructions writes instructions.txt by the functions of this file.
"""
import os
import subprocess
import sys

from .c_builds import TOP, has_valgrind, instructions

BENCH = os.path.join(TOP, "bench")
TABLE = os.path.join(BENCH, "instructions.txt")
# A count may be a twentieth above that of the table.
MOST = 1.05
# A row of the table, the command, and the program in bench/ that writes its text, with its arguments.
ROWS = [
    ("play-commands", ["play", "@"], ["make_trace", "262144"]),
    ("play-collections", ["play", "@"], ["make_collections", "262144"]),
    ("report", ["report", "@"], ["make_collections", "262144"]),
    ("pair", ["pair", "@", "1"], ["make_collections", "262144"]),
    ("check", ["check", "@"], ["make_pair", "4096"]),
]


def table():
    """Returns the instructions of each row of instructions.txt."""
    with open(TABLE, encoding="utf-8") as file:
        rows = [line.split() for line in file if line.strip() and not line.startswith("#")]
    return {name: int(count) for name, count in rows}


def counted(program, folder):
    """Returns the instructions of each row, and why one is not known, or None."""
    counts = {}
    for name, words, maker in ROWS:
        text = os.path.join(folder, "-".join(maker))
        if not os.path.exists(text):
            with open(text, "wb") as file:
                subprocess.run([sys.executable, os.path.join(BENCH, maker[0]), *maker[1:]], check=True, stdout=file)
        counts[name], why = instructions(program, [text if word == "@" else word for word in words], folder)
        if why:
            return counts, "%s: %s" % (name, why)
    return counts, None


def program_costs(program, folder):
    """A command takes no more instructions than the table says, but for a twentieth."""
    if not has_valgrind("instructions of gcflip"):
        return
    now, why = counted(program, folder)
    if why:
        yield "instructions of gcflip", why
        return
    print("instructions of gcflip: " + ", ".join("%s %d" % row for row in now.items()))
    for name, most in table().items():
        yield "instructions of gcflip: %s" % name, None if 0 < now.get(name, 0) <= most * MOST else "%d, and the table says %d" % (now.get(name, 0), most)


GROUPS = [program_costs]
