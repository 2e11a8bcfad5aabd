"""Counts the instructions of calls on the heap for C by callgrind, and compares them with bench/embedding/commands.txt. In the same run it counts those of
the heap in plain C, bench/embedding/plain_c.c, and compares its replies with the model of the random calls.

bench/embedding/count_commands writes commands.txt by the functions of this file.

It tests the instructions of a call of each command on the heap for C, by valgrind: none is a twentieth above the table in
bench/embedding/commands.txt. In the same run it counts and prints those of the heap in plain C, bench/embedding/plain_c.c, whose replies, counts,
logs and images it compares with the model of random.
"""
import os
import re

from .c_builds import SANITIZERS, SOURCES, TOP, WARNINGS, done, has_valgrind, library, usable
from .random import lists, played, wanted_by_c
from .random_calls import FRAMES, FREE_LOOKS, LOOSE, MOVES, PACED, PLACES, TEXTS, VECTORS

BENCH = os.path.join(TOP, "bench", "embedding")
TABLE = os.path.join(BENCH, "commands.txt")
# Calls of each command that bench/embedding/commands.c makes.
TIMES = 1000
# A count may be a twentieth above that of the table.
MOST = 1.05
# How plain_c.c is compiled: without the second option, gcc calls memset for objects of two fields.
PLAIN_C = ["gcc", "-std=c11", "-O2", "-fno-tree-loop-distribute-patterns", *WARNINGS]


def table():
    """Returns the rows of commands.txt: a command, its instructions, the goal or None, and the instructions in plain C."""
    with open(TABLE, encoding="utf-8") as file:
        rows = [line.split() for line in file if line.strip() and not line.startswith("#")]
    return {row[0]: [None if number == "-" else int(number) for number in row[1:]] for row in rows}


def counted(path, folder):
    """Returns the instructions of one call of each command, and why they are not known, or None."""
    counts = os.path.join(folder, "counts")
    ran = done(["valgrind", "--tool=callgrind", "--callgrind-out-file=" + counts, path])
    if ran.status != 0:
        return {}, "status %s: %s" % (ran.status, ran.stderr.decode("utf-8", "replace"))
    told = done(["callgrind_annotate", "--inclusive=yes", "--threshold=100", counts]).stdout.decode("utf-8", "replace")
    found = re.findall(r"(?m)^ *([\d,]+) .*:(\w+) \[%s\]$" % re.escape(path), told)
    return {name: int(count.replace(",", "")) // TIMES for count, name in found}, None


def both_counted(built, folder):
    """Returns the instructions of each command in the library and in plain C, and why they are not known, or None."""
    include, plain = "-I" + os.path.join(built.prefix, "include"), os.path.join(folder, "plain_c.o")
    made = done([*PLAIN_C, include, "-c", os.path.join(BENCH, "plain_c.c"), "-o", plain])
    found = []
    for name, linked in [("library", built.archive()), ("plain", [plain])] if made.status == 0 else []:
        path = os.path.join(folder, name)
        # Each command keeps a function of its own, though two of them are alike.
        made = done(["gcc", "-O2", "-fno-ipa-icf", include, os.path.join(BENCH, "commands.c"), *linked, "-o", path])
        counts, why = counted(path, folder) if made.status == 0 else ({}, made.stderr.decode())
        if why:
            return found, why
        found.append(counts)
    return found, None if made.status == 0 else made.stderr.decode()


def command_costs(_program, folder):
    """A call takes no more instructions than the table says, but for a twentieth."""
    built = library(folder)
    if built is None or not has_valgrind("instructions of commands"):
        return
    found, why = both_counted(built, folder)
    if why:
        yield "instructions of commands", why
        return
    now, plain = found
    rows = table()
    print("instructions of a call (goal; plain C): " + ", ".join(
        "%s %d (%s; %d)" % (name, now.get(name, 0), goal or "-", plain.get(name, 0)) for name, (_, goal, _) in rows.items()))
    for name, (most, _, _) in rows.items():
        count = now.get(name, 0)
        yield "instructions of %s" % name, None if 0 < count <= most * MOST else "%d, and the table says %d" % (count, most)
        yield "instructions of %s in plain C" % name, None if plain.get(name, 0) > 0 else "none are counted"


def plain_c(_program, folder):
    """The heap in plain C gives the model's replies, counts, logs and images, and leaves all other outputs alone."""
    built = library(folder)
    if built is None or not usable(folder, "plain_c.c with sanitizers", ["gcc", *SANITIZERS]):
        return
    driver = os.path.join(folder, "plain")
    words = ["gcc", "-std=gnu11", "-O1", *WARNINGS, *SANITIZERS, "-I" + os.path.join(built.prefix, "include"), "-o", driver]
    made = done([*words, "-DBASIC", os.path.join(SOURCES, "random_calls.c"), os.path.join(BENCH, "plain_c.c")])
    why = None if made.status == 0 else "not built: %s" % made.stderr.decode()
    more = {**PLACES, **TEXTS, **VECTORS, **MOVES}
    # Looks at its extra roots are free.
    for part, roots in [("plain C", {}), ("plain C with extra roots", {**LOOSE, **FRAMES, **FREE_LOOKS})]:
        for name, calls in lists(part, PACED, more, roots):
            yield name, why or played([driver], calls, wanted_by_c(calls))


GROUPS = [command_costs, plain_c]
