"""The functions of C on whose contracts the verdict of a product rests, as the prover's verdict counts them."""
import os
import re

from .crates import CRATES

# What each product is: a crate with a program, or a static library.
PRODUCTS = {"gcflip_c": "the checker for C", "gcflip_heap_c": "the collected heap for C", "gcflip_beside_c": "the heap with a collector's thread for C", "gcflip": "the program"}
# Those that a release has.
PACKED = ("gcflip_c", "gcflip_heap_c", "gcflip_beside_c", "gcflip")
AXIOMS = re.compile(r"axioms (\w+): .*?(?:\((\d+) of the \d+ declared\)|(none) reached of the \d+ declared)")
VERDICT = re.compile(r"logic=(\S+) functions=\d+ (?:.*? )?axioms=(\d+) ")


def kept(name):
    """Returns where the verdict of a product is kept."""
    return os.path.join(CRATES, name, "out", "verdict.txt")


def lines_to_keep(output):
    """Returns the lines of the prover's output that say on what the last verdict without tests rests."""
    axioms, found = [], []
    for line in output.split("\n"):
        if AXIOMS.match(line):
            axioms.append(line)
        elif line.startswith("logic="):
            found = found if " tests=" in line or not axioms else axioms + [line]
            axioms = []
    return found


def keep(name, output):
    """Keeps the verdict in the prover's output. Where it has none, as when 'rt ci' took the proof from an earlier run, none is kept."""
    lines = lines_to_keep(output)
    if not lines:
        if os.path.exists(kept(name)):
            os.remove(kept(name))
        return
    os.makedirs(os.path.dirname(kept(name)), exist_ok=True)
    with open(kept(name), "w", encoding="utf-8") as file:
        file.write("".join(line + "\n" for line in lines))


def counts_in(text):
    """Returns how many functions of each crate a verdict rests on, and what is wrong with the verdict, or None."""
    counts = {crate: int(count or 0) for crate, count, _ in AXIOMS.findall(text)}
    verdict = VERDICT.search(text)
    if not verdict or verdict.group(1) != "proved":
        return counts, "it has no verdict"
    if sum(counts.values()) != int(verdict.group(2)):
        return counts, "its axioms are %s, and the verdict counts %s" % (counts, verdict.group(2))
    return {crate: count for crate, count in counts.items() if count}, None


def verdict_of(name):
    """Returns the counts of a product by crates of the toolchain, and why they are not known, or None."""
    if not os.path.exists(kept(name)):
        return {}, "no verdict of %s: tests/prove and tests/archives keep it" % name
    with open(kept(name), encoding="utf-8") as file:
        counts, why = counts_in(file.read())
    return counts, why and "the verdict of %s: %s" % (name, why)


def row_of(name, counts):
    """Returns the row of a product."""
    parts = ", ".join("%d of `%s`" % (count, crate) for crate, count in sorted(counts.items(), key=lambda part: (-part[1], part[0])))
    return "| `%s`, %s | %d | %s |" % (name, PRODUCTS[name], sum(counts.values()), parts)
