"""Tests of the files of definitions and proofs: what passes from crate to crate, what two answers repeat, the first lines, and the names."""
import collections
import glob
import os
import re

from prover.crates import CRATES, TOP, crates_listed
from prover.doors import faults, imports_of, passed_on, public_for_nobody
from prover.meanings import unlisted

from .documents import text_of

# ---- what proofs cite of other crates

# Sources of gc_heap, with the imports across crates that are found in them.
IMPORTS = [("use Rattle.gc_words.proofs.Walks.{a, b as c}", [("gc_words", "proofs.Walks", ["a", "b"])]),
           ("use Rattle.gc_words.proofs.Walks as walks", [("gc_words", "proofs.Walks", None)]),
           ("#[tactic(auto, using(gc_words::proofs::Walks::a))]", [("gc_words", "proofs.Walks", ["a"])]),
           ("ghost use Rattle.gc_words.specs.Internal.Walking.{a};", [("gc_words", "specs.Internal.Walking", ["a"])]),
           ("use Rattle.gc_words.specs.Objects.{a}\nuse Rattle.gc_heap.specs.Internal.Steps.{a}", []),
           ("use Rattle.gc_heap.proofs.Commands.{a}\nuse Rattle.std.proofs.Common.{a}", []), ("use Rattle.gc_words.proofs.space.Space.TheLaws as laws", [])]


# A proof file and another file of its crate, with the lemmas of the first that are public for nobody.
LEMMAS = [("pub a : A\na = b\n", "use Rattle.c.proofs.One.{a}", []), ("pub a : A\na = b\n", "", ["a"]), ("a : A\na = b\n", "", []),
          ("pub a : A\n    → B\na x = b\n\npub c : IsSome a\nc = d\n", "using(crate::proofs::One::c)", []), ("pub a-b : A\na-b x = b\n", "a", ["a-b"]),
          ("  pub a : A\n  a x = b\n\n  pub c : A\n  c = a\n", "use Rattle.c.proofs.One.{c}", ["a"]), ("pub a : A\na = b\n", "use Rattle.c.proofs.Two.{a}", ["a"]),
          ("pub a : A\na = b\n", "use Rattle.d.proofs.One.{a}\na", ["a"]), ("pub a : A\na = b\n", "use Rattle.c.proofs.One as one\none.a", []), ("record A : Type 0 where\n  pub a : A\n\nabbrev pub b : A\nb = a\n", "", [])]


def doors(_program, _folder):
    """Crates cite other crates' proofs and internal definitions through proofs/Public.antt alone, which passes on nothing that no crate cites. A lemma is public
    only for another file."""
    yield "doors", "; ".join(list(faults())[:10]) or None
    yield "crates with a door", None if any(map(passed_on, crates_listed())) else "none"
    for text, wanted in IMPORTS:
        found = list(imports_of("gc_heap", text))
        yield "imports in %r" % text, None if found == wanted else "found %s" % found
    for text, other, wanted in LEMMAS:
        found = [name for _, name in public_for_nobody("c", {"proofs/One.antt": text, "src/other.rt": other})]
        yield "public lemmas in %r beside %r" % (text, other), None if found == wanted else "found %s" % found


# ---- lines that the answers of a proof file repeat

# How many lines in a row two declarations may not share, if each begins with `let`. A short name for a path is no fact, and is passed over.
REPEATED = 3
SHORT_NAME = re.compile(r"let [\w'-]+ = [\w.'-]+ in$")


def repeated_lines(text):
    """Yields the first of each run of lines that two declarations of a proof file repeat, each a `let`."""
    starts = collections.defaultdict(set)
    declaration, lines = 0, []
    for line in text.split("\n"):
        if line[:1].strip():
            declaration, lines = declaration + 1, []
        if not SHORT_NAME.match(line.strip()):
            lines = (lines + [line.strip()])[-REPEATED:]
        if len(lines) == REPEATED and all(each.startswith("let ") for each in lines):
            starts[tuple(lines)].add(declaration)
    yield from (run[0] for run, places in starts.items() if len(places) > 1)


# Two answers, with the first lines of what they repeat.
TWO_ANSWERS = "use Rattle.a.B.{c}\n\npub a : A\na c =\n%s    d\n\npub b : B\nb c =\n%s    e\n"
LETS = ["    let p = f 1 in\n", "    let q : A = a.b in\n", "    let r = g 3 in\n"]
ANSWERS = [("".join(LETS), "".join(LETS), ["let p = f 1 in"]), ("".join(LETS[:2]), "".join(LETS[:2]), []), ("".join(LETS), "".join(LETS[1:]), []),
           ("".join(LETS * 2), "", []), ("    f\n" + "".join(LETS), "".join(LETS) + "    g\n", ["let p = f 1 in"]), ("    x;\n    y;\n    z;\n", "    x;\n    y;\n    z;\n", []),
           ("    let s = a.b in\n" + "".join(LETS), "".join(LETS[:2] + ["    let t = c-d.e in\n"] + LETS[2:]), ["let p = f 1 in"]), ("    let s = a.b in\n" * 3, "    let s = a.b in\n" * 3, [])]


def preambles(_program, _folder):
    """What several answers of a proof file need stands once in it: no two repeat three lines that name facts."""
    for path in sorted(glob.glob(os.path.join(TOP, "crates", "*", "proofs", "**", "*.antt"), recursive=True)):
        found = list(repeated_lines(text_of(os.path.relpath(path, TOP))))
        if found:
            yield "answers in %s" % os.path.relpath(path, TOP), "two repeat %r" % found[0]
    for one, other, wanted in ANSWERS:
        found = list(repeated_lines(TWO_ANSWERS % (one, other)))
        yield "answers with %r and %r" % (one, other), None if found == wanted else "found %s" % found


# ---- first lines of proof files

# What a sentence of a first line is: it begins with a capital letter or a name in backquotes, and ends with a full stop.
SENTENCE = re.compile(r"[A-Z`].*[^.]\.$")


def head_of(text):
    """Returns what the comment at the head of a proof file says, in one line: nothing if the file does not begin with a comment."""
    lines = text.split("\n")
    count = next((number for number, line in enumerate(lines) if not line.startswith("-- ")), len(lines))
    return " ".join(line[3:].strip() for line in lines[:count])


def wrong_heads(texts):
    """Yields each proof file of a crate that does not say first what it proves, or says what another file says, given the files' texts."""
    first = {}
    for path, text in sorted(texts.items()):
        head = head_of(text)
        if not SENTENCE.match(head):
            yield "%s does not begin with a sentence" % path
        elif head in first:
            yield "%s begins as %s" % (path, first[head])
        first.setdefault(head, path)


# Proof files of a crate by their texts, and what is wrong with them.
HEADS = [(["-- A sum is one.\nuse b\n", "-- A sum goes\n-- up by one.\nuse b\n"], []), (["use b\n"], ["0 does not begin with a sentence"]),
         (["-- A sum is one\nuse b\n"], ["0 does not begin with a sentence"]), (["-- ---- sums.\nuse b\n"], ["0 does not begin with a sentence"]),
         (["-- A sum is one.\nuse b\n", "-- A sum is one.\nuse c\n"], ["1 begins as 0"])]


def first_lines(_program, _folder):
    """Checks that each proof file says in its first line what it proves, and that no two files of a crate say the same."""
    for crate in crates_listed():
        paths = glob.glob(os.path.join(CRATES, crate, "proofs", "**", "*.antt"), recursive=True)
        wrong = list(wrong_heads({os.path.relpath(path, TOP): text_of(path) for path in paths}))
        if paths:
            yield "first lines of the proofs of %s" % crate, "; ".join(wrong[:10]) or None
    for texts, wanted in HEADS:
        found = list(wrong_heads({str(number): text for number, text in enumerate(texts)}))
        yield "first lines of %r" % texts, None if found == wanted else "found %s" % found


# ---- names

def meanings(_program, _folder):
    """Checks that each name of a definition has one meaning, or that tests/two_meanings.txt says why it has several."""
    yield "names with one meaning", "; ".join(unlisted()) or None


GROUPS = [doors, preambles, first_lines, meanings]
