"""docs/WRONG_BODIES.md: the must-fail edits, each with what it does and where it is refused, and the wrong bodies that were tried by hand.

What an edit does is said by the comments of its file. What was tried by hand stands in tests/tried_by_hand.txt.
"""
import os
import re

from .crates import CRATES, TOP, crates_listed
from .edits import edit_named, edits_of
from .made_pages import differences, path_of, read

DOCUMENT = path_of("WRONG_BODIES.md")
BY_HAND = os.path.join(TOP, "tests", "tried_by_hand.txt")
IN_CI = os.path.join(TOP, "tests", "edits_in_ci.txt")
# Comments that say nothing of what an edit does.
OF_REFUSALS = re.compile(r"# refused|# Clauses? .* refuses? it\.")
# A wrong body, the test that refused it, and the day, with more behind a comma.
TRIED = re.compile(r"(.+) \| (.+) \| (\d{4}-\d\d-\d\d(?:, .+)?)")


# ---- Must-fail edits

def told(crate, name):
    """Returns what an edit does by the comments of its file, or nothing if it has none."""
    lines = read(os.path.join(CRATES, crate, "must-fail", name)).split("\n")
    comments = [line[1:].strip() for line in lines if line.startswith("#") and not OF_REFUSALS.match(line)]
    return " ".join(comments)


def places(crate, name):
    """Returns where an edit is refused: each function with its clauses."""
    found = {}
    for _, function, clause in sorted(edit_named(crate, name).places):
        found.setdefault(function, []).append(clause)
    return "; ".join("`%s`: %s" % (function, ", ".join("`%s`" % clause for clause in dict.fromkeys(clauses))) for function, clauses in found.items())


def rows_of(crate):
    """Yields the rows of a crate's edits. Those that each run of CI tries have a mark."""
    in_ci = read(IN_CI).split()
    for name in edits_of(crate):
        edit = name[:-len(".edit")]
        yield "| `%s` | %s | %s | %s |\n" % (edit, told(crate, name).replace("|", "\\|"), places(crate, name), "CI" if "%s/%s" % (crate, edit) in in_ci else "")


# ---- Tried by hand

class Tried:
    """A wrong body that was tried by hand: its section, what it does, the tests that refused it, and the day. A line that is none has no day."""

    def __init__(self, section, line):
        found = TRIED.fullmatch(line)
        self.section = section
        self.does, self.tests, self.day = found.groups() if found else (line, "", "")

    def row(self):
        return "| %s | %s | %s |\n" % (self.does, self.tests, self.day)


def tried_by_hand(text=None):
    """Returns the wrong bodies of the list. A line '== SECTION' begins a section, and one with a # is a comment."""
    section, found = "", []
    for line in (read(BY_HAND) if text is None else text).split("\n"):
        if line.startswith("== "):
            section = line[3:]
        elif line and not line.startswith("#"):
            found.append(Tried(section, line))
    return found


# ---- The page

HEAD = """# Wrong bodies

`tools/wrong_bodies --write` makes this page, and CI checks it. It is a list for those who change a contract or a test: [TESTING.md](TESTING.md) says how
wrong bodies are tried.
"""
EDITS = """
## Refused by the prover

Each must-fail edit is a file of `crates/*/must-fail`, whose comments say what it does. It is refused at the functions and clauses behind it. If such a function is private, as a line's parser is, the public clauses rest on it: a proof knows of a function that it calls no more
than its contract. Each run of CI tries the edits with a mark, and long runs try all (`tests/long/run edits`).
"""
HAND = """
## Refused by a test

These were tried by hand on the day that is given, because no contract says what they break. The list is `tests/tried_by_hand.txt`. In rows with a model, a model of the
heap in Python stood in the library's place.
"""


def document():
    """Returns the whole page."""
    lines = [HEAD, EDITS]
    for crate in crates_listed():
        if edits_of(crate):
            lines += ["\n### %s\n\n| edit | what it does | refused at | tried by |\n|---|---|---|---|\n" % crate, *rows_of(crate)]
    lines.append(HAND)
    last = None
    for tried in tried_by_hand():
        if tried.section != last:
            lines.append("\n### %s\n\n| wrong body | test | day |\n|---|---|---|\n" % tried.section)
        lines.append(tried.row())
        last = tried.section
    return "".join(lines)


def faults(shown):
    """Yields what is wrong: edits without a comment, lines of the list that have no test or no day, and lines that the shown page or the right one alone has."""
    yield from ["no comment says what %s/%s does" % (crate, name) for crate in crates_listed() for name in edits_of(crate) if not told(crate, name)]
    yield from ["tests/tried_by_hand.txt has no test or no day for '%s'" % tried.does[:60] for tried in tried_by_hand() if not tried.day]
    yield from differences("WRONG_BODIES.md", "wrong_bodies", shown, document())
