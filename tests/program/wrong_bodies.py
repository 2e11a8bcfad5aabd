"""Tests of docs/WRONG_BODIES.md, the page with the must-fail edits and the wrong bodies that were tried by hand: it is what tools/wrong_bodies makes, and the tests
that it names exist."""
import glob
import os
import re

from prover import wrong_bodies as page
from prover.crates import TOP

from .documents import is_file, text_of

# Changes of the committed page that have to be found: what is replaced, and by what.
CHANGED = [("an edit that does something else", "2^63 counts as a number.", "2^64 counts as a number."),
           ("an edit that is refused elsewhere", "`checker::check_wide`: `refused`", "`checker::check_wide`: `yes`"),
           ("an edit that CI is said to try", "number of roots. | `checker::check_wide`: `refused` |  |", "number of roots. | `checker::check_wide`: `refused` | CI |"),
           ("an edit that is left out", re.compile(r"(?m)^\| `always_refuses` .*\n"), ""),
           ("another day", re.compile(r"\| 2026-11-25 \|"), "| 2026-11-24 |"),
           ("another test", "`calls.memory_answers`", "`calls.calls`"),
           ("rows in another order", re.compile(r"(?m)^(\| `[a-z_]+` .*\n)(\| `[a-z_]+` .*\n)"), r"\2\1")]


def known_tests():
    """Returns the names of all tests: of Rattle, of Python, and the groups of tests/run with their modules."""
    folders = [("crates/*/src/tests.rt", r"#\[test\]\n\s*fn (\w+)"), ("crates/*/src/tests/**/*.rt", r"#\[test\]\n\s*fn (\w+)"),
               ("tests/python/*.py", r"def (test_\w+)"), ("explore/tests/python/*.py", r"def (test_\w+)")]
    found = set()
    for pattern, name in folders:
        for path in glob.glob(os.path.join(TOP, pattern), recursive=True):
            found.update(re.findall(name, text_of(path)))
    for path in glob.glob(os.path.join(TOP, "tests", "program", "*.py")) + glob.glob(os.path.join(TOP, "explore", "tests", "program", "*.py")):
        groups = re.search(r"(?m)^GROUPS = \[([^\]]*)\]", text_of(path))
        module = os.path.basename(path)[:-len(".py")]
        found.update("%s.%s" % (module, group.strip()) for group in (groups.group(1).split(",") if groups else []))
    return found


# A name in a line that was tried by hand: of a test, or of a file of tests.
TEST_NAME = re.compile(r"(?:\w+::)*([a-z]\w*_\w+)|(\w+\.(?!c$|rs$|py$)\w+)")
TEST_FILE = re.compile(r"(?:[\w/]+/)?\w+\.(?:c|rs|py)")


def wrong_tests(tried, known):
    """Yields the tests that a line names and that do not exist, and whether it names none. What the types refuse needs no test."""
    quoted = re.findall(r"`([^`]+)`", tried.tests)
    named = [found.group(1) or found.group(2) for found in map(TEST_NAME.fullmatch, quoted) if found]
    files_named = [name for name in quoted if TEST_FILE.fullmatch(name)]
    yield from ["there is no test %s" % name for name in named if name not in known]
    yield from ["there is no file %s" % name for name in files_named if not is_file(name) and not is_file(os.path.join("tests", "c", name))]
    if not named and not files_named and not tried.tests.startswith("the types:"):
        yield "no test is named by '%s'" % tried.does[:60]


# Lines, and what is wrong with each.
LINES = [("a mistake | test `graph::one_word_is_reserved` (test_libraries) | 2026-11-24", []),
         ("a mistake | test `graph::one_word_is_gone` (test_libraries) | 2026-11-24", ["there is no test one_word_is_gone"]),
         ("a mistake | `random.nothing` | 2026-11-24, with the model", ["there is no test random.nothing"]),
         ("a mistake | `heap.c` and `heaps.c` | 2026-11-24", ["there is no file heaps.c"]),
         ("a mistake | some test | 2026-11-24", ["no test is named by 'a mistake'"])]


def wrong_bodies(_program, _folder):
    """Compares the committed page with the one that tools/wrong_bodies makes, and tries changes of it."""
    shown = page.read(page.DOCUMENT)
    yield "docs/WRONG_BODIES.md", "; ".join(page.faults(shown)) or None
    for what, old, new in CHANGED:
        changed = old.sub(new, shown, count=1) if isinstance(old, re.Pattern) else shown.replace(old, new, 1)
        yield "%s is found" % what, None if changed != shown and list(page.faults(changed)) else "it is not"


def hand_tried(_program, _folder):
    """Checks that the tests exist which tests/tried_by_hand.txt names."""
    known = known_tests()
    wrong = [why for tried in page.tried_by_hand() for why in wrong_tests(tried, known)]
    yield "tests of tests/tried_by_hand.txt", ", ".join(wrong) or None
    for line, wanted in LINES:
        tried, = page.tried_by_hand("# A comment.\n== Section\n" + line)
        found = list(wrong_tests(tried, known))
        yield "the line %s" % line, None if found == wanted and tried.day else "found %s" % found
    for line in ("a mistake | `heap.c`", "a mistake | `heap.c` | by hand", "a mistake | `heap.c` | 24 November 2026"):
        tried, = page.tried_by_hand(line)
        yield "a line without a day: %s" % line, None if not tried.day else "it has %s" % tried.day


GROUPS = [wrong_bodies, hand_tried]
