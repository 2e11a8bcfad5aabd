"""Tests of the must-fail edits, of the list of those that CI tries, and of the list of the crates whose tests CI runs without a proof. Each edit can be applied."""
import glob
import os
import re

from prover.controls import controls_of
from prover.crates import CRATES, TOP, crates_listed
from prover.edits import BadEdit, edit_named, edits_of

from .documents import text_of

# CI tries at least so many wrong bodies of a crate, or all if it has fewer. An edit may make several functions wrong.
LEAST_IN_CI = 4


def wrong_in_ci(words, edits_by_crate):
    """Yields what is wrong with the list of the edits that CI tries, given for each crate how many functions each edit makes wrong."""
    yield from ["there is no edit %s" % word for word in words if word.partition("/")[2] not in edits_by_crate.get(word.partition("/")[0], {})]
    yield from ["%s does not stand in order, or twice" % word for before, word in zip(words, words[1:]) if before >= word]
    for crate, counts in sorted(edits_by_crate.items()):
        listed = sum(counts.get(word.partition("/")[2], 0) for word in set(words) if word.startswith(crate + "/"))
        if listed < min(LEAST_IN_CI, sum(counts.values())):
            yield "%d of the %d wrong bodies of %s" % (listed, sum(counts.values()), crate)


# Lists of a crate with the edits a, b, c, d and e, of which e makes three functions wrong, and what is wrong with each.
LISTS = [("a b c d", []), ("a e", []), ("a b c", ["3 of the 7 wrong bodies of gc_one"]), ("e", ["3 of the 7 wrong bodies of gc_one"]),
         ("a c b d", ["gc_one/b does not stand in order, or twice"]), ("a b c c d", ["gc_one/c does not stand in order, or twice"]),
         ("a b c d f", ["there is no edit gc_one/f"])]


def edits_in_ci(_program, _folder):
    """Checks the list of the edits that CI tries: each exists, and each crate has some."""
    words = text_of("tests/edits_in_ci.txt").split()
    of_crates = {crate: {name[:-len(".edit")]: len(edit_named(crate, name).keys) for name in edits_of(crate)}
                 for crate in crates_listed() if edits_of(crate)}
    yield "tests/edits_in_ci.txt", ", ".join(wrong_in_ci(words, of_crates)) or None
    for names, wanted in LISTS:
        found = list(wrong_in_ci(["gc_one/" + name for name in names.split()], {"gc_one": {"a": 1, "b": 1, "c": 1, "d": 1, "e": 3}}))
        yield "the list %s" % names, None if found == wanted else "found %s" % found


def unproved_in(texts):
    """Yields what would go unproved if CI runs the tests of a crate without a proof, given the texts of its source: code of a library that has tests alone
    there, and tests that stand elsewhere than in the module that CI leaves out of its proof."""
    root = next(path for path in ("src/main.rt", "src/lib.rt") if path in texts)
    if not texts[root].endswith("\n#[cfg(test)]\nmod tests;\n"):
        yield "its module of tests does not end %s" % root
    others = {path: text for path, text in texts.items() if not path.startswith("src/tests")}
    yield from sorted("a test in %s" % path for path, text in others.items() if len(re.findall(r"cfg\(test\)|#\[test\]", text)) > (path == root))
    if root == "src/lib.rt":
        yield from sorted("code in %s" % path for path, text in others.items() if re.search(r"\bfn\b", text))


# The root of a crate's source and another file, and what is found in them.
TRIED = [("src/main.rt", "fn main() {}\n\n#[cfg(test)]\nmod tests;\n", "fn a() {}\n", []),
         ("src/main.rt", "fn main() {}\n\n#[cfg(test)]\nmod tests;\n", "#[test]\nfn a() {}\n", ["a test in src/one.rt"]),
         ("src/main.rt", "mod tests;\n\nfn main() {}\n", "fn a() {}\n", ["its module of tests does not end src/main.rt"]),
         ("src/lib.rt", "\n#[cfg(test)]\nmod tests;\n", "fn a() {}\n", ["code in src/one.rt"])]


def crates_tried(_program, _folder):
    """Checks the crates whose tests CI runs without a proof: all else of them is proved."""
    for crate in text_of("tests/crates_tried.txt").split():
        folder = os.path.join(TOP, "crates", crate)
        paths = [os.path.relpath(path, folder) for path in glob.glob(os.path.join(folder, "src", "**", "*.rt"), recursive=True)]
        yield "code of %s" % crate, ", ".join(unproved_in({path: text_of(os.path.join("crates", crate, path)) for path in paths})) or None
    for root, text, other, wanted in TRIED:
        found = list(unproved_in({root: text, "src/one.rt": other}))
        yield "a crate with %r and %r" % (text, other), None if found == wanted else "found %s" % found


def why_not_applied(crate, read):
    """Returns why a change cannot be applied to a crate, or None. `read` reads the file of the change."""
    try:
        read().texts_in(os.path.join(CRATES, crate))
    except (BadEdit, OSError) as why:
        return str(why)
    return None


def applied_edits(_program, _folder):
    for crate in crates_listed():
        for name in edits_of(crate):
            yield "edit %s/%s" % (crate, name), why_not_applied(crate, lambda crate=crate, name=name: edit_named(crate, name))
        for control in controls_of(crate):
            settled = control.why_settled()
            yield "control %s/%s" % (crate, control.name), settled if settled or not control.edit else why_not_applied(crate, lambda control=control: control.edit)


GROUPS = [edits_in_ci, crates_tried, applied_edits]
