"""Names of definitions that have a meaning in each of several crates. One name has one meaning: tests/two_meanings.txt lists the exceptions, each with
its reason. Within a crate there is none. Files of worked examples, whose names no other file cites, do not count."""
import collections
import glob
import os
import re

from .crates import CRATES, TOP, crates_listed

LISTED = os.path.join(TOP, "tests", "two_meanings.txt")
DEFINITION = re.compile(r"(?m)^(?:abbrev |unfoldable )?pub (?:abbrev |unfoldable |record |data )?(?!mod |use )([^\s:({]+)")
EXAMPLES = re.compile(r"Rows\.antt$")


def files_of_names():
    """Returns the files of specs/ that define each name, by the crate."""
    found = collections.defaultdict(lambda: collections.defaultdict(set))
    for crate in crates_listed():
        for path in glob.glob(os.path.join(CRATES, crate, "specs", "**", "*.antt"), recursive=True):
            if not EXAMPLES.search(path):
                with open(path, encoding="utf-8") as file:
                    for name in DEFINITION.findall(file.read()):
                        found[name][crate].add(os.path.relpath(path, CRATES))
    return found


def crates_of_names():
    """Returns the crates whose specs/ define each name, where it is more than one."""
    return {name: sorted(files) for name, files in files_of_names().items() if len(files) > 1}


def crates_listed_of_names():
    """Returns the crates that the list gives for each name. A line is a name, its crates, a colon and the reason."""
    found = {}
    with open(LISTED, encoding="utf-8") as file:
        for line in file:
            words, colon, reason = line.partition(":")
            if words.strip() and not line.startswith("#"):
                name, *crates = words.split()
                found[name] = sorted(crates) if colon and reason.strip() else []
    return found


def unlisted():
    """Yields what is wrong: a name with two meanings within a crate, one that the list lacks, and a line of it that is no longer so."""
    for name, of_crates in sorted(files_of_names().items()):
        for files in of_crates.values():
            if len(files) > 1:
                yield "%s has a meaning in each of %s" % (name, ", ".join(sorted(files)))
    found, listed = crates_of_names(), crates_listed_of_names()
    for name in sorted(set(found) | set(listed)):
        if name not in listed:
            yield "%s has a meaning in each of %s, and tests/two_meanings.txt does not list it" % (name, ", ".join(found[name]))
        elif name not in found:
            yield "%s has one meaning, but tests/two_meanings.txt lists it" % name
        elif not listed[name]:
            yield "%s has no reason in tests/two_meanings.txt" % name
        elif found[name] != listed[name]:
            yield "%s has a meaning in each of %s, and tests/two_meanings.txt says in %s" % (name, ", ".join(found[name]), ", ".join(listed[name]))
