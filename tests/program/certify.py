"""Tests of examples/certify, an unproved collector in C. The checker accepts its flips, and refuses those with planted bugs.

It tests examples/certify, by gcc, with sanitizers and by valgrind: lists of several lengths get a yes, each planted bug is refused at the place that
its comment derives, and the program gives the same verdicts on the texts; the texts of images with up to 65807 roots get the verdicts that are
derived by hand; what gcflip_images.h prints about each planted bug names the objects, both words, and what became of the object.
"""
import glob
import os
import re

from .c_builds import SANITIZERS, TOP, VALGRIND, WARNINGS, done, has_valgrind, library, usable
from .harness import Outcome, addresses_numbered, difference, run
from .pairs import status_of

FOLDER = os.path.join(TOP, "examples", "certify")
SOURCES = sorted(glob.glob(os.path.join(FOLDER, "*.c")))

# Numbers of entries. 100000 is the most; the spaces are then nearly as large as the checker allows.
SIZES = [1, 2, 3, 4, 5, 9, 100, 100000]

# A bug, the number of entries, the verdict, and the object that it is about.
#
# A list of n entries has the entries 0, 2, 4 and so on when it is collected. The roots are the count, the first entry and the
# last one. So replica 0 is the first entry and replica 1 the last; if there is only one entry, it is replica 0. Scanning an
# entry adds its name, the next entry and the previous one, if they have no replica. So after the root targets of three
# entries come the first name (2), entry 2 (3), the last name (4), and the name of entry 2 (5).
REFUSED = [
    # The last field of an entry is `previous`. It is nil in the first entry, so replica 1 has the first error.
    ("field", 3, "refused 9 FieldDiffers 1 3", 'the entry of "entry 2" has a replica with another previous'),
    ("field", 5, "refused 9 FieldDiffers 1 3", 'the entry of "entry 4" has a replica with another previous'),
    ("field", 99999, "refused 9 FieldDiffers 1 3", 'the entry of "entry 99998" has a replica with another previous'),
    # Both roots refer to the one entry, and each copies it.
    ("twice", 1, "refused 7 Twice 1", 'the entry of "entry 0" has a second replica'),
    # `next` of the first of two entries copies the last again, after the first name.
    ("twice", 3, "refused 7 Twice 3", 'the entry of "entry 2" has a second replica'),
    # `next` of the second of three entries copies the last again, after that entry's name.
    ("twice", 5, "refused 7 Twice 6", 'the entry of "entry 4" has a second replica'),
    # Replica 5 is the last but one, 6 the name of entry 2 and 7 the entry after it. `previous` of entry 2 copies the first.
    ("twice", 9, "refused 7 Twice 8", 'the entry of "entry 0" has a second replica'),
    ("root", 1, "refused 10 RootDiffers 2", "the root last differs"),
    ("root", 5, "refused 10 RootDiffers 2", "the root last differs"),
    # The first text after one entry, and after two.
    ("length", 1, "refused 8 HeaderDiffers 1", 'the text "entry 0" has a replica of another kind or length'),
    ("length", 5, "refused 8 HeaderDiffers 2", 'the text "entry 0" has a replica of another kind or length'),
]

WAYS = [("gcc", ["gcc"]), ("gcc with sanitizers", ["gcc", *SANITIZERS])]

TIMES = rb"yes \d+\nfor each of (\d+) objects: copying \d+ ns, images and pairs \d+ ns, the check \d+ ns\n"


def accepted(entries):
    """Returns the output of a run without a refusal. Each remaining entry has a name, so there are twice as many pairs."""
    first = (entries + 1) // 2
    second = (first + 1) // 2
    whole = "the list in the new space is whole\n"
    return Outcome(("yes %d\n%syes %d\n%s" % (2 * first, whole, 2 * second, whole)).encode())


def refused(verdict, place):
    return Outcome(("%s\n%s\nthe list in the old space is whole\n" % (verdict, place)).encode(), b"", 1)


# A bug, and what is printed about five entries without the pairs. The walk meets objects on common paths, so with `twice` it pairs entry 4 with
# the replica that the root `last` refers to, and then `next` of entry 2 refers to the other one. The other bugs lose no object.
INFERRED = [
    ("field", "refused 9 FieldDiffers 1 3", 'the entry of "entry 4" has a replica with another previous'),
    ("twice", "refused 9 FieldDiffers 3 2", 'the entry of "entry 2" has a replica with another next'),
    ("root", "refused 10 RootDiffers 2", "the root last differs"),
    ("length", "refused 8 HeaderDiffers 2", 'the text "entry 0" has a replica of another kind or length'),
]


def inferred(program, folder):
    """Runs with -i: without the pairs, the checker finds as many, and refuses the same collections."""
    built = library(folder)
    if built is None:
        return
    path, why = build(built, ["gcc"])
    yield "examples/certify for inferred pairs", why
    if why:
        return
    for entries in SIZES:
        wanted = re.sub(rb"(?m)^(yes \d+)$", rb"\1\nwithout the pairs: \1", accepted(entries).stdout)
        yield "%d entries without the pairs" % entries, difference(done([path, "-i", str(entries)]), Outcome(wanted))
    given = {bug: (verdict, place) for bug, entries, verdict, place in REFUSED if entries == 5}
    for bug, verdict, place in INFERRED:
        lines = [*given[bug], "without the pairs: " + verdict, place, "the list in the old space is whole"]
        yield "%s without the pairs" % bug, difference(done([path, "-i", "-b", bug, "5"]), Outcome(("\n".join(lines) + "\n").encode(), b"", 1))


def build(built, compiler):
    """Returns the path of the program, and why it was not built, or None."""
    path = os.path.join(built.folder, "certify")
    words = [*compiler, "-std=c11", "-O2", *WARNINGS, "-I" + os.path.join(built.prefix, "include"), "-o", path]
    made = done([*words, *SOURCES, *built.archive()])
    return path, None if made.status == 0 else "not built: %s" % made.stderr.decode()


def wrong_text(program, path, words, verdict, folder):
    """Returns why the text that a run writes does not get this verdict from the program, or None."""
    text = os.path.join(folder, "certify.pair")
    done([path, "-p", text, *words])
    return difference(run(program, ["check", text]), Outcome(verdict.encode() + b"\n", b"", status_of(verdict)))


def runs(program, folder):
    built = library(folder)
    if built is None:
        return
    for name, compiler in WAYS:
        if not usable(folder, name, compiler):
            continue
        path, why = build(built, compiler)
        yield "examples/certify by %s" % name, why
        if why is None:
            yield from cases(program, folder, name, path)


def cases(program, folder, name, path):
    for entries in SIZES:
        wanted = accepted(entries)
        yield "%d entries, %s" % (entries, name), difference(done([path, str(entries)]), wanted)
        last = wanted.stdout.decode().split("\n")[2]
        yield "text of %d entries, %s" % (entries, name), wrong_text(program, path, [str(entries)], last, folder)
    for bug, entries, verdict, place in REFUSED:
        words = ["-b", bug, str(entries)]
        yield "%s in %d entries, %s" % (bug, entries, name), difference(done([path, *words]), refused(verdict, place))
        yield "text of %s in %d entries, %s" % (bug, entries, name), wrong_text(program, path, words, verdict, folder)
    yield "a field that is nil anyway, %s" % name, difference(done([path, "-b", "field", "1"]), accepted(1))
    timed = re.match(TIMES, done([path, "-t", "5"]).stdout)
    yield "times of 6 objects, %s" % name, None if timed and timed.group(1) == b"6" else "not printed"
    for words in [[], ["0"], ["100001"], ["-b", "other", "5"], ["-x", "5"], ["-p", folder, "5"]]:
        status = done([path, *words]).status
        yield "status of %s, %s" % (words, name), None if status == 2 else "status %s, wanted 2" % status


# The number of roots, the root that is wrong or that number, the roots that the new image lacks, the verdict of the call (its refusal, its
# pairs, its place), and the verdict on the text.
#
# A text keeps 272 roots. Of more, it keeps 271, and root k becomes field k - 271 of an object whose pair is the last one. Two objects leave 270
# roots; the first takes the roots 270 to 65804.
MANY_ROOTS = [
    (272, 272, 0, "0 272 0", "yes 272"),
    (272, 271, 0, "10 0 271", "refused 10 RootDiffers 271"),
    (273, 273, 0, "0 273 0", "yes 274"),
    (273, 271, 0, "10 0 271", "refused 9 FieldDiffers 273 0"),
    (300, 300, 0, "0 300 0", "yes 301"),
    (300, 270, 0, "10 0 270", "refused 10 RootDiffers 270"),
    (300, 298, 0, "10 0 298", "refused 9 FieldDiffers 300 27"),
    (300, 300, 1, "3 0 0", "refused 8 HeaderDiffers 300"),
    (300, 300, 28, "3 0 0", "refused 8 HeaderDiffers 300"),
    (300, 300, 100, "3 0 0", "refused 3 RootCount"),
    (5000, 5000, 0, "0 5000 0", "yes 5001"),
    (5000, 4998, 0, "10 0 4998", "refused 9 FieldDiffers 5000 4727"),
    (65806, 65806, 0, "0 65806 0", "yes 65807"),
    (65807, 65807, 0, "0 65807 0", "yes 65809"),
    (65807, 65804, 0, "10 0 65804", "refused 9 FieldDiffers 65807 65534"),
    (65807, 65805, 0, "10 0 65805", "refused 9 FieldDiffers 65808 0"),
]


def many_roots(program, folder):
    """Checks that the text of images with more roots than a text has gets the verdict that is derived by hand."""
    built = library(folder)
    if built is None:
        return
    path = os.path.join(folder, "many_roots")
    sources = [os.path.join(TOP, "tests", "c", "many_roots.c"), *[os.path.join(FOLDER, name) for name in ("certificate.c", "collector.c")]]
    words = ["gcc", "-std=c11", "-O2", *WARNINGS, *SANITIZERS, "-I" + FOLDER, "-I" + os.path.join(built.prefix, "include")]
    made = done([*words, "-o", path, *sources, *built.archive()])
    yield "many_roots.c", None if made.status == 0 else "not built: %s" % made.stderr.decode()
    if made.status != 0:
        return
    text = os.path.join(folder, "many_roots.pair")
    for roots, wrong, fewer, called, verdict in MANY_ROOTS:
        case = "%d roots, %d wrong, %d fewer" % (roots, wrong, fewer)
        yield case, difference(done([path, str(roots), str(wrong), str(fewer), text]), Outcome(called.encode() + b"\n"))
        found = run(program, ["check", text])
        yield "text of " + case, difference(found, Outcome(verdict.encode() + b"\n", b"", status_of(verdict)))


def about(kind, name, number, length):
    return "0x#%d (%s%s, %s)" % (number, name and "entry %s: " % name, kind, length)


def entry(name, number):
    return about("entry", name, number, "4 fields")


OLD_ADDRESS = "  that is still the old address; the replica of the object before is %s"
OF_ENTRY_4 = ["  the object %s with the replica %s" % (entry("4", 0), entry("", 1))]
OF_FIELD = ["refused 9 FieldDiffers 1 3", *OF_ENTRY_4, "  previous", "  before " + entry("2", 2), "  after  0x#2: no object starts there", OLD_ADDRESS % entry("", 3), "  reached by last"]
OF_ROOT = ["refused 10 RootDiffers 2", "  last", "  before " + entry("4", 0), "  after  0x#0: no object starts there", OLD_ADDRESS % entry("", 1)]
OF_LENGTH = ["refused 8 HeaderDiffers 2",
             "  the object %s with the replica %s" % (about("text", "0", 0, "1 word"), about("text", "", 1, "0 words")), "  header",
             "  before kind 1 (text), 1 word", "  after  kind 1 (text), 0 words", "  the kind is the same, the length is 1 less", "  reached by first . name"]
# A bug, whether pairs are inferred, and what gcflip_images prints about five entries. The adapter has no names for what lies in the new space. With inferred
# pairs, `next` of entry 2 refers to the copy of entry 4 that no pair has.
EXPLAINED = [
    ("field", "pairs", OF_FIELD), ("field", "infer", OF_FIELD), ("root", "pairs", OF_ROOT), ("root", "infer", OF_ROOT),
    ("length", "pairs", OF_LENGTH), ("length", "infer", OF_LENGTH),
    ("twice", "pairs", ["refused 7 Twice 6", *OF_ENTRY_4, "  another replica of it is " + entry("", 2), "  reached by last"]),
    ("twice", "infer", ["refused 9 FieldDiffers 3 2", "  the object %s with the replica %s" % (entry("2", 0), entry("", 1)), "  next", "  before " + entry("4", 2),
                        "  after  " + entry("", 3), "  the object was copied twice: %s and %s" % (entry("", 4), entry("", 3)), "  the first copy is reached by last",
                        "  objects with references to two copies: 2", "  reached by first . next"]),
]


def explained(_program, folder):
    """Checks what gcflip_images prints about each planted bug: the objects by their names, both words, and what became of the object."""
    built = library(folder)
    if built is None:
        return
    bugs = ["-I" + FOLDER, *[os.path.join(FOLDER, name) for name in ("collector.c", "list.c")]]
    path, why = built.build(["gcc", *SANITIZERS], "planted_bugs.c", [*bugs, *built.archive()])
    yield "planted_bugs.c", why
    if why:
        return
    for way in ("pairs", "infer"):
        yield "no bug, %s" % way, difference(done([path, "none", way]), Outcome(b"yes 6\n"))
    for bug, way, lines in EXPLAINED:
        found = done([path, bug, way])
        wanted = Outcome(("\n".join(lines) + "\n").encode(), b"", 1)
        yield "%s explained, %s" % (bug, way), difference(Outcome(addresses_numbered(found.stdout), found.stderr, found.status), wanted)


def by_valgrind(_program, folder):
    """Checks that runs with five entries, with and without bugs, read nothing that was never written, and lose no block."""
    built = library(folder)
    if built is None or not has_valgrind("examples/certify"):
        return
    path, why = build(built, ["gcc"])
    yield "5 entries, by valgrind", why or difference(done([*VALGRIND, path, "5"]), accepted(5))
    for bug, entries, verdict, place in REFUSED:
        if entries == 5 and why is None:
            yield "%s in 5 entries, by valgrind" % bug, difference(done([*VALGRIND, path, "-b", bug, "5"]), refused(verdict, place))


def table_of_readme(_program, _folder):
    """Checks that the table of bugs shows the output of runs with five entries."""
    with open(os.path.join(FOLDER, "README.md"), encoding="utf-8") as file:
        text = file.read()
    for bug, entries, verdict, place in REFUSED:
        if entries == 5:
            missing = [line for line in ("`-b %s`" % bug, "`%s`" % verdict, "`%s`" % place) if line not in text]
            yield "bug %s in the table" % bug, "not there: %s" % missing if missing else None


GROUPS = [runs, inferred, many_roots, explained, by_valgrind, table_of_readme]
