"""Tests of tools/compare: what it prints about pairs of images, and the texts and command lines that it refuses.

Verdicts and places follow from docs/FORMATS.md; none was taken from a run.
"""
import os
import sys

from .c_builds import TOP, done, library
from .harness import file_of
from .pairs import text_of

COMPARE = os.path.join(TOP, "tools", "compare")


def images(lines):
    return text_of(lines, form="heapimages")


# The images, and what the tool prints.
COMPARED = {
    "two_empty_heaps": ("old 1 1/0/roots 0/new 1 1/0/roots 0", "yes 0"),
    "an_object_that_moved": ("old 8 5/0/16777216/0/16777216/0/roots 1/6/new 8 3/0/16777216/0/roots 1/2", "yes 1"),
    "a_cycle_of_two": ("old 9 7/0/16777217/0/8/16777217/0/2/roots 1/2/new 9 7/0/16777217/0/8/16777217/0/2/roots 1/8", "yes 2"),
    "raw_words": ("old 9 4/0/50331649/0/2/roots 1/2/new 9 4/0/50331649/0/2/roots 1/2", "yes 1"),
    "a_field_differs": (
        "old 9 7/0/16777217/0/8/16777217/0/15/roots 1/2/new 9 7/0/16777217/0/8/16777217/0/79/roots 1/2",
        "refused 9 FieldDiffers 1 0\nroot 0 . field 0 . field 0: old 7, new 39",
    ),
    "a_replica_for_two": (
        "old 8 5/0/16777216/0/16777216/0/roots 2/2/6/new 8 3/0/16777216/0/roots 2/2/2",
        "refused 10 RootDiffers 1\nroot 1: old a reference to 3, new a reference to 1",
    ),
    "kinds_differ": (
        "old 8 3/0/16777216/0/roots 1/2/new 8 3/0/16842752/0/roots 1/2",
        "refused 8 HeaderDiffers 0\nroot 0: old an object of kind 0 with 0 fields, new an object of kind 1 with 0 fields",
    ),
    "a_root_of_a_mutator": (
        "old 1 1/0/roots 32/%s15/%s/new 1 1/0/roots 32/%s" % ("0/" * 17, "/".join("0" * 14), "/".join("0" * 32)),
        "refused 10 RootDiffers 17\nr1 of mutator 0 (place 17): old 7, new nil",
    ),
    "old_is_no_heap": (
        "old 8 3/0/5/0/roots 0/new 1 1/0/roots 0",
        "refused 1 OldShape 1\nthe old image is no heap: word 1 is no header, or its object runs past the end: 5",
    ),
    "new_has_no_size": ("old 1 1/0/roots 0/new 0 0/roots 0", "refused 2 NewShape 0\nthe new image is no heap: its size, its end or word 0 is wrong"),
    "numbers_of_roots": ("old 1 1/0/roots 1/0/new 1 1/0/roots 2/0/0", "refused 3 RootCount\nthe images have different numbers of roots: old 1, new 2"),
}

# Texts that are not of the form, and what is said about them.
UNREADABLE = {
    "no_heading": (b"", "the text ends before the line 'heapimages 1'"),
    "a_pair_text": (b"heappair 2\n", "line 1 is not the line 'heapimages 1'"),
    "no_last_line_feed": (b"heapimages 1\nend", "the last line lacks its line feed"),
    "no_image": (b"heapimages 1\nend\n", "line 2 is not the size and the end of an image"),
    "one_image_alone": (images("old 1 1/0/roots 0"), "there is no new image"),
    "new_before_old": (images("new 1 1/0/roots 0/old 1 1/0/roots 0"), "line 5 is not the line 'end'"),
    "a_line_after_the_end": (images("old 1 1/0/roots 0/new 1 1/0/roots 0") + b"\n", "line 9 is not the end of the text"),
    "a_word_of_65_bits": (images("old 1 1/18446744073709551616/roots 0/new 1 1/0/roots 0"), "line 4 is not an image of words of 64 bits"),
    "a_size_of_33_bits": (images("old 4294967296 1/0/roots 0/new 1 1/0/roots 0"), "line 2 is not a space of at most 4294967295 words"),
    "no_number": (images("old 1 1/x/roots 0/new 1 1/0/roots 0"), "line 3 is not a word of the old heap, as '#'"),
}


class Tool:
    def __init__(self, built):
        self.environment = dict(os.environ, GCFLIP_LIBRARY=os.path.join(built.lib, "libgcflip.so"))

    def run(self, *words):
        return done([sys.executable, COMPARE, *words], env=self.environment)

    def differs(self, words, status, printed, fault=""):
        """Returns how a run differs from this status, output and line on standard error, or None."""
        found = self.run(*words)
        told = (found.status, found.stdout.decode(), found.stderr.decode())
        wanted = (status, printed + "\n" if printed else "", "compare: %s\n" % fault if fault else "")
        return None if told == wanted else "%r, not %r" % (told, wanted)


def tool_over(folder):
    """Returns the tool with the library, or None, with a line that says so, if nothing can be built."""
    built = library(folder)
    return built and Tool(built)


def told(_program, folder):
    tool = tool_over(folder)
    if tool is None:
        return
    for name, (lines, printed) in COMPARED.items():
        status = 0 if printed.startswith("yes") else 1
        yield name, tool.differs([file_of(folder, "images", images(lines))], status, printed)
        old, _, new = lines.partition("/new ")
        files = [file_of(folder, "old", images(old)), file_of(folder, "new", images("new " + new))]
        yield "%s, in two files" % name, tool.differs(files, status, printed)
    lines, printed = COMPARED["a_field_differs"]
    pair = file_of(folder, "pair", text_of(lines + "/pairs 0"))
    yield "pairs_are_passed_over", tool.differs(["--pair", pair], 1, printed)


def refused(_program, folder):
    tool = tool_over(folder)
    if tool is None:
        return
    for name, (text, fault) in UNREADABLE.items():
        yield name, tool.differs([file_of(folder, "images", text)], 3, "", fault)
    old = file_of(folder, "old", images("old 1 1/0/roots 0"))
    yield "an_image_twice", tool.differs([old, old], 3, "", "%s has the old image again" % old)
    missing = os.path.join(folder, "missing")
    yield "no_file", tool.differs([missing], 4, "", "[Errno 2] No such file or directory: %r" % missing)
    for words in ([], [old, old, old], ["--pair", old, old]):
        yield "%d words" % len(words), None if tool.run(*words).status == 2 else "no fault of the command line"


GROUPS = [told, refused]
