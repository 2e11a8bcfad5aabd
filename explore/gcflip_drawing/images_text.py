"""Reads texts of the form 'heapimages 1': one or two images, without pairs."""
from .pair_text import Lines, read_image

MOST_WORDS = 4294967295
MOST_WORD = (1 << 64) - 1


def read_images(text):
    """Returns the images that a text spells, by the names 'old' and 'new'. Raises Unreadable."""
    lines = Lines(text)
    if lines.next("the line 'heapimages 1'") != "heapimages 1":
        lines.fail("the line 'heapimages 1'")
    found = {}
    for name in ("old", "new"):
        if lines.peeks("%s " % name):
            found[name] = read_image(lines, name, MOST_WORDS)
            if max([0, *found[name].words, *found[name].roots]) > MOST_WORD:
                lines.fail("an image of words of 64 bits")
    if not found:
        lines.at += 1
        lines.fail("the size and the end of an image")
    if lines.next("the line 'end'") != "end":
        lines.fail("the line 'end'")
    if lines.at < len(lines.lines):
        lines.at += 1
        lines.fail("the end of the text")
    return found
