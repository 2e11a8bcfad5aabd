"""Reads and writes pair texts as far as pictures need it. Only `gcflip check` and the library decide what a pair text is."""
import functools
import re

NUMBER = re.compile(r"0|[1-9][0-9]{0,19}")
MOST_WORDS = 1048576


class Unreadable(Exception):
    """The reason why a text has no picture."""


class Image:
    """A heap: the size of its space, its words up to the end, and its root words."""

    def __init__(self, size, words, roots):
        self.size, self.words, self.roots = size, words, roots


class PairText:
    """Two heaps with a certificate. `raws` says whether headers of raw objects count."""

    def __init__(self, raws, old, new, pairs):
        self.raws, self.old, self.new, self.pairs = raws, old, new, pairs


class Lines:
    """The lines of a text, one after the other."""

    def __init__(self, text):
        self.lines, self.at = text.split("\n"), 0
        if self.lines[-1]:
            raise Unreadable("the last line lacks its line feed")
        self.lines.pop()

    def fail(self, wanted):
        raise Unreadable("line %d is not %s" % (self.at, wanted))

    def next(self, wanted):
        self.at += 1
        if self.at > len(self.lines):
            raise Unreadable("the text ends before %s" % wanted)
        return self.lines[self.at - 1]

    def peeks(self, start):
        """Returns whether the next line begins so."""
        return self.at < len(self.lines) and self.lines[self.at].startswith(start)

    def numbers(self, form, wanted):
        """Returns the numbers of the next line, which has to match the form, with a '#' for each number."""
        words, forms = self.next(wanted).split(" "), form.split(" ")
        if len(words) != len(forms) or any(not NUMBER.fullmatch(word) if form == "#" else word != form for word, form in zip(words, forms)):
            self.fail("%s, as '%s'" % (wanted, " ".join(forms)))
        return [int(word) for word, form in zip(words, forms) if form == "#"]

    def words(self, count, wanted):
        """Returns the numbers of the next lines, one in each."""
        part = self.lines[self.at:self.at + count]
        if len(part) == count and all(map(NUMBER.fullmatch, part)):
            self.at += count
            return list(map(int, part))
        return [self.numbers("#", wanted)[0] for _ in range(count)]


def read_image(lines, name, most=MOST_WORDS):
    size, end = lines.numbers("%s # #" % name, "the size and the end of the %s heap" % name)
    if max(size, end) > most:
        lines.fail("a space of at most %d words" % most)
    words = lines.words(end, "a word of the %s heap" % name)
    count, = lines.numbers("roots #", "the number of roots")
    return Image(size, words, lines.words(count, "a root word of the %s heap" % name))


def read_pair(text):
    """Returns the pair that a text spells. Raises Unreadable."""
    lines = Lines(text)
    version, = lines.numbers("heappair #", "the first line of a pair text")
    old = read_image(lines, "old")
    new = read_image(lines, "new")
    count, = lines.numbers("pairs #", "the number of pairs")
    pairs = [tuple(lines.numbers("# #", "a pair")) for _ in range(count)]
    if lines.next("the line 'end'") != "end":
        lines.fail("the line 'end'")
    return PairText(version == 2, old, new, pairs)


@functools.lru_cache(maxsize=2)
def read_accepted(text):
    """Returns the pair of a text that the library has read without a fault. Nobody may change what is returned, since it is kept."""
    lines = text.split("\n")
    old, at = accepted_image(lines, 1)
    new, at = accepted_image(lines, at)
    count = int(lines[at].split(" ")[1])
    places = map(int, " ".join(lines[at + 1:at + 1 + count]).split())
    # Each pair is the next two places.
    return PairText(lines[0] == "heappair 2", old, new, list(zip(places, places)))


def accepted_image(lines, at):
    """Returns the image that begins at a place of the lines, and the place behind it."""
    _, size, end = lines[at].split(" ")
    words = list(map(int, lines[at + 1:at + 1 + int(end)]))
    at += 1 + int(end)
    count = int(lines[at].split(" ")[1])
    return Image(int(size), words, list(map(int, lines[at + 1:at + 1 + count]))), at + 1 + count


def written_image(name, image):
    return ["%s %d %d" % (name, image.size, len(image.words)), *map(str, image.words), "roots %d" % len(image.roots), *map(str, image.roots)]


def written(pair):
    """Returns the text of a pair."""
    lines = ["heappair %d" % (2 if pair.raws else 1), *written_image("old", pair.old), *written_image("new", pair.new)]
    lines += ["pairs %d" % len(pair.pairs), *["%d %d" % places for places in pair.pairs], "end"]
    return "\n".join(lines) + "\n"
