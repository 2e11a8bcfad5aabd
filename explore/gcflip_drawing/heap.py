"""Decodes the words of a heap image."""
import collections.abc

PLAIN, RAW, HEADERS = 16777216, 50331648, 16777216
# References are the even words below the first number, and in a space with more words below the second one.
REFERENCES, WIDE_REFERENCES = 2097152, 1 << 33


class Object:
    """An object of an image, with the number of its fields. `words` are those of its space."""

    __slots__ = ("start", "raw", "kind", "count", "words")

    def __init__(self, start, raw, kind, count, words):
        self.start, self.raw, self.kind, self.count, self.words = start, raw, kind, count, words

    @property
    def fields(self):
        """The words of the fields."""
        return self.words[self.start + 2:self.start + 2 + self.count]

    def size(self):
        return self.count + 2


def header_of(word, raws):
    """Returns whether a header word is raw, its kind and its length, or None if the word is not a header."""
    if PLAIN <= word < PLAIN + HEADERS:
        return False, word - PLAIN >> 16, length_of(word)
    if raws and RAW <= word < RAW + HEADERS:
        return True, word - RAW >> 16, length_of(word)
    return None


class Objects(collections.abc.Mapping):
    """The objects of a space by their starts, in their order. It keeps their header words, and makes an object when it is asked for."""

    def __init__(self, words, headers):
        self.words, self.headers = words, headers

    def __getitem__(self, start):
        return Object(start, *header_of(self.headers[start], True), self.words)

    def __contains__(self, start):
        return start in self.headers

    def __iter__(self):
        return iter(self.headers)

    def __len__(self):
        return len(self.headers)


def length_of(header):
    """Returns the number of fields that a header word tells."""
    return header & 65535


def walk(words, raws):
    """Returns the objects of a space by their starts, up to the first word that is not a header or whose object runs past the end."""
    headers, at, end = {}, 1, len(words)
    while at < end:
        word = words[at]
        # A call of length_of for each object would take as long as all else here.
        behind = at + (word & 65535) + 2
        if behind > end or not (PLAIN <= word < PLAIN + HEADERS or raws and RAW <= word < RAW + HEADERS):
            break
        headers[at] = word
        at = behind
    return Objects(words, headers)


def beyond(words):
    """Returns the least number that no reference of a space with these words is."""
    return REFERENCES if 2 * len(words) <= REFERENCES else WIDE_REFERENCES


def target(word, limit=REFERENCES):
    """Returns the address that a word refers to, or None. References are below the limit."""
    return word // 2 if word % 2 == 0 and 0 < word < limit else None


def shown(word, limit=REFERENCES):
    """Returns the meaning of a field or root word. References are below the limit."""
    if word == 0:
        return "nil"
    if word % 2 == 1:
        return str(word // 2)
    return "\u2192%d" % (word // 2) if target(word, limit) else "?"


def references(thing, limit=REFERENCES):
    """Returns the numbers of an object's fields that hold references, which are below the limit, with the addresses."""
    if thing.raw:
        return []
    return [(i, target(word, limit)) for i, word in enumerate(thing.fields) if target(word, limit) is not None]


def reachable(objects, roots):
    """Returns the starts of the objects that the roots reach."""
    return reach(objects, roots, set())


def reach(objects, words, found, until=None):
    """Adds to a set of starts those of the objects to which these words lead, by way of objects that are not in it yet. Ends once it has `until`. Returns the set."""
    headers, of_space = objects.headers, objects.words
    most = 2 * len(of_space)
    waiting = [word >> 1 for word in words if 0 < word < most and not word & 1]
    while waiting and until not in found:
        at = waiting.pop()
        if at not in found and at in headers:
            found.add(at)
            if headers[at] < RAW:
                waiting += [word >> 1 for word in of_space[at + 2:at + 2 + length_of(headers[at])] if 0 < word < most and not word & 1]
    return found
