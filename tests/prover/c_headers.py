"""The functions that the headers for C declare, each with the comment above it."""
import os
import re

from .crates import TOP

HEADERS = ("gcflip.h", "gcflip_heap.h", "gcflip_slots.h", "gcflip_images.h", "gcflip_answers.h")
SYMBOLS = os.path.join(TOP, "bindings", "c", "symbols.txt")

# A section's title is the first sentence, or the first line, of its comment.
SECTION = re.compile(r"(?m)^/\* ---- ([^.:\n*]*)")
PROTOTYPE = r"((?:static inline )?(?!typedef|enum|struct)[a-z][\w *]*?)\b(gcflip_\w+)\(([^;{]*)\)(?:;|\n\{\n(.*?)\n\})\n"
# A comment, and the functions right below it.
DECLARED = re.compile(r"(?ms)^/\*(?! ----) ((?:(?!\*/).)*?) ?\*/\n((?:%s)+)" % PROTOTYPE)
ANSWER = re.compile(r"(?m)^    (GCFLIP_\w+) = (\d+),?")
SENTENCE = re.compile(r"(?<=[.?!]) +(?=[A-Z`\"])")
# The answers at the end of a sentence: what the function does is said before them.
TAIL = re.compile(r"(?::| ?, or) GCFLIP_.*\.$|: GCFLIP_[^.]*\.$")


class Function:
    """A function of a header: its name, the type that it returns, the body if it is inline, its section, and the words of its comment."""

    def __init__(self, header, section, comment, prototype):
        self.header, self.section, self.comment = header, section, comment
        returned, self.name, _, self.body = prototype
        self.is_inline = returned.startswith("static inline")
        self.returns = " ".join(returned.replace("static inline", "").split())

    def does(self):
        """Returns what the function does: the first sentence of its comment, without its answers."""
        return TAIL.sub(".", SENTENCE.split(self.comment)[0])

    def calls(self):
        """Returns the call whose answer an inline function returns, or None."""
        made = re.search(r"return (gcflip_\w+)\(", self.body) if self.is_inline else None
        return made.group(1) if made else None

    def names(self, known):
        """Returns which of these answers the comment names. Functions of types that have no answer return none."""
        return [] if self.returns not in ("uint32_t", "gcflip_seen") else [answer for answer in known if re.search(r"\b%s\b" % answer, self.comment)]


def text_of(header):
    with open(os.path.join(TOP, "bindings", "c", header), encoding="utf-8") as file:
        return file.read()


def words_of(comment):
    """Returns a comment as one line."""
    return " ".join(re.sub(r"(?m)^ \* ?", "", comment).split())


def functions_of(header):
    """Returns the functions of a header that have a comment, in order."""
    text = text_of(header)
    starts = [(found.start(), found.group(1).strip()) for found in SECTION.finditer(text)]
    found = []
    for declared in DECLARED.finditer(text):
        section = next((title for start, title in reversed(starts) if start < declared.start()), "")
        for prototype in re.findall(r"(?ms)" + PROTOTYPE, declared.group(2)):
            found.append(Function(header, section, words_of(declared.group(1)), prototype))
    return found


def answers():
    """Returns the names of the answers of C, without GCFLIP_, in the order of their numbers. 0 has two names."""
    return [name for name, _ in ANSWER.findall(text_of("gcflip_answers.h").partition("enum gcflip_answer {")[2].partition("};")[0])]


def symbols():
    """Returns the names of the functions that a program may link."""
    with open(SYMBOLS, encoding="utf-8") as file:
        return re.findall(r"(?m)^(?!#).*?\b(gcflip_\w+)\(", file.read())


def heap_calls():
    """Returns the names of those that take a heap first."""
    with open(SYMBOLS, encoding="utf-8") as file:
        return set(re.findall(r"(?m)^(?!#).*?\b(gcflip_\w+)\((?:const )?gcflip_heap \*", file.read()))
