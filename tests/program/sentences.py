"""Tests of the length of sentences: in the documents that a newcomer reads first, and in the headers for C, none has more than 25 words.

A sentence ends with a full stop, a question mark or an exclamation mark, or with its paragraph or its item of a list. What stands between
backquotes is one word, and of a link its text counts. Tables, blocks of code and headings have no sentences.
"""
import glob
import os
import re

from prover.crates import TOP

MOST_WORDS = 25
PAGES = ["README.md", "docs/TUTORIAL.md", "docs/EMBEDDING.md", "docs/CALLS.md", "docs/FAQ.md", "docs/CERTIFY.md", "docs/TRUST.md", "docs/RATTLE.md", "docs/RELATED.md"]
HEADERS = os.path.join("bindings", "c", "*.h")

FENCE = re.compile(r" *```")
# What ends a paragraph: a table, a picture and a heading are none.
OF_THEIR_OWN = re.compile(r" *(?:\||!\[|#)")
ITEM = re.compile(r"^ *(?:[-*]|\d+\.) ")
INDENTED = "    "
COMMENT = re.compile(r"/\*(.*?)\*/", re.S)
# The end of a sentence, before the first letter of the next. A name or a path may begin with a small letter.
END = re.compile(r"(?<=[.?!])[)*\"']* +(?=[(*\"']*(?:[A-Z0-9\[]|\w+[_/]))")
CODE = re.compile(r"`[^`]+`")
LINK = re.compile(r"!?\[([^\[\]]*)\]\([^)]*\)")


def paragraphs_of(lines):
    """Yields the paragraphs and the items of lists among lines, each as one line. A block of code ends the paragraph before it."""
    current, is_code, was_empty = [], False, True
    for line in lines + [""]:
        starts_code = was_empty and line.startswith(INDENTED) and not current
        if FENCE.match(line):
            is_code = not is_code
        is_other = is_code or not line.strip() or starts_code or FENCE.match(line) or OF_THEIR_OWN.match(line)
        if current and (is_other or ITEM.match(line)):
            yield " ".join(current)
            current = []
        if not is_other:
            current.append(ITEM.sub("", line, count=1).strip())
        was_empty = not line.strip() or (was_empty and starts_code)


def comments_of(text):
    """Returns the lines of the comments of C, with an empty line behind each, without the star at the head of a line."""
    return [re.sub(r"^ *\* ?", "", line) for comment in COMMENT.findall(text) for line in comment.split("\n") + [""]]


def sentences_of(lines):
    """Yields the sentences among lines."""
    for paragraph in paragraphs_of(lines):
        yield from (LINK.sub(r"\1", sentence) for sentence in END.split(CODE.sub("Code", paragraph)))


def words_of(sentence):
    """Returns the words of a sentence. A sign that stands alone is none."""
    return [word for word in sentence.split() if re.search(r"\w", word)]


def long_sentences(path, text):
    """Yields the sentences of a document or a header that have too many words, each with their number."""
    for sentence in sentences_of(comments_of(text) if path.endswith(".h") else text.split("\n")):
        count = len(words_of(sentence))
        if count > MOST_WORDS:
            yield count, sentence


def lengths(_program, _folder):
    """Checks that no sentence is too long, in each page and each header."""
    for path in PAGES + sorted(os.path.relpath(path, TOP) for path in glob.glob(os.path.join(TOP, HEADERS))):
        with open(os.path.join(TOP, path), encoding="utf-8") as file:
            found = list(long_sentences(path, file.read()))
        yield "sentences of %s" % path, "; ".join("%d words: %s" % each for each in found) or None


# A sentence as long as one may be, and one that has a word more.
RIGHT, LONG = "The " + 23 * "long " + "sentence.", "The " + 24 * "long " + "sentence."
# Texts of documents, and of headers, and how many of their sentences are too long.
IN_DOCUMENTS = [(RIGHT, 0), (LONG, 1), (LONG.replace("long ", "long\n", 12), 1), (RIGHT + " " + LONG + " " + RIGHT, 1), ("- a\n  %s" % LONG, 1),
                ("| %s | b |" % LONG, 0), ("```c\n%s\n```" % LONG, 0), ("Code:\n\n    %s\n" % LONG, 0), ("# " + LONG, 0), ("```c\na\n```\n%s" % LONG, 1),
                ("- %s\n- %s" % (RIGHT[:-1], RIGHT[:-1]), 0), ("Words:\n- %s" % LONG, 1), ("`%s`" % LONG, 0), ("%s `a` is %s" % (RIGHT, RIGHT), 1),
                (RIGHT + " [A](b c) is.", 0), (LONG.replace("long sentence", "[long](a.md) sentence"), 1),
                (LONG.replace("long sentence", "`a b` - sentence"), 1), (RIGHT.replace("long sentence", "long - sentence"), 0)]
IN_HEADERS = [("/* %s */" % LONG, 1), ("/*\n * %s\n */" % LONG.replace("long ", "long\n * ", 12), 1), ("/* %s */\nint a; %s" % (RIGHT, LONG), 0),
              ("/* - %s\n * - %s */" % (RIGHT[:-1], RIGHT[:-1]), 0), ("/* Code:\n *\n *     %s */" % LONG, 0), ("/* %s gcflip_a does. */" % RIGHT, 0)]


def controls(_program, _folder):
    """Checks that long sentences are found, and that tables, code and headings are passed over."""
    for path, texts in (("a.md", IN_DOCUMENTS), ("a.h", IN_HEADERS)):
        for text, wanted in texts:
            found = len(list(long_sentences(path, text)))
            yield "%s with %r" % (path, text), None if found == wanted else "found %d" % found


GROUPS = [lengths, controls]
