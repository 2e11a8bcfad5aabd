"""Tests of the decisions: docs/DECISIONS.md lists each page, docs/DECISIONS_INDEX.md is what tools/decisions makes, and no decision has more than 120 words.

The words of a decision are counted with those of its heading; blocks of code and rows of tables count too.
"""
from prover import decisions as page

MOST_WORDS = 120


def too_long(name, decisions):
    """Returns which decisions of a page have too many words, or None."""
    counts = [(heading, len((heading + " " + text).split())) for heading, text in decisions]
    found = ["%s: %s has %d words" % (name, heading, count) for heading, count in counts if count > MOST_WORDS]
    return "; ".join(found) or None


def decisions(_program, _folder):
    """The index is that of the pages, each page is listed, and no decision is too long."""
    yield "docs/DECISIONS_INDEX.md", "; ".join(page.faults(page.read(page.DOCUMENT), page.read(page.DECISIONS), page.pages())) or None
    for name, text in page.pages().items():
        found = page.decisions_of(text)
        yield "words of decisions: %s" % name, too_long(name, found) or (None if found else "there is none")


def rules(_program, _folder):
    """Pages and lists that break a rule are told from those that keep it."""
    text = "# Page\n\nWhat it has.\n\n## `One` way, not two\n\nText.\n\n## Two\n\nMore.\n"
    listed = "# Decisions\n\n- [Page](decisions/page.md): what it has\n"
    index = page.HEAD + "\n## Page\n\n- [`One` way, not two](decisions/page.md#one-way-not-two)\n- [Two](decisions/page.md#two)\n"
    long, as_long = [page.decisions_of(text.replace("More.", "more " * count)) for count in (MOST_WORDS, MOST_WORDS - 1)]
    tries = [("right", list(page.faults(index, listed, {"page.md": text})), []),
             ("as long as may be", too_long("page.md", as_long), None),
             ("too long", too_long("page.md", long), "page.md: Two has 121 words"),
             ("a line is missing", bool(list(page.faults(index.replace("- [Two](decisions/page.md#two)\n", ""), listed, {"page.md": text}))), True),
             ("another order", bool(list(page.faults(index, listed, {"page.md": text.replace("## Two", "## Zero").replace("`One` way, not two", "Two").replace("## Zero", "## `One` way, not two")}))), True),
             ("another anchor", bool(list(page.faults(index.replace("#two", "#tow"), listed, {"page.md": text}))), True),
             ("a page that is not listed", bool(list(page.faults(index, listed, {"page.md": text, "other.md": text}))), True),
             ("a page that is listed twice", bool(list(page.faults(index, listed + listed, {"page.md": text}))), True),
             ("a page that does not exist", bool(list(page.faults(index, listed + "- [Other](decisions/other.md): more\n", {"page.md": text}))), True)]
    for name, told, wanted in tries:
        yield "rules of decisions: %s" % name, None if told == wanted else "told %r, wanted %r" % (told, wanted)


GROUPS = [decisions, rules]
