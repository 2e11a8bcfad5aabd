"""docs/DECISIONS_INDEX.md: a line for each decision, in the order of the pages that docs/DECISIONS.md lists.

A decision is a part of a page of docs/decisions/ with a heading of the second level.
"""
import glob
import os
import re

from .crates import TOP
from .made_pages import differences, path_of, read

DECISIONS = os.path.join(TOP, "docs", "DECISIONS.md")
DOCUMENT = path_of("DECISIONS_INDEX.md")
PAGES = os.path.join(TOP, "docs", "decisions", "*.md")
# - [Collections](decisions/collections.md): steps, flips, spaces and links
LINE = re.compile(r"(?m)^- \[[^\]]*\]\(decisions/(\w+\.md)\)")
HEAD = """# Index of decisions

`tools/decisions --write` makes this list from the pages that [DECISIONS.md](DECISIONS.md) names, and CI checks it.
"""


def pages():
    """Returns the text of each page of decisions by its name."""
    return {os.path.basename(path): read(path) for path in sorted(glob.glob(PAGES))}


def decisions_of(text):
    """Returns the decisions of a page: the heading of each, and its text."""
    parts = re.split(r"(?m)^## (.*)$", text)[1:]
    return list(zip(parts[::2], parts[1::2]))


def anchor(heading):
    """Returns the anchor that a heading gets: small letters, hyphens for spaces, and no other signs."""
    return re.sub(r"[^\w\- ]", "", heading.lower()).replace(" ", "-")


def index(listed, texts):
    """Returns the index of the decisions of these pages, in the order in which they are listed."""
    found = [HEAD]
    for name in LINE.findall(listed):
        text = texts.get(name, "")
        found.append("\n## %s\n\n" % re.match(r"# (.*)|", text).group(1))
        found += ["- [%s](decisions/%s#%s)\n" % (heading, name, anchor(heading)) for heading, _ in decisions_of(text)]
    return "".join(found)


def faults(shown, listed, texts):
    """Yields what is wrong with a shown index: pages that are not listed once, and lines that it or the right one alone has."""
    names = LINE.findall(listed)
    yield from ["docs/DECISIONS.md does not list %s once" % name for name in sorted(set(names) | set(texts)) if names.count(name) != 1 or name not in texts]
    yield from differences("DECISIONS_INDEX.md", "decisions", shown, index(listed, texts))
