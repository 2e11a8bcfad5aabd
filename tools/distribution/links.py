"""Links of a document in a package: each leads to a file of the package. A link to a file that the package has not becomes plain text, or goes with its
parentheses if it stands alone in them."""
import os
import re

FENCED = re.compile(r"(?ms)(^```.*?^```$)")
LINK = re.compile(r"!?\[([^\]]*)\]\(([^)\s]+)\)")
# A link alone in parentheses, and what is before them.
ALONE = re.compile(r"\s\(\[([^\]]*)\]\(([^)\s]+)\)\)")


def links_in(text):
    """Yields the target of each link of a document that leads to a file, without its anchor. Code has no links."""
    for part in FENCED.split(text)[::2]:
        yield from (target.partition("#")[0] for _, target in LINK.findall(part) if leads_to_file(target))


def leads_to_file(target):
    return "://" not in target and not target.startswith("#")


def linked(text, source, places):
    """Returns the text of a document of the repository as a package has it. `places` has the place of each file in the package, by its path in the
    repository."""
    def place_of(path):
        return places.get(os.path.normpath(os.path.join(os.path.dirname(source), path)))

    def kept(alone):
        target = alone.group(2)
        return alone.group(0) if not leads_to_file(target) or place_of(target.partition("#")[0]) else ""

    def replaced(link):
        words, target = link.groups()
        if not leads_to_file(target):
            return link.group(0)
        path, mark, anchor = target.partition("#")
        place = place_of(path)
        if place is None:
            return words
        return "%s%s%s%s)" % (link.group(0)[:-len(target) - 1], os.path.relpath(place, os.path.dirname(places[source])), mark, anchor)

    parts = FENCED.split(text)
    return "".join(part if number % 2 else LINK.sub(replaced, ALONE.sub(kept, part)) for number, part in enumerate(parts))
