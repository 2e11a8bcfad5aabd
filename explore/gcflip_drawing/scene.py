"""A scene, which a picture of a heap shows: one or two spaces, which objects belong together, and marks."""
import copy
import functools
from typing import NamedTuple

from .heap import Objects, beyond, reach, reachable, target, walk


class Space:
    """A space with its words and root words, and its objects by their starts. `live` has the starts of the reachable ones."""

    def __init__(self, name, image, raws=True, live=None):
        self.name, self.size, self.words, self.roots = name, image.size, image.words, image.roots
        self.objects = walk(image.words, raws)
        # References are below this word.
        self.beyond = beyond(image.words)
        self.live = reachable(self.objects, image.roots) if live is None else live
        # How many words at the start are reserved, and the heading, if it is not the usual one.
        self.reserved, self.said = 1, None
        # What follows the address in the tip of an object.
        self.tail = ""
        # The sort of each block, for each way to draw the space in blocks.
        self.block_sorts = {}

    def with_image(self, image):
        """Returns the space with another image, whose headers are the same. All that was found of this space is kept."""
        other = copy.copy(self)
        other.words, other.roots = image.words, image.roots
        other.objects = Objects(image.words, self.objects.headers)
        return other

    def lead_on(self, before, after):
        """Finds the reachable objects anew, where a root or a field of a reachable object has another word than before."""
        lost, gained = target(before, self.beyond), target(after, self.beyond)
        live = self.live if gained not in self.objects or gained in self.live else reach(self.objects, [after], set(self.live))
        if lost in self.objects:
            found = reach(self.objects, self.roots, set(), lost)
            live = live if lost in found else found
        if live is not self.live:
            self.live, self.block_sorts = live, {}
            self.__dict__.pop("unreachable", None)

    def sort(self, thing):
        return "garbage" if thing.start not in self.live else "raw" if thing.raw else "object"

    @functools.cached_property
    def starts(self):
        """The starts of the objects, in their order."""
        return list(self.objects)

    def place_of(self, address):
        """Returns where the word of an address is drawn, or None if it is not."""
        return address

    def address_of(self, place):
        """Returns the address of the object that is drawn at a place."""
        return place

    def more_fields(self, place):
        """Returns how many fields of the object at a place are not drawn."""
        return 0

    @functools.cached_property
    def unreachable(self):
        """The number of unreachable objects."""
        return len(self.objects) - sum(map(self.objects.__contains__, self.live))


def counted(count, name):
    return "%d %s" % (count, name if count == 1 else name + "s")


def objects_of(space):
    """Returns the number of objects of a space, as a text."""
    return counted(len(space.objects), "object") + (", %d of them unreachable" % space.unreachable if space.unreachable else "")


class Mark(NamedTuple):
    """A mark on words of a space. `role` says what it means."""

    is_old: bool
    address: int
    size: int
    role: str
    tip: str = ""


class Scan(NamedTuple):
    """The place of the scan pointer: before a word of the new space, or after it."""

    address: int
    is_behind: bool


class Scene:
    """One or two spaces with marks. `new` is None if there is one space. `joined` has pairs of an old and a new address, which get
    lines of the role `joined_as`. `scan` is a Scan, or None."""

    def __init__(self, title, old, new=None, joined=(), joined_as="pair"):
        self.title, self.old, self.new, self.joined, self.joined_as = title, old, new, joined, joined_as
        # A text and its role, and a second text for the lines below it.
        self.caption, self.explanation, self.legend = None, "", []
        self.marks, self.scan = [], None
        # For each root: whether it belongs to the old space, and its place.
        self.changed_roots = set()
        # The place of the root that the checker names.
        self.root = None

    def note_changed(self, is_old, row, address):
        """Marks a word of a space, or a root word, that was just changed."""
        if row == "roots":
            self.changed_roots.add((is_old, address))
        else:
            self.marks.append(Mark(is_old, address, 1, "changed"))

    def spaces(self):
        """Returns the one or two spaces, each with whether it is the old one."""
        return [(self.old, True)] + ([] if self.new is None else [(self.new, False)])

    def marks_of(self, role):
        return [mark for mark in self.marks if mark.role == role]
