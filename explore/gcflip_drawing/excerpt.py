"""Cuts some objects out of a scene that is too large to draw word by word: the objects of a range of one space, with their replicas or
originals in the other one."""
import bisect

from .heap import Object, references, target
from .scene import Mark, Scene, Space, counted

# So many objects are cut out, and so many fields of each.
MOST_OBJECTS, MOST_FIELDS = 8, 40


class Excerpt(Space):
    """Some objects of a space, one behind the other. Each has a place here, and keeps its address in its own space."""

    def __init__(self, space, starts):
        self.name, self.words, self.objects, self.live, self.places = space.name, [], {}, set(), {}
        self.addresses, self.reserved, self.left_out, self.beyond = {}, 0, {}, space.beyond
        for start in starts:
            thing, place = space.objects[start], len(self.words)
            count = min(thing.count, MOST_FIELDS)
            self.places[start], self.addresses[place] = place, start
            self.left_out[place] = thing.count - count
            self.objects[place] = Object(place, thing.raw, thing.kind, count, self.words)
            self.words += space.words[start:start + 2 + count]
            if start in space.live:
                self.live.add(place)
        self.size, self.tail = len(self.words), " of the %s" % space.name
        # The names of roots depend on their number, so the others stay as nil.
        self.roots = [word if target(word, space.beyond) in self.places else 0 for word in space.roots]
        self.said = "%s: %d of %s" % (space.name, len(self.objects), counted(len(space.objects), "object"))

    def place_of(self, address):
        return self.places.get(address)

    def address_of(self, place):
        return self.addresses[place]

    def more_fields(self, place):
        return self.left_out[place]


def starts_between(space, first, last):
    """Returns the starts of the objects with a word from `first` to `last`."""
    starts = space.starts
    begin, end = bisect.bisect_left(starts, first), bisect.bisect_right(starts, last)
    # The object before the range may reach into it.
    reaches = begin > 0 and starts[begin - 1] + space.objects[starts[begin - 1]].size() > first
    return starts[begin - 1 if reaches else begin:end]


def chosen_between(space, first, last, skipped):
    """Returns the starts of the first of these objects behind those that are skipped. If there is only one object, those it refers to come with it."""
    between = starts_between(space, first, last)
    found = between[skipped:skipped + MOST_OBJECTS]
    if len(between) == 1 and found:
        for _, address in references(space.objects[found[0]], space.beyond):
            if address in space.objects and address not in found and len(found) < MOST_OBJECTS:
                found.append(address)
    return found


def marked_in(mark, space, excerpt):
    """Returns a mark at its place in an excerpt, or None if its word is not there."""
    for start, place in excerpt.places.items():
        if start <= mark.address < start + excerpt.objects[place].size():
            return Mark(mark.is_old, place + mark.address - start, min(mark.size, excerpt.objects[place].size()), mark.role, mark.tip)
    return None


def excerpt_of(scene, is_old, first, last, skipped=0):
    """Returns a scene with objects of a range of the old space, or of the new one, behind those that are skipped, and those that are joined with them."""
    chosen = set(chosen_between(scene.old if is_old else scene.new, first, last, skipped))
    joined = [pair for pair in scene.joined if pair[0 if is_old else 1] in chosen][:2 * MOST_OBJECTS]
    joined = [(old, new) for old, new in joined if old in scene.old.objects and new in scene.new.objects]
    others = {pair[1 if is_old else 0] for pair in joined}
    old, new = [Excerpt(space, sorted(starts)) for space, starts in
                ((scene.old, chosen if is_old else others), (scene.new, others if is_old else chosen))]
    found = Scene("objects at words %d to %d" % (first, last), old, new, [(old.places[a], new.places[b]) for a, b in joined], scene.joined_as)
    found.legend = [item for item in scene.legend if item[0] != "free"]
    marks = [marked_in(mark, *((scene.old, old) if mark.is_old else (scene.new, new))) for mark in scene.marks]
    found.marks = [mark for mark in marks if mark is not None]
    return found
