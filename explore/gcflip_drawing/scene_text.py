"""Says in lines of text what the picture of a scene shows, for readers who cannot see it."""
from gcflip.inference import root_name

from .heap import shown, target
from .scene import counted
from .words_picture import heading

# Longer lists are cut.
MOST_OBJECTS = 100


def named(word, space):
    """Returns what a root word or a field of a space holds, in words."""
    address = target(word, space.beyond)
    if address is None:
        return shown(word)
    return "the object at %d" % address if address in space.objects else "address %d, where no object starts" % address


def roots_of(space):
    """Yields a line for each root that is not nil."""
    for place, word in enumerate(space.roots):
        if word != 0:
            yield "%s: %s" % (root_name(place, len(space.roots)), named(word, space))


def objects_in(space):
    """Yields a line for each of the first objects."""
    for number, thing in enumerate(space.objects.values()):
        if number == MOST_OBJECTS:
            yield "and %d more" % (len(space.objects) - MOST_OBJECTS)
            return
        sort = {"garbage": "unreachable ", "raw": "raw "}.get(space.sort(thing), "")
        fields = [str(word) if thing.raw else named(word, space) for word in thing.fields[:16]]
        rest = ["and %d more" % (thing.count - 16)] if thing.count > 16 else []
        yield "%sobject at %d, kind %d, link %d, %s%s" % (
            sort, thing.start, thing.kind, space.words[thing.start + 1], counted(thing.count, "field"),
            ": " + ", ".join(fields + rest) if fields else "")


def told(scene):
    """Returns the lines: each space with its roots and objects, the pairs, the fields of log entries, and the scan pointer."""
    lines = []
    for space, _ in scene.spaces():
        lines += [heading(space), *roots_of(space), *objects_in(space)]
    lines += ["%s: the objects at %d and at %d" % (scene.joined_as, old, new) for old, new in scene.joined[:MOST_OBJECTS]]
    lines += ["%s: word %d of the %s space" % (mark.tip or mark.role, mark.address, "old" if mark.is_old else "new")
              for mark in scene.marks[:MOST_OBJECTS] if mark.role != "changed"]
    if scene.scan is not None:
        lines.append("scan pointer: %s word %d of the new space" % ("behind" if scene.scan.is_behind else "before", scene.scan.address))
    return lines
