"""Reads trace texts. For a text that is not a trace, the fault is the line that `gcflip play` prints. docs/FORMATS.md has the grammar."""
import functools
import io
import re
from typing import NamedTuple

MOST_BYTES = 16777216
MOST_WORDS = 1048576
MOST_MUTATORS = 16
# No number of a trace has more digits.
DECIMAL = re.compile("0|[1-9][0-9]{0,18}")
SLOT = re.compile("[gr](?:[0-9]|1[0-5])")
FIRST_LINE = re.compile("heaptrace ([123])")
SECOND_LINE = re.compile("space (%s) mutators (%s)" % (DECIMAL.pattern, DECIMAL.pattern))


class BadTrace(Exception):
    """The text is not a trace. The exception's text is the line that `gcflip play` prints; `line` is the faulty line, or None."""

    def __init__(self, message, line=None):
        super().__init__(message)
        self.line = line


class Event(NamedTuple):
    """An event line. Slots are numbered as in the binding: a mutator's own are 0 to 15, the shared ones 16 to 31."""

    line: str
    mutator: "int | None"
    """The mutator that performs the command; None for a step of the collector."""
    name: str
    numbers: "tuple[int, ...]"


class Trace(NamedTuple):
    version: int
    size: int
    mutators: int
    events: "list[Event] | Events"


def number_to(most):
    """Returns a reader of decimals up to `most`. It returns None for any other word."""
    def read(word):
        number = int(word) if DECIMAL.fullmatch(word) else most + 1
        return number if number <= most else None
    return read


def slot(word):
    if not SLOT.fullmatch(word):
        return None
    return int(word[1:]) + (16 if word[0] == "g" else 0)


def size(word):
    return number_to(MOST_WORDS)(word) or None


mutator, kind, length, field = number_to(MOST_MUTATORS - 1), number_to(255), number_to(65535), number_to(65535)
number = number_to(9223372036854775807)

# The forms of each command and of each step: the lowest version that has the form, and the readers of its words.
COMMANDS = {
    "new": [(1, (slot, kind, length))],
    "raw": [(3, (slot, kind, length))],
    "num": [(1, (slot, number))],
    "nil": [(1, (slot,))],
    "move": [(1, (slot, slot))],
    "get": [(1, (slot, slot, field))],
    "put": [(1, (slot, field, slot))],
    "same": [(1, (slot, slot))],
    "look": [(1, (slot,))],
}
STEPS = {
    "begin": [(1, ()), (2, (size,))],
    "roots": [(1, ())],
    "scan": [(1, ())],
    "apply": [(1, (mutator,))],
    "flip": [(1, ())],
    "drop": [(1, ())],
}


# Long traces repeat few lines.
@functools.lru_cache(maxsize=65536)
def event_of(line, version=3):
    """Returns the event that a line spells in a version, or None."""
    words = line.split(" ")
    if words[0] == "c" and len(words) > 1:
        who, forms, name, rest = None, STEPS, words[1], words[2:]
    elif words[0] == "m" and len(words) > 2 and mutator(words[1]) is not None:
        who, forms, name, rest = int(words[1]), COMMANDS, words[2], words[3:]
    else:
        return None
    for least, readers in forms.get(name, []):
        numbers = tuple(read(word) for read, word in zip(readers, rest))
        if version >= least and len(readers) == len(rest) and None not in numbers:
            return Event(line, who, name, numbers)
    return None


def version_of(events):
    """Returns the lowest version that has all these events."""
    least = [form[0] for event in events for form in (STEPS if event.mutator is None else COMMANDS)[event.name]
             if len(form[1]) == len(event.numbers)]
    return max(least, default=1)


def heading(version, size_in_words, mutators):
    """Returns the first two lines of a trace."""
    return "heaptrace %d\nspace %d mutators %d\n" % (version, size_in_words, mutators)


def check_mutator(event, mutators, at):
    """Raises BadTrace if the event of line `at` names a mutator that the trace does not have."""
    if ((event.numbers[0] if event.name == "apply" else event.mutator) or 0) >= mutators:
        raise BadTrace("trace: no such mutator at line %d" % at, at)


def with_event(trace, position, event):
    """Returns a trace with one more event at a position, in a version that has it too. Raises BadTrace if the trace cannot have it."""
    check_mutator(event, trace.mutators, position + 3)
    longer = trace._replace(version=max(trace.version, version_of([event])), events=[*trace.events[:position], event, *trace.events[position:]])
    if len(heading(*longer[:3])) + sum(len(event.line) + 1 for event in longer.events) > MOST_BYTES:
        raise BadTrace("trace: too large")
    return longer


def read_trace(data):
    """Returns the trace that these bytes spell. Raises BadTrace."""
    trace = open_trace(data)
    return trace._replace(events=list(trace.events))


def open_trace(data):
    """Returns the trace that these bytes spell. Its events are read while one goes through them, and BadTrace may be raised then."""
    if len(data) > MOST_BYTES:
        raise BadTrace("trace: too large")
    # Each byte becomes a character, so that a byte that is not text is found at its place.
    lines = data[:100].decode("latin-1").split("\n")
    first = FIRST_LINE.fullmatch(lines[0])
    second = SECOND_LINE.fullmatch(lines[1]) if len(lines) > 2 else None
    if not first or not second:
        raise BadTrace("trace: bad header")
    version, words, mutators = int(first.group(1)), int(second.group(1)), int(second.group(2))
    if not 1 <= words <= MOST_WORDS or not 1 <= mutators <= MOST_MUTATORS:
        raise BadTrace("trace: bad header")
    return Trace(version, words, mutators, Events(data, version, mutators))


class Events:
    """The events of a trace, read from its bytes each time that one goes through them. The length counts the last line even if it is cut."""

    def __init__(self, data, version, mutators):
        self.data, self.version, self.mutators = data, version, mutators

    def __len__(self):
        return self.data.count(b"\n") - 2 + (0 if self.data.endswith(b"\n") else 1)

    def __iter__(self):
        """Yields the events of the lines after the first two. Raises BadTrace."""
        for at, line in enumerate(io.BytesIO(self.data), 1):
            if at < 3:
                continue
            event = event_of(line[:-1].decode("latin-1"), self.version)
            if event is None or not line.endswith(b"\n"):
                raise BadTrace("trace: bad line %d" % at, at)
            check_mutator(event, self.mutators, at)
            yield event
