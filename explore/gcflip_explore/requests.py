"""The requests of the page: each is a function from its JSON to its answer. The page gets the message of a `BadRequest`."""
from __future__ import annotations

import functools
import os
import random
import re
import threading
from typing import Any, Callable, Generic, TypeVar

from gcflip import BadText
from gcflip_drawing.images_text import MOST_WORDS
from gcflip_drawing.pair_text import Unreadable
from gcflip_drawing.trace_text import MOST_BYTES, BadTrace, Trace, event_of, read_trace, with_event

from . import checking, state
from .playing import Player, Players, flip_events

MOST_SESSIONS = 8
HERE = os.path.dirname(os.path.abspath(__file__))
# An installed package has copies of the examples. In the repository they are at the top.
PLACES = (os.path.join(HERE, "examples"), os.path.join(HERE, "..", "..", "examples"))
EXAMPLES = next((place for place in PLACES if os.path.isdir(place)), PLACES[0])
KINDS = {"heaptrace": "trace", "heappair": "pair", "heapimages": "pair"}


class BadRequest(Exception):
    """Why a request cannot be answered."""


class Unknown(Exception):
    """The request leaves its text out, and the server does not have it. The page then sends the text."""


Kind = TypeVar("Kind")


class Last(Generic[Kind]):
    """What the last text of a tab says, and what the one said from which the server made it."""

    def __init__(self) -> None:
        self.now: Kind | None = None
        self.before: Kind | None = None

    def made(self, other: Kind) -> None:
        """Notes what the server made of the last text."""
        self.now, self.before = other, self.now


class Session:
    """What the server keeps for a tab of the browser. The page sends a long text once, and later requests are about the last one."""

    def __init__(self) -> None:
        self.players = Players()
        self.lock = threading.Lock()
        self.chosen = random.Random()
        # The text that was checked last, and the trace that was played last.
        self.checked: Last[bytes] = Last()
        self.trace: Last[Trace] = Last()

    def before_next_flip(self, trace: Trace, position: int) -> Player:
        """Returns a player that has played up to before the next flip after a position, or up to the position if there is none."""
        if not flip_events(trace, position + 1):
            return self.players.at(trace, position)
        player = self.players.at(trace, position)
        is_before_one = trace.events[position].name == "flip" and player.would_flip()
        return self.players.before_flip(trace, player.flips() + (2 if is_before_one else 1)) or self.players.at(trace, position)

    def before_flip_number(self, trace: Trace, number: int) -> Player:
        """Returns a player that has played up to before the flip with this number, counted from 1. Raises BadRequest if there is none."""
        player = self.players.before_flip(trace, number)
        if player is None:
            flips = self.players.at(trace, len(trace.events)).flips()
            raise BadRequest("This trace has %s." % ("no flip" if flips == 0 else "1 flip" if flips == 1 else "%d flips" % flips))
        return player


class Asked:
    """The JSON of a request. Its methods read parts by name, and raise BadRequest for a part that is missing or wrong."""

    def __init__(self, data: Any) -> None:
        if not isinstance(data, dict):
            raise BadRequest("The request is no JSON object.")
        self.data = data
        self.session = Session()

    def name_of_session(self) -> str:
        """Returns the name that the tab gave itself. Requests without one share a session."""
        name = self.data.get("session", "")
        if not isinstance(name, str) or len(name) > 64:
            raise BadRequest("The name of the session has to be a short text.")
        return name

    def text(self, name: str = "text") -> str:
        value = self.data.get(name)
        if not isinstance(value, str):
            raise BadRequest("The request lacks the text '%s'." % name)
        return value

    def number(self, name: str, most: int) -> int:
        value = self.data.get(name)
        if not isinstance(value, int) or isinstance(value, bool) or not 0 <= value <= most:
            raise BadRequest("'%s' has to be a number up to %d." % (name, most))
        return value

    def width(self) -> int:
        return self.number("width", 4000)

    def last(self, last: Last[Kind], read_text: Callable[[str], Kind]) -> Kind:
        """Returns what the text of the request says. A request without one is about the last text, or with `before` about the one from which that was made.
        Raises Unknown."""
        if "text" in self.data:
            last.now = last.before = None
            last.now = read_text(self.text())
        elif self.data.get("before"):
            last.now, last.before = last.before, None
        if last.now is None:
            raise Unknown
        return last.now

    def checked(self) -> bytes:
        """Returns the text to check. Raises Unknown."""
        return self.last(self.session.checked, lambda text: text.encode("utf-8", "surrogatepass"))

    def trace(self) -> Trace:
        """Returns the trace to play. Raises BadTrace and Unknown."""
        return self.last(self.session.trace, read)

    def position(self, trace: Trace) -> int:
        return self.number("position", len(trace.events))


@functools.lru_cache(maxsize=4)
def read(text: str) -> Trace:
    return read_trace(text.encode("utf-8", "surrogatepass"))


class Desk:
    """Answers the requests of the page: those of one tab one at a time, and those of different tabs side by side."""

    def __init__(self, file: dict[str, str] | None = None) -> None:
        self.sessions: dict[str, Session] = {}
        self.lock = threading.Lock()
        self.file = file
        self.answers: dict[str, Callable[[Asked], dict[str, Any]]] = {
            "start": self.start, "play": self.play, "insert": self.insert, "pair": self.pair, "check": self.check, "spoil": self.spoil, "look": self.look,
            "pauses": self.pauses}

    def answer(self, name: str, data: Any) -> dict[str, Any]:
        """Answers a request. Its name is one of `answers`. Raises BadRequest."""
        asked = Asked(data)
        asked.session = self.session(asked.name_of_session())
        with asked.session.lock:
            try:
                return self.answers[name](asked)
            except BadTrace as fault:
                return {"fault": {"message": str(fault), "line": fault.line}}
            except Unknown:
                return {"unknown": True}
            except MemoryError:
                raise BadRequest("Out of memory. The request can be tried again.") from None

    def session(self, name: str) -> Session:
        """Returns the session with this name, or a new one. Forgets the one that was not used for longest if there are too many; its tab then
        gets a new one, which plays its trace again."""
        with self.lock:
            found = self.sessions.pop(name, None) or Session()
            self.sessions[name] = found
            for forgotten in list(self.sessions)[:-MOST_SESSIONS]:
                del self.sessions[forgotten]
            return found

    def start(self, _asked: Asked) -> dict[str, Any]:
        """Returns the examples, and the file of the command line."""
        return {"examples": examples(), "file": self.file}

    def play(self, asked: Asked) -> dict[str, Any]:
        """Plays a trace up to a position, or up to the next flip after it."""
        trace = asked.trace()
        position = asked.position(trace)
        if asked.data.get("to_flip"):
            player = asked.session.before_next_flip(trace, position)
        elif asked.data.get("flip") is not None:
            player = asked.session.before_flip_number(trace, asked.number("flip", MOST_BYTES))
        else:
            player = asked.session.players.at(trace, position)
        return self.told(player, trace, asked)

    def told(self, player: Player, trace: Trace, asked: Asked) -> dict[str, Any]:
        """Describes a player, with the replies that the page does not have yet."""
        known = asked.number("known", MOST_BYTES)
        return {**state.described(player, trace, asked.width()), "known": min(known, player.position), "replies": player.replies(known)}

    def insert(self, asked: Asked) -> dict[str, Any]:
        """Inserts an event after the last one that was played, and plays it. Without a line, the event is the collector's useful step. Returns its line, which
        the page inserts too: a long text is not sent again."""
        trace = asked.trace()
        position = asked.position(trace)
        line = asked.text("line") if asked.data.get("line") is not None else asked.session.players.at(trace, position).useful_line()
        event = event_of(line)
        if event is None:
            raise BadRequest("'%s' is no event." % line)
        longer = with_event(trace, position, event)
        told = self.told(asked.session.players.at(longer, position + 1), longer, asked)
        asked.session.trace.made(longer)
        return {"line": line, "version": longer.version, **told}

    def pair(self, asked: Asked) -> dict[str, Any]:
        """Returns the certificate of an open collection as a pair text."""
        trace = asked.trace()
        words = asked.session.players.at(trace, asked.position(trace)).stage.words()
        if words.new is None:
            raise BadRequest("No collection is open, so there is no certificate.")
        return {"text": state.Certificate(words).text()}

    def pauses(self, asked: Asked) -> dict[str, Any]:
        """Returns the times of the calls up to a position of a trace."""
        trace = asked.trace()
        return state.pauses(asked.session.players.at(trace, asked.position(trace)), trace, asked.width())

    def check(self, asked: Asked) -> dict[str, Any]:
        return checking.checked(asked.checked(), asked.width())

    def spoil(self, asked: Asked) -> dict[str, Any]:
        """Changes one random word of a pair text, and says where: the page changes its text too."""
        try:
            found = checking.spoiled(asked.checked(), asked.width(), asked.session.chosen)
        except BadText as fault:
            raise BadRequest("Only a pair text can be spoiled: %s." % fault) from None
        asked.session.checked.made(found.pop("text"))
        return found

    def look(self, asked: Asked) -> dict[str, Any]:
        """Returns the objects of a heap of a pair text, or of an image text, that have words in a range."""
        heap, text = asked.text("heap"), asked.checked()
        if heap not in ("old", "new"):
            raise BadRequest("'heap' has to be old or new.")
        first, last = asked.number("first", MOST_WORDS), asked.number("last", MOST_WORDS)
        skipped = asked.number("skipped", MOST_WORDS) if "skipped" in asked.data else 0
        try:
            return checking.objects_between(text, heap, first, last, asked.width(), skipped)
        except (BadText, Unreadable) as fault:
            raise BadRequest("Only a text of two heaps has objects: %s." % fault) from None


def kind_of(text: str) -> str | None:
    """Returns the kind of a text by its first word: trace, pair or None. An image text is shown as a pair, whose pairs are inferred."""
    return next((KINDS[word] for word in KINDS if text.startswith(word + " ")), None)


@functools.lru_cache(maxsize=1)
def examples() -> list[dict[str, str]]:
    """Returns the examples of the repository: kind, name, text, and what to look at."""
    found = []
    for name in sorted(os.listdir(EXAMPLES)):
        stem, ending = os.path.splitext(name)
        if ending in (".trace", ".pair"):
            with open(os.path.join(EXAMPLES, name), encoding="ascii") as file:
                found.append({"kind": ending[1:], "name": stem, "text": file.read(), "about": abouts().get(stem, "")})
    return found


def abouts() -> dict[str, str]:
    """Returns what to look at in each example, from the tables of their README."""
    with open(os.path.join(EXAMPLES, "README.md"), encoding="utf-8") as file:
        return {name: about.replace("`", "") for name, about in re.findall(r"(?m)^\| `(\w+)` \| (.*) \|$", file.read())}
