"""Plays traces through the binding. Each reply is the shared library's, written as the line that `gcflip play` prints.

A heap only goes forward. To go back, a player makes a heap from the nearest checkpoint, and plays the events behind it. What a tab of the browser
keeps is bounded: at most MOST_PLAYERS players, each with a heap, the line, the reply and the time of each event, the states of the timeline, and checkpoints of
at most 32 MiB (MOST_WORDS of `record`).
"""
from __future__ import annotations

import contextlib
from time import perf_counter_ns
from typing import Callable, Iterable, Iterator, NamedTuple

from gcflip import Heap
from gcflip_drawing.collection_picture import Changed
from gcflip_drawing.trace_text import Event, Trace

from .checkpoints import Checkpoint, rebuilt
from .record import Record
from .stage import Stage, Words

MOST_PLAYERS = 4
# Changes are found by comparing the images before and after an event, for heaps up to this size.
MOST_COMPARED_WORDS = 192


class Player:
    """A heap on which the first events of a trace were played, and the record of all events that ever were."""

    def __init__(self, record: Record, stage: Stage, position: int = 0) -> None:
        self.record, self.stage, self.position = record, stage, position
        # What the last event changed.
        self.changed: list[Changed] = []

    @property
    def heap(self) -> Heap:
        return self.stage.heap

    def replies(self, first: int = 0) -> list[str]:
        """Returns the replies to the events that were played, from one of them on."""
        return self.record.replies[first:self.position]

    def play(self, event: Event) -> str:
        """Performs the next event, and returns the line of its reply. Raises OutOfMemory; the event is then not performed."""
        act = self.stage.acts.of(event)
        began = perf_counter_ns()
        reply = act()
        time = perf_counter_ns() - began
        if self.position == len(self.record.lines):
            self.record.add(event, reply, self.stage, time)
        self.position += 1
        return reply

    def play_to(self, trace: Trace, position: int) -> None:
        """Plays the remaining events of a trace up to a position, and notes what the last one changed."""
        if self.position < position:
            self.changed = []
            for event in trace.events[self.position:position - 1]:
                self.play(event)
            before = self.stage.words() if self.is_compared() else None
            self.play(trace.events[position - 1])
            self.changed = list(changes(before, self.stage.words())) if before else []

    def is_compared(self) -> bool:
        """Returns whether the heap is small enough to compare its words before and after an event."""
        state = self.record.state_after(self.position)
        return state is None or max(state.used, state.copied) <= MOST_COMPARED_WORDS

    def play_to_flip(self, trace: Trace, number: int) -> bool:
        """Plays on, and stops before the event that makes the flip with this number, counted from the start. Plays to the end if there is none. Returns
        whether there is one."""
        for at in flip_events(trace, self.position):
            self.play_to(trace, at)
            if self.flips() + 1 == number and self.would_flip():
                return True
        self.play_to(trace, len(trace.events))
        return False

    def flips(self) -> int:
        """Returns the number of flips up to this position."""
        return self.record.flips(self.position)

    def would_flip(self) -> bool:
        """Returns whether a flip would pass now, which it does exactly if no other step has anything left to do."""
        return self.heap.useful().name == "flip"

    def useful_line(self) -> str:
        """Returns the line of the collector's useful step, as the library names it."""
        step = self.heap.useful()
        return "c " + step.name if step.mutator is None else "c %s %d" % step

    def ways(self, trace: Trace, position: int) -> Iterable[Way]:
        """Yields the ways from here to a position of a trace: from this heap, and from the nearest checkpoint. The event before the position is played in any
        case, because the page shows what it changed. A record of which the trace does not have all events stays as it is; another player then branches off."""
        record = self.record
        if (record.size, record.mutators) != (trace.size, trace.mutators):
            return
        common = record.common(trace)
        is_followed = common >= min(position, len(record.lines))
        if is_followed and self.position <= position:
            yield Way(position - self.position, lambda: self)
        checkpoint = record.checkpoint_before(min(common, max(0, position - 1)))
        # To make a word of a heap takes about as long as to play an event.
        yield Way(position - checkpoint.position + checkpoint.size(), lambda: self.back_at(checkpoint) if is_followed else self.branch(checkpoint))

    def back_at(self, checkpoint: Checkpoint) -> Player:
        """Goes to a checkpoint, and returns this player. Raises OutOfMemory; the player then stays where it is."""
        stage = rebuilt(checkpoint)
        self.close()
        self.stage, self.position, self.changed = stage, checkpoint.position, []
        return self

    def branch(self, checkpoint: Checkpoint) -> Player:
        """Returns another player at a checkpoint, which knows no later events. Raises OutOfMemory."""
        return Player(self.record.first(checkpoint.position), rebuilt(checkpoint), checkpoint.position)

    def close(self) -> None:
        self.heap.close()


class Way(NamedTuple):
    """A way to a position of a trace."""

    events: int
    """How many events could be played in the time that it takes."""
    begun: Callable[[], Player]
    """Returns the player that is to play the remaining events. Raises OutOfMemory."""


def opened(size: int, mutators: int) -> Player:
    """Returns a player that has played nothing."""
    return Player(Record(size, mutators), Stage(Heap(size, mutators)))


def flip_events(trace: Trace, first: int) -> list[int]:
    """Returns the positions before the events, from a position on, that flip if the collection is ready."""
    return [at for at, event in enumerate(trace.events[first:], first) if event.name == "flip"]


def changes(before: Words, after: Words) -> Iterable[Changed]:
    """Yields the words that an event changed, but none for a flip, a drop, or a large heap."""
    if before.new and not after.new or max(len(after.old.words), len(after.new.words) if after.new else 0) > MOST_COMPARED_WORDS:
        return
    compared = [(True, "words", before.old.words, after.old.words), (True, "roots", before.old.roots, after.old.roots)]
    if before.new and after.new:
        compared.append((False, "words", before.new.words, after.new.words))
    for is_old, row, words, others in compared:
        for address, other in enumerate(others):
            if address >= len(words) or words[address] != other:
                yield Changed(is_old, row, address)


class Players:
    """The players of the last requests, the last one first."""

    def __init__(self) -> None:
        self.players: list[Player] = []

    def at(self, trace: Trace, position: int) -> Player:
        """Returns a player that has played a trace up to a position. Raises MemoryError."""
        player = self.nearest(trace, position)
        with self.kept(player):
            player.play_to(trace, position)
        return player

    def before_flip(self, trace: Trace, number: int) -> Player | None:
        """Returns a player that has played a trace up to before the flip with this number, counted from 1, or None if there is none. Of the events that were
        never played, each is played once. Raises MemoryError."""
        for player in self.players:
            at = player.record.flip(trace, number)
            if at is not None:
                return self.at(trace, at)
        player = self.nearest(trace, len(trace.events))
        with self.kept(player):
            return player if player.play_to_flip(trace, number) else None

    @contextlib.contextmanager
    def kept(self, player: Player) -> Iterator[None]:
        """Gives a player up if it runs out of memory while it plays, since its record may lack the last event. What it took is then free."""
        try:
            yield
        except MemoryError:
            self.players.remove(player)
            player.close()
            raise

    def nearest(self, trace: Trace, position: int) -> Player:
        """Returns the player that gets to a position of a trace soonest. Raises MemoryError; all players then stay where they are."""
        ways = [way for player in self.players for way in player.ways(trace, position)]
        ways.append(Way(position, lambda: opened(trace.size, trace.mutators)))
        player = min(ways, key=lambda way: way.events).begun()
        self.players = [player, *(other for other in self.players if other is not player)]
        for closed in self.players[MOST_PLAYERS:]:
            closed.close()
        del self.players[MOST_PLAYERS:]
        return player
