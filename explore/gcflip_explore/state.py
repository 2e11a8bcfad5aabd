"""Describes a heap at a position of a trace for the page: the picture, roots, logs, and the certificate with the checker's verdict."""
from __future__ import annotations

import functools
from typing import Any

from gcflip import Image, Refused, check, explained
from gcflip.inference import root_name
from gcflip_drawing import collection_picture, pair_text, pauses_picture, timeline
from gcflip_drawing.collection_picture import State
from gcflip_drawing.heap import shown, target
from gcflip_drawing.scene import counted
from gcflip_drawing.scene_picture import drawn_in_width
from gcflip_drawing.scene_text import told
from gcflip_drawing.trace_text import Trace
from gcflip_drawing.verdicts import Verdict

from .playing import Player
from .stage import Words

# Longer lists are cut, and the page gets their length.
MOST_LISTED = 200
TIMELINE_HEIGHT = 110


class Certificate:
    """The current certificate of an open collection, and the checker's verdict on it."""

    def __init__(self, words: Words) -> None:
        assert words.new is not None
        self.old = words.old
        self.pairs = collection_picture.replicas(words.new.words)
        self.new = Image(words.new.words, collection_picture.new_roots(words.old, words.new.words), words.new.size)

    @functools.cached_property
    def refused(self) -> Refused | None:
        """The checker's refusal, or None if it says yes."""
        try:
            check(self.old, self.new, self.pairs)
        except Refused as refusal:
            return refusal
        return None

    def verdict(self) -> Verdict:
        return Verdict(str(self.refused) if self.refused else "yes %d" % len(self.pairs))

    def where(self) -> str:
        """Says where a refusal is: the path from a root, and what stands there in both heaps."""
        return explained(self.old, self.new, self.pairs, self.refused) if self.refused else ""

    def text(self) -> str:
        images = [pair_text.Image(image.size, image.words, image.roots) for image in (self.old, self.new)]
        return pair_text.written(pair_text.PairText(True, *images, self.pairs))


def conditions(player: Player, words: Words) -> list[dict[str, Any]]:
    """Returns the conditions of a flip in the order in which the collector meets them, and whether each one holds."""
    assert words.new is not None
    counts = player.heap.counts()
    originals = {original for original, _ in collection_picture.replicas(words.new.words)}
    targets = {target(word) for word in words.old.roots} - {None}
    return [
        {"text": "each root's target has a replica", "holds": targets <= originals},
        {"text": "the scan pointer is at the end", "holds": counts.scan_place == counts.new_end},
        {"text": "all logs are empty", "holds": counts.logged == 0},
    ]


def roots(player: Player, words: Words) -> list[dict[str, Any]]:
    """Returns the roots that are not nil, by their owners."""
    count = len(words.old.roots)
    owners = ["all mutators"] + ["mutator %d" % number for number in range(player.record.mutators)]
    changed = {change.address for change in player.changed if change.row == "roots"}
    return [{"owner": owner, "slots": [
        {"name": root_name(place, count), "value": shown(words.old.roots[place]), "changed": place in changed}
        for place in range(16 * number, 16 * number + 16) if words.old.roots[place] != 0]} for number, owner in enumerate(owners)]


def collection(player: Player, words: Words) -> dict[str, Any]:
    """Returns what the page lists about an open collection."""
    certificate, found = Certificate(words), conditions(player, words)
    verdict = certificate.verdict()
    return {
        "conditions": found,
        "ready": all(condition["holds"] for condition in found),
        "pairs": certificate.pairs[:MOST_LISTED],
        "count": len(certificate.pairs),
        "verdict": verdict.line,
        "meaning": verdict.meaning(),
        "where": certificate.where(),
    }


def described(player: Player, trace: Trace, width: int) -> dict[str, Any]:
    """Returns what the page shows of a player that has played the first events of a trace."""
    words, counts, position = player.stage.words(), player.heap.counts(), player.position
    opened = collection(player, words) if words.new else None
    logs = [list(zip(log[::2], log[1::2])) for log in player.stage.logs()]
    state = State(words.old, words.new, player.stage.scan(), logs, bool(opened and opened["ready"]), tuple(player.changed))
    run = run_of(player, trace, width)
    scene = collection_picture.scene_of(state, "The heap after %s" % counted(position, "event"))
    return {
        "position": position,
        "total": len(trace.events),
        "picture": drawn_in_width(scene, width).described(),
        "told": told(scene),
        # Where the events are in the timeline: the left end of the first one, and the width of all.
        "span": [timeline.LEFT, run.frame.width],
        "timeline": timeline.drawn_run(trace, run, "Words in use").described(),
        "roots": roots(player, words),
        "logs": [{"mutator": mutator, "entries": log[:MOST_LISTED], "count": len(log)} for mutator, log in enumerate(logs)],
        "collection": opened,
        "size": counts.size,
        "mutators": counts.mutators,
    }


def run_of(player: Player, trace: Trace, width: int) -> timeline.Run:
    """Returns the summary of the events that were played, for pictures of this width."""
    frame = timeline.Frame(max(160, width - timeline.LEFT - timeline.RIGHT), TIMELINE_HEIGHT, False)
    return player.record.run_of(player.position, frame, len(trace.events))


def pauses(player: Player, trace: Trace, width: int) -> dict[str, Any]:
    """Returns what the page shows of the times of the calls that were played."""
    times = player.record.times[:player.position]
    return {"picture": pauses_picture.drawn(run_of(player, trace, width), times).described(), "told": pauses_picture.told(trace.events, times)}
