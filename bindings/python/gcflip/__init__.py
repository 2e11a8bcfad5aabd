"""Herbpond's certificate checker and its collected heap.

`check` decides whether one heap image may replace another, `compare` does so without a certificate, and `check_text` for a pair
text. `Heap` is a heap of objects with an incremental, replicating collector. The proofs are about the library, not about this
package.
"""
from .checker import Image, Pairs, Row, check, check_text
from .errors import (BadLine, BadText, Busy, Closed, Damaged, EndsEarly, Faulty, FlipRefused, FrameEmpty, FrameFull, Full, GcflipError, HeapRefused, Idle, Lack, Mismatch, Misuse,
                     NoField, NoNumber, NoObject, NotReady, Parked, OutOfMemory, OutOfRange, Reentered, Refusal, Refused, TextTooLarge, TooManyPairs)
from .heap import Checking, Counts, FieldSource, FlipChecks, Frame, Heap, Held, LogEntry, Mutator, Object, Pace, Stats, Step, Useful, Value, Work, extra_place, own, place, shared, words_of
from .images import Collection, Names, Snapshot, Words
from .inference import Comparison, Path, compare, explained, path_to
from .library import library_version
from .refs import Content, Ref

__all__ = [
    "BadLine", "BadText", "Busy", "Checking", "Closed", "Collection", "Comparison", "Content", "Counts", "Damaged", "EndsEarly", "Faulty", "FieldSource", "FlipChecks", "FlipRefused", "Frame", "FrameEmpty", "FrameFull", "Full", "GcflipError", "Heap",
    "HeapRefused", "Held", "Idle", "Image", "Lack", "LogEntry", "Mismatch", "Misuse", "Mutator", "Names", "NoField", "NoNumber", "NoObject", "NotReady", "Object", "OutOfMemory", "OutOfRange",
    "Pace", "Pairs", "Parked", "Path", "Reentered", "Ref", "Refusal", "Refused", "Row", "Snapshot", "Stats", "Step", "TextTooLarge", "TooManyPairs", "Useful",
    "Value", "Words", "Work", "check", "check_text", "compare", "explained", "extra_place", "library_version", "own", "path_to", "place", "shared", "words_of",
]
