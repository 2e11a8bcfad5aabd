"""A program whose types mypy has to accept in strict mode. A line with the comment `wrong` has a type that it has to refuse."""
from __future__ import annotations

import array

from gcflip import Comparison, Content, Counts, Heap, Image, LogEntry, Mutator, Object, Pace, Path, Ref, Refused, Step, Value, Work, check, check_text, compare, extra_place, own, path_to, place
from gcflip import values
from gcflip.arrays import Arrays
from gcflip.kinds import Kind, fits, kind_name
from gcflip.weak import Table


def collected(heap: Heap) -> int:
    mutator: Mutator = heap.mutator(0)
    mutator.new(own(0), kind=1, length=2)
    value: Value = mutator.get(own(1), own(0), 0)
    if isinstance(value, Object):
        return value.length
    root: int = place(own(0)) if heap.is_same(place(own(1)), 0) else extra_place(1, 0)
    seen: Value = heap.get(root, 0, 0)
    begun: Step = heap.begin()
    work: Work = heap.work(100)
    paced: Work | None = heap.work_paced(Pace(), 4)
    counts: Counts = heap.counts()
    entry: LogEntry = heap.log_entry(0, 0)
    return work.pairs + (0 if seen is None else root) + counts.free + entry.field + (0 if paced is None else paced.steps) + len(begun.value)


def held(heap: Heap) -> int:
    first: Ref = heap.make(kind=1, length=2)
    first[0], first[1] = 42, heap.make(2, 0)
    raw: Ref = heap.make_raw(kind=3, length=1)
    raw[0] = len(raw)
    text: Ref = heap.make_bytes(4, b"herb") + heap.make_bytes(kind=4, data=bytearray(b"pond"))
    part: Ref = text[1:3]
    data: bytes = bytes(part + text[4:])
    content: Content = first[1]
    numbers: list[int] = [value for value in first if isinstance(value, int)]
    return numbers[0] if isinstance(content, Ref) and content.is_same(first) else first.kind + len(first) + len(data)


def checked(words: memoryview, roots: array.array[int]) -> int:
    image: Image = Image(words, roots, size=8)
    try:
        found: Comparison = compare(image, image)
        path: Path | None = path_to(image, 1)
        return check(image, image, found.pairs) + check_text(b"") + (0 if path is None else path.place)
    except Refused as refused:
        return refused.place


def layered(heap: Heap) -> int:
    values.set_int(heap, 0, -1)
    row: Arrays = Arrays(heap, 0, (29, 30, 31))
    row.new_array(1, kind=7, length=3)
    row.put(1, 2, source=0)
    meant: values.Value = values.value(heap, 0)
    code: int | None = values.code_of_double(0.5)
    table: Table = Table(heap)
    handle: int = table.weak_new(1, ("any", "token"))
    kinds = [Kind("pair", 2, [0])]
    name: str = kind_name(kinds, 0) if fits(heap, kinds, 1, 0) else ""
    return row.length(1) + handle + len(name) + (meant if isinstance(meant, int) else 0) + (code or 0) + len(list(table.dead()))


def refused_by_mypy(heap: Heap) -> None:
    values.set_int(heap, 0, 0.5)  # wrong
    Arrays(heap, 0, (1, 2))  # wrong
    Table(heap).weak_get(0, None)  # wrong
    heap.work("100")  # wrong
    length: int = heap.mutator(0).get(own(1), own(0), 0)  # wrong
    heap.mutators  # wrong
    heap.make(1, 2)["first"]  # wrong
    heap.new("1", 1, 2)  # wrong
    heap.mutator(0).num(0, None)  # wrong
    heap.make_raw(1)  # wrong
    heap.make_bytes(1, "text")  # wrong
    heap.make_bytes(1, b"") + b""  # wrong
    joined: bytes = heap.make_bytes(1, b"")[0:]  # wrong
    heap.make(1, 2)[0] = "text"  # wrong
    number: int = heap.make(1, 2)[0]  # wrong
    check(Image([0], []), Image([0], []), [(1, 2, 3)])  # wrong
    Image("words", [])  # wrong
    word: str = heap.new_words()[0]  # wrong
