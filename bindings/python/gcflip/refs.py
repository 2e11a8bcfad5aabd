"""References that own a root: objects of a heap as objects of Python. `Heap.make`, `Heap.make_raw` and `Heap.make_bytes` make them."""
from __future__ import annotations

import contextlib
import itertools
from typing import TYPE_CHECKING, Callable, Iterator, Union, overload

from .errors import Busy, Closed, FrameFull, Full, NoObject, OutOfMemory, OutOfRange
from .renamed import renamed

if TYPE_CHECKING:
    import array

    from .checker import Row
    from .heap import Heap, Pace, Work

Content = Union[None, int, "Ref"]
"""What a field holds: None for nil, a number, or a reference."""

# The log of this mutator has the fields that references write.
MUTATOR = 0
WORDS_OF_HEADER = 2
# The collector works once for so many words, because a call of work takes longer than the making of an object.
BLOCK = 512
# What some references have to be, in the words of an error.
TEXT, VECTOR = "text of bytes", "vector of words"


class Counted:
    """What was done for the objects that `made` made."""

    def __init__(self) -> None:
        self.objects = self.words = self.steps = self.copied = self.longest = self.full = 0

    def worked(self, work: Work | None) -> None:
        """Counts what a call of the collector did."""
        if work is not None:
            self.steps += work.steps
            self.copied += work.copied
            self.longest = max(self.longest, work.steps)

    def made(self, words: int) -> None:
        """Counts an object."""
        self.objects += 1
        self.words += words


class RootPool:
    """The extra roots of a heap, for its references. No reference owns the first one. One that no reference owns holds nil or a number."""

    def __init__(self, first_place: int, count: int, pace: Pace) -> None:
        self.first_place = first_place
        self.count = count
        self.pace = pace
        self.counted = Counted()
        # The words that objects may take before the collector has to work again.
        self.credit = 0
        # The words up to which the heap grows; 0 if it does not.
        self.most = 0
        # Roots that were given back. They are taken before those that were never used, so that few roots are in use.
        self.unused: list[int] = []
        self.fresh = itertools.count(1)
        # Roots that were given back while a call was under way. They are cleared later.
        self.uncleared: list[int] = []

    def take(self, heap: Heap) -> int:
        """Returns a root that no reference owns. Raises FrameFull if there is none."""
        if self.uncleared:
            self.clear(heap)
        try:
            return self.unused.pop()
        except IndexError:
            root = next(self.fresh)
        if root >= self.count:
            raise FrameFull("no extra root is left for another reference")
        return root

    def grow(self, heap: Heap, words: int, now: bool) -> None:
        """Begins a collection with a larger space, if none is open and the heap may grow. If `now` is false, one has also to be due, and more than half of the
        heap in use after the last flip. If the system refuses the memory, the next steps begin one of the same size."""
        if self.most == 0:
            return
        counts = heap.counts()
        if counts.is_open or counts.size >= self.most:
            return
        if now or (2 * self.pace._raw.left > counts.size and heap.steps_due(self.pace, words) > 0):
            # Another thread may have begun one meanwhile.
            with contextlib.suppress(OutOfMemory, Busy):
                heap.begin(min(2 * counts.size + words, self.most))

    def wait(self, heap: Heap, words: int) -> None:
        """Ends the open collection, or one that takes a larger space if the heap may grow. If that makes too little room, or if there is none, performs a whole
        one. It begins no other, whose memory may be refused."""
        self.grow(heap, words, True)
        if heap.counts().is_open:
            heap._flip(self)
        if heap.room() < words:
            heap._flip(self)

    def clear(self, heap: Heap) -> None:
        """Tries once more to clear each root that has to be cleared. Another thread may do the same."""
        for _ in range(len(self.uncleared)):
            with contextlib.suppress(IndexError):
                self.give_back(heap, self.uncleared.pop(0))

    def give_back(self, heap: Heap, root: int) -> None:
        """Puts nil into a root, and keeps it for another reference. Within a call on the heap it is left for later."""
        if heap._turn.busy:
            self.uncleared.append(root)
        else:
            heap.set_nil(self.first_place + root)
            self.unused.append(root)


class Ref:
    """A reference to an object of a heap, which keeps the object alive: it owns an extra root, and gives it back when Python deletes it. `Heap.make`,
    `Heap.make_raw` and `Heap.make_bytes` make an object and return a reference to it.

    Fields are read and written by their numbers, and `for` goes through them in order. A field holds None, a number below 2^63, or another reference. A
    field of a raw object holds a number, and another value raises NoNumber. A number that is no field's raises NoField, which is an IndexError. All of this
    raises Closed after the heap was closed. To read a reference needs one root that no reference owns, and raises FrameFull if there is none.

    A text of bytes is also a sequence of them: `bytes(text)` copies them, `text + other` joins two texts, and a slice such as `text[2:5]` is a part. Both
    results are new texts of the kind of the left one, and no byte leaves the heap, unless a slice has a step. They raise what `Heap.make_bytes` raises. An
    object that is no text raises TypeError.

    A raw object is also a vector of 64-bit words: `ref.words` copies them, and `ref.words = row` writes them. An object that is not raw raises TypeError.
    """

    __slots__ = ("heap", "_pool", "_root", "__weakref__")

    def __init__(self, heap: Heap, pool: RootPool) -> None:
        self._root = 0
        self.heap = heap
        self._pool = pool
        self._root = pool.take(heap)

    @property
    def place(self) -> int:
        """The place of the root, for commands of the heap on roots by their places."""
        return self._pool.first_place + self._root

    @property
    def kind(self) -> int:
        """The kind of the object."""
        return self._seen()[0]

    @property
    def raw(self) -> bool:
        """Whether the object's fields are plain numbers."""
        return self._seen()[2]

    def __len__(self) -> int:
        return self._seen()[1]

    def __iter__(self) -> Iterator[Content]:
        return map(self.__getitem__, range(len(self)))

    @overload
    def __getitem__(self, field: int) -> Content: ...

    @overload
    def __getitem__(self, field: slice) -> Ref: ...

    def __getitem__(self, field: int | slice) -> Content:
        if isinstance(field, slice):
            return self._part(field)
        value = self.heap.peek(self.place, field)
        if not isinstance(value, tuple):
            return value
        found = Ref(self.heap, self._pool)
        # Another thread may have written the field meanwhile.
        value = self.heap.get(found.place, self.place, field)
        if isinstance(value, tuple):
            return found
        found._free()
        return value

    def __setitem__(self, field: int, content: Content) -> None:
        if isinstance(content, Ref):
            if content._pool is not self._pool:
                raise OutOfRange("the reference is one of another heap")
            self.heap.put(MUTATOR, self.place, field, content.place)
        elif content is None:
            self.heap.put_nil(MUTATOR, self.place, field)
        else:
            self.heap.put_number(MUTATOR, self.place, field, content)

    @property
    def words(self) -> array.array[int]:
        """The 64-bit words of a raw object, copied: 63 of 64 fields. `ref.words = row` writes them from the first one on."""
        with objects_alone(VECTOR):
            return self.heap.words_read(self.place)

    @words.setter
    def words(self, row: Row) -> None:
        with objects_alone(VECTOR):
            self.heap.words_write(MUTATOR, self.place, 0, row)

    def __bytes__(self) -> bytes:
        with objects_alone(TEXT):
            return self.heap.bytes_read(self.place)

    def __add__(self, other: Ref) -> Ref:
        if not isinstance(other, Ref):
            return NotImplemented
        if other._pool is not self._pool:
            raise OutOfRange("the reference is one of another heap")
        with objects_alone(TEXT):
            length = self.heap.bytes_length(self.place) + self.heap.bytes_length(other.place)

        def join(place: int, kind: int, _length: int) -> None:
            self.heap.bytes_join(MUTATOR, place, kind, self.place, other.place)

        return made(self.heap, self._pool, join, self.kind, fields_for(length))

    def _part(self, chosen: slice) -> Ref:
        """Makes a text of these bytes of this one."""
        with objects_alone(TEXT):
            first, end, step = chosen.indices(self.heap.bytes_length(self.place))
        count = max(0, end - first)
        if step != 1:
            return self.heap.make_bytes(self.kind, bytes(self)[chosen])

        def take(place: int, kind: int, _length: int) -> None:
            self.heap.bytes_part(MUTATOR, place, kind, self.place, first, count)

        return made(self.heap, self._pool, take, self.kind, fields_for(count))

    def is_same(self, other: Ref) -> bool:
        """Returns whether both refer to one object. Objects of two heaps are never one."""
        return self._pool is other._pool and self.heap.is_same(self.place, other.place)

    same = renamed("same", is_same)

    def __copy__(self) -> Ref:
        copy = Ref(self.heap, self._pool)
        self.heap.copy(copy.place, self.place)
        return copy

    def __del__(self) -> None:
        # What pickle and deepcopy begin to copy has no root.
        if getattr(self, "_root", 0):
            with contextlib.suppress(Closed):
                self._pool.give_back(self.heap, self._root)

    def _free(self) -> None:
        """Gives back the root, which holds nil or a number."""
        root, self._root = self._root, 0
        self._pool.unused.append(root)

    def _seen(self) -> tuple[int, int, bool]:
        seen = self.heap.look(self.place)
        assert isinstance(seen, tuple)
        return seen


@contextlib.contextmanager
def objects_alone(wanted: str) -> Iterator[None]:
    """Raises TypeError if a call finds an object that is not what it wants."""
    try:
        yield
    except NoObject:
        raise TypeError("the object is no %s" % wanted) from None


def fields_for(length: int) -> int:
    """Returns the number of fields of a text with so many bytes."""
    return (length + 6) // 7


def made(heap: Heap, pool: RootPool, new: Callable[[int, int, int], None], kind: int, length: int) -> Ref:
    """Makes an object with `length` fields by `new`, which gets its root, its kind and this number, and returns a reference to it, as `Heap.make` says."""
    ref = Ref(heap, pool)
    words = length + WORDS_OF_HEADER
    if words > pool.credit:
        pool.credit = words + BLOCK
        pool.grow(heap, pool.credit, False)
        # An object that has room does not wait for the memory of a collection.
        with contextlib.suppress(OutOfMemory):
            pool.counted.worked(heap.work_paced(pool.pace, pool.credit))
    pool.credit -= words
    for turn in itertools.count():
        try:
            new(ref.place, kind, length)
            break
        except Full:
            # A collection that was open in the first turn has ended in a space of the old size.
            if turn == 2 or (turn == 1 and heap.counts().size >= pool.most):
                pool.counted.full += 1
                raise
        pool.wait(heap, words)
    pool.counted.made(words)
    return ref
