"""Tests of references that own a root."""
import array
import copy
import gc
import pickle
import random
import sys
import threading
import unittest

import gcflip
from gcflip import Heap, Ref


def collect(heap):
    """Performs a whole collection while none is open, and returns the number of pairs."""
    work = heap.work(1 << 20)
    while work.last is not gcflip.Step.FLIPPED:
        work = heap.work(1 << 20)
    return work.pairs


class Fields(unittest.TestCase):
    def setUp(self):
        self.heap = Heap(64, extra_roots=8)
        self.addCleanup(self.heap.close)

    def test_values(self):
        first, second = self.heap.make(7, 3), self.heap.make(255, 0)
        self.assertEqual((first.kind, len(first), first.raw, list(first)), (7, 3, False, [None] * 3))
        self.assertEqual((second.kind, len(second), list(second)), (255, 0, []))
        first[0] = (1 << 63) - 1
        first[1] = second
        first[2] = first
        collect(self.heap)
        self.assertEqual(first[0], (1 << 63) - 1)
        self.assertTrue(first[1].is_same(second) and first[2].is_same(first) and not first.is_same(second))
        first[0] = first[1] = None
        self.assertEqual(list(first)[:2], [None, None])
        self.assertEqual([type(value) for value in first], [type(None), type(None), Ref])

    def test_raw_objects(self):
        first, raw = self.heap.make(1, 1), self.heap.make_raw(9, 3)
        self.assertEqual((raw.kind, raw.raw, len(raw), list(raw)), (9, True, 3, [0, 0, 0]))
        raw[1], raw[2] = 5, (1 << 63) - 1
        self.assertEqual(([raw[0], raw[1], raw[2]], list(raw)), ([0, 5, (1 << 63) - 1],) * 2)
        for wrong, error in ((None, gcflip.NoNumber), (first, gcflip.NoNumber), (1 << 63, gcflip.OutOfRange), (-1, gcflip.OutOfRange), ("5", TypeError)):
            with self.assertRaises(error):
                raw[1] = wrong
        for act in (lambda: raw[3], lambda: raw.__setitem__(3, 1)):
            with self.assertRaises(gcflip.NoField):
                act()
        self.assertEqual(list(raw), [0, 5, (1 << 63) - 1])
        first[0] = raw
        del raw
        collect(self.heap)
        self.assertEqual((first[0].raw, sum(first[0])), (True, 5 + (1 << 63) - 1))
        self.assertEqual((self.heap.make_raw(0, 0).raw, list(self.heap.make_raw(255, 0))), (True, []))
        for kind, length in ((256, 0), (0, 65536), (0, -1)):
            with self.assertRaises(gcflip.OutOfRange):
                self.heap.make_raw(kind, length)
        with self.assertRaises(gcflip.Full):
            self.heap.make_raw(1, 100)

    def test_refused(self):
        first, other = self.heap.make(1, 2), Heap(64, extra_roots=8)
        first[0], stranger = 4, other.make(1, 1)
        for act, error in ((lambda: first[2], gcflip.NoField), (lambda: first[2], IndexError), (lambda: first[-1], gcflip.OutOfRange), (lambda: first["0"], TypeError),
                           (lambda: first.__setitem__(2, None), gcflip.NoField), (lambda: first.__setitem__(2, 1), gcflip.NoField),
                           (lambda: first.__setitem__(0, 1 << 63), gcflip.OutOfRange), (lambda: first.__setitem__(0, -1), gcflip.OutOfRange),
                           (lambda: first.__setitem__(0, stranger), gcflip.OutOfRange), (lambda: first.__setitem__(0, 1.5), TypeError),
                           (lambda: self.heap.make(256, 0), gcflip.OutOfRange), (lambda: self.heap.make(0, 65536), gcflip.OutOfRange), (lambda: self.heap.make(0, -1), gcflip.OutOfRange),
                           (lambda: pickle.dumps(first), TypeError), (lambda: copy.deepcopy(first), TypeError)):
            with self.assertRaises(error):
                act()
        self.assertEqual((list(first), first.is_same(stranger)), ([4, None], False))
        # None of these calls has lost a root: of eight, one holds nil and one is that of `first`.
        self.assertEqual(len([self.heap.make(1, 0) for _ in range(6)]), 6)

    def test_closed(self):
        first = self.heap.make(1, 1)
        self.heap.close()
        for act in (lambda: first[0], lambda: first.__setitem__(0, 1), lambda: len(first), lambda: first.kind, lambda: self.heap.make(1, 1)):
            with self.assertRaises(gcflip.Closed):
                act()
        # Python shows what a deletion raises, and goes on.
        shown, before = [], sys.unraisablehook
        sys.unraisablehook = shown.append
        try:
            del first
            gc.collect()
        finally:
            sys.unraisablehook = before
        self.assertEqual(shown, [])


class Vectors(unittest.TestCase):
    """Vectors of 64-bit words."""

    def test_words(self):
        heap = Heap(200, extra_roots=4)
        self.addCleanup(heap.close)
        vector, pair = heap.make_raw(7, 66), heap.make(1, 2)
        self.assertEqual(vector.words.tolist(), [0] * 64)
        words = array.array("Q", [2 ** 64 - 1 - k for k in range(64)])
        vector.words = words
        self.assertEqual((vector.words, vector[0], len(vector)), (words, 2 ** 63 - 1, 66))
        vector.words = [5]
        self.assertEqual(vector.words[:2].tolist(), [5, 2 ** 64 - 2])
        for act in (lambda: pair.words, lambda: setattr(pair, "words", [1]), lambda: setattr(vector, "words", 5)):
            self.assertRaises(TypeError, act)
        self.assertRaises(gcflip.NoField, setattr, vector, "words", [0] * 65)
        self.assertEqual(vector.words[0], 5)


class Texts(unittest.TestCase):
    """Texts of bytes as sequences of Python."""

    def setUp(self):
        self.heap = Heap(200, extra_roots=12)
        self.addCleanup(self.heap.close)

    def test_values(self):
        data = bytes([*range(250, 256), 0, 1, 2])
        text = self.heap.make_bytes(7, data)
        self.assertEqual((text.kind, text.raw, len(text), bytes(text)), (7, True, 2, data))
        for same in (bytearray(data), memoryview(data)):
            self.assertEqual(bytes(self.heap.make_bytes(1, same)), data)
        joined = text + self.heap.make_bytes(8, b"!")
        self.assertEqual((joined.kind, bytes(joined), bytes(text + text), bytes(text)), (7, data + b"!", data * 2, data))
        part = text[2:]
        self.assertEqual((part.kind, part.raw, bytes(part), bytes(text[::-1]), bytes(text[1:8:3])), (7, True, data[2:], data[::-1], data[1:8:3]))
        empty = self.heap.make_bytes(255, b"")
        self.assertEqual((len(empty), bytes(empty), bytes(empty[:]), bytes(empty + text), bytes(text + empty)), (0, b"", b"", data, data))
        self.assertEqual(text[0], int.from_bytes(data[:7], "little"))

    def test_what_was_made_is_counted(self):
        other = self.heap.make_bytes(1, bytes(11))
        for count in range(30):
            before = self.heap.stats()
            text = self.heap.make_bytes(1, bytes(count))
            stats = self.heap.stats()
            self.assertEqual((stats.objects, stats.words), (before.objects + 1, before.words + len(text) + 2))
            held = [text + other, other + text, text[count // 2:]]
            self.assertEqual(self.heap.stats().words, stats.words + sum(len(ref) + 2 for ref in held))

    def test_each_part(self):
        data = bytes(range(16))
        text, bounds = self.heap.make_bytes(7, data), [None, *range(-18, 19)]
        for first in bounds:
            for end in bounds:
                self.assertEqual(bytes(text[first:end]), data[first:end])

    def test_what_is_no_text(self):
        text, pair, raw = self.heap.make_bytes(1, b"abc"), self.heap.make(1, 2), self.heap.make_raw(1, 2)
        before = self.heap.counts()
        for ref in (pair, raw):
            for act in (lambda: bytes(ref), lambda: ref + text, lambda: text + ref, lambda: ref + ref, lambda: ref[0:1], lambda: ref[:], lambda: ref[::2]):
                self.assertRaises(TypeError, act)
        for act in (lambda: text + b"abc", lambda: b"abc" + text, lambda: text + None, lambda: text + 1, lambda: text["0":], lambda: text[0:1.5],
                    lambda: self.heap.make_bytes(1, "abc"), lambda: self.heap.make_bytes(1, 3), lambda: self.heap.make_bytes(1, [1, 2])):
            self.assertRaises(TypeError, act)
        self.assertRaises(ValueError, lambda: text[::0])
        self.assertEqual((self.heap.counts(), bytes(text)), (before, b"abc"))

    def test_refused(self):
        text, stranger = self.heap.make_bytes(1, bytes(700)), Heap(64, extra_roots=4).make_bytes(1, b"abc")
        for act, error in ((lambda: text + stranger, gcflip.OutOfRange), (lambda: self.heap.make_bytes(256, b""), gcflip.OutOfRange),
                           (lambda: self.heap.make_bytes(1, bytes(458746)), gcflip.OutOfRange), (lambda: self.heap.make_bytes(1, bytes(1400)), gcflip.Full),
                           (lambda: text + text, gcflip.Full), (lambda: text[:-1], gcflip.Full)):
            self.assertRaises(error, act)
        self.assertEqual(bytes(text), bytes(700))
        # None of these calls has lost a root: of twelve, one holds nil and one is that of `text`.
        held = [self.heap.make_bytes(1, b"") for _ in range(10)]
        for act in (lambda: self.heap.make_bytes(1, b""), lambda: held[0] + held[1], lambda: held[0][:]):
            self.assertRaises(gcflip.FrameFull, act)
        del act, held
        self.heap.close()
        for act in (lambda: bytes(text), lambda: text + text, lambda: text[1:], lambda: self.heap.make_bytes(1, b"")):
            self.assertRaises(gcflip.Closed, act)

    def test_random_texts(self):
        """Texts that look random, joined and parted while collections run, against Python's bytes."""
        for seed in range(20):
            draw = random.Random(seed)
            with Heap(300, extra_roots=14) as heap:
                held = [(heap.make_bytes(1, b""), b"")]
                for _ in range(400):
                    self.make_one(draw, heap, held)
                    heap.work(draw.randrange(1, 5))
                    while len(held) > 8:
                        held.pop(draw.randrange(len(held)))
                    for ref, data in held:
                        self.assertEqual((bytes(ref), len(ref)), (data, (len(data) + 6) // 7))
                stats, held = heap.stats(), None
                self.assertGreater(stats.flips, 5)

    def make_one(self, draw, heap, held):
        (one, data), (other, more), act = draw.choice(held), draw.choice(held), draw.randrange(4)
        if act == 0:
            data = bytes(draw.choice((0, 1, 127, 128, 255)) for _ in range(draw.randrange(60)))
            held.append((heap.make_bytes(draw.randrange(256), data), data))
        elif act == 1 and len(data) + len(more) < 80:
            held.append((one + other, data + more))
        else:
            chosen = slice(*[draw.choice((None, draw.randrange(-90, 90))) for _ in range(2)], draw.choice((None, None, None, 1, 2, -1)))
            held.append((one[chosen], data[chosen]))


class Roots(unittest.TestCase):
    """What keeps objects alive, and how many references there can be."""

    def test_a_reference_keeps_its_object_alive(self):
        with Heap(64, extra_roots=4) as heap:
            first = heap.make(1, 1)
            first[0] = heap.make(2, 0)
            self.assertEqual(collect(heap), 2)
            second = first[0]
            del first
            self.assertEqual(collect(heap), 1)
            third = copy.copy(second)
            self.assertTrue(third.is_same(second))
            del second
            self.assertEqual((collect(heap), third.kind), (1, 2))
            third = None
            self.assertEqual((collect(heap), heap.counts().free), (0, 63))

    def test_no_value_that_passed_keeps_an_object_alive(self):
        with Heap(64, extra_roots=4) as heap:
            first = heap.make(1, 2)
            first[0], first[1] = 5, heap.make(1, 0)
            self.assertEqual((first[0], first[1].kind, len(list(first))), (5, 1, 2))
            first[1] = None
            self.assertEqual(collect(heap), 1)

    def test_no_root_is_left(self):
        with Heap(64, extra_roots=3) as heap:
            first, second = heap.make(1, 1), heap.make(2, 1)
            first[0], second[0] = second, 7
            self.assertEqual(second[0], 7)
            before = heap.counts()
            for act in (lambda: heap.make(3, 0), lambda: heap.make_raw(3, 0), lambda: first[0], lambda: copy.copy(first)):
                with self.assertRaises(gcflip.FrameFull):
                    act()
            self.assertEqual((heap.counts(), first.kind), (before, 1))
            del second
            self.assertEqual((heap.make(3, 0).kind, first[0].kind), (3, 2))
        for count in (0, 1):
            with Heap(64, extra_roots=count) as heap, self.assertRaises(gcflip.FrameFull):
                heap.make(1, 0)

    def test_a_heap_that_grows(self):
        def list_of(heap, length):
            """Returns a list of so many pairs, of four words each."""
            last = None
            for _ in range(length):
                pair = heap.make(1, 2)
                pair[1] = last
                last = pair
            return last

        with Heap(2000, extra_roots=5) as heap:
            self.assertRaises(gcflip.Full, list_of, heap, 500)
            self.assertEqual(heap.counts().size, 2000)
        with Heap(2000, extra_roots=5) as heap:
            heap.growing(30000)
            kept = list_of(heap, 500)
            self.assertTrue(2000 < heap.counts().size <= 30000)
            del kept
            heap.collect()
            kept = list_of(heap, 7400)  # 29,600 words
            self.assertEqual(heap.counts().size, 30000)
            del kept
            self.assertRaises(gcflip.Full, list_of, heap, 7500)
            self.assertEqual((heap.counts().size, heap.stats().full), (30000, 1))
            for most in (-1, 1 << 32):
                self.assertRaises(gcflip.OutOfRange, heap.growing, most)
            heap.collect()
            self.assertEqual(heap.counts().free, 29999)

    def test_a_heap_that_grew_has_room_at_once(self):
        """The flip to a larger space leaves enough room. No other collection begins, whose memory may be refused."""
        with Heap(200, extra_roots=5) as heap:
            heap.growing(30000)
            held = heap.make(1, 90)
            flips = heap.stats().flips
            more = heap.make(1, 150)
            self.assertEqual((heap.counts().size, heap.stats().flips - flips, len(held), len(more)), (2 * 200 + 152, 1, 90, 150))

    def test_a_full_heap(self):
        with Heap(64, extra_roots=100) as heap:
            held = [heap.make(1, 1) for _ in range(21)]
            for number, ref in enumerate(held):
                ref[0] = number
            for _ in range(2):
                with self.assertRaises(gcflip.Full):
                    heap.make(1, 1)
            self.assertEqual([ref[0] for ref in held], list(range(21)))
            del held[4], ref
            self.assertEqual((heap.make(9, 1).kind, [ref[0] for ref in held]), (9, [*range(4), *range(5, 21)]))

    def test_what_was_done_is_counted(self):
        with Heap(100000, extra_roots=8) as heap:
            self.assertEqual(heap.stats(), gcflip.Stats(0, 0, 0, 0, 0, 0, 0))
            held = [heap.make(1, 2), heap.make_raw(1, 3)]
            self.assertEqual(heap.stats()[:4], (2, 9, 0, 0))
            while heap.stats().flips == 0:
                heap.make(1, 2)
            stats, checks = heap.stats(), heap.flip_checks()
            self.assertEqual((stats.flips, stats.words), (checks.along + checks.whole, 9 + 4 * (stats.objects - 2)))
            self.assertTrue(0 < stats.longest <= stats.steps and stats.copied >= 9 and stats.full == 0)
            del held
        with Heap(64, extra_roots=100) as heap:
            held = [heap.make(1, 1) for _ in range(21)]
            for _ in range(2):
                self.assertRaises(gcflip.Full, heap.make, 1, 1)
            self.assertEqual((heap.stats().objects, heap.stats().full), (21, 2))

    def test_a_whole_collection_begins_after_the_open_one(self):
        """Fills a heap, lets a collection copy all of it, and then drops it: only another collection finds room."""
        with Heap(64, extra_roots=100) as heap:
            held = [heap.make(1, 1) for _ in range(21)]
            heap.begin()
            while heap.roots() is gcflip.Step.COPIED:
                pass
            held.clear()
            self.assertEqual((heap.make(2, 1).kind, heap.counts().free), (2, 60))

    def test_the_collector_keeps_pace(self):
        with Heap(1 << 20, extra_roots=2) as heap:
            for _ in range(50000):
                heap.make(1, 2)
            self.assertLess(heap.counts().end, 4 * 50000)

    def test_garbage_is_collected(self):
        """Makes a thousand times as many objects as have room, while a list grows that is kept."""
        with Heap(4096, extra_roots=8) as heap:
            kept = None
            for number in range(100000):
                ref = heap.make(1, 2)
                ref[0] = number
                if number % 1000 == 0:
                    ref[1], kept = kept, ref
            numbers = []
            while kept is not None:
                numbers.append(kept[0])
                kept = kept[1]
            self.assertEqual(numbers, list(range(99000, -1, -1000)))

    def test_a_reference_that_goes_within_a_call(self):
        with Heap(64, extra_roots=3) as heap:
            for _ in range(5):
                held = [heap.make(1, 0), heap.make(1, 0)]
                heap._turn.take(held.clear)
            # The roots of both are cleared, and not only the one that is taken.
            self.assertEqual((heap.make(3, 0).kind, collect(heap)), (3, 0))
            self.assertEqual([ref.kind for ref in (heap.make(1, 0), heap.make(2, 0))], [1, 2])

    def test_a_heap_goes_with_its_last_reference(self):
        heap = Heap(64, extra_roots=3)
        ref, close = heap.make(1, 0), heap._close
        del heap
        self.assertTrue(close.alive)
        del ref
        gc.collect()
        self.assertFalse(close.alive)


class Random(unittest.TestCase):
    def test_random_uses(self):
        """Compares uses that look random with a model, in which an object is a list."""
        for seed in range(20):
            draw = random.Random(seed)
            with Heap(200, extra_roots=14) as heap:
                held = []
                for _ in range(1500):
                    self.use(draw, heap, held)
                    if draw.random() < 0.1:
                        heap.work(draw.randrange(1, 9))
                held.clear()
                collect(heap)
                self.assertEqual((collect(heap), heap.counts().free), (0, 199))

    def use(self, draw, heap, held):
        act = draw.randrange(6)
        if not held or act == 0 and len(held) < 10:
            length = draw.randrange(4)
            try:
                held.append((heap.make(len(held), length), [None] * length))
            except gcflip.Full:
                held.pop()
        elif act == 1:
            held.pop(draw.randrange(len(held)))
        elif act < 4 and (chosen := draw.choice(held))[1]:
            field, (ref, model) = draw.randrange(len(chosen[1])), chosen
            other = draw.choice(held)
            ref[field], model[field] = draw.choice([(None, None), (draw.randrange(1 << 63),) * 2, other])
        else:
            ref, model = draw.choice(held)
            for _ in range(8):
                for content, wanted in zip(ref, model):
                    self.assertEqual(len(content) if isinstance(content, Ref) else content, len(wanted) if isinstance(wanted, list) else wanted)
                inner = [field for field, wanted in enumerate(model) if isinstance(wanted, list)]
                if not inner:
                    break
                field = draw.choice(inner)
                ref, model = ref[field], model[field]
            for known, of_known in held:
                self.assertEqual(known.is_same(ref), of_known is model)


class Threads(unittest.TestCase):
    def test_threads_make_objects(self):
        """Lets each of four threads make lists of its own in one heap, with whole collections in between."""
        before = sys.getswitchinterval()
        sys.setswitchinterval(1e-5)
        self.addCleanup(sys.setswitchinterval, before)
        with Heap(4096, extra_roots=64) as heap:
            found = []
            threads = [threading.Thread(target=self.make_lists, args=(heap, number, found)) for number in range(4)]
            for thread in threads:
                thread.start()
            for thread in threads:
                thread.join()
            self.assertEqual(sorted(found), [0, 1, 2, 3])
            del threads
            collect(heap)
            self.assertEqual((collect(heap), heap.counts().free), (0, 4095))

    def make_lists(self, heap, number, found):
        for _ in range(20):
            last = None
            for place_in_list in range(50):
                ref = heap.make(number, 2)
                ref[0], ref[1], last = place_in_list, last, ref
            for place_in_list in range(49, -1, -1):
                assert (last.kind, last[0]) == (number, place_in_list)
                last = last[1]
        found.append(number)


if __name__ == "__main__":
    unittest.main()
