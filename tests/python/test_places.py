"""Tests of the commands on roots by their places."""
import array
import random
import sys
import threading
import unittest

import gcflip
from gcflip import Heap, Object, extra_place, own, place, shared
from gcflip.heap import Held


class CommandsByPlaces(unittest.TestCase):
    """Commands on roots by their places, in a heap of two mutators with three extra roots."""

    def setUp(self):
        self.heap = Heap(16, mutators=2, extra_roots=3)
        self.addCleanup(self.heap.close)

    def test_places(self):
        self.assertEqual([place(shared(0)), place(shared(15)), place(own(0)), place(own(15)), place(own(0), 1)], [0, 15, 16, 31, 32])
        self.assertEqual([extra_place(2, 0), extra_place(2, 2)], [48, 50])
        for wrong in (lambda: place(32), lambda: place(-1), lambda: place(0, -1), lambda: extra_place(-1, 0), lambda: extra_place(2, -1)):
            self.assertRaises(gcflip.OutOfRange, wrong)

    def test_commands(self):
        heap, second = self.heap, self.heap.mutator(1)
        root, number, last = place(shared(0)), place(own(0), 1), extra_place(2, 2)
        heap.new(root, 7, 2)
        heap.set_number(number, 2 ** 63 - 1)
        heap.put(1, root, 1, number)
        heap.copy(last, root)
        self.assertEqual((heap.is_same(root, last), heap.is_same(root, number)), (True, False))
        self.assertEqual((heap.get(root, last, 1), heap.get(number, last, 0)), (2 ** 63 - 1, None))
        self.assertEqual((heap.look(root), heap.look(number)), (2 ** 63 - 1, None))
        heap.put(0, last, 0, last)
        self.assertEqual(heap.get(number, last, 0), Object(7, 2))
        self.assertEqual((second.look(shared(0)), second.look(own(0))), (2 ** 63 - 1, Object(7, 2)))
        second.new_raw(own(1), 255, 1)
        self.assertEqual(heap.look(place(own(1), 1)), Object(255, 1, True))
        self.assertRaises(gcflip.NoNumber, heap.put, 0, place(own(1), 1), 0, last)
        self.assertRaises(gcflip.Full, heap.new, root, 7, 7)
        heap.begin()
        heap.put(1, last, 1, root)
        self.assertEqual((heap.log_length(0), heap.log_length(1)), (0, 1))

    def test_values_without_roots(self):
        heap, raw, root = self.heap, place(own(1), 1), extra_place(2, 2)
        self.assertEqual(heap.room(), 15)
        heap.new(root, 7, 2)
        heap.mutator(1).new_raw(own(1), 255, 1)
        self.assertEqual((heap.room(), heap.counts().free), (8, 8))
        self.assertEqual((heap.peek(root, 0), heap.peek(raw, 0)), (None, 0))
        self.assertEqual([heap.object_at(at) for at in (1, 5, 8, 0, 2 ** 32 - 1)], [Object(7, 2), Object(255, 1, True), None, None, None])
        self.assertEqual(list(heap.objects()), [(1, Object(7, 2)), (5, Object(255, 1, True))])
        self.assertEqual(list(heap), [Object(7, 2), Object(255, 1, True)])
        self.assertEqual((gcflip.words_of(2), gcflip.words_of(1), gcflip.words_of(0), gcflip.words_of(65535)), (4, 3, 2, 65537))
        self.assertRaises(gcflip.OutOfRange, heap.object_at, 2 ** 32)
        for at in (14, 15, 16, 17):
            heap.set_number(at, 6)
        heap.clear(14, 17)
        self.assertEqual([heap.look(at) for at in (14, 15, 16, 17)], [None, None, None, 6])
        for first, end in ((17, 14), (0, 2 ** 20), (0, 2 ** 32), (-1, 0)):
            self.assertRaises(gcflip.OutOfRange, heap.clear, first, end)
        heap.put(0, root, 0, raw)
        heap.put_number(0, root, 1, 2 ** 63 - 1)
        heap.put_number(1, raw, 0, 6)
        self.assertEqual((heap.peek(root, 0), heap.peek(root, 1), heap.peek(raw, 0)), (Object(255, 1, True), 2 ** 63 - 1, 6))
        self.assertRaises(gcflip.NoNumber, heap.put_nil, 0, raw, 0)
        before = heap.image().roots
        heap.begin()
        heap.put_nil(1, root, 1)
        heap.put_number(0, root, 0, 5)
        self.assertEqual((heap.peek(root, 0), heap.peek(root, 1), heap.log_length(0), heap.log_length(1)), (5, None, 1, 1))
        self.assertEqual(heap.image().roots, before)
        heap.set_nil(root)
        self.assertEqual(heap.look(root), None)
        heap.close()
        self.assertEqual(heap.room(), 0)
        self.assertRaises(gcflip.Closed, heap.object_at, 1)

    def test_rows_of_roots(self):
        heap = Heap(40, mutators=2, extra_roots=6)
        self.addCleanup(heap.close)
        for root in range(54):
            heap.set_number(root, 100 + root)
        heap.new_pair(0, 0, 7, 17, 53)
        heap.new_from(1, 33, 8, [33, 2, 2])
        heap.gather(0, 1, 9, 47, 3)
        heap.new_raw(3, 255, 2)
        self.assertEqual([heap.look(root) for root in (0, 33, 1, 3)], [Object(7, 2), Object(8, 3), Object(9, 3), Object(255, 2, True)])
        self.assertEqual([heap.peek(0, i) for i in range(2)], [117, 153])
        self.assertEqual([heap.peek(33, i) for i in range(3)], [Object(8, 3), 102, 102])
        self.assertEqual([heap.peek(1, i) for i in range(3)], [147, 148, 149])
        heap.spread(51, 1, 3)
        heap.spread(4, 3, 2)
        self.assertEqual([heap.look(root) for root in (50, 51, 52, 53, 4, 5, 6)], [150, 147, 148, 149, 0, 0, 106])
        self.assertRaises(gcflip.NoField, heap.spread, 10, 1, 4)
        self.assertRaises(gcflip.NoObject, heap.spread, 10, 9, 1)
        for call in (lambda: heap.spread(51, 1, 4), lambda: heap.spread(1, 1, 1), lambda: heap.spread(0, 54, 1), lambda: heap.spread(0, 1, 2 ** 32), lambda: heap.gather(0, 54, 7, 0, 1),
                     lambda: heap.gather(0, 0, 7, 53, 2), lambda: heap.gather(2, 0, 7, 0, 1), lambda: heap.gather(0, 0, 256, 0, 1), lambda: heap.new_pair(0, 0, 7, 0, 54),
                     lambda: heap.new_pair(256, 0, 7, 0, 0), lambda: heap.new_from(0, 0, 7, [0, 54]), lambda: heap.new_from(0, 0, 7, [-1]),
                     lambda: heap.new_from(0, 0, 7, [0] * 65536), lambda: heap.new_raw(0, 7, 65536), lambda: heap.new_raw(54, 7, 1)):
            self.assertRaises(gcflip.OutOfRange, call)
        for call in (lambda: heap.new_raw(0, 7, 20), lambda: heap.gather(0, 0, 7, 0, 20), lambda: heap.new_from(0, 0, 7, [0] * 20)):
            self.assertRaises(gcflip.Full, call)
        heap.begin()
        heap.new_pair(1, 0, 7, 17, 53)
        heap.new_from(0, 0, 7, [])
        heap.gather(1, 0, 7, 0, 1)
        self.assertEqual((heap.log_length(0), heap.log_length(1)), (0, 3))
        heap.close()
        for call in (lambda: heap.new_raw(0, 7, 1), lambda: heap.new_pair(0, 0, 7, 0, 0), lambda: heap.new_from(0, 0, 7, []), lambda: heap.gather(0, 0, 7, 0, 1),
                     lambda: heap.spread(1, 0, 1)):
            self.assertRaises(gcflip.Closed, call)

    def test_fields_by_places(self):
        heap = Heap(60, mutators=2, extra_roots=3)
        self.addCleanup(heap.close)
        first, other, last = 0, 32, 50
        heap.set_number(last, 2 ** 63 - 1)
        heap.new_with(1, first, 7, iter([Held(first), 5, None, Held(last)]))
        self.assertEqual([heap.peek(first, i) for i in range(4)], [Object(7, 4), 5, None, 2 ** 63 - 1])
        self.assertEqual(heap.look(last), 2 ** 63 - 1)
        heap.new_with(0, other, 8, [1, 2, 3, 4])
        heap.copy_fields(0, other, 1, other, 0, 2)
        self.assertEqual([heap.peek(other, i) for i in range(4)], [1, 1, 1, 4])
        heap.fill(0, other, 1, 3, last)
        heap.put_sure(0, other, 0, first)
        self.assertEqual([heap.peek(other, i) for i in range(4)], [Object(7, 4), 2 ** 63 - 1, 2 ** 63 - 1, 4])
        found = [heap.field_at(at, i) for at, i in ((1, 0), (1, 1), (1, 2), (7, 0), (7, 3), (2, 0), (2 ** 32 - 1, 2 ** 32 - 1))]
        self.assertEqual(found, [(Object(7, 4), 1), (5, None), (None, None), (Object(7, 4), 1), (4, None), (None, None), (None, None)])
        self.assertRaises(gcflip.NoField, heap.field_at, 1, 4)
        heap.new_raw(last, 9, 2)
        for call in (lambda: heap.fill(0, last, 0, 1, first), lambda: heap.copy_fields(0, last, 0, first, 0, 2), lambda: heap.put_sure(0, last, 0, first)):
            self.assertRaises(gcflip.NoNumber, call)
        for call in (lambda: heap.fill(0, other, 0, 5, last), lambda: heap.copy_fields(0, other, 1, first, 1, 4), lambda: heap.put_sure(0, other, 4, last)):
            self.assertRaises(gcflip.NoField, call)
        for call in (lambda: heap.fill(0, 1, 0, 0, last), lambda: heap.copy_fields(0, 1, 0, first, 0, 0), lambda: heap.put_sure(0, 1, 0, last)):
            self.assertRaises(gcflip.NoObject, call)
        for call in (lambda: heap.new_with(0, 51, 7, []), lambda: heap.new_with(0, 1, 7, [Held(51)]), lambda: heap.new_with(0, 1, 7, [2 ** 63]),
                     lambda: heap.new_with(2, 1, 7, []), lambda: heap.new_with(0, 1, 256, []), lambda: heap.new_with(0, 1, 7, [None] * 65536),
                     lambda: heap.fill(0, 51, 0, 0, 0), lambda: heap.fill(0, first, 1, 0, 0), lambda: heap.fill(0, first, 0, 2 ** 32, 0), lambda: heap.fill(2, first, 0, 0, 0),
                     lambda: heap.copy_fields(0, 51, 0, first, 0, 0), lambda: heap.copy_fields(2, first, 0, first, 0, 0), lambda: heap.put_sure(0, first, 0, 51),
                     lambda: heap.put_sure(2, first, 0, first), lambda: heap.field_at(2 ** 32, 0)):
            self.assertRaises(gcflip.OutOfRange, call)
        self.assertRaises(gcflip.Full, heap.new_with, 0, 1, 7, [None] * 60)
        heap.begin()
        heap.fill(1, first, 0, 3, last)
        heap.copy_fields(0, other, 0, first, 0, 2)
        heap.put_sure(1, first, 0, last)
        self.assertEqual((heap.log_length(0), heap.log_length(1)), (2, 4))
        heap.close()
        for call in (lambda: heap.new_with(0, 0, 7, []), lambda: heap.fill(0, 0, 0, 0, 0), lambda: heap.copy_fields(0, 0, 0, 0, 0, 0), lambda: heap.put_sure(0, 0, 0, 0),
                     lambda: heap.field_at(1, 0)):
            self.assertRaises(gcflip.Closed, call)

    def test_texts_of_bytes(self):
        heap = Heap(120, mutators=2, extra_roots=3)
        self.addCleanup(heap.close)
        one, other, last, nil = 0, 32, 50, 5
        text = bytes([*range(200, 256), 0, 1, 2, 3])
        heap.new_bytes(1, one, 7, bytearray(text))
        self.assertEqual((heap.look(one), heap.bytes_length(one), heap.bytes_read(one)), (Object(7, 9, True), 60, text))
        heap.bytes_part(0, other, 8, one, 54, 6)
        heap.bytes_join(0, last, 9, other, one)
        self.assertEqual((heap.bytes_read(other), heap.bytes_read(last)), (text[54:], text[54:] + text))
        parts = [heap.bytes_read(last, at, count) for at, count in ((5, 3), (60, None), (66, 0), (66, None))]
        self.assertEqual(parts, [text[59:] + text[:2], text[54:], b"", b""])
        self.assertEqual([heap.bytes_same(*pair) for pair in ((one, other), (one, one))], [False, True])
        self.assertEqual([heap.bytes_compare(*pair) for pair in ((one, other), (other, one), (last, last))], [-1, 1, 0])
        heap.bytes_write(1, last, 3, bytearray([9] * 9))
        heap.bytes_write(0, last, 66, b"")
        self.assertEqual(heap.bytes_read(last), text[54:57] + bytes([9] * 9) + text[6:])
        heap.bytes_write(0, last, 3, text[57:] + text[:6])
        self.assertEqual(heap.bytes_read(last), text[54:] + text)
        for call in (lambda: heap.bytes_read(one, 1, 60), lambda: heap.bytes_read(one, 61), lambda: heap.bytes_part(0, other, 8, one, 1, 60),
                     lambda: heap.bytes_write(0, other, 0, bytes(7)), lambda: heap.bytes_write(0, other, 7, b""), lambda: heap.bytes_write(0, other, 2 ** 32 - 1, b"x")):
            self.assertRaises(gcflip.NoField, call)
        for call in (lambda: heap.bytes_length(nil), lambda: heap.bytes_read(nil), lambda: heap.bytes_part(0, other, 8, nil, 0, 0),
                     lambda: heap.bytes_join(0, other, 8, nil, one), lambda: heap.bytes_join(0, other, 8, one, nil),
                     lambda: heap.bytes_same(nil, one), lambda: heap.bytes_compare(one, nil), lambda: heap.bytes_write(0, nil, 0, b"")):
            self.assertRaises(gcflip.NoObject, call)
        for call in (lambda: heap.new_bytes(0, 51, 7, b""), lambda: heap.new_bytes(2, one, 7, b""), lambda: heap.new_bytes(0, one, 256, b""),
                     lambda: heap.bytes_read(one, -1), lambda: heap.new_bytes(0, one, 7, bytes(458746)), lambda: heap.bytes_length(51),
                     lambda: heap.bytes_join(0, one, 7, 51, one), lambda: heap.bytes_compare(one, 51), lambda: heap.bytes_part(0, one, 7, one, 0, 2 ** 32),
                     lambda: heap.bytes_write(2, one, 0, b"x"), lambda: heap.bytes_write(0, 51, 0, b"x"), lambda: heap.bytes_write(0, one, -1, b"x"),
                     lambda: heap.bytes_write(0, one, 2 ** 32, b"x"), lambda: heap.bytes_write(0, one, 0, bytes(458746))):
            self.assertRaises(gcflip.OutOfRange, call)
        self.assertRaises(gcflip.Full, heap.new_bytes, 0, one, 7, bytes(458745))
        self.assertEqual((heap.bytes_read(one), heap.bytes_read(other)), (text, text[54:]))
        heap.begin()
        heap.new_bytes(1, 1, 7, b"eight..8")
        heap.bytes_part(0, 2, 7, one, 0, 7)
        self.assertEqual((heap.log_length(0), heap.log_length(1)), (1, 2))
        heap.bytes_write(1, one, 6, b"in three fields")
        self.assertEqual((heap.log_length(0), heap.log_length(1), heap.bytes_read(one, 6, 15)), (1, 5, b"in three fields"))
        heap.close()
        for call in (lambda: heap.new_bytes(0, 0, 7, b""), lambda: heap.bytes_write(0, 0, 0, b""), lambda: heap.bytes_length(0), lambda: heap.bytes_read(0), lambda: heap.bytes_same(0, 0)):
            self.assertRaises(gcflip.Closed, call)

    def test_vectors_of_words(self):
        heap = Heap(200, mutators=2, extra_roots=3)
        self.addCleanup(heap.close)
        one, other, nil = 0, 50, 5
        heap.new_raw(one, 7, 66)
        self.assertEqual(heap.words_read(one), array.array("Q", bytes(8 * 64)))
        doubles = array.array("d", [1.5 - k for k in range(64)])
        words = array.array("Q", doubles.tobytes())
        heap.words_write(1, one, 0, memoryview(doubles).cast("B").cast("Q"))
        self.assertEqual((heap.words_read(one), array.array("d", heap.words_read(one).tobytes())), (words, doubles))
        heap.words_write(0, one, 61, [2 ** 64 - 1, 0, 2 ** 63])
        heap.words_write(0, one, 64, [])
        self.assertEqual(heap.words_read(one).tolist(), [*words[:61], 2 ** 64 - 1, 0, 2 ** 63])
        parts = [heap.words_read(one, at, count).tolist() for at, count in ((61, 2), (62, None), (64, 0), (64, None))]
        self.assertEqual(parts, [[2 ** 64 - 1, 0], [0, 2 ** 63], [], []])
        for call in (lambda: heap.words_read(one, 1, 64), lambda: heap.words_read(one, 65), lambda: heap.words_write(0, one, 0, [0] * 65),
                     lambda: heap.words_write(0, one, 65, []), lambda: heap.words_write(0, one, 2 ** 32 - 1, [0])):
            self.assertRaises(gcflip.NoField, call)
        heap.new(other, 7, 2)
        for call in (lambda: heap.words_read(nil), lambda: heap.words_read(other), lambda: heap.words_write(0, nil, 0, []), lambda: heap.words_write(0, other, 0, [1])):
            self.assertRaises(gcflip.NoObject, call)
        for call in (lambda: heap.words_read(51), lambda: heap.words_read(one, -1), lambda: heap.words_read(one, 0, 2 ** 32), lambda: heap.words_write(2, one, 0, [0]),
                     lambda: heap.words_write(0, 51, 0, [0]), lambda: heap.words_write(0, one, -1, [0])):
            self.assertRaises(gcflip.OutOfRange, call)
        self.assertRaises(OverflowError, heap.words_write, 0, one, 0, [2 ** 64])
        self.assertRaises(TypeError, heap.words_write, 0, one, 0, doubles)
        self.assertEqual(heap.words_read(one).tolist(), [*words[:61], 2 ** 64 - 1, 0, 2 ** 63])
        heap.begin()
        heap.words_write(1, one, 61, words[61:])
        self.assertEqual((heap.log_length(0), heap.log_length(1), heap.words_read(one)), (0, 5, words))
        heap.close()
        for call in (lambda: heap.words_read(0), lambda: heap.words_write(0, 0, 0, [])):
            self.assertRaises(gcflip.Closed, call)

    def test_hashes_of_texts(self):
        """The hashes are computed from the rule that herbpond.h has, by another program."""
        heap = Heap(1000)
        self.addCleanup(heap.close)
        for text, seed, wanted in ((b"", 5, 0x1715609f7c746c69), (b"herbpond", 5, 0x27fd3d97bf24d07a), (bytes(k % 256 for k in range(300)), 7, 0x4d1542e696f3039a)):
            heap.new_bytes(0, 0, 1, text)
            self.assertEqual(heap.bytes_hash(0, seed), wanted)
        self.assertNotEqual(heap.bytes_hash(0, 8), heap.bytes_hash(0, 7))
        for call, error in ((lambda: heap.bytes_hash(1, 5), gcflip.NoObject), (lambda: heap.bytes_hash(32, 5), gcflip.OutOfRange), (lambda: heap.bytes_hash(0, -1), gcflip.OutOfRange), (lambda: heap.bytes_hash(0, 1 << 64), gcflip.OutOfRange)):
            self.assertRaises(error, call)

    def test_what_errors_say(self):
        heap = Heap(8)
        self.addCleanup(heap.close)
        refused = [(lambda: heap.new(0, 1, 7), gcflip.Full.sentence), (lambda: heap.new(32, 1, 1), "new: " + gcflip.OutOfRange.sentence), (lambda: heap.get(0, 0, 0), gcflip.NoObject.sentence)]
        for call, said in refused:
            with self.assertRaises(gcflip.GcflipError) as caught:
                call()
            self.assertTrue(said)
            self.assertEqual(str(caught.exception), said)
        self.assertEqual(gcflip.Full.reply, "full")

    def test_numbers_of_raw_objects(self):
        heap = Heap(200, mutators=2, extra_roots=3)
        self.addCleanup(heap.close)
        one, other, nil = 0, 50, 5
        heap.new_raw(one, 7, 4)
        heap.raw_write(1, one, 1, array.array("Q", [6, 2 ** 63 - 1]))
        heap.raw_write(0, one, 4, [])
        self.assertEqual([heap.raw_read(one, first, count).tolist() for first, count in ((0, 4), (1, 2), (4, 0))], [[0, 6, 2 ** 63 - 1, 0], [6, 2 ** 63 - 1], []])
        heap.new(other, 7, 2)
        for call, error in ((lambda: heap.raw_read(one, 3, 2), gcflip.NoField), (lambda: heap.raw_read(one, 2 ** 32 - 1, 1), gcflip.NoField), (lambda: heap.raw_write(0, one, 3, [1, 2]), gcflip.NoField),
                            (lambda: heap.raw_write(0, one, 65536, [1]), gcflip.NoField), (lambda: heap.raw_write(0, one, 0, [1, 2 ** 63]), gcflip.NoNumber),
                            (lambda: heap.raw_read(nil, 0, 0), gcflip.NoObject), (lambda: heap.raw_read(other, 0, 1), gcflip.NoObject), (lambda: heap.raw_write(0, other, 0, [1]), gcflip.NoObject),
                            (lambda: heap.raw_read(51, 0, 1), gcflip.OutOfRange), (lambda: heap.raw_read(one, -1, 1), gcflip.OutOfRange), (lambda: heap.raw_read(one, 0, 65536), gcflip.OutOfRange),
                            (lambda: heap.raw_write(2, one, 0, [1]), gcflip.OutOfRange), (lambda: heap.raw_write(0, 51, 0, [1]), gcflip.OutOfRange), (lambda: heap.raw_write(0, one, -1, [1]), gcflip.OutOfRange),
                            (lambda: heap.raw_write(0, one, 0, [2 ** 64]), OverflowError), (lambda: heap.raw_write(0, one, 0, array.array("d", [1])), TypeError)):
            self.assertRaises(error, call)
        heap.begin()
        heap.raw_write(1, one, 2, [8, 9])
        self.assertEqual((heap.log_length(0), heap.log_length(1), heap.raw_read(one, 0, 4).tolist()), (0, 2, [0, 6, 8, 9]))
        heap.close()
        for call in (lambda: heap.raw_read(0, 0, 0), lambda: heap.raw_write(0, 0, 0, [])):
            self.assertRaises(gcflip.Closed, call)

    def test_texts_are_those_of_python(self):
        """Random texts, joined, parted, written and compared, also while collections are open, against Python's bytes."""
        chance = random.Random(7)
        heap = Heap(600, mutators=1)
        self.addCleanup(heap.close)
        texts = [b""] * 6
        for root in range(6):
            heap.new_bytes(0, root, 7, b"")
        for turn in range(3000):
            root, one, other = chance.randrange(6), chance.randrange(6), chance.randrange(6)
            choice = chance.randrange(6)
            if choice == 0:
                texts[root] = bytes(chance.choice((0, 1, 127, 128, 255)) for _ in range(chance.randrange(40)))
                made = lambda: heap.new_bytes(0, root, 7, texts[root])
            elif choice == 1 and len(texts[one]) + len(texts[other]) <= 80:
                texts[root] = texts[one] + texts[other]
                made = lambda: heap.bytes_join(0, root, 7, one, other)
            elif choice == 2:
                at = chance.randrange(len(texts[one]) + 1)
                count = chance.randrange(len(texts[one]) - at + 1)
                texts[root] = texts[one][at:at + count]
                made = lambda: heap.bytes_part(0, root, 7, one, at, count)
            elif choice == 3:
                at = chance.randrange(len(texts[root]) + 1)
                data = bytes(chance.choice((0, 1, 127, 128, 255)) for _ in range(chance.randrange(len(texts[root]) - at + 1)))
                texts[root] = texts[root][:at] + data + texts[root][at + len(data):]
                made = lambda: heap.bytes_write(0, root, at, data)
            else:
                self.assertEqual(heap.bytes_same(one, other), texts[one] == texts[other])
                self.assertEqual(heap.bytes_compare(one, other), (texts[one] > texts[other]) - (texts[one] < texts[other]))
                self.assertEqual(heap.bytes_read(one), texts[one])
                heap.work(1 + chance.randrange(20))
                continue
            try:
                made()
            except gcflip.Full:
                heap.collect()
                made()
            self.assertEqual(heap.bytes_read(root), texts[root])

    def test_room_is_reserved(self):
        heap, pace = Heap(64), gcflip.Pace()
        self.addCleanup(heap.close)
        self.assertEqual((heap.reserve(pace, 10), heap.room()), (None, 63))
        heap.new(0, 7, 40)
        self.assertRaises(gcflip.Full, heap.reserve, pace, 22)
        self.assertEqual(heap.room(), 21)
        heap.set_nil(0)
        self.assertEqual((heap.reserve(pace, 22).last, heap.room()), (gcflip.Step.FLIPPED, 63))
        heap.new(0, 7, 40)
        heap.begin(8)
        self.assertRaises(gcflip.OutOfMemory, heap.reserve, pace, 22)
        self.assertEqual(heap.room(), 21)
        self.assertRaises(gcflip.OutOfRange, heap.reserve, pace, 2 ** 32)

    def test_refusals(self):
        heap = self.heap
        heap.new(0, 7, 1)
        for wrong in (51, 256, 65536, 2 ** 32 - 1, 2 ** 32, -1):
            for call in (lambda: heap.new(wrong, 7, 1), lambda: heap.set_number(wrong, 1), lambda: heap.copy(wrong, 0), lambda: heap.copy(1, wrong),
                         lambda: heap.get(wrong, 0, 0), lambda: heap.get(1, wrong, 0), lambda: heap.put(0, wrong, 0, 1), lambda: heap.put(0, 0, 0, wrong),
                         lambda: heap.is_same(wrong, 0), lambda: heap.is_same(0, wrong), lambda: heap.look(wrong), lambda: heap.set_nil(wrong), lambda: heap.peek(wrong, 0),
                         lambda: heap.put_number(0, wrong, 0, 1), lambda: heap.put_nil(0, wrong, 0)):
                self.assertRaises(gcflip.OutOfRange, call)
        for kind, length in ((256, 1), (2 ** 32 - 1, 1), (7, 65536), (7, 2 ** 32 - 1)):
            self.assertRaises(gcflip.OutOfRange, heap.new, 0, kind, length)
        for call in (lambda: heap.put(2, 0, 0, 1), lambda: heap.put(256, 0, 0, 1), lambda: heap.set_number(0, 2 ** 63), lambda: heap.set_number(0, 2 ** 64),
                     lambda: heap.put_number(2, 0, 0, 1), lambda: heap.put_number(0, 0, 0, 2 ** 63), lambda: heap.put_nil(256, 0, 0)):
            self.assertRaises(gcflip.OutOfRange, call)
        for field in (1, 65535, 65536, 2 ** 32 - 1):
            self.assertRaises(gcflip.NoField, heap.get, 1, 0, field)
            self.assertRaises(gcflip.NoField, heap.put, 0, 0, field, 1)
            self.assertRaises(gcflip.NoField, heap.put_number, 0, 0, field, 1)
            self.assertRaises(gcflip.NoField, heap.peek, 0, field)
            self.assertRaises(gcflip.NoObject, heap.put_nil, 0, 1, field)
            self.assertRaises(gcflip.NoObject, heap.peek, 1, field)
            self.assertRaises(gcflip.NoObject, heap.get, 1, 1, field)
            self.assertRaises(gcflip.NoObject, heap.put, 0, 1, field, 1)
        self.assertEqual((heap.look(0), heap.look(1), heap.look(50)), (Object(7, 1), None, None))
        heap.close()
        self.assertRaises(gcflip.Closed, heap.look, 0)
        self.assertRaises(gcflip.Closed, heap.get, 0, 0, 0)

    def test_a_get_returns_what_it_read(self):
        """Reads a field into an extra root, to which another thread writes numbers. The field always refers to an object."""
        before = sys.getswitchinterval()
        sys.setswitchinterval(1e-6)
        self.addCleanup(sys.setswitchinterval, before)
        heap, root, done = self.heap, extra_place(2, 0), threading.Event()
        heap.new(1, 7, 2)
        heap.new(0, 1, 1)
        heap.put(0, 0, 0, 1)
        thread = threading.Thread(target=disturb, args=(heap, root, done))
        thread.start()
        try:
            self.assertEqual({heap.get(root, 0, 0) for _ in range(20000)}, {Object(7, 2)})
        finally:
            done.set()
            thread.join()


def disturb(heap, root, done):
    """Writes numbers to a root until it is told to stop."""
    while not done.is_set():
        heap.set_number(root, 5)


if __name__ == "__main__":
    unittest.main()
