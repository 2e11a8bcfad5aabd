"""Tests of the package's heap."""
import array
import copy
import ctypes
import gc
import os
import pickle
import signal
import sys
import threading
import time
import unittest
import weakref

import gcflip
from gcflip import Heap, Held, LogEntry, Object, Step, own, shared
from limits import at_most


class WrittenWhileScanning(unittest.TestCase):
    """Makes the calls of examples/write_while_scanning.trace, and expects the replies of its file."""

    def test_replies(self):
        with Heap(32) as heap:
            mutator = heap.mutator(0)
            mutator.new(own(0), 1, 1)
            mutator.set_number(own(1), 9)
            self.assertEqual(heap.begin(), Step.BEGUN)
            self.assertEqual(heap.roots(), Step.COPIED)
            self.assertEqual(heap.scan(), Step.SCANNED)
            mutator.put(own(0), 0, own(1))
            self.assertEqual(heap.scan(), Step.PASSED)
            with self.assertRaises(gcflip.NotReady):
                heap.flip()
            self.assertEqual(heap.apply(0), Step.APPLIED)
            self.assertEqual(heap.flip(), 1)
            self.assertEqual(mutator.get(own(2), own(0), 0), 9)


class Checks(unittest.TestCase):
    """Which checker accepts flips, and what a check of an open collection finds."""

    def flips(self, **options):
        with Heap(32, **options) as heap:
            heap.mutator(0).new(own(0), 1, 1)
            self.assertEqual(heap.flip_checks(), (0, 0))
            for _ in range(7):
                self.assertEqual(heap.work(100).last, Step.FLIPPED)
            return heap.flip_checks()

    def test_ways_of_checking(self):
        self.assertEqual(self.flips(), gcflip.FlipChecks(along=7, whole=0))
        self.assertEqual(self.flips(checking=gcflip.Checking.AT_FLIP), gcflip.FlipChecks(along=0, whole=7))
        self.assertEqual(self.flips(whole_each=3), gcflip.FlipChecks(along=5, whole=2))
        with self.assertRaises(gcflip.OutOfRange):
            self.flips(whole_each=2 ** 32)

    def test_check(self):
        with Heap(32) as heap:
            heap.mutator(0).new(own(0), 1, 1)
            with self.assertRaises(gcflip.Idle):
                heap.check()
            heap.begin()
            with self.assertRaises(gcflip.NotReady):
                heap.check()
            while heap.useful().name != "flip":
                heap.work(1)
            self.assertEqual(heap.check(), 1)
            self.assertEqual(heap.flip(), 1)
        with self.assertRaises(gcflip.Closed):
            heap.check()
        with self.assertRaises(gcflip.Closed):
            heap.flip_checks()


class Commands(unittest.TestCase):
    def setUp(self):
        self.heap = Heap(16, mutators=2)
        self.addCleanup(self.heap.close)
        self.mutator = self.heap.mutator(0)

    def test_values(self):
        self.mutator.new(own(0), 7, 2)
        self.mutator.new_raw(own(1), 255, 1)
        self.mutator.set_number(own(2), (1 << 63) - 1)
        self.assertEqual(self.mutator.look(own(0)), Object(7, 2))
        self.assertEqual(self.mutator.look(own(1)), Object(255, 1, raw=True))
        self.assertEqual(self.mutator.look(own(2)), (1 << 63) - 1)
        self.mutator.set_nil(own(2))
        self.assertIsNone(self.mutator.look(own(2)))
        self.assertEqual(self.mutator.get(own(2), own(1), 0), 0)

    def test_put_number(self):
        self.mutator.new(own(0), 7, 2)
        self.mutator.new_raw(own(1), 255, 1)
        self.mutator.put(own(0), 0, own(1))
        self.mutator.put_number(own(0), 1, own(2), 5)
        self.assertEqual(self.mutator.look(own(2)), 5)
        self.assertEqual(self.mutator.get(own(3), own(0), 1), 5)
        self.assertEqual(self.mutator.get(own(3), own(0), 0), Object(255, 1, raw=True))
        with self.assertRaises(gcflip.NoObject):
            self.mutator.put_number(own(2), 0, own(2), 6)
        with self.assertRaises(gcflip.OutOfRange):
            self.mutator.put_number(own(0), 0, own(2), 1 << 63)

    def test_put_nil(self):
        self.mutator.new_pair(own(0), 7, own(0), own(0))
        self.mutator.new_raw(own(1), 255, 1)
        self.mutator.set_number(own(2), 5)
        self.mutator.put_nil(own(0), 1, own(2))
        self.assertIsNone(self.mutator.look(own(2)))
        self.assertIsNone(self.mutator.get(own(3), own(0), 1))
        self.assertEqual(self.mutator.get(own(3), own(0), 0), Object(7, 2))
        self.mutator.set_number(own(2), 5)
        with self.assertRaises(gcflip.NoNumber):
            self.mutator.put_nil(own(1), 0, own(2))
        self.assertIsNone(self.mutator.look(own(2)))
        with self.assertRaises(gcflip.NoField):
            self.mutator.put_nil(own(0), 2, own(2))
        with self.assertRaises(gcflip.NoObject):
            self.mutator.put_nil(own(2), 0, own(2))
        with self.assertRaises(gcflip.OutOfRange):
            self.mutator.put_nil(own(0), 0, 32)

    def test_cons(self):
        self.mutator.set_number(own(1), 5)
        self.mutator.new_pair(own(0), 7, own(1), own(0))
        self.assertEqual(self.mutator.look(own(0)), Object(7, 2))
        self.assertEqual(self.mutator.get(own(2), own(0), 0), 5)
        self.mutator.get(own(2), own(0), 1)
        self.assertTrue(self.mutator.is_same(own(2), own(0)))

    def test_new_from(self):
        self.mutator.set_number(own(1), 5)
        self.mutator.new_from(own(0), 7, [own(1), own(0), own(2)])
        self.assertEqual(self.mutator.look(own(0)), Object(7, 3))
        self.assertEqual(self.mutator.get(own(2), own(0), 0), 5)
        self.assertIsNone(self.mutator.get(own(2), own(0), 2))
        self.mutator.get(own(2), own(0), 1)
        self.assertTrue(self.mutator.is_same(own(2), own(0)))
        self.mutator.new_from(own(0), 7, [])
        self.assertEqual(self.mutator.look(own(0)), Object(7, 0))
        for fields in ([32], [own(1)] * 65536, [256]):
            with self.assertRaises(gcflip.OutOfRange):
                self.mutator.new_from(own(0), 7, fields)

    def test_slots(self):
        self.mutator.set_number(shared(15), 5)
        self.mutator.set_number(own(15), 6)
        other = self.heap.mutator(1)
        self.assertEqual(other.look(shared(15)), 5)
        self.assertIsNone(other.look(own(15)))
        other.copy(own(15), shared(15))
        self.assertTrue(other.is_same(own(15), shared(15)))
        self.assertFalse(self.mutator.is_same(own(15), shared(15)))

    def test_refused_commands(self):
        refused = [
            (gcflip.NoObject, "no object", lambda: self.mutator.get(own(1), own(0), 0)),
            (gcflip.NoObject, "no object", lambda: self.mutator.put(own(0), 0, own(1))),
            (gcflip.Full, "full", lambda: self.mutator.new(own(0), 1, 14)),
            (gcflip.Full, "full", lambda: self.mutator.new_raw(own(0), 1, 14)),
        ]
        self.mutator.new_raw(shared(0), 1, 1)
        refused += [
            (gcflip.NoField, "no field", lambda: self.mutator.get(own(1), shared(0), 1)),
            (gcflip.NoNumber, "no number", lambda: self.mutator.put(shared(0), 0, shared(0))),
        ]
        for error, reply, call in refused:
            with self.assertRaises(error) as caught:
                call()
            self.assertEqual(caught.exception.reply, reply)
            self.assertIsInstance(caught.exception, gcflip.HeapRefused)
        self.assertIsNone(self.mutator.look(own(0)))

    def test_extra_roots(self):
        with Heap(32, 2, extra_roots=3) as heap:
            first, second = heap.mutator(0), heap.mutator(1)
            first.new(own(0), 7, 0)
            first.store(2, own(0))
            first.set_nil(own(0))
            first.set_number(own(1), 5)
            first.store(0, own(1))
            self.assertEqual(heap.work(100).pairs, 1)
            second.load(own(3), 2)
            self.assertEqual(second.look(own(3)), gcflip.Object(7, 0))
            second.load(shared(0), 0)
            self.assertEqual(first.look(shared(0)), 5)
            image = heap.image()
            self.assertEqual((len(image.roots), list(image.roots[48:])), (51, [2 * 5 + 1, 0, 2]))
            self.assertEqual(heap.counts(), (32, 3, 29, 2, 3, False, 0, 0, 0, 0, 0, 3))
            heap.clear_roots(0, 3)
            second.load(own(3), 2)
            self.assertIsNone(second.look(own(3)))
            for call in (lambda: first.load(0, 3), lambda: first.load(32, 0), lambda: first.store(3, 0), lambda: first.store(-1, 0),
                         lambda: heap.clear_roots(0, 4), lambda: heap.clear_roots(2, 1), lambda: Heap(32, 1, 1048577), lambda: Heap(32, 1, -1)):
                with self.assertRaises(gcflip.OutOfRange):
                    call()

    def test_looks_are_units_of_work(self):
        with Heap(64, extra_roots=100) as heap:
            mutator, pace = heap.mutator(0), gcflip.Pace(words=16)
            mutator.new(own(0), 7, 1)
            for root in range(70):
                mutator.store(root, own(0))
            self.assertEqual(heap.counts().roots_left, 70)
            self.assertEqual(heap.work(2), (2, 3, Step.COPIED, 0, 0))
            self.assertEqual(heap.work(1), (0, 0, None, 0, 32))
            self.assertEqual(heap.counts().roots_left, 38)
            mutator.store(5, own(0))
            self.assertEqual(heap.counts().roots_left, 39)
            # Six steps are due, because no room is left, two of them for 39 looks. The call may take 32 looks, twice as many as units, and owes the others.
            heap.remember(pace)
            self.assertEqual(heap.work_paced(pace, 1 << 31), (0, 0, None, 0, 32))
            self.assertEqual((pace.owed, heap.counts().roots_left), (5, 7))
            # The field, the end of its object, and the flip.
            self.assertEqual(heap.work_paced(pace, 0), (3, 0, Step.FLIPPED, 1, 7))
            self.assertEqual(pace.owed, 0)

    def test_frames(self):
        with Heap(64, extra_roots=8) as heap:
            mutator, frame, beyond = heap.mutator(0), gcflip.Frame(1, 8), gcflip.Frame(7, 9)
            self.assertRaises(gcflip.FrameEmpty, mutator.pop, frame, own(0))
            for kind in range(7):
                mutator.new(own(0), kind, 0)
                mutator.push(frame, own(0))
            self.assertRaises(gcflip.FrameFull, mutator.push, frame, own(0))
            mutator.set_nil(own(0))
            frame.truncate(8)
            self.assertEqual((len(frame), frame.roots, frame.dropped_roots), (7, range(1, 8), range(8, 8)))
            frame.truncate(2)
            self.assertEqual((len(frame), frame.roots, frame.dropped_roots), (2, range(1, 3), range(3, 8)))
            # What was dropped lives until it is trimmed.
            self.assertEqual(heap.work(100).pairs, 7)
            heap.trim_frame(frame, 3)
            self.assertEqual((len(frame), frame.dropped_roots), (2, range(3, 5)))
            self.assertEqual(heap.work(100).pairs, 4)
            heap.trim_frame(frame, 2 ** 32 - 1)
            self.assertEqual((len(frame), frame.dropped_roots), (2, range(3, 3)))
            self.assertEqual(heap.work(100).pairs, 2)
            mutator.pop(frame, own(0))
            self.assertEqual((mutator.look(own(0)), len(frame), frame.dropped_roots), (gcflip.Object(1, 0), 1, range(2, 2)))
            for call in (lambda: mutator.push(beyond, own(0)), lambda: mutator.pop(beyond, own(0)), lambda: heap.trim_frame(beyond, 1),
                         lambda: heap.trim_frame(frame, -1), lambda: frame.truncate(-1), lambda: gcflip.Frame(0, 2 ** 32)):
                self.assertRaises(gcflip.OutOfRange, call)

    def test_arguments_out_of_range(self):
        calls = [
            lambda: Heap(0), lambda: Heap(-1), lambda: Heap(1 << 32), lambda: Heap(16, 0), lambda: Heap(16, 17), lambda: Heap(16, 257),
            lambda: own(16), lambda: own(-1), lambda: shared(16), lambda: shared(-1),
            lambda: self.heap.mutator(2), lambda: self.heap.mutator(-1),
            lambda: self.mutator.new(32, 0, 0), lambda: self.mutator.new(256, 0, 0), lambda: self.mutator.new(0, 256, 0),
            lambda: self.mutator.new(0, 0, 65536), lambda: self.mutator.set_number(0, 1 << 63), lambda: self.mutator.set_number(0, 1 << 64),
            lambda: self.mutator.set_number(0, -1), lambda: self.mutator.get(0, 0, 65536), lambda: self.heap.begin(0),
            lambda: self.heap.begin(1 << 32), lambda: self.heap.apply(2), lambda: self.heap.work(0), lambda: self.heap.work(0, size=8),
            lambda: self.heap.work_within(0, 8), lambda: self.heap.work(1, size=0), lambda: self.heap.log_length(2),
            lambda: self.heap.log_entry(0, 0), lambda: self.heap.new_words(), lambda: self.mutator.raw_read(32, 0, 0),
            lambda: self.mutator.raw_read(0, 65536, 0), lambda: self.mutator.raw_read(0, 0, 65536), lambda: self.mutator.address(32),
        ]
        for number, call in enumerate(calls):
            with self.subTest(number), self.assertRaises(gcflip.OutOfRange):
                call()


class Steps(unittest.TestCase):
    def test_refused_steps(self):
        with Heap(16) as heap:
            for step in (heap.roots, heap.scan, heap.flip, heap.give_up, lambda: heap.apply(0)):
                with self.assertRaises(gcflip.Idle):
                    step()
            heap.mutator(0).new(own(0), 1, 1)
            heap.begin(3)
            with self.assertRaises(gcflip.Busy):
                heap.begin()
            with self.assertRaises(gcflip.NotReady):
                heap.flip()
            self.assertEqual(heap.give_up(), Step.DROPPED)

    def test_steps_without_room(self):
        """The new space has room for the first object alone. The second one is the target of a root, of a field, and of a written field."""
        with Heap(16) as heap:
            mutator = heap.mutator(0)
            mutator.new(own(0), 1, 2)
            mutator.new(own(1), 1, 0)
            mutator.put(own(0), 0, own(1))
            heap.begin(5)
            self.assertEqual(heap.roots(), Step.COPIED)
            self.assertEqual(heap.roots(), Step.NO_ROOM)
            self.assertEqual(heap.scan(), Step.NO_ROOM)
            mutator.put(own(0), 1, own(1))
            self.assertEqual(heap.apply(0), Step.NO_ROOM)
            self.assertEqual(heap.log_length(0), 1)
            self.assertEqual(heap.work(5), (1, 0, Step.NO_ROOM, 0, 0))
            self.assertEqual(heap.give_up(), Step.DROPPED)

    def test_work(self):
        """Performs five steps: begin, the root, the field, past the object, the flip. The replica has three words."""
        with Heap(16) as heap:
            heap.mutator(0).new(own(0), 1, 1)
            self.assertEqual(heap.work(1), (1, 0, Step.BEGUN, 0, 0))
            self.assertEqual(heap.work(2), (2, 3, Step.SCANNED, 0, 0))
            self.assertEqual(heap.work(9), (2, 0, Step.FLIPPED, 1, 0))
            self.assertEqual(heap.work(9, size=20), (5, 3, Step.FLIPPED, 1, 0))
            self.assertEqual(heap.counts().size, 20)
            self.assertEqual(heap.work(9, 3), (2, 0, Step.NO_ROOM, 0, 0))

    def test_work_within(self):
        """Performs the same five steps. With the second one, three words are copied."""
        with Heap(16) as heap:
            heap.mutator(0).new(own(0), 1, 1)
            self.assertEqual(heap.work_within(9, 3), (2, 3, Step.COPIED, 0, 0))
            self.assertEqual(heap.work_within(9, 0), (1, 0, Step.SCANNED, 0, 0))
            self.assertEqual(heap.work_within(9, 1), (2, 0, Step.FLIPPED, 1, 0))
            self.assertEqual(heap.work_within(9, 4), (5, 3, Step.FLIPPED, 1, 0))
            self.assertEqual(heap.work_within(1, 3), (1, 0, Step.BEGUN, 0, 0))


class Readings(unittest.TestCase):
    def test_open_collection(self):
        with Heap(16, 2) as heap:
            mutator = heap.mutator(1)
            mutator.new(shared(0), 3, 1)
            self.assertEqual(heap.counts(), (16, 4, 12, 2, 0, False, 0, 0, 0, 0, 0, 0))
            heap.begin(20)
            heap.roots()
            mutator.put(shared(0), 0, own(0))
            self.assertEqual(heap.counts(), (16, 4, 12, 2, 0, True, 20, 4, 1, 0, 1, 0))
            self.assertIs(heap.counts().is_open, True)
            self.assertEqual((heap.log_length(0), heap.log_length(1)), (0, 1))
            self.assertEqual(heap.log_entry(1, 0), LogEntry(1, 0))
            header = 16777216 + 65536 * 3 + 1
            self.assertEqual(list(heap.image().words), [0, header, 1, 0])
            self.assertEqual(list(heap.image().roots), [2] + [0] * 47)
            self.assertEqual(heap.new_words(), array.array("Q", [0, header, 1, 0]))

    def test_numbers_of_raw_objects(self):
        with Heap(32, 2) as heap:
            mutator = heap.mutator(1)
            mutator.new_raw(own(3), 9, 4)
            for field in range(4):
                mutator.put_number(own(3), field, own(0), 10 + field)
            self.assertEqual(list(mutator.raw_read(own(3), 0, 4)), [10, 11, 12, 13])
            self.assertEqual(list(mutator.raw_read(own(3), 1, 2)), [11, 12])
            self.assertEqual(list(mutator.raw_read(own(3), 4, 0)), [])
            for first, count in ((4, 1), (5, 0), (0, 5), (65535, 65535)):
                with self.subTest(first=first, count=count), self.assertRaises(gcflip.NoField):
                    mutator.raw_read(own(3), first, count)
            mutator.new(own(4), 9, 4)
            for slot in (own(0), own(1), own(4)):
                with self.assertRaises(gcflip.NoObject):
                    mutator.raw_read(slot, 0, 0)

    def test_numbers_are_written_at_once(self):
        with Heap(32, 2) as heap:
            mutator = heap.mutator(1)
            mutator.new_raw(own(3), 9, 4)
            for numbers in ([1, 2, (1 << 63) - 1], array.array("Q", [4, 5, 6]), memoryview(array.array("Q", [7, 8, 9])), iter([10, 11, 12])):
                with self.subTest(numbers):
                    mutator.raw_write(own(3), 1, own(0), numbers)
            self.assertEqual(list(mutator.raw_read(own(3), 0, 4)), [0, 10, 11, 12])
            self.assertEqual(mutator.look(own(0)), 12)
            mutator.raw_write(own(3), 4, own(0), [])
            wrong = [(gcflip.NoField, (own(3), 2, own(0), [1, 2, 3])), (gcflip.NoField, (own(3), 5, own(0), [])),
                     (gcflip.NoNumber, (own(3), 0, own(0), [1, 1 << 63])), (gcflip.NoObject, (own(5), 0, own(0), [1])),
                     (gcflip.OutOfRange, (own(3), 0, own(3), [1])), (gcflip.OutOfRange, (own(3), 65536, own(0), [])),
                     (gcflip.OutOfRange, (32, 0, own(0), [])), (gcflip.OutOfRange, (own(3), 0, 32, [])), (OverflowError, (own(3), 0, own(0), [1, 1 << 64])),
                     (OverflowError, (own(3), 0, own(0), [-1])), (TypeError, (own(3), 0, own(0), array.array("I", [1])))]
            for error, arguments in wrong:
                with self.subTest(arguments), self.assertRaises(error):
                    mutator.raw_write(*arguments)
            mutator.new(own(4), 9, 4)
            with self.assertRaises(gcflip.NoObject):
                mutator.raw_write(own(4), 0, own(0), [1])
            self.assertEqual(list(mutator.raw_read(own(3), 0, 4)), [0, 10, 11, 12])
            self.assertEqual(mutator.look(own(0)), 12)
            heap.begin()
            mutator.raw_write(own(3), 2, own(0), [20, 21])
            self.assertEqual([heap.log_entry(1, k) for k in range(heap.log_length(1))], [LogEntry(1, 2), LogEntry(1, 3)])

    def test_numbers_and_slots_are_mixed(self):
        with Heap(64, 2) as heap:
            mutator = heap.mutator(1)
            mutator.new(own(1), 9, 0)
            mutator.new_with(own(3), 8, own(0), iter([5, None, Held(own(3)), Held(own(0)), (1 << 63) - 1, Held(own(1))]))
            self.assertEqual(mutator.look(own(3)), Object(8, 6, False))
            self.assertEqual([mutator.get(own(4), own(3), field) for field in range(6)],
                             [5, None, Object(8, 6, False), 5, (1 << 63) - 1, Object(9, 0, False)])
            self.assertEqual(mutator.look(own(0)), (1 << 63) - 1)
            mutator.new_with(own(4), 8, own(0), [])
            wrong = [(gcflip.OutOfRange, (own(3), 8, own(3), [])), (gcflip.OutOfRange, (own(3), 8, own(0), [1 << 63])), (gcflip.OutOfRange, (32, 8, own(0), [])),
                     (gcflip.OutOfRange, (own(3), 8, own(0), [1 << 64])), (gcflip.OutOfRange, (own(3), 8, own(0), [-1])), (gcflip.OutOfRange, (own(3), 256, own(0), [])),
                     (gcflip.OutOfRange, (own(3), 8, own(0), [Held(32)])), (gcflip.OutOfRange, (own(3), 8, own(0), [Held(256)])), (gcflip.OutOfRange, (own(3), 8, 32, [])),
                     (gcflip.OutOfRange, (own(3), 8, own(0), [None] * 65536)), (gcflip.Full, (own(3), 8, own(0), [None] * 65535)), (TypeError, (own(3), 8, own(0), ["5"]))]
            for error, arguments in wrong:
                with self.subTest(str(arguments)[:60]), self.assertRaises(error):
                    mutator.new_with(*arguments)
            self.assertEqual((mutator.look(own(0)), mutator.look(own(3))), ((1 << 63) - 1, Object(8, 6, False)))
            heap.begin()
            mutator.new_with(own(5), 8, own(0), [5, None, Held(own(3))])
            self.assertEqual([heap.log_entry(1, k).field for k in range(heap.log_length(1))], [0, 2])

    def test_fields_are_copied_at_once(self):
        with Heap(64, 2) as heap:
            mutator = heap.mutator(1)
            mutator.new(own(3), 9, 3)
            mutator.new_raw(own(4), 9, 4)
            mutator.raw_write(own(4), 0, own(0), [10, 11, 12, 13])
            mutator.copy_fields(own(3), 1, own(4), 2, own(0), 2)
            self.assertEqual([mutator.get(own(5), own(3), field) for field in range(3)], [None, 12, 13])
            self.assertEqual(mutator.look(own(0)), 13)
            mutator.copy_fields(own(4), 1, own(4), 0, own(0), 3)
            self.assertEqual(list(mutator.raw_read(own(4), 0, 4)), [10, 10, 10, 10])
            mutator.copy_fields(own(4), 4, own(3), 3, own(0), 0)
            wrong = [(gcflip.NoField, (own(3), 2, own(4), 0, own(0), 2)), (gcflip.NoField, (own(4), 0, own(3), 2, own(0), 2)),
                     (gcflip.NoField, (own(3), 4, own(4), 0, own(0), 0)), (gcflip.NoNumber, (own(4), 0, own(3), 0, own(0), 1)),
                     (gcflip.NoObject, (own(6), 0, own(4), 0, own(0), 0)), (gcflip.NoObject, (own(3), 0, own(6), 0, own(0), 0)),
                     (gcflip.OutOfRange, (own(3), 0, own(4), 0, own(3), 0)), (gcflip.OutOfRange, (own(3), 0, own(4), 0, own(4), 0)),
                     (gcflip.OutOfRange, (32, 0, own(4), 0, own(0), 0)), (gcflip.OutOfRange, (own(3), 65536, own(4), 0, own(0), 0)),
                     (gcflip.OutOfRange, (own(3), 0, 32, 0, own(0), 0)), (gcflip.OutOfRange, (own(3), 0, own(4), -1, own(0), 0)),
                     (gcflip.OutOfRange, (own(3), 0, own(4), 0, 32, 0)), (gcflip.OutOfRange, (own(3), 0, own(4), 0, own(0), 65536))]
            for error, arguments in wrong:
                with self.subTest(arguments), self.assertRaises(error):
                    mutator.copy_fields(*arguments)
            self.assertEqual(mutator.look(own(0)), 10)
            heap.begin()
            mutator.copy_fields(own(3), 0, own(3), 1, own(0), 2)
            self.assertEqual([heap.log_entry(1, k) for k in range(heap.log_length(1))], [LogEntry(1, 0), LogEntry(1, 1)])

    def test_addresses(self):
        with Heap(32) as heap:
            mutator = heap.mutator(0)
            mutator.new(own(0), 1, 3)
            mutator.new(own(1), 1, 0)
            self.assertEqual((mutator.address(own(0)), mutator.address(own(1))), (1, 6))
            mutator.set_nil(own(0))
            with self.assertRaises(gcflip.NoObject):
                mutator.address(own(0))
            while heap.work(1).last != gcflip.Step.FLIPPED:
                pass
            self.assertEqual(mutator.address(own(1)), 1)

    def test_moved_addresses(self):
        with Heap(32) as heap:
            mutator = heap.mutator(0)
            mutator.new(own(0), 1, 3)
            mutator.new(own(1), 1, 0)
            mutator.set_nil(own(0))
            while True:
                with self.assertRaises(gcflip.OutOfRange):
                    heap.moved(6)
                if heap.work(1).last == gcflip.Step.FLIPPED:
                    break
            self.assertEqual((sum(heap.flip_checks()), heap.moved(6)), (1, 1))
            with self.assertRaises(gcflip.NoObject):
                heap.moved(1)
            heap.begin()
            with self.assertRaises(gcflip.OutOfRange):
                heap.moved(6)

    def test_references_by_address(self):
        for checking in gcflip.Checking:
            with Heap(32, checking=checking) as heap:
                mutator = heap.mutator(0)
                mutator.new(own(0), 7, 3)
                mutator.new(own(1), 1, 0)
                mutator.set_nil(own(0))
                for address in (0, 2, 5, 7, 8, 2**32 - 1):
                    with self.assertRaises(gcflip.NoObject):
                        mutator.refer(own(2), address)
                with self.assertRaises(gcflip.OutOfRange):
                    mutator.refer(own(2), 2**32)
                self.assertIsNone(mutator.look(own(2)))
                mutator.refer(own(2), 1)
                self.assertEqual(mutator.look(own(2)).kind, 7)
                mutator.set_nil(own(2))
                while heap.work(1).last != gcflip.Step.FLIPPED:
                    pass
                with self.assertRaises(gcflip.NoObject):
                    heap.moved(1)
                mutator.refer(own(2), heap.moved(6))
                self.assertTrue(mutator.is_same(own(1), own(2)))

    def test_touched_heaps_stay_as_they_are(self):
        with Heap(64, extra_roots=2) as heap:
            heap.touch()
            heap.mutator(0).new(own(0), 1, 3)
            image = heap.image()
            heap.touch()
            self.assertEqual(heap.image(), image)
            heap.begin()
            heap.touch()
            while heap.work(1).last != gcflip.Step.FLIPPED:
                pass
            heap.touch()
            self.assertEqual(heap.moved(1), 1)

    def test_images_can_be_checked(self):
        with Heap(16) as heap:
            heap.mutator(0).new(own(0), 1, 0)
            image = heap.image()
            self.assertEqual((image.size, gcflip.check(image, image, [(1, 1)])), (16, 1))

    def test_damaged_words(self):
        """Writes over the header of the only object, as code in C may do by mistake. Beside the address of its words the heap keeps their number
        and its size."""
        with Heap(32) as heap:
            heap.mutator(0).new(own(0), 1, 1)
            image = heap.image()
            kept = (ctypes.c_uint64 * 16).from_address(heap._handle.at)
            place = next(k for k in range(14) if (kept[k + 1], kept[k + 2]) == (len(image.words), image.size))
            words = (ctypes.c_uint64 * len(image.words)).from_address(kept[place])
            header, words[1] = words[1], 0
            with self.assertRaises(gcflip.Damaged):
                heap.image()
            words[1] = header
            self.assertEqual(heap.image(), image)

    def test_images_are_freed(self):
        """Copies 200 images and 200 new spaces of 8 MiB each within 128 MiB, so each copy has to be freed."""
        with Heap(1 << 20) as heap:
            mutator, end = heap.mutator(0), 1 + 15 * (65537 + 4)
            for _ in range(15):
                mutator.new_raw(own(0), 1, 65535)
                mutator.new_pair(own(2), 1, own(0), own(1))
                mutator.copy(own(1), own(2))
            heap.begin()
            while heap.counts().new_end < end:
                heap.work(1)
            with at_most(128 << 20):
                for _ in range(200):
                    self.assertEqual((len(heap.image().words), len(heap.new_words())), (end, end))

    def test_images_while_a_thread_allocates(self):
        """Each image is that of one moment: its objects end where its words do, while another thread makes objects and collects."""
        before = sys.getswitchinterval()
        sys.setswitchinterval(1e-6)
        self.addCleanup(sys.setswitchinterval, before)
        with Heap(4096) as heap:
            done = threading.Event()
            thread = threading.Thread(target=allocate, args=(heap, done))
            thread.start()
            try:
                for _ in range(1000):
                    image = heap.image()
                    self.assertEqual(gcflip.check(image, image, [(at, at) for at in starts(image.words)]), len(starts(image.words)))
            finally:
                done.set()
                thread.join()


class Large(unittest.TestCase):
    """A heap of more words than a trace has."""

    def test_objects_behind_the_words_of_a_trace(self):
        with Heap(2097152) as heap:
            mutator = heap.mutator(0)
            for _ in range(17):
                mutator.new_raw(own(1), 1, 65535)
            mutator.new(own(0), 1, 1)
            mutator.put(own(0), 0, own(1))
            self.assertEqual(heap.counts().end, 1 + 17 * 65537 + 3)
            self.assertEqual(heap.begin(1048577), Step.BEGUN)
            work = heap.work(1 << 31)
            self.assertEqual((work.last, work.pairs), (Step.FLIPPED, 2))
            self.assertEqual((heap.counts().size, heap.counts().end), (1048577, 1 + 65537 + 3))
            self.assertEqual(mutator.look(own(0)), Object(1, 1))


class Lives(unittest.TestCase):
    def test_closed(self):
        with Heap(16) as heap:
            mutator = heap.mutator(0)
        for call in (heap.begin, heap.counts, heap.image, lambda: heap.work(1), lambda: mutator.look(0), lambda: heap.mutator(0)):
            with self.assertRaises(gcflip.Closed):
                call()
        heap.close()

    def test_closed_after_an_exception(self):
        with self.assertRaises(KeyError):
            with Heap(16) as heap:
                raise KeyError
        with self.assertRaises(gcflip.Closed):
            heap.counts()

    def test_a_heap_that_nobody_has_is_freed(self):
        """Opens two thousand heaps of 8 MiB within 256 MiB, so each has to be freed."""
        with at_most(256 << 20):
            for _ in range(2000):
                Heap(1048576)

    def test_a_heap_goes_with_its_last_user(self):
        heap = Heap(16)
        mutator, gone = heap.mutator(0), weakref.ref(heap)
        del heap
        self.assertIsNone(mutator.look(0))
        del mutator
        gc.collect()
        self.assertIsNone(gone())

    def test_out_of_memory(self):
        """The spaces have 64 MiB. The C library keeps smaller blocks after they were freed, and would give them again."""
        heap = Heap(1 << 23)
        heap.mutator(0).new(own(0), 1, 1)
        with at_most(1 << 20):
            for call in (lambda: Heap(1 << 23), heap.begin, lambda: heap.work(1)):
                with self.assertRaises(gcflip.OutOfMemory):
                    call()
        self.assertEqual(heap.begin(), Step.BEGUN)
        heap.close()

    def test_a_get_returns_what_it_read(self):
        """Reads a field into a shared slot, to which another thread writes numbers. The field always refers to an object."""
        before = sys.getswitchinterval()
        sys.setswitchinterval(1e-6)
        self.addCleanup(sys.setswitchinterval, before)
        with Heap(64, 2) as heap:
            mutator, done = heap.mutator(0), threading.Event()
            mutator.new(own(1), 7, 2)
            mutator.new_pair(own(0), 1, own(1), own(1))
            thread = threading.Thread(target=disturb, args=(heap.mutator(1), done))
            thread.start()
            try:
                self.assertEqual({mutator.get(shared(0), own(0), number % 2) for number in range(20000)}, {Object(7, 2)})
            finally:
                done.set()
                thread.join()

    def test_threads_take_turns(self):
        """Lets each of four threads count to 2000 in an object that a collector copies meanwhile."""
        with Heap(4096, 4) as heap:
            threads = [threading.Thread(target=count, args=(heap.mutator(number),)) for number in range(4)]
            for thread in threads:
                thread.start()
            while any(thread.is_alive() for thread in threads):
                heap.work(3)
            self.assertEqual([heap.mutator(number).get(own(1), own(0), 0) for number in range(4)], [2000] * 4)


def allocate(heap, done):
    """Makes objects of no fields until it is told to stop, and collects when the heap is full."""
    while not done.is_set():
        try:
            heap.mutator(0).new(own(0), 1, 0)
        except gcflip.Full:
            while heap.work(100).last != Step.FLIPPED:
                pass


def disturb(mutator, done):
    """Puts numbers into the first shared slot until it is told to stop."""
    while not done.is_set():
        mutator.set_number(shared(0), 5)


def starts(words):
    """Returns the addresses of the objects of an image in which no object has fields."""
    return range(1, len(words), 2)


def count(mutator):
    mutator.new(own(0), 1, 1)
    for number in range(1, 2001):
        mutator.set_number(own(1), number)
        mutator.put(own(0), 0, own(1))
        assert mutator.get(own(2), own(0), 0) == number


class Number:
    """A number whose conversion calls a heap."""

    def __init__(self, heap, value):
        self.heap, self.value = heap, value

    def __index__(self):
        self.heap.counts()
        return self.value


class Turns(unittest.TestCase):
    """A call from within a call on the same heap: it is refused, and does not wait for itself."""

    def test_a_number_that_calls_the_heap(self):
        with Heap(32, extra_roots=2) as heap:
            mutator = heap.mutator(Number(heap, 0))
            mutator.new(Number(heap, own(0)), Number(heap, 1), Number(heap, 2))
            mutator.set_number(own(1), Number(heap, 7))
            mutator.new_from(own(2), 3, [Number(heap, own(0)), own(1)])
            self.assertEqual(mutator.get(own(3), own(2), Number(heap, 1)), 7)
            heap.work(Number(heap, 100), size=Number(heap, 40))
            self.assertEqual(heap.counts().size, 40)
            for call in (lambda: mutator.set_number(own(1), 1.0), lambda: mutator.set_number(own(1), "1"), lambda: mutator.get(own(1), None, 0)):
                with self.assertRaises(TypeError):
                    call()
            with self.assertRaises(gcflip.OutOfRange):
                mutator.set_number(own(1), Number(heap, 1 << 64))

    def test_a_call_within_a_call(self):
        with Heap(32) as heap:
            for call in (heap.counts, heap.image, heap.begin, heap.close, lambda: heap.mutator(0), lambda: heap.log_length(0)):
                with self.assertRaises(gcflip.Reentered):
                    heap._turn.take(call)
            self.assertFalse(heap.counts().is_open)

    def test_a_signal_handler_that_calls_the_heap(self):
        found = []

        def handle(_number, _frame):
            try:
                found.append(heap.counts().size)
            except gcflip.Reentered:
                found.append("refused")

        with Heap(32) as heap:
            mutator = heap.mutator(0)
            before = signal.signal(signal.SIGALRM, handle)
            signal.setitimer(signal.ITIMER_REAL, 0.0005, 0.0005)
            try:
                end = time.monotonic() + 1
                while time.monotonic() < end:
                    mutator.set_number(own(0), 5)
            finally:
                signal.setitimer(signal.ITIMER_REAL, 0)
                signal.signal(signal.SIGALRM, before)
            self.assertTrue(set(found) <= {32, "refused"} and 32 in found, set(found))
            self.assertEqual(mutator.look(own(0)), 5)

    def test_the_finaliser_waits_for_a_call(self):
        heap, inside, go = Heap(32), threading.Event(), threading.Event()
        turn, close = heap._turn, heap._close
        calling = threading.Thread(target=lambda: turn.take(lambda: (inside.set(), go.wait(10))))
        calling.start()
        inside.wait(10)
        closing = threading.Thread(target=close)
        closing.start()
        closing.join(0.2)
        self.assertTrue(closing.is_alive())
        go.set()
        closing.join(10)
        self.assertFalse(closing.is_alive())
        calling.join(10)
        with self.assertRaises(gcflip.Closed):
            heap.counts()

    def test_a_forked_child_does_not_wait(self):
        heap, inside, go = Heap(32), threading.Event(), threading.Event()
        calling = threading.Thread(target=lambda: heap._turn.take(lambda: (inside.set(), go.wait(10))))
        calling.start()
        inside.wait(10)
        child = os.fork()
        if child == 0:
            signal.alarm(5)
            heap._close()
            os._exit(0)
        self.assertEqual(os.waitpid(child, 0)[1], 0)
        go.set()
        calling.join(10)
        heap.close()

    def test_a_heap_is_not_copied(self):
        with Heap(32) as heap:
            for call in (copy.copy, copy.deepcopy, pickle.dumps):
                with self.assertRaises(TypeError):
                    call(heap)
            with self.assertRaises(TypeError):
                copy.deepcopy(heap.mutator(0))
            gc.collect()
            heap.mutator(0).new(own(0), 1, 1)


class Paced(unittest.TestCase):
    """Paced work by hand: a heap of 100 words, whose collection begins at 8."""

    def test_one_collection(self):
        with gcflip.Heap(100, 1) as heap:
            pace = gcflip.Pace(least=8)
            self.assertIsNone(heap.work_paced(pace))
            heap.mutator(0).new(gcflip.own(0), 1, 5)
            self.assertEqual(heap.steps_due(pace), 1)
            self.assertEqual(heap.work_paced(pace), (1, 0, Step.BEGUN, 0, 0))
            self.assertIsNone(heap.work_paced(pace))
            # A program that wants all 92 free words waits for the flip: 7 steps for the words of the object, and the flip.
            self.assertEqual(heap.steps_due(pace, 92), 8)
            self.assertEqual(heap.work_paced(pace, 92), (8, 7, Step.FLIPPED, 1, 0))
            heap.remember(pace)
            self.assertIsNone(heap.work_paced(pace))

    def test_words(self):
        with gcflip.Heap(200, 1) as heap:
            pace = gcflip.Pace(least=8, words=10)
            for slot in range(4):
                heap.mutator(0).new(gcflip.own(slot), 1, 8)
            self.assertEqual(heap.work_paced(pace), (1, 0, Step.BEGUN, 0, 0))
            # A program that wants all 159 free words waits for the flip, but the first object takes ten words.
            self.assertEqual(heap.steps_due(pace, 159), 41)
            self.assertEqual(heap.work_paced(pace, 159), (1, 10, Step.COPIED, 0, 0))
            self.assertEqual((pace.owed, heap.steps_due(pace)), (40, 40))
            self.assertEqual([heap.work_paced(pace) for _ in range(3)], [(1, 10, Step.COPIED, 0, 0)] * 3)
            self.assertEqual(pace.owed, 37)
            self.assertEqual([heap.work_paced(pace) for _ in range(4)], [(10, 0, Step.SCANNED, 0, 0)] * 3 + [(7, 0, Step.FLIPPED, 4, 0)])
            self.assertEqual((pace.owed, heap.work_paced(pace)), (0, None))

    def test_refusals(self):
        with gcflip.Heap(100, 1) as heap:
            for pace in (gcflip.Pace(factor=99), gcflip.Pace(factor=10001)):
                for call in (lambda: heap.work_paced(pace), lambda: heap.remember(pace)):
                    with self.assertRaises(gcflip.OutOfRange):
                        call()
            for call in (lambda: gcflip.Pace(factor=-1), lambda: gcflip.Pace(words=1 << 32), lambda: heap.work_paced(gcflip.Pace(), -1), lambda: heap.steps_due(gcflip.Pace(), 1 << 32)):
                with self.assertRaises(gcflip.OutOfRange):
                    call()
            heap.close()
            with self.assertRaises(gcflip.Closed):
                heap.work_paced(gcflip.Pace())


if __name__ == "__main__":
    unittest.main()
