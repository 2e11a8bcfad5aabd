"""Tests of gcflip.beside, the heap whose collector works in a thread of its own."""
import copy
import os
import pickle
import threading
import time
import unittest
from unittest import mock

import gcflip
from gcflip import beside, extra_place, own, place, shared

A, B, C = place(shared(0)), place(own(0)), place(own(15))
LAST = extra_place(1, 0)


class Commands(unittest.TestCase):
    def test_roots(self):
        with beside.Mutator(64) as mutator:
            self.assertEqual((mutator.roots(), mutator.room()), (32, 63))
            self.assertRaises(gcflip.OutOfRange, mutator.set_nil, LAST)
        with beside.Mutator(64, 3) as mutator:
            self.assertEqual((mutator.roots(), mutator.room(), mutator.look(extra_place(1, 2))), (35, 63, None))
            self.assertRaises(gcflip.OutOfRange, mutator.look, extra_place(1, 3))

    def test_what_is_out_of_range(self):
        for arguments in ((0,), (64, 1048577), (-1,), (2 ** 32,), (64, 0, gcflip.Pace(99)), (64, 0, gcflip.Pace(10001)), (64, 0, None, -1), (64, 0, None, 2 ** 32)):
            self.assertRaises(gcflip.OutOfRange, beside.Mutator, *arguments)
        with beside.Mutator(64) as mutator:
            for arguments in ((A, 256, 0), (A, 0, 65536), (-1, 0, 0), (2 ** 32, 0, 0)):
                self.assertRaises(gcflip.OutOfRange, mutator.new, *arguments)
            for number in (2 ** 63, -1):
                self.assertRaises(gcflip.OutOfRange, mutator.set_number, A, number)
            self.assertRaises(TypeError, mutator.set_number, A, "1")
            self.assertEqual((mutator.look(A), mutator.room()), (None, 63))

    def test_commands_reply_as_those_of_a_heap(self):
        with beside.Mutator(64) as mutator:
            self.assertRaises(gcflip.NoObject, mutator.get, A, B, 0)
            self.assertRaises(gcflip.NoObject, mutator.put, A, 0, B)
            mutator.new(A, 7, 2)
            self.assertEqual((mutator.look(A), mutator.room(), mutator.get(B, A, 1)), (gcflip.Object(7, 2), 59, None))
            self.assertRaises(gcflip.NoField, mutator.get, B, A, 2)
            self.assertRaises(gcflip.NoField, mutator.put, A, 65536, B)
            mutator.set_number(B, 2 ** 63 - 1)
            mutator.put(A, 1, B)
            self.assertEqual((mutator.get(C, A, 1), mutator.is_same(B, C)), (2 ** 63 - 1, True))
            mutator.copy(C, A)
            self.assertEqual((mutator.is_same(B, C), mutator.is_same(A, C)), (False, True))
            mutator.new_raw(B, 9, 1)
            self.assertEqual(mutator.look(B), gcflip.Object(9, 1, True))
            self.assertRaises(gcflip.NoNumber, mutator.put, B, 0, A)
            mutator.put(A, 0, B)
            self.assertEqual(mutator.get(C, A, 0), gcflip.Object(9, 1, True))
            mutator.set_nil(C)
            self.assertIsNone(mutator.look(C))
            # 63 words were free, of which the objects took 4 and 3.
            self.assertRaises(gcflip.Full, mutator.new, C, 0, 55)
            mutator.new(C, 0, 54)
            self.assertEqual(mutator.room(), 0)


class Collections(unittest.TestCase):
    def test_numbers_and_nil_need_no_root_and_a_pair_no_second_call(self):
        with beside.Mutator(64) as mutator:
            self.assertRaises(gcflip.NoObject, mutator.put_number, A, 0, 1)
            self.assertRaises(gcflip.NoObject, mutator.put_nil, A, 0)
            mutator.set_number(B, 5)
            # The second field takes the value of the pair's own root, which refers to the pair by then.
            mutator.new_pair(A, 7, B, A)
            self.assertEqual((mutator.look(A), mutator.room(), mutator.get(C, A, 0)), (gcflip.Object(7, 2), 59, 5))
            mutator.get(C, A, 1)
            self.assertTrue(mutator.is_same(A, C))
            mutator.put_number(A, 0, 2 ** 63 - 1)
            mutator.put_nil(A, 1)
            self.assertEqual((mutator.get(C, A, 0), mutator.get(C, A, 1), mutator.look(B)), (2 ** 63 - 1, None, 5))
            self.assertRaises(gcflip.OutOfRange, mutator.put_number, A, 0, 2 ** 63)
            self.assertRaises(gcflip.NoField, mutator.put_number, A, 2, 1)
            self.assertRaises(gcflip.NoField, mutator.put_nil, A, 65536)
            mutator.new_raw(B, 9, 54)
            mutator.put_number(B, 53, 6)
            self.assertRaises(gcflip.NoNumber, mutator.put_nil, B, 53)
            self.assertEqual(mutator.room(), 3)
            self.assertRaises(gcflip.Full, mutator.new_pair, C, 1, A, A)
            self.assertRaises(gcflip.OutOfRange, mutator.new_pair, LAST, 1, A, A)

    def test_roots_in_a_row(self):
        with beside.Mutator(64, 4) as mutator:
            row = [extra_place(1, k) for k in range(4)]
            for number, root in enumerate(row, 1):
                mutator.set_number(root, number)
            mutator.new_from(A, 7, [row[3], row[0], A])
            self.assertEqual([mutator.peek(A, i) for i in range(3)], [4, 1, gcflip.Object(7, 3)])
            mutator.gather(B, 8, row[0], 4)
            self.assertEqual((mutator.look(B), mutator.room()), (gcflip.Object(8, 4), 63 - 5 - 6))
            mutator.clear(row[0], row[2])
            self.assertEqual([mutator.look(root) for root in row], [None, None, 3, 4])
            mutator.spread(row[0], B, 3)
            self.assertEqual([mutator.look(root) for root in row], [1, 2, 3, 4])
            for error, call, *arguments in ((gcflip.OutOfRange, mutator.spread, row[0], B, 5), (gcflip.NoObject, mutator.spread, row[0], C, 1),
                                            (gcflip.OutOfRange, mutator.spread, A, A, 1), (gcflip.NoField, mutator.spread, row[0], A, 4),
                                            (gcflip.NoField, mutator.peek, A, 3), (gcflip.NoObject, mutator.peek, C, 0),
                                            (gcflip.OutOfRange, mutator.new_from, A, 7, [extra_place(1, 4)]), (gcflip.OutOfRange, mutator.new_from, A, 7, [-1]),
                                            (gcflip.OutOfRange, mutator.gather, A, 7, row[1], 4), (gcflip.OutOfRange, mutator.clear, row[2], row[1])):
                self.assertRaises(error, call, *arguments)
            mutator.new(C, 1, 48)
            self.assertRaises(gcflip.Full, mutator.gather, C, 1, row[0], 1)
            self.assertRaises(gcflip.Full, mutator.new_from, C, 1, [A])
            mutator.new_from(C, 1, [])
            self.assertEqual(mutator.room(), 0)

    def test_fields_in_a_row(self):
        with beside.Mutator(64) as mutator:
            mutator.new(A, 1, 4)
            mutator.new_raw(B, 2, 3)
            mutator.set_number(C, 9)
            mutator.fill(A, 1, 3, C)
            self.assertEqual([mutator.peek(A, i) for i in range(4)], [None, 9, 9, None])
            mutator.raw_write(B, 0, [5, 6, 2 ** 63 - 1])
            self.assertEqual(list(mutator.raw_read(B, 0, 3)), [5, 6, 2 ** 63 - 1])
            self.assertEqual((list(mutator.raw_read(B, 1, 1)), list(mutator.raw_read(B, 3, 0))), ([6], []))
            mutator.copy_fields(A, 2, B, 0, 2)
            self.assertEqual([mutator.peek(A, i) for i in range(4)], [None, 9, 5, 6])
            for error, call, *arguments in ((gcflip.NoField, mutator.fill, A, 3, 5, C), (gcflip.NoObject, mutator.fill, C, 0, 1, A), (gcflip.NoNumber, mutator.fill, B, 0, 1, A),
                                            (gcflip.OutOfRange, mutator.fill, A, 2, 1, C), (gcflip.NoField, mutator.raw_write, B, 2, [1, 2]),
                                            (gcflip.NoObject, mutator.raw_write, A, 0, [1]), (gcflip.NoNumber, mutator.raw_write, B, 0, [1, 2 ** 63]),
                                            (gcflip.OutOfRange, mutator.raw_write, B, 0, [2 ** 64]), (gcflip.NoField, mutator.raw_read, B, 1, 3),
                                            (gcflip.NoField, mutator.raw_read, B, 0, 2 ** 40), (gcflip.NoObject, mutator.raw_read, A, 0, 1),
                                            (gcflip.NoNumber, mutator.copy_fields, B, 0, A, 0, 2), (gcflip.NoField, mutator.copy_fields, A, 0, B, 2, 2),
                                            (gcflip.NoObject, mutator.copy_fields, C, 0, A, 0, 1), (gcflip.OutOfRange, mutator.copy_fields, LAST, 0, A, 0, 1)):
                self.assertRaises(error, call, *arguments)
            self.assertEqual((list(mutator.raw_read(B, 0, 3)), mutator.look(C)), ([5, 6, 2 ** 63 - 1], 9))

    def test_a_frame_is_a_stack_in_the_extra_roots(self):
        with beside.Mutator(64, 4) as mutator:
            frame = gcflip.Frame(1, 4)
            self.assertRaises(gcflip.FrameEmpty, mutator.pop, frame, A)
            for number in range(3):
                mutator.set_number(A, number)
                mutator.push(frame, A)
            self.assertRaises(gcflip.FrameFull, mutator.push, frame, A)
            self.assertEqual((len(frame), mutator.look(extra_place(1, 3))), (3, 2))
            mutator.pop(frame, B)
            self.assertEqual((mutator.look(B), mutator.look(extra_place(1, 3)), len(frame)), (2, None, 2))
            outside = gcflip.Frame(1, 5)
            self.assertRaises(gcflip.OutOfRange, mutator.push, outside, A)
            self.assertRaises(gcflip.OutOfRange, mutator.trim_frame, outside, 1)
            mutator.trim_frame(frame, 5)
            self.assertEqual([mutator.look(extra_place(1, k)) for k in range(4)], [None, 0, 1, None])

    def test_a_safepoint_that_does_not_wait(self):
        with beside.Mutator(1 << 12, 0, gcflip.Pace(100, least=0)) as mutator:
            mutator.new(A, 1, 100)
            parked = ahead = 0
            for number in range(30000):
                stands = mutator.try_safepoint()
                if stands is beside.Safepoint.AHEAD:
                    # A busy machine may let the mutator alone run until the heap is full, and the collector would never ask it to stop.
                    if ahead % 256 == 0:
                        time.sleep(0.002)
                    ahead += 1
                if stands is beside.Safepoint.PARKED:
                    parked += 1
                    self.assertRaises(gcflip.Parked, mutator.set_nil, B)
                    self.assertEqual((mutator.room(), mutator.roots()), (0, 0))
                    if number % 3 == 2:
                        continue
                    (mutator.safepoint if number % 3 else mutator.collect)()
                try:
                    mutator.new(B, 1, 2)
                    mutator.put(A, number % 100, B)
                except gcflip.Full:
                    mutator.collect()
            self.assertGreater(parked, 0)
            while mutator.try_safepoint() is beside.Safepoint.PARKED:
                pass
            self.assertEqual(mutator.look(A), gcflip.Object(1, 100))

    def test_a_flip_keeps_what_roots_reach(self):
        with beside.Mutator(1000, 1) as mutator:
            mutator.new(LAST, 1, 1)
            mutator.put(LAST, 0, LAST)
            mutator.new(A, 2, 90)
            mutator.set_nil(A)
            self.assertEqual(mutator.room(), 999 - 3 - 92)
            # A collection keeps what was reachable when it began, and the first one may have begun before A became nil.
            for _ in range(3):
                mutator.collect()
            self.assertEqual((mutator.room(), mutator.get(A, LAST, 0), mutator.is_same(A, LAST)), (999 - 3, gcflip.Object(1, 1), True))
            counts = mutator.counts()
            self.assertEqual((counts.flips, counts.failed), (3, 0))
            self.assertGreaterEqual(counts.stops, 3)
            self.assertGreaterEqual(counts.waited, counts.longest_wait)

    def test_words_that_garbage_takes_are_reserved_and_those_of_live_objects_are_not(self):
        with beside.Mutator(1000) as mutator:
            mutator.reserve(999)
            self.assertEqual(mutator.counts().flips, 0)
            for flips in range(1, 6):
                mutator.new(A, 1, 997)
                mutator.set_nil(A)
                self.assertEqual(mutator.room(), 0)
                mutator.reserve(999)
                self.assertEqual(mutator.room(), 999)
                self.assertGreaterEqual(min(mutator.counts().flips, mutator.counts().throttled), flips)
            mutator.new(A, 1, 500)
            with self.assertRaises(gcflip.Full):
                mutator.reserve(498)
            mutator.reserve(497)
            self.assertEqual((mutator.look(A), mutator.room()), (gcflip.Object(1, 500), 497))
            for words in (-1, 1 << 32):
                with self.assertRaises(gcflip.OutOfRange):
                    mutator.reserve(words)
        with self.assertRaises(gcflip.Closed):
            mutator.reserve(0)

    def listed(self, mutator, most):
        """Puts cells in front of the list in A, each with the number of cells behind it, until the heap has no room or so many are there. Returns their
        number."""
        for number in range(most):
            try:
                mutator.reserve(4)
            except gcflip.Full:
                return number
            mutator.new_pair(B, 2, A, A)
            mutator.put_number(B, 1, number)
            mutator.copy(A, B)
            mutator.set_nil(B)
        return most

    def expect_listed(self, mutator, cells):
        mutator.copy(B, A)
        for number in reversed(range(cells)):
            self.assertEqual(mutator.peek(B, 1), number)
            mutator.get(B, B, 0)
        self.assertIsNone(mutator.look(B))

    def test_a_heap_that_may_grow_does_where_too_little_room_is_left(self):
        with beside.Mutator(1000) as mutator:
            mutator.growing(100000)
            self.assertEqual((mutator.size(), self.listed(mutator, 2000)), (1000, 2000))
            self.expect_listed(mutator, 2000)
            self.assertGreater(mutator.size(), 8000)
            self.assertEqual(mutator.counts().failed, 0)
        with beside.Mutator(1000) as mutator:
            mutator.growing(100000)
            # Twice the words of the heap, and those that are reserved.
            mutator.reserve(5000)
            self.assertEqual((mutator.size(), mutator.room(), mutator.counts().flips), (7000, 6999, 1))
        for call in (lambda: mutator.growing(0), mutator.size):
            self.assertRaises(gcflip.Closed, call)

    def test_a_heap_grows_up_to_its_most_words(self):
        for most, size in ((3000, 3000), (999, 1000), (0, 1000)):
            with beside.Mutator(1000) as mutator:
                mutator.growing(most)
                cells = (size - 1) // 4
                self.assertEqual(self.listed(mutator, 10000), cells)
                self.assertRaises(gcflip.Full, mutator.reserve, (1 << 32) - 1)
                self.assertEqual(mutator.size(), size)
                self.expect_listed(mutator, cells)
                for words in (-1, 1 << 32):
                    self.assertRaises(gcflip.OutOfRange, mutator.growing, words)

    def test_a_heap_grows_at_a_flip_after_one_that_left_more_than_half_in_use(self):
        for fields, size in ((497, 1000), (498, 2000)):
            with beside.Mutator(1000) as mutator:
                mutator.growing(100000)
                mutator.new(A, 1, fields)
                mutator.collect()
                self.assertEqual(mutator.size(), 1000)
                mutator.collect()
                self.assertEqual((mutator.size(), mutator.room()), (size, size - 3 - fields))
                mutator.growing(0)
                mutator.collect()
                self.assertEqual((mutator.size(), mutator.look(A)), (size, gcflip.Object(1, fields)))

    def test_each_third_flip_checks_both_spaces_whole(self):
        with beside.Mutator(64, 1, whole_each=3) as mutator:
            self.assertEqual(mutator.roots(), 33)
            for flips in range(1, 11):
                mutator.collect()
                self.assertEqual(mutator.flip_checks(), gcflip.FlipChecks(flips - flips // 3, flips // 3))
        with beside.Mutator(64) as mutator:
            self.assertEqual(mutator.flip_checks(), (0, 0))
            mutator.collect()
            mutator.collect()
            self.assertEqual(mutator.flip_checks(), (2, 0))

    def test_a_heap_with_room_is_never_found_full(self):
        # The ring takes 1,002 words, and its 1,000 cells 4,000.
        with beside.Mutator(10000) as mutator:
            mutator.new(A, 1, 1000)
            for number in range(20000):
                mutator.set_number(C, number)
                mutator.new(B, 2, 2)
                mutator.put(B, 0, C)
                mutator.put(A, number % 1000, B)
                mutator.safepoint()
            for cell in range(1000):
                mutator.get(B, A, cell)
                self.assertEqual(mutator.get(C, B, 0), 19000 + cell)
            self.assertGreater(mutator.counts().flips, 0)

    def test_threads_use_a_mutator_in_turn(self):
        with beside.Mutator(4096, 4) as mutator:
            def count(root):
                for number in range(2000):
                    mutator.set_number(root, number)
                    mutator.safepoint()

            threads = [threading.Thread(target=count, args=(extra_place(1, k),)) for k in range(4)]
            for thread in threads:
                thread.start()
            for _ in range(5):
                mutator.collect()
            for thread in threads:
                thread.join()
            self.assertEqual([mutator.look(extra_place(1, k)) for k in range(4)], [1999] * 4)
            self.assertEqual(mutator.counts().flips, 5)


class Addresses(unittest.TestCase):
    def test_addresses_tell_objects_and_make_references(self):
        with beside.Mutator(64) as mutator:
            self.assertRaises(gcflip.NoObject, mutator.address, A)
            self.assertRaises(gcflip.OutOfRange, mutator.address, LAST)
            self.assertEqual((mutator.object_at(1), mutator.field_at(1, 0)), (None, (None, None)))
            mutator.new(A, 7, 2)
            mutator.new_raw(B, 9, 1)
            mutator.put_number(A, 0, 5)
            mutator.put(A, 1, B)
            self.assertEqual((mutator.address(A), mutator.address(B)), (1, 5))
            self.assertEqual([mutator.object_at(at) for at in (1, 5, 2, 2 ** 32 - 1)], [gcflip.Object(7, 2), gcflip.Object(9, 1, True), None, None])
            self.assertEqual([mutator.field_at(1, 0), mutator.field_at(1, 1)], [(5, None), (gcflip.Object(9, 1, True), 5)])
            for arguments in ((1, 2), (5, 1), (5, 2 ** 32 - 1)):
                self.assertRaises(gcflip.NoField, mutator.field_at, *arguments)
            mutator.refer(C, 5)
            for at in (6, 0, 2 ** 32 - 1):
                self.assertRaises(gcflip.NoObject, mutator.refer, C, at)
            self.assertTrue(mutator.is_same(B, C))
            for call, *arguments in ((mutator.refer, LAST, 5), (mutator.refer, A, -1), (mutator.refer, A, 2 ** 32), (mutator.object_at, -1), (mutator.field_at, 1, 2 ** 32), (mutator.moved, 2 ** 32)):
                self.assertRaises(gcflip.OutOfRange, call, *arguments)
            # No flip has been.
            self.assertRaises(gcflip.OutOfRange, mutator.moved, 1)
            self.assertEqual(mutator.flips(), 0)
            mutator.copy(A, B)
            mutator.collect()
            self.assertRaises(gcflip.NoObject, mutator.moved, 1)
            self.assertEqual((mutator.flips(), mutator.moved(5)), (1, mutator.address(A)))

    def test_a_stopped_mutator_tells_no_address(self):
        with beside.Mutator(1 << 14, 0, gcflip.Pace(100, least=0)) as mutator:
            mutator.new(A, 1, 1000)
            mutator.collect()
            while (stands := mutator.try_safepoint()) is not beside.Safepoint.PARKED:
                if stands is beside.Safepoint.AHEAD:
                    time.sleep(0.002)
                try:
                    mutator.new(B, 1, 2)
                except gcflip.Full:
                    mutator.collect()
            for call, *arguments in ((mutator.address, A), (mutator.moved, 1), (mutator.refer, B, 1), (mutator.object_at, 1), (mutator.field_at, 1, 0)):
                self.assertRaises(gcflip.Parked, call, *arguments)
            self.assertEqual(mutator.flips(), 0)
            mutator.safepoint()
            self.assertGreater(mutator.flips(), 0)

    def test_a_table_is_followed_at_each_flip(self):
        # Each object has its number in its field. Root k % 100 of the extra ones keeps object k until object k + 100 takes its place.
        table, counts = {}, {"flips": 0, "dead": 0}

        def where(mutator, old):
            try:
                return mutator.moved(old)
            except gcflip.NoObject:
                return None

        def follow():
            counts["flips"] += 1
            self.assertEqual(mutator.flips(), counts["flips"])
            for number, old in list(table.items()):
                table[number] = where(mutator, old)
                if table[number] is None:
                    del table[number]
                    counts["dead"] += 1
                else:
                    self.assertEqual(mutator.field_at(table[number], 0), (number, None))
            # No flip comes meanwhile, and the heap stays open.
            mutator.safepoint()
            self.assertIs(mutator.try_safepoint(), beside.Safepoint.RUNS)
            self.assertRaises(gcflip.OutOfMemory, mutator.collect)
            self.assertRaises(gcflip.Reentered, mutator.close)

        with beside.Mutator(4096, 100, gcflip.Pace(100, least=0)) as mutator:
            mutator.on_flip(follow)
            for number in range(10000):
                root = extra_place(1, number % 100)
                mutator.new(root, 1, 1)
                mutator.put_number(root, 0, number)
                table[number] = mutator.address(root)
                mutator.safepoint()
                self.assertEqual(mutator.flips(), counts["flips"])
            for number in range(9900, 10000):
                self.assertEqual(table[number], mutator.address(extra_place(1, number % 100)))
            self.assertGreater(counts["flips"], 5)
            self.assertGreater(counts["dead"], 5000)
            mutator.on_flip(None)
            mutator.collect()
            self.assertEqual(mutator.flips(), counts["flips"] + 1)

    def test_what_a_function_of_on_flip_raises(self):
        def fail():
            raise KeyError("no table")

        calls = []
        with beside.Mutator(64) as mutator:
            mutator.on_flip(fail)
            self.assertRaises(KeyError, mutator.collect)
            self.assertEqual((mutator.flips(), mutator.look(A)), (1, None))

            def replaced():
                calls.append(1)
                mutator.on_flip(lambda: calls.append(2))

            mutator.on_flip(replaced)
            mutator.collect()
            mutator.collect()
            self.assertEqual((calls, mutator.flips()), ([1, 2], 3))

    def test_other_threads_wait_for_a_function_of_on_flip(self):
        seen = []
        with beside.Mutator(64) as mutator:
            def follow():
                other.start()
                time.sleep(0.05)
                mutator.set_number(A, 2)
                seen.append(mutator.look(A))

            other = threading.Thread(target=lambda: mutator.set_number(A, 1))
            mutator.on_flip(follow)
            mutator.collect()
            other.join()
            self.assertEqual((seen, mutator.look(A)), ([2], 1))


class Ends(unittest.TestCase):
    def test_a_closed_mutator_makes_no_call(self):
        mutator = beside.Mutator(64)
        mutator.close()
        mutator.close()
        for call in (mutator.room, mutator.roots, mutator.flips, lambda: mutator.address(A), lambda: mutator.moved(1), lambda: mutator.refer(A, 1), lambda: mutator.object_at(1),
                     lambda: mutator.field_at(1, 0), lambda: mutator.on_flip(print), lambda: mutator.on_flip(None), mutator.counts, mutator.flip_checks, mutator.safepoint, mutator.try_safepoint, mutator.collect, lambda: mutator.set_nil(A), lambda: mutator.get(A, B, 0)):
            self.assertRaises(gcflip.Closed, call)

    def test_a_mutator_is_not_copied(self):
        with beside.Mutator(64) as mutator:
            for act in (copy.copy, copy.deepcopy, pickle.dumps):
                self.assertRaises(TypeError, act, mutator)

    def test_a_mutator_that_nothing_refers_to_is_closed(self):
        mutator = beside.Mutator(64)
        mutator.on_flip(print)
        close = mutator._close
        del mutator
        self.assertFalse(close.alive)

    def test_a_file_that_is_not_the_library(self):
        for path, words in (("/no/such/file.so", "cannot open"), (os.environ["GCFLIP_LIBRARY"], "undefined symbol")):
            with mock.patch.dict(os.environ, GCFLIP_BESIDE_LIBRARY=path), self.assertRaises(OSError) as raised:
                beside.Mutator(64)
            self.assertIn(words, str(raised.exception))
            self.assertIn("make -C bindings/c beside", str(raised.exception))


if __name__ == "__main__":
    unittest.main()
