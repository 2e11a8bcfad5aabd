"""Tests of integers, doubles and specials in numbers, of long arrays, of weak handles and of names of kinds, with the vectors of tests/c/herbpond*.c."""
import doctest
import itertools
import math
import random
import struct
import unittest

import gcflip
from gcflip import Heap, Object, arrays, kinds, values, weak
from gcflip.arrays import PART, Arrays
from gcflip.kinds import Kind
from gcflip.values import LEAST_INT, MOST_INT, SPECIALS, Special
from gcflip.weak import Table

OWN = (29, 30, 31)
KIND = 9


def double_of(bits):
    return struct.unpack("<d", struct.pack("<Q", bits))[0]


def bits_of(real):
    return struct.unpack("<Q", struct.pack("<d", real))[0]


class Values(unittest.TestCase):
    def setUp(self):
        self.heap = Heap(1000)
        self.addCleanup(self.heap.close)
        self.heap.new(1, 7, 2)

    def test_integers(self):
        self.assertEqual([values.code_of_int(integer) for integer in (0, 1, -1)], [0, 2, 0x7ffffffffffffffe])
        self.assertEqual([values.code_of_int(integer) for integer in (LEAST_INT, MOST_INT)], [0x4000000000000000, 0x3ffffffffffffffe])
        self.assertEqual((LEAST_INT, MOST_INT), (-2305843009213693952, 2305843009213693951))
        powers = [sign * (1 << bit) + more for bit in range(61) for more in (-1, 0, 1) for sign in (1, -1)]
        chance = random.Random(1)
        for integer in [*powers, LEAST_INT, LEAST_INT + 1, MOST_INT, *(chance.randint(LEAST_INT, MOST_INT) for _ in range(2000))]:
            number = values.code_of_int(integer)
            self.assertTrue(0 <= number < 1 << 63 and number % 2 == 0)
            self.assertEqual(values.value_of(number), integer)
            values.set_int(self.heap, 0, integer)
            values.put_int(self.heap, 0, 1, 1, integer)
            self.assertEqual((values.value(self.heap, 0), values.field(self.heap, 1, 1)), (integer, integer))
        for outside in (MOST_INT + 1, LEAST_INT - 1, -1 << 63):
            self.assertRaises(gcflip.OutOfRange, values.set_int, self.heap, 0, outside)
            self.assertRaises(gcflip.OutOfRange, values.put_int, self.heap, 0, 1, 1, outside)
        self.assertEqual((values.value(self.heap, 0), values.field(self.heap, 1, 0)), (integer, None))

    def check_double(self, bits):
        """A double comes back bit by bit, but for a NaN. It needs a box if its size is below 2^-254 and not 0, or at least 2^257 and not infinite."""
        real = double_of(bits)
        wants_box = not math.isnan(real) and not math.isinf(real) and real != 0 and not 2.0 ** -254 <= abs(real) < 2.0 ** 257
        number = values.code_of_double(real)
        self.assertEqual(number is None, wants_box)
        self.heap.collect()
        values.set_double(self.heap, 0, 2, real)
        found = [values.double(self.heap, 2)]
        if number is not None:
            self.assertTrue(0 <= number < 1 << 63 and number % 2 == 1)
            found += [values.value_of(number), values.value(self.heap, 2)]
        else:
            self.assertEqual(values.value(self.heap, 2), Object(255, 2, True))
        for other in found:
            self.assertTrue(isinstance(other, float) and (math.isnan(other) if math.isnan(real) else bits_of(other) == bits))

    def test_doubles(self):
        self.assertEqual([values.code_of_double(real) for real in (1.0, -2.0, 0.0)], [0x3fe0000000000001, 0x4000000000000001, 0x6000000000000001])
        for exponent, sign, fraction in itertools.product(range(0, 2048, 3), (0, 1), (0, 1, 0x8000000000000, 0xfffffffffffff)):
            self.check_double(sign << 63 | exponent << 52 | fraction)
        for exponent, sign in itertools.product((0, 1, 0x2ff, 0x300, 0x301, 0x3ff, 0x400, 0x4ff, 0x500, 0x501, 0x7fe, 0x7ff), (0, 1)):
            self.check_double(sign << 63 | exponent << 52)
        chance = random.Random(2)
        for _ in range(1000):
            self.check_double(chance.getrandbits(64))
        values.set_int(self.heap, 0, 1)
        self.assertRaises(gcflip.NoNumber, values.double, self.heap, 0)
        self.heap.new_raw(0, 7, 2)
        self.assertRaises(gcflip.NoNumber, values.double, self.heap, 0)
        self.assertRaises(gcflip.OutOfRange, values.set_double, self.heap, 1, 0, 0.5)
        self.assertRaises(gcflip.OutOfRange, values.set_double, self.heap, 0, 32, 0.5)
        with Heap(4) as full:
            self.assertRaises(gcflip.Full, values.set_double, full, 0, 0, 1e300)
            self.assertIsNone(full.look(0))

    def test_specials(self):
        self.assertEqual((values.code_of_special(0), SPECIALS), (0x2000000000000001, 4503599627370496))
        for special in [(1 << bit) - more for bit in range(52) for more in (0, 1)] + [SPECIALS - 1]:
            self.assertEqual(values.value_of(values.code_of_special(special)), Special(special))
            values.set_special(self.heap, 0, special)
            self.assertEqual(values.value(self.heap, 0), Special(special))
        for outside in (SPECIALS, -1):
            self.assertRaises(gcflip.OutOfRange, values.set_special, self.heap, 0, outside)
        values.set_int(self.heap, 1, special)
        self.assertFalse(self.heap.is_same(0, 1))

    def test_kinds(self):
        table = [Kind("pair"), Kind("text")]
        self.assertEqual([kinds.kind_name(table, kind) for kind in (0, 1, 2, 252)], ["pair", "text", "", ""])
        self.assertEqual([kinds.kind_name([], kind) for kind in (253, 254, 255, 256, -1)], ["spine", "part", "box", "", ""])
        self.assertEqual((kinds.kind_of(table, 1), kinds.kind_of(table, 2), kinds.kind_of([], 255).fields), (table[1], None, 2))

    def check_fit(self, table, kind, wanted):
        self.assertEqual(kinds.fits(self.heap, table, 0, kind), wanted)
        if isinstance(self.heap.look(0), Object):
            self.assertEqual(kinds.object_fits(self.heap, table, self.heap.address(0)), wanted)

    def test_objects_fit_their_kinds(self):
        table = [Kind("pair", 2), Kind("", 3, {0, 2}), Kind("row", None, [70])]
        # The number of fields.
        self.heap.new(0, 0, 1)
        self.check_fit(table, 0, False)
        self.heap.new(0, 0, 2)
        self.check_fit(table, 0, True)
        self.assertFalse(kinds.fits(self.heap, table, 0, 1))
        # Fields 0 and 2 of kind 1 hold numbers. None and a reference are none.
        self.heap.new(1, 0, 2)
        self.heap.new(0, 1, 3)
        self.heap.put_number(0, 0, 2, 7)
        self.check_fit(table, 1, False)
        self.heap.new(0, 1, 3)
        self.heap.put_number(0, 0, 0, 7)
        self.check_fit(table, 1, False)
        self.heap.put(0, 0, 2, 1)
        self.check_fit(table, 1, False)
        self.heap.put_number(0, 0, 2, 7)
        self.check_fit(table, 1, True)
        self.heap.new_raw(0, 1, 3)
        self.check_fit(table, 1, True)
        # A field that an object of any number of fields does not have needs no number.
        self.heap.new(0, 2, 70)
        self.check_fit(table, 2, True)
        self.heap.new(0, 2, 71)
        self.check_fit(table, 2, False)
        # A kind without a description, and those of boxes.
        self.heap.new(0, 250, 5)
        self.check_fit(table, 250, True)
        values.set_double(self.heap, 0, 0, 1e300)
        self.check_fit(table, values.KIND_BOX, True)
        self.heap.new_raw(0, values.KIND_BOX, 1)
        self.check_fit(table, values.KIND_BOX, False)
        # What refers to no object, and what is no object or no root.
        self.heap.set_number(0, 5)
        self.check_fit(table, 0, False)
        self.heap.set_nil(0)
        self.check_fit(table, 0, False)
        self.assertFalse(kinds.object_fits(self.heap, table, 2) or kinds.object_fits(self.heap, table, (1 << 32) - 1))
        self.assertRaises(gcflip.OutOfRange, kinds.fits, self.heap, table, 1 << 20, 0)

    def test_examples(self):
        for module in (arrays, kinds, values, weak):
            found = doctest.testmod(module)
            self.assertEqual((found.failed, found.attempted > 1), (0, True))


class LongArrays(unittest.TestCase):
    def setUp(self):
        self.heap = Heap(400000)
        self.addCleanup(self.heap.close)
        self.arrays = Arrays(self.heap, 0, OWN)

    def check_row(self, length, first, step=1):
        self.assertEqual(self.arrays.length(0), length)
        for i in {*range(0, length, step), length - 1} - {-1}:
            self.arrays.get(2, 0, i)
            self.assertEqual(values.value(self.heap, 2), first + i)
        self.assertEqual([self.heap.look(own) for own in OWN], [None] * 3)

    def test_lengths(self):
        for length in (0, 1, 2, 7, 8, 9, 4076, 4095, 4096, 4097, 8191, 8192, 8193, 32768, 65536):
            parts = -(-length // PART)
            words = 4 if length == 0 else 4 + length + 2 if length <= PART else 4 + parts + 2 + parts * (PART + 2)
            end = self.heap.counts().end
            self.arrays.new_array(0, KIND, length)
            self.assertEqual(self.heap.counts().end, end + words)
            chosen = {*range(0, length, 97), length - 1} - {-1}
            for i in chosen:
                self.arrays.get(2, 0, i)
                self.assertIsNone(self.heap.look(2))
                values.set_int(self.heap, 1, 5 + i)
                self.arrays.put(0, i, 1)
            for i in range(length, length + 20):
                values.set_int(self.heap, 1, 5 + i)
                self.arrays.push(0, 1)
            self.heap.collect()
            self.assertEqual(self.arrays.length(0), length + 20)
            for i in chosen.union(range(length, length + 20)):
                self.arrays.get(2, 0, i)
                self.assertEqual(values.value(self.heap, 2), 5 + i)
            self.heap.set_nil(0)
            self.heap.collect()
            self.assertEqual(self.heap.counts().end, 1)

    def test_pushes(self):
        self.arrays.new_array(0, KIND, 0)
        for i in range(3 * PART):
            values.set_int(self.heap, 1, i)
            self.arrays.push(0, 1)
            self.heap.work(1)
        self.check_row(3 * PART, 0)

    def test_one_root(self):
        self.arrays.new_array(0, KIND, 5000)
        self.arrays.put(0, 4999, 0)
        self.arrays.push(0, 0)
        self.arrays.get(2, 0, 4999)
        self.arrays.get(3, 0, 5000)
        self.assertTrue(self.heap.is_same(2, 0) and self.heap.is_same(3, 0))
        self.arrays.get(0, 0, 4998)
        self.assertEqual((self.heap.look(0), self.arrays.length(2)), (None, 5001))

    def test_refused(self):
        self.arrays.new_array(0, KIND, 2)
        values.set_int(self.heap, 1, 3)
        row = self.arrays
        for act, error in ((lambda: row.new_array(3, KIND, arrays.MOST_ELEMENTS + 1), gcflip.OutOfRange), (lambda: row.new_array(3, KIND, -1), gcflip.OutOfRange),
                           (lambda: row.new_array(3, 256, 1), gcflip.OutOfRange), (lambda: row.new_array(32, KIND, 1), gcflip.OutOfRange),
                           (lambda: row.new_array(3, KIND, arrays.MOST_ELEMENTS), gcflip.Full), (lambda: row.get(2, 0, 2), gcflip.NoField), (lambda: row.get(2, 0, -1), gcflip.NoField),
                           (lambda: row.get(32, 0, 0), gcflip.OutOfRange), (lambda: row.put(0, 2, 1), gcflip.NoField), (lambda: row.put(0, 0, 32), gcflip.OutOfRange),
                           (lambda: row.push(0, 32), gcflip.OutOfRange), (lambda: row.length(1), gcflip.NoObject), (lambda: row.push(3, 1), gcflip.NoObject),
                           (lambda: Arrays(self.heap, 1, OWN).put(0, 0, 1), gcflip.OutOfRange)):
            with self.assertRaises(error):
                act()
        # An object that is no array. What would be its spine has a number and a part of two fields.
        self.heap.new(3, KIND, 2)
        self.assertRaises(gcflip.NoNumber, row.length, 3)
        values.put_int(self.heap, 0, 3, 0, -1)
        self.assertRaises(gcflip.NoNumber, row.length, 3)
        values.put_int(self.heap, 0, 3, 0, 5000)
        self.heap.put(0, 3, 1, 0)
        self.assertRaises(gcflip.NoObject, row.put, 3, 4, 1)
        self.assertRaises(gcflip.NoField, row.put, 3, 4998, 1)
        self.assertEqual((row.length(0), self.heap.look(2), self.heap.look(29)), (2, None, None))

    def test_a_refused_push_keeps_the_array(self):
        """The array takes more room before an element is written. A root that does not exist is refused before that."""
        for length in (0, 8, PART, 2 * PART):
            self.arrays.new_array(0, KIND, length)
            for i in range(length):
                values.set_int(self.heap, 1, i)
                self.arrays.put(0, i, 1)
            with self.assertRaises(gcflip.OutOfRange):
                self.arrays.push(0, 32)
            self.check_row(length, 0)

    def test_full(self):
        with Heap(10000) as heap:
            row = Arrays(heap, 0, OWN)
            row.new_array(0, KIND, 0)
            length = 0
            with self.assertRaises(gcflip.Full):
                for length in itertools.count():
                    values.set_int(heap, 1, length)
                    row.push(0, 1)
            self.assertEqual(row.length(0), length)
            for i in range(length):
                row.get(2, 0, i)
                self.assertEqual(values.value(heap, 2), i)


class WeakHandles(unittest.TestCase):
    def setUp(self):
        self.heap = Heap(1000)
        self.addCleanup(self.heap.close)
        self.table = Table(self.heap)

    def numbered(self, root, number):
        self.heap.new(root, KIND, 1)
        values.put_int(self.heap, 0, root, 0, number)

    def number_of(self, handle):
        found = values.field(self.heap, 2, 0) if self.table.weak_get(2, handle) else None
        self.heap.set_nil(2)
        return found

    def test_tokens(self):
        self.assertEqual(list(self.table.dead()), [])
        self.numbered(1, 1)
        first, second, third = [self.table.weak_new(1, token) for token in ("first", None, "third")]
        self.table.collect()
        self.assertEqual((list(self.table.dead()), self.number_of(first)), ([], 1))
        self.table.weak_free(third)
        self.table.weak_free(third)
        self.assertIsNone(self.number_of(third))
        self.heap.set_nil(1)
        self.assertEqual(self.number_of(first), 1)
        self.table.collect()
        self.assertEqual((self.number_of(first), self.number_of(second)), (None, None))
        self.assertEqual((set(self.table.dead()), list(self.table.dead())), ({"first", None}, []))
        # A handle that is freed after its object died is not told.
        self.numbered(1, 2)
        third, fourth = self.table.weak_new(1, 5), self.table.weak_new(1, 6)
        self.heap.set_nil(1)
        self.table.collect()
        self.table.weak_free(third)
        self.assertEqual((list(self.table.dead()), len({first, second, third, fourth})), ([6], 4))

    def test_holds(self):
        self.numbered(1, 9)
        handle = self.table.weak_new(1, 4)
        self.heap.set_nil(1)
        self.assertTrue(self.table.weak_get(3, handle))
        pace = gcflip.Pace()
        self.table.reserve(pace, 990)
        self.heap.new_raw(1, 1, 900)
        self.assertRaises(gcflip.Full, self.table.reserve, pace, 990)
        self.assertEqual(values.field(self.heap, 3, 0), 9)
        self.heap.set_nil(3)
        values.set_int(self.heap, 2, 8)
        self.table.collect()
        self.assertEqual((self.table.weak_get(2, handle), values.value(self.heap, 2), list(self.table.dead())), (False, 8, [4]))

    def test_refused(self):
        values.set_int(self.heap, 3, 3)
        self.assertRaises(gcflip.OutOfRange, self.table.weak_get, 1, 1)
        for root in (1, 3):
            self.assertRaises(gcflip.NoObject, self.table.weak_new, root, 0)
        self.assertRaises(gcflip.OutOfRange, self.table.weak_new, 32, 0)
        self.numbered(1, 5)
        handle = self.table.weak_new(1, 1)
        self.assertRaises(gcflip.OutOfRange, self.table.weak_get, 32, handle)
        for wrong in (0, -1, handle + 1):
            self.assertRaises(gcflip.OutOfRange, self.table.weak_get, 2, wrong)
            self.assertRaises(gcflip.OutOfRange, self.table.weak_free, wrong)
        self.assertEqual(self.number_of(handle), 5)
        self.heap.close()
        for act in (lambda: self.table.weak_new(1, 0), lambda: list(self.table.dead()), lambda: self.table.weak_get(1, handle)):
            with self.assertRaises(gcflip.Closed):
                act()

    def test_flips_by_other_calls(self):
        """A table follows one flip by other calls, if the next collection has not begun."""
        for is_followed, is_begun, is_twice in ((True, True, False), (True, False, True), (False, False, False), (False, True, False), (False, False, True)):
            self.heap = Heap(1000)
            self.addCleanup(self.heap.close)
            self.table = Table(self.heap)
            for number, root in ((1, 3), (2, 1), (3, 0)):
                self.numbered(root, number)
            handle = self.table.weak_new(1, 0)
            self.heap.set_nil(3)
            self.heap.collect()
            if is_followed:
                self.table.follow()
            if is_begun:
                self.heap.begin()
            if is_twice:
                self.heap.collect()
            if is_followed or not (is_begun or is_twice):
                self.assertEqual(self.number_of(handle), 2)
            else:
                self.assertRaises(gcflip.OutOfRange, self.number_of, handle)


if __name__ == "__main__":
    unittest.main()
