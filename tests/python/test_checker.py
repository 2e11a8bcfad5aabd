"""Tests of the package's checker. The images are those of docs/FORMATS.md: headers 16777216 + LEN, words 2a for references."""
import array
import ctypes
import mmap
import unittest

try:
    import numpy
except ImportError:
    numpy = None

import gcflip
from gcflip import Image, Refusal, check, check_text
from gcflip.checker import Block
from limits import at_most

# Of <sys/mman.h>; the module mmap has it from Python 3.13 on.
MAP_NORESERVE = 0x4000

# Garbage with two fields at 1, and an object without fields at 5, to which the one root refers.
OLD = Image([0, 16777218, 0, 1, 1, 16777216, 0], [10], size=8)
NEW = Image([0, 16777216, 0], [2], size=8)
PAIRS = [(5, 1)]
NEITHER = Image([0], [], size=1)

# One object with one field.
ONE = Image([0, 16777217, 0, 1], [2], size=8)
# Two objects without fields, and a root for each.
TWO = Image([0, 16777216, 0, 16777216, 0], [2, 6], size=8)


def with_words(image, words):
    return Image(words, image.roots, image.size)


class Yes(unittest.TestCase):
    def test_number_of_pairs(self):
        self.assertEqual(check(OLD, NEW, PAIRS), 1)
        self.assertEqual(check(NEITHER, NEITHER, []), 0)
        self.assertEqual(check(TWO, TWO, [(1, 1), (3, 3)]), 2)

    def test_size_is_the_number_of_words(self):
        self.assertEqual(check(Image(OLD.words, OLD.roots), Image(NEW.words, NEW.roots), PAIRS), 1)

    def test_raw_headers_count(self):
        raw = Image([0, 50331648, 0], [2])
        self.assertEqual(check(raw, raw, [(1, 1)]), 1)


class Refusals(unittest.TestCase):
    def expect(self, refusal, place, field, old, new, pairs):
        with self.assertRaises(gcflip.Refused) as caught:
            check(old, new, pairs)
        found = caught.exception
        self.assertEqual((found.refusal, found.place, found.field), (refusal, place, field))
        return str(found)

    def test_shapes(self):
        no_header = Image([0, 7, 0], [])
        self.expect(Refusal.OldShape, 1, 0, no_header, NEITHER, [])
        self.expect(Refusal.NewShape, 1, 0, NEITHER, no_header, [])
        self.expect(Refusal.OldShape, 1, 0, Image([0, 50331648, 0], [], raws=False), NEITHER, [])
        self.expect(Refusal.OldShape, 0, 0, Image([0, 16777216, 0], [], size=2), NEITHER, [])

    def test_roots(self):
        self.assertEqual(self.expect(Refusal.RootCount, 0, 0, OLD, Image(NEW.words, []), PAIRS), "refused 3 RootCount")
        self.assertEqual(self.expect(Refusal.RootDiffers, 0, 0, OLD, Image(NEW.words, [3]), PAIRS), "refused 10 RootDiffers 0")

    def test_pairs(self):
        self.expect(Refusal.OldNotStart, 0, 0, OLD, NEW, [(4, 1)])
        self.expect(Refusal.NewNotStart, 0, 0, OLD, NEW, [(5, 2)])
        self.expect(Refusal.NotRising, 1, 0, TWO, TWO, [(1, 1), (3, 1)])
        self.assertEqual(self.expect(Refusal.Twice, 1, 0, TWO, TWO, [(1, 1), (1, 3)]), "refused 7 Twice 1")

    def test_objects(self):
        self.expect(Refusal.HeaderDiffers, 0, 0, ONE, with_words(ONE, [0, 16777216, 0]), [(1, 1)])
        line = self.expect(Refusal.FieldDiffers, 0, 0, ONE, with_words(ONE, [0, 16777217, 0, 3]), [(1, 1)])
        self.assertEqual(line, "refused 9 FieldDiffers 0 0")


# How many objects without fields the large images and texts have.
MANY = 30000


class Rows(unittest.TestCase):
    def test_kinds_of_rows(self):
        words, roots = array.array("Q", OLD.words), array.array("Q", OLD.roots)
        flat = array.array("I", [5, 1])
        for row in (words, memoryview(words), memoryview(words).toreadonly(), array.array("L", words), tuple(words)):
            self.assertEqual(check(Image(row, roots, 8), NEW, PAIRS), 1)
        table = memoryview(flat).cast("B").cast("I", shape=[1, 2])
        for pairs in (flat, memoryview(flat), table, iter(PAIRS), ((5, 1),)):
            self.assertEqual(check(OLD, NEW, pairs), 1)

    def test_large_rows(self):
        """Checks images of 60001 words in each kind of row. The last object has to be a start, so no row may be cut."""
        words = array.array("Q", [0] + [16777216, 0] * MANY)
        pairs = array.array("I", [address for number in range(MANY) for address in (1 + 2 * number, 1 + 2 * number)])
        for row in (words, memoryview(words), memoryview(words).toreadonly(), words.tolist()):
            for given in (pairs, memoryview(pairs).toreadonly(), list(zip(pairs[::2], pairs[1::2]))):
                image = Image(row, [])
                self.assertEqual(check(image, image, given), MANY)

    def test_rows_are_read_in_place(self):
        words = array.array("Q", OLD.words)
        address = words.buffer_info()[0]
        self.assertEqual(Block(words, "Q").address, address)
        self.assertEqual(Block(memoryview(words), "Q").address, address)
        self.assertEqual(Block(memoryview(words)[2:], "Q").address, address + 16)
        self.assertEqual(Block(memoryview(words).toreadonly(), "Q").address, address)
        data = words.tobytes()
        self.assertEqual(Block(memoryview(data).cast("Q"), "Q").address, ctypes.cast(ctypes.c_char_p(data), ctypes.c_void_p).value)
        self.assertNotEqual(Block(words.tolist(), "Q").address, address)

    def test_a_block_holds_its_buffer(self):
        words = array.array("Q", [0, 1])
        block = Block(words, "Q")
        with self.assertRaises(BufferError):
            words.append(2)
        del block
        words.append(2)

    @unittest.skipIf(numpy is None, "there is no numpy")
    def test_numpy_is_read_in_place(self):
        words, roots = numpy.array(OLD.words, numpy.uint64), numpy.array(OLD.roots, numpy.uint64)
        pairs = numpy.array(PAIRS, numpy.uint32)
        for writable in (True, False):
            for each in (words, roots, pairs):
                each.setflags(write=writable)
            self.assertEqual(Block(words, "Q").address, words.ctypes.data)
            self.assertEqual(check(Image(words, roots, 8), NEW, pairs), 1)
        with self.assertRaises(TypeError):
            check(Image(words[::2], roots, 8), NEW, PAIRS)
        with self.assertRaises(TypeError):
            check(Image(words.astype(numpy.int32), roots, 8), NEW, PAIRS)
        with gcflip.Heap(8) as heap:
            heap.mutator(0).new(gcflip.own(0), 1, 2)
            copied = heap.image().words
            self.assertEqual(numpy.frombuffer(copied, numpy.uint64).ctypes.data, copied.buffer_info()[0])

    def test_rows_are_left_as_they_are(self):
        words = array.array("Q", OLD.words)
        check(Image(words, OLD.roots, 8), NEW, PAIRS)
        self.assertEqual(list(words), OLD.words)
        words.append(0)  # it has no views any more, so it can grow

    def test_wrong_rows(self):
        for words in (array.array("I", [0]), array.array("d", [0]), memoryview(array.array("Q", range(4)))[::2], "0"):
            with self.assertRaises(TypeError):
                check(Image(words, []), NEITHER, [])
        for words in ([-1], [1 << 64]):
            with self.assertRaises(OverflowError):
                check(Image(words, []), NEITHER, [])

    def test_wrong_pairs(self):
        for pairs in (array.array("I", [5]), array.array("Q", [5, 1]), [5]):
            with self.assertRaises(TypeError):
                check(OLD, NEW, pairs)
        for pairs in ([(5,)], [(5, 1, 0)]):
            with self.assertRaises(ValueError):
                check(OLD, NEW, pairs)
        with self.assertRaises(OverflowError):
            check(OLD, NEW, [(1 << 32, 1)])

    def test_size_beyond_32_bits(self):
        with self.assertRaises(gcflip.OutOfRange):
            check(Image([0], [], size=1 << 32), NEITHER, [])


class Memory(unittest.TestCase):
    def test_out_of_memory(self):
        """Checks images of 15 objects with 65535 fields, which take nearly a whole space. The checker's tables take 5 MB."""
        words = array.array("Q", bytes(8 * (1 + 15 * 65537)))
        for number in range(15):
            words[1 + 65537 * number] = 16777216 + 65535
        large = Image(words, [], 1048576)
        with at_most(1 << 20):
            with self.assertRaises(gcflip.OutOfMemory):
                check(large, large, [])
        self.assertEqual(check(large, large, []), 0)
        self.assertTrue(issubclass(gcflip.OutOfMemory, MemoryError))

    def test_too_many_pairs(self):
        """Checks 2^32 pairs. They take 32 GiB of addresses but no memory, since nothing reads them."""
        try:
            reserved = mmap.mmap(-1, 8 << 32, flags=mmap.MAP_PRIVATE | mmap.MAP_ANONYMOUS | MAP_NORESERVE)
        except OSError as error:
            self.skipTest("no 32 GiB of addresses: %s" % error)
        with at_most(64 << 20), self.assertRaises(gcflip.TooManyPairs):
            check(NEITHER, NEITHER, memoryview(reserved).cast("I"))


TEXT = b"heappair 1\nold 1 1\n0\nroots 0\nnew 1 1\n0\nroots 0\npairs 0\nend\n"


class Texts(unittest.TestCase):
    def test_buffers(self):
        for text in (TEXT, bytearray(TEXT), memoryview(TEXT), memoryview(bytearray(TEXT))):
            self.assertEqual(check_text(text), 0)

    def test_large_buffers(self):
        """Checks a text of more than 1000000 bytes in each kind of buffer."""
        image = "%d %d\n0\n" % (1 + 2 * MANY, 1 + 2 * MANY) + "16777216\n0\n" * MANY + "roots 0\n"
        pairs = "".join("%d %d\n" % (1 + 2 * number, 1 + 2 * number) for number in range(MANY))
        text = ("heappair 1\nold %snew %spairs %d\n%send\n" % (image, image, MANY, pairs)).encode()
        self.assertGreater(len(text), 1000000)
        for given in (text, bytearray(text), memoryview(text), memoryview(bytearray(text)), array.array("B", text)):
            self.assertEqual(check_text(given), MANY)

    def test_faults(self):
        with self.assertRaises(gcflip.BadLine) as caught:
            check_text(TEXT.replace(b"roots 0", b"roots", 1))
        self.assertEqual((caught.exception.line, str(caught.exception)), (4, "pair: bad line 4"))
        for text in (b"", TEXT[:-1]):
            with self.assertRaises(gcflip.EndsEarly):
                check_text(text)
        with self.assertRaises(gcflip.TextTooLarge):
            check_text(bytes(67108865))
        self.assertTrue(all(issubclass(error, gcflip.BadText) for error in (gcflip.BadLine, gcflip.EndsEarly, gcflip.TextTooLarge)))

    def test_refusal(self):
        with self.assertRaises(gcflip.Refused) as caught:
            check_text(TEXT.replace(b"old 1 1\n0", b"old 1 1\n7"))
        self.assertEqual(str(caught.exception), "refused 1 OldShape 0")


class Library(unittest.TestCase):
    def test_version(self):
        self.assertEqual(gcflip.library_version(), "0.2.0")


if __name__ == "__main__":
    unittest.main()
