"""Tests of gcflip.images: snapshots of another runtime's heap, their pairs and what is printed about them."""
import array
import unittest

from gcflip import Collection, Faulty, Names, OutOfRange, Refusal, Refused, Words, check_text

# A list of two objects of kind 3, each with a reference and a constant, before a collection and after it.
OLD, NEW = (0x1000, 0x1010), (0x2010, 0x2000)


def fill(snapshot, addresses, number=7):
    """Places the list: its root refers to the first object, that to the second, and that to nothing."""
    first, second = addresses
    snapshot.root(snapshot.reference(first))
    for address, following in ((first, second), (second, 0)):
        place = snapshot.object(address, 3, 2)
        snapshot.set(place, 0, snapshot.reference(following))
        snapshot.set(place, 1, snapshot.constant(number))


class Lists(unittest.TestCase):
    def setUp(self):
        self.collection = Collection()
        self.before, self.after = self.collection.before, self.collection.after

    def test_inferred(self):
        fill(self.before, OLD)
        fill(self.after, NEW)
        self.assertEqual((self.collection.infer(), self.collection.pairs()), (2, 2))
        self.assertTrue(self.collection.has_replica(NEW[0]))
        self.assertFalse(self.collection.has_replica(OLD[0]))
        self.assertEqual(self.collection.explain(), "yes 2\n")

    def test_given_pairs(self):
        fill(self.before, OLD)
        fill(self.after, NEW)
        for old, new in zip(OLD, NEW):
            self.collection.pair(old, new)
        self.assertEqual(self.collection.check(), 2)

    def test_a_pair_is_missing(self):
        fill(self.before, OLD)
        fill(self.after, NEW)
        self.collection.pair(OLD[0], NEW[0])
        with self.assertRaises(Refused) as caught:
            self.collection.check()
        self.assertEqual((caught.exception.refusal, caught.exception.place, caught.exception.field), (Refusal.FieldDiffers, 0, 0))
        self.assertEqual(self.collection.infer(), 2)

    def test_a_large_constant_has_a_pair(self):
        fill(self.before, OLD, 1 << 63)
        fill(self.after, NEW, 1 << 63)
        self.assertEqual(self.collection.infer(), 3)

    def test_another_constant(self):
        fill(self.before, OLD)
        fill(self.after, NEW, 8)
        with self.assertRaises(Refused) as caught:
            self.collection.infer()
        # The replica at 0x2010 was placed first, so its pair is the first one.
        self.assertEqual((caught.exception.refusal, caught.exception.place, caught.exception.field), (Refusal.FieldDiffers, 0, 1))
        names = Names(root=lambda root: "the root %d" % root, kind=lambda kind: "cell" if kind == 3 else None,
                      field=lambda address, kind, field: "value" if field == 1 else None, object=lambda address, kind: "first" if address == OLD[0] else None)
        lines = self.collection.explain(names).split("\n")
        self.assertEqual(lines[:5], ["refused 9 FieldDiffers 0 1", "  the object 0x1000 (first: cell, 2 fields) with the replica 0x2010 (cell, 2 fields)",
                                     "  value", "  before the constant 0x7", "  after  the constant 0x8"])
        self.assertEqual(lines[5:], ["  reached by the root 0", ""])

    def test_an_address_that_was_not_updated(self):
        fill(self.before, OLD)
        fill(self.after, (NEW[0], OLD[1]))
        self.after.clear()
        self.after.root(self.after.reference(NEW[0]))
        place = self.after.object(NEW[0], 3, 2)
        self.after.set_row(place, 0, [OLD[1]], Words.REFERENCES)
        self.after.set_row(place, 1, [7], Words.CONSTANTS)
        self.assertRaises(Refused, self.collection.infer)
        self.assertIn("\n  that is still the old address", self.collection.explain())
        self.assertIn("is 0x1010: no object starts there\n", self.after.doubts())

    def test_text(self):
        fill(self.before, OLD)
        fill(self.after, NEW)
        self.collection.infer()
        self.assertEqual(check_text(self.collection.text().encode()), 2)

    def test_cleared(self):
        fill(self.before, OLD)
        fill(self.after, NEW)
        self.collection.clear()
        self.assertEqual(self.collection.infer(), 0)

    def test_a_snapshot_keeps_its_collection(self):
        snapshot = Collection().before
        fill(snapshot, OLD)
        self.assertNotEqual(snapshot.find(OLD[1]), 0)


class Words_(unittest.TestCase):
    """Each way to set a field, in both snapshots."""

    def both(self, write):
        collection = Collection()
        write(collection.before)
        write(collection.after)
        return collection

    def test_rows_are_what_single_words_are(self):
        row = array.array("Q", [0, 16, 24, 5, (1 << 64) - 1])
        for words, single in ((Words.REFERENCES, "reference"), (Words.CONSTANTS, "constant"), (Words.FIXED, "fixed")):
            with self.subTest(words):
                collection = Collection()
                for snapshot in (collection.before, collection.after):
                    snapshot.object(16, 1, 0)
                    snapshot.object(24, 2, 0)
                numbers = row if words != Words.FIXED else row[:4]
                collection.before.roots(numbers, words)
                for number in numbers:
                    collection.after.root(getattr(collection.after, single)(number))
                if words == Words.REFERENCES:
                    # Nothing starts at 5 and at 2^64 - 1, so these roots correspond to nothing.
                    with self.assertRaises(Refused) as caught:
                        collection.infer()
                    self.assertEqual((caught.exception.refusal, caught.exception.place), (Refusal.RootDiffers, 3))
                else:
                    self.assertEqual(collection.infer(), 0)

    def test_a_traced_heap(self):
        def write(snapshot):
            snapshot.root(snapshot.reference(64))
            met = []
            while True:
                address = snapshot.next(64, 128, 8)
                if address == 0:
                    break
                met.append(address)
                snapshot.set_row(snapshot.object(address, 1, 2), 0, [address + 16, 200], Words.REFERENCES)
            self.assertEqual(met, [64, 80, 96, 112])
        with self.assertRaises(Refused):
            self.both(write).infer()  # the last reference leads out of the heap

    def test_bytes_and_words(self):
        def write(snapshot):
            snapshot.root(snapshot.reference(8))
            snapshot.root(snapshot.inside(16, 3))
            snapshot.bytes(8, 1, b"nine byte")
            snapshot.words(16, 2, [1, 1 << 63])
        # Two objects, and one of the library for the pointer.
        self.assertEqual(self.both(write).infer(), 3)

    def test_another_last_byte_or_word(self):
        for place, content in ((2, b"nine bytf"), (1, [1, 3])):
            collection = Collection()
            for snapshot, row in ((collection.before, b"nine byte" if place == 2 else [1, 2]), (collection.after, content)):
                snapshot.root(snapshot.reference(8))
                (snapshot.bytes if place == 2 else snapshot.words)(8, 1, row)
            with self.assertRaises(Refused) as caught:
                collection.infer()
            # The words of a byte string are its length and the bytes, eight in each.
            self.assertEqual((caught.exception.refusal, caught.exception.field), (Refusal.FieldDiffers, place))

    def test_weak_references(self):
        def write(target):
            def written(snapshot):
                snapshot.root(snapshot.reference(8))
                snapshot.set_weak(snapshot.object(8, 1, 1), 0, target)
                snapshot.object(16, 1, 0)
                snapshot.weak_root(target)
            return written
        self.assertEqual(self.both(write(16)).infer(), 2)
        collection = Collection()
        write(16)(collection.before)
        write(0)(collection.after)
        self.assertEqual(collection.infer(), 1)
        for snapshot in (collection.before, collection.after):
            snapshot.root(snapshot.reference(16))
        with self.assertRaisesRegex(Faulty, "^no verdict: a weak reference was cleared, and its target has a replica: "):
            collection.infer()

    def test_faults(self):
        collection = Collection()
        collection.before.object(8, 1, 0)
        self.assertEqual(collection.before.object(8, 1, 0), 0)
        self.assertRaisesRegex(Faulty, "^no verdict: two objects at one address: 0x8, in the snapshot before$", collection.infer)
        self.assertEqual(collection.text(), "")

    def test_doubtful(self):
        collection = Collection()
        collection.before.root(collection.before.doubtful(9, "it is odd"))
        self.assertEqual(collection.before.doubts(), "doubtful words: 1, fields that were never set: 0\n  root 0 is 0x9: it is odd\n")
        self.assertEqual(collection.after.doubts(), "")

    def test_old_addresses(self):
        collection = Collection()
        collection.before.object(4096, 1, 0)
        for snapshot in (collection.before, collection.after):
            snapshot.root(snapshot.constant(4096))
        self.assertEqual(collection.infer(), 0)
        self.assertEqual(collection.old_addresses(), "hint: constants that are old addresses: 1, first root 0: 0x1000 (kind 1, 0 fields)\n")

    def test_numbers_that_do_not_fit(self):
        snapshot = Collection().before
        for call in (lambda: snapshot.object(1 << 64, 1, 0), lambda: snapshot.object(8, 1 << 32, 0), lambda: snapshot.reference(-1),
                     lambda: snapshot.set(0, 0, 1 << 64), lambda: snapshot.inside(8, 1 << 32)):
            self.assertRaises(OutOfRange, call)


if __name__ == "__main__":
    unittest.main()
