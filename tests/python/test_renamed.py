"""Tests of old names of methods: each warns, once for each call, and does what the method with the new name does."""
import unittest
import warnings

import gcflip
from gcflip import Heap, Mutator, Ref, extra_place, own, place, shared

A, B = place(own(0)), place(own(1))
# The old names, with their new ones, and arguments for a heap that `prepare` made.
OF_HEAPS = {
    "new_root": ("new", (B, 1, 2)), "new_raw_root": ("new_raw", (B, 1, 2)), "new_pair_root": ("new_pair", (0, B, 1, A, A)), "new_from_root": ("new_from", (0, B, 1, [A, A, B])),
    "copy_root": ("copy", (B, A)), "get_root": ("get", (B, A, 0)), "put_root": ("put", (0, A, 1, B)), "put_number_root": ("put_number", (0, A, 1, 9)),
    "put_nil_root": ("put_nil", (0, A, 0)), "look_root": ("look", (A,)), "address_root": ("address", (A,)), "refer_root": ("refer", (B, 1)), "drop": ("give_up", ()),
}
OF_MUTATORS = {
    "raw": ("new_raw", (own(1), 1, 2)), "num": ("set_number", (own(1), 8)), "nil": ("set_nil", (own(0),)), "move": ("copy", (own(1), own(0))),
    "cons": ("new_pair", (own(1), 1, own(0), shared(0))), "same": ("is_same", (own(0), own(0))),
}


def prepare():
    """Returns a heap with an open collection, whose own slot 0 refers to an object with a number in field 0."""
    heap = Heap(64, extra_roots=4)
    heap.new(A, 1, 2)
    heap.put_number(0, A, 0, 5)
    heap.begin()
    return heap


class OldNames(unittest.TestCase):
    def seen(self, of, name, given):
        """Returns what a call on a new heap returns, the heap after it, and the warnings."""
        with prepare() as heap, warnings.catch_warnings(record=True) as told:
            warnings.simplefilter("always")
            caller = heap if of is Heap else heap.mutator(0)
            value = getattr(caller, name)(*given)
            return (value, heap.counts(), heap.image()), [(warning.category, str(warning.message), warning.filename) for warning in told]

    def test_each_old_name(self):
        for of, names in ((Heap, OF_HEAPS), (Mutator, OF_MUTATORS)):
            for old, (new, given) in names.items():
                (found, told), (wanted, silent) = self.seen(of, old, given), self.seen(of, new, given)
                self.assertEqual((found, silent), (wanted, []), old)
                said = "'%s' is called '%s' now, and the next minor version has no other name for it" % (old, new)
                self.assertEqual(told, [(DeprecationWarning, said, __file__)])
                self.assertEqual(getattr(of, old).__doc__, "The old name of `%s`." % new)

    def test_references(self):
        with Heap(64, extra_roots=4) as heap:
            first, second = heap.make(1, 0), heap.make(1, 0)
            with self.assertWarns(DeprecationWarning):
                self.assertTrue(first.same(first))
            with self.assertWarns(DeprecationWarning):
                self.assertFalse(first.same(second))
            self.assertTrue(first.is_same(first) and not first.is_same(second))

    def test_refusals_are_the_same(self):
        with prepare() as heap, warnings.catch_warnings():
            warnings.simplefilter("ignore", DeprecationWarning)
            for act, error in ((lambda: heap.get_root(B, A, 2), gcflip.NoField), (lambda: heap.new_root(extra_place(1, 4), 1, 1), gcflip.OutOfRange), (lambda: heap.new_root(A, 1), TypeError)):
                with self.assertRaises(error):
                    act()

    def test_there_are_no_others(self):
        for of, names in ((Heap, OF_HEAPS), (Mutator, OF_MUTATORS), (Ref, {"same": ()})):
            old = {name for name in vars(of) if (getattr(of, name).__doc__ or "").startswith("The old name of")}
            self.assertEqual(old, set(names))


if __name__ == "__main__":
    unittest.main()
