"""Tests gcflip.compare and gcflip.path_to: against all certificates and all paths of small random images, and on large ones."""
import itertools
import random
import unittest

import gcflip

PLAIN, RAW = 16777216, 50331648


def image_of(objects, roots, raws=True):
    """Lays objects out back to back. An object is (is raw, kind, fields); a reference is ('to', number of the object)."""
    starts = list(itertools.accumulate([1] + [len(fields) + 2 for _, _, fields in objects]))
    word = lambda value: 2 * starts[value[1]] if isinstance(value, tuple) else value  # noqa: E731
    words = [0]
    for is_raw, kind, fields in objects:
        words += [(RAW if is_raw else PLAIN) + 65536 * kind + len(fields), 0, *map(word, fields)]
    return gcflip.Image(words, [word(root) for root in roots], len(words) + 3, raws), starts[:-1]


def certificates(old_starts, new_starts):
    """Yields each list of pairs whose new addresses rise and whose old addresses differ."""
    for count in range(min(len(old_starts), len(new_starts)) + 1):
        for replicas in itertools.combinations(new_starts, count):
            for originals in itertools.permutations(old_starts, count):
                yield list(zip(originals, replicas))


def holds(old, new, pairs):
    try:
        gcflip.check(old, new, pairs)
    except gcflip.Refused:
        return False
    return True


def some_objects(chosen, count):
    """Returns a few objects with random fields: references, numbers, nil, and words of raw objects that look like references."""
    def field(is_raw):
        if is_raw:
            return chosen.choice([0, 2, 7, 10])
        return chosen.choice([0, 1, 3, ("to", chosen.randrange(count)), ("to", chosen.randrange(count))])
    found = []
    for _ in range(count):
        is_raw = chosen.random() < 0.2
        found.append((is_raw, chosen.randrange(2), [field(is_raw) for _ in range(chosen.randrange(3))]))
    return found


def copied(chosen, objects, roots):
    """Returns the same objects in another order, and in some cases with one word changed."""
    order = list(range(len(objects)))
    chosen.shuffle(order)
    moved = lambda value: ("to", order.index(value[1])) if isinstance(value, tuple) else value  # noqa: E731
    found = [(objects[k][0], objects[k][1], [moved(value) for value in objects[k][2]]) for k in order]
    roots = [moved(root) for root in roots]
    wrong = chosen.randrange(3)
    if wrong == 1 and roots:
        roots[chosen.randrange(len(roots))] = chosen.choice([0, 5, ("to", chosen.randrange(len(found)))])
    if wrong == 2:
        fields = chosen.choice(found)[2]
        if fields:
            fields[chosen.randrange(len(fields))] = chosen.choice([0, 5])
    return found, roots


class Small(unittest.TestCase):
    def test_all_certificates(self):
        """The pairs are in every certificate that holds, and hold if any does."""
        chosen, kinds = random.Random(20261125), [0, 0]
        for _ in range(3000):
            count = chosen.randint(1, 3)
            objects = some_objects(chosen, count)
            roots = [chosen.choice([0, 5, ("to", chosen.randrange(count))]) for _ in range(chosen.randrange(3))]
            (old, old_starts), (new, new_starts) = image_of(objects, roots), image_of(*copied(chosen, objects, roots))
            found = gcflip.compare(old, new)
            holding = [pairs for pairs in certificates(old_starts, new_starts) if holds(old, new, pairs)]
            self.assertEqual(found.refused is None, bool(holding))
            self.assertEqual(found.refused is None, found.pairs in holding)
            for pairs in holding:
                self.assertLessEqual(set(found.pairs), set(pairs))
            kinds[bool(holding)] += 1
        self.assertGreater(min(kinds), 300)

    def test_all_paths(self):
        """A path leads to its address, none is shorter, and where there is none, no path of the length of the image leads there."""
        chosen, lengths = random.Random(20261126), set()
        for _ in range(1000):
            count = chosen.randint(1, 4)
            objects = some_objects(chosen, count)
            roots = [chosen.choice([0, 5, ("to", chosen.randrange(count))]) for _ in range(chosen.randrange(3))]
            image, starts = image_of(objects, roots)
            least = shortest_paths(objects, roots)
            for number, start in enumerate(starts):
                path = gcflip.path_to(image, start)
                self.assertEqual(path is None, number not in least)
                if path:
                    self.assertEqual(len(path.fields), least[number])
                    self.assertEqual(followed(objects, roots, path), number)
                    lengths.add(len(path.fields))
        self.assertGreaterEqual(lengths, {0, 1, 2})


def shortest_paths(objects, roots):
    """Returns the least number of fields on a path to each object that some root reaches, by trying all paths, one field at a time."""
    found, ends = {}, {root[1] for root in roots if isinstance(root, tuple)}
    for length in range(len(objects) + 1):
        for end in ends:
            found.setdefault(end, length)
        ends = {value[1] for end in ends if not objects[end][0] for value in objects[end][2] if isinstance(value, tuple)}
    return found


def followed(objects, roots, path):
    value = roots[path.place]
    for field in path.fields:
        value = objects[value[1]][2][field]
    return value[1]


def chain(length):
    """Returns the words of a chain of objects of one field, each of which refers to the next one."""
    words = [0]
    for k in range(length):
        words += [PLAIN + 1, 0, 2 * (3 * k + 4) if k + 1 < length else 1]
    return words


class Large(unittest.TestCase):
    LENGTH = 262143

    def test_chain(self):
        words = chain(self.LENGTH)
        image = gcflip.Image(words, [0, 2], len(words))
        self.assertEqual(gcflip.compare(image, image).pairs, [(3 * k + 1, 3 * k + 1) for k in range(self.LENGTH)])
        path = gcflip.path_to(image, 3 * (self.LENGTH - 1) + 1)
        self.assertEqual(path, gcflip.Path(1, (0,) * (self.LENGTH - 1)))

    def test_chain_with_a_wrong_bit(self):
        words = chain(self.LENGTH)
        old, new = gcflip.Image(words, [2], len(words)), gcflip.Image(words[:-1] + [3], [2], len(words))
        found = gcflip.compare(old, new)
        self.assertEqual(str(found.refused), "refused 9 FieldDiffers %d 0" % (self.LENGTH - 1))
        self.assertTrue(gcflip.explained(old, new, found.pairs, found.refused).endswith(" . field 0: old 0, new 1"))

    def test_object_of_all_fields(self):
        words = [0, PLAIN + 65535, 0, *([2] * 65535)]
        image = gcflip.Image(words, [2], len(words))
        self.assertEqual(gcflip.compare(image, image), gcflip.Comparison([(1, 1)], None))
        other = gcflip.Image(words[:-1] + [1], [2], len(words))
        self.assertEqual(str(gcflip.compare(image, other).refused), "refused 9 FieldDiffers 0 65534")


class Words(unittest.TestCase):
    """What `explained` says, derived from the words by hand."""

    def explained(self, old_objects, old_roots, new_objects, new_roots):
        (old, _), (new, _) = image_of(old_objects, old_roots), image_of(new_objects, new_roots)
        found = gcflip.compare(old, new)
        return gcflip.explained(old, new, found.pairs, found.refused)

    def test_places(self):
        slots = [0] * 48
        first = slots[:32] + [("to", 0)] + slots[33:]
        self.assertEqual(self.explained([(False, 0, [1, ("to", 1)]), (False, 0, [15])], first, [(False, 0, [1, ("to", 1)]), (False, 0, [79])], first),
                         "r0 of mutator 1 (place 32) . field 1 . field 0: old 7, new 39")
        self.assertEqual(self.explained([], [0] * 3 + [7] + [0] * 28, [], [0] * 32), "g3 (place 3): old 3, new nil")
        self.assertEqual(self.explained([], [7], [], [0]), "root 0: old 3, new nil")
        self.assertEqual(self.explained([], [7], [], []), "the images have different numbers of roots: old 1, new 0")
        self.assertEqual(self.explained([(True, 0, [5])], [("to", 0)], [(True, 0, [6])], [("to", 0)]), "root 0 . field 0: old 5, new 6")
        self.assertEqual(self.explained([(False, 4, [])], [("to", 0)], [(True, 4, [1])], [("to", 0)]),
                         "root 0: old an object of kind 4 with 0 fields, new a raw object of kind 4 with 1 field")
        self.assertEqual(self.explained([(False, 0, [("to", 0)])], [("to", 0)], [(False, 0, [0])], [("to", 0)]), "root 0 . field 0: old a reference to 1, new nil")

    def test_shapes(self):
        good, bad = gcflip.Image([0], [], 1), gcflip.Image([0, 5], [], 2)
        for old, new, name in ((bad, good, "old"), (good, bad, "new")):
            found = gcflip.compare(old, new)
            self.assertEqual(found.pairs, [])
            self.assertEqual(gcflip.explained(old, new, [], found.refused), "the %s image is no heap: word 1 is no header, or its object runs past the end: 5" % name)
        self.assertIsNone(gcflip.path_to(bad, 1))

    def test_ranges(self):
        image = gcflip.Image([0], [], 1)
        for address in (-1, 1 << 32):
            self.assertRaises(gcflip.OutOfRange, gcflip.path_to, image, address)
        self.assertIsNone(gcflip.path_to(image, (1 << 32) - 1))


if __name__ == "__main__":
    unittest.main()
