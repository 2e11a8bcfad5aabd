"""Tests of the extension, which has to be there: its methods do what the functions of Python do."""
import copy
import gc
import random
import threading
import tracemalloc
import unittest

import gcflip
from gcflip import Heap, Mutator, own, place, quick, turns

PLACES = [place(own(0)), place(own(1)), 0, 48, 50]
SLOTS = [own(0), own(1), own(2), 16, 31]
FIELDS, KINDS, NUMBERS = [0, 1, 2], [0, 1, 255], [0, 7, (1 << 63) - 1]


class Index:
    """A number that is no int."""

    def __index__(self):
        return 1


# Arguments that a call may refuse.
ODD = [32, 51, 255, 256, 65535, 65536, (1 << 32) - 1, 1 << 32, 1 << 63, (1 << 64) - 1, 1 << 64, -1, True, Index(), 1.0, "1", None]
# The arguments of each method: names, with ordinary values.
OF_MUTATORS = {
    "new": {"slot": SLOTS, "kind": KINDS, "length": FIELDS}, "new_raw": {"slot": SLOTS, "kind": KINDS, "length": FIELDS}, "set_number": {"slot": SLOTS, "number": NUMBERS},
    "set_nil": {"slot": SLOTS}, "copy": {"slot": SLOTS, "source": SLOTS}, "load": {"slot": SLOTS, "root": FIELDS}, "store": {"root": FIELDS, "source": SLOTS},
    "get": {"slot": SLOTS, "source": SLOTS, "field": FIELDS}, "put": {"slot": SLOTS, "field": FIELDS, "source": SLOTS},
    "put_number": {"slot": SLOTS, "field": FIELDS, "source": SLOTS, "number": NUMBERS}, "put_nil": {"slot": SLOTS, "field": FIELDS, "source": SLOTS},
    "new_pair": {"slot": SLOTS, "kind": KINDS, "first": SLOTS, "second": SLOTS}, "is_same": {"first": SLOTS, "second": SLOTS}, "look": {"slot": SLOTS},
}
OF_HEAPS = {
    "new": {"root": PLACES, "kind": KINDS, "length": FIELDS}, "new_raw": {"root": PLACES, "kind": KINDS, "length": FIELDS},
    "new_pair": {"mutator": [0, 1], "root": PLACES, "kind": KINDS, "first": PLACES, "second": PLACES},
    "gather": {"mutator": [0, 1], "root": PLACES, "kind": KINDS, "first": PLACES, "count": [0, 1, 2]}, "spread": {"first": [0, 5, 16, 30, 48], "source": PLACES, "count": [0, 1, 2]},
    "set_number": {"root": PLACES, "number": NUMBERS}, "set_nil": {"root": PLACES}, "copy": {"root": PLACES, "source": PLACES},
    "get": {"root": PLACES, "source": PLACES, "field": FIELDS}, "peek": {"root": PLACES, "field": FIELDS}, "put": {"mutator": [0, 1], "root": PLACES, "field": FIELDS, "source": PLACES},
    "put_sure": {"mutator": [0, 1], "root": PLACES, "field": FIELDS, "source": PLACES},
    "fill": {"mutator": [0, 1], "root": PLACES, "first": FIELDS, "end": [0, 1, 2, 3], "source": PLACES},
    "copy_fields": {"mutator": [0, 1], "root": PLACES, "field": FIELDS, "source": PLACES[:2], "first": [0, 1], "count": [0, 1]},
    "put_number": {"mutator": [0, 1], "root": PLACES, "field": FIELDS, "number": NUMBERS}, "put_nil": {"mutator": [0, 1], "root": PLACES, "field": FIELDS},
    "is_same": {"first": PLACES, "second": PLACES}, "look": {"root": PLACES},
}
METHODS = {"%s.%s" % (of, name): arguments for of, methods in (("Mutator", OF_MUTATORS), ("Heap", OF_HEAPS)) for name, arguments in methods.items()}
# Arguments with which each call does what it is for, if `prepare` came before it.
RIGHT = {name: [values[min(at, len(values) - 1)] for at, values in enumerate(arguments.values())] for name, arguments in METHODS.items()}


def prepare(heap):
    """Puts objects of three fields into two slots, whose places are the first of PLACES."""
    for slot in (own(0), own(1)):
        heap.mutator(0).new(slot, 1, 3)


def by_python(cls, *given, **named):
    """Makes an object of a class without the methods of the extension."""
    made = object.__new__(cls)
    made.__init__(*given, **named)
    return made


def outcome(call, given, named):
    """Returns what a call returns, or what it raises."""
    try:
        value = call(*given, **named)
        return type(value), value
    except Exception as error:
        return type(error), str(error)


def calls_of(heap, number=0):
    """Returns the calls of a heap and of one of its mutators by their classes and names."""
    callers = {"Heap": heap, "Mutator": heap.mutator(number)}
    return {name: getattr(callers[name.partition(".")[0]], name.partition(".")[2]) for name in METHODS}


class Quick(unittest.TestCase):
    def test_the_extension_makes_the_calls(self):
        self.assertEqual((quick.HAS_EXTENSION, set(METHODS)), (True, set(quick._quick.FUNCTIONS)))
        with Heap(64) as heap:
            for name, call in calls_of(heap).items():
                self.assertEqual(type(call).__name__, "builtin_function_or_method", name)
            mutator = heap.mutator(0)
            self.assertTrue(isinstance(heap, Heap) and isinstance(mutator, Mutator))
            self.assertEqual((type(heap).__name__, type(mutator).__name__, type(heap).__module__), ("Heap", "Mutator", "gcflip.heap"))
            self.assertEqual(copy.copy(mutator).look(own(0)), None)

    def test_the_same_as_python(self):
        """Makes calls that look random on two heaps, one of them without the extension, and compares all that can be seen."""
        for seed in range(8):
            draw = random.Random(seed)
            options = {"size": 60, "mutators": 2, "extra_roots": 3}
            with Heap(**options) as heap, by_python(Heap, **options) as other:
                mutators = [(heap.mutator(number), by_python(Mutator, other, number)) for number in range(2)]
                for _ in range(4000):
                    self.compare(draw, heap, other, mutators)
                    if draw.random() < 0.05:
                        most = draw.randrange(1, 20)
                        self.assertEqual(heap.work(most), other.work(most))
                self.assertEqual((heap.image(), heap.counts()), (other.image(), other.counts()))

    def compare(self, draw, heap, other, mutators):
        of, _, name = draw.choice(list(METHODS)).partition(".")
        quicker, slower = draw.choice(mutators) if of == "Mutator" else (heap, other)
        values = METHODS["%s.%s" % (of, name)]
        given = [draw.choice(ODD if draw.random() < 0.03 else values[argument]) for argument in values]
        named = {}
        if draw.random() < 0.1:
            place_of_first = draw.randrange(len(given) + 1)
            named = dict(zip(list(values)[place_of_first:], given[place_of_first:]))
            given = given[:place_of_first]
        elif draw.random() < 0.02:
            given = draw.choice([given[:-1], [*given, 0], []])
        elif draw.random() < 0.02:
            named = {"wrong": 1}
        found, wanted = outcome(getattr(quicker, name), given, named), outcome(getattr(slower, name), given, named)
        self.assertEqual(found, wanted, "%s of %s, %s" % (name, given, named))

    def test_closed(self):
        with Heap(64, extra_roots=3) as heap:
            calls = calls_of(heap)
        for name, call in calls.items():
            with self.assertRaises(gcflip.Closed, msg=name):
                call(*RIGHT[name])

    def test_a_call_within_a_call(self):
        with Heap(64, extra_roots=3) as heap:
            for name, call in calls_of(heap).items():
                with self.assertRaises(gcflip.Reentered, msg=name):
                    heap._turn.take(lambda: call(*RIGHT[name]))

    def test_another_thread_waits(self):
        with Heap(4096, 2, extra_roots=3) as heap:
            for name, call in calls_of(heap).items():
                prepare(heap)
                inside, go, ended = threading.Event(), threading.Event(), threading.Event()
                first = threading.Thread(target=lambda: heap._turn.take(lambda: (inside.set(), go.wait(10))))
                second = threading.Thread(target=lambda: (call(*RIGHT[name]), ended.set()))
                first.start()
                inside.wait(10)
                second.start()
                self.assertFalse(ended.wait(0.02), name)
                go.set()
                second.join(10)
                first.join(10)
                self.assertTrue(ended.is_set(), name)

    def test_a_close_is_a_call(self):
        """While a heap is freed, the extension makes no call on it."""
        heap, seen = Heap(64), []

        class Library:
            @staticmethod
            def gcflip_heap_close(_handle):
                seen.append(heap._turn.busy)

        before, turns.LIBRARY = turns.LIBRARY, Library
        try:
            turns._close(heap._handle, heap._turn, -1)
        finally:
            turns.LIBRARY = before
        self.assertEqual((seen, heap._turn.busy), ([True], False))
        heap.close()

    def test_no_call_keeps_memory(self):
        """Makes each call 500 times, with right and with wrong arguments: none keeps an object of Python, of which the least has more than 20 bytes."""
        tracemalloc.start()
        self.addCleanup(tracemalloc.stop)
        with Heap(1 << 20, 2, extra_roots=3) as heap:
            for name, call in calls_of(heap).items():
                for given, named in ((RIGHT[name], {}), ([], {"wrong": 1}), ([1 << 64] * len(RIGHT[name]), {})):
                    prepare(heap)
                    heap.mutator(0).put(own(1), 2, own(0))
                    self.assertLess(self.kept(lambda: outcome(call, given, named)), 10000, "%s of %s, %s" % (name, given, named))

    def kept(self, act):
        """Returns how many bytes more Python has after 500 acts than after one."""
        act()
        gc.collect()
        before = tracemalloc.get_traced_memory()[0]
        for _ in range(500):
            act()
        gc.collect()
        return tracemalloc.get_traced_memory()[0] - before

    def test_a_caller_is_bound_once(self):
        with Heap(64) as heap:
            with self.assertRaises(RuntimeError):
                heap._bind(heap._handle, 0, heap._turn, 0)
            with self.assertRaises(TypeError):
                object.__new__(type(heap))._bind(heap._handle, 0, object(), 0)
            with self.assertRaises(AttributeError):
                object.__new__(type(heap)).look(0)


if __name__ == "__main__":
    unittest.main()
