#!/usr/bin/env python3
"""Checks a collection of the JVM by two heap dumps: certify.py BEFORE AFTER CLASS [--self-test FLIPS]

The roots are the static fields of the classes whose names begin with CLASS. What they reach becomes two snapshots, whose pairs are inferred, so no
collector needs to say where it moved what. Prints 'yes N', or the refusal in words of Java. The status is 0 for a yes and 1 for a refusal. --self-test
flips so many bits of the second dump, one at a time, exchanges classes of objects, and prints what was not refused.

The referent of a java.lang.ref.Reference is weak. If it is null after the collection, it counts as null before it, unless the object that it
referred to has a replica, which is refused. If not, it counts as a reference in both dumps. The other fields of that class are the
collector's own, and are not read. Needs the package of bindings/python; GCFLIP_LIBRARY may name the library.
"""
import argparse
import os
import random
import struct
import sys
import time

sys.dont_write_bytecode = True
HERE = os.path.dirname(os.path.abspath(__file__))
sys.path.insert(0, os.path.join(HERE, "..", "..", "bindings", "python"))

import gcflip  # noqa: E402

from hprof import COLLECTOR, INSTANCE, NUMBERS, OBJECTS, REFERENCE, SIZES, WEAK, Dump  # noqa: E402

# The kinds of objects. An array of numbers has the kind of its type, from FIRST_NUMBERS on.
INSTANCES, REFERENCES, FIRST_NUMBERS = 1, 2, 16
KINDS = {INSTANCES: "instance", REFERENCES: "array of references"}
MOST = (1 << 64) - 1


class View:
    """What the roots of a dump reach, in a snapshot. `read` has the address of each object, and `weak` the target of each weak reference by that of its
    object."""

    def __init__(self, dump, prefix, class_numbers, snapshot):
        self.dump, self.snapshot, self.class_numbers = dump, snapshot, class_numbers
        self.read, self.weak, self.root_names = [], {}, []
        for number in sorted(dump.classes, key=dump.names.get):
            if dump.names[number].startswith(prefix):
                for name, kind, value in dump.classes[number].statics:
                    if kind == REFERENCE and not name.startswith("<"):
                        snapshot.root(self.word(value))
                        self.root_names.append("%s.%s" % (dump.names[number], name))
        while True:
            address = snapshot.next(1, MOST, 1)
            if address == 0:
                break
            if address in dump.where:
                self.place(address)

    def class_number(self, number):
        return self.class_numbers.setdefault(self.dump.names[number], len(self.class_numbers))

    def word(self, address):
        """Returns the word of a reference. A class does not move; one to no object of the dump stays doubtful."""
        if address in self.dump.classes:
            return self.snapshot.fixed(self.class_number(address))
        return self.snapshot.reference(address)

    def place(self, address):
        """Places an object, and sets its fields."""
        data, read = self.dump.data, struct.unpack_from
        tag, record = self.dump.where[address]
        self.read.append(address)
        if tag == INSTANCE:
            self.place_instance(address, record)
        elif tag == OBJECTS:
            count, of_class = read(">IQ", data, record + 12)
            self.place_array(address, of_class, read(">%dQ" % count, data, record + 24))
        else:
            count, kind = read(">IB", data, record + 12)
            self.snapshot.bytes(address, FIRST_NUMBERS + kind, data[record + 17:record + 17 + count * SIZES[kind]])

    def place_instance(self, address, record):
        """The class is a field in front of the others. Each is set as a constant first, and then the references are set again."""
        of_class = struct.unpack_from(">Q", self.dump.data, record + 12)[0]
        layout = self.dump.layout(of_class)
        values = layout.values.unpack_from(self.dump.data, record + 24)
        place = self.snapshot.object(address, INSTANCES, 1 + len(values))
        self.snapshot.set_row(place, 0, (self.class_number(of_class), *values), gcflip.Words.CONSTANTS)
        for field, kind, owner in layout.references:
            value = values[field]
            if owner == WEAK:
                self.weak[address] = value
            if owner == WEAK and value not in self.dump.classes:
                self.snapshot.set_weak(place, 1 + field, value)
            else:
                self.snapshot.set(place, 1 + field, self.snapshot.constant(0) if owner == COLLECTOR else self.word(value))

    def place_array(self, address, of_class, values):
        place = self.snapshot.object(address, REFERENCES, 1 + len(values))
        self.snapshot.set(place, 0, self.snapshot.constant(self.class_number(of_class)))
        if self.dump.classes.keys().isdisjoint(values):
            self.snapshot.set_row(place, 1, values, gcflip.Words.REFERENCES)
            return
        for i, value in enumerate(values):
            self.snapshot.set(place, 1 + i, self.word(value))

    def field_name(self, address, kind, field):
        """Names a field of an instance by its class."""
        tag, record = self.dump.where.get(address, (0, 0))
        if tag != INSTANCE:
            return None
        of_class = struct.unpack_from(">Q", self.dump.data, record + 12)[0]
        names = ["class", *(name for name, _, _ in self.dump.layout(of_class).fields)]
        return "%s of %s" % (names[field], self.dump.names[of_class])


class Comparison:
    """A collection of which both dumps are read, and its verdict. The second dump can be read again."""

    def __init__(self, before, after, prefix, numbers):
        self.collection, self.after, self.prefix, self.numbers = gcflip.Collection(), after, prefix, numbers
        self.old = View(before, prefix, numbers, self.collection.before)
        self.read_again()

    def read_again(self):
        self.collection.after.clear()
        self.new = View(self.after, self.prefix, self.numbers, self.collection.after)

    def is_refused(self):
        try:
            self.collection.infer()
        except (gcflip.Refused, gcflip.Faulty):
            return True
        return False

    def lines(self):
        names = gcflip.Names(root=lambda root: "the static field %s" % self.old.root_names[root], kind=KINDS.get, field=self.old.field_name)
        return self.collection.explain(names)

    def told(self):
        """Says what was compared. A weak reference counts if its object has a replica."""
        weak = [target for address, target in self.new.weak.items() if self.collection.has_replica(address)]
        return ("%d of %d objects reached, %d addresses differ, %d roots, %d weak references, %d of them null, where %d were before"
                % (len(self.old.read), len(self.old.dump.where), len(set(self.old.read) - set(self.new.read)), len(self.old.root_names), len(weak),
                   weak.count(0), list(self.old.weak.values()).count(0)))


def bits_of(view):
    """Yields where the bytes of each object that was reached are in the dump, what they are, and the reason for which some make no
    difference."""
    for address in view.read:
        tag, record = view.dump.where[address]
        if tag == INSTANCE:
            of_class = struct.unpack_from(">Q", view.dump.data, record + 12)[0]
            layout = view.dump.layout(of_class)
            for (name, kind, owner), start in zip(layout.fields, layout.starts):
                yield record + 24 + start, SIZES[kind], (of_class, name, start), "a field of the collector's own" if owner == COLLECTOR else None
        else:
            count, kind = struct.unpack_from(">IB", view.dump.data, record + 12)
            yield record + 15, 1, (tag, count), None  # the last byte of the length
            yield record + (17 if tag == NUMBERS else 24), count * (SIZES[kind] if tag == NUMBERS else 8), (tag, count > 65535, "elements"), None


def classes_of(view):
    """Yields where the class of an object is in the dump, and another class whose fields have the same kinds."""
    found = {}
    for address in view.read:
        tag, record = view.dump.where[address]
        if tag == INSTANCE:
            of_class = struct.unpack_from(">Q", view.dump.data, record + 12)[0]
            kinds = tuple((kind, owner) for _, kind, owner in view.dump.layout(of_class).fields)
            found.setdefault(kinds, {}).setdefault(of_class, record + 12)
    for classes in found.values():
        numbers, places = list(classes), list(classes.values())
        yield from [(place, struct.pack(">Q", numbers[i - 1])) for i, place in enumerate(places) if len(places) > 1]


class SelfTest:
    """Changes the second dump, asks again, and puts it right."""

    def __init__(self, compared):
        self.compared, self.data = compared, compared.after.data

    def is_refused(self, at, new):
        """Returns whether the dump is refused, or cannot be read, with these bytes."""
        old = self.data[at:at + len(new)]
        self.data[at:at + len(new)] = new
        try:
            self.compared.read_again()
            return self.compared.is_refused()
        except (KeyError, struct.error):
            return True
        finally:
            self.data[at:at + len(new)] = old

    def run(self, flips):
        """Flips bits of each field of each class in turn, in some object: the first bit, then the last one, then any. Then exchanges classes.
        Returns whether each change that was spared has a reason."""
        choose, refused, reasons, pieces = random.Random(1), 0, {}, {}
        for at, size, what, reason in bits_of(self.compared.new):
            if size:
                pieces.setdefault(what, []).append((at, size, reason))
        order = list(pieces.values())
        choose.shuffle(order)
        for i in range(flips):
            at, size, reason = choose.choice(order[i % len(order)])
            bit = (0, 8 * size - 1, choose.randrange(8 * size))[min(i // len(order), 2)]
            at += bit // 8
            if self.is_refused(at, bytes([self.data[at] ^ 128 >> bit % 8])):
                refused += 1
            else:
                reasons[reason] = reasons.get(reason, 0) + 1
        self.compared.read_again()
        exchanges = list(classes_of(self.compared.new))
        spared = sum(not self.is_refused(at, new) for at, new in exchanges)
        for reason, count in reasons.items():
            print("spared %d: %s" % (count, reason or "for no reason"))
        print("%d fields and lengths" % len(order))
        print("flipped %d bits: refused %d, explained %d, unexplained %d"
              % (flips, refused, sum(count for reason, count in reasons.items() if reason), reasons.get(None, 0)))
        print("exchanged %d classes: spared %d" % (len(exchanges), spared))
        return None not in reasons and spared == 0


def main():
    parser = argparse.ArgumentParser(description=__doc__, formatter_class=argparse.RawDescriptionHelpFormatter)
    parser.add_argument("before")
    parser.add_argument("after")
    parser.add_argument("prefix", metavar="CLASS")
    parser.add_argument("--self-test", type=int, default=0, metavar="FLIPS")
    words = parser.parse_args()
    started = time.time()
    before, after = Dump(words.before), Dump(words.after)
    read = time.time()
    compared = Comparison(before, after, words.prefix, {})
    if words.self_test:
        return 0 if SelfTest(compared).run(words.self_test) else 1
    written = time.time()
    is_refused = compared.is_refused()
    ended = time.time()
    print(compared.lines(), end="")
    print("%s; %.1f s for reading, %.1f for the snapshots, %.3f for pairs and check" % (compared.told(), read - started, written - read, ended - written))
    return 1 if is_refused else 0


if __name__ == "__main__":
    sys.exit(main())
