"""A tour of the package gcflip: a railway line is changed while the collector copies it.

Run it with the package on the path (bindings/python/README.md). Each line that it prints says what happened; railway.output has all of them.
"""
from gcflip import Heap, NotReady, Refused, Step, check, own, shared

# An object has a kind, 0 to 255, and fields, which hold nil, numbers, or references. A station has two fields.
STATION = 1
NAME, NEXT = 0, 1

# A name is a raw object: its one field is a plain number, here up to seven bytes of text. It is never treated as a reference.
TEXT = 2

# Python never holds a reference. Values are in slots, and an object that no slot reaches is garbage. All mutators share LINE.
LINE = shared(0)
STATION_SLOT, NAME_SLOT, NUMBER_SLOT, REST = own(0), own(1), own(2), own(3)


def make_station(mutator, name):
    """Puts a new station into STATION_SLOT."""
    mutator.new_raw(NAME_SLOT, TEXT, length=1)
    mutator.set_number(NUMBER_SLOT, int.from_bytes(name.encode(), "little"))
    mutator.put(NAME_SLOT, 0, NUMBER_SLOT)
    mutator.new(STATION_SLOT, STATION, length=2)
    mutator.put(STATION_SLOT, NAME, NAME_SLOT)


def forget(mutator):
    """Clears the mutator's own slots, so that only the line itself is reachable."""
    for slot in (STATION_SLOT, NAME_SLOT, NUMBER_SLOT, REST):
        mutator.set_nil(slot)


def stations(mutator):
    """Reads the names on the line, from the first station to the last."""
    names = []
    mutator.copy(STATION_SLOT, LINE)
    while mutator.look(STATION_SLOT) is not None:
        mutator.get(NAME_SLOT, STATION_SLOT, NAME)
        number = mutator.get(NUMBER_SLOT, NAME_SLOT, 0)
        names.append(number.to_bytes(7, "little").rstrip(b"\0").decode())
        mutator.get(STATION_SLOT, STATION_SLOT, NEXT)
    forget(mutator)
    return names


def pairs_of(new_words):
    """Reads the pairs of a collection from its new space. The word after a header is the link, which is the original's address."""
    pairs, at = [], 1
    while at < len(new_words):
        pairs.append((new_words[at + 1], at))
        at += 2 + new_words[at] % 65536
    return pairs


def build(mutator):
    """Builds the line Kiel, Bonn, Ulm from its end."""
    for name in ("Ulm", "Bonn", "Kiel"):
        make_station(mutator, name)
        mutator.put(STATION_SLOT, NEXT, LINE)
        mutator.copy(LINE, STATION_SLOT)
    forget(mutator)


def close_bonn(mutator):
    """Makes the third station follow the first. The second one becomes garbage, and so does its name."""
    mutator.get(STATION_SLOT, LINE, NEXT)
    mutator.get(REST, STATION_SLOT, NEXT)
    mutator.put(LINE, NEXT, REST)
    forget(mutator)


def open_hof(mutator):
    """Puts a new station after the first one."""
    make_station(mutator, "Hof")
    mutator.get(REST, LINE, NEXT)
    mutator.put(STATION_SLOT, NEXT, REST)
    mutator.put(LINE, NEXT, STATION_SLOT)
    forget(mutator)


def scan_all(heap):
    """Scans until nothing is left, and returns what each step did."""
    steps = [heap.scan()]
    while steps[-1] is not Step.CLEAN:
        steps.append(heap.scan())
    return ", ".join(step.value for step in steps)


def main():
    with Heap(64) as heap:
        mutator = heap.mutator(0)
        build(mutator)
        print("The line is", *stations(mutator))
        close_bonn(mutator)
        print("Bonn is closed:", *stations(mutator))
        print("Words in use:", heap.counts().end)

        print("\nThe collection begins:", heap.begin().value)
        print("The line's first station gets a replica:", heap.roots().value)
        print("All roots have replicas:", heap.roots().value)
        print("Kiel's name is scanned, and copied:", heap.scan().value)
        print("Kiel's next station is scanned, and Ulm is copied:", heap.scan().value)

        open_hof(mutator)
        print("\nMeanwhile Hof is opened:", *stations(mutator))
        print("Writes in the mutation log:", heap.log_length(0))
        print("Everything is scanned:", scan_all(heap))
        try:
            heap.flip()
        except NotReady as error:
            print("The flip has to wait for the log:", error.reply)

        print("\nThe log is applied:", *[heap.apply(0).value for _ in range(heap.log_length(0))])
        print("The replica of Hof is scanned:", scan_all(heap))
        old, pairs = heap.image(), pairs_of(heap.new_words())
        print("The flip has so many pairs:", heap.flip())
        print("In the new space the line is", *stations(mutator))
        print("Words in use:", heap.counts().end)

        print("\nOur own check of that flip says yes, with pairs:", check(old, heap.image(), pairs))
        new = heap.image()
        new.words[pairs[4][1] + 2 + NEXT] = 0
        try:
            check(old, new, pairs)
        except Refused as error:
            print("And if a collector had lost Hof's next station:", error)


if __name__ == "__main__":
    main()
