"""Policies: when a collection begins, and how many steps are due before the program allocates its next words.

A policy reads the heap's counts, what the program did since the call before, and the room that its next words leave. What a call does not perform, it owes.
"""


def of_heap(part):
    """Begins where this part of the heap is in use."""
    return lambda heap: part * heap.size


def of_room(part):
    """Begins where this part of the room that the last flip left is used up."""
    return lambda heap: heap.left + part * (heap.size - heap.left)


def grown(factor, least):
    """Begins where the words in use are so many hundredths of those that the last flip left, but at least `least`, and at the latest where half of the
    room is used up. This is the library's rule."""
    return lambda heap: min(max(least, factor * heap.left // 100), (heap.left + heap.size) // 2)


def late(heap):
    """Begins where the room is twice what the last flip left, but at three quarters of the heap at the latest, and not before half of the room is used up. With
    two steps for each word, as many words as were left pay for these and for what comes meanwhile. The first collection begins where half of the heap is in
    use, since nothing is known of what lives."""
    half = (heap.left + heap.size) // 2
    return half if heap.left == 1 else max(half, min(heap.size * 3 // 4, heap.size - 2 * heap.left))


class Constant:
    """So many steps for each word and each entry."""

    def __init__(self, beginning, rate):
        self.beginning, self.rate = beginning, rate

    def due(self, _heap, spent, _room):
        return self.rate * spent.both()


class WorkOverRoom:
    """The steps left over the room, rounded down, and a floor: as many steps for each word and each entry as end the collection before the room does.
    The library's floor is 2: one step for what the word itself adds, and one because the quotient is rounded down."""

    def __init__(self, beginning, floor):
        self.beginning, self.floor = beginning, floor

    def due(self, heap, spent, room):
        return (self.floor + int(heap.steps_left() / room)) * spent.both()


class Guarded:
    """A constant rate, as long as the steps left are at most so many times the room. Else the room decides: one step for what a word adds, and the steps
    left over the room, rounded up. So the steps left stay at most so many times the room."""

    def __init__(self, beginning, rate, most):
        self.beginning, self.rate, self.most = beginning, rate, most

    def due(self, heap, spent, room):
        left = heap.steps_left()
        rate = self.rate if left <= self.most * room else max(self.rate, 1 - int(-left // room))
        return rate * spent.both()


class ShareOfTime:
    """The schedule of the Metronome: the program has a fixed share of the time while a collection is open, however much it allocates."""

    def __init__(self, beginning, share, step):
        self.beginning, self.share, self.step = beginning, share, step

    def due(self, _heap, spent, _room):
        return spent.own * (1 - self.share) / self.share / self.step


def policies(step):
    """Returns the policies that tools/pace_model compares, by name. A step takes so many instructions."""
    half = of_room(0.5)
    found = {"default: factor 200, 2 + work over room": WorkOverRoom(grown(200, 65536), 2),
             "half of the room, 2 + work over room": WorkOverRoom(half, 2),
             "half of the room, 1 + work over room": WorkOverRoom(half, 1),
             "3/4 of the room, 2 + work over room": WorkOverRoom(of_room(0.75), 2),
             "3/4 of the heap, rate 3": Constant(of_heap(0.75), 3)}
    for part, name in ((0.5, "half"), (0.25, "a quarter"), (0.0, "none")):
        for rate in (1, 1.5, 2, 3, 6) if part == 0.5 else (2,):
            found["%s of the room, rate %g" % (name, rate)] = Constant(of_room(part), rate)
    for name, beginning, rate, most in (("half", half, 2, 4), ("half", half, 2, 10), ("half", half, 3, 10), ("2/3", of_room(2 / 3), 2, 10)):
        found["%s of the room, rate %d, guard %d" % (name, rate, most)] = Guarded(beginning, rate, most)
    for rate in (2, 3):
        found["late, rate %d, guard 10" % rate] = Guarded(late, rate, 10)
    for share in (0.1, 0.2, 0.3):
        found["half of the room, %g of the time" % share] = ShareOfTime(half, share, step)
    return found
