"""Makes random calls on roots by their places, which are a part of those of random_calls."""
from .heap_model import Place

OUT_OF_RANGE = "out of range"


class CallsByPlaces:
    """The part of `Calls` that makes commands on roots by their places. It uses the other part's model, choices and lists."""

    def place(self):
        """Returns the place of a root, mostly of one that the heap has."""
        count = len(self.model.roots)
        wrong = [count, count + 1, count + 256, 1 << 16, 1 << 31, (1 << 32) - 1]
        return self.chance.choice([0, 15, 16, 31, count - 1, self.chance.randrange(count), self.chance.randrange(count)] if self.chance.random() < 0.95 else wrong)

    def filled_place(self):
        """Returns a place, mostly of a root with a reference."""
        filled = [p for p, word in enumerate(self.model.roots) if word > 0 and word % 2 == 0]
        return self.chance.choice(filled) if filled and self.chance.random() < 0.9 else self.place()

    def place_field(self, s):
        """Returns a field's number, mostly one that the object of the root at this place has."""
        wide = self.chance.choice([65535, 65536, 65537, 1 << 31, (1 << 32) - 1])
        return wide if s >= len(self.model.roots) or self.chance.random() < 0.05 else self.field(0, Place(s))

    def add_by_places(self, name, places, *numbers):
        """Adds a command on these roots, if they are there: `places` are those of the numbers that name one."""
        reply = getattr(self.model, name)(*numbers) if all(p < len(self.model.roots) for p in places) else OUT_OF_RANGE
        self.call([name, *numbers], reply)

    def add_place_new(self):
        d = self.place()
        self.add_by_places("place_new", [d], d, self.chance.choice([0, 1, 7, 255]), self.length())

    def add_place_raw(self):
        d = self.place()
        self.add_by_places("place_raw", [d], d, self.chance.choice([0, 1, 7, 255]), self.length())

    def add_place_pair(self):
        d, s, t = self.place(), self.place(), self.place()
        self.add_by_places("place_pair", [d, s, t], self.mutator(), d, self.chance.randrange(256), s, t)

    def add_place_new_from(self):
        d, fields = self.place(), [self.place() for _ in range(self.chance.choice([0, 1, 2, 3, 7, 30]))]
        self.add_by_places("place_new_from", [d, *fields], self.mutator(), d, self.chance.randrange(256), *fields)

    def add_place_new_with(self):
        d, fields, places = self.place(), [], []
        for _ in range(self.chance.choice([0, 1, 2, 3, 7, 30])):
            holds = self.chance.randrange(3)
            fields += [holds, self.place() if holds == 2 else self.number()]
            places += fields[-1:] if holds == 2 else []
        self.add_by_places("place_new_with", [d, *places], self.mutator(), d, self.chance.randrange(256), *fields)

    def range_of_fields(self, s, first):
        """Returns how many fields the object of the root at this place has from this one on, mostly, or fewer, or more."""
        at = self.model.target(0, Place(s)) if s < len(self.model.roots) else None
        room = max(0, self.model.space.length(at) - first) if at and first < 65535 else 2
        return self.chance.choice([0, 1, room, room, room + 1, self.chance.randrange(room + 1)])

    def add_place_fill(self):
        s, t = self.filled_place(), self.place()
        first = self.place_field(s)
        end = min(first + self.range_of_fields(s, first), (1 << 32) - 1)
        self.add_by_places("place_fill", [s, t], self.mutator(), s, first, end, t)

    def add_place_copy_fields(self):
        d, s = self.filled_place(), self.filled_place()
        if self.chance.random() < 0.3:
            s = d
        to, first = self.place_field(d), self.place_field(s)
        count = min(self.range_of_fields(d, to), self.range_of_fields(s, first)) if self.chance.random() < 0.8 else self.range_of_fields(d, to)
        self.add_by_places("place_copy_fields", [d, s], self.mutator(), d, to, s, first, count)

    def add_place_new_bytes(self):
        d, count = self.place(), self.chance.choice([0, 1, 6, 7, 8, 14, 15, self.chance.randrange(60)])
        text = [self.chance.choice([0, 1, 127, 128, 255]) for _ in range(count)]
        self.add_by_places("place_new_bytes", [d], self.mutator(), d, self.chance.randrange(256), *text)

    def text_place(self):
        """Returns a place, mostly of a root with a text."""
        texts = [p for p in range(len(self.model.roots)) if self.model.text(p) is not None]
        return self.chance.choice(texts) if texts and self.chance.random() < 0.9 else self.place()

    def add_place_join(self):
        s, t = self.text_place(), self.text_place()
        d = self.chance.choice([s, t]) if self.chance.random() < 0.5 else self.place()
        self.add_by_places("place_join", [d, s, t], self.mutator(), d, self.chance.randrange(256), s, t)

    def add_place_part(self):
        s = self.text_place()
        d = s if self.chance.random() < 0.5 else self.place()
        length = len((self.model.text(s) if s < len(self.model.roots) else None) or b"")
        at = self.chance.choice([0, length, self.chance.randrange(length + 1), self.chance.randrange(length + 1), (1 << 32) - 1])
        left = max(0, length - at)
        count = self.chance.choice([0, left, left + 1, self.chance.randrange(left + 1), (1 << 32) - 1])
        self.add_by_places("place_part", [d, s], self.mutator(), d, self.chance.randrange(256), s, at, count)

    def add_place_write(self):
        s = self.text_place()
        length = len((self.model.text(s) if s < len(self.model.roots) else None) or b"")
        at = self.chance.choice([0, length, self.chance.randrange(length + 1), self.chance.randrange(length + 1), (1 << 32) - 1])
        left = max(0, length - at)
        count = self.chance.choice([0, left, left + 1, self.chance.randrange(left + 1), self.chance.randrange(left + 1)])
        self.add_by_places("place_write", [s], self.mutator(), s, at, *(self.chance.choice([0, 1, 127, 128, 255]) for _ in range(count)))

    def add_place_text(self):
        s = self.text_place()
        self.add_by_places("place_text", [s], s)

    def vector_place(self):
        """Returns a place, mostly of a root with a vector that has words."""
        vectors = [p for p in range(len(self.model.roots)) if self.model.vector(p)]
        return self.chance.choice(vectors) if vectors and self.chance.random() < 0.9 else self.place()

    def add_place_write_words(self):
        s = self.vector_place()
        length = len((self.model.vector(s) if s < len(self.model.roots) else None) or [])
        at = self.chance.choice([0, length, self.chance.randrange(length + 1), self.chance.randrange(length + 1), (1 << 32) - 1])
        left = max(0, length - at)
        count = self.chance.choice([0, left, left + 1, self.chance.randrange(left + 1), self.chance.randrange(left + 1)])
        numbers = (0, 1, (1 << 63) - 1, 1 << 63, (1 << 64) - 1, self.chance.randrange(1 << 64))
        self.add_by_places("place_write_words", [s], self.mutator(), s, at, *(self.chance.choice(numbers) for _ in range(count)))

    def add_place_words(self):
        s = self.vector_place()
        self.add_by_places("place_words", [s], s)

    def raw_range(self):
        """Returns a place, mostly of a root with a raw object, a field, and how many of its fields to take from there on."""
        s = self.vector_place()
        length = len((self.model.raw(s) if s < len(self.model.roots) else None) or [])
        first = self.chance.choice([0, length, self.chance.randrange(length + 1), self.chance.randrange(length + 1), 65536, (1 << 32) - 1])
        left = max(0, length - first)
        return s, first, min(300, self.chance.choice([0, left, left + 1, self.chance.randrange(left + 1), self.chance.randrange(left + 1)]))

    def add_place_raw_write(self):
        s, first, count = self.raw_range()
        most = (1 << 64) - 1 if self.chance.random() < 0.1 else (1 << 63) - 1
        self.add_by_places("place_raw_write", [s], self.mutator(), s, first, *(self.chance.choice((0, most, self.chance.randrange(1 << 63))) for _ in range(count)))

    def add_place_raw_read(self):
        s, first, count = self.raw_range()
        self.add_by_places("place_raw_read", [s], s, first, count)

    def add_place_order(self):
        s, t = self.text_place(), self.text_place()
        self.add_by_places("place_order", [s, t], s, t)

    def add_place_put_sure(self):
        s, t = self.filled_place(), self.place()
        self.add_by_places("place_put_sure", [s, t], self.mutator(), s, self.place_field(s), t)

    def range_of_roots(self):
        """Returns a place and how many roots there are from there on: as many as the heap has, mostly, or more."""
        first = self.place()
        room = max(0, len(self.model.roots) - first)
        return first, self.chance.choice([0, 1, 2, room, room + 1, self.chance.randrange(room + 1)] if room < 65000 else [0, 1, 2, 30, 65536])

    def add_place_gather(self):
        d, (first, count), m, kind = self.place(), self.range_of_roots(), self.mutator(), self.chance.randrange(256)
        self.add_by_places("place_gather", [d, first + count - 1 if count else 0] if first + count <= len(self.model.roots) else [1 << 32], m, d, kind, first, count)

    def add_place_spread(self):
        s, (first, count) = self.filled_place(), self.range_of_roots()
        at = self.model.target(0, Place(s)) if s < len(self.model.roots) else None
        if at and self.chance.random() < 0.6:
            count = self.model.space.length(at) + self.chance.choice([0, 0, 0, 1])
        fits = first + count <= len(self.model.roots) and not first <= s < first + count
        self.add_by_places("place_spread", [s] if fits else [1 << 32], first, s, count)

    def add_place_num(self):
        d = self.place()
        self.add_by_places("place_num", [d], d, self.number())

    def add_place_nil(self):
        d = self.place()
        self.add_by_places("place_nil", [d], d)

    def add_place_clear(self):
        first = self.place()
        end = first + self.chance.randrange(5) if self.chance.random() < 0.9 else self.place()
        self.add_by_places("place_clear", [] if first <= end <= len(self.model.roots) else [1 << 32], first, end)

    def add_place_copy(self):
        d, s = self.place(), self.filled_place()
        self.add_by_places("place_copy", [d, s], d, s)

    def add_place_get(self):
        d, s = self.place(), self.filled_place()
        self.add_by_places("place_get", [d, s], d, s, self.place_field(s))

    def add_place_peek(self):
        s = self.filled_place()
        self.add_by_places("place_peek", [s], s, self.place_field(s))

    def add_place_put(self):
        s, t = self.filled_place(), self.place()
        self.add_by_places("place_put", [s, t], self.mutator(), s, self.place_field(s), t)

    def add_place_put_number(self):
        s = self.filled_place()
        self.add_by_places("place_put_number", [s], self.mutator(), s, self.place_field(s), self.number())

    def add_place_put_nil(self):
        s = self.filled_place()
        self.add_by_places("place_put_nil", [s], self.mutator(), s, self.place_field(s))

    def add_place_refer(self):
        d = self.place()
        self.add_by_places("place_refer", [d], d, self.any_address())

    def add_place_address(self):
        s = self.filled_place()
        self.add_by_places("place_address", [s], s)

    def add_place_same(self):
        s, t = self.filled_place(), self.filled_place()
        self.add_by_places("place_same", [s, t], s, t)

    def add_place_look(self):
        s = self.filled_place()
        self.add_by_places("place_look", [s], s)
