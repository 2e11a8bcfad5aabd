"""A model of the heap, its mutators and its collector, written from docs/FORMATS.md and the headers' comments alone.

It keeps the words themselves: a list of words for each space, and a list of root words. It is slow, and says no more than the documents do.
"""

OWN = SHARED = 16
MOST_BYTES = 458745
FLAG, RAW_FLAG = 1 << 24, 3 << 24


def header(is_raw, kind, length):
    return (RAW_FLAG if is_raw else FLAG) + (kind << 16) + length


class Space:
    """Words from 0 on: word 0 is 0, and objects follow one another: a header, a link, and the fields."""

    def __init__(self, size):
        self.size = size
        self.words = [0]

    def has_room(self, length):
        return len(self.words) + length + 2 <= self.size

    def place(self, head, link, fields):
        """Places an object at the end, and returns its address."""
        at = len(self.words)
        self.words += [head, link, *fields]
        return at

    def is_raw(self, at):
        return self.words[at] >= RAW_FLAG

    def kind(self, at):
        return (self.words[at] >> 16) & 255

    def length(self, at):
        return self.words[at] & 65535

    def fields(self, at):
        return self.words[at + 2:at + 2 + self.length(at)]

    def starts(self):
        """Returns the addresses of all objects."""
        found, at = [], 1
        while at < len(self.words):
            found.append(at)
            at += self.length(at) + 2
        return found


class Place(int):
    """The place of a root in the list of roots, where a command may have a slot of its mutator."""


class Looks:
    """Which extra roots the open collection has looked at, and which of them a search has to look at."""

    def __init__(self):
        # Those below `front` were looked at, and those of `again` were written since. Those from `used` on are nil. Those from `front` on have no word of an
        # earlier collection from `stale` on.
        self.front, self.again, self.used, self.stale = 0, set(), 0, 0

    def cleared(self, k):
        if k < self.front:
            self.again.add(k)

    def written(self, k):
        self.cleared(k)
        self.used = max(self.used, k + 1)

    def begin(self):
        self.front, self.again, self.stale = 0, set(), max(self.stale, self.front)

    def flipped(self):
        self.front, self.stale = 0, self.used

    def next(self):
        """Returns the first extra root to look at, or None."""
        if self.again:
            return min(self.again)
        return self.front if self.front < max(self.used, self.stale) else None

    def looked(self, k, words):
        """Notes a look that found nothing to copy. If the root is nil, and the last one in use too, that is not in use any more."""
        self.again.discard(k)
        self.front = max(self.front, k + 1)
        self.trim(words, 1 if words[k] == 0 else 0)

    def look_on(self, words, copied, most):
        """Looks at extra roots in a row from `front` on, if none was written since, up to one that has something to copy, and at no more than `most`, if a number
        is given. As many of the last ones in use, if they are nil, are not in use any more. Returns how many they are."""
        ahead = max(0, max(self.used, self.stale) - self.front) if not self.again else 0
        count = ahead if most is None else min(ahead, most)
        row = next((n for n in range(count) if not copied(words[self.front + n])), count)
        self.front += row
        self.trim(words, row)
        return row

    def trim(self, words, most):
        """Notes that the last extra roots in use are not in use any more, if they are nil: at most so many."""
        for _ in range(most):
            if self.used > 0 and words[self.used - 1] == 0:
                self.used -= 1

    def left(self, is_open):
        if not is_open:
            return max(self.used, self.stale, self.front)
        return len(self.again) + max(0, max(self.used, self.stale) - self.front)


def units_of(looks):
    """Returns the units of work that so many looks make up, rounded up."""
    return (looks + 31) // 32


class NoRoom(Exception):
    """The new space has no room for a replica."""


class Model:
    """A heap. Commands and steps return their reply as a line of a trace's replies."""

    def __init__(self, size, mutators, extra_roots=0):
        self.space = Space(size)
        self.mutators, self.extra_roots = mutators, extra_roots
        self.roots = [0] * (SHARED + OWN * mutators + extra_roots)
        self.looks = Looks()
        self.new = None
        self.logs = []
        self.scan_place = self.scan_field = 0
        self.flips = []
        # Where the last flip moved each object of its old space, or 0 for one that died; None if a collection has begun since.
        self.former = None
        # The numbers of a pace that the program chooses, and those that it remembers.
        self.factor, self.rate, self.least, self.words = 200, 0, 65536, 1024
        self.left, self.end, self.logged, self.owed, self.looks_then = 1, 1, 0, 0, 0
        # Whether looks at extra roots count as work.
        self.counts_looks = True

    # ---- slots: a number below 16 is the mutator's own, and one from 16 to 31 is shared. A place stands for its root

    def root(self, m, slot):
        if isinstance(slot, Place):
            return slot
        return SHARED + OWN * m + slot if slot < OWN else slot - OWN

    def value(self, m, slot):
        return self.roots[self.root(m, slot)]

    def set(self, m, slot, word):
        self.roots[self.root(m, slot)] = word

    def target(self, m, slot):
        """Returns the address that the slot refers to, or None."""
        word = self.value(m, slot)
        return word // 2 if word > 0 and word % 2 == 0 else None

    def seen(self, word):
        """Returns what a mutator sees of a value."""
        if word == 0:
            return "nil"
        if word % 2 == 1:
            return "num %d" % (word // 2)
        at = word // 2
        return "%s %d %d" % ("raw" if self.space.is_raw(at) else "obj", self.space.kind(at), self.space.length(at))

    # ---- commands

    def make(self, m, is_raw, d, kind, length):
        if not self.space.has_room(length):
            return "full"
        self.set(m, d, 2 * self.space.place(header(is_raw, kind, length), 0, [0] * length))
        return "made"

    def num(self, m, d, n):
        self.set(m, d, 2 * n + 1)
        return "done"

    def nil(self, m, d):
        self.set(m, d, 0)
        return "done"

    def move(self, m, d, s):
        self.set(m, d, self.value(m, s))
        return "done"

    def object_at(self, at):
        return "saw " + (self.seen(2 * at) if at in self.space.starts() else "nil")

    def refer(self, m, d, at):
        if at not in self.space.starts():
            return "no object"
        self.set(m, d, 2 * at)
        return "done"

    def get(self, m, d, s, i):
        at = self.target(m, s)
        if at is None:
            return "no object"
        if i >= self.space.length(at):
            return "no field"
        word = self.space.words[at + 2 + i]
        self.set(m, d, 2 * word + 1 if self.space.is_raw(at) else word)
        return "saw " + self.seen(self.value(m, d))

    def put(self, m, s, i, t):
        return self.write(m, s, i, self.value(m, t))

    def write(self, m, s, i, word):
        """Puts a value."""
        at = self.target(m, s)
        if at is None:
            return "no object"
        if i >= self.space.length(at):
            return "no field"
        if self.space.is_raw(at) and word % 2 == 0:
            return "no number"
        self.space.words[at + 2 + i] = word // 2 if self.space.is_raw(at) else word
        if self.new:
            self.logs[m].append((at, i))
        return "done"

    def same(self, m, s, t):
        return "yes" if self.value(m, s) == self.value(m, t) else "no"

    def look(self, m, s):
        return "saw " + self.seen(self.value(m, s))

    # ---- the same commands on roots by their places

    def written(self, place, reply):
        """Notes that a command with this reply wrote the root, unless it found no object, no field or no room. Returns the reply."""
        if place >= self.extra(0) and reply not in ("no object", "no field", "full"):
            self.looks.written(place - self.extra(0))
        return reply

    def place_new(self, d, kind, length):
        return self.written(d, self.make(0, False, Place(d), kind, length))

    def place_raw(self, d, kind, length):
        return self.written(d, self.make(0, True, Place(d), kind, length))

    def place_new_with(self, m, d, kind, *numbers):
        """`numbers` are two for each field: what it holds, and the number or the place."""
        reply = self.written(d, self.make(m, False, Place(d), kind, len(numbers) // 2))
        for i, (holds, value) in enumerate(zip(numbers[::2], numbers[1::2]) if reply == "made" else ()):
            assert holds == 0 or self.write(m, Place(d), i, 2 * value + 1 if holds == 1 else self.roots[value]) == "done"
        return reply

    def place_new_from(self, m, d, kind, *places):
        reply = self.written(d, self.make(m, False, Place(d), kind, len(places)))
        for i, p in enumerate(places if reply == "made" else ()):
            assert self.put(m, Place(d), i, Place(p)) == "done"
        return reply

    def place_pair(self, m, d, kind, s, t):
        return self.place_new_from(m, d, kind, s, t)

    def place_gather(self, m, d, kind, first, count):
        return self.place_new_from(m, d, kind, *range(first, first + count))

    def place_spread(self, first, s, count):
        at = self.target(0, Place(s))
        if at is None:
            return "no object"
        if count > self.space.length(at):
            return "no field"
        for k in range(count):
            assert self.place_get(first + k, s, k).startswith("saw ")
        return "done"

    def place_num(self, d, n):
        return self.written(d, self.num(0, Place(d), n))

    def place_nil(self, d):
        if d >= self.extra(0):
            self.looks.cleared(d - self.extra(0))
        return self.nil(0, Place(d))

    def place_clear(self, first, end):
        for p in range(first, end):
            assert self.place_nil(p) == "done"
        return "done"

    def place_copy(self, d, s):
        return self.written(d, self.move(0, Place(d), Place(s)))

    def place_get(self, d, s, i):
        return self.written(d, self.get(0, Place(d), Place(s), i))

    def place_peek(self, s, i):
        at = self.target(0, Place(s))
        if at is None:
            return "no object"
        if i >= self.space.length(at):
            return "no field"
        word = self.space.words[at + 2 + i]
        return "saw " + self.seen(2 * word + 1 if self.space.is_raw(at) else word)

    def place_put(self, m, s, i, t):
        return self.put(m, Place(s), i, Place(t))

    def place_put_sure(self, m, s, i, t):
        return self.place_put(m, s, i, t)

    def place_fill(self, m, s, first, end, t):
        at, word = self.target(0, Place(s)), self.roots[t]
        if at is None:
            return "no object"
        if end > self.space.length(at):
            return "no field"
        if self.space.is_raw(at) and word % 2 == 0:
            return "no number"
        for i in range(first, end):
            assert self.write(m, Place(s), i, word) == "done"
        return "done"

    def place_copy_fields(self, m, d, to, s, first, count):
        target, source = self.target(0, Place(d)), self.target(0, Place(s))
        if not target or not source:
            return "no object"
        if to + count > self.space.length(target) or first + count > self.space.length(source):
            return "no field"
        is_raw, words = self.space.is_raw(source), self.space.fields(source)[first:first + count]
        if self.space.is_raw(target) and not is_raw and any(word % 2 == 0 for word in words):
            return "no number"
        for k in range(count):
            word = self.space.words[source + 2 + first + k]
            assert self.write(m, Place(d), to + k, 2 * word + 1 if is_raw else word) == "done"
        return "done"

    def text(self, s):
        """Returns the bytes of the text of the root at this place, or None if it refers to none."""
        at = self.target(0, Place(s))
        if at is None or not self.space.is_raw(at):
            return None
        words = self.space.fields(at)
        if words and not 1 <= words[-1] >> 56 <= 7:
            return None
        return b"".join((word % (1 << 56)).to_bytes(7, "little") for word in words)[:7 * (len(words) - 1) + (words[-1] >> 56)] if words else b""

    def new_text(self, m, d, kind, text):
        parts = [text[at:at + 7] for at in range(0, len(text), 7)]
        words = [int.from_bytes(part, "little") + (len(part) << 56 if part is parts[-1] else 0) for part in parts]
        reply = self.written(d, self.make(m, True, Place(d), kind, len(words)))
        for i, word in enumerate(words if reply == "made" else ()):
            assert self.write(m, Place(d), i, 2 * word + 1) == "done"
        return reply

    def place_new_bytes(self, m, d, kind, *text):
        return self.new_text(m, d, kind, bytes(text))

    def place_join(self, m, d, kind, s, t):
        one, other = self.text(s), self.text(t)
        if one is None or other is None:
            return "no object"
        return "out of range" if len(one + other) > MOST_BYTES else self.new_text(m, d, kind, one + other)

    def place_part(self, m, d, kind, s, at, count):
        text = self.text(s)
        if text is None or at + count > len(text):
            return "no object" if text is None else "no field"
        return self.new_text(m, d, kind, text[at:at + count])

    def place_write(self, m, s, at, *written):
        text = self.text(s)
        if text is None or at + len(written) > len(text):
            return "no object" if text is None else "no field"
        bytes_after = text[:at] + bytes(written) + text[at + len(written):]
        for i in sorted({k // 7 for k in range(at, at + len(written))}):
            part = bytes_after[7 * i:7 * i + 7]
            word = int.from_bytes(part, "little") + (len(part) << 56 if 7 * i + 7 >= len(text) else 0)
            assert self.write(m, Place(s), i, 2 * word + 1) == "done"
        return "done"

    def place_text(self, s):
        text = self.text(s)
        return "no object" if text is None else " ".join(["text", *map(str, text)])

    def vector(self, s):
        """Returns the words of the vector of the root at this place, or None if it refers to no raw object."""
        at = self.target(0, Place(s))
        if at is None or not self.space.is_raw(at):
            return None
        fields = self.space.fields(at)
        count = len(fields) - (len(fields) + 63) // 64
        return [fields[i] + ((fields[count + i // 63] >> i % 63 & 1) << 63) for i in range(count)]

    def raw(self, s):
        """Returns the numbers of the raw object of the root at this place, or None if it refers to none."""
        at = self.target(0, Place(s))
        return self.space.fields(at) if at is not None and self.space.is_raw(at) else None

    def place_raw_write(self, m, s, first, *written):
        numbers = self.raw(s)
        if numbers is None or first + len(written) > len(numbers):
            return "no object" if numbers is None else "no field"
        if any(number >> 63 for number in written):
            return "no number"
        for i, number in enumerate(written):
            assert self.write(m, Place(s), first + i, 2 * number + 1) == "done"
        return "done"

    def place_raw_read(self, s, first, count):
        numbers = self.raw(s)
        if numbers is None or first + count > len(numbers):
            return "no object" if numbers is None else "no field"
        return " ".join(["read", *map(str, numbers[first:first + count])])

    def place_write_words(self, m, s, at, *written):
        vector = self.vector(s)
        if vector is None or at + len(written) > len(vector):
            return "no object" if vector is None else "no field"
        changed = range(at, at + len(written))
        for i in changed:
            assert self.write(m, Place(s), i, 2 * (written[i - at] % (1 << 63)) + 1) == "done"
        for field in sorted({i // 63 for i in changed}):
            tops = self.space.fields(self.target(0, Place(s)))[len(vector) + field]
            for i in changed:
                if i // 63 == field:
                    tops = tops & ~(1 << i % 63) | written[i - at] >> 63 << i % 63
            assert self.write(m, Place(s), len(vector) + field, 2 * tops + 1) == "done"
        return "done"

    def place_words(self, s):
        vector = self.vector(s)
        return "no object" if vector is None else " ".join(["words", *map(str, vector)])

    def place_order(self, s, t):
        one, other = self.text(s), self.text(t)
        return "no object" if one is None or other is None else "order %d" % ((one > other) - (one < other))

    def field_at(self, at, i):
        if at not in self.space.starts():
            return "saw nil"
        if i >= self.space.length(at):
            return "no field"
        word = self.space.words[at + 2 + i]
        word = 2 * word + 1 if self.space.is_raw(at) else word
        return ("at %d, " % (word // 2) if word and word % 2 == 0 else "") + "saw " + self.seen(word)

    def place_put_number(self, m, s, i, n):
        return self.write(m, Place(s), i, 2 * n + 1)

    def place_put_nil(self, m, s, i):
        return self.write(m, Place(s), i, 0)

    def place_refer(self, d, at):
        return self.written(d, self.refer(0, Place(d), at))

    def place_address(self, s):
        at = self.target(0, Place(s))
        return "address %d" % at if at else "no object"

    def place_same(self, s, t):
        return self.same(0, Place(s), Place(t))

    def place_look(self, s):
        return self.look(0, Place(s))

    # ---- extra roots, behind those of the slots

    def extra(self, k):
        return SHARED + OWN * self.mutators + k

    def root_load(self, m, d, k):
        self.set(m, d, self.roots[self.extra(k)])
        return "done"

    def root_store(self, m, k, s):
        self.looks.written(k)
        self.roots[self.extra(k)] = self.value(m, s)
        return "done"

    def root_clear(self, first, end):
        for k in range(first, end):
            self.looks.cleared(k)
        self.roots[self.extra(first):self.extra(end)] = [0] * (end - first)
        return "done"

    # ---- the collector

    def begin(self, size=None):
        if self.new:
            return "busy"
        self.new = Space(self.space.size if size is None else size)
        self.former = None
        self.looks.begin()
        self.logs = [[] for _ in range(self.mutators)]
        self.scan_place, self.scan_field = 1, 0
        return "begun"

    def replica(self, at):
        """Returns the replica of an original, which it places if there is none."""
        if self.space.words[at + 1] == 0:
            fields = self.space.fields(at)
            if not self.new.has_room(len(fields)):
                raise NoRoom
            self.space.words[at + 1] = self.new.place(self.space.words[at], at, fields if self.space.is_raw(at) else [0] * len(fields))
        return self.space.words[at + 1]

    def bring_up_to_date(self, original, replica, field):
        word = self.space.words[original + 2 + field]
        if not self.space.is_raw(original) and word > 0 and word % 2 == 0:
            word = 2 * self.replica(word // 2)
        self.new.words[replica + 2 + field] = word

    def copied(self, word):
        """Returns whether a root word needs no replica."""
        return word == 0 or word % 2 == 1 or self.space.words[word // 2 + 1] != 0

    def search(self, most=None):
        """Searches the roots for one whose target has no replica, and looks at no more than `most` extra roots. Returns how many of these had nothing to copy,
        and whether the search came to its end."""
        slots, words = self.roots[:self.extra(0)], self.roots[self.extra(0):]
        looks, k = 0, self.looks.next() if all(map(self.copied, slots)) else None
        while k is not None and looks != most:
            if not self.copied(words[k]):
                return looks, True
            self.looks.looked(k, words)
            looks += 1
            # One root alone may be known because the last step has copied its target, so that a row begins behind the second one.
            if looks > 1:
                looks += self.looks.look_on(words, self.copied, None if most is None else most - looks)
            k = self.looks.next()
        return looks, k is None

    def step_roots(self):
        self.search()
        for word in self.roots:
            if not self.copied(word):
                self.replica(word // 2)
                return "copied"
        return "clean"

    def step_scan(self):
        at, field = self.scan_place, self.scan_field
        if at == len(self.new.words):
            return "clean"
        if self.new.is_raw(at) or field == self.new.length(at):
            self.scan_place, self.scan_field = at + self.new.length(at) + 2, 0
            return "passed"
        self.bring_up_to_date(self.new.words[at + 1], at, field)
        self.scan_field += 1
        return "scanned"

    def step_apply(self, m):
        if not self.logs[m]:
            return "clean"
        at, field = self.logs[m][0]
        if self.space.words[at + 1] != 0:
            self.bring_up_to_date(at, self.space.words[at + 1], field)
        self.logs[m].pop(0)
        return "applied"

    def step_flip(self):
        self.search()
        if any(self.logs) or self.scan_place != len(self.new.words) or not all(map(self.copied, self.roots)):
            return "not ready"
        old = list(self.space.words), list(self.roots), self.space.size
        pairs = [(self.new.words[at + 1], at) for at in self.new.starts()]
        self.roots = [word if word == 0 or word % 2 == 1 else 2 * self.space.words[word // 2 + 1] for word in self.roots]
        self.flips.append((old, (list(self.new.words), list(self.roots), self.new.size), pairs))
        self.former = {at: self.space.words[at + 1] for at in self.space.starts()}
        self.looks.flipped()
        self.space, self.new, self.logs = self.new, None, []
        self.unlink()
        return "flipped %d" % len(pairs)

    def step_drop(self):
        self.new, self.logs = None, []
        self.unlink()
        return "dropped"

    def unlink(self):
        """Sets all links to 0. No collection is open."""
        for at in self.space.starts():
            self.space.words[at + 1] = 0

    def step(self, name, *numbers):
        """Performs a step other than begin."""
        if not self.new:
            return "idle"
        try:
            return getattr(self, "step_" + name)(*numbers)
        except NoRoom:
            return "no room"

    def next_step(self):
        """Returns the name of the useful step, with the mutator whose log it applies."""
        if not self.new:
            return "begin"
        self.search()
        if not all(map(self.copied, self.roots)):
            return "roots"
        if self.scan_place < len(self.new.words):
            return "scan"
        return next(("apply %d" % m for m, log in enumerate(self.logs) if log), "flip")

    def useful(self, size=None):
        """Performs the useful step, and returns its line in a trace and its reply. A begin has the size, if one is given."""
        if not self.new:
            return "c begin" if size is None else "c begin %d" % size, self.begin(size)
        for line, name, numbers in [("c roots", "roots", ()), ("c scan", "scan", ())] + [("c apply %d" % m, "apply", (m,)) for m in range(self.mutators)]:
            reply = self.step(name, *numbers)
            if reply != "clean":
                return line, reply
        return "c flip", self.step("flip")

    # ---- pace

    def remember(self):
        """Makes the pace remember the heap as it is, as after a flip."""
        self.left = self.end = len(self.space.words)
        self.logged, self.owed, self.looks_then = self.entries(), 0, self.looks_left()

    def remember_work(self, due, made, copied, looks):
        """Makes the pace remember work that made these steps, each with its line and its reply, copied so many words, and looked at so many extra roots."""
        last = made[-1][1] if made else ""
        self.left = len(self.space.words) if last.startswith("flipped") else self.left
        self.end, self.logged, self.looks_then = len(self.space.words), self.entries(), self.looks_left()
        units = len(made) + looks // 32
        took = self.words > 0 and max(units, copied, looks // 2) >= self.words
        self.owed = max(0, due - units) if took and not last.startswith("flipped") and last != "no room" else 0

    def steps_due(self, wanted):
        """Returns the steps that are due before the program allocates so many words."""
        end, room = len(self.space.words), self.space.size - len(self.space.words) - wanted
        steps_left = end - (self.scan_place if self.new else 0) + self.entries() + units_of(self.looks_left()) + 1
        if room <= 0:
            return steps_left
        if not self.new:
            return int(end >= min(max(self.least, self.factor * self.left // 100), (self.left + self.space.size) // 2))
        spent = max(0, end - self.end) + max(0, self.entries() - self.logged) + max(0, units_of(self.looks_left()) - units_of(self.looks_then))
        return min(steps_left, self.owed + spent * (self.rate or 2 + steps_left // room))

    # ---- what the calls that read write

    def looks_left(self):
        return self.looks.left(self.new is not None) if self.counts_looks else 0

    def entries(self):
        return sum(map(len, self.logs)) if self.new else 0

    def scan_numbers(self):
        return (self.new.size, len(self.new.words), self.scan_place, self.scan_field) if self.new else (0, 0, 0, 0)

    def counts(self):
        end, (new_size, new_end, place, field) = len(self.space.words), self.scan_numbers()
        return [self.space.size, end, self.space.size - end, self.mutators, self.extra_roots, int(self.new is not None), new_size, new_end, place, field,
                self.entries(), self.looks_left()]
