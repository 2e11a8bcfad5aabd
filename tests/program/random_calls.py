"""Makes random calls on a heap, with what each call has to print, and the trace that a recording has to be.

The model of heap_model gives the replies. The driver programs, tests/c/random_calls.c, tests/python/random_calls.py and
bindings/rust/examples/random_calls.rs, perform the same calls and print a line for each.
"""
from .heap_model import Model
from .random_places import OUT_OF_RANGE, CallsByPlaces

EDGES = [0, 1, 2, 1 << 31, (1 << 32) - 1, 1 << 62, (1 << 63) - 1]
SIZES = [1, 2, 3, 8, 20, 40, 80, 120, 200, 400]
CLOSED = "closed"
# Each call with how often it is made. `session` closes the heap and opens another.
WEIGHTS = {"new": 8, "raw": 4, "num": 5, "nil": 2, "move": 6, "get": 9, "put": 10, "put_number": 5, "put_nil": 3, "raw_write": 4, "raw_read": 3, "copy_fields": 5, "address": 2, "cons": 4, "new_from": 4, "new_with": 4, "same": 4, "look": 5,
           "begin": 2, "begin_sized": 1, "roots": 7, "scan": 14, "apply": 5, "flip": 4, "drop": 0.4, "work": 4, "useful": 4, "counts": 3, "log": 2,
           "image": 2, "new_words": 2, "wrong": 4, "session": 0.7}
# Calls that not every driver has: paced work, extra roots, commands on roots by their places, where a flip moved objects, and references by address. A
# trace has no lines but for paced work.
PACED = {"work_sized": 2, "work_within": 3, "pace": 0.7, "work_paced": 6}
RESERVES = {"reserve": 3, "collect": 0.7, "release": 1}
LOOSE = {"root_load": 5, "root_store": 6, "root_clear": 1}
FRAMES = {"frame_push": 6, "frame_pop": 3, "frame_trim": 4}
PLACES = {"place_new": 4, "place_raw": 2, "place_pair": 3, "place_new_from": 3, "place_new_with": 4, "place_gather": 3, "place_spread": 4, "place_num": 3, "place_nil": 2, "place_clear": 1, "place_copy": 5, "place_get": 6, "place_peek": 4, "place_put": 9, "place_put_number": 5, "place_put_nil": 3,
          "place_put_sure": 3, "place_fill": 4, "place_copy_fields": 4,
          "place_same": 3, "place_look": 4, "room": 2}
TEXTS = {"place_new_bytes": 8, "place_join": 8, "place_part": 6, "place_write": 8, "place_text": 4, "place_order": 3}
VECTORS = {"place_write_words": 8, "place_words": 4}
RAWS = {"place_raw_write": 6, "place_raw_read": 4}
MOVES = {"moved": 4, "refer": 4, "place_refer": 4, "place_address": 2, "object_at": 3, "field_at": 4}
# Not a call: a heap to which looks at extra roots are free, as they are to the one in plain C. A step takes as many as it needs, and none is told.
FREE_LOOKS = {"free_looks": 0}
# Rust's `collect` gives an open collection up whose new space is too small, and goes on.
COLLECTS_ON = {"collects_on": 4}
COMMANDS = ("new", "raw", "num", "nil", "move", "get", "put", "same", "look")


def slot_name(slot):
    return "%s%d" % ("rg"[slot // 16], slot % 16)


class Calls(CallsByPlaces):
    """A list of calls that grows, with the lines that they print and the lines that a recording writes."""

    def __init__(self, chance, more):
        self.chance = chance
        self.weights = {**WEIGHTS, **more}
        self.model = None
        # The model of each session.
        self.models = []
        # The numbers of the frame that stays: its first root, the root behind its last one, its top, and the root behind the last one that may hold a value.
        self.stack = None
        self.calls = []
        self.printed = []
        self.trace = []
        # The reply lines of the program for the recorded events.
        self.replies = []

    def call(self, words, printed, trace=(), replies=()):
        self.calls.append(" ".join(str(word) for word in words))
        self.printed.append(printed)
        self.trace += trace
        self.replies += replies

    # ---- choices

    def slot(self):
        return self.chance.choice([0, 1, 2, 3, 15, 16, 17, 18, 31, self.chance.randrange(32)])

    def mutator(self):
        return self.chance.choice([0, self.model.mutators - 1, self.chance.randrange(self.model.mutators)])

    def number(self):
        return self.chance.choice(EDGES + [self.chance.randrange(1 << 63)])

    def length(self):
        return self.chance.choice([0, 1, 1, 2, 2, 3, 4, 5, self.chance.randrange(30), 300, 65535])

    def field(self, m, slot):
        """Returns a field's number, mostly one that the slot's object has."""
        at = self.model.target(m, slot)
        length = self.model.space.length(at) if at else 0
        return self.chance.choice([0, max(0, length - 1), length, self.chance.randrange(max(1, length)), self.chance.randrange(max(1, length)), 65535])

    def filled_slot(self, m):
        """Returns a slot, mostly one with a reference."""
        filled = [slot for slot in range(32) if self.model.target(m, slot)]
        return self.chance.choice(filled) if filled and self.chance.random() < 0.9 else self.slot()

    # ---- calls

    def make(self):
        """Adds one random call, or a new session."""
        if self.model is None:
            return self.add_session()
        name = self.chance.choices(list(self.weights), list(self.weights.values()))[0]
        return getattr(self, "add_" + name, lambda: self.add_plain_step(name))()

    def add_session(self):
        if self.model is not None:
            self.call(["close"], "done")
            self.model = None
        for _ in range(self.chance.randrange(3)):
            self.call(self.chance.choice([["num", 0, 0, 5], ["roots"], ["work", 3], ["useful"], ["close"], ["counts"]]), CLOSED)
        if self.chance.random() < 0.3:
            self.call(["open", *self.chance.choice([(0, 1, 0), (9, 0, 0), (9, 17, 0), (9, 255, 0)])], OUT_OF_RANGE)
        size = self.chance.choice(SIZES + [self.chance.randrange(1, 6000), 70000])
        mutators = self.chance.choice([1, 1, 2, 3, 16])
        extra_roots = self.chance.choice([0, 1, 2, 5, 40, 200, 1000]) if "root_load" in self.weights else 0
        self.model = Model(size, mutators, extra_roots)
        self.model.counts_looks = "free_looks" not in self.weights
        self.models.append(self.model)
        self.stack = (0, extra_roots, 0, 0)
        self.call(["open", size, mutators, extra_roots], "done", ["heaptrace 3", "space %d mutators %d" % (size, mutators)])
        if "pace" in self.weights:
            self.add_pace()

    def add_command(self, name, m, *numbers):
        """Adds a command that is a line of a trace."""
        model = self.model
        if name in ("new", "raw"):
            reply = model.make(m, name == "raw", *numbers)
            words = [slot_name(numbers[0]), *numbers[1:]]
        else:
            reply = getattr(model, name)(m, *numbers)
            slots = {"num": 1, "nil": 1, "move": 2, "get": 2, "put": 1, "same": 2, "look": 1}[name]
            words = [slot_name(number) for number in numbers[:slots]] + list(numbers[slots:])
            if name == "put":
                words[2] = slot_name(numbers[2])
        line = "m %d %s %s" % (m, name, " ".join(str(word) for word in words))
        return line, reply

    def add_simple(self, name, m, *numbers):
        line, reply = self.add_command(name, m, *numbers)
        self.call([name, m, *numbers], reply, [line], [reply])

    def add_new(self, name="new"):
        self.add_simple(name, self.mutator(), self.slot(), self.chance.choice([0, 1, 7, 255]), self.length())

    def add_raw(self):
        self.add_new("raw")

    def add_num(self):
        self.add_simple("num", self.mutator(), self.slot(), self.number())

    def add_nil(self):
        self.add_simple("nil", self.mutator(), self.slot())

    def add_move(self):
        m = self.mutator()
        self.add_simple("move", m, self.slot(), self.filled_slot(m))

    def add_get(self):
        m = self.mutator()
        s = self.filled_slot(m)
        self.add_simple("get", m, self.slot(), s, self.field(m, s))

    def add_put(self):
        m = self.mutator()
        s = self.filled_slot(m)
        self.add_simple("put", m, s, self.field(m, s), self.slot())

    def add_same(self):
        m = self.mutator()
        self.add_simple("same", m, self.filled_slot(m), self.filled_slot(m))

    def add_look(self):
        m = self.mutator()
        self.add_simple("look", m, self.filled_slot(m))

    def add_put_number(self):
        m = self.mutator()
        s, t, n = self.filled_slot(m), self.slot(), self.number()
        i = self.field(m, s)
        made = [self.add_command("num", m, t, n), self.add_command("put", m, s, i, t)]
        self.call(["put_number", m, s, i, t, n], made[1][1], [line for line, _ in made], [reply for _, reply in made])

    def add_put_nil(self):
        m = self.mutator()
        s, t = self.filled_slot(m), self.slot()
        i = self.field(m, s)
        made = [self.add_command("nil", m, t), self.add_command("put", m, s, i, t)]
        self.call(["put_nil", m, s, i, t], made[1][1], [line for line, _ in made], [reply for _, reply in made])

    def raw_reply(self, m, s, first, numbers):
        """Returns the reply to a call that writes these numbers to the object of a slot."""
        at = self.model.target(m, s)
        if not at or not self.model.space.is_raw(at):
            return "no object"
        if first + len(numbers) > self.model.space.length(at):
            return "no field"
        return "done" if all(n < 1 << 63 for n in numbers) else "no number"

    def raw_slot(self, m):
        """Returns a slot, mostly one that refers to a raw object."""
        raws = [slot for slot in range(32) if self.model.target(m, slot) and self.model.space.is_raw(self.model.target(m, slot))]
        return self.chance.choice(raws) if raws and self.chance.random() < 0.9 else self.filled_slot(m)

    def add_raw_read(self):
        m = self.mutator()
        s = self.raw_slot(m)
        first, at = self.field(m, s), self.model.target(m, s)
        room = max(0, self.model.space.length(at) - first) if at else 3
        count = min(300, self.chance.choice([0, 1, room, room + 1, self.chance.randrange(room + 1)]))
        reply = self.raw_reply(m, s, first, [0] * count)
        if reply == "done":
            reply = " ".join(["read", *map(str, self.model.space.fields(at)[first:first + count])])
        self.call(["raw_read", m, s, first, count], reply)

    def add_address(self):
        m = self.mutator()
        s = self.filled_slot(m)
        at = self.model.target(m, s)
        self.call(["address", m, s], "address %d" % at if at else "no object")

    def add_moved(self):
        """Adds a call for an object of the last flip's old space. A call for any other address may print anything, so there is none."""
        former = self.model.former
        if former is None:
            self.call(["moved", self.chance.randrange(1 << 32)], OUT_OF_RANGE)
        elif former:
            dead = [at for at in former if former[at] == 0]
            old = self.chance.choice(dead if dead and self.chance.random() < 0.5 else list(former))
            self.call(["moved", old], "moved %d" % former[old] if former[old] else "no object")

    def any_address(self):
        """Returns an address: mostly that of an object, which may be one that nothing refers to, else some number."""
        starts, end = self.model.space.starts(), len(self.model.space.words)
        other = self.chance.choice([0, end, end - 1, self.chance.randrange(end + 2), 1 << 31, (1 << 32) - 1, self.chance.randrange(1 << 32)])
        return self.chance.choice(starts) if starts and self.chance.random() < 0.7 else other

    def add_refer(self):
        m, d, at = self.mutator(), self.slot(), self.any_address()
        self.call(["refer", m, d, at], self.model.refer(m, d, at))

    def add_object_at(self):
        at = self.any_address()
        self.call(["object_at", at], self.model.object_at(at))

    def add_field_at(self):
        at = self.any_address()
        length = self.model.space.length(at) if at in self.model.space.starts() else 1
        i = self.chance.choice([0, max(0, length - 1), length, self.chance.randrange(length + 1), 65536, (1 << 32) - 1])
        self.call(["field_at", at, i], self.model.field_at(at, i))

    def add_raw_write(self):
        m = self.mutator()
        s = self.raw_slot(m)
        first = self.field(m, s)
        at = self.model.target(m, s)
        room = max(0, self.model.space.length(at) - first) if at else 3
        numbers = [self.number() for _ in range(min(300, self.chance.choice([0, 1, room, room + 1, self.chance.randrange(room + 1)])))]
        if numbers and self.chance.random() < 0.1:
            numbers[self.chance.randrange(len(numbers))] = self.chance.choice([1 << 63, (1 << 64) - 1])
        t = self.chance.choice([slot for slot in range(32) if slot != s])
        reply, made = self.raw_reply(m, s, first, numbers), []
        if reply == "done":
            for k, n in enumerate(numbers):
                made += [self.add_command("num", m, t, n), self.add_command("put", m, s, first + k, t)]
        self.call(["raw_write", m, s, first, t, len(numbers), *numbers], reply, [line for line, _ in made], [reply for _, reply in made])

    def copy_reply(self, m, d, to, s, first, count):
        """Returns the reply to a call that copies fields of one slot's object to that of another."""
        space, target, source = self.model.space, self.model.target(m, d), self.model.target(m, s)
        if not target or not source:
            return "no object"
        if to + count > space.length(target) or first + count > space.length(source):
            return "no field"
        are_numbers = space.is_raw(source) or all(word % 2 for word in space.fields(source)[first:first + count])
        return "done" if are_numbers or not space.is_raw(target) else "no number"

    def add_copy_fields(self):
        m = self.mutator()
        d, s = self.filled_slot(m), self.filled_slot(m)
        if self.chance.random() < 0.3:
            d = self.raw_slot(m)
        to, first = [self.chance.choice([0, 0, self.field(m, slot)]) for slot in (d, s)]
        at = [self.model.target(m, slot) for slot in (d, s)]
        room = max(0, min(self.model.space.length(at[0]) - to, self.model.space.length(at[1]) - first)) if all(at) else 3
        count = min(300, self.chance.choice([0, 1, room, room, room + 1, self.chance.randrange(room + 1)]))
        t = self.chance.choice([slot for slot in range(32) if slot not in (d, s)])
        reply, made = self.copy_reply(m, d, to, s, first, count), []
        if reply == "done":
            for k in range(count):
                made += [self.add_command("get", m, t, s, first + k), self.add_command("put", m, d, to + k, t)]
            # All are copied: each command does what it is asked.
            assert all(answer == "done" or answer.startswith("saw ") for _, answer in made)
        self.call(["copy_fields", m, d, to, s, first, t, count], reply, [line for line, _ in made], [answer for _, answer in made])

    def from_slots(self, m, d, kind, fields):
        """Makes an object with fields from slots, and returns its lines with their replies."""
        made = [self.add_command("new", m, d, kind, len(fields))]
        if made[0][1] == "made":
            made += [self.add_command("put", m, d, i, slot) for i, slot in enumerate(fields)]
        return made

    def add_cons(self):
        m, d, kind, fields = self.mutator(), self.slot(), self.chance.randrange(256), [self.slot(), self.slot()]
        made = self.from_slots(m, d, kind, fields)
        self.call(["cons", m, d, kind, *fields], made[0][1], [line for line, _ in made], [reply for _, reply in made])

    def add_new_from(self):
        m, d, kind = self.mutator(), self.slot(), self.chance.randrange(256)
        fields = [self.slot() for _ in range(self.chance.choice([0, 1, 2, 3, 7, 30, 260]))]
        made = self.from_slots(m, d, kind, fields)
        self.call(["new_from", m, d, kind, len(fields), *fields], made[0][1], [line for line, _ in made], [reply for _, reply in made])

    def add_new_with(self):
        m, d, kind = self.mutator(), self.slot(), self.chance.randrange(256)
        t = self.chance.choice([slot for slot in range(32) if slot != d])
        fields = [self.chance.choice([(0, self.chance.choice([0, 1 << 63])), (1, self.number()), (2, self.chance.choice([self.slot(), d, t]))])
                  for _ in range(self.chance.choice([0, 1, 2, 3, 7, 30, 130]))]
        made = [self.add_command("new", m, d, kind, len(fields))]
        for i, (holds, value) in enumerate(fields if made[0][1] == "made" else []):
            if holds == 1:
                made.append(self.add_command("num", m, t, value))
            if holds > 0:
                made.append(self.add_command("put", m, d, i, t if holds == 1 else value))
        assert all(answer == "done" for _, answer in made[1:])
        numbers = [number for field in fields for number in field]
        self.call(["new_with", m, d, kind, t, len(fields), *numbers], made[0][1], [line for line, _ in made], [answer for _, answer in made])

    def add_begin(self):
        reply = self.model.begin()
        self.call(["begin"], reply, ["c begin"], [reply])

    def add_begin_sized(self):
        size = self.chance.choice([1, 2, 3, 10, len(self.model.space.words), self.model.space.size, self.model.space.size + 7, min(2 * self.model.space.size, 100000)])
        reply = self.model.begin(size)
        self.call(["begin_sized", size], reply, ["c begin %d" % size], [reply])

    def add_plain_step(self, name):
        reply = self.model.step(name)
        self.call([name], reply, ["c " + name], [reply])

    def add_apply(self):
        m = self.mutator()
        reply = self.model.step("apply", m)
        self.call(["apply", m], reply, ["c apply %d" % m], [reply])

    def worked(self, most, size=None, words=None, at_once=32, most_looks=None):
        """Performs at most this many units: useful steps, and searches for one that took `at_once` looks and did not come to their end. Takes no more than
        `most_looks`, if a number is given. Returns the steps' lines with their replies, the words copied, the looks, and the report. Ends once replicas
        take this many words, if a number is given."""
        start = len(self.model.new.words) if self.model.new else 1
        made, copied, looks, units, last = [], 0, 0, 0, "done"
        if "free_looks" in self.weights:
            at_once = most_looks = None
        while units < most and not last.startswith("flipped") and last != "no room" and (not made or words is None or copied < words):
            limit = at_once if most_looks is None else min(at_once, most_looks - looks)
            taken, is_found = self.model.search(limit) if self.model.new else (0, True)
            looks += taken
            if not is_found and taken < at_once:
                break
            units += 1
            if is_found:
                made.append(self.model.useful(size))
                last = made[-1][1]
                copied = len((self.model.space if last.startswith("flipped") else self.model.new).words) - start
        looks = 0 if "free_looks" in self.weights else looks
        return made, copied, looks, "worked %d %d %d %s" % (len(made), copied, looks, last)

    def add_work(self):
        most = self.chance.choice([1, 1, 2, 3, 5, 20, 100])
        made, _, _, report = self.worked(most)
        self.call(["work", most], report, [line for line, _ in made], [reply for _, reply in made])

    def add_work_sized(self):
        most, size = self.chance.choice([1, 2, 20, 100]), self.chance.choice([1, len(self.model.space.words), self.model.space.size, self.model.space.size + 7])
        made, _, _, report = self.worked(most, size)
        self.call(["work_sized", most, size], report, [line for line, _ in made], [reply for _, reply in made])

    def add_work_within(self):
        most, words = self.chance.choice([1, 2, 20, 100]), self.chance.choice([0, 1, 3, 4, 10, 40, (1 << 32) - 1])
        made, _, _, report = self.worked(most, words=words)
        self.call(["work_within", most, words], report, [line for line, _ in made], [reply for _, reply in made])

    # ---- paced work

    def add_pace(self):
        """Adds a call that sets what the pace remembers, with other numbers of the program's."""
        factor, rate, least = self.chance.choice([100, 120, 200, 10000]), self.chance.choice([0, 0, 1, 3, 50]), self.chance.choice([0, 10, 50, 65536])
        words = self.chance.choice([0, 0, 1, 3, 10, 40, 1024, (1 << 32) - 1])
        if self.chance.random() < 0.1:
            self.call(["pace", self.chance.choice([0, 99, 10001]), rate, least, words], OUT_OF_RANGE)
        self.model.factor, self.model.rate, self.model.least, self.model.words = factor, rate, least, words
        self.model.remember()
        self.call(["pace", factor, rate, least, words], "done")

    def add_work_paced(self):
        model, wanted = self.model, self.chance.choice([0, 0, 1, 5, 30, self.model.space.size, (1 << 32) - 1])
        due = model.steps_due(wanted)
        made, copied, looks, report = [], 0, 0, "nothing"
        if due and model.words:
            made, copied, looks, report = self.worked(min(due, model.words), words=model.words, most_looks=2 * model.words)
        elif due:
            made, copied, looks, report = self.worked(due, at_once=None)
        model.remember_work(due, made, copied, looks)
        remembered = "%d %d %d %d %d" % (model.left, model.end, model.logged, model.owed, model.looks_then)
        self.call(["work_paced", wanted], "%s, %s" % (report, remembered), [line for line, _ in made], [reply for _, reply in made])

    def room(self):
        return self.model.space.size - len(self.model.space.words)

    def add_reserve(self):
        """Adds a call that makes room: the steps that are due, and up to two calls of work without a bound while there is too little room."""
        model = self.model
        words = self.chance.choice([0, 1, 5, 30, model.space.size // 2, model.space.size - 1, model.space.size, (1 << 32) - 1])
        due, parts, answer = model.steps_due(words), [], "done"
        if due:
            parts.append(self.worked(min(due, model.words), words=model.words, most_looks=2 * model.words) if model.words else self.worked(due, at_once=None))
        model.remember_work(due, *(parts[0][:3] if parts else ([], 0, 0)))
        is_anew = False
        while self.room() < words and answer == "done":
            is_anew = model.new is None
            parts.append(self.worked((1 << 32) - 1))
            has_flipped = parts[-1][0] and parts[-1][0][-1][1].startswith("flipped")
            if self.room() < words and (is_anew or not has_flipped):
                answer = "full" if is_anew and has_flipped else "starved"
        if answer == "full" or len(parts) > (1 if due else 0) and answer == "done":
            model.remember()
        made = [step for part in parts for step in part[0]]
        counts = (len(made), sum(part[1] for part in parts), sum(part[2] for part in parts))
        report = "worked %d %d %d %s" % (*counts, made[-1][1] if made else "done") if made or counts[2] else "nothing"
        remembered = "%d %d %d %d %d" % (model.left, model.end, model.logged, model.owed, model.looks_then)
        self.call(["reserve", words], "%s, %s, %s" % (answer, report, remembered), [line for line, _ in made], [reply for _, reply in made])

    def add_collect(self):
        """Adds a call that performs a whole collection: the open one ends first, if there is one."""
        parts = [self.worked((1 << 32) - 1)] if self.model.new else []
        if self.model.new and "collects_on" in self.weights:
            self.model.step("drop")
        if self.model.new is None:
            parts.append(self.worked((1 << 32) - 1))
        made = [step for part in parts for step in part[0]]
        last = made[-1][1]
        report = "worked %d %d %d %s" % (len(made), sum(part[1] for part in parts), sum(part[2] for part in parts), last)
        answer = "done" if last.startswith("flipped") else last if last == "no room" else "starved"
        self.call(["collect"], "%s, %s" % (answer, report), [line for line, _ in made], [reply for _, reply in made])

    def add_collects_on(self):
        """Adds a call that performs a whole collection, mostly while one is open whose new space may be too small."""
        if not self.model.new:
            size = self.chance.randrange(1, len(self.model.space.words) + 1)
            self.call(["begin_sized", size], self.model.begin(size))
        self.add_collect()

    def add_release(self):
        if not self.model.new:
            self.model.former = None
        self.call(["release"], "busy" if self.model.new else "done")

    # ---- extra roots

    def extra_root(self):
        """Returns the number of an extra root, mostly of one that the heap has."""
        count = self.model.extra_roots
        return self.chance.choice([max(0, count - 1), self.chance.randrange(count + 1), count and self.chance.randrange(count), count, (1 << 32) - 1][:3 if self.chance.random() < 0.8 else 5])

    def add_root_load(self):
        m, d, k = self.mutator(), self.slot(), self.extra_root()
        self.call(["root_load", m, d, k], self.model.root_load(m, d, k) if k < self.model.extra_roots else OUT_OF_RANGE)

    def add_root_store(self):
        m, k = self.mutator(), self.extra_root()
        s = self.filled_slot(m)
        self.call(["root_store", m, k, s], self.model.root_store(m, k, s) if k < self.model.extra_roots else OUT_OF_RANGE)

    def add_root_clear(self):
        first, end = self.extra_root(), self.extra_root()
        self.call(["root_clear", first, end], self.model.root_clear(first, end) if first <= end <= self.model.extra_roots else OUT_OF_RANGE)

    def frame(self):
        """Returns the numbers of a frame: those of the one that stays, whose top may have dropped, or others, mostly in order."""
        if self.chance.random() < 0.7:
            first, end, top, high = self.stack
            return first, end, self.chance.randint(first, top) if self.chance.random() < 0.1 else top, high
        numbers = sorted(self.extra_root() for _ in range(4))
        if self.chance.random() < 0.4:
            mixed = self.chance.choice([3, 3, 4])
            numbers[:mixed] = self.chance.sample(numbers[:mixed], mixed)
        first, top, high, end = numbers
        return first, end, top, high

    def add_on_frame(self, name, frame, numbers, reply, top, high):
        """Adds a call on a frame, which has this top and this `high` after it."""
        first, end = frame[:2]
        if reply == "done" and frame[:2] == self.stack[:2]:
            self.stack = (first, end, top, high)
        self.call([name, *frame, *numbers], "%s %d %d" % (reply, top, high))

    def is_frame(self, first, end, top, high):
        return first <= top <= end <= self.model.extra_roots and high <= end

    def add_frame_push(self):
        m, frame = self.mutator(), self.frame()
        (_, end, top, high), s = frame, self.filled_slot(m)
        reply = OUT_OF_RANGE if not self.is_frame(*frame) else "frame full" if top == end else self.model.root_store(m, top, s)
        if reply == "done":
            top, high = top + 1, max(high, top + 1)
        self.add_on_frame("frame_push", frame, [m, s], reply, top, high)

    def add_frame_pop(self):
        m, d, frame = self.mutator(), self.slot(), self.frame()
        first, _, top, high = frame
        reply = OUT_OF_RANGE if not self.is_frame(*frame) else "frame empty" if top == first else self.model.root_load(m, d, top - 1)
        if reply == "done":
            self.model.root_clear(top - 1, top)
            top, high = top - 1, high if high > top else top - 1
        self.add_on_frame("frame_pop", frame, [m, d], reply, top, high)

    def add_frame_trim(self):
        frame, most = self.frame(), self.chance.choice([0, 1, 1, 2, 3, 50, (1 << 32) - 1])
        _, _, top, high = frame
        reply = OUT_OF_RANGE
        if self.is_frame(*frame):
            last = max(top, high)
            high = max(top, last - most)
            reply = self.model.root_clear(high, last)
        self.add_on_frame("frame_trim", frame, [most], reply, top, high)

    # ---- calls that read, and calls that are out of range

    def add_useful(self):
        self.call(["useful"], "useful " + self.model.next_step())

    def add_room(self):
        self.call(["room"], "room %d" % self.room())

    def add_counts(self):
        self.call(["counts"], "counts " + " ".join(map(str, self.model.counts())))

    def add_log(self):
        m = self.mutator()
        entries = self.model.logs[m] if self.model.new else []
        self.call(["log", m], " ".join(["log %d" % len(entries)] + ["%d:%d" % entry for entry in entries]))

    def add_image(self):
        words, roots = self.model.space.words, self.model.roots
        self.call(["image", len(words), len(roots)], "image " + " ".join(map(str, words + roots)))

    def add_new_words(self):
        if self.model.new is None:
            return self.call(["new_words", 1], OUT_OF_RANGE)
        return self.call(["new_words", len(self.model.new.words)], "words " + " ".join(map(str, self.model.new.words)))

    def add_wrong(self):
        """Adds a call with one argument out of range. Nothing changes, and a recording has no line for it."""
        beyond, slot = self.chance.choice([self.model.mutators, 16, 255]), self.chance.choice([32, 33, 128, 255])
        m = self.mutator()
        self.call(self.chance.choice([
            ["new", beyond, 0, 1, 1], ["new", m, slot, 1, 1], ["raw", beyond, 0, 1, 1], ["raw", m, slot, 1, 1], ["num", m, slot, 1], ["num", m, 0, 1 << 63],
            ["num", m, 0, (1 << 64) - 1], ["num", beyond, 0, 1], ["nil", beyond, 0], ["nil", m, slot], ["move", m, 0, slot], ["move", m, slot, 0],
            ["move", beyond, 0, 0], ["get", m, slot, 0, 0], ["get", m, 0, slot, 0], ["get", beyond, 0, 0, 0], ["put", m, slot, 0, 0],
            ["put", m, 0, 0, slot], ["put", beyond, 0, 0, 0], ["put_number", m, slot, 0, 0, 1], ["put_number", m, 0, 0, slot, 1],
            ["put_number", beyond, 0, 0, 0, 1], ["put_number", m, 0, 0, 0, 1 << 63],
            ["put_nil", m, slot, 0, 0], ["put_nil", m, 0, 0, slot], ["put_nil", beyond, 0, 0, 0],
            ["raw_read", beyond, 0, 0, 1], ["raw_read", m, slot, 0, 1], ["address", beyond, 0], ["address", m, slot],
            ["raw_write", beyond, 0, 0, 1, 1, 5], ["raw_write", m, slot, 0, 1, 1, 5], ["raw_write", m, 0, 0, slot, 1, 5], ["raw_write", m, 3, 0, 3, 0],
            ["copy_fields", beyond, 0, 0, 1, 0, 2, 0], ["copy_fields", m, slot, 0, 1, 0, 2, 1], ["copy_fields", m, 0, 0, slot, 0, 2, 1],
            ["copy_fields", m, 0, 0, 1, 0, slot, 0], ["copy_fields", m, 3, 0, 1, 0, 3, 0], ["copy_fields", m, 0, 0, 3, 0, 3, 0], ["cons", m, slot, 0, 0, 0], ["cons", m, 0, 0, slot, 0],
            ["cons", m, 0, 0, 0, slot], ["cons", beyond, 0, 0, 0, 0], ["new_from", m, 0, 0, 2, 0, slot], ["new_from", beyond, 0, 0, 1, 0],
            ["new_from", m, slot, 0, 0],
            ["new_with", beyond, 0, 0, 1, 0], ["new_with", m, slot, 0, 1, 0], ["new_with", m, 0, 0, slot, 0], ["new_with", m, 3, 0, 3, 0],
            ["new_with", m, 0, 0, 1, 1, 1, 1 << 63], ["new_with", m, 0, 0, 1, 2, 0, 0, 2, slot], ["new_with", m, 0, 0, 1, 1, self.chance.choice([3, 255, 1 << 31]), 0], ["same", m, slot, 0], ["same", m, 0, slot], ["same", beyond, 0, 0], ["look", m, slot], ["look", beyond, 0],
            ["begin_sized", 0], ["apply", beyond], ["log", beyond], ["work", 0],
            *self.more_that_are_wrong(m, beyond, slot)]), OUT_OF_RANGE)

    def more_that_are_wrong(self, m, beyond, slot):
        """Returns calls with one argument out of range, of those that not every driver has."""
        sized = [["work_sized", 0, 5], ["work_sized", 1, 0], ["work_within", 0, 5]] if "work_sized" in self.weights else []
        sized += [["refer", beyond, 0, 1], ["refer", m, slot, 1]] if "refer" in self.weights else []
        if "place_new" in self.weights:
            wide = self.chance.choice([256, 65536 + 1, 1 << 31, (1 << 32) - 1])
            sized += [["place_new", 0, wide, 1], ["place_new", 0, 1, 65536 * (1 + wide % 3)], ["place_num", 0, 1 << 63], ["place_num", 0, (1 << 64) - 1],
                      ["place_put", beyond, 0, 0, 0], ["place_put", wide, 0, 0, 0], ["place_put_number", beyond, 0, 0, 0], ["place_put_number", 0, 0, 0, 1 << 63],
                      ["place_put_number", 0, 0, 0, (1 << 64) - 1], ["place_put_nil", beyond, 0, 0], ["place_put_nil", wide, 0, 0],
                      ["place_raw", 0, wide, 1], ["place_raw", 0, 1, 65536 * (1 + wide % 3)], ["place_pair", beyond, 0, 0, 0, 0], ["place_pair", 0, 0, wide, 0, 0],
                      ["place_new_from", beyond, 0, 0, 0], ["place_new_from", 0, 0, wide, 0], ["place_gather", beyond, 0, 0, 0, 1], ["place_gather", 0, 0, wide, 0, 1],
                      ["place_gather", 0, 0, 0, 0, 65536], ["place_clear", 1, 0], ["place_clear", 0, (1 << 32) - 1], ["place_spread", 0, 0, 1], ["place_spread", 1, 0, (1 << 32) - 1],
                      ["place_new_with", beyond, 0, 0], ["place_new_with", 0, 0, wide], ["place_new_with", 0, 0, 0, 1, 1 << 63], ["place_new_with", 0, 0, 0, 2, 1 << 32],
                      ["place_new_with", 0, 0, 0, self.chance.choice([3, 255, 1 << 31]), 0], ["place_put_sure", beyond, 0, 0, 0], ["place_fill", beyond, 0, 0, 0, 0],
                      ["place_fill", 0, 0, 1, 0, 0], ["place_copy_fields", beyond, 0, 0, 0, 0, 0], ["place_copy_fields", wide, 0, 0, 0, 0, 0]]
        if "place_join" in self.weights:
            wide = self.chance.choice([256, 1 << 31, (1 << 32) - 1])
            sized += [["place_new_bytes", beyond, 0, 0], ["place_new_bytes", 0, 0, wide, 5],
                      ["place_join", beyond, 0, 0, 0, 0], ["place_join", 0, 0, wide, 0, 0],
                      ["place_part", beyond, 0, 0, 0, 0, 0], ["place_part", 0, 0, wide, 0, 0, 0],
                      ["place_write", beyond, 0, 0], ["place_write", wide, 0, 0, 5]]
        if "place_write_words" in self.weights:
            sized += [["place_write_words", beyond, 0, 0], ["place_write_words", self.chance.choice([256, 1 << 31, (1 << 32) - 1]), 0, 0, 5]]
        if "place_raw_write" in self.weights:
            sized += [["place_raw_write", beyond, 0, 0], ["place_raw_write", self.chance.choice([256, 1 << 31, (1 << 32) - 1]), 0, 0, 5]]
        if "root_load" not in self.weights or self.model.extra_roots == 0:
            return sized
        return sized + [["root_load", beyond, 0, 0], ["root_load", 0, slot, 0], ["root_store", beyond, 0, 0], ["root_store", 0, 0, slot]]

    def finish(self):
        if self.model is not None:
            self.call(["image", len(self.model.space.words), len(self.model.roots)], "image " + " ".join(map(str, self.model.space.words + self.model.roots)))
            self.call(["close"], "done")
            self.model = None


def random_calls(chance, count, more):
    """Returns this many random calls and some more. `more` are those that not every driver has, with how often they are made."""
    calls = Calls(chance, more)
    while len(calls.calls) < count:
        calls.make()
    calls.finish()
    return calls


def traces_of(calls):
    """Yields each trace of the recording as a list of lines, with its replies."""
    first, used = None, 0
    lines = calls.trace + ["heaptrace"]
    for at, line in enumerate(lines):
        if line.startswith("heaptrace"):
            if first is not None:
                count = at - first - 2
                yield lines[first:at], calls.replies[used:used + count]
                used += count
            first = at
