"""Reads a heap dump of the JVM in its HPROF form: classes with their fields, and where each object is."""
import struct

# Bytes of a value, by the dump's number of its type.
SIZES = {2: 8, 4: 1, 5: 2, 6: 4, 7: 8, 8: 1, 9: 2, 10: 4, 11: 8}
LETTERS = {2: "Q", 4: "B", 5: "H", 6: "I", 7: "Q", 8: "B", 9: "H", 10: "I", 11: "Q"}
REFERENCE = 2
INSTANCE, OBJECTS, NUMBERS = 0x21, 0x22, 0x23
# The bytes of the other records of a heap segment.
ROOTS = {0xFF: 8, 1: 16, 2: 16, 3: 16, 4: 12, 5: 8, 6: 12, 7: 8, 8: 16}
# Classes whose fields the collector and its threads write themselves, but for the referent, which is weak.
OF_COLLECTOR = ("java/lang/ref/Reference", "java/lang/ref/ReferenceQueue")
# What a field is.
PROGRAM, COLLECTOR, WEAK = range(3)


class Class:
    def __init__(self, above, statics, fields):
        self.above, self.statics, self.fields = above, statics, fields


class Layout:
    """The fields of an object, of its class first, and then of those above it."""

    def __init__(self, fields):
        self.fields = fields
        self.references = [(number, kind, owner) for number, (_, kind, owner) in enumerate(fields) if kind == REFERENCE or owner != PROGRAM]
        self.values = struct.Struct(">" + "".join(LETTERS[kind] for _, kind, _ in fields))
        self.starts = []
        at = 0
        for _, kind, _ in fields:
            self.starts.append(at)
            at += SIZES[kind]


class Dump:
    """`where` has the kind of each object and the place of its record, by its address."""

    def __init__(self, path):
        with open(path, "rb") as file:
            self.data = bytearray(file.read())
        self.names, self.classes, self.where, self.layouts = {}, {}, {}, {}
        at = self.data.index(b"\0") + 1
        if struct.unpack_from(">I", self.data, at)[0] != 8:
            raise ValueError("%s has no identifiers of 8 bytes" % path)
        strings, at = {}, at + 12
        while at < len(self.data):
            tag, _, size = struct.unpack_from(">BII", self.data, at)
            at += 9
            if tag == 1:
                strings[struct.unpack_from(">Q", self.data, at)[0]] = self.data[at + 8:at + size].decode("utf8", "replace")
            elif tag == 2:
                _, name_of, _, name = struct.unpack_from(">IQIQ", self.data, at)
                self.names[name_of] = strings[name]
            elif tag in (0x0C, 0x1C):
                self.segment(at, at + size, strings)
            at += size

    def segment(self, at, end, strings):
        read, data = struct.unpack_from, self.data
        while at < end:
            tag, at = data[at], at + 1
            if tag in (INSTANCE, OBJECTS, NUMBERS):
                self.where[read(">Q", data, at)[0]] = (tag, at)
                count = read(">I", data, at + (20 if tag == INSTANCE else 12))[0]
                at += 24 + count if tag == INSTANCE else 24 + 8 * count if tag == OBJECTS else 17 + SIZES[data[at + 16]] * count
            elif tag == 0x20:
                at = self.class_record(at, strings)
            else:
                at += ROOTS[tag]

    def class_record(self, at, strings):
        """Reads a class, and returns the place behind it."""
        read, data = struct.unpack_from, self.data
        number, _, above = read(">QIQ", data, at)
        at += 8 + 4 + 8 * 6 + 4
        count, at = read(">H", data, at)[0], at + 2
        for _ in range(count):
            at += 3 + SIZES[data[at + 2]]
        count, at = read(">H", data, at)[0], at + 2
        statics, fields = [], []
        for _ in range(count):
            name, kind = read(">QB", data, at)
            statics.append((strings[name], kind, read(">" + LETTERS[kind], data, at + 9)[0]))
            at += 9 + SIZES[kind]
        count, at = read(">H", data, at)[0], at + 2
        for _ in range(count):
            fields.append((strings[read(">Q", data, at)[0]], data[at + 8]))
            at += 9
        self.classes[number] = Class(above, statics, fields)
        return at

    def layout(self, of_class):
        """Returns the layout of a class's objects. A field has a name, a kind, and whose it is."""
        if of_class not in self.layouts:
            fields, above = [], of_class
            while above:
                own = self.names[above] in OF_COLLECTOR
                fields += [(name, kind, PROGRAM if not own else WEAK if name == "referent" else COLLECTOR) for name, kind in self.classes[above].fields]
                above = self.classes[above].above
            self.layouts[of_class] = Layout(fields)
        return self.layouts[of_class]
