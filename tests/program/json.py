"""Tests of examples/json, a parser and printer on herbpond.h: what it prints, by hand and compared with Python's json, and what it refuses.

It builds examples/json by gcc and with sanitizers. A seeded generator makes a document of 5 MB, which is printed in four ways. Documents that the grammar of
RFC 8259 does not have are refused, with the line and the column. Others are nested deeply, have long strings and many members, or need more room than the
heap may have.
"""
import glob
import json
import os
import random

from .c_builds import TOP, built_examples, done
from .harness import Outcome, difference

SOURCES = sorted(glob.glob(os.path.join(TOP, "examples", "json", "*.c")))
SEED, BYTES = 20261129, 5000000
USAGE = b"usage: json [--sort] [--indent BLANKS] [--heap WORDS] [--most WORDS]\n"
# Each level takes three of the 300,000 places of the stack.
MOST_LEVELS = 100000
# The longest text in one object: seven bytes in each of 65,535 words.
LONG = 65535 * 7
# The options, and those of json.dumps that print the same.
STYLES = [
    ([], {"separators": (",", ":")}),
    (["--sort"], {"separators": (",", ":"), "sort_keys": True}),
    (["--indent", "3"], {"indent": 3}),
    (["--indent", "0", "--sort"], {"indent": 0, "sort_keys": True}),
]

# Documents, and what is printed in one line.
PRINTED = {
    "null": "null", " \t\r\n true\n": "true", "[ ]": "[]", "{ \n }": "{}", "[[], {}, [{}]]": "[[],{},[{}]]",
    "0": "0", "-0": "0", "-0.0": "-0.0", "7": "7", "-12": "-12",
    "2305843009213693951": "2305843009213693951", "-2305843009213693952": "-2305843009213693952",  # the most and the least of 62 bits
    "2305843009213693952": "2.305843009213694e+18", "-2305843009213693953": "-2.305843009213694e+18",
    "12345678901234567890": "1.2345678901234567e+19",
    "1E5": "100000.0", "1e+2": "100.0", "25e-1": "2.5", "1e15": "1000000000000000.0", "1e16": "1e+16", "0.0001": "0.0001", "0.00001": "1e-05",
    "5e-324": "5e-324", "1e-400": "0.0", "1.7976931348623157e308": "1.7976931348623157e+308", "1e300": "1e+300", "0.1": "0.1", "0.30000000000000004": "0.30000000000000004",
    '""': '""', '"\\u0061\\u00e9\\u20ac\\ud83d\\ude00\\uDBFF\\uDFFF"': '"a\u00e9\u20ac\U0001f600\U0010ffff"',
    '"\\"\\\\\\/\\b\\f\\n\\r\\t"': '"\\"\\\\/\\b\\f\\n\\r\\t"', '"\\u0000\\u001f\\u007f"': '"\\u0000\\u001f\x7f"',
    '"\u0080\u07ff\u0800\ud7ff\ue000\uffff\U00010000\U0010ffff"': '"\u0080\u07ff\u0800\ud7ff\ue000\uffff\U00010000\U0010ffff"',
    '{"a": 1, "b": 2, "a": 3}': '{"a":3,"b":2}', '{"b": {"a": 1, "a": [2]}, "a": null, "b": 4}': '{"b":4,"a":null}', '{"": 0, "\\u0000": 1, "": 2}': '{"":2,"\\u0000":1}',
}
# Names in the order of their characters.
SORTED = {'{"b": 1, "a": {"y": 1, "x": 2}, "ab": 3, "": 4, "\u00e9": 5, "\uffff": 6, "\U00010000": 7, "B": 8}':
          '{"":4,"B":8,"a":{"x":2,"y":1},"ab":3,"b":1,"\u00e9":5,"\uffff":6,"\U00010000":7}'}

VALUE, DIGIT, MORE = "a value is missing", "a digit is missing", "the document goes on behind its value"
NAME, COLON, IN_ARRAY, IN_OBJECT = "a name is missing", "a : is missing", "a , or ] is missing", "a , or } is missing"
NO_END, CONTROL, ESCAPE = "a string has no end", "a string has a control character", "there is no such escape"
UNIT, SURROGATE, UTF8, LARGE = "\\u has four hexadecimal digits", "a surrogate has no partner", "these bytes are not UTF-8", "a number is too large for a double"
# Documents that are refused, each with the line, the column, and why.
REFUSED = [
    (b"", 1, 1, VALUE), (b" \n ", 2, 2, VALUE), (b"nul", 1, 1, VALUE), (b"nulL", 1, 1, VALUE), (b"True", 1, 1, VALUE), (b"NaN", 1, 1, VALUE),
    (b"Infinity", 1, 1, VALUE), (b"undefined", 1, 1, VALUE), (b"'a'", 1, 1, VALUE), (b"/* */ 1", 1, 1, VALUE), (b"\x0b1", 1, 1, VALUE), (b"\xc2\xa01", 1, 1, VALUE),
    (b"\xef\xbb\xbf1", 1, 1, VALUE), (b"\x00", 1, 1, VALUE), (b"nulls", 1, 5, MORE), (b"1 // 2", 1, 3, MORE), (b"1 2", 1, 3, MORE), (b"1\x00", 1, 2, MORE),
    (b"-", 1, 2, DIGIT), (b"-Infinity", 1, 2, DIGIT), (b"--1", 1, 2, DIGIT), (b"1.", 1, 3, DIGIT), (b"1.e5", 1, 3, DIGIT), (b"1e", 1, 3, DIGIT), (b"1e+", 1, 4, DIGIT),
    (b"1e+-1", 1, 4, DIGIT), (b"+1", 1, 1, VALUE), (b".5", 1, 1, VALUE), (b"01", 1, 2, MORE), (b"-01", 1, 3, MORE), (b"0x10", 1, 2, MORE), (b"1_0", 1, 2, MORE),
    (b"[1e400]", 1, 2, LARGE), (b"-" + b"9" * 400, 1, 1, LARGE),
    (b"[", 1, 2, VALUE), (b"[1", 1, 3, IN_ARRAY), (b"[1,", 1, 4, VALUE), (b"[1,]", 1, 4, VALUE), (b"[,1]", 1, 2, VALUE), (b"[1 2]", 1, 4, IN_ARRAY), (b"[1}", 1, 3, IN_ARRAY),
    (b"[1\x00]", 1, 3, IN_ARRAY), (b"]", 1, 1, VALUE), (b"[]]", 1, 3, MORE), (b"[1:2]", 1, 3, IN_ARRAY), (b"[[1]", 1, 5, IN_ARRAY),
    (b"{", 1, 2, NAME), (b"{}}", 1, 3, MORE), (b'{"a"', 1, 5, COLON), (b'{"a":', 1, 6, VALUE), (b'{"a":1', 1, 7, IN_OBJECT), (b'{"a":1,}', 1, 8, NAME), (b'{"a" 1}', 1, 6, COLON),
    (b"{a:1}", 1, 2, NAME), (b"{1:1}", 1, 2, NAME), (b"{null:1}", 1, 2, NAME), (b'{"a":1]', 1, 7, IN_OBJECT), (b'{"a":1 "b":2}', 1, 8, IN_OBJECT), (b'{"a","b"}', 1, 5, COLON),
    (b'{,"a":1}', 1, 2, NAME), (b'{"a"::1}', 1, 6, VALUE),
    (b'"abc', 1, 5, NO_END), (b'"', 1, 2, NO_END), (b'"a\nb"', 1, 3, CONTROL), (b'"a\tb"', 1, 3, CONTROL), (b'"\x00"', 1, 2, CONTROL), (b'"\x1f"', 1, 2, CONTROL),
    (b'"\\x41"', 1, 2, ESCAPE), (b'"\\', 1, 2, ESCAPE), (b'"\\\n"', 1, 2, ESCAPE), (b'"\\U0041"', 1, 2, ESCAPE), (b'"\\u12g4"', 1, 2, UNIT), (b'"\\u12', 1, 2, UNIT),
    (b'"\\u-123"', 1, 2, UNIT), (b'"\\ud800"', 1, 2, SURROGATE), (b'"\\udc00"', 1, 2, SURROGATE), (b'"\\ud800\\u0041"', 1, 2, SURROGATE), (b'"\\ud800\\ud800"', 1, 2, SURROGATE),
    (b'"\xff"', 1, 2, UTF8), (b'"\x80"', 1, 2, UTF8), (b'"\xc0\x80"', 1, 2, UTF8), (b'"\xc1\xbf"', 1, 2, UTF8), (b'"\xe0\x9f\xbf"', 1, 2, UTF8), (b'"\xed\xa0\x80"', 1, 2, UTF8),
    (b'"\xf0\x8f\xbf\xbf"', 1, 2, UTF8), (b'"\xf4\x90\x80\x80"', 1, 2, UTF8), (b'"\xe2\x82"', 1, 2, UTF8), (b'"\xe2\x82', 1, 2, UTF8), (b'"\xf8\x88\x80\x80\x80"', 1, 2, UTF8),
    (b'"\xf8\x90\x80\x80"', 1, 2, UTF8), (b'"\x82\x80"', 1, 2, UTF8), (b'"\\ud800\\ue000"', 1, 2, SURROGATE), (b'"\\udc00\\udc00"', 1, 2, SURROGATE),
    (b"[1,\n 2,\n x]", 3, 2, VALUE), (b"[1,\r\n 2 3]", 2, 4, IN_ARRAY), ('["\u00e9", x]'.encode(), 1, 7, VALUE), ('["\U0001f600\u20ac" "'.encode(), 1, 7, IN_ARRAY),
]
WRONG_OPTIONS = [["--indent"], ["--indent", "-1"], ["--indent", "101"], ["--indent", "x"], ["--heap", "0"], ["--most", "4294967296"], ["--sorted"], ["document.json"]]


def printed(path, document, *options):
    """Returns what the program does with a document."""
    return done([path, *options], input=document if isinstance(document, bytes) else document.encode())


def some_text(chance):
    letters = ["a", "Z", " ", '"', "\\", "/", "\n", "\t", "\x01", "\x7f", "\u00e9", "\u20ac", "\U0001f600", "\u2028", "0"]
    return "".join(chance.choice(letters) for _ in range(chance.choice([0, 1, 3, 6, 7, 8, 20, 60])))


def some_value(chance, depth=0):
    """Returns a random value. Its integers have at most 62 bits."""
    sort = chance.randrange(10 if depth < 6 else 7)
    if sort == 0:
        return chance.choice([None, True, False])
    if sort < 3:
        return chance.choice([0, -1, 2 ** 61 - 1, -2 ** 61, chance.randrange(-2 ** 61, 2 ** 61), chance.randrange(1000)])
    if sort < 5:
        return chance.choice([chance.random(), chance.uniform(-1e300, 1e300), chance.uniform(-1e3, 1e3), 0.0, -0.0, 1e16, 1.5e22, 5e-324, float(chance.randrange(10 ** 17))])
    if sort < 7:
        return some_text(chance)
    if sort < 9:
        return [some_value(chance, depth + 1) for _ in range(chance.choice([0, 1, 2, 5, 20]))]
    return {some_text(chance): some_value(chance, depth + 1) for _ in range(chance.choice([0, 1, 3, 9, 30]))}


def some_document(length):
    """Returns a random array whose text has more than `length` bytes."""
    chance, found, size = random.Random(SEED), [], 0
    while size < length:
        found.append(some_value(chance))
        size += len(json.dumps(found[-1], ensure_ascii=False).encode())
    return found


def by_hand(_program, folder):
    """Checks what documents print, and which are refused, and where."""
    for way, path, why in built_examples(folder, "json", SOURCES):
        yield "json by %s" % way, why
        for options, rows in [([], PRINTED), (["--sort"], SORTED)]:
            for document, text in rows.items() if why is None else []:
                yield "%s, %s" % (ascii(document), way), difference(printed(path, document, *options), Outcome(text.encode() + b"\n"))
        for document, line, column, said in REFUSED if why is None else []:
            wanted = Outcome(b"", ("json: line %d, column %d: %s\n" % (line, column, said)).encode(), 2)
            yield "%s is refused, %s" % (document, way), difference(printed(path, document), wanted)
        for options in WRONG_OPTIONS if why is None else []:
            yield "options %s, %s" % (" ".join(options), way), difference(printed(path, "1", *options), Outcome(b"", USAGE, 2))


def compared(_program, folder):
    """Compares a random document of 5 MB with Python's json, printed in each way, with sanitizers too."""
    for way, path, why in built_examples(folder, "json", SOURCES):
        if why:
            yield "json by %s" % way, why
            continue
        document = some_document(BYTES)
        for is_ascii in (True, False):
            text = json.dumps(document, ensure_ascii=is_ascii, indent=1)
            for options, like in STYLES:
                wanted = json.dumps(document, ensure_ascii=False, **like) + "\n"
                yield "%d bytes with %s, %s" % (len(text), options, way), difference(printed(path, text, *options), Outcome(wanted.encode()))


def large(_program, folder):
    """Checks documents that are nested deeply, long strings, many members, and a heap or an output without room."""
    for way, path, why in built_examples(folder, "json", SOURCES):
        if why:
            yield "json by %s" % way, why
            continue
        deep = "[" * MOST_LEVELS + "]" * MOST_LEVELS
        yield "many levels, %s" % way, difference(printed(path, deep), Outcome(deep.encode() + b"\n"))
        for begin, more in (("[", 0), ('{"a":', 4)):
            column = MOST_LEVELS * (1 + more) + 1
            said = "json: line 1, column %d: the document is nested too deeply\n" % column
            yield "too many levels of %s, %s" % (begin, way), difference(printed(path, begin * (MOST_LEVELS + 1)), Outcome(b"", said.encode(), 2))
        for length in (LONG - 1, LONG, LONG + 1, 2 * LONG, 2 * LONG + 1, 3000000):
            text = json.dumps(["x" * (length - 1) + "y", {"z" * length: 1, "z" * (length - 1): 2}], separators=(",", ":"))
            yield "strings of %d bytes, %s" % (length, way), difference(printed(path, text), Outcome(text.encode() + b"\n"))
        for length in (4095, 4096, 4097):  # the document's block has 4,096 bytes at first
            yield "%d bytes, %s" % (length, way), difference(printed(path, " " * (length - 2) + "12"), Outcome(b"12\n"))
        members = ["\"%d\":%d" % (i * 7919 % 30000, i) for i in range(60000)]
        wanted = json.dumps(json.loads("{%s}" % ",".join(members)), separators=(",", ":"))
        yield "many members, %s" % way, difference(printed(path, "{%s}" % ",".join(members)), Outcome(wanted.encode() + b"\n"))
        numbers = json.dumps(list(range(20000)))
        full = printed(path, numbers, "--heap", "1000", "--most", "20000")
        yield "a heap that is too small, %s" % way, difference(full, Outcome(b"", full.stderr, 1)) or (None if full.stderr.startswith(b"json: hp_reserve: The heap has no room") else full.stderr.decode())
        grown = printed(path, numbers, "--heap", "1000", "--most", "60000")
        yield "a heap that grows, %s" % way, difference(grown, Outcome(numbers.replace(" ", "").encode() + b"\n"))
        if os.path.exists("/dev/full"):
            refused = done(["/bin/sh", "-c", 'echo "[1]" | "$0" > /dev/full', path])
            yield "an output without room, %s" % way, difference(refused, Outcome(b"", b"json: standard output: No space left on device\n", 2))


GROUPS = [by_hand, compared, large]
