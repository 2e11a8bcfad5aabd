"""Compares the symbols of the libraries for C with bindings/c/symbols.txt, the list of what programs may link, and the versions with one another.

A symbol in the list stays, with its type, as docs/EMBEDDING.md says under 'Compatibility'.

It tests bindings/c/symbols.txt, the list of what programs may link: compared with the headers, by C99, C11 and C++11 with their types, and with the
symbols of the archive and of the shared library, both ways; all headers in one file; the calls that are deprecated; the numbers that calls return, with their classes in C and
Python; the places that say the version; the dates of CHANGELOG.
"""
import os
import re
import shutil
import sys

from .c_builds import TOP, WARNINGS, done, library
from .harness import file_of, skip

BINDINGS = os.path.join(TOP, "bindings")
LIST = os.path.join(BINDINGS, "c", "symbols.txt")
HEADERS = ["gcflip.h", "gcflip_heap.h", "gcflip_slots.h", "gcflip_images.h"]
DECLARED = re.compile(r"^((?:const )?\w+ \*?gcflip_\w+\([^;{]*\));", re.M)
NAME = re.compile(r"gcflip_\w+(?=\()")


def read(*parts):
    with open(os.path.join(TOP, *parts), encoding="utf-8") as file:
        return file.read()


def listed():
    """Returns the declarations of the list, in its order."""
    return [line for line in read("bindings", "c", "symbols.txt").split("\n") if line and not line.startswith("#")]


def declared(header):
    """Returns the declarations of a header, each on one line."""
    return [" ".join(found.split()) for found in DECLARED.findall(read("bindings", "c", header))]


def exported(words):
    """Returns the names that nm prints of symbols which are defined and begin with gcflip_. Those that begin with gcflip_inside_ join the library's
    own files; the shared library does not export them."""
    printed = done(["nm", "--defined-only", *words]).stdout.decode()
    names = {line.split()[-1] for line in printed.split("\n") if " T gcflip_" in line}
    return sorted(name for name in names if "-D" in words or not name.startswith("gcflip_inside_"))


def why_not_equal(found, wanted):
    """Returns what one row has beyond the other, or None."""
    more, less = sorted(set(found) - set(wanted)), sorted(set(wanted) - set(found))
    return None if not more and not less else "beyond the list: %s; missing: %s" % (more, less)


def symbols(_program, folder):
    built = library(folder)
    if built is None:
        return
    if not shutil.which("nm"):
        skip("c_symbols", "no nm")
        return
    names = [NAME.search(line).group() for line in listed()]
    yield "the list has each symbol once", None if len(set(names)) == len(names) else "it has one twice"
    yield "the headers declare the list", why_not_equal([line for header in HEADERS for line in declared(header)], listed())
    for what, words in [("archive", built.archive()), ("shared library", ["-D", os.path.join(built.lib, "libgcflip.so")])]:
        found = exported(words)
        yield "the %s exports the list" % what, why_not_equal(found, names)
        yield "a symbol beyond the list is seen in the %s" % what, None if why_not_equal([*found, "gcflip_more"], names) else "it is not"
        yield "a symbol that is missing in the %s is seen" % what, None if why_not_equal(found[1:], names) else "it is not"


# The ways in which a program may compile the headers, all together. In C99 a type has one typedef.
WAYS = [("C99", ["gcc", "-x", "c", "-std=c99"]), ("C11", ["gcc", "-x", "c", "-std=c11"]), ("C++11", ["g++", "-x", "c++", "-std=c++11"]),
        ("C++17", ["g++", "-x", "c++", "-std=c++17"])]
WRONG_TYPE = "uint32_t gcflip_heap_set_nil(gcflip_heap *heap, uint8_t m, uint16_t d);"
# A call of an adapter with a pointer to another type.
CALL_WITH = "uint64_t call(%s *given);\nuint64_t call(%s *given) { return gcflip_snapshot_constant(given, 0); }"


def installed_headers(way):
    """Returns the headers that bindings/c installs, for this way to compile them. One that ends in `.hpp` is for C++17."""
    found = re.search(r"(?m)^HEADERS := \$\(addprefix \$\(HERE\),(.*)\)$", read("bindings", "c", "Makefile")).group(1).split()
    return [header for header in found if header.endswith(".h") or way == "C++17"]


def why_not_compiled(words, folder, headers, lines):
    """Returns why a compiler refuses these lines behind the headers, or None. In C++ they are C's, so that no declaration overloads another one."""
    heads = "".join("#include \"%s\"\n" % header for header in headers)
    text = heads + "#ifdef __cplusplus\nextern \"C\" {\n#endif\n%s\n#ifdef __cplusplus\n}\n#endif\n" % "\n".join(lines)
    compiled = done([*words, "-pedantic-errors", "-fsyntax-only", *WARNINGS, "-I" + os.path.join(BINDINGS, "c"), file_of(folder, "types", text.encode())])
    return None if compiled.status == 0 else compiled.stderr.decode()


def types(_program, folder):
    """Declares the list again behind the headers, all in one file: a compiler refuses another type."""
    for name, words in WAYS:
        if not shutil.which(words[0]):
            skip("c_symbols.types in %s" % name, "no %s" % words[0])
            continue
        yield "types of the list in %s" % name, why_not_compiled(words, folder, HEADERS, [line + ";" for line in listed()])
        yield "all headers together in %s" % name, why_not_compiled(words, folder, installed_headers(name), ["extern FILE *gcflip_trace;"])
        yield "a snapshot is one in %s" % name, why_not_compiled(words, folder, HEADERS, [CALL_WITH.replace("%s", "gcflip_snapshot")])
        for what, line in [("another type", WRONG_TYPE), ("what a look writes, for a snapshot,", CALL_WITH.replace("%s", "gcflip_view"))]:
            yield "%s is refused in %s" % (what, name), None if why_not_compiled(words, folder, HEADERS, [line]) else "it is not"


# A file of C whose program asks to be told of deprecated calls, and takes the address of each of these functions.
USES = "%s#include \"gcflip_heap.h\"\nextern const void *uses[];\nconst void *uses[] = {%s};\n"
TOLD = re.compile(r"(?m)warning: .(gcflip_\w+). is deprecated: (gcflip_\w+) takes its place")


def deprecated(_program, folder):
    """A program that asks for it is told of each call of gcflip_slots.h, with the call of gcflip_heap.h that takes its place. Others are told nothing."""
    if not shutil.which("gcc"):
        skip("c_symbols.deprecated", "no gcc")
        return
    names = {header: {NAME.search(line).group() for line in declared(header)} for header in ("gcflip_heap.h", "gcflip_slots.h")}
    words = ["gcc", "-std=gnu11", "-fsyntax-only", "-I" + os.path.join(BINDINGS, "c")]
    told = {}
    for asked in ("", "#define GCFLIP_WARN_OF_SLOTS\n"):
        text = USES % (asked, ", ".join("(const void *)" + name for row in names.values() for name in sorted(row)))
        compiled = done([*words, file_of(folder, "uses.c", text.encode())])
        told[asked] = dict(TOLD.findall(compiled.stderr.decode().replace("\u2018", "'").replace("\u2019", "'")))
        yield "deprecated calls are compiled, %s" % (asked.strip() or "as they are"), None if compiled.status == 0 else compiled.stderr.decode()
    yield "a program that does not ask is told nothing", why_not_equal(told[""], {})
    yield "each call of gcflip_slots.h is told, and no other", why_not_equal(told[asked], names["gcflip_slots.h"])
    yield "what takes its place is in gcflip_heap.h", None if set(told[asked].values()) <= names["gcflip_heap.h"] else str(told[asked])


def versions(_program, _folder):
    """Compares the places that have to say the version, which the header fixes."""
    header = read("bindings", "c", "gcflip_answers.h")
    number = int(re.search(r"#define GCFLIP_VERSION (\d+)", header).group(1))
    text = re.search(r"#define GCFLIP_VERSION_TEXT \"([\d.]+)\"", header).group(1)
    major, minor, patch = [int(part) for part in text.split(".")]
    yield "the header's number is that of its text", None if number == 10000 * major + 100 * minor + patch else "it is %d" % number
    places = [("crates/gcflip_c/src/version.rt", r"const VERSION: u32 = (\d+);", str(number)),
              ("bindings/python/pyproject.toml", r"(?m)^version = \"(.*)\"", text), ("explore/pyproject.toml", r"(?m)^version = \"(.*)\"", text),
              ("explore/pyproject.toml", r"\"gcflip==(.*)\"", text), ("bindings/rust/Cargo.toml", r"(?m)^version = \"(.*)\"", text),
              ("crates/gcflip/src/task.rt", r"\.about\(\"gcflip ([\d.]+):", text), ("bindings/rust/Cargo.lock", r"name = \"gcflip\"\nversion = \"(.*)\"", text),
              ("bindings/python/gcflip/library.py", r"(?m)^VERSION = (\d+)", str(number)), ("CHANGELOG.md", r"(?m)^## (\d+\.\d+\.\d+)", text)]
    for path, pattern, wanted in places:
        found = re.search(pattern, read(*path.split("/")))
        yield "version in %s" % path, None if found and found.group(1) == wanted else "it is %s, wanted %s" % (found and found.group(1), wanted)
    dates = re.findall(r"(?m)^### (.*)$", read("CHANGELOG.md"))
    dated = all(re.fullmatch(r"\d{4}-\d\d-\d\d", date) for date in dates)
    yield "the sections of CHANGELOG.md have dates, newest first", None if dates and dated and dates == sorted(set(dates), reverse=True) else "they have %s" % dates


def listed_answers():
    """Returns the text of the enum that lists the answers."""
    return read("bindings", "c", "gcflip_answers.h").partition("enum gcflip_answer {")[2].partition("};")[0]


def answers(_program, _folder):
    """Compares the numbers that calls return, which gcflip_answers.h lists, with the rows of tests/c/answers.c and with Python's."""
    numbers = re.findall(r"(?m)^    GCFLIP_(\w+ = \d+)", listed_answers())
    rows = re.findall(r"(?m)^    \{GCFLIP_(\w+), (\d+), ", read("tests", "c", "answers.c"))
    yield "answers that tests/c/answers.c names", why_not_equal(["%s = %s" % row for row in rows] + ["YES = 0"], numbers)
    python = read("bindings", "python", "gcflip", "library.py").partition("class Answer(enum.IntEnum):")[2].partition("\n\n\n")[0]
    yield "answers of Python", why_not_equal(re.findall(r"(?m)^    (\w+ = \d+)$", python), numbers)


# Files of definitions by which contracts name answers, and the answers of gcflip_images.h, which has no contracts.
DEFINITIONS = [("gc_check", "InC"), ("gcflip_c", "Answers"), ("gc_in_c", "Answers"), ("gc_in_c", "Replies"), ("gcflip_heap_c", "Answers"), ("gcflip_heap_c", "Replies"), ("gcflip_heap_c", "Room"),
               ("gcflip_beside_c", "Answers")]
WITHOUT_CONTRACTS = {"FAULTY", "NOT_BEGUN"}
IN_DEFINITION = re.compile(r"(?m)^(?:\w+|(?:seen|reply|step_reply)_in_c .*) = (\d+)$")
# Prints the class of each number that has room in the enum, and more.
CLASSES_IN_C = b"""#include "gcflip_answers.h"
#include <stdio.h>
int main(void)
{
    for (uint32_t answer = 0; answer < 64; answer++)
        printf("%u\\n", gcflip_class_of(answer));
    return 0;
}
"""
# Prints what it says of each of them.
TEXTS_IN_C = CLASSES_IN_C.replace(b"%u", b"%s").replace(b"gcflip_class_of", b"gcflip_answer_text")
# Prints the names of each exception and of its bases.
CLASSES_IN_PYTHON = """import gcflip.errors as errors
for kind in vars(errors).values():
    if isinstance(kind, type) and issubclass(kind, errors.GcflipError):
        print(*[base.__name__ for base in kind.__mro__])
"""
# Prints the name of each exception that a heap raises, the text of one without an argument, and what it has for a text.
TEXTS_IN_PYTHON = """import gcflip.heap as heap
for kind in {**heap.NOTHING_DONE, **heap.REFUSED}.values():
    print(kind.__name__, str(kind()), kind.sentence, sep="|")
"""
CLASSES = ("Ok", "Lack", "Mismatch", "Misuse")
# Exceptions with another name than their answer, and the one that stands for none: a call within a call.
ANSWER_OF = {"OutOfMemory": "NO_MEMORY", "TooManyPairs": "TOO_MANY", "TextTooLarge": "TOO_LARGE", "Reentered": None}
# What the exceptions have beyond their answers: the bases of several.
BASES = {"GcflipError", "Lack", "Mismatch", "Misuse", "HeapRefused", "BadText"}
# The exceptions that calls on a heap raise for an answer.
OF_HEAPS = {"OutOfMemory", "OutOfRange", "Closed", "Damaged", "Parked", "FrameFull", "FrameEmpty", "Full", "NoObject", "NoField", "NoNumber", "Busy", "Idle", "NotReady", "FlipRefused"}


def answer_of(exception):
    """Returns the name of the answer that an exception stands for, or None."""
    return ANSWER_OF[exception] if exception in ANSWER_OF else re.sub(r"(?<!^)([A-Z])", r"_\1", exception).upper()


def texts(_program, folder):
    """Compares what the exceptions of a heap in Python say with what the header says of their answers."""
    numbers = {name: int(number) for name, number in re.findall(r"(?m)^    GCFLIP_(\w+) = (\d+)", listed_answers())}
    program = os.path.join(folder, "texts")
    built = done(["gcc", *WARNINGS, "-I" + os.path.join(BINDINGS, "c"), "-o", program, file_of(folder, "texts.c", TEXTS_IN_C)])
    yield "the texts are compiled", None if built.status == 0 else built.stderr.decode()
    in_c = done([program]).stdout.decode().split("\n")
    printed = done([sys.executable, "-c", TEXTS_IN_PYTHON], env=dict(os.environ, PYTHONPATH=os.path.join(BINDINGS, "python"), PYTHONDONTWRITEBYTECODE="1"))
    rows = [line.split("|") for line in printed.stdout.decode().splitlines()]
    yield "exceptions of a heap with texts", why_not_equal({row[0] for row in rows}, OF_HEAPS)
    for name, text, sentence in rows:
        wanted = in_c[numbers[answer_of(name)]]
        yield "the text of %s in Python" % name, why_not_equal((text, sentence), (wanted, wanted)) if wanted else "the header has none"


def classes(_program, folder):
    """Compares the answers with those that contracts name, and their classes in C with the bases of Python's exceptions."""
    numbers = {name: int(number) for name, number in re.findall(r"(?m)^    GCFLIP_(\w+) = (\d+)", listed_answers())}
    proved = {number for crate, file in DEFINITIONS for number in IN_DEFINITION.findall(read("crates", crate, "specs", file + ".antt"))}
    told = {str(number) for name, number in numbers.items() if name not in WITHOUT_CONTRACTS}
    yield "the header lists the answers of the contracts", why_not_equal(told, proved)
    program = os.path.join(folder, "classes")
    built = done(["gcc", *WARNINGS, "-I" + os.path.join(BINDINGS, "c"), "-o", program, file_of(folder, "classes.c", CLASSES_IN_C)])
    yield "the classes are compiled", None if built.status == 0 else built.stderr.decode()
    in_c = [CLASSES[int(line)] for line in done([program]).stdout.split()]
    yield "a number without an answer is misuse", None if {in_c[number] for number in range(64) if number not in numbers.values()} == {"Misuse"} else "it is not"
    printed = done([sys.executable, "-c", CLASSES_IN_PYTHON], env=dict(os.environ, PYTHONPATH=os.path.join(BINDINGS, "python"), PYTHONDONTWRITEBYTECODE="1"))
    exceptions = {line.split()[0]: set(line.split()) for line in printed.stdout.decode().splitlines()}
    for name in sorted(set(exceptions) - BASES):
        wanted = "Misuse" if answer_of(name) is None else in_c[numbers[answer_of(name)]]
        yield "the class of %s in Python" % name, why_not_equal(exceptions[name] & set(CLASSES), {wanted})
    never_raised = {name for name, number in numbers.items() if in_c[number] != "Ok"} - {answer_of(name) for name in exceptions}
    yield "answers without an exception", why_not_equal(never_raised, {"OPEN", "NO_ROOM", "NOT_BEGUN", "STARVED", "LONG_PATH", "NOT_YET"})


GROUPS = [symbols, types, deprecated, answers, classes, texts, versions]
