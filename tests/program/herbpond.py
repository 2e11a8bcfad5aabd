"""Tests of herbpond.h, herbpond_arrays.h and herbpond.hpp as headers: each compiles alone, and programs that mix up types of herbpond.hpp do not compile.

c_library runs the programs of tests/c over them.
"""
import os
import shutil

from .c_builds import TOP, WARNINGS, done
from .harness import file_of, skip

BINDINGS = os.path.join(TOP, "bindings", "c")
C11, CPP11, CPP17 = ["gcc", "-x", "c", "-std=c11"], ["g++", "-x", "c++", "-std=c++11"], ["g++", "-x", "c++", "-std=c++17"]
ALONE = [("herbpond.h", C11), ("herbpond.h", CPP11), ("herbpond_arrays.h", C11), ("herbpond_arrays.h", CPP11), ("herbpond.hpp", CPP17)]

# A program of herbpond.hpp around a line.
PROGRAM = """#include "herbpond.hpp"
using namespace herbpond;
struct Point {
    static constexpr std::uint32_t kind = 2, fields = 1;
    static constexpr Field<Point, std::int64_t, 0> x{};
};
struct Pair {
    static constexpr std::uint32_t kind = 1, fields = 2;
    static constexpr Field<Pair, std::int64_t, 0> number{};
    static constexpr Field<Pair, Pair, 1> rest{};
    static constexpr Field<Pair, std::int64_t, 2> third{};
    static constexpr Field<Pair, int, 0> narrow{};
};
struct Bytes {
    static constexpr std::uint32_t kind = 3, fields = 1;
    static constexpr bool raw = true;
    static constexpr Field<Bytes, std::uint64_t, 0> word{};
    static constexpr Field<Bytes, Pair, 0> pair{};
};
struct Reserved {
    static constexpr std::uint32_t kind = 254, fields = 1;
};
struct Name {
    static constexpr std::uint32_t kind = 4;
    static constexpr bool text = true;
};
struct Path {
    static constexpr std::uint32_t kind = 5;
    static constexpr bool text = true;
};
struct ReservedText {
    static constexpr std::uint32_t kind = 253;
    static constexpr bool text = true;
};
void take(Root<Pair> pair);
void use(Heap &heap, Root<Pair> &pair, Root<Point> &point, Root<Bytes> &bytes, Weak<Pair> &weak, Root<Name> &name, Root<Path> &path)
{
    (void)heap, (void)pair, (void)point, (void)bytes, (void)weak, (void)name, (void)path;
    %s
}
"""
# What a program may say, and beside it what it may not, and what the compiler's message has.
RIGHT_AND_WRONG = [
    ("point[Point::x] = 1;", "pair[Point::x] = 1;", "Point"),
    ("pair[Pair::rest] = pair;", "pair[Pair::rest] = point;", "Root<"),
    ("pair[Pair::rest] = nullptr;", "pair[Pair::rest] = 5;", "operator="),
    ("Root<Pair> read = pair[Pair::rest];", "Root<Point> read = pair[Pair::rest];", "Root<"),
    ("std::int64_t read = pair[Pair::number]; (void)read;", "Root<Pair> read = pair[Pair::number];", "Root<"),
    ("Root<Pair> other = pair.copy();", "Root<Pair> other = pair;", "deleted"),
    ("take(std::move(pair));", "take(pair);", "deleted"),
    ("pair = heap.make<Pair>();", "pair = heap.make<Point>();", "operator="),
    ("weak = heap.watch(pair);", "Weak<Pair> other = weak;", "deleted"),
    ("weak = heap.watch(pair);", "weak = heap.watch(point);", "operator="),
    ("heap.collect();", "Heap other = heap;", "deleted"),
    ("pair[Pair::number] = 1;", "pair[Pair::third] = 1;", "the kind has fewer fields"),
    ("bytes[Bytes::word] = 1;", "bytes[Bytes::pair] = pair;", "a field of a raw object"),
    ("auto number = pair[Pair::number].get(); (void)number;", "auto place = pair[Pair::number]; place = 1;", "operator="),
    ("(void)(pair == pair);", "(void)(pair == point);", "operator=="),
    ("heap.make<Pair>();", "heap.make<Reserved>();", "a kind is below 253"),
    ("pair[Pair::number] = 1;", "pair[Pair::narrow] = 1;", "Value<int>"),
    ('name = heap.make_text<Name>("a");', 'pair = heap.make_text<Pair>("a");', "the kind has no texts"),
    ('name = heap.make_text<Name>("a");', 'heap.make_text<ReservedText>("a");', "a kind is below 253"),
    ("heap.make<Pair>();", "heap.make<Name>();", "make_text makes a text"),
    ("name = heap.join(name, name);", "name = heap.join(name, path);", "join"),
    ("name = heap.join(name, name);", "pair = heap.join(pair, pair);", "the kind has no texts"),
    ("name = heap.part(name, 0, 1);", "path = heap.part(name, 0, 1);", "operator="),
    ("name = heap.part(name, 0, 1);", "bytes = heap.part(bytes, 0, 1);", "the kind has no texts"),
    ("(void)name.length();", "(void)pair.length();", "the kind has no texts"),
    ("(void)name.read();", "(void)bytes.read();", "the kind has no texts"),
    ("(void)name.compare(name);", "(void)name.compare(path);", "compare"),
    ("(void)name.has_bytes_of(name);", "(void)pair.has_bytes_of(pair);", "the kind has no texts"),
]


def compiled(words, folder, text):
    """Returns the outcome of a compilation."""
    return done([*words, "-fsyntax-only", *WARNINGS, "-I" + BINDINGS, file_of(folder, "source", text.encode())])


def has(words, what):
    """Returns whether the compiler is there. If not, a line says so."""
    if shutil.which(words[0]):
        return True
    skip("herbpond.%s" % what, "no %s" % words[0])
    return False


def alone(_program, folder):
    """Compiles each header alone."""
    for header, words in ALONE:
        if has(words, "alone"):
            made = compiled(words, folder, '#include "%s"\n' % header)
            yield "%s by %s" % (header, words[-1]), None if made.status == 0 else made.stderr.decode()


def wrong_types(_program, folder):
    """Checks that lines which mix up types do not compile, and that the right ones do."""
    for right, wrong, said in RIGHT_AND_WRONG if has(CPP17, "wrong_types") else []:
        made = compiled(CPP17, folder, PROGRAM % right)
        yield right, None if made.status == 0 else made.stderr.decode()
        made = compiled(CPP17, folder, PROGRAM % wrong)
        yield wrong, None if made.status != 0 and said in made.stderr.decode() else "status %s: %s" % (made.status, made.stderr.decode())


GROUPS = [alone, wrong_types]
