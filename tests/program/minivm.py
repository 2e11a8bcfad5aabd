"""Tests of examples/minivm, a virtual machine on herbpond.h: programs, errors, small and growing heaps, and little address space.

It tests examples/minivm by gcc and with sanitizers: what its programs print, what they leave in the heap, wrong texts and options, and a heap of 2 million
words in little address space.
"""
import glob
import os
import re

from .c_builds import TOP, built_examples, done
from .harness import Outcome, difference, file_of

FOLDER = os.path.join(TOP, "examples", "minivm")
SOURCES = sorted(glob.glob(os.path.join(FOLDER, "*.c")))
PROGRAMS = os.path.join(FOLDER, "programs")

# What each program prints. Its comments derive the numbers.
PRINTED = {
    "fib": b"0\n55\n6765\n",
    "lists": b"2020000\n55\nan array of 2\n",
    "texts": b"\nabcdefg\nabcdefgh\nabcdefghijklmno\n15\ntrue\nfalse\nfalse\n5000\n12345/-7\n" + b"0123456789" * 500 + b"\n458745\na text has at most 458745 bytes\n",
    "arrays": b"100000\n173725\n4999880005\n",
    "tables": b"3000\n0\n2247001\n1499\nnil\nnil\na table of 3000\n1122751000\n",
    "grows": b"50005000\n50005000\n2\n/: division by 0\n",
    "errors": b"/: division by 0\n+: a text is no integer\n[]: index 2 of an array of 2\n*: the result has more than 62 bits\n2305843009213693951\n"
              b"+: the result has more than 62 bits\n-2305843009213693952\n-: the result has more than 62 bits\n/: the result has more than 62 bits\n"
              b"stack overflow\ntwo takes 2 arguments\n/: division by 0!\na key is an integer or a text\n",
}
# The last line of errors.mini pushes to a number.
ENDS_BY = {"errors": b"error: push: an integer is no array\n"}
# The texts among the constants of a program, with that of the error for a full heap. Nothing else is reachable at the end.
CONSTANTS = {"fib": 1, "lists": 2, "texts": 25, "arrays": 1, "tables": 3, "grows": 1, "errors": 3}
FULL_HEAP = b"out of memory\nout of memory\n2\n/: division by 0\n"
STATS = re.compile(rb"made (\d+) objects of (\d+) words; (\d+) flips, (\d+) waits; the heap has (\d+) words\n"
                   rb"reachable: (\d+) of a text\nreachable: (\d+) of an array\nreachable: (\d+) of a table\n$")
WRONG_TEXTS = {
    b"print(1": b"minivm: line 1, at '': a ) is missing\n",
    b"\n\nlet = 2": b"minivm: line 3, at '2': a = is missing\n",
    b"print(x)": b"minivm: line 1, at ')': there is no such variable\n",
    b"f()": b"minivm: there is no function f\n",
    b"len(1, 2)": b"minivm: line 1, at '': another number of arguments\n",
    b"print(2147483648)": b"minivm: line 1, at '2147483648': a number in the text is at most 2147483647\n",
    b"print(\"a": b"minivm: line 1, at 'a': a string has no end\n",
    b"fn f() {} fn f() {}": b"minivm: line 1, at 'f': there are two such functions\n",
}
WRONG_OPTIONS = [[], ["--heap", "0", "FILE"], ["--heap", "4294967296", "FILE"], ["--heap", "-1", "FILE"], ["--most", "FILE"], ["--heep", "FILE"], ["FILE", "FILE"]]
# In KiB: less than two spaces of 2,000,000 words and the checker's tables take.
LITTLE = 40000


def path_of(name):
    return os.path.join(PROGRAMS, name + ".mini")


def outcome_of(name):
    return Outcome(PRINTED[name], ENDS_BY.get(name, b""), 1 if name in ENDS_BY else 0)


def stats_of(found):
    """Returns the numbers that --stats prints, or zeros if it printed none."""
    stats = STATS.search(found.stderr)
    return [int(number) for number in stats.groups()] if stats else [0] * 8


def programs(_program, folder):
    """Checks what each program prints in heaps of several sizes, and that it leaves its constants alone in the heap."""
    names = sorted(name[:-len(".mini")] for name in os.listdir(PROGRAMS))
    yield "each program has an outcome", None if names == sorted(PRINTED) else "there are %s" % names
    for way, path, why in built_examples(folder, "minivm", SOURCES):
        yield "minivm by %s" % way, why
        for name in names if why is None else []:
            for heap in (200000, 1000000):
                yield "%s in %d words, %s" % (name, heap, way), difference(done([path, "--heap", str(heap), path_of(name)]), outcome_of(name))
            reachable = stats_of(done([path, "--stats", path_of(name)]))[5:]
            yield "what %s leaves, %s" % (name, way), None if reachable == [CONSTANTS[name], 0, 0] else "reachable are %s" % reachable


def heaps(_program, folder):
    """Checks heaps that are collected, full, and that grow."""
    for way, path, why in built_examples(folder, "minivm", SOURCES):
        if why:
            yield "minivm by %s" % way, why
            continue
        found = done([path, "--heap", "5000", "--stats", path_of("lists")])
        objects, words, flips, _, size = stats_of(found)[:5]
        # 40,000 pairs twice, and one of 10, each of an array and a part, of 4 and 10 words; and two texts, of 6 and 4 words.
        wanted = 2 * 80010 + 2, 14 * 80010 + 10
        yield "a collected heap, %s" % way, None if found.stdout == PRINTED["lists"] and (objects, words) == wanted and flips > 200 and size == 5000 else found.stderr.decode()
        full = done([path, "--heap", "20000", path_of("grows")])
        yield "a full heap, %s" % way, difference(full, Outcome(FULL_HEAP))
        grown = done([path, "--heap", "20000", "--most", "1000000", "--stats", path_of("grows")])
        yield "a heap that grows, %s" % way, None if grown.stdout == PRINTED["grows"] and 140000 < stats_of(grown)[4] <= 1000000 else grown.stderr.decode()
        most = done([path, "--heap", "20000", "--most", "30000", "--stats", path_of("grows")])
        yield "a heap that grows too little, %s" % way, None if most.stdout == FULL_HEAP and stats_of(most)[4] == 30000 else most.stderr.decode()


def mistakes(_program, folder):
    """Checks what minivm says of wrong texts and options."""
    for way, path, why in built_examples(folder, "minivm", SOURCES):
        for text, said in WRONG_TEXTS.items() if why is None else []:
            yield "%s, %s" % (text.decode(), way), difference(done([path, file_of(folder, "wrong.mini", text)]), Outcome(b"", said, 2))
        for words in WRONG_OPTIONS if why is None else []:
            found = done([path, *words])
            yield "options %s, %s" % (" ".join(words), way), difference(found, Outcome(b"", b"usage: minivm [--heap WORDS] [--most WORDS] [--stats] FILE\n", 2))


def little_address_space(_program, folder):
    """Checks that programs end as usual in a heap of 2,000,000 words while the system refuses the memory of each collection."""
    for way, path, why in built_examples(folder, "minivm", SOURCES):
        if way != "gcc" or why:
            continue
        for name in sorted(PRINTED):
            words = ["/bin/sh", "-c", 'ulimit -v %d; exec "$0" "$@"' % LITTLE, path, "--heap", "2000000", path_of(name)]
            yield "%s in little address space" % name, difference(done(words), outcome_of(name))
        refused = done([*words[:-1], "--stats", path_of("lists")]).stderr
        yield "a collection is refused memory", None if refused.startswith(b"minivm: hp_collect: The system refused memory") else refused.decode()


GROUPS = [programs, heaps, mistakes, little_address_space]
