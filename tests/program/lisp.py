"""Tests of examples/lisp, a Lisp in C on the collected heap: programs, errors, small heaps, full heaps, out of memory, and traces.

It tests examples/lisp, by gcc, with sanitizers and by valgrind: its programs, values and errors, the pace, heaps that are too small or full, each
allocation of the library refused in turn, recorded runs played and reported, how its flips were checked and the time that they left. Programs, values,
errors, interrupts and full heaps are tested on the heap with a collector's thread too.
"""
import atexit
import copy
import functools
import glob
import os
import re
import resource
import shutil
import signal
import subprocess
import tempfile
import time

from .c_builds import SANITIZERS, SOURCES as C_SOURCES, THREAD_SANITIZER, TOP, VALGRIND, WARNINGS, Library, done, has_valgrind, helgrind, library, thread_sanitizer_options, usable
from .documents import blocks
from .harness import Outcome, difference, file_of, run

FOLDER = os.path.join(TOP, "examples", "lisp")
SOURCES = sorted(glob.glob(os.path.join(FOLDER, "*.c")))
PROGRAMS = os.path.join(FOLDER, "programs")
DOCUMENT = os.path.join("examples", "lisp", "README.md")

# The programs by name, with the heap sizes for their runs. The strings need 32771 words for one string.
HEAPS = {
    "churn": [20000],
    "identity": [24000, 262144],
    "nqueens": [6000, 262144],
    "primes": [8000, 1048576],
    "queue": [20000, 262144],
    "strings": [262144],
    "tak": [5000, 262144],
    "weak": [24000, 262144],
}

# The switch for the heap with a collector's thread.
BESIDE = "--beside"

# The input, and the printed values, with | or spaces between them.
EVALUATED = {
    "integers": (
        "(+ 1 2 3) (+) (- 5) (- 10 1 2) (* 2 3 4) (quotient -7 2) (remainder -7 2) (modulo -7 2) (modulo 7 -2) +7 -0",
        "6 0 -5 7 24 -3 -1 1 -1 7 0"),
    "bounds of integers": (
        "4611686018427387903 -4611686018427387904 (+ 4611686018427387902 1) (- -4611686018427387903 1) (* 2147483648 -2147483648)"
        " (- -4611686018427387904 -4611686018427387904) (= -1 (- 4611686018427387902 4611686018427387903))",
        "4611686018427387903|-4611686018427387904|4611686018427387903|-4611686018427387904|-4611686018427387904|0|#t"),
    "comparisons": ("(< 1 2 3) (< 1 3 2) (= 1 1 1) (>= 3 3 1) (> 3 3) (<= -1 0)", "#t #f #t #t #f #t"),
    "lists": (
        "'(1 (2 . 3) () \"x\") (cons 1 2) (list) (append '(1) '() '(2 3) 4) (append) (append 5) (reverse '(1 2 3)) (length '(1 2))",
        '(1 (2 . 3) () "x")|(1 . 2)|()|(1 2 3 . 4)|()|5|(3 2 1)|2'),
    "library": (
        "(map - '(1 2)) (filter zero? '(0 1 0)) (fold cons '() '(1 2)) (assoc \"b\" '((\"a\" 1) (\"b\" 2))) (member 3 '(1 2)) (iota 3)",
        '(-1 -2)|(0 0)|(2 1)|("b" 2)|#f|(0 1 2)'),
    "strings": (
        '(string-append "ab" "" "cdefgh") (string-length "é") (substring "abcdefghij" 6 8) (string=? "a" "a") (number->string -12)'
        ' (string->symbol "x y") "a\\n\\t\\"\\\\"', '"abcdefgh"|2|"gh"|#t|"-12"|x y|"a\\n\\t\\"\\\\"'),
    "same and equal": (
        "(eq? 'a 'a) (eq? \"a\" \"a\") (equal? \"a\" \"a\") (equal? '(1 (2 \"x\")) (list 1 (list 2 \"x\"))) (equal? '(1 2) '(1 3)) (eq? '() '())",
        "#t|#f|#t|#t|#f|#t"),
    "forms": (
        "(if #f 1 2) (if '() 1 2) (cond (#f 1) ((+ 1 1)) (else 3)) (cond (#f 1) (else 3 4)) (and) (and 1 2) (and #f (car 1)) (or) (or #f 3)"
        " (or 1 (car 1)) (begin 1 2)", "2|1|2|4|#t|2|#f|#f|3|1|2"),
    "let": (
        "(let ((x 1) (y 2)) (+ x y)) (let* ((x 1) (y (+ x 1)) (z (* y 2))) (list x y z)) (let* () 7)"
        " (letrec ((even (lambda (n) (or (= n 0) (odd (- n 1))))) (odd (lambda (n) (and (> n 0) (even (- n 1)))))) (even 101))"
        " (let loop ((i 0) (sum 0)) (if (= i 5) sum (loop (+ i 1) (+ sum i))))", "3|(1 2 4)|7|#f|10"),
    "functions": (
        "((lambda (a . others) (list a others)) 1 2 3) ((lambda all all)) (apply max '(3 4))"
        " (define (adder n) (lambda (m) (+ n m))) ((adder 3) 4) (adder 1) car adder"
        " (define (f n) (define two 2) (define (g n) (* two n)) (g n)) (f 21)",
        "(1 (2 3))|()|4|7|#<function>|#<function car>|#<function adder>|42"),
    "counter": (
        "(define (counter) (let ((n 0)) (lambda () (set! n (+ n 1)) n))) (define a (counter)) (define b (counter)) (a) (a) (b)", "1|2|1"),
    "comments and quotes": ("; nothing\n'a ''a '(a . (b)) ; behind\n#t #f", "a|(quote a)|(a b)|#t|#f"),
    "a list that contains itself": ("(define x (list 1)) (set-cdr! x x) (car (cdr (cdr x)))", "1"),
    "hashtables": (
        "(define t (make-eq-hashtable)) (hashtable-set! t 'a 1) (hashtable-set! t 'a 2) (hashtable-set! t \"a\" 3) (hashtable-ref t 'a 0) (hashtable-ref t \"a\" 7)"
        " (hashtable-size t) (hashtable-delete! t 'a) (hashtable-delete! t 'a) (hashtable-size t) (hashtable-ref t 'a 8) t (hashtable? t) (hashtable? 'a)",
        "2|7|2|1|8|#<hashtable>|#t|#f"),
    "tables as keys": ("(define t (make-weak-eq-hashtable)) (hashtable-set! t t t) (hashtable-ref t t 0) (hashtable-set! t #f '()) (hashtable-ref t #f 0)",
                       "#<hashtable>|()"),
    "weak pairs": (
        "(define k (list 1)) (define p (weak-cons k '(2))) p (weak-pair? p) (weak-pair? k) (pair? p) (weak-car p) (eq? (weak-car p) k) (weak-cdr p)"
        " (weak-car (weak-cons 5 6)) (weak-car (weak-cons '() 6)) (weak-car (weak-cons #f 6)) (weak-cdr (weak-cons 5 6)) (weak-pair/car? p) (weak-pair/car? (weak-cons 5 6)) (define q (weak-cons p p)) (eq? (weak-car q) p)",
        "#<weak pair>|#t|#f|#f|(1)|#t|(2)|5|()|#f|6|#t|#t|#t"),
    "exit": ("1 (exit) 2", "1"),
}

# The input, and its errors.
WRONG = [
    ("(car 7)", "input, line 1, column 1: car expects a pair, but found 7"),
    ("\n  (list 1\n   (car \"é\" ))", "input, line 3, column 4: car expects a pair, but found \"é\""),
    ("(define (f x) (+ x 'a))\n(f 1)", "input, line 1, column 15: + expects an integer, but found a"),
    ("nowhere", "input, line 1, column 1: nothing is defined as nowhere"),
    ("(+ 1 (quotient 2 1) nowhere)", "input, line 1, column 21: nothing is defined as nowhere"),
    ("(set! nowhere 1)", "input, line 1, column 7: nothing is defined as nowhere"),
    ("(let ((x (car '()))) x)", "input, line 1, column 10: car expects a pair, but found ()"),
    ("(letrec ((x y) (y 1)) x)", "input, line 1, column 13: no value yet for y"),
    ("((lambda (x) x))", "input, line 1, column 1: expected 1 argument, but found 0, for #<function>"),
    ("(define (f x y . z) x) (f 1)", "input, line 1, column 24: expected at least 2 arguments, but found 1, for #<function f>"),
    ("(hashtable-ref 1 'a 0)", "input, line 1, column 1: hashtable-ref expects a hashtable, but found 1"),
    ("(hashtable-set! (make-eq-hashtable) 5 1)", "input, line 1, column 1: hashtable-set! expects an object with an identity, but found 5"),
    ("(finalize! '() car)", "input, line 1, column 1: finalize! expects an object with an identity, but found ()"),
    ("(weak-car (cons 1 2))", "input, line 1, column 1: weak-car expects a weak pair, but found (1 . ...)"),
    ("(weak-cdr 7)", "input, line 1, column 1: weak-cdr expects a weak pair, but found 7"),
    ("(cons 1)", "input, line 1, column 1: expected 2 arguments, but found 1, for cons"),
    ("(5 6)", "input, line 1, column 1: expected a function to call, but found 5"),
    ("(length '(1 . 2))", "input, line 1, column 1: length expects a list, but found (1 . ...)"),
    ("(let ((x (list 1))) (set-cdr! x x) (length x))", "input, line 1, column 36: length expects a list, but found (1 1 1 1 1 1 1 1 ...)"),
    ("(quotient 1 0)", "input, line 1, column 1: quotient by 0"),
    ("(* 4611686018427387903 2)", "input, line 1, column 1: the result of * is out of range: integers have 63 bits"),
    ("(+ 4611686018427387903 1)", "input, line 1, column 1: the result of + is out of range: integers have 63 bits"),
    ("(- -4611686018427387904)", "input, line 1, column 1: the result of - is out of range: integers have 63 bits"),
    ("4611686018427387904", "input, line 1, column 1: 4611686018427387904 is out of range: integers are -4611686018427387904 to"
                            " 4611686018427387903"),
    ("-99999999999999999999999", "input, line 1, column 1: -99999999999999999999999 is out of range: integers are -4611686018427387904 to"
                                 " 4611686018427387903"),
    ("(substring \"abc\" 2 5)", "input, line 1, column 1: substring expects 0 <= start <= end <= 3, but found 2 and 5"),
    ("()", "input, line 1, column 1: expected an expression, but found (): '() is the empty list"),
    ("(if)", "input, line 1, column 1: expected (if TEST THEN) or (if TEST THEN ELSE)"),
    ("(if 1 2 3 4)", "input, line 1, column 1: expected (if TEST THEN) or (if TEST THEN ELSE)"),
    ("(let ((x)) x)", "input, line 1, column 1: expected (let ((NAME EXPRESSION) ...) EXPRESSION ...), perhaps with a name behind the let"),
    ("(let* 5 x)", "input, line 1, column 1: expected (let* ((NAME EXPRESSION) ...) EXPRESSION ...)"),
    ("(cond (#f 1) (else))", "input, line 1, column 14: expected (cond (TEST EXPRESSION ...) ... (else EXPRESSION ...))"),
    ("(define (f) (define x 1))", "input, line 1, column 1: expected an expression behind the definitions of a body"),
    ("((lambda () (define x 1) (define y 2)))", "input, line 1, column 2: expected an expression behind the definitions of a body"),
    ("((lambda () 1 (define x 2)))", "input, line 1, column 15: expected an expression: definitions stand outside of functions, or first in a body"),
    ("(list \0)", "input, line 1, column 7: expected an expression, but found a byte 0"),
    ("(define x)", "input, line 1, column 1: expected (define NAME EXPRESSION) or (define (NAME NAME ...) EXPRESSION ...)"),
    ("(lambda (1) 2)", "input, line 1, column 1: expected a name for an argument, but found 1"),
    ("(define if 3)", "input, line 1, column 9: expected the name of a variable, but found the keyword if"),
    ("(error \"no such room:\" '(1 (2) \"x\"))", 'input, line 1, column 1: no such room: (1 (...) "x")'),
    ("(1 . 2)", "input, line 1, column 1: expected a call, but found a list that ends in a ."),
    (")", "input, line 1, column 1: expected an expression, but found a ) without a ("),
    ("(1 .)", "input, line 1, column 5: expected an expression behind the ., but found a )"),
    ("(. 1)", "input, line 1, column 2: expected an expression, but found a ."),
    ("(1 . 2 3)", "input, line 1, column 8: expected a ) behind the one expression that follows a ."),
    ("(quote ')", "input, line 1, column 9: expected an expression behind the ', but found a )"),
    ("\"a\\q\"", "input, line 1, column 4: expected n, t, \" or \\ behind a \\ in a string"),
    ("#x", "input, line 1, column 1: expected an expression, but found #x"),
    ("(list\n (+ 1\n", "input, line 2, column 2: the text ends inside the list that begins here: a ) is missing"),
    (" \"abc", "input, line 1, column 2: the text ends inside the string that begins here: a \" is missing"),
    ("'", "input, line 1, column 1: the text ends behind this ': an expression is missing"),
    ("x" * 256, "input, line 1, column 1: a name or a number has at most 255 bytes"),
]

# Wrong options.
WRONG_OPTIONS = [[BESIDE, "--record", "/dev/null"], ["--record", "/dev/null", BESIDE], [BESIDE, "--heap"], ["--besides"], ["--heap"], ["--heap", "0"], ["--heap", "4294967296"], ["--heap", "1048577", "--record", "/dev/null"], ["--heap", "12x"], ["--heap", "-1"], ["--heep", "5"], ["--record"],
                 ["--record", "/"]]

TOTALS = re.compile(rb"(\d+) collections copied (\d+) objects\n(\d+) words were allocated, [\d.]+ times the heap\n"
                    rb"(\d+) whole collections held up an allocation\n$")
THREAD_TOTALS = re.compile(rb"(\d+) collections in a thread stopped the program (\d+) times\n(\d+) safepoints waited until the collector had caught up\n"
                           rb"the longest wait of a safepoint took ([\d.]+) us\n(\d+) words were allocated, [\d.]+ times the heap\n"
                           rb"(\d+) whole collections held up an allocation\n$")
FULL = re.compile(rb"error: input, line \d+, column \d+: the heap is full: (\d+) of its (\d+) words are in use, and \d+ more are needed"
                  rb" \(--heap WORDS makes it larger\)\n")


class Both(Library):
    """Both libraries on whose heaps the Lisp runs."""

    def install(self, prefix, target="install"):
        made = super().install(prefix, target)
        return made if made.status != 0 else super().install(prefix, "install-beside")

    def archive(self):
        return [*super().archive(), os.path.join(self.lib, "libgcflip_beside.a")]


class Lisp:
    """The Lisp, built by a compiler."""

    def __init__(self, built, name, compiler, more=()):
        self.built = built
        self.path = os.path.join(built.folder, "lisp by %s" % name)
        self.options = []
        words = [*compiler, "-std=c11", "-O2", "-pthread", *WARNINGS, "-I" + os.path.join(built.prefix, "include"), "-I" + FOLDER, "-o", self.path]
        made = done([*words, *SOURCES, *more, *built.archive()])
        self.why = None if made.status == 0 else "not built: %s" % made.stderr.decode()

    def beside(self):
        """Returns the Lisp on the heap with a collector's thread."""
        other = copy.copy(self)
        other.options = [BESIDE]
        return other

    def is_beside(self):
        return self.options == [BESIDE]

    def run(self, text, *words, **more):
        return done([self.path, *self.options, *words], input=text.encode(), **more)

    def run_program(self, name, *words):
        return done([self.path, *self.options, *words, os.path.join(PROGRAMS, name + ".lisp")])


WAYS = [("gcc", ["gcc"]), ("gcc with sanitizers", ["gcc", *SANITIZERS])]


@functools.lru_cache(maxsize=None)
def built_lisps():
    """Returns the name of each way of building, with the Lisp. Builds once for all groups, in a folder that lives as long as the run."""
    folder = tempfile.mkdtemp()
    atexit.register(shutil.rmtree, folder)
    built = library(folder, Both)
    return [(name, Lisp(built, name, compiler)) for name, compiler in WAYS if built and usable(folder, name, compiler)]


def lisps_on_both_heaps():
    """Returns the name of each way of building, with the Lisp on each of its heaps."""
    return [(name + on, on_heap) for name, lisp in built_lisps() for on, on_heap in [("", lisp), (" " + BESIDE, lisp.beside())]]


def content(name):
    with open(os.path.join(PROGRAMS, name), "rb") as file:
        return file.read()


def totals(outcome):
    """Returns the words, the collections, the copied objects and the waits that --pauses prints."""
    collections, copied, words, waits = [int(number) for number in TOTALS.search(outcome.stderr).groups()]
    return words, collections, copied, waits


def calls_of(outcome):
    """Returns how often --pauses says that each call on the heap was made, by its name."""
    return {name.decode(): int(number) for name, number in re.findall(rb"\n  [\d.]+ us: (gcflip_\w+)[^;\n]*; (\d+) calls", outcome.stderr)}


def programs(_program, _folder):
    """Checks that each program prints what its comments derive, on both heaps."""
    known = sorted(name[:-len(".lisp")] for name in os.listdir(PROGRAMS) if name.endswith(".lisp"))
    yield "each program has a heap", None if known == sorted(HEAPS) else "there are %s" % known
    for way, lisp in lisps_on_both_heaps():
        yield "examples/lisp by %s" % way, lisp.why
        for name, heaps in HEAPS.items() if lisp.why is None else []:
            for heap in heaps:
                found = lisp.run_program(name, "--heap", str(heap))
                yield "%s in %d words, %s" % (name, heap, way), difference(found, Outcome(content(name + ".output")))


def collector_threads(_program, _folder):
    """Checks that the collector's thread has flipped, and that only its heap is called."""
    for way, lisp in lisps_on_both_heaps():
        if not lisp.is_beside() or lisp.why is not None:
            continue
        found = lisp.run_program("churn", "--heap", "20000", "--pauses")
        flips, stops, _, longest, words, waits = [float(number) for number in THREAD_TOTALS.search(found.stderr).groups()]
        # A flip frees at most the whole heap, which is empty at the beginning. The calls that reserve room keep the collector ahead of allocations, unless
        # a busy machine gives its thread no processor for long.
        is_right = flips >= words / 20000 - 1 >= 100 and stops >= flips and longest > 0 and waits * 20 <= flips
        yield "flips of churn, %s" % way, None if is_right else found.stderr[-300:]
        foreign = [name for name in calls_of(found) if not name.startswith(("gcflip_beside_", "gcflip_thread_"))]
        yield "calls of churn, %s" % way, "there are %s" % foreign if foreign else None
        calls = calls_of(lisp.run("1 " * 100, "--pauses"))
        allocations = calls["gcflip_beside_new"] + calls.get("gcflip_beside_new_raw", 0)
        # Each allocation reserves its room, and each of the evaluator's steps is a safepoint. A number takes two: its value is found, and no frame is left.
        reserved, found = calls["gcflip_thread_reserve"], calls["gcflip_thread_safepoint"]
        is_right = reserved == allocations >= 100 and found == 2 * 100
        yield "safepoints of 100 numbers, %s" % way, None if is_right else "%d, and %d with %d allocations" % (found, reserved, allocations)
        raw = calls_of(lisp.run("\"four\" \"texts\" \"of\" \"words\"", "--pauses")).get("gcflip_beside_new_raw")
        yield "strings are raw objects, %s" % way, None if raw == 4 else "%s, wanted 4" % raw
        # Sanitizers would take minutes.
        if way == "gcc " + BESIDE:
            found = lisp.run(LARGE_TABLE % "make-weak-eq-hashtable", "--heap", "1000000", "--pauses")
            is_right = found.stdout == b"16384\n134209536\n16384\n1\n" and int(THREAD_TOTALS.search(found.stderr).group(1)) > 5
            yield "16384 entries, %s" % way, None if is_right else "%r, %r" % (found.stdout, found.stderr[-300:])


def by_valgrind(_program, _folder):
    """Checks that values, errors and a whole collection read nothing that was never written, and lose no block."""
    if not built_lisps() or not has_valgrind("examples/lisp"):
        return
    _, lisp = built_lisps()[0]
    yield "examples/lisp, for valgrind", lisp.why
    texts = {name: (text, "".join(line + "\n" for line in values.split("|" if "|" in values else " "))) for name, (text, values) in EVALUATED.items()}
    texts["a loop"] = ("(define (spin n) (if (= n 0) 'done (spin (- n 1)))) (spin 2000)", "done\n")
    for name, (text, printed) in texts.items() if lisp.why is None else []:
        found = done([*VALGRIND, lisp.path, "--heap", "20000"], input=(text + "\n").encode())
        yield "%s, by valgrind" % name, difference(found, Outcome(printed.encode()))
    for name in ("lists", "strings", "hashtables", "weak pairs", "a loop") if lisp.why is None else []:
        text, printed = texts[name]
        found = done([*VALGRIND, lisp.path, BESIDE, "--heap", "20000"], input=(text + "\n").encode())
        yield "%s, %s by valgrind" % (name, BESIDE), difference(found, Outcome(printed.encode()))


def races(_program, folder):
    """Checks that no race is found in the Lisp beside a collector's thread: neither by Helgrind, nor by ThreadSanitizer, which sees the Lisp and
    gcflip_thread.c, and not the archive. The threads meet at flips, after which tables are followed."""
    if not built_lisps():
        return
    _, lisp = built_lisps()[0]
    if has_valgrind("examples/lisp") and lisp.why is None:
        text = b"(define (spin n) (if (= n 0) 'done (spin (- n 1)))) (spin 5000)\n"
        found = done([*helgrind(folder), lisp.path, BESIDE, "--heap", "20000", "--pauses"], input=text)
        totals = THREAD_TOTALS.search(found.stderr)
        is_right = found.status == 0 and found.stdout == b"done\n" and totals and int(totals.group(1)) > 0
        yield "examples/lisp %s by helgrind" % BESIDE, None if is_right else "status %s: %s" % (found.status, found.stderr.decode()[-2000:])
    if usable(folder, "examples/lisp with ThreadSanitizer", ["gcc", *THREAD_SANITIZER]):
        watched = Lisp(lisp.built, "ThreadSanitizer", ["gcc", *THREAD_SANITIZER], [os.path.join(TOP, "bindings", "c", "gcflip_thread.c")])
        yield "examples/lisp with ThreadSanitizer", watched.why
        if watched.why is None:
            # The program `weak` would take minutes.
            words = [watched.path, BESIDE, "--heap", "24000", "--pauses", os.path.join(PROGRAMS, "identity.lisp")]
            found = done(words, env=thread_sanitizer_options(folder))
            totals = THREAD_TOTALS.search(found.stderr)
            is_right = found.status == 0 and found.stdout == content("identity.output") and totals and int(totals.group(1)) > 0
            yield "identity %s with ThreadSanitizer" % BESIDE, None if is_right else "status %s: %s" % (found.status, found.stderr.decode()[-2000:])


def evaluating(_program, _folder):
    """Checks values, errors with their places, and that the REPL continues after each error."""
    for way, lisp in lisps_on_both_heaps():
        for name, (text, values) in EVALUATED.items() if lisp.why is None else []:
            lines = values.split("|" if "|" in values else " ")
            wanted = Outcome("".join(line + "\n" for line in lines).encode())
            yield "%s, %s" % (name, way), difference(lisp.run(text + "\n"), wanted)
        for text, error in WRONG:
            wanted = Outcome(b"", ("error: %s\n" % error).encode())
            yield "error of %s, %s" % (text[:40], way), difference(lisp.run(text), wanted)
            goes_on = lisp.run(text + "\n3\n").stdout if "text ends" not in error else b"3\n"
            yield "behind the error of %s, %s" % (text[:40], way), None if goes_on == b"3\n" else "printed %r" % goes_on


def command_line(_program, folder):
    """Tests files, options and statuses."""
    for way, lisp in built_lisps():
        for words in WRONG_OPTIONS:
            status = lisp.run("", *words).status
            yield "status of %s, %s" % (words, way), None if status == 2 else "status %s, wanted 2" % status
        wrong = file_of(folder, "wrong.lisp", b"(display 1)\n(car\n 2)\n(display 3)\n")
        error = "error: %s, line 2, column 1: car expects a pair, but found 2\n" % wrong
        yield "an error in a file, %s" % way, difference(lisp.run("", wrong), Outcome(b"1", error.encode(), 1))
        first, second = file_of(folder, "first.lisp", b"(define x 4)"), file_of(folder, "second.lisp", b"(display x)")
        yield "two files, %s" % way, difference(lisp.run("", first, second), Outcome(b"4"))
        left = file_of(folder, "left.lisp", b"(display 1) (exit)")
        yield "exit in the first of two files, %s" % way, difference(lisp.run("", left, second), Outcome(b"1"))
        missing = lisp.run("", os.path.join(folder, "nothing.lisp"))
        yield "a file that does not exist, %s" % way, None if missing.status == 1 and b"nothing.lisp" in missing.stderr else missing.stderr
        with open("/dev/full", "wb") as full:
            status = run(lisp.path, text=b"1\n", stdout=full).status if way == "gcc" else 1
        yield "a full disk, %s" % way, None if status == 1 else "status %s, wanted 1" % status


# A run gets at most so many signals. After each it has so many seconds to read what follows, and to end.
SIGNALS, SECONDS_TO_END = 60, 2


def interrupted(lisp, endless):
    """Runs an endless expression and interrupts it. Returns the output. Sends signals until the run ends, since a signal before the
    expression has no effect. It does not send the next one soon, which would interrupt what follows on a busy machine."""
    ran = subprocess.Popen([lisp.path, *lisp.options], stdin=subprocess.PIPE, stdout=subprocess.PIPE, stderr=subprocess.PIPE)
    ran.stdin.write(("(car 1)\n%s\n(+ 1 2)\n" % endless).encode())
    ran.stdin.close()
    first = ran.stderr.readline()
    for _ in range(SIGNALS):
        time.sleep(0.1)
        ran.send_signal(signal.SIGINT)
        try:
            ran.wait(SECONDS_TO_END)
            break
        except subprocess.TimeoutExpired:
            pass
    else:
        ran.kill()
        ran.wait()
    return Outcome(ran.stdout.read(), first + ran.stderr.read(), ran.returncode)


# Expressions that never end: tail calls, and a comparison of two circles.
ENDLESS = ["((lambda (f) (f f)) (lambda (f) (f f)))",
           "((lambda (a b) (set-cdr! a a) (set-cdr! b b) (equal? a b)) (list 1) (list 1))"]


def interrupting(_program, _folder):
    """Checks that Ctrl-C ends an endless expression, and that the REPL continues."""
    for way, lisp in lisps_on_both_heaps():
        for endless in ENDLESS:
            found = interrupted(lisp, endless)
            errors = re.fullmatch(rb"error: .*column 1: car expects.*\nerror: input, line 2, column \d+: interrupted\n", found.stderr)
            yield "%s, %s" % (endless, way), None if errors and found.stdout == b"3\n" and found.status == 0 else found.stderr


def most_live(heap):
    """Returns the most live words with which no allocation waits for a whole collection, as the README derives."""
    return (2 * (heap - 1 - heap // 32) - 2) // 3


# The Lisp itself, and the program below without the data that it keeps, take less than this.
OWN_WORDS = 4200

# Keeps functions, each with a scope of 60 variables. A function takes 7 words, its scope 64, and its pair 4. Copying these objects takes 6, 63
# and 3 steps, since a scan copies a field's target. So they cost nearly as many steps as they have words, as the README assumes.
NAMES = " ".join("v%d" % number for number in range(60))
KEEPING = """(define (wide %s) (lambda () v0))
(define numbers (iota 60))
(define (keep n kept) (if (= n 0) kept (keep (- n 1) (cons (apply wide numbers) kept))))
(define (spin n) (if (= n 0) 'done (spin (- n 1))))
(define kept (keep %%d '()))
(spin %%d)
(length kept)
""" % NAMES
KEPT_WORDS = 7 + 64 + 4


def pace(_program, _folder):
    """Checks that no allocation waits for a whole collection while live data stay below the bound, and that memory stays constant."""
    for way, lisp in built_lisps():
        for heap in (8000, 20000, 65536, 262144):
            kept = (most_live(heap) - OWN_WORDS) // KEPT_WORDS
            found = lisp.run(KEEPING % (kept, heap // 5), "--heap", str(heap), "--pauses")
            _, collections, _, waits = totals(found)
            yield "%d live scopes in %d words, %s" % (kept, heap, way), difference(found, Outcome(b"done\n%d\n" % kept, found.stderr))
            yield "waits in %d words, %s" % (heap, way), None if waits == 0 < collections else "%d of %d" % (waits, collections)
        loop = "(define (spin n) (if (= n 0) 'done (spin (- n 1)))) (spin 100000)"
        found = lisp.run(loop, "--heap", "4500", "--pauses")
        yield "a long loop in 4500 words, %s" % way, difference(found, Outcome(b"done\n", found.stderr))
        allocated, _, _, waits = totals(lisp.run_program("churn", "--heap", "20000", "--pauses"))
        yield "churn allocates 100 heaps, %s" % way, None if allocated >= 100 * 20000 else "%d words" % allocated
        yield "churn does not wait, %s" % way, None if waits == 0 else "%d waits" % waits


FILLING = """(define big '())
(define (fill) (set! big (cons 1 big)) (fill))
(fill)
(set! big '())
(define (deep n) (if (= n 0) 0 (+ 1 (deep (- n 1)))))
(deep 1000000)
(deep 100)
"""


# Each call waits for the next one, and makes a list that is garbage at once.
DEEP = "(define (deep n) (if (= n 0) 0 (+ 1 (begin (iota 4) (deep (- n 1)))))) (deep 100000)"


def limits(_program, _folder):
    """Tests heaps that are too small, and deep data and calls."""
    for way, lisp in built_lisps():
        for heap in [1, 2, 10, 100, 1000, 2500]:
            found = lisp.run("(+ 1 2)", "--heap", str(heap))
            said = found.stderr.endswith(b"lisp: the heap is too small for the Lisp itself\n")
            yield "%d words are too small, %s" % (heap, way), None if found.status == 2 and said and not found.stdout else found.stderr
        for heap in range(2500, 4500, 97):
            found = lisp.run("(+ 1 2)", "--heap", str(heap))
            works = found.status == 0 and found.stdout == b"3\n" or found.status == 2 or FULL.fullmatch(found.stderr)
            yield "%d words, %s" % (heap, way), None if works else "status %s, %r" % (found.status, found.stderr)
        deep = "(define (deep n) (if (= n 0) 0 (+ 1 (deep (- n 1))))) (deep 30000)"
        yield "30000 calls deep, %s" % way, difference(lisp.run(deep, "--heap", "1048576"), Outcome(b"30000\n"))
        found = lisp.run(DEEP, "--heap", "2000000", "--pauses")
        _, collections, copied, waits = totals(found)
        yield "100000 calls deep, %s" % way, difference(found, Outcome(b"100000\n", found.stderr))
        yield "collections meanwhile, %s" % way, None if collections > 5 and copied > 100000 * collections // 4 and waits == 0 else found.stderr[-200:]
        for made in ("make-eq-hashtable", "make-weak-eq-hashtable"):
            found = lisp.run(LARGE_TABLE % made, "--heap", "1000000", "--pauses")
            # One entry too many, and then an entry whose key the table has.
            full = b"error: input, line 4, column 16: a hashtable has at most 16384 entries\n"
            yield "16384 entries of %s, %s" % (made, way), None if found.stderr.startswith(full) else found.stderr[:200]
            yield "entries of %s, %s" % (made, way), None if found.stdout == b"16384\n134209536\n16384\n1\n" and totals(found)[1] > 5 else "printed %r" % found.stdout
        nested = "(" * 30000 + ")" * 30000
        yield "30000 lists deep, %s" % way, difference(lisp.run("'" + nested, "--heap", "1048576"), Outcome(nested.encode() + b"\n"))
        equal = "(define (nest n x) (if (= n 0) x (nest (- n 1) (list x)))) (equal? (nest 10000 1) (nest 10000 1))"
        yield "10000 lists deep are equal, %s" % way, difference(lisp.run(equal), Outcome(b"#t\n"))
        circle = lisp.run("(define x (list 1)) (set-cdr! x x) x (car x)\n").stdout
        yield "a circle is printed, %s" % way, None if circle.startswith(b"(1 1 1") and circle.endswith(b" ...\n1\n") else circle[-40:]


# 500 calls wait for each other, and each keeps a list of 80 words: 40000 words, which are garbage when all have returned, or after an error in the last one.
# The list after them takes 36000. The heap has not room for both.
LEFT = """(define (deep n garbage) (if (= n 0) %s (+ 1 (deep (- n 1) (iota 20)))))
(deep 500 '())
(length (iota 9000))
"""


def full_heaps(_program, _folder):
    """Checks that a full heap and a full stack are errors, that the next expressions have room, and that calls keep nothing alive behind them."""
    for way, lisp in lisps_on_both_heaps():
        for heap in (6000, 65536, 1048576):
            found = lisp.run(FILLING, "--heap", str(heap))
            errors = FULL.findall(found.stderr)
            yield "full heaps of %d, %s" % (heap, way), None if len(errors) == 2 and found.status == 0 else found.stderr
            yield "behind full heaps of %d, %s" % (heap, way), None if found.stdout == b"100\n" else "printed %r" % found.stdout
        yield "calls that returned, %s" % way, difference(lisp.run(LEFT % "0", "--heap", "65536"), Outcome(b"500\n9000\n"))
        wrong = b"error: input, line 1, column 38: car expects a pair, but found 0\n"
        yield "calls that an error left, %s" % way, difference(lisp.run(LEFT % "(car 0)", "--heap", "65536"), Outcome(b"9000\n", wrong))
        overflow = lisp.run("(define (deep n) (if (= n 0) 0 (+ 1 (deep (- n 1))))) (deep 300000) (deep 100)", "--heap", "8000000")
        # 209715 waiting calls take five values each, which leaves one; the next frame is that of (- n 1).
        full = b"error: input, line 1, column 43: the stack is full: it has 1048576 values (--heap WORDS makes it larger)\n"
        yield "a full stack, %s" % way, difference(overflow, Outcome(b"100\n", full))
        # 209714 waiting calls take five values each, which leaves six for the two frames of the last one.
        fitting = "(define x '(7)) (define (deep n) (if (= n 0) (or (or (car x) 2) 3) (+ 1 (deep (- n 1))))) (deep 209714)"
        yield "a stack that just fits, %s" % way, difference(lisp.run(fitting, "--heap", "8000000"), Outcome(b"209721\n"))


# Each key is told by its own number, whatever the collector moves meanwhile. 16384 * 16383 / 2 = 134209536.
LARGE_TABLE = """(define t (%s))
(define keys (map list (iota 16384)))
(for-each (lambda (key) (iota 20) (hashtable-set! t key (car key))) keys)
(define (more) (hashtable-set! t (list 0) 0)) (hashtable-size t) (fold (lambda (key sum) (iota 20) (+ sum (hashtable-ref t key 'lost))) 0 keys)
(more)
(hashtable-size t) (hashtable-set! t (car keys) 1) (hashtable-ref t (car keys) 0)
"""


REFUSED_TEXT = """(define (build n) (if (= n 0) '() (cons n (build (- n 1)))))
(length (build 200))
(length (build 300))
(length (build 100))
(length (build 250))
(length (build 150))
(+ 1 2)
"""
REFUSED_VALUES = [b"200", b"300", b"100", b"250", b"150", b"3"]


def wrong_refusal(found):
    """Returns why a run with one refused allocation is wrong, or None. At most one expression ends in an error, and all others have their
    values. There may be no error, since the collector tries again."""
    if found.status == 2 and b"out of memory: the system has none for the heap" in found.stderr:
        return None
    values, errors = found.stdout.split(), found.stderr.count(b"error: ")
    missing = [value for value in REFUSED_VALUES if value not in values]
    in_order = [value for value in REFUSED_VALUES if value in values] == values
    is_right = found.status == 0 and in_order and len(missing) <= errors == found.stderr.count(b"out of memory") <= 1
    leaves_nothing = b"refused, and 0 blocks with 0 bytes are left" in found.stderr
    return None if is_right and values[-1:] == [b"3"] and leaves_nothing else "%d, %r, %r" % (found.status, found.stdout, found.stderr)


def refused_allocations(_program, folder):
    """Makes each allocation of the library fail in turn. There is at most an error, and the REPL continues."""
    built = library(folder, Both)
    if built is None or not usable(folder, *WAYS[1]):
        return
    lisp = Lisp(built, "gcc that refuses", WAYS[1][1], [os.path.join(C_SOURCES, "refused_lisp.c"), "-I" + C_SOURCES])
    yield "refused_lisp.c", lisp.why
    errors = refused = 0
    while lisp.why is None:
        found = lisp.run(REFUSED_TEXT, "--heap", "16000", env=dict(os.environ, REFUSED_ALLOCATION=str(refused + 1)))
        if b"refused, and" not in found.stderr and found.status == 0:
            yield "no allocation is left", None if found.stdout.split() == REFUSED_VALUES else found.stdout
            break
        refused += 1
        errors += found.stderr.count(b"error: ")
        yield "refused allocation %d" % refused, wrong_refusal(found)
    yield "allocations were refused", None if refused > 8 and errors > 0 else "%d, with %d errors" % (refused, errors)


# More memory than the program takes with one space of 8 MiB and the checker's tables of 2.6 MiB, and less than with two spaces.
ONE_SPACE = 24 << 20


def limit_memory():
    resource.setrlimit(resource.RLIMIT_AS, (ONE_SPACE, ONE_SPACE))


def no_collector(_program, _folder):
    """Gives the system no memory for a second space. What fits in the heap is evaluated, then there is an error, and the REPL continues."""
    for way, lisp in built_lisps()[:1]:
        text = "(define (spin n) (if (= n 0) 'done (spin (- n 1)))) (spin 20000)\n(spin 100000)\n(+ 1 2)\n"
        found = lisp.run(text, "--heap", "1048576", preexec_fn=limit_memory)
        error = re.fullmatch(rb"error: input, line \d, column \d+: out of memory: the system has none for the collector\n", found.stderr)
        yield "no memory for a collection, %s" % way, None if error and found.stdout == b"done\n3\n" else "%r, %r" % (found.stdout, found.stderr)


def traces(program, folder):
    """Checks that a recorded run is replayed with status 0, and that its reports and pairs are right."""
    for way, lisp in built_lisps():
        trace = os.path.join(folder, "trace")
        found = lisp.run_program("primes", "--heap", "8000", "--pauses", "--record", trace)
        yield "primes recorded, %s" % way, difference(found, Outcome(content("primes.output"), found.stderr))
        played = run(program, ["play", trace])
        replies = set(played.stdout.split(b"\n"))
        yield "played, %s" % way, None if played.status == 0 and played.stdout else played.stderr
        bad = replies & {b"full", b"no object", b"no field", b"no number", b"no room", b"busy", b"idle", b"refused", b"not ready"}
        yield "replies, %s" % way, "there are %s" % bad if bad else None
        report = dict(line.split() for line in run(program, ["report", trace]).stdout.decode().splitlines())
        _, collections, copied, _ = totals(found)
        counted = (int(report["flips"]), int(report["pairs"]))
        yield "report, %s" % way, None if counted == (collections, copied) and collections > 10 else "%s, %s" % (counted, (collections, copied))
        pair = file_of(folder, "pair", run(program, ["pair", trace, str(collections)]).stdout)
        checked = run(program, ["check", pair])
        yield "the last flip, %s" % way, None if checked.status == 0 and checked.stdout.startswith(b"yes ") else checked.stdout


def traces_that_end(program, folder):
    """Checks that a recording ends where the first element of a weak pair is fetched, that the run goes on, and that the trace plays up to there."""
    text = "(define pair (weak-cons (list 1) 2))\n(weak-pair/car? pair)\n(car (weak-car pair))\n(+ 1 2)\n"
    for way, lisp in built_lisps():
        trace = os.path.join(folder, "trace")
        found = lisp.run(text, "--record", trace)
        told = re.fullmatch(rb"gcflip_record.h: the recording ends here: a trace has no reference by the address \d+\n", found.stderr)
        yield "an element fetched, %s" % way, None if told and found.stdout.split() == [b"#t", b"1", b"3"] else "%r, %r" % (found.stdout, found.stderr)
        played = run(program, ["play", trace])
        yield "played up to there, %s" % way, None if played.status == 0 and played.stdout else played.stderr


def histogram(_program, _folder):
    """Checks that the counts of the histogram add up, and that the longest call is listed."""
    for way, lisp in built_lisps():
        printed = lisp.run_program("tak", "--heap", "20000", "--pauses").stderr.decode()
        calls = int(re.match(r"(\d+) calls on the heap by their times\n", printed).group(1))
        rows = [int(count) for count in re.findall(r"  below +[\d.]+ us +(\d+) #*\n", printed)]
        yield "rows of the histogram, flips_and_pauses, %s" % way, None if sum(rows) == calls > 0 else "%d, not %d" % (sum(rows), calls)
        kinds = re.findall(r"\n  ([\d.]+) us: (gcflip_\w+)", printed)
        longest = re.search(r"\nthe longest call took ([\d.]+) us: (gcflip_\w+)", printed).groups()
        yield "the longest call, %s" % way, None if longest in kinds and float(longest[0]) == max(float(time) for time, _ in kinds) else printed


def flips_and_pauses(_program, _folder):
    """Checks that --pauses tells flips that were all checked along, and a share of time for the program that the longest call allows."""
    for way, lisp in built_lisps():
        found = lisp.run_program("churn", "--heap", "20000", "--pauses")
        printed = found.stderr.decode()
        along, whole = [int(number) for number in re.search(r"\n(\d+) flips were checked along, and (\d+) whole\n", printed).groups()]
        _, collections, _, _ = totals(found)
        yield "flips, %s" % way, None if along == collections > 10 and whole == 0 else "%d along and %d whole of %d" % (along, whole, collections)
        longest = float(re.search(r"\nthe longest call took ([\d.]+) us: ", printed).group(1))
        short, long = [float(share) for share in re.search(r"\nminimum mutator utilisation: (-?[\d.]+) at 1 ms, (-?[\d.]+) at 10 ms\n", printed).groups()]
        # A call of less than 980 us lies in one window of 1 ms. Shares are printed in thousandths.
        most = 1.001 - min(longest, 980) / 1000
        yield "utilisation, %s" % way, None if 0 <= short <= min(long, most) and long < 1 else printed


def without_counts(line):
    """Returns a line. Removes the place and the numbers of a full heap's error, which depend on where the heap was full."""
    return re.sub(r"\d+", "N", line) if "the heap is full" in line else line


def sessions(_program, _folder):
    """Checks that the sessions of the README print what they show, except for the numbers of a full heap."""
    for way, lisp in built_lisps()[:1]:
        for number, block in enumerate(blocks(DOCUMENT, "lisp"), 1):
            typed = [line[2:] for line in block if line.startswith("> ")]
            shown = [line for line in block if not line.startswith("> ")]
            found = lisp.run("\n".join(typed) + "\n", "--heap", "65536")
            printed = (found.stdout + found.stderr).decode().splitlines()
            is_shown = [without_counts(line) for line in printed] == [without_counts(line) for line in shown]
            yield "session %d of %s" % (number, DOCUMENT), None if is_shown else "printed %s" % printed


GROUPS = [programs, collector_threads, by_valgrind, races, evaluating, command_line, interrupting, pace, limits, full_heaps, refused_allocations, no_collector, traces, traces_that_end, histogram, flips_and_pauses, sessions]
