"""Tests of docs/CALLS.md, the page with a row for each call for C: it is what tools/calls makes of the headers, the contracts, the table of instructions and the
bindings. When a call may run out of memory is compared with the calls that a program of C makes run out of it."""
import glob
import os
import re

from prover import bindings, calls as page
from prover.c_headers import answers, heap_calls, symbols
from prover.crates import TOP

from .documents import text_of

CALL = re.compile(r"\b(gcflip_\w+)\(")
# Changes of the committed page that have to be found: what is replaced, and by what.
CHANGED_PAGES = [("a call that is said never to run out of memory", "| while a collection is open |", "| never |"),
                 ("a cost of its own", "| 35 |", "| 27 |"),
                 ("an answer that is left out", "`DONE`, `OUT_OF_RANGE`, `CLOSED`, `NO_OBJECT`", "`DONE`, `OUT_OF_RANGE`, `CLOSED`"),
                 ("a name of another call", "| `new_pair` | `new_pair` |", "| `new_from` | `new_pair` |"),
                 ("another sentence", "Puts nil into slot d.", "Puts 0 into slot d."),
                 ("a note with another formula", "(pace->left + size) / 2", "(pace->left + size) / 3"),
                 ("a row that is left out", re.compile(r"(?m)^\| `gcflip_heap_refer`.*\n"), ""),
                 ("rows in another order", re.compile(r"(?m)^(\| `gcflip_heap_moved`.*\n)(\| `gcflip_heap_refer`.*\n)"), r"\2\1")]
# Changes of what the page is made from, and what is found: the name of a call, the change of its comment, a clause of its contract, and the fault.
CHANGED_SOURCES = [("gcflip_heap_get", " Or GCFLIP_NO_MEMORY.", None, "is never refused for what its comment says"),
                   ("gcflip_heap_step_roots", " Or GCFLIP_OUT_OF_RANGE.", None, "is never refused for what its comment says"),
                   ("gcflip_check", " Or GCFLIP_BAD_LINE.", None, "has answers beyond its contract"),
                   ("gcflip_heap_touch", "", ("answers", "ensures answers { (result ≡ done) ⊎ (result ≡ open_handle) }"), "does not name"),
                   ("gcflip_heap_put", "", ("memory", "ensures memory { result ≡ no_memory → ⊤ }"), "does not tell when it runs out of memory"),
                   ("gcflip_heap_step_flip", "", ("memory", "ensures memory { result ≡ no_memory → Allocate s Step.Flip }"), "does not tell when it runs out of memory"),
                   ("gcflip_heap_set_nil", "", None, None)]


def calls(_program, _folder):
    """Compares the committed page with the one that tools/calls makes, and tries changes of both."""
    table, shown = page.Table(), page.read(page.DOCUMENT)
    yield "docs/CALLS.md", "; ".join(page.faults(shown, table)) or None
    for what, old, new in CHANGED_PAGES:
        changed = old.sub(new, shown, count=1) if isinstance(old, re.Pattern) else shown.replace(old, new, 1)
        yield "%s is found" % what, None if changed != shown and list(page.faults(changed, table)) else "it is not"
    for name, more, clause, wanted in CHANGED_SOURCES:
        function = next((function for function in table.functions if function.name == name), None)
        found = faults_with(table, function, more, clause) if function else ["there is no such call"]
        yield "a contract and a comment of %s" % name, None if (wanted or "") in "; ".join(found) and bool(found) == bool(wanted) else "found %s" % found


def faults_with(table, function, more, clause):
    """Returns the faults of a function whose comment goes on, or whose contract has another clause. All stays as it was afterwards."""
    comment, clauses = function.comment, table.contracts[function.name]
    function.comment = comment + more
    table.contracts[function.name] = dict(clauses, **dict([clause] if clause else []))
    found = list(table.faults_of(function))
    function.comment, table.contracts[function.name] = comment, clauses
    return found


def refused_in(text):
    """Returns the calls that a program refuses memory in any state, those that it refuses memory only while a collection is open, and those that it
    makes where no allocation can succeed."""
    functions = {name: calls_in(body)[0] for name, body in re.findall(r"(?ms)^static uint32_t (\w+)\(void\)\s*\{(.*?)\}$", text)}
    tried = re.findall(r"failures\((\w+), (\w+)\) == ([\w +]+)\)", text)
    only_open = {functions[name] for _, name, count in tried if count == "0"}
    rest = "".join(re.findall(r"(?ms)^static void (?:draw|move_roots|command_by_places|read_all|calls_that_do_not_allocate|sure_puts|starved|free_all)\(.*?^\}$", text))
    always = {functions[name] for _, name, _ in tried} | {"gcflip_heap_open"}
    return always - only_open, only_open, set(calls_in(rest)) - always


def calls_in(text):
    """Returns the calls on a heap that a part of a program makes, in order."""
    return [name for name in CALL.findall(text) if name in heap_calls()]


def told_in(shown):
    """Returns the calls on a heap that may run out of memory in other states than an open collection, those that may while one is open, and those that cannot,
    by the rows of a page."""
    cells = dict(re.findall(r"(?m)^\| `(gcflip_\w+)` (?:\|[^|]*){2}\| ([^|]*) \|", shown))
    told = {name: cell for name, cell in cells.items() if name in heap_calls()}
    never, only_open = [{name for name in told if told[name] == cell} for cell in (page.NEVER, page.OPEN)]
    return set(told) - never - only_open, only_open, never


def memory_answers(_program, _folder):
    """Compares the calls that can run out of memory by the page, and so by the contracts, with those that tests/c/refused_heap.c makes run out of it. This program
    makes each other call where no allocation can succeed."""
    tried, told = refused_in(text_of("tests/c/refused_heap.c")), told_in(page.read(page.DOCUMENT))
    for what, found, wanted in zip(("calls that can run out of memory", "calls that can while a collection is open", "calls that cannot"), told, tried):
        yield what, None if found == wanted and found else "told %s, tried %s" % (sorted(found - wanted), sorted(wanted - found))


# A call with the answer that a program expects, which is no call of the heap with a collector's thread, as in CALL == ANSWER or EXPECT(CALL, ANSWER), or two that depend on a condition.
EXPECTED = re.compile(r"\b(gcflip_(?!beside_|thread_)\w+)\(((?:[^()]|\((?:[^()]|\([^()]*\))*\))*)\)\s*(?:==|,)\s*(?:[\w>. ]+ \? )?(GCFLIP_\w+)(?: : (GCFLIP_\w+))?")
# Answers that a program names and no row has, since they are proved never to occur.
NEVER_THERE = {("gcflip_heap_step_flip", "FLIP_REFUSED")}
# Answers of calls on a heap that these programs expect in another form: of any step, of all calls by turns, or by a variable.
NOT_EXPECTED = {("gcflip_heap_step_scan", "NO_ROOM"), ("gcflip_heap_step_apply", "NO_ROOM"), ("gcflip_heap_check", "NOT_READY"), ("gcflip_heap_image", "DAMAGED"),
                ("gcflip_heap_new_words", "DAMAGED")}


def expected_in(texts, known):
    """Returns the calls and the answers that programs of C expect of them, without GCFLIP_. 0 has one name."""
    found = {(call, answer.replace("GCFLIP_", "")) for text in texts for call, _, *answers in EXPECTED.findall(text) for answer in answers if answer in known}
    return {(call, answer.replace("YES", "DONE")) for call, answer in found}


def answers_told(shown):
    """Returns the calls of a page with the answers of their rows. The row of an inline function may name the call whose answers it has."""
    cells = dict(re.findall(r"(?m)^\| `(gcflip_\w+)` \| [^|]* \| ([^|]*) \|", shown))
    like = {call: re.sub(r"^as `(\w+)`$", lambda found: cells[found.group(1)], cell) for call, cell in cells.items()}
    return {(call, answer.replace("YES", "DONE")) for call, cell in like.items() for answer in re.findall(r"`([A-Z_]+)`", cell)}


def answers_expected(_program, _folder):
    """Compares the answers of the rows with those that the programs of tests/c, the examples and the measurements expect of the calls: no program expects another
    one, and some program expects each answer of a call on a heap."""
    patterns = ("tests/c/*.c", "bindings/c/examples/*.c", "bench/*.c", "bench/embedding/*.c")
    texts = [text_of(path) for pattern in patterns for path in sorted(glob.glob(os.path.join(TOP, pattern)))]
    told, expected = answers_told(page.read(page.DOCUMENT)), expected_in(texts, set(answers()))
    yield "answers beyond the rows", ", ".join("%s %s" % each for each in sorted(expected - told - NEVER_THERE) if each[1] != "NO_MEMORY") or None
    of_heaps = {each for each in told if each[0] in heap_calls()}
    yield "answers of rows that no program expects", ", ".join("%s %s" % each for each in sorted(of_heaps - expected - NOT_EXPECTED)) or None
    found = expected_in(["EXPECT(gcflip_heap_put(&heap, 0, f(1, 2), i, t) == GCFLIP_NIL); must(gcflip_heap_close(&heap), a > 1 ? GCFLIP_DONE : GCFLIP_CLOSED);"], set(answers()))
    wanted = {("gcflip_heap_put", "NIL"), ("gcflip_heap_close", "DONE"), ("gcflip_heap_close", "CLOSED")}
    yield "answers that a program expects are read", None if found == wanted else "found %s" % sorted(found)


def members(paths, pattern, member):
    """Returns the members of the blocks in some files that the pattern finds."""
    return {name for path in paths for block in re.findall(pattern, text_of(path)) for name in re.findall(member, block)}


def names_of_calls(_program, _folder):
    """Checks that each call of the bindings is found, also one that makes no call by itself. No name is both a step's and an error's."""
    rust, python = [os.path.join("bindings", "rust", "src", path) for path in bindings.HEAP_OF_RUST], ["bindings/python/gcflip/heap.py"]
    public = {"Rust": members(rust, r"(?ms)^impl (?:Heap|Mutator<'_>) \{(.*?)^\}", r"(?m)^    pub fn (\w+)"),
              "Python": members(python, r"(?ms)^class (?:Heap|Mutator)\b.*?:\n(.*?)(?=^\S|\Z)", r"(?m)^    def ([a-z]\w*)")}
    for language, made in (("Rust", bindings.rust()), ("Python", bindings.python())):
        missing = sorted(public[language] - {name for name, _ in made})
        yield "calls of %s" % language, None if public[language] and not missing else "missing: %s" % missing
        unnamed = bindings.unnamed(symbols(), made + [("more", {"gcflip_more"})], language)
        yield "a call of %s that makes no call of C is found" % language, None if unnamed == ["more"] else "found %s" % unnamed
    steps = {"Rust": members(rust, r"(?ms)^pub enum Step \{(.*?)^\}", r"(?m)^    (\w+)"),
             "Python": {name.title().replace("_", "") for name in members(python, r"(?ms)^class Step\(enum.Enum\):\n(.*?)(?=^\S)", r"(?m)^    ([A-Z_]+) = ")}}
    refused = {"Rust": members(rust, r"(?ms)^pub enum Error \{(.*?)^\}", r"(?m)^    (\w+)"), "Python": set(re.findall(r"(?m)^class (\w+)", text_of("bindings/python/gcflip/errors.py")))}
    for language, named in steps.items():
        both = named & refused[language]
        yield "steps and errors of %s" % language, None if named and refused[language] and not both else "both: %s" % sorted(both)


GROUPS = [calls, memory_answers, answers_expected, names_of_calls]
