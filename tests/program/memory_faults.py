"""Tests that the code reports a failed allocation only where an allocation failed, and a thread that did not start only where one did not.

No contract can say this. So outside tests, a fault of these kinds may be written in two ways only: by `impl From` of the fault of an
allocation or of a thread, and as the right side of a match arm whose pattern is such a fault. `?` carries it from there. PLACES lists
all places where one is written. docs/TESTING.md says what this does not find.

A fault may have no second name, no default, and no pattern that only binds its name. No `match` is on a block. A macro has no fault, `Err`, `match`, `?` or
digit, but for those of MACROS. The calls for C return numbers by their names alone: no digits, no sums, no variable. Each way round these rules that was tried is a control in
tests/controls/memory_faults. The last to be refused was a fault behind the type of a pointer to a function, as in
`let kept: (Option<fn(u8) -> u8>, NoMemory)`, which the test took for the head of a function.
"""
import glob
import os
import re

from prover.crates import TOP, crates_listed
from prover.rattle_code import Code

MEMORY, THREADS = "memory", "threads"
# The names of faults, and what they tell of. Those of the second table are faults of the standard library, which patterns may have too.
FAULTS = {"NoMemory": MEMORY, "NO_MEMORY": MEMORY, "STARVED": MEMORY, "OutOfMemory": MEMORY, "NotStarted": THREADS}
CAUSES = {**FAULTS, "AllocError": MEMORY, "AllocFailed": MEMORY, "SpawnError": THREADS}
WRITTEN = {**FAULTS, "AllocError": MEMORY, "AllocFailed": MEMORY, "SpawnError": THREADS}
# What begins a block that has a value, beside a label.
BLOCKS = ("if", "match", "loop", "unsafe", "while", "for", "const", "move", "async")
# What `impl From` may make a fault of.
SOURCES = {"AllocError": MEMORY, "AllocFailed < T >": MEMORY, "NoMemory": MEMORY, "SpawnError < F >": THREADS}
BY_FROM, BY_ARM, BY_HAND = "From", "arm", "by hand"

# Numbers that calls of the libraries for C return if they did nothing.
NAMED_ANSWERS = ("NO_MEMORY", "OUT_OF_RANGE", "CLOSED", "OPEN", "TOO_LARGE", "BAD_LINE", "ENDS_EARLY")
# Functions of these libraries whose contract says which number they return. None of them returns that of a fault.
EXACT = ("of_reply", "of_step", "seen", "value_told", "gcflip_room", "gcflip_beside_room", "gcflip_beside_roots")
# Those that pass on the number that a function of their own file made beside the next stage. What that writes is looked at as elsewhere.
PASSED_ON = ("stop", "gcflip_beside_resume", "gcflip_beside_ask", "gcflip_beside_take", "gcflip_beside_go", "gcflip_beside_flip", "gcflip_beside_finish")
# Macros with a `match` or a digit, to the letter: the loop of gcflip_beside_work, whose answers are those of steps. None is a fault.
MACROS = ("macro_rules ! steps_of { ( $ collector : ident , $ most : ident ) => { { for k in 0 . . $ most { match $ collector . work ( ) "
          "{ Work :: Step => { } Work :: Done => return CLEAN , Work :: NoRoom => return NO_ROOM , } } DONE } } ;",)
# Crates of tests alone.
TESTS = ("test_kit", "test_libraries", "test_beside", "test_threads", "test_texts", "test_memory")

# Each place where such a fault is written: the file, the function, how, and how often. Those by hand have their reasons in BY_HAND_REASONS.
PLACES = {
    "gc_graph/src/no_memory.rt": {("from", BY_FROM): 2},
    "gc_text/src/read_fault.rt": {("from", BY_FROM): 1},
    "gc_cert/src/fault.rt": {("from", BY_ARM): 1, ("from", BY_FROM): 1},
    "gc_check/src/inference.rt": {("compare_by", BY_ARM): 1, ("infer", BY_ARM): 1},
    "gc_check/src/shortest_path.rt": {("path_to", BY_ARM): 1},
    "gc_check/src/starts.rt": {("from", BY_FROM): 1, ("of_old", BY_ARM): 1, ("of_new", BY_ARM): 1},
    "gc_check/src/text.rt": {("check_text_by", BY_ARM): 1, ("verdict_of", BY_ARM): 1},
    "gc_check/src/verdict.rt": {("from", BY_FROM): 3},
    "gcflip_c/src/answer.rt": {("answer", BY_ARM): 1},
    "gcflip_c/src/inference.rt": {("gcflip_infer", BY_ARM): 1},
    "gcflip_c/src/path.rt": {("gcflip_path", BY_ARM): 1},
    "gcflip_c/src/text.rt": {("gcflip_check_text", BY_HAND): 1},
    "gcflip_heap_c/src/opening.rt": {("gcflip_heap_open", BY_ARM): 1, ("gcflip_heap_touch", BY_ARM): 1},
    "gcflip_heap_c/src/stepping.rt": {("gcflip_heap_step_begin", BY_ARM): 1, ("gcflip_heap_step_begin_sized", BY_ARM): 1, ("gcflip_heap_step_flip", BY_ARM): 1},
    "gcflip_heap_c/src/room.rt": {("answer_of", BY_HAND): 1, ("lack_of", BY_HAND): 1, ("remember_unless_starved", BY_HAND): 1},
    "gcflip_heap_c/src/work.rt": {("of_work", BY_ARM): 1},
    "gcflip_heap_c/src/checking.rt": {("gcflip_heap_check", BY_ARM): 1},
    "gc_in_c/src/reply.rt": {("of_result", BY_ARM): 1},
    "gcflip_beside_c/src/opening.rt": {("opened", BY_ARM): 1},
    "gcflip_beside_c/src/collecting.rt": {("prepared", BY_ARM): 1, ("why", BY_ARM): 1},
    "gc_copy/src/log.rt": {("add_segment", BY_HAND): 1},
    "gc_collected/src/checking.rt": {("found_by", BY_ARM): 1},
    "gc_concurrent/src/checking.rt": {("check", BY_ARM): 1},
    "gc_concurrent/src/copier.rt": {("prepare", BY_HAND): 1},
    "gc_concurrent/src/held.rt": {("from", BY_FROM): 1, ("flip", BY_HAND): 1, ("open_ends", BY_HAND): 1},
    "gc_shared/src/closing.rt": {("fault", BY_ARM): 1},
    "gc_shared/src/fault.rt": {("from", BY_FROM): 5, ("from", BY_ARM): 1},
    "gc_trace/src/flips.rt": {("flip_in", BY_HAND): 1},
    "gc_trace/src/playing.rt": {("play_all", BY_ARM): 1, ("take", BY_HAND): 1},
    "gc_trace/src/fault.rt": {("from", BY_ARM): 2, ("from", BY_FROM): 3},
    "gcflip/src/commands/threads.rt": {("from", BY_ARM): 2, ("from", BY_FROM): 1},
    "gcflip/src/program.rt": {("open", BY_HAND): 2, ("arguments", BY_HAND): 2, ("refuse", BY_HAND): 2},
}

# Why a place is not in one of the two ways.
BY_HAND_REASONS = {
    ("gc_copy/src/log.rt", "add_segment"): "so many segments would take 8 EiB, more than an allocator can give",
    ("gc_concurrent/src/copier.rt", "prepare"): "it is in the branch where the standing checker could not reserve its tables",
    ("gc_concurrent/src/held.rt", "flip"): "it is in the arm of `Copier::end`, which gives the collector back, beside the mutator that is still held",
    ("gc_concurrent/src/held.rt", "open_ends"): "it is the other case of `let Ok(..)`, for `NextSpace::begin`, which may give the space back and has no fault",
    ("gcflip_heap_c/src/room.rt", "answer_of"): "too few words are free, and no collection that began in this call flipped; a step does so unless memory is refused",
    ("gcflip_heap_c/src/room.rt", "lack_of"): "work ended before a flip, at no step that found too little room",
    ("gcflip_heap_c/src/room.rt", "remember_unless_starved"): "it compares an answer with this one",
    ("gcflip/src/program.rt", "open"): "a file's error tells that an allocation failed by its kind",
    ("gcflip/src/program.rt", "arguments"): "the error of reading the arguments tells it by its kind",
    ("gcflip/src/program.rt", "refuse"): "clap's error tells it by its kind",
    ("gc_trace/src/flips.rt", "flip_in"): "the other case of `let Ok(..)`, which has no other fault; the prover takes no `?` there",
    ("gc_trace/src/playing.rt", "take"): "the other case of `let Ok(..)`, which has no other fault; the prover takes no `?` there",
    ("gcflip_c/src/text.rt", "gcflip_check_text"): "the arm is also that of a failed read, and reading from memory does not fail",
}

# Functions that give back what they were given where an allocation failed, and so have no name of a fault: how often each of them writes `Err`. Each stands
# behind a call that failed, and that gives something back itself or returns one of CAUSES. In `begin` and `end` one stands where a count of owners is full.
GIVEN_BACK = {
    "gc_cells/src/table.rt": {"of_vec": 1},
    "gc_concurrent/src/next.rt": {"begin": 3},
    "gc_concurrent/src/ended.rt": {"end": 3},
}


class Place:
    """A token that is a fault's name and makes a value: its line, its function, and how it is written. `why` says what is wrong."""

    def __init__(self, line, function, way, why=None):
        self.line = line
        self.function = function
        self.way = way
        self.why = why


def is_in(at, ranges):
    return any(first <= at < end for first, end in ranges)


def patterns_by_let(code):
    """Returns the ranges of the patterns of `let`, and of `matches!`."""
    tokens, found = code.tokens, []
    for at, token in enumerate(tokens):
        if token == "let":
            found.append((at + 1, code.until(at + 1, len(tokens), ("=", ";"))))
        elif token == "matches" and tokens[at + 1:at + 3] == ["!", "("]:
            end = code.ends[at + 2]
            first = code.until(at + 3, end, (",",))
            found.append((first, code.until(first, end, ("if",))))
    return found


def declared(code, at):
    """Returns whether the token is in a declaration or a type: outside every function's braces, and no constant's value."""
    for keyword, first, opened, end in code.heads:
        if keyword in ("const", "static") and first <= at < end:
            return at == first + 1
        if keyword in ("fn", "impl", "type", "use", "trait") and first <= at < opened:
            return True
    return code.around(at, "fn") is None


def is_made_from(code, at, kind):
    """Returns whether the token is the whole body of `from` in an `impl From` of a fault of this kind."""
    function, item = code.around(at, "fn"), code.around(at, "impl")
    if not item or code.tokens[function[1] + 1] != "from":
        return False
    header = re.search(r"From < (.*) > for", code.text(item[1], item[2]))
    body = code.text(function[2] + 1, function[3])
    return bool(header) and SOURCES.get(header.group(1)) == kind and re.fullmatch(r"(\w+ :: )?\w+", body) is not None


def alternatives(code, pattern):
    """Yields the tokens of each alternative of a pattern."""
    at, end = pattern
    while at < end:
        bar = code.until(at, end, ("|",))
        yield code.tokens[at:bar]
        at = bar + 1


def is_carried(code, at, kind):
    """Returns whether the token is the right side of an arm whose pattern has a fault of this kind in each alternative."""
    arms = [arm for arm in code.arms if is_in(at, [arm.body])]
    if not arms:
        return False
    arm = max(arms, key=lambda arm: arm.body[0])
    right = code.text(*arm.body)
    is_alone = re.fullmatch(r"(return )?((Err|Some) \( )?(\w+ :: )*\w+( \))?", right) is not None
    return is_alone and all(any(CAUSES.get(token) == kind for token in tokens) for tokens in alternatives(code, arm.pattern))


def places_in(code):
    """Yields the places of a file at which a fault is written."""
    patterns = [arm.pattern for arm in code.arms] + patterns_by_let(code)
    for at, token in enumerate(code.tokens):
        if token not in WRITTEN or declared(code, at) or is_in(at, patterns):
            continue
        function, kind = code.around(at, "fn"), WRITTEN[token]
        name = code.tokens[function[1] + 1] if function else "a constant"
        if function and is_made_from(code, at, kind):
            yield Place(code.lines[at], name, BY_FROM)
        elif function and is_carried(code, at, kind):
            yield Place(code.lines[at], name, BY_ARM)
        else:
            yield Place(code.lines[at], name, BY_HAND, "line %d: %s of %s is written by hand" % (code.lines[at], token, name))


def matches_on_block(scrutinee):
    """Returns whether what a match is on, up to the first brace, may be a block: the brace then begins no arms."""
    return not scrutinee or scrutinee[-1] == "!" or any(token in BLOCKS or re.match(r"'\w+$", token) for token in scrutinee)


def may_make_a_fault(tokens):
    """Returns whether a macro with these tokens could write a fault or its number: it has a fault's name, a digit, or a word by which faults go on."""
    return " ".join(tokens) not in MACROS and any(token in CAUSES or token in ("Err", "match", "?") or token[0].isdigit() for token in tokens)


def disguises_in(code):
    """Yields why the names of faults in a file may mean something else: another name, a default, or a pattern that binds."""
    for keyword, first, opened, end in code.heads:
        text = code.text(first, opened)
        line = code.lines[first]
        if keyword == "use" and re.search(r"\b(%s) as\b" % "|".join(CAUSES), text):
            yield "line %d: a fault has another name" % line
        if keyword == "use" and re.search(r":: \*", text) and not re.search(r":: prelude :: \*", text):
            yield "line %d: all names of a module are used" % line
        if keyword == "type" and re.search(r"= (\w+ :: )*(%s)\b" % "|".join(CAUSES), text):
            yield "line %d: a type is another name of a fault" % line
        has_fault = any(token in FAULTS for token in code.tokens[first:end])
        if keyword == "impl" and re.search(r"\bDefault for\b", text) and has_fault:
            yield "line %d: a fault is a default" % line
        if keyword in ("enum", "struct") and has_fault and re.search(r"derive \([^)]*\bDefault\b", code.text(max(0, first - 40), first)):
            yield "line %d: a fault may be a default" % line
    for at, token in enumerate(code.tokens):
        if token == "match" and matches_on_block(code.tokens[at + 1:code.until_brace(at + 1)]):
            yield "line %d: a block is matched on" % code.lines[at]
        if token == "macro_rules" and may_make_a_fault(code.tokens[at:code.ends[at + 3]]):
            yield "line %d: a macro is declared that may make a fault" % code.lines[at]
    uses = " ".join(code.text(head[1], head[2]) for head in code.heads if head[0] == "use")
    bare = [at for at, token in enumerate(code.tokens) if token in ("NoMemory", "AllocError") and code.tokens[at - 1] != "::" and not declared(code, at)]
    for name in sorted({code.tokens[at] for at in bare}):
        if not re.search(r"\b%s\b" % name, uses) and not re.search(r"struct %s\b" % name, " ".join(code.tokens)):
            yield "%s is not imported, so that a pattern of this name binds" % name


def numbers_in(code):
    """Yields the numbers without a name that a call of the libraries for C returns, and each function that may answer for one: it returns a number that
    has a name, or 32 bits and no contract says which."""
    for keyword, first, opened, end in code.heads:
        is_answer = code.text(first, opened).endswith("-> u32") and code.tokens[first + 1] not in EXACT + PASSED_ON
        if keyword == "fn" and code.tokens[first + 1] not in PASSED_ON and (is_answer or any(token in NAMED_ANSWERS for token in code.tokens[opened:end])):
            for at in range(opened, end):
                before, token, behind = code.tokens[at - 1:at + 2]
                if token in (*NAMED_ANSWERS, "DONE") and ({before, behind} & set("+-*/%^|&") or behind == "as"):
                    yield "line %d: a number is made of one that has a name" % code.lines[at]
                is_bare = token[0].isdigit() and before in ("return", "=>", "{", ";") and behind in (";", ",", "}")
                is_variable = re.fullmatch(r"[a-z_]\w*", token) is not None and (before == "return" and behind == ";" or before == ";" and behind == "}")
                if is_bare or is_variable or before == "return" and token == "u32":
                    yield "line %d: a number is returned that has no name" % code.lines[at]


def sources():
    """Returns the files of code that are not tests, by their crates."""
    return {crate: [path for path in sorted(glob.glob(os.path.join(TOP, "crates", crate, "src", "**", "*.rt"), recursive=True))
                    if not re.search(r"/src/tests(\.rt|/)", path)] for crate in crates_listed() if crate not in TESTS}


def read(path):
    with open(path, encoding="utf-8") as file:
        return Code(file.read())


def counted(places):
    """Returns how often each function writes a fault in each way."""
    found = {}
    for place in places:
        key = place.function, place.way
        found[key] = found.get(key, 0) + 1
    return found


def differences(shown, found, listed):
    """Yields how the places of a file differ from those of the list."""
    for function, way in sorted(set(found) | set(listed)):
        times, wanted = found.get((function, way), 0), listed.get((function, way), 0)
        if times != wanted:
            yield "%s of %s has %d by way of '%s', and the list has %d" % (function, shown, times, way, wanted)


def places(_program, _folder):
    """Each place where a fault is written is on the list, and the list has no others."""
    seen = set()
    for crate, paths in sources().items():
        for path in paths:
            shown = os.path.relpath(path, os.path.join(TOP, "crates"))
            code = read(path)
            found = list(places_in(code))
            listed = PLACES.get(shown, {})
            seen.add(shown)
            wrong = [place.why for place in found if place.why and (shown, place.function) not in BY_HAND_REASONS]
            wrong += list(differences(shown, counted(found), listed)) + list(disguises_in(code))
            wrong += list(numbers_in(code)) if crate in ("gcflip_c", "gcflip_heap_c", "gcflip_beside_c") else []
            yield "faults of %s" % shown, ", ".join(wrong) or None
    gone = sorted(set(PLACES) - seen)
    yield "files of the list", "there is no %s" % ", ".join(gone) if gone else None
    idle = [key for key in BY_HAND_REASONS if (key[1], BY_HAND) not in PLACES.get(key[0], {})]
    yield "reasons of the list", "no place for %s" % idle if idle else None


def given_back_in(code):
    """Returns how often each function of a file writes `Err` as a value."""
    patterns, found = [arm.pattern for arm in code.arms] + patterns_by_let(code), {}
    for at, token in enumerate(code.tokens):
        function = code.around(at, "fn")
        if token == "Err" and function and not declared(code, at) and not is_in(at, patterns):
            name = code.tokens[function[1] + 1]
            found[name] = found.get(name, 0) + 1
    return found


# A function that gives back what it was given in three places.
GIVES_BACK = """fn begin(a: Row) -> Result<Space, Option<Row>> {
    let Ok(b) = first(a) else { return Err(None); };
    if let Err(c) = second(b) { return Err(Some(c)); }
    match third(b) { Ok(space) => Ok(space), Err(d) => Err(Some(d)) }
}
"""


def given_back(_program, _folder):
    """The functions of GIVEN_BACK write `Err` as often as the list says."""
    for shown, listed in GIVEN_BACK.items():
        found = given_back_in(read(os.path.join(TOP, "crates", shown)))
        wrong = ["%s writes %d, and the list has %d" % (name, found.get(name, 0), count) for name, count in listed.items() if found.get(name, 0) != count]
        yield "what %s gives back" % shown, ", ".join(wrong) or None
    found = given_back_in(Code(GIVES_BACK))
    yield "a function that gives back in three ways", None if found == {"begin": 3} else "found %s" % found


CONTROLS = os.path.join(TOP, "tests", "controls", "memory_faults")


def faults_of(code):
    """Returns all that is wrong in a file which has no places on the list by hand."""
    return [place.why for place in places_in(code) if place.why] + list(disguises_in(code)) + list(numbers_in(code))


def controls(_program, _folder):
    """Each file of tests/controls/memory_faults breaks the rule that its first line names, and only that one, or none."""
    paths = sorted(glob.glob(os.path.join(CONTROLS, "*.txt")))
    for path in paths:
        with open(path, encoding="utf-8") as file:
            wanted = re.match(r"// (accepted|refused: (.*))\n", file.read())
        found = faults_of(read(path))
        refused = wanted.group(2)
        is_right = not found if refused is None else found != [] and all(refused in why for why in found)
        yield "control %s" % os.path.basename(path), None if is_right else "found %s" % found
    yield "there are controls", None if len(paths) > 38 else "%d" % len(paths)


GROUPS = [places, given_back, controls]
