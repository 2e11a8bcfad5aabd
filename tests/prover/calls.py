"""docs/CALLS.md: the functions that the headers for C declare, a row each, and notes on some of them.

What a call does and its replies come from the comment above it in the header. Why it may be refused, and when it may run out of memory, comes from the
contract of its export. What it costs comes from bench/embedding/commands.txt, and its names in Rust and Python from the code of the bindings.
"""
import glob
import os
import re

from . import bindings
from .c_headers import HEADERS, answers, functions_of, symbols
from .crates import CRATES, TOP
from .functions import contract_of, items_of
from .made_pages import differences, path_of, read

DOCUMENT = path_of("CALLS.md")
NOTES = os.path.join(TOP, "bindings", "c", "call_notes.md")
COSTS = os.path.join(TOP, "bench", "embedding", "commands.txt")
COUNTED = os.path.join(TOP, "bench", "embedding", "commands.c")
ALLOCATES = os.path.join(CRATES, "gc_collected", "specs", "CollectedHeap.antt")
CLAUSE = re.compile(r" *ensures\*? (?:(\w+) )?\{")

# The names of answers in contracts, with those of C.
IN_CONTRACTS = {"done": "GCFLIP_DONE", "no_memory": "GCFLIP_NO_MEMORY", "out_of_range": "GCFLIP_OUT_OF_RANGE", "closed_handle": "GCFLIP_CLOSED",
                "open_handle": "GCFLIP_OPEN", "frame_full": "GCFLIP_FRAME_FULL", "frame_empty": "GCFLIP_FRAME_EMPTY", "too_many": "GCFLIP_TOO_MANY",
                "too_large": "GCFLIP_TOO_LARGE", "bad_line": "GCFLIP_BAD_LINE", "ends_early": "GCFLIP_ENDS_EARLY", "no_path": "GCFLIP_NO_PATH",
                "long_path": "GCFLIP_LONG_PATH", "busy": "GCFLIP_BUSY", "refused": "GCFLIP_REFUSED", "damaged": "GCFLIP_DAMAGED"}
# Forms of the clause `call`: the reasons of a refusal that each has, beside arguments out of range.
FORMS = {"IsCommandCall": {"no_memory", "closed_handle"}, "IsCall": {"no_memory", "closed_handle"}, "IsStepCall": {"no_memory", "closed_handle"},
         "IsWorkCall": {"no_memory", "closed_handle"}, "IsFrameCall": {"closed_handle"}}
# What a state has in which a step allocates, by the definition `Allocates`.
STATES = {"s.collection ≡ None": "no collection is open", "IsSomeAnd s.collection (λ c. IsTrue (is_ready c s.heap.graph))": "a collection is ready for its flip"}
NEVER, OPEN, ALWAYS = "never", "while a collection is open", "always"


# ---- Contracts

def contracts():
    """Returns the clauses of each export of the crates for C, as one line each, by the export's name."""
    found = {}
    for path in sorted(glob.glob(os.path.join(CRATES, "gcflip_c", "src", "*.rt")) + glob.glob(os.path.join(CRATES, "gcflip_heap_c", "src", "*.rt"))):
        text = read(path)
        for item in items_of("src/" + os.path.basename(path), text):
            if item.name and "no_mangle" in text[item.start:item.end]:
                found[item.name] = clauses_of(contract_of(text, item))
    return found


def clauses_of(contract):
    """Returns the clauses that a contract ensures by their names, without comments."""
    found, name = {}, None
    for line in contract:
        if re.match(r" *(?:requires|ensures)\b", line):
            clause = CLAUSE.match(line)
            name = (clause.group(1) or "ensures") if clause else None
        if name and not line.lstrip().startswith("//"):
            found[name] = (found.get(name, "") + " " + line.strip()).strip()
    return found


def allocating():
    """Returns in which states each step allocates, by the definition of `Allocates`; all other steps allocate in none. A state is None if it is not known
    in words."""
    rows = re.findall(r"(?m)^Allocates s (?:\((\w+) \w+\)|(\w+)) = (.*)$", read(ALLOCATES))
    return {with_size or alone: STATES.get(state) for with_size, alone, state in rows if state != "⊥"}


def memory(clauses):
    """Returns when a call may return GCFLIP_NO_MEMORY by its contract, or None if that does not tell."""
    bound, call = clauses.get("memory", ""), clauses.get("call", "")
    if re.search(r"result(\.answer)? ≢ no_memory", bound):
        return NEVER
    if "(λ s. IsSome s.collection)" in bound:
        return OPEN
    if bound:
        return while_allocating(bound, clauses)
    if "answers" in clauses:
        return ALWAYS if "no_memory" in clauses["answers"] else NEVER
    if "IsFrameCall" in call or re.search(r"\{ result ≡ ", " ".join(clauses.values())):
        return NEVER
    return None


def while_allocating(bound, clauses):
    """Returns when a call may run out of memory by a clause which says that a step allocates, or None if it says something else."""
    named = re.search(r"Allocates s \(?(?:Step\.(\w+)|useful_step|sized_step)", bound)
    if not named:
        return None
    found = list(dict.fromkeys(state for step, state in allocating().items() if named.group(1) in (None, step)))
    if None in found:
        return None
    whole = ", and the flip checks both spaces whole" if "checks_whole" in clauses.get("due", "") else ""
    return "while %s%s" % (" or ".join(found), whole) if found else NEVER


def proved_answers(clauses):
    """Returns the answers that a contract names, and whether it names all of them. The clause `answers` does if it has no condition, the form of the clause `call`
    names the refusals, and `undamaged` an answer that only damage by other code can bring."""
    told, call = clauses.get("answers", ""), clauses.get("call", "")
    names = set(re.findall(r"\w+", told)) & set(IN_CONTRACTS)
    names |= {"done", "refused"} if "IsVerdict" in told else set()
    form = re.search(r"\b(%s)\b" % "|".join(FORMS), call)
    if form:
        names |= FORMS[form.group(1)] | set(re.findall(r"\bframe_\w+\b", call)) & set(IN_CONTRACTS)
        names |= set() if "(λ _. ⊤)" in call else {"out_of_range"}
    names |= {"damaged"} if "result ≢ damaged" in clauses.get("undamaged", "") else set()
    names -= {"no_memory"} if memory(clauses) == NEVER else set()
    return {IN_CONTRACTS[name] for name in names}, bool(told) and "IsRefusal" not in told


# ---- Costs

def costs():
    """Returns the costs of each call: rows of the table of instructions, with the call that each is about by the program that was counted."""
    counted = dict(re.findall(r"(?m)^(?:COMMAND|SEEN)\((\w+), (gcflip_\w+)\(", read(COUNTED)))
    steps = re.search(r"(?s)#define STEPS.*?(gcflip_\w+)\(", read(COUNTED)).group(1)
    counted.update({row: steps for row in re.findall(r"(?m)^STEPS\((\w+), ", read(COUNTED))})
    found = {}
    for line in read(COSTS).split("\n"):
        row = line.split()
        if row and not line.startswith("#"):
            found.setdefault(counted[row[0]], []).append((row[0], row[1]))
    return found


def cost_of(name, rows):
    """Returns the costs of a call in words. A row with the call's own name needs none. The rows of commands on roots by their places begin with `place`."""
    own = name.replace("gcflip_heap_", "").replace("gcflip_", "place_")
    return ", ".join(count if row == own else "%s (`%s`)" % (count, row) for row, count in rows)


# ---- The document

# What functions return that return no answer, by their types.
RETURNED = {"void": "", "bool": "true or false", "uint32_t": "a number", "uint64_t": "a number", "size_t": "a number"}


def answers_of(function, clauses, known):
    """Returns the answers of a function in words: those that its comment names and those of its contract, but not GCFLIP_NO_MEMORY, which has a column, and
    not the second name of 0."""
    names = set(function.names(known)) | proved_answers(clauses)[0]
    names -= {"GCFLIP_NO_MEMORY"} | ({"GCFLIP_DONE"} if "GCFLIP_YES" in names else set())
    told = ", ".join("`%s`" % name.replace("GCFLIP_", "") for name in known if name in names)
    if told or function.calls():
        return told or "as `%s`" % function.calls()
    return RETURNED.get(function.returns, "`%s`" % function.returns)


def memory_of(function, clauses):
    """Returns the cell that says when a function may run out of memory. An inline function does when the call that it makes does."""
    if function.is_inline:
        return "as `%s`" % function.calls() if function.calls() else NEVER
    return memory(clauses) or "its contract does not tell"


class Table:
    """What the rows are made from, read once."""

    def __init__(self):
        self.contracts, self.costs, self.known = contracts(), costs(), answers()
        self.rust, self.python = bindings.rust(), bindings.python()
        self.functions = [function for header in HEADERS for function in functions_of(header)]

    def row(self, function):
        """Returns the cells of a function's row."""
        clauses = self.contracts.get(function.name, {})
        cells = ["`%s`" % function.name, function.does(), answers_of(function, clauses, self.known)]
        if function.header in FEW:
            return cells
        named = [", ".join(shown(name) for name in bindings.names_of(function.name, made)) for made in (self.rust, self.python)]
        return cells + [memory_of(function, clauses), cost_of(function.name, self.costs.get(function.name, [])), *named]

    def faults(self):
        """Yields what a reader of the headers would miss: calls without a row, replies that no comment names, and answers against the contract."""
        names = [function.name for function in self.functions]
        yield from ["%s has no comment in its header" % name for name in symbols() if names.count(name) != 1]
        for function in self.functions:
            yield from self.faults_of(function)
        for language, made in (("Rust", self.rust), ("Python", self.python)):
            yield from ["%s of %s stands for no call of C" % (name, language) for name in bindings.unnamed(symbols(), made, language)]
        yield from ["the note on %s is about no call" % name for name, _ in parts_of_notes() if is_call(name) and name not in names]

    def faults_of(self, function):
        clauses = self.contracts.get(function.name)
        if clauses is None:
            return
        proved, is_all = proved_answers(clauses)
        named = {name.replace("GCFLIP_YES", "GCFLIP_DONE") for name in function.names(self.known)}
        if memory(clauses) is None:
            yield "the contract of %s does not tell when it runs out of memory" % function.name
        if {"GCFLIP_NO_MEMORY", "GCFLIP_OUT_OF_RANGE", "GCFLIP_CLOSED"} & named - proved:
            yield "%s is never refused for what its comment says: %s" % (function.name, sorted(named - proved))
        if is_all and named - proved:
            yield "%s has answers beyond its contract: %s" % (function.name, sorted(named - proved))
        told = named | {"GCFLIP_NO_MEMORY", "GCFLIP_OUT_OF_RANGE", "GCFLIP_CLOSED"}
        if proved - told:
            yield "the comment of %s does not name %s" % (function.name, sorted(proved - told))


HEAD = """# Calls

`tools/calls --write` makes this page, and CI checks it. It is for looking up: [EMBEDDING.md](EMBEDDING.md) and [CERTIFY.md](CERTIFY.md) say what the calls
are for. Each row has one function of the headers for C:

- **does**: the first sentence of the comment above it in the header.
- **answers**: numbers of `gcflip_answers.h`, without `GCFLIP_`. The replies are those that the header's comment names, the reasons of a refusal those of the
  contract. `CLOSED` means that the handle has no heap. `DAMAGED`, and `REFUSED` of `gcflip_heap_check`, are proved
  never to occur unless other code writes into the heap's memory.
- **out of memory**: when the call may return `GCFLIP_NO_MEMORY`, by the clauses `memory`, `answers` and `due` of its contract
  ([gcflip_c](../crates/gcflip_c/README.md), [gcflip_heap_c](../crates/gcflip_heap_c/README.md)). So "never" is proved, and "always" means that the contract
  excludes it in no state. A call of work returns it only for its first step. What inline functions say is not proved.
- **instructions**: those of one call with the loop around it, from `bench/embedding/commands.txt`. A row of that table
  about a special case has its name behind the number. In it, `open` means while a collection is open, `replica` that the object has a replica too, and a
  number how many fields. Rows of commands on roots by their places begin with `place`. `step`, `step_long`, `apply` and `raw_words_60` are about a step in a call of work.
- **Rust**, **Python**: the methods of `Heap` and `Mutator`, or the functions, that make this call, from the code of [the crate](../bindings/rust/README.md) and
  [the package](../bindings/python/README.md).
"""
ABOUT = {
    "gcflip.h": "The checker. All but the conveniences is proved.",
    "gcflip_heap.h": "The collected heap. All but the inline functions, which return a record or a count, is proved.",
    "gcflip_slots.h": "Commands on slots by their numbers, which are deprecated, and go with version 0.3. All are proved.",
    "gcflip_images.h": "The library for adapters. Nothing of it is proved, and it has no names in Rust and Python. Only the check and the inference return `NO_MEMORY`. "
                       "Elsewhere a failed allocation is the fault `GCFLIP_FAULT_MEMORY`, or NULL from `gcflip_collection_open`. The header says so, and "
                       "`tests/c/refused_images.c` makes each allocation fail.",
    "gcflip_answers.h": "The numbers that all these calls return.",
}
COLUMNS = ["call", "does", "answers", "out of memory", "instructions", "Rust", "Python"]
# Headers whose functions have no contract and no name in another language, and the columns of their tables.
FEW, FEWER = {"gcflip_images.h", "gcflip_answers.h"}, COLUMNS[:3]


def shown(name):
    """Returns a name as code. What is said in words has a space."""
    return name if " " in name else "`%s`" % name


def parts_of_notes():
    """Returns the parts of the notes: the heading of each, which is a call's name or begins with a capital, and its text. Links lead from the page."""
    parts = re.split(r"(?m)^## (\w+)\n", read(NOTES).replace("](../../examples/", "](../examples/"))[1:]
    return list(zip(parts[::2], parts[1::2]))


def is_call(heading):
    return heading.islower()


def line_of(cells):
    return "| %s |\n" % " | ".join(cell.replace("|", "\\|") for cell in cells)


def document(table):
    """Returns the whole page."""
    lines, last = [HEAD], None
    for function in table.functions:
        if function.header != (last.header if last else None):
            lines.append("\n## %s\n\n%s\n" % (function.header, ABOUT[function.header]))
        if last is None or (function.header, function.section) != (last.header, last.section):
            columns = FEWER if function.header in FEW else COLUMNS
            lines.append(("\n### %s\n" % function.section if function.section else "") + "\n" + line_of(columns) + "|%s\n" % ("---|" * len(columns)))
        lines.append(line_of(table.row(function)))
        last = function
    parts = [(is_call(name), "%s %s\n%s\n" % ("###" if is_call(name) else "##", name, text.rstrip())) for name, text in parts_of_notes()]
    others, of_calls = ["\n".join(text for of_call, text in parts if of_call == wanted) for wanted in (False, True)]
    return "".join(lines) + "\n" + others + "\n## More about some calls\n\n" + of_calls


def faults(shown, table=None):
    """Yields what is wrong: with the headers, and with this text of the page."""
    table = table or Table()
    yield from table.faults()
    yield from differences("CALLS.md", "calls", shown, document(table))
