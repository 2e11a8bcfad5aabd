"""The public calls of the bindings for Rust and Python, each with the calls for C that it makes."""
import ast
import os
import re

from .crates import TOP

RUST = os.path.join(TOP, "bindings", "rust", "src")
PYTHON = os.path.join(TOP, "bindings", "python", "gcflip")
# The files of Rust's heap.
HEAP_OF_RUST = ("heap.rs", os.path.join("heap", "places.rs"))
# Public methods that stand for no call of C alone.
OF_THEIR_OWN = {"Rust": {"mutator", "bytes_hash"}, "Python": {"mutator", "bytes_hash", "make", "make_raw", "make_bytes", "safepoint", "stats", "objects", "growing"}}
# How a method of Python's Heap makes a call on the heap: by its name, behind this prefix.
BY_NAME = {"_call": "gcflip_heap_", "_made": "gcflip_heap_", "_step": "gcflip_heap_step_", "_call_roots": "gcflip_", "_made_roots": "gcflip_"}


def read(*path):
    with open(os.path.join(*path), encoding="utf-8") as file:
        return file.read()


def of_sys():
    """Returns the calls for C behind the functions of Rust's module of unsafe code: those of its handle, and the others, by their names."""
    text = read(RUST, "sys.rs")
    handle = {name: {call} for name, call in re.findall(r"(?m)^    (\w+): (gcflip_\w+)\(", text)}
    for indent, name, body in re.findall(r"(?ms)^( {4}|)pub fn (\w+)\([^{]*\{\n(.*?)^\1\}$", text):
        if indent:
            handle[name] = set(re.findall(r"\bgcflip_\w+(?=\()", body))
    others = {name: set(re.findall(r"\bgcflip_\w+(?=\()", body)) for name, body in re.findall(r"(?ms)^pub fn (\w+)\([^{]*\{\n(.*?)^\}$", text)}
    return handle, others, set(re.findall(r"(?s)fn drop\(.*?\bgcflip_(\w+)\(", text))


def rust():
    """Returns the public calls of the crate, each with the calls for C that it makes. A method and a function may have one name."""
    handle, others, dropped = of_sys()
    methods, inner = {}, {}
    for block in re.findall(r"(?ms)^impl (?:Heap|Mutator<'_>) \{(.*?)^\}", "".join(read(RUST, path) for path in HEAP_OF_RUST)):
        for name, body in re.findall(r"(?ms)^    pub fn (\w+).*?\{\n(.*?)^    \}$", block):
            of_handle = [handle[call] for call in re.findall(r"\bhandle\.(\w+)\(", body)]
            methods[name] = set().union(*of_handle, *[others[call] for call in re.findall(r"\bsys::(\w+)\(", body)])
            inner[name] = re.findall(r"\b(?:self\.|Heap::)(\w+)\(", body)
    found = [(name, calls.union(*[methods.get(call, set()) for call in inner[name]])) for name, calls in methods.items()]
    for path in ("checker.rs", "inference.rs"):
        for name, body in re.findall(r"(?ms)^pub fn (\w+).*?\{\n(.*?)^\}$", read(RUST, path)):
            found.append((name, set().union(*[others[call] for call in re.findall(r"\bsys::(\w+)\(", body)])))
    exported = re.search(r"pub use sys::\{(.*?)\}", read(RUST, "lib.rs")).group(1).split(", ")
    return found + [(name, others[name]) for name in exported if name in others] + [("the drop", {"gcflip_" + call for call in dropped})]


def called_in(function):
    """Returns the calls for C that a function of Python makes by itself, and the private functions and methods that it names."""
    calls, private = set(), set()
    for node in ast.walk(function):
        name = node.attr if isinstance(node, ast.Attribute) else node.id if isinstance(node, ast.Name) else ""
        if name.startswith("gcflip_") and isinstance(node.value, ast.Name) and node.value.id == "LIBRARY":
            calls.add(name)
        elif name.startswith("_"):
            private.add(name)
        if isinstance(node, ast.Call) and isinstance(node.func, ast.Attribute) and node.func.attr in BY_NAME:
            first = node.args[0]
            calls |= {BY_NAME[node.func.attr] + first.value} if isinstance(first, ast.Constant) else set()
    return calls, private


def functions_of_python():
    """Yields the functions of the package and the methods of its heap, each with whether it is a method and what it calls. A heap is opened by its class."""
    for path in ("heap.py", "turns.py", "checker.py", "inference.py", "library.py"):
        for node in ast.parse(read(PYTHON, path)).body:
            is_heap = isinstance(node, ast.ClassDef) and node.name in ("Heap", "Mutator")
            for member in node.body if is_heap else [node]:
                if isinstance(member, ast.FunctionDef) and member.name not in BY_NAME:
                    opens = member.name == "__init__" and node.name == "Heap"
                    yield "Heap(..)" if opens else member.name, is_heap, called_in(member)


def python():
    """Returns the public calls of the package, each with the calls for C that it makes. A method and a function may have one name."""
    functions = list(functions_of_python())
    private = {name: called for name, _, called in functions if name.startswith("_")}
    found = [(name, is_method, calls_below(called, private, set())) for name, is_method, called in functions if not name.startswith("_")]
    return [(name, calls) for name, is_method, calls in found if calls or is_method]


def calls_below(called, private, seen):
    """Returns the calls for C that a function makes, also through private ones."""
    calls, named = called
    inner = {name for name in named if name in private and name not in seen}
    return calls.union(*[calls_below(private[name], private, seen | inner) for name in sorted(inner)])


def names_of(call, made):
    """Returns the public calls of a language that stand for a call of C: of those that make it, the ones that make the fewest calls."""
    making = [(name, calls) for name, calls in made if call in calls]
    least = min((len(calls) for _, calls in making), default=0)
    return [name for name, calls in making if len(calls) == least]


def unnamed(symbols, made, language):
    """Returns the public calls of a language that stand for none of these calls of C."""
    named = {name for call in symbols for name in names_of(call, made)}
    return sorted({name for name, _ in made} - named - OF_THEIR_OWN[language])
