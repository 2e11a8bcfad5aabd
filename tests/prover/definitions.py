"""The definitions in `specs/`: those that public contracts reach, directly or through other definitions."""
import functools
import os
import re

from .crates import CRATES
from .doors import DOOR, door_of

NAME = re.compile(r"[^\s(){}\[\];,.]+(?:\.[^\s(){}\[\];,.]+)*")
KEYWORDS = {"abbrev", "unfoldable", "pub", "record", "data", "module"}
# The place of an argument in the name of an operator, which the operator's uses do not show.
GAP = "\u25cc"
# The operator that joins the lines of a `do` block.
BIND = ">>="


def files_below(folder, ending):
    """Yields the paths below the folder with this ending, in order."""
    for path, folders, names in os.walk(folder):
        folders.sort()
        for name in sorted(names):
            if name.endswith(ending):
                yield os.path.join(path, name)


def imports_in(text):
    """Returns the imports of a file: (module, name) by plain name, and the module by alias."""
    names, modules = {}, {}
    for module, list_of, alias in re.findall(r"use (Rattle\.[\w.]+?)(?:\.\{([^}]*)\}| as (\w+))", text):
        if alias:
            modules[alias] = module
        for item in list_of.split(","):
            parts = item.split(" as ")
            if parts[0].strip():
                names[parts[-1].strip().strip(GAP)] = (module, parts[0].strip())
    return names, modules


class Definition:
    def __init__(self, module, name):
        self.module, self.name, self.lines = module, name, []


def definitions_in(path, module):
    """Returns the definitions of a file, in order."""
    found, current = [], None
    for line in open(path, encoding="utf-8"):
        bare = line.rstrip()
        if not bare or bare.lstrip().startswith("--") or bare.startswith(("use ", "pub use ", "mod ", "pub mod ")):
            continue
        if bare.startswith("infix"):
            continue
        if not line[0].isspace() and not bare.startswith(("unfolding", "}")):
            words = [word for word in NAME.findall(bare) if word not in KEYWORDS]
            name = words[0].rstrip(":") if words else ""
            is_row = current is not None and (name == current.name or GAP in current.name and current.name.strip(GAP) in words)
            if not is_row:
                current = Definition(module, name)
                found.append(current)
        if current is not None:
            current.lines.append(bare)
    return found


def resolve(token, names, modules, module, known):
    """Returns the (module, name) of the definition that a token names, or None. A constructor names the definition that declares it."""
    first, _, rest = token.partition(".")
    places = [(modules[first], rest.split(".")[0])] if rest and first in modules else []
    places += [names[first]] if first in names else []
    for place in places + [(module, first), (module, GAP + token + GAP)]:
        if place in known:
            return known[place].module, known[place].name
    return None


def public_clauses(text):
    """Returns the contracts of public functions, public traits and models of a source file."""
    clauses, taking, indent = [], False, ""
    for line in text.split("\n"):
        start = re.match(r"(\s*)pub (?:const |extern \"C\" )?fn ", line)
        member = re.match(r"(\s*)(?:ghost \w+: \{|ghost (?:Value|view|also_owns) = \{)", line)
        if start:
            taking, indent = True, start.group(1)
        elif taking and line.startswith(indent + "{"):
            taking = False
        if taking or member:
            clauses.append(line)
    for body in re.findall(r"(?ms)^pub trait .*?^}", text):
        clauses.append(body)
    for body in re.findall(r"(?ms)^\s*ghost view = \{.*?\};", text):
        clauses.append(body)
    return "\n".join(clauses)


def module_of(path, crate):
    inner = os.path.relpath(path, os.path.join(CRATES, crate, "specs"))[: -len(".antt")]
    return "Rattle.%s.specs.%s" % (crate, inner.replace(os.sep, "."))


@functools.lru_cache(maxsize=None)
def read_all(crates):
    """Returns all definitions by (module, name), and by their constructors, with the imports of their files."""
    known, imports = {}, {}
    for crate in crates:
        for path in files_below(os.path.join(CRATES, crate, "specs"), ".antt"):
            module = module_of(path, crate)
            imports[module] = imports_in(open(path, encoding="utf-8").read())
            for definition in definitions_in(path, module):
                known[(module, definition.name)] = definition
                for line in definition.lines[1:] if "data " in definition.lines[0] else []:
                    known[(module, line.split()[0])] = definition
    for crate in crates:
        known.update(passed_on(crate, known))
    return known, imports


def passed_on(crate, known):
    """Returns the definitions that a crate's door passes on, by the door's module and their names."""
    if not os.path.exists(door_of(crate)):
        return {}
    names, _ = imports_in(open(door_of(crate), encoding="utf-8").read())
    return {("Rattle.%s.%s" % (crate, DOOR), name): known[(module, name)] for module, name in names.values() if (module, name) in known}


def reached_from_public(crates, known, imports):
    """Returns the definitions that public contracts reach, directly or through other definitions."""
    return reached_from(cited_by_contracts(crates, known), known, imports)


def cited_by_contracts(crates, known):
    """Returns the definitions that public contracts name."""
    queue = []
    for crate in crates:
        for path in files_below(os.path.join(CRATES, crate, "src"), ".rt"):
            if os.sep + "tests" in os.path.relpath(path, CRATES):
                continue
            text = open(path, encoding="utf-8").read()
            names, modules = imports_in(text)
            for token in NAME.findall(public_clauses(text)):
                queue.append(resolve(token, names, modules, "", known))
    return queue


def reached_from(queue, known, imports):
    """Returns these definitions and all that they name, directly or indirectly."""
    reached = set()
    while queue:
        key = queue.pop()
        if key is None or key in reached:
            continue
        reached.add(key)
        names, modules = imports[key[0]]
        for token in NAME.findall("\n".join(known[key].lines)):
            queue.append(resolve(BIND if token == "do" else token, names, modules, key[0], known))
    return reached
