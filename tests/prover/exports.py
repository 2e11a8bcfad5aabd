"""The definitions that the contracts of a product's exported functions reach: those that a contract names, and those that they name in turn.

A contract also reaches the types of the function's arguments and result. It sees a value of a type as the type's model says, or, if there is no
model, as the values of the fields. A view reaches only the types of the fields that it reads.
"""
import os
import re

from .crates import CRATES
from .definitions import NAME, files_below, imports_in, resolve
from .functions import contract_of, items_of

# The products, and the crates whose exported functions each one offers.
PRODUCTS = {"gcflip_c": ["gcflip_c"], "gcflip_heap_c": ["gcflip_heap_c"], "gcflip_beside_c": ["gcflip_beside_c"], "gc_world": ["gc_world", "gc_shared"], "gcflip": ["gcflip"]}
PUBLIC = re.compile(r"\s*pub (?:const |unsafe |extern \"C\" )*fn ")
TYPE = re.compile(r"(?m)^(?:pub(?:\([^)]*\))? )?(struct|enum|union|trait) (\w+).*")
FIELD = re.compile(r"(?m)^ *(?:pub(?:\([^)]*\))? )?(\w+): (?!\{)(.*)")
GHOST_FIELD = re.compile(r"(?m)^ *ghost \w+: \{(.*?)\}")
# A module that the toolchain makes for a type of the code.
OF_TYPE = re.compile(r"Rattle\.(\w+)\.specs\.(?:declared|contracts)\.(?:\w+\.)*?(\w+)(?:\.The\w+)?")


def without_comments(text):
    """Returns a text of code without its comments and attributes."""
    return re.sub(r"(?m)^ *(?://|#\[).*\n", "", text)


def types_named(text):
    """Returns the names in a text of code that may be those of types or traits."""
    return set(re.findall(r"\b[A-Z]\w+", text))


class Part:
    """A piece of a source file: words of definitions, and names of types."""

    def __init__(self, crate, path, text, words, types):
        self.crate, self.path, self.words, self.types = crate, path, words, types
        self.imports = imports_in(text)
        used = re.findall(r"(?m)^use (\w+)::([^;]*);", text)
        self.foreign = set().union(*[types_named(names) for crate_used, names in used if not crate_used.startswith(("gc_", "crate"))])
        self.used = [(crate_used, types_named(names)) for crate_used, names in used]


def type_of(crate, path, text, head):
    """Returns what contracts see of the type or the trait whose first line this is."""
    end = text.find("\n}", head.end()) if head.group(0).endswith("{") else head.end()
    kind, name, block = head.group(1), head.group(2), without_comments(text[head.start():end])
    if kind == "trait":
        return Part(crate, path, text, block, types_named(block))
    words = " ".join(GHOST_FIELD.findall(block))
    model = re.search(r"(?ms)^impl(?:<[^>\n]*>)? Model for %s\b.*?^\}" % name, text)
    members = dict(re.findall(r"(?ms)^    ghost (Value|view|also_owns) = \{(.*?)\};$", model.group(0))) if model else {}
    words += " ".join(members.values())
    inner = block.partition("{" if "{" in block else name)[2]
    if kind == "enum":
        inner = re.sub(r"(?m)^    \w+", "", inner)
    shown = re.match(r" λ (\w+)\. (?s:(.*))", members.get("view", ""))
    if shown:
        fields = set(re.findall(r"\b%s\.(\w+)" % shown.group(1), shown.group(2)))
        inner = " ".join(type_text for field, type_text in FIELD.findall(inner) if field in fields)
    return Part(crate, path, text, words, types_named(inner) - {name})


class Code:
    """The types and the exported functions of all crates, and the definitions that they reach."""

    def __init__(self, known, definition_imports):
        self.known, self.definition_imports = known, definition_imports
        self.types = {}
        self.files = {}
        # What each exported function, each type and each definition names, once it was asked for.
        self.named = {}
        for crate in sorted(os.listdir(CRATES)):
            for path in files_below(os.path.join(CRATES, crate, "src"), ".rt"):
                inner = os.path.relpath(path, os.path.join(CRATES, crate))
                if not re.match(r"src/tests(\.rt|/)", inner):
                    with open(path, encoding="utf-8") as file:
                        self.files[(crate, inner)] = file.read()
        for (crate, path), text in self.files.items():
            for head in TYPE.finditer(text):
                self.types.setdefault((crate, head.group(2)), type_of(crate, path, text, head))

    def exported_names(self, crate):
        """Returns the names that a library's root file exports, or None for a program, whose public functions count."""
        root = self.files.get((crate, "src/lib.rt"))
        return None if root is None else {name for used in re.findall(r"(?ms)^pub use ([^;]*);", root) for name in re.findall(r"\w+", used)}

    def exported(self, crate):
        """Yields each exported function of a crate: its name, with its type if it is a method, and what its signature and its contract name."""
        names = self.exported_names(crate)
        for (owner_crate, path), text in self.files.items():
            for item in items_of(path, text) if owner_crate == crate else []:
                body, owner = text[item.start:item.end], re.findall(r"\w+", re.sub(r"<[^>]*>", "", item.owner))[1:2]
                is_exported = names is None or "no_mangle" in body or names & set(owner or [item.name])
                if item.name and PUBLIC.match(without_comments(body)) and is_exported:
                    signature = re.split(r"(?m)^ *(?:requires|ensures)\b|\{ *$|\{\}$", without_comments(body))[0]
                    part = Part(crate, path, text, "\n".join(contract_of(text, item)), types_named(signature) | set(owner))
                    yield "::".join(owner + [item.name]), part

    def type_named(self, part, name):
        """Returns the (crate, name) of the type or the trait that a name means in a part, or None if it is none of ours."""
        if (part.crate, name) in self.types:
            return part.crate, name
        crates = [crate for crate, found in self.types if found == name]
        if name in part.foreign or not crates:
            return None
        if len(crates) > 1:
            crates = [crate for crate in crates if any(crate == used and name in names for used, names in part.used)]
        if len(crates) != 1:
            raise ValueError("%s/%s: which type is %s?" % (part.crate, part.path, name))
        return crates[0], name

    def type_of_word(self, word, names, modules):
        """Returns the (crate, name) of the type whose values a word of a definition names, or None."""
        first, _, rest = word.partition(".")
        module = modules[first] if rest and first in modules else names[first][0] if first in names else ""
        found = OF_TYPE.fullmatch(module)
        return (found.group(1), found.group(2)) if found and found.groups() in self.types else None

    def nodes_in(self, words, names, modules, module):
        """Yields the definitions and the types that these words name."""
        for word in NAME.findall(words):
            yield "definition", resolve(word, names, modules, module, self.known)
            yield "type", self.type_of_word(word, names, modules)

    def nodes_of(self, part):
        yield from self.nodes_in(part.words, *part.imports, "")
        for name in sorted(part.types):
            yield "type", self.type_named(part, name)

    def named_by_exports(self, crate):
        """Returns the exported functions of a crate, and the nodes that each names."""
        if ("exports", crate) not in self.named:
            self.named["exports", crate] = [(name, list(self.nodes_of(part))) for name, part in self.exported(crate)]
        return self.named["exports", crate]

    def named_by(self, node):
        """Returns the nodes that a type or a definition names."""
        if node not in self.named:
            kind, key = node
            self.named[node] = list(self.nodes_of(self.types[key]) if kind == "type" else
                                    self.nodes_in("\n".join(self.known[key].lines), *self.definition_imports[key[0]], key[0]))
        return self.named[node]

    def reached_by(self, crates, left_out=()):
        """Returns the definitions that the contracts of the exported functions of these crates reach, without the functions of these names.
        Worked rows do not count."""
        queue = [node for crate in crates for name, nodes in self.named_by_exports(crate) if name not in left_out for node in nodes]
        reached = set()
        while queue:
            node = queue.pop()
            if node[1] is not None and node not in reached:
                reached.add(node)
                queue += self.named_by(node)
        return {key for kind, key in reached if kind == "definition" and not key[0].endswith("Rows")}
