"""The functions of a source file, with their names as the prover has them, and the clauses of their contracts."""
import functools
import re

# How many texts are kept with what was found in them: edits and rows ask for the same files again and again.
KEPT = 256

HEAD = re.compile(r"""(?m)^(?: *(?://|#\[).*\n)* *(?:pub(?:\([^)]*\))? )?(?:(?:(?:const|unsafe|extern "C") )*fn (\w+)|(?:const|struct|enum|trait|impl)\b[^\n{]*)""")
IMPL = re.compile(r"impl(?:<(?:[^<>]|<[^<>]*>)*>)? *(?:(?:\w+::)*(\w+(?:<\w+>)?) for )?(&\[)?(\w+)")
TRAIT = re.compile(r"(?:pub(?:\([^)]*\))? )?trait (\w+)")
# In the layout of `rt fmt`, each clause begins a line, and so do the ghost members of a type.
CLAUSE = re.compile(r" *(?:requires|ensures|ghost)\b(?! use\b)")
# What the words of clauses mean.
IMPORT = re.compile(r"(?m)^ *ghost use\b.*$")
# The end of a signature below which a body stands at once.
BODY = re.compile(r"^(?! *(?://|#)).*\{$")


class Item:
    """A function, or a constant, a type or the head of an impl, which have no name here."""

    def __init__(self, path, start, end, name, owner):
        self.path, self.start, self.end, self.name, self.owner = path, start, end, name, owner
        self.key = (path, owner, name or start)

    def tail(self):
        """Returns how the names of the function and of its proofs end: with its type, wherever the impl is, with its trait, if the body is the trait's own, or
        with its module. The type is Fault for `impl Fault`, FaultFromPlay for `impl From<Play> for Fault`, and RefSliceU64Reader for
        `impl Reader for &[u64]`."""
        of_a_trait = TRAIT.match(self.owner)
        if of_a_trait:
            return [of_a_trait.group(1), self.name]
        module = [part for part in self.path[len("src/"):-len(".rt")].split("/") if part not in ("lib", "main")]
        of_trait, slice_of, owner = re.match(IMPL, self.owner).groups() if self.owner else ("", "", "")
        owner = "RefSlice" + owner.capitalize() if slice_of else owner
        return ([owner + "".join(re.findall(r"\w+", of_trait or ""))] if owner else module) + [self.name]

    def has_proofs_in(self, folder):
        """Returns whether this folder below proofs/ is the function's."""
        return folder.split("/")[-len(self.tail()):] == self.tail()


@functools.lru_cache(maxsize=KEPT)
def items_of(path, text):
    """Returns the items of a source file, in order. Each begins with its comments and attributes, and ends where the next one begins."""
    heads, owner, found = list(HEAD.finditer(text)), "", []
    for head, following in zip(heads, heads[1:] + [None]):
        last = head.group(0).split("\n")[-1]
        if last.lstrip().startswith("impl") or TRAIT.match(last):
            owner = last.strip()
        elif not last.startswith(" "):
            owner = ""
        found.append(Item(path, head.start(), following.start() if following else len(text), head.group(1), owner))
    return found


def item_at(path, text, at):
    """Returns the item that holds this place of the text, or None if it is above the first one."""
    holding = [item for item in items_of(path, text) if item.start <= at]
    return holding[-1] if holding else None


def contract_of(text, item):
    """Returns the lines of a function's contract, or the ghost members of a type. A body opens on the function's first line, or
    below the clauses on a line of its own. A method of a trait may have no body."""
    lines = text[item.start:item.end].split("\n")
    if not item.name:
        return [line for line in lines if CLAUSE.match(line)]
    clauses = [number for number, line in enumerate(lines) if CLAUSE.match(line)]
    openings = [number for number, line in enumerate(lines) if line.strip() in ("{", "{}")]
    if not clauses or any(BODY.search(line) for line in lines[:clauses[0]]):
        return []
    return lines[clauses[0]:openings[0] if openings else len(lines)]


@functools.lru_cache(maxsize=KEPT)
def contracts_of(path, text):
    """Returns the contract of each function of a source file by its owner and name, the ghost members of the types, and the imports of
    definitions, which say what the words of clauses mean."""
    items = items_of(path, text)
    found = {(item.owner, item.name): contract_of(text, item) for item in items if item.name}
    found["types"] = [line for item in items if not item.name for line in contract_of(text, item)]
    found["imports"] = IMPORT.findall(text)
    return found
