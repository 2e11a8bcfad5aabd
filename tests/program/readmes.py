"""Tests of the READMEs of the crates: the tables of a library's README have each of its public calls, and all clauses of its contract. The contracts of
these calls name no internal definition.

A public call is a function that the root file exports, or that C links to, or a public method of a type or a trait that the root file exports.
A program exports nothing: of its README only the rows that are there are compared.
"""
import glob
import os
import re

from prover.crates import CRATES, TOP, crates_listed
from prover.functions import contract_of, items_of

EXPORT = re.compile(r"(?s)((?:\w+::)*)(?:(\w+)|\{([\w\s,]*)\})")
# What stands before `fn` in a public item.
QUALIFIERS = r"pub (?:const |unsafe |extern \"C\" )*"
DEFINED = re.compile(r"(?m)^%s(?:fn|struct|enum|trait|type|union) (\w+)" % QUALIFIERS)
PUBLIC = re.compile(r" *%sfn " % QUALIFIERS)
OWNER = re.compile(r"impl(?:<(?:[^<>]|<[^<>]*>)*>)? *(\w+)")
CLAUSE = re.compile(r" *ensures\*? (?:(\w+) )?\{")
# The name of a clause that has none, and what the last cell of a row says instead of the names of clauses.
UNNAMED = "ensures"
ALL, NONE, OF_TYPE = re.compile(r"all (?:its|their) clauses"), "none", re.compile(r"the invariant of the type|those of the trait")


class Crate:
    """A crate's calls: the clauses of each, by its name, with its type if it is a method. `files` are its source files by their paths, and
    `items` the keys of the calls' items."""

    def __init__(self, files, others=()):
        self.files = files
        self.others = others
        self.unread = []
        # The calls whose contracts name an internal definition.
        self.inner = []
        self.exports = self.exported("src/lib.rt") if "src/lib.rt" in files else None
        self.calls, self.items = {}, {}
        for path in sorted(files):
            self.add_calls(path)

    def exported(self, path):
        """Returns the names that a root file, or a public module, exports of the crate itself."""
        names = set(DEFINED.findall(self.files[path]))
        for used in re.findall(r"(?ms)^pub use ([^;]*);", self.files[path]):
            found = EXPORT.fullmatch(used)
            if not found:
                self.unread.append(" ".join(used.split()))
            elif found.group(1).split("::")[0] not in self.others:
                names |= {found.group(2)} if found.group(2) else {word.strip() for word in found.group(3).split(",") if word.strip()}
        for module in re.findall(r"(?m)^pub mod (\w+);", self.files[path]):
            names |= self.exported("src/%s.rt" % module)
        return names

    def is_exported(self, name, text):
        return self.exports is None or name in self.exports or "no_mangle" in text

    def add_calls(self, path):
        text, trait = self.files[path], None
        for item in items_of(path, text):
            body = text[item.start:item.end]
            head = head_of(body)
            if not head.startswith(" "):
                found = re.match(r"pub trait (\w+)", head)
                trait = found.group(1) if found else None
            if item.name and (PUBLIC.match(head) or trait or self.exports is None):
                owner = trait or (OWNER.match(item.owner).group(1) if item.owner else None)
                if self.is_exported(owner or item.name, body):
                    name, contract = "%s::%s" % (owner, item.name) if owner else item.name, contract_of(text, item)
                    self.calls[name], self.items[name] = clauses_in(contract), item.key
                    self.inner += [name] if internal_names(text) & set(re.findall(r"[^\s(){}.,]+", " ".join(contract))) else []


def head_of(text):
    """Returns the line of an item that has its name, below its comments and attributes."""
    lines = [line for line in text.split("\n") if line.strip() and not line.strip().startswith(("//", "#"))]
    return lines[0] if lines else ""


def clauses_in(contract):
    """Returns the names of the clauses that a contract ensures."""
    found = [CLAUSE.match(line) for line in contract]
    return {clause.group(1) or UNNAMED for clause in found if clause}


def internal_names(text):
    """Returns the names of internal definitions that a source file imports."""
    listed = re.findall(r"ghost use Rattle\.\w+\.specs\.Internal\.[\w.]+?\.\{([^}]*)\}", text)
    return {name.split(" as ")[-1].strip() for names in listed for name in names.split(",")}


class Row:
    """A row of a table of calls: the calls, with a type before each method, and the last cell."""

    def __init__(self, line, calls, cell):
        self.line = line
        self.calls = calls
        self.cell = cell
        self.clauses = re.findall(r"`(\w+)`", cell)


def names_in(cell, crate):
    """Returns the names in the first cell of a row. A method without its type is one of the type before it."""
    names, owner = [], None
    for name in re.findall(r"`([^`]+)`", cell):
        parts = [part for number, part in enumerate(name.split("::")) if number or not name.startswith("text::")]
        if len(parts) == 1 and owner and "%s::%s" % (owner, parts[0]) in crate.calls:
            parts = [owner, parts[0]]
        owner = parts[0] if len(parts) > 1 else owner
        names.append("::".join(parts))
    return names


def rows_of(readme, crate):
    """Yields the rows of the tables with clauses. A row without calls continues those of the row before."""
    calls, inside = [], False
    for line in readme.split("\n"):
        cells = [cell.strip() for cell in line.split("|")[1:-1]]
        if len(cells) != 3 or cells[2] == "clause":
            inside = len(cells) == 3
        elif inside and cells[2].strip("-"):
            calls = names_in(cells[0], crate) or calls
            yield Row(line, calls, cells[2])


def wrong_in(row, crate):
    """Yields what is wrong with a row by itself."""
    if OF_TYPE.match(row.cell):
        yield from ["there is no type %s" % name for name in row.calls if crate.exports is not None and name not in crate.exports]
        return
    yield from ["there is no public call %s" % name for name in row.calls if name not in crate.calls]
    known = set().union(*[crate.calls.get(name, set()) for name in row.calls])
    yield from ["%s has no clause %s" % (", ".join(row.calls), clause) for clause in row.clauses if clause not in known]
    if not row.clauses and not ALL.search(row.cell) and not (row.cell == NONE and not known):
        yield "the row of %s names no clause" % ", ".join(row.calls)


def missing_in(rows, crate):
    """Yields the public calls and the clauses that no row names."""
    named = {}
    for row in rows:
        for name in row.calls:
            named.setdefault(name, set()).update(crate.calls.get(name, set()) if ALL.search(row.cell) else row.clauses)
    for name, clauses in crate.calls.items():
        if name in named:
            yield from ["no row of %s names its clause %s" % (name, clause) for clause in sorted(clauses - named[name])]
        elif crate.exports is not None:
            yield "no row has %s" % name


def faults_of(readme, crate):
    rows = list(rows_of(readme, crate))
    inner = ["the contract of %s names an internal definition" % name for name in crate.inner if crate.exports is not None]
    return inner + ["what is exported by `pub use %s` is not known" % used for used in crate.unread] + [why for row in rows for why in wrong_in(row, crate)] + list(missing_in(rows, crate))


def read(path):
    with open(path, encoding="utf-8") as file:
        return file.read()


def sources_of(name):
    """Returns the source files of a crate, without its tests."""
    folder = os.path.join(CRATES, name)
    paths = [os.path.relpath(path, folder) for path in glob.glob(os.path.join(folder, "src", "**", "*.rt"), recursive=True)]
    return {path: read(os.path.join(folder, path)) for path in paths if not re.match(r"src/tests(\.rt|/)", path)}


def calls(_program, _folder):
    """The README of each crate has its calls and their clauses."""
    listed = crates_listed()
    for name in listed:
        path = os.path.join(CRATES, name, "README.md")
        if not os.path.exists(path):
            yield "README of %s" % name, "there is none"
            continue
        found = faults_of(read(path), Crate(sources_of(name), {"std", *listed}))
        yield "README of %s" % name, "; ".join(found) or None


CONTROLS = os.path.join(TOP, "tests", "controls", "readmes")


def control_of(text):
    """Returns what a control wants, its README, and its source files. Each part begins with a line '== PATH'."""
    wanted, *parts = re.split(r"(?m)^== (.*)\n", text)
    files = dict(zip(parts[::2], parts[1::2]))
    return wanted.strip(), files.pop("README.md"), files


def controls(_program, _folder):
    """Each file of tests/controls/readmes breaks the rule that its first line names, and only that one, or none."""
    paths = sorted(glob.glob(os.path.join(CONTROLS, "*.txt")))
    for path in paths:
        wanted, readme, files = control_of(read(path))
        found = faults_of(readme, Crate(files, {"std", "low"}))
        yield "control %s" % os.path.basename(path), None if "; ".join(found) == wanted.partition("refused: ")[2] else "found %s" % found
    yield "there are controls", None if len(paths) >= 8 else "%d" % len(paths)


GROUPS = [calls, controls]
