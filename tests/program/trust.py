"""Tests of the first table of docs/TRUST.md: what a row names stands in the contracts.

A row names clauses of calls, fields of records and laws, each kind in one form of words:

- "clauses `a` and `b` of `Type::call`": each call is public, and has each clause.
- "clause `a` of the law `b` of gc_one", or "law `b` of gc_one": the law is a public function without parameters and without `requires`, whose body
  does nothing but call other laws.
- "field `a` of `Record`": a clause that the row names is about this record, which has the field.
- "the invariant of `Type`": the public type has one.
- "clause `a` of the private `module::function`": for what is said within a crate alone. A row that is proved names something public too.

Every other name in a row that is proved is a public call, or stands in a contract that the row names. Whether a clause says what the row says is for
readers to judge.
"""
import glob
import os
import re

from prover.crates import CRATES, TOP, crates_listed
from prover.functions import contract_of, items_of

from .memory_faults import TESTS
from .readmes import CLAUSE, UNNAMED, Crate, read, sources_of

TABLE = "## Proved, tested, neither, trusted"
PROVED = "**proved**"
# The rows that no clause says, each with the reason that it has to give.
IN_NO_CLAUSE = {"no call reads out of bounds, overflows or runs forever": "in no clause, because every check of a crate proves it for each function"}

NAMES = r"((?:`[\w:]+`(?:, and |, | and )?)+)"
OF_CRATES = r"(?: of ((?:gc_|gcflip)\w*(?:(?:, | and )(?:gc_|gcflip)\w*)*))?"
CLAUSES = re.compile(r"\bclauses? %s of (the laws? |the private )?%s%s" % (NAMES, NAMES, OF_CRATES))
FIELDS = re.compile(r"\bfields? %s of `(\w+)`" % NAMES)
LAWS = re.compile(r"\blaws? %s%s" % (NAMES, OF_CRATES))
INVARIANT = re.compile(r"\bthe invariant of `(\w+)`")
INVARIANTS = re.compile(r"(?ms)^impl(?:<[^>\n]*>)? Model for (\w+)\b(?:(?!^\}).)*?ghost invariant\b")
# The beginning of one of these forms, where it is not read as one.
UNREAD = re.compile(r"\b(?:clause|field|law|invariant)s?(?: of)? `\w+`")
# A function without parameters that does nothing but call such functions. `rt fmt` puts each of its braces on a line of its own.
LAW = re.compile(r"(?ms)^pub fn \w+\(\)$(?:(?!^[{}]).)*^\{(?:\}|\n(?:    (?:\w+::)*\w+\(\);\n)*\})$")
IMPORT = re.compile(r"(?m)^ *ghost use Rattle\.(\w+)\.specs\.([\w.]+)\.\{([^}]*)\}")


def names_in(text):
    return re.findall(r"`([\w:]+)`", text)


def crates_in(text):
    return re.findall(r"\bgc\w+", text or "")


class Call:
    """A function with a contract: its clauses by their names, the file that it stands in, and whether it is a law."""

    def __init__(self, crate, text, item):
        self.crate, self.text = crate, text
        contract = contract_of(text, item)
        self.clauses = clauses_of(contract)
        self.is_law = LAW.search(text[item.start:item.end]) is not None and not any(line.strip().startswith("requires") for line in contract)


def clauses_of(contract):
    """Returns the text of each clause that a contract ensures, by its name."""
    found, name = {}, None
    for line in contract:
        if re.match(r" *(?:requires|ensures)\b", line):
            clause = CLAUSE.match(line)
            name = (clause.group(1) or UNNAMED) if clause else None
        if name:
            found[name] = found.get(name, "") + line + "\n"
    return found


class Contracts:
    """The contracts of some crates, given the texts of their files by their paths: those of public calls, and of all functions."""

    def __init__(self, crates):
        self.crates = crates
        self.public, self.all, self.types = {}, {}, set()
        # What a program has public stands behind the libraries: a name of both is the library's.
        for name in sorted(crates, key=lambda crate: "src/lib.rt" not in crates[crate]):
            self.add(name, crates[name])

    def add(self, name, files):
        code = {path: text for path, text in files.items() if path.endswith(".rt")}
        public = Crate(code, set(self.crates))
        for path, text in code.items():
            for item in items_of(path, text):
                if item.name:
                    self.add_function(name, public, text, item)
            self.types |= {found for found in INVARIANTS.findall(text) if public.is_exported(found, "")}

    def add_function(self, name, public, text, item):
        call = Call(name, text, item)
        self.all.setdefault("::".join(item.tail()[-2:]), []).append(call)
        found = public.items.get("::".join(item.tail()[-2:]) if item.owner else item.name)
        known = self.public.setdefault("::".join(item.tail()[-2:]) if item.owner else item.name, [])
        is_taken = public.exports is None and any(other.crate != name for other in known)
        if found == item.key and not is_taken:
            known.append(call)

    def named(self, name, crates=(), private=False):
        """Returns the functions with this name, of these crates if any are given."""
        found = (self.all if private else self.public).get(name, [])
        return [call for call in found if not crates or call.crate in crates]

    def record(self, call, name):
        """Returns the fields of a record that the contract of this call names, or None."""
        for crate, module, names in IMPORT.findall(call.text):
            text = self.crates.get(crate, {}).get("specs/%s.antt" % module.replace(".", "/"), "")
            found = re.search(r"(?m)^pub record %s\b.* where\n((?: .*\n|\n(?= ))*)" % name, text)
            if found and re.search(r"\b%s\b" % name, names):
                return set(re.findall(r"(?m)^  pub ([\w-]+) :", found.group(1)))
        return None


class Row:
    """A row of the table, and what is wrong with it."""

    def __init__(self, cells, contracts):
        self.claim, self.text = cells[0].strip(), " | ".join(cells)
        self.contracts = contracts
        self.is_proved = PROVED in cells[1]
        # The texts of the clauses that the row names, each with its call.
        self.cited = []
        self.wrong = []
        self.rest = self.text
        forms = [(CLAUSES, self.look_up_clauses), (FIELDS, self.look_up_fields), (LAWS, self.look_up_laws), (INVARIANT, self.look_up_invariant)]
        for form, look_up in forms:
            self.rest = form.sub(look_up, self.rest)
        self.look_at_rest()

    def one(self, name, crates, private=False):
        """Returns the functions with this name, one for each crate that is named, and notes what is wrong."""
        found = self.contracts.named(name, crates, private)
        kind, wanted = "private function" if private else "public call", max(1, len(crates))
        if len(found) < wanted:
            self.wrong.append("there is no %s %s%s" % (kind, name, " of %s" % " and ".join(crates) if crates else ""))
        elif len(found) > wanted:
            self.wrong.append("%s is a %s of %s" % (name, kind, " and of ".join(sorted(call.crate for call in found))))
        return found if len(found) == wanted else []

    def look_up_clauses(self, phrase):
        clauses, kind, calls, crates = phrase.groups()
        for name in names_in(calls):
            for call in self.one(name, crates_in(crates), kind == "the private "):
                if (kind or "").startswith("the law") and not call.is_law:
                    self.wrong.append("%s is no law" % name)
                self.wrong += ["%s has no clause %s" % (name, clause) for clause in names_in(clauses) if clause not in call.clauses]
                self.cite(call, names_in(clauses), kind == "the private ")
        return " "

    def look_up_laws(self, phrase):
        laws, crates = phrase.groups()
        for name in names_in(laws):
            for call in self.one(name, crates_in(crates)):
                self.wrong += [] if call.is_law and call.clauses else ["%s is no law" % name]
                self.cite(call, call.clauses)
        return " "

    def look_up_fields(self, phrase):
        fields, record = phrase.groups()
        known = [self.contracts.record(call, record) for call, text in self.cited if re.search(r"\b%s\b" % record, text)]
        if not known or None in known:
            self.wrong.append("no clause that the row names is about a record %s" % record)
        else:
            self.wrong += ["%s has no field %s" % (record, field) for field in names_in(fields) if any(field not in has for has in known)]
        return " "

    def look_up_invariant(self, phrase):
        self.wrong += [] if phrase.group(1) in self.contracts.types else ["there is no invariant of %s" % phrase.group(1)]
        return " "

    def cite(self, call, clauses, private=False):
        self.cited += [(call, call.clauses[name]) for name in clauses if name in call.clauses and not private]

    def look_at_rest(self):
        """Notes what a row that is proved lacks, and what it names without a form of words."""
        self.wrong += ["'%s' is not read" % found for found in UNREAD.findall(self.rest)]
        if not self.is_proved:
            return
        if self.claim in IN_NO_CLAUSE:
            self.wrong += [] if IN_NO_CLAUSE[self.claim] in self.text and not self.cited else ["the row does not say that it stands in no clause"]
        elif not self.cited:
            self.wrong.append("the row names no clause")
        words = set(re.findall(r"\w+", " ".join(text for _, text in self.cited)))
        self.wrong += ["%s is no public call, and stands in no clause of the row" % name for name in names_in(self.rest)
                       if not self.contracts.named(name) and name not in words]


def rows_of(document):
    """Returns the cells of each row of the table with the claims."""
    table = re.search(r"(?m)^\| claim \|.*\n\|---.*\n((?:\|.*\n)+)", document).group(1)
    return [line.strip("|").split(" | ") for line in table.split("\n") if line]


def faults_of(document, contracts):
    """Yields what is wrong with the table of a document."""
    rows = rows_of(document)
    for cells in rows:
        if len(cells) != 2:
            yield "a row has %d cells: %s" % (len(cells), cells[0][:60])
        else:
            yield from ["%s: %s" % (cells[0].strip()[:50], why) for why in Row(cells, contracts).wrong]


def all_contracts():
    """Returns the contracts of the crates, without the crates that have tests alone."""
    found = {}
    for crate in set(crates_listed()) - set(TESTS):
        specs = glob.glob(os.path.join(CRATES, crate, "specs", "**", "*.antt"), recursive=True)
        found[crate] = dict(sources_of(crate), **{os.path.relpath(path, os.path.join(CRATES, crate)): read(path) for path in specs})
    return Contracts(found)


def trust(_program, _folder):
    """What the rows of docs/TRUST.md name stands in the contracts."""
    document = read(os.path.join(TOP, "docs", "TRUST.md")).partition(TABLE)[2]
    yield "rows of docs/TRUST.md", "; ".join(faults_of(document, all_contracts())) or None
    proved = [cells for cells in rows_of(document) if PROVED in cells[1]]
    yield "rows that are proved", None if len(proved) >= 20 else "they are %d" % len(proved)


CONTROLS = os.path.join(TOP, "tests", "controls", "trust")
FILES = "files.txt"


def control_of(text):
    """Returns what a control wants, and its rows."""
    wanted, rows = text.split("\n", 1)
    return wanted, "| claim | status |\n|---|---|\n" + rows


def files_of_controls():
    """Returns the files of the crates that the controls speak of. Each begins with a line '== CRATE/PATH'."""
    parts = re.split(r"(?m)^== (\w+)/(.*)\n", read(os.path.join(CONTROLS, FILES)))[1:]
    found = {}
    for crate, path, text in zip(parts[::3], parts[1::3], parts[2::3]):
        found.setdefault(crate, {})[path] = text
    return found


def controls(_program, _folder):
    """Each file of tests/controls/trust has rows that break the rule which its first line names, and only that one, or none."""
    contracts = Contracts(files_of_controls())
    paths = sorted(path for path in glob.glob(os.path.join(CONTROLS, "*.txt")) if os.path.basename(path) != FILES)
    for path in paths:
        wanted, document = control_of(read(path))
        found = [why.partition(": ")[2] for why in faults_of(document, contracts)]
        yield "control %s" % os.path.basename(path), None if "; ".join(found) == wanted.partition("refused: ")[2] else "found %s" % found
    yield "there are controls", None if len(paths) >= 16 else "%d" % len(paths)


GROUPS = [trust, controls]
