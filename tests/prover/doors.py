"""The door of each crate: proofs/Public.antt passes on what other crates cite of its proofs and of its internal definitions, and declares nothing.

Whoever changes them sees there on what others rest. No other import of theirs leads across crates, except those of the modules that
the prover writes for each type, which have names like TheLaws. Within a crate too, a lemma is public only if another file imports it.
"""
import collections
import os
import re

from .crates import CRATES, crates_listed

# What is behind a crate's door: its proofs, and the definitions that no public contract reaches.
BEHIND = r"(proofs\.[\w.]+|specs\.Internal(?:\.[\w.]+)?)"
USE = re.compile(r"(?m)^( *(?:ghost |pub )?use )Rattle\.(\w+)\.%s\.\{([^}]*)\}" % BEHIND)
WHOLE = re.compile(r"(?m)^ *(?:ghost |pub )?use Rattle\.(\w+)\.%s(?: as \w+)?;?$" % BEHIND)
# A lemma in an attribute of a function.
PATH = re.compile(r"\b(\w+)::(proofs::[\w:]+|specs::Internal::[\w:]+)::([\w◌-]+)")
OF_A_TYPE = re.compile(r"(?:^|\.)The[A-Z]\w+$")
# A public lemma, with its statement, up to the line that proves it. A definition has a word beside `pub`, or a capital.
LEMMA = re.compile(r"(?m)^ *pub ([a-z][^\s:()]*) :(?:(?!\n\n)(?:.|\n))*?(?=\n *\1(?:\s|$))")
NAME = re.compile(r"[^\s(){},;.:\[\]←`'\"]+")
# What the prover asks of a function has names that it looks for.
ANSWERS = ("Answers.antt", "Invariants.antt", "Proof.antt", "Send.antt", "Sync.antt")
DOOR = "proofs.Public"
ALL = "all"
HEAD = "-- What other crates cite of this crate's proofs and internal definitions, passed on from one place. Declares nothing.\n"


def door_of(crate):
    """Returns the path of a crate's door."""
    return os.path.join(CRATES, crate, *DOOR.split(".")) + ".antt"


def sources(crate):
    """Yields the path and the text of each source of a crate."""
    for folder in ("src", "specs", "proofs"):
        for path, _, names in sorted(os.walk(os.path.join(CRATES, crate, folder))):
            for name in sorted(names):
                if name.endswith((".rt", ".antt")):
                    with open(os.path.join(path, name), encoding="utf-8") as file:
                        yield os.path.join(path, name), file.read()


def names_in(row):
    """Returns the names of an import, as their own crate calls them."""
    return [name.strip().partition(" as ")[0] for name in row.split(",")]


def paths_in(text):
    """Returns the lemmas in a source's attributes: the crate, the module and the name of each."""
    # Most sources have none, and to look for the words alone is much faster.
    return PATH.findall(text) if "::proofs::" in text or "::specs::Internal::" in text else []


def imports_of(crate, text):
    """Yields each import from behind another crate's door: the crate, the module, and the names, or None if it is the module's own."""
    listed = crates_listed()
    found = [(other, module, names_in(row)) for _, other, module, row in USE.findall(text)]
    found += [(other, module, None) for other, module in WHOLE.findall(text)]
    found += [(other, module.replace("::", "."), [name]) for other, module, name in paths_in(text)]
    for other, module, names in found:
        if other != crate and other in listed and not OF_A_TYPE.search(module):
            yield other, module, names


def passed_on(crate):
    """Returns the names that a crate's door passes on, with the module of each."""
    if not os.path.exists(door_of(crate)):
        return {}
    with open(door_of(crate), encoding="utf-8") as file:
        return {name: module for _, other, module, row in USE.findall(file.read()) for name in names_in(row) if other == crate}


def cited():
    """Returns the names that crates cite from behind each other crate's door, with the modules that they name and the crates that cite them."""
    found = collections.defaultdict(lambda: collections.defaultdict(set))
    for crate in crates_listed():
        for path, text in sources(crate):
            for other, module, names in imports_of(crate, text):
                for name in names or [ALL]:
                    found[other][name].add((module, crate, os.path.relpath(path, CRATES)))
    return found


def imported_within(crate, texts):
    """Returns the module and the name of each import of a crate's own proofs. A file that imports a module whole imports each name that it has in it."""
    found = set()
    for text in texts:
        found |= {(module, name) for _, other, module, row in USE.findall(text) if other == crate for name in names_in(row)}
        found |= {(module, name) for other, module in WHOLE.findall(text) if other == crate for name in NAME.findall(text)}
        found |= {(module.replace("::", "."), name) for other, module, name in paths_in(text) if other == "crate"}
    return found


def public_for_nobody(crate, texts):
    """Yields each public lemma of a crate's proofs that none of its other files imports, and no statement of another public lemma has, with its file.
    Takes the texts of the crate's files, by their paths from its folder."""
    imported = imported_within(crate, texts.values())
    for path, text in texts.items():
        if path.startswith("proofs/") and os.path.basename(path) not in ANSWERS:
            module = path[:-len(".antt")].replace("/", ".")
            stated = {match.group(1): set(NAME.findall(match.group(0))) for match in LEMMA.finditer(text)}
            yield from ((path, name) for name in stated
                        if (module, name) not in imported and not any(name in stated[other] for other in stated if other != name))


def faults():
    """Yields what is wrong: an import beside the door, a name that is passed on for nobody, and a lemma that is public for nobody."""
    of_crates = cited()
    for crate in crates_listed():
        passed = passed_on(crate)
        for name, places in sorted(of_crates[crate].items()):
            for module, _, path in sorted(places):
                if module != DOOR:
                    yield "%s cites %s of %s.%s, not of its %s" % (path, name, crate, module, DOOR)
        for name in sorted(set(passed) - set(of_crates[crate])):
            yield "%s passes on %s, which no other crate cites" % (os.path.relpath(door_of(crate), CRATES), name)
        if os.path.exists(door_of(crate)):
            with open(door_of(crate), encoding="utf-8") as file:
                for line in file.read().split("\n"):
                    if line and not line.startswith("--") and not re.match(r"pub use Rattle\.%s\.%s\." % (crate, BEHIND), line):
                        yield "%s declares something: %s" % (os.path.relpath(door_of(crate), CRATES), line)
        texts = {os.path.relpath(path, os.path.join(CRATES, crate)): text for path, text in sources(crate)}
        for path, name in public_for_nobody(crate, texts):
            yield "%s/%s: %s is public, and no other file imports it" % (crate, path, name)


def rows():
    """Yields for each crate with a door how many names it passes on, and for how many crates."""
    of_crates = cited()
    for crate in sorted(crates_listed()):
        if passed_on(crate):
            yield crate, len(passed_on(crate)), len({user for places in of_crates[crate].values() for _, user, _ in places})


# ---- writing

def through_door(crate, text):
    """Returns a source with each import of another crate's proofs by its door. Imports of one door become one, where the first stood."""
    listed = crates_listed()

    def is_across(other, module):
        return other != crate and other in listed and not OF_A_TYPE.search(module)

    def use(match):
        head, other, module, row = match.groups()
        return "%sRattle.%s.%s.{%s}" % (head, other, DOOR, row) if is_across(other, module) else match.group(0)

    def path(match):
        other, module, name = match.groups()
        return "%s::%s::%s" % (other, DOOR.replace(".", "::"), name) if is_across(other, module.replace("::", ".")) else match.group(0)

    text = PATH.sub(path, USE.sub(use, text))
    lines, firsts = [], {}
    for line in text.split("\n"):
        match = USE.fullmatch(line)
        if match and match.group(3) == DOOR and match.group(2) in firsts:
            at, names = firsts[match.group(2)]
            names += [name.strip() for name in match.group(4).split(",") if name.strip() not in names]
            lines[at] = "%sRattle.%s.%s.{%s}" % (match.group(1), match.group(2), DOOR, ", ".join(names))
            continue
        if match and match.group(3) == DOOR:
            firsts[match.group(2)] = len(lines), [name.strip() for name in match.group(4).split(",")]
        lines.append(line)
    return "\n".join(lines)


def write_door(crate, names):
    """Writes a crate's door, which passes on these names, each of its module, and lists it among the crate's proofs."""
    with open(door_of(crate), "w", encoding="utf-8") as file:
        file.write(HEAD)
        for module in sorted(set(names.values())):
            row = ", ".join(sorted(name for name in names if names[name] == module))
            file.write("pub use Rattle.%s.%s.{%s}\n" % (crate, module, row))
    lib = os.path.join(CRATES, crate, "proofs", "Lib.antt")
    with open(lib, encoding="utf-8") as file:
        text = file.read()
    mod = "pub mod %s" % DOOR.split(".")[-1]
    if mod not in text.split("\n"):
        with open(lib, "w", encoding="utf-8") as file:
            file.write("%s\n%s\n" % (text.rstrip("\n"), mod))


def write():
    """Writes the doors of all crates, and leads all imports of what is behind them through them."""
    for crate, of_crate in sorted(cited().items()):
        passed = passed_on(crate)
        write_door(crate, {name: next((module for module, _, _ in sorted(places) if module != DOOR), passed.get(name)) for name, places in of_crate.items() if name != ALL})
    for crate in crates_listed():
        for path, text in sources(crate):
            changed = through_door(crate, text)
            if changed != text and path != door_of(crate):
                with open(path, "w", encoding="utf-8") as file:
                    file.write(changed)
