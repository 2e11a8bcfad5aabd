"""Must-fail edits: wrong bodies that the prover has to reject. CONTRIBUTING.md says how one is written."""
import functools
import hashlib
import os
import re

from .crates import CRATES, below, crates_listed
from .functions import contracts_of, item_at


# Where an edit is refused, and in which way: a function, and clauses of it.
REFUSED_AT = re.compile(r"# (refused(?: by values of an answer| by values| beside answers)?) at ([\w:]+): ([\w-]+(?:, [\w-]+)*)$")


class BadEdit(Exception):
    """An edit that cannot be applied, or that does not reach the prover."""


def changes_of(path):
    """Yields the changes of an edit's file: the path of the changed file, the old text and the new one. As for `rt ci`, a line is a file,
    an old text, a new text or a comment."""
    changed, old = None, None
    with open(path, encoding="utf-8") as lines:
        for line in lines.read().split("\n"):
            kind, _, text = line.partition(": ")
            if kind == "file":
                changed = text
            elif kind == "old":
                old = text
            elif kind in ("new", "new:") and changed and old:
                yield changed, old, text
                old = None
            elif line and not line.startswith("#"):
                raise BadEdit("a line is neither file, old, new nor a comment: %s" % line[:60])
    if old is not None:
        raise BadEdit("the last old text has no new one")


def places_of(path):
    """Returns the ways, the functions and the clauses in which an edit's file says that it is refused."""
    with open(path, encoding="utf-8") as lines:
        told = [REFUSED_AT.match(line) for line in lines.read().split("\n")]
    return {(found.group(1), found.group(2), clause) for found in told if found for clause in found.group(3).split(", ")}


def place_of(text, old, path):
    """Returns where the only occurrence of an old text begins."""
    if text.count(old) != 1:
        raise BadEdit("an old text occurs %d times in %s, not once" % (text.count(old), path))
    return text.index(old)


class Edit:
    """The changes of an edit's file, the items that it changes, and the places at which it has to be refused."""

    def __init__(self, crate, name, folder=None):
        self.crate, self.name = crate, name
        path = os.path.join(folder or os.path.join(CRATES, crate, "must-fail"), name)
        self.changes = list(changes_of(path))
        self.places = places_of(path)
        if not self.changes:
            raise BadEdit("it changes nothing")
        self.items = [self.item_of(path, old) for path, old, _ in self.changes]
        self.keys = {item.key for item in self.items if item}
        self.is_alone = any(not item or not item.name for item in self.items)
        self.keep_contracts()

    def keep_contracts(self):
        """Refuses an edit that changes a contract or a ghost member of a type: the changed function then has to do something else."""
        for path, text in self.texts_in(os.path.join(CRATES, self.crate)).items():
            if not path.startswith("src/"):
                raise BadEdit("it changes %s, which is no code" % path)
            with open(os.path.join(CRATES, self.crate, path), encoding="utf-8") as file:
                before = contracts_of(path, file.read())
            after = contracts_of(path, text)
            if any(after.get(name) != contract for name, contract in before.items()):
                raise BadEdit("it changes a clause in %s" % path)

    def item_of(self, path, old):
        if not os.path.exists(os.path.join(CRATES, self.crate, path)):
            raise BadEdit("there is no file %s" % path)
        with open(os.path.join(CRATES, self.crate, path), encoding="utf-8") as file:
            text = file.read()
        return item_at(path, text, place_of(text, old, path) + len(old) - len(old.lstrip()))

    def texts_in(self, folder):
        """Returns the changed files by their paths, as the edit makes them from those of the folder, which is the crate's or a copy."""
        return changed_texts([self], folder)


@functools.lru_cache(maxsize=None)
def edit_named(crate, name):
    """Returns an edit of a crate. Reads it once."""
    return Edit(crate, name)


def changed_texts(edits, folder):
    """Returns the changed files by their paths, as these edits together make them from those of the folder."""
    texts = {}
    for edit in edits:
        for path, old, new in edit.changes:
            if path not in texts:
                with open(os.path.join(folder, path), encoding="utf-8") as file:
                    texts[path] = file.read()
            place_of(texts[path], old, path)
            texts[path] = texts[path].replace(old, new)
    return texts


def can_join(edits):
    """Returns whether these edits of a crate can be made together: none makes a text that another one looks for."""
    try:
        changed_texts(edits, os.path.join(CRATES, edits[0].crate))
    except BadEdit:
        return False
    return True


def edits_of(crate):
    """Returns the names of a crate's edits, in order. A crate may have none."""
    folder = os.path.join(CRATES, crate, "must-fail")
    return sorted(os.listdir(folder)) if os.path.isdir(folder) else []


def tried_in(path):
    """Returns the bytes of a file that count where edits are tried: of an edit, all but its comments."""
    with open(path, "rb") as file:
        lines = file.read().split(b"\n")
    return b"\n".join(line for line in lines if not (path.endswith(".edit") and line.startswith(b"#")))


def digest_of(crate, parts):
    """Returns a SHA-256 of the files in these folders of a crate."""
    digest = hashlib.sha256()
    for part in parts:
        for folder, _, names in sorted(os.walk(os.path.join(CRATES, crate, part))):
            for path in [os.path.join(folder, name) for name in sorted(names)]:
                digest.update(("%s\n" % os.path.relpath(path, CRATES)).encode() + hashlib.sha256(tried_in(path)).digest())
    return digest.digest()


def sum_of(crate):
    """Returns the first digits of a SHA-256 of what a crate's edits are tried on: its code, definitions and proofs, those of the crates below, and the
    edits."""
    listed = crates_listed()
    digest = hashlib.sha256(digest_of(crate, ("src", "specs", "proofs", "must-fail")))
    for name in sorted(below(listed[crate], listed)):
        digest.update(digest_of(name, ("src", "specs", "proofs")))
    return digest.hexdigest()[:16]


def names_of(edits):
    """Returns the names of the functions that the edits change."""
    return {"::".join(item.tail()) for edit in edits for item in edit.items if item and item.name}
