"""The clauses that must-fail edits hold: for each function and clause, the edits whose files say that they are refused there."""
from .edits import Edit


def held_by(edits):
    """Returns the names of the edits that hold each place, a function and a clause of it."""
    found = {}
    for edit in edits:
        for _, function, clause in edit.places:
            found.setdefault((function, clause), set()).add(edit.name[:-len(".edit")])
    return found


def rows_of(crate, names):
    """Yields a row for each function and clause that these edits of a crate hold."""
    for (function, clause), holding in sorted(held_by([Edit(crate, name) for name in names]).items()):
        yield "%s %s %s: %s" % (crate, function, clause, ", ".join(sorted(holding)))
