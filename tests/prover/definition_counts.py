"""How many lines of definitions a reader of the contracts has to trust, by crate, by product, and beyond the product's other calls."""
import functools
import os

from .crates import CRATES
from .definitions import reached_from_public, read_all
from .exports import PRODUCTS, Code


@functools.lru_cache(maxsize=None)
def crates():
    """Returns the crates with definitions."""
    return tuple(sorted(name for name in os.listdir(CRATES) if os.path.isdir(os.path.join(CRATES, name, "specs"))))


@functools.lru_cache(maxsize=None)
def all_definitions():
    """Returns all definitions, and what each file imports. Reads them once."""
    return read_all(crates())


@functools.lru_cache(maxsize=None)
def code():
    return Code(*all_definitions())


def kind_of(module):
    """Returns whether a file has public definitions, internal ones or worked rows: 0, 1 or 2."""
    return 2 if module.rsplit(".", 1)[-1].endswith("Rows") else 1 if ".Internal." in module else 0


def is_counted(module, name, definition):
    """Returns whether this is a definition of a crate's specs/ under its own name."""
    return name == definition.name and module.split(".")[1] in crates() and module.split(".")[2] == "specs"


def by_crate():
    """Returns the lines of public definitions, of internal ones and of worked rows of each crate, and of all together."""
    known, _ = all_definitions()
    rows = {crate: [0, 0, 0] for crate in [*crates(), "all"]}
    for (module, name), definition in known.items():
        if is_counted(module, name, definition):
            for row in (module.split(".")[1], "all"):
                rows[row][kind_of(module)] += len(definition.lines)
    return rows


def unreached():
    """Returns the public definitions that no public contract reaches."""
    known, imports = all_definitions()
    reached = reached_from_public(crates(), known, imports)
    return ["%s.%s" % key for key, definition in known.items() if is_counted(*key, definition) and kind_of(key[0]) == 0 and key not in reached]


def by_product():
    """Returns the lines of each crate that the contracts of each product's exports reach, and of all together."""
    known, _ = all_definitions()
    rows = {crate: [0] * len(PRODUCTS) for crate in [*crates(), "all"]}
    for column, exporting in enumerate(PRODUCTS.values()):
        for module, name in code().reached_by(exporting):
            for row in (module.split(".")[1], "all"):
                rows[row][column] += len(known[(module, name)].lines)
    return {crate: counts for crate, counts in rows.items() if any(counts)}


def exported(product):
    """Returns the names of the calls of a product."""
    return {name for crate in PRODUCTS[product] for name, _ in code().exported(crate)}


def reached_by(product, calls=()):
    """Returns the definitions that a product reaches, or those that only these calls of it do."""
    reached = code().reached_by(PRODUCTS[product])
    return reached - code().reached_by(PRODUCTS[product], list(calls)) if calls else reached


def added_by(product, calls):
    """Returns how many lines only these calls of a product reach."""
    known, _ = all_definitions()
    return sum(len(known[key].lines) for key in reached_by(product, calls))
