"""docs/DEFINITIONS.md: the files of public definitions, each with its first comment, and the lines of definitions that a reader has to trust."""
import glob
import os

from . import definition_counts as counts
from .crates import CRATES, crates_listed
from .exports import PRODUCTS
from .made_pages import differences, path_of

DOCUMENT = path_of("DEFINITIONS.md")
HEAD = """# Definitions

`tools/notions --write` makes this page, and CI checks it. [ARCHITECTURE.md](ARCHITECTURE.md#where-each-notion-is-defined) says what the files are.

## Files of public definitions

"""
BY_CRATE = """
## Lines by crate

Lines of definitions that a reader of the contracts has to trust, without comments, imports and rows. `tools/definitions` counts them.

"""
BY_PRODUCT = """
## Lines by product

A reader of one product's contracts has to trust fewer of them, namely those that the contracts of its exported functions reach. A contract reaches the
definitions that it names, and those that they name in turn. It also reaches the models of the types that the function takes and returns. Internal
definitions count where a model needs them. `tools/definitions --products` counts these lines, and `tools/definitions --products gcflip_c` lists the
files behind a number. The world is gc_world with gc_shared. The program's public functions count as exported. A law of a crate below a product, as
`paced_work_bounds_logs` of gc_pace, is not exported and does not count.

"""
BY_CALL = """
## Lines that only some calls reach

A reader who does not use these calls has that much less to trust. `tools/definitions --products gcflip_c gcflip_infer gcflip_path` counts the lines that no other
call of a product reaches.

"""
# What readers call the products.
NAMES = {"gcflip_c": "the checker for C", "gcflip_heap_c": "the heap for C", "gcflip_beside_c": "the heap with a collector's thread", "gc_world": "the world", "gcflip": "the program"}
# Calls for one purpose, with their product.
PURPOSES = [("pairs inferred from two images, and paths", "gcflip_c", ["gcflip_infer", "gcflip_path"]),
            ("fields copied or filled at once", "gcflip_heap_c", ["gcflip_heap_copy_fields", "gcflip_copy_fields", "gcflip_fill"]),
            ("texts of bytes", "gcflip_heap_c", ["gcflip_new_bytes", "gcflip_bytes_join", "gcflip_bytes_part", "gcflip_bytes_length", "gcflip_bytes_read", "gcflip_bytes_write",
                                                 "gcflip_bytes_same", "gcflip_bytes_compare"]),
            ("vectors of 64-bit words", "gcflip_heap_c", ["gcflip_words_read", "gcflip_words_write"]),
            ("objects made and filled at once", "gcflip_heap_c", ["gcflip_heap_new_pair", "gcflip_heap_new_from", "gcflip_heap_put_number", "gcflip_heap_put_nil"]),
            ("objects filled with numbers and slots mixed", "gcflip_heap_c", ["gcflip_heap_new_with", "gcflip_new_with"]),
            ("several numbers of raw objects", "gcflip_heap_c", ["gcflip_heap_raw_read", "gcflip_heap_raw_write", "gcflip_raw_read", "gcflip_raw_write"]),
            ("addresses, where objects went, and references by address", "gcflip_heap_c", ["gcflip_heap_address", "gcflip_heap_moved", "gcflip_heap_refer", "gcflip_address", "gcflip_moved", "gcflip_refer", "gcflip_object_at", "gcflip_field_at"]),
            ("extra roots and frames", "gcflip_heap_c", ["gcflip_heap_root_load", "gcflip_heap_root_store", "gcflip_heap_root_clear", "gcflip_heap_frame_push", "gcflip_heap_frame_pop", "gcflip_heap_frame_trim"]),
            ("commands on roots by their places", "gcflip_heap_c", ["gcflip_new", "gcflip_set_number", "gcflip_set_nil", "gcflip_clear", "gcflip_copy", "gcflip_get", "gcflip_peek", "gcflip_put", "gcflip_put_sure", "gcflip_put_number", "gcflip_put_nil", "gcflip_same", "gcflip_look"]),
            ("what is seen, returned", "gcflip_heap_c", ["gcflip_get_seen", "gcflip_peek_seen", "gcflip_look_seen", "gcflip_object_at_seen", "gcflip_field_at_seen"]),
            ("objects of several roots, and roots that take several fields", "gcflip_heap_c", ["gcflip_new_raw", "gcflip_new_pair", "gcflip_new_from", "gcflip_gather", "gcflip_spread"]),
            ("the pace", "gcflip_heap_c", ["gcflip_pace_due", "gcflip_heap_pace", "gcflip_heap_work_paced", "gcflip_reserve"]),
            ("whole collections, and memory that is given back", "gcflip_heap_c", ["gcflip_collect", "gcflip_release"]),
            ("checks of an open collection", "gcflip_heap_c", ["gcflip_heap_check", "gcflip_heap_flip_checks"])]
# Files that only list modules.
LISTS = {"Lib", "Internal"}


def first_comment(path):
    """Returns the lines of comment with which a file begins, as one line."""
    lines = []
    with open(path, encoding="utf-8") as file:
        for line in file:
            if not line.startswith("--"):
                break
            lines.append(line[2:].strip())
    return " ".join(lines)


def rows():
    """Yields the files of public definitions, as 'crate/specs/Name', each with its first comment. The crates have the order of crates.txt."""
    for crate in crates_listed():
        for path in sorted(glob.glob(os.path.join(CRATES, crate, "specs", "*.antt"))):
            name = os.path.basename(path)[:-len(".antt")]
            if name not in LISTS:
                yield "%s/specs/%s" % (crate, name), first_comment(path)


def table_of(columns, lines):
    """Returns a table with these columns."""
    return "".join("| %s |\n" % " | ".join(map(str, cells)) for cells in [columns, *lines]).replace(" |\n", " |\n|%s\n" % ("---|" * len(columns)), 1)


def table():
    """Returns the table of files."""
    return table_of(["file", "its first comment"], [["`%s`" % name, comment] for name, comment in rows()])


def document():
    """Returns the whole page."""
    by_crate = [[crate, public, internal] for crate, (public, internal, _) in counts.by_crate().items()]
    by_product = [[crate, *lines] for crate, lines in counts.by_product().items()]
    by_call = [[what, ", ".join("`%s`" % call for call in calls), counts.added_by(product, calls)] for what, product, calls in PURPOSES]
    return "".join([HEAD, table(), BY_CRATE, table_of(["crate", "public", "internal"], by_crate), BY_PRODUCT, table_of(["crate", *(NAMES[product] for product in PRODUCTS)], by_product),
                    BY_CALL, table_of(["what", "calls of C", "lines"], by_call)])


def faults(text):
    """Yields what is wrong: files without a first comment, files with that of another one, and lines that this text of the page or the right one alone has."""
    known = {}
    for name, comment in rows():
        if not comment:
            yield "%s has no first comment" % name
        known.setdefault((name.partition("/")[0], comment), []).append(name)
    for names in known.values():
        if len(names) > 1:
            yield "%s begin with the same comment" % ", ".join(names)
    yield from differences("DEFINITIONS.md", "notions", text, document())
