"""Pages of docs that a tool makes: how the committed page differs from the right one, and what the tools that make them have in common."""
import os
import sys

from .crates import TOP


def path_of(name):
    """Returns where the page of docs with this name is."""
    return os.path.join(TOP, "docs", name)


def read(path):
    with open(path, encoding="utf-8") as file:
        return file.read()


def differences(name, tool, shown, wanted):
    """Yields how a text of the page differs from the right one, if it does: by the lines that one of them alone has."""
    if shown != wanted:
        lines, right = shown.split("\n"), wanted.split("\n")
        alone = ["missing: " + line for line in right if line not in lines] + ["too many: " + line for line in lines if line not in right]
        yield "docs/%s: %s; tools/%s --write makes the page" % (name, "; ".join(alone) or "the lines have another order", tool)


def run(usage, path, document, faults):
    """Does what a tool is to do whose words are none or --write. `document` returns the page, and `faults` yields what is wrong with a text of it. Returns the
    status."""
    if sys.argv[1:] not in ([], ["--write"]):
        sys.exit(usage)
    text = document()
    if sys.argv[1:]:
        with open(path, "w", encoding="utf-8") as file:
            file.write(text)
    print(text, end="")
    found = list(faults(read(path)))
    for fault in found:
        print(fault, file=sys.stderr)
    return 1 if found else 0
