#!/usr/bin/env python3
"""Plants a fault in the collector: faults.py NAME prints collector.c with the change that changes.txt has under this name.

The status is 1 if there is no such fault, or if the lines that it changes do not stand in collector.c exactly once.
"""
import os
import sys

FOLDER = os.path.dirname(os.path.abspath(__file__))


def content(name):
    with open(os.path.join(FOLDER, name), encoding="utf-8") as file:
        return file.read()


def rows():
    """Returns the name of each fault, and what it is, in the order of faults.txt."""
    lines = [line for line in content("faults.txt").split("\n") if line and not line.startswith("#")]
    return {line.split(" | ")[0]: line.split(" | ")[3] for line in lines}


def changes():
    """Returns the lines before and after each change, by the name of the fault."""
    found = {}
    for part in content("changes.txt").split("\n\n"):
        name, *lines = [line for line in part.split("\n") if line and not line.startswith("#")]
        found[name] = tuple("".join(line[1:] + "\n" for line in lines if line[0] == sign) for sign in "-+")
    return found


def changed(name):
    """Returns the collector with a fault."""
    source = content("collector.c")
    if name not in changes():
        raise ValueError("no fault has the name %s" % name)
    old, new = changes()[name]
    if ("\n" + source).count("\n" + old) != 1:
        raise ValueError("collector.c does not have the lines of %s once" % name)
    return ("\n" + source).replace("\n" + old, "\n" + new)[1:]


if __name__ == "__main__":
    if len(sys.argv) != 2:
        sys.exit("usage: faults.py NAME")
    try:
        sys.stdout.write(changed(sys.argv[1]))
    except ValueError as why:
        sys.exit("faults.py: %s" % why)
