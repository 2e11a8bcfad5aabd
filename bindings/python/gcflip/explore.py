"""The old name of the page's command: `python3 -m gcflip.explore [FILE]` says the new one, and goes on with it."""
from __future__ import annotations

import importlib.util
import os
import runpy
import sys

NEW = "gcflip_explore"
# Where the page's package is in the repository.
BESIDE = os.path.join(os.path.dirname(os.path.abspath(__file__)), "..", "..", "..", "explore")


def main() -> None:
    """Runs the page's package. Ends the program with a message if it is not installed."""
    if os.path.isdir(os.path.join(BESIDE, NEW)):
        sys.path.append(os.path.normpath(BESIDE))
    if importlib.util.find_spec(NEW) is None:
        sys.exit("explore: the page is a package of its own now, %s, which is not installed; its command is 'python3 -m %s'" % (NEW.replace("_", "-"), NEW))
    print("explore: the command is now 'python3 -m %s'" % NEW, file=sys.stderr, flush=True)
    runpy.run_module(NEW, run_name="__main__")


if __name__ == "__main__":
    main()
