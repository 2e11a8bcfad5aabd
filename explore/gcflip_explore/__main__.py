"""The command `python3 -m gcflip_explore [FILE]`."""
from __future__ import annotations

import argparse
import os
import sys
import threading
import webbrowser

from gcflip import library_version

from .requests import Desk, examples, kind_of
from .server import MOST_TEXT, Server


def arguments() -> argparse.Namespace:
    parser = argparse.ArgumentParser(prog="python3 -m gcflip_explore", description="Shows the collector and the checker in a web page.")
    parser.add_argument("file", metavar="FILE", nargs="?", help="a trace, a pair text or an image text to open")
    parser.add_argument("--no-browser", action="store_true", help="only print the address")
    parser.add_argument("--port", type=int, default=0, help="the port on 127.0.0.1; any free one by default")
    return parser.parse_args()


def opened(path: str) -> dict[str, str]:
    """Reads the file to open. Ends the program with a message if the page cannot show it."""
    try:
        with open(path, "rb") as file:
            data = file.read(MOST_TEXT + 1)
    except OSError as error:
        sys.exit("explore: %s: %s" % (path, error.strerror))
    if len(data) > MOST_TEXT:
        sys.exit("explore: %s: the page takes texts of up to %d MiB" % (path, MOST_TEXT >> 20))
    text = data.decode("utf-8", "replace")
    kind = kind_of(text)
    if kind is None:
        sys.exit("explore: %s: the first line is that of no trace, pair text or image text" % path)
    return {"kind": kind, "name": os.path.basename(path), "text": text}


def main() -> None:
    given = arguments()
    try:
        library_version()
    except OSError as error:
        sys.exit("explore: %s" % error)
    try:
        examples()
    except OSError as error:
        sys.exit("explore: the examples are missing: %s" % error)
    desk = Desk(opened(given.file) if given.file else None)
    try:
        server = Server(desk, given.port)
    except (OSError, OverflowError) as error:
        sys.exit("explore: port %d: %s" % (given.port, getattr(error, "strerror", None) or error))
    print("The page is at %s\nCtrl+C ends it." % server.address(), flush=True)
    # A browser in a terminal blocks this thread until it ends, so another thread serves.
    serving = threading.Thread(target=server.serve_forever, daemon=True)
    serving.start()
    try:
        if not given.no_browser and not webbrowser.open(server.address()):
            print("No browser was found: open the address yourself.", flush=True)
        serving.join()
    except KeyboardInterrupt:
        print()


main()
