#!/usr/bin/env python3
"""Plants faults in a collector: planted.py FAULTS.txt [--draw N] [--seed S] [--only NAME ..] [--at-once] -- COMMAND ..

FAULTS.txt has a row for each fault: its name, from which collection on it is planted, how many places for it are passed over, what it is, and a
pattern of what has to be printed. The rows behind the first empty line, if there is one, are drawn: N of them, by the seed, which is the time by
default. With --only, the faults that are named are planted instead, and with --at-once each at its first place. The command runs a program by the
collector with its adapter; variables of the environment tell it the fault. It has to end with status 3, after it has said that it planted the fault.
Prints a line for each fault, and the lines about it. The status is 0 if each was found, and what was printed names it.
"""
import argparse
import os
import random
import re
import subprocess
import sys
import time


def rows_of(path):
    """Returns the rows that are always planted, and those that are drawn."""
    with open(path, encoding="utf-8") as file:
        always, _, drawn = file.read().partition("\n\n")
    return [[line.split(" | ", 4) for line in part.split("\n") if line and not line.startswith("#")] for part in (always, drawn)]


def outcome(row, command):
    """Returns whether a fault was found and named, and the lines about it."""
    name, at, passed_over, _, pattern = row
    environment = dict(os.environ, CERTIFY_FAULT=name, CERTIFY_AT=at, CERTIFY_NTH=passed_over)
    ran = subprocess.run(command, env=environment, stdin=subprocess.DEVNULL, stdout=subprocess.PIPE, stderr=subprocess.STDOUT, timeout=600)
    text = ran.stdout.decode("utf-8", "replace")
    planted, told = re.search(r"(?m)^planted: %s$" % name, text), re.search(pattern, text)
    verdict = re.search(r"(?m)^.*(?:refused \d+ |no verdict: )[^\n]*(?:\n  [^\n]*)*", text)
    return ran.returncode == 3 and planted and told, verdict.group() if verdict else text[-2000:]


def main():
    parser = argparse.ArgumentParser(description=__doc__)
    parser.add_argument("faults")
    parser.add_argument("--draw", type=int, default=0)
    parser.add_argument("--seed", type=int, default=int(time.time()))
    parser.add_argument("--only", nargs="*")
    parser.add_argument("--at-once", action="store_true")
    parser.add_argument("command", nargs="+")
    given = parser.parse_args()
    always, drawn = rows_of(given.faults)
    rows = always + random.Random(given.seed).sample(drawn, min(given.draw, len(drawn)))
    if given.draw:
        print("%d of %d faults drawn with --seed %d" % (min(given.draw, len(drawn)), len(drawn), given.seed))
    if given.only:
        rows = [row for row in always + drawn if row[0] in given.only]
    if given.at_once:
        rows = [[name, "1", "0", *rest] for name, _, _, *rest in rows]
    failed = 0
    for row in rows:
        found, lines = outcome(row, given.command)
        failed += not found
        print("%s: fault %s, %s\n%s" % ("ok" if found else "FAILED", row[0], row[3], lines), flush=True)
    return 1 if failed or not rows else 0


if __name__ == "__main__":
    sys.exit(main())
