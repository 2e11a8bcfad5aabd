"""Tests of the logs of tests/long: each part has one, which says that it passed. Prints how old each is."""
import calendar
import os
import re
import subprocess
import time

from prover.crates import TOP, crates_listed
from prover.edits import edits_of, sum_of

LOGS = os.path.join(TOP, "tests", "long", "logs")
# The parts of tests/long/run.
PARTS = ("edits", "tests", "random", "churn", "second_compiler", "large", "soak", "beside", "runtimes", "releases", "pages")
# What each log has to say, and the figure of a part that tells how much it did.
LINES = ("date", "commit", "minutes", "failed")
FIGURES = {"edits": "edits refused", "tests": "tests proved", "random": "calls", "churn": "operations", "second_compiler": "cases passed", "large": "collections", "soak": "commands",
           "beside": "commands", "runtimes": "collections", "releases": "files", "pages": "texts"}
# The folders whose trees in git a log names, so that it says of which code it tells when its commit was merged under another name.
FOLDERS = ("crates", "bindings", "explore")
# The parts that have no log as yet. CI says so aloud.
WITHOUT_LOG = ()
DAY = 24 * 60 * 60


def values_of(text):
    return dict(re.findall(r"(?m)^([a-z_ ]+): (.*)$", text))


def age_of(value, now):
    """Returns the days since the date of a log."""
    return (now - calendar.timegm(time.strptime(value, "%Y-%m-%d %H:%M:%S"))) / DAY


def fault_of(part, text):
    """Returns why the log of a part is wrong, or None."""
    values = values_of(text)
    missing = [name for name in (*LINES, FIGURES[part]) if name not in values]
    if missing:
        return "it has no line for %s" % ", ".join(missing)
    if not re.fullmatch(r"\d{4}-\d\d-\d\d \d\d:\d\d:\d\d", values["date"]):
        return "its date is %s" % values["date"]
    if values["failed"] != "no" or re.search(r"(?m)^(?:seed \d+: )?FAILED", text):
        return "the part failed"
    if values["commit"].endswith("with changes"):
        return "files differed from the commit"
    return None if int(values[FIGURES[part]]) > 0 else "nothing was done"


def told_of_edits(values):
    """Yields a line for each crate that changed after all its edits were tried, or a crate below it, or whose edits were not all tried."""
    for crate in sorted(name for name in crates_listed() if edits_of(name)):
        now = "%d edits of %s" % (len(edits_of(crate)), sum_of(crate))
        if values.get(crate) != now:
            yield "long: %s: not all its edits were tried on what it is now" % crate


def changed_folders(values):
    """Returns the folders that have changed since a log was written, as far as it names them."""
    changed = []
    for folder in FOLDERS:
        now = subprocess.run(["git", "-C", TOP, "rev-parse", "HEAD:" + folder], stdout=subprocess.PIPE, stderr=subprocess.DEVNULL)
        if values.get("tree of " + folder) != now.stdout.decode().strip():
            changed.append(folder)
    return changed


def logs(_program, _folder):
    """Each part has a log of a run that passed."""
    for part in PARTS:
        path = os.path.join(LOGS, part + ".txt")
        if not os.path.exists(path) and part in WITHOUT_LOG:
            print("long: %s has no log yet" % part, flush=True)
            continue
        if not os.path.exists(path):
            yield "log of %s" % part, "there is none: run tests/long/run %s" % part
            continue
        with open(path, encoding="utf-8") as file:
            text = file.read()
        why = fault_of(part, text)
        if why is None:
            values = values_of(text)
            changed = changed_folders(values)
            print("long: %s ran %.1f days ago, for %s minutes, %s %s, at commit %.12s%s"
                  % (part, age_of(values["date"], time.time()), values["minutes"], values[FIGURES[part]], FIGURES[part], values["commit"],
                     ", before changes to " + " and ".join(changed) if changed else ""), flush=True)
            for line in told_of_edits(values) if part == "edits" else []:
                print(line, flush=True)
        yield "log of %s" % part, why
    known = [part + ".txt" for part in PARTS]
    others = sorted(set(os.listdir(LOGS)) - set(known)) if os.path.isdir(LOGS) else []
    yield "no other logs", "there is %s" % ", ".join(others) if others else None


GOOD = "date: 2026-11-24 23:00:00\ncommit: 1b97721\nseeds: 1 to 2\ncalls: 12\nminutes: 1.0\nfailed: no\n"
# Logs that are wrong, made of the good one, with what is said of them.
WRONG = [("failed: no", "failed: yes", "the part failed"), ("calls: 12", "calls: 0", "nothing was done"), ("calls: 12\n", "", "it has no line for calls"),
         ("1b97721", "1b97721 with changes", "files differed from the commit"), ("failed: no\n", "failed: no\nseed 2: FAILED C 1\n", "the part failed"),
         ("2026-11-24 23:00:00", "yesterday", "its date is yesterday")]


def controls(_program, _folder):
    """Checks that logs of runs that did not pass are refused."""
    yield "a log of a run that passed", fault_of("random", GOOD)
    for old, new, wanted in WRONG:
        found = fault_of("random", GOOD.replace(old, new))
        yield "a log with %r" % new, None if found == wanted else "found %r, wanted %r" % (found, wanted)


GROUPS = [logs, controls]
