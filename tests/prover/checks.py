"""Checks of some functions of a crate with wrong bodies in it, and what they find."""
import os
import re
import shutil
import subprocess
import tempfile

from .crates import over_built
from .edits import BadEdit, changed_texts
from .evidence import Answer, FalseAnswer, Goal, kind_of
from .functions import item_at

PARTS = ("src", "specs", "proofs")
GOAL = re.compile(r"note: (src/[\w/]+\.rt):(\d+):\d+: it is not proved.*?\(`([^`]+)`\)")
# A ghost clause of a type, where a body makes or changes a value of it. Where the prover tells only that some clause does, nothing is shown: it then looks
# for the proofs of all at once, as of a goal under a new name.
TYPE_GOAL = re.compile(r"note: (src/[\w/]+\.rt):(\d+):\d+: `search` .*?\(`(invariant_of-[^`]*-clause-\w+)`\)")
UNNAMED_GOAL = re.compile(r"note: (src/[\w/]+\.rt):(\d+):\d+: it is not proved")
ERROR = re.compile(r"\./(proofs/([\w+/]+)/(\w+)\.antt):(\d+):\d+: error: (.*)")
LOST = re.compile(r"has no field|can be named|is not in scope|has no `|is no name")
# What rests on another error.
FOLLOWS = re.compile(r"was not admitted|was rejected")
PROVED = re.compile(r"(?m)^fn \S+: proved$")
DECLARED = re.compile(r"(?:pub )?([\w-]+) :")
# The prover found values for which the goal does not hold, or for which what an answer cites holds and its goal does not.
IS_FALSE = "allow values at which this goal is false"
FAILS = "All of that holds, and the goal fails, at"


def item_of_note(folder, path, line):
    """Returns the item at a line of an edited source file, or None."""
    with open(os.path.join(folder, path), encoding="utf-8") as file:
        text = file.read()
    return item_at(path, text, len("".join(text.splitlines(True)[:line])) - 1)


def answered_at(folder, path, line):
    """Returns the goal whose answer holds a line of a file of Answers, or None: the line is above all answers, or in another file."""
    if not path.endswith("/Answers.antt"):
        return None
    with open(os.path.join(folder, path), encoding="utf-8") as file:
        declared = [DECLARED.match(text) for text in file.read().split("\n")[:line]]
    names = [found.group(1) for found in declared if found]
    return names[-1] if names else None


def answered_kinds(folder, item):
    """Returns the kinds of goals of a function for which its proof files have answers."""
    found = set()
    for path, _, names in os.walk(os.path.join(folder, "proofs")):
        if item and item.name and "Answers.antt" in names and item.has_proofs_in(os.path.relpath(path, os.path.join(folder, "proofs"))):
            with open(os.path.join(path, "Answers.antt"), encoding="utf-8") as file:
                declared = [DECLARED.match(line) for line in file.read().split("\n")]
            found |= {kind_of(each.group(1)) for each in declared if each}
    return found


def messages_in(output):
    """Yields each line of what a check printed that is not indented, with the indented lines below it, which go on with it."""
    lines = []
    for line in output.split("\n") + [""]:
        if lines and not line.startswith(" "):
            yield lines[0], " ".join(lines)
            lines = []
        lines.append(line)


def found_in(output, folder, items):
    """Returns what a check printed: open goals, and answers that no longer fit, of these items or of others."""
    found = []
    for line, message in messages_in(output):
        note, error = GOAL.match(line) or TYPE_GOAL.match(line) or UNNAMED_GOAL.match(line), ERROR.match(line)
        if note:
            item = item_of_note(folder, note.group(1), int(note.group(2)))
            found.append(Goal(item, line, "" if note.re is UNNAMED_GOAL else note.group(3), IS_FALSE in line, answered_kinds(folder, item)))
        elif error and not FOLLOWS.search(error.group(5)):
            owners = [item for item in items if item.name and item.has_proofs_in(error.group(2))]
            owner, answered = owners[0] if owners else None, answered_at(folder, error.group(1), int(error.group(4)))
            is_false = FAILS in error.group(5) and owner and answered
            found.append(FalseAnswer(owner, line, answered) if is_false else Answer(owner, line, answered, bool(LOST.search(message))))
    return found


class Checks:
    """The checks of one crate. What they prove is kept in a folder, so that the next one checks only what changed."""

    def __init__(self, crate, listed, kept):
        self.crate, self.kept = crate, kept
        # The number of checks so far, and their processor time.
        self.count, self.seconds = 0, 0.0
        # How many functions were proved in checks with edits that left other functions open.
        self.proved_beside = 0
        self.words = over_built("check", crate, listed) + ["--incremental", kept]

    def call(self, words, folder):
        """Returns the status and the output of a call of the prover, and adds its processor time."""
        with subprocess.Popen(words, cwd=folder, stdin=subprocess.DEVNULL, stdout=subprocess.PIPE, stderr=subprocess.STDOUT) as ran:
            output = ran.stdout.read().decode("utf-8", "replace")
            _, status, used = os.wait4(ran.pid, 0)
            ran.returncode = os.WEXITSTATUS(status) if os.WIFEXITED(status) else -1
        self.count, self.seconds = self.count + 1, self.seconds + used.ru_utime + used.ru_stime
        return ran.returncode, output

    def run(self, edits, names):
        """Returns what a check finds with these edits, or None if all is proved. Checks the functions of these names, or all if there
        are none."""
        with tempfile.TemporaryDirectory(prefix="edits-") as folder:
            for part in PARTS:
                if os.path.isdir(os.path.join(self.crate.folder, part)):
                    shutil.copytree(os.path.join(self.crate.folder, part), os.path.join(folder, part))
            for path, text in changed_texts(edits, folder).items():
                with open(os.path.join(folder, path), "w", encoding="utf-8") as file:
                    file.write(text)
            words = self.words + [word for name in sorted(names) for word in ("--only", name)]
            status, output = self.call(words, folder)
            last = output.rstrip("\n").split("\n")[-1]
            if status == 0:
                return None
            first_error = ([line for line in output.split("\n") if "error" in line] or [last])[0][:200]
            if status != 1 or not last.startswith(("logic=not-proved", "only=")):
                raise BadEdit("it did not reach the prover: " + first_error)
            found = found_in(output, folder, [item for edit in edits for item in edit.items if item])
            if not found:
                raise BadEdit("the prover refused it, but at no goal: " + first_error)
            self.proved_beside += len(PROVED.findall(output)) if edits else 0
            return found
