"""Runs the program, and compares its outcome with the expected one."""
import os
import re
import resource
import subprocess
import sys

# No case needs this much. A program that hangs or takes all memory is a failure, and does not harm the machine.
SECONDS = 300
BYTES = 4 << 30


# The names of the cases that were not run, in order.
skipped = []


class Skipped(str):
    """Why a case was not run, given instead of why a case failed."""


def skip(name, why):
    """Says that a case is not run, and why."""
    print("SKIPPED %s: %s" % (name, why), flush=True)
    skipped.append(name)


def skips_listed():
    """Returns the cases that CI may skip, and why, as tests/skips.txt lists them."""
    with open(os.path.join(os.path.dirname(os.path.abspath(__file__)), "..", "skips.txt"), encoding="utf-8") as file:
        return dict(line.rstrip("\n").split(" | ", 1) for line in file if line.strip() and not line.startswith("#"))


def wrong_skips(names, listed, in_ci):
    """Yields the names of skipped cases that CI may not skip. Elsewhere each may be skipped."""
    yield from (name for name in dict.fromkeys(names) if in_ci and name not in listed)


def python_with(module):
    """Returns the first Python that has a module: the one that runs the tests, or the system's, for which Debian's packages are. Returns None if neither has it."""
    for python in (sys.executable, "/usr/bin/python3"):
        if os.path.exists(python) and subprocess.run([python, "-c", "import " + module], stderr=subprocess.DEVNULL).returncode == 0:
            return python
    return None


class Outcome:
    """The outcome of a run: standard output, standard error, exit status (negative for a signal)."""

    def __init__(self, stdout=b"", stderr=b"", status=0):
        self.stdout = stdout
        self.stderr = stderr
        self.status = status

    def first_error_line(self):
        return self.stderr.split(b"\n")[0].decode("utf-8", "replace")


def refusal(line, status):
    """Returns the outcome of a fault: only its line, and nothing on standard output."""
    return Outcome(b"", line.encode() + b"\n", status)


def limit_memory():
    resource.setrlimit(resource.RLIMIT_AS, (BYTES, BYTES))


def run(program, words=(), text=b"", **streams):
    """Runs the program with these arguments, and the text on standard input. `streams` may replace stdin, stdout and stderr by
    descriptors or files, and gives further arguments of subprocess.run."""
    given = {"stdout": subprocess.PIPE, "stderr": subprocess.PIPE, **streams}
    if "stdin" not in given:
        given["input"] = text
    try:
        done = subprocess.run([program, *words], timeout=SECONDS, preexec_fn=limit_memory, **given)
    except subprocess.TimeoutExpired:
        return Outcome(status="no end after %d seconds" % SECONDS)
    return Outcome(done.stdout or b"", done.stderr or b"", done.returncode)


def shown(text):
    if len(text) <= 100:
        return repr(text)
    return "%r.. (%d bytes)" % (text[:100], len(text))


def difference(found, wanted):
    """Returns why an outcome is not the expected one, or None if it is."""
    if found.status != wanted.status:
        return "status %s, wanted %s; standard error %s" % (found.status, wanted.status, shown(found.stderr))
    if found.stderr != wanted.stderr:
        return "standard error %s, wanted %s" % (shown(found.stderr), shown(wanted.stderr))
    if found.stdout != wanted.stdout:
        return "standard output %s, wanted %s" % (shown(found.stdout), shown(wanted.stdout))
    return None


def addresses_numbered(text):
    """Returns a text with each address of the machine replaced by a number, in the order in which they first appear. Two runs of a program then
    print the same."""
    numbers = {}
    return re.sub(rb"0x[0-9a-f]{6,16}\b", lambda found: b"0x#%d" % numbers.setdefault(found.group(), len(numbers)), text)


def file_of(folder, name, content):
    """Writes a new file in the folder, and returns its path."""
    path = os.path.join(folder, name)
    with open(path, "wb") as file:
        file.write(content)
    return path
