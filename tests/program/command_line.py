"""Tests of the command line: the task of its arguments, and the order in which faults are found."""
import os

from .harness import Outcome, difference, file_of, refusal, run
from .pairs import LEAST
from .traces import PLAYED, trace_and_replies

HELP = b"""gcflip 0.2.0: plays the trace on standard input, or does what a subcommand says

Usage: gcflip [COMMAND]

Commands:
  play     Plays a trace: writes a line for each reply
  check    Checks a pair of heaps: writes the line of the verdict
  report   Plays a trace: writes a report of its run
  pair     Plays a trace: writes the pair of its N-th flip
  threads  Runs a trace's mutators in threads, beside a collector: writes the trace of what happened
  help     Print this message or the help of the given subcommand(s)

Options:
  -h, --help  Print help
"""



def file_help(command, about):
    """Returns the help of a command that takes a file and nothing else."""
    return b"""%s

Usage: gcflip %s <FILE>

Arguments:
  <FILE>  The path of the file to read

Options:
  -h, --help  Print help
""" % (about, command)


PLAY_HELP = file_help(b"play", b"Plays a trace: writes a line for each reply")
CHECK_HELP = file_help(b"check", b"Checks a pair of heaps: writes the line of the verdict")
REPORT_HELP = file_help(b"report", b"Plays a trace: writes a report of its run")

PAIR_HELP = b"""Plays a trace: writes the pair of its N-th flip

Usage: gcflip pair <FILE> <N>

Arguments:
  <FILE>  The path of the file to read
  <N>     Which flip, counted from 1

Options:
  -h, --help  Print help
"""

THREADS_HELP = b"""Runs a trace's mutators in threads, beside a collector: writes the trace of what happened

Usage: gcflip threads <FILE> <TURNS>

Arguments:
  <FILE>   The path of the file to read
  <TURNS>  How many steps the collector makes, 1000000 at most

Options:
  -h, --help  Print help
"""

HELP_WORDS = {
    ("--help",): HELP,
    ("-h",): HELP,
    ("help",): HELP,
    ("play", "--help"): PLAY_HELP,
    ("play", "-h"): PLAY_HELP,
    ("help", "play"): PLAY_HELP,
    ("check", "--help"): CHECK_HELP,
    ("check", "-h"): CHECK_HELP,
    ("help", "check"): CHECK_HELP,
    ("report", "--help"): REPORT_HELP,
    ("report", "-h"): REPORT_HELP,
    ("help", "report"): REPORT_HELP,
    ("pair", "--help"): PAIR_HELP,
    ("pair", "-h"): PAIR_HELP,
    ("help", "pair"): PAIR_HELP,
    ("threads", "--help"): THREADS_HELP,
    ("threads", "-h"): THREADS_HELP,
    ("help", "threads"): THREADS_HELP,
    ("--help", "nothing"): HELP,
}

# The arguments, and the first line of clap's text.
REFUSED_WORDS = {
    ("nothing",): "error: unrecognized subcommand 'nothing'",
    ("--nothing",): "error: unexpected argument '--nothing' found",
    ("-x",): "error: unexpected argument '-x' found",
    ("",): "error: unrecognized subcommand ''",
    ("Play", "a"): "error: unrecognized subcommand 'Play'",
    ("play",): "error: the following required arguments were not provided:",
    ("play", "a", "b"): "error: unexpected argument 'b' found",
    ("play", "--nothing", "a"): "error: unexpected argument '--nothing' found",
    ("Check", "a"): "error: unrecognized subcommand 'Check'",
    ("check",): "error: the following required arguments were not provided:",
    ("check", "a", "b"): "error: unexpected argument 'b' found",
    ("check", "--nothing", "a"): "error: unexpected argument '--nothing' found",
    ("play", "check", "a"): "error: unexpected argument 'a' found",
    ("report",): "error: the following required arguments were not provided:",
    ("report", "a", "b"): "error: unexpected argument 'b' found",
    ("pair",): "error: the following required arguments were not provided:",
    ("pair", "a"): "error: the following required arguments were not provided:",
    ("pair", "a", "1", "1"): "error: unexpected argument '1' found",
    ("pair", "a", "0"): "error: invalid value '0' for '<N>': 0 is not in 1..=4294967295",
    ("pair", "a", "4294967296"): "error: invalid value '4294967296' for '<N>': 4294967296 is not in 1..=4294967295",
    ("pair", "a", "b"): "error: invalid value 'b' for '<N>': invalid digit found in string",
    ("pair", "a", ""): "error: invalid value '' for '<N>': cannot parse integer from empty string",
    ("pair", "a", "-1"): "error: unexpected argument '-1' found",
    ("threads", "a"): "error: the following required arguments were not provided:",
    ("threads", "a", "1", "1"): "error: unexpected argument '1' found",
    ("threads", "a", "1000001"): "error: invalid value '1000001' for '<TURNS>': 1000001 is not in 0..=1000000",
    ("threads", "a", "x"): "error: invalid value 'x' for '<TURNS>': invalid digit found in string",
    ("help", "nothing"): "error: unrecognized subcommand 'nothing'",
    (b"\xff",): "error: invalid UTF-8 was detected in one or more arguments",
    ("play", b"\xff"): "error: invalid UTF-8 was detected in one or more arguments",
    ("check", b"\xff"): "error: invalid UTF-8 was detected in one or more arguments",
}


def help_words(program, _folder):
    for words, text in HELP_WORDS.items():
        yield "words %s print help" % (words,), difference(run(program, words), Outcome(stdout=text))


def refused_words(program, _folder):
    for words, line in REFUSED_WORDS.items():
        found = run(program, words, text=b"x")
        wanted = Outcome(b"", found.stderr, 2)
        why = difference(found, wanted)
        if why is None and found.first_error_line() != line:
            why = "first line %r, wanted %r" % (found.first_error_line(), line)
        yield "words %s are refused" % (words,), why


def order_of_faults(program, folder):
    missing = os.path.join(folder, "nothing", "here")
    for command, number in [("play", []), ("check", []), ("report", []), ("pair", ["1"]), ("threads", ["1"])]:
        found = run(program, [command, missing] + number + ["one more"])
        yield "%s: words_before_opening" % command, None if found.status == 2 else "status %s, wanted 2" % found.status
        found = run(program, [command, missing] + number, text=b"x")
        yield "%s: opening_before_reading" % command, difference(found, refusal("cannot read", 4))


def paths(program, folder):
    """Takes FILE literally."""
    text, replies = trace_and_replies(PLAYED["cycle_of_two"])
    played = Outcome(stdout=replies)
    cannot_read = refusal("cannot read", 4)
    for name in ["-", "play", "check", "a b", " ", "\u00e9", "--"]:
        with open(os.path.join(folder, name), "wb") as file:
            file.write(text)
    for name in ["play", "check", "a b", " ", "\u00e9", "./-"]:
        yield "file %r is played" % name, difference(run(program, ["play", name], cwd=folder), played)
    yield "dash_is_a_file", difference(run(program, ["play", "-"], text=b"x", cwd=folder), played)
    yield "dash_is_not_standard_input", difference(run(program, ["play", "-"], text=text, cwd="/"), cannot_read)
    yield "words_behind_two_dashes", difference(run(program, ["play", "--", "--"], cwd=folder), played)


def paths_of_pairs(program, folder):
    """Does the same for a pair."""
    checked = Outcome(stdout=b"yes 0\n")
    for name in ["-", "play", "check", "a b", "\u00e9", "--"]:
        with open(os.path.join(folder, name), "wb") as file:
            file.write(LEAST)
    for name in ["play", "check", "a b", "\u00e9", "./-"]:
        yield "file %r is checked" % name, difference(run(program, ["check", name], cwd=folder), checked)
    yield "dash_is_a_file_to_check", difference(run(program, ["check", "-"], text=b"x", cwd=folder), checked)
    found = run(program, ["check", "-"], text=LEAST, cwd="/")
    yield "dash_is_no_input_to_check", difference(found, refusal("cannot read", 4))
    yield "path_to_check_behind_two_dashes", difference(run(program, ["check", "--", "--"], cwd=folder), checked)


def numbers(program, folder):
    """Tries both ends of the ranges of N and TURNS, and numbers as clap reads them."""
    text, _ = trace_and_replies(PLAYED["nothing_to_copy"])
    path = file_of(folder, "trace", text)
    for number in ["4294967295", "2", "002", "+2"]:
        found = run(program, ["pair", path, number])
        yield "flip %s" % number, difference(found, refusal("trace: no such flip", 3))
    for number in ["0", "1000000", "00", "+0"]:
        found = run(program, ["threads", path, number])
        why = None if found.status == 0 and found.stdout.startswith(b"heaptrace 1\n") else "status %s" % found.status
        yield "%s turns" % number, why


GROUPS = [help_words, refused_words, order_of_faults, paths, paths_of_pairs, numbers]
