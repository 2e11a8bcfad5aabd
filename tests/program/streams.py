"""Tests of readers and writers that fail, and of how often a run reads and writes."""
import os
import subprocess

from .harness import Outcome, Skipped, difference, file_of, refusal, run
from .pairs import CHECKED, LEAST, text_of
from .traces import PLAYED, trace_and_replies

CANNOT_READ = refusal("cannot read", 4)
CANNOT_WRITE = refusal("cannot write", 4)


def to_full_device(program, words, text=b""):
    """Runs the program with its output to a device that accepts no byte."""
    with open("/dev/full", "wb") as full:
        return run(program, words, text=text, stdout=full)


def to_pipe_without_reader(program, words, text=b""):
    """Runs the program with its output to a pipe that nobody reads."""
    reading, writing = os.pipe()
    os.close(reading)
    try:
        return run(program, words, text=text, stdout=writing)
    finally:
        os.close(writing)


def readers(program, folder):
    unreadable = {
        "missing_file": os.path.join(folder, "nothing", "here"),
        "empty_path": "",
        "path_through_a_file": "/dev/null/here",
        "folder_as_file": folder,
    }
    for name, path in unreadable.items():
        yield name, difference(run(program, ["play", path]), CANNOT_READ)
        yield "%s, checked" % name, difference(run(program, ["check", path]), CANNOT_READ)
    descriptor = os.open(folder, os.O_RDONLY)
    try:
        yield "folder_as_standard_input", difference(run(program, stdin=descriptor), CANNOT_READ)
    finally:
        os.close(descriptor)
    descriptor = os.open(os.devnull, os.O_WRONLY)
    try:
        yield "standard_input_for_writing_alone", difference(run(program, stdin=descriptor), CANNOT_READ)
    finally:
        os.close(descriptor)


def closed_streams(program, folder):
    """Checks that a stream that is closed from the start fails like any other, even if a file gets its descriptor."""
    text, _ = trace_and_replies(PLAYED["cycle_of_two"])
    path = file_of(folder, "played", text)
    pair = file_of(folder, "pair", LEAST)
    for name, words, closing, wanted in [
        ("closed_standard_input", [], "<&-", CANNOT_READ),
        ("closed_standard_output", ["play", path], ">&-", CANNOT_WRITE),
        ("closed_standard_input_and_output", ["play", path], "<&- >&-", CANNOT_WRITE),
        ("closed_standard_output_for_a_verdict", ["check", pair], ">&-", CANNOT_WRITE),
        ("closed_standard_input_and_output_for_a_verdict", ["check", pair], "<&- >&-", CANNOT_WRITE),
    ]:
        shell = ["-c", 'exec "$0" "$@" ' + closing, program, *words]
        yield name, difference(run("/bin/sh", shell, text=text), wanted)


def writers(program, folder):
    text, _ = trace_and_replies(PLAYED["cycle_of_two"])
    # Longer than a pipe and any buffer, so that writes also fail in the middle of the output.
    long_text = text[: text.index(b"m 0")] + b"m 0 look r0\n" * 50000
    path = file_of(folder, "played", text)
    for name, writer in [("full_device", to_full_device), ("pipe_without_reader", to_pipe_without_reader)]:
        yield "replies_to_%s" % name, difference(writer(program, ["play", path]), CANNOT_WRITE)
        yield "replies_of_input_to_%s" % name, difference(writer(program, [], text=text), CANNOT_WRITE)
        yield "many_replies_to_%s" % name, difference(writer(program, [], text=long_text), CANNOT_WRITE)
        yield "help_to_%s" % name, difference(writer(program, ["--help"]), CANNOT_WRITE)


def writers_of_verdicts(program, folder):
    """Checks that a verdict that cannot be written is `cannot write`, for a yes and for a refusal. A bad text needs no writer."""
    refused = text_of(CHECKED["kinds_differ"][0])
    for name, writer in [("full_device", to_full_device), ("pipe_without_reader", to_pipe_without_reader)]:
        for verdict, text in [("yes", LEAST), ("refusal", refused)]:
            found = writer(program, ["check", file_of(folder, verdict, text)])
            yield "%s_to_%s" % (verdict, name), difference(found, CANNOT_WRITE)
        found = writer(program, ["check", file_of(folder, "bad", LEAST + b"x\n")])
        yield "bad_line_of_a_pair_with_%s" % name, difference(found, refusal("pair: bad line 12", 3))


def nothing_to_write(program, _folder):
    """Checks that a writer that accepts no byte is not a fault if there is nothing to write."""
    text, _ = trace_and_replies(PLAYED["no_events_no_replies"])
    bad_line = refusal("trace: bad line 3", 3)
    for name, writer in [("full_device", to_full_device), ("pipe_without_reader", to_pipe_without_reader)]:
        yield "no_replies_to_%s" % name, difference(writer(program, [], text=text), Outcome())
        yield "bad_line_with_%s" % name, difference(writer(program, [], text=text + b"x\n"), bad_line)


def broken_off(program, _folder):
    """Closes the reader of the output after the first reply."""
    text = b"heaptrace 1\nspace 8 mutators 1\n" + b"m 0 look r0\n" * 100000
    with subprocess.Popen(["head", "-n", "1"], stdin=subprocess.PIPE, stdout=subprocess.PIPE) as reader:
        found = run(program, text=text, stdout=reader.stdin)
        reader.stdin.close()
        first = reader.stdout.read()
    yield "reader_that_goes_away", difference(found, CANNOT_WRITE)
    yield "first_reply_went_out", None if first == b"saw nil\n" else "first reply %r" % first


def standard_error(program, folder):
    """Checks that the status gives the fault even if its line cannot be written."""
    missing = os.path.join(folder, "nothing", "here")
    with open("/dev/full", "wb") as full:
        found = [
            run(program, text=b"x", stderr=full).status,
            run(program, ["play", missing], stderr=full).status,
            run(program, ["nothing"], stderr=full).status,
            run(program, ["check", "/dev/null"], stderr=full).status,
        ]
    wanted = [3, 4, 2, 3]
    yield "statuses_with_full_standard_error", None if found == wanted else "statuses %s, wanted %s" % (found, wanted)


def calls_of(words, output):
    """Runs the program with its output to this file. Returns how often it read and wrote, as the system counts it, or None if it does not."""
    with open(output, "wb") as stdout:
        process = subprocess.Popen(words, stdin=subprocess.DEVNULL, stdout=stdout, stderr=subprocess.DEVNULL)
    try:
        os.waitid(os.P_PID, process.pid, os.WEXITED | os.WNOWAIT)
        with open("/proc/%d/io" % process.pid) as counted:
            counts = dict(line.split(": ") for line in counted)
        return int(counts["syscr"]), int(counts["syscw"])
    except OSError:
        return None
    finally:
        process.wait()


def few_calls(program, folder):
    """A run reads and writes by pieces, and not by bytes or lines: of 9,000 lines, 63,031 bytes, it makes 9,000 replies, 45,000 bytes."""
    path = file_of(folder, "flips", b"heaptrace 1\nspace 1 mutators 1\n" + b"c flip\n" * 9000)
    output = os.path.join(folder, "replies")
    none = calls_of([program, "play", os.devnull], output)
    found = calls_of([program, "play", path], output)
    if none is None or found is None:
        yield "few_calls", Skipped("the system does not count a process's reads and writes")
        return
    reads, writes = found[0] - none[0], found[1] - none[1]
    yield "few_calls, the replies", None if os.path.getsize(output) == 45000 else "%d bytes" % os.path.getsize(output)
    yield "few_calls, reads", None if 1 <= reads < 20 else "%d more than for an empty file" % reads
    # For an empty file it writes a fault's line.
    yield "few_calls, writes", None if 0 <= writes < 6 else "%d more than for an empty file" % writes


GROUPS = [readers, closed_streams, writers, writers_of_verdicts, nothing_to_write, broken_off, standard_error, few_calls]
