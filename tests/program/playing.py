"""Tests of playing: traces with their replies, texts that are not traces, every prefix of a trace, and the limit on its length."""
import subprocess
import time

from . import traces
from .harness import Outcome, difference, file_of, refusal, run

LIMIT = 16777216


def both_ways(program, folder, text):
    """Returns the outcome on standard input and the outcome on a file."""
    yield "on standard input", run(program, text=text)
    yield "of a file", run(program, ["play", file_of(folder, "text", text)])


def played(program, folder):
    for name, conversation in traces.PLAYED.items():
        text, replies = traces.trace_and_replies(conversation)
        for way, found in both_ways(program, folder, text):
            yield "%s, %s" % (name, way), difference(found, Outcome(stdout=replies))


def refused(program, folder):
    for name, text, line in traces.refused_texts():
        for way, found in both_ways(program, folder, text):
            yield "%s, %s" % (name, way), difference(found, refusal(line, 3))


def outcome_of_cut(text, replies, length):
    """Returns the expected outcome of the first bytes of a good trace. Whole lines are a trace, any other prefix is not."""
    front = text[:length]
    lines = front.count(b"\n")
    if lines < 2:
        return refusal(traces.BAD_HEADER, 3)
    if not front.endswith(b"\n"):
        return refusal(traces.bad_line(lines + 1), 3)
    return Outcome(stdout=b"".join(replies.splitlines(keepends=True)[: lines - 2]))


def cuts(program, _folder):
    text, replies = traces.trace_and_replies(traces.PLAYED["cycle_of_two"])
    for length in range(len(text) + 1):
        found = run(program, text=text[:length])
        yield "cycle_of_two, cut behind %d bytes" % length, difference(found, outcome_of_cut(text, replies, length))


def byte_by_byte(program, _folder):
    """Plays from a pipe that delivers a line in many pieces."""
    text, replies = traces.trace_and_replies(traces.PLAYED["full_leaves_the_slot_as_it_was"])
    with subprocess.Popen([program], stdin=subprocess.PIPE, stdout=subprocess.PIPE, stderr=subprocess.PIPE) as running:
        for byte in text:
            running.stdin.write(bytes([byte]))
            running.stdin.flush()
            time.sleep(0.001)
        stdout, stderr = running.communicate()
    found = Outcome(stdout, stderr, running.returncode)
    yield "a_trace_that_comes_byte_by_byte", difference(found, Outcome(stdout=replies))


def text_of_length(length):
    """Returns a trace of this many bytes, and its replies."""
    start = b"heaptrace 1\nspace 8 mutators 1\n"
    line = b"m 0 nil r0\n"
    count, left = divmod(length - len(start), len(line))
    # The remaining bytes lengthen the last line, whose number has at least one digit.
    last = b"m 0 num r0 " + b"1" * (left + len(line) - len(b"m 0 num r0 \n")) + b"\n"
    if left == 0:
        last = line
    text = start + line * (count - 1) + last
    assert len(text) == length
    return text, b"done\n" * count


def limit(program, folder):
    text, replies = text_of_length(LIMIT)
    for way, found in both_ways(program, folder, text):
        yield "longest_trace, %s" % way, difference(found, Outcome(stdout=replies))
    too_large = refusal("trace: too large", 3)
    for way, found in both_ways(program, folder, text_of_length(LIMIT + 1)[0]):
        yield "one_byte_too_many, %s" % way, difference(found, too_large)
    for way, found in both_ways(program, folder, b"x" * (LIMIT + 1)):
        yield "too_large_before_bad_header, %s" % way, difference(found, too_large)
    yield "a_file_without_end", difference(run(program, ["play", "/dev/zero"]), too_large)


def most_events(program, folder):
    """Plays the trace with the most events. A line has at least seven bytes."""
    text = b"heaptrace 1\nspace 1 mutators 1\n" + b"c flip\n" * 2396740
    assert LIMIT - len(b"c flip\n") < len(text) <= LIMIT
    for way, found in both_ways(program, folder, text):
        yield "most_events, %s" % way, difference(found, Outcome(stdout=b"idle\n" * 2396740))


GROUPS = [played, refused, cuts, byte_by_byte, limit, most_events]
