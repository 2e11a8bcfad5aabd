"""Tests of checking: pair texts with their verdicts, texts that are not pairs, every prefix of a pair text, and the limits."""
from . import pairs
from .harness import Outcome, difference, file_of, refusal, run

LIMIT = 67108864


def check(program, folder, text):
    return run(program, ["check", file_of(folder, "pair", text)])


def told(verdict):
    """Returns the outcome of a verdict: its line alone, on standard output, even for a refusal."""
    return Outcome(verdict.encode() + b"\n", b"", pairs.status_of(verdict))


def verdicts(program, folder):
    for name, text, verdict in pairs.texts_and_verdicts():
        yield "%s, is checked" % name, difference(check(program, folder, text), told(verdict))


def refused(program, folder):
    for name, text, line in pairs.refused_texts():
        yield "%s, as a pair text" % name, difference(check(program, folder, text), refusal(line, 3))


def cuts(program, folder):
    lines, verdict = pairs.CHECKED["old_addresses_may_fall"]
    yield from cuts_of(program, folder, "pair text", pairs.text_of(lines), verdict)
    version, lines, verdict = pairs.CHECKED_RAW["raw_word_like_a_reference"]
    yield from cuts_of(program, folder, "pair text of the second version", pairs.text_of(lines, version), verdict)


def cuts_of(program, folder, name, text, verdict):
    for length in range(len(text)):
        found = check(program, folder, text[:length])
        yield "%s cut behind %d bytes" % (name, length), difference(found, refusal(pairs.ENDS_EARLY, 3))
    yield "%s, not cut" % name, difference(check(program, folder, text), told(verdict))


def standard_input(program, folder):
    """Checks a file, and standard input by its path."""
    lines, verdict = pairs.CHECKED["kinds_differ"]
    path = file_of(folder, "pair", pairs.text_of(lines))
    found = run(program, ["check", path], text=pairs.LEAST)
    yield "file_is_checked_and_no_input", difference(found, told(verdict))
    found = run(program, ["check", "/dev/stdin"], text=pairs.LEAST)
    yield "input_is_checked_by_its_path", difference(found, told("yes 0"))


def other_texts(program, folder):
    """Plays a pair and checks a trace; both are refused."""
    pair = file_of(folder, "pair", pairs.LEAST)
    trace = file_of(folder, "trace", b"heaptrace 1\nspace 8 mutators 1\n")
    yield "pair_is_not_played", difference(run(program, ["play", pair]), refusal("trace: bad header", 3))
    yield "trace_is_not_checked", difference(run(program, ["check", trace]), refusal(pairs.bad_line(1), 3))


def limits(program, folder):
    text, verdict = pairs.greatest_text()
    yield "most_pairs", difference(check(program, folder, text), told(verdict))
    early = refusal(pairs.ENDS_EARLY, 3)
    yield "longest_text_that_is_read", difference(check(program, folder, b"x" * LIMIT), early)
    behind = pairs.LEAST + b"x" * (LIMIT - len(pairs.LEAST))
    yield "byte_behind_the_end_of_a_long_text", difference(check(program, folder, behind), refusal(pairs.bad_line(12), 3))
    too_large = refusal("pair: too large", 3)
    yield "one_byte_too_many, as a pair text", difference(check(program, folder, behind + b"x"), too_large)
    yield "too_large_before_bad_line", difference(check(program, folder, b"\n" * (LIMIT + 1)), too_large)
    yield "a_pair_text_without_end", difference(run(program, ["check", "/dev/zero"]), too_large)


GROUPS = [verdicts, refused, cuts, standard_input, other_texts, limits]
