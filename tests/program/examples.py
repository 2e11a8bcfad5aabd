"""Tests of the files of examples/: traces with their replies, and pairs with their verdicts."""
import os

from .harness import Outcome, difference, refusal, run
from .pairs import status_of

FOLDER = os.path.join(os.path.dirname(os.path.abspath(__file__)), "..", "..", "examples")


def content(name):
    with open(os.path.join(FOLDER, name), "rb") as file:
        return file.read()


def names_of(ending):
    return sorted(name[: -len(ending)] for name in os.listdir(FOLDER) if name.endswith(ending))


def traces(program, _folder):
    names = names_of(".trace")
    for name in names:
        found = run(program, ["play", os.path.join(FOLDER, name + ".trace")])
        yield "example %s" % name, difference(found, Outcome(stdout=content(name + ".replies")))
    yield "there_are_traces", None if names else "no .trace in %s" % FOLDER


def pairs(program, _folder):
    names = names_of(".pair")
    for name in names:
        found = run(program, ["check", os.path.join(FOLDER, name + ".pair")])
        verdict = content(name + ".verdict")
        yield "example %s" % name, difference(found, Outcome(verdict, b"", status_of(verdict.decode())))
    yield "there_are_pairs", None if names else "no .pair in %s" % FOLDER


def played_by_tool(program, _folder):
    """Plays traces by tools/play, which 'make run' calls: one, several, and one that is not there."""
    tool = os.path.join(FOLDER, "..", "tools", "play")
    for names in (["write_while_scanning"], ["refusals", "exactly_full"]):
        heads = [b"== %s.trace\n" % name.encode() if len(names) > 1 else b"" for name in names]
        wanted = b"".join(head + content(name + ".replies") for head, name in zip(heads, names))
        found = run(tool, ["--program", program, *[os.path.join(FOLDER, name + ".trace") for name in names]])
        yield "tools/play %s" % " ".join(names), difference(found, Outcome(stdout=wanted))
    found = run(tool, ["--program", program])
    yield "tools/play", difference(found, Outcome(stdout=content("write_while_scanning.replies")))
    nothing = os.path.join(FOLDER, "nothing.trace")
    found = run(tool, ["--program", program, nothing])
    yield "tools/play of no file", difference(found, refusal("play: there is no file %s" % os.path.abspath(nothing), 1))


GROUPS = [traces, pairs, played_by_tool]
