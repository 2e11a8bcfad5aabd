"""Tests of docs/TUTORIAL.md and of its steps in examples/tutorial: what the page shows is what the steps are and print.

It compares the code that each section shows with the step of the section, and the steps with one another. It builds the steps by gcc and with
sanitizers, compares what they print with the page, and that with what was computed otherwise. It also runs the page's own line, and each question.
"""
import difflib
import glob
import os
import re

from .c_builds import SANITIZERS, TOP, WARNINGS, done, library, usable
from .documents import blocks_of, places_in, text_of
from .harness import Outcome, difference, file_of

PAGE = "docs/TUTORIAL.md"
FOLDER = os.path.join(TOP, "examples", "tutorial")
MOST_WORDS, MOST_LINES = 1400, 260
# The most lines of a step that are not in the next one, and how each step ends. No sanitizer finds a heap that stays open, since a variable has it.
MOST_LOST, END = 12, "    hp_close(&vm);\n    return 0;\n}\n"
SECTION = re.compile(r"(?m)^## Step (\d+): .*\n")
# What the page asks the reader to write: the last code of a question.
QUESTION = re.compile(r"\*\*Question\.\*\* [^`]*\? Write `([^`]+)`( in place of `([^`]+)`)?\.")


def fib(n):
    return n if n < 2 else fib(n - 1) + fib(n - 2)


def words_of(*lengths):
    """Returns how many words objects take that have so many fields."""
    return sum(length + 2 for length in lengths)


# What each step prints, as a form with the number of flips left open. A list of 1,000,000 pairs takes 4,000,000 words. That is more than the heap of
# step 6, and more than that of step 7 may have, which then has as many as it may. A list of 100,000 pairs fits into the latter. Its numbers rise from 1.
PRINTED = {
    1: "42\n",
    2: "%d\n" % (1 + 2 + 3),
    3: "%d\n1\n%d objects, (\\d+) flips, 0 waits\n" % (fib(20), 1000000),
    4: "herbpond\n%d words\n" % words_of(4, 4, 8),
    5: "%g\n0 objects\n" % (0.5 + 1),
    6: "error: not an integer\nerror: out of memory\nherbpond\n%d\n" % fib(20),
    7: "%g\nerror: not an integer\n2\nerror: out of memory\nthe heap has 1000000 words\nherbpond\n%d\n" % (0.5 + 1, fib(20)),
}
# Step 3 allocates 4,000,000 words. Fewer than 100,000 are free after a flip, so there are 39 flips or more. A collection begins once half of the room that
# the flip left is used. The last pair is all that lives, so that half is almost 50,000 words, and there are 80 flips or fewer.
FEWEST_FLIPS, MOST_FLIPS = 39, 80


def answer_text(name):
    """Returns the sentence of gcflip_answers.h about an answer."""
    return re.search(r'case GCFLIP_%s: return "(.*)";' % name, text_of("bindings/c/gcflip_answers.h")).group(1)


def ended(call, answer, printed=""):
    """Returns the outcome of a step whose hook ends it."""
    return Outcome(printed.encode(), ("%s: %s\n" % (call, answer_text(answer))).encode(), 1)


def asked():
    """Returns for each step the code that its question replaces, or None if the page names it, and the outcome."""
    return {
        1: ("hp_get(&vm, 2, 0, 0)", ended("hp_get", "NO_FIELD")),
        2: ("ADD, ADD, PRINT", ended("hp_look", "OUT_OF_RANGE")),
        3: ("GET, 0, INT, 0, NEW_PAIR", ended("hp_reserve", "FULL", "%d\n" % fib(20))),
        4: ("TEXT, 0, TEXT, 1, ADD, PRINT", Outcome(("herbpondpond\n%d words\n" % words_of(4, 4, 8, 4, 12)).encode())),
        5: ("REAL, 0, INT, 1", Outcome(b"1e+300\n2 objects\n")),
        6: (None, Outcome(b"error: not an integer\nerror: out of memory\nherbpond\nerror: stack overflow\n")),
        7: ("MOST_WORDS = 1000000", Outcome(PRINTED[7].replace("error: out of memory\nthe heap has 1", "2\nthe heap has 5").encode())),
    }


# What the page answers at its end, in part.
ANSWERS = {1: [answer_text("NO_FIELD")], 2: [answer_text("OUT_OF_RANGE").partition(":")[0]], 3: [str(fib(20)), "hp_reserve", "full"], 4: ["herbpondpond", "%d words" % words_of(4, 4, 8, 4, 12)],
           5: ["Two"], 6: ["stack overflow"], 7: ["5,000,000 words"]}


# Codes that double a value, and programs for the last step at the edges of what values may be, each with what it prints. An integer is at least -2^61
# and less than 2^61, and 14 doublings of "herb" make 65,536 bytes, which is one more than an object has fields.
TWICE = "GET, 0, GET, 0, ADD, SET, 0, "
AT_EDGES = [
    ("INT, 1, " + 60 * TWICE + "GET, 0, PRINT, HALT", "%d\n" % 2 ** 60),
    ("INT, 1, " + 61 * TWICE + "HALT", "error: the sum has more than 62 bits\n"),
    ("INT, -1, " + 61 * TWICE + "GET, 0, PRINT, HALT", "%d\n" % -2 ** 61),
    ("INT, -1, " + 62 * TWICE + "HALT", "error: the sum has more than 62 bits\n"),
    ("TEXT, 0, " + 2 * TWICE + "GET, 0, PRINT, HALT", 4 * "herb" + "\n"),
    ("TEXT, 0, " + 13 * TWICE + "HALT", ""),
    ("TEXT, 0, " + 14 * TWICE + "HALT", "error: the string is too long\n"),
    ("REAL, 1, REAL, 1, ADD, PRINT, HALT", "%g\n" % (1e300 + 1e300)),
    ("INT, 1, FIRST, HALT", "error: not a pair\n"),
    ("TEXT, 0, REST, HALT", "error: not a pair\n"),
    ("INT, 1, INT, 2, NEW_PAIR, REST, PRINT, HALT", "2\n"),
    ("INT, 1, INT, 2, NEW_PAIR, PRINT, HALT", "error: not an integer\n"),
]


# ---- The page and the files

def sections_of(page):
    """Returns the texts of the sections of a page that are steps, by their numbers. A section ends with the next heading."""
    parts = SECTION.split(page)
    return {int(number): text.partition("\n## ")[0] for number, text in zip(parts[1::2], parts[2::2])}


def steps():
    """Returns the texts of the steps by their numbers."""
    found = {}
    for path in glob.glob(os.path.join(FOLDER, "step*.c")):
        with open(path, encoding="utf-8") as file:
            found[int(re.fullmatch(r"step(\d+)\.c", os.path.basename(path)).group(1))] = file.read()
    return found


def wrong_in_section(section, step):
    """Yields what is wrong with the blocks of a section: code that is at no place or at several of its step, and too few or too many blocks."""
    shown = blocks_of(section, "c")
    for block in shown:
        count = len(places_in(block, step.split("\n")))
        if count != 1:
            yield "a block is at %d places of the step: %s" % (count, block[0])
    if not shown or len(blocks_of(section, "text")) != 1 or len(re.findall("```", section)) != 2 * len(shown) + 2 or len(QUESTION.findall(section)) != 1:
        yield "it needs blocks of C, one block of text, and one question"


def lost_lines(step, following):
    """Returns the lines of a step that are not in the next one."""
    return [line for line in difflib.ndiff(step.split("\n"), following.split("\n")) if line.startswith("- ") and line.strip() != "-"]


def page(_program, _folder):
    """Checks that each section shows code of its step, that each step goes on from the one before, and how long all are."""
    text, found = text_of(PAGE), steps()
    shown = sections_of(text)
    yield "sections and steps", None if sorted(shown) == sorted(found) == sorted(PRINTED) == list(range(1, len(found) + 1)) else "%s and %s" % (sorted(shown), sorted(found))
    yield "words of %s" % PAGE, None if len(text.split()) <= MOST_WORDS else "they are %d" % len(text.split())
    lines = found[len(found)].count("\n")
    yield "lines of the last step", None if lines <= MOST_LINES and "The last one has %d\nlines" % lines in text.replace(" lines", "\nlines") else "they are %d" % lines
    for number, section in sorted(shown.items()):
        yield "section %d of %s" % (number, PAGE), "; ".join(wrong_in_section(section, found[number])) or None
    for number, step in sorted(found.items()):
        yield "step %d closes its heap" % number, None if step.endswith(END) else "it ends otherwise"
    for number in range(1, len(found)):
        lost = lost_lines(found[number], found[number + 1])
        yield "step %d goes on in the next one" % number, None if len(lost) <= MOST_LOST else "it loses %s" % lost


def answers(_program, _folder):
    """Checks that the page answers each question, by words of its outcome."""
    section = text_of(PAGE).partition("\n## Answers\n")[2].partition("\n## ")[0]
    found = dict(re.findall(r"(?m)^(\d+)\. (.*)$", section))
    yield "questions that are answered", None if sorted(map(int, found)) == sorted(asked()) == sorted(ANSWERS) else "they are %s" % sorted(found)
    for number, words in ANSWERS.items():
        missing = [word for word in words if word not in found.get(str(number), "")]
        yield "the page's answer of step %d" % number, None if not missing else "it lacks %s" % missing


def controls(_program, _folder):
    """Checks that wrong sections are found."""
    step = "int a;\nint b;\nint a;\n"
    code, rest = "```c\nint b;\n```\n", "```text\n1\n```\n\n**Question.** What? Write `2`.\n"
    for section, wanted in [(code + rest, 0), (code.replace("b", "c") + rest, 1), (code.replace("b", "a") + rest, 1), (code.replace("int", " int") + rest, 1),
                            (rest, 1), (code, 1), (code + rest + rest, 1), (code.replace("```c", "```") + rest, 1), (code + rest.replace("? Write", "."), 1),
                            (code.replace("int b;", "int a;\nint b;") + code + rest, 0), (code.replace("int b;", "int b;\n\nint a;") + rest, 1)]:
        found = list(wrong_in_section(section, step))
        yield "the section %r" % section, None if len(found) == wanted else "found %s" % found


# ---- Programs

def ways(folder):
    """Returns the ways of building a step that are there: a name and the first words of the command."""
    known = [("gcc", ["gcc", "-O2"]), ("gcc with sanitizers", ["gcc", *SANITIZERS])]
    return [(name, words) for name, words in known if usable(folder, "the tutorial by %s" % name, words)]


def wrong_run(words, text, built, folder, wanted):
    """Builds a step. Returns why it was not built, or why its outcome is not the one that is wanted, or None."""
    program, source = os.path.join(folder, "step"), file_of(folder, "step.c", text.encode())
    made = done([*words, "-std=c11", *WARNINGS, "-I" + os.path.join(built.prefix, "include"), "-o", program, source, *built.archive()])
    return difference(done([program]), wanted) if made.status == 0 else "not built: %s" % made.stderr.decode()


def wrong_output(number, printed):
    """Returns why the output of a step is not what it should be, or None."""
    found = re.fullmatch(PRINTED[number], printed)
    if not found:
        return "wanted %r" % PRINTED[number]
    return None if all(FEWEST_FLIPS <= int(flips) <= MOST_FLIPS for flips in found.groups()) else "%s flips" % found.groups()


def outputs(known, built, folder, shown):
    """Checks what each step prints, which the page shows, for each way of building it."""
    for number, text in sorted(steps().items()):
        printed = "\n".join(blocks_of(shown[number], "text")[0]) + "\n"
        yield "the output of section %d" % number, wrong_output(number, printed)
        for name, words in known:
            yield "step %d by %s" % (number, name), wrong_run(words, text, built, folder, Outcome(printed.encode()))


def questions(words, built, folder, shown):
    """Checks the outcome of each question, for one way of building. What a question asks for is an edit at one place of the step."""
    for number, text in sorted(steps().items()):
        new, _, old = QUESTION.search(shown[number]).groups()
        replaced, outcome = asked()[number]
        old = old or replaced
        yield "the question of step %d" % number, None if text.count(old) == 1 and new not in text else "%r is at %d places" % (old, text.count(old))
        yield "the answer of step %d" % number, wrong_run(words, text.replace(old, new), built, folder, outcome)


def wrong_at_edges(words, text, built, folder):
    """Builds the last step with the programs of AT_EDGES before its own. Returns why its outcome is not the one that is wanted, or None."""
    attempts = "".join("    attempt((const int[]){%s});\n" % codes for codes, _ in AT_EDGES)
    wanted = "".join(printed for _, printed in AT_EDGES) + PRINTED[len(PRINTED)]
    return wrong_run(words, text.replace("    attempt(sum);\n", attempts + "    attempt(sum);\n"), built, folder, Outcome(wanted.encode()))


def line(built, folder):
    """Returns the outcome of the page's line that builds and runs a step, beside the steps and with the installed library."""
    found = re.search(r"(?m)^    (gcc .* && /tmp/step)$", text_of(PAGE))
    if found is None:
        return Outcome(status="there is no such line")
    environment = dict(os.environ, PKG_CONFIG_PATH=os.path.join(built.lib, "pkgconfig"), LD_LIBRARY_PATH=built.lib)
    return done(["bash", "-c", found.group(1).replace("/tmp", folder)], cwd=FOLDER, env=environment)


def programs(_program, folder):
    """Builds each step by gcc and with sanitizers, and checks what it prints, also after the edit of its question. Runs the page's line."""
    built = library(folder)
    if built is None:
        return
    shown, known = sections_of(text_of(PAGE)), ways(folder)
    yield from outputs(known, built, folder, shown)
    for _, words in known[-1:]:
        yield from questions(words, built, folder, shown)
        yield "the last step at the edges of values", wrong_at_edges(words, steps()[len(PRINTED)], built, folder)
    yield "the line of %s" % PAGE, difference(line(built, folder), Outcome(PRINTED[1].encode()))


GROUPS = [page, answers, controls, programs]
