"""Tests of the documents that need nothing built: what they cite exists, and what they quote is in the code.

What needs the program, the library or a verdict is in documents_built.

It tests names and files that documents cite; jobs, notions and words in ARCHITECTURE and GLOSSARY; numbers that two documents tell; code that they
quote; what stands on README's first screen, and that its C is in an example; how many words pages have; the adapter of CERTIFY, line for line; what
CI may skip; docs/DEFINITIONS.md; the counts of TRUST; definitions that no public contract reaches; the products of TRUST. It needs nothing
built, and takes five seconds.
"""
import contextlib
import functools
import glob
import importlib.machinery
import importlib.util
import io
import os
import re

from prover import notions
from prover.axioms import PRODUCTS, counts_in, lines_to_keep
from prover.crates import TOP, crates_listed
from prover.decisions import anchor

from .harness import Skipped, skips_listed, wrong_skips

SOURCES = (".rt", ".antt", ".edit", ".py", ".c", ".txt")
WORD = re.compile(r"[A-Za-z_]\w{3,}")
# The languages of code that documents quote, and the endings of the files that it may come from.
QUOTED = {"rust": (".rt", ".rs"), "antt": (".rt", ".antt"), "c": (".c", ".h")}
# Arguments in usage lines, and names of things outside the repository.
FOREIGN = {"CRATE", "DESTDIR", "EDIT", "FUNCTION", "GROUP", "KIND", "MODULE", "PATH", "PROGRAM", "SLOT", "TURNS", "WHAT_IS_WRONG",
           "dac8208d650f15bf", "rattle", "try_lock"}


def documents():
    """Returns the paths of all documents, from the top of the repository."""
    found = []
    for path, folders, files_there in os.walk(TOP):
        folders[:] = [name for name in folders if name != "out" and not name.startswith(".")]
        found += [os.path.relpath(os.path.join(path, name), TOP) for name in files_there if name.endswith(".md")]
    return sorted(found)


def text_of(document):
    with open(os.path.join(TOP, document), encoding="utf-8") as file:
        return file.read()


def blocks(document, language):
    """Returns the lines of each fenced block of this language in a document."""
    return blocks_of(text_of(document), language)


def blocks_of(text, language):
    """Returns the lines of each fenced block of this language in a text."""
    found, current = [], None
    for line in text.split("\n"):
        if line.startswith("```"):
            if current is not None:
                found.append(current)
            current = [] if current is None and line == "```" + language else None
        elif current is not None:
            current.append(line)
    return found


@functools.lru_cache(maxsize=None)
def sources():
    """Returns the paths of all sources of the repository, with their texts. Reads them once."""
    return list(sources_below_top())


def sources_below_top():
    for folder in ("crates", "tests", "bench", "bindings", "examples", "tools"):
        for path, folders, names in os.walk(os.path.join(TOP, folder)):
            folders[:] = [name for name in folders if name not in ("out", "__pycache__")]
            for name in names:
                whole = os.path.join(path, name)
                if name.endswith(SOURCES) or folder != "crates":
                    with open(whole, encoding="utf-8", errors="replace") as file:
                        yield whole, file.read()


# ---- names

def cited_names(document):
    """Yields the names in backquotes of a document, with their line numbers. Commands of the toolchain are left out."""
    for number, line in enumerate(text_of(document).split("\n"), 1):
        for quoted in re.findall(r"`([^`]+)`", line):
            if not re.search(r"\brt ", quoted):
                for name in WORD.findall(quoted):
                    yield number, name


def names(_program, _folder):
    known = set(FOREIGN)
    for path in documents() + os.listdir(os.path.join(TOP, "examples")):
        known.update(WORD.findall(path))
    for path, text in sources():
        known.update(WORD.findall(path))
        known.update(WORD.findall(text))
    for document in documents():
        missing = ["%s (line %d)" % (name, number) for number, name in cited_names(document) if name not in known]
        yield "names of %s" % document, ", ".join(missing) or None


# ---- words

# Phrases that readers stumble over, and what to write instead.
STUMBLED_OVER = {
    "want of memory": "out of memory",
    "memory is wanting": "an allocation fails",
    "takes no memory": "does not allocate",
    "take no memory": "do not allocate",
    "always answer": "cannot fail",
    "made again": "retried",
    "is carried over": "is copied",
    "are carried over": "are copied",
    "hands out": "returns",
    "hands back": "returns",
    "handed back": "returned",
    "that there is not": "that does not exist",
    "that there isn't": "that does not exist",
    "as it is told": "as it stands",
    "the merge gate": "CI",
    "of up to 8 MiB, which up to 16 clients": "Up to 16 clients (mutators) share one heap",
    "while the mutators run: a few": "interleaved with the mutators: a few",
    "proved of the code": "proved for",
    "trust a flip by the checker's theorem alone": "so that trusting a flip requires only the checker's theorem",
    "contract whose conditions no call can meet": "every contract can be met by some call",
    "no object outside these pairs": "no further pair",
}


def words(_program, _folder):
    headers = sorted(os.path.relpath(path, TOP) for path in glob.glob(os.path.join(TOP, "bindings", "c", "*.h")))
    for document in documents() + headers:
        # A comment of C has a star at the head of each line.
        text = " ".join(re.sub(r"(?m)^ \*", "", text_of(document)).split())
        found = ["'%s': write '%s'" % pair for pair in STUMBLED_OVER.items() if pair[0] in text]
        yield "words of %s" % document, ", ".join(found) or None


# ---- files

def cited_files(document):
    """Yields the files that a document names: the name as written, and the path from the top. Anchors are cut off."""
    for target in re.findall(r"\]\(([^)#\s]+)[^)]*\)", text_of(document)):
        if "://" not in target:
            yield target, os.path.join(os.path.dirname(document), target)
    for quoted in re.findall(r"`([\w.*-]+(?:/[\w.*-]+)+/?)`", text_of(document)):
        if not re.search(r"\b[A-Z_]{3,}\b", quoted):
            yield quoted, quoted


def is_file(path):
    """Returns whether the path names a file from the top, below crates/ or in a crate. The ending of a file of definitions
    may be left out. Files in out/ need not exist, since a build makes them."""
    if "out" in path.split("/"):
        return True
    folders = ["", "crates", "crates/*"]
    return any(glob.glob(os.path.join(TOP, folder, path) + ending) for folder in folders for ending in ("", ".antt"))


def files(_program, _folder):
    for document in documents():
        folder = os.path.dirname(document)
        missing = [shown for shown, path in cited_files(document) if not is_file(path) and not is_file(os.path.join(folder, path))]
        yield "files of %s" % document, ", ".join(missing) or None


# ---- anchors

LINKED = re.compile(r"\]\(([^)#\s]*)#([^)\s]+)\)")


def anchors_of(text):
    """Returns the anchors of a document's headings. A heading that stands there before gets a number."""
    found = []
    for heading in re.findall(r"(?m)^#+ (.*)$", re.sub(r"(?ms)^```.*?^```", "", text)):
        name = anchor(re.sub(r"\[([^\]]*)\]\([^)]*\)", r"\1", heading))
        found.append(name if name not in found else "%s-%d" % (name, found.count(name)))
    return found


def lost_anchors(text, own, read):
    """Yields the anchors of a document's links that their targets do not have. `own` is its path, and `read` returns the text of a path or None."""
    for path, name in LINKED.findall(re.sub(r"(?ms)^```.*?^```", "", text)):
        if "://" not in path and (path.endswith(".md") or not path):
            target = read(os.path.normpath(os.path.join(os.path.dirname(own), path))) if path else text
            if target is None or name not in anchors_of(target):
                yield "%s#%s" % (path, name)


def anchors(_program, _folder):
    """Checks that each link to a heading leads to one."""
    for document in documents():
        yield "anchors of %s" % document, ", ".join(lost_anchors(text_of(document), document, text_or_none)) or None
    texts = {"b.md": "# Two words, `code`\n\n## Twice\n\n## Twice\n"}
    for link, wanted in [("b.md#two-words-code", []), ("b.md#twice-1", []), ("b.md#twice-2", ["b.md#twice-2"]), ("c.md#twice", ["c.md#twice"]), ("#own", []), ("#two", ["#two"])]:
        found = list(lost_anchors("# Own\n\n[a](%s)\n" % link, "a.md", texts.get))
        yield "the link %s" % link, None if found == wanted else "found %s" % found


def text_or_none(path):
    return text_of(path) if os.path.exists(os.path.join(TOP, path)) else None


# ---- names of calls

# What calls on a heap for C were named before they said what they do, and the documents that speak of these calls. Their tables may have these
# words for other things.
OLD_NAMES = {"new", "raw", "cons", "num", "nil", "begin", "begin_sized", "roots", "scan", "apply", "flip", "drop"}
SPEAK_OF_C = ["docs/EMBEDDING.md", "docs/CERTIFY.md", "bench/embedding/README.md", "examples/certify/README.md", "examples/lisp/README.md",
              "examples/long_objects/README.md"]


def old_names(_program, _folder):
    """Checks that documents name the calls for C by the names that they have."""
    for document in SPEAK_OF_C:
        lines = [(number, line) for number, line in enumerate(text_of(document).split("\n"), 1) if not line.startswith("|")]
        found = ["%s (line %d)" % (name, number) for number, line in lines for name in re.findall(r"`(\w+)`", line) if name in OLD_NAMES]
        yield "names of C's calls in %s" % document, ", ".join(found) or None


# ---- quoted code

def pieces(block):
    """Returns the texts of a block between its lines '// ...', with single spaces for all other white space."""
    return [" ".join(piece.split()) for piece in "\n".join(block).split("// ...")]


def quotes(_program, _folder):
    """The code that the documents show is in the sources."""
    for language, endings in QUOTED.items():
        texts = [" ".join(text.split()) for path, text in sources() if path.endswith(endings)]
        for document in documents():
            found = blocks(document, language)
            missing = [piece[:60] for block in found for piece in pieces(block) if not any(piece in text for text in texts)]
            if found:
                yield "%s of %s" % (language, document), "in no source: %s" % ", ".join(missing) if missing else None


def names_in_c(_program, _folder):
    """Checks that the library's names in blocks of C are in the headers."""
    known = {name for path, text in sources() if path.endswith(".h") for name in WORD.findall(text)}
    for document in documents():
        used = {name for block in blocks(document, "c") for name in re.findall(r"\b(?:gcflip|GCFLIP)_\w+", "\n".join(block))}
        if used:
            yield "C of %s" % document, ", ".join(sorted(used - known)) or None


# Variables that calls write to, declared without a value. A member of a struct has none.
UNINITIALIZED = re.compile(r"(?m)^ *(?:gcflip_(?:verdict|view|work|counts|log_entry)) \w+;")
STRUCT = re.compile(r"struct \w* *\{[^{}]*\}")


def uninitialized(text):
    return UNINITIALIZED.findall(STRUCT.sub("", text))


def outputs_in_c(_program, _folder):
    """Checks that the examples and the documents initialize the structs that calls write to, as the headers require."""
    shown = [(document, "\n".join(line for block in blocks(document, "c") for line in block)) for document in documents()]
    files_of_c = [os.path.join("bindings", "c", "examples", "*.c"), os.path.join("bindings", "c", "*.h"), os.path.join("examples", "*", "*.c"),
                  os.path.join("bench", "**", "*.c")]
    for pattern in files_of_c:
        for path in sorted(glob.glob(os.path.join(TOP, pattern), recursive=True)):
            with open(path, encoding="utf-8") as file:
                shown.append((os.path.relpath(path, TOP), file.read()))
    found = ["%s: %s" % (path, line.strip()) for path, text in shown for line in uninitialized(text)]
    yield "structs of C are initialized", ", ".join(found) or None
    yield "a struct without a value is found", None if uninitialized("struct a {\n    int b;\n};\n    gcflip_view view;\n") else "it is not"
    yield "a member of a struct has no value", "one is found" if uninitialized("struct a {\n    gcflip_view view;\n};\n") else None


def compiling_line(document):
    """Returns the line of a document that compiles and starts an example of C, and the path of the example. Both are None if there is no line."""
    found = re.search(r"(?m)^    (cc .*(bindings/c/examples/\w+\.c).*) && (\./\w+)$", text_of(document))
    return (found.group(0).strip(), found.group(2)) if found else (None, None)


def c_of_readme(_program, _folder):
    """Checks that the program which README's line compiles has the code that README shows."""
    source = compiling_line("README.md")[1]
    code = " ".join(text_of(source).split()) if source else ""
    missing = [piece[:60] for block in blocks("README.md", "c") for piece in pieces(block) if piece not in code]
    yield "C of README.md is in %s" % source, ", ".join(missing) or None


# The page with a whole adapter, the lines of its file between which the adapter is, and the most lines that it may have.
CERTIFY, ADAPTER_BEGINS, ADAPTER_ENDS, MOST_ADAPTER_LINES = "docs/CERTIFY.md", "/* ---- The adapter. */", "/* ---- The program. */", 150


def places_in(block, lines):
    """Returns the places at which the block is a run of these lines."""
    return [at for at in range(len(lines) - len(block) + 1) if lines[at:at + len(block)] == block]


def wrong_in_adapter(shown, lines):
    """Yields what is wrong with blocks of C that show an adapter line for line: a block that is in the file at no place or at several, and the first
    line of the adapter that the blocks do not show in order."""
    begin, end = lines.index(ADAPTER_BEGINS), lines.index(ADAPTER_ENDS)
    found = []
    for block in shown:
        places = places_in(block, lines)
        if len(places) != 1:
            yield "a block is at %d places of the file: %s" % (len(places), block[0])
        elif begin < places[0] < end:
            found += [line for line in block if line]
    wanted = [line for line in lines[begin + 1:end] if line]
    if found != wanted:
        differing = next((line for line, other in zip(wanted, found) if line != other), wanted[len(found)] if len(found) < len(wanted) else "")
        yield "the blocks do not show the adapter in order, from: %s" % differing


def adapter_shown(_program, _folder):
    """Checks that docs/CERTIFY.md shows its adapter line for line, and says how many lines it has."""
    shown, source = blocks(CERTIFY, "c"), compiling_line(CERTIFY)[1]
    if source is None:
        yield "the adapter of %s" % CERTIFY, "there is no line that compiles it"
        return
    lines = text_of(source).split("\n")
    yield "the adapter of %s" % CERTIFY, "; ".join(wrong_in_adapter(shown, lines)) or None
    count = lines.index(ADAPTER_ENDS) - lines.index(ADAPTER_BEGINS) - 3 # an empty line is on either side
    said = re.search(r"all (\d+) lines of the adapter", " ".join(text_of(CERTIFY).split()))
    yield "lines of the adapter", None if said and int(said.group(1)) == count <= MOST_ADAPTER_LINES else "they are %d" % count
    begun = next(number for number, block in enumerate(shown) if places_in(block, lines)[:1] > [lines.index(ADAPTER_BEGINS)])
    changed = [block[:-1] + [block[-1] + " "] if number == begun else block for number, block in enumerate(shown)]
    for what, other in [("changed", changed), ("left out", shown[:begun] + shown[begun + 1:]), ("in another order", shown[:begun] + shown[:begun - 1:-1])]:
        yield "a block that is %s is found" % what, None if list(wrong_in_adapter(other, lines)) else "it is not"


# What README's first screen has, in this order, and how many lines it is.
FIRST_SCREEN = ["is the project", "](docs/pictures/pauses.svg)", "make run", "make test", "What is proved", "**standing checker**", "**whole check**", "`whole_each`", "when not to use it"]
FIRST_LINES = 30


def first_screen(_program, _folder):
    """Checks that README says within its first lines what Herbpond is, how to run it, what is proved and which checker is the default where, with limits
    and tables behind."""
    whole = text_of("README.md")
    lines = whole.split("\n")[:FIRST_LINES]
    places = ["\n".join(lines).find(part) for part in FIRST_SCREEN]
    yield "first screen of README.md", None if -1 not in places and places == sorted(places) else "places %s of %s" % (places, FIRST_SCREEN)
    yield "no table on the first screen", None if not any(line.startswith("|") for line in lines) else "there is one"
    yield "C before the tables", None if -1 < whole.find("```c\n") < whole.find("\n|") else "a table comes first"


# How many words a page may have, and README and docs together without CERTIFY, which shows a whole adapter. Pages that a tool makes are no part of the sum.
MOST_WORDS, MOST_IN_ALL = {"README.md": 1300, "docs/EMBEDDING.md": 3000, CERTIFY: 8000}, 39000
MADE = re.compile(r"`tools/\w+ --write` makes this (?:page|list)")


def counted_words(texts):
    """Returns how many words texts have together, without those that say at their head that a tool makes them."""
    return sum(len(text.split()) for text in texts if not MADE.search(text.partition("\n## ")[0]))


def page_lengths(_program, _folder):
    """Checks how many words README and the pages of docs have."""
    for page, most in MOST_WORDS.items():
        count = len(text_of(page).split())
        yield "words of %s" % page, None if count <= most else "they are %d" % count
    count = counted_words(text_of(page) for page in documents() if page == "README.md" or page.startswith("docs/") and page != CERTIFY)
    yield "words of README and docs", None if count <= MOST_IN_ALL else "they are %d" % count
    found = counted_words(["# A\n\n`tools/calls --write` makes this page.\n\n## B\n\nmore", "# A\n\ntwo words\n\n## `tools/calls --write` makes this page"])
    yield "a page that a tool makes is not counted", None if found == 10 else "they are %d" % found


# ---- commands

def shown_commands(document):
    """Yields the commands of a document's console blocks, each with the output that is shown."""
    for block in blocks(document, "console"):
        command, output = None, []
        for line in block + ["$ "]:
            if line.startswith("$ "):
                if command is not None:
                    yield command, "".join(shown + "\n" for shown in output)
                command, output = line[2:], []
            else:
                output.append(line)


def commands_of_tables(_program, _folder):
    """Skips the commands of README that take too long, which tests/skips.txt lists, and checks that README still shows them."""
    shown = text_of("README.md")
    for name, why in skips_listed().items():
        document, _, command = name.partition(": ")
        if document == "README.md":
            yield name, Skipped(why) if "`%s`" % command in shown else "README does not show it"


# Skipped cases, the listed ones, whether CI runs, and which of the cases fail for that.
SKIPS = [(["a"], {}, True, ["a"]), (["a"], {}, False, []), (["a"], {"a": "it is slow"}, True, []), (["a", "b", "b"], {"a": "it is slow"}, True, ["b"])]


def skips(_program, _folder):
    """Checks that CI fails where a case is skipped that tests/skips.txt does not list."""
    for names_skipped, listed, in_ci, wanted in SKIPS:
        found = list(wrong_skips(names_skipped, listed, in_ci))
        yield "skipped %s of %s, in CI: %s" % (names_skipped, list(listed), in_ci), None if found == wanted else "found %s" % found


# ---- definitions

@functools.lru_cache(maxsize=None)
def definitions_tool():
    """Returns tools/definitions as a module, which reads the definitions once for all its runs."""
    loader = importlib.machinery.SourceFileLoader("definitions_tool", os.path.join(TOP, "tools", "definitions"))
    tool = importlib.util.module_from_spec(importlib.util.spec_from_loader(loader.name, loader))
    loader.exec_module(tool)
    return tool


@functools.lru_cache(maxsize=None)
def printed_by_definitions(*words):
    """Runs tools/definitions, and returns its status and its output."""
    out = io.StringIO()
    with contextlib.redirect_stdout(out):
        status = definitions_tool().main(list(words))
    return status, out.getvalue()


def definitions(_program, _folder):
    status, printed = printed_by_definitions("--unreached")
    yield "definitions are reached", None if status == 0 else printed


# Changes of the committed page of definitions that have to be found: what is replaced, and by what.
CHANGED = [("another comment", "The object graph that a mutator sees", "The graph that a mutator sees"), ("another count", "| gc_heap | 78 | 8 |", "| gc_heap | 78 | 9 |"),
           ("another count of a product", "| gc_pace | 0 | 193 |", "| gc_pace | 0 | 191 |"), ("another count of calls", "`gcflip_infer`, `gcflip_path` | 28 |", "`gcflip_infer`, `gcflip_path` | 82 |"),
           ("a row that is left out", re.compile(r"(?m)^\| `gc_graph/specs/Graph` .*\n"), ""),
           ("rows in another order", re.compile(r"(?m)^(\| `gc_graph/specs/Graph` .*\n)(\| .*\n)"), r"\2\1")]


def definitions_page(_program, _folder):
    """Compares docs/DEFINITIONS.md with the page that tools/notions makes, and tries changes of it."""
    shown = text_of("docs/DEFINITIONS.md")
    yield "docs/DEFINITIONS.md", "; ".join(notions.faults(shown)) or None
    for what, old, new in CHANGED:
        changed = old.sub(new, shown, count=1) if isinstance(old, re.Pattern) else shown.replace(old, new, 1)
        yield "%s is found" % what, None if changed != shown and list(notions.faults(changed)) else "it is not"


def counts(_program, _folder):
    """Compares the counts of lines in docs/TRUST.md with those of the tool."""
    _, printed = printed_by_definitions("--of", "Replicated")
    counted = {tuple(line.split()) for line in printed.split("\n")[:-2]}
    shown = set(re.findall(r"(?m)^ *\| `([\w/]+)` \| (\d+) \|", text_of("docs/TRUST.md")))
    yield "lines of the theorem's files", None if counted == shown else "differ in %s" % sorted(counted ^ shown)
    for name, pattern in [("", r"(\d+) lines of definitions"), ("Replicated", r"definitions behind the theorem\*\*: (\d+) lines")]:
        _, printed = printed_by_definitions(*(["--of", name] if name else []))
        wanted = printed.split("\n")[-2].split()[1]
        found = re.search(pattern, text_of("docs/TRUST.md"))
        yield "lines of %s" % (name or "all definitions"), None if found and found.group(1) == wanted else "they are %s" % wanted


# Crates with definitions that no contract of the checker for C reaches.
BESIDE_THE_CHECKER = {"gc_monitor", "gc_bytes", "gc_collected", "gc_copy", "gc_heap", "gc_pace", "gc_model", "gc_roots", "gc_trace", "gc_world", "gcflip_heap_c"}


def lines_by_file(printed):
    """Returns the files that tools/definitions printed, with the number of lines that count in each."""
    return {file: int(count) for file, count in (line.split() for line in printed.split("\n")[:-2])}


def products(_program, _folder):
    """Checks that the checker for C reaches the whole theorem and the texts' first faults, and nothing of the collector."""
    reached = lines_by_file(printed_by_definitions("--products", "gcflip_c")[1])
    wanted = lines_by_file(printed_by_definitions("--of", "Replicated")[1])
    wanted.update(lines_by_file(printed_by_definitions("--of", "IsPairFaultOf")[1]))
    missing = [file for file, count in wanted.items() if reached.get(file, 0) < count]
    yield "the checker for C reaches the theorem and the faults of a text", "not all of %s" % missing if missing or not wanted else None
    beside = [file for file in reached if file.split("/")[0] in BESIDE_THE_CHECKER]
    yield "the checker for C reaches nothing of the collector", ", ".join(beside) or None


# ---- docs/ARCHITECTURE.md, and what documents say twice

def rows_behind(document, heading):
    """Returns the cells of each row of the first table behind a heading of a document."""
    table = re.search(r"(?m)^\|.*\n\|---.*\n((?:\|.*\n)+)", text_of(document).partition(heading)[2]).group(1)
    return [line.strip("|").split(" | ") for line in table.split("\n") if line]


def architecture(_program, _folder):
    """Checks that docs/ARCHITECTURE.md has a job for each crate, and that it and the READMEs tell the number of functions with raw pointers."""
    jobs = {cells[-2].strip(" |"): cells[-1:] for cells in rows_behind("docs/ARCHITECTURE.md", "# Architecture")}
    wrong = [crate for crate in crates_listed() if not (len(jobs.get(crate, [])) == 1 and re.search(r"[a-z]{2}", jobs[crate][0]))]
    yield "jobs of crates", ", ".join(wrong) or None
    for path in ("gcflip_heap_c/src/handle.rt", "gcflip_beside_c/src/handle.rt", "gc_in_c/src/parts.rt"):
        bodies = re.split(r"\bfn \w+", text_of(os.path.join("crates", path)))[1:]
        count = ["no", "one", "two", "three", "four", "five", "six", "seven", "eight", "nine"][len([body for body in bodies if re.search(r"\bat\b", body)])]
        told = {"parts.rt": ("Its %s calls use raw pointers", "in %s of gc_in_c")}.get(os.path.basename(path), ("%s functions", "%s functions of each"))
        for document, words in zip((os.path.join("crates", path.partition("/")[0], "README.md"), "docs/ARCHITECTURE.md"), told):
            yield "functions with raw pointers of %s in %s" % (path, document), None if words % count in text_of(document) else "they are %s" % count


# Words that the documents use in one sense, beside those that README and docs/EMBEDDING.md introduce.
IN_ONE_SENSE = {"extra root", "frame", "monitor", "pace", "room", "standing checker", "snapshot"}


def glossary(_program, _folder):
    """Checks that docs/GLOSSARY.md has each word that README and docs/EMBEDDING.md introduce, and others."""
    known = {word.strip() for cells in rows_behind("docs/GLOSSARY.md", "# Glossary") for word in re.sub(r"\(.*?\)", "", cells[0]).split(",")}
    words_in = {word for document in ("README.md", "docs/EMBEDDING.md") for word in re.findall(r"(?<![*\w])\*([a-z][a-z ]+)\*(?!\*)", text_of(document))}
    missing = [word for word in sorted(words_in) if not {word, word.rstrip("s"), word.split(" ")[-1]} & known]
    yield "words of docs/GLOSSARY.md", ", ".join(missing + sorted(IN_ONE_SENSE - known)) or None


def told_again(_program, _folder):
    """Compares numbers that documents tell again with the tables that they come from. No document quotes a verdict's count of functions."""
    ratios = [cells[3].strip() for cells in rows_behind("bench/README.md", "## Pairs that are inferred")]
    told = "takes %s to %s times as long" % (min(ratios), max(ratios))
    yield "inferred pairs in examples/certify/README.md", None if told in text_of("examples/certify/README.md") else "it does not say that a check %s" % told
    rows = dict(line.split()[:2] for line in text_of("bench/embedding/commands.txt").split("\n") if line.startswith("get_"))
    told = "a `get` takes %s to %s" % (rows["get_object"], rows["get_number"])
    for document in ("docs/decisions/speed.md", "bench/embedding/README.md"):
        yield "instructions of a get in %s" % document, None if told in " ".join(text_of(document).split()).replace("A `get`", "a `get`") else "it does not say that %s" % told
    quoted = [document for document in documents() if re.search(r"functions=\d", text_of(document))]
    yield "counts of functions", ", ".join(quoted) or None


# ---- axioms

# What a prover prints of a program: its tests' verdict comes first.
PRINTED = """axioms libc: libc::a, libc::b, libc::c, ... (9 of the 40 declared)
logic=proved functions=3 axioms=9 tests=2 sum=0
fn low: proved
axioms libc: libc::a, libc::b, libc::c, ... (4 of the 40 declared)
axioms os: os::a (1 of the 20 declared)
axioms std: none reached of the 2 declared
logic=proved functions=7 axioms=5 target=x86-64 sum=0
"""


def axioms(_program, _folder):
    """Checks that the table of docs/TRUST.md has a row for each product, and that a verdict is read rightly."""
    rows = re.findall(r"(?m)^\| `(\w+)`, [^|]* \| \d+ \| [^|]* \|$", text_of("docs/TRUST.md"))
    yield "products of docs/TRUST.md", None if rows == list(PRODUCTS) else "they are %s" % rows
    lines = "\n".join(lines_to_keep(PRINTED)) + "\n"
    for old, new, wanted in [("", "", ({"libc": 4, "os": 1}, None)), ("(4 of", "(3 of", "its axioms are"), ("logic=proved", "logic=not-proved", "it has no verdict"),
                             ("axioms os", "axiom os", "its axioms are"), ("logic=", "logics=", "it has no verdict")]:
        found = counts_in(lines.replace(old, new))
        is_right = found == wanted if old == "" else found[1] is not None and found[1].startswith(wanted)
        yield "a verdict with %r" % new, None if is_right else "found %s" % (found,)


GROUPS = [names, words, files, anchors, old_names, quotes, names_in_c, outputs_in_c, c_of_readme, adapter_shown, first_screen, page_lengths,
          commands_of_tables, skips, definitions, definitions_page, counts, products, architecture, glossary, told_again, axioms]
