"""Recordings of what programs ask of their heaps, as bench/embedding/record_counts writes them, and the costs of their calls."""
from typing import List, NamedTuple


class Line(NamedTuple):
    """What a program did while it allocated so many words. The steps are those of a collector."""
    words: int   # the words allocated
    most: int    # the most words that one call asked for
    reads: int   # the calls that read, write, move and make
    writes: int
    moves: int
    makes: int
    entries: int     # the entries logged, if a collection is open all the time
    live: int        # the words live at the beginning
    live_steps: int  # the steps that copy them
    added: int       # the steps for those of the objects made here that live at the end


class Program(NamedTuple):
    name: str
    heap: int  # the words of its heap
    lines: List[Line]


class Costs(NamedTuple):
    """The instructions of a call that reads, writes, moves or makes, of a collector step, and of an entry that is applied."""
    read: int
    write: int
    move: int
    make: int
    step: int
    entry: int

    def of_program(self, line):
        """Returns the instructions of the program's own calls in this line."""
        return line.reads * self.read + line.writes * self.write + line.moves * self.move + line.makes * self.make


# The rows of bench/embedding/commands.txt that stand for them.
ROWS = Costs("get_object", "put", "move", "new_2", "step", "apply")


def costs_of(text):
    """Reads the costs from a table such as commands.txt: the first number of each row."""
    rows = dict(line.split()[:2] for line in text.splitlines() if line and not line.startswith("#"))
    return Costs(*(int(rows[row]) for row in ROWS))


def programs_of(text):
    """Reads a recording: for each program a line 'program NAME heap WORDS', and its lines. Raises ValueError for another text."""
    programs = []
    for number, line in enumerate(text.splitlines(), 1):
        words = line.split()
        if line.startswith("#"):
            continue
        if words[:1] == ["program"] and len(words) == 4 and words[2] == "heap":
            programs.append(Program(words[1], int(words[3]), []))
        elif programs and len(words) == len(Line._fields):
            programs[-1].lines.append(Line(*map(int, words)))
        else:
            raise ValueError("line %d is neither a program nor %d counts" % (number, len(Line._fields)))
    return programs
