"""Reads Rattle's code as tokens, without comments, texts and clauses, and finds its functions and the arms of its matches."""
import re

# Each of these words is reserved, so that code has it in clauses alone.
CLAUSES = ("requires", "ensures", "ghost")
TOKEN = re.compile(r"'\w+|\w+|::|=>|->|==|!=|<=|>=|&&|\|\||\S")
LEFT = re.compile(r"\b[bc]?r(?P<hashes>#*)\".*?\"(?P=hashes)|//[^\n]*|/\*.*?\*/|b?\"(?:\\.|[^\"\\])*\"|b?'(?:\\.|[^'\\])'|\b(?:%s)\b" % "|".join(CLAUSES), re.DOTALL)
CLOSING = {"(": ")", "[": "]", "{": "}"}


def blank(text):
    """Returns as many spaces, with the same line feeds."""
    return re.sub(r"[^\n]", " ", text)


def end_of_clause(text, at):
    """Returns where the clause ends that begins here: behind its braces, or behind its semicolon if it is a `ghost` one."""
    depth, ghost = 0, text.startswith("ghost", at)
    for place in range(at, len(text)):
        depth += {"{": 1, "}": -1}.get(text[place], 0)
        if depth == 0 and (text[place] == ";" if ghost else text[place] == "}"):
            return place + 1
    return len(text)


def code_of(text):
    """Returns the text with spaces instead of comments, texts, attributes' texts and clauses."""
    kept, at = [], 0
    found = LEFT.search(text)
    while found:
        end = end_of_clause(text, found.start()) if found.group() in CLAUSES else found.end()
        kept += [text[at:found.start()], blank(text[found.start():end])]
        at = end
        found = LEFT.search(text, at)
    return "".join(kept) + text[at:]


class Arm:
    """An arm of a match: its pattern without the guard, and its body, as places of tokens from and up to."""

    def __init__(self, pattern, body):
        self.pattern = pattern
        self.body = body


class Code:
    """The tokens of a file."""

    def __init__(self, text):
        code = code_of(text)
        found = list(TOKEN.finditer(code))
        self.tokens = [token.group() for token in found]
        self.lines = [code.count("\n", 0, token.start()) + 1 for token in found]
        self.ends = self.brackets()
        self.arms = [arm for at, token in enumerate(self.tokens) if token == "match" for arm in self.arms_of(at)]
        self.heads = [head for head in map(self.head_of, range(len(self.tokens))) if head]

    def brackets(self):
        """Returns the place of each bracket's partner."""
        ends, opened = {}, []
        for at, token in enumerate(self.tokens):
            if token in CLOSING:
                opened.append(at)
            elif token in CLOSING.values() and opened:
                ends[opened.pop()] = at
        return ends

    def until(self, at, end, stops):
        """Returns the first place from `at` on, outside of brackets, that has one of these tokens, or `end`."""
        while at < end and self.tokens[at] not in stops:
            at = self.ends.get(at, at) + 1
        return min(at, end)

    def arms_of(self, at):
        """Yields the arms of the match whose keyword is here."""
        opened = self.until_brace(at + 1)
        end = self.ends.get(opened, len(self.tokens))
        at = opened + 1
        while at < end:
            arrow = self.until(at, end, ("=>",))
            guard = self.until(at, arrow, ("if",))
            body = arrow + 1
            is_block = body < end and self.tokens[body] == "{"
            last = self.ends[body] + 1 if is_block else self.until(body, end, (",",))
            yield Arm((at, guard), (body, last))
            at = last + 1 if last < end and self.tokens[last] == "," else last

    def until_brace(self, at):
        """Returns the first brace from here that is outside of other brackets."""
        while at < len(self.tokens) and self.tokens[at] != "{":
            at = self.ends.get(at, at) + 1
        return at

    def head_of(self, at):
        """Returns the item that begins at this keyword: its keyword, its tokens up to its braces or semicolon, and the end of it."""
        if self.tokens[at] not in ("fn", "impl", "enum", "struct", "trait", "type", "const", "use", "static"):
            return None
        if self.tokens[at] == "fn" and self.tokens[at + 1:at + 2] == ["("]:
            return None  # the type of a pointer to a function
        opened = self.until(at, len(self.tokens), ("{", ";") if self.tokens[at] != "use" else (";",))
        return self.tokens[at], at, opened, self.ends.get(opened, opened)

    def around(self, at, keyword):
        """Returns the innermost item with this keyword that has the token in its braces, or None."""
        found = [head for head in self.heads if head[0] == keyword and head[2] < at < head[3]]
        return max(found, key=lambda head: head[1], default=None)

    def text(self, first, end):
        return " ".join(self.tokens[first:end])
