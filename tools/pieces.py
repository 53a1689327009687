"""Takes code without comments apart: where in its tokens each item begins and ends, and where its block is."""

import collections
import re

# what an item is, by its keyword; its name; whether others can name it; where it begins, where its block does, or its `;`
# stands, and where it ends; and the parts of it that don't count
Piece = collections.namedtuple("Piece", "kind name public start block end cuts")
LEXEME = re.compile(
    r"""\s*(?:(?:b|c)?r(?P<hashes>\#*)".*?"(?P=hashes)
    |(?:b|c)?"(?:[^"\\]|\\.)*"
    |'(?:[^'\\\n]|\\(?:x[0-9a-fA-F]{2}|u\{[0-9a-fA-F_]+\}|.))'
    |\w+|.)""",
    re.X | re.S,
)
PAIRS = {"(": ")", "[": "]", "{": "}"}
CLAUSES = ("requires", "ensures", "ghost")
BEFORE = ("unsafe", "async", "final", "extern", "default")  # what may stand before `fn`, `impl` and `trait`
UNSEEN = ("tactic", "inline", "cold")  # attributes that change no contract


class Unread(Exception):
    """A text that can't be read for sure."""


class Code:
    """The tokens of code without comments, each also with the blank before it, and where each bracket closes."""

    def __init__(self, text):
        self.raw = [found.group() for found in LEXEME.finditer(text)]
        self.tokens, self.closes, opened = [it.lstrip() for it in self.raw], {}, []
        for at, token in enumerate(self.tokens):
            if token in PAIRS:
                opened.append(at)
            elif token in PAIRS.values():
                if not opened or PAIRS[self.tokens[opened[-1]]] != token:
                    raise Unread
                self.closes[opened.pop()] = at
        if opened:
            raise Unread

    def __getitem__(self, at):
        return self.tokens[at] if at < len(self.tokens) else ""

    def after(self, at):
        """The place after a token, or after the bracket that it opens."""
        return self.closes.get(at, at) + 1

    def text(self, start, end, cuts=()):
        """The text from a place to another, without some parts."""
        left = [self.raw[at] for at in range(start, end) if not any(begin <= at < close for begin, close in cuts)]
        return "".join(left).strip()

    def until(self, at, end, stops, angles=True):
        """The first of some tokens that stands in no bracket, nor, in a type, between < and >."""
        depth = 0
        while at < end:
            token = self.tokens[at]
            if depth == 0 and token in stops:
                return at
            if angles and token == "<":
                depth += 1
            elif angles and token == ">" and self.tokens[at - 1] not in ("-", "="):
                depth -= 1
            at = self.after(at)
        raise Unread

    def block_of_function(self, at, end):
        """Where the block of a function begins, or its `;` stands: the block is the first that belongs to no clause."""
        stops = (*CLAUSES, "{", ";")
        at = self.until(at, end, stops)
        while self.tokens[at] in CLAUSES:
            at = self.after(self.until(at, end, ("{",), False))
            at = self.until(at, end, stops, False)
        return at

    def piece(self, at, end):
        """The item that begins at a place."""
        start, cuts = at, []
        while self[at] == "#":
            inner = self[at + 1] == "!"
            bracket, close = at + 1 + inner, self.after(at + 1 + inner)
            if inner:
                return Piece("inner", self[bracket + 1], False, start, close - 1, close, cuts)
            if self[bracket + 1] in UNSEEN:
                cuts.append((at, close))
            at = close
        public = self[at] == "pub" and self[at + 1] != "("
        if self[at] == "pub":
            at = at + 1 if public else self.after(at + 1)
        constant = self[at] == "const" and self[at + 1] in ("fn", *BEFORE)
        at += constant
        while self[at] in BEFORE or self[at].startswith('"') or self[at] == "ghost" and self[at + 1] == "use":
            at += 1
        kind, name = self[at], self[at + 1]
        if kind == "fn":
            block = self.block_of_function(at + 2, end)
            kind = "constant function" if constant else kind
        elif kind in ("struct", "enum", "union", "trait", "impl", "mod"):
            block = self.until(at + 1, end, ("{", ";"))
        elif kind in ("use", "type", "const", "static", "ghost"):
            block = self.until(at, end, (";",), False)
        elif kind == "macro_rules" and name == "!":
            block, name = at + 3, self[at + 2]
        else:
            raise Unread
        return Piece(kind, name, public, start, block, self.after(block), cuts)

    def pieces(self, at, end):
        """The items from a place to another."""
        found = []
        while at < end:
            if self.tokens[at] == ";":
                at += 1
            else:
                found.append(self.piece(at, end))
                at = found[-1].end
        return found

    def inner(self, piece):
        """The items in the block of one."""
        return self.pieces(piece.block + 1, self.closes[piece.block]) if piece.block in self.closes else []

    def of_impl(self, piece):
        """The trait of an `impl`, or nothing, its type, as far as these are paths, and its parameters."""
        at, params, depth = self.tokens.index("impl", piece.start) + 1, set(), 0
        while depth or self[at] == "<":
            token, before = self[at], self[at - 1]
            if depth == 1 and before in ("<", ",", "const"):
                params.add(token)
            depth += (token == "<") - (token == ">" and before not in ("-", "="))
            at = self.after(at)
        ends = self.until(at, piece.block + 1, ("for", "where", "{", ";"))
        trait, of = (self.name(at), self.name(ends + 1)) if self[ends] == "for" else ("", self.name(at))
        return segments(trait)[-1], "" if of in params else of, params

    def name(self, at):
        """The path that begins at a place."""
        begin = at
        while self[at + 1] == self[at + 2] == ":":
            at += 3
        return "".join(self.tokens[begin : at + 1]) if self[at].isidentifier() else ""


def segments(path):
    """The parts of a path."""
    return re.split(r"::|\.", path.partition(" as ")[0])
