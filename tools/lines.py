#!/usr/bin/env python3
"""lines.py [--check] [CRATE ..]: breaks lines of the crates that are wider than 120 columns; --check only names them,
and the files that `rt fmt` lays out otherwise, for which `rt ci` would refuse the crate.

A line of an .antt file is broken where it has a space, outermost first, before an operator or an argument and never in
a text. A comment of whole lines goes on in the next line, a long list of a `use` line in a second `use` line of that
module. Nothing is joined, and no token changes: a file whose words would be others is left as it was, and named. Then
`rt fmt` lays out the crate, where there is an `rt`: it sets the indentation, and puts the parts of a tuple, a record or
of cases that are broken on lines of their own. In a .rt file comments, clauses and `ghost use` lines alone are broken,
and no `///` where clap reads it.

The status is 1 if a line stays too wide; it is named. So are files that were left.
"""
import concurrent.futures
import re
import shutil
import subprocess
import sys
import tempfile
from pathlib import Path

TOP = Path(__file__).resolve().parent.parent
WIDTH = 120
DEEPER = 4  # how much further in a line goes on
PASSES = 8  # rt fmt may set a line further in than was planned: then it is broken again

OPENING, CLOSING = "([{⟨⟦", ")]}⟩⟧"
TOKEN = re.compile(r'"(?:\\.|[^"\\])*"|[()\[\]{}⟨⟩⟦⟧,;"]|[^\s()\[\]{}⟨⟩⟦⟧,;"]+')
USE = re.compile(r"((?:pub |unfoldable |ghost )*use [\w.]+\{)(.*)(\};?)$")
CLAUSE = re.compile(r"\s*(ensures|requires|ghost \w+ =)[^{]*\{ ")
COMMENT = re.compile(r"\s*(--|///|//!|//)( +|$)")
# What a break costs by what stands behind it or before it. DEPTH is added for each bracket around it, and BRACKET and
# PART for a bracket whose parts rt fmt then puts on lines of their own.
BEFORE = {"→": 1, "|": 1, "⊎": 3, "×": 3, "↔": 3, "∙": 4, ">>=": 4, "then": 4, "else": 4, "≡": 5, "≢": 5}
AFTER = {"in": 1, ",": 1, ";": 1, "↦": 4, ":": 8}
LET_STANDS, CLAUSE_BEGINS, LET_BEGINS, LAMBDA_BEGINS, OPERATOR, IN_BRACKETS, ARGUMENT = 0, 2, 4, 5, 7, 10, 12
BREAK, DEPTH, BRACKET, PART, TOO_WIDE = 20, 12, 15, 6, 1000
NOT_BEFORE = {",", ";", ":", "=", "in", "↦", "where", *CLOSING}
NOT_AFTER = {"let", "λ", "|", "elim", "record", "pub", "abbrev", "open", "use", "unfolding", "ruleset", *OPENING}
OPERANDS = {"λ", "⊥", "⊤", "∅", *OPENING, *CLOSING}


class Line:
    """A line of antt: its tokens up to a comment, and the brackets that each stands in."""

    def __init__(self, text):
        self.text = text
        self.starts, self.tokens, self.depths, self.opened = [], [], [], []
        depth, opened = 0, []
        for found in TOKEN.finditer(text):
            token = found.group()
            if token.startswith("--") or token == '"':
                break
            if token in CLOSING:
                depth -= 1
                opened = opened[:-1]
            self.starts.append(found.start())
            self.tokens.append(token)
            self.depths.append(depth)
            self.opened.append(opened)  # the places of the brackets around it that open on this line
            if token in OPENING:
                depth += 1
                opened = [*opened, len(self.tokens) - 1]

    def parts(self, bracket):
        """How many lines rt fmt makes of a bracket once it is broken: 0 if it leaves the rest as it is."""
        within = [token for token, opened in zip(self.tokens, self.opened) if opened[-1:] == [bracket]]
        token, before = self.tokens[bracket], self.tokens[max(bracket - 2, 0) : bracket]
        is_list = token == "[" or token == "{" and "record" in before
        parts = sum(token in (",", ";", "|") for token in within)
        return parts + 1 if parts or is_list else 0

    def in_binder(self, at):
        """Whether the token stands between a λ and the point behind its variables."""
        depth = self.depths[at]
        for back in range(at - 1, -1, -1):
            depth = min(depth, self.depths[back])
            if self.depths[back] == depth and (self.tokens[back] == "λ" or self.tokens[back].endswith(".")):
                return self.tokens[back] == "λ"
        return False

    def kind(self, at):
        """What it costs to break before a token, by what stands around it; None if no break may stand there."""
        before, token, after = self.tokens[at - 1], self.tokens[at], [*self.tokens, ""][at + 1]
        if self.text[self.starts[at] - 1] != " " or token in NOT_BEFORE or before in NOT_AFTER or self.in_binder(at):
            return None
        # the cases of what is taken apart, or a bracket whose parts stand below
        if token == "[" and after != "]" or token in OPENING and not after:
            return None
        if before == "=":
            return LET_BEGINS if "let" in self.tokens[:at] else LET_STANDS if token == "let" else CLAUSE_BEGINS
        if before in AFTER or token in BEFORE:
            return AFTER.get(before, BEFORE.get(token))
        if before.endswith("."):
            return LAMBDA_BEGINS
        if is_operator(token):
            return OPERATOR
        # an operator begins its line, and a text stays behind its name
        if is_operator(before) or token[0] == '"':
            return None
        return IN_BRACKETS if token in OPENING else ARGUMENT

    def places(self):
        """Where the line can be broken, each with its cost."""
        kinds = [(at, self.kind(at)) for at in range(1, len(self.tokens))]
        kinds = [(at, kind) for at, kind in kinds if kind is not None]
        outermost = min((self.depths[at] for at, _kind in kinds), default=0)
        for at, kind in kinds:
            lists = sum(BRACKET + PART * parts for parts in map(self.parts, self.opened[at]) if parts)
            yield self.starts[at], BREAK + kind + DEPTH * (self.depths[at] - outermost) + lists


def is_operator(token):
    return not (token[0].isalnum() or token[0] in '_"«?.' or token in OPERANDS or "◌" in token)


def broken(text, head=0):
    """The line as lines that are narrow enough, at the places behind its head that cost least."""
    further = " " * (len(text) - len(text.lstrip()) + DEEPER)
    places = [(0, 0), *(place for place in Line(text).places() if place[0] > head), (len(text), 0)]
    best = [(0, 0)]  # for each place the least cost of all up to it, and the place before it
    for here, (end, cost) in enumerate(places[1:], 1):
        ways = []
        for at, (start, _cost) in enumerate(places[:here]):
            is_wide = len(text[start:end].rstrip()) + (len(further) if start else 0) > WIDTH
            if not is_wide or at == here - 1:
                ways.append((best[at][0] + cost + TOO_WIDE * is_wide, -at))
        least, before = min(ways)
        best.append((least, -before))
    cuts = [len(places) - 1]
    while cuts[-1]:
        cuts.append(best[cuts[-1]][1])
    columns = [places[at][0] for at in reversed(cuts)]
    return [(further if start else "") + text[start:end].rstrip() for start, end in zip(columns, columns[1:])]


def names_of(listed):
    """The names of a `use` line's list, which may have lists of their own."""
    return [name.strip() for name in re.findall(r"(?:[^,{}]|\{[^{}]*\})+", listed) if name.strip()]


def used(line):
    """A `use` line as several of the same module."""
    begins, listed, ends = USE.match(line).groups()
    lines = [[]]
    for name in names_of(listed):
        if lines[-1] and len(begins + ", ".join([*lines[-1], name]) + ends) > WIDTH:
            lines.append([])
        lines[-1].append(name)
    return [begins + ", ".join(names) + ends for names in lines]


def commented(lines, at):
    """Moves the last words of a wide comment to its next line, if that goes on with a sentence, else to a new line."""
    begins = COMMENT.match(lines[at]).group()
    cut = lines[at].rfind(" ", len(begins), WIDTH + 1)
    if cut < 0:
        return
    words, lines[at] = lines[at][cut + 1 :], lines[at][:cut].rstrip()
    begun, _, following = [*lines, ""][at + 1].partition(begins)
    if begun or not following or following[0] in "-|*# " or words[-1] in ".:" and not following[0].islower():
        lines.insert(at + 1, begins + words)
    else:
        lines[at + 1] = begins + words + " " + following


def narrowed(text, is_antt):
    """The text of a file with its wide lines broken."""
    lines, at = text.split("\n"), 0
    while at < len(lines):
        line = lines[at]
        comment, use, clause = COMMENT.match(line), USE.match(line), CLAUSE.match(line)
        if len(line) > WIDTH and comment and not (comment.group(1) == "///" and "clap" in text):
            commented(lines, at)
        elif len(line) > WIDTH and not comment and (is_antt or use or clause):
            lines[at : at + 1] = used(line) if use else broken(line, clause.end() if clause else 0)
        at += 1
    return "\n".join(lines)


def kept(text):
    """What must stay: the words, each used name on its own and a comment of several lines as one, and ends of lines."""
    words, mark = [], None
    for line in text.split("\n"):
        comment, use = COMMENT.match(line), USE.match(line)
        begins = comment and comment.group()
        if begins != mark:
            words.append("\n")
        if use:
            words += [use.group(1) + name + use.group(3) for name in names_of(use.group(2))]
        else:
            words += line.split()[1:] if begins and begins == mark else line.split()
        mark = begins
        if not comment and (" --" in line or line.count('"') % 2):
            words.append("\n")
    return words


def files_of(top, crates):
    """The files of the crates, or of all, that may have wide lines."""
    folders = [top / "crates" / crate for crate in crates] or sorted((top / "crates").iterdir())
    parts = [folder / part for folder in folders for part in ("src", "specs", "proofs")]
    return [path for part in parts for path in sorted(part.rglob("*")) if path.suffix in (".rt", ".antt")]


def narrow(top, crates):
    """Breaks the wide lines once, and lays out what changed. Gives whether to go on, and what was left as it was."""
    changed, left = {}, []
    for path in files_of(top, crates):
        text = path.read_bytes().decode()
        new = narrowed(text, path.suffix == ".antt")
        if new != text and (kept(new) != kept(text) or "{-" in text or "\r" in text):
            left.append(f"{path.relative_to(top)}: it is left as it was, for its tokens might change")
        elif new != text:
            changed.setdefault(top / "crates" / path.relative_to(top).parts[1], {})[path] = text
            path.write_bytes(new.encode())
    for folder, files in changed.items():
        done = shutil.which("rt") and subprocess.run(["rt", "fmt"], cwd=folder, capture_output=True, text=True)
        if done and done.returncode != 0:
            said = (done.stdout + done.stderr).strip()
            left.append(f"{folder.name}: rt fmt refused it, so its files are as they were: {said}")
            for path, text in files.items():
                path.write_bytes(text.encode())
    return bool(changed) and not left, left


def laid_out_otherwise(top, crates):
    """The files of the crates, or of all, that `rt fmt` lays out otherwise, by what it makes of a copy."""
    if not shutil.which("rt"):
        return []
    with tempfile.TemporaryDirectory(prefix="lines-") as folder:
        copy = Path(folder)
        for path in files_of(top, crates) + [top / name for name in ("crates.txt", "HANDLES") if (top / name).exists()]:
            place = copy / path.relative_to(top)
            place.parent.mkdir(parents=True, exist_ok=True)
            shutil.copy(path, place)
        folders = sorted((copy / "crates").iterdir())
        with concurrent.futures.ThreadPoolExecutor() as pool:
            ran = pool.map(lambda it: subprocess.run(["rt", "fmt"], cwd=it, capture_output=True, text=True), folders)
        refused = [
            f"crates/{it.name}: rt fmt refused it: {(done.stdout + done.stderr).strip()}"
            for it, done in zip(folders, ran)
            if done.returncode
        ]
        paths = [path.relative_to(top) for path in files_of(top, crates)]
        other = [path for path in paths if (top / path).read_bytes() != (copy / path).read_bytes()]
    return refused + [f"{path}: rt fmt lays it out otherwise, so that rt ci would refuse it" for path in other]


def main(words, top=TOP):
    crates = [word for word in words if word != "--check"]
    unknown = [crate for crate in crates if not (top / "crates" / crate).is_dir()]
    if unknown:
        sys.exit(f"lines: there is no crate {unknown[0]}")
    left, goes_on, passes = [], "--check" not in words, 0
    while goes_on and passes < PASSES:
        goes_on, left = narrow(top, crates)
        passes += 1
    for path in files_of(top, crates):
        for number, line in enumerate(path.read_bytes().decode().split("\n"), 1):
            if len(line) > WIDTH:
                left.append(f"{path.relative_to(top)}:{number}: {len(line)} columns")
    for line in left:
        print(f"lines: {line}")
    if left and "--check" in words:
        print("lines: these are wider than 120 columns: tools/lines.py breaks what it can, the others by hand")
    other = laid_out_otherwise(top, crates) if "--check" in words else []
    for line in other:
        print(f"lines: {line}")
    return 1 if left or other else 0


if __name__ == "__main__":
    sys.exit(main(sys.argv[1:]))
