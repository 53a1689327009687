#!/usr/bin/env python3
"""walk.py [--list] [COMMIT]: the walk of `cmsproof check --trust T --answers A FILE` through the crates: how many files and
functions it passes, and how many steps it goes from a crate to another, in a commit, or in the files as they are.

Nothing is run: the code is read, without tests, laws and clauses. The walk begins at `main`, and goes on from each function
to all that its body calls by name. `name(..)` and `path::name(..)` lead to what the file defines or brings in under this
name; `value.name(..)` to each method of this name in the file's crate and those that it brings something in from. What a
value is isn't worked out: a few are another type's, and a trait's methods in a crate above aren't seen; nor is what macros,
`?` and `for` call. In the program's own crates (OWN) the arms of a `match` for another command, or for a failure of one
(OTHER), are left out, and calls of what several files take (SEVERAL). The walk ends where it comes to a crate of DER, types
or digests (ENDS), which all commands share: the second line is of a walk that goes on through them.
A step is a function of one crate that calls one of another. `--list` prints the functions and the steps of the first."""
import io
import re
import subprocess
import sys
import tarfile
from collections import namedtuple
from pathlib import Path

import api

TOP = Path(__file__).resolve().parent.parent
TESTS = re.compile(r"crates/(\w*tests|vectors\w*|\w+_(laws|rows)|workloads|real_files)/|/(laws|tests)\.rt$")
ENDS = r"devices|der_\w+|digests|sha2_blocks|\w+_types"
OWN = re.compile(r"crates/(cmsproof|cli_\w+)/")
COMMANDS = "Request|Show|Cert|Fit|Match|Question|Attach|Compare|Migrate|Stamp|Evidence|Many|Help"
OTHER = re.compile(rf'::(?:Check|Ask)?(?:{COMMANDS})|::(?:Sums|Unasked|Uncompared|Unshown|Unevidenced)|"(?:{COMMANDS})', re.I)
SEVERAL = ("each_of", "each_in", "unambiguous_many")
CALL = re.compile(r"(?:(?<![\w.:])((?:\w+::)*)|\.)([a-z_]\w*)(?:::<[^()]*>)?\(")
USE = re.compile(r"^(?:pub )?use ([^;]*);", re.M)
SELF = re.compile(r"\( *(?:&(?:'\w+ )?)?(?:mut )?self\b")


Function = namedtuple("Function", "path line crate owner name is_method body")  # of a type or trait, its owner


def names_used(text):
    """The names that the `use` lines of a file bring in, each with the steps of its path."""
    found, apart = {}, lambda it: ",".join(it[1] + name.strip() for name in it[2].split(",") if name.strip())
    for tree in USE.findall(text):
        while "{" in tree:
            tree = re.sub(r"([\w:]*)\{([^{}]*)\}", apart, tree)
        for name in tree.split(","):
            whole, _, renamed = name.strip().partition(" as ")
            steps = tuple(step for step in whole.split("::") if step != "self")
            found[renamed or steps[-1]] = steps
    return found


def body_of(lines, is_own):
    """A body without comments and texts, and of the program itself without the arms of other commands."""
    kept, left_out = [], None
    for line in lines:
        text = re.sub(r"//.*", "", line).strip()
        indent, is_end = len(line) - len(line.lstrip()), text[:1] in ("}", ")")
        if left_out is not None and text and (indent < left_out or indent == left_out and not is_end):
            left_out = None
        arm, arrow, _ = text.partition(" =>")
        if is_own and left_out is None and arrow and all(OTHER.search(part) for part in arm.split("|")):
            left_out = indent
        if left_out is None:
            kept.append(api.STRING.sub("''", text))
    return "\n".join(kept)


def functions_in(path, text):
    """The functions of a file that have a body: where they end is told by the layout of `rt fmt`."""
    lines, owner, at = text.splitlines(), "", 0
    while at < len(lines):
        owner = (api.block_head(lines, at) or ["" if lines[at].startswith("}") else owner])[0]
        found, begin = api.FUNCTION.match(lines[at]), at
        if found:
            while not lines[at].endswith(";") and not re.match(rf"{found[1]}(?:\S.*)?\{{(?:\}})?$", lines[at]):
                at += 1
            if lines[at].endswith("{"):
                is_method = bool(SELF.search("".join(lines[begin : at + 1])))
                body, at = lines[at + 1 : lines.index(found[1] + "}", at)], lines.index(found[1] + "}", at)
                yield Function(path, begin, path.split("/")[1], owner, found[3], is_method, body_of(body, OWN.match(path)))
        at += 1


class Tree:
    """The crates: their functions by name, and what each file brings in."""

    def __init__(self, texts):
        code = {path: text for path, text in texts.items() if not TESTS.search(path)}
        self.crates, self.functions = {path.split("/")[1] for path in code}, {}
        self.uses = {path: names_used(text) for path, text in code.items()}
        for function in (it for path, text in code.items() for it in functions_in(path, text)):
            self.functions.setdefault(function.name, []).append(function)

    def home(self, path, steps):
        """The crate that a path in a file leads to, through what roots of crates bring in, and the steps from there."""
        brought = self.uses.get(path, {}).get(steps[0])
        steps = brought + steps[1:] if brought and brought != steps[:1] else steps
        if steps[0] not in self.crates or len(steps) == 1:
            return path.split("/")[1], steps[steps[0] == "crate" :]
        root = f"crates/{steps[0]}/src/lib.rt"
        again = self.uses.get(root, {}).get(steps[1], ("",))[0] in self.crates
        return self.home(root, steps[1:]) if again else (steps[0], steps[1:])

    def called(self, caller):
        """The functions that a function calls."""
        near = {caller.crate, *(self.home(caller.path, it)[0] for it in self.uses[caller.path].values())}
        for path, name in ((it[1], it[2]) for it in CALL.finditer(caller.body) if it[2] not in SEVERAL):
            if path is None:
                yield from (it for it in self.functions.get(name, ()) if it.is_method and it.crate in near)
                continue
            crate, steps = self.home(caller.path, (*path.replace("Self", caller.owner).split("::")[:-1], name))
            of = steps[-2] if len(steps) > 1 else ""
            found = [it for it in self.functions.get(steps[-1], ()) if it.crate == crate]
            found = [it for it in found if it.owner == (of if of[:1].isupper() else "")]
            here = [it for it in found if it.path == caller.path] if not of else []
            yield from here or (it for it in found if not of[:1].islower() or it.path.endswith(f"/{of}.rt"))

    def walk(self, ends):
        """Each function that is passed, with those that it calls, where the walk ends at these crates."""
        passed, left = {}, [it for it in self.functions["main"] if it.crate == "cmsproof"]
        while left:
            caller = left.pop()
            if caller not in passed:
                passed[caller] = {it: None for it in self.called(caller) if not re.fullmatch(ends, it.crate)}
                left += passed[caller]
        return passed


def texts_of(commit):
    """The code of a commit, or that which is there, by the paths of its files."""
    if not commit:
        return {path.relative_to(TOP).as_posix(): path.read_text() for path in sorted(TOP.glob("crates/*/src/*.rt"))}
    packed = subprocess.run(["git", "-C", TOP, "archive", commit, "crates"], check=True, stdout=subprocess.PIPE)
    files = tarfile.open(fileobj=io.BytesIO(packed.stdout))
    return {it.name: files.extractfile(it).read().decode() for it in files if it.name.endswith(".rt")}


def main(words):
    tree = Tree(texts_of("".join(word for word in words if word != "--list")))
    for ends, whose in ((ENDS, "of the walk"), ("", "with DER, types and digests")):
        passed = tree.walk(ends)
        shown = {it: f"{it.path} {it.owner and it.owner + '::'}{it.name}" for it in passed}
        steps = [f"{shown[at]} -> {shown[it]}" for at, called in passed.items() for it in called if it.crate != at.crate]
        if "--list" in words and ends:
            print(*sorted(shown.values()), *sorted(steps), sep="\n")
        print(f"{len({it.path for it in passed})} files, {len(passed)} functions, {len(steps)} steps between crates {whose}")


if __name__ == "__main__":
    main(sys.argv[1:])
