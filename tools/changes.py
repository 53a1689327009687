#!/usr/bin/env python3
"""Says in which files the meaning of a crate changed since a commit, or of a crate below what it sees. It runs no proof.

    changes.py COMMIT CRATE ..   a line for each crate and file: CRATE PATH, and whether it is its own, or below, and by which
                                 of the crate's words it sees what changed there

Of its own, comments, white space and proofs don't count, nor whether a line goes on in the next one, further in by four, or a
list of names in a second `use`: of code (.rt) and definitions (.antt) what is left without comments is compared, of an edit the
lines that are read. Nor does it count that a module, or a definition that its file names no more, went as a whole, that a type
no longer derives what prints it, or that the line of crates.txt lost a library that no file of the crate names: what is left is
as it was, and no proof can cite what is gone. Of the crates below, so much counts alone as the crate sees (`visible.py`): the
contracts, types and definitions that its names lead to, and no body. What can't be told apart for sure counts as a change.
`soak.py` uses this.
"""

import argparse
import hashlib
import os
import pathlib
import re
import subprocess
import sys

import visible

TOP = pathlib.Path(__file__).resolve().parent.parent
# where bodies, contracts and definitions stand; and beside them the proofs, which say nothing: no proof shows what a contract excludes
MEANT, PROOFS = ("src", "specs"), ("proofs",)
EDITS = ("must-fail", "more-edits")
LISTING = "crates.txt"
# these would lead git to another repository than the one in the folder
ELSEWHERE = ("GIT_DIR", "GIT_WORK_TREE", "GIT_INDEX_FILE", "GIT_OBJECT_DIRECTORY", "GIT_COMMON_DIR", "GIT_NAMESPACE")

CODE = re.compile(
    r"""(?P<block>/\*)|(?P<comment>//[^\n]*)|(?P<space>\s+)
    |(?:b|c)?r(?P<hashes>\#*)".*?"(?P=hashes)
    |(?:b|c)?"(?:[^"\\]|\\.)*"
    |'(?:[^'\\\n]|\\(?:x[0-9a-fA-F]{2}|u\{[0-9a-fA-F_]+\}|.))'
    |\w+|.""",
    re.X | re.S,
)
BLOCK_MARK = re.compile(r"/\*|\*/")
USE = re.compile(r"^((?:pub |unfoldable |ghost )*use [\w.]+\{)([^{}]*)(\};?)$", re.M)
ROOTS = ("lib.rt", "main.rt", "Lib.antt")
MODULE = re.compile(r"(?:pub )?mod \w+ ?;|pub use [\w:]+ ?;")  # what a root of code says of a module
# what a type derives, up to its name, and the trait that only prints it: edits may compare values
DERIVED = re.compile(r"#\[derive\(([\w, ]*)\)\]((?: #\[[^\]]*\])* (?:pub(?:\([a-z]+\))? )?(?:struct|enum) \w+)")
PLAIN_TRAITS = ("Debug",)
# what a line of definitions declares or passes on; and the name with which any line begins, or, of an operator's, what it takes
DECLARED = re.compile(r"(?:pub use [\w.]+\{(?=\w+\}$)|pub mod (?=\w+$)|(?:abbrev )?(?:pub )?(?=\w+ :))(\w+)")
BEGUN = re.compile(r"(\w+) ")
FURTHER = 4  # how much further in rt fmt sets a line that goes on; what stands in a block is further in by two
DEFINITION = re.compile(r'"(?:[^"\\]|\\.)*"|(?P<comment>(?<!\S)--(?!\S).*)|(?P<space>\s+)|.')


def lines_of(text):
    """The crates that a text of crates.txt names, each with all that its line says. It is read as `rt` reads it: between libraries may
    be commas, and a crate without libraries needs no colon."""
    named = {}
    for line in text.split("\n"):
        head, _, libraries = line.partition("#")[0].partition(":")
        if head.split():
            named[head.split()[0]] = head.split()[1:] + [":"] + libraries.replace(",", " ").split()
    return named


def read_crates(top):
    """The crates of crates.txt, each with the crates that its line names, in the order of the file."""
    named = lines_of((top / LISTING).read_text())
    return {name: [it for it in words if it in named] for name, words in named.items()}


def lowest_first(crates):
    """The names of the crates, each after those below it."""
    order = {}

    def put(name, above):
        if name in order or name in above:
            return
        for library in crates[name]:
            put(library, above + (name,))
        order[name] = None

    for name in crates:
        put(name, ())
    return list(order)


def below(crates, name):
    """The crates below one, the lowest first."""
    found, left = set(), list(crates[name])
    while left:
        library = left.pop()
        if library not in found:
            found.add(library)
            left += crates[library]
    return [it for it in lowest_first(crates) if it in found]


def end_of_block(text, at):
    """Where the block comment ends that begins there; such comments nest."""
    depth = 0
    for mark in BLOCK_MARK.finditer(text, at):
        depth += 1 if mark.group() == "/*" else -1
        if depth == 0:
            return mark.end()
    return len(text)


def each_used(text):
    """A text whose `use` lines have one name each."""

    def alone(found):
        begins, names, ends = found.groups()
        return "\n".join(begins + name.strip() + ends for name in names.split(",") if name.strip())

    return USE.sub(alone, text)


def code_meaning(text):
    """Code without its comments, and with one blank for white space outside of literals."""
    parts, at, text = [], 0, each_used(text)
    while at < len(text):
        found = CODE.match(text, at)
        at = end_of_block(text, at) if found.group("block") else found.end()
        is_blank = found.group("block") or found.group("comment") or found.group("space")
        parts.append(" " if is_blank else found.group())
        if is_blank and parts[-2:-1] == [" "]:
            parts.pop()
    return "".join(parts).strip()


def line_meaning(line):
    """A line of definitions without its comment, and with one blank for white space after its indentation."""
    indentation = line[: len(line) - len(line.lstrip())]
    parts = []
    for found in DEFINITION.finditer(line.strip()):
        if not found.group("comment"):
            parts.append(" " if found.group("space") else found.group())
    return indentation + "".join(parts).rstrip() if "".join(parts).strip() else ""


def definition_meaning(text):
    """Definitions without their comments and empty lines, and each line with those that it goes on in. Their indentation has a
    meaning, so it is kept. A text in which a comment `{- .. -}` may be is kept whole."""
    if "{-" in text:
        return text
    lines, begun = [], 0
    for line in filter(None, map(line_meaning, each_used(text).split("\n"))):
        indentation = len(line) - len(line.lstrip())
        if lines and indentation >= begun + FURTHER:
            lines[-1] += " " + line.lstrip()
        else:
            lines.append(line)
            begun = indentation
    return "\n".join(lines)


def edit_meaning(text):
    """The lines of an edit that are read."""
    return "\n".join(line for line in text.split("\n") if line.startswith(("file: ", "old: ", "new:")))


MEANINGS = {".rt": code_meaning, ".antt": definition_meaning, ".edit": edit_meaning}


def meaning(path, octets):
    """What counts of a file."""
    found = MEANINGS.get(pathlib.PurePath(path).suffix)
    return found(octets.decode("utf-8", "surrogateescape")) if found else octets


def files_of(top, crate, folders):
    """The files of some folders of a crate with their octets, by their paths from the top; a link has None."""
    found = {}
    for folder in folders:
        for at, inner, names in os.walk(top / "crates" / crate / folder):
            links = [it for it in inner if os.path.islink(os.path.join(at, it))]
            for name in names + links:
                path = pathlib.Path(at) / name
                found[path.relative_to(top).as_posix()] = None if path.is_symlink() else path.read_bytes()
    return found


class History:
    """The commits of the repository in a folder; `fault` says why there are none."""

    def __init__(self, top):
        self.top, self.fault, self.head, self.is_shallow = top, "", "", False
        self.blobs, self.changed, self.read, self.items, self.words = {}, {}, {}, {}, {}
        try:
            place = self.git("rev-parse", "--show-toplevel").decode().strip()
            if os.path.realpath(place) != os.path.realpath(top):
                self.fault = "this folder is not the top of a git repository"
                return
            self.head = self.git("rev-parse", "--verify", "HEAD^{commit}").decode().strip()
            self.is_shallow = self.git("rev-parse", "--is-shallow-repository").decode().strip() == "true"
        except FileNotFoundError:
            self.fault = "there is no command git"
        except subprocess.CalledProcessError as failed:
            self.fault = (failed.stderr.decode(errors="replace").strip().split("\n") or [""])[0] or "git failed"

    def git(self, *words):
        """What git prints."""
        kept = {name: value for name, value in os.environ.items() if name not in ELSEWHERE}
        kept.update(GIT_NO_REPLACE_OBJECTS="1", LC_ALL="C")
        ran = ["git", "-C", str(self.top), *words]
        return subprocess.run(ran, check=True, capture_output=True, stdin=subprocess.DEVNULL, env=kept).stdout

    def is_before_head(self, commit):
        """Whether it is a commit that is there, and HEAD itself or one that HEAD comes after."""
        try:
            if self.git("cat-file", "-t", commit).strip() != b"commit":
                return False
            self.git("merge-base", "--is-ancestor", commit, self.head)
        except subprocess.CalledProcessError:
            return False
        return True

    def listed(self, commit):
        """The names of the contents of all files of a commit, by their paths; those of links are left out."""
        if commit not in self.blobs:
            self.blobs[commit] = {}
            for line in self.git("ls-tree", "-r", "-z", "--full-tree", commit).split(b"\0"):
                about, _, path = line.partition(b"\t")
                if about[:3] == b"100":
                    self.blobs[commit][os.fsdecode(path)] = about.split()[2].decode()
        return self.blobs[commit]

    def octets(self, commit, path):
        """A file of a commit."""
        return self.git("cat-file", "blob", self.listed(commit)[path])

    def is_as_in(self, commit, path, octets):
        """Whether a file has these octets in a commit."""
        name = self.listed(commit).get(path)
        if name is None or octets is None:
            return False
        hashed = hashlib.sha1 if len(name) == 40 else hashlib.sha256
        return hashed(b"blob %d\0" % len(octets) + octets).hexdigest() == name

    def paths(self, commit, crate, folders):
        """The paths of a crate's files of a commit, in some folders."""
        begins = tuple(f"crates/{crate}/{folder}/" for folder in folders)
        return [path for path in self.listed(commit) if path.startswith(begins)]


def differing(history, commit, top, crate, folders):
    """The files of some folders of a crate that aren't as in a commit, octet for octet, missing ones too."""
    files = files_of(top, crate, folders)
    changed = [path for path, octets in files.items() if not history.is_as_in(commit, path, octets)]
    return sorted(changed + [path for path in history.paths(commit, crate, folders) if path not in files])


def is_change(history, commit, top, path):
    """Whether a file that differs from a commit differs in its meaning."""
    place = top / path
    if place.is_symlink() or not place.is_file() or path not in history.listed(commit):
        return True
    return meaning(path, place.read_bytes()) != meaning(path, history.octets(commit, path))


def less_code(before, after):
    """Whether code differs in nothing but that it says less of modules."""
    gone = set(MODULE.findall(before)) - set(MODULE.findall(after))

    def left(text):
        return " ".join(MODULE.sub(lambda found: "" if found.group() in gone else found.group(), text).split())

    return bool(gone) and left(before) == left(after)


def less_derived(before, after):
    """Whether code differs in nothing but that types derive less of what prints them."""
    left = {item: traits.split(", ") for traits, item in DERIVED.findall(after)}

    def fewer(found):
        kept = left.get(found[2], PLAIN_TRAITS)
        traits = [it for it in found[1].split(", ") if it in kept or it not in PLAIN_TRAITS]
        return f"#[derive({', '.join(traits)})]{found[2]}"

    return DERIVED.sub(fewer, before) == after


def less_definitions(before, after):
    """Whether definitions differ in nothing but that some are gone, whose names are nowhere in what is left: no line went alone, as a
    clause of an operator, which begins with what that takes, or what declares how it groups."""
    lines, left, names = before.split("\n"), after.split("\n"), set(re.findall(r"\w+", after))
    gone = [line for line in lines if line not in left]
    declared = {found[1] for found in map(DECLARED.match, gone) if found} - names
    begun = [DECLARED.match(line) or BEGUN.match(line) for line in gone]
    return [line for line in lines if line in left] == left and all(found and found[1] in declared for found in begun)


def is_only_less(history, commit, top, path):
    """Whether all that changed in a file is that it went as a whole and is no root, or that what it said of modules did,
    definitions that it names no more, or what a type derived."""
    place, name = top / path, pathlib.PurePath(path).name
    if place.is_symlink() or path not in history.listed(commit):
        return False
    if not place.exists():
        return name not in ROOTS
    before, after = meaning(path, history.octets(commit, path)), meaning(path, place.read_bytes())
    if path.endswith(".antt"):
        return "{-" not in before and less_definitions(before, after)
    return less_derived(before, after) or name in ROOTS and less_code(before, after)


def uses_less(top, crate, before, after):
    """Whether the line of a crate only lost libraries that none of its files names: what isn't proved with more libraries isn't
    with fewer."""
    if not before or not after or [it for it in before if it in after] != after:
        return False
    gone = re.compile("|".join(rf"\b{re.escape(it)}\b" for it in before if it not in after).encode())
    return not any(octets is None or gone.search(octets) for octets in files_of(top, crate, MEANT + PROOFS + EDITS).values())


def changed_text(history, commit, top, crate):
    """The files of code and definitions of a crate whose meaning changed since a commit, and crates.txt if its line there says
    something else."""
    if (commit, crate) not in history.changed:
        files = differing(history, commit, top, crate, MEANT)
        changed = [path for path in files if is_change(history, commit, top, path)]
        changed = [path for path in changed if not is_only_less(history, commit, top, path)]
        earlier = history.octets(commit, LISTING).decode() if LISTING in history.listed(commit) else ""
        before, after = (lines_of(text).get(crate) for text in (earlier, (top / LISTING).read_text()))
        if before != after and not uses_less(top, crate, before, after):
            changed.append(LISTING)
        history.changed[commit, crate] = changed
    return history.changed[commit, crate]


def new_edits(history, commit, top, crate):
    """The edits of a crate that it didn't have in a commit, under whatever name and in whichever folder."""
    changed = [path for path in differing(history, commit, top, crate, EDITS) if path.endswith(".edit")]
    changed = [path for path in changed if os.path.lexists(top / path)]
    if not changed:
        return []
    earlier = {meaning(path, history.octets(commit, path)) for path in history.paths(commit, crate, EDITS)}
    return [path for path in changed if (top / path).is_symlink() or meaning(path, (top / path).read_bytes()) not in earlier]


def own_changes(history, commit, top, crate):
    """The files of a crate that changed since a commit, in their whole meaning, and its new edits."""
    return changed_text(history, commit, top, crate) + new_edits(history, commit, top, crate)


def items_in(history, commit, top, crate):
    """What can be seen of a crate from above, as it is and, where it differs, as it was in a commit."""
    if (commit, crate) not in history.items:
        texts = [(path, octets) for path, octets in files_of(top, crate, MEANT).items() if octets is not None]
        for path in differing(history, commit, top, crate, MEANT):
            texts += [(path, history.octets(commit, path))] if path in history.listed(commit) else []
        for place in texts:
            if place not in history.read:
                history.read[place] = visible.items_of(place[0], meaning(*place))
        history.items[commit, crate] = [item for place in texts for item in history.read[place]]
    return history.items[commit, crate]


def words_in(history, top, crate):
    """The words of a crate's files, its proofs and edits too, that can be names of what is below."""
    if crate not in history.words:
        files = files_of(top, crate, MEANT + PROOFS + EDITS)
        texts = [(path, meaning(path, octets)) for path, octets in files.items() if path.endswith(tuple(MEANINGS)) and octets]
        history.words[crate] = set().union(*(visible.words_used(path, text) for path, text in texts))
    return history.words[crate]


def lower_changes(history, commit, top, crates, crate):
    """The files of the crates below one in which what it sees changed since a commit, each with a word by which it does, or the
    empty text if it does without one."""
    found, changed, lower = {}, [], below(crates, crate)
    for path in [path for library in lower for path in changed_text(history, commit, top, library)]:
        place = top / path
        if path == LISTING or place.is_symlink():
            found[path] = ""
            continue
        before = meaning(path, history.octets(commit, path)) if path in history.listed(commit) else None
        changed += visible.changed_items(path, before, meaning(path, place.read_bytes()) if place.is_file() else None)
    if changed:
        items = [item for library in lower for item in items_in(history, commit, top, library)]
        sees = {name: {name, *below(crates, name)} for name in (*lower, crate)}
        found.update(visible.changes_seen(visible.Below(items, sees), changed, crate, words_in(history, top, crate)))
    return found


def changes_of(history, commit, top, crates, crate):
    """The files of a crate that changed since a commit, and if there are none, those below it whose change it sees."""
    own = own_changes(history, commit, top, crate)
    return own, [] if own else list(lower_changes(history, commit, top, crates, crate))


def main():
    parser = argparse.ArgumentParser(description="Says in which files the meaning of a crate changed since a commit.")
    parser.add_argument("commit", help="the commit, by whatever name")
    parser.add_argument("crates", nargs="+", metavar="CRATE")
    words = parser.parse_args()
    crates, history = read_crates(TOP), History(TOP)
    unknown = [name for name in words.crates if name not in crates]
    if history.fault or unknown:
        parser.error(history.fault or f"crates.txt has no crate {unknown[0]}")
    try:
        commit = history.git("rev-parse", "--verify", "--end-of-options", words.commit + "^{commit}").decode().strip()
    except subprocess.CalledProcessError:
        parser.error(f"there is no commit {words.commit}")
    for name in words.crates:
        own = own_changes(history, commit, TOP, name)
        for path in own:
            print(name, path, "own")
        for path, named in lower_changes(history, commit, TOP, crates, name).items():
            if path not in own:
                print(name, path, f"below, by {named}" if named else "below")
    return 0


if __name__ == "__main__":
    sys.exit(main())
