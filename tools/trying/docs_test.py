#!/usr/bin/env python3
"""Runs the commands that stand in the documents, and compares what they print with what stands there.

    python3 tools/trying/docs_test.py [--write] [--keep FOLDER] [DOCUMENT ..]

Without DOCUMENT it takes those of DOCUMENTS below that are there, and the pages in man/. --write puts what was printed into the
document, in place of what stood there. --keep is for docs/GUIDE.md and data/guide: it writes all that was printed, and takes
from the folder of the session each file whose name is in FOLDER already, so that document and files are of one session.

The environment variable CMSPROOF_TREE names the folder under which `make install` put the program and the tools, which are run then
(tools/on_installed.py). Without it CMSPROOF names the program, by default ./cmsproof of the repository, and CMSPROOF_TOOLS the folder of
its tools, by default tools/installed. The exit status is 0 where all is the same, 1 where something differs, and 3 where the
program or its tools are missing. Where what all documents need is missing, no command is run, and the last line says so.

How a block is marked:

- In Markdown it is a fenced block whose first line has the word `run` behind the language, as ```console run. In a manual page
  it stands between `.Bd -literal` and `.Ed`, and the line before it is `.\\" run`.
- A line that begins with `$ ` is a command. It goes on in the next line where it ends in a backslash or `|`, and up to the line
  END where it has `<<END` or `<<'END'`. The lines behind it are what it prints, standard output and standard error together.
- Behind `run` stand the kinds of parts that differ from run to run, as `run time hex`. Such parts stand there as they were
  printed once, and are compared as parts of that kind. VARIES below has the kinds.
- `needs:NAME` behind `run` passes the block over, and says so, where no program of this name is on the PATH; `needs:/PATH`
  where there is no such file; `needs:python3-NAME` where `python3` has no library of this name.
- `<!-- quiet` .. `-->` in Markdown, and lines `.\\" quiet COMMAND` in a manual page, are commands that no reader sees. They
  prepare files, what they print is not compared, and they must succeed.

All commands of a document run in one shell, in a new folder that is removed afterwards: `crates`, `data`, `docs` and `tools`
in it are those of the repository, but where installed tools are tested `tools` has none; for a document that is installed it has
copies of what is in `examples` beside that one, and nothing of the repository. `cmsproof` and its tools are on the PATH. So
`echo $?` prints the status of the command before it. What `mktemp` makes is removed too.
"""
import argparse
import difflib
import json
import os
import re
import shutil
import subprocess
import sys
import tempfile
from collections import Counter
from pathlib import Path

ROOT = Path(__file__).resolve().parent.parent.parent
DOCUMENTS = ["README.md"] + ["docs/%s.md" % name for name in ("GUIDE", "REFUSALS", "TOOLS", "COMPARED", "LIBRARY")]
NEEDED = ["bash", "openssl", "python3", "python3-cryptography"]
TREE = os.environ.get("CMSPROOF_TREE")
VARIES = {
    "time": r"\b[0-9]{14}(\.[0-9]+)?Z",  # 20261123174501Z
    "date": r"\b[A-Z][a-z]{2} [ 0-9][0-9] [0-9:]{8}(\.[0-9]+)? [0-9]{4} GMT",  # Nov 23 17:45:01 2026 GMT
    "iso": r"\b[0-9]{4}-[0-9]{2}-[0-9]{2}[ T][0-9:]{8}(Z| UTC)?",  # 2026-11-23 17:45:01
    "hex": r"\b(?=[0-9]*[a-fA-F]|[0-9]{12})[0-9a-fA-F]{8,}",  # digests, keys, serial numbers
    "fingerprint": r"\b([0-9A-F]{2}:){9,}[0-9A-F]{0,2}",
    "place": r"\bat [0-9]+\b",  # at 1049
    "number": r"\b[0-9]+(\.[0-9]+)?\b",  # sizes, positions, seconds
}


class Step:
    """A command, the lines that it is to print, and where those stand in the document: lines[first:last]."""

    def __init__(self, command, line, kinds, quiet=False):
        self.command, self.line, self.kinds, self.quiet = command, line, kinds, quiet
        self.first = self.last = line

    def same(self, wanted, seen):
        for kind in self.kinds:
            wanted, seen = ([re.sub(VARIES[kind], "<%s>" % kind, text) for text in texts] for texts in (wanted, seen))
        return wanted == seen


def plain(line, page):
    """The line as a reader sees it."""
    return line.replace("\\&", "").replace("\\-", "-").replace("\\e", "\\") if page else line


def source(line, page):
    """The line as it stands in the document."""
    return re.sub(r"^(?=[.'])", r"\\&", line.replace("\\", "\\e")) if page else line


def block_steps(lines, at, end, kinds, page):
    """The commands from the line `at` on, up to the line `end`, and the number of that line."""
    steps = []
    while lines[at] != end:
        if plain(lines[at], page).startswith("$ "):
            command, start = plain(lines[at], page)[2:], at
            while command.endswith(("\\", "|")) or (re.search("<<'?END'?", command) and not command.endswith("\nEND")):
                at += 1
                command += "\n" + plain(lines[at], page)
            steps.append(Step(command, start + 1, kinds))
            steps[-1].first = steps[-1].last = at + 1
        elif steps:
            steps[-1].last = at + 1
        at += 1
    return steps, at


def is_there(name):
    """Whether there is such a program, such a file, or such a library of Python."""
    if name.startswith("python3-"):
        return not subprocess.run(["python3", "-c", "import " + name[8:]], capture_output=True).returncode
    return os.path.exists(name) if os.path.isabs(name) else shutil.which(name) is not None


def steps_of(lines, page, left_out):
    """The commands of a document, but those that need what is missing, which are counted by the reason."""
    steps, at = [], 0
    mark, quiet = (r'^\.\\" run\b(.*)$', '.\\" quiet ') if page else (r"^```\w+ run\b(.*)$", "<!-- quiet")
    while at < len(lines):
        found = re.match(mark, lines[at])
        if found:
            words = found.group(1).split()
            needed = [word[6:] for word in words if word.startswith("needs:")]
            start, kinds = at + (2 if page else 1), [word for word in words if not word.startswith("needs:")]
            more, at = block_steps(lines, start, ".Ed" if page else "```", kinds, page)
            missing = [name for name in needed if not is_there(name)]
            steps += [] if missing else more
            if missing:
                left_out["there is no %s" % ", ".join(missing)] += len(more)
        elif page and lines[at].startswith(quiet):
            steps.append(Step(lines[at][len(quiet) :], at + 1, [], True))
        elif not page and lines[at] == quiet:
            end = lines.index("-->", at)
            steps.append(Step("\n".join(lines[at + 1 : end]), at + 1, [], True))
            at = end
        at += 1
    return steps


def script_of(steps):
    """One script for the shell, which prints a mark before each command and keeps the status of the one before."""
    texts = ["mark() { local status=$?; printf '\\n\\001%s\\n' \"$1\"; return $status; }"]
    for number, step in enumerate(steps):
        texts.append("mark %d" % number)
        texts.append("( set -e\n%s\n)\n[ $? -eq 0 ] || exit 99" % step.command if step.quiet else step.command)
    return "\n".join(texts + ["mark end", ""])


def tools_folder():
    return Path(TREE, "bin") if TREE else Path(os.environ.get("CMSPROOF_TOOLS", ROOT / "tools" / "installed")).resolve()


def the_program():
    return Path(TREE, "bin", "cmsproof") if TREE else Path(os.environ.get("CMSPROOF", ROOT / "cmsproof")).resolve()


def is_ours(path):
    """Whether a document is one of the repository, and not one that was installed elsewhere."""
    return ROOT in path.parents


def show(path, folder):
    """Has a folder show what a document names: of the repository, but not its tools where those that are installed are tested, or what
    was installed beside it."""
    if not is_ours(path):
        shutil.copytree(path.parent / "examples", folder, dirs_exist_ok=True)
        return
    for name in "crates", "data", "docs":
        os.symlink(ROOT / name, Path(folder, name))
    if not TREE:
        os.symlink(ROOT / "tools", Path(folder, "tools"))
        return
    Path(folder, "tools").mkdir()
    for path in (ROOT / "tools").iterdir():
        if path.name != "installed":
            os.symlink(path, Path(folder, "tools", path.name))


def keep(session, kept):
    """Puts files of the session, those whose names are there already, into the folder `kept`."""
    for path in Path(kept).iterdir():
        if Path(session, path.name).is_file():
            shutil.copyfile(Path(session, path.name), path)


def printed(path, steps, program, kept):
    """What each command printed, as lines; fewer where the shell ended before."""
    with tempfile.TemporaryDirectory() as folder, tempfile.TemporaryDirectory() as programs:
        show(path, folder)
        os.symlink(program, Path(programs, "cmsproof"))
        places = os.pathsep.join([programs, str(tools_folder()), os.environ["PATH"]])
        done = subprocess.run(
            ["bash", "-c", script_of(steps)],
            cwd=folder,
            stdin=subprocess.DEVNULL,
            stdout=subprocess.PIPE,
            stderr=subprocess.STDOUT,
            env={**os.environ, "PATH": places, "TMPDIR": programs, "LC_ALL": "C.UTF-8", "TZ": "UTC"},
        )
        if kept:
            keep(folder, kept)
    parts = done.stdout.decode("utf-8", "replace").split("\n\x01")[1:]
    return [part.split("\n", 1)[1].rstrip("\n").split("\n") if "\n" in part else [] for part in parts], done.returncode


def test(path, program, write, kept, left_out):
    """How many commands a document has that can be run, and how many of them print something else."""
    lines = path.read_text(encoding="utf-8").split("\n")
    name = path.relative_to(ROOT) if is_ours(path) else path
    steps = steps_of(lines, path.parent.name == "man", left_out)
    seen, status = printed(path, steps, program, kept)
    wrong = 0
    for step, got in reversed(list(zip(steps, seen))):
        got = [] if got == [""] else got
        if step.quiet:
            continue
        wanted = [plain(line, path.parent.name == "man") for line in lines[step.first : step.last]]
        if not step.same(wanted, got):
            wrong += 1
            print("%s:%d: $ %s" % (name, step.line, step.command))
            print("\n".join(difflib.unified_diff(wanted, got, "in the document", "printed", lineterm="")))
        if kept or (write and not step.same(wanted, got)):
            lines[step.first : step.last] = [source(line, path.parent.name == "man") for line in got]
    if status == 99 or len(seen) <= len(steps):
        wrong += 1
        last = steps[len(seen) - 1]
        print("%s:%d: the shell ended here: %s" % (name, last.line, "\n".join(seen[-1])))
    if write or kept:
        path.write_text("\n".join(lines), encoding="utf-8")
    count = sum(not step.quiet for step in steps)
    print("%s: %d commands, %d differ" % (name, count, wrong))
    return count, wrong


def documents():
    """All documents with commands that are there."""
    return [ROOT / name for name in DOCUMENTS if (ROOT / name).exists()] + sorted((ROOT / "man").glob("*.[1-9]"))


def main():
    parser = argparse.ArgumentParser(add_help=False)
    parser.add_argument("--write", action="store_true")
    parser.add_argument("--keep", metavar="FOLDER")
    parser.add_argument("documents", nargs="*")
    given = parser.parse_args()
    program, left_out, results = the_program(), Counter(), []
    if missing := [str(path) for path in (program, tools_folder()) if not path.exists()]:
        print("docs_test.py: not found: %s" % ", ".join(missing), file=sys.stderr)
        return 3
    paths = [Path(word).resolve() for word in given.documents] or documents()
    missing = [name for name in NEEDED if not is_there(name)]
    for path in paths:
        if missing:
            steps = steps_of(path.read_text(encoding="utf-8").split("\n"), path.parent.name == "man", Counter())
            left_out["there is no %s" % ", ".join(missing)] += sum(not step.quiet for step in steps)
        else:
            results.append(test(path, program, given.write, given.keep, left_out))
    return told(results, left_out)


def told(results, left_out):
    """Says what was left out, and in the last line how it went, and gives the exit status."""
    for reason, number in sorted(left_out.items()):
        print("documents: %d commands left out: %s" % (number, reason))
    commands, wrong = (sum(result[place] for result in results) for place in (0, 1))
    print("documents: %d commands, %d differ, %d left out" % (commands, wrong, sum(left_out.values())))
    count(commands, wrong, left_out)
    return 1 if wrong else 0


def count(number, wrong, left_out, **more):
    """Keeps for who runs this how many there were, how many of them are wrong, how many were left out for each reason, and more."""
    if kept := os.environ.get("CMSPROOF_COUNTS"):
        Path(kept).write_text(json.dumps({"all": number, "wrong": wrong, "left_out": left_out, **more}), encoding="utf-8")


if __name__ == "__main__":
    sys.exit(main())
