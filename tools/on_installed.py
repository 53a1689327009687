#!/usr/bin/env python3
"""Installs the program and its tools into a new folder, and tests what is there, from a folder outside of the repository:

    python3 tools/on_installed.py [--root FOLDER] [tests [NAME ..] | documents [DOCUMENT ..] | gate | short | record]

`tests` are those in tools/tests, or of some modules or classes there, as test_install or test_packages.Unpacked; `gate` are those of them
that the gate runs, with a limit of time; `documents` are the commands in them (tools/trying/docs_test.py); without a
word it is both, and so it is with `short`, but for the tests that take long: those of tools/tests/long.txt, which `record` writes, once it
ran all. Each module and each document has a process of its own, and as many of these run side by side as there are processors. No command or module of the repository is found: PATH has the
folder `bin` that was installed, and then what it had without the folders of the repository, and there is no PYTHONPATH. The tests of the
scripts in tools/ run these where they are, since nobody installs them.

--root tests what is installed in this folder already, as /usr, in place of a new one.

A process has a line of its counts, and what it printed before if something failed. What is left out has a line with the reason and where
it is, and the last line counts it. The exit status is 0 where nothing failed, and else 1.
"""
from __future__ import annotations

import argparse
import contextlib
import importlib
import json
import math
import os
import re
import resource
import shutil
import signal
import subprocess
import sys
import tempfile
import time
import unittest
from collections import Counter, deque
from pathlib import Path
from typing import NamedTuple

from trying import docs_test

TOP = Path(__file__).resolve().parent.parent
TESTS = TOP / "tools" / "tests"
# what the tests import that a machine may lack, and where Debian has it
LIBRARIES = {"cryptography": "python3-cryptography"}
# What the gate runs: what is installed and packed, each module imported, and a file of each kind of container. And after how many seconds
# on the clock it is ended, many times what it takes.
GATE, MOST = ("test_install", "test_packages.Unpacked"), 1800
# The tests that take more than so many seconds of a processor, each in a line with how many, and why they are left out.
LONG, SECONDS = TESTS / "long.txt", 3
TAKES_LONG = "they take long, and make test-all runs them"
HEAD = f"# the tests that take more than {SECONDS} seconds of a processor, and how many: `python3 tools/on_installed.py record` writes this\n"


def environment(root: Path) -> dict[str, str]:
    """The surroundings in which what is installed under a folder is found, and nothing of the repository."""
    kept = {
        name: value
        for name, value in os.environ.items()
        if not name.startswith(("MAKE", "MFLAGS", "GNUMAKEFLAGS", "PYTHONPATH"))
    }
    for name in ("CMSPROOF", "CMSPROOF_TOOLS", "CMSPROOF_SHORT"):
        kept.pop(name, None)
    paths = [path for path in os.environ.get("PATH", os.defpath).split(os.pathsep) if path and not is_within(Path(path), TOP)]
    return {**kept, "PATH": os.pathsep.join([str(root / "bin"), *paths]), "CMSPROOF_TREE": str(root)}


def is_within(path: Path, folder: Path) -> bool:
    """Whether a path leads into a folder."""
    path = path.resolve()
    return path == folder or folder in path.parents


def install(folder: Path, anew: bool) -> Path:
    """Installs all into a folder, of what is built, and gives the folder under which it is. The library may be built anew before."""
    library = "tools/installed/cmsproof/libcmsproof.so.1"
    words = ["-o", "cmsproof", "-o", library, "install", f"DESTDIR={folder}", "PREFIX=/usr"]
    for asked in ([["--always-make", library]] if anew else []) + [words]:
        made = ["make", "-s", "-C", str(TOP), *asked]
        done = subprocess.run(made, env=environment(folder), capture_output=True, text=True, check=False)
        if done.returncode:
            raise SystemExit(f"on_installed: nothing was installed: {done.stderr.strip()}")
    return folder / "usr"


# ---- the tests, in a process of their own


def around() -> tuple[object, ...]:
    """What a test may change for those behind it: the environment, the folder, and what tests replace in modules."""
    modules = [vars(one) for one in (os, re, shutil, subprocess, time)]
    return dict(os.environ), os.getcwd(), *({name: it for name, it in one.items() if callable(it)} for one in modules)


def processor_seconds() -> float:
    """The processor's time that this process and what it started have had."""
    return sum(sum(resource.getrusage(who)[:2]) for who in (resource.RUSAGE_SELF, resource.RUSAGE_CHILDREN))


class Result(unittest.TextTestResult):
    """What became of the tests, with the reason for each one that was left out, and the seconds of each one that took long."""

    def __init__(self, *words, **rest):
        super().__init__(*words, **rest)
        self.left_out, self.by_class, self.long = Counter(), Counter(), {}

    def startTestRun(self):
        """Begins with no module of the repository."""
        super().startTestRun()
        self.strangers, self.around = strangers(), around()

    def startTest(self, test):
        """Begins a test."""
        super().startTest(test)
        self.begun = processor_seconds()

    def stopTest(self, test):
        """Fails a test that leaves something else around it than it found."""
        if (took := processor_seconds() - self.begun) > SECONDS:
            self.long[test.id()] = round(took)
        if (left := around()) != self.around:
            self.around = left
            self.failures.append((test, "it leaves another environment or folder, or something replaced in a module"))
        super().stopTest(test)

    def addSkip(self, test, reason):
        """A test that is left out, or, where its class could not be set up, all tests of that class."""
        super().addSkip(test, reason)
        name = re.match(r"setUpClass \((.*)\)$", test.id())
        self.left_out[reason] += self.by_class[name[1]] if name else isinstance(test, unittest.TestCase)


def strangers() -> list[str]:
    """The modules of the tools that were not taken from what is installed."""
    tree = Path(os.environ["CMSPROOF_TREE"]).resolve()
    found = [module for name, module in sys.modules.items() if name.split(".")[0] in ("cmsproof", "cmsproof_tools")]
    return [str(module.__file__) for module in found if module.__file__ and not is_within(Path(module.__file__), tree)]


def tests_of(name: str, left_out: Counter) -> unittest.TestSuite:
    """The tests of a module, or of a class in one, none where it needs what is missing; one that fails where it cannot be imported for
    another reason."""
    module = name.partition(".")[0]
    try:
        importlib.import_module(module)
        return unittest.defaultTestLoader.loadTestsFromName(name)
    except unittest.SkipTest as skipped:
        reason = str(skipped)
    except ModuleNotFoundError as error:
        missing = str(error.name).split(".")[0]
        if missing not in LIBRARIES:
            return unittest.defaultTestLoader.loadTestsFromName(name)
        reason = f"there is no library {missing} for Python ({LIBRARIES[missing]})"
    except Exception:
        return unittest.defaultTestLoader.loadTestsFromName(name)
    left_out[reason] += len(re.findall(r"^    def test_", (TESTS / f"{module}.py").read_text(encoding="utf-8"), re.M))
    return unittest.TestSuite()


def each(suite):
    """The tests of a suite."""
    for one in suite:
        yield from each(one) if isinstance(one, unittest.TestSuite) else [one]


def run_tests(name: str) -> int:
    """Runs the tests of a module, or of a class in one. Writes the counts where it is told to."""
    sys.path[:0] = [str(TESTS)]
    left_out: Counter = Counter()
    suite = tests_of(name, left_out)
    if "CMSPROOF_SHORT" in os.environ:
        suite = short(suite, left_out)
    missing, classes = sum(left_out.values()), Counter(unittest.util.strclass(type(test)) for test in each(suite))
    runner = unittest.TextTestRunner(resultclass=Result, buffer=False)
    making = runner._makeResult
    runner._makeResult = lambda: found_in(making(), classes)
    result = runner.run(suite)
    left_out.update(result.left_out)
    for stranger in (wrong := sorted(set(strangers()))):
        print(f"tests: {stranger} is not what was installed")
    failed = len(result.failures) + len(result.errors) + len(result.unexpectedSuccesses) + len(wrong)
    docs_test.count(suite.countTestCases() + missing, failed, left_out, long=result.long)
    return 1 if failed else 0


def short(suite: unittest.TestSuite, left_out: Counter) -> unittest.TestSuite:
    """The tests of a suite that do not take long."""
    long = {line.split(" ")[0] for line in LONG.read_text(encoding="utf-8").splitlines()}
    found = [test for test in each(suite) if test.id() not in long]
    if left := suite.countTestCases() - len(found):
        left_out[TAKES_LONG] += left
    return unittest.TestSuite(found)


def found_in(result, classes):
    """A result that knows how many tests each class has."""
    result.by_class = classes
    return result


# ---- both


class Run(NamedTuple):
    """A process for a module of tests or a document: of which part it is, what it is called, and the words behind Python's."""

    part: str
    name: str
    words: list[str]


# how many there are of each part, and how many are wrong
SAID = {"tests": "{all}, {wrong} failed", "documents": "{all} commands, {wrong} differ"}


def runs_of(what: str, words: list[str]) -> list[Run]:
    """The processes of what was asked for."""
    if what == "documents":
        paths = list(map(Path, words)) or docs_test.documents()
        return [Run(what, str(path).replace(f"{TOP}/", ""), [docs_test.__file__, str(path)]) for path in paths]
    names = GATE if what == "gate" else what == "tests" and words or sorted(path.stem for path in TESTS.glob("test_*.py"))
    return [Run("tests", name, [__file__, "--here", name]) for name in names]


def begun(run: Run, folder: Path, surroundings: dict[str, str]) -> subprocess.Popen:
    """The process of a run, with what it leaves in a new folder."""
    (folder / "elsewhere").mkdir(parents=True)
    with open(folder / "printed", "wb") as printed:
        return subprocess.Popen(
            [sys.executable, *run.words],
            cwd=folder / "elsewhere",
            env={**surroundings, "CMSPROOF_COUNTS": str(folder / "counts")},
            stdin=subprocess.DEVNULL,
            stdout=printed,
            stderr=subprocess.STDOUT,
            start_new_session=True,
        )


def side_by_side(runs: list[Run], folder: Path, surroundings: dict[str, str], limit: float):
    """Does the runs, as many at a time as there are processors, and gives each with its counts as it ends. What runs for longer than so
    many seconds is ended with all that it started, and so is all when this is."""
    waiting, running, until = deque(enumerate(runs)), {}, time.monotonic() + limit
    try:
        while waiting or running:
            while waiting and len(running) < len(os.sched_getaffinity(0)):
                number, run = waiting.popleft()
                place = folder / str(number)
                running[begun(run, place, surroundings)] = run, place
            time.sleep(0.02)
            for process in [process for process in running if process.poll() is not None]:
                yield running[process][0], counts_in(*running.pop(process), process.returncode)
            if time.monotonic() > until:
                raise SystemExit(f"on_installed: ended, since it took more than {limit} seconds")
    finally:
        for process in running:
            os.killpg(process.pid, signal.SIGKILL)
            process.wait()


def counts_in(run: Run, place: Path, status: int) -> dict:
    """How many a run had, how many of them are wrong, and how many were left out for a reason, as docs_test.count says it; and prints it."""
    kept = place / "counts"
    counts = json.loads(kept.read_text(encoding="utf-8")) if kept.exists() else {"all": 0, "wrong": 0, "left_out": {}}
    if status and not counts["wrong"]:
        counts["wrong"] = 1
        print(f"{run.name}: ended with status {status}")
    if counts["wrong"]:
        print((place / "printed").read_text(encoding="utf-8", errors="replace"))
    print(f"{run.name}: {SAID[run.part].format(**counts)}", flush=True)
    return counts


def told(found: list[tuple[Run, dict]]) -> int:
    """Says what was left out, and where, and in the last line how it went, and gives how many are wrong."""
    parts = []
    for part in [part for part in SAID if any(run.part == part for run, _ in found)]:
        ours = {run.name: counts for run, counts in found if run.part == part}
        for reason in sorted({reason for counts in ours.values() for reason in counts["left_out"]}):
            places = {name: counts["left_out"][reason] for name, counts in sorted(ours.items()) if reason in counts["left_out"]}
            where = ", ".join(f"{name} {count}" for name, count in places.items())
            print(f"{part}: {sum(places.values())} left out: {reason}: {where}")
        sums = {what: sum(counts[what] for counts in ours.values()) for what in ("all", "wrong")}
        left_out = sum(sum(counts["left_out"].values()) for counts in ours.values())
        parts.append(f"{part}: {SAID[part].format(**sums)}, {left_out} left out")
    print("on what is installed: " + "; ".join(parts))
    return sum(counts["wrong"] for _, counts in found)


def record(found: list[tuple[Run, dict]]) -> None:
    """Writes down which tests take long."""
    lines = [f"{name} {seconds}\n" for _, counts in found for name, seconds in counts.get("long", {}).items()]
    LONG.write_text(HEAD + "".join(sorted(lines)), encoding="utf-8")


def main() -> int:
    """Installs, runs what was asked for, and says in the last line how it went."""
    parser = argparse.ArgumentParser(description=__doc__, formatter_class=argparse.RawDescriptionHelpFormatter)
    parser.add_argument("--root", type=Path)
    parser.add_argument("--here", action="store_true", help=argparse.SUPPRESS)
    parser.add_argument("words", nargs="*")
    given = parser.parse_args()
    if given.here:
        return run_tests(given.words[0])
    what = given.words[0] if given.words else "all"
    if what not in ("tests", "documents", "gate", "short", "record", "all"):
        parser.error(f"what is {what}?")
    words = given.words[1:]
    if what == "documents":
        # (they are named from here, and read elsewhere)
        words = [os.path.abspath(word) for word in words]
        if missing := [word for word in words if not os.path.isfile(word)]:
            parser.error(f"there is no document {missing[0]}")
    signal.signal(signal.SIGTERM, lambda *_: sys.exit(143))
    with contextlib.ExitStack() as stack:
        folder = Path(stack.enter_context(tempfile.TemporaryDirectory(prefix="cmsproof-installed-")))
        if is_within(folder, TOP):
            raise SystemExit(f"on_installed: the folder for temporary files is in the repository: {folder}")
        # (who runs a test may be nobody, who must get there)
        folder.chmod(0o755)
        root = given.root.resolve() if given.root else install(folder / "root", what == "gate")
        runs = [run for one in (("tests", "documents") if what in ("short", "all") else (what,)) for run in runs_of(one, words)]
        surroundings = {**environment(root), **({"CMSPROOF_SHORT": "1"} if what == "short" else {})}
        found = list(side_by_side(runs, folder, surroundings, MOST if what == "gate" else math.inf))
    if what == "record":
        record(found)
    return 1 if told(found) else 0


if __name__ == "__main__":
    sys.exit(main())
