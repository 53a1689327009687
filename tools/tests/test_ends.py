"""Tests of how the tools begin and end: with signals, descriptors that are closed or full, and a library that answers otherwise."""
import fcntl
import gc
import json
import os
import shutil
import signal
import subprocess
import sys
import time
import unittest
from unittest import mock

from archiving import REFUSED, SAID, WithFiles
from making import ACCEPTED, INSTALLED, REAL, needs, without_library

from cmsproof import Unexpected, library  # noqa: E402
from cmsproof.verdicts import verdict_of  # noqa: E402
from cmsproof_tools import running  # noqa: E402

# F_SETPIPE_SZ of Linux, which Python names from 3.10 on
PIPE_SIZE = 1031
# a check that leaves the number of a process that it started in the folder and goes on for a minute
SLOW = """
def slow(work, name):
    started = subprocess.Popen(["sleep", "60"])
    open(f"numbers/{started.pid}", "w").close()
    started.wait()
archive.outcomes_of = slow
"""
# a check that ends its own process at some files
KILLED = """
was = archive.outcomes_of
def killed(work, name):
    if name in ("b", "e"):
        os.kill(os.getpid(), 9)
    return was(work, name)
archive.outcomes_of = killed
"""
# a check that fails in some way of its own
FAILING = """
def failing(*_, **__):
    raise {raised}
checking.cmsproof.calls.verdict_of = checking.cmsproof.calls.said_of = failing
"""


def is_there(number):
    """Whether a process of this number runs."""
    try:
        with open(f"/proc/{number}/stat", encoding="ascii", errors="replace") as file:
            return file.read().rpartition(")")[2].split()[0] not in "ZX"
    except FileNotFoundError:
        return False


def soon(held):
    """Whether this holds within some seconds."""
    end = time.monotonic() + 15
    while time.monotonic() < end:
        if held():
            return True
        time.sleep(0.05)
    return held()


class Beginning(unittest.TestCase):
    """What a tool does before it reads a file."""

    def test_modules_are_read(self):
        with running.reading():
            self.assertFalse(gc.isenabled())
        self.assertTrue(gc.isenabled())
        with self.assertRaises(ImportError), running.reading():
            raise ImportError
        self.assertTrue(gc.isenabled())

    def test_how_wide_the_help_is(self):
        for said in ("77", "1", "0", "-3", "", "wide", None):
            environment = {name: value for name, value in os.environ.items() if name != "COLUMNS"}
            environment.update({} if said is None else {"COLUMNS": said})
            with self.subTest(said), mock.patch.dict(os.environ, environment, clear=True):
                self.assertEqual(running.columns.__wrapped__(), shutil.get_terminal_size().columns)


class Answers(WithFiles):
    """What the library says in numbers, with lines that go with it, and with others."""

    def said(self, status, line, verdict, **numbers):
        """The verdict of a check that ended so."""
        return verdict_of(status, library.Answer(verdict=verdict, **numbers), line.encode())

    def test_each_status_needs_its_line(self):
        yes, no, form, failed = range(1, 5)
        rows = [
            (1, ACCEPTED + "\n", yes, {"seconds": 1795331879}, True),
            (1, "accepted 20261122071759.5Z\n", yes, {"seconds": 1795331879, "nanoseconds": 500000000}, True),
            (1, "accepted 00000101000000Z\n", yes, {"seconds": -62167219200}, True),
            (2, REFUSED + "\n", no, {"letter": ord("S"), "number": 10, "signer": 1}, True),
            (2, "refused C4 NoContent\n", no, {"letter": ord("C"), "number": 4}, True),
            (3, "malformed M3 Indefinite at 1\n", form, {"letter": ord("C"), "number": 1, "kind": 3, "at": 1}, True),
            (5, "failed X5 TooMuch\n", failed, {"letter": ord("X"), "number": 5}, True),
            # no status is 0, and what goes with another one is nothing
            (0, ACCEPTED + "\n", yes, {"seconds": 1795331879}, False),
            (2, ACCEPTED + "\n", yes, {"seconds": 1795331879}, False),
            (1, ACCEPTED + "\n", no, {"seconds": 1795331879}, False),
            (1, ACCEPTED + "\n", 0, {"seconds": 1795331879}, False),
            (1, ACCEPTED + "\n", 10, {"seconds": 1795331879}, False),
            (6, ACCEPTED + "\n", yes, {"seconds": 1795331879}, False),
            (1, REFUSED + "\n", no, {"letter": ord("S"), "number": 10}, False),
            (2, ACCEPTED + "\n", no, {"letter": ord("S"), "number": 10}, False),
            (3, REFUSED + "\n", form, {"letter": ord("C"), "number": 1, "kind": 3}, False),
            # the line is another one than the numbers
            (1, ACCEPTED + "\n", yes, {"seconds": 1795331880}, False),
            (1, ACCEPTED + "\n", yes, {"seconds": 1795331879, "nanoseconds": 1}, False),
            (1, "accepted 2026112207175Z\n", yes, {"seconds": 1795331879}, False),
            (1, "accepted 20261122071759.0Z\n", yes, {"seconds": 1795331879}, False),
            (1, REFUSED + "\n", yes, {"seconds": 1795331879}, False),
            (2, "refused signer 1 S9 SignatureFails\n", no, {"letter": ord("S"), "number": 10}, False),
            # no line, or more than one
            (1, "", yes, {"seconds": 1795331879}, False),
            (1, "\n", yes, {"seconds": 1795331879}, False),
            (1, ACCEPTED, yes, {"seconds": 1795331879}, False),
            (1, " " + ACCEPTED + "\n", yes, {"seconds": 1795331879}, False),
            (1, ACCEPTED + " \n", yes, {"seconds": 1795331879}, False),
            (1, ACCEPTED + "\n\n", yes, {"seconds": 1795331879}, False),
            (1, ACCEPTED + "\n" + REFUSED + "\n", yes, {"seconds": 1795331879}, False),
            (1, ACCEPTED.replace("2", "\u0662") + "\n", yes, {"seconds": 1795331879}, False),
        ]
        for status, line, verdict, numbers, good in rows:
            with self.subTest(status=status, line=line, verdict=verdict, numbers=numbers):
                if good:
                    found = self.said(status, line, verdict, **numbers)
                    self.assertEqual((found.line + "\n", found.accepted), (line, line.startswith("accepted ")))
                else:
                    self.assertRaises(Unexpected, self.said, status, line, verdict, **numbers)

    def test_what_fails_in_a_check_is_no_verdict(self):
        self.file("a")
        rows = [
            ("cmsproof.Unexpected('status 9')", "failed archive: Unexpected (status 9)"),
            ("MemoryError", "failed memory"),
            ("OSError(5, 'x')", "failed archive: OSError ([Errno 5] x)"),
            ("ZeroDivisionError('accepted 1Z: accepted 1Z')", None),
        ]
        for raised, line in rows:
            code = "import cmsproof\n" + FAILING.format(raised=raised)
            done = subprocess.run([*self.changed(code), "a"], cwd=self.folder, capture_output=True, text=True, check=False)
            self.assertEqual((done.returncode, done.stderr, len(done.stdout.splitlines())), (4, "", 1))
            self.assertNotRegex(done.stdout, ": accepted [0-9.]+Z\n")
            self.assertTrue(line is None or done.stdout == f"a: {line}\n", done.stdout)


class Descriptors(WithFiles):
    """Standard descriptors that are closed, or whose other end takes nothing."""

    def shell(self, redirected, tool, *words, said=b""):
        """The status of a tool, its standard output and standard error, started by a shell with these redirections."""
        words = ["sh", "-c", f'exec "$0" "$@" {redirected}', sys.executable, INSTALLED / tool, *map(str, words)]
        done = subprocess.run(words, cwd=self.folder, input=said, capture_output=True, check=False, timeout=60)
        return done.returncode, done.stdout.decode(), done.stderr.decode()

    def test_cmsproof_archive(self):
        self.file("a"), self.file("r", REFUSED)
        words = ["cmsproof-archive", "--trust", "list"]
        lines, closed = f"a: {ACCEPTED}\nr: {REFUSED}\n", "cmsproof-archive: failed write -: Bad file descriptor\n"
        rows = [
            ("2>&-", ["a", "r"], (1, lines, "")),
            (">&-", ["a", "r"], (4, "", closed)),
            ("<&-", ["a", "r"], (1, lines, "")),
            ("<&-", ["-"], (4, "", "cmsproof-archive: failed read -: Bad file descriptor\n")),
            ("<&-", ["/dev/stdin"], (4, "/dev/stdin: failed open /dev/stdin: No such file or directory\n", "")),
            ("<&- >&- 2>&-", ["a", "r"], (4, "", "")),
            (">&- 2>&-", ["a"], (4, "", "")),
            ("<&- 2>&-", ["a"], (0, f"a: {ACCEPTED}\n", "")),
            (">/dev/full", ["a"], (4, "", "cmsproof-archive: failed write -: No space left on device\n")),
            (">/dev/full", ["--help"], (4, "", "cmsproof-archive: failed write -: No space left on device\n")),
            (">&-", ["--version"], (4, "", closed)),
            ("2>/dev/full", ["--quick"], (4, "", "")),
        ]
        for redirected, names, expected in rows:
            self.assertEqual(self.shell(redirected, *words, *names), expected, (redirected, names))
        # nothing was written into a file that could have got the number of a closed descriptor
        self.assertEqual((self.folder / "a").read_bytes(), SAID[ACCEPTED])

    def test_the_other_tools(self):
        (self.folder / "questions").write_text("cmsproof questions 1\n- - - - -\n")
        unjudged, listed = "cmsproof-verify: line 2: not judged: ", ["cmsproof-trust", "--signer", REAL / "blob.bin"]
        for redirected in ("2>&-", "2>&- <&-", "2>&- >&- <&-"):
            found = self.shell(redirected, "cmsproof-verify", "questions", "answers")
            self.assertEqual(found, (0, "", ""), redirected)
            self.assertEqual((self.folder / "answers").read_bytes(), b"cmsproof answers 1\n")
            self.assertEqual(self.shell(redirected, *listed), (2, "", ""), redirected)
        status, out, err = self.shell(">&-", "cmsproof-verify", "questions", "answers")
        self.assertEqual((status, out, err[: len(unjudged)]), (0, "", unjudged))
        self.assertEqual(self.shell("2>/dev/full", "cmsproof-verify", "questions")[:2], (4, "cmsproof answers 1\n"))
        for tool in ("cmsproof-verify", "cmsproof-trust"):
            for words in (["--help"], ["--version"]):
                full = f"{tool}: failed write -: No space left on device\n"
                self.assertEqual(self.shell(">/dev/full", tool, *words), (4, "", full))
                self.assertEqual(self.shell(">&-", tool, *words)[0], 4)

    def test_a_reader_that_leaves(self):
        names = [self.file(f"n{number}") for number in range(400)]
        words = [sys.executable, INSTALLED / "cmsproof-archive", "--trust", "list", *names]
        tool = subprocess.Popen(words, cwd=self.folder, stdout=subprocess.PIPE, stderr=subprocess.PIPE)
        # (into which not all lines go)
        fcntl.fcntl(tool.stdout, PIPE_SIZE, 4096)
        self.assertEqual(tool.stdout.readline(), f"n0: {ACCEPTED}\n".encode())
        tool.stdout.close()
        told = tool.stderr.read().decode()
        tool.stderr.close()
        self.assertEqual((tool.wait(60), told), (4, "cmsproof-archive: failed write -: Broken pipe\n"))

    def test_the_library_that_is_missing_is_that_of_an_interpreter(self):
        environment = without_library(self.folder)
        for tool, words in (("archive", ["--trust", "list", "a"]), ("trust", ["--signer", "list"]), ("verify", ["questions"])):
            (self.folder / "questions").write_text("cmsproof questions 1\n- - - - -\n")
            words = [sys.executable, INSTALLED / f"cmsproof-{tool}", *words]
            done = subprocess.run(words, cwd=self.folder, env=environment, capture_output=True, check=False)
            self.assertEqual((done.returncode, len(done.stderr.splitlines())), (4, 1))
            self.assertIn(f"`cryptography` is missing for {sys.executable} (", done.stderr.decode())


class Signals(WithFiles):
    """The tool is ended, or one of the processes that it started."""

    def started(self, *names, jobs="2"):
        """The tool at work, slowly, with as many workers as there can be."""
        (self.folder / "numbers").mkdir(exist_ok=True)
        words = [*self.changed(SLOW), "--jobs", jobs]
        pipe = subprocess.PIPE

        def heed_signals():
            # (what runs these tests behind a shell's back may have been told to ignore them)
            for number in (signal.SIGINT, signal.SIGQUIT, signal.SIGHUP):
                signal.signal(number, signal.SIG_DFL)

        tool = subprocess.Popen(
            [*words, *names], cwd=self.folder, stdout=pipe, stderr=pipe, start_new_session=True, preexec_fn=heed_signals
        )
        self.addCleanup(tool.stdout.close), self.addCleanup(tool.stderr.close), self.addCleanup(tool.kill)
        self.assertTrue(soon(lambda: len(list((self.folder / "numbers").iterdir())) == min(int(jobs), len(names))))
        return tool

    def numbers(self):
        """The processes that the workers started."""
        return [int(path.name) for path in (self.folder / "numbers").iterdir()]

    @needs("ps")
    def test_what_a_tool_started_ends_with_it(self):
        for name in "abc":
            self.file(name)
        for number in (signal.SIGTERM, signal.SIGHUP, signal.SIGKILL, signal.SIGINT, signal.SIGQUIT):
            for jobs in ("1", "2"):
                for path in (self.folder / "numbers").glob("*"):
                    path.unlink()
                tool = self.started(*"abc", jobs=jobs)
                workers = [
                    int(text)
                    for text in subprocess.run(
                        ["ps", "-o", "pid=", "--ppid", str(tool.pid)], capture_output=True, check=False
                    ).stdout.split()
                ]
                self.assertEqual(len(workers), int(jobs))
                tool.send_signal(number)
                tool.wait(15)
                self.assertTrue(soon(lambda: not any(map(is_there, [*workers, *self.numbers()]))), (number, jobs))
                self.assertEqual(tool.stdout.read(), b"")
                self.assertEqual(tool.returncode, 4 if number == signal.SIGINT else -number)

    def test_a_worker_that_is_killed_costs_its_file_alone(self):
        names = [self.file(name) for name in "abcdef"]
        lines = [f"{name}: {'failed worker: it was ended by signal 9' if name in 'be' else ACCEPTED}" for name in names]
        for jobs in ("1", "2", "6"):
            words = [*self.changed(KILLED), "--jobs", jobs, *names]
            done = subprocess.run(words, cwd=self.folder, capture_output=True, text=True, check=False, timeout=60)
            self.assertEqual((done.returncode, done.stdout.splitlines(), done.stderr), (4, lines, ""))
        done = subprocess.run([*words, "--json"], cwd=self.folder, capture_output=True, check=False, timeout=60)
        verdicts = ["failed" if name in "be" else "accepted" for name in names]
        self.assertEqual([json.loads(line).get("verdict") for line in done.stdout.splitlines()[:6]], verdicts)

    @needs("ps")
    def test_a_worker_that_is_killed_leaves_no_process(self):
        self.file("a")
        tool = self.started("a", jobs="1")
        children = subprocess.run(["ps", "-o", "pid=", "--ppid", str(tool.pid)], capture_output=True, check=True).stdout
        os.kill(int(children), signal.SIGKILL)
        out, err = tool.communicate(timeout=30)
        self.assertEqual((tool.returncode, out, err), (4, b"a: failed worker: it was ended by signal 9\n", b""))
        self.assertTrue(soon(lambda: not any(map(is_there, self.numbers()))))


if __name__ == "__main__":
    unittest.main()
