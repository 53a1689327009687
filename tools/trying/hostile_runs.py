"""Runs a program over hostile inputs and compares each answer with the expected one, for hostile.py and fuzz.py."""
import os
import re
import resource
import shutil
import subprocess
from pathlib import Path

MALFORMED = re.compile(r"malformed (?:(?:request|response|first|second|record) )?M\d+ \w+ at \d+\n")
REFUSED = re.compile(
    r"(?:refused (?:(?:first|second|record) )?(?:signer \d+ |chain \d+ stamp \d+ )?(?:token 1 )?(?:[A-Z]\d+ )*(?:\w+|M\d+ \w+ at \d+)"
    r"|different|collision)\n"
)
LIST = re.compile(r"(?:(?:trust|answers) [LB]\d \w+ at line \d+|sums U1 Line at line \d+|sums U2 Empty)\n")
FAILED = re.compile(r"(?:failed (?:(?:open|read|size|write|replace) [^\n]*|memory|X\d \w+))\n")
# the folder into which records are made
MADE = "made"


def fault_of_form(status, out, err):
    """What is wrong with an answer, whatever was asked: a status, stream or line that docs/LINES.md doesn't have; or None."""
    if status not in (0, 1, 2, 3, 4):
        return "ended with %d" % status
    if status == 0 and err:
        return "status 0 with a line on standard error"
    if status in (1, 2) and err:
        return "status %d with a line on standard error" % status
    if status == 1 and not REFUSED.fullmatch(out):
        return "status 1 without the line of a rule"
    if status == 2 and not (MALFORMED.fullmatch(out) or LIST.fullmatch(out)):
        return "status 2 without the line of a fault"
    if status == 4 and not FAILED.fullmatch(err):
        return "status 4 without the line of a failure"
    return None


def octets_in(folder, name):
    """The octets of a file in a folder, None if it is not there."""
    try:
        with open(os.path.join(folder, name), "rb") as file:
            return file.read()
    except FileNotFoundError:
        return None


class Runs:
    """A program, a folder in which it runs, and the counts of each family."""

    def __init__(self, program, folder):
        self.program, self.folder, self.step, self.checked = os.path.abspath(program), folder, 1, False
        self.counts, self.differences, self.family = {}, [], None

    def put(self, name, octets):
        with open(os.path.join(self.folder, name), "wb") as file:
            file.write(octets)

    def get(self, name):
        return octets_in(self.folder, name)

    def remove(self, name):
        if os.path.exists(os.path.join(self.folder, name)):
            os.unlink(os.path.join(self.folder, name))

    def run(self, words, **more):
        """Exit status and both streams. A run that does not end in a minute has the status -1."""
        more = {"stdout": subprocess.PIPE, "stderr": subprocess.PIPE, "stdin": subprocess.DEVNULL, "timeout": 60, **more}
        try:
            done = subprocess.run([self.program, *words], cwd=self.folder, close_fds=False, **more)
        except subprocess.TimeoutExpired:
            return -1, "", "no end in a minute"
        return done.returncode, (done.stdout or b"").decode("latin-1"), (done.stderr or b"").decode("latin-1")

    def note(self, what, words, answer):
        """Counts a case, and keeps it where something is wrong with it."""
        self.counts[self.family] = self.counts.get(self.family, 0) + 1
        if what is not None:
            self.differences.append((self.family, what, words, answer))
            print("DIFFERS", self.family, " ".join(words), "|", what, "| answered", repr(answer)[:300], flush=True)

    def made(self):
        """The files in the folder into which records are made, by their paths."""
        top = Path(self.folder, MADE)
        return {str(path.relative_to(self.folder)): path.read_bytes() for path in top.rglob("*") if path.is_file()}

    def empty(self):
        """Makes the folder into which records are made anew."""
        shutil.rmtree(Path(self.folder, MADE), ignore_errors=True)
        os.mkdir(Path(self.folder, MADE))

    def differs(self, words, due):
        """Whether files have something else after a command than what is due by their names, or another one was made."""
        there = {**(self.made() if MADE in words else {}), **{name: self.get(name) for name in {"out", *due}}}
        return {name: octets for name, octets in there.items() if octets is not None} != due

    def case(self, words, line, status, out=False, limit=None):
        """One run that is to print this line, None for any, and end with this status. `out` is what the file `out` then has to
        hold, None where it must not be there, False where the command makes none, or what files have that are there then, and no other one
        in the folder into which records are made. Gives the status."""
        if out is not False:
            self.remove("out")
        if MADE in words:
            self.empty()
        answer = self.run(words, **({"preexec_fn": limit} if limit else {}))
        what = fault_of_form(*answer)
        printed = answer[2] if status in (3, 4) else answer[1]
        if what is None and answer[0] != status:
            what = "status %d is expected" % status
        if what is None and line is not None and printed != line:
            what = "%r is expected" % line
        if isinstance(out, dict):
            differs = self.differs(words, out)
        else:
            differs = out is not False and self.get("out") != out
        if what is None and differs:
            what = "the output file differs"
        self.note(what, words, answer)
        return answer[0]


def measured(words, folder, stack=None, room=None):
    """Exit status, what was printed, and seconds of the processor of one run, with a stack and with memory of so many octets. (What the
    system counts as a process's most memory begins with that of the process it came from.)"""

    def limit():
        for which, most in ((resource.RLIMIT_STACK, stack), (resource.RLIMIT_AS, room)):
            if most is not None:
                resource.setrlimit(which, (most, most))

    path = os.path.join(folder, "measured")
    with open(path, "wb") as out:
        child = subprocess.Popen(words, cwd=folder, stdin=subprocess.DEVNULL, stdout=out, stderr=out, preexec_fn=limit)
        _, status, used = os.wait4(child.pid, 0)
        child.returncode = os.waitstatus_to_exitcode(status)
    with open(path, "rb") as file:
        said = file.read(400).decode("latin-1")
    return child.returncode, said, used.ru_utime + used.ru_stime
