#!/usr/bin/env python3
"""How `stamp check` takes DATA that come through a pipe: 5 GiB, and pipes that end too early or stop in the middle, and what cannot be
read. Beside the cases of FIFOs stand those of `check --content`, which must wait and end alike.

    python3 tools/trying/stamp_pipes.py [PROGRAM] [--gib N]

PROGRAM is ./cmsproof by default. Of the long DATA it prints the greatest resident memory of the program, `VmHWM` of proc(5), when it
has taken all that was written and waits for the end; it may be 3 MiB more than with three octets. A line for each case, and status 1
where one differs.
"""
from __future__ import annotations

import argparse
import array
import fcntl
import hashlib
import os
import re
import subprocess
import sys
import tempfile
import termios
import time
from pathlib import Path

sys.path.insert(0, str(Path(__file__).resolve().parent.parent))
from samples import building, signed_files as made  # noqa: E402
from samples.building import key  # noqa: E402
from trying.hostile_inputs import CHECK, STAMP_CHECK, TRUST, write  # noqa: E402

PIECE = hashlib.shake_256(b"stamped").digest(1 << 20)
GROWTH, QUIET = 3 << 10, 2.0
ACCEPTED, DIFFERS = (0, "accepted 20240115100000Z\n", ""), (1, "refused K9 ImprintDiffers\n", "")
CUT, UNREAD = (1, "refused signer 1 S6 DigestDiffers\n", ""), (4, "", "failed X1 ReadFailed\n")


def fifo_words(words):
    """The words with a FIFO in the last place, or as the content."""
    return [*words, "fifo"] if words[0] == "stamp" else [*CHECK, "--content", "fifo", *words[len(CHECK) :]]


class Pipes:
    """A program in a folder, and what was found."""

    def __init__(self, program, folder):
        self.program, self.folder, self.differences = os.path.abspath(program), folder, 0

    def told(self, name, answer, wanted, more=""):
        """Prints what was answered, and counts it where something else was wanted."""
        self.differences += answer != wanted
        differs = "" if answer == wanted else f"  DIFFERS: {wanted}"
        print("%-58s %s%s%s" % (name, (answer[1] + answer[2]).strip(), more, differs), flush=True)

    def start(self, words, **more):
        """The program with these words."""
        more = {"stdin": subprocess.DEVNULL, **more}
        return subprocess.Popen(
            [self.program, *words], cwd=self.folder, stdout=subprocess.PIPE, stderr=subprocess.PIPE, text=True, **more
        )

    def opened(self, words):
        """The program with a FIFO among its words, and the end of it that is written; None where the program ended without it."""
        path = os.path.join(self.folder, "fifo")
        if os.path.exists(path):
            os.unlink(path)
        os.mkfifo(path)
        running = self.start(words)
        for _ in range(500):
            try:
                return running, os.open(path, os.O_WRONLY | os.O_NONBLOCK)
            except OSError:
                time.sleep(0.01)
        return running, None


def ended(running):
    """Exit status and both outputs."""
    out, err = running.communicate(timeout=120)
    return running.returncode, out, err


def memory(process):
    """The greatest resident memory of a process so far, in KiB; 0 of one that has ended."""
    found = re.search(r"^VmHWM:\s+(\d+) kB$", Path(f"/proc/{process}/status").read_text(), re.M)
    return int(found[1]) if found else 0


def taken(descriptor):
    """Waits until nothing is left in a pipe, or nobody reads it, and a little longer."""
    left = array.array("i", [1])
    for _ in range(6_000):
        if not left[0]:
            break
        fcntl.ioctl(descriptor, termios.FIONREAD, left)
        time.sleep(0.01)
    time.sleep(0.2)


def put(descriptor, octets):
    """Writes all of the octets."""
    os.set_blocking(descriptor, True)
    rest = memoryview(octets)
    while rest:
        rest = rest[os.write(descriptor, rest) :]


def piped(pipes, pieces, last=b""):
    """The answer about DATA of so many pieces and these octets on standard input, and the memory."""
    reader, writer = os.pipe()
    running = pipes.start([*STAMP_CHECK, "stamp", "-"], stdin=reader)
    os.close(reader)
    try:
        for _ in range(pieces):
            put(writer, PIECE)
        put(writer, last)
        taken(writer)
        most = memory(running.pid)
    except BrokenPipeError:
        most = 0  # it ended before
    os.close(writer)
    return ended(running), most


def stamp_of(pipes, digest):
    """A token on octets with this digest, and the answer to its question."""
    token = building.Token(imprint=digest)
    Path(pipes.folder, "stamp").write_bytes(token.octets)
    lines = ["cmsproof answers 1", made.PLAIN.question(key(1)), token.signer.question(key(2))]
    Path(pipes.folder, "answers").write_text("".join(line + "\n" for line in lines))


def long_data(pipes, pieces):
    """DATA of three octets, then of so many pieces, of the same without the last octet, and with one more."""
    stamp_of(pipes, hashlib.sha256(b"abc").digest())
    answer, few = piped(pipes, 0, b"abc")
    pipes.told("3 octets through standard input", answer, ACCEPTED, f", {few} KiB")
    hasher = hashlib.sha256()
    for _ in range(pieces):
        hasher.update(PIECE)
    stamp_of(pipes, hasher.digest())
    for name, count, last, wanted in (
        (f"{pieces} MiB", pieces, b"", ACCEPTED),
        (f"{pieces} MiB less one octet", pieces - 1, PIECE[:-1], DIFFERS),
        (f"{pieces} MiB and one octet", pieces, b"\0", DIFFERS),
    ):
        answer, most = piped(pipes, count, last)
        pipes.told(f"{name} through standard input", answer, wanted, f", {most} KiB, {most - few} more")
        if not 0 < most <= few + GROWTH:
            pipes.differences += 1
            print(f"DIFFERS: at most {GROWTH} KiB more are wanted")


def stopped(pipes, words, good, bad):
    """A FIFO in which the DATA stop: the program waits; it goes on, or ends with what has come."""
    named = " ".join(words[:2] if words[0] == "stamp" else ["check --content"])
    for name, rest, wanted in (("goes on", b"c", good), ("ends", b"", bad)):
        running, writer = pipes.opened(fifo_words(words))
        if writer is None:
            pipes.told(f"{named}: a FIFO", ended(running), wanted)
            continue
        put(writer, b"ab")
        time.sleep(QUIET)
        waits = running.poll() is None
        if waits:
            put(writer, rest)
        os.close(writer)
        answer = ended(running)
        pipes.told(f"{named}: a FIFO that stops for {QUIET:.0f} s and {name}", answer if waits else (None, "ended", ""), wanted)


def killed(pipes, words, bad):
    """Who writes the FIFO is killed: the program takes what has come for all."""
    named = " ".join(words[:2] if words[0] == "stamp" else ["check --content"])
    running, writer = pipes.opened(fifo_words(words))
    if writer is None:
        return pipes.told(f"{named}: a FIFO whose writer is killed", ended(running), bad)
    child = subprocess.Popen(["sh", "-c", "printf ab; exec sleep 60"], stdout=writer)
    os.close(writer)
    time.sleep(0.5)
    child.kill()
    child.wait()
    return pipes.told(f"{named}: a FIFO whose writer is killed", ended(running), bad)


def unread(pipes):
    """What cannot be read: a folder, and the memory of the process at the address 0."""
    os.mkdir(os.path.join(pipes.folder, "folder"))
    for path in ("folder", "/proc/self/mem"):
        pipes.told(f"stamp check: {path}", ended(pipes.start([*STAMP_CHECK, "token", path])), UNREAD)
        content = [*CHECK, "--content", path, "detached"]
        pipes.told(f"check --content: {path}", ended(pipes.start(content)), UNREAD)
    for words in ([*STAMP_CHECK, "token", "-"], [*CHECK, "--content", "-", "detached"]):
        closed = pipes.start(words, preexec_fn=lambda: os.close(0), stdin=None)
        pipes.told(f"{words[0]}: standard input that is closed", ended(closed), (4, "", "failed open -\n"))


def unopened(pipes):
    """A FIFO that nobody writes is opened, which waits, only for a stamp that keeps K1 to K8."""
    Path(pipes.folder, "unknown").write_bytes(building.Token(imprint=b"", extensions=building.extension("2.999.5", b"")).octets)
    os.mkfifo(os.path.join(pipes.folder, "nobody"))
    wanted = (1, "refused K7 CriticalExtension\n", "")
    refused = ended(pipes.start([*STAMP_CHECK, "unknown", "nobody"]))
    pipes.told("stamp check: a FIFO that nobody writes, and K7", refused, wanted)
    running = pipes.start([*STAMP_CHECK, "token", "nobody"])
    time.sleep(QUIET)
    waits = running.poll() is None
    running.kill()
    running.communicate()
    pipes.told("stamp check: a FIFO that nobody writes", (0, "waits" if waits else "ends", ""), (0, "waits", ""))


def main():
    """Tries all."""
    parser = argparse.ArgumentParser(description=__doc__, formatter_class=argparse.RawDescriptionHelpFormatter)
    parser.add_argument("program", nargs="?", default="./cmsproof")
    parser.add_argument("--gib", type=float, default=5)
    words = parser.parse_args()
    with tempfile.TemporaryDirectory() as folder:
        pipes = Pipes(words.program, folder)
        write(folder)
        Path(folder, "trust").write_bytes(TRUST)
        stopped(pipes, [*STAMP_CHECK, "token"], ACCEPTED, DIFFERS)
        stopped(pipes, [*CHECK, "detached"], ACCEPTED, CUT)
        killed(pipes, [*STAMP_CHECK, "token"], DIFFERS)
        killed(pipes, [*CHECK, "detached"], CUT)
        unread(pipes)
        unopened(pipes)
        long_data(pipes, max(1, int(words.gib * 1024)))
    print(f"{pipes.differences} differ")
    sys.exit(1 if pipes.differences else 0)


if __name__ == "__main__":
    main()
