#!/usr/bin/env python3
"""Kills a run with SIGKILL at random moments, begins it again each time, and compares what is there with what a run makes that
is not killed:

    python3 tools/trying/killed.py [--files N] [--kills N] [--jobs N] [--seed S] [--folder FOLDER] [make | renew | rehash]

Without a command it is a run of `cmsproof-archive` with a state, whose rows are compared. The files are copies of those
in data/real and copies with one octet changed, in a temporary folder (or a new one in FOLDER); it goes on after each
kill.

With one it is `cmsproof evidence make`, `renew` or `rehash`, of 150 files by default, with tokens of `openssl ts`. It
begins with all the old records, of `make` with none, and half of the time is begun again with what a kill left. After a
kill each record must be the old one or the new one, whole, with the permissions that it had; and it may leave one file,
a beginning of a new record by the name NAME.ers.newN, which is no record's. At last a run that is not killed must end
with all the new ones, leave those as they are that were there, and make nothing else. A run that ends before it is
killed is no kill.

Exit status: 0 all is as it must be; 1 something differs.
"""
from __future__ import annotations

import argparse
import os
import random
import re
import shutil
import signal
import subprocess
import sys
import tempfile
import time
from collections import Counter
from pathlib import Path
from typing import NamedTuple

TOP = Path(__file__).resolve().parents[2]
INSTALLED, REAL, PROGRAM = TOP / "tools" / "installed", TOP / "data" / "real", TOP / "cmsproof"
sys.path[:0] = [str(INSTALLED), str(TOP / "tools")]
from cmsproof_tools.rows import STEP  # noqa: E402
from cmsproof_tools.state import State  # noqa: E402
from samples.authority import STAMPING, configure, make_certificate, openssl  # noqa: E402

BESIDE = re.compile(r"(.+\.ers)\.new[0-9]{1,2}")
# how many files are in a folder of those that have records, and the seconds by which a time-stamp is later than the one before
IN_FOLDER, LATER = 40, 1.1


# ---- a run with a state


def make_files(folder: Path, count: int, chance: random.Random) -> list[str]:
    """Makes copies and changed copies of the real files, a thousand in a folder, and gives their names."""
    kinds = [path.read_bytes() for path in sorted(REAL.glob("*.p7s"))]
    names = []
    for number in range(count):
        octets = bytearray(kinds[number % len(kinds)])
        if number % 3 == 0:
            octets[chance.randrange(len(octets))] ^= 1 << chance.randrange(8)
        if number % 1000 == 0:
            (folder / f"{number // 1000:04}").mkdir()
        names.append(f"{number // 1000:04}/{number % 1000:03}.p7s")
        (folder / names[-1]).write_bytes(octets)
    return names


def rows_of(path: Path) -> list[object]:
    """The rows of a state but for the moments when they were judged; none where a run was killed before it made one."""
    if not path.exists():
        return []
    with State(str(path), is_new=False) as state:
        return [row._replace(judged=0) for row, _ in state.rows()]


def run(folder: Path, state: str, jobs: int, kill: float | None = None) -> float:
    """The seconds of a run, which is killed after so many."""
    words = [sys.executable, INSTALLED / "cmsproof-archive", "--trust", REAL / "trust.txt", "--state", state]
    words += ["--files-from", "names", "--jobs", jobs]
    begun = time.monotonic()
    with open(folder / "lines", "ab") as lines:
        process = subprocess.Popen(list(map(str, words)), cwd=folder, stdout=lines, stderr=subprocess.DEVNULL)
        try:
            process.wait(kill)
        except subprocess.TimeoutExpired:
            process.kill()
            process.wait()
    return time.monotonic() - begun


def compared(folder: Path, files: int, kills: int, jobs: int, chance: random.Random) -> bool:
    """Makes all, runs all, says how long it took, and whether the rows are equal."""
    names = make_files(folder, files, chance)
    (folder / "names").write_text("".join(f"{name}\n" for name in names))
    time.sleep(STEP / 1e9)
    whole = run(folder, "whole", jobs)
    print(f"{files} files, {jobs} jobs: {whole:.1f} s without a kill, {files / whole:.0f} a second", flush=True)
    for number in range(1, kills + 1):
        took = run(folder, "killed", jobs, chance.uniform(0, 2 * whole / (kills + 1)))
        print(f"kill {number} after {took:.2f} s: {len(rows_of(folder / 'killed'))} rows", flush=True)
    took = run(folder, "killed", jobs)
    found, expected = rows_of(folder / "killed"), rows_of(folder / "whole")
    print(f"the last run: {took:.1f} s; {len(found)} rows, {len(expected)} without a kill", flush=True)
    return found == expected and len({row.name for row in found}) == files


# ---- a command that writes records


class Kept(NamedTuple):
    """A file: its octets, what may be done with it, and which file it is."""

    octets: bytes
    mode: int
    number: int


Files = dict[str, Kept]


def there(folder: Path) -> Files:
    """The files below a folder by their names."""
    found = {}
    for path in folder.rglob("*"):
        if not path.is_dir():
            about = path.lstat()
            found[str(path.relative_to(folder))] = Kept(path.read_bytes(), about.st_mode, about.st_ino)
    return found


def is_same(one: Kept | None, other: Kept | None) -> bool:
    """Whether two files, or what is there of them, have the same octets, with which the same may be done."""
    return (one and one[:2]) == (other and other[:2])


class Records:
    """A folder with files, a command that writes their records, and the records before it and after it."""

    def __init__(self, folder: Path, count: int, command: str) -> None:
        self.folder, self.names = folder, [f"{number // IN_FOLDER}/{number}" for number in range(count)]
        for name in self.names:
            (folder / "files" / name).parent.mkdir(parents=True, exist_ok=True)
            (folder / "files" / name).write_text(f"letter {name}\n")
        for digest in ("sha256", "sha512"):
            words = [f"{digest}sum", *self.names]
            done = subprocess.run(words, cwd=folder / "files", stdout=subprocess.PIPE, check=True)
            (folder / digest).write_bytes(done.stdout)
        make_certificate(folder, "tsa", STAMPING)
        configure(folder, "tsa.cnf", "tsa", digests="sha256, sha512", more="ess_cert_id_alg = sha256\n")
        (folder / "records").mkdir()
        self.words = self.prepared(command)
        shutil.copytree(folder / "records", folder / "before")
        self.old = there(folder / "before")
        begun = time.monotonic()
        wrong = self.end()
        self.took, self.new = time.monotonic() - begun, there(folder / "records")
        wrong += [name for name, one in self.new.items() if is_same(self.old.get(name), one)]
        if wrong or set(self.new) != {f"{name}.ers" for name in self.names}:
            raise SystemExit(f"{command} did not write each record")

    def prepared(self, command: str) -> list[str]:
        """The words of the command, whose token is there, and so are the old records."""
        make = ["make", "--token", "token", "--into", "records", "sha256"]
        self.stamp("token", "request", "--cert", "sha256")
        if command == "make":
            return make
        subprocess.run(self.command(make), cwd=self.folder, check=True)
        time.sleep(LATER)
        rehash = ["rehash", "--alg", "sha512", "--into", "records"]
        records = [f"records/{name}.ers" for name in self.names]
        first, last = ([command], records) if command == "renew" else (rehash, ["sha512"])
        self.stamp("later", *first, *last, "--request")
        return [*first, "--token", "later", *last]

    def command(self, words: list[str]) -> list[str]:
        """The words with the program before them."""
        return [str(PROGRAM), "evidence", *words]

    def stamp(self, to: str, *words: str) -> None:
        """Puts the token of the answer to the request that these words make into a file."""
        subprocess.run(self.command([*words, "asked"]), cwd=self.folder, check=True)
        openssl(self.folder, "ts", "-reply", "-config", "tsa.cnf", "-queryfile", "asked", "-out", "answer")
        openssl(self.folder, "ts", "-reply", "-in", "answer", "-token_out", "-out", to)

    def end(self) -> list[str]:
        """Runs the command, and gives what is wrong with how it ends."""
        done = subprocess.run(self.command(self.words), cwd=self.folder, capture_output=True)
        said = done.returncode, done.stdout, done.stderr
        return [] if said == (0, b"", b"") else [f"the next run ended with {said}"]

    def begin_again(self) -> None:
        """Puts the old records there."""
        shutil.rmtree(self.folder / "records")
        shutil.copytree(self.folder / "before", self.folder / "records")

    def kill(self, after: float) -> bool:
        """Begins the command, and kills it after so many seconds, if it has not ended."""
        with subprocess.Popen(self.command(self.words), cwd=self.folder) as running:
            time.sleep(after)
            running.kill()
        return running.returncode == -signal.SIGKILL

    def renewed(self, found: Files) -> Files:
        """The new records among files."""
        return {name: one for name, one in found.items() if name in self.new and is_same(one, self.new[name])}

    def beside(self, found: Files) -> Files:
        """The files that stand beside records."""
        return {name: one for name, one in found.items() if name not in self.new}

    def faults(self, before: Files, found: Files) -> list[str]:
        """What is wrong with the files that are there after a kill, by those that were there before it."""
        wrong = self.written_again(before, found)
        for name, one in self.new.items():
            if not any(is_same(found.get(name), due) for due in (self.old.get(name), one)):
                wrong.append(f"{name} is neither the old one nor the new one")
        more = [name for name in self.beside(found) if name not in before]
        for name in more:
            of = BESIDE.fullmatch(name)
            if not of or of[1] not in self.new or not self.new[of[1]].octets.startswith(found[name].octets):
                wrong.append(f"{name} is there, and is no beginning of a new record")
        return wrong + ([f"{len(more)} other files were made"] if len(more) > 1 else [])

    def faults_at_end(self, before: Files, found: Files) -> list[str]:
        """What is wrong with the files that are there after a run that was not killed, by those that were there before it."""
        wrong = [f"{name} is not the new one" for name in self.new if name not in self.renewed(found)]
        wrong += [f"{name} was made" for name in self.beside(found) if name not in before]
        return wrong + self.written_again(before, found)

    def written_again(self, before: Files, found: Files) -> list[str]:
        """Which new records are not those any more that they were, and which files beside records, if they are there still."""
        kept = self.renewed(before)
        kept.update((name, one) for name, one in self.beside(before).items() if name in found)
        return [f"{name} was written again" for name, one in kept.items() if found.get(name) != one]


def killed_in_a_row(records: Records, most: int, chance: random.Random, counts: Counter[str]) -> list[str]:
    """Kills the command, and half of the time what goes on then, so often at most; then ends it, and gives what is wrong."""
    records.begin_again()
    found, wrong, kills = there(records.folder / "records"), list[str](), 0
    while kills < most and (not kills or chance.random() < 0.5):
        if not records.kill(chance.uniform(0, records.took)):
            counts["runs that ended before"] += 1
            break
        before, found, kills = found, there(records.folder / "records"), kills + 1
        wrong += records.faults(before, found)
        done = len(records.renewed(found))
        counts["at no new record" if not done else "at all" if done == len(records.new) else "between"] += 1
        more = [one.octets for name, one in records.beside(found).items() if name not in before]
        whole = more and more[0] in {one.octets for one in records.new.values()}
        counts["a whole file beside" if whole else "a beginning beside" if more else "nothing beside"] += 1
    counts["kills"] += kills
    wrong += records.end()
    return wrong + records.faults_at_end(found, there(records.folder / "records"))


def compared_records(folder: Path, command: str, files: int, kills: int, chance: random.Random) -> bool:
    """Makes all, kills the command so often, says what was found, and whether all was as it must be."""
    records, counts, wrong = Records(folder, files, command), Counter[str](), list[str]()
    print(f"{command}: {files} records: {records.took:.2f} s without a kill", flush=True)
    while counts["kills"] < kills:
        more = killed_in_a_row(records, kills - counts["kills"], chance, counts)
        for what in more:
            print(f"kill {counts['kills']}: {what}", flush=True)
        wrong += more
    print(", ".join(f"{name} {count}" for name, count in counts.items()), flush=True)
    return not wrong


def main() -> int:
    """Reads the words and tries it."""
    parser = argparse.ArgumentParser()
    parser.add_argument("command", nargs="?", choices=("make", "renew", "rehash"))
    parser.add_argument("--files", type=int)
    parser.add_argument("--kills", default=10, type=int)
    parser.add_argument("--jobs", default=len(os.sched_getaffinity(0)), type=int)
    parser.add_argument("--seed", default=random.randrange(1 << 32), type=int)
    parser.add_argument("--folder")
    given = parser.parse_args()
    print(f"seed {given.seed}")
    chance = random.Random(given.seed)
    with tempfile.TemporaryDirectory(dir=given.folder) as folder:
        if given.command:
            same = compared_records(Path(folder), given.command, given.files or 150, given.kills, chance)
        else:
            same = compared(Path(folder), given.files or 200000, given.kills, given.jobs, chance)
    print("all is as it must be" if same else "SOMETHING DIFFERS")
    return 0 if same else 1


if __name__ == "__main__":
    sys.exit(main())
