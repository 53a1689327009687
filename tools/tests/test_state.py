"""Tests of cmsproof-archive --state: what is judged again, a run that is killed, and states that are damaged or another's."""
import argparse
import ctypes
import functools
import hashlib
import os
import random
import resource
import shutil
import sqlite3
import subprocess
import sys
import tempfile
import time
import unittest
from pathlib import Path
from unittest import mock

from archiving import CHANGED
from making import INSTALLED, MODULES, PROGRAM, REAL, as_nobody, folder_of, need_tools, run_tool

need_tools()

from cmsproof.octets import COPIED, File
from cmsproof_tools import report, rows, versions
from cmsproof_tools.resuming import moment_of
from cmsproof_tools.running import Stop
from cmsproof_tools.state import INSERT, Basis, State, grounds_in

TRUST = REAL / "trust.txt"
DIFFERS = "refused signer 1 S6 DigestDiffers"
GOOD, OTHER, BARE = "rsa_attached_ts.p7s", "ec_attached_ts.p7s", "rsa_attached.p7s"
# how long it takes until a change of a file cannot have the time of the change before
STEP = rows.STEP / 1e9 + 0.1


def archive(folder, *words, trust=TRUST, state="state"):
    """The status of the tool, the lines that it printed by the names, and standard error."""
    told = run_tool("cmsproof-archive", "--trust", trust, "--state", state, "--jobs", "1", *words, cwd=folder)
    return told[0], dict(line.split(": ", 1) for line in told[1].decode().splitlines()), told[2]


def token_in(octets):
    """Where the one token of a file begins and ends: behind the name of its attribute and the head of a SET (RFC 3161 appendix A)."""
    at = octets.index(bytes.fromhex("060b2a864886f70d010910020e")) + 13
    begin = header_end(octets, at)
    return begin, at + (begin - at) + int.from_bytes(octets[at + 2 : begin], "big")


def header_end(octets, at):
    """Where the contents of an element begin, whose length has further octets."""
    return at + 2 + octets[at + 1] - 0x80


def with_tokens(octets, tokens):
    """A file with other tokens in the place of its one: each element around them gets its new length (X.690 8.1.3)."""
    begin, end = token_in(octets)
    around, at = [], 0
    while at < begin:
        inside = header_end(octets, at) if octets[at + 1] > 0x80 else at + 2
        size = int.from_bytes(octets[at + 2 : inside], "big") if octets[at + 1] > 0x80 else octets[at + 1]
        if inside <= begin and end <= inside + size:
            around.append((at, inside, inside + size))
            at = inside
        else:
            at = inside + size
    body, last = b"".join(tokens), (begin, end)
    for first, inside, behind in reversed(around):
        body = octets[inside : last[0]] + body + octets[last[1] : behind]
        body = (
            octets[first : first + 1] + b"\x83" + len(body).to_bytes(3, "big") + body
            if len(body) > 65535
            else (octets[first : first + 1] + b"\x82" + len(body).to_bytes(2, "big") + body)
        )
        last = first, behind
    return octets[: last[0]] + body + octets[last[1] :]


def kept(path):
    """The rows of a state but for the moments when they were judged."""
    with State(str(path), is_new=False) as state:
        return [row._replace(judged=0) for row, _ in state.rows()]


class Again(unittest.TestCase):
    """What a second run judges."""

    @classmethod
    def setUpClass(cls):
        temporary = tempfile.TemporaryDirectory()
        cls.addClassCleanup(temporary.cleanup)
        cls.made = Path(temporary.name) / "made"
        cls.made.mkdir()
        for name in (GOOD, OTHER, BARE, "noattr.p7s"):
            shutil.copyfile(REAL / name, cls.made / name)
        cls.names = sorted(os.listdir(cls.made))
        # which tests change
        for name in ("changed", "replaced", "moved"):
            shutil.copyfile(REAL / GOOD, cls.made / name)
        time.sleep(STEP)
        cls.first = archive(cls.made, *cls.names, "changed", "replaced", "moved", state="../state")

    def setUp(self):
        shutil.copyfile(self.made.parent / "state", self.made.parent / "state.copy")
        self.addCleanup(lambda: [path.unlink() for path in self.made.parent.glob("state.copy*")])

    def again(self, *words, **rest):
        """A run with a copy of the state of the first one."""
        return archive(self.made, *words, state="../state.copy", **rest)

    def test_the_first_run_judges_all(self):
        status, lines, told = self.first
        self.assertEqual((status, sorted(lines)), (1, sorted([*self.names, "changed", "replaced", "moved"])))
        self.assertEqual(told, "cmsproof-archive: 7 of 7 files: 5 accepted, 2 refused\n")

    def test_what_is_judged_again(self):
        other = folder_of(self) / "other.txt"
        other.write_bytes(TRUST.read_bytes() + b"# another list\n")
        later, new = time.strftime("%Y%m%d%H%M%SZ", time.gmtime(time.time() + 60)), "new.p7s"
        shutil.copyfile(REAL / GOOD, self.made / new)
        self.addCleanup((self.made / new).unlink)
        refused = [BARE, "noattr.p7s"]
        table = [
            ([*self.names], {}, []),
            ([*self.names, new], {}, [new]),
            (["--sha1", *self.names], {}, self.names),
            (["--content", REAL / "blob.bin", *self.names], {}, self.names),
            (self.names, {"trust": other}, self.names),
            (["--recheck", *self.names], {}, self.names),
            (["--since", "20200101000000Z", *self.names], {}, []),
            (["--since", later, *self.names], {}, self.names),
            (["--only", "refused"], {}, []),
            (["--only", "refused"], {"trust": other}, sorted(refused)),
            (["--only", "refused", GOOD, BARE], {"trust": other}, [BARE]),
            (["--only", "failed"], {}, []),
        ]
        for words, rest, judged in table:
            for path in self.made.parent.glob("state.copy*"):
                path.unlink()
            shutil.copyfile(self.made.parent / "state", self.made.parent / "state.copy")
            status, lines, told = self.again(*words, **rest)
            self.assertEqual(sorted(lines), sorted(judged), (words, told))
            expected = 0 if words == ["--only", "failed"] else 1
            self.assertEqual(status, expected, (words, told))

    def test_octets_that_are_changed_under_the_same_size_and_time(self):
        path, octets = self.made / "changed", (REAL / GOOD).read_bytes()
        was = os.stat(path)
        path.write_bytes(octets[:2000] + b"x" + octets[2001:])
        os.utime(path, ns=(was.st_atime_ns, was.st_mtime_ns))
        now = os.stat(path)
        self.assertEqual((now.st_size, now.st_mtime_ns), (was.st_size, was.st_mtime_ns))
        self.assertEqual(self.again("changed")[:2], (1, {"changed": "refused signer 1 S6 DigestDiffers"}))

    def test_another_file_in_the_place_of_one(self):
        path, other = self.made / "replaced", self.made / "other"
        was = os.stat(path)
        other.write_bytes((REAL / BARE).read_bytes().ljust(was.st_size, b"\0"))
        os.utime(other, ns=(was.st_atime_ns, was.st_mtime_ns))
        os.replace(other, path)
        status, lines, _ = self.again("replaced")
        self.assertEqual((status, lines["replaced"][:12]), (2, "malformed M7"))

    def test_a_file_that_has_just_changed_has_no_mark(self):
        found = os.stat(self.made / OTHER)
        for later, marked in ((-1, False), (0, False), (rows.STEP - 1, False), (rows.STEP, True), (10 * rows.STEP, True)):
            self.assertEqual(bool(rows.steady(found, found.st_ctime_ns + later)), marked, later)
        # its mark is that of what was read, and not of what is there when it is written down
        shutil.copyfile(self.made / OTHER, self.made / "read")
        self.addCleanup((self.made / "read").unlink)
        with open(self.made / "read", "rb") as opened:
            file = File(opened.fileno(), "read")
            marks = [rows.steady(file.found, file.found.st_ctime_ns + rows.STEP), rows.mark_now(self.made / "read")]
            (self.made / "read").write_bytes(b"other")
            self.assertEqual(marks[0], marks[1])
            self.assertNotEqual(rows.steady(file.found, file.found.st_ctime_ns + rows.STEP), rows.mark_now(self.made / "read"))
        # what has no mark is judged again
        shutil.copyfile(self.made.parent / "state", self.made.parent / "state.copy")
        with sqlite3.connect(self.made.parent / "state.copy") as database:
            database.execute("UPDATE files SET mark = '' WHERE name = ?", (OTHER.encode(),))
        database.close()
        self.assertEqual(list(self.again(*self.names)[1]), [OTHER])

    def test_a_file_that_another_machine_saw(self):
        # size, times, device and number: the device has another number on each machine
        table = [
            ("1 2 3 77 5", "1 2 3 4 5", "1 2 3 4 5"),
            ("1 2 3 4 5; 1 2 3 9 6", "1 2 3 4 5; 1 2 3 4 6", "1 2 3 4 5; 1 2 3 4 6"),
            ("1 2 3 77 6", "1 2 3 4 5", ""),
            ("1 2 9 4 5", "1 2 3 4 5", ""),
            ("1 2 3 4 5; 1 2 3 4 6", "1 2 3 4 5", ""),
            ("", "1 2 3 4 5", ""),
            ("1 2 3 4 5", "", ""),
            ("", "", ""),
        ]
        for there, here, expected in table:
            self.assertEqual(rows.seen_here(there, here), expected, (there, here))

    def test_a_file_that_is_named_twice(self):
        """Its rows are those of the last time that it was judged."""
        folder = folder_of(self)
        said = rows.Row("", "", 1, 1, "", b"", b"", 4, "failed worker", rows.NOTHING[5], 1)
        # at once, or written in between; where few others stand between the names that are written, or many
        table = [([], False), ([], True), (["n1"], True), ([f"n{number}" for number in range(9)], True)]
        for number, (others, written) in enumerate(table):
            with State(str(folder / f"state{number}")) as state:
                state.judge_by(Basis("0" * 64, "", "", ""), b"")
                for name in others:
                    state.put(name, [said])
                for parts in (["a", "b"], ["a"]):
                    for name in ("m", "x"):
                        state.put(name, [said._replace(part=part) for part in parts])
                    if written:
                        state.commit()
            found = [(row.name, row.part) for row in kept(folder / f"state{number}")]
            self.assertEqual(found, [("m", "a"), *((name, "") for name in others), ("x", "a")])

    def test_two_runs_at_a_time(self):
        """One that waits for a long file keeps no other from writing."""
        folder = folder_of(self)
        said = rows.Row("x", "", 1, 1, "", b"", b"", 4, "failed worker", rows.NOTHING[5], 1)
        with State(str(folder / "state")) as one, State(str(folder / "state")) as other:
            one.judge_by(Basis("0" * 64, "", "", ""), b"")
            one.put("one", [said._replace(grounds=rows.grounds_text((("tsa", (), "1.2"),), ()))])
            other.database.execute("PRAGMA busy_timeout = 100")
            other.judge_by(Basis("1" * 64, "", "", ""), b"")
            other.put("other", [said])
        self.assertEqual([row.name for row in kept(folder / "state")], ["one", "other"])

    def test_a_content_beside_its_signature(self):
        folder = folder_of(self)
        shutil.copyfile(REAL / "rsa_detached_ts.p7s", folder / "letter.p7s")
        shutil.copyfile(REAL / "blob.bin", folder / "letter")
        time.sleep(STEP)
        accepted, refused = {"letter.p7s": "accepted 20261122071759Z"}, {"letter.p7s": "refused signer 1 S6 DigestDiffers"}
        self.assertEqual(archive(folder, "letter.p7s")[:2], (0, accepted))
        self.assertEqual(archive(folder, "letter.p7s")[:2], (0, {}))
        was = os.stat(folder / "letter")
        octets = (folder / "letter").read_bytes()
        (folder / "letter").write_bytes(octets[:-1] + bytes([octets[-1] ^ 1]))
        os.utime(folder / "letter", ns=(was.st_atime_ns, was.st_mtime_ns))
        self.assertEqual(archive(folder, "letter.p7s")[:2], (1, refused))
        (folder / "letter").unlink()
        self.assertEqual(archive(folder, "letter.p7s")[:2], (1, {"letter.p7s": "refused C4 NoContent"}))

    def test_a_content_that_cannot_be_read_is_not_none(self):
        found = self.again(GOOD, "--content", "none")
        self.assertEqual(found, (4, {}, "cmsproof-archive: failed open none: No such file or directory\n"))

    def test_a_file_that_is_gone_is_never_as_before(self):
        self.assertEqual(self.again("gone.p7s")[:2], (4, {"gone.p7s": "failed open gone.p7s: No such file or directory"}))
        self.assertEqual(self.again("gone.p7s")[:2], (4, {"gone.p7s": "failed open gone.p7s: No such file or directory"}))
        (self.made / "moved").unlink()
        self.assertEqual(self.again("moved")[:2], (4, {"moved": "failed open moved: No such file or directory"}))

    @unittest.skipUnless(PROGRAM.exists(), "the program is not built")
    def test_the_program_says_the_line_of_each_row(self):
        with State(str(self.made.parent / "state"), is_new=False) as state:
            (basis,) = state.bases().values()
            trusted, found = state.trust_list(basis.trust), list(state.rows())
        folder = folder_of(self)
        (folder / "trust").write_bytes(trusted)
        for row, _ in [pair for pair in found if pair[0].name in self.names]:
            octets = (self.made / row.name).read_bytes()
            self.assertEqual((row.size, row.sha256, row.content), (len(octets), hashlib.sha256(octets).digest(), b""))
            with open(folder / "questions", "wb") as file:
                subprocess.run(
                    [PROGRAM, "questions", "--trust", folder / "trust", self.made / row.name], stdout=file, check=True
                )
            run_tool("cmsproof-verify", folder / "questions", folder / "answers")
            words = ["check", "--trust", folder / "trust", "--answers", folder / "answers", self.made / row.name]
            said = subprocess.run([PROGRAM, *words], capture_output=True, check=False)
            self.assertEqual((said.returncode, said.stdout.decode()), (row.status, row.line + "\n"))

    def test_another_library_of_the_same_number(self):
        """What one accepted may be what the next one was mended for."""
        folder, words = folder_of(self), ["--trust", TRUST, "--state", "state", "--jobs", "1", REAL / GOOD]
        shutil.copytree(MODULES, folder / "code", ignore=shutil.ignore_patterns("__pycache__"))
        (folder / "run.py").write_text(CHANGED.format(installed=str(folder / "code"), code=""))
        for changed, judged in ((False, True), (False, False), (True, True), (False, False)):
            if changed:
                # (what stands behind a library is not read)
                with open(folder / "code" / "cmsproof" / "libcmsproof.so.1", "ab") as library:
                    library.write(b"\0")
            status, out, err = run_tool(folder / "run.py", *words, cwd=folder)
            self.assertEqual((status, b"accepted" in out, "1 are as before" in err), (0, judged, not judged), err)

    def test_a_library_of_which_nobody_says_which_file_it_is(self):
        """As one that a link of another name leads to: any run may have another one."""
        folder, words = folder_of(self), ["--trust", TRUST, "--state", "state", "--jobs", "1", REAL / GOOD]
        shutil.copytree(MODULES, folder / "code", ignore=shutil.ignore_patterns("__pycache__"))
        (folder / "run.py").write_text(CHANGED.format(installed=str(folder / "code"), code=""))
        library = folder / "code" / "cmsproof" / "libcmsproof.so.1"
        library.rename(folder / "another.so")
        library.symlink_to(folder / "another.so")
        for _ in range(2):
            status, out, err = run_tool(folder / "run.py", *words, cwd=folder)
            self.assertEqual((status, b"accepted" in out, "as before" in err), (0, True, False), err)

    def test_another_file_in_a_folder_that_is_called_as_the_library(self):
        """Its octets say nothing of the library."""
        place = folder_of(self) / "libcmsproof.so.1.d" / "other.so"
        place.parent.mkdir()
        place.write_bytes((MODULES / "cmsproof" / "libcmsproof.so.1").read_bytes() + b"\0")
        expected = hashlib.sha256((MODULES / "cmsproof" / "libcmsproof.so.1").read_bytes()).hexdigest()[:12]
        self.assertEqual(versions.digest_of_library(), expected)
        ctypes.CDLL(str(place))
        self.assertEqual(versions.digest_of_library(), expected)

    def test_what_a_verdict_hangs_on(self):
        entries = [line.split()[-1] for line in TRUST.read_text().splitlines() if line.startswith(("signer ", "tsa "))]
        sums = {hashlib.sha256(bytes.fromhex(entry)).hexdigest() for entry in entries}
        for row in kept(self.made.parent / "state"):
            if row.status == 0:
                self.assertEqual({ground.role for ground in grounds_in(row.grounds).holds}, {"signer", "tsa"})
                self.assertLessEqual({ground.certificate for ground in grounds_in(row.grounds).holds}, sums)
                # SHA-256 and SHA-512, with which data/real was signed and stamped
                digests = {"2.16.840.1.101.3.4.2.1", "2.16.840.1.101.3.4.2.2", "2.16.840.1.101.3.4.2.3"}
                self.assertLessEqual({ground.digest for ground in grounds_in(row.grounds).holds}, digests)


class Killed(unittest.TestCase):
    """A run that is killed at any moment, and begun again."""

    FILES, KILLS = 300, 10

    def test_nothing_is_lost_and_nothing_wrong(self):
        folder, files = folder_of(self), folder_of(self)
        kinds = [(REAL / name).read_bytes() for name in (GOOD, OTHER, BARE, "bc_attached_default.p7s")]
        for number in range(self.FILES):
            octets = kinds[number % len(kinds)]
            changed = octets[:1990] + bytes([octets[1990] ^ 1]) + octets[1991:] if number % 5 == 0 else octets
            (files / f"f{number:04}").write_bytes(changed)
        time.sleep(STEP)
        names = sorted(path.name for path in files.iterdir())
        archive(files, *names, state=folder / "whole")
        # (rows are written for good after a few files, so that most runs are killed between two such moments)
        code = "from cmsproof_tools import state; state.FILES, state.SECONDS = 7, 0.05"
        (folder / "often.py").write_text(CHANGED.format(installed=str(MODULES), code=code))
        words = [sys.executable, folder / "often.py", "--trust", TRUST, "--state", folder / "killed", "--jobs", "2", *names]
        chance, printed = random.Random(37), {}
        for _ in range(self.KILLS):
            begun, seen = time.monotonic(), 0
            with open(folder / "lines", "wb") as lines:
                run = subprocess.Popen(words, cwd=files, stdout=lines, stderr=subprocess.DEVNULL)
            # it is killed a while after its first line, or when it ends
            while run.poll() is None and seen == 0 and time.monotonic() < begun + 60:
                seen = (folder / "lines").stat().st_size
                time.sleep(0.002)
            time.sleep(chance.uniform(0, 0.1))
            run.kill()
            run.wait()
            for line in (folder / "lines").read_text().splitlines():
                name, _, said = line.partition(": ")
                self.assertEqual(printed.setdefault(name, said), said)
        between = kept(folder / "killed")
        # what is kept was printed, in this run or one before, and is as the row says
        self.assertLessEqual({(row.name, row.line) for row in between}, set(printed.items()))
        archive(files, *names, state=folder / "killed")
        self.assertEqual(kept(folder / "killed"), kept(folder / "whole"))
        self.assertEqual(len(kept(folder / "whole")), self.FILES)
        self.assertGreater(len(between), 0)

    def test_what_is_kept_was_printed(self):
        folder = folder_of(self)
        names = [f"f{number:04}" for number in range(3000)]
        for name in names:
            (folder / name).write_bytes(b"\x30")
        time.sleep(STEP)
        reading, writing = os.pipe()
        words = [sys.executable, INSTALLED / "cmsproof-archive", "--trust", TRUST, "--state", "state", "--jobs", "2", *names]
        run = subprocess.Popen(words, cwd=folder, stdout=writing, stderr=subprocess.DEVNULL)
        os.close(writing)
        with open(reading, "rb", buffering=0) as lines:
            said = lines.read(40)
            while said.count(b"\n") < 1500:
                said += lines.read(4096)
        # (the pipe is closed: the rest of the lines is lost, and their files are judged again)
        run.wait(60)
        printed = {line.partition(b": ")[0].decode() for line in said.splitlines()}
        rows_kept = {row.name for row in kept(folder / "state")}
        self.assertLess(len(rows_kept), len(names))
        again = archive(folder, *names)[1]
        self.assertEqual(set(again), set(names) - rows_kept)
        # what was in the pipe when it was closed was printed, as far as the tool knows
        self.assertLessEqual(len(rows_kept - printed), 65536 // 20)

    def test_a_disk_that_is_full_for_a_while(self):
        """Each row has its own grounds, also where SQLite took back what it was putting, and has room again when the state is closed."""
        path, most = folder_of(self) / "state", resource.getrlimit(resource.RLIMIT_FSIZE)
        said = rows.Row("", "", 1, 1, "", b"", b"", 0, "accepted 20261122071759Z", "", 1)
        # (so long that SQLite does not keep all of them until the end)
        texts = [rows.grounds_text((("tsa", (rows.Listed(f"{at:064x}", b""),), "1.2"),), ()) + " " * 8000 for at in range(500)]
        with self.assertRaises((Stop, sqlite3.Error)), State(str(path)) as state:
            state.judge_by(Basis("0" * 64, "", "", ""), b"")
            resource.setrlimit(resource.RLIMIT_FSIZE, (1 << 20, most[1]))
            try:
                for at, text in enumerate(texts):
                    state.put(f"{at:03}", [said._replace(grounds=text)])
                state.commit()
            finally:
                resource.setrlimit(resource.RLIMIT_FSIZE, most)
        found = {row.name: row.grounds for row in kept(path)}
        self.assertGreater(len(found), 0)
        self.assertEqual([name for name in found if found[name] != texts[int(name)]], [])

    def test_rows_that_wait_have_the_basis_by_which_they_were_judged(self):
        path = folder_of(self) / "state"
        said = rows.Row("", "", 1, 1, "", b"", b"", 0, "accepted 20261122071759Z", rows.NOTHING[5], 1)
        with State(str(path)) as state:
            for name, policy in (("a", ""), ("b", "--sha1")):
                state.judge_by(Basis("0" * 64, "", policy, ""), b"")
                state.put(name, [said])
        with State(str(path), is_new=False) as state:
            bases = state.bases()
            self.assertEqual({row.name: bases[basis].policy for row, basis in state.rows()}, {"a": "", "b": "--sha1"})

    def test_memory_that_is_short_for_a_while(self):
        """SQLite takes back what it was putting where it is refused memory too (sqlite.org/lang_transaction.html), which in Python is
        no error of SQLite's."""
        path, refused = folder_of(self) / "state", []

        class Short(sqlite3.Connection):
            def executemany(self, statement, values):
                if statement == INSERT and not refused:
                    refused.append(statement)
                    self.rollback()
                    raise MemoryError
                return super().executemany(statement, values)

        said = rows.Row("", "", 1, 1, "", b"", b"", 0, "accepted 20261122071759Z", "", 1)
        texts = {name: rows.grounds_text((("tsa", (rows.Listed(name * 64, b""),), "1.2"),), ()) for name in "ab"}
        with mock.patch.object(sqlite3, "connect", functools.partial(sqlite3.connect, factory=Short)):
            with State(str(path)) as state:
                state.judge_by(Basis("0" * 64, "", "", ""), b"")
                state.put("a", [said._replace(grounds=texts["a"])])
                self.assertRaises(MemoryError, state.commit)
                # (those that are put first now get the first number)
                state.pending = {b"b": [said._replace(grounds=texts["b"])[1:]], **state.pending}
        self.assertEqual({row.name: row.grounds for row in kept(path)}, texts)


class Deciding(unittest.TestCase):
    """Which token decided, and under which certificates."""

    def decided(self, octets, trusted=None):
        """What the row of a file says."""
        folder = folder_of(self)
        (folder / "file").write_bytes(octets)
        (folder / "trust").write_bytes(trusted or TRUST.read_bytes())
        _, lines, _ = archive(folder, "file", trust=folder / "trust")
        (row,) = kept(folder / "state")
        return lines["file"], grounds_in(row.grounds)

    def test_real_files(self):
        rsa, ec, second, first = self.certificates()
        table = [
            (GOOD, [(1, 1, (first,), (rsa,))]),
            (OTHER, [(1, 1, (second,), (ec,))]),
            # its second signer was stamped a second behind the first one
            ("two_attached_ts.p7s", [(2, 1, (first,), (rsa,))]),
            (BARE, []),
            ("noattr.p7s", []),
        ]
        for name, expected in table:
            self.assertEqual(list(map(tuple, self.decided((REAL / name).read_bytes())[1].decided)), expected, name)

    def test_the_sum_of_a_content(self):
        """It is the content's, whether the file is accepted, and by which digest algorithm it was signed."""
        folder, content = folder_of(self), (REAL / "blob.bin").read_bytes()
        for digest in ("sha256", "sha384"):
            make = ["openssl", "cms", "-sign", "-binary", "-in", REAL / "blob.bin", "-md", digest, "-outform", "DER"]
            key = [
                "openssl",
                "req",
                "-x509",
                "-newkey",
                "rsa:2048",
                "-nodes",
                "-subj",
                "/CN=x",
                "-keyout",
                "key",
                "-out",
                "pem",
            ]
            subprocess.run(key, cwd=folder, capture_output=True, check=True)
            subprocess.run([*make, "-signer", "pem", "-inkey", "key", "-out", f"{digest}.p7s"], cwd=folder, check=True)
        shutil.copyfile(REAL / "rsa_detached_ts.p7s", folder / "stamped.p7s")
        names = ["sha256.p7s", "sha384.p7s", "stamped.p7s"]
        for name in names:
            (folder / name[:-4]).write_bytes(content)
        # accepted, as the line says, without the content being read for its sum; refused, of two algorithms; another content
        lines = archive(folder, *names)[1]
        self.assertEqual([lines[name].partition(" ")[0] for name in names], ["refused", "refused", "accepted"])
        self.assertEqual({row.content for row in kept(folder / "state")}, {hashlib.sha256(content).digest()})
        (folder / "stamped").write_bytes(content + b"x")
        self.assertEqual(archive(folder, "stamped.p7s")[1]["stamped.p7s"], DIFFERS)
        found = {row.name: row.content for row in kept(folder / "state")}
        self.assertEqual(found["stamped.p7s"], hashlib.sha256(content + b"x").digest())

    def certificates(self):
        """The SHA-256 of the certificates of both signers and both authorities, by the subjects that OpenSSL shows."""
        found = {}
        for octets in [bytes.fromhex(line.split()[-1]) for line in TRUST.read_text().splitlines() if " 30" in line]:
            words = ["openssl", "x509", "-inform", "DER", "-noout", "-subject"]
            shown = subprocess.run(words, input=octets, capture_output=True, check=True).stdout
            found[shown.split(b"=")[-1].strip()] = hashlib.sha256(octets).hexdigest()
        return [found[name] for name in (b"rsa_signer", b"ec_signer", b"tsa_ec", b"tsa")]

    def test_a_valid_token_alone_counts(self):
        rsa, _, second, first = self.certificates()
        octets, foreign = (REAL / GOOD).read_bytes(), (REAL / OTHER).read_bytes()
        own, other = octets[slice(*token_in(octets))], foreign[slice(*token_in(foreign))]
        for tokens, place in (([own, other], 1), ([other, own], 2)):
            line, grounds = self.decided(with_tokens(octets, tokens))
            self.assertEqual(line, "accepted 20261122071759Z")
            self.assertEqual(list(map(tuple, grounds.decided)), [(1, place, (first,), (rsa,))])
            # the stamp of another signature has a good signature, and nothing hangs on it
            self.assertNotIn(second, {ground.certificate for ground in grounds.holds})
        # the same one twice
        grounds = self.decided(with_tokens(octets, [own, own]))[1]
        self.assertEqual([one[:2] for one in grounds.decided], [(1, 1), (1, 2)])


class Hostile(unittest.TestCase):
    """Files that are no state, and states with rows that no run wrote: one clear line, and nothing else."""

    def setUp(self):
        self.folder = folder_of(self)
        self.path = self.folder / "state"
        with State(str(self.path)) as state:
            state.judge_by(Basis("0" * 64, "", "", "none"), b"")
            grounds = rows.grounds_text(
                (("tsa", (rows.Listed("0" * 64, b""),), "1.2"),), (rows.Decided(1, 1, ("0" * 64,), ()),)
            )
            state.put("a", [rows.Row("a", "", 1, 2, "1 2 3 4 5", b"s" * 32, b"", 0, "accepted 20261122071759Z", grounds, 1)])

    def told(self, *words):
        """What the report and a run say: a status and one line."""
        found = [run_tool("cmsproof-archive", "report", "state", "--json", "-", cwd=self.folder)]
        shutil.copyfile(TRUST, self.folder / "list")
        found.append(
            run_tool("cmsproof-archive", "--trust", "list", "--state", "state", "--jobs", "1", *words, cwd=self.folder)
        )
        return found

    def change(self, *statements):
        """Changes the state by statements that no run makes."""
        database = sqlite3.connect(self.path)
        database.execute("PRAGMA ignore_check_constraints = ON")
        for statement in statements:
            database.executescript(statement)
        database.commit()
        database.close()

    def test_files_that_are_no_state(self):
        other = self.folder / "other"
        sqlite3.connect(other).execute("CREATE TABLE files (name)").connection.close()
        octets = self.path.read_bytes()
        table = [
            b"cmsproof trust 2\n",
            (REAL / GOOD).read_bytes(),
            other.read_bytes(),
            octets[:5000],
            octets[:100],
            b"SQLite format 3\0",
        ]
        for octets in table:
            for path in self.folder.glob("state*"):
                path.unlink()
            self.path.write_bytes(octets)
            for status, out, err in self.told("a"):
                self.assertEqual((status, out, len(err.splitlines())), (4, b"", 1), (octets[:20], err))
                self.assertIn("failed state state: ", err)
            self.assertEqual(self.path.read_bytes(), octets)

    def test_places_that_are_none(self):
        for path in self.folder.glob("state*"):
            path.unlink()
        os.mkfifo(self.path)
        for status, out, err in self.told("a"):
            self.assertEqual((status, out, err.partition(": ")[2]), (4, b"", "failed state state: it is no regular file\n"))
        found = run_tool("cmsproof-archive", "report", "none", "--json", "-", cwd=self.folder)
        self.assertEqual(found, (4, b"", "cmsproof-archive: failed open none: No such file or directory\n"))
        self.assertFalse((self.folder / "none").exists())

    def test_files_that_are_no_part_of_a_new_state(self):
        """SQLite would take them for its own, and remove them, also where a link leads to the state. Nor is a log or a page written there."""
        (self.folder / "link").symlink_to("new")
        where = {"new": "new", "link": os.path.realpath(self.folder / "new")}
        for ending in ("-wal", "-shm", "-journal"):
            letter = self.folder / f"new{ending}"
            for state, place in where.items():
                shutil.copyfile(REAL / GOOD, letter)
                found = run_tool("cmsproof-archive", "--trust", TRUST, "--state", state, letter.name, cwd=self.folder)
                line = f"cmsproof-archive: failed state {state}: {place}{ending} is there without it, and would be lost\n"
                self.assertEqual((found, (self.folder / "new").exists()), ((4, b"", line), False))
                self.assertEqual(letter.read_bytes(), (REAL / GOOD).read_bytes())
                letter.unlink()
                words = ["--trust", TRUST, "--state", state, "--log", letter.name, REAL / GOOD]
                self.assertEqual(run_tool("cmsproof-archive", *words, cwd=self.folder)[0], 3)
                words = ["report", state, "--json", letter.name]
                self.assertEqual((run_tool("cmsproof-archive", *words, cwd=self.folder)[0], letter.exists()), (3, False))

    def test_rows_and_tables_that_no_run_wrote(self):
        table = [
            "UPDATE files SET line = 'accepted 20269922071759Z'",
            "UPDATE files SET line = 'accepted'",
            "UPDATE files SET line = 'accepted 20261122071759Z' || char(10) || 'b: accepted 20261122071759Z'",
            "UPDATE files SET status = 1",
            "UPDATE files SET status = 7",
            "UPDATE files SET status = 'x'",
            "UPDATE files SET size = -1",
            "UPDATE files SET judged = 1.5",
            "UPDATE files SET sha256 = 'text'",
            "UPDATE files SET sha256 = x'00'",
            "UPDATE files SET content = x'00'",
            "UPDATE files SET ground = 77",
            "UPDATE grounds SET text = 'x'",
            "UPDATE grounds SET text = '[[\"tsa\", 1, 2]]'",
            "UPDATE grounds SET text = '{\"a\": 1}'",
            f"UPDATE grounds SET text = '{'[' * 100000}'",
            "UPDATE grounds SET text = x'ff'",
            # a formula for a program of tables
            "UPDATE grounds SET text = replace(text, '" + "0" * 64 + "', '=1+1')",
            "UPDATE grounds SET text = replace(text, '1.2', '=1+1')",
            "UPDATE grounds SET text = replace(text, '[1, 1, ', '[-1, 1, ')",
            "UPDATE bases SET text = replace(text, '[\"" + "0" * 64 + '", "", ""\', \'["' + "0" * 64 + '", "", "=1+1"\')',
            "UPDATE bases SET text = replace(text, '" + "0" * 64 + "', '@SUM(A1)')",
            "UPDATE bases SET text = '[]'",
            "UPDATE bases SET text = '[1, 2, 3, 4]'",
            "CREATE TRIGGER evil AFTER INSERT ON files BEGIN UPDATE files SET line = 'accepted 20261122071759Z', status = 0; END",
            "CREATE TRIGGER files AFTER INSERT ON bases BEGIN UPDATE files SET status = 0; END",
            "CREATE TRIGGER t AFTER INSERT ON files BEGIN UPDATE files SET status = 0; END; PRAGMA writable_schema = ON;"
            " UPDATE sqlite_master SET name = 'sqlite_t', sql = replace(sql, 'TRIGGER t', 'TRIGGER sqlite_t') WHERE name = 't'",
            "CREATE TRIGGER t AFTER INSERT ON files BEGIN UPDATE files SET status = 0; END; PRAGMA writable_schema = ON;"
            " UPDATE sqlite_master SET name = 'sqlite_autoindex_files_1', sql = replace(sql, 'TRIGGER t', 'TRIGGER'"
            " || ' sqlite_autoindex_files_1') WHERE name = 't'",
            "CREATE VIEW more AS SELECT * FROM files",
            "PRAGMA user_version = 1",
            "PRAGMA application_id = 1",
        ]
        before = self.path.read_bytes()
        shutil.copyfile(REAL / GOOD, self.folder / "a")
        for number, statement in enumerate(table):
            for path in self.folder.glob("state*"):
                path.unlink()
            self.path.write_bytes(before)
            self.change(statement)
            with self.assertRaises(Stop, msg=statement[:80]) as raised:
                with State(str(self.path), is_new=False) as state:
                    list(state.rows())
                    state.bases()
            self.assertEqual((raised.exception.status, raised.exception.line[:14]), (4, "failed state /"))
            for status, out, err in self.told("a") if number % 8 == 0 else []:
                self.assertEqual((status, out, len(err.splitlines())), (4, b"", 1), (statement[:80], err))

    def test_a_hostile_row_is_not_believed_of_a_file(self):
        shutil.copyfile(REAL / BARE, self.folder / "a")
        time.sleep(STEP)
        found = run_tool("cmsproof-archive", "--trust", TRUST, "--state", "state", "a", cwd=self.folder)
        self.assertEqual(found[:2], (1, b"a: refused signer 1 S10 NoToken\n"))
        # whoever writes the mark too is believed: a state is no evidence; but no line says `accepted` that was not judged now
        mark = rows.mark_now(str(self.folder / "a"))
        self.change(f"UPDATE files SET status = 0, line = 'accepted 20261122071759Z', mark = '{mark}'")
        found = run_tool("cmsproof-archive", "--trust", TRUST, "--state", "state", "a", cwd=self.folder)
        self.assertEqual(found[1:], (b"", "cmsproof-archive: 0 files; 1 are as before: 1 accepted\n"))

    def test_a_state_in_a_folder_that_may_not_be_written(self):
        """Its report, by whom it belongs to or by another; SQLite wants to write beside it."""
        inside = self.folder / "in side?"
        inside.mkdir()
        shutil.move(self.path, inside / "st%te")
        self.folder.chmod(0o755), inside.chmod(0o555)
        self.addCleanup(inside.chmod, 0o755)
        user = as_nobody()
        words = [sys.executable, INSTALLED / "cmsproof-archive", "report", "in side?/st%te", "--json", "-"]
        done = subprocess.run(words, cwd=self.folder, capture_output=True, text=True, check=False, **user)
        self.assertEqual((done.returncode, done.stderr, done.stdout[:11]), (0, "", '{"file": "a'))
        self.assertEqual(os.listdir(inside), ["st%te"])

    def test_a_state_that_is_written_while_it_is_read_there(self):
        """Nobody keeps a run from writing then, and rows may be missing in what was read, or look damaged: nothing is said of them."""
        code = """
import os
from cmsproof_tools import report, state
os.access, was = (lambda *_, **__: False), report.members
def written(row, basis):
    if MORE:
        with state.State("new") as other:
            other.put("z", [row])
    if MORE == 2:
        raise state.damaged("new", "database disk image is malformed")
    report.members = was
    return was(row, basis)
report.members = written
"""
        line = "cmsproof-archive: failed state new: it was written while it was read: run this again\n"
        for more, expected in ((0, (0, "", '{"file": "a')), (1, (4, line, "")), (2, (4, line, ""))):
            shutil.copyfile(self.path, self.folder / "new")
            changed = CHANGED.format(installed=str(MODULES), code=code.replace("MORE", str(more)))
            (self.folder / "changed.py").write_text(changed)
            words = [sys.executable, "changed.py", "report", "new", "--json", "-"]
            done = subprocess.run(words, cwd=self.folder, capture_output=True, text=True, check=False)
            self.assertEqual((done.returncode, done.stderr, done.stdout[:11]), expected)

    def test_a_run_that_begins_between_two_looks_at_a_state_there(self):
        """Nobody is seen who writes, and a part may be written by when the state is read."""
        shutil.copyfile(self.path, self.folder / "new")
        path, was, (row, *_) = str(self.folder / "new"), os.path.lexists, kept(self.path)

        def looked(name):
            found = was(name)
            if name.endswith("-wal"):
                with mock.patch.object(os.path, "lexists", was), State(path) as other:
                    other.put("z", [row])
            return found

        with mock.patch.object(os, "access", return_value=False), mock.patch.object(os.path, "lexists", looked):
            with State(path, is_new=False) as state:
                self.assertRaises(Stop, state.check_unwritten)
            with mock.patch.object(os.path, "lexists", was), State(path, is_new=False) as state:
                state.check_unwritten()

    def test_a_state_that_looks_damaged_since_it_is_written_there(self):
        """It is not: half of what is read is of before, and half of behind."""
        path, (row, *_), was, seen = str(self.folder / "new"), kept(self.path), report.members, []

        def put(first):
            with State(path) as other:
                for at in range(20000):
                    other.put(f"{first}{at:05}", [row])

        def members(*words):
            seen.append(words)
            if len(seen) == 500:
                with mock.patch.object(os, "access", return_value=True):
                    put("a"), put("n")
            return was(*words)

        put("m")
        with mock.patch.object(os, "access", return_value=False), mock.patch.object(report, "members", members):
            with self.assertRaises(Stop) as raised:
                report.main("report", [path, "--json", str(self.folder / "out")])
        self.assertIn("it was written while it was read: run this again", raised.exception.line)
        self.assertFalse((self.folder / "out").exists())

    def test_a_long_content_that_is_cut_while_it_is_summed(self):
        code = """
import os, sys
sys.path.insert(0, sys.argv.pop(1))
from cmsproof_tools import archive, running
was = archive.names_of
def cut(*words):
    os.truncate("long", 10)
    return was(*words)
archive.names_of = cut
running.start("archive")
"""
        with open(self.folder / "long", "wb") as long:
            long.write(b"x" * (COPIED + 1))
        words = ["--trust", TRUST, "--state", "new", "--content", "long", REAL / "rsa_detached_ts.p7s"]
        run = [sys.executable, "-c", code, MODULES, *words]
        done = subprocess.run(run, cwd=self.folder, capture_output=True, text=True, check=False)
        line = "cmsproof-archive: failed read long: it was changed while it was read\n"
        self.assertEqual((done.returncode, done.stdout, done.stderr), (4, "", line))

    def test_a_log_over_what_is_read(self):
        shutil.copyfile(TRUST, self.folder / "list")
        for name in ("list", "new", "./new"):
            words = ["--trust", "list", "--state", "new", "--log", name, REAL / GOOD]
            self.assertEqual(run_tool("cmsproof-archive", *words, cwd=self.folder)[:2], (3, b""), name)
        self.assertEqual((self.folder / "list").read_bytes(), TRUST.read_bytes())
        self.assertFalse((self.folder / "new").exists())

    def test_words(self):
        for words in (["--since", "2026-01-01"], ["--only", "refused"], ["--recheck"], ["--known", "none"]):
            found = run_tool("cmsproof-archive", "--trust", TRUST, *words, "a")
            line = "cmsproof-archive: --since, --only, --recheck and --known need --state (see cmsproof-archive --help)\n"
            self.assertEqual(found, (3, b"", line))
        # seconds since 1970 as `date +%s` prints them; a moment without its seconds would be another one
        table = [("2026-11-25", 1795564800), ("20261125080648Z", 1795594008), ("19691231235959Z", -1)]
        for text, seconds in table:
            self.assertEqual(moment_of(text), seconds)
        for text in ("202611250806Z", "2026112508Z", "20261125080660Z", "20261125080648.5Z", "２０２６1125080648Z", "2026-11-25 "):
            self.assertRaises(argparse.ArgumentTypeError, moment_of, text)


if __name__ == "__main__":
    unittest.main()
