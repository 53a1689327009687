"""Tests of cmsproof-archive stamp: runs that were stopped, killed, or had no room, and what was changed meanwhile; and whose a state is."""
import os
import random
import resource
import shutil
import signal
import subprocess
import sys
import threading
import time
import unittest

from making import INSTALLED, MODULES, as_nobody, need_tools

need_tools()

import cmsproof  # noqa: E402
from cmsproof_tools import summing  # noqa: E402
from stamping_world import OTHERWISE, WithAuthority  # noqa: E402


class GoneOn(WithAuthority):
    """Runs that were stopped."""

    def test_the_request_that_was_sent(self):
        """It is sent again, and no other one, though files came and went."""
        self.authority.answer = lambda *_: (503, {}, b"")
        self.assertEqual(self.stamp()[0], 4)
        self.put("files/new"), os.remove(self.folder / "files" / "a"), self.put("files/e", b"changed")
        self.authority.answer = self.authority.usual
        status, lines, err = self.stamp()
        first, second = self.authority.asked
        self.assertEqual((status, first), (1, second))
        self.assertRegex(lines[0], "^files: 4 records of ")
        for name in "ae":
            self.assertIn(f"files/{name}: it was changed since: its record is of what it was\n", err)
        self.assertEqual(len(err.splitlines()), 2)
        _, lines, _ = self.checked()
        self.assertEqual([line.rpartition(": ")[0] for line in lines if ": evidenced " in line], ["files/b/c.tif", "files/b/d"])
        # and the next batch has what is new
        status, lines, err = self.stamp()
        self.assertEqual(status, 0, err)
        self.assertRegex(lines[0], "^files: 1 records of ")

    def test_a_file_that_changes_while_it_is_read(self):
        code = (
            "import os, sys\n"
            f"sys.path[:0] = [{str(MODULES)!r}]\n"
            "from cmsproof_tools import summing, running\n"
            "was = os.read\n"
            "def read(descriptor, size):\n"
            "    octets = was(descriptor, size)\n"
            "    if octets == b'one':\n"
            "        open('files/a', 'ab').write(b'more')\n"
            "    return octets\n"
            "summing.os.read = read\n"
            "running.start('archive')\n"
        )
        (self.folder / "changed.py").write_text(code)
        words = [sys.executable, self.folder / "changed.py", *map(str, self.words())]
        done = subprocess.run(words, cwd=self.folder, capture_output=True, check=False, text=True)
        self.assertEqual(done.returncode, 1, done.stderr)
        self.assertRegex(done.stdout, "^files: 3 records of ")
        said = ["files/a: it was changed while it was read", "1 files without a record are left out"]
        self.assertEqual(done.stderr, "".join(f"cmsproof-archive stamp: {line}\n" for line in said))
        self.assertEqual(self.records(), [b"b/c.tif.ers", b"b/d.ers", b"e.ers"])
        self.assertEqual(self.stamp()[0], 0)
        self.assert_records(4)

    def test_what_was_left_out_when_a_batch_was_begun(self):
        """Whoever goes on with it says it again, and stamps no other files by it."""
        self.put(b"files/\xff\n: x"), self.put("files/x.ers/y"), self.put("files/x")
        self.authority.answer = lambda *_: (503, {}, b"")
        status, lines, err = self.stamp()
        said = err.splitlines()
        self.assertEqual((status, lines, len(said)), (4, [], 4), err)
        self.assertIn(r"files/\udcff\n:\x20x: it can have no record: its name is not UTF-8", said[0])
        self.assertTrue(said[2].endswith("stamp: 2 files without a record are left out"), err)
        os.remove(os.fsencode(self.folder) + b"/files/\xff\n: x"), self.put("files/new")
        self.authority.answer = self.authority.usual
        status, lines, err = self.stamp()
        self.assertEqual((status, err.splitlines()), (1, said[:3]), err)
        self.assertRegex(lines[0], "^files: 5 records of ")
        self.assertEqual((len(self.authority.asked), self.authority.asked[0]), (2, self.authority.asked[1]))
        os.rename(self.folder / "files" / "x.ers", self.folder / "files" / "y")
        self.assertEqual(self.stamp()[0], 0)
        self.assert_records(7)

    def test_digests_are_not_computed_again(self):
        """But where a file changed, or may have changed without a trace."""
        known, top = self.folder / "sums.db", os.open(self.folder / "files", os.O_RDONLY | os.O_DIRECTORY)
        self.addCleanup(os.close, top)
        names = ["a", "b/c.tif", "b/d", "e"]
        with summing.Sums(str(known), "sha256") as sums:
            for name in names:
                sums.put(name, summing.summed(top, "sha256", name))
            sums.commit()
            # (they are too new)
            self.assertEqual(sums.due(top, names), names)
        time.sleep(2.2)
        with summing.Sums(str(known), "sha256") as sums:
            for name in names:
                sums.put(name, summing.summed(top, "sha256", name))
            sums.commit()
            self.assertEqual(sums.due(top, names), [])
            self.put("files/a", b"One")
            os.utime(self.folder / "files" / "a", ns=(0, 0))
            self.assertEqual(sums.due(top, [*names, "none"]), ["a", "none"])
        with summing.Sums(str(known), "sha512") as sums:
            self.assertEqual(sums.due(top, names), names)

    def test_the_program_ends_with_the_tool(self):
        """So that none of a run that was killed works beside the next one."""
        program = self.folder / "program"
        program.write_text("#!/bin/sh\necho $$ > ../../pid.new\nmv ../../pid.new ../../pid\nexec sleep 60\n")
        program.chmod(0o755)
        words = map(str, self.words("--program", program))
        run = subprocess.Popen([sys.executable, INSTALLED / "cmsproof-archive", *words], cwd=self.folder)
        end = time.monotonic() + 60
        while not (self.folder / "pid").exists() and time.monotonic() < end:
            time.sleep(0.05)
        number = int((self.folder / "pid").read_text())
        run.kill(), run.wait()
        while os.path.exists(f"/proc/{number}") and time.monotonic() < end:
            time.sleep(0.05)
        self.assertFalse(os.path.exists(f"/proc/{number}"))
        # what is left of such a run is removed by the next one, as long as it is not gone on with
        os.remove(self.folder / "state" / "1" / "sums"), (self.folder / "state" / "1" / ".sums.left").write_bytes(b"half")
        self.assertEqual(self.stamp()[0], 0)
        self.assertFalse((self.folder / "state" / "1" / ".sums.left").exists())

    def test_killed_at_random_moments(self):
        """Of twenty runs some are killed, and no record is half at any moment. Once one finishes each file has its record, by the one request
        of all that were sent; and then it begins anew."""
        chance = random.Random(3161)
        for number in range(60):
            self.put(f"files/many/{number:03}", str(number).encode() * 1000)
        tool = [sys.executable, INSTALLED / "cmsproof-archive", *map(str, self.words())]
        begun = time.monotonic()
        self.assertEqual(self.stamp("--state", "first", "--into", "others")[0], 0)
        took, statuses = time.monotonic() - begun, []
        self.authority.asked = []
        for _ in range(20):
            pipes = {"stdout": subprocess.DEVNULL, "stderr": subprocess.DEVNULL}
            run = subprocess.Popen(tool, cwd=self.folder, start_new_session=True, **pipes)
            time.sleep(chance.random() * took * 1.2)
            os.killpg(run.pid, signal.SIGKILL)
            statuses.append(run.wait())
            if (self.folder / "state" / "1" / "done").exists():
                self.assert_all_by_one()
            for name in self.records():
                if name.endswith(b".ers"):
                    octets = (self.folder / "records" / os.fsdecode(name)).read_bytes()
                    self.assertIsNone(cmsproof.evidence.questions(octets, trust=cmsproof.TrustList(self.authority.list)).code)
        # (how many came to their end goes by the clock; one that was begun just before was killed)
        self.assertLessEqual(set(statuses), {0, -signal.SIGKILL})
        self.assertIn(-signal.SIGKILL, statuses)
        status, _, err = self.stamp()
        self.assertEqual(status, 0, err)
        self.assert_all_by_one()

    def assert_all_by_one(self):
        """All files have their records, by one request, and nothing is left to do. Removes what was made."""
        self.assert_records(64)
        self.assertEqual(len({request for _, _, request in self.authority.asked}), 1)
        self.assertEqual(self.stamp()[:2], (0, ["files: no file is without a record"]))
        self.assertFalse((self.folder / "state" / "2" / "request.tsq").exists())
        for name in ("records", "state"):
            shutil.rmtree(self.folder / name)
        self.authority.asked = []

    def test_signals_while_it_waits(self):
        """The next run sends the same request."""
        inside = threading.Event()

        def silent(*_):
            inside.set()
            time.sleep(2)

        self.authority.answer = silent
        for number in (signal.SIGINT, signal.SIGTERM, signal.SIGHUP):
            inside.clear()
            words = [sys.executable, INSTALLED / "cmsproof-archive", *map(str, self.words())]
            run = subprocess.Popen(words, cwd=self.folder, stdout=subprocess.PIPE, stderr=subprocess.PIPE)
            self.assertTrue(inside.wait(60))
            run.send_signal(number)
            out, err = run.communicate(timeout=60)
            self.assertEqual((run.returncode, out), (4 if number == signal.SIGINT else -number, b""), err)
            self.assertNotIn(b"Traceback", err)
            self.assert_nothing_made(len(self.authority.asked))
        self.authority.answer = self.authority.usual
        self.assertEqual(self.stamp()[0], 0)
        self.assertEqual((len(self.authority.asked), len({request for _, _, request in self.authority.asked})), (4, 1))
        self.assert_records(4)

    def test_a_line_that_nobody_reads(self):
        """All is done then, and the status says that the line was lost."""
        reading, writing = os.pipe()
        os.close(reading)
        words = [sys.executable, INSTALLED / "cmsproof-archive", *map(str, self.words())]
        done = subprocess.run(words, cwd=self.folder, stdout=writing, stderr=subprocess.PIPE, check=False)
        os.close(writing)
        self.assertEqual((done.returncode, done.stderr), (4, b"cmsproof-archive: failed write -: Broken pipe\n"))
        self.assertEqual(self.stamp()[:2], (0, ["files: no file is without a record"]))
        self.assert_records(4)

    def test_a_record_that_comes_meanwhile(self):
        """It stays, and no other one is made before it is away."""
        place = self.folder / "records" / "b" / "d.ers"

        def meanwhile(request, handler):
            self.put("records/b/d.ers", b"another's")
            return self.authority.usual(request, handler)

        self.authority.answer = meanwhile
        for _ in range(2):
            status, lines, err = self.stamp()
            self.assertEqual((status, lines), (4, []))
            self.assertIn(f"cmsproof evidence make: failed replace {place}; move that away, or {OTHERWISE}\n", err)
            self.assertEqual((self.records(), place.read_bytes()), ([b"b/d.ers"], b"another's"))
        place.unlink()
        self.assertEqual((self.stamp()[0], len(self.authority.asked)), (0, 1))
        self.assert_records(4)

    def test_no_room(self):
        """Whatever cannot be written is said, and a later run goes on."""
        for number in range(40):
            self.put(f"files/many/{number:03}", str(number).encode())
        tool = [sys.executable, INSTALLED / "cmsproof-archive", *map(str, self.words())]
        for most in (0, 100, 2000, 3000, 4200, 5000):

            def limited(most=most):
                signal.signal(signal.SIGXFSZ, signal.SIG_IGN)
                resource.setrlimit(resource.RLIMIT_FSIZE, (most, most))

            done = subprocess.run(tool, cwd=self.folder, capture_output=True, check=False, text=True, preexec_fn=limited)
            self.assertEqual((done.returncode, done.stdout), (4, ""), (most, done.stderr))
            self.assertNotIn("Traceback", done.stderr)
            self.assertFalse((self.folder / "state" / "1" / "done").exists())
        self.assertEqual(self.stamp()[0], 0)
        self.assert_records(44)

    def with_free(self, free):
        """The status, the lines, and what else is said by a run where so many octets are free."""
        text = f"import sys\nsys.path[:0] = [{str(MODULES)!r}]\nfrom cmsproof_tools import batches, running\n"
        self.put("changed.py", (text + f"batches.free_in = lambda _: {free}\nrunning.start('archive')\n").encode())
        words = [sys.executable, self.folder / "changed.py", *map(str, self.words())]
        done = subprocess.run(words, cwd=self.folder, capture_output=True, check=False, text=True)
        return done.returncode, done.stdout.splitlines(), done.stderr

    def test_a_token_that_there_is_no_room_for(self):
        """No record is made where that of each file has none, and a token that is kept is used once there is."""
        self.assertEqual(self.with_free(0)[:2], (4, []))
        size = (self.folder / "state" / "1" / "token.tok").stat().st_size
        status, lines, err = self.with_free(4 * size - 1)
        self.assertEqual((status, lines, self.records(), len(self.authority.asked)), (4, [], [], 1), err)
        free = f"4 records by a token of {size} octets need {4 * size} octets, and {4 * size - 1} are free"
        kept = "it is kept as state/1/response.tsr: remove that to ask again"
        self.assertEqual(err, f"cmsproof-archive: failed write records: {free}; {kept}\n")
        self.assertEqual((self.with_free(4 * size)[0], len(self.authority.asked)), (0, 1))
        self.assert_records(4)
        # what is there needs none
        os.remove(self.folder / "state" / "1" / "done"), os.remove(self.folder / "records" / "b" / "d.ers")
        status, _, err = self.with_free(size - 1)
        self.assertEqual((status, f"failed write records: 1 records by a token of {size} octets" in err), (4, True), err)
        self.assertIn(f"records by it are there: {OTHERWISE}\n", err)
        self.assertEqual(self.with_free(size)[0], 0)
        os.remove(self.folder / "state" / "1" / "done"), os.remove(self.folder / "records" / "a.ers")
        self.assertEqual((self.with_free(None)[0], len(self.authority.asked)), (0, 1))
        self.assert_records(4)

    @unittest.skipUnless(os.geteuid() == 0, "only root can mount a small disk")
    def test_a_full_disk(self):
        for number in range(60):
            self.put(f"files/many/{number:03}", str(number).encode())
        for place, sizes in (("state", (12, 16, 24)), ("records", (16, 64, 100, 200))):
            for size in sizes:
                (self.folder / place).mkdir(exist_ok=True)
                words = ["mount", "-t", "tmpfs", "-o", f"size={size}k,mode=755", "none", self.folder / place]
                if subprocess.run(words, capture_output=True, check=False).returncode:
                    self.skipTest("no disk can be mounted")
                try:
                    status, lines, err = self.stamp()
                    self.assertEqual((status, lines), (4, []), (place, size, err))
                    self.assertIn("failed ", err)
                finally:
                    subprocess.run(["umount", self.folder / place], check=True)
        self.assertEqual(self.stamp()[0], 0)
        self.assert_records(64)

    def test_two_runs_at_a_time(self):
        inside, on = threading.Event(), threading.Event()

        def waiting(request, handler):
            inside.set()
            on.wait(60)
            return self.authority.usual(request, handler)

        self.authority.answer = waiting
        found = []
        thread = threading.Thread(target=lambda: found.append(self.stamp()[0]))
        thread.start()
        self.assertTrue(inside.wait(60))
        status, _, err = self.stamp()
        on.set()
        thread.join()
        self.assertEqual((status, found, len(self.authority.asked)), (4, [0], 1))
        self.assertIn("another run has it", err)

    def test_a_state_that_is_damaged(self):
        self.authority.answer = lambda *_: (503, {}, b"")
        self.assertEqual(self.stamp()[0], 4)
        self.authority.answer = self.authority.usual
        for name, octets in (("1/terms.json", b"{"), ("1/request.tsq", b"no request"), ("sums.db", b"no database")):
            path = self.folder / "state" / name
            before = path.read_bytes()
            for more in ("-wal", "-shm"):
                if os.path.exists(f"{path}{more}"):
                    os.remove(f"{path}{more}")
            path.write_bytes(octets)
            status, _, err = self.stamp()
            self.assertEqual((status, len(self.authority.asked)), (4, 1 if name != "sums.db" else 2), (name, err))
            self.assertIn(f"failed state state/{name}: ", err)
            self.assertNotIn("Traceback", err)
            path.write_bytes(before)
        # digests that are lost are computed again, and no file was changed
        os.remove(self.folder / "state" / "sums.db")
        status, _, err = self.stamp()
        self.assertEqual((status, err), (0, ""))
        self.assert_records(4)

    def test_a_state_that_others_may_write(self):
        """They could put digests there that nobody computed. One that the tool makes is for its user alone."""
        old = os.umask(0)
        self.addCleanup(os.umask, old)
        self.authority_away()
        asked = len(self.authority.asked)
        for name in ("state", "state/1"):
            path = self.folder / name
            self.assertEqual(path.stat().st_mode & 0o7777, 0o700, name)
            for mode in (0o720, 0o702, 0o770, 0o1777):
                path.chmod(mode)
                status, lines, err = self.stamp()
                self.assertEqual((status, lines, len(self.authority.asked)), (4, [], asked), (name, mode, err))
                self.assertIn(f"failed state {name}: others may write it, ", err)
            path.chmod(0o755)
        self.authority.answer = self.authority.usual
        self.assertEqual(self.stamp()[0], 0)
        self.assert_records(4)

    def test_a_file_that_cannot_be_read(self):
        who = as_nobody()
        (self.folder / "records").mkdir()
        for path in ("records", "."):
            os.chmod(self.folder / path, 0o777)
        os.chmod(self.folder / "files" / "a", 0), os.chmod(self.folder / "files" / "b", 0)
        told = ["files/a: it cannot be read: Permission denied", "files/b: it is a folder that cannot be listed"]
        told = [f"cmsproof-archive stamp: {line}\n" for line in (*told, "2 files without a record are left out")]
        first = ["--into", "others", "--state", "first"]
        for words, line in ((first, "1 records of [0-9Z]+$"), ([], "nothing was sent: all 2 ")):
            status, lines, err = self.stamp(*words, **who)
            self.assertEqual((status, [one for one in told if one not in err]), (1, []), err)
            self.assertRegex(lines[0], "^files: " + line)
            self.assertEqual(len(self.authority.asked), 1)
            shutil.copyfile(self.folder / "others" / "e.ers", self.folder / "records" / "e.ers")
        os.remove(self.folder / "records" / "e.ers"), self.authority.asked.clear()
        os.chmod(self.folder / "files" / "a", 0o644), os.chmod(self.folder / "files" / "b", 0o755)
        os.chmod(self.folder / "records", 0o555)
        for _ in range(2):
            status, _, err = self.stamp(**who)
            self.assertEqual((status, err), (4, "cmsproof-archive: failed write records: no record can be put there\n"))
            # once the digests are there too
            os.chmod(self.folder / "records", 0o777), self.authority_away(**who), os.chmod(self.folder / "records", 0o555)
        self.assert_nothing_made(2)


if __name__ == "__main__":
    unittest.main()
