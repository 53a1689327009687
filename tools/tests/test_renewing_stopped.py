"""Tests of cmsproof-archive renew: runs that were stopped, killed, or had no room, and what was changed meanwhile; and what a stranger put in a
record's place, or into a state."""
import json
import os
import random
import resource
import shutil
import signal
import subprocess
import sys
import threading
import time
import unittest
from contextlib import suppress

from making import INSTALLED, PROGRAM, need_tools, run_tool

need_tools()

import cmsproof  # noqa: E402
from cmsproof_tools import batches, renewing  # noqa: E402
from cmsproof_tools.running import Stop  # noqa: E402
from recorded_world import AGAIN, FILE, MADE  # noqa: E402
from test_due import BY, list_of, tsa  # noqa: E402
from renewing_world import GOOD, LIST, OTHER, STRANGE, WithRecords, chains_of, now  # noqa: E402


class GoneOn(WithRecords):
    """Runs that were stopped, and what was changed meanwhile."""

    def away(self, **rest):
        """A run whose request gets no answer."""
        self.authority.answer = lambda *_: (503, {}, b"")
        self.assertEqual(self.renew(**rest)[0], 4)
        self.authority.answer = self.granting()

    def test_the_request_that_was_sent(self):
        """It is sent again, and no other one, though other records are due by now."""
        self.away()
        self.put("records/new.ers", MADE.record(times=(AGAIN,)))
        status, lines, err = self.renew()
        self.assertEqual((status, len(lines)), (0, 2), err)
        first, second, third = self.authority.asked
        self.assertEqual((first, first == third), (second, False))
        self.assertRegex(lines[0], "^records: 4 records have a time-stamp of ")
        self.assertRegex(lines[1], "^records: 1 records have a time-stamp of ")
        self.assertIn(f"5 records: 5 due by {BY}: 5 renewed\n", err)
        self.assert_renewed("a", "b/c.tif", "b/d"), self.assert_renewed("e", old=OTHER)

    def test_records_that_are_changed_before_the_answer(self):
        """Their request is given up, and another one made."""
        for change in (
            lambda: self.put("records/a.ers", MADE.record(times=(AGAIN,))),
            lambda: os.remove(self.folder / "records" / "b" / "d.ers"),
            lambda: (os.remove(self.folder / "records" / "e.ers"), os.symlink("/dev/zero", self.folder / "records" / "e.ers")),
        ):
            self.away()
            change()
            self.authority.answer = lambda *_: (503, {}, b"")
            self.assertIn("state/1: ", self.renew()[2])
            first, second = (request for _, _, request in self.authority.asked[-2:])
            self.assertNotEqual(first, second)
            os.remove(self.folder / "state" / "1" / "request.tsq")
        self.authority.answer = self.granting()
        status, lines, err = self.renew()
        self.assertEqual((status, lines[0]), (4, "due now records/e.ers: it is a link, and is not read"), err)
        self.assertIn(f"3 records: 3 due by {BY}: 2 renewed, 1 left as they are\n", err)

    def test_a_record_that_is_changed_by_the_answer(self):
        """Nothing is renewed until it is as it was, or the batch is given up: and then what is due gets another token."""

        def meanwhile(request, _):
            self.put("records/a.ers", STRANGE)
            return self.granting()(request, _)

        self.authority.answer = meanwhile
        status, lines, err = self.renew()
        self.assertEqual((status, lines), (1, []), err)
        more = "state/1 has its token: run this again, or remove that to have what is still due renewed by another one"
        self.assertIn(f"cmsproof evidence renew: refused U8 ImprintDiffers; {more}\n", err)
        self.assert_as_before("b/c.tif", "b/d"), self.assert_as_before("e", old=OTHER)
        self.assertEqual((self.renew()[0], len(self.authority.asked)), (1, 1))
        self.put("records/a.ers", GOOD)
        status, lines, err = self.renew()
        self.assertEqual((status, len(self.authority.asked)), (0, 1), err)
        self.assert_renewed("a", "b/c.tif", "b/d"), self.assert_renewed("e", old=OTHER)

    def test_a_batch_that_is_given_up(self):
        def meanwhile(request, _):
            os.remove(self.folder / "records" / "a.ers")
            return self.granting()(request, _)

        self.authority.answer = meanwhile
        status, _, err = self.renew()
        self.assertEqual(
            (status, "records/a.ers: nothing is in its place since it was asked for; state/1 has" in err), (4, True), err
        )
        shutil.rmtree(self.folder / "state" / "1")
        self.authority.answer = self.granting()
        self.assertEqual(self.renew()[0], 0)
        self.assert_renewed("b/c.tif", "b/d"), self.assert_renewed("e", old=OTHER)

    def test_records_that_end_before_the_answer(self):
        """Their request is given up too: no later time-stamp mends them."""
        self.away()
        terms = json.loads((self.folder / "state" / "1" / "terms.json").read_text())
        self.put("state/1/terms.json", json.dumps({**terms, "until": now(-1)}).encode())
        status, lines, err = self.renew()
        self.assertEqual((status, len(lines), len(self.authority.asked)), (0, 1, 2), err)
        self.assertIn("state/1: one of its records ended meanwhile: its request is given up\n", err)
        first, second = (request for _, _, request in self.authority.asked)
        self.assertNotEqual(first, second)

    def test_another_list_by_the_answer(self):
        """By it the last time-stamps may have ended: no token of a run by another list is put behind them (RFC 4998 5.2, 5.3)."""
        struck = now(-3600)
        self.put("struck", list_of(tsa(MADE.clock, last=struck), tsa(MADE.second)))
        left = [f"due {struck} records/{name}.ers: it ended before now, " for name in ("a", "b/c.tif", "b/d", "e")]
        self.away()
        status, lines, err = self.renew(trust="struck")
        self.assertEqual((status, len(lines), all(map(str.startswith, lines, left))), (1, 4, True), (lines, err))
        reason = "its records were looked at by another trust list: its request is given up"
        self.assertIn(f"state/1: {reason}\n", err)
        self.assert_nothing_done(1)
        self.changed_run("from cmsproof_tools import batches\nbatches.free_in = lambda _: 0")
        status, lines, err = self.renew(trust="struck")
        self.assertEqual((status, lines, "state/1 has a token by another --trust: " in err), (3, [], True), err)
        self.assert_as_before("a", "b/c.tif", "b/d"), self.assert_as_before("e", old=OTHER)
        self.assertEqual((self.renew()[0], len(self.authority.asked)), (0, 2))
        self.assert_renewed("a", "b/c.tif", "b/d"), self.assert_renewed("e", old=OTHER)

    def test_killed_at_random_moments(self):
        """Each record is the old one or the new one, and at the end all are renewed, by one request."""
        chance, runs = random.Random(4998), int(os.environ.get("CMSPROOF_KILLS", "12"))
        many = [f"many/{one:03}" for one in range(24)]
        for name in many:
            self.put(f"files/{name}", FILE), self.put(f"records/{name}.ers", GOOD if int(name[-1]) % 3 else OTHER)
        before = {path: path.read_bytes() for path in self.folder.glob("records/**/*.ers")}
        tool = [sys.executable, INSTALLED / "cmsproof-archive", *map(str, self.words())]
        shutil.copytree(self.folder / "records", self.folder / "kept")
        begun = time.monotonic()
        self.assertEqual(self.renew()[0], 0)
        took, seen = time.monotonic() - begun, set()
        for number_of in range(runs):
            if number_of % 6 == 0:
                for folder in ("records", "state"):
                    shutil.rmtree(self.folder / folder, ignore_errors=True)
                shutil.copytree(self.folder / "kept", self.folder / "records")
                self.authority.asked = []
            run = subprocess.Popen(
                tool, cwd=self.folder, start_new_session=True, stdout=subprocess.PIPE, stderr=subprocess.DEVNULL
            )
            time.sleep(chance.random() * took * 1.1)
            os.killpg(run.pid, signal.SIGKILL)
            run.communicate()
            seen |= {self.whole(path, old) for path, old in before.items()}
            if number_of % 6 == 5:
                status, _, err = self.renew()
                self.assertEqual(status, 0, err)
                self.assertEqual({self.whole(path, old) for path, old in before.items()}, {1})
                self.assertEqual(len({request for _, _, request in self.authority.asked}), 1)
                self.assert_renewed(*(name for name in many if self.is_of(name, before, GOOD)))
        # (whether a run was killed before it renewed any goes by the clock)
        self.assertLessEqual(seen, {0, 1})

    def is_of(self, name, before, old):
        """Whether a record was this one."""
        return before[self.folder / "records" / f"{name}.ers"] == old

    def whole(self, path, old):
        """How many time-stamps more a record has than an old one, which it has whole."""
        octets = path.read_bytes()
        self.assertIsNone(cmsproof.evidence.questions(octets, trust=cmsproof.TrustList(LIST)).code, path)
        (stamps,), (first,) = chains_of(octets), chains_of(old)
        self.assertEqual(stamps[: len(first)], first, path)
        return len(stamps) - len(first)

    def test_no_room(self):
        """Whatever cannot be written is said, and a later run goes on."""
        tool = [sys.executable, INSTALLED / "cmsproof-archive", *map(str, self.words())]
        for most in (0, 60, 150, 400, 1500):

            def limited(most=most):
                signal.signal(signal.SIGXFSZ, signal.SIG_IGN)
                resource.setrlimit(resource.RLIMIT_FSIZE, (most, most))

            done = subprocess.run(tool, cwd=self.folder, capture_output=True, check=False, text=True, preexec_fn=limited)
            self.assertEqual((done.returncode, done.stdout), (4, ""), (most, done.stderr))
            self.assertNotIn("Traceback", done.stderr)
            self.assertFalse((self.folder / "state" / "1" / "done").exists())
            self.assert_as_before("a", "b/c.tif", "b/d")
        self.assertEqual(self.renew()[0], 0)
        self.assert_renewed("a", "b/c.tif", "b/d"), self.assert_renewed("e", old=OTHER)

    def test_a_token_that_there_is_no_room_for(self):
        """No record is renewed where not each has room for it, and it is used once there is."""
        with_free = lambda free: self.changed_run(  # noqa: E731
            f"from cmsproof_tools import batches\nbatches.free_in = lambda _: {free}"
        )
        self.assertEqual(with_free(0)[:2], (4, []))
        size = (self.folder / "state" / "1" / "token.tok").stat().st_size
        status, lines, err = with_free(4 * size - 1)
        self.assertEqual((status, lines, len(self.authority.asked)), (4, [], 1), err)
        free = f"4 records by a token of {size} octets need {4 * size} octets, and {4 * size - 1} are free"
        where = os.path.realpath(self.folder / "records")
        self.assertIn(f"failed write {where}: {free}; state/1 has its token: run this again, ", err)
        self.assert_as_before("a", "b/c.tif", "b/d"), self.assert_as_before("e", old=OTHER)
        self.assertEqual((with_free(4 * size)[0], len(self.authority.asked)), (0, 1))
        self.assert_renewed("a", "b/c.tif", "b/d"), self.assert_renewed("e", old=OTHER)
        # what has it already needs none
        os.remove(self.folder / "state" / "1" / "done"), self.put("records/a.ers", GOOD)
        status, lines, err = with_free(size - 1)
        self.assertEqual((status, f": 1 records by a token of {size} octets need " in err), (4, True), err)
        self.assertEqual((with_free(size)[0], len(self.authority.asked)), (0, 1))
        self.assert_renewed("a", "b/c.tif", "b/d"), self.assert_renewed("e", old=OTHER)

    @unittest.skipUnless(os.geteuid() == 0, "only root can mount a small disk")
    def test_a_full_disk(self):
        for number_of in range(20):
            self.put(f"files/many/{number_of:03}", FILE), self.put(f"records/many/{number_of:03}.ers", GOOD)
        shutil.copytree(self.folder / "records", self.folder / "kept")
        for place, size in (("state", 8), ("state", 16), ("records", 200)):
            (self.folder / place).mkdir(exist_ok=True)
            words = ["mount", "-t", "tmpfs", "-o", f"size={size}k,mode=755", "none", self.folder / place]
            if subprocess.run(words, capture_output=True, check=False).returncode:
                self.skipTest("no disk can be mounted")
            try:
                if place == "records":
                    shutil.copytree(self.folder / "kept", self.folder / place, dirs_exist_ok=True)
                    fill(self.folder / "records" / "full")
                status, lines, err = self.renew()
                self.assertEqual((status, lines), (4, []), (place, size, err))
                self.assertIn("failed ", err)
                self.assertEqual({self.whole(*one) for one in self.each_with_old()}, {0})
                if place == "records":
                    # (the token is there, and is used once there is room)
                    os.remove(self.folder / "records" / "full")
                    self.assertEqual((self.renew()[0], len(self.authority.asked)), (0, 1))
                    self.assertEqual({self.whole(*one) for one in self.each_with_old()}, {1})
            finally:
                subprocess.run(["umount", self.folder / place], check=True)
            self.authority.asked = []
        shutil.rmtree(self.folder / "state")
        self.assertEqual(self.renew()[0], 0)
        self.assert_renewed("a", "b/c.tif", "b/d")

    def each_with_old(self):
        """The path of each record, and what it was."""
        return [(path, OTHER if path.name == "e.ers" else GOOD) for path in self.folder.glob("records/**/*.ers")]

    def test_a_state_that_is_damaged(self):
        self.away()
        terms = json.loads((self.folder / "state" / "1" / "terms.json").read_text())
        for name, octets in (
            ("terms.json", b"{"),
            ("terms.json", b"[" * 100000),
            ("terms.json", json.dumps({**terms, "stamps": "x"}).encode()),
            ("terms.json", json.dumps({**terms, "records": 1}).encode()),
            ("terms.json", json.dumps({**terms, "until": "never"}).encode()),
            ("terms.json", json.dumps({**terms, "algorithm": "md5"}).encode()),
            ("request.tsq", b"no request"),
        ):
            path = self.folder / "state" / "1" / name
            before = path.read_bytes()
            path.write_bytes(octets)
            status, lines, err = self.renew()
            self.assertEqual((status, lines, len(self.authority.asked)), (4, [], 1), (name, octets[:50], err))
            self.assertIn(f"failed state state/1/{name}: ", err)
            self.assertNotIn("Traceback", err)
            path.write_bytes(before)
        self.assertEqual(self.renew()[0], 0)

    def test_what_is_taken_out_of_a_state(self):
        """Nothing is renewed by two tokens, and what is left of one is not taken for another's."""
        self.away()
        terms = json.loads((self.folder / "state" / "1" / "terms.json").read_text())
        self.put("state/1/terms.json", json.dumps({**terms, "stamps": "99"}).encode())
        self.assertEqual(self.renew("--timeout", "20", timeout=120)[0], 0)
        os.remove(self.folder / "state" / "1" / "done"), os.remove(self.folder / "state" / "1" / "response.tsr")
        self.put("records/a.ers", GOOD)
        status, _, err = self.renew()
        self.assertEqual((status, "state/1: one of its records was changed: its request is given up" in err), (0, True), err)
        self.assert_renewed("a", "b/c.tif", "b/d"), self.assert_renewed("e", old=OTHER)
        os.remove(self.folder / "state" / "1" / "done"), os.remove(self.folder / "state" / "1" / "request.tsq")
        self.put("records/a.ers", GOOD)
        self.assertEqual(self.renew()[0], 0)
        self.assert_renewed("a", "b/c.tif", "b/d")

    def test_links_in_a_state(self):
        """None is followed, neither to read nor to write."""
        self.put("victim", b"as it was"), self.away()
        for name in ("records", "request.tsq", "terms.json", "response.tsr", "token.tok"):
            path = self.folder / "state" / "1" / name
            before = path.read_bytes() if path.exists() else None
            path.unlink(missing_ok=True), os.symlink("../../victim", path)
            status, lines, err = self.renew()
            self.assertEqual((status, lines, "link" in err), (4, [], True), (name, err))
            self.assertEqual((self.folder / "victim").read_bytes(), b"as it was")
            path.unlink()
            if before is not None:
                path.write_bytes(before)
            shutil.rmtree(self.folder / "state"), self.away()
        shutil.rmtree(self.folder / "state"), (self.folder / "state").mkdir(), (self.folder / "elsewhere").mkdir()
        os.symlink("../elsewhere", self.folder / "state" / "1")
        status, _, err = self.renew()
        self.assertEqual((status, list((self.folder / "elsewhere").iterdir())), (4, []), err)
        self.assertIn("failed state state/1: it is a link\n", err)

    def test_names_in_a_state(self):
        """Those that lead out of the folder are none."""
        self.away()
        for name in ("../outside.ers", "/etc/x.ers", "b/./d.ers", "", "list", "b//d.ers"):
            (self.folder / "state" / "1" / "records").write_bytes(name.encode() + b"\0")
            batch = batches.Batch(str(self.folder / "state" / "1"), {"records": str(self.folder / "records"), "stamps": "1"})
            with self.assertRaises(Stop) as found:
                renewing.names_in(batch)
            self.assertIn("state/1/records: it is damaged", found.exception.line)

    def test_states_of_others(self):
        """A batch of other words is not gone on with, and no tool takes one of another for its own."""
        self.away()
        for words in (["--policy", "2.999.4"], ["--end", "sha256=20400101000000Z"]):
            status, _, err = self.renew(*words)
            self.assertEqual((status, "state/1 is a batch of another --records, --end or --policy" in err), (3, True), err)
        words = ["--into", "made", "--state", "state", "--trust", "list", "--program", PROGRAM]
        status, _, err = run_tool(
            "cmsproof-archive", "stamp", "files", "--tsa", self.authority.address, *words, cwd=self.folder
        )
        self.assertEqual((status, "state/1 is a batch of another command: name another --state" in err), (3, True), err)
        self.assertEqual(self.renew()[0], 0)

    def test_two_runs_at_a_time(self):
        inside, on = threading.Event(), threading.Event()

        def waiting(request, handler):
            inside.set()
            on.wait(60)
            return self.granting()(request, handler)

        self.authority.answer = waiting
        found = []
        thread = threading.Thread(target=lambda: found.append(self.renew()[0]))
        thread.start()
        self.assertTrue(inside.wait(60))
        status, _, err = self.renew()
        on.set()
        thread.join()
        self.assertEqual((status, found, len(self.authority.asked)), (4, [0], 1))
        self.assertIn("another run has it", err)

    def test_a_line_that_nobody_reads(self):
        """All is done then, and the status says that the line was lost."""
        reading, writing = os.pipe()
        os.close(reading)
        words = [sys.executable, INSTALLED / "cmsproof-archive", *map(str, self.words())]
        done = subprocess.run(words, cwd=self.folder, stdout=writing, stderr=subprocess.PIPE, check=False)
        os.close(writing)
        self.assertEqual((done.returncode, done.stderr), (4, b"cmsproof-archive: failed write -: Broken pipe\n"))
        self.assertEqual(self.renew()[:2], (0, []))
        self.assert_renewed("a", "b/c.tif", "b/d")


def fill(path):
    """Has nothing be left on a disk."""
    with suppress(OSError), open(path, "wb") as file:
        while True:
            file.write(bytes(4096)), file.flush()


if __name__ == "__main__":
    unittest.main()
