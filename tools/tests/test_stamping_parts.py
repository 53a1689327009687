"""Tests of the parts of cmsproof-archive stamp, which need no program: what comes over HTTP, lines of digests, names that can have records,
whose a state is, and clocks."""
import errno
import hashlib
import os
import signal
import socket
import subprocess
import threading
import time
import unittest
from unittest import mock

from making import NOBODY, folder_of, need_tools

need_tools()

import cmsproof  # noqa: E402
from cmsproof_tools import authority, batches, folders, making, summing  # noqa: E402
from cmsproof_tools.running import Stop  # noqa: E402
from stamping_world import ASKED, Authority  # noqa: E402


def answer_of(begin, then):
    """What is taken of an authority that answers so, and then goes on with `then`: its octets, or why they are none; and how many were
    sent, at most 64 MiB."""
    listening, sent = socket.create_server(("127.0.0.1", 0)), []

    def serve():
        connection, _ = listening.accept()
        with connection:
            asked = b""
            while not asked.endswith(b"\r\n\r\nrequest"):
                asked += connection.recv(65536)
            try:
                connection.sendall(begin)
                while then and len(sent) * len(then) < 64 << 20:
                    connection.sendall(then)
                    sent.append(True)
                connection.shutdown(socket.SHUT_WR)
            except OSError:
                pass

    with listening, mock.patch.dict(os.environ, {}, clear=True):
        serving = threading.Thread(target=serve, daemon=True)
        serving.start()
        address = authority.address_of(f"http://127.0.0.1:{listening.getsockname()[1]}/")
        try:
            found = authority.answer_to(b"request", address, 30)
        except Stop as stop:
            found = stop
        serving.join()
    return found, len(sent) * len(then)


class Parts(unittest.TestCase):
    """What needs no program."""

    def test_lines_of_sums(self):
        """They are those of sha256sum, and are read as they were written."""
        folder = folder_of(self)
        names = ["a", "two\nlines", "back\\slash", "\\n", "\\\\n\n\r", "cr\rhere", "  x ", "*y", "é"]
        for name in names:
            (folder / name).write_bytes(name.encode())
            line = summing.line_of(name, hashlib.sha256(name.encode()).digest())
            done = subprocess.run(["sha256sum", "--", name], cwd=folder, capture_output=True, check=True)
            self.assertEqual(line, done.stdout, name)
            self.assertEqual(summing.name_in(line), name)

    def test_addresses(self):
        for text in ("http://tsa.example", "https://tsa.example:8443/a/b?c=d", "http://[::1]:80/x"):
            self.assertEqual(authority.address_of(text).geturl(), text)
        bad = ["", "tsa.example", "http://", "http://a@b/", "http://a:99999/", "http://a/\n", "http://é/", "http://a:-1/"]
        for text in bad:
            with self.assertRaises(Stop, msg=text):
                authority.address_of(text)

    def test_addresses_that_nobody_can_ask(self):
        """They have a line, which has no password of a proxy."""
        proxy = {"http_proxy": "http:/user:secret@proxy.invalid:80"}
        for text, surroundings in (("http://a..b/", {}), (f"http://{'a' * 64}.invalid/", {}), ("http://tsa.invalid/", proxy)):
            with mock.patch.dict(os.environ, surroundings, clear=True), self.assertRaises(Stop, msg=text) as found:
                authority.answer_to(b"", authority.address_of(text), 5)
            self.assertIn(f"failed request {text}: the address is none, or that of a proxy", found.exception.line)

    def test_what_http_can_say(self):
        """Answers to the letter (RFC 9112), and a part that goes on and on: as much is taken of it as an answer may have."""
        head = b"HTTP/1.1 200 OK\r\nContent-Type: application/timestamp-reply\r\n"
        chunks, more = head + b"Transfer-Encoding: chunked\r\n\r\n", b"x" * 65536
        for begin, then, line in (
            (head + b"\r\nabc", b"", b"abc"),
            (head.replace(b"1.1", b"1.0") + b"Content-Length: 3\r\n\r\nabcd", b"", b"abc"),
            (chunks + b"1;a=b\r\na\r\n2\r\nbc\r\n0\r\nX: y\r\n\r\n", b"", b"abc"),
            (b"HTTP/1.1 100 Continue\r\n\r\n" + head + b"\r\nabc", b"", b"abc"),
            (chunks + b"5\r\nabc", b"", "its answer was cut off"),
            (head + b"Content-Length: 5\r\n\r\nabc", b"", "its answer was cut off"),
            (chunks + b"-1\r\n", more, ""),
            (chunks + b"-5\r\n", more, ""),
            (chunks + b"ffffffffffffffffffff\r\n", more, "its answer has more than "),
            (head + b"\r\n", more, "its answer has more than "),
            (head, b"a: b\r\n" * 1000, ""),
            (head, b"a" * 65536, ""),
            (b"HTTP/1.1 302 Found\r\nLocation: http://[\r\n\r\n", b"", ""),
            (b"abc", b"", ""),
            (b"", b"", "Remote end closed connection without response"),
        ):
            with self.subTest(begin[-40:]):
                found, sent = answer_of(begin, then)
                self.assertLess(sent, 32 << 20)
                if isinstance(line, bytes):
                    self.assertEqual(found, line)
                else:
                    self.assertRegex(str(found), f"^failed request http://127[^ ]*: {line}")

    def test_the_alarm_is_gone_behind_a_block(self):
        """It comes where whoever started the tool had blocked its signal, which then is blocked again."""
        self.addCleanup(signal.pthread_sigmask, signal.SIG_SETMASK, signal.pthread_sigmask(signal.SIG_BLOCK, ()))
        for how in (signal.SIG_UNBLOCK, signal.SIG_BLOCK):
            signal.pthread_sigmask(how, (signal.SIGALRM,))
            before = signal.pthread_sigmask(signal.SIG_BLOCK, ())
            with self.assertRaises(authority.Late), authority.ended_after(0.05):
                time.sleep(5)
            if how == signal.SIG_BLOCK:
                os.kill(os.getpid(), signal.SIGALRM)
            with authority.ended_after(0.1):
                pass
            time.sleep(0.2)
            self.assertEqual(signal.pthread_sigmask(signal.SIG_BLOCK, ()), before)

    def test_clocks_that_are_apart(self):
        """An authority whose clock is ahead is no stranger, but much is said."""
        found = Authority()
        self.addCleanup(found.close)
        token = cmsproof.match(ASKED, found.reply(ASKED)).octets
        trust, now = cmsproof.TrustList(found.list), time.time()
        for ahead, told in ((3, 0), (-3, 0), (4000, 1), (-4000, 1)):
            with mock.patch.object(batches.time, "time", return_value=now - ahead), mock.patch.object(batches, "tell") as tell:
                batches.judge("tool", mock.Mock(end=[]), trust, token)
                batches.tell_where_apart("tool", token)
            self.assertEqual(tell.call_count, told)

    def test_which_names_can_have_records(self):
        """Where a name has at most 255 octets, and a path 4095 (limits.h), and `.new99` may stand behind `.ers` while a record is written."""
        fit = summing.Names("/records")
        fit.longest = 255
        deep = "/".join(["d" * 99] * 40)
        for name, fits in (
            ("n" * 245, True),
            ("n" * 246, False),
            ("d" * 255 + "/n", True),
            ("d" * 256 + "/n", False),
            ("\udcff", False),
            ("\udcff/n", False),
            ("n.ers/n", True),
            ("n.ers.new0", True),
            ("n.ers.new0/n", False),
            ("d/\n.ers.new99/d/n", False),
            ("n.ers.new100/n", True),
            ("n.ers.new/n", True),
            (f"{deep}/{'n' * (4095 - 9 - 4000 - 10)}", True),
            (f"{deep}/{'n' * (4095 - 9 - 4000 - 9)}", False),
        ):
            self.assertEqual(fit.fault(name) == "", fits, name)

    def test_which_files_are_left_out(self):
        """Those of which it is not known that their octets were read in this run, or are as they were: whatever an earlier run kept of them."""
        top, state = folder_of(self), folder_of(self)
        (top / "a").write_bytes(b"one")
        at = os.open(top, os.O_RDONLY | os.O_DIRECTORY)
        self.addCleanup(os.close, at)
        found, batch = summing.summed(at, "sha256", "a"), batches.Batch(str(state), {})
        given = mock.Mock(jobs=1, alg="sha256", progress=False, dask=None)
        line = summing.line_of("a", hashlib.sha256(b"one").digest())
        unread, changed = "it cannot be read: Input/output error", "it was changed while the others were read"
        for kept, now, reason in (
            (None, found, ""),
            (found, found, ""),
            (None, found._replace(fault=unread), unread),
            (found, found._replace(fault=unread), unread),
            (None, found._replace(mark="3 0 0 0 0"), changed),
            (found, found._replace(mark="3 0 0 0 0"), changed),
            (found._replace(steady=True), found._replace(fault=unread), ""),
        ):
            left, database = making.Left("tool", "files"), state / "sums.db"
            database.unlink(missing_ok=True)
            with summing.Sums(str(database), "sha256") as sums, mock.patch.object(making, "tell") as tell:
                if kept is not None:
                    sums.put("a", kept), sums.commit()
                with mock.patch.object(making.summing, "summed", return_value=now):
                    making.sum_all("tool", given, at, sums, ["a"], left)
                count = making.write_sums(batch, at, sums, ["a"], left)
            self.assertEqual((count, (state / "sums.new").read_bytes()), (0, b"") if reason else (1, line), (kept, now))
            self.assertEqual([one.args for one in tell.call_args_list], [("tool", f"files/a: {reason}")] if reason else [])

    def test_a_name_that_is_listed_twice(self):
        """As one can be that is renamed meanwhile: of two lines for one file there would be no records."""
        top = folder_of(self)
        (top / "a").write_bytes(b""), (top / "b").mkdir(), (top / "b" / "a").write_bytes(b"")
        listed = os.listdir
        with mock.patch.object(folders.os, "listdir", side_effect=lambda at: listed(at) * 2):
            self.assertEqual(list(folders.files_under(str(top), self.fail)), [str(top / "a"), str(top / "b" / "a")])

    def test_what_is_left_out_is_written_first(self):
        """Whoever goes on with digests has what was said of the files that are not among them, whenever a run was killed."""
        top, into, state = folder_of(self), folder_of(self), folder_of(self)
        (top / "a").write_bytes(b"one"), (top / "x").write_bytes(b""), (top / "x.ers").mkdir(), (top / "x.ers" / "y").write_bytes(b"")
        at = os.open(top, os.O_RDONLY | os.O_DIRECTORY)
        self.addCleanup(os.close, at)
        words = {"jobs": 1, "alg": "sha256", "policy": None, "progress": False, "dask": None}
        given = mock.Mock(folder=str(top), into=str(into), state=str(state), **words)
        batch = making.batch_in(given)
        line = f"{top}/x.ers/y: it can have no record: that of {top}/x is in the place of its record's folder"
        for name, there in (("put", {"terms.json", "sums.new"}), ("put_in_place", {"terms.json", "sums.new", "left"})):
            where = making.Batch if name == "put" else making
            with mock.patch.object(where, name, side_effect=KeyboardInterrupt), mock.patch.object(making, "tell"):
                with self.assertRaises(KeyboardInterrupt):
                    making.begin("tool", given, batch, at)
            self.assertEqual(set(os.listdir(batch.path)), there)
        self.assertEqual(batch.read("left").decode(), line + "\n")
        with mock.patch.object(making, "tell") as tell:
            self.assertEqual((making.begin("tool", given, batch, at), making.left_before("tool", batch)), (1, 1))
        said = [("tool", line), ("tool", "1 files without a record are left out")]
        self.assertEqual([one.args for one in tell.call_args_list], said * 2)
        # (an older version wrote none)
        batch.remove("left")
        self.assertEqual(making.left_before("tool", batch), 0)

    def test_what_cannot_be_looked_into(self):
        """It is left out, whatever record is in its place: files may be in it, as in a folder `d` that comes where a file `d` was. And since it
        is no file, it hinders none."""
        top, into, denied = folder_of(self), folder_of(self), PermissionError(errno.EACCES, "Permission denied")
        for name in ("a", "gone", "d/x", "f/x", "f.ers/y", "z"):
            (top / name).parent.mkdir(exist_ok=True), (top / name).write_bytes(b"")
        for name in ("a", "d", "gone"):
            (into / f"{name}.ers").write_bytes(b"a record")

        def but(function, *names):
            def called(name, *rest, **more):
                if name in names:
                    raise denied
                return function(name, *rest, **more)

            return called

        given, left = mock.Mock(folder=str(top), into=str(into)), making.Left("tool", str(top))
        opened, looked = but(os.open, "d", "f"), but(os.lstat, "gone")
        with mock.patch.object(folders.os, "open", opened), mock.patch.object(folders.os, "lstat", looked):
            with mock.patch.object(making, "tell") as tell:
                self.assertEqual(making.named("tool", given, left), ["f.ers/y", "z"])
        listed, unread = "it is a folder that cannot be listed", "it cannot be read: Permission denied"
        self.assertEqual(left.lines, [f"{top}/d: {listed}", f"{top}/f: {listed}", f"{top}/gone: {unread}"])
        tell.assert_called_with("tool", "1 files have a record already, which is not looked at")

    def test_lines_of_the_program(self):
        """A name in one is shown as names are: it is no other line, and has no part of one."""
        for said, line in (
            (b"failed write /r/a.ers\n", "failed write /r/a.ers"),
            (b"failed replace /r/a\n: b\x1b[31m\\.ers\n", "failed replace /r/a\\n:\\x20b\\x1b[31m\\\\.ers"),
            (b"failed write /r/\xe2\x80\xa8\n\n.ers\n", "failed write /r/\\u2028\\n\\n.ers"),
            (b"refused U8 ImprintDiffers\n", "refused U8 ImprintDiffers"),
            (b"error: no such command\nusage: cmsproof\n", "error: no such command"),
            (b"", ""),
        ):
            self.assertEqual(batches.line_of(said), line)

    def test_whose_the_state_is(self):
        state = folder_of(self)
        with batches.held(str(state)), self.assertRaises(Stop) as found, batches.held(str(state)):
            pass
        self.assertIn("another run has it", found.exception.line)
        with mock.patch.object(batches.fcntl, "flock", side_effect=OSError(errno.EBADF, "Bad file descriptor")):
            with self.assertRaises(Stop) as found, batches.held(str(state)):
                pass
        self.assertIn("Bad file descriptor", found.exception.line)
        own = os.geteuid()
        if own == 0:
            os.chown(state, NOBODY, NOBODY)
        with mock.patch.object(batches.os, "geteuid", return_value=own and own + 1):
            with self.assertRaises(Stop) as found, batches.held(str(state)):
                pass
        self.assertIn("it is another user's", found.exception.line)

    def test_which_files_are_as_they_were(self):
        """By their octets, but where it is known that these cannot have been changed without a trace."""
        top = folder_of(self)
        (top / "a").write_bytes(b"one")
        at = os.open(top, os.O_RDONLY | os.O_DIRECTORY)
        self.addCleanup(os.close, at)
        new = summing.summed(at, "sha256", "a")
        line, known = summing.line_of("a", hashlib.sha256(b"one").digest()), new._replace(steady=True)
        self.assertEqual((new.steady, new.digest), (False, hashlib.sha256(b"one").digest()))
        for octets, kept, as_it_was in (
            (b"one", known, True),
            (b"one", new, True),
            (b"one", None, True),
            (b"one", known._replace(mark=""), True),
            (b"one", known._replace(digest=bytes(32)), True),
            (b"two", new, False),
            (b"two", None, False),
            (b"two", known._replace(mark=""), False),
            (b"two", known._replace(digest=bytes(32)), False),
        ):
            (top / "a").write_bytes(octets)
            # (a change that leaves the same times)
            with mock.patch.object(making.summing, "mark_below", return_value=new.mark):
                self.assertEqual(making.is_as_it_was(at, "sha256", line, kept), as_it_was, (octets, kept))
        (top / "a").unlink()
        self.assertFalse(making.is_as_it_was(at, "sha256", line, known))

    def test_which_batch_is_the_next(self):
        state = folder_of(self)
        given = mock.Mock(state=str(state), folder=str(state), alg="sha256", policy=None)
        self.assertEqual(making.batch_in(given).path, str(state / "1"))
        for number in ("9", "10", "07", "x"):
            (state / number).mkdir()
        (state / "10" / "done").write_bytes(b"")
        self.assertEqual(making.batch_in(given).path, str(state / "11"))


if __name__ == "__main__":
    unittest.main()
