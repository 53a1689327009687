"""Tests of how the tools write files: all octets come to stand there, or what was there stays."""
import os
import resource
import stat
import subprocess
import sys
import unittest
from pathlib import Path

from archiving import WithFiles
from making import INSTALLED, MODULES, NOBODY, as_nobody, folder_of, need_tools, run_tool

need_tools()

BEFORE, AFTER = b"as before", b"more than there is room for\n" * 6000
WAYS = {
    "write": "running.write(sys.argv[1], AFTER)",
    "bundle": "bundles.write_bundle(sys.argv[1], {'signed.p7s': AFTER})",
    "new": "writing.put_new(sys.argv[1], AFTER)",
}
CODE = """import os, signal, sys
sys.path[:0] = [{installed!r}]
from cmsproof_tools import bundles, descriptors, running, writing
AFTER = b"more than there is room for\\n" * 6000
running.Started.descriptors = descriptors.inherited()
{more}
try:
    {way}
except running.Stop as stop:
    sys.exit(stop.line)
except OSError as error:
    sys.exit(error.strerror)
"""
FULL, LONG, DENIED = "No space left on device", "File too large", "Permission denied"
STAYS = "no file can be made beside it, and it stays as it is: "
# the mask of modes, the mode of the file that is there, and the one that is wanted, as test_written.py has them of the program
MODES = [(0o022, None, 0o644), (0o077, None, 0o600), (0o022, 0o600, 0o600), (0o077, 0o666, 0o666), (0o022, 0o4755, 0o755)]


def limited():
    """No file may be longer."""
    resource.setrlimit(resource.RLIMIT_FSIZE, (1 << 16, 1 << 16))


class Writing(unittest.TestCase):
    """A folder with a file `out`."""

    def setUp(self):
        self.folder = folder_of(self)
        self.out = self.folder / "out"
        self.out.write_bytes(BEFORE)

    def said(self, way, path, more="", **rest):
        """How a process ended that writes so, and what it said."""
        code = CODE.format(installed=str(MODULES), way=WAYS[way], more=more)
        words = [sys.executable, "-c", code, str(path)]
        done = subprocess.run(words, cwd=self.folder, stderr=subprocess.PIPE, check=False, timeout=60, **rest)
        return done.returncode, done.stderr.decode().strip()

    def beside(self):
        """The names in the folder."""
        return sorted(os.listdir(self.folder))

    def test_a_limit(self):
        for way, path in (("write", "out"), ("bundle", "out"), ("new", "new")):
            self.assertEqual(
                self.said(way, path, preexec_fn=limited), (1, LONG if way == "new" else f"failed write {path}: {LONG}")
            )
            self.assertEqual((self.out.read_bytes(), self.beside()), (BEFORE, ["out"]), way)

    def test_a_full_disk(self):
        disk = self.folder / "disk"
        disk.mkdir()
        if subprocess.run(
            ["mount", "-t", "tmpfs", "-o", "size=64k", "tmpfs", disk], capture_output=True, check=False
        ).returncode:
            self.skipTest("no tmpfs can be mounted")
        self.addCleanup(subprocess.run, ["umount", disk], check=True)
        (disk / "out").write_bytes(BEFORE)
        for way, path in (("write", "disk/out"), ("bundle", "disk/out"), ("new", "disk/new")):
            self.assertEqual(self.said(way, path), (1, FULL if way == "new" else f"failed write {path}: {FULL}"))
            self.assertEqual(((disk / "out").read_bytes(), os.listdir(disk)), (BEFORE, ["out"]), way)

    def test_a_kill(self):
        """A kill before the octets are on the disk: beside the file that stays is one that is to be removed."""
        killed = "os.fsync = lambda _: os.kill(os.getpid(), signal.SIGKILL)"
        self.assertEqual(self.said("new", "new", killed)[0], -9)
        self.assertEqual(self.beside(), ["out"])
        self.assertEqual(self.said("write", "out", killed)[0], -9)
        names = self.beside()
        self.assertEqual((self.out.read_bytes(), len(names), names[0][:5]), (BEFORE, 2, ".out."))

    def test_an_error_in_the_block(self):
        self.assertEqual(self.said("bundle", "out", "bundles.put_members = lambda file, _: file.write(3)")[0], 1)
        self.assertEqual((self.out.read_bytes(), self.beside()), (BEFORE, ["out"]))

    def test_modes(self):
        for mask, before, wanted in MODES:
            self.out.unlink(missing_ok=True)
            if before is not None:
                self.out.write_bytes(BEFORE)
                self.out.chmod(before)
            self.assertEqual(self.said("write", "out", umask=mask), (0, ""))
            self.assertEqual(oct(self.out.stat().st_mode & 0o7777), oct(wanted))
            self.assertEqual((self.out.read_bytes(), self.beside()), (AFTER, ["out"]))
            self.assertEqual(self.said("new", "new", umask=mask), (0, ""))
            new = self.folder / "new"
            self.assertEqual((oct(new.stat().st_mode & 0o7777), new.read_bytes()), (oct(0o666 & ~mask), AFTER))
            new.unlink()

    def test_a_file_that_is_there_is_no_new_one(self):
        self.assertEqual(self.said("new", "out"), (1, "File exists"))
        self.assertEqual((self.out.read_bytes(), self.beside()), (BEFORE, ["out"]))

    def test_a_folder_where_files_have_names_alone(self):
        """As if the file system had no file without a name."""
        more = "writing.os.O_TMPFILE = os.O_DIRECTORY"
        self.assertEqual(self.said("new", "new", more), (0, ""))
        self.assertEqual(self.said("new", "out", more), (1, "File exists"))
        found = (self.folder / "new").read_bytes(), self.out.read_bytes(), self.beside()
        self.assertEqual(found, (AFTER, BEFORE, ["new", "out"]))

    def test_a_link_in_the_place_of_the_folder(self):
        """A folder that is open is written into, whatever is in its place by then."""
        swapped = (
            "was = writing.put_in\n"
            "def swapped(*words):\n"
            "    os.rename('folder', 'away'), os.symlink('none', 'folder')\n"
            "    was(*words)\n"
            "writing.put_in = swapped\n"
        )
        for more in ("", "writing.os.O_TMPFILE = os.O_DIRECTORY\n"):
            (self.folder / "folder").mkdir()
            self.assertEqual(self.said("new", "folder/new", more + swapped), (0, ""))
            self.assertEqual((os.listdir(self.folder / "away"), (self.folder / "away" / "new").read_bytes()), (["new"], AFTER))
            (self.folder / "folder").unlink(), (self.folder / "away" / "new").unlink(), (self.folder / "away").rmdir()

    def test_who_owns_it(self):
        if os.geteuid():
            self.skipTest("only root gives files to others")
        nobody = as_nobody()
        os.chown(self.out, NOBODY, NOBODY)
        self.assertEqual(self.said("write", "out"), (0, ""))
        found = self.out.stat()
        self.assertEqual((found.st_uid, found.st_gid, self.out.read_bytes()), (NOBODY, NOBODY, AFTER))
        # who may not give it to the old group gives the new one no more than all others have
        os.chown(self.out, 0, 0)
        self.out.chmod(0o762), self.folder.chmod(0o777)
        self.assertEqual(self.said("write", "out", **nobody), (0, ""))
        found = self.out.stat()
        self.assertEqual((found.st_uid, oct(found.st_mode & 0o7777)), (NOBODY, oct(0o722)))

    def test_long_names(self):
        """As long as a file system has them, in octets that are no characters too."""
        for name in ("a" * 255, "\u6f22" * 85, "\udcff" * 255):
            for way in ("write", "new"):
                self.assertEqual(self.said(way, self.folder / name), (0, ""), name)
                self.assertEqual((self.beside(), (self.folder / name).read_bytes()), (sorted([name, "out"]), AFTER))
                (self.folder / name).unlink()
            (self.folder / name).write_bytes(BEFORE)
            self.assertEqual(self.said("write", self.folder / name), (0, ""), name)
            (self.folder / name).unlink()

    def test_links(self):
        (self.folder / "link").symlink_to("out")
        (self.folder / "nowhere").symlink_to("made")
        for link, target in (("link", self.out), ("nowhere", self.folder / "made")):
            self.assertEqual(self.said("write", link), (0, ""))
            self.assertEqual(target.read_bytes(), AFTER)
            self.assertTrue((self.folder / link).is_symlink())
        self.assertEqual(self.beside(), ["link", "made", "nowhere", "out"])

    def test_what_may_not_be_written(self):
        """Neither a file that may not be, nor one in a folder where no file can be made."""
        inside = Path(self.folder) / "inside"
        inside.mkdir()
        (inside / "out").write_bytes(BEFORE)
        self.folder.chmod(0o755), (inside / "out").chmod(0o666), inside.chmod(0o555), self.out.chmod(0o444)
        self.addCleanup(inside.chmod, 0o755)
        user = as_nobody()
        rows = [("out", DENIED), ("inside/out", STAYS + DENIED), ("inside/new", DENIED), ("out/x", "Not a directory")]
        for path, line in [*rows, ("inside", "Is a directory"), ("none/x", "No such file or directory")]:
            for way in ("write", "bundle"):
                self.assertEqual(self.said(way, path, **user), (1, f"failed write {path}: {line}"))
        self.assertEqual((self.out.read_bytes(), (inside / "out").read_bytes()), (BEFORE, BEFORE))
        self.assertEqual((self.beside(), os.listdir(inside)), (["inside", "out"], ["out"]))

    def test_pipes_and_devices(self):
        pipe, null = self.folder / "pipe", self.folder / "null"
        os.mkfifo(pipe)
        null.symlink_to("/dev/null")
        for way in ("write", "bundle"):
            with subprocess.Popen(["timeout", "60", "cat", pipe], stdout=subprocess.PIPE) as reader:
                self.assertEqual(self.said(way, pipe), (0, ""))
                found = reader.communicate()[0]
            self.assertEqual(found[:4] == b"PK\3\4" if way == "bundle" else found == AFTER, True)
            self.assertEqual(self.said(way, null), (0, ""))
            self.assertEqual(self.said(way, "/dev/full"), (1, f"failed write /dev/full: {FULL}"))
        self.assertTrue(stat.S_ISFIFO(pipe.stat().st_mode) and null.is_symlink() and Path("/dev/null").is_char_device())

    def test_descriptors(self):
        """What names a descriptor, or the file of standard output, is written behind what is there, and before what comes."""
        more = "os.write(1, b'first')\nimport atexit\natexit.register(os.write, 1, b'last')"
        for path in ("/dev/stdout", "/dev/fd/1", "/proc/self/fd/1", "out"):
            with open(self.out, "wb") as out:
                self.assertEqual(self.said("write", path, more, stdout=out), (0, ""), path)
            self.assertEqual(self.out.read_bytes(), b"first" + AFTER + b"last", path)
        self.assertEqual(self.said("write", "/dev/fd/77"), (1, "failed write /dev/fd/77: No such file or directory"))


class Kept(WithFiles):
    """Nothing is written over what the same command reads, by whichever name."""

    def test_cmsproof_archive(self):
        for name in ("a", "x", "ca", "crl", "names", "pairs", "n"):
            self.file(name)
        self.detached("x.p7s"), os.link(self.folder / "a", self.folder / "b"), (self.folder / "link").symlink_to("a")
        (self.folder / "names").write_text("n\n"), (self.folder / "pairs").write_text("n\tx\n")
        before = {path.name: path.read_bytes() for path in self.folder.iterdir()}
        issuer = ["cmsproof-archive", "--issuer", "ca", "--crl", "crl", "--write-trust"]
        log = ["cmsproof-archive", "--trust", "list", "--log"]
        rows = [(words, out, ["a"]) for words in (issuer, log) for out in ("./a", "b", "link", self.folder / "a")]
        rows += [(words, "./x", ["x.p7s"]) for words in (issuer, log)] + [(issuer, out, ["a"]) for out in ("ca", "./crl")]
        rows += [(words, "names", ["--files-from", "names"]) for words in (issuer, log)]
        rows += [(words, out, ["--pairs-from", "pairs"]) for words in (issuer, log) for out in ("x", "./n", "pairs")]
        rows += [(log, "list", ["a"]), (log, "n", ["--state", "n", "a"])]
        rows += [(issuer, "n", ["--crl-dir", ".", "a"]), (issuer, "names", ["--crl-dir", self.folder, "a"])]
        for words, out, names in rows:
            status, said, err = run_tool(*words, out, *names, cwd=self.folder)
            self.assertEqual((status, said, len(err.splitlines())), (3, b"", 1), (words, out, names, err))
        self.assertEqual({path.name: path.read_bytes() for path in self.folder.iterdir()}, before)
        # a device loses nothing, and a list may take the place of the one that it grew from
        self.assertEqual(run_tool(*log, "/dev/null", "a", cwd=self.folder)[0], 0)

    def test_a_log_loses_no_line(self):
        """Not where lines of the tool go to the same file, nor in a file that the tool itself has open."""
        self.file("a")
        log = [sys.executable, INSTALLED / "cmsproof-archive", "--json", "--trust", "list", "--state", "s", "--log"]
        for number, path in ((1, "out"), (1, "/dev/stdout"), (1, "/dev/fd/1"), (2, "out"), (2, "/proc/self/fd/2")):
            with open(self.folder / "out", "wb") as out:
                ends = (out, subprocess.DEVNULL) if number == 1 else (subprocess.DEVNULL, out)
                words = [*log, path, "--recheck", "a"]
                done = subprocess.run(words, cwd=self.folder, stdout=ends[0], stderr=ends[1], check=False)
            lines = (self.folder / "out").read_text().splitlines()
            first = [line for line in lines if line.startswith('{"time": ') and line.endswith('"accepted": 1}')]
            self.assertEqual((done.returncode, len(lines), len(first)), (0, 4 - number, 1), (path, lines))
        for number in range(3, 9):
            done = subprocess.run([*log, f"/dev/fd/{number}", "a"], cwd=self.folder, capture_output=True, check=False)
            line = f"cmsproof-archive: failed write /dev/fd/{number}: No such file or directory\n"
            self.assertEqual((done.returncode, done.stdout, done.stderr.decode()), (4, b"", line))

    def test_cmsproof_verify(self):
        (self.folder / "q").write_text("cmsproof questions 1\n"), (self.folder / "link").symlink_to("q")
        for out in ("q", "./q", "link"):
            status, said, err = run_tool("cmsproof-verify", "q", out, cwd=self.folder)
            line = f"cmsproof-verify: {out} would be written over q, which is read\n"
            self.assertEqual((status, said, err), (3, b"", line))
        self.assertEqual((self.folder / "q").read_text(), "cmsproof questions 1\n")


if __name__ == "__main__":
    unittest.main()
