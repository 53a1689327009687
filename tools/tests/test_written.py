"""Tests of who may read, write and run a file that the program writes: a new one, and one that replaces another."""
import os
import resource
import signal
import subprocess
import tempfile
import unittest
from pathlib import Path

from making import PROGRAM

FIRST, SECOND = b"cmsproof trust 1\n", b"cmsproof trust 2\n"
# the mask of modes, the mode of the file that is there, and the one that is wanted. POSIX has 0666 without the mask for a new file; set-user-ID
# and set-group-ID do not stay when others write into a file
MODES = (
    (0o022, None, 0o644),
    (0o077, None, 0o600),
    (0o022, 0o600, 0o600),
    (0o022, 0o640, 0o640),
    (0o077, 0o666, 0o666),
    (0o022, 0o755, 0o755),
    (0o022, 0o4755, 0o755),
    (0o022, 0o2755, 0o755),
    (0o022, 0o6711, 0o711),
)


class Written(unittest.TestCase):
    """A folder with a list, and a file `out` of a given mode, or none."""

    def migrate(self, folder, mask, before, **how):
        """Runs `migrate` under a mask, with a file of this mode in its way, and gives how it ended."""
        (folder / "list").write_bytes(FIRST)
        if before is not None:
            (folder / "out").write_bytes(b"as before")
            (folder / "out").chmod(before)
        return subprocess.run([PROGRAM, "migrate", "list", "out"], cwd=folder, umask=mask, **how).returncode

    def test_modes(self):
        for mask, before, wanted in MODES:
            with self.subTest(mask=oct(mask), before=before and oct(before)), tempfile.TemporaryDirectory() as name:
                folder = Path(name)
                self.assertEqual(self.migrate(folder, mask, before), 0)
                self.assertEqual(oct((folder / "out").stat().st_mode & 0o7777), oct(wanted))
                self.assertEqual((folder / "out").read_bytes(), SECOND)
                self.assertEqual(sorted(os.listdir(folder)), ["list", "out"])

    def test_killed_before_the_first_octet(self):
        """The system kills a run that lets a file grow beyond its limit, here at the first octet: the modes are there already."""

        def no_octet():
            resource.setrlimit(resource.RLIMIT_FSIZE, (0, 0))

        for mask, before, wanted in MODES:
            with self.subTest(mask=oct(mask), before=before and oct(before)), tempfile.TemporaryDirectory() as name:
                folder = Path(name)
                self.assertEqual(self.migrate(folder, mask, before, preexec_fn=no_octet), -signal.SIGXFSZ)
                beside = (folder / "out.new0").stat()
                self.assertEqual((oct(beside.st_mode & 0o7777), beside.st_size), (oct(wanted), 0))


if __name__ == "__main__":
    unittest.main()
