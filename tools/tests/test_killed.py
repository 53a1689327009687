"""Tests of `tools/trying/killed.py`: what it says of records that a killed command left, and of those of the next run."""
import importlib
import shutil
import sys
import tempfile
import unittest
from pathlib import Path
from unittest import mock

from making import PROGRAM, need_tools

need_tools()

# (so that these are of what is installed)
PATH = list(sys.path)
importlib.import_module("cmsproof_tools.state")
from trying import killed  # noqa: E402

sys.path[:] = PATH


class Faults(unittest.TestCase):
    """Two records of three are the new ones, as after a kill, and then something is done to them."""

    @classmethod
    def setUpClass(cls):
        folder = tempfile.TemporaryDirectory()
        cls.addClassCleanup(folder.cleanup)
        cls.folder = Path(folder.name)
        with mock.patch.object(killed, "PROGRAM", PROGRAM):
            cls.records = killed.Records(cls.folder, 3, "rehash")
        shutil.copytree(cls.folder / "records", cls.folder / "made")

    def after_a_kill(self):
        """The place of a new record, which is there, and of an old one."""
        self.records.begin_again()
        for number in (0, 1):
            shutil.copyfile(self.folder / "made" / "0" / f"{number}.ers", self.place(number))
        return self.place(1), self.place(2)

    def place(self, number):
        """The place of a record."""
        return self.folder / "records" / "0" / f"{number}.ers"

    def files(self):
        """The files that are there."""
        return killed.there(self.folder / "records")

    def test_a_kill(self):
        """What is said of the files after a kill."""
        new = (self.folder / "made" / "0" / "2.ers").read_bytes()
        beside, hidden = self.folder / "records" / "0" / "2.ers.new0", self.folder / "records" / "0" / ".2.ers"
        neither, strange = "0/{} is neither the old one nor the new one", "0/{} is there, and is no beginning of a new record"
        table = [
            (lambda made, old: None, []),
            (lambda made, old: beside.write_bytes(b""), []),
            (lambda made, old: beside.write_bytes(new), []),
            (lambda made, old: beside.with_suffix(".new99").write_bytes(new[:-1]), []),
            (lambda made, old: old.unlink(), [neither.format("2.ers")]),
            (lambda made, old: old.write_bytes(new[:-1]), [neither.format("2.ers")]),
            (lambda made, old: made.write_bytes(b""), [neither.format("1.ers")]),
            (lambda made, old: old.write_bytes(made.read_bytes()), [neither.format("2.ers")]),
            (lambda made, old: old.chmod(0o600), [neither.format("2.ers")]),
            (lambda made, old: beside.write_bytes(new[1:]), [strange.format("2.ers.new0")]),
            (lambda made, old: hidden.write_bytes(new), [strange.format(".2.ers")]),
            (lambda made, old: beside.with_suffix(".new100").write_bytes(new), [strange.format("2.ers.new100")]),
            (lambda made, old: beside.with_name("3.ers.new0").write_bytes(new), [strange.format("3.ers.new0")]),
            (
                lambda made, old: (beside.write_bytes(new), beside.with_suffix(".new1").write_bytes(new)),
                ["2 other files were made"],
            ),
        ]
        for do, wrong in table:
            do(*self.after_a_kill())
            self.assertEqual(self.records.faults(self.records.old, self.files()), wrong)

    def test_the_next_run(self):
        """What is said of the files after the next run."""
        again = "0/1.ers was written again"
        table = [
            (lambda made, old: None, []),
            (lambda made, old: shutil.copyfile(made.rename(made.with_name("x")), made), ["0/x was made", again]),
            (lambda made, old: made.unlink(), ["0/1.ers is not the new one", again]),
            (lambda made, old: old.write_bytes(b""), ["0/2.ers is not the new one"]),
            (lambda made, old: old.with_suffix(".ers.new0").write_bytes(b""), ["0/2.ers.new0 was made"]),
        ]
        for do, wrong in table:
            made, old = self.after_a_kill()
            before = self.files()
            with mock.patch.object(killed, "PROGRAM", PROGRAM):
                self.assertEqual(self.records.end(), [])
            do(made, old)
            self.assertEqual(self.records.faults_at_end(before, self.files()), wrong)

    def test_a_run_that_fails(self):
        """What is said of a run that does not end well, and of a record that is written again by it."""
        made, old = self.after_a_kill()
        old.write_bytes(b"")
        with mock.patch.object(killed, "PROGRAM", PROGRAM):
            self.assertEqual(self.records.end(), [r"the next run ended with (2, b'malformed M1 End at 0\n', b'')"])


if __name__ == "__main__":
    unittest.main()
