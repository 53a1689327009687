"""What the tests of cmsproof-archive share: real files of which it is known what is said, and the tool with a changed part."""
import shutil
import sys
import unittest

from making import ACCEPTED, MODULES, REAL, folder_of, need_tools, run_tool

need_tools()

REFUSED, MALFORMED = "refused signer 1 S10 NoToken", "malformed M1 End at 1"
# the octets of a file of which this is said under data/real/trust.txt
SAID = {
    ACCEPTED: (REAL / "rsa_attached_ts.p7s").read_bytes(),
    REFUSED: (REAL / "rsa_attached.p7s").read_bytes(),
    MALFORMED: b"\x30",
}
DETACHED, CONTENT = REAL / "rsa_detached_ts.p7s", (REAL / "blob.bin").read_bytes()
DIFFERS = "refused signer 1 S6 DigestDiffers"
# the tool, of which a part is changed by this code
CHANGED = """import os, subprocess, sys, time
sys.path[:0] = [{installed!r}]
from cmsproof_tools import archive, checking, outcomes, running
alone = archive.outcomes_of
{code}
if archive.outcomes_of is not alone:
    archive.outcomes_of_several = lambda work, names: [archive.outcomes_of(work, name) for name in names]
running.start("archive")
"""


class WithFiles(unittest.TestCase):
    """A folder with a trust list and files."""

    def setUp(self):
        self.folder = folder_of(self)
        shutil.copy(REAL / "trust.txt", self.folder / "list")

    def file(self, name, line=ACCEPTED):
        """A file of which this is said."""
        (self.folder / name).write_bytes(SAID[line])
        return name

    def detached(self, name):
        """A file that is accepted with CONTENT, and with no other content."""
        shutil.copy(DETACHED, self.folder / name)
        return name

    def changed(self, code):
        """The words that run the tool with a part of it changed by this code."""
        (self.folder / "changed.py").write_text(CHANGED.format(installed=str(MODULES), code=code))
        return [sys.executable, self.folder / "changed.py", "--trust", "list"]

    def run_archive(self, *words, said=b"", **rest):
        """The status of the tool, its lines, and its standard error."""
        status, out, err = run_tool("cmsproof-archive", "--trust", "list", *words, said=said, cwd=self.folder, **rest)
        return status, out.decode().splitlines(), err
