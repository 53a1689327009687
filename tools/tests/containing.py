"""What the tests of containers share: which Python has the libraries, a maker of containers, and what the tools say of a folder."""
import json
import os
import shutil
import subprocess
import sys
import unittest
from pathlib import Path

from making import INSTALLED, PROGRAM, folder_of, need_tools

need_tools()

from samples import containers as made  # noqa: F401

DEBIAN = "/usr/bin/python3"


def has(python, library):
    """Whether this Python has a library."""
    return Path(python).exists() and not subprocess.run([python, "-c", f"import {library}"], capture_output=True).returncode


# the Python that reads PDF, if there is one, and the others
PYTHON = next((python for python in (sys.executable, DEBIAN) if has(python, "pikepdf")), sys.executable)
PDF = has(PYTHON, "pikepdf")
FIXED = {"PYTHONDONTWRITEBYTECODE": "1"}


@unittest.skipUnless(PROGRAM.exists(), "the program is not built")
class WithMaker(unittest.TestCase):
    """A folder, `archive` in it, and a maker of signatures."""

    def setUp(self):
        self.folder = folder_of(self)
        (self.folder / "archive").mkdir()
        self.maker = made.Maker(self.folder, PROGRAM)

    def put(self, name, octets):
        """Makes a file in `archive`."""
        path = self.folder / "archive" / name
        path.parent.mkdir(exist_ok=True)
        path.write_bytes(octets)
        return path

    def run_tool(self, tool, *words, env=None):
        """The status of a tool, its lines of JSON, and its standard error."""
        done = subprocess.run(
            [PYTHON, INSTALLED / tool, *map(str, words)],
            cwd=self.folder,
            capture_output=True,
            env={**os.environ, **FIXED, **(env or {})},
            timeout=300,
            check=False,
        )
        return done.returncode, [json.loads(line) for line in done.stdout.splitlines()], done.stderr.decode()

    def text_of(self, tool, *words):
        """The standard output of a tool."""
        done = subprocess.run([PYTHON, INSTALLED / tool, *words], cwd=self.folder, capture_output=True, check=False)
        return done.stdout.decode()

    def lines(self, *words, env=None):
        """What cmsproof-archive says of `archive`: by name, behind a space the part, the line."""
        _, rows, err = self.run_tool("cmsproof-archive", "--trust", "trust.txt", "--json", *words, "archive", env=env)
        if not rows:
            raise AssertionError(err)
        self.rows, self.err = rows[:-1], err
        found = {}
        for row in self.rows:
            name = " ".join(filter(None, [row["file"].partition("/")[2], row.get("part")]))
            self.assertNotIn(name, found)
            found[name] = row["line"]
        return found

    def extracted(self, *names, words=()):
        """What cmsproof-extract says of files in `archive`, once it wrote all into the folder `out`, which is new."""
        shutil.rmtree(self.folder / "out", ignore_errors=True)
        (self.folder / "out").mkdir()
        return self.run_tool("cmsproof-extract", "--to", "out", *words, *(Path("archive") / name for name in names))[1]
