"""Tests of `make demo`: it shows the session of docs/GUIDE.md, on stored files where openssl or the library is missing."""
import os
import re
import shutil
import subprocess
import unittest

from making import PROGRAM, SOURCES, TOP, folder_of, lacking_tools, needs, without_library

GUIDE = (TOP / "docs" / "GUIDE.md").read_text()
LINES = [line for block in re.findall(r"^```console run.*?\n(.*?)^```", GUIDE, re.M | re.S) for line in block.splitlines()]
NEEDED = "awk cat cmp cp cut date dirname grep head mkdir mktemp printf rm sed sh sort tail".split()


class Demo(unittest.TestCase):
    """A copy of what the demo needs, with the program."""

    def setUp(self):
        self.folder = folder_of(self)
        self.tree = self.folder / "tree"
        (self.tree / "docs").mkdir(parents=True)
        shutil.copy(TOP / "demo.sh", self.tree)
        shutil.copy(TOP / "docs" / "GUIDE.md", self.tree / "docs")
        shutil.copytree(TOP / "data" / "guide", self.tree / "data" / "guide")
        shutil.copytree(SOURCES, self.tree / "tools" / "installed")
        shutil.copy(PROGRAM, self.tree / "cmsproof")

    def shown(self, *words, **environment):
        """The status of the demo, and what it shows as lines."""
        command = [shutil.which("sh"), str(self.tree / "demo.sh"), *words]
        done = subprocess.run(command, env={**os.environ, **environment}, capture_output=True, text=True, check=False)
        return done.returncode, (done.stdout + done.stderr).splitlines()

    def assert_session(self, lines):
        """All lines of the guide's session are among these, in their order."""
        rest = iter(lines)
        for line in LINES:
            self.assertIn(line, rest)

    def test_stored(self):
        status, lines = self.shown("--stored")
        self.assertEqual((status, lines[-1]), (0, "This session was shown on stored files, since the word --stored was given."))
        self.assert_session(lines)

    def test_without_openssl(self):
        (self.folder / "bin").mkdir()
        for name in NEEDED:
            (self.folder / "bin" / name).symlink_to(shutil.which(name))
        status, lines = self.shown(PATH=str(self.folder / "bin"))
        self.assertEqual((status, lines[-1]), (0, "This session was shown on stored files, since there is no openssl."))
        self.assert_session(lines)

    def test_with_an_old_openssl(self):
        (self.folder / "bin").mkdir()
        old = self.folder / "bin" / "openssl"
        old.write_text(
            "#!/bin/sh\ncase $1 in version) echo 'OpenSSL 1.1.1w  11 Sep 2023' ;; *) echo '-sign  -nodetach' ;; esac\n"
        )
        old.chmod(0o755)
        status, lines = self.shown(PATH=f"{self.folder / 'bin'}:{os.environ['PATH']}")
        why = "since OpenSSL 1.1.1w is older than OpenSSL 3.0."
        self.assertEqual((status, lines[-1]), (0, "This session was shown on stored files, " + why))
        self.assert_session(lines)

    @needs("openssl")
    def test_without_the_library(self):
        status, lines = self.shown(**without_library(self.folder))
        self.assertEqual(status, 0)
        self.assertIn("since there is no python3 with its library cryptography.", lines[-1])

    @unittest.skipIf(lacking_tools(), lacking_tools())
    def test_run(self):
        status, lines = self.shown()
        self.assertEqual(status, 0)
        self.assertRegex(lines[-1], "^All of this was run just now, with OpenSSL ")
        told = [re.sub("[0-9]{14}Z", "TIME", line) for line in lines if line.startswith(("accepted", "refused", "twice"))]
        wanted = [re.sub("[0-9]{14}Z", "TIME", line) for line in LINES if line.startswith(("accepted", "refused", "twice"))]
        self.assertEqual(told, wanted)
        commands = [line for line in LINES if line.startswith("$ ")]
        self.assertEqual([line for line in lines if line.startswith("$ ")], commands)
        self.assertNotIn("not run here", "\n".join(lines))

    def test_a_command_that_fails_ends_it(self):
        (self.tree / "cmsproof").write_text("#!/bin/sh\nexit 4\n")
        status, lines = self.shown("--stored")
        self.assertEqual((status, lines[-1]), (1, "demo: status 4: cmsproof show signed letter.p7s"))


if __name__ == "__main__":
    unittest.main()
