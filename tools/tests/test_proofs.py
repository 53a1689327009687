"""Tests of tools/proofs.sh and .ci/run with stand-ins for `rt` and the recipe of the gate."""
import os
import shutil
import subprocess
import tempfile
import unittest
from pathlib import Path

TOP = Path(__file__).resolve().parent.parent.parent
SCRIPT = TOP / "tools" / "proofs.sh"
# what `rt ci` prints, its status, and the status that is wanted
ROWS = [
    ("rt: ok; must-fail edits: 60 refused\n104 passed, 0 failed", 0, 0),
    ("rt: FAILED: der_core\n103 passed, 1 failed", 1, 1),
    ("rt: note: bad must-fail edits, as told above: 1. They fail nothing here\n104 passed, 0 failed", 0, 1),
    ("", 137, 137),
]


PASSED = "104 passed, 0 failed"
# environments in which a gate whose step fails must not pass, each with what its recipe has for that step
ENVIRONMENTS = [
    ({}, "false"),
    ({"MAKEFLAGS": "i"}, "false"),
    ({"MAKEFLAGS": "n"}, "false"),
    ({"MAKEFILES": "/dev/null", "GNUMAKEFLAGS": "-i"}, "false"),
    ({"PYTHON": "true"}, "$(PYTHON) -c 'raise SystemExit(1)'"),
    ({"PYTHONPATH": "{folder}/odd"}, "$(PYTHON) -c 'import shadow'"),
    ({"MACHINE": "aarch64"}, 'test -n "$$MACHINE"'),
    ({"SOAK_MINUTES": "0"}, 'test -n "$$SOAK_MINUTES"'),
    ({"SOAK_MINUTES": "0.1"}, 'test -n "$$SOAK_MINUTES"'),
    ({"SOAK_MINUTES": "60"}, 'test "$$SOAK_MINUTES" != 60'),
    ({"CDPATH": "{folder}/other"}, "false"),
]


def run_at(folder, *words, **environment):
    """Runs words with the stand-ins of a folder before all others on the path."""
    inherited = {name: value for name, value in os.environ.items() if not name.startswith(("MAKE", "MFLAGS", "PYTHON"))}
    inherited["PATH"] = f"{folder}/bin:{os.environ['PATH']}"
    return subprocess.run(words, env={**inherited, **environment}, cwd=folder, capture_output=True, text=True, check=False)


def stand_in(folder, name, text):
    """Makes a command of a folder's `bin`."""
    (folder / "bin").mkdir(exist_ok=True)
    (folder / "bin" / name).write_text(f"#!/bin/sh\n{text}\n")
    (folder / "bin" / name).chmod(0o755)


class Gate(unittest.TestCase):
    """The status of .ci/run, which decides."""

    def setUp(self):
        temporary = tempfile.TemporaryDirectory()
        self.addCleanup(temporary.cleanup)
        self.folder = Path(temporary.name)
        (self.folder / ".ci").mkdir()
        shutil.copy(TOP / ".ci" / "run", self.folder / ".ci")
        stand_in(self.folder, "rt", "exit 1")
        for name in ("odd", "other"):
            (self.folder / name / ".ci").mkdir(parents=True)
        (self.folder / "odd" / "shadow.py").write_text("")
        (self.folder / "other" / "Makefile").write_text("test:\n\ttrue\n")

    def ended(self, step, **environment):
        """How the gate ends, with this step in its recipe."""
        recipe = f"PYTHON ?= python3\ntest:\n\t@{step}\n\t@echo '{PASSED}'\n"
        (self.folder / "Makefile").write_text(recipe)
        given = {name: value.format(folder=self.folder) for name, value in environment.items()}
        return run_at(self.folder, "bash", ".ci/run", **given)

    def test_a_step_that_fails_in_odd_environments(self):
        for environment, step in ENVIRONMENTS:
            with self.subTest(environment):
                self.assertNotEqual(self.ended(step, **environment).returncode, 0)
                done = self.ended("true", **environment)
                self.assertEqual((done.returncode, done.stdout.splitlines()[-1]), (0, PASSED), done.stderr)

    def test_nothing_passes_without_rt(self):
        for name in ("bash", "sh", "make", "dirname", "mktemp", "tee", "grep", "tail", "rm", "nproc", "true", "echo"):
            (self.folder / "bin" / name).symlink_to(shutil.which(name))
        (self.folder / "bin" / "rt").unlink()
        done = self.ended("true", PATH=str(self.folder / "bin"))
        self.assertNotEqual(done.returncode, 0)
        self.assertIn("no command 'rt'", done.stderr)


class Proofs(unittest.TestCase):
    """The status that the gate sees."""

    def test_a_bad_edit_is_no_pass(self):
        for printed, status, wanted in ROWS:
            with tempfile.TemporaryDirectory() as folder:
                stand_in(Path(folder), "rt", f"cat << 'END'\n{printed}\nEND\nexit {status}")
                done = run_at(folder, "sh", str(SCRIPT))
                self.assertEqual(done.returncode, wanted, printed)
                self.assertTrue(done.stdout.startswith(printed), done.stdout)

    def test_what_is_lost_is_no_pass(self):
        # a disk that is full, and one with no folder for what is temporary
        for name, text in (("tee", 'head -c 1 > "$1"; exit 1'), ("mktemp", "exit 1")):
            with tempfile.TemporaryDirectory() as folder:
                stand_in(Path(folder), "rt", f"echo 'rt: note: bad must-fail edits, as told above: 1'; echo '{PASSED}'")
                stand_in(Path(folder), name, text)
                self.assertEqual(run_at(folder, "sh", str(SCRIPT)).returncode, 1, name)


if __name__ == "__main__":
    unittest.main()
