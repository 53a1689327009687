"""Tests of tools/on_installed.py, on a folder with tests of its own: what it runs side by side, leaves out, counts and writes down."""
import os
import shutil
import signal
import subprocess
import sys
import time
import unittest

from making import TOP, folder_of

# a module by its name; `wait` ends once the other one of two has begun
MODULES = {
    "good": "class Good(unittest.TestCase):\n    def test_one(self): pass\n    def test_other(self): burn()\n",
    "needs": "@unittest.skip('there is no flute')\nclass Needs(unittest.TestCase):\n    def test_one(self): pass\n",
    "bad": "class Bad(unittest.TestCase):\n    def test_one(self): self.assertEqual('said', 'wanted')\n",
    "gone": "class Gone(unittest.TestCase):\n    def test_one(self): os._exit(3)\n",
    "here": "class Here(unittest.TestCase):\n    def test_one(self): wait('here', 'there')\n",
    "there": "class There(unittest.TestCase):\n    def test_one(self): wait('there', 'here')\n",
}
HEAD = """import os, time, unittest
def burn():
    while time.process_time() < 0.6: pass
def wait(mine, other):
    open(f'{os.environ["PLACE"]}/{mine}', 'w').write(str(os.getpid()))
    while not os.path.exists(f'{os.environ["PLACE"]}/{other}'): time.sleep(0.01)
"""
LONG = "tests: 1 left out: they take long, and make test-all runs them: test_good 1"
# what is run, the status, and the lines that are printed among others, of which the last is the last one
ROWS = [
    ("tests test_good test_needs", 0, ["tests: 1 left out: there is no flute: test_needs 1", "tests: 3, 0 failed, 1 left out"]),
    (
        "tests test_bad test_good",
        1,
        ["AssertionError: 'said' != 'wanted'", "test_good: 2, 0 failed", "tests: 3, 1 failed, 0 left out"],
    ),
    ("tests test_gone", 1, ["test_gone: ended with status 3", "tests: 0, 1 failed, 0 left out"]),
    ("tests test_none", 1, ["ModuleNotFoundError: No module named 'test_none'", "tests: 1, 1 failed, 0 left out"]),
    ("record", 0, ["test_good: 2, 0 failed", "tests: 2, 0 failed, 0 left out"]),
    ("short", 0, [LONG, "tests: 2, 0 failed, 1 left out"]),
    ("tests test_good", 0, ["tests: 2, 0 failed, 0 left out"]),
]


class Running(unittest.TestCase):
    """A folder with the script, and modules of tests."""

    def setUp(self):
        self.folder = folder_of(self)
        for name in ("tools/on_installed.py", "tools/trying/__init__.py", "tools/trying/docs_test.py"):
            (self.folder / "top" / name).parent.mkdir(parents=True, exist_ok=True)
            shutil.copy(TOP / name, self.folder / "top" / name)
        script = self.folder / "top" / "tools" / "on_installed.py"
        script.write_text(
            script.read_text().replace(', SECONDS = TESTS / "long.txt", 3\n', ', SECONDS = TESTS / "long.txt", 0.4\n')
        )
        (self.folder / "top" / "tools" / "tests").mkdir()
        self.command = [sys.executable, script, "--root", self.folder]
        self.around = {**os.environ, "PLACE": str(self.folder)}

    def put(self, *names):
        """Writes modules of tests."""
        for name in names:
            (self.folder / "top" / "tools" / "tests" / f"test_{name}.py").write_text(HEAD + MODULES[name])

    def test_what_is_said(self):
        self.put("good")
        for words, wanted, lines in ROWS:
            with self.subTest(words):
                self.put(*{name for name in MODULES if f"test_{name}" in words})
                done = subprocess.run(
                    [*self.command, *words.split()], env=self.around, capture_output=True, text=True, check=False
                )
                self.assertEqual(done.returncode, wanted, done.stdout + done.stderr)
                said = done.stdout.splitlines()
                self.assertEqual(said[-1], f"on what is installed: {lines[-1]}")
                self.assertLessEqual(set(lines[:-1]), set(said))
                for name in MODULES.keys() - {"good"}:
                    (self.folder / "top" / "tools" / "tests" / f"test_{name}.py").unlink(missing_ok=True)

    @unittest.skipIf(len(os.sched_getaffinity(0)) < 2, "there is one processor")
    def test_side_by_side(self):
        self.put("here", "there")
        done = subprocess.run([*self.command, "tests"], env=self.around, capture_output=True, text=True, check=False)
        self.assertIn("tests: 2, 0 failed, 0 left out", done.stdout)

    def test_what_it_started_ends_with_it(self):
        self.put("here")
        process = subprocess.Popen([*self.command, "tests"], env=self.around, stdout=subprocess.DEVNULL)
        while not (self.folder / "here").exists() or not (self.folder / "here").read_text():
            time.sleep(0.01)
        process.send_signal(signal.SIGTERM)
        self.assertEqual(process.wait(), 143)
        self.assertFalse(os.path.exists(f"/proc/{(self.folder / 'here').read_text()}"))


if __name__ == "__main__":
    unittest.main()
