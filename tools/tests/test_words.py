"""The words of the program: one that is an option and the name of a file too is refused, since a shell can have put it there for `*`."""
import shutil
import subprocess
import tempfile
import unittest
from pathlib import Path

from making import PROGRAM, REAL

# the files in the folder, the words, the status and what is printed
ROWS = [
    ([], "fit a b", 0, "a: fits 1\nb: fits 1\n"),
    ([], "fit --sha1 a b", 0, "a: fits 1\nb: fits 1\n"),
    (["--sha1"], "fit --sha1 a b", 3, "usage --sha1\n"),
    (["--sha1"], "fit a --sha1", 3, "usage --sha1\n"),
    (["--sha1"], "fit -- --sha1 a", 0, "--sha1: fits 1\na: fits 1\n"),
    (["--sha1"], "fit ./--sha1 ./a", 0, "./--sha1: fits 1\n./a: fits 1\n"),
    (["--sha1"], "fit a b", 0, "a: fits 1\nb: fits 1\n"),
    (["--content=b"], "fit --content=b a", 3, "usage --content=b\n"),
    (["--"], "fit -- a", 3, "usage --\n"),
    (["--"], "fit -- -- a", 0, "--: fits 1\na: fits 1\n"),
    (["--"], "fit ./-- a", 0, "./--: fits 1\na: fits 1\n"),
    (["-"], "fit - a", 3, "usage -\n"),
    (["-0"], "fit --files-from names -0", 3, "usage -0\n"),
]


class OfTheProgram(unittest.TestCase):
    @unittest.skipUnless(PROGRAM.is_file(), "the program is not built")
    def test_options_that_are_files(self):
        for files, words, status, printed in ROWS:
            with self.subTest(words=words, files=files), tempfile.TemporaryDirectory() as folder:
                for name in ["a", "b", *files]:
                    shutil.copyfile(REAL / "rsa_attached_ts.p7s", Path(folder) / name)
                (Path(folder) / "names").write_text("a\nb\n")
                done = subprocess.run(
                    [PROGRAM, *words.split()], cwd=folder, capture_output=True, text=True, stdin=subprocess.DEVNULL
                )
                self.assertEqual((done.returncode, done.stdout + done.stderr), (status, printed))

    @unittest.skipUnless(PROGRAM.is_file(), "the program is not built")
    def test_lists_are_read_once(self):
        """A list that comes by standard input, which can be read only once, serves for each of several files."""
        trust, signed = REAL / "trust.txt", [REAL / "rsa_attached_ts.p7s", REAL / "two_attached_ts.p7s"]
        alone = [run("questions", "--trust", trust, file).stdout.partition("\n") for file in signed]
        self.assertTrue(all(questions for _, _, questions in alone))
        whole = "".join([alone[0][0] + "\n", *(f"# {file}\n{questions}" for file, (_, _, questions) in zip(signed, alone))])
        said = run("questions", "--trust", "-", *signed, stdin=trust.read_text())
        self.assertEqual((said.returncode, said.stdout, said.stderr), (0, whole, ""))
        answers = whole.replace("cmsproof questions 1", "cmsproof answers 1")
        said = run("check", "--trust", trust, "--answers", "-", *signed, stdin=answers)
        self.assertEqual([line.rpartition(": ")[2].partition(" ")[0] for line in said.stdout.splitlines()], ["accepted"] * 2)


def run(*words, stdin=""):
    """The program with these words."""
    return subprocess.run([PROGRAM, *words], capture_output=True, text=True, input=stdin)


if __name__ == "__main__":
    unittest.main()
