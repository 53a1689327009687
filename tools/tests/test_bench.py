"""Tests of `make bench`, in a small tree whose workloads print their first word."""
import contextlib
import io
import os
import shutil
import subprocess
import sys
import unittest
from unittest import mock

from making import TOP, folder_of, needs

import bench
import dist
import linking
from test_dist import assembly


@needs("git")
class Bench(unittest.TestCase):
    """A history of two commits, of which only the second has workloads in dist/."""

    def setUp(self):
        self.top = folder_of(self) / "tree"
        (self.top / "bench").mkdir(parents=True)
        (self.top / "dist").mkdir()
        shutil.copy(TOP / "bench" / "run", self.top / "bench")
        (self.top / "bench" / "workloads.txt").write_text("files workloads files 1 SEED\n")
        shutil.copy(TOP / "dist" / "runtime.c", self.top / "dist")
        self.git("init", "--quiet")
        self.commit("first")
        (self.top / "dist" / linking.assembly_of("workloads")).write_bytes(dist.packed(assembly()))
        self.commit("second")
        for module in (bench, linking):
            patch = mock.patch.object(module, "TOP", self.top)
            patch.start()
            self.addCleanup(patch.stop)

    def git(self, *words):
        who = ["-c", "user.name=tester", "-c", "user.email=tester@cmsproof.example"]
        subprocess.run(["git", *who, *words], cwd=self.top, check=True)

    def commit(self, name):
        (self.top / "dist" / "SHA256SUMS").write_text(dist.sums(self.top / "dist"))
        self.git("add", ".")
        self.git("commit", "--quiet", "-m", name)
        self.git("tag", name)

    def said(self, *words, **environment):
        """The status, and what was printed and complained of."""
        out, err = io.StringIO(), io.StringIO()
        with mock.patch.dict(os.environ, environment), contextlib.redirect_stdout(out), contextlib.redirect_stderr(err):
            status = bench.main(list(words))
        return status, out.getvalue(), err.getvalue()

    def test_bad_words_get_one_line(self):
        table = [
            (("run",), {}, "SINCE is missing"),
            (("run", ""), {}, "SINCE is missing"),
            (("run", "nothing"), {}, "there is no commit 'nothing'"),
            (("run", "--all"), {}, "there is no commit '--all'"),
            (("run", "second", "many"), {}, "SEED is a number below 2^32, and not 'many'"),
            (("run", "second", str(2**32)), {}, "SEED is a number below 2^32"),
            (("run", "second"), {"CC": "nothing-here"}, "there is no C compiler nothing-here"),
            (("run", "second"), {"CC": "false"}, "false did not build"),
            (("run", "first"), {}, "so its workloads cannot be built from dist/"),
            (("build", str(self.top / "old"), "first"), {}, "so its workloads cannot be built from dist/"),
        ]
        for words, environment, line in table:
            with self.subTest(words, **environment):
                status, out, err = self.said(*words, **environment)
                self.assertEqual((status, out, len(err.splitlines())), (1, "", 1))
                self.assertIn(line, err)
        self.assertEqual(self.said("time")[0], 2)

    def test_a_dist_that_is_not_as_its_sums_say(self):
        name = self.top / "dist" / linking.assembly_of("workloads")
        for change, line in ((lambda: name.write_bytes(b"x"), "was changed or damaged"), (name.unlink, "dist/ here has no")):
            change()
            status, _, err = self.said("run", "second")
            self.assertEqual((status, len(err.splitlines())), (1, 1))
            self.assertIn(line, err)

    def test_both_are_built_and_run(self):
        done = subprocess.run(
            [
                sys.executable,
                "-c",
                f"import bench, sys; bench.TOP = bench.Path({str(self.top)!r}); sys.exit(bench.main(sys.argv[1:]))",
            ]
            + ["run", "second", "5"],
            env={**os.environ, "TURNS": "1", "PYTHONPATH": str(TOP / "tools")},
            capture_output=True,
            text=True,
            check=False,
        )
        self.assertEqual((done.returncode, done.stderr), (0, ""))
        self.assertRegex(done.stdout.splitlines()[-1], r"^\| files \| [0-9.]+ \| [0-9.]+ \| [0-9.]+ \| [0-9.]+ \|$")

    def test_a_folder_for_bench_run(self):
        for commit in ((), ("second",)):
            folder = self.top / "made" / str(len(commit))
            self.assertEqual(self.said("build", str(folder), *commit), (0, "", ""))
            program = folder / "crates" / "workloads" / "out" / "workloads"
            self.assertEqual(subprocess.run([program, "word"], capture_output=True, check=True).stdout, b"word")
            self.assertEqual(list(program.parent.iterdir()), [program])


if __name__ == "__main__":
    unittest.main()
