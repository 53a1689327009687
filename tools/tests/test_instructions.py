"""Tests of `make instructions`: what is said of a job beside its line, without a run of valgrind."""
import contextlib
import hashlib
import io
import os
import unittest
from unittest import mock

from making import folder_of

import bench
import instructions
from linking import Stopped
from samples import measured_files

# the SHA-256 of all names and digests of files
FILES = "d9add635ee91553af255d2f9032ee80190494b641c9cae5e4d3344aa843babc1"
MISSING = instructions.missing
# of callgrind, without what it says of itself: a cost, calls whose cost is that of others, and a position without a cost
CALLGRIND = """events: Ir

fl=???
fn=cmsproof.1
0 70
cfn=counted_memcpy
calls=3 0
0 900
0 5
0

fn=counted_memcpy
0 900

fn=rattle_alloc
0 40
"""


class Counting(unittest.TestCase):
    """What is counted, and what is said of it."""

    def test_only_what_is_of_the_program_is_counted(self):
        self.assertEqual(instructions.counted(CALLGRIND, {"cmsproof.1", "counted_memcpy"}), 975)
        self.assertEqual(instructions.counted(CALLGRIND, {"cmsproof.1"}), 75)
        for text in ("", CALLGRIND.replace("rattle_alloc", "???"), CALLGRIND.replace("rattle_alloc", "0x40000")):
            self.assertRaises(Stopped, instructions.counted, text, {"cmsproof.1"})

    def test_bounds(self):
        line = (1_000_000, 100, 20_000)
        table = [
            ((1_000_000, 100, 20_000), 0, 0),
            ((1_020_000, 100, 20_000), 0, 0),
            ((1_020_001, 100, 20_000), 1, 0),
            ((980_000, 100, 20_000), 0, 0),
            ((979_999, 100, 20_000), 0, 1),
            ((1_000_000, 104, 20_000), 0, 0),
            ((1_000_000, 105, 20_000), 1, 0),
            ((1_000_000, 96, 20_000), 0, 0),
            ((1_000_000, 95, 20_000), 0, 1),
            ((1_000_000, 100, 24_095), 0, 0),
            ((1_000_000, 100, 24_096), 1, 0),
            ((1_000_000, 100, 15_905), 0, 0),
            ((1_000_000, 100, 15_904), 0, 1),
            ((2_000_000, 200, 40_000), 3, 0),
            ((500_000, 100, 40_000), 1, 1),
        ]
        for costs, above, below in table:
            with self.subTest(costs):
                said = instructions.judged("fit-small", costs, line)
                self.assertEqual([len(lines) for lines in said], [above, below])
                self.assertTrue(all(it.startswith("fit-small takes ") for lines in said for it in lines))
        self.assertIn("--write fit-small", instructions.judged("fit-small", line, None)[0][0])

    def test_lines(self):
        self.assertEqual(instructions.read_figures("# words\n\nfit-small 1 2 3\n"), {"fit-small": (1, 2, 3)})
        for text in ("fit-small 1 2\n", "fit-small 1 2 x\n", "fit-small 1 2 3\nfit-small 1 2 3\n", "fit small 1 2 3\n"):
            self.assertRaisesRegex(Stopped, "line [12]: ", instructions.read_figures, text)
        text = instructions.written({"fit-two": (1, 2, 3), "gone": (4, 5, 6)}, {"fit-small": (7, 8, 9)})
        self.assertEqual(instructions.read_figures(text), {"fit-small": (7, 8, 9), "fit-two": (1, 2, 3)})
        self.assertEqual(text, instructions.HEAD + "fit-small 7 8 9\nfit-two 1 2 3\n")

    def test_the_files_are_the_same_on_each_machine(self):
        folder, total = folder_of(self), hashlib.sha256()
        measured_files.make(folder)
        for path in sorted(folder.iterdir()):
            total.update(f"{path.name} {hashlib.sha256(path.read_bytes()).hexdigest()}\n".encode())
        self.assertEqual(total.hexdigest(), FILES)


class Command(unittest.TestCase):
    """The command, with costs in place of those that are counted."""

    def setUp(self):
        self.figures = folder_of(self) / "instructions.txt"
        self.figures.write_text(instructions.HEAD + "fit-small 1000 10 5000\nfit-two 1000 10 5000\n")
        for name, other in (("FIGURES", self.figures), ("missing", lambda: ""), ("measured", self.measured)):
            patch = mock.patch.object(instructions, name, other)
            patch.start()
            self.addCleanup(patch.stop)
        self.costs = {}

    def measured(self, names):
        return {name: self.costs.get(name, (1000, 10, 5000)) for name in names}

    def said(self, *words):
        """The status, and what was printed and complained of."""
        out, err = io.StringIO(), io.StringIO()
        with contextlib.redirect_stdout(out), contextlib.redirect_stderr(err):
            status = instructions.main(list(words))
        return status, out.getvalue(), err.getvalue()

    def test_statuses(self):
        both = ("fit-small", "fit-two")
        table = [
            (both, {}, 0, "what 2 jobs cost", ""),
            (both, {"fit-two": (1021, 10, 5000)}, 1, "what 2 jobs cost", "fit-two takes 1021 instructions, 1.021 of the 1000"),
            (both, {"fit-two": (1000, 10, 9096)}, 1, "what 2 jobs cost", "fit-two takes 9096 octets of stack"),
            (both, {"fit-small": (979, 10, 5000)}, 0, "says why: python3 tools/instructions.py --write fit-small\n", ""),
            (("compare",), {}, 1, "what 1 jobs cost", "compare has no line"),
            (("nothing",), {}, 1, "", "there is no job 'nothing'"),
            (("--all",), {}, 2, "", "instructions.py [--gate "),
            (("--gate", "--write"), {}, 2, "", "instructions.py [--gate "),
            (("--of",), {}, 2, "", "instructions.py [--gate "),
            (("--of=nothing",), {}, 1, "", "there is no commit 'nothing'"),
        ]
        # (of git, which need not be there, nor a history here)
        for words, self.costs, status, out, err in table:
            with self.subTest(words, costs=self.costs), mock.patch.object(
                bench, "git", lambda _, word, *more: None if more else b""
            ):
                found = self.said(*words)
                self.assertEqual(found[0], status)
                self.assertIn(out, found[1])
                self.assertIn(err, found[2])

    def test_writing(self):
        self.costs = {"fit-two": (7, 8, 9)}
        self.assertEqual(self.said("--write", "fit-two")[0], 0)
        wanted = instructions.HEAD + "fit-small 1000 10 5000\nfit-two 7 8 9\n"
        self.assertEqual(self.figures.read_text(), wanted)
        self.assertEqual(list(self.figures.parent.iterdir()), [self.figures])
        with mock.patch.object(os, "replace", side_effect=OSError(28, "No space left on device")):
            status, _, err = self.said("--write")
        self.assertEqual((status, self.figures.read_text()), (1, wanted))
        self.assertIn("is as it was: No space left", err)
        self.assertEqual(list(self.figures.parent.iterdir()), [self.figures])

    def test_without_valgrind_or_on_another_processor(self):
        with mock.patch.object(instructions, "missing", lambda: "there is no valgrind"):
            self.assertEqual(self.said()[0], 1)
            self.assertIn("there is no valgrind", self.said()[2])
            self.assertEqual(self.said("--gate"), (0, "cmsproof: no instructions were counted: there is no valgrind\n", ""))

    def test_what_is_missing(self):
        with mock.patch.dict(os.environ, {"PATH": str(self.figures.parent)}):
            with mock.patch.object(instructions.linking, "machine", lambda: "x86_64"):
                self.assertIn("valgrind", MISSING())
        with mock.patch.object(instructions.linking, "machine", lambda: "aarch64"):
            self.assertIn("aarch64", MISSING())


if __name__ == "__main__":
    unittest.main()
