"""Tests of `tools/trying/wrong_bodies.py`: its table, and when an edit counts as noticed, with a stand-in for `rt`."""
import contextlib
import io
import os
import sys
import tempfile
import unittest
from pathlib import Path
from unittest import mock

sys.path.insert(0, str(Path(__file__).resolve().parent.parent))
import changes  # noqa: E402
import edits  # noqa: E402
from trying import wrong_bodies  # noqa: E402

# It prints what the row file says that has the name of the edited code, as `vectors_run` would.
STAND_IN = f"""#!{sys.executable}
import pathlib
print(pathlib.Path("../low/src/lib.rt").read_text(), end="")
"""
EDIT = "file: src/lib.rt\nold: a/one.rows: 2 of 2 rows agree\nnew: "
FILES = {
    "crates.txt": "low:\nvectors_run: low\n",
    "HANDLES": "Handles allowed: none.\n",
    "crates/low/src/lib.rt": "a/one.rows: 2 of 2 rows agree\n",
    "crates/low/out/kept": "",
    "crates/vectors_run/stdin": "",
    "crates/vectors_run/args": "a/a.blobs\na/one.rows\n",
    "crates/vectors_run/data/a/one.rows": "# these\nkind a=1 => b\nother a=1 => b\nkind a=2 => b\n",
}


class Table(unittest.TestCase):
    def test_each_edit_can_be_applied_and_has_rows(self):
        crates, found = changes.read_crates(changes.TOP), wrong_bodies.batches()
        self.assertEqual([], [fault for batch in found for fault in wrong_bodies.faults_of(crates, batch)])
        named = [it for batch in found for it in batch]
        self.assertEqual(40, len({edit for edit, _, _ in named}))
        for edit, rows, kind in named:
            with self.subTest(edit):
                self.assertEqual("", edits.fault_of(wrong_bodies.file_of(changes.TOP, edit)))
                text = (changes.TOP / "crates/vectors_run/data" / rows).read_text()
                self.assertIn(kind, {line.split(" ")[0] for line in text.split("\n")})

    def test_an_edit_below_the_judge_of_anothers_rows_is_refused(self):
        crates = {"der_core": [], "der_lists": ["der_core"]}
        batch = [("der_lists/one", "types/lists.rows", "elements"), ("der_core/one", "der/parts.rows", "cursor")]
        told = ["der_lists/one: its rows use the edits of der_lists der_core"]
        self.assertEqual(told, wrong_bodies.faults_of(crates, batch))
        self.assertEqual([], wrong_bodies.faults_of(crates, batch[1:]))


class Counts(unittest.TestCase):
    def test_a_row_whose_octets_have_no_name_counts_for_nothing(self):
        for said, counted in (("wanted `b`, said `c`", {"a/one.rows": (1, 2)}), ("bad row: a name that is not known", {})):
            with self.subTest(said), tempfile.TemporaryDirectory() as folder:
                place = Path(folder, "crates/vectors_run")
                place.mkdir(parents=True)
                (place / "args").write_text("a/a.blobs\na/one.rows\n")
                (place / "stdin").write_text("")
                ran = mock.Mock(stdout=f"a/one.rows:2: {said}\na/one.rows: 1 of 2 rows agree\n", stderr="")
                with mock.patch.object(wrong_bodies.subprocess, "run", return_value=ran):
                    self.assertEqual((counted, ""), wrong_bodies.counts_of(Path(folder), ["a/one.rows"]))


class Tries(unittest.TestCase):
    """What is said of an edit whose run counts so."""

    CASES = [
        ("a/one.rows: 1 of 2 rows agree", 0, "noticed, kind of a/one.rows: 1 of 2 rows differ"),
        ("a/one.rows: 02 of 2 rows agree", 1, "NOT NOTICED, kind of a/one.rows: 0 of 2 rows differ"),
        # a row is lost, all are, the run ends early
        ("a/one.rows: 1 of 1 rows agree", 1, "NOT NOTICED, kind of a/one.rows: 0 of 1 rows differ"),
        ("a/one.rows: 0 of 1 rows agree", 1, "NOT NOTICED, kind of a/one.rows: 1 of 1 rows differ"),
        ("a/one.rows: 0 of 0 rows agree", 1, "NOT NOTICED, kind of a/one.rows: no count"),
        ("a/other.rows: 0 of 2 rows agree", 1, "NOT NOTICED, kind of a/one.rows: no count"),
        ("ended", 1, "NOT NOTICED, kind of a/one.rows: no count"),
    ]

    def test_an_edit_is_noticed_where_rows_differ_and_none_is_lost(self):
        with tempfile.TemporaryDirectory() as folder:
            top = Path(folder)
            for path, text in {**FILES, "bin/rt": STAND_IN}.items():
                (top / path).parent.mkdir(parents=True, exist_ok=True)
                (top / path).write_text(text)
            (top / "bin" / "rt").chmod(0o755)
            (top / "crates/low/more-edits").mkdir()
            with mock.patch.dict(os.environ, PATH=f"{top / 'bin'}:{os.environ['PATH']}"):
                for said, missed, line in self.CASES:
                    with self.subTest(said), contextlib.redirect_stdout(io.StringIO()) as told:
                        (top / "crates/low/more-edits/one.edit").write_text(EDIT + said)
                        batch = [("low/one", "a/one.rows", "kind")]
                        self.assertEqual(missed, wrong_bodies.try_batch(top, 1, batch))
                        self.assertEqual(f"1 low/one: {line}", told.getvalue().split("\n")[0])


if __name__ == "__main__":
    unittest.main()
