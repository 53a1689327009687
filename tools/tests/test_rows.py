"""Tests of tools/program_rows.py: a row that differs, one that cannot be read and one that is lost are told, each by its place."""
import contextlib
import io
import subprocess
import sys
import unittest

from making import PROGRAM, TOP, folder_of

sys.path.insert(0, str(TOP / "tools"))
import program_rows  # noqa: E402
from oracle import rows  # noqa: E402

RUN = "run words=show+request+nowhere => 4 failed open nowhere\\n"
TASK = 'task words=cert+f => ShowCertificate("f")'
CUTS = "cuts trust=1 file=$seven from=0 to=1 => 1 times another"
# a row, and a part of what is said of it
BAD = (
    ("run words=show+request+nowhere", "bad row: a row has no ` => `"),
    ("walk words=show => 0", "bad row: a kind of row that is not known"),
    ("run words=show colour=red => 0", "bad row: a row of this kind takes no `colour`"),
    ("run words => 0", "bad row: `words` is no `NAME=VALUE`"),
    ("run words=a words=b => 0", "bad row: the name `words` is there twice"),
    ("run files=f:$nothing words=fit+f => 0", "bad row: the name `nothing` is not known"),
    ("run files=f:$seven:0..2 words=fit+f => 0", "bad row: `seven:0..2` is beyond the octets"),
    ("run files=f:3 words=fit+f => 0", "bad row: `3` is no octets"),
    ("run files=f:30{ words=fit+f => 0", "bad row: nothing closes a `{`"),
    ("run files=f:} words=fit+f => 0", "bad row: a `}` closes nothing"),
    ("check trust=1 => 0", "bad row: the value `file` is missing"),
    (
        "run words=show+request+nowhere => 4 failed open elsewhere\\n",
        "wants `4 failed open elsewhere\\n`, the program says `4 failed",
    ),
)


class ProgramRows(unittest.TestCase):
    """A folder of rows in the place of that of the repository."""

    def setUp(self):
        self.folder = folder_of(self)
        (self.folder / "data" / "commands").mkdir(parents=True)
        self.put("args", "commands/some.blobs\ncommands/some.rows\n")
        self.put("stdin", "")
        self.put("data/commands/some.blobs", "seven = 07\n")

    def put(self, name, text):
        """Writes a file of the folder."""
        (self.folder / name).write_text(text)

    def judged(self, *lines, counted=None):
        """The counts and the faults of these rows, of which stdout says so many."""
        self.put("data/commands/some.rows", "".join(f"{line}\n" for line in lines))
        counted = len(lines) if counted is None else counted
        self.put("stdout", f"commands/some.rows: {counted} of {counted} rows agree\n")
        counts, _, faults = program_rows.judged(str(PROGRAM), self.folder)
        return counts, faults

    def test_bad_rows(self):
        for line, told in BAD:
            counts, faults = self.judged(RUN, line)
            self.assertEqual((counts["agrees"], counts["differs"], len(faults)), (1, 1, 1), line)
            self.assertIn("crates/vectors_run/data/commands/some.rows:2: " + told, faults[0])

    def test_lost_rows(self):
        counts, faults = self.judged(RUN, counted=2)
        self.assertEqual((counts["agrees"], faults), (1, ["commands/some.rows: 1 rows, and 2 in crates/vectors_run/stdout"]))

    def test_rows_that_nothing_runs(self):
        (self.folder / "data" / "der").mkdir()
        for name in ("commands/other.rows", "der/other.rows"):
            self.put(f"data/{name}", RUN + "\n")
        counts, faults = self.judged(RUN)
        told = "crates/vectors_run/args does not name it, so none of its rows is run"
        self.assertEqual((counts["agrees"], faults), (1, [f"{name}: {told}" for name in ("commands/other.rows", "der/other.rows")]))

    def test_notation(self):
        blobs = rows.blobs_of(
            "seven = 07\nnested = 30{ 02{ $seven } }\n 2*00 'ab\nlong = 04{ 200*00 }\nlonger = 04{ 256*00 }\n"
        )
        self.assertEqual(blobs["nested"].hex(), "300302010700006162")
        self.assertEqual((blobs["long"][:3].hex(), blobs["longer"][:4].hex()), ("0481c8", "04820100"))
        self.assertEqual(rows.octets_of("$nested:2..4+-+$nested:8..", blobs).hex(), "020162")
        for text in ("a = 0\n", " 00\n", "a 00\n", "a = 00\na = 00\n"):
            self.assertRaises(rows.Bad, rows.blobs_of, text)

    def test_what_is_closed_is_no_pass(self):
        script = TOP / "tools" / "program_rows.py"
        for closed in ("<&-", ">&-", "2>&-"):
            words = ["sh", "-c", f'exec "$@" {closed}', "sh", sys.executable, script, "--few", PROGRAM]
            done = subprocess.run(words, capture_output=True, check=False, timeout=20)
            self.assertEqual((done.returncode, done.stdout), (1, b""), closed)

    def test_the_status(self):
        told = "program_rows: {} rows agree, {} differ; {} were not run:"
        for words, lines, status, last in (
            ((PROGRAM,), (RUN, TASK), 0, (1, 0, 1)),
            ((PROGRAM,), (TASK,), 1, (0, 0, 1)),
            (("/bin/true",), (RUN,), 1, (0, 1, 0)),
            ((PROGRAM,), (RUN, CUTS), 1, (1, 1, 0)),
            (("--few", PROGRAM), (RUN, CUTS), 0, (1, 0, 1)),
        ):
            self.judged(*lines)
            said = io.StringIO()
            with contextlib.redirect_stdout(said):
                self.assertEqual(program_rows.main([str(word) for word in words], self.folder), status)
            self.assertIn(told.format(*last), said.getvalue())


if __name__ == "__main__":
    unittest.main()
