"""Tests of cmsproof-archive --dask on this machine: the same lines and rows, a worker that is killed, and one of another version."""
import base64
import functools
import os
import pickle
import re
import shutil
import subprocess
import sys
import time
import unittest
from unittest import mock

from making import INSTALLED, MODULES, REAL, TOP, folder_of, need_tools, run_tool

need_tools()

from cmsproof_tools import cluster, evidenced, outcomes, rows, versions
from cmsproof_tools.state import State

HAS_DASK = subprocess.run([sys.executable, "-c", "import distributed"], capture_output=True, check=False).returncode == 0
# Debian's Python has Debian's Dask
PYTHON = sys.executable if HAS_DASK else "/usr/bin/python3"
ASKED = "import distributed, cryptography"
THERE = os.path.exists(PYTHON) and subprocess.run([PYTHON, "-c", ASKED], capture_output=True, check=False).returncode == 0
TRUST = REAL / "trust.txt"


def lines(*names, verdicts=None):
    """What is told of some files, or says that it is told of so many."""
    verdicts = len(names) if verdicts is None else verdicts
    return cluster.Lines(cluster.sum_of(names), (b"", (), 0, ["accepted"] * verdicts, [[]] * verdicts, []))


class Answers(unittest.TestCase):
    """What a worker may answer."""

    def test_answers_that_fit(self):
        terms = cluster.Terms("t", "v", "/", (), False, False, False, False, False)
        a, b, none = [outcomes.Outcome("a", 0, "")], [outcomes.Outcome("b", 0, "")], []
        table = [
            (("t", "v", [a, b]), 2),
            (("t", "v", [a, [*b, *b]]), 2),
            (("t", "v", [a, none]), 2),
            (("t", "v", [none, b]), 0),
            (("t", "v", [b, a]), 0),
            (("t", "v", [a, [*a, *b]]), 0),
            (("t", "v", [a, b, b]), 0),
            (("u", "v", [a, b]), 0),
            (("t", "w", [a, b]), 0),
            (("t", "v", [lines("a", "b")]), 2),
            (("t", "v", [lines("a"), b]), 2),
            (("t", "v", [a, lines("b")]), 2),
            (("t", "v", [lines("a"), none]), 2),
            (("t", "v", [lines("a", "b"), lines()]), 2),
            (("t", "v", [lines("b", "a")]), 0),
            (("t", "v", [lines("a", "c")]), 0),
            (("t", "v", [lines("a", "b"), none]), 0),
            (("t", "v", [lines("a", "b", verdicts=3)]), 0),
            (("t", "v", [lines("a", "b", verdicts=1), none]), 0),
            (("u", "v", [lines("a", "b")]), 0),
            (("t", "w", [lines("a", "b")]), 0),
            # what is left is handed out anew
            (("t", "v", [a]), 1),
            (("t", "v", [lines("a")]), 1),
            (("t", "v", []), 0),
        ]
        for part, expected in table:
            # (b is the content of another file: it need have no line)
            self.assertEqual(cluster.fitting(cluster.Part(*part), ["a", "b"], terms, frozenset("b")), expected, part)
        self.assertEqual(cluster.fitting(table[0][0], ["a", "b"], terms, frozenset()), 0)


class Lines(unittest.TestCase):
    """What an engine calls that has a function of some names, as mapPartitions of Spark."""

    def test_partitions_have_the_lines_of_the_tool(self):
        names = [str(path) for path in sorted(REAL.iterdir())]
        _, out, _ = run_tool("cmsproof-archive", "--trust", TRUST, *names)
        trusted = TRUST.read_bytes()
        terms = cluster.terms_for(trusted)
        # (what an engine hands out is pickled)
        function = pickle.loads(pickle.dumps(functools.partial(cluster.lines_of, trusted=trusted, terms=terms)))
        parts = [names[at : at + 3] for at in range(0, len(names), 3)]
        self.assertEqual([line for part in parts for line in function(iter(part))], out.decode().splitlines())
        self.assertEqual(list(function(iter([]))), [])

    def test_relative_names_are_as_the_tool_says_them(self):
        """In the lines, and in what is said beside them, also where a file is missing or has its content twice."""
        folder = folder_of(self) / "a: b"
        folder.mkdir()
        for name, source in (
            ("d.p7s", "rsa_detached_ts.p7s"),
            ("d", "blob.bin"),
            ("e.p7s", "rsa_attached_ts.p7s"),
            ("e", "blob.bin"),
        ):
            shutil.copyfile(REAL / source, folder / name)
        (folder / "m.eml").write_text("MIME-Version: 1.0\n\n")
        names = ["d.p7s", "e.p7s", "missing", ".", "../a: b/missing", "m.eml"]
        _, out, _ = run_tool(
            "cmsproof-archive",
            "--json",
            "--trust",
            TRUST,
            "--files-from",
            "/dev/stdin",
            cwd=folder,
            said="\n".join(names).encode(),
        )
        terms = cluster.terms_for(TRUST.read_bytes())._replace(folder=str(folder))
        part = cluster.judge(names, TRUST.read_bytes(), terms)
        lines = [outcomes.json_lines(outcome) for several in part.outcomes for outcome in several]
        self.assertEqual(lines, out.decode().splitlines()[:-1])

    def test_a_flag_is_no_text(self):
        """A text as "no" counts as true, and would let a signature count that covers a part of a file, or SHA-1 until its end."""
        for name in ("sha1", "partial", "stamps"):
            for flag in ("no", "", 1, 0, None):
                with self.assertRaises(TypeError, msg=(name, flag)):
                    cluster.terms_for(TRUST.read_bytes(), **{name: flag})
            self.assertIs(getattr(cluster.terms_for(TRUST.read_bytes(), **{name: True}), name), True)
        for name in ("whole", "signed"):
            for flag in ("no", 1, None):
                with self.assertRaises(TypeError, msg=(name, flag)):
                    cluster.terms_for(TRUST.read_bytes(), records=evidenced.records_in("records", **{name: flag}))
            records = evidenced.records_in("records", **{name: True})
            self.assertIs(getattr(cluster.terms_for(TRUST.read_bytes(), records=records).records, name), True)

    def test_a_worker_of_another_list_or_version_leaves_no_line_out(self):
        trusted = TRUST.read_bytes()
        terms = cluster.terms_for(trusted)
        for other, said in ((trusted + b"# another\n", terms), (trusted, terms._replace(versions="another"))):
            with self.assertRaises(RuntimeError):
                list(cluster.lines_of(iter([str(REAL / "rsa_attached_ts.p7s")]), other, said))

    def test_a_worker_beside_which_other_code_was_installed(self):
        """It has the old one, and judges by neither."""
        trusted, names = TRUST.read_bytes(), [str(REAL / "rsa_attached_ts.p7s")]
        terms = cluster.terms_for(trusted)
        self.assertEqual(len(cluster.judge(names, trusted, terms).said), 1)
        with mock.patch.object(versions, "digest_of_code", return_value="mended"):
            for other in (terms, cluster.terms_for(trusted)):
                part = cluster.judge(names, trusted, other)
                self.assertEqual(
                    (list(part.said), "mended" in part.versions, terms.versions in part.versions), ([], True, True)
                )
                self.assertEqual(cluster.fitting(part, names, other, frozenset()), 0)
        self.assertEqual(len(cluster.judge(names, trusted, terms).said), 1)

    def test_a_worker_whose_library_is_another_file_of_the_same_number(self):
        """What it says is told, and judged again: the state says that all is by the library of who asks."""
        trusted, name = TRUST.read_bytes(), str(REAL / "rsa_attached_ts.p7s")
        terms = cluster.terms_for(trusted)._replace(noted=True)

        def marks(terms):
            """The marks of the rows that are kept of a file, as outcomes and as lines, which say that it is the same."""
            alone = cluster.judge([name], trusted, terms)
            (lines,) = cluster.judge([name], trusted, terms, is_told=True).said
            self.assertIn(b"accepted", lines.told[0])
            kept = [row for rows_of_one in lines.told[4] for row in rows_of_one]
            return [one.record[2] for (one,) in alone.outcomes], [row[rows.Row._fields.index("mark") - 1] for row in kept]

        mark = rows.mark_now(name)
        for library, expected in ((versions.digest_of_library(), mark), ("another", ""), ("", "")):
            self.assertEqual(marks(terms._replace(library=library)), ([expected], [expected]), library)
        with mock.patch.object(cluster, "library_here", return_value=""):
            self.assertEqual(marks(terms), ([""], [""]))


class WithWorkers(unittest.TestCase):
    """A scheduler and its workers, which listen on the loopback alone, and have another folder than the tool."""

    def setUp(self):
        super().setUp()
        self.folder, self.number = getattr(self, "folder", None) or folder_of(self), 0
        (self.folder / "workers").mkdir()
        # (a file may end one worker by itself, and one with others)
        self.started("scheduler", "--port", "0", DASK_DISTRIBUTED__SCHEDULER__ALLOWED_FAILURES="0")
        self.address = self.said("scheduler.0", r"Scheduler at: +(tcp://127\.0\.0\.1:[0-9]+)")

    def started(self, what, *words, modules=MODULES, **others):
        """Starts a scheduler or a worker, which is ended with the test."""
        command = [PYTHON, "-m", f"distributed.cli.dask_{what}", "--host", "127.0.0.1", "--no-dashboard", *words]
        with open(self.folder / f"{what}.{self.number}", "wb") as log:
            environment = {**os.environ, "PYTHONPATH": str(modules), **others}
            process = subprocess.Popen(command, stdout=log, stderr=log, env=environment, cwd=self.folder / "workers")
        self.number += 1
        self.addCleanup(process.wait, 20)
        self.addCleanup(process.kill)
        return process

    def worker(self, modules=MODULES):
        """Starts a worker and waits until it has found the scheduler."""
        log = f"worker.{self.number}"
        process = self.started("worker", self.address, "--nthreads", "1", "--no-nanny", modules=modules)
        self.said(log, r"(Registered to)")
        return process

    def said(self, log, pattern):
        """What a process writes into its log, once it is there."""
        end = time.monotonic() + 60
        while time.monotonic() < end:
            if found := re.search(pattern, (self.folder / log).read_text()):
                return found[1]
            time.sleep(0.1)
        raise AssertionError((self.folder / log).read_text())

    def other_version(self):
        """A copy of the modules that says that it is another version."""
        copy = self.folder / "other"
        shutil.copytree(MODULES, copy)
        text = (copy / "cmsproof_tools" / "__init__.py").read_text()
        (copy / "cmsproof_tools" / "__init__.py").write_text(re.sub(r'VERSION = ".*"', 'VERSION = "0.0.1"', text))
        return copy

    def begin_with(self, code):
        """Has the workers that find this test's folder begin with some code."""
        (self.folder / "sitecustomize.py").write_text(code + "\n")


@unittest.skipUnless(THERE, "there is no python3-distributed")
class Cluster(WithWorkers):
    """What is checked by workers."""

    def command(self, *words):
        """The words of a run."""
        return [PYTHON, INSTALLED / "cmsproof-archive", "--trust", TRUST, "--dask", self.address, *words]

    def run_dask(self, *words, cwd=None):
        """The status of a run, its lines and what it says on standard error."""
        done = subprocess.run(self.command(*words), cwd=cwd or self.folder, capture_output=True, check=False, timeout=120)
        return done.returncode, done.stdout, done.stderr.decode()

    def test_the_same_lines_and_rows_and_a_worker_of_another_version(self):
        names = []
        for number, path in enumerate(sorted(REAL.glob("*.p7s")) * 25):
            names.append(f"f{number}")
            shutil.copyfile(path, self.folder / names[-1])
        time.sleep(2.1)
        self.worker(self.other_version())
        self.worker()
        status, out, err = self.run_dask("--state", "by_dask", *names)
        self.assertIn("is refused: it has cmsproof-archive 0.0.1", err)
        words = ["--trust", TRUST, "--state", "here", "--jobs", "1", *names]
        done = subprocess.run(
            [PYTHON, INSTALLED / "cmsproof-archive", *words], cwd=self.folder, capture_output=True, check=False
        )
        self.assertEqual((status, out), (done.returncode, done.stdout))
        found = []
        for name in ("by_dask", "here"):
            with State(str(self.folder / name), is_new=False) as state:
                found.append([row._replace(judged=0) for row, _ in state.rows()])
        self.assertEqual(found[0], found[1])
        self.assertEqual(self.run_dask("--state", "by_dask", *names)[1], b"")

    def test_what_is_said_beside_lines(self):
        """All of it is as this machine says it, in another folder than that of the workers."""
        self.worker()
        folder, octets = self.folder / "archive", (REAL / "rsa_attached_ts.p7s").read_bytes()
        shutil.copytree(REAL, folder)
        coded = base64.encodebytes(octets)
        head = b"Content-Type: application/pkcs7-mime; smime-type=signed-data\nContent-Transfer-Encoding: base64\n\n"
        for name, text in (
            ("two.pem", b"-----BEGIN CMS-----\n%b-----END CMS-----\n" % coded * 2),
            (
                "mixed.eml",
                b"MIME-Version: 1.0\nContent-Type: multipart/mixed; boundary=x\n\n--x\n%b%b\n--x--\n" % (head, coded),
            ),
            # (the names of these parts are other files' too)
            ("two.pem block 1", b""),
            ("mixed.eml part 1", b""),
            ("twice.p7s", octets),
            ("twice", b""),
            ("mail.eml", b"MIME-Version: 1.0\n\n"),
        ):
            (folder / name).write_bytes(text)
        (folder / "known").write_text("S10 rsa_attached.p7s\nS10 rsa_detached.p7s\n")
        names = [*sorted(path.name for path in folder.iterdir()), "missing", ".", *["rsa_attached_ts.p7s", "two.pem"] * 40]
        refused = ["rsa_attached.p7s"] * 30
        acknowledged = ["--known", "known", "--state"]
        for number, words in enumerate(([], ["--json"], acknowledged, ["--explain", "--json", *acknowledged])):
            for some in (names, refused + names[:2], refused):
                kept = [[f"../{where}{number}.{len(some)}"] if words[-1:] == ["--state"] else [] for where in ("there", "here")]
                status, out, err = self.run_dask(*words, *kept[0], *some, cwd=folder)
                command = [PYTHON, INSTALLED / "cmsproof-archive", "--trust", TRUST, "--jobs", "1", "--progress"]
                here = subprocess.run([*command, *words, *kept[1], *some], cwd=folder, capture_output=True, check=False)
                said = [[line for line in text.splitlines() if " left" not in line] for text in (err, here.stderr.decode())]
                self.assertEqual((status, out, said[0]), (here.returncode, here.stdout, said[1]), words)
                self.assertEqual(status, 4 if some is names else 5 if kept[0] and some is refused else 1)
        lines = self.run_dask("two.pem", "mixed.eml", cwd=folder)[1].decode().splitlines()
        self.assertEqual(
            [line.partition(": ")[0] for line in lines], [r"two.pem\x20block 1", "two.pem block 2", r"mixed.eml\x20part 1"]
        )

    def test_workers_that_leave_files(self):
        """What takes them long they leave to others."""
        names = [f"f{number}" for number in range(400)]
        for name in names:
            shutil.copyfile(REAL / ("rsa_attached.p7s" if name[-1] == "7" else "rsa_attached_ts.p7s"), self.folder / name)
        self.begin_with("from cmsproof_tools import cluster\ncluster.LONGEST = -1.0")
        self.worker(f"{self.folder}:{MODULES}")
        status, out, err = self.run_dask(*names)
        said = ["refused signer 1 S10 NoToken" if name[-1] == "7" else "accepted 20261122071759Z" for name in names]
        self.assertEqual(out.decode().splitlines(), [f"{name}: {line}" for name, line in zip(names, said)], err)
        self.assertEqual(status, 1)

    def test_a_file_that_ends_workers(self):
        """It has a line that says so, and costs no other file of its part."""
        names = [f"f{number}" for number in range(70)]
        for name in names:
            shutil.copyfile(REAL / "rsa_attached_ts.p7s", self.folder / name)
        self.begin_with(
            "import os\ncalled = os.stat\nos.stat = lambda path, **w: os._exit(1) if str(path)[-4:] == '/f33' else called(path, **w)"
        )
        for _ in range(3):
            self.worker(f"{self.folder}:{MODULES}")
        status, out, err = self.run_dask(*names)
        said = ["failed worker: it ended" if name == "f33" else "accepted 20261122071759Z" for name in names]
        self.assertEqual(out.decode().splitlines(), [f"{name}: {line}" for name, line in zip(names, said)], err)
        self.assertEqual(status, 4)

    def test_evidence_records(self):
        """The lines and the rows are those of this machine, wherever the workers are; a second run has nothing to do."""
        self.worker(), self.worker()
        folder, data = self.folder / "archive", TOP / "data" / "records"
        for number, path in enumerate(sorted((data / "records").iterdir())):
            for name, source in (("files", data / "files" / "document_0"), ("records/files", path)):
                (folder / name).mkdir(parents=True, exist_ok=True)
                shutil.copyfile(source, folder / name / (f"{number}" + (".ers" if path == source else "")))
        (folder / "files" / "none").write_bytes(b"")
        shutil.copyfile(data / "records" / "encrypted.ers", folder / "records" / "files" / "gone.ers")
        time.sleep(rows.STEP / 1e9 + 0.1)
        words = ["--records", "records", "--end", "sha1=20160101000000Z", "files"]
        command = [INSTALLED / "cmsproof-archive", "--trust", data / "trust.txt"]
        by_workers = [PYTHON, *command, "--dask", self.address, "--state", "state", *words]
        here = subprocess.run([PYTHON, *command, *words], cwd=folder, capture_output=True, check=False)
        there = subprocess.run(by_workers, cwd=folder, capture_output=True, check=False)
        self.assertEqual((there.returncode, there.stdout), (here.returncode, here.stdout), there.stderr)
        self.assertIn(b"files/none: refused F16 NoRecord\nrecords/files/gone.ers: refused F17 RecordAlone\n", there.stdout)
        self.assertEqual(subprocess.run(by_workers, cwd=folder, capture_output=True, check=False).stdout, b"")

    def test_workers_of_another_version_alone_judge_nothing(self):
        self.worker(self.other_version())
        status, out, err = self.run_dask(REAL / "rsa_attached_ts.p7s")
        self.assertEqual((status, out), (4, b""))
        self.assertIn("no worker of Dask judges by this version", err)

    def test_a_worker_that_is_killed(self):
        octets = (REAL / "rsa_attached_ts.p7s").read_bytes()
        names = [f"f{number}" for number in range(1500)]
        for name in names:
            (self.folder / name).write_bytes(octets)
        killed = self.worker()
        self.worker()
        with open(self.folder / "lines", "wb") as lines:
            run = subprocess.Popen(self.command(*names), cwd=self.folder, stdout=lines, stderr=subprocess.DEVNULL)
        end = time.monotonic() + 60
        while time.monotonic() < end and (self.folder / "lines").stat().st_size == 0:
            time.sleep(0.02)
        killed.kill()
        self.assertEqual(run.wait(120), 0)
        expected = "".join(f"{name}: accepted 20261122071759Z\n" for name in names)
        self.assertEqual((self.folder / "lines").read_text(), expected)

    def test_words(self):
        rows = [["--content", REAL / "blob.bin"], ["--pairs-from", "list"]]
        for words in rows:
            status, out, err = self.run_dask(*words, "a")
            self.assertEqual((status, out, len(err.splitlines())), (3, b"", 1))
        status, out, err = self.run_dask("/dev/stdin")
        self.assertEqual((status, out, len(err.splitlines())), (3, b"", 1), err)

    def test_no_scheduler(self):
        status, out, err = run_tool("cmsproof-archive", "--trust", TRUST, "--dask", "tcp://127.0.0.1:1", "a", cwd=self.folder)
        self.assertEqual((status, out, len(err.splitlines())), (4, b"", 1), err)


if __name__ == "__main__":
    unittest.main()
