"""Tests of --dask of cmsproof-archive stamp, due and renew: what a worker may say, engines that are stand-ins, and real workers, which say what this
machine says; those that are killed, of another version, or that see other files."""
import contextlib
import hashlib
import json
import math
import os
import shutil
import sqlite3
import subprocess
import sys
import time
import unittest
from unittest import mock

from making import INSTALLED, MODULES, folder_of, need_tools

need_tools()

import cmsproof  # noqa: E402
from cmsproof_tools import due, handing, lasting, making, renewing, summing, versions  # noqa: E402
from cmsproof_tools.running import Stop  # noqa: E402
from test_archive_records import MADE  # noqa: E402
from test_cluster import PYTHON, THERE, WithWorkers  # noqa: E402
from test_due import BY, GOOD, LATER, STRANGE, TWICE, list_of, tsa  # noqa: E402
from renewing_world import LIST, OTHER, WithRecords, knows_renewing  # noqa: E402
from stamping_world import WithAuthority, knows_making  # noqa: E402

NOTHING = hashlib.sha256(b"").hexdigest()


def sums_terms(folder, algorithm="sha256"):
    """The terms by which files are read."""
    return summing.Terms(NOTHING, versions.versions_text(), str(folder), algorithm)


class Answers(unittest.TestCase):
    """What a worker may answer."""

    def counts(self, terms, rows):
        """Of how many of the names a, b each answer is one."""
        task = handing.Each(b"", terms, making.lost)
        for part, expected in rows:
            self.assertEqual(task.fitting(part, ["a", "b"]), expected, part)

    def test_answers_that_fit(self):
        terms = summing.Terms("t", "v", "/", "sha256")
        good, fault = summing.Summed("1 2 3 4 5", True, bytes(32)), summing.Summed("", False, b"", "why")

        def part(said, names=("a", "b"), trust="t", version="v"):
            return handing.Part(trust, version, [handing.Several(handing.sum_of(names), said)])

        one = handing.Several(handing.sum_of(["a"]), [good])
        self.counts(
            terms,
            [
                (part([good, good]), 2),
                (part([good, fault]), 2),
                (part([fault], ["a"]), 1),
                # another list or version; other names, too few or too many; nothing
                (part([good, good], trust="u"), 0),
                (part([good, good], version="w"), 0),
                (part([good, good], ["b", "a"]), 0),
                (part([good]), 0),
                (part([good], ["b"]), 0),
                (part([good, good, good], ["a", "b", "c"]), 0),
                (part([good, good, good]), 0),
                (part([], []), 0),
                (handing.Part("t", "v", []), 0),
                (handing.Part("t", "v", [one, one]), 0),
                (handing.Part("t", "v", [[good, good]]), 0),
                (part(None), 0),
                (None, 0),
                # digests that are none
                *((part([good, good._replace(digest=one)]), 0) for one in (b"", bytes(31), bytes(33), bytes(64), "0" * 32)),
                (part([good, good._replace(mark=None)]), 0),
                (part([good, ("1 2 3 4 5", True, bytes(32), "")]), 0),
            ],
        )

    def test_what_is_said_of_records(self):
        terms = due.Terms("t", "v", "/", (), BY)
        of_renew = renewing.Terms("t", "v", terms, LATER)
        last = due.Told(["lasting"], 0, b"")
        now, unread = due.Told(["due"], 1, b"due 2\n"), due.Told(["unjudged"], 4, b"due now\n")
        standing = renewing.Standing("sha256", LATER, BY, bytes(renewing.KEPT))
        renewed, left = renewing.Judged("due", standing=standing), renewing.Judged("left", 2, b"due now\n")
        wrong = [last._replace(status=status) for status in (1, 4, "0", None, 0.0, False)]
        wrong += [now._replace(status=status) for status in (0, 2, 4, True)]
        wrong += [unread._replace(status=status) for status in (0, 3, 5, "4")]
        wrong += [now._replace(words=words) for words in (["other"], [["due"]], ["due", "due"], [], None, "due", [None], [""])]
        wrong += [now._replace(lines=lines) for lines in (b"", b"due 2", b"due 1\ndue 2\n", "due 2\n", None)]
        wrong += [last._replace(lines=b"due 2\n"), last._replace(words=["lasting"] * 2), None, renewing.Standing("", "", "")]
        wrong += [renewed._replace(standing=one) for one in (None, renewing.Standing("", "", ""), ("sha256", LATER, BY, b""))]
        for name, values in (("algorithm", ("md5", [""])), ("after", ("now", None)), ("until", ("",)), ("stamp", (b"", None))):
            wrong += [renewed._replace(standing=standing._replace(**{name: value})) for value in values]
        wrong += [renewed._replace(status=1), renewed._replace(line=b"due 2\n"), renewed._replace(word="other")]
        wrong += [left._replace(line=b""), left._replace(line=None), left._replace(status=0), left._replace(status=None)]
        for one, of_due, is_renewed in (
            *((one, True, False) for one in (last, now, unread, unread._replace(status=1), unread._replace(status=2))),
            *((one, False, True) for one in (renewing.Judged("lasting"), renewed, left)),
            *((one, False, False) for one in wrong),
        ):
            self.assertEqual((self.is_said(terms, one), self.is_said(of_renew, one)), (of_due, is_renewed), one)

    def is_said(self, terms, one):
        """Whether a worker's answer about one name, which is this, is one."""
        task = handing.Each(b"", terms, making.lost)
        cluster = mock.Mock(task=task)
        part = handing.Part("t", "v", [handing.Several(handing.sum_of(["a"]), [one])])
        return handing.Cluster.fitting(cluster, part, ["a"]) == 1


class Future:
    """What one of these workers answers."""

    def __init__(self, worker, part):
        self.key, self.worker, self.part = object(), worker, part
        self.status = "error" if isinstance(part, BaseException) else "finished"

    def result(self, timeout):
        """The answer."""
        if isinstance(self.part, BaseException):
            raise self.part
        return self.part


class Engine:
    """A stand-in for an engine, whose workers are functions of the honest answer: their tasks are done here, one after the other."""

    def __init__(self, **workers):
        self.workers, self.next, self.done = workers, 0, []

    def scheduler_info(self):
        return {"workers": dict(self.workers)}

    def run(self, function, workers, on_error):
        return {name: function() for name in workers}

    def scatter(self, shared, **_):
        return shared

    def submit(self, function, *words, workers, pure):
        self.next += 1
        name = workers[self.next % len(workers)]
        self.done.append(name)
        return Future(name, self.workers[name](function(*words)))

    def who_has(self, futures):
        return {future.key: (future.worker,) for future in futures}

    def cancel(self, futures):
        """Nothing."""

    def close(self, timeout):
        """Nothing."""


def with_said(change):
    """A worker that changes all that it says."""
    return lambda part: part._replace(said=[one._replace(said=[change(it) for it in one.said]) for one in part.said])


class StandIns(unittest.TestCase):
    """Engines that are none, so that this is tried where there is no Dask too."""

    def setUp(self):
        self.folder, self.told = folder_of(self), []
        (self.folder / "files").mkdir(), (self.folder / "list").write_bytes(LIST)
        for number in range(300):
            (self.folder / "files" / f"{number:03}").write_bytes(b"%d" % number)
        self.names = sorted(path.name for path in (self.folder / "files").iterdir())
        self.top = os.open(self.folder / "files", os.O_RDONLY | os.O_DIRECTORY)
        self.addCleanup(os.close, self.top)

    def summed(self, engine, names=None, read_here=0):
        """The rows that are kept of all files, whose digests such an engine computes, but those of so many."""
        given = mock.Mock(jobs=1, alg="sha256", progress=False, folder=str(self.folder / "files"), dask="here")
        left, said = making.Left("tool", "files"), []
        with mock.patch.object(handing, "client_of", return_value=engine), summing.Sums(":memory:", "sha256") as sums:
            with mock.patch.object(making, "tell", lambda _, line: said.append(line)):
                with mock.patch.object(handing, "tell", lambda _, line: self.told.append(line)):
                    making.sum_all("tool", given, self.top, sums, names or self.names, left)
            sums.commit()
            found = {name: sums.of_file(name) for name in names or self.names}
        line = f"{read_here} files are read here, which no worker read as they are here"
        self.assertEqual((said, left.names), ([line] if read_here else [], set()))
        return found

    def assert_digests(self, found):
        """They are those of the files, and each mark is that of this machine."""
        for name, one in found.items():
            octets = (self.folder / "files" / name).read_bytes()
            expected = hashlib.sha256(octets).digest(), summing.mark_below(self.top, name)
            self.assertEqual((one.digest, one.mark), expected, name)

    def test_workers_that_answer_something_else(self):
        """Each is refused, and what it had is done by another one. Where all are, nothing is kept."""
        by_others, nobodys = "it judges by another list or version", "it answers what nobody asked"
        for change, why in (
            (lambda part: part._replace(trust="another"), by_others),
            (lambda part: part._replace(versions="another"), by_others),
            (lambda part: part._replace(said=[]), nobodys),
            (lambda part: part._replace(said=[part.said[0]._replace(names=bytes(32))]), nobodys),
            (lambda part: part._replace(said=[part.said[0]._replace(said=part.said[0].said[1:])]), nobodys),
            (with_said(lambda one: one._replace(digest=one.digest[:-1])), nobodys),
            (with_said(lambda one: one._replace(digest=b"")), nobodys),
            (lambda _: "no answer", nobodys),
            (lambda part: part._replace(said=None), nobodys),
            (lambda part: part._replace(said=[part.said[0]._replace(said=None)]), nobodys),
            *((lambda part, took=took: part._replace(seconds=took), nobodys) for took in (math.nan, math.inf, -1.0, None, "1")),
        ):
            self.told = []
            engine = Engine(bad=change, good=lambda part: part)
            self.assert_digests(self.summed(engine, self.names[:120]))
            self.assertEqual((self.told, engine.done.count("bad") > 0), ([f"the worker bad is refused: {why}"], True))
            with self.assertRaises(Stop) as found:
                self.summed(Engine(bad=change, worse=change), self.names[:120])
            self.assertEqual(found.exception.line, "failed worker: no worker of Dask judges by this version")

    def test_workers_that_leave_names(self):
        """What they had no time for is handed out once more."""
        with mock.patch.object(handing, "LONGEST", -1.0):
            self.assert_digests(self.summed(Engine(one=lambda part: part, other=lambda part: part)))

    def test_workers_that_see_other_files(self):
        """Another device is none; whatever else is another thing is read here, and so is what no worker could read."""

        def with_mark(at, text):
            def changed(one):
                words = one.mark.split(" ")
                words[at] = text
                return one._replace(mark=" ".join(words))

            return changed

        # (they are too new, by the clock of this machine)
        found = self.summed(Engine(one=with_said(lambda one: one._replace(steady=True))))
        self.assertEqual({one.steady for one in found.values()}, {False})
        for change, count in (
            (with_mark(3, "77"), 0),
            *((with_mark(at, "77"), 300) for at in (0, 1, 2, 4)),
            (lambda one: one._replace(mark=""), 300),
            (lambda one: one._replace(mark="no mark"), 300),
            (lambda one: one._replace(digest=bytes(32), mark="1 1 1 1 1"), 300),
            (lambda one: summing.Summed("", False, b"", "it cannot be read: No such file or directory"), 300),
        ):
            self.assert_digests(self.summed(Engine(one=with_said(change)), read_here=count))

    def test_a_worker_that_dies(self):
        """Alone at a name, that is read here; with others, they are handed out once more. What it raises ends this process by no status."""
        for error in (ValueError(), SystemExit(0), GeneratorExit(), TimeoutError()):
            for most, count in ((1, 0), (0, 20)):
                engine = Engine(one=lambda part, most=most, error=error: part if len(part.said[0].said) <= most else error)
                self.assert_digests(self.summed(engine, self.names[:20], read_here=count))
        with self.assertRaises(KeyboardInterrupt):
            self.summed(Engine(one=lambda _: KeyboardInterrupt()))

    def test_what_is_kept_is_what_this_machine_saw_before(self):
        """A file that is changed once its name is handed out has another mark by then, whatever the worker read."""

        def changing(part):
            (self.folder / "files" / "007").write_bytes(b"after")
            return part

        time.sleep(summing.STEP / 1e9 + 0.1)
        found = self.summed(Engine(one=changing), self.names[:20])
        self.assertEqual({name for name, one in found.items() if one.mark != summing.mark_below(self.top, name)}, {"007"})
        self.assertEqual({one.steady for one in found.values()}, {True})
        with summing.Sums(":memory:", "sha256") as sums:
            for name, one in found.items():
                sums.put(name, one)
            sums.commit()
            self.assertEqual(sums.due(self.top, self.names[:20]), ["007"])

    def test_a_link_that_is_no_file_of_the_archive(self):
        """No worker follows one, nor does this machine."""
        os.remove(self.folder / "files" / "003"), os.symlink("/etc/hostname", self.folder / "files" / "003")
        terms = sums_terms(self.folder / "files")
        with terms.task(b"", None) as task:
            self.assertEqual(task("003").fault, "it is no regular file any more")
            self.assertEqual(task("004").digest, hashlib.sha256(b"4").digest())
        with sums_terms(self.folder / "none").task(b"", None) as task:
            self.assertEqual(task("004").fault, "it cannot be read: No such file or directory")

    def test_records_are_judged_as_here(self):
        """Wherever the folder of a worker is: the same lines of the same names."""
        (self.folder / "r: x").mkdir()
        for number, octets in enumerate((GOOD, TWICE, STRANGE, b"none")):
            (self.folder / "r: x" / f"{number}.ers").write_bytes(octets)
        names = [f"r: x/{number}.ers" for number in range(5)] + [str(self.folder / "r: x" / "9.ers"), "unfit.ers", ""]
        unfit, ends = {"unfit.ers": "a link"}, {"sha1": LATER}
        before = os.getcwd()
        self.addCleanup(os.chdir, before)
        os.chdir(self.folder)
        by = lasting.By(cmsproof.TrustList(LIST), ends, BY)
        terms, looked = due.terms_of(by, True), renewing.Looked(by, "20260101000000Z", "", "", unfit, 255)
        here = [due.judged(by, unfit, True, name) for name in names]
        seen = [renewing.seen(looked, name) for name in names]
        os.chdir("/")
        beside = handing.Each(LIST, terms, None, lambda some: due.unfit_among(unfit, some)).beside(names)
        for these, expected in ((terms, here), (renewing.Terms(terms.trust, terms.versions, terms, looked.now), seen)):
            part = handing.said_by(handing.pickle.dumps(names), LIST, these, beside)
            self.assertEqual(part.said, [handing.Several(handing.sum_of(names), expected)])
            other = handing.said_by(handing.pickle.dumps(names), LIST + b"# other\n", these, beside)
            self.assertEqual((other.said, other.is_by(these)), ([], False))
        self.assertEqual([one.word for one in seen], ["due", "lasting", *["left"] * 6])

    def test_each_thread_has_what_it_goes_by(self):
        found = {due.by_of(LIST, (), BY, thread) for thread in (1, 2, 1)}
        self.assertEqual(len(found), 2)


@unittest.skipUnless(THERE and knows_making(), "there is no python3-distributed, or the program makes no records")
class Stamped(WithWorkers, WithAuthority):
    """Files that are read by workers."""

    def test_the_same_digests(self):
        """And the same files are left out, with the same lines. A worker of another version reads nothing."""
        for number in range(700):
            self.put(f"files/many/{number:03}", str(number).encode() * number)
        self.put(b"files/\xff"), self.put("files/x.ers/y"), self.put("files/x"), self.put("files/two\nlines: \\", b"two")
        os.symlink("a", self.folder / "files" / "link")
        self.worker(self.other_version()), self.worker(), self.worker()
        for alg in ("sha256", "sha512"):
            more = ["--alg", alg, "--into", f"here_{alg}", "--state", f"first_{alg}"]
            status, lines, err = self.stamp(*more)
            with mock.patch.object(sys, "executable", PYTHON):
                found = self.stamp("--alg", alg, "--into", "records", "--state", f"state_{alg}", "--dask", self.address)
            self.assertEqual((status, found[0], lines[0][:30]), (1, 1, found[1][0][:30]), found[2])
            said = [line for line in found[2].splitlines() if " is refused: it has cmsproof-archive 0.0.1" not in line]
            self.assertEqual((said, len(found[2].splitlines())), (err.splitlines(), len(said) + 1))
            sums = [(self.folder / state / "1" / "sums").read_bytes() for state in (f"first_{alg}", f"state_{alg}")]
            self.assertEqual((sums[0], sums[0].count(b"\n")), (sums[1], 706))
            subprocess.run(["rm", "-r", self.folder / "records"], check=True)

    def test_a_run_and_a_worker_that_are_killed(self):
        """A later run reads what is not known yet, and another worker what the killed one had in hand."""
        for number in range(400):
            self.put(f"files/many/{number:03}", str(number).encode())
        time.sleep(summing.STEP / 1e9 + 0.1)
        log = self.folder / "read"
        code = "import time\nfrom cmsproof_tools import summing\nwas = summing.summed\n"
        code += f"def slow(top, alg, name):\n    time.sleep(0.01)\n    with open({str(log)!r}, 'a') as file:\n"
        code += "        file.write(name + chr(10))\n    return was(top, alg, name)\n"
        self.begin_with(code + "summing.summed = slow")
        killed, _ = self.worker(f"{self.folder}:{MODULES}"), self.worker(f"{self.folder}:{MODULES}")
        words = [PYTHON, INSTALLED / "cmsproof-archive", *map(str, self.words("--dask", self.address))]
        run = subprocess.Popen(words, cwd=self.folder, stdout=subprocess.PIPE, stderr=subprocess.PIPE)
        self.until(lambda: self.known() > 0)
        run.kill(), run.communicate()
        known = self.known()
        self.assertEqual((0 < known < 404, (self.folder / "state" / "1" / "sums").exists()), (True, False), known)
        # (what a killed one asked for is still done)
        time.sleep(4)
        log.unlink()
        run = subprocess.Popen(words, cwd=self.folder, stdout=subprocess.PIPE, stderr=subprocess.PIPE)
        self.until(log.exists)
        killed.kill()
        out, err = run.communicate(timeout=120)
        self.assertEqual(run.returncode, 0, err)
        self.assertRegex(out.decode(), "^files: 404 records of ")
        self.assertLessEqual(len(set(log.read_text().splitlines())), 404 - known)
        self.assert_records(404)

    def known(self):
        """How many digests the state has."""
        path = self.folder / "state" / "sums.db"
        if not path.exists():
            return 0
        with contextlib.closing(sqlite3.connect(path)) as database:
            is_there = database.execute("SELECT count(*) FROM sqlite_schema WHERE name = 'sums'").fetchone()[0]
            return database.execute("SELECT count(*) FROM sums").fetchone()[0] if is_there else 0

    def until(self, is_so):
        """Waits for something."""
        end = time.monotonic() + 60
        while not is_so() and time.monotonic() < end:
            time.sleep(0.02)

    def test_a_worker_that_sees_other_files(self):
        """As on a disk of its own: they are read here, and a change is no secret."""
        code = "from cmsproof_tools import summing\nwas = summing.Terms.task\n"
        code += "summing.Terms.task = lambda self, *rest: was(self._replace(folder=self.folder + '/../other'), *rest)"
        self.begin_with(code)
        subprocess.run(["cp", "-a", self.folder / "files", self.folder / "other"], check=True)
        self.put("other/a", b"another"), os.remove(self.folder / "other" / "e")
        self.worker(f"{self.folder}:{MODULES}")
        with mock.patch.object(sys, "executable", PYTHON):
            status, lines, err = self.stamp("--dask", self.address)
        self.assertEqual(status, 0, err)
        self.assertEqual(err, "cmsproof-archive stamp: 4 files are read here, which no worker read as they are here\n")
        self.assert_records(4)

    def test_no_scheduler(self):
        with mock.patch.object(sys, "executable", PYTHON):
            status, lines, err = self.stamp("--dask", "tcp://127.0.0.1:1")
        self.assertEqual((status, lines, "no scheduler of Dask answers" in err), (4, [], True), err)
        self.assert_nothing_made(0)


@unittest.skipUnless(THERE, "there is no python3-distributed")
class Due(WithWorkers):
    """Records that are judged by workers."""

    def due(self, *words, dask=()):
        """The status of the tool, its lines, and its standard error."""
        command = [PYTHON, INSTALLED / "cmsproof-archive", "due", "--trust", "list", "--by", BY, *dask, *words]
        done = subprocess.run(command, cwd=self.folder, capture_output=True, check=False, timeout=120, stdin=subprocess.DEVNULL)
        return done.returncode, done.stdout, done.stderr.decode()

    def test_the_same_lines(self):
        (self.folder / "list").write_bytes(list_of(tsa(MADE.clock, last=LATER), tsa(MADE.second)))
        kinds = [GOOD, TWICE, STRANGE, b"no record", GOOD + b"\0", MADE.record(b"another\n")]
        for number in range(600):
            path = self.folder / "re: cords" / f"{number % 7}" / f"{number}.ers"
            path.parent.mkdir(parents=True, exist_ok=True)
            path.write_bytes(kinds[number % len(kinds)])
        os.symlink("0.ers", self.folder / "re: cords" / "0" / "link.ers"), os.mkfifo(self.folder / "re: cords" / "pipe.ers")
        (self.folder / "re: cords" / "README").write_bytes(b"")
        self.worker(self.other_version()), self.worker(), self.worker()
        dask = ["--dask", self.address]
        for words in (["re: cords"], ["--json", "re: cords", "none", "./re: cords/1/1.ers", self.folder / "re: cords" / "2"]):
            here, there = self.due("--jobs", "2", *words), self.due(*words, dask=dask)
            said = [line for line in there[2].splitlines() if " is refused: it has cmsproof-archive 0.0.1" not in line]
            self.assertEqual((*there[:2], said), (*here[:2], here[2].splitlines()))
            self.assertEqual((here[0], here[1].count(b"\n") > 400), (4, True))
        self.assertEqual(self.due("re: cords/0/0.ers", "/dev/stdin", dask=dask)[:2], (3, b""))
        json.loads(there[1].splitlines()[-1])


    def test_addresses_that_are_none(self):
        """The run ends, also where Dask knows that before it asks."""
        (self.folder / "list").write_bytes(LIST), (self.folder / "a.ers").write_bytes(GOOD)
        for address in ("x", "tls://127.0.0.1:1"):
            status, out, err = self.due("a.ers", dask=["--dask", address])
            self.assertEqual((status, out), (4, b""), err)
            self.assertIn(f"cmsproof-archive: failed open {address}: no scheduler of Dask answers: ", err)


@unittest.skipUnless(THERE and knows_renewing(), "there is no python3-distributed, or the program renews no records")
class Renewed(WithWorkers, WithRecords):
    """Records of which workers say which are due."""

    def test_the_same_records(self):
        """What this machine cannot replace is said by it, and the program alone writes records."""
        for number in range(200):
            self.put(f"records/many/{number:03}.ers", (GOOD, TWICE, STRANGE)[number % 3])
        self.put(b"records/\xff.ers"), self.put("records/" + "n" * 246 + ".ers", GOOD)
        os.symlink("a.ers", self.folder / "records" / "l.ers")
        before = shutil.copytree(self.folder / "records", self.folder / "before", symlinks=True)
        self.worker(), self.worker()
        here = self.renew()
        shutil.rmtree(self.folder / "records"), os.rename(before, self.folder / "records")
        with mock.patch.object(sys, "executable", PYTHON):
            there = self.renew("--state", "another", "--dask", self.address)
        self.assertEqual((here[0], len(here[1])), (4, 70), here)
        self.assertEqual((there[0], there[1][:-1], there[2]), (here[0], here[1][:-1], here[2]))
        self.assertRegex(there[1][-1], "^records: 71 records have a time-stamp of ")
        self.assert_renewed("a", "b/c.tif", "b/d"), self.assert_renewed("e", old=OTHER)
        # nothing is due any more, and there may be nothing to judge
        shutil.rmtree(self.folder / "records" / "many")
        with mock.patch.object(sys, "executable", PYTHON):
            self.assertIn(": 3 due by ", self.renew("--state", "another", "--dask", self.address)[2])


if __name__ == "__main__":
    unittest.main()
