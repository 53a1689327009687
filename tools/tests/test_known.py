"""Tests of what is acknowledged (`--known`): only a refusal of just this code and name is, and nothing makes an accepted file of it."""
import base64
import csv
import io
import json
import os
import re
import shutil
import tempfile
import unittest
from pathlib import Path
from unittest import mock

from issuing_world import AT, World, h
from making import REAL, folder_of, need_tools, run_tool

need_tools()

from cmsproof_tools import cures
from cmsproof_tools.known import Known
from cmsproof_tools.outcomes import Outcome

# each file by its name, with the line that the tool prints for it; the names of a list are as printed
FILES = {
    b"good.p7s": ("rsa_attached_ts.p7s", "good.p7s: accepted 20261122071759Z"),
    b"bare.p7s": ("rsa_attached.p7s", "bare.p7s: refused signer 1 S10 NoToken"),
    b"one two.p7s": ("noattr.p7s", "one two.p7s: refused signer 1 S1 NoSignedAttrs"),
    b"two\nlines.p7s": ("rsa_attached.p7s", r"two\nlines.p7s: refused signer 1 S10 NoToken"),
    b"\xff.p7s": ("rsa_attached.p7s", r"\udcff.p7s: refused signer 1 S10 NoToken"),
    b"back\\slash": ("rsa_attached.p7s", r"back\\slash: refused signer 1 S10 NoToken"),
    b"x: accepted 20261122071759Z": (None, r"x:\x20accepted 20261122071759Z: malformed M1 End at 1"),
}
GOOD, ALL = "good.p7s", (
    "# what is known\n\nS10 bare.p7s\nS1 one two.p7s\r\nS10 two\\nlines.p7s\nS10 \\udcff.p7s\nS10 back\\\\slash\n"
    "M1 x:\\x20accepted 20261122071759Z\n"
)


class Runs(unittest.TestCase):
    """What a run says and answers, when it judges all and when all is as before."""

    @classmethod
    def setUpClass(cls):
        temporary = tempfile.TemporaryDirectory()
        cls.addClassCleanup(temporary.cleanup)
        cls.folder = Path(temporary.name)
        (cls.folder / "files").mkdir()
        for name, (real, _) in FILES.items():
            Path(os.fsdecode(os.path.join(os.fsencode(cls.folder), b"files", name))).write_bytes(
                (REAL / real).read_bytes() if real else b"0"
            )
        (cls.folder / "names").write_bytes(b"\0".join(sorted(FILES)) + b"\0")
        past = 1_700_000_000
        for path in (cls.folder / "files").iterdir():
            os.utime(path, (past, past))

    def archive(self, text, *words, state="state", names=("--null", "--files-from", "../names")):
        """The status, the lines, and standard error, of a run with this text of what is known."""
        known = ["--known", "../known"] if text is not None else []
        if text is not None:
            (self.folder / "known").write_bytes(text if isinstance(text, bytes) else text.encode())
        words = ["--trust", REAL / "trust.txt", "--state", f"../{state}", *known, *words, *names]
        status, out, err = run_tool("cmsproof-archive", *words, cwd=self.folder / "files")
        return status, out.decode().splitlines(), err.splitlines()

    def test_status_and_summary(self):
        lines = sorted(line for _, line in FILES.values())
        unmet = "nothing is refused so"
        for what, text, expected, said, warned in (
            ("no text", None, 2, "5 refused", 0),
            ("nothing is acknowledged", "# nothing\n", 2, "0 acknowledged; new: 1 malformed, 5 refused", 0),
            ("all is", ALL, 5, "6 acknowledged; new: none", 0),
            ("all but what is malformed", ALL.replace("M1", "# M1"), 2, "5 acknowledged; new: 1 malformed", 0),
            ("all but one that is refused", ALL.replace("S1 ", "# S1 "), 1, "5 acknowledged; new: 1 refused", 0),
            ("of one file another code", ALL.replace("S1 ", "S10 "), 1, "5 acknowledged; new: 1 refused", 1),
            ("a code that begins alike", ALL.replace("S10 bare", "S1 bare"), 1, "5 acknowledged; new: 1 refused", 1),
            ("a file with another end of its name", ALL.replace("bare.p7s", "bare.p7"), 1, "new: 1 refused", 1),
            ("what is accepted, by each code", ALL + f"S10 {GOOD}\nM1 {GOOD}\n", 5, "new: none", 2),
            ("what is not there", ALL + "S10 gone.p7s\nF1 bare.p7s\n", 5, "6 acknowledged; new: none", 2),
            ("a comment behind a name is a part of it", ALL.replace("bare.p7s", "bare.p7s # asked"), 1, "new: 1 refused", 1),
        ):
            shutil.rmtree(self.folder / "states", ignore_errors=True)
            (self.folder / "states").mkdir()
            for again in (False, True):
                with self.subTest(what, again=again):
                    status, found, told = self.archive(text, *(["--recheck"] if not again else []), state="states/one")
                    self.assertEqual(status, expected, told)
                    self.assertEqual(sum(unmet in line for line in told), warned, told)
                    self.assertIn(said, told[0])
                    # (the lines of files are the same with and without it)
                    self.assertIn(sorted(found), ([lines] if not again else [lines, []]))

    def test_json(self):
        status, found, _ = self.archive(ALL.replace("S1 ", "# "), "--json", "--recheck")
        last = json.loads(found[-1])
        self.assertEqual((status, last["worst"], last["acknowledged"], last["new"], last["files"]), (1, 1, 5, 1, 7))
        self.assertNotIn("acknowledged", json.loads(self.archive(None, "--json", "--recheck")[1][-1]))

    def test_what_is_accepted_alone(self):
        """0 is said only if all are accepted, whatever is acknowledged."""
        for text in ("", ALL):
            self.assertEqual(self.archive(text, state="alone", names=(GOOD,))[0], 0)

    def test_failures(self):
        """A file that cannot be read was not judged: nobody acknowledges that."""
        text = ALL + "M1 gone.p7s\nF1 gone.p7s\n"
        status, _, told = self.archive(text, state="failures", names=("bare.p7s", "gone.p7s"))
        self.assertEqual(status, 4)
        self.assertIn("1 acknowledged; new: 1 failed", told[0])

    def test_a_file_that_is_replaced(self):
        """It is new again once its code is another one, and what was acknowledged of it meets nothing once it is accepted."""
        folder = folder_of(self)
        (folder / "known").write_text("S10 file\n")
        found = []
        for real in ("rsa_attached", "noattr", "rsa_attached_ts", "rsa_attached"):
            (folder / "new").write_bytes((REAL / f"{real}.p7s").read_bytes())
            os.replace(folder / "new", folder / "file")
            words = ["--trust", REAL / "trust.txt", "--state", "state", "--known", "known", "file"]
            status, _, err = run_tool("cmsproof-archive", *words, cwd=folder)
            found.append((status, "nothing is refused so: S10 file" in err))
        self.assertEqual(found, [(5, False), (1, True), (0, True), (5, False)])

    def test_many_lines(self):
        """The table of all codes is gone through once at most, and not for each line."""

        class Counted(tuple):
            count = 0

            def __iter__(self):
                Counted.count += 1
                return super().__iter__()

        text = folder_of(self) / "known"
        text.write_text("".join(f"S10 {number}.p7s\n" for number in range(1000)))
        with mock.patch.object(cures, "ROWS", Counted(cures.ROWS)):
            known = Known(str(text))
        self.assertEqual(len(known.lines), 1000)
        self.assertLessEqual(Counted.count, 1)

    def test_faults_of_the_text(self):
        """Each ends the tool before anything else is done."""
        good = "# a comment\nS10 bare.p7s\n"
        for line in (
            "S10",
            "S10 ",
            "S10bare.p7s",
            "S10\tbare.p7s",
            " S10 bare.p7s",
            "s10 bare.p7s",
            "bare.p7s S10",
            "accepted bare.p7s",
            "S99 bare.p7s",
            "S010 bare.p7s",
            "F2 bare.pdf",
            "X1 bare.p7s",
            "P3 bare.p7s",
            "bare.p7s: refused signer 1 S10 NoToken",
            "S10 bare.p7s: refused signer 1 S10 NoToken",
            "S10 back\\slash",
            "S10 end\\",
            "S10 a\tb",
            "S10 a\u2028b",
            b"S10 \xff.p7s",
            b"S10 a\0b",
            "\ufeffS10 bare.p7s",
        ):
            with self.subTest(line):
                text = good.encode() + (line if isinstance(line, bytes) else line.encode()) + b"\n"
                status, found, told = self.archive(text, state="none")
                self.assertEqual((status, found, len(told)), (3, [], 1), told)
                self.assertIn("known: line 3: ", told[0])
                self.assertFalse((self.folder / "none").exists())

    def test_words(self):
        (self.folder / "known").write_bytes(ALL.encode())
        trust = ["--trust", REAL / "trust.txt"]
        for words, status in (
            ([*trust, "--known", "known", "files/good.p7s"], 3),
            ([*trust, "--state", "words", "--known", "-", "files/good.p7s"], 3),
            ([*trust, "--state", "words", "--known", "gone", "files/good.p7s"], 4),
            ([*trust, "--state", "words", "--known", "known", "--log", "known", "files/good.p7s"], 3),
            (["report", "words", "--known", "known", "--csv", "known"], 3),
            (["report", "words", "--known", "-", "--csv", "-"], 3),
        ):
            found = run_tool("cmsproof-archive", *words, cwd=self.folder)
            self.assertEqual((found[0], found[1], len(found[2].splitlines())), (status, b"", 1), (words, found))
        self.assertEqual((self.folder / "known").read_bytes(), ALL.encode())

    def test_the_report_tells_what_is_new(self):
        self.archive(None, "--recheck", state="reported")
        (self.folder / "known").write_text("S10 bare.p7s\nS10 two\\nlines.p7s\nM1 good.p7s\n")

        def said(way, *words):
            status, out, err = run_tool("cmsproof-archive", "report", "reported", way, "-", *words, cwd=self.folder)
            self.assertEqual(status, 0, err)
            return out.decode(), err

        known = ["--known", "known"]
        text, err = said("--csv", *known)
        rows = list(csv.DictReader(io.StringIO(text, newline="")))
        self.assertEqual({row["verdict"]: row["new"] for row in rows}["accepted"], "no")
        expected = {r"x:\x20accepted 20261122071759Z", "one two.p7s", r"./\udcff.p7s", r"back\\slash"}
        self.assertEqual({row["file"] for row in rows if row["new"] == "yes"}, expected)
        self.assertIn("line 3: nothing is refused so: M1 good.p7s", err)
        found = [json.loads(line) for line in said("--json", *known)[0].splitlines()]
        self.assertEqual(sum(row["new"] for row in found), 4)
        page = said("--html", *known)[0]
        self.assertIn("<strong>4</strong>new", page)
        data = json.loads(re.search(r'id="data">(.*?)</script>', page, re.DOTALL)[1])
        self.assertEqual({data["rows"][number][0] for number in data["new"]}, {name.replace("./", "") for name in expected})
        for way in ("--csv", "--json"):
            self.assertNotIn("new", said(way)[0])


class Names(unittest.TestCase):
    """Of a file and a part of another one that are called alike only the one is acknowledged that the text has."""

    def test_parts(self):
        folder = folder_of(self)
        for name in ("a.pdf", "a.pdf Sig", "b:", "b: Sig", "m", "m mail 1,"):
            (folder / name).write_bytes(b"")
        for text, of_file, of_part in (
            ("F6 a.pdf Sig", ("a.pdf Sig", ""), ("a.pdf", "Sig")),
            ("F6 b:\\x20Sig", ("b: Sig", ""), ("b:", "Sig")),
            ("F6 m mail 1, part 1", ("m mail 1,", "part 1"), ("m", "mail 1, part 1")),
        ):
            (folder / "known").write_text(text)
            here = os.getcwd()
            self.addCleanup(os.chdir, here)
            os.chdir(folder)
            known = Known("known")
            found = [
                known.is_new(Outcome(name, 1, "refused F6 Uncovered", part=part))
                for name, part in (of_file, of_part, ("c.pdf", "Sig"))
            ]
            self.assertEqual(found, [False, True, True])
            # (without that file the part is called so)
            os.remove(of_file[0])
            self.assertFalse(known.is_new(Outcome(of_part[0], 1, "refused F6 Uncovered", part=of_part[1])))
            os.chdir(here)

    def test_parts_that_look_alike(self):
        """A part is told apart where the name of a longer one, that is there and no folder, is a beginning of what is shown of it."""
        folder, long = folder_of(self), "o" * 300
        here = os.getcwd()
        self.addCleanup(os.chdir, here)
        os.chdir(folder)
        for name in ("m", "m mail 1,", "a", "a b c", "d", "d e/f", "g", "k ", "k", "l", "l  l", "n", "o", "o b c", "p:", "p: q"):
            Path(name).parent.mkdir(exist_ok=True)
            Path(name).write_bytes(b"")
        Path("g h").mkdir(), os.symlink(long, "o b"), os.symlink(long, "n b"), os.symlink("g h", "n c")
        for name, part, label in (
            ("m", "mail 1, part 1", r"m\x20mail 1, part 1"),
            ("./m", "mail 1, part 1", r"./m\x20mail 1, part 1"),
            (f"{folder}/m", "mail 1, part 1", rf"{folder}/m\x20mail 1, part 1"),
            ("m mail 1,", "part 1", "m mail 1, part 1"),
            ("m", "mail 1", "m mail 1"),
            ("m", "mail 2, part 1", "m mail 2, part 1"),
            ("m", "mail 1,, part 1", "m mail 1,, part 1"),
            ("a", "b c d", r"a\x20b c d"),
            ("a", "b c", r"a\x20b c"),
            ("a", "b cd", "a b cd"),
            ("a b", "c d", r"a b\x20c d"),
            ("a b c", "d", "a b c d"),
            ("d", "e/f g", r"d\x20e/f g"),
            ("d", "e/g f", "d e/g f"),
            ("d", "f/e /g f", "d f/e /g f"),
            ("g", "h i", "g h i"),
            ("g", "h", r"g\x20h"),
            ("k", " l", r"k\x20 l"),
            ("l", " l l", r"l\x20 l l"),
            ("n", "b c", r"n\x20b c"),
            ("n", "c d", "n c d"),
            ("o", "b c d", r"o\x20b c d"),
            ("p:", "q r", r"p\x3a\x20q r"),
            ("n", "\0 b", r"n \x00 b"),
            ("n", "\ud800 b", r"n \ud800 b"),
            ("n", "/".join("a b") * 5000, "n " + "/".join("a b") * 5000),
            ("n", " " * 100000 + ".", "n " + " " * 100000 + "."),
        ):
            self.assertEqual(Outcome(name, 1, "refused F6 Uncovered", part=part).called, label, (name, part[:20]))

    def test_verdicts(self):
        """What a line of no such status, or of another form, says is never acknowledged."""
        folder = folder_of(self)
        (folder / "known").write_text("S10 a\nM1 a\nF1 a\n")
        known = Known(str(folder / "known"))
        for status, line, covered in (
            (1, "refused signer 1 S10 NoToken", True),
            (1, "refused signer 2 S10 NoToken", True),
            (1, "refused signer 1 token 1 K5 S5 DigestAlgorithm", False),
            (2, "malformed M1 End at 1", True),
            (0, "accepted 20261122071759Z", False),
            (4, "failed F2 ToolMissing", False),
            (4, "failed S10 NoToken", False),
            (4, "failed worker: it ended", False),
            (0, "refused signer 1 S10 NoToken", False),
            (1, "something S10", False),
        ):
            self.assertEqual(known.covers(status, line, "a"), covered, line)


class Several(unittest.TestCase):
    """Files that several processes judge: their lines are those of a run without what is acknowledged, and so is what is said of the rest."""

    def test_parts_and_complaints(self):
        folder, trust = folder_of(self), ["--trust", REAL / "trust.txt"]
        blocks = [base64.encodebytes((REAL / f"{name}.p7s").read_bytes()).decode() for name in ("rsa_attached", "noattr")]
        two = "".join(f"-----BEGIN CMS-----\n{block}-----END CMS-----\n" for block in blocks)
        for name, octets in (("one.pem", two), ("two.pem", two), ("text", "hello"), ("mail", "hello")):
            (folder / name).write_text(octets)
        (folder / "good.p7s").write_bytes((REAL / "rsa_attached_ts.p7s").read_bytes())
        names = ["one.pem", "text", "good.p7s", "mail", "two.pem"]
        lines = run_tool("cmsproof-archive", *trust, *names, cwd=folder)[1]
        self.assertEqual(lines.count(b"\n"), 7)
        texts, first, second = "F1 text\nF1 mail\n", "S10 one.pem block 1\nS1 one.pem block 2\n", "S10 two.pem block 1\n"
        for text, status, told, said in (
            ("", 1, ["text", "mail"], "0 acknowledged; new: 2 refused, 2 unsigned"),
            ("F1 text\n", 1, ["mail"], "1 acknowledged; new: 2 refused, 1 unsigned"),
            (texts + first, 1, [], "3 acknowledged; new: 1 refused"),
            (texts + first + second, 1, [], "3 acknowledged; new: 1 refused"),
            (first + second + "S1 two.pem block 2\n", 1, ["text", "mail"], "2 acknowledged; new: 2 unsigned"),
            (texts + first + second + "S1 two.pem block 2\n", 5, [], "4 acknowledged; new: none"),
        ):
            (folder / "known").write_text(text)
            words = [*trust, "--state", "state", "--known", "known", "--jobs", "3"]
            for again in (["--recheck"], []):
                with self.subTest(text, again=again):
                    found = run_tool("cmsproof-archive", *words, *again, *names, cwd=folder)
                    # (files that are new by now may be judged again, each by itself)
                    judged = lines if again else b"".join(line for line in lines.splitlines(True) if line in found[1])
                    self.assertEqual(found[:2], (status, judged), found)
                    self.assertIn(said, found[2])
                    complaints = [name for name in ("text", "mail") if f": {name}: it begins as no file" in found[2]]
                    self.assertEqual(complaints, [name for name in told if f"{name}: ".encode() in judged])


class ByIssuers(unittest.TestCase):
    """A run with an issuer makes its list anew each time: of a file that is acknowledged it doesn't say again why nobody is listed."""

    def test_what_is_told_again(self):
        folder = folder_of(self)
        world = World(folder)
        other = h.issue("Clock", h.root("Clocks"), [h.STAMPING])
        bag = [world.anna.octets, world.sub.octets]
        world.put("old.p7s", h.signed(world.anna, [(other, AT, [other.octets])], bag))
        world.put("new.p7s", h.signed(world.anna, [(other, AT, [other.octets])], bag))
        world.put("root.der", world.root), world.put("clocks.der", world.clocks)
        issuers = ["--issuer", "root.der", "--tsa-issuer", "clocks.der", "--state", "state"]
        told = "{}: signer 1: no stamp passes under a listed authority"
        for text, status, again in (
            ("", 1, ["new.p7s", "old.p7s"]),
            ("K10 old.p7s\n", 1, ["new.p7s"]),
            ("K13 old.p7s\n", 1, ["new.p7s", "old.p7s"]),
            ("K10 old.p7s\nK10 new.p7s\n", 5, []),
        ):
            (folder / "known").write_text(text)
            found = run_tool("cmsproof-archive", *issuers, "--known", "known", "old.p7s", "new.p7s", cwd=folder)
            lines = [name for name in ("new.p7s", "old.p7s") if told.format(name) in found[2]]
            self.assertEqual((found[0], lines), (status, again), (text, found))
            # (of both files it is said with the first one, so as long as one is new)
            self.assertEqual("old.p7s: no path for CN=Clock,O=cmsproof, tsa, at" in found[2], status == 1, found)
        # of a part that looks like another file it is said by the name of its line
        block = b"-----BEGIN CMS-----\n%b-----END CMS-----\n" % base64.encodebytes((folder / "old.p7s").read_bytes())
        world.put("two", block * 2), world.put("two block", b"")
        lines, err = run_tool("cmsproof-archive", *issuers[:4], "two", "two block", cwd=folder)[1:]
        self.assertIn(b"two\\x20block 1: refused signer 1 ", lines)
        self.assertIn(told.format("two\\x20block 1"), err)
        self.assertNotIn("two block 1", err)


if __name__ == "__main__":
    unittest.main()
