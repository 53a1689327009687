"""Tests of evidence records (RFC 4998) in cmsproof-archive: of those in data/records each line, of made ones where they may stand, and what a
state keeps of them."""
import json
import os
import shutil
import subprocess
import time
import unittest

from issuing_world import pem
from making import PROGRAM, as_nobody, need_tools, run_tool
from recorded_world import AGAIN, AT, BEGUN, DATA, ENDS, EVIDENCED, FILE, GOOD, MADE, OF_OTHER, OTHER, RENEWED, ROWS, STRANGE, TWICE
from recorded_world import WithFolder, knows_records, record_of

need_tools()

import cmsproof  # noqa: E402
from cmsproof.octets import COPIED  # noqa: E402
from cmsproof_tools import cluster, evidenced, rows  # noqa: E402
from oracle import evidence as oracle_evidence, lists  # noqa: E402
from oracle.rules import Terms  # noqa: E402
from samples import hierarchy as h  # noqa: E402
from samples.building import sha  # noqa: E402

# how long it takes until a change of a file cannot have the time of the change before
STEP = rows.STEP / 1e9 + 0.1


class Rows(WithFolder):
    """Each row of data/records."""

    trust = (DATA / "trust.txt").read_bytes()

    def test_each(self):
        by_options = {}
        for row in ROWS:
            by_options.setdefault(row[2], []).append(row)
        for options, several in by_options.items():
            expected, worst = [], 0
            shutil.rmtree(self.folder / "files"), shutil.rmtree(self.folder / "records")
            for place, (record, document, _, line) in enumerate(several):
                name = f"{place:02}_{record}"
                self.put_with(name, record_of(record), (DATA / "files" / document).read_bytes())
                is_good = line.startswith("accepted ")
                part = "" if is_good else f" {name}.ers"
                expected.append(f"files/{name}{part}: {line.replace('accepted', 'evidenced')}")
                worst = max(worst, {"accepted": 0, "refused": 1, "malformed": 2}[line.split(" ")[0]])
            for jobs in ("1", "3"):
                status, lines, err = self.run_archive("--jobs", jobs, *options.split(), "files")
                self.assertEqual((status, lines), (worst, expected), err)

    def test_the_answers(self):
        """The answers list has each signature for which the verifier vouches, and no other."""
        trust = cmsproof.TrustList(self.trust)
        kept = set((DATA / "answers.txt").read_bytes().splitlines()[1:])
        asked = set()
        for path in (DATA / "records").iterdir():
            asked |= {one.line for one in cmsproof.evidence.questions(path.read_bytes(), trust=trust).asked}
        (self.folder / "asked").write_bytes(b"\n".join([b"cmsproof questions 1", *sorted(asked), b""]))
        run_tool("cmsproof-verify", "asked", "answers", cwd=self.folder)
        self.assertEqual(set((self.folder / "answers").read_bytes().splitlines()[1:]), kept)

    def test_what_the_oracle_says(self):
        """It was written from RFC 4998, and apart from the program."""
        entries, answers = lists.entries_of(self.trust), lists.answers_of((DATA / "answers.txt").read_bytes())
        for record, document, options, line in ROWS:
            words = options.split()
            ends = [word.split("=") for word in words if "=" in word]
            at = words[words.index("--at") + 1] if "--at" in words else None
            moments = [(name, lists.end_of_period(last.encode())) for name, last in ends]
            policy = oracle_evidence.Policy(moments, at and lists.end_of_period(at.encode()), "--whole" in words)
            said, _ = oracle_evidence.check(
                record_of(record), [(DATA / "files" / document).read_bytes()], Terms(entries, answers), policy
            )
            self.assertEqual(said, line + "\n", (record, options))

    @unittest.skipUnless(knows_records(), "the program does not check evidence records")
    def test_what_the_proved_commands_say(self):
        """They say the same line of the same octets, with the answers of data/records and with those of the verifier."""

        def said(*words):
            done = subprocess.run([PROGRAM, "evidence", *words], cwd=DATA, capture_output=True, check=False)
            return done.stdout.decode()

        for record, document, options, line in ROWS:
            names = f"records/{record}.ers", f"files/{document}"
            (self.folder / "asked").write_text(said("questions", "--trust", "trust.txt", names[0]))
            for answers in ("answers.txt", str(self.folder / "answers")):
                if answers != "answers.txt" and run_tool("cmsproof-verify", "asked", "answers", cwd=self.folder)[0]:
                    continue  # (of a malformed record nothing is asked)
                words = ["--trust", "trust.txt", "--answers", answers, *options.split(), *names]
                self.assertEqual(said("check", *words), line + "\n", record)


class Places(WithFolder):
    """Where records are looked for, and what is said where one is missing."""

    SEVERAL = {
        "a": GOOD,
        "b/c.tif": TWICE,
        "b/d": OF_OTHER,
        "e": STRANGE,
        "f": b"no record",
        "g": GOOD + b"\0",
    }
    LINES = [
        f"files/a: {EVIDENCED}",
        f"files/b/c.tif: {EVIDENCED}",
        "files/b/d d.ers: refused chain 1 stamp 1 W4 K9 ImprintDiffers",
        "files/e e.ers: refused chain 1 stamp 1 W4 K10 UnknownTsa",
        "files/f f.ers: malformed M6 Tag at 0",
        f"files/g g.ers: malformed M7 Trailing at {len(GOOD)}",
        "files/h: refused F16 NoRecord",
        "records/files/b/gone.ers: refused F17 RecordAlone",
        "records/files/moved.ers: refused F17 RecordAlone",
    ]

    def put_several(self):
        """The files of SEVERAL, one without a record, and records without a file."""
        for name, record in self.SEVERAL.items():
            self.put_with(name, record)
        self.put("files/h")
        for name in ("b/gone", "moved"):
            self.put(f"records/files/{name}.ers", GOOD)
        # what is no record there is nobody's concern, and a record of no file under the folder that is named neither
        self.put("records/files/README"), self.put("records/elsewhere.ers", GOOD)

    def test_a_folder(self):
        self.put_several()
        for jobs in ("1", "3"):
            status, lines, err = self.run_archive("--jobs", jobs, "files")
            self.assertEqual((status, lines), (2, self.LINES))
        self.assertIn("files/h: there is no evidence record records/files/h.ers\n", err)
        said = "records/files/moved.ers: it stands where the evidence record of files/moved would be, and no regular file is there\n"
        self.assertIn(said, err)
        # without the word nothing of it is looked at
        _, out, _ = run_tool("cmsproof-archive", "--trust", "list", "files", cwd=self.folder)
        self.assertEqual(
            out.decode().splitlines(), [f"files/{name}: refused F1 UnknownForm" for name in ("a", "b/c.tif", "b/d", *"efgh")]
        )

    def test_what_is_no_record(self):
        """It is said what stands in the place of a record."""
        token = MADE.token(FILE, BEGUN, MADE.clock)
        self.put_with("a", token), self.put_with("b", MADE.clock.octets), self.put_with("c", b"%PDF-1.7"), self.put_with(
            "d", b""
        )
        status, lines, err = self.run_archive("files")
        self.assertEqual((status, [line.split(" ")[2] for line in lines]), (2, ["malformed"] * 4))
        kinds = ("a", "it is a time-stamp token"), ("b", "it is a certificate"), ("c", "it looks like a PDF"), ("d", "it is empty")
        for name, what in kinds:
            self.assertIn(f"files/{name} {name}.ers: {what}", err)

    def test_names_that_are_given(self):
        self.put_several()
        a = f"files/a: {EVIDENCED}"
        for names, expected in (
            (["files/a"], [a]),
            (["./files//a"], [f"./files//a: {EVIDENCED}"]),
            (["files/b/../a"], [f"files/b/../a: {EVIDENCED}"]),
            ([str(self.folder / "files" / "a")], [f"{self.folder}/files/a: {EVIDENCED}"]),
            (["records/files/a.ers"], [f"records/files/a.ers: {EVIDENCED}"]),
            (["records/files/a.ers", "files/a"], [a]),
            (["records/files/b/d.ers"], ["records/files/b/d.ers: refused chain 1 stamp 1 W4 K9 ImprintDiffers"]),
            (["records/files/moved.ers"], ["records/files/moved.ers: refused F17 RecordAlone"]),
            (["records/files/none.ers"], ["records/files/none.ers: failed open records/files/none.ers: No such file or directory"]),
            (["list"], ["list: refused F16 NoRecord"]),
            (["../" + self.folder.name + "/files/a"], [f"../{self.folder.name}/files/a: {EVIDENCED}"]),
        ):
            _, lines, err = self.run_archive("--null", "-", said="\0".join([*names, ""]).encode())
            self.assertEqual(lines, expected, (names, err))
        _, lines, _ = self.run_archive("--json", "files/b/c.tif", "files/b/d", "records/files/a.ers")
        first, second, third, _ = map(json.loads, lines)
        self.assertEqual((first["verdict"], first["time"], first["evidence"]), ("evidenced", BEGUN, "c.tif.ers"))
        self.assertEqual((first["questions"], first["vouched"]), (3, 3))
        self.assertEqual((second["code"], second["chain"], second["chainstamp"], second["part"]), ("W4", 1, 1, "d.ers"))
        self.assertEqual(third["content"], "files/a")

    def test_names_that_lead_elsewhere(self):
        """No name leads out of the folder of the records, and none has the record of another file."""
        self.put("files/a"), self.put("outside.ers", GOOD), self.put("records/outside.ers", OF_OTHER), self.put("outside")
        place = self.folder / "elsewhere"
        (place / "files").mkdir(parents=True), (place / "files" / "b").write_bytes(FILE)
        words = ["--null", "-"]
        for name, line in (
            ("files/../outside", "files/../outside outside.ers: refused chain 1 stamp 1 W4 K9 ImprintDiffers"),
            ("../" * 30 + "etc/hostname", "F16 NoRecord"),
            ("/etc/hostname", "/etc/hostname: refused F16 NoRecord"),
        ):
            if os.path.exists(os.path.join(self.folder, name)):
                _, lines, err = self.run_archive(*words, said=name.encode() + b"\0")
                self.assertTrue(lines[0].endswith(line), (lines, err))
        # the archive's folder is another one
        self.put("records/a.ers", GOOD), self.put("records/b.ers", GOOD)
        self.assertEqual(
            self.run_archive("--under", "files", "files")[:2], (1, [f"files/a: {EVIDENCED}", *self.alone("b", "outside")])
        )
        self.assertEqual(self.run_archive("--under", str(place / "files"), str(place))[1][0], f"{place}/files/b: {EVIDENCED}")
        _, lines, err = self.run_archive("--under", "files", "outside")
        self.assertEqual(lines, ["outside: refused F16 NoRecord"])
        self.assertIn(f"outside: no evidence record is looked for: the file is not in the folder {self.folder}/files\n", err)

    def alone(self, *names):
        """The lines of records without their files."""
        return [f"records/{name}.ers: refused F17 RecordAlone" for name in names]

    def test_records_in_the_archive(self):
        """Those that stand under the folder that is named are no files of it."""
        self.put("a"), self.put("records/a.ers", GOOD), self.put("records/b.ers", GOOD), os.remove(self.folder / "list")
        shutil.rmtree(self.folder / "files")
        trust = self.folder.parent / (self.folder.name + ".list")
        trust.write_bytes(MADE.list)
        self.addCleanup(trust.unlink)
        words = ["--trust", trust, "--records", "records"]
        status, out, _ = run_tool("cmsproof-archive", *words, ".", cwd=self.folder)
        self.assertEqual((status, out.decode().splitlines()), (1, [f"./a: {EVIDENCED}", *self.alone("b")]))
        # the folder of the records itself has records, each with its file
        status, out, _ = run_tool("cmsproof-archive", *words, "records", cwd=self.folder)
        self.assertEqual(out.decode().splitlines(), [f"records/a.ers: {EVIDENCED}", *self.alone("b")])

    def test_records_beside_their_files(self):
        """What stands in the place of a record of a record has a line of its own, which no other line says."""
        for name, given in (("a", FILE), ("a.ers", GOOD), ("a.ers.ers", OF_OTHER), ("b.ers.ers", GOOD)):
            self.put(f"files/{name}", given)
        two = [f"files/a: {EVIDENCED}", "files/a.ers.ers: refused chain 1 stamp 1 W4 K9 ImprintDiffers"]
        alone = "files/b.ers.ers: refused F17 RecordAlone"
        for names, expected in (
            (["files"], [*two, alone]),
            (["files/a.ers.ers", "files/a.ers", "files/a"], two[::-1]),
            (["files/a.ers", "files/a.ers.ers"], [f"files/a.ers: {EVIDENCED}", two[1]]),
        ):
            status, lines, err = self.run_archive("--under", "files", *names, records="files")
            self.assertEqual((status, lines), (1, expected), err)

    def test_what_is_no_regular_file(self):
        records = self.folder / "records" / "files"
        self.put_with("a"), self.put("files/b"), self.put("files/c"), self.put("files/d"), self.put("files/e/f")
        os.symlink("a.ers", records / "b.ers"), os.mkfifo(records / "c.ers"), (records / "d.ers").mkdir()
        self.put("elsewhere/f.ers", GOOD), os.symlink(self.folder / "elsewhere", records / "e")
        status, lines, err = self.run_archive("files", timeout=60)
        expected = [f"files/a: {EVIDENCED}", *(f"files/{name}: refused F16 NoRecord" for name in ("b", "c", "d", "e/f"))]
        self.assertEqual((status, lines), (1, expected))
        for name, kind in (("b", "a link"), ("c", "no regular file"), ("d", "no regular file"), ("e/f", "a link")):
            self.assertIn(f"files/{name}: its evidence record records/files/{name}.ers is {kind}, and is not read\n", err)
        # (a link that is named is followed as one to a signed file is, but not where it is found for its file)
        named, beside = "records/files/b.ers", "files/b"
        self.assertEqual(self.run_archive(named)[:2], (0, [f"{named}: {EVIDENCED}"]))
        self.assertEqual(self.run_archive(named, beside)[:2], (1, [f"{beside}: refused F16 NoRecord"]))
        # a file that is a link is skipped, and its record is one without a file
        os.remove(self.folder / "files" / "a"), os.symlink("b", self.folder / "files" / "a")
        _, lines, err = self.run_archive("files", timeout=60)
        self.assertIn("records/files/a.ers: refused F17 RecordAlone", lines)

    def test_a_record_that_cannot_be_read(self):
        who = as_nobody()
        self.put_with("a"), self.put_with("b")
        os.chmod(self.folder, 0o777), os.chmod(self.folder / "records" / "files" / "a.ers", 0)
        time.sleep(STEP)
        expected = ["files/a a.ers: failed open records/files/a.ers: Permission denied"]
        for more in ([f"files/b: {EVIDENCED}"], []):
            status, lines, _ = self.run_archive("--state", "state", "files", **who)
            self.assertEqual((status, lines), (4, [*expected, *more]))

    def test_a_record_that_is_out_of_reach(self):
        """Where nobody can say whether there is one, the file fails, and is judged again."""
        self.put_with("a"), self.put_with("b"), time.sleep(STEP)
        lines_of = {"EIO": "files/a a.ers: failed open records/files/a.ers: away", "ENOENT": "files/a: refused F16 NoRecord"}
        for error, line in lines_of.items():
            away = (
                "import errno\n"
                "lstat = os.lstat\n"
                "def unseen(path, **rest):\n"
                "    if str(path) == 'records/files/a.ers':\n"
                f"        raise OSError(errno.{error}, 'away')\n"
                "    return lstat(path, **rest)\n"
                "os.lstat = unseen\n"
            )
            status, lines, _ = self.by_changed(away, "--state", "state")
            self.assertEqual((status, lines[0]), (4 if error == "EIO" else 1, line))
        self.assertEqual(self.run_archive("--state", "state", "files")[:2], (0, [f"files/a: {EVIDENCED}"]))

    def test_a_long_record(self):
        self.put_with("a", b"")
        with open(self.folder / "records" / "files" / "a.ers", "wb") as file:
            file.truncate(COPIED + 1)
        status, lines, err = self.run_archive("files")
        self.assertEqual((status, lines), (1, ["files/a a.ers: refused F4 TooLarge"]))
        self.assertIn("an evidence record of more than", err)

    def test_names_of_hostile_form(self):
        hostile = [f"x: {EVIDENCED}", "a\nfiles/b", "c\\d", b"\xff".decode("utf-8", "surrogateescape"), "-e", "f f.ers", "f"]
        for name in hostile:
            self.put_with(name, OF_OTHER)
        status, lines, _ = self.run_archive("files")
        self.assertEqual((status, len(lines)), (1, 7))
        self.assertNotIn("evidenced 2021", " ".join(line.rpartition(": ")[2] for line in lines))
        self.assertIn("files/f\\x20f.ers: refused chain 1 stamp 1 W4 K9 ImprintDiffers", lines)

    def test_wrong_words(self):
        self.put_with("a")
        for words in (
            ["--end", "sha256"],
            ["--end", "sha256="],
            ["--end", "sha256=2035"],
            ["--end", "md5=20350101000000Z"],
            ["--end", "sha256=20350230000000Z"],
            ["--at", "2035"],
            ["--at", "20350101000000"],
            ["--at", ""],
        ):
            status, lines, err = self.run_archive(*words, "files")
            self.assertEqual((status, lines, err.count("\n")), (3, [], 1), words)
        for words in (["--whole"], ["--at", AT[1]], ENDS, ["--under", "files"]):
            status, _, err = run_tool("cmsproof-archive", "--trust", "list", *words, "files", cwd=self.folder)
            self.assertEqual(status, 3)
            self.assertIn("need --records", err)
        for folder in ("none", "list", ""):
            status, lines, err = self.run_archive("files", records=folder)
            self.assertEqual((status, lines, err.count("\n")), (4, [], 1), folder)
        status, lines, _ = self.run_archive("--log", "records/files/a.ers", "files")
        self.assertEqual((status, lines), (3, []))

    def test_what_is_signed_stays(self):
        """A record takes no line of a signature away, neither a good nor a bad one."""
        good, bare = h.signed(MADE.anna, [(MADE.clock, BEGUN)]), h.signed(MADE.anna, [])
        for name, given in (("good.p7s", good), ("bare.p7s", bare), ("cut.p7s", good[:-1])):
            self.put_with(name, MADE.record(given, [RENEWED]), given)
        self.put("files/none.p7s", good), self.put_with("text", MADE.record(FILE), FILE), self.put_with(
            "text.p7s", OF_OTHER, good
        )
        self.put("files/a"), self.put("files/a.tst", MADE.token(FILE, AGAIN, MADE.clock)), self.put("records/files/a.ers", GOOD)
        status, lines, err = self.run_archive("--stamps", "files")
        expected = [
            f"files/a: stamped {AGAIN}",
            f"files/a a.ers: {EVIDENCED}",
            "files/bare.p7s: refused signer 1 S10 NoToken",
            f"files/bare.p7s bare.p7s.ers: evidenced {RENEWED}",
            f"files/cut.p7s: evidenced {RENEWED}",
            f"files/good.p7s: accepted {BEGUN}",
            f"files/good.p7s good.p7s.ers: evidenced {RENEWED}",
            f"files/none.p7s: accepted {BEGUN}",
            "files/none.p7s none.p7s.ers: refused F16 NoRecord",
            f"files/text: {EVIDENCED}",
            "files/text.p7s: refused C5 ContentTwice",
            "files/text.p7s text.p7s.ers: refused chain 1 stamp 1 W4 K9 ImprintDiffers",
        ]
        self.assertEqual((status, lines), (1, expected), err)

    def test_stamps_that_fail(self):
        """Each has its line, also where the record of the file is good, and where it is one of a record."""
        self.put_with("a"), self.put_with("b", OF_OTHER), self.put("files/c")
        for name in "abc":
            self.put(f"files/{name}.tst", b"no stamp")
        differs, none = "refused chain 1 stamp 1 W4 K9 ImprintDiffers", "malformed M5 Overrun at 0"
        expected = [f"files/a: {EVIDENCED}", f"files/a a.tst: {none}", f"files/b b.tst: {none}", f"files/b b.ers: {differs}"]
        expected += ["files/c: refused F16 NoRecord", f"files/c c.tst: {none}"]
        self.assertEqual(self.run_archive("--stamps", "files")[:2], (2, expected))
        os.symlink("a.tst", self.folder / "files" / "a.tsr")
        self.assertIn("files/a: a.tsr, a link, is beside it, and is not read\n", self.run_archive("--stamps", "files/a")[2])
        self.put("records/files/a.ers.tst", MADE.token(OTHER, AGAIN, MADE.clock))
        expected = [f"records/files/a.ers: {EVIDENCED}", "records/files/a.ers.tst: refused K9 ImprintDiffers"]
        expected += ["records/files/a.ers.tst a.ers.tst.ers: refused F16 NoRecord", f"records/files/b.ers: {differs}"]
        self.assertEqual(self.run_archive("--stamps", "records")[:2], (1, expected))
        names = [f"records/files/a.ers{ending}" for ending in ("", ".tst")]
        self.assertEqual(self.run_archive("--stamps", *names)[:2], (1, expected[:3]))
        time.sleep(STEP)
        for lines in (expected, [], []):
            self.assertEqual(self.run_archive("--stamps", "--state", "state", "records")[:2], (1, lines))
            self.assertEqual(len(self.in_state()), len(expected))

    def test_a_record_that_changes_meanwhile(self):
        """What was asked about is what is judged."""
        self.put_with("a")
        swap = (
            "alone = checking.verdict_of\n"
            "def swapped(*words):\n"
            f"    open('records/files/a.ers', 'wb').write({OF_OTHER!r})\n"
            "    return alone(*words)\n"
            "checking.verdict_of = swapped\n"
        )
        self.assertEqual(self.by_changed(swap)[:2], (0, [f"files/a: {EVIDENCED}"]))
        self.assertEqual(self.run_archive("files")[:2], (1, ["files/a a.ers: refused chain 1 stamp 1 W4 K9 ImprintDiffers"]))
        self.put("records/files/a.ers", GOOD)
        for name, called in (("records/files/a.ers", "files/a a.ers"), ("files/a", "files/a")):
            grows = (
                "from cmsproof import octets\n"
                "copied = octets.File.copied\n"
                "def grown(self):\n"
                f"    if self.name == {name!r}:\n"
                f"        open({name!r}, 'ab').write(b'x')\n"
                "    return copied(self)\n"
                "octets.File.copied = grown\n"
            )
            failed = f"{called}: failed read {name}: it was changed while it was read"
            self.assertEqual(self.by_changed(grows)[:2], (4, [failed]))

    def test_a_record_is_read_once(self):
        self.put_with("a")
        counts = (
            "from cmsproof import octets\n"
            "copied = octets.File.copied\n"
            "def counted(self):\n"
            "    open('counted', 'a').write(self.name + '\\n')\n"
            "    return copied(self)\n"
            "octets.File.copied = counted\n"
        )
        self.assertEqual(self.by_changed(counts, "--explain", "--state", "state")[0], 0)
        read = (self.folder / "counted").read_text().split()
        self.assertEqual(sorted(read), ["files/a", "records/files/a.ers"])

    def test_a_state(self):
        self.put_several()
        time.sleep(STEP)
        words = ["--state", "state", "files"]
        self.assertEqual(self.run_archive(*words)[:2], (2, self.LINES))
        self.assertEqual(self.run_archive(*words)[:2], (2, []))
        said = self.in_state()
        self.assertEqual([f"{' '.join(filter(None, key))}: {row['line']}" for key, row in said.items()], self.LINES)
        row = said["files/a", ""]
        self.assertEqual([row["sha256"], row["content"]], [sha(GOOD).hex(), sha(FILE).hex()])
        self.assertEqual((row["authority"], row["policy"]), (sha(MADE.clock.octets).hex(), "--records"))
        # of several time-stamps the last one counts, which must be renewed
        self.assertEqual(said["files/b/c.tif", ""]["authority"], sha(MADE.second.octets).hex())
        # a record that comes, that goes, that becomes another one; and a file that comes to its record
        self.put("records/files/h.ers", GOOD), os.remove(self.folder / "records" / "files" / "a.ers")
        self.put("records/files/e.ers", GOOD), self.put("files/moved")
        time.sleep(STEP)
        expected = ["files/a: refused F16 NoRecord", *(f"files/{name}: {EVIDENCED}" for name in ("e", "h", "moved"))]
        self.assertEqual(self.run_archive(*words)[:2], (2, expected))
        self.assertEqual(self.run_archive(*words)[:2], (2, []))
        self.assertNotIn(("records/files/moved.ers", ""), self.in_state())
        # a record that was named itself has no row of its own once it is judged with its file
        self.assertEqual(self.run_archive("--state", "state", "records/files/e.ers")[1], [f"records/files/e.ers: {EVIDENCED}"])
        self.assertIn(("records/files/e.ers", ""), self.in_state())
        self.assertEqual(self.run_archive(*words)[:2], (2, []))
        self.assertNotIn(("records/files/e.ers", ""), self.in_state())
        # what was judged by other ends is judged again, and what was judged without the word too
        lines = self.run_archive("--end", "sha512=20350101000000Z", *words)[1]
        self.assertEqual(len(lines), len(said))
        self.assertEqual(self.in_state()["files/e", ""]["policy"], "--records --end sha512=20350101000000Z")
        self.assertEqual(self.run_archive("--end", "sha512=20350101000000Z", "--end", "sha512=20360101000000Z", *words)[1], [])
        _, out, _ = run_tool("cmsproof-archive", "--trust", "list", "--state", "state", "files/e", cwd=self.folder)
        self.assertEqual(out, b"files/e: refused F1 UnknownForm\n")

    def test_a_state_with_contents(self):
        """A content has the line of its record, or that it has none, and is not judged again either."""
        of = h.signed(MADE.anna, [(MADE.clock, BEGUN)])
        self.put_with("a", GOOD), self.put_with("a.p7s", MADE.record(of), of), self.put("files/b"), self.put("files/b.p7s", of)
        none, twice, words = "refused F16 NoRecord", "refused C5 ContentTwice", ["--state", "state", "files"]
        expected = [f"files/a: {EVIDENCED}", f"files/a.p7s: {twice}", f"files/a.p7s a.p7s.ers: {EVIDENCED}"]
        expected += [f"files/b: {none}", f"files/b.p7s: {twice}", f"files/b.p7s b.p7s.ers: {none}"]
        time.sleep(STEP)
        for lines in (expected, []):
            self.assertEqual(self.run_archive(*words)[:2], (1, lines))
        self.put("records/files/b.ers", GOOD), self.put("files/a", OTHER)
        differs = "refused chain 1 stamp 1 W4 K9 ImprintDiffers"
        expected = [f"files/a a.ers: {differs}", *expected[1:3], f"files/b: {EVIDENCED}"]
        self.assertEqual(self.run_archive(*words)[:2], (1, expected))

    def in_state(self):
        """The rows of `state`, by file and part."""
        _, out, _ = run_tool("cmsproof-archive", "report", "state", "--json", "-", cwd=self.folder)
        return {(row["file"], row["part"]): row for row in map(json.loads, out.splitlines())}

    def test_what_is_acknowledged(self):
        self.put_several()
        known = ["K9 files/b/d d.ers", "K10 files/e e.ers", "M6 files/f f.ers", "M7 files/g g.ers", "F16 files/h"]
        known += ["F17 records/files/b/gone.ers", "F17 records/files/moved.ers"]
        (self.folder / "known").write_text("".join(line + "\n" for line in known))
        self.assertEqual(self.run_archive("--state", "state", "--known", "known", "files")[0], 5)
        # another rule behind W4 is another refusal
        (self.folder / "other").write_text("".join(line.replace("K9 ", "K10 ") + "\n" for line in known))
        self.assertEqual(self.run_archive("--state", "state", "--known", "other", "files")[0], 1)

    def test_workers_of_other_engines(self):
        """What a worker of Dask or Spark says, in another folder."""
        self.put_several()
        here = str(self.folder)
        records = evidenced.records_in(f"{here}/records", here)._replace(here=here)
        terms = cluster.terms_for(MADE.list, records=records)._replace(folder=here)
        named = [f"files/{name}" for name in ("a", "b/d", "h")] + ["records/files/moved.ers"]
        found = cluster.judge(named, MADE.list, terms)
        said = [f"{' '.join(filter(None, [one.name, one.part]))}: {one.line}" for several in found.outcomes for one in several]
        self.assertEqual(said, [line for line in self.LINES if line.split(" ")[0].rstrip(":") in named])
        self.assertEqual(found.outcomes[2][0].notes, ("there is no evidence record records/files/h.ers",))

    def test_issuers(self):
        """An issuer lists no authority for its tokens in records: the list must have it."""
        self.put_with("a")
        (self.folder / "root.pem").write_bytes(pem(MADE.root))
        words = ["--tsa-issuer", "root.pem", "--records", "records", "files"]
        _, out, _ = run_tool("cmsproof-archive", *words, cwd=self.folder)
        self.assertEqual(out, b"files/a a.ers: refused chain 1 stamp 1 W4 K10 UnknownTsa\n")
        _, out, _ = run_tool("cmsproof-archive", "--trust", "list", *words, cwd=self.folder)
        self.assertEqual(out.decode(), f"files/a: {EVIDENCED}\n")


class Names(unittest.TestCase):
    """Which name is whose."""

    def test_places(self):
        records = evidenced.records_in("records", "")._replace(tops=("/r", "/a"), here="/a", folder="/r", archive="/a")
        for name, place in (
            ("b", "/r/b.ers"),
            ("/a/b", "/r/b.ers"),
            ("./b//c", "/r/b/c.ers"),
            ("b/../c", "/r/c.ers"),
            ("../a/b", "/r/b.ers"),
            ("/a", None),
            (".", None),
            ("..", None),
            ("../b", None),
            ("/ab", None),
            ("../../../etc/passwd", None),
            ("b.ers", "/r/b.ers.ers"),
        ):
            self.assertEqual(records.place_of(name), place, name)
        for place, name in (
            ("/r/b.ers", "/a/b"),
            ("../r/b/c.ers", "/a/b/c"),
            ("/r/b.ers.ers", "/a/b.ers"),
            ("/r/.ers", None),
            ("/r/b/.ers", None),
            ("/r/b", None),
            ("/b.ers", None),
            ("/r/../b.ers", None),
        ):
            self.assertEqual(records.file_of(place), name, place)
        # one that is as long as nobody can name a file, and one that no file has
        self.assertEqual(records.judged_with("a" * 100_000), [])
        self.assertEqual(records.judged_with("a\0"), [])
        everywhere = records._replace(tops=("/r", "/"))
        self.assertEqual(everywhere.place_of("/etc/x"), "/r/etc/x.ers")

    def test_ends(self):
        ends = [
            ("sha256", "20350101000000Z"),
            ("sha1", "20160101000000.5Z"),
            ("sha1", "20160101000000Z"),
            ("sha1", "20170101000000Z"),
        ]
        self.assertEqual(evidenced.first_ends(ends), (("sha1", "20160101000000Z"), ("sha256", "20350101000000Z")))
        said = list(evidenced.records_in(".", "", tuple(ends), AT[1], True).words())
        expected = [
            "--records",
            "--end sha1=20160101000000Z",
            "--end sha256=20350101000000Z",
            "--at 20261231000000Z",
            "--whole",
        ]
        self.assertEqual(said, expected)


if __name__ == "__main__":
    unittest.main()
