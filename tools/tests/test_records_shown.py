"""Tests of what cmsproof-archive makes of evidence records (RFC 4998) for a reader: explanations, the picture on the page, and bundles."""
import io
import json
import os
import re
import subprocess
import unittest
import zipfile
from unittest import mock

from making import INSTALLED, PROGRAM, TOP, folder_of, need_tools, run_tool
from recorded_world import AT, BEGUN, DATA, ENDS, EVIDENCED, FILE, GOOD, MADE, OF_OTHER, OTHER, ROWS, STRANGE, TWICE
from recorded_world import WithFolder, knows_records, record_of

need_tools()

import cmsproof  # noqa: E402
from cmsproof_tools import bundles, chains, cures, page, rows, state, timelines  # noqa: E402
from cmsproof_tools.deciding import grounds_of_record  # noqa: E402
from cmsproof_tools.explaining_records import explanation  # noqa: E402
from cmsproof_tools.lines import parts_of  # noqa: E402
from cmsproof_tools.page import known_in  # noqa: E402
from cmsproof_tools.state import basis_of, grounds_in  # noqa: E402
from samples import hierarchy as h  # noqa: E402
from samples.building import sha  # noqa: E402


class Explained(unittest.TestCase):
    """Of each refusal the cause and the cure."""

    def test_each(self):
        trust, seen = (DATA / "trust.txt").read_bytes(), set()
        for record, _, options, line in ROWS:
            if line.startswith("accepted "):
                continue
            parts = parts_of(2 if line.startswith("malformed") else 1, line)
            at = options.partition("--at ")[2][:15]
            text = explanation(record_of(record), trust, parts, line, at)
            self.assertRegex(text, r"^Cause: .+\. Cure: .+ \(REFUSALS\.md, section 12\)\.", line)
            self.assertNotRegex(text, "[\n`|]", line)
            seen.add(parts["code"])
            if "chain" in parts:
                self.assertRegex(text, r"It is about (?:the first time-stamp|time-stamp [0-9]+ of chain [0-9]+), of [0-9]{14}")
        self.assertEqual(seen, {"M7", "V2", *(f"W{number}" for number in range(1, 9))})
        self.assertEqual(set(cures.OF_RECORDS), {f"K{number}" for number in range(1, 15)})

    def test_what_is_said_of_some(self):
        trust = (DATA / "trust.txt").read_bytes()

        def said(name, line, at=""):
            return explanation(record_of(name), trust, parts_of(1, line), line, at)

        lapsed = said("authority_ended_before_the_renewal", "refused chain 1 stamp 1 W7 Lapsed", AT[1])
        entry = "line 3 of the list, subject CN=tsa_rsa,O=ERS test, valid 20080101000000Z to 20180101000000Z, trusted - to -"
        self.assertIn(f"It names {entry}.", lapsed)
        self.assertIn("It had to hold until 2019", lapsed)
        lost = said("renewal_of_other_octets", "refused chain 1 stamp 2 W3 NotCovered")
        self.assertIn("It must cover the time-stamp before it.", lost)
        other = said("bouncy_castle_renewed_five_times", "refused chain 2 stamp 1 W3 NotCovered")
        self.assertIn("It must cover the document together with all chains before it.", other)
        weak = said("bouncy_castle_sha1_renewed_in_2019", "refused chain 1 stamp 1 W6 Weak")
        self.assertIn("Its use ends at 2019", weak)
        unknown = said("authority_in_no_list", "refused chain 1 stamp 1 W4 K10 UnknownTsa")
        self.assertIn("It names no tsa of the list (serial ", unknown)
        self.assertIn("in another way than by this file, and only then list it as tsa", unknown)
        # what anybody can write: what holds of the code is said
        for octets in (b"", b"\x30", GOOD[:-1], b"\x30\x80" * 1000):
            text = explanation(
                octets, trust, parts_of(1, "refused chain 7 stamp 9 W7 Lapsed"), "refused chain 7 stamp 9 W7 Lapsed", ""
            )
            self.assertTrue(text.startswith("Cause: its authority's certificate"), text)

    def test_lines(self):
        folder = folder_of(self)
        (folder / "list").write_bytes(MADE.list), (folder / "a").write_bytes(FILE), (folder / "b").write_bytes(FILE)
        (folder / "r").mkdir(), (folder / "r" / "a.ers").write_bytes(OF_OTHER)
        words = ["--trust", "list", "--records", "r", "--explain", "a", "b"]
        _, out, _ = run_tool("cmsproof-archive", *words, cwd=folder)
        lines = out.decode().splitlines()
        self.assertEqual(lines[::2], ["a a.ers: refused chain 1 stamp 1 W4 K9 ImprintDiffers", "b: refused F16 NoRecord"])
        self.assertIn("the document is another one than the record's", lines[1])
        self.assertIn("no regular file is in the place of this file's evidence record", lines[3])


class Drawn(WithFolder):
    """The report, and the picture of a record."""

    trust = (DATA / "trust.txt").read_bytes()

    def test_the_page(self):
        for name in ("renewed_five_times", "sha1_renewed_in_2013", "one_document"):
            record = record_of(f"bouncy_castle_{name}")
            self.put_with(name, record, (DATA / "files" / "document_0").read_bytes())
        self.put_with(
            "one_document_again", record_of("bouncy_castle_one_document"), (DATA / "files" / "document_0").read_bytes()
        )
        status, _, err = self.run_archive(*ENDS, *AT, "--state", "state", "files")
        self.assertEqual(status, 0, err)
        _, out, _ = run_tool("cmsproof-archive", "report", "state", "--html", "-", cwd=self.folder)
        page = out.decode()
        self.assertIn("<strong>4</strong>evidenced, 100.0 %", page)
        titles = re.findall(r"<h3>(files/[^<]*) <small>([^<]*)</small></h3>", page)
        self.assertEqual(
            titles,
            [
                ("files/one_document and 1 more: existed by 2015-03-01", "renew before 2035-01-01"),
                ("files/renewed_five_times: existed by 2010-05-01", "renew before 2035-01-01"),
                ("files/sha1_renewed_in_2013: existed by 2009-01-01", "renew before 2035-01-01"),
            ],
        )
        drawn = re.findall(r"<svg [^>]*><title>(files/[^<]*)</title>(.*?)</svg>", page)
        self.assertEqual([title for title, _ in drawn], [title for title, _ in titles])
        self.assertEqual([inside.count('class="use"') for _, inside in drawn], [1, 6, 2])
        self.assertEqual([inside.count('class="next"') for _, inside in drawn], [0, 5, 1])
        self.assertIn(">1. 2009-01-01, sha1<", drawn[2][1])
        self.assertIn(">until 2016-01-01<", drawn[2][1])
        self.assertIn("stamps the document and all before it anew", drawn[2][1])
        self.assertIn(
            "is asked to serve until 2026-12-31; its authority lasts until 2045-01-01; its algorithms hold until", page
        )
        # the only script is the page's own
        self.assertEqual(page.count("<script"), 2)

    def test_until_when_certificates_serve(self):
        """The line of time goes by that, and the check by what is known of revocations."""
        both = "# known until 20261220000000Z, serves until 20350301000000Z\ntsa - 20261220000000Z"
        (self.folder / "list").write_bytes(MADE.list.replace(b"tsa - -", both.encode()))
        self.put_with("a")
        self.assertEqual(self.run_archive("--state", "state", "files")[:2], (0, [f"files/a: {EVIDENCED}"]))
        _, out, _ = run_tool("cmsproof-archive", "report", "state", "--html", "-", cwd=self.folder)
        text = out.decode()
        self.assertIn("<small>renew before 2035-03-01</small>", text)
        self.assertIn("its authority lasts until 2035-03-01; renew it before 2035-03-01.", text)
        self.assertNotIn("2026-12-20", text)
        self.assertIn("also where it is known for a shorter time that nobody revoked them", text)
        status, lines, _ = self.run_archive("--at", "20261220000001Z", "files")
        self.assertEqual((status, lines), (1, ["files/a a.ers: refused chain 1 stamp 1 W7 Lapsed"]))

    def test_many_time_stamps(self):
        """The last one of a record is the last one of its picture, however many there are."""
        (self.folder / "list").write_bytes(MADE.list)
        self.put_with("a", MADE.record(times=[f"{2021 + at // 12}{1 + at % 12:02}01100000Z" for at in range(70)]))
        self.assertEqual(self.run_archive("--state", "state", "files")[:2], (0, ["files/a: evidenced 20210101100000Z"]))
        _, out, _ = run_tool("cmsproof-archive", "report", "state", "--html", "-", cwd=self.folder)
        text = out.decode()
        self.assertIn("The last time-stamp, of 2026-10-01:", text)
        drawn = [text.count(f'class="{kind}"') for kind in ("use", "next")]
        self.assertEqual(drawn, [timelines.MOST_ROWS, timelines.MOST_ROWS - 2])
        self.assertEqual(re.findall(r">([0-9]+)\. 20", text), [str(at) for at in (1, *range(8, 71))])

    def test_what_is_renewed_first(self):
        """Of however many records, each with a time of its own."""

        def row(name, at, by):
            text = rows.grounds_text((), (), (rows.Linked(1, f"20210501100000.{at:05}1Z", "", "", (by,)),))
            return rows.Row(name, "", 0, 0, "", b"", b"", 0, EVIDENCED, text, 0)

        tally, ends = page.Tally(), {"a" * 64: "20400101000000Z", "b" * 64: "20300101000000Z", "c" * 64: "20300101000000.5Z"}
        for at in range(page.MOST_KINDS + 1):
            tally.add(row(f"a{at:05}", at, "a" * 64), 1, None)
        for name in ("c", "b"):
            tally.add(row(name, 0, name * 64), 1, None)
        tally.add(row("b2", 0, "b" * 64), 1, None), tally.add(row("d", 0, "b" * 64)._replace(grounds=rows.NOTHING[5]), 1, None)
        known = {("tsa", name): page.Known(name, until) for name, until in ends.items()}
        said = page.renewals(tally, page.renewals_in(tally, known, {}), {})
        titles = [title.partition(":")[0] for title in re.findall(r"<h3>([^<]*)", said)]
        self.assertEqual(titles, ["b and 1 more", "c", *(f"a{at:05}" for at in range(page.MOST_PICTURES - 2))])
        self.assertIn(f"<p>And {page.MOST_KINDS + 4 - page.MOST_PICTURES:,} files more. Of 1 of them the time-stamps", said)

    def test_where_moments_are(self):
        linked = [
            rows.Linked(1, "20050101000000Z", "1.3.14.3.2.26", "", ("a",)),
            rows.Linked(2, "20150101000000Z", "2.999", "", ()),
        ]
        policy = timelines.policy_of(
            "--sha1 --records --end sha1=20160101000000Z --end sha1=20120101000000Z --at 20260101000000Z"
        )
        self.assertEqual(policy, ({"sha1": "20120101000000Z"}, "20260101000000Z"))
        first, last = timelines.uses_of(tuple(linked), policy, {"a": ("CN=<b>", "20180101000000Z")})
        self.assertEqual((first.until, first.due, first.algorithm), ("20150101000000Z", "20120101000000Z", "sha1"))
        self.assertEqual((last.until, last.due, last.algorithm), ("20260101000000Z", "", "2.999"))
        scale = timelines.Scale([first, last])
        self.assertEqual((scale.first, scale.last), (2005, 2027))
        self.assertEqual((scale.at("20050101000000Z"), scale.at("20270101000000Z")), (timelines.LEFT, timelines.WIDTH))
        self.assertEqual(scale.at("99991231235959Z"), timelines.WIDTH)
        self.assertLess(scale.at("20160101000000Z"), scale.at("20160201000000Z"))
        drawn = timelines.timeline([first, last], "<i>")
        self.assertIn("CN=&lt;b&gt;", drawn)
        self.assertNotIn("<i>", drawn)
        self.assertEqual(drawn.count("<rect"), 3)
        self.assertIn("no end of it is known", timelines.last_text([first, last]))
        self.assertEqual(timelines.uses_of(tuple(linked), policy, {"a": ("CN=x", "<b>")})[0].lasts, "")
        # of several authorities that it may be, the one that ends first
        several = linked[0]._replace(authorities=("c", "b", "d", "a"))
        known = {"a": ("CN=a", "20180101000000.5Z"), "b": ("CN=b", "20180101000000Z"), "c": ("CN=c", "20190101000000Z")}
        self.assertEqual(timelines.uses_of((several,), policy, known)[0][4:6], known["b"])
        # a state that somebody wrote can have them in any order
        for uses in ([last, first], [last._replace(until="20050101000000Z")]):
            self.assertIn("<rect", timelines.timeline(uses, ""))

    def test_the_picture_of_the_guide(self):
        """That in docs/ is what the tool draws of the record in the guide, by the words there."""
        guide = (TOP / "docs" / "GUIDE.md").read_text()
        words = re.search(r"--records records (--end \S+ --at \S+) --state maps.state", guide)[1]
        record, trust = record_of("bouncy_castle_renewed_five_times"), cmsproof.TrustList(self.trust)
        asked = cmsproof.evidence.questions(record, trust=trust).asked
        linked = grounds_in(grounds_of_record(record, asked, rows.Noting(rows.keys_of(self.trust), b"", {}))).chains
        places = {("tsa", name) for link in linked for name in link.authorities}
        known = {name: (about.subject, about.until) for (_, name), about in known_in(self.trust, places).items()}
        uses = timelines.uses_of(linked, timelines.policy_of(f"--records {words}"), known)
        drawn = timelines.timeline(uses, "").partition("</title>")[2]
        self.assertTrue((TOP / "docs" / "records.svg").read_text().rstrip().endswith(drawn))

    def test_what_a_state_takes(self):
        chain = [1, "20150101000000Z", "2.999", "", []]
        for wrong in (
            [[0, *chain[1:]]],
            [[1, "2015", *chain[2:]]],
            [[1, "20150101000000Z", "<b>", "", []]],
            [[1, "20150101000000Z", "2.999", "x", []]],
            [[1, "20150101000000Z", "2.999", "", ["x"]]],
            [chain[:4]],
            [None],
            {"a": 1},
        ):
            text = json.dumps({"holds": [], "decided": [], "chains": wrong})
            self.assertRaises((ValueError, TypeError), grounds_in, text)
        self.assertEqual(len(grounds_in(json.dumps({"holds": [], "decided": [], "chains": [chain]})).chains), 1)
        basis = ["a" * 64, "", "--sha1 --records --end sha512-224=20350101000000.5Z --at 20350101000000Z --whole", "x"]
        self.assertEqual(basis_of(json.dumps(basis)).policy, basis[2])
        for wrong in ("--records --at 9Z", "--records --end sha1=1.2Z", "--records --end sha1=2035Z", "--at 20350101000000.Z"):
            self.assertRaises(ValueError, basis_of, json.dumps([*basis[:2], wrong, "x"]))
        # however many grounds there are, each row has its own
        texts = [rows.grounds_text((), (), (rows.Linked(1, f"2015010100000{at}Z", "", "", ()),)) for at in range(7)]
        with mock.patch.object(state, "MOST_GROUNDS", 3), state.State(str(self.folder / "state")) as kept:
            kept.judge_by(state.Basis("a" * 64, "", "", "x"), b"")
            for at, text in enumerate(texts + texts):
                kept.put_values(f"a{at:02}", [("", 0, 0, "", b"", b"", 0, EVIDENCED, text, 0)])
            kept.commit()
            self.assertEqual([row.grounds for row, _ in kept.rows()], texts + texts)
            self.assertLessEqual(len(kept.grounds), 3)
        links = chains.links_of(record_of("bouncy_castle_renewed_five_times"))
        self.assertEqual([(link.chain, link.number) for link in links], [(1, 1), (1, 2), (1, 3), (1, 4), (2, 1), (2, 2)])
        self.assertEqual(chains.end_of(links, 3, "x"), links[4].time)
        self.assertEqual([chains.end_of(links, 5, at) for at in ("", "x")], [links[5].time, "x"])


class Bundles(WithFolder):
    """`cmsproof-archive evidence --record`."""

    def make(self, *words, name="a", to="a.zip"):
        """Makes a bundle."""
        words = ["--trust", "list", "--record", f"records/files/{name}.ers", f"files/{name}", "--to", to, *words]
        status, out, err = run_tool("cmsproof-archive", "evidence", *words, cwd=self.folder)
        return status, out.decode(), err

    def verify(self, *words, to="a.zip"):
        """What is said of a bundle."""
        status, out, err = run_tool("cmsproof-archive", "evidence", "--verify", to, *words, cwd=self.folder)
        return status, out.decode(), err

    def test_what_is_in_it(self):
        self.put_with("a", TWICE), self.put_with("b", OF_OTHER)
        words = [*ENDS, *AT]
        self.assertEqual(self.make(*words)[:2], (0, f"files/a: {EVIDENCED}\n"))
        members = self.members("a.zip")
        manifest = json.loads(members["MANIFEST.json"])
        self.assertEqual((manifest["file"], manifest["record"]), ("files/a", "records/files/a.ers"))
        self.assertEqual((manifest["sha256"], manifest["line"]), (sha(TWICE).hex(), f"accepted {BEGUN}"))
        self.assertEqual((members["record.ers"], members["content.bin"], members["trust.txt"]), (TWICE, FILE, MADE.list))
        command = f"evidence check --trust trust.txt --answers vouched.txt {' '.join(words)} record.ers content.bin"
        self.assertIn(command, members["VERIFY.txt"].decode())
        same = f"a.zip: same: {EVIDENCED}"
        self.assertEqual(self.verify("--trust", "list", *words)[:2], (0, same + "\n"))
        self.assertEqual(self.verify("--list-of-the-bundle")[:2], (0, f"{same}, under the trust list of its maker\n"))
        # the words by which it was judged are the user's own, or the maker's if he goes by those
        for more in ([], AT, ENDS, [*words, "--whole"]):
            status, out, _ = self.verify("--trust", "list", *more)
            self.assertEqual((status, out.split(": ")[1]), (1, "differs"), more)
        self.assertIn(f"its maker says {' '.join(words)}, and you did not\n", self.verify("--list-of-the-bundle")[2])
        for more in (words, ENDS, AT, [*words, "--whole"], ["--end", "sha256=20100101000000Z"]):
            status, out, err = self.verify("--list-of-the-bundle", *more)
            self.assertEqual((status, out.split(": ")[1]), (0, "same") if more is words else (1, "differs"), more)
            self.assertNotIn("its maker says", err)
        # without the file in it
        self.assertEqual(self.make("--without-content", to="b.zip")[0], 0)
        self.assertNotIn("content.bin", self.members("b.zip"))
        self.assertEqual(self.verify("--trust", "list", to="b.zip")[0], 3)
        words = ["--trust", "list", "--content"]
        self.assertEqual(self.verify(*words, "files/a", to="b.zip")[:2], (0, f"b.zip: same: {EVIDENCED}\n"))
        self.assertEqual(self.verify(*words, "records/files/a.ers", to="b.zip")[0], 2)
        # one that is refused has a bundle too
        self.assertEqual(self.make(name="b", to="c.zip")[:2], (1, "files/b: refused chain 1 stamp 1 W4 K9 ImprintDiffers\n"))
        self.assertEqual(self.verify("--trust", "list", to="c.zip")[0], 1)

    def test_words_that_do_not_go_with_it(self):
        """Who says until when algorithms hold is not told the verdict of a signed file, which says nothing of that."""
        self.put("files/a.p7s", h.signed(MADE.anna, [(MADE.clock, BEGUN)]))
        words = ["--trust", "list", "files/a.p7s", "--to", "a.zip"]
        self.assertEqual(run_tool("cmsproof-archive", "evidence", *words, cwd=self.folder)[0], 0)
        for trust in (["--trust", "list"], ["--list-of-the-bundle"]):
            self.assertEqual(self.verify(*trust)[0], 0)
            for more in (["--whole"], AT, ENDS):
                status, out, _ = self.verify(*trust, *more)
                self.assertEqual((status, out.split(": ")[1]), (1, "differs"), more)

    def members(self, name):
        """The members of a zip file."""
        with zipfile.ZipFile(self.folder / name) as read:
            return {member: read.read(member) for member in read.namelist()}

    def test_what_is_changed(self):
        """Each member in turn, with a manifest that has its sum; and what a manifest says."""
        self.put_with("a", TWICE), self.make()
        members = self.members("a.zip")

        def again(**changed):
            kept = {**members, **changed}
            manifest = json.loads(kept.pop("MANIFEST.json"))
            manifest["members"] = {name: bundles.summed(kept[name]) for name in bundles.MEMBERS if name in kept}
            if "content.bin" in changed:
                manifest["content"].update(bundles.summed(kept["content.bin"]))
            whole = io.BytesIO()
            bundles.put_members(whole, {**kept, "MANIFEST.json": (json.dumps(manifest, indent=1) + "\n").encode()})
            (self.folder / "d.zip").write_bytes(whole.getvalue())
            return self.verify("--list-of-the-bundle", to="d.zip")[:2]

        def with_said(**said):
            return again(**{"MANIFEST.json": json.dumps({**json.loads(members["MANIFEST.json"]), **said}).encode()})

        self.assertEqual(again()[0], 0)
        for name, octets in (
            ("record.ers", GOOD),
            ("record.ers", STRANGE),
            ("content.bin", OTHER),
            ("trust.txt", b"cmsproof trust 2\n"),
            ("questions.txt", b"cmsproof questions 1\n"),
            ("answers.txt", b"cmsproof answers 1\n"),
            ("verdict.txt", b"accepted 19990101000000Z\n"),
            ("VERIFY.txt", b"believe it\n"),
        ):
            status, out = again(**{name: octets})
            self.assertEqual((status, out.split(": ")[1]), (1, "differs"), name)
        for said in ({"line": "accepted 19990101000000Z"}, {"status": 1}, {"whole": True}, {"at": AT[1]}):
            self.assertEqual(with_said(**said)[0], 1, said)
        for said in (
            {"ends": [["md5", AT[1]]]},
            {"ends": [["sha1", "2016"]]},
            {"ends": ["sha1"]},
            {"ends": [["sha1", AT[1]], ["sha1", AT[1]]]},
            {"at": "2016"},
            {"content": None},
            {"part": ""},
            {"form": "cmsproof evidence 2"},
        ):
            self.assertEqual(with_said(**said)[0], 2, said)
        both = {**members, "signed.p7s": b""}
        self.assertEqual(again(**{name: both[name] for name in both})[0], 2)

    def test_wrong_words(self):
        self.put_with("a")
        for words in (["--content", "list"], ["--sha1"], ["--part", ""], ["--end", "sha1"], ["--at", "x"]):
            self.assertEqual(self.make(*words)[0], 3, words)
        status, _, _ = run_tool("cmsproof-archive", "evidence", "--trust", "list", "files/a", "--to", "b", *AT, cwd=self.folder)
        self.assertEqual(status, 3)
        self.assertEqual(self.make(to="records/files/a.ers")[0], 3)
        self.assertEqual(self.make(name="none")[0], 4)
        self.put("records/files/a.ers", b"no record")
        self.assertEqual(self.make()[0], 2)

    @unittest.skipUnless(knows_records(), "the program does not check evidence records")
    def test_the_commands_in_it(self):
        """They print the line of the bundle."""
        self.put_with("a", TWICE), self.make(*ENDS, *AT)
        with zipfile.ZipFile(self.folder / "a.zip") as read:
            read.extractall(self.folder / "out")
        commands = re.findall(r"^    (cmsproof.*)$", (self.folder / "out" / "VERIFY.txt").read_text(), re.MULTILINE)[:3]
        path = os.pathsep.join([str(PROGRAM.parent), str(INSTALLED), os.environ["PATH"]])
        done = subprocess.run(
            ["sh", "-ec", "\n".join(commands)], cwd=self.folder / "out", env={**os.environ, "PATH": path}, capture_output=True
        )
        self.assertEqual(done.stdout, (self.folder / "out" / "verdict.txt").read_bytes(), done.stderr)
        for asked, kept in (("asked.txt", "questions.txt"), ("vouched.txt", "answers.txt")):
            self.assertEqual((self.folder / "out" / asked).read_bytes(), (self.folder / "out" / kept).read_bytes())


if __name__ == "__main__":
    unittest.main()
