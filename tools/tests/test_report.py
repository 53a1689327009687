"""Tests of cmsproof-archive report: what it adds up, what it escapes, and the page in a browser."""
import csv
import hashlib
import io
import json
import os
import re
import tempfile
import unittest
from html.parser import HTMLParser
from pathlib import Path
from unittest import mock

from browser import CHROMIUM, Browser
from making import REAL, TOP, need_tools, run_tool

need_tools()

from cmsproof_tools import report
from cmsproof_tools.cures import known_cures
from cmsproof_tools.rows import NOTHING, Decided, Listed, Row, grounds_text
from cmsproof_tools.state import Basis, State

TRUST = (REAL / "trust.txt").read_bytes()
SIGNERS, AUTHORITIES = (
    [
        hashlib.sha256(bytes.fromhex(line.split()[-1])).hexdigest()
        for line in TRUST.decode().splitlines()
        if line.startswith(role)
    ]
    for role in ("signer ", "tsa ")
)
SHA256, SHA512 = "2.16.840.1.101.3.4.2.1", "2.16.840.1.101.3.4.2.3"
# names that mean something to a page, to a program of tables, or to a terminal
NAMES = [
    "a.p7s",
    "</script><script>document.title = 'evil'</script>",
    "<img src=x onerror=\"document.title='evil'\">",
    "=cmd|'/c calc'!A0",
    "+1",
    "-1",
    "@SUM(A1)",
    "\ttab",
    'two\nlines, "quoted"',
    os.fsdecode(b"\xff\xfe"),
    "right\u202eto left",
    "<!--",
    "\u2028",
]


def made(path, count=0):
    """A state with these names, the first one twice accepted and every other one refused, and more rows."""
    with State(str(path)) as state:
        state.judge_by(Basis(hashlib.sha256(TRUST).hexdigest(), "", "", "<b>versions</b>"), TRUST)
        both = (
            ("signer", (Listed(SIGNERS[0], b""),), SHA256),
            ("tsa", (Listed(AUTHORITIES[0], b""),), SHA512),
            ("tsa", (Listed(AUTHORITIES[1], b""),), SHA256),
        )
        decided = (Decided(1, 1, (AUTHORITIES[0],), (SIGNERS[0],)),)
        both, one = (grounds_text(found, decided) for found in (both, both[:2]))
        for number, name in enumerate([*NAMES, *(f"letters/{number:06}.p7s" for number in range(count))]):
            if number % 2 == 0:
                line, status, grounds = f"accepted {2010 + number % 7}1122071759Z", 0, both if number == 0 else one
            else:
                line, status, grounds = "refused signer 1 S10 NoToken", 1, NOTHING[5]
            octets = hashlib.sha256(os.fsencode(name)).digest()
            row = Row(name, "", 10 + number, 1700000000, "", octets, b"", status, line, grounds, 1790000000)
            state.put(name, [row])


class Texts(HTMLParser):
    """The texts of a page, and the elements that have scripts or lead elsewhere."""

    def __init__(self):
        super().__init__()
        self.scripts, self.others, self.texts, self.inside = [], [], [], ""

    def handle_starttag(self, tag, attrs):
        self.inside = tag
        if tag == "script":
            self.scripts.append(dict(attrs))
        outward = {name: value for name, value in attrs if name in ("src", "href", "action", "style") or name.startswith("on")}
        # (the rules lead to the table of the files)
        self.others += [(tag, name) for name, value in outward.items() if (tag, name, value) != ("a", "href", "#files")]

    def handle_endtag(self, tag):
        self.inside = ""

    def handle_data(self, data):
        if self.inside not in ("script", "style"):
            self.texts.append(data)


class Report(unittest.TestCase):
    """What the report says of a state with hostile names."""

    @classmethod
    def setUpClass(cls):
        temporary = tempfile.TemporaryDirectory()
        cls.addClassCleanup(temporary.cleanup)
        cls.folder = Path(temporary.name)
        made(cls.folder / "state")
        cls.page = cls.said("--html").decode()

    @classmethod
    def said(cls, way, *words):
        """What the report writes."""
        status, out, err = run_tool("cmsproof-archive", "report", "state", way, "-", *words, cwd=cls.folder)
        assert (status, err) == (0, ""), err
        return out

    def test_the_page_has_its_own_script_alone(self):
        found = Texts()
        found.feed(self.page)
        self.assertEqual(found.scripts, [{"type": "application/json", "id": "data"}, {}])
        self.assertEqual(found.others, [])
        self.assertEqual(self.page.count("</script>"), 2)
        data = json.loads(re.search(r'id="data">(.*?)</script>', self.page, re.DOTALL)[1])
        self.assertEqual(len(data["rows"]), len(NAMES))
        # a name is shown as the lines of the tool show it
        self.assertIn(NAMES[1], [row[0] for row in data["rows"]])
        self.assertIn("right\\u202eto left", [row[0] for row in data["rows"]])

    def test_what_is_added_up(self):
        found = Texts()
        found.feed(self.page)
        text = " ".join(part.strip() for part in found.texts if part.strip())
        accepted = (len(NAMES) + 1) // 2
        self.assertIn(f"{len(NAMES)} in all {accepted} accepted, ", text)
        self.assertIn(f"{len(NAMES) - accepted} refused, ", text)
        # (each accepted file has a stamp of the first authority, and all but one of no other)
        self.assertIn(f"{accepted} {accepted - 1} {AUTHORITIES[0]}", text)
        self.assertIn(f"1 0 {AUTHORITIES[1]}", text)
        self.assertIn(f"SHA-256 {accepted} 1", text)
        self.assertIn(f"SHA-512 0 {accepted}", text)
        self.assertIn("<b>versions</b>", text)
        # (cause and cure stand apart, and the number leads to the files)
        refused = len(NAMES) - accepted
        self.assertIn(f"S10 {refused} files When it refuses no unsigned attribute has a time-stamp token", text)
        self.assertIn("What helps have the signature stamped", text)
        self.assertIn(f'<a href="#files" data-code="S10">{refused} files</a>', self.page)
        # (the subject of the first authority, as `openssl x509 -subject` shows it)
        self.assertIn("CN=tsa", text)

    def test_csv(self):
        rows = list(csv.DictReader(io.StringIO(self.said("--csv").decode(), newline="")))
        self.assertEqual(len(rows), len(NAMES))
        files = {row["sha256"]: row["file"] for row in rows}
        for name in NAMES:
            cell = files[hashlib.sha256(os.fsencode(name)).hexdigest()]
            self.assertRegex(cell, r"^[A-Za-z0-9/._]", name)
            self.assertTrue(cell.isprintable())
        self.assertEqual(files[hashlib.sha256(b"+1").hexdigest()], "./+1")
        said = {row["status"]: [row[name] for name in ("line", "signer", "token", "authority", "certificate")] for row in rows}
        self.assertEqual(said["1"], ["refused signer 1 S10 NoToken", "1", "", "", ""])
        self.assertEqual(said["0"][1:], ["1", "1", AUTHORITIES[0], SIGNERS[0]])

    def test_json(self):
        rows = [json.loads(line) for line in self.said("--json").splitlines()]
        names = {os.fsdecode(bytes.fromhex(row["octets"])) if "octets" in row else row["file"] for row in rows}
        self.assertEqual(names, set(NAMES))
        rows = [json.loads(line) for line in self.said("--json", "--only", "refused").splitlines()]
        self.assertEqual({row["verdict"] for row in rows}, {"refused"})
        self.assertEqual(len(rows), len(NAMES) // 2)

    def test_a_run_that_writes_meanwhile(self):
        """All that is said is of one moment: no row is said to be by another list, or by no policy."""
        was = State.bases
        said = Row("a", "", 1, 1, "", b"", b"", 0, "accepted 20261122071759Z", NOTHING[5], 1)

        def put(name, policy):
            with State(str(state)) as other:
                other.judge_by(Basis("a" * 64, "", policy, "x"), b"")
                other.put(name, [said])

        def meanwhile(one):
            found = was(one)
            put("later.p7s", "--sha1")
            return found

        for out in ("--json", "--csv", "--html"):
            state = self.folder / f"meanwhile{out}"
            put("a", "")
            with mock.patch.object(State, "bases", meanwhile):
                self.assertEqual(report.main("report", [str(state), out, str(self.folder / "out")]), 0)
            text = (self.folder / "out").read_text()
            self.assertEqual((text.count("a" * 64), "later.p7s" in text), (1, False), out)

    # (one of the two would not be written)
    TWICE = ["state", "--csv", "one", "--csv", "-"]

    def test_words(self):
        for words in ([], ["state"], ["state", "--html"], ["state", "--only", "good", "--csv", "-"], self.TWICE):
            status, out, err = run_tool("cmsproof-archive", "report", *words, cwd=self.folder)
            self.assertEqual((status, out, len(err.splitlines())), (3, b"", 1), words)
        status, out, err = run_tool("cmsproof-archive", "report", "state", "--csv", "/dev/full", cwd=self.folder)
        self.assertEqual((status, err), (4, "cmsproof-archive: failed write /dev/full: No space left on device\n"))

    def test_nothing_is_written_over_what_is_read(self):
        before = (self.folder / "state").read_bytes()
        for words in (
            ["--html", "state"],
            ["--csv", "./state"],
            ["--json", self.folder / "state"],
            ["--csv", "x", "--json", "x"],
        ):
            status, out, err = run_tool("cmsproof-archive", "report", "state", *words, cwd=self.folder)
            self.assertEqual((status, out, len(err.splitlines())), (3, b"", 1), words)
        self.assertEqual((self.folder / "state").read_bytes(), before)
        self.assertFalse((self.folder / "x").exists())

    def test_a_part_and_a_file_of_its_name(self):
        """The refused part of one file, and an accepted file whose name is what is shown of that part."""
        with State(str(self.folder / "parts")) as state:
            state.judge_by(Basis("0" * 64, "", "", ""), b"")
            for name, part, status, line in (
                ("a.pdf", "=1+1", 1, "refused signer 1 S10 NoToken"),
                ("a.pdf =1+1", "", 0, "accepted 20251122071759Z"),
                ("b.pdf", "1", 0, "accepted 20251122071759Z"),
                ("c;;accepted;;;a", "a;=1+1", 1, "refused signer 1 S10 NoToken"),
                ("d", "", 4, "failed read d;=1+1;"),
            ):
                state.put(name, [Row(name, part, 1, 1, "", b"", b"", status, line, NOTHING[5], 1)])
        page, text = (
            run_tool("cmsproof-archive", "report", "parts", way, "-", cwd=self.folder)[1].decode()
            for way in ("--html", "--csv")
        )
        data = json.loads(re.search(r'id="data">(.*?)</script>', page, re.DOTALL)[1])
        self.assertEqual(
            [row[0] for row in data["rows"]], ["a.pdf\\x20=1+1", "a.pdf =1+1", "b.pdf 1", "c;;accepted;;;a a;=1+1", "d"]
        )
        # (a semicolon ends a cell in many countries)
        self.assertNotIn(";", text)
        rows = [(row["file"], row["part"], row["verdict"]) for row in csv.DictReader(io.StringIO(text, newline=""))]
        c = (r"c\x3b\x3baccepted\x3b\x3b\x3ba", r"a\x3b=1+1", "refused")
        found = [
            ("a.pdf", "'=1+1", "refused"),
            ("a.pdf =1+1", "", "accepted"),
            ("b.pdf", "1", "accepted"),
            c,
            ("d", "", "failed"),
        ]
        self.assertEqual(rows, found)

    def test_parts_that_look_alike(self):
        """A part is told apart where a row's file has a longer name that is a beginning of what is shown of it, up to a space."""
        rows = (
            ("a", "b c", "a b c"),
            ("b", "c d e", r"b\x20c d e"),
            ("b c", "d e", "b c d e"),
            ("m", "mail 1, part 1", r"m\x20mail 1, part 1"),
            ("m", "mail 2, part 1", "m mail 2, part 1"),
            ("m mail 1,", "part 1", r"m mail 1,\x20part 1"),
            ("m mail 1, oz", "", "m mail 1, oz"),
            ("m mail 1, p", "", "m mail 1, p"),
            ("m mail 1, part", "", "m mail 1, part"),
            ("m mail 2, pa", "", "m mail 2, pa"),
            ("m mail 2, par", "", "m mail 2, par"),
        )
        with State(str(self.folder / "alike")) as state:
            state.judge_by(Basis("0" * 64, "", "", ""), b"")
            for name in dict.fromkeys(name for name, _, _ in rows):
                parts = [part for other, part, _ in rows if other == name]
                line = "refused signer 1 S10 NoToken"
                state.put(name, [Row(name, part, 1, 1, "", b"", b"", 1, line, NOTHING[5], 1) for part in parts])
        page = run_tool("cmsproof-archive", "report", "alike", "--html", "-", cwd=self.folder)[1].decode()
        data = json.loads(re.search(r'id="data">(.*?)</script>', page, re.DOTALL)[1])
        self.assertEqual([row[0] for row in data["rows"]], [label for _, _, label in rows])

    def test_until_when_certificates_last(self):
        """The end is that of the lists by which rows were judged, in the certificate's role, and the earliest of those that differ."""
        lines = [line for line in TRUST.decode().splitlines() if line.startswith(("signer ", "tsa "))]
        signer, tsa = (next(line.split()[-1] for line in lines if line.startswith(role)) for role in ("signer", "tsa"))

        def trusted(*entries):
            return "\n".join(["cmsproof trust 2", *entries, ""]).encode()

        long, short = f"tsa - 20270101000000Z {tsa}", f"tsa - 20261201000000Z {tsa}"
        known = "# known until 20261201000000Z, serves until 20270601000000Z"
        # (the first certificates of data/real end in 2126)
        table = [
            ([trusted(long)], "2027-01-01"),
            ([trusted(short, long)], "2027-01-01"),
            ([trusted(long), trusted(short)], "2026-12-01"),
            ([trusted(short), trusted(long)], "2026-12-01"),
            ([trusted(long, f"signer - 20261126000000Z {tsa}")], "2027-01-01"),
            # until when it serves counts, where that is said of this entry
            ([trusted(f"{known}\n{short}")], "2027-06-01"),
            ([trusted(f"{known}\n{long}")], "2027-01-01"),
            ([trusted(f"{known}\n{short}"), trusted(long)], "2027-01-01"),
            ([trusted(long), trusted(f"signer - - {signer}")], "2027-01-01"),
        ]
        for number, (lists, day) in enumerate(table):
            path = self.folder / f"until{number}"
            grounds = grounds_text((("tsa", (Listed(AUTHORITIES[0], b""),), SHA256),), (Decided(1, 1, (AUTHORITIES[0],), ()),))
            with State(str(path)) as state:
                state.judge_by(Basis("0" * 64, "", "", "before"), trusted(f"tsa - 20260101000000Z {tsa}"))
                for place, text in enumerate(lists):
                    state.judge_by(Basis(hashlib.sha256(text).hexdigest(), "", "", ""), text)
                    name = f"{place}.p7s"
                    state.put(name, [Row(name, "", 1, 1, "", b"s" * 32, b"", 0, "accepted 20251122071759Z", grounds, 1)])
                    state.commit()
            status, out, err = run_tool("cmsproof-archive", "report", path, "--html", "-")
            self.assertEqual((status, err), (0, ""))
            self.assertIn(f'<td class="day" data-head="Lasts until">{day}</td>', out.decode(), number)
            self.assertEqual("Not all by the same list" in out.decode(), len(lists) > 1)

    def test_a_file_called_report_is_one(self):
        for name in ("report", "evidence", "due", "stamp"):
            (self.folder / name).write_bytes((REAL / "rsa_attached_ts.p7s").read_bytes())
            for words in (
                ["--trust", REAL / "trust.txt", name],
                [name, "--trust", REAL / "trust.txt"],
                [name, f"--trust={REAL / 'trust.txt'}"],
            ):
                found = run_tool("cmsproof-archive", *words, cwd=self.folder)
                self.assertEqual(found, (0, f"{name}: accepted 20261122071759Z\n".encode(), ""))

    def test_each_code_has_a_cure(self):
        known = known_cures()
        codes = set(re.findall(r"^\| ([CKMS][0-9]+) ", (TOP / "docs" / "REFUSALS.md").read_text(), re.MULTILINE))
        self.assertGreater(len(codes), 30)
        self.assertEqual(codes - set(known), set())
        self.assertIn("have the signature stamped", known["S10"].cure)
        self.assertIn("the message-digest is not the content's digest", known["S6"].when)
        self.assertEqual((known["S4"].cure, known["K13"].section), (known["S2"].cure, "6"))


@unittest.skipUnless(CHROMIUM, "there is no chromium")
class InABrowser(unittest.TestCase):
    """The page in Chromium: sorting and searching by the mouse and the keyboard, hostile names, print, a hundred thousand rows."""

    @classmethod
    def setUpClass(cls):
        temporary = tempfile.TemporaryDirectory()
        cls.addClassCleanup(temporary.cleanup)
        cls.folder = Path(temporary.name)

    def opened(self, browser, count):
        """Opens the page of a state with so many rows more, and gives the seconds that it took."""
        path = self.folder / f"state{count}"
        made(path, count)
        run_tool("cmsproof-archive", "report", path, "--html", f"{path}.html")
        return browser.open(f"{path}.html")

    def column(self, browser, number):
        """The texts of a column."""
        return browser.value(
            f"[...document.querySelectorAll('#rows tr td:nth-child({number})')].map(cell => cell.textContent).filter(Boolean)"
        )

    def test_sorting_searching_and_names(self):
        with Browser("--window-size=1300,900") as browser:
            self.opened(browser, 0)
            heads = "document.querySelectorAll('#table th button')"
            browser.click(f"{heads}[1]")
            lines = self.column(browser, 2)
            self.assertEqual((len(lines), lines), (len(NAMES), sorted(lines)))
            browser.click(f"{heads}[1]")
            self.assertEqual(self.column(browser, 2), sorted(lines, reverse=True))
            self.assertEqual(browser.value("document.querySelectorAll('#table th')[1].getAttribute('aria-sort')"), "descending")
            browser.click("document.getElementById('search')")
            browser.type("</SCRIPT")
            self.assertEqual(self.column(browser, 1), [NAMES[1]])
            self.assertEqual(browser.value("document.getElementById('count').textContent"), f"1 of {len(NAMES)} rows")
            self.assertEqual(browser.value("document.title"), "Signed files: what was found")
            self.assertEqual(browser.value("document.querySelectorAll('script, img').length"), 2)
            faults = [event for event in browser.events if event.get("method") in ("Log.entryAdded", "Runtime.exceptionThrown")]
            asked = [event for event in browser.events if event.get("method") == "Network.requestWillBeSent"]
            self.assertEqual(faults, [])
            self.assertEqual({event["params"]["request"]["url"].partition(":")[0] for event in asked}, {"file"})
            browser.printed(self.folder / "page.pdf")
            self.assertEqual((self.folder / "page.pdf").read_bytes()[:5], b"%PDF-")
            for scheme, dark in (("light", False), ("dark", True)):
                browser.ask("Emulation.setEmulatedMedia", features=[{"name": "prefers-color-scheme", "value": scheme}])
                colour = browser.value("getComputedStyle(document.body).backgroundColor")
                self.assertEqual(sum(map(int, re.findall(r"\d+", colour))) < 200, dark)

    def test_on_a_phone(self):
        """390 pixels: nothing is wider than the page but what scrolls by itself, no text is small or cut, and a rule leads to its files."""
        with Browser("--window-size=390,844") as browser:
            browser.ask("Emulation.setDeviceMetricsOverride", width=390, height=844, deviceScaleFactor=2, mobile=True)
            self.opened(browser, 200)
            wide = "[...document.querySelectorAll('main *:not(.scroll *)')].filter(one => one.getBoundingClientRect().right > 390).length"
            shown = "[...document.querySelectorAll('p, td, dd, dt, h2, h3, th, label, svg text')].filter(one => one.offsetParent !== null)"
            small = f"{shown}.filter(one => parseFloat(getComputedStyle(one).fontSize) < 12).length"
            self.assertEqual(browser.value("[innerWidth, document.documentElement.scrollWidth].join()"), "390,390")
            self.assertEqual((browser.value(wide), browser.value(small)), (0, 0))
            browser.click("document.querySelector('a[data-code]')")
            self.assertEqual(browser.value("document.getElementById('code').value"), "S10")
            self.assertEqual({line.split()[0] for line in self.column(browser, 2)}, {"refused"})
            # (a row has its height, by which the script scrolls; what is cut of it is shown whole once it is touched)
            rows = "[...document.querySelectorAll('#rows tr:not(.space)')]"
            self.assertEqual(browser.value(f"new Set({rows}.map(row => row.getBoundingClientRect().height)).size"), 1)
            browser.value(f"{rows}[2].click()")
            self.assertEqual(
                browser.value("document.getElementById('whole').textContent.split(' \u2014 ')[0]"),
                browser.value(f"{rows}[2].querySelector('.name').textContent"),
            )

    def test_a_hundred_thousand_rows(self):
        with Browser("--window-size=1300,900") as browser:
            took = self.opened(browser, 100_000 - len(NAMES))
            self.assertEqual(browser.value("document.getElementById('count').textContent"), "100000 of 100000 rows")
            self.assertLess(browser.value("document.querySelectorAll('#rows tr').length"), 200)
            browser.value("document.getElementById('window').scrollTop = 1e9")
            browser.value("new Promise(done => requestAnimationFrame(() => setTimeout(() => done(1), 50)))")
            self.assertEqual(
                self.column(browser, 1)[-1],
                browser.value("JSON.parse(document.getElementById('data').textContent).rows.at(-1)[0]"),
            )
            # (three seconds on a machine that does nothing else)
            self.assertLess(took, 3 * max(1, os.getloadavg()[0] / len(os.sched_getaffinity(0))) + 2)


if __name__ == "__main__":
    unittest.main()
