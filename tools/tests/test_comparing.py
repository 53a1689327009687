"""Tests of what cmsproof-trust does with lists: a table, what tells two apart, and several in one."""
import tempfile
import time
import unittest
from pathlib import Path
from unittest import mock

from making import REAL, need_tools, run_tool

need_tools()
from samples import hierarchy as h

from cmsproof_tools import comparing_lists

FIRST, LAST = "20200101000000Z", "20400101000000Z"


class Lists(unittest.TestCase):
    """Lists of Anna and Bob, and of Clock."""

    @classmethod
    def setUpClass(cls):
        folder = tempfile.TemporaryDirectory()
        cls.addClassCleanup(folder.cleanup)
        cls.folder = Path(folder.name)
        cls.anna, cls.bob, cls.clock = (h.issue(name) for name in ("Anna", "Bob", "Clock"))

    def list(self, name, *rows, version=2):
        """The path of a list of rows: a role, two moments, a certificate, and comments above it."""
        lines = [f"cmsproof trust {version}"]
        for role, first, last, who, *comments in rows:
            lines += ["", *comments, " ".join([role, first, last, who.octets.hex()])]
        path = self.folder / name
        path.write_text("\n".join(lines) + "\n")
        return path

    def said(self, *words):
        """The status of the tool and its lines."""
        status, out, err = run_tool("cmsproof-trust", *words)
        return status, out.decode().splitlines(), err

    def entries(self, lines):
        """The entries among lines of a list, each with the name of its certificate."""
        names = {who.octets.hex(): name for name, who in (("anna", self.anna), ("bob", self.bob), ("clock", self.clock))}
        found = [line.split(" ") for line in lines[1:] if line and not line.startswith("#")]
        return [(role, first, last, names[octets]) for role, first, last, octets in found]

    def test_a_table(self):
        path = self.list(
            "table",
            ("tsa", "-", "-", self.clock),
            ("signer", FIRST, "20240519235959.999999999Z", self.anna, "# ends: CN=Anna was revoked", "# more"),
            ("signer", "-", "20300101000000Z", self.bob),
            ("signer", "-", "20990101000000Z", self.bob, "# ends: never\x1b[2J"),
        )
        status, lines, err = self.said("--explain", path)
        self.assertEqual((status, err), (0, ""))
        self.assertEqual(
            [line.split("  ")[0].strip() + "|" + line.rsplit("  ", 1)[1] for line in lines],
            [
                "role|ends",
                f"tsa|the certificate expires {LAST}",
                "signer|CN=Anna was revoked",
                "signer|the list does not say why",
                f"signer|the certificate expires {LAST}",
            ],
        )
        self.assertIn("20240519235959.999999999Z  CN=Anna,O=cmsproof", lines[2])
        status, lines, err = self.said("--explain", REAL / "trust.txt")
        self.assertEqual((status, len(lines), err), (0, 8, ""))

    def test_what_differs(self):
        old = self.list("old", ("signer", "-", "-", self.anna), ("tsa", "-", "-", self.clock))
        new = self.list("new", ("tsa", "-", "-", self.clock, "# another comment"), ("signer", "-", LAST, self.anna))
        status, lines, err = self.said("--diff", old, new)
        self.assertEqual(
            (status, [line.split(",")[0] for line in lines], err),
            (1, ["- signer - - CN=Anna", f"+ signer - {LAST} CN=Anna"], ""),
        )
        self.assertEqual(self.said("--diff", old, old), (0, [], ""))

    def test_long_lists(self):
        """The time grows with the length, and not with its square."""
        rows = [mock.Mock(text=f"signer {number}".__str__) for number in range(20_000)]
        with mock.patch.object(comparing_lists, "rows_of", lambda path: rows[path:]):
            begun = time.process_time()
            self.assertEqual(len(list(comparing_lists.differing(0, 1))), 1)
            self.assertLess(time.process_time() - begun, 10)

    def test_several_in_one(self):
        """What several have is trusted when all do: an older list does not bring back what a newer one cuts."""
        old = self.list("old", ("signer", "-", "-", self.anna), ("tsa", "-", "-", self.clock))
        new = self.list(
            "new", ("signer", FIRST, "20240501000000Z", self.anna, "# ends: revoked"), ("signer", "-", "-", self.bob)
        )
        for paths in ((old, new), (new, old)):
            status, lines, err = self.said("--merge", *paths)
            expected = {("signer", FIRST, "20240501000000Z", "anna"), ("signer", "-", "-", "bob"), ("tsa", "-", "-", "clock")}
            self.assertEqual((status, set(self.entries(lines)), len(err.splitlines())), (0, expected, 1))
            self.assertIn("# ends: revoked", lines)
        late = self.list("late", ("signer", "20240502000000Z", "-", self.anna))
        for paths in ((old, new, late), (new, late, old), (late, new, old), (new, late, new)):
            found = {name for *_, name in self.entries(self.said("--merge", *paths)[1])}
            self.assertEqual(found - {"clock"}, {"bob"}, paths)
        self.assertEqual(len(self.entries(self.said("--merge", old, old)[1])), 2)
        twice = self.list(
            "twice", ("signer", FIRST, "20220101000000Z", self.anna), ("signer", "20230101000000Z", "-", self.anna)
        )
        found = self.entries(self.said("--merge", twice, new)[1])
        self.assertEqual(
            [row[1:3] for row in found if row[3] == "anna"],
            [(FIRST, "20220101000000Z"), ("20230101000000Z", "20240501000000Z")],
        )

    def test_until_when_certificates_serve(self):
        """Of both ends of a certificate in several lists the first one counts; a table and what differs say the other end too."""
        early, late, ends = "20261220000000Z", "20270119000000Z", "# ends: no more is known"

        def list_of(name, last, serves):
            above = [f"# known until {last}, serves until {serves}"] if serves else []
            return self.list(name, ("tsa", FIRST, last, self.clock, "# a clock", ends, *above))

        old, new = list_of("old", early, LAST), list_of("new", late, "20350101000000Z")
        for others, last, serves in [
            ([old], early, LAST),
            ([old, new], early, "20350101000000Z"),
            ([old, list_of("revoked", "20270101000000Z", "")], early, "20270101000000Z"),
            ([new, list_of("gone", "20261201000000Z", "")], "20261201000000Z", ""),
            ([new, list_of("until", "-", "")], late, "20350101000000Z"),
            ([old, list_of("same", early, early)], early, ""),
        ]:
            for paths in (others, others[::-1]):
                status, lines, err = self.said("--merge", *paths)
                above = [f"# known until {last}, serves until {serves}"] if serves else []
                entry = f"tsa {FIRST} {last} {self.clock.octets.hex()}"
                self.assertEqual((status, lines), (0, ["cmsproof trust 2", "", "# a clock", ends, *above, entry]), err)
        self.assertRegex(self.said("--explain", old)[1][1], f"  no more is known; serves until {LAST}$")
        status, lines, _ = self.said("--diff", old, list_of("other", early, "20350101000000Z"))
        self.assertEqual(status, 1)
        self.assertRegex("\n".join(lines), f"^- tsa .*; serves until {LAST}\n\\+ tsa .*; serves until 20350101000000Z$")

    def test_other_words(self):
        """None is left out without a word, as a period would be, or a list that a second --merge names."""
        one, other = (self.list(name, ("signer", "-", last, self.anna)) for name, last in (("one", LAST), ("other", "-")))
        alone = (3, [], "cmsproof-trust: --explain, --diff and --merge go with no other word (see cmsproof-trust --help)\n")
        for words in (
            ["--merge", one, other, "--until", FIRST],
            ["--merge", one, "--signer", one],
            ["--merge", one, "--issuer", one, "--crl", one],
            ["--diff", one, one, "--sha1"],
            ["--diff", one, one, "--explain", one],
            ["--explain", one, "--all"],
        ):
            self.assertEqual(self.said(*words), alone, words)
        for words in (["--merge", one, "--merge", other], ["--merge", other, "--merge", one]):
            self.assertEqual(self.entries(self.said(*words)[1]), [("signer", "-", LAST, "anna")], words)
        for words, twice in (
            (["--signer", one, "--until", FIRST, "--tsa", one, "--until", LAST], "--until"),
            (["--explain", one, "--explain", other], "--explain"),
            (["--diff", one, other, "--diff", one, one], "--diff"),
        ):
            line = f"cmsproof-trust: {twice} is said twice (see cmsproof-trust --help)\n"
            self.assertEqual(self.said(*words), (3, [], line), words)

    def test_lists_that_are_none(self):
        good, bad = self.list("good", ("signer", "-", "-", self.anna)), self.folder / "bad"
        bad.write_text("cmsproof trust 2\nsigner - - 3000\n")
        for words in (["--explain", bad], ["--diff", good, bad], ["--merge", bad, good]):
            self.assertEqual(self.said(*words), (2, [], f"cmsproof-trust: {bad}: trust L3 Certificate at line 2\n"))


if __name__ == "__main__":
    unittest.main()
