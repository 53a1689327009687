"""Tests of the package cmsproof with evidence records (RFC 4998): those of data/records, and two more in records/: in one the token has
another digest of its content, in the other a token is no CMS."""
import unittest
from datetime import datetime, timedelta, timezone
from unittest import mock

from making import TOP, folder_of, need_tools

need_tools()

import cmsproof  # noqa: E402
from cmsproof import evidence  # noqa: E402

DATA, MORE = TOP / "data" / "records", TOP / "tools" / "tests" / "records"
TRUST = cmsproof.TrustList.from_file(DATA / "trust.txt")
ENDS, AT = {"sha1": "20160101000000Z", "sha256": "20350101000000Z"}, "20261231000000Z"
ONE, TWO, RENEWED = "bouncy_castle_one_document", "two_documents_in_the_first_list", "bouncy_castle_renewed_by_a_time_stamp"
# record, numbers of documents, options, line
ROWS = [
    (ONE, (0,), {"at": None, "ends": {"sha256": "20150301120000Z"}}, "accepted 20150301120000Z"),
    (ONE, (0,), {"at": None, "ends": {"sha256": "20150301115959.9Z"}}, "refused chain 1 stamp 1 W6 Weak"),
    (ONE, (0,), {"at": "20150301115959Z"}, "refused chain 1 stamp 1 W5 Order"),
    (ONE, (1,), {}, "refused chain 1 stamp 1 W4 K9 ImprintDiffers"),
    (ONE, (), {}, "refused V3 NoData"),
    (TWO, (0, 1), {"whole": True}, "accepted 20160201120000Z"),
    (TWO, (1, 0), {}, "accepted 20160201120000Z"),
    (TWO, (1,), {}, "accepted 20160201120000Z"),
    (TWO, (1,), {"whole": True}, "refused chain 1 stamp 1 W8 Others"),
    (TWO, (0, 2), {}, "refused chain 1 stamp 1 W3 NotCovered"),
    (RENEWED, (0,), {"ends": {"sha256": "20200101000000Z"}}, "refused chain 1 stamp 2 W6 Weak"),
    ("bouncy_castle_sha1_renewed_in_2013", (0,), {"ends": None}, "refused chain 1 stamp 1 W6 Weak"),
    ("other_octets_signed", (0,), {}, "refused chain 1 stamp 1 W4 K5 S6 DigestDiffers"),
    ("no_token", (0,), {}, "refused chain 1 stamp 1 W4 K1 M1 End at 20"),
]


def record(name):
    """Where a record is."""
    found = MORE / f"{name}.ers"
    return found if found.exists() else DATA / "records" / f"{name}.ers"


def document(number):
    """A data object of the records."""
    return b"document %d\n" % number


def said(name, numbers, **options):
    """What is said of a record and documents."""
    data = [document(n) for n in numbers]
    return evidence.check(record(name), data, trust=TRUST, **{"ends": ENDS, "at": AT, **options})


def options_in(text):
    """The options of a row of data/records, as the package takes them; those of a row that has two ends of an algorithm are none."""
    words, ends, rest = text.split(), [], {}
    while words:
        if (word := words.pop(0)) == "--end":
            ends.append(words.pop(0).split("="))
        else:
            rest[word[2:]] = words.pop(0) if word == "--at" else True
    return {"ends": dict(ends), **rest} if len(dict(ends)) == len(ends) else None


class Calls(unittest.TestCase):
    """cmsproof.evidence.check and questions."""

    def test_lines(self):
        for name, numbers, options, line in ROWS:
            with self.subTest(name, numbers=numbers, options=options):
                self.assertEqual(said(name, numbers, **options).line, line)

    def test_rows_of_the_command(self):
        answers, seen = (DATA / "answers.txt").read_bytes(), 0
        for row in (DATA / "rows.txt").read_text().splitlines():
            name, given, text, line = row.split(" | ")
            options = None if row.startswith("#") else options_in(text)
            if options is None:
                continue
            for more in {"answers": answers}, {}:
                with self.subTest(row, **more):
                    found = evidence.check(record(name), DATA / "files" / given, trust=TRUST, **options, **more)
                    self.assertEqual((found.line, found.accepted), (line, line.startswith("accepted ")))
            seen += 1
        self.assertGreater(seen, 20)

    def test_parts_of_a_verdict(self):
        found = said(ONE, (0,))
        self.assertEqual(found[:2] + found[3:], (True, "accepted", 0, None, "", None, None, "accepted 20150301120000Z"))
        self.assertEqual(found.moment, datetime(2015, 3, 1, 12, tzinfo=timezone.utc))
        self.assertRaises(TypeError, bool, found)
        for name, numbers, parts in (
            ("other_octets_signed", (0,), ("refused", "W4", "K5 S6 DigestDiffers", 1, 1)),
            ("bouncy_castle_tree_of_seven", (4,), ("refused", "W3", "NotCovered", 1, 1)),
            ("encrypted", (3,), ("refused", "V2", "Encrypted", None, None)),
            ("octet_behind_the_record", (3,), ("malformed", "M7", "Trailing at 1100", None, None)),
        ):
            found = said(name, numbers)
            self.assertEqual((found.verdict, found.code, found.name, found.chain, found.stamp), parts)
            self.assertEqual((found.accepted, found.moment, found.nanoseconds), (False, None, None))
        # the number of the stamp is not that of the chain
        for name, ends, place in (
            (RENEWED, {"sha256": "20200101000000Z"}, (1, 2)),
            ("bouncy_castle_renewed_by_a_hash_tree", {"sha512": "20250101000000Z"}, (2, 1)),
        ):
            found = said(name, (0,), ends=ends)
            self.assertEqual((found.code, found.name, found.chain, found.stamp), ("W6", "Weak", *place))

    def test_what_data_may_be(self):
        one, folder = record(ONE), folder_of(self)
        (folder / "data").write_bytes(document(0))
        for data in (document(0), bytearray(document(0)), folder / "data", str(folder / "data"), (document(0),), [folder / "data"]):
            self.assertTrue(evidence.check(one, data, trust=TRUST, at=AT).accepted)
        self.assertRaises(OSError, evidence.check, one, folder / "none", trust=TRUST)
        self.assertRaises(TypeError, evidence.check, one, 7, trust=TRUST)
        # two objects are not one that has the octets of both
        both = document(0) + document(1)
        self.assertFalse(evidence.check(record(TWO), both, trust=TRUST).accepted)

    def test_files_that_are_mapped(self):
        """They are copied whole, however long they are: `ctypes.string_at` takes no length of more than 32 bits."""
        folder = folder_of(self)
        paths = [folder / str(number) for number in (0, 1)]
        for number, path in enumerate(paths):
            path.write_bytes(document(number))
        due = evidence.renewal_root(record(ONE).read_bytes())
        with mock.patch("cmsproof.octets.COPIED", 0), mock.patch("ctypes.string_at", lambda *_: b""):
            self.assertTrue(evidence.check(record(TWO), paths, trust=TRUST).accepted)
            self.assertEqual(evidence.renewal_root(record(ONE)), due)

    def test_moments(self):
        two_hours_east = timezone(timedelta(hours=2))
        for last, accepted in (
            ("20150301120000Z", True),
            (datetime(2015, 3, 1, 12, tzinfo=timezone.utc), True),
            (datetime(2015, 3, 1, 14, tzinfo=two_hours_east), True),
            (datetime(2015, 3, 1, 11, 59, 59, 999999, timezone.utc), False),
            (datetime(2015, 3, 1, 13, 59, 59, tzinfo=two_hours_east), False),
        ):
            self.assertEqual(said(ONE, (0,), at=None, ends={"sha256": last}).accepted, accepted)
            self.assertEqual(said(ONE, (0,), at=last).accepted, accepted)

    def test_what_is_not_understood_raises(self):
        for ends in (
            {"sha256": ""},
            {"sha256": "2016"},
            {"sha256": "20161301000000Z"},
            {"sha256": "20160201120000"},
            {"sha256": "20160201120000.50Z"},
            {"sha256": "20160201120000Z "},
            {"sha256": "20160201120000Z sha1=20350101000000Z"},
            {"sha1=20350101000000Z sha256": "20350101000000Z"},
            {"SHA256": "20350101000000Z"},
            {"sha3-256": "20350101000000Z"},
            {"": "20350101000000Z"},
            {"sha256": datetime(2035, 1, 1)},
        ):
            with self.subTest(ends=ends), self.assertRaises(ValueError):
                said(ONE, (0,), ends=ends)
        for ends in ("sha256=20350101000000Z", [("sha256", "20350101000000Z")], {"sha256": None}, {"sha256": 2035}, 0, False):
            with self.subTest(ends=ends), self.assertRaises(TypeError):
                said(ONE, (0,), ends=ends)
        east, west = (timezone(timedelta(hours=hours)) for hours in (2, -2))
        outside = datetime.min.replace(tzinfo=east), datetime.max.replace(tzinfo=west)
        for at in ("", "now", "20260230000000Z", "20261231000000Z\n", datetime(2026, 12, 31), *outside):
            with self.subTest(at=at), self.assertRaises(ValueError):
                said(ONE, (0,), at=at)
        for at in (0, False, b"20261231000000Z", 20261231000000):
            with self.subTest(at=at), self.assertRaises(TypeError):
                said(ONE, (0,), at=at)
        for answers in ("cmsproof answers 1\n", 0, False):
            with self.subTest(answers=answers), self.assertRaises(TypeError):
                said(ONE, (0,), answers=answers)
        self.assertRaises(cmsproof.ListRefused, said, ONE, (0,), answers=b"")

    def test_who_vouches(self):
        self.assertEqual(said(ONE, (0,), verifier=lambda _: 1).code, "W4")
        self.assertEqual(said(ONE, (0,), answers=b"cmsproof answers 1\n").name, "K14 SignatureFails")
        self.assertTrue(said("changed_signature", (0,), verifier=lambda _: True).accepted)
        asked = evidence.questions(record(RENEWED), trust=TRUST)
        self.assertEqual((asked.code, len(asked.asked)), (None, 2))
        answers = asked.text.replace(b"questions", b"answers", 1)
        self.assertTrue(said(RENEWED, (0,), answers=answers).accepted)
        # an answer about one signature is none about another
        self.assertEqual(said(ONE, (0,), answers=answers).name, "K14 SignatureFails")

    def test_questions_of_none(self):
        for name, code in (("encrypted", "V2"), ("octet_behind_the_record", "V1")):
            self.assertEqual(evidence.questions(record(name), trust=TRUST)[:], (b"", (), code))
        asked = evidence.questions(record("no_token"), trust=TRUST)
        self.assertEqual((asked.text, asked.asked, asked.code), (b"cmsproof questions 1\n", (), None))


if __name__ == "__main__":
    unittest.main()
