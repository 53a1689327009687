"""Tests of cmsproof.evidence.check_signed: signed files under evidence records (RFC 4998 1.1, 5.3), on the made records of the rows."""
import sys
import unittest

from making import TOP, need_tools

need_tools()

import cmsproof  # noqa: E402
from cmsproof import evidence  # noqa: E402
from cmsproof import library as lib  # noqa: E402

sys.path.insert(0, str(TOP / "tools"))
import program_rows  # noqa: E402

def blobs():
    """The octets that the rows name."""
    rows, _ = program_rows.rows_of(program_rows.FOLDER)
    return next(found for area, name, _, _, found in rows if name.endswith("/under.rows"))


class Signed(unittest.TestCase):
    """Checks of a file whose token is of 20240115100000Z, by a verifier that vouches for all and notes what it is asked."""

    @classmethod
    def setUpClass(cls):
        cls.blobs = blobs()
        entries = program_rows.text_of("2\\nsigner,-,-,$signer\\ntsa,-,-,$authority\\ntsa,-,-,$long_lived\\n", cls.blobs)
        cls.trust = cmsproof.TrustList(f"cmsproof trust {entries}".encode())

    def setUp(self):
        self.asked = []

    def vouches(self, question):
        self.asked.append(question.line)
        return True

    def check(self, record, file="stamped", **words):
        octets = [program_rows.octets_of(f"${name}", self.blobs) for name in (record, file)]
        return evidence.check_signed(*octets, trust=self.trust, verifier=self.vouches, **words)

    def test_accepted(self):
        verdict = self.check("under_at_20", at="20261231000000Z")
        self.assertEqual((verdict.accepted, verdict.line), (True, "accepted 20240115100000Z"))
        self.assertIs(type(verdict), cmsproof.Verdict)
        self.assertEqual(len(self.asked), len(set(self.asked)))

    def test_refused_by_the_file(self):
        verdict = self.check("under_before_its_token")
        self.assertEqual((verdict.accepted, verdict.code, verdict.signer, verdict.token), (False, "K13", 1, 1))
        self.assertEqual(verdict.line, "refused signer 1 token 1 K13 Period")

    def test_refused_by_the_record(self):
        verdict = self.check("under_at_20", content=b"another content")
        self.assertEqual((verdict.accepted, verdict.verdict, verdict.signer, verdict.token), (False, "refused", None, None))
        self.assertEqual((verdict.code, verdict.line), ("W3", "refused record chain 1 stamp 1 W3 NotCovered"))

    def test_malformed_record(self):
        verdict = evidence.check_signed(b"", b"", trust=self.trust, verifier=self.vouches)
        self.assertEqual((verdict.verdict, verdict.code, verdict.line[:19]), ("malformed", "M1", "malformed record M1"))
        self.assertEqual(self.asked, [])

    def test_answers(self):
        verdict = self.check("under_at_20", answers=b"cmsproof answers 1\n")
        self.assertEqual((verdict.accepted, verdict.code), (False, "W4"))
        self.assertEqual(self.asked, [])

    def test_wrong_words(self):
        for words in ({"at": "20240120"}, {"ends": {"md5": "20240120000000Z"}}, {"ends": {"sha1": "20240230000000Z"}}):
            with self.subTest(words), self.assertRaises(ValueError):
                self.check("under_at_20", **words)

    def test_numbers_and_lines_that_differ(self):
        """What no library says: a refusal of the record without its line or its number."""
        said = {"verdict": lib.REFUSES, "letter": ord("S"), "number": 6, "signer": 1}
        texts = (2, b"refused signer 1 S6 DigestDiffers\n"), (0, b"refused record V2 Encrypted\n"), (1, b"accepted 20240115100000Z\n")
        for line, text in texts:
            answer = lib.Answer(line=line, **said)
            with self.subTest(text), self.assertRaises(cmsproof.Unexpected):
                evidence.verdict_under(lib.REFUSED, answer, text)


if __name__ == "__main__":
    unittest.main()
