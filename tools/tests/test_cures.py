"""Tests of the table of refusals: each code that a program or a tool prints has a cause and a cure, of which docs/REFUSALS.md is made."""
import re
import subprocess
import sys
import unittest

from making import TOP, lacking_tools

from cmsproof import lists, tokens
from cmsproof_tools.containers.refusals import WORDS
from cmsproof_tools.cures import ROWS, known_cures, said_of

# what only says where else something may stand
VAGUE = re.compile(r"^(?:the same|as (?:below|for|in|with) .*|section [0-9]+|below|)$")
# the rules that are in no table of the tools, by the page of the lines (docs/LINES.md)
OTHERS = {
    "C2": "NotSignedData",
    "C3": "NoSigner",
    "C4": "NoContent",
    "C5": "ContentTwice",
    "Q2": "NotSignedData",
    "E1": "NotSignedData",
    "E2": "NoSuchSigner",
    "E3": "NoContent",
    "S7": "UnknownSigner",
    "S8": "NotNamed",
    "S9": "SignatureFails",
    "S10": "NoToken",
    "X1": "ReadFailed",
    "X3": "TooLong",
    "X5": "ContentTooLong",
    "P1": "Status",
    "P2": "NoToken",
    "P3": "TokenMalformed",
    "P4": "Imprint",
    "P5": "Nonce",
    "P6": "Policy",
    "P7": "CertMissing",
    "A1": "NotSignedData",
    "A2": "NoSuchSigner",
    "A3": "TokenMalformed",
    "A4": "ImprintDiffers",
    "A5": "TooLong",
    "V2": "Encrypted",
    "V3": "NoData",
    "W1": "Algorithm",
    "W2": "HashLength",
    "W3": "NotCovered",
    "W5": "Order",
    "W6": "Weak",
    "W7": "Lapsed",
    "W8": "Others",
    "U1": "Line",
    "U2": "Empty",
    "U3": "NoStamp",
    "U4": "Mixed",
    "U5": "Name",
    "U6": "NameTwice",
    "U7": "TokenMalformed",
    "U8": "ImprintDiffers",
    "U9": "Order",
    "U10": "TooLong",
    "U11": "Unnamed",
}


def names():
    """The name of each code that is printed."""
    found = {**OTHERS, **lists.RULES, **WORDS}
    found.update({f"M{number}": name for number, name in enumerate(tokens.KINDS, 1)})
    found.update({f"S{number}": name for number, name in enumerate(tokens.SIGNER_RULES, 1)})
    found.update({f"K{number}": name for number, name in enumerate(tokens.RULES, 1) if name != "."})
    return found


class Table(unittest.TestCase):
    """Each row, and the page."""

    def test_each_code_that_is_printed(self):
        known, rows = known_cures(), " ".join(row.codes for row in ROWS)
        self.assertEqual(set(known) - set(names()), {"E4", "K5", "K6", "V1", "W4"})
        for code, name in names().items():
            self.assertRegex(rows, rf"\b{code}\b(?: FAULT, {code})?(?:, [A-Z][0-9])* {name}\b")

    def test_each_has_cause_and_cure(self):
        for code, cure in known_cures().items():
            with self.subTest(code):
                self.assertIsNone(VAGUE.match(cure.when))
                self.assertIsNone(VAGUE.match(cure.cure))
                self.assertRegex(said_of(code), r"^Cause: .+\. Cure: .+ \(REFUSALS\.md, section [0-9]+\)\.$")
                self.assertNotRegex(said_of(code), "[\n`|]")

    @unittest.skipIf(lacking_tools(), lacking_tools())
    def test_no_cure_trusts_somebody_without_a_comparison(self):
        """Whom the file names was chosen by whoever made it."""
        from cmsproof_tools.explaining import CURES, TOKEN_ALONE

        for text in (*(row.cure for row in ROWS), *CURES.values()):
            if re.search(r"\blist (?:it|the one)|name its issuer", text):
                self.assertRegex(text, "compared? the SHA-256 .*in another way|compare its SHA-256 .*in another way")
        self.assertIn("nobody is to be listed", TOKEN_ALONE)

    def test_the_page(self):
        done = subprocess.run([sys.executable, TOP / "tools" / "refusals.py", "--check"], check=False)
        self.assertEqual(done.returncode, 0, "python3 tools/refusals.py writes docs/REFUSALS.md anew")
        lines = (TOP / "docs" / "REFUSALS.md").read_text().splitlines()
        shown = {}
        for row in ROWS:
            begin = f"| {row.codes} | {row.when} | "
            (end,) = [line.removeprefix(begin) for line in lines if line.startswith(begin)]
            # a long cure that stands above, in full
            other = re.fullmatch(r"as ([A-Z][0-9]+) \|", end)
            self.assertEqual(shown[other[1]] if other else end, f"{row.cure} |")
            shown.update(dict.fromkeys(re.findall(r"\b[A-Z][0-9]+\b", row.codes), end))

    def test_fingerprints(self):
        """Two certificates of one session have two fingerprints."""
        for page in ("docs/REFUSALS.md", "docs/GUIDE.md", "README.md", "man/cmsproof-trust.1"):
            found = re.findall(r"^(?:sha256 Fingerprint=|# sha256 )(\S+)$", (TOP / page).read_text(), re.MULTILINE)
            self.assertEqual(len(set(found)), len(found), page)


if __name__ == "__main__":
    unittest.main()
