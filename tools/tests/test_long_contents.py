"""Tests of what the program says of a content that is longer than it may be. To hash 2^40 octets takes most of an hour: so the
program is built of its assembly with 2^20 in the place of that number, and all else as it is."""
import gzip
import platform
import re
import subprocess
import unittest

from making import REAL, TOP, folder_of, needs

MOST = 1 << 20
# where what was read is compared with what may be: a register gets the number, and is compared with another
LIMIT = re.compile(rb"(\tmovabsq\t\$)1099511627776(, (%r\w+)\b[^\n]*\n\tcmpq\t\3, %r\w+\n\tja\t)")
ANSWERS = "cmsproof answers 1\n"
TOKENS, RECORDS = TOP / "crates" / "real_files" / "data", TOP / "tools" / "tests" / "records"
DIFFERS, TOO_LONG = (1, "refused signer 1 S6 DigestDiffers\n", ""), (4, "", "failed X5 ContentTooLong\n")
LISTS = ["--trust", REAL / "trust.txt", "--answers", "answers"]
# each command that reads a content that is handed in, and what it says of one that is no longer than it may be
COMMANDS = {
    ("fit", "--content", "content", REAL / "rsa_detached_ts.p7s"): DIFFERS,
    ("check", *LISTS, "--content", "content", REAL / "rsa_detached_ts.p7s"): DIFFERS,
    ("stamp", "check", *LISTS, TOKENS / "rsa_attached.1.tok", "content"): (1, "refused K9 ImprintDiffers\n", ""),
    ("stamp", "check", *LISTS, TOKENS / "rsa_attached.1.tok", "-"): (1, "refused K9 ImprintDiffers\n", ""),
    ("evidence", "check", *LISTS, RECORDS / "no_token.ers", "content"): (1, "refused chain 1 stamp 1 W4 K1 M1 End at 20\n", ""),
}


@unittest.skipUnless(platform.machine() == "x86_64", "the number is looked for in x86-64's assembly")
@needs("cc")
class LongContents(unittest.TestCase):
    """Each command, with a content of as many octets as it may have, and of one more."""

    def build(self):
        """The program with the other number."""
        text, count = LIMIT.subn(
            rb"\g<1>%d\2" % MOST, gzip.decompress((TOP / "dist" / "cmsproof-x86_64-linux.s.gz").read_bytes())
        )
        self.assertGreater(count, 0, "the compiler compares with 2^40 in other words now: have LIMIT find them")
        (self.folder / "program.s").write_bytes(text)
        words = ["cc", "-std=c11", "-O2", "-fPIE", "-pie", "-o", "program", "program.s", TOP / "dist" / "runtime.c"]
        subprocess.run(words, cwd=self.folder, check=True)

    def said(self, words):
        """The status of the program, and what it printed and complained of."""
        with (self.folder / "content").open("rb") as content:
            done = subprocess.run(
                [self.folder / "program", *words], cwd=self.folder, stdin=content, capture_output=True, text=True, check=False
            )
        return done.returncode, done.stdout, done.stderr

    def test_one_octet_more_is_too_long(self):
        self.folder = folder_of(self)
        self.build()
        (self.folder / "answers").write_text(ANSWERS)
        (self.folder / "content").write_bytes(bytes(MOST))
        self.assertEqual({words: self.said(words) for words in COMMANDS}, COMMANDS)
        (self.folder / "content").write_bytes(bytes(MOST + 1))
        self.assertEqual({words: self.said(words) for words in COMMANDS}, dict.fromkeys(COMMANDS, TOO_LONG))


if __name__ == "__main__":
    unittest.main()
