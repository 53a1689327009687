"""Tests that cmsproof-archive says of each file what the commands `questions`, cmsproof-verify and `check` say of it: of real files,
and of copies that somebody changed."""
import random
import re
import subprocess
import unittest

from making import PROGRAM, REAL, TOP, folder_of, need_tools, run_tool

need_tools()

from cmsproof_tools.texts import answers_text, read_questions
from cmsproof_tools.verify import fault_of

FOUND = [*sorted(REAL.iterdir()), *sorted((TOP / "crates" / "real_files" / "data").iterdir())]
# those in DER: the others are for a front end, and not for the commands
FOUND = [path for path in FOUND if path.read_bytes()[:1] == b"\x30" and path.read_bytes()[:2] != b"\x30\x80"]
STAMPED = ["rsa_attached_ts", "ec_attached_ts", "two_attached_ts", "gnutls_time_ts", "rsa_detached_ts"]
# of several faults of form the command may name another one, for it reads the file piece by piece
FAULT = re.compile("^malformed M[0-9]+ [A-Za-z]+ at [0-9]+$")


def spoiled(octets, other, chance):
    """Copies of a file that somebody changed, some of them in a way that leaves it in form."""
    for place in sorted(chance.sample(range(len(octets)), 12)):
        yield octets[:place] + bytes([octets[place] ^ chance.choice((1, 2, 0x20, 0x80, 0xFF))]) + octets[place + 1 :]
    for place in sorted(chance.sample(range(len(octets)), 4)):
        yield octets[:place]
        yield octets[:place] + bytes(chance.randrange(256) for _ in range(8)) + octets[place + 8 :]
        yield octets[:place] + octets[place + 1 :]
        yield octets[:place] + other[place:]
    yield octets + b"\0"
    yield octets + octets
    yield octets[:400] + other[400:]


@unittest.skipUnless(PROGRAM.exists(), "the program is not built")
class Alike(unittest.TestCase):
    """One call of the tool for all files, and the commands for each."""

    def setUp(self):
        self.folder = folder_of(self)

    def by_commands(self, path, words, by_tool):
        """The line of `check`, with the answers of cmsproof-verify, by that tool or by what it calls."""
        trust = ["--trust", REAL / "trust.txt"]
        asked = subprocess.run([PROGRAM, "questions", *trust, path], capture_output=True, check=False)
        text = asked.stdout if asked.returncode == 0 else b"cmsproof questions 1\n"
        if by_tool:
            (self.folder / "questions").write_bytes(text)
            run_tool("cmsproof-verify", self.folder / "questions", self.folder / "answers")
        else:
            vouched = [question for question in read_questions(text) if fault_of(question) is None]
            (self.folder / "answers").write_bytes(answers_text(vouched))
        check = [PROGRAM, "check", *trust, "--answers", self.folder / "answers", *words, path]
        done = subprocess.run(check, capture_output=True, check=False)
        return (done.stdout or done.stderr).decode().rstrip("\n")

    def compared(self, paths, words=(), by_tool=False):
        """How many lines are the same, begin with `accepted`, and name another fault of form."""
        _, out, _ = run_tool("cmsproof-archive", "--trust", REAL / "trust.txt", "--jobs", "2", *words, "--", *paths)
        lines = [line.rpartition(": ")[2] for line in out.decode().splitlines()]
        self.assertEqual(len(lines), len(paths))
        same, accepted, others = 0, 0, 0
        for path, line in zip(paths, lines):
            wanted = self.by_commands(path, words, by_tool)
            if line != wanted and (FAULT.match(line) or line == "refused F1 UnknownForm") and FAULT.match(wanted):
                others += 1
                continue
            self.assertEqual(line, wanted, path)
            same, accepted = same + 1, accepted + wanted.startswith("accepted ")
        return same, accepted, others

    def test_real_files(self):
        # (both folders have the four files that are accepted, and the one that is if its content is named)
        self.assertEqual(self.compared(FOUND, by_tool=True), (len(FOUND), 8, 0))
        self.assertEqual(self.compared(FOUND, ["--content", REAL / "blob.bin"]), (len(FOUND), 2, 0))
        self.assertEqual(self.compared(FOUND, ["--sha1"]), (len(FOUND), 8, 0))

    def test_changed_copies(self):
        chance, paths = random.Random(33), []
        octets = [(REAL / f"{name}.p7s").read_bytes() for name in STAMPED]
        for which, whole in enumerate(octets):
            for copy in spoiled(whole, octets[which - 1], chance):
                paths.append(self.folder / f"{len(paths)}.p7s")
                paths[-1].write_bytes(copy)
        same, accepted, others = self.compared(paths)
        self.assertEqual(same + others, len(paths))
        # (an octet of a certificate in the file, say, changes nothing)
        self.assertTrue(len(paths) > 150 and accepted > 9 and others < 20, (same, accepted, others))


if __name__ == "__main__":
    unittest.main()
