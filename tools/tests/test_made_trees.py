"""Tests of the built program: the requests for the roots of hash trees (RFC 4998 4.2) and the lists in the records of their leaves, from one
leaf to a thousand, by SHA-256 and SHA-512. What is due stands in records/trees.txt, octet for octet."""
import hashlib
import subprocess
import unittest
from pathlib import Path

from making import PROGRAM, folder_of, needs
from oracle import forms, records
from samples.authority import STAMPING, configure, make_certificate, openssl

DUE = Path(__file__).resolve().parent / "records" / "trees.txt"


def trees():
    """Of each tree its algorithm, the number of its documents, its root, the request, and by document the values of its lists."""
    found = []
    for line in DUE.read_text(encoding="ascii").splitlines():
        kind, *words = line.split()
        if kind == "tree":
            found.append((words[0], int(words[1]), bytes.fromhex(words[2]), bytes.fromhex(words[3]), {}))
        elif kind == "leaf":
            found[-1][4][int(words[0])] = [bytes.fromhex(value) for value in words[1:]]
    return found


def digest(alg, number):
    """The digest of a document."""
    return hashlib.new(alg, b"document %d\n" % number).digest()


class Trees(unittest.TestCase):
    """Documents, their sums, an authority, and what is made of them."""

    def setUp(self):
        self.folder = folder_of(self)

    def run_all(self, *words):
        """Runs the program, which must succeed and print nothing."""
        done = subprocess.run([PROGRAM, *words], cwd=self.folder, capture_output=True, check=False)
        self.assertEqual((done.returncode, done.stdout, done.stderr), (0, b"", b""), words)

    def request(self, alg, count):
        """The request for the root over the first documents, which goes into `asked`, and the digests of them in `sums`."""
        lines = [f"{digest(alg, number).hex()}  d{number:03}\n" for number in range(count)]
        (self.folder / "sums").write_text("".join(lines))
        self.run_all("evidence", "request", "--alg", alg, "sums", "asked")
        return (self.folder / "asked").read_bytes()

    def test_table(self):
        """It has two algorithms with six trees each, and 46 leaves; a request ends with its root, and a leaf's first list is its digest."""
        self.assertEqual([of[:2] for of in trees()], [(alg, n) for alg in ("sha256", "sha512") for n in (1, 2, 3, 5, 7, 1000)])
        for alg, count, root, request, leaves in trees():
            self.assertEqual((request[-len(root) :], len(leaves)), (root, min(count, 7) if count < 1000 else 4))
            for number, values in leaves.items():
                self.assertEqual(values[0], digest(alg, number))

    def test_requests(self):
        """The request for each root is the one that is due."""
        for alg, count, _, request, _ in trees():
            self.assertEqual(self.request(alg, count).hex(), request.hex(), (alg, count))

    @needs("openssl")
    def test_lists(self):
        """By a token of `openssl ts` over each root, the record of each leaf has one list for each value that is due, in this order; and it
        is what `show evidence` says. Every second tree is made with `--alg`, the others by the algorithm of the token."""
        make_certificate(self.folder, "tsa", STAMPING)
        configure(self.folder, "tsa.cnf", "tsa", digests="sha256, sha512", more="ess_cert_id_alg = sha256\n")
        for place, (alg, count, root, _, leaves) in enumerate(trees()):
            self.request(alg, count)
            openssl(self.folder, "ts", "-reply", "-config", "tsa.cnf", "-queryfile", "asked", "-out", "answer", "-token_out")
            token, into = (self.folder / "answer").read_bytes(), f"records-{place}"
            self.assertEqual(records.stated(token).imprint.digest, root)
            (self.folder / into).mkdir()
            named = ("--alg", alg) if place % 2 else ()
            self.run_all("evidence", "make", *named, "--token", "answer", "--into", into, "sums")
            self.assertEqual(len(list((self.folder / into).iterdir())), count)
            for number, values in leaves.items():
                path = self.folder / into / f"d{number:03}.ers"
                ((stamp,),) = forms.whole(path.read_bytes(), records.evidence_record).chains
                self.assertEqual((stamp.lists, stamp.token), ([[value] for value in values], token), (alg, count, number))
                shown = subprocess.run([PROGRAM, "show", "evidence", path], capture_output=True, text=True, check=True).stdout
                self.assertTrue(shown.endswith(f"Z lists {len(values)} values {len(values)}\n"), shown)


if __name__ == "__main__":
    unittest.main()
