"""Tests of cmsproof-archive: with real files, and with files that are signed here."""
import hashlib
import json
import os
import pty
import shutil
import subprocess
import sys
import tempfile
import unittest
from pathlib import Path

from archiving import MALFORMED, REFUSED, WithFiles
from making import (
    ACCEPTED,
    INSTALLED,
    MODULES,
    PROGRAM,
    REAL,
    Keys,
    oid,
    openssl,
    run_tool,
    signed_by_ed,
    without_library,
)

from cmsproof_tools.outcomes import Outcome, json_lines, text_lines  # noqa: E402


def all_of(terminal):
    """What was written to a terminal that is closed at its other end; it may come in pieces, and the end is an error."""
    pieces = []
    try:
        while piece := os.read(terminal, 10000):
            pieces.append(piece)
    except OSError:
        pass
    os.close(terminal)
    return b"".join(pieces)


class Lines(WithFiles):
    """The lines of the tool, its words and its status."""

    def test_a_line_for_each_file_and_the_worst_status(self):
        self.file("a"), self.file("r", REFUSED), self.file("m", MALFORMED)
        line = {"a": ACCEPTED, "r": REFUSED, "m": MALFORMED, "f": "failed open f: No such file or directory"}
        rows = {
            "a": 0,
            "r": 1,
            "m": 2,
            "f": 4,
            "aa": 0,
            "ar": 1,
            "ra": 1,
            "rm": 2,
            "mr": 2,
            "mra": 2,
            "afa": 4,
            "frm": 4,
        }
        for names, status in {**rows, "arara" * 20: 1}.items():
            for jobs in ([], ["--jobs", "1"], ["--jobs", "3"]):
                found = self.run_archive(*jobs, *names)
                self.assertEqual(found, (status, [f"{name}: {line[name]}" for name in names], ""), (names, jobs))

    def test_names(self):
        for name in ("a", "b", "-c", "d e", "two\nlines", "ä"):
            self.file(name)
        odd = os.fsencode(self.folder) + b"/\xff"
        shutil.copy(self.folder / "a", odd)
        (self.folder / "names").write_text("b\n\n-c\nä")
        rows = [
            (["a", "b"], b"", ["a", "b"]),
            (["-"], b"a\nd e\n", ["a", "d e"]),
            (["b", "-", "a"], "ä".encode(), ["b", "ä", "a"]),
            (["--files-from", "names"], b"", ["b", "-c", "ä"]),
            (["--files-from", "names", "a"], b"", ["a", "b", "-c", "ä"]),
            (["--files-from", "-"], b"a\n", ["a"]),
            (["--", "-c"], b"", ["-c"]),
            (["two\nlines"], b"", ["two\\nlines"]),
            (["-"], b"\xff\n", ["\\udcff"]),
            (["--files-from", "names", "--files-from", "names"], b"", ["b", "-c", "ä", "b", "-c", "ä"]),
        ]
        for words, said, names in rows:
            self.assertEqual(self.run_archive(*words, said=said), (0, [f"{name}: {ACCEPTED}" for name in names], ""), words)

    def test_a_name_with_the_end_of_its_line(self):
        """A file called so, as `find` lists what is new, is not passed over for another one that is called as the rest of its line."""
        self.file("a"), self.file("a\r", MALFORMED), self.file("c.p7s"), self.file("c\r", MALFORMED)
        (self.folder / "names").write_bytes(b"./a\r\n"), (self.folder / "pairs").write_bytes(b"c.p7s\tc\r\n")
        said = "is a name, and a name with the end of its line: --null reads such lists\n"
        for word, path, name in (("--files-from", "names", "./a"), ("--pairs-from", "pairs", "c")):
            found = self.run_archive(word, path)
            self.assertEqual(found, (2, [], f"cmsproof-archive: {path}: {name}\\r {said}"))
        found = self.run_archive("--null", "-", said=b"./a\r\0")
        self.assertEqual(found[:2], (2, [f"./a\\r: {MALFORMED}"]))
        (self.folder / "a\r").unlink()
        self.assertEqual(self.run_archive("--files-from", "names"), (0, [f"./a: {ACCEPTED}"], ""))

    def test_files_that_are_called_as_options(self):
        """What a shell puts in the place of `*`: whoever made such a file would name the list."""
        self.file("a")
        (self.folder / "other").write_text("cmsproof trust 2\n")
        self.file("--", REFUSED)
        told = "cmsproof-archive: -- is the name of a file, and ends the options: write ./-- or work in another folder\n"
        self.assertEqual(self.run_archive("--", "a"), (3, [], told))
        self.assertEqual(self.run_archive("--", "--", "a"), (1, [f"--: {REFUSED}", f"a: {ACCEPTED}"], ""))
        self.assertEqual(self.run_archive("./--", "a"), (1, [f"./--: {REFUSED}", f"a: {ACCEPTED}"], ""))
        (self.folder / "--").unlink()
        for name in ("--trust=other", "--sha1", "--json"):
            (self.folder / name).touch()
            told = f"cmsproof-archive: {name} is the name of a file: write ./ before it, or -- before all names\n"
            self.assertEqual(self.run_archive(name, "a"), (3, [], told))
        self.assertEqual(
            self.run_archive("--", "--sha1", "a")[:2],
            (2, [f"--sha1: {MALFORMED.partition(' ')[0]} M1 End at 0", f"a: {ACCEPTED}"]),
        )

    def test_json(self):
        rows = [
            (0, ACCEPTED, {"verdict": "accepted", "time": "20261122071759Z"}),
            (0, "accepted 20261122071759.5Z", {"verdict": "accepted", "time": "20261122071759.5Z"}),
            (1, "refused C4 NoContent", {"verdict": "refused", "code": "C4"}),
            (1, REFUSED, {"verdict": "refused", "signer": 1, "code": "S10"}),
            (1, "refused signer 12 token 1 K13 Period", {"verdict": "refused", "signer": 12, "token": 1, "code": "K13"}),
            (1, "refused signer 1 token 1 K1 M5 Overrun at 0", {"verdict": "refused", "signer": 1, "token": 1, "code": "K1"}),
            (1, "refused signer 1 token 1 K5 S6 DigestDiffers", {"verdict": "refused", "signer": 1, "token": 1, "code": "K5"}),
            (2, MALFORMED, {"verdict": "malformed", "code": "M1"}),
            (4, "failed open a file: Permission denied", {"verdict": "failed"}),
            (4, "failed X1 ReadFailed", {"verdict": "failed", "code": "X1"}),
            (4, "failed memory", {"verdict": "failed"}),
        ]
        for status, line, parts in rows:
            expected = {"file": 'a "b', "status": status, "line": line, **parts, "questions": 3, "vouched": 1}
            self.assertEqual(json.loads(json_lines(Outcome('a "b', status, line, 3, ("x", "y")))), expected)
        part = Outcome("a", 1, "refused F1 ContentTwice", part=": b\n", notes=("one\ntwo",))
        found = json.loads(json_lines(part))
        self.assertEqual((found["file"], found["part"], found["notes"]), ("a", ": b\\n", ["one\\ntwo"]))
        self.assertEqual(text_lines(part), "a :\\x20b\\n: refused F1 ContentTwice")

    def test_the_last_line_of_json(self):
        self.file("r", REFUSED)
        found, lines, err = self.run_archive("--json", "r")
        first = {"file": "r", "status": 1, "line": REFUSED, "verdict": "refused", "signer": 1, "code": "S10"}
        digest = hashlib.sha256((self.folder / "list").read_bytes()).hexdigest()
        last = {"trust": "list", "sha256": digest, "files": 1, "worst": 1}
        expected = [{**first, "questions": 1, "vouched": 1}, last]
        self.assertEqual((found, [json.loads(text) for text in lines], err), (1, expected, ""))

    def test_what_is_vouched_for_and_what_cannot_be_judged(self):
        octets, rsa = (REAL / "two_attached_ts.p7s").read_bytes(), oid("1.2.840.113549.1.1.1")
        asked = subprocess.run(
            [PROGRAM, "questions", "--trust", REAL / "trust.txt", REAL / "two_attached_ts.p7s"], capture_output=True, check=True
        )
        signatures = [bytes.fromhex(line.split()[4]) for line in asked.stdout.decode().splitlines()[1:]]
        # of the second signer, whose algorithm is the last one before its signature; the first one's has another octet
        at, other = octets.rindex(rsa, 0, octets.index(signatures[2])), octets.index(signatures[0]) + 9
        changed = bytearray(octets)
        changed[at : at + len(rsa)] = oid("1.2.840.113549.1.1.4")
        changed[other] ^= 1
        (self.folder / "a").write_bytes(changed)
        unjudged = "the signature algorithm 1.2.840.113549.1.1.4 is not known"
        line, told = "refused signer 1 S9 SignatureFails", f"cmsproof-archive: a: a signature is not judged: {unjudged}\n"
        self.assertEqual(self.run_archive("a"), (1, [f"a: {line}"], told))
        status, lines, err = self.run_archive("a", "--json")
        self.assertEqual((json.loads(lines[0])["questions"], json.loads(lines[0])["vouched"], err), (4, 2, told))

    def test_words(self):
        self.file("a")
        see = " (see cmsproof-archive --help)\n"
        rows = [
            ([], b"", "no file is named"),
            (["-"], b"", "no file is named"),
            (["-"], b"\n\n", "no file is named"),
            (["--jobs", "0", "a"], b"", "argument --jobs: 0 is no number from 1 on"),
            (["--trust", "other", "a"], b"", "--trust is said twice"),
            (["--content", "a", "--content", "b", "a"], b"", "--content is said twice"),
            (["--records", "r", "--under", "a", "--under", "b", "a"], b"", "--under is said twice"),
            (["--records", "r", "--records", "s", "a"], b"", "--records is said twice"),
            (["--at", "20400101000000Z", "--at", "20260101000000Z", "a"], b"", "--at is said twice"),
            (["--state", "s", "--only", "refused", "--only", "failed", "a"], b"", "--only is said twice"),
            (["--state", "s", "--state", "t", "a"], b"", "--state is said twice"),
            (["--write-trust", "s", "--write-trust", "t", "a"], b"", "--write-trust is said twice"),
            (["--jobs", "-1", "a"], b"", "argument --jobs: -1 is no number from 1 on"),
            (["--jobs", "x", "a"], b"", "argument --jobs: x is no number from 1 on"),
            (["--quick", "a"], b"", "unrecognized arguments: --quick"),
            (["--state", "-", "a"], b"", "- is no name for --state, --known and --log: write ./-"),
            (["--log", "-", "a"], b"", "- is no name for --state, --known and --log: write ./-"),
            (
                ["--program", "./a", "a"],
                b"",
                "there is no --program any more: the library libcmsproof is asked, and no program is run",
            ),
        ]
        for words, said, line in rows:
            self.assertEqual(self.run_archive(*words, said=said), (3, [], f"cmsproof-archive: {line}{see}"))
        status, out, err = run_tool("cmsproof-archive", "a")
        self.assertEqual((status, out, err), (3, b"", f"cmsproof-archive: the following arguments are required: --trust{see}"))
        missing = "cmsproof-archive: failed open missing: No such file or directory\n"
        self.assertEqual(self.run_archive("--files-from", "missing"), (4, [], missing))
        for words in (["--help"], ["--version"]):
            status, out, err = run_tool("cmsproof-archive", *words)
            self.assertEqual((status, out.startswith((b"usage: cmsproof-archive", b"cmsproof-archive ")), err), (0, True, ""))

    def test_standard_input_that_is_named_twice(self):
        self.file("a")
        by_list, trusted = ["--trust", "list"], (self.folder / "list").read_bytes()
        for words, said in (
            ([*by_list, "-", "-"], b"a\n"),
            ([*by_list, "--files-from", "-", "-"], b"a\n"),
            ([*by_list, "--pairs-from", "-", "--files-from", "-"], b"a\tb\n"),
            (["due", *by_list, "--months", "1", "-", "-"], b"a\n"),
            (["--trust", "/dev/stdin", "a", "-"], trusted),
            ([*by_list, "--files-from", "-", "--files-from", "/dev/stdin"], b"a\n"),
            ([*by_list, "--files-from", "/dev/stdin", "-"], b"a\n"),
            ([*by_list, "--files-from", "/dev/stdin", "--pairs-from", "/dev/fd/0"], b"a\tb\n"),
            (["--trust", "/dev/stdin", "--files-from", "/proc/self/fd/0"], trusted),
        ):
            found = run_tool("cmsproof-archive", *words, said=said, cwd=self.folder)
            twice = "cmsproof-archive: standard input is named twice, and can be read once\n"
            self.assertEqual(found, (3, b"", twice), words)

    def test_words_of_its_commands_that_are_said_twice(self):
        by_list = ["--trust", "list"]
        for words, twice in (
            (["due", *by_list, "--months", "12", "--months", "1", "a"], "--months"),
            (["due", *by_list, "--by", "20300101000000Z", "--by", "20270101000000Z", "a"], "--by"),
            (["renew", *by_list, "--records", "r", "--records", "s", "--months", "1", "--tsa", "http://a"], "--records"),
            (["report", "s", "--html", "h", "--records", "r", "--records", "s"], "--records"),
            (["report", "s", "--html", "h", "--records", "r", "--under", "r", "--under", "s"], "--under"),
            (["evidence", *by_list, "a", "--to", "b", "--part", "1", "--part", "2"], "--part"),
        ):
            line = f"cmsproof-archive: {twice} is said twice (see cmsproof-archive {words[0]} --help)\n"
            self.assertEqual(run_tool("cmsproof-archive", *words, cwd=self.folder), (3, b"", line), words)

    def test_what_is_missing(self):
        self.file("a")
        with tempfile.TemporaryDirectory() as folder:
            status, out, err = self.run_archive("a", env=without_library(folder))
        self.assertEqual((status, out, len(err.splitlines())), (4, [], 1))
        self.assertIn("install Debian's python3-cryptography", err)
        copied = self.folder / "copied"
        shutil.copytree(MODULES, copied)
        shutil.copy(INSTALLED / "cmsproof-archive", copied)
        library = copied / "cmsproof" / "libcmsproof.so.1"
        library.unlink()
        self.assertIn(": cannot open shared object file: No such file or directory", self.without(copied))
        library.write_text("\x7fELF")
        self.assertIn("the library libcmsproof.so.1 cannot be used (`make library` builds it): ", self.without(copied))
        subprocess.run(
            ["cc", "-shared", "-fPIC", "-x", "c", "-", "-o", library],
            input=b"unsigned cmsproof_version(void) { return 2 << 16; }",
            check=True,
        )
        self.assertIn("libcmsproof.so.1 has version 2, and this package needs 1", self.without(copied))
        library.unlink()
        shutil.rmtree(copied / "cmsproof")
        self.assertIn("No module named 'cmsproof'", self.without(copied))

    def without(self, copied):
        """What a copy of the tools says that lacks something: one line."""
        words = [sys.executable, copied / "cmsproof-archive", "--trust", "list", "a"]
        done = subprocess.run(words, cwd=self.folder, capture_output=True, text=True, check=False)
        self.assertEqual((done.returncode, done.stdout, len(done.stderr.splitlines())), (4, "", 1), done.stderr)
        return done.stderr

    def test_standard_output_that_fails(self):
        for name in "abcdef":
            self.file(name)
        words = [sys.executable, INSTALLED / "cmsproof-archive", "--trust", "list", *"abcdef"]
        with open("/dev/full", "wb") as full:
            done = subprocess.run(words, stdout=full, stderr=subprocess.PIPE, cwd=self.folder, check=False)
        self.assertEqual((done.returncode, done.stderr), (4, b"cmsproof-archive: failed write -: No space left on device\n"))

    def test_progress_on_a_terminal(self):
        self.file("a"), self.file("r", REFUSED)
        words = [sys.executable, INSTALLED / "cmsproof-archive", "--trust", "list"]
        for names, parts in ((["a", "r", "a"], [b"1 of 3 files", b"3 of 3 files: 2 accepted, 1 refused\r\n"]), (["a"], [])):
            try:
                above, below = pty.openpty()
            except OSError as error:
                raise unittest.SkipTest("there is no terminal to be had (/dev/pts)") from error
            done = subprocess.run([*words, *names], stdout=subprocess.PIPE, stderr=below, cwd=self.folder, check=False)
            os.close(below)
            told = all_of(above)
            self.assertEqual(len(done.stdout.splitlines()), len(names))
            self.assertEqual([part for part in parts if part not in told], [], told)


@unittest.skipUnless(PROGRAM.exists(), "the program is not built")
class Real(unittest.TestCase):
    """Real files and files that are signed here, with the program."""

    @classmethod
    def setUpClass(cls):
        temporary = tempfile.TemporaryDirectory()
        cls.addClassCleanup(temporary.cleanup)
        cls.folder = Path(temporary.name)

    def archive(self, *words, trust=REAL / "trust.txt", folder=REAL, told=""):
        """The status of the tool and the line of each file; standard error has this in it, or nothing."""
        words = ["--trust", trust, *words]
        status, out, err = run_tool("cmsproof-archive", *words, cwd=folder)
        self.assertEqual((told in err, len(err.splitlines())), (True, told.count("\n")), err)
        return status, [line.partition(": ")[::2] for line in out.decode().splitlines()]

    def test_the_files_of_the_repository(self):
        no_token, blob = "refused signer 1 S10 NoToken", ["--content", "blob.bin"]
        rows = [
            (
                [],
                {
                    "rsa_attached_ts": "accepted",
                    "ec_attached_ts": "accepted",
                    "two_attached_ts": "accepted",
                    "gnutls_time_ts": "accepted",
                },
                0,
            ),
            (blob, {"rsa_detached_ts": "accepted"}, 0),
            (blob, {"rsa_detached": no_token, "rsa_attached_ts": "refused C5 ContentTwice"}, 1),
            ([], {"rsa_attached": no_token, "two_attached": no_token, "noattr": "refused signer 1 S1 NoSignedAttrs"}, 1),
            ([], {"rsa_detached": "refused C4 NoContent"}, 1),
            ([], {"rsa_attached_ts": "accepted", "bc_attached_default": no_token}, 1),
        ]
        for words, expected, status in rows:
            found, lines = self.archive(*words, *(name + ".p7s" for name in expected))
            self.assertEqual(found, status)
            for (name, line), (file, begins) in zip(lines, expected.items()):
                self.assertEqual((name, line[: len(begins)]), (file + ".p7s", begins))

    def test_no_file_with_a_changed_signature_is_accepted(self):
        names = []
        for file in ("rsa_attached_ts", "ec_attached_ts", "two_attached_ts", "gnutls_time_ts"):
            octets = (REAL / f"{file}.p7s").read_bytes()
            asked = subprocess.run(
                [PROGRAM, "questions", "--trust", REAL / "trust.txt", REAL / f"{file}.p7s"], capture_output=True, check=True
            )
            signatures = {line.split()[4] for line in asked.stdout.decode().splitlines()[1:]}
            for signature in map(bytes.fromhex, sorted(signatures)):
                for place in (4, len(signature) // 3, len(signature) // 2, len(signature) - 8, len(signature) - 1):
                    at = octets.index(signature) + place
                    names.append(f"{file}.{at}")
                    (self.folder / names[-1]).write_bytes(octets[:at] + bytes([octets[at] ^ 1]) + octets[at + 1 :])
        status, lines = self.archive(*names, folder=self.folder)
        self.assertGreaterEqual(len(lines), 40)
        self.assertEqual((status, [name for name, _ in lines]), (1, names))
        self.assertEqual({line.split()[-1] for _, line in lines}, {"SignatureFails"})

    def test_lists_and_files_that_are_none(self):
        (self.folder / "list").write_text("cmsproof trust 3\n")
        (self.folder / "line").write_text("cmsproof trust 2\n# a comment\nsigner - 00\n")
        rows = [
            ("list", 2, "list: trust L1 Version at line 1"),
            ("line", 2, "line: trust L2 Line at line 3"),
            ("none", 4, "failed open none: No such file or directory"),
        ]
        for trust, status, line in rows:
            words = ["--trust", trust, REAL / "noattr.p7s"]
            self.assertEqual(
                run_tool("cmsproof-archive", *words, cwd=self.folder), (status, b"", f"cmsproof-archive: {line}\n")
            )
        (self.folder / "empty").write_bytes(b"")
        (self.folder / "folder").mkdir()
        told = "folder: no file is in it\ncmsproof-archive: empty: it is empty\n"
        status, lines = self.archive("empty", "none", "folder", folder=self.folder, told=told)
        expected = [("empty", "malformed M1 End at 0"), ("none", "failed open none: No such file or directory")]
        self.assertEqual((status, lines), (4, expected))
        status, lines = self.archive("rsa_detached_ts.p7s", "--content", "none")
        self.assertEqual((status, lines), (4, [("rsa_detached_ts.p7s", "failed open none: No such file or directory")]))


STAMPS = """[tsa]
default_tsa = stamps
[stamps]
serial = serial
signer_cert = {tsa}
signer_key = {key}
crypto_device = builtin
signer_digest = {digest}
default_policy = 2.999.3
digests = sha256, sha512
ess_cert_id_alg = sha256
"""
PSS = ["-keyopt", "rsa_padding_mode:pss"]
# the kind of the signer's key, the words of `openssl cms -sign` or the algorithm of EdDSA, and further words of the tool
SIGNERS = {
    "RSA": ("rsa", ["-md", "sha256"], []),
    "RSA with SHA-1": ("rsa", ["-md", "sha1"], ["--sha1"]),
    "PSS": ("rsa", ["-md", "sha256", *PSS], []),
    "PSS with a salt of 20": ("rsa", ["-md", "sha512", *PSS, "-keyopt", "rsa_pss_saltlen:20"], []),
    "PSS with another mask": ("rsa", ["-md", "sha384", *PSS, "-keyopt", "rsa_mgf1_md:sha256"], []),
    "ECDSA P-256": ("P-256", ["-md", "sha256"], []),
    "ECDSA P-384": ("P-384", ["-md", "sha384"], []),
    "ECDSA P-521": ("P-521", ["-md", "sha512"], []),
    "DSA": ("dsa", ["-md", "sha256"], []),
    "Ed25519": ("ed25519", "1.3.101.112", []),
    "Ed448": ("ed448", "1.3.101.113", []),
}


@unittest.skipUnless(PROGRAM.exists(), "the program is not built")
class Signed(unittest.TestCase):
    """Files that are signed and stamped here, from the key to the verdict."""

    @classmethod
    def setUpClass(cls):
        cls.keys = Keys()
        cls.addClassCleanup(cls.keys.close)
        cls.folder = cls.keys.folder
        (cls.folder / "content").write_bytes(b"a letter")
        tsa = cls.keys.certificate("P-384.tsa", "-addext", "extendedKeyUsage=critical,timeStamping")
        (cls.folder / "tsa.cnf").write_text(STAMPS.format(tsa=tsa, key=cls.keys.private("P-384.tsa"), digest="sha384"))
        (cls.folder / "serial").write_text("01\n")
        words = ["--tsa", tsa]
        for kind in sorted({kind for kind, _, _ in SIGNERS.values()}):
            words += ["--signer", cls.keys.certificate(kind)]
        (cls.folder / "trust").write_bytes(run_tool("cmsproof-trust", *words)[1])
        cls.files = {name: cls.stamped(cls.signed(kind, how)) for name, (kind, how, _) in SIGNERS.items()}

    @classmethod
    def signed(cls, kind, how):
        """The file `signed`, with a signature."""
        path = cls.folder / "signed"
        if isinstance(how, str):
            path.write_bytes(signed_by_ed(cls.keys, kind, how, b"a letter"))
        else:
            openssl(
                "cms",
                "-sign",
                "-cades",
                "-binary",
                "-nodetach",
                "-outform",
                "DER",
                "-in",
                cls.folder / "content",
                "-out",
                path,
                "-signer",
                cls.folder / (kind + ".pem"),
                "-inkey",
                cls.keys.private(kind),
                *how,
            )
        return path

    @classmethod
    def stamped(cls, path):
        """The octets of the file with a token on its signature."""
        program = [PROGRAM, "request", "--of", path, "--cert", "request"]
        subprocess.run(program, cwd=cls.folder, check=True)
        openssl("ts", "-reply", "-config", "tsa.cnf", "-queryfile", "request", "-out", "response", cwd=cls.folder)
        for words in (
            ["match", "request", "response", "token"],
            ["attach", "--signer", "1", "--token", "token", path, "stamped"],
        ):
            subprocess.run([PROGRAM, *words], cwd=cls.folder, check=True, capture_output=True)
        return (cls.folder / "stamped").read_bytes()

    def verdict(self, name, octets):
        """The line of the tool."""
        (self.folder / "file").write_bytes(octets)
        words = ["--trust", "trust", *SIGNERS[name][2], "file"]
        _, out, err = run_tool("cmsproof-archive", *words, cwd=self.folder)
        return out.decode().rstrip("\n") + err

    def test_each_kind_is_accepted(self):
        for name, octets in self.files.items():
            self.assertRegex(self.verdict(name, octets), r"^file: accepted [0-9]{14}Z$", name)

    def test_no_kind_is_accepted_with_another_content(self):
        for name, octets in self.files.items():
            changed = octets.replace(b"a letter", b"a latter")
            self.assertEqual(self.verdict(name, changed), "file: refused signer 1 S6 DigestDiffers", name)

    def test_no_kind_is_accepted_with_another_signature(self):
        for name, octets in self.files.items():
            (self.folder / "file").write_bytes(octets)
            asked = subprocess.run(
                [PROGRAM, "questions", "--trust", "trust", "file"], cwd=self.folder, capture_output=True, check=True
            )
            signature = bytes.fromhex(asked.stdout.decode().splitlines()[1].split(" ")[4])
            at = octets.index(signature) + len(signature) // 2
            changed = octets[:at] + bytes([octets[at] ^ 1]) + octets[at + 1 :]
            self.assertEqual(self.verdict(name, changed), "file: refused signer 1 S9 SignatureFails", name)


if __name__ == "__main__":
    unittest.main()
