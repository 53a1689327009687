"""Tests of the package cmsproof over the library for C: what it says of a file is what the commands say."""
import datetime
import hashlib
import importlib.util
import mmap
import os
import pickle
import re
import shutil
import signal
import subprocess
import sys
import tempfile
import threading
import unittest
import zipfile
from pathlib import Path

from making import (
    INSTALLED,
    MODULES,
    PROGRAM,
    REAL,
    SOURCES,
    TOP,
    folder_of,
    imported_alone,
    is_module,
    module_name,
    modules_there,
    need_tools,
)

need_tools()

import cmsproof  # noqa: E402
from cmsproof import evidence, octets, verdicts, verifiers  # noqa: E402
from cmsproof.calls import check_several  # noqa: E402
from cmsproof.verifiers import Vouching, vouching  # noqa: E402

RECORDS = TOP / "data" / "records"
FILE, OTHER, CONTENT = REAL / "rsa_attached_ts.p7s", REAL / "rsa_attached.p7s", REAL / "blob.bin"

# threads that fork while others check and make lists; then a fork that waits for a call, in which a signal has its thread fork
FORKS = """
import os, signal, sys, threading, time
sys.path.insert(0, sys.argv[1])
import cmsproof
from cmsproof import lists
text, octets = (open(f"{sys.argv[2]}/{name}", "rb").read() for name in ("trust.txt", "rsa_attached_ts.p7s"))
trusted = [cmsproof.TrustList(text) for _ in range(4)]
def fork(*_):
    child = os.fork()
    if child == 0:
        os._exit(0 if all(len(one) for one in trusted) else 1)
    assert os.waitpid(child, 0)[1] == 0
def forks():
    for _ in range(100):
        fork()
def checks():
    while any(one.is_alive() for one in forking):
        assert all(cmsproof.check(octets, trust=one, verifier=lambda _: True).accepted for one in trusted)
def makes():
    made = []
    while any(one.is_alive() for one in forking):
        made = [cmsproof.TrustList(b"cmsproof trust 2\\n"), *made[:100]]
forking = [threading.Thread(target=forks) for _ in range(3)]
others = [threading.Thread(target=what) for what in (checks, checks, makes)]
for one in [*forking, *others]:
    one.start()
for one in [*forking, *others]:
    one.join()
lists.PATIENCE = 0.1
signal.signal(signal.SIGUSR1, fork)
with trusted[0].held.taken():
    waiting = threading.Thread(target=fork)
    waiting.start()
    time.sleep(0.5)
    signal.raise_signal(signal.SIGUSR1)
waiting.join()
print("done")
"""


def by_commands(file, content=None):
    """The line that the commands print of a file."""
    trust = ["--trust", REAL / "trust.txt"]
    asked = subprocess.run([PROGRAM, "questions", *trust, file], capture_output=True, check=False)
    questions = asked.stdout if asked.returncode == 0 else b"cmsproof questions 1\n"
    verify = INSTALLED / "cmsproof-verify"
    with tempfile.NamedTemporaryFile() as answers:
        subprocess.run([verify, "-", answers.name], input=questions, capture_output=True, check=True)
        words = [PROGRAM, "check", *trust, "--answers", answers.name, *(["--content", content] if content else []), file]
        done = subprocess.run(words, capture_output=True, check=False)
    return (done.stdout or done.stderr).decode().rstrip("\n")


class Answering(Vouching):
    """A verifier that gives the same for all questions."""

    def __init__(self, given):
        self.given = given

    def answers(self, _):
        return self.given


class Checking(unittest.TestCase):
    """Checks of real files, and of some that somebody made up."""

    def setUp(self):
        self.folder = folder_of(self)
        self.trust = cmsproof.TrustList.from_file(REAL / "trust.txt")

    def test_real_files(self):
        accepted = 0
        for file in sorted(REAL.glob("*.p7s")):
            for content in (None, CONTENT):
                with self.subTest(file=file.name, content=content):
                    verdict = cmsproof.check(file, trust=self.trust, content=content)
                    self.assertEqual(verdict.line, by_commands(file, content))
                    self.assertEqual(verdict, cmsproof.check(file.read_bytes(), trust=self.trust, content=content))
                    self.assertEqual(verdict.accepted, verdict.line.startswith("accepted "))
                    accepted += verdict.accepted
        self.assertGreater(accepted, 2)

    def test_the_parts_of_a_verdict(self):
        verdict = cmsproof.check(FILE, trust=self.trust)
        moment = datetime.datetime(2026, 11, 22, 7, 17, 59, tzinfo=datetime.timezone.utc)
        self.assertEqual((verdict.accepted, verdict.verdict, verdict.moment), (True, "accepted", moment))
        self.assertEqual((verdict.nanoseconds, verdict.code, verdict.signer), (0, None, None))
        verdict = cmsproof.check(OTHER, trust=self.trust)
        self.assertEqual((verdict.accepted, verdict.moment, verdict.code, verdict.name), (False, None, "S10", "NoToken"))
        self.assertEqual((verdict.signer, verdict.token, verdict.line), (1, None, "refused signer 1 S10 NoToken"))
        verdict = cmsproof.check(b"\x30", trust=self.trust)
        self.assertEqual((verdict.accepted, verdict.verdict, verdict.line), (False, "malformed", "malformed M1 End at 1"))
        self.assertRaises(TypeError, bool, verdict)

    def test_what_is_said_of_several_files(self):
        files, judges = [FILE.read_bytes(), OTHER.read_bytes()], [vouching("openssl") for _ in range(2)]
        said = check_several(files, trust=self.trust, verifiers=judges)
        self.assertEqual([one.line for one in said], [cmsproof.check(file, trust=self.trust).line for file in files])
        # (a refusal must not count as true where one asks whether all are accepted)
        self.assertRaises(TypeError, all, said)

    def test_moments(self):
        # (the seconds are those of GNU date; the year 0000 has a 29 February, as the year 2000)
        for seconds, nanoseconds, text in (
            (-62167219200, 0, "00000101000000Z"),
            (-62162121601, 0, "00000228235959Z"),
            (-62162121600, 1, "00000229000000.000000001Z"),
            (-62162035200, 0, "00000301000000Z"),
            (-62135596801, 999999999, "00001231235959.999999999Z"),
            (-62135596800, 0, "00010101000000Z"),
            (0, 500000000, "19700101000000.5Z"),
            (253402300799, 0, "99991231235959Z"),
        ):
            self.assertEqual(verdicts.time_text(seconds, nanoseconds), text)

    def test_who_vouches(self):
        asked = cmsproof.questions(FILE, trust=self.trust)
        self.assertEqual((asked.code, len(asked.asked) > 0), (None, True))
        for verifier in (lambda _: False, lambda _: 1, lambda _: "yes", lambda _: None):
            self.assertFalse(cmsproof.check(FILE, trust=self.trust, verifier=verifier).accepted)
        self.assertTrue(cmsproof.check(FILE, trust=self.trust, verifier=lambda _: True).accepted)
        self.assertTrue(cmsproof.check(FILE, trust=self.trust, verifier="openssl").accepted)
        self.assertRaises(ValueError, cmsproof.check, FILE, trust=self.trust, verifier="nobody")
        self.assertRaises(TypeError, cmsproof.check, FILE, trust=self.trust, verifier=None)
        self.assertEqual(cmsproof.questions(b"\x30", trust=self.trust).code, "Q1")
        with self.assertRaises(ZeroDivisionError):
            cmsproof.check(FILE, trust=self.trust, verifier=lambda _: 1 // 0 == 1)

    def test_lists(self):
        for text, code, line in ((b"", "L1", 1), (b"cmsproof trust 1\nsigner 3\n", "L2", 2)):
            with self.assertRaises(cmsproof.ListRefused) as refused:
                cmsproof.TrustList(text)
            self.assertEqual((refused.exception.code, refused.exception.line), (code, line))
        self.assertEqual(len(pickle.loads(pickle.dumps(self.trust))), len(self.trust))
        empty = cmsproof.TrustList(b"cmsproof trust 2\n")
        self.assertEqual((len(empty), cmsproof.check(FILE, trust=empty).accepted), (0, False))
        self.assertRaises(ValueError, cmsproof.TrustList.from_certificates, signers=[b"\x30\x00"])
        one = (TOP / "crates" / "real_files" / "data" / "cert_rsa_signer.der").read_bytes()
        self.assertEqual(len(cmsproof.TrustList.from_certificates(signers=[one], authorities=[one])), 2)

    def test_files_that_are_none_or_change(self):
        self.assertRaises(FileNotFoundError, cmsproof.check, self.folder / "none", trust=self.trust)
        self.assertRaises(OSError, cmsproof.check, self.folder, trust=self.trust)
        self.assertRaises(OSError, cmsproof.check, "/dev/zero", trust=self.trust)
        self.assertRaises(TypeError, cmsproof.check, 7, trust=self.trust)
        place = self.folder / "file"
        for copied in (octets.COPIED, 0):
            was, octets.COPIED = octets.COPIED, copied
            try:
                shutil.copy(FILE, place)
                self.assertTrue(cmsproof.check(place, trust=self.trust).accepted)

                def changes(_):
                    with open(place, "r+b") as file:
                        file.write(b"\x31")
                    os.utime(place, (1, 1))
                    return True

                if copied:
                    # (the copy is what is checked, and it is not changed)
                    self.assertTrue(cmsproof.check(place, trust=self.trust, verifier=changes).accepted)
                    self.assertFalse(cmsproof.check(place, trust=self.trust).accepted)
                else:
                    self.assertRaises(octets.Changed, cmsproof.check, place, trust=self.trust, verifier=changes)
                    self.check_held(place)
            finally:
                octets.COPIED = was
        (self.folder / "empty").write_bytes(b"")
        self.assertEqual(cmsproof.check(self.folder / "empty", trust=self.trust).line, "malformed M1 End at 0")

    @unittest.skipUnless(os.path.ismount("/dev/shm"), "there is no file system in memory at /dev/shm")
    def test_a_long_file_with_holes(self):
        """All its octets are there. To read it does not fill it: in memory's own file system (tmpfs(5)) it takes at most twice as much then."""
        size, page = octets.COPIED + 5, mmap.PAGESIZE
        for places in ((), (0,), (size - 1,), (size // 2 + 7,), range(0, 100 * page, 2 * page), range(3, size, size // 50)):
            whole = bytearray(size)
            with tempfile.NamedTemporaryFile(dir="/dev/shm") as file:
                file.truncate(size)
                for place in places:
                    os.pwrite(file.fileno(), b"x", place)
                    whole[place] = ord("x")
                before, descriptor = os.fstat(file.fileno()).st_blocks, os.open(file.name, os.O_RDONLY)
                file.file.close()
                found = octets.File(descriptor, "file")
                self.assertEqual(hashlib.sha256(found.octets).digest(), hashlib.sha256(whole).digest(), places)
                self.assertLessEqual(os.fstat(descriptor).st_blocks, 2 * before, places)
                found.close(), os.close(descriptor)

    def check_held(self, place):
        """A file that is mapped for whoever reads it is not read while somebody has it mapped, also once that one closed it (fcntl(2))."""
        shutil.copy(FILE, place)
        with open(place, "r+b") as file:
            held = mmap.mmap(file.fileno(), 0)
        self.assertRaises(octets.Changed, cmsproof.check, place, trust=self.trust)
        held.close()
        self.assertTrue(cmsproof.check(place, trust=self.trust).accepted)

    def test_octets_that_say_another_length(self):
        class Other(bytes):
            said = 0

            def __len__(self):
                return self.said

        file, one = Other(FILE.read_bytes()), Other(b"0")
        file.said, one.said = 4, 1 << 20
        self.assertEqual(cmsproof.check(file, trust=self.trust).line, cmsproof.check(FILE, trust=self.trust).line)
        self.assertEqual(cmsproof.check(one, trust=self.trust).line, cmsproof.check(b"0", trust=self.trust).line)
        self.assertFalse(cmsproof.check(FILE, trust=self.trust, content=one).accepted)
        # answers too, of a verifier or as they are: a list of none, behind which nothing is read
        none = Other(b"cmsproof answers 1\n")
        none.said = 1 << 16
        tokens = [TOP / "crates" / "real_files" / "data" / "rsa_attached.1.tok", b""]
        for check, words, code in ((cmsproof.check, [FILE], "S9"), (cmsproof.check_token, tokens, "K9")):
            for given in (none, b"cmsproof answers 1\n"):
                self.assertEqual(check(*words, trust=self.trust, verifier=Answering(given)).code, code)
            self.assertRaises(TypeError, check, *words, trust=self.trust, verifier=Answering("cmsproof answers 1\n"))
        said = [cmsproof.evidence.check(b"0", b"", trust=self.trust, answers=given).line for given in (none, bytes(none))]
        self.assertEqual(said, ["malformed M1 End at 1"] * 2)

    def test_a_mapping_that_says_another_length(self):
        class Other(mmap.mmap):
            def __len__(self):
                return 4

        was, octets.COPIED = octets.COPIED, 0
        try:
            with open(FILE, "rb") as file:
                ways = {"flags": mmap.MAP_PRIVATE, "prot": mmap.PROT_READ | mmap.PROT_WRITE}
                self.assertTrue(cmsproof.check(Other(file.fileno(), 0, **ways), trust=self.trust).accepted)
        finally:
            octets.COPIED = was

    def test_words_that_say_another_length(self):
        """What is said of octets whose class says another length is what is said of `bytes`: none is left out, or read behind them."""
        said, answers = 0, (RECORDS / "answers.txt").read_bytes()

        class Other(bytes):
            def __len__(self):
                return said

        class Gives:
            def __bytes__(self):
                return Other(trust.text)

        class Vouches(verifiers.Vouching):
            def answers(self, _):
                return Other(answers)

        class Word(str):
            def encode(self, *_):
                return Other(str.encode(self))

        trust = cmsproof.TrustList((RECORDS / "trust.txt").read_bytes())
        record = RECORDS / "records" / "bouncy_castle_one_document.ers"
        by = {"record": record, "data": RECORDS / "files" / "document_0", "trust": trust}
        line, request = "accepted 20150301120000Z", cmsproof.request(digest=bytes(32), policy="2.999")
        signed = record, FILE
        of_signed = evidence.check_signed(*signed, trust=trust, answers=answers).code
        calls = {
            "answers": lambda: evidence.check(**by, answers=Other(answers)).line == line,
            "verifier": lambda: evidence.check(**by, verifier=Vouches()).line == line,
            "signed": lambda: evidence.check_signed(*signed, trust=trust, answers=Other(answers)).code == of_signed,
            "at": lambda: evidence.check(**by, at=Word("20150301120000Z")).line == line,
            "list": lambda: len(cmsproof.TrustList(Gives())) == 5,
            "request": lambda: cmsproof.request(digest=bytes(32), algorithm=Word("sha256"), policy=Word("2.999")) == request,
        }
        for said in (0, 19, 1 << 26):
            for name, call in calls.items():
                with self.subTest(name, said=said):
                    self.assertTrue(call())

    def test_what_a_signal_has_a_thread_do(self):
        found = []

        def asks(*_):
            found.append(cmsproof.check(FILE, trust=self.trust).accepted)
            if os.fork() == 0:
                os._exit(0 if cmsproof.check(FILE, trust=self.trust).accepted else 1)

        before = signal.signal(signal.SIGUSR1, asks)
        try:
            # (as if it came in the middle of a call)
            with self.trust.held.taken():
                signal.raise_signal(signal.SIGUSR1)
            self.assertEqual((found, os.waitstatus_to_exitcode(os.wait()[1])), ([True], 0))
            # (nor is a list freed when Python ends, where a thread may have it)
            self.assertFalse(self.trust.held.freed.atexit)
        finally:
            signal.signal(signal.SIGUSR1, before)

    def test_threads_and_forks(self):
        found = []
        threads = [
            threading.Thread(target=lambda: found.extend(cmsproof.check(FILE, trust=self.trust).accepted for _ in range(20)))
            for _ in range(8)
        ]
        for thread in threads:
            thread.start()
        children = []
        for _ in range(4):
            child = os.fork()
            if child == 0:
                os._exit(0 if cmsproof.check(FILE, trust=self.trust).accepted else 1)
            children.append(child)
        self.assertEqual([os.waitstatus_to_exitcode(os.waitpid(child, 0)[1]) for child in children], [0] * 4)
        for thread in threads:
            thread.join()
        self.assertEqual(found, [True] * 160)

    def test_forks_of_several_threads(self):
        """Each of them ends, as every call beside it; lists that are made meanwhile, and a signal in the middle of a call, change nothing."""
        # (Python 3.12 warns of each such fork)
        words = [sys.executable, "-W", "ignore:This process:DeprecationWarning", "-c", FORKS, MODULES, REAL]
        done = subprocess.run(words, capture_output=True, timeout=120, check=False)
        self.assertEqual((done.returncode, done.stdout, done.stderr), (0, b"done\n", b""))


class Commands(unittest.TestCase):
    """The calls that are other commands; the rows of the program are answered by them in test_rows_by_library.py."""

    SMALL, GUIDE = TOP / "crates" / "real_files" / "data", TOP / "data" / "guide"

    def test_a_file_is_stamped(self):
        file, token = self.SMALL / "rsa_attached.p7s", self.SMALL / "rsa_attached.1.tok"
        asked, response = self.SMALL / "rsa_attached.1.tsq", self.SMALL / "rsa_attached.1.tsr"
        found = cmsproof.match(asked, response)
        self.assertEqual((found.done, found.line, found.octets), (True, "answers", token.read_bytes()))
        found = cmsproof.attach(file, found.octets)
        self.assertEqual((found.done, found.verdict, found.octets), (True, "attached", FILE.read_bytes()))
        found = cmsproof.compare(file, FILE)
        self.assertEqual((found.done, found.verdict, found.line), (True, "same", "same"))
        found = cmsproof.fit(FILE)
        self.assertEqual((found.done, found.line, found.signers), (True, "fits 1", 1))

    def test_refusals_are_values(self):
        found = cmsproof.match(self.SMALL / "refused.tsq", self.SMALL / "refused.tsr")
        self.assertEqual((found.done, found.verdict, found.code, found.octets), (False, "refused", "P1", None))
        found = cmsproof.attach(FILE, b"\x30")
        self.assertEqual((found.done, found.verdict, found.octets), (False, "refused", None))
        self.assertEqual(cmsproof.fit(b"\x30").line, "malformed M1 End at 1")
        self.assertEqual(cmsproof.fit(REAL / "rsa_detached.p7s").code, "C4")
        self.assertTrue(cmsproof.fit(REAL / "rsa_detached.p7s", content=CONTENT).done)
        self.assertEqual(
            cmsproof.show("signed", b"\x30"), {"verdict": "malformed", "code": "M1", "line": "malformed M1 End at 1"}
        )
        self.assertRaises(TypeError, bool, found)

    def test_requests_as_openssl_makes_them(self):
        made = cmsproof.request(CONTENT, nonce=0x7FFF, certificate=True, policy="2.999.3")
        shown = subprocess.run(
            ["openssl", "ts", "-query", "-in", "/dev/stdin", "-text"], input=made, capture_output=True, check=True
        )
        for line in ("Policy OID: 2.999.3", "Nonce: 0x7FFF", "Certificate required: yes", "Hash Algorithm: sha256"):
            self.assertIn(line, shown.stdout.decode())
        words = ["openssl", "ts", "-query", "-data", CONTENT, "-no_nonce", "-sha512"]
        plain = subprocess.run(words, capture_output=True, check=True).stdout
        digest = hashlib.sha512(CONTENT.read_bytes()).digest()
        self.assertEqual(cmsproof.request(digest=digest, algorithm="sha512"), plain)
        self.assertEqual(cmsproof.request(CONTENT, algorithm="sha512"), plain)
        self.assertEqual(cmsproof.show("request", plain)["digest"], digest.hex())

    def test_requests_of_signatures_as_openssl_makes_them(self):
        for name, signers, signer in (("rsa_attached.p7s", 1, 1), ("two_attached.p7s", 2, 1), ("two_attached.p7s", 2, 2)):
            file = REAL / name
            parsed = subprocess.run(
                ["openssl", "asn1parse", "-inform", "DER", "-in", file], capture_output=True, check=True
            ).stdout
            # (the octet strings of this depth are the content and the signatures)
            found = re.findall(rb"d=5 .* prim: OCTET STRING +\[HEX DUMP\]:(\w+)", parsed)[-signers:]
            digest = hashlib.sha256(bytes.fromhex(found[signer - 1].decode())).hexdigest()
            words = ["openssl", "ts", "-query", "-digest", digest, "-no_nonce", "-sha256", "-cert"]
            wanted = subprocess.run(words, capture_output=True, check=True).stdout
            found = cmsproof.request_of_signature(file, signer=signer, certificate=True)
            self.assertEqual((found.done, found.verdict, found.octets), (True, "requested", wanted))
        found = cmsproof.request_of_signature(REAL / "rsa_attached.p7s", signer=2)
        self.assertEqual((found.done, found.line, found.code), (False, "refused A2 NoSuchSigner", "A2"))
        found = cmsproof.request_of_signature(b"\x30")
        self.assertEqual((found.done, found.line, found.octets), (False, "malformed M1 End at 1", None))
        # (the values are judged first)
        self.assertRaises(ValueError, cmsproof.request_of_signature, b"\x30", policy="3.1")
        self.assertRaises(ValueError, cmsproof.request_of_signature, b"\x30", signer=0)

    def test_wrong_use(self):
        for words in ({}, {"data": b"", "digest": b""}, {"digest": b"short"}, {"data": b"", "algorithm": "md5"}):
            self.assertRaises(ValueError, cmsproof.request, **words)
        for words in ({"policy": "x"}, {"policy": "3.1"}, {"nonce": b"\0\5"}):
            self.assertRaises(ValueError, cmsproof.request, b"", **words)
        self.assertRaises(TypeError, cmsproof.request, digest=32)
        self.assertRaises(ValueError, cmsproof.show, "letter", b"")
        self.assertRaises(ValueError, cmsproof.attach, FILE, b"", signer=0)
        self.assertRaises(ValueError, cmsproof.compare, FILE, FILE, first_signer=-1)

    def test_what_is_shown(self):
        found = cmsproof.show("signed", REAL / "two_attached_ts.p7s")
        self.assertEqual(
            (found["signers"], [one["tokens"] for one in found["signer"]], found["version_agrees"]), (2, [1, 1], True)
        )
        certificate = self.SMALL / "cert_tsa.der"
        serial = subprocess.run(
            ["openssl", "x509", "-inform", "DER", "-in", certificate, "-noout", "-serial"],
            capture_output=True,
            text=True,
            check=True,
        ).stdout.split("=")[1]
        self.assertEqual(cmsproof.show("certificate", certificate)["serial"], serial.strip().lower())
        self.assertEqual(cmsproof.show("response", self.SMALL / "rsa_attached.1.tsr")["token"], "present")

    def test_what_is_shown_of_an_evidence_record(self):
        # (its time-stamp is an empty SEQUENCE, with two lists of one and two hash values before it)
        record = bytes.fromhex("301d 020101 3000 3016 3014 3012 a20e 3003 0401aa 3007 0401bb 0402ccdd 3000")
        found = cmsproof.show("evidence", record)
        stamp = {"chain": 1, "stamp": 1, "algorithm": None, "time": None, "lists": 2, "values": 3}
        self.assertEqual((found["version"], found["algorithms"], found["chains"], found["stamp"]), (1, 0, 1, [stamp]))
        self.assertEqual(cmsproof.show("evidence", record[:-1])["code"], "M5")


def has_pip():
    """Whether this Python makes environments with pip in them, as Debian's does with python3-venv."""
    return all(map(importlib.util.find_spec, ("venv", "ensurepip"))) and all(map(shutil.which, ("make", "cc", "ld")))


@unittest.skipUnless(has_pip(), "there is no python3-venv, or no C compiler")
class Installed(unittest.TestCase):
    """What `pip install .` puts into a fresh environment, with no network and no other word but those that keep pip from the network."""

    @classmethod
    def setUpClass(cls):
        folder = tempfile.TemporaryDirectory()
        cls.addClassCleanup(folder.cleanup)
        cls.folder, tree = Path(folder.name), Path(folder.name) / "tree"
        for name in (
            "Makefile",
            "README.md",
            "CHANGELOG.md",
            "LICENSE",
            "NOTICE",
            "pyproject.toml",
            "docs/REFUSALS.md",
            "tools/library.sh",
        ):
            (tree / name).parent.mkdir(exist_ok=True, parents=True)
            shutil.copy(TOP / name, tree / name)
        for name in ("dist", "include", "packaging", "tools/installed"):
            shutil.copytree(TOP / name, tree / name, ignore=shutil.ignore_patterns("__pycache__", "*.so.1", "*.egg-info"))
        # (the wheel is made of the source distribution, which so is shown to be whole)
        cls.run_python("-c", "import sys; sys.path.insert(0, 'packaging'); import backend; backend.build_sdist('..')", cwd=tree)
        (packed,) = cls.folder.glob("*.tar.gz")
        cls.run_python("-m", "venv", "--system-site-packages", cls.folder / "venv")
        cls.python = cls.folder / "venv" / "bin" / "python"
        try:
            cls.run_python("-c", "import cryptography", python=cls.python)
        except AssertionError as error:
            raise unittest.SkipTest("the system's Python has no library cryptography") from error
        words = "-m pip --no-input --disable-pip-version-check".split()
        cls.run_python(*words, *"wheel --no-deps --no-index --quiet -w".split(), cls.folder, packed, python=cls.python)
        (cls.wheel,) = cls.folder.glob("*.whl")
        cls.run_python(*words, *"install --no-index --quiet .".split(), cwd=tree, python=cls.python)

    @classmethod
    def run_python(cls, *words, cwd=None, python=sys.executable):
        """What Python prints, with no module but its own. A failure of it ends the tests."""
        alone = {name: value for name, value in os.environ.items() if not name.startswith(("PYTHON", "PIP_"))}
        done = subprocess.run([python, *words], cwd=cwd or cls.folder, capture_output=True, text=True, check=False, env=alone)
        if done.returncode:
            raise AssertionError(done.stdout + done.stderr)
        return done.stdout

    def test_the_lines_of_the_readme(self):
        (lines,) = re.findall(r"```python\n(trust = .*?)```", (TOP / "README.md").read_text(), re.S)
        shutil.copy(FILE, self.folder / "letter.p7s"), shutil.copy(REAL / "trust.txt", self.folder / "trusted.txt")
        said = self.run_python("-c", "import cmsproof\n" + lines, python=self.python)
        self.assertEqual(said, "True 2026-11-22 07:17:59+00:00 accepted 20261122071759Z\n")

    def test_what_is_in_it(self):
        machine = os.uname().machine
        self.assertTrue(self.wheel.name.endswith(f"-py3-none-linux_{machine}.whl"), self.wheel.name)
        with zipfile.ZipFile(self.wheel) as wheel:
            names = {name for name in wheel.namelist() if name.startswith(("cmsproof/", "cmsproof_tools/"))}
            record = wheel.read(next(name for name in wheel.namelist() if name.endswith("/RECORD"))).decode()
            self.assertEqual({line.split(",")[0] for line in record.splitlines()}, set(wheel.namelist()))
        self.assertEqual(names, modules_there() | {"cmsproof/libcmsproof.so.1", "cmsproof_tools/REFUSALS.md"})
        tools = self.folder / "venv" / "bin"
        self.assertEqual(
            {path.name for path in tools.glob("cmsproof*")}, {path.name for path in SOURCES.glob("cmsproof-*[a-z]")}
        )
        said = self.run_python(tools / "cmsproof-archive", "--trust", REAL / "trust.txt", FILE, python=self.python)
        self.assertEqual(said, f"{FILE}: accepted 20261122071759Z\n")
        for name in tools.glob("cmsproof-*"):
            told = subprocess.run(
                [name, "--version"], capture_output=True, text=True, check=True, env={"PATH": "/nowhere"}
            ).stdout
            self.assertRegex(told, rf"^{name.name} [0-9.]+\n$")


class Modules(unittest.TestCase):
    """The modules of both packages, each alone: none needs another one that needs it."""

    def test_each_module_is_imported_alone(self):
        told = imported_alone(sys.executable, MODULES, cwd=folder_of(self))
        self.assertEqual(told, {name: "" for name in map(module_name, filter(is_module, modules_there()))})


if __name__ == "__main__":
    unittest.main()
