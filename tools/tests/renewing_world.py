"""What the tests of cmsproof-archive renew share: an authority that answers at once, and a folder with records, some of which are due."""
import hashlib
import os
import shutil
import subprocess
import sys
import time
import unittest

from making import MODULES, PROGRAM, need_tools, run_tool

need_tools()

import cmsproof  # noqa: E402
from cmsproof_tools.rows import time_text  # noqa: E402
from oracle.der import element, elements, number, oid, only, sequence  # noqa: E402
from oracle.identifiers import DIGEST_OIDS, TST_INFO  # noqa: E402
from samples import hierarchy as h  # noqa: E402
from samples.building import digest_attribute, names_2, octets as string, sha, signed_data, type_attribute  # noqa: E402
from recorded_world import BEGUN, FILE, MADE, RENEWED  # noqa: E402
from test_due import BY, LATER, list_of, record_with, tsa  # noqa: E402
from stamping_world import REPLY, WithAuthority  # noqa: E402

GOOD, OTHER, STRANGE = MADE.record(), MADE.record(times=(RENEWED,)), MADE.record(by=MADE.other)
# the first authority serves until 2028, the second one for longer
LIST = list_of(tsa(MADE.clock, last=LATER), tsa(MADE.second))
SHA256, SHA512 = (sequence(oid(DIGEST_OIDS[name])) for name in ("sha256", "sha512"))
GRANTED = sequence(number(0))


def knows_renewing():
    """Whether the program has the command."""
    if not PROGRAM.exists():
        return False
    return subprocess.run([PROGRAM, "evidence", "renew", "--help"], capture_output=True, check=False).returncode == 0


def now(seconds=0):
    """The moment so many seconds from now."""
    return time_text(int(time.time()) + seconds)


def response_to(request, at="", by=MADE.second, algorithm="sha256"):
    """The answer of an authority to a request, with a token of this time."""
    shown = cmsproof.show("request", request)
    imprint = sequence(sequence(oid(shown["algorithm"])), string(bytes.fromhex(shown["digest"])))
    nonce = element(2, bytes.fromhex(shown["nonce"]))
    info = sequence(number(1), oid("2.999.3"), imprint, number(9), element(0x18, (at or now()).encode()), nonce)
    signer = h.signed_by(by, [type_attribute(TST_INFO), digest_attribute(sha(info)), names_2(sha(by.octets))])
    return sequence(GRANTED, signed_data([signer.stamped()], info, TST_INFO, by.octets, 3))


def chains_of(record):
    """The octets of each archive time-stamp of a record, chain by chain."""
    chains = elements(only(record, 0x30).body())[-1]
    return [[one.whole() for one in elements(chain.body())] for chain in elements(chains.body())]


def by_sha512(data):
    """A record of octets, by SHA-512."""
    imprint = sequence(SHA512, string(hashlib.sha512(data).digest()))
    info = sequence(number(1), oid("2.999.3"), imprint, number(9), element(0x18, BEGUN.encode()))
    signer = h.signed_by(MADE.clock, [type_attribute(TST_INFO), digest_attribute(sha(info)), names_2(sha(MADE.clock.octets))])
    token = signed_data([signer.stamped()], info, TST_INFO, MADE.clock.octets, 3)
    return record_with(sequence(token), algorithms=SHA512)


@unittest.skipUnless(knows_renewing(), "the program renews no evidence records")
class WithRecords(WithAuthority):
    """Records in `records`, of which those of GOOD are due, and an authority that answers at once."""

    def setUp(self):
        super().setUp()
        self.put("list", LIST), shutil.rmtree(self.folder / "files"), (self.folder / "records").mkdir()
        self.authority.answer = self.granting()
        for name in ("a", "b/c.tif", "b/d"):
            self.put(f"files/{name}", FILE), self.put(f"records/{name}.ers", GOOD)
        self.put("files/e", FILE), self.put("records/e.ers", OTHER)

    def granting(self, *words, **rest):
        """What an authority answers that grants all."""
        return lambda request, _: (200, REPLY, response_to(request, *words, **rest))

    def words(self, *words, by=("--by", BY), trust="list"):
        """The words of a run: these, and those that are not among them."""
        usual = {"--records": "records", "--tsa": self.authority.address + "/stamp", "--state": "state"}
        more = [part for word, value in usual.items() if word not in words for part in (word, value)]
        return ["renew", *more, "--trust", trust, "--program", PROGRAM, *by, *words]

    def renew(self, *words, **rest):
        """The status of the tool, its lines, and its standard error."""
        return self.stamp(*words, **rest)

    def stamp(self, *words, **rest):
        """As `renew`. No proxy of this machine is used."""
        how = {key: rest.pop(key) for key in ("by", "trust") if key in rest}
        env = {name: value for name, value in os.environ.items() if not name.lower().endswith("_proxy")}
        status, out, err = run_tool("cmsproof-archive", *self.words(*words, **how), cwd=self.folder, env=env, **rest)
        return status, out.decode().splitlines(), err

    def changed_run(self, code, *words):
        """What is said by the tool with a part of it changed by this code."""
        text = f"import sys\nsys.path[:0] = [{str(MODULES)!r}]\nfrom cmsproof_tools import renewing, running\n{code}\n"
        (self.folder / "changed.py").write_text(text + "running.start('archive')\n")
        words = [sys.executable, self.folder / "changed.py", *map(str, self.words(*words))]
        done = subprocess.run(words, cwd=self.folder, capture_output=True, check=False, text=True)
        return done.returncode, done.stdout.splitlines(), done.stderr

    def record(self, name):
        """The octets of a record."""
        return (self.folder / "records" / f"{name}.ers").read_bytes()

    def assert_renewed(self, *names, old=GOOD):
        """Each of these has one time-stamp more, and is as it was before that; and it shows its file still when others no longer serve."""
        for name in names:
            before, after = chains_of(old), chains_of(self.record(name))
            self.assertEqual((after[:-1], after[-1][:-1]), (before[:-1], before[-1]), name)
        files = [f"files/{name}" for name in names]
        words = ["--trust", "list", "--records", "records", "--under", "files", "--at", BY, *files]
        status, out, err = run_tool("cmsproof-archive", *words, cwd=self.folder)
        self.assertEqual((status, out.count(b": evidenced ")), (0, len(names)), (out, err))

    def assert_as_before(self, *names, old=GOOD):
        """Each of these is as it was."""
        for name in names:
            self.assertEqual(self.record(name), old, name)

    def assert_nothing_done(self, sent):
        """All records are as they were, no answer is kept, and so many requests were sent."""
        self.assert_as_before("a", "b/c.tif", "b/d"), self.assert_as_before("e", old=OTHER)
        self.assertEqual(len(self.authority.asked), sent)
        for name in ("response.tsr", "token.tok", "done"):
            self.assertFalse((self.folder / "state" / "1" / name).exists(), name)
