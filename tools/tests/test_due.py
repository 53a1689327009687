"""Tests of cmsproof-archive due: which evidence records (RFC 4998) it lists, held against the proved check at that moment; records, names and
lists of a stranger; and records that cannot be judged, of which none may be left out."""
import json
import os
import random
import subprocess
import sys
import time
import unittest

from making import INSTALLED, MODULES, PROGRAM, as_nobody, folder_of, need_tools, run_tool

need_tools()

import cmsproof  # noqa: E402
from archiving import CHANGED  # noqa: E402
from cmsproof.octets import COPIED  # noqa: E402
from cmsproof_tools import due, lasting  # noqa: E402
from cmsproof_tools.texts import in_order, trust_entries  # noqa: E402
from oracle.der import element, number, oid, sequence  # noqa: E402
from oracle.identifiers import DIGEST_OIDS, TST_INFO  # noqa: E402
from samples import hierarchy as h  # noqa: E402
from samples.building import attribute, digest_attribute, names_2, octets as string, sha, signed_data  # noqa: E402
from samples.building import stamp_attribute, type_attribute  # noqa: E402
from recorded_world import AGAIN, BEGUN, DATA, FILE, MADE, RENEWED, ROWS, record_of  # noqa: E402

BY, LATER = "20300101000000Z", "20280101000000Z"
# until when revocation lists know something
KNOWN = "20261220000000Z"
GOOD, TWICE, STRANGE = MADE.record(), MADE.record(times=(BEGUN, RENEWED, AGAIN)), MADE.record(by=MADE.other)
UNKNOWN = f"W4 K10 UnknownTsa, its last time-stamp, of {BEGUN}"
SHA256 = sequence(oid(DIGEST_OIDS["sha256"]))


def token_of(attributes=None, time_text=BEGUN, extensions=b"", algorithm=SHA256, unsigned=()):
    """A token over FILE of the first authority, with other attributes behind the type and the digest, or another TSTInfo, or with unsigned
    attributes."""
    imprint = sequence(algorithm, string(sha(FILE)))
    info = sequence(number(1), oid("2.999.3"), imprint, number(9), element(0x18, time_text.encode()), extensions)
    named = [names_2(sha(MADE.clock.octets))] if attributes is None else attributes
    signer = h.signed_by(MADE.clock, [type_attribute(TST_INFO), digest_attribute(sha(info)), *named])
    return signed_data([signer.stamped(*unsigned)], info, TST_INFO, MADE.clock.octets, 3)


def record_with(*stamps, algorithms=SHA256):
    """A record of one chain of these archive time-stamps."""
    return sequence(number(1), sequence(algorithms), sequence(sequence(*stamps)))


def list_of(*entries):
    """A trust list of these entries."""
    return ("cmsproof trust 2\n" + "".join(entry + "\n" for entry in entries)).encode()


def tsa(who, first="-", last="-"):
    """The entry of an authority."""
    return f"tsa {first} {last} {who.octets.hex()}"


def known(who, serves, last=KNOWN, said=None):
    """The entry of an authority that ends with what is known, and above it the line that says until when its certificate serves."""
    return f"# known until {said or last}, serves until {serves}\n{tsa(who, last=last)}"


class WithRecords(unittest.TestCase):
    """A folder with a trust list, in which cmsproof-archive due is asked about `records`."""

    def setUp(self):
        self.folder = folder_of(self)
        (self.folder / "list").write_bytes(MADE.list)
        (self.folder / "records").mkdir()

    def put(self, name, given=GOOD):
        """Makes a file."""
        path = os.path.join(os.fsencode(self.folder), os.fsencode(name))
        os.makedirs(os.path.dirname(path), exist_ok=True)
        with open(path, "wb") as file:
            file.write(given)

    def due(self, *words, by=("--by", BY), trust="list", tool=("cmsproof-archive", "due"), **rest):
        """The status of the tool, its lines, and its standard error."""
        status, out, err = run_tool(*tool, "--trust", trust, *by, *words, cwd=self.folder, **rest)
        return status, out.decode().splitlines(), err


class Listed(WithRecords):
    """What is listed, and how."""

    SEVERAL = {"a": GOOD, "b/c": TWICE, "b/d.e": STRANGE, "f": b"no record", "g": GOOD + b"\0", "h": MADE.record(b"another\n")}
    LINES = [
        f"due now records/b/d.e.ers: {UNKNOWN}",
        "due now records/f.ers: malformed M6 Tag at 0",
        f"due now records/g.ers: malformed M7 Trailing at {len(GOOD)}",
    ]

    def put_several(self):
        """The records of SEVERAL, and a file that is none."""
        for name, record in self.SEVERAL.items():
            self.put(f"records/{name}.ers", record)
        self.put("records/README", b"what this is")

    def test_what_lasts_has_no_line(self):
        self.put_several()
        for jobs in ("1", "3"):
            status, lines, err = self.due("--jobs", jobs, "records")
            self.assertEqual((status, lines), (2, self.LINES))
            others = "1 other files in the folders do not end in .ers"
            said = f"6 records: 0 due by {BY}, 3 due now, which cannot be judged; {others}"
            self.assertEqual(err, f"cmsproof-archive due: {said}\n")
        self.assertEqual(self.due("records/a.ers", "records/b")[:2], (1, self.LINES[:1]))
        self.assertEqual(self.due("records/a.ers", "records/h.ers")[:2], (0, []))

    def test_what_ends(self):
        """By the period of the entry, by the certificate, and by algorithms; the authority of the last time-stamp counts alone."""
        until = cmsproof.show("certificate", MADE.clock.octets)["until"]
        self.put("records/a.ers"), self.put("records/b.ers", TWICE)
        both, two = [tsa(MADE.clock), tsa(MADE.second)], [f"due {LATER} records/{one}.ers" for one in "ab"]
        for entries, words, expected in (
            ([tsa(MADE.clock, last=LATER), tsa(MADE.second)], [], [f"due {LATER} records/a.ers"]),
            ([tsa(MADE.clock), tsa(MADE.second, last=LATER)], [], [f"due {LATER} records/b.ers"]),
            ([tsa(MADE.clock, last=BY), tsa(MADE.second, last=BY)], [], []),
            ([tsa(MADE.clock, last=LATER), tsa(MADE.clock), tsa(MADE.second)], [], []),
            (
                [tsa(MADE.clock, last=LATER), tsa(MADE.clock, "20220101000000Z"), tsa(MADE.second)],
                [],
                [f"due {LATER} records/a.ers"],
            ),
            (both, ["--end", f"sha256={LATER}"], two),
            (both, ["--end", f"sha512={LATER}"], []),
            (both, ["--end", f"sha256={LATER}", "--end", "sha256=20290101000000Z"], two),
        ):
            self.put("list", list_of(*entries))
            status, lines, err = self.due(*words, "records")
            self.assertEqual((status, lines), (1 if expected else 0, expected), (entries, err))
        self.put("list", list_of(tsa(MADE.clock)))
        self.assertEqual(self.due("records/a.ers", by=("--by", until))[:2], (0, []))
        just = f"{until[:14]}.000000001Z"
        self.assertEqual(self.due("records/a.ers", by=("--by", just))[:2], (1, [f"due {until} records/a.ers"]))

    def test_until_when_certificates_serve(self):
        """What is due goes by the line above an entry, if that is of the entry; the time-stamp is of a time at which the entry holds; and a
        check goes by the entry alone."""
        self.put("records/a.ers")
        late, short, entry = *([f"due {last} records/a.ers"] for last in (LATER, KNOWN)), tsa(MADE.clock, last=KNOWN)
        outside = [f"due now records/a.ers: W4 K13 Period, its last time-stamp, of {BEGUN}"]
        for text, expected in (
            (known(MADE.clock, LATER), late),
            (known(MADE.clock, LATER).replace("\n", "\r\n"), late),
            (known(MADE.clock, "-"), []),
            (known(MADE.clock, "99991231235959Z"), []),
            (f"{known(MADE.clock, LATER)}\n{entry}", late),
            (f"{entry}\n{known(MADE.clock, LATER)}", late),
            # (the last time-stamp is of a time at which only the second entry holds)
            (f"{known(MADE.clock, '-', '20210101000000Z')}\n{entry}", short),
            (known(MADE.clock, "-", "20210101000000Z"), outside),
            (known(MADE.clock, BEGUN, BEGUN), [f"due {BEGUN} records/a.ers"]),
            # what is no such line, or none of this entry
            (known(MADE.clock, LATER, said="20261221000000Z"), short),
            (known(MADE.clock, LATER).replace("\n", "\n#\n"), short),
            (known(MADE.clock, LATER).replace("\n", "\n\n"), short),
            (known(MADE.clock, LATER).replace(", ", ","), short),
            (known(MADE.clock, f"{LATER} "), short),
            (known(MADE.clock, "20281301000000Z"), short),
            (known(MADE.clock, LATER).replace("# ", "#"), short),
        ):
            self.put("list", list_of(text))
            status, lines, err = self.due("records")
            self.assertEqual((status, lines), (1 if expected else 0, expected), (text[:80], err))
            trust, plain = (cmsproof.TrustList(list_of(*some)) for some in ([text], self.entries_of(text)))
            for at in (None, KNOWN, "20261220000000.000000001Z", LATER):
                said = cmsproof.evidence.check(GOOD, FILE, trust=trust, at=at)
                self.assertEqual(said.line, cmsproof.evidence.check(GOOD, FILE, trust=plain, at=at).line)
                self.assertEqual(said.accepted, expected != outside and (at is None or (at == KNOWN and "20261220" in text)))

    def entries_of(self, text):
        """The lines of a list that the program reads."""
        return [line for line in text.split("\n") if line.startswith("tsa ")]

    def test_a_list_made_with_revocation_lists(self):
        """An authority whose issuer's revocation list is one of 30 days serves until its certificate ends: the list that is made says both,
        and that which is migrated only what is known."""
        for name, octets in (
            ("clocks.pem", MADE.root.certificate.public_bytes(h.serialization.Encoding.PEM)),
            ("clocks.crl", h.revocation_list(MADE.root, this="2026-11-20", next="2026-12-20")),
            ("letter.p7s", h.signed(MADE.anna, [(MADE.clock, "20261121000000Z")], [MADE.clock.octets])),
            ("records/a.ers", GOOD),
        ):
            self.put(name, octets)
        words = ["--tsa-issuer", "clocks.pem", "--crl", "clocks.crl", "--from-files", "letter.p7s"]
        status, made, err = run_tool("cmsproof-trust", *words, cwd=self.folder)
        self.assertEqual(status, 0, err)
        entry, ends = f"tsa 20200101000000Z {KNOWN} {MADE.clock.octets.hex()}\n", "20400101000000Z"
        self.assertIn(f"\n# known until {KNOWN}, serves until {ends}\n{entry}", made.decode())
        self.put("list", made)
        self.assertEqual(self.due("records")[:2], (0, []))
        self.assertEqual(self.due("records", by=("--by", ends))[:2], (0, []))
        self.assertEqual(self.due("records", by=("--by", "20400101000001Z"))[:2], (1, [f"due {ends} records/a.ers"]))
        if PROGRAM.exists():
            subprocess.run([PROGRAM, "migrate", "list", "list2"], cwd=self.folder, check=True)
            self.assertEqual(self.due("records", trust="list2")[:2], (1, [f"due {KNOWN} records/a.ers"]))

    def test_what_no_check_accepts(self):
        """What the last time-stamp fails is named, by the rules of the check."""
        tsa_info = element(0xA1, sequence(oid("2.999.7"), element(1, b"\xff"), string(b"")))
        sha3 = sequence(oid("2.16.840.1.101.3.4.2.8"))
        for given, reason in (
            (record_with(sequence(token_of([]))), "W4 K11 NotNamed"),
            (record_with(sequence(token_of([names_2(sha(b"another"))]))), "W4 K11 NotNamed"),
            (record_with(sequence(token_of(extensions=tsa_info))), "W4 K7 CriticalExtension"),
            (record_with(sequence(token_of(algorithm=sha3))), "W4 K8 ImprintAlgorithm"),
            (record_with(sequence(element(0xA0, sha3[2:]), token_of())), "W1 Algorithm 2.16.840.1.101.3.4.2.8"),
            (record_with(sequence(token_of(time_text="20310101000000Z"))), f"W5 Order by {BY}"),
            (record_with(sequence(token_of(time_text="19500101000000Z"))), "W4 K13 Period"),
        ):
            self.put("records/a.ers", given)
            status, (line,), _ = self.due("records")
            self.assertEqual(status, 1)
            self.assertTrue(line.startswith(f"due now records/a.ers: {reason}, its last time-stamp, of "), line)
            self.assertFalse(cmsproof.evidence.check(given, FILE, trust=cmsproof.TrustList(MADE.list), at=BY).accepted, reason)
        no_token = record_with(sequence(sequence(oid("2.999.1"), element(0xA0, string(b"x")))))
        self.put("records/a.ers", no_token)
        status, lines, _ = self.due("records")
        self.assertEqual((status, lines), (1, ["due now records/a.ers: its last time-stamp is no token that can be read"]))

    def test_months(self):
        for now, months, expected in (
            (0, 0, "19700101000000Z"),
            (0, 12, "19710101000000Z"),
            (1614470400 + 2 * 86400, 11, "20220202000000Z"),
            (1612051200, 1, "20210228000000Z"),
            (1706659200, 1, "20240229000000Z"),
            (0, 999999, "99991231235959Z"),
        ):
            self.assertEqual(due.months_on(now, months), expected)
        before = time.time()
        self.put("records/a.ers")
        status, lines, err = self.due("records", by=("--months", "1"))
        self.assertEqual((status, lines), (0, []))
        moment = err.split(" by ")[1].strip()
        self.assertTrue(in_order(due.months_on(before, 1), moment) and in_order(moment, due.months_on(time.time(), 1)))

    def test_words(self):
        self.put("records/a.ers")
        for words in (["--by", BY, "--months", "1"], ["--months", "-1"], ["--months", "x"], ["--by", "2030"]):
            self.assertEqual(self.due("records", by=words)[:2], (3, []), words)
        self.assertEqual(self.due(by=["--help"])[0], 0)
        # without one of these words it is a file of this name, as it was
        status, lines, _ = self.due("due", by=[], tool=("cmsproof-archive",))
        self.assertEqual((status, lines), (4, ["due: failed open due: No such file or directory"]))
        self.put("due", GOOD)
        status, lines, _ = self.due("./due", tool=("cmsproof-archive", "due"))
        self.assertEqual((status, lines), (0, []))
        status, _, err = self.due()
        self.assertEqual((status, err.count("no record is named")), (3, 1))
        # (of two moments the later one would leave nothing out)
        for words in (("--by", BY, "--by", LATER), ("--months", "90", "--months", "0")):
            status, lines, err = self.due("records", by=words)
            self.assertEqual((status, lines, f"{words[0]} is said twice" in err), (3, [], True), err)
        (self.folder / "empty").mkdir()
        status, lines, err = self.due("empty")
        self.assertEqual((status, lines), (3, []))
        self.assertIn("empty: no record is in it\n", err)
        self.put("list", b"no list")
        self.assertEqual(self.due("records")[:2], (2, []))
        self.assertEqual(self.due("records", trust="none")[:2], (4, []))

    def test_json(self):
        self.put_several(), self.put(b"records/\xff.ers", STRANGE)
        self.put("list", list_of(tsa(MADE.clock, last=LATER), tsa(MADE.second)))
        status, lines, _ = self.due("--json", "records")
        *rows, last = map(json.loads, lines)
        self.assertEqual([row["due"] for row in rows], [LATER, "now", "now", "now", LATER, "now"])
        self.assertEqual((rows[1]["reason"], rows[1]["status"], rows[2]["status"]), (UNKNOWN, 1, 2))
        self.assertEqual(rows[-1]["octets"], b"records/\xff.ers".hex())
        counts = {"lasting": 1, "due": 2, "unjudged": 4}
        self.assertEqual(last, {"by": BY, "files": 7, **counts, "worst": status})


class Named(WithRecords):
    """Which records are judged: none is left out without a line."""

    def test_what_is_no_regular_file(self):
        self.put("records/a.ers"), os.symlink("a.ers", self.folder / "records" / "b.ers")
        os.mkfifo(self.folder / "records" / "c.ers"), os.symlink("a.ers", self.folder / "records" / "other")
        (self.folder / "records" / "d.ers").mkdir(), self.put("records/d.ers/e.ers")
        os.symlink("none", self.folder / "records" / "f.ers")
        status, lines, err = self.due("records", timeout=60)
        self.assertEqual(
            (status, lines),
            (
                4,
                [
                    "due now records/b.ers: it is a link, and is not read",
                    "due now records/c.ers: it is no regular file, and is not read",
                    "due now records/f.ers: it is a link, and is not read",
                ],
            ),
        )
        self.assertIn("records/other: skipped: it is a link\n", err)
        self.assertIn("5 records: 0 due", err)
        # what is named itself is opened, as elsewhere
        self.assertEqual(self.due("records/b.ers")[:2], (0, []))
        expected = "due now records/c.ers: failed open records/c.ers: it is no regular file"
        self.assertEqual(self.due("records/c.ers", timeout=60)[:2], (4, [expected]))
        self.assertEqual(self.due("none.ers")[:2], (4, ["due now none.ers: failed open none.ers: No such file or directory"]))

    def test_names_of_a_stranger(self):
        """No name makes a line of its own, or ends one as another does."""
        names = ["records/a\nb.ers", "records/due 20300101000000Z x.ers", "records/c: malformed.ers", b"records/\xe9.ers"]
        for name in names:
            self.put(name, STRANGE)
        status, lines, _ = self.due("records")
        shown = ["a\\nb", "c:\\x20malformed", "due 20300101000000Z x", "\\udce9"]
        self.assertEqual((status, lines), (1, [f"due now records/{one}.ers: {UNKNOWN}" for one in shown]))
        given = b"".join(os.fsencode(name) + b"\0" for name in names)
        self.assertEqual(len(self.due("--null", "-", said=given)[1]), 4)
        self.put("names", given)
        self.assertEqual(len(self.due("--null", "--files-from", "names")[1]), 4)

    def test_what_cannot_be_read(self):
        who = as_nobody()
        self.put("records/a.ers"), self.put("records/b/c.ers"), self.put("records/d.ers", STRANGE)
        os.chmod(self.folder, 0o755), os.chmod(self.folder / "records" / "a.ers", 0), os.chmod(self.folder / "records" / "b", 0)
        status, lines, _ = self.due("records", **who)
        os.chmod(self.folder / "records" / "b", 0o755)
        expected = ["due now records/a.ers: failed open records/a.ers: Permission denied", "due now records/b: failed read records/b"]
        self.assertEqual((status, lines[0], lines[2:]), (4, expected[0], [f"due now records/d.ers: {UNKNOWN}"]))
        self.assertTrue(lines[1].startswith("due now records/b: failed "), lines)

    def test_a_worker_that_ends(self):
        code = (
            "import cmsproof_tools.due as due\n"
            "was = due.judged\n"
            "def judged(by, unfit, is_json, name):\n"
            "    os.kill(os.getpid(), 9) if 'b.ers' in name else None\n"
            "    return was(by, unfit, is_json, name)\n"
            "due.judged = judged\n"
        )
        (self.folder / "changed.py").write_text(CHANGED.format(installed=str(MODULES), code=code))
        for name in "abc":
            self.put(f"records/{name}.ers")
        status, lines, err = self.due("records", tool=(self.folder / "changed.py", "due"))
        self.assertEqual(status, 4, err)
        self.assertEqual(lines, ["due now records/b.ers: failed worker: it was ended by signal 9"])

    @unittest.skipUnless(os.path.exists("/dev/full"), "there is no /dev/full")
    def test_a_full_disk(self):
        self.put("records/a.ers", STRANGE)
        with open("/dev/full", "wb") as full:
            for words in ({"stdout": full}, {"stderr": full}):
                rest = {"stdout": subprocess.DEVNULL, "stderr": subprocess.DEVNULL, **words}
                tool = [sys.executable, INSTALLED / "cmsproof-archive", "due", "--trust", "list", "--by", BY, "records"]
                self.assertEqual(subprocess.run(tool, cwd=self.folder, check=False, **rest).returncode, 4)


class Held(unittest.TestCase):
    """What is listed is what the proved check refuses at that moment, and nothing else."""

    MOMENTS = [f"{year}{day}120000Z" for year in range(2009, 2052, 2) for day in ("0101", "0501")]
    MOMENTS += ["20180101000000Z", "20180101000000.000000001Z", "20171231235959.999Z"]
    ALGORITHMS = ("sha1", "sha224", "sha256", "sha384", "sha512")

    def made(self, chance):
        """A trust list of the entries in data/records, each dropped, doubled, cut, cut for what is known alone, or in the other role."""
        lines = []
        for entry in trust_entries((DATA / "trust.txt").read_bytes()):
            for _ in range(chance.choice([0, 1, 1, 1, 2, 2])):
                first, last = (chance.choice(["-", "-", chance.choice(self.MOMENTS)]) for _ in range(2))
                role = chance.choice(["tsa"] * 7 + ["signer"])
                if "-" in (first, last) or in_order(first, last):
                    above = f"# known until {last}, serves until {chance.choice(['-', *self.MOMENTS])}\n"
                    lines.append(f"{chance.choice(['', above])}{role} {first} {last} {entry.octets.hex()}")
        chance.shuffle(lines)
        return cmsproof.TrustList(list_of(*lines)) if lines else self.made(chance)

    def ahead(self, trust, time):
        """The list in which what holds at a time ends when it serves."""
        rows = []
        for one in trust_entries(trust.text):
            holds = (one.first == "-" or in_order(one.first, time)) and (one.last == "-" or in_order(time, one.last))
            last = one.serves if one.serves and holds else one.last
            if "-" in (one.first, last) or in_order(one.first, last):
                rows.append(f"{one.role} {one.first} {last} {one.octets.hex()}")
        return cmsproof.TrustList(list_of(*rows))

    def compared(self, octets, data, trust, ends, moment):
        """Compares what is said of a record, and answers how."""
        own = cmsproof.evidence.check(octets, data, trust=trust, ends=ends).accepted
        ahead = self.ahead(trust, lasting.last_of(octets).time)
        try:
            end = lasting.end_of(octets, lasting.By(trust, ends, moment))
            said = "lasts" if in_order(moment, end) else "due"
        except lasting.Unjudged:
            end, said = "", "now"

        def accepted(at):
            return cmsproof.evidence.check(octets, data, trust=ahead, ends=ends, at=at).accepted

        self.assertEqual(accepted(moment), own and said == "lasts", (moment, ends))
        if own and said == "due" and accepted(end):
            fraction = end[15:-1].ljust(9, "0")
            self.assertNotEqual(fraction, "999999999")
            self.assertFalse(accepted(f"{end[:14]}.{int(fraction) + 1:09}".rstrip("0") + "Z"))
        return own, said

    def test_each_record_under_changed_lists(self):
        chance, found = random.Random(4998), set()
        pairs = sorted({(record, document) for record, document, _, _ in ROWS})
        for _ in range(25):
            trust = self.made(chance)
            ends = {name: chance.choice(self.MOMENTS) for name in self.ALGORITHMS if chance.random() < 0.4}
            for record, document in pairs:
                data, moment = (DATA / "files" / document).read_bytes(), chance.choice(self.MOMENTS)
                found.add(self.compared(record_of(record), data, trust, ends, moment))
        self.assertEqual(found, {(own, said) for own in (True, False) for said in ("lasts", "due", "now")})

    def test_two_certificates_of_one_key(self):
        """Under an entry of the same key and number whose certificate the token does not name, it does not last."""
        renewed = h.issue("Clock", MADE.root, [h.STAMPING])
        for entries in (
            [tsa(MADE.clock, last=LATER), tsa(renewed)],
            [tsa(MADE.clock, last=LATER), tsa(MADE.second), tsa(MADE.other)],
            [tsa(MADE.clock, last=LATER), f"signer - - {MADE.clock.octets.hex()}"],
        ):
            trust = cmsproof.TrustList(list_of(*entries))
            self.assertEqual(self.compared(GOOD, FILE, trust, {}, BY), (True, "due"))
            self.assertEqual(self.compared(GOOD, FILE, trust, {}, LATER), (True, "lasts"))

    def test_tokens_in_the_unsigned_attributes_of_a_token(self):
        """Anybody can put them there, and a check of a record looks at none. What the token fails itself counts still."""
        trust, other, inner = list_of(tsa(MADE.clock, last=LATER)), list_of(tsa(MADE.other)), token_of()
        # (the third is what the token contains, behind its four octets of identifier and length)
        for value in (inner, inner[:-1] + b"\x01", inner[4:], sequence(), string(b"x")):
            unsigned = [stamp_attribute(value)]
            good, at = token_of(unsigned=unsigned), element(0xA1, *unsigned)
            last = good.index(at) - 1
            spoilt = good[:last] + bytes([good[last] ^ 1]) + good[last + 1 :]
            for token, entries, moment, expected in (
                (good, trust, LATER, (True, "lasts")),
                (good, trust, BY, (True, "due")),
                (good, other, LATER, (False, "now")),
                (spoilt, trust, LATER, (False, "now")),
                (token_of([], unsigned=unsigned), trust, LATER, (False, "now")),
                (token_of([names_2(sha(b"another"))], unsigned=unsigned), trust, LATER, (False, "now")),
                (token_of(time_text="19500101000000Z", unsigned=unsigned), trust, LATER, (False, "now")),
            ):
                record = record_with(sequence(token))
                self.assertEqual(self.compared(record, FILE, cmsproof.TrustList(entries), {}, moment), expected)

    def test_a_name_of_a_certificate_within_another_attribute(self):
        """It is none of the token: a check says W4 K11."""
        trust, named = cmsproof.TrustList(list_of(tsa(MADE.clock))), names_2(sha(MADE.clock.octets))
        for name in lasting.NAMING:
            for value in (name, named, string(name), sequence(name, element(0x31))):
                token = token_of([attribute("2.999.8", value)])
                self.assertIn(name if value != named else named, token)
                self.assertEqual(self.compared(record_with(sequence(token)), FILE, trust, {}, BY), (False, "now"))
                said = cmsproof.evidence.check(record_with(sequence(token)), FILE, trust=trust, at=BY).name
                self.assertEqual(said, "K11 NotNamed")
                with self.assertRaisesRegex(lasting.Unjudged, "^W4 K11 NotNamed, "):
                    lasting.end_of(record_with(sequence(token)), lasting.By(trust, {}, BY))
                both = record_with(sequence(token_of([attribute("2.999.8", value), named])))
                self.assertEqual(self.compared(both, FILE, trust, {}, BY), (True, "lasts"))

    def test_the_questions_of_other_stamps_do_not_count(self):
        """The last time-stamp has the signature and the attributes of the one before, which holds, and says another time."""
        first, at = MADE.token(FILE, BEGUN, MADE.clock), BEGUN.encode()
        self.assertEqual(first.count(at), 1)
        record = record_with(sequence(first), sequence(first.replace(at, b"20260501100000Z")))
        trust = cmsproof.TrustList(MADE.list)
        with self.assertRaisesRegex(lasting.Unjudged, "^W4 K5 S6 DigestDiffers, its last time-stamp, of 20260501100000Z$"):
            lasting.end_of(record, lasting.By(trust, {}, BY))


def calls_of(done):
    """How many functions are called, and generators gone on with, while this is done."""
    count = 0

    def counted(_, event, __):
        nonlocal count
        count += event in ("call", "c_call")

    before = sys.getprofile()
    sys.setprofile(counted)
    try:
        done()
    finally:
        sys.setprofile(before)
    return count


def seconds_of(done):
    """The time of this processor that this takes."""
    begun = time.process_time()
    done()
    return time.process_time() - begun


class Large(WithRecords):
    """Records that a stranger made long."""

    def test_many_stamps(self):
        """What a record takes grows with its octets: the calls, which are counted, and the time, of which quadratic would be 400 times as
        much."""
        token, few, many = sequence(MADE.token(FILE, BEGUN, MADE.clock)), 2000, 40000
        calls, times = [], []
        for count in (few, many):
            record = record_with(*[token] * count)
            calls.append(calls_of(lambda record=record: self.look_at(record)))
            times.append(min(seconds_of(lambda record=record: self.look_at(record)) for _ in range(3)))
        self.assertGreater(calls[0], few)
        self.assertLessEqual(calls[1], many // few * calls[0])
        self.assertLess(times[1], 4 * many // few * times[0])

    def look_at(self, record):
        """Looks until when a record serves, and the same without its last octet."""
        with self.assertRaises(lasting.Unjudged):
            lasting.end_of(record[:-1], lasting.By(cmsproof.TrustList(MADE.list), {}, BY))
        lasting.end_of(record, lasting.By(cmsproof.TrustList(MADE.list), {}, BY))

    def test_one_that_is_mapped(self):
        values = element(0x30, *[string(bytes(32))] * (COPIED // 34 + 1000))
        tree = element(0xA2, values)
        self.put("records/a.ers", record_with(sequence(tree, token_of())))
        self.assertGreater(os.path.getsize(self.folder / "records" / "a.ers"), COPIED)
        self.assertEqual(self.due("records", timeout=300)[:2], (0, []))


class Kept(unittest.TestCase):
    def test_a_token_is_judged_once(self):
        """What is said of a token that passes is kept, by all its octets; one that fails is judged each time."""
        by = lasting.By(cmsproof.TrustList((DATA / "trust.txt").read_bytes()), {}, "20261231000000Z")
        record, asked, judge = (DATA / "records" / "bouncy_castle_one_document.ers").read_bytes(), [], by.passed
        by.passed = lambda last: asked.append(last.token) or judge(last)
        ends = {lasting.end_of(record, by) for _ in range(3)}
        self.assertEqual((len(ends), len(asked)), (1, 1))
        changed = record[:-1] + bytes([record[-1] ^ 1])
        for _ in range(2):
            with self.assertRaises(lasting.Unjudged) as raised:
                lasting.end_of(changed, by)
            self.assertIn("W4 K14 SignatureFails", str(raised.exception))
        self.assertEqual((len(asked), len(set(asked)), len(by.kept)), (3, 2, 1))


if __name__ == "__main__":
    unittest.main()
