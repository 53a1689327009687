#!/usr/bin/env python3
"""Mutates real files without end and tries the built program on them.

    python3 tools/trying/fuzz.py [PROGRAM] [--minutes M] [--seed S] [--files FOLDER ..] [--keep FOLDER]

PROGRAM is ./cmsproof by default, M is 1, S is chosen and printed. The files are those of data/real and crates/real_files/data:
SignedData and tokens (.p7s, .tok), responses (.tsr), requests (.tsq), certificates (.der), a trust list (trust.txt), and the
content of the detached ones (.bin); and the evidence records of data/records, with the documents, the options and the lists of
its rows. A signed file is also judged beside a record, which is made of what it was changed into. A mutation changes octets, or
an element with the lengths of all that are round it made anew, so that the inside is reached. Each answer is held against

- the form of docs/LINES.md: one line, on the stream that belongs to the status;
- what the rules say of the file (expected.py);
- OpenSSL (openssl_judge.py): what the program reads as a SignedData `openssl asn1parse` and `openssl cms -cmsout` read, and
  what OpenSSL reads and writes again as it was has no fault of DER.

An input with another answer is kept in the folder that is named, by default fuzz-findings, with its words. Status 1 where there
is one. A run with the same seed and files makes the same inputs in the same order.
"""
from __future__ import annotations

import argparse
import hashlib
import os
import random
import sys
import tempfile
import time
from pathlib import Path

sys.path.insert(0, str(Path(__file__).resolve().parent.parent))
from oracle import der, evidence, expected, forms, lists, openssl_judge, records, renewals, rules, sums  # noqa: E402
from samples import building  # noqa: E402
from samples.building import Token, names_2, sha  # noqa: E402
from samples.recorded import Growing  # noqa: E402
from samples.signed_files import LASTING  # noqa: E402
from trying.hostile_runs import MADE, Runs, fault_of_form  # noqa: E402

TOP = Path(__file__).resolve().parent.parent.parent
FOLDERS = "data/real", "crates/real_files/data"
RECORDS = TOP / "data" / "records"
OCTETS = bytes.fromhex("00017f80818283848586feff0203040506080a0c0d131617181e1f30313680a0a1a2a3a4a5")
STAMP_CHECK = ["stamp", "check", "--trust", "trust", "--answers", "answers", "in", "data"]
# a moment later than each time-stamp of the records
LATER = "20300101000000Z"
REHASH = ["evidence", "rehash", "--alg", "sha256", "--into", "."]
RECORD_CHECK = ["evidence", "check", "--trust", "trust-records", "--answers", "answers-records"]
UNDER_RECORD = ["check", "--trust", "trust-records", "--answers", "answers-records"]
UNDER = ["check", "--trust", "trust-under", "--answers", "answers-under", "--evidence", "beside"]
# when records are made of signed files: at the time of a token, after all, at the last second of an authority, and after that;
# and by what they are judged
MOMENTS = "20261122071759Z", "20270101000000Z", "20350208071757Z", "20400101000000Z"
POLICIES = [], ["--end", "sha1=20350208071757Z"], ["--at", "20400101000000Z", "--end", "sha256=20400101000000Z"]
# whose questions are asked of files of a kind
ASKED = {
    "p7s": [expected.questions],
    "tok": [expected.questions, expected.stamp_questions],
    "tsr": [expected.stamp_questions],
}
LENGTHS = [
    bytes.fromhex(h)
    for h in ("00", "7f", "80", "8100", "8180", "81ff", "820000", "82ffff", "83010000", "84ffffffff", "85", "ff")
]


def read_files(folders):
    found = {}
    for folder in folders:
        for name in sorted(os.listdir(folder)) if os.path.isdir(folder) else []:
            kind = "trust" if name == "trust.txt" else name.rsplit(".", 1)[-1]
            if kind in ("p7s", "tok", "tsr", "tsq", "der", "trust", "bin"):
                with open(os.path.join(folder, name), "rb") as file:
                    octets = file.read()
                found.setdefault(octets, (name, kind))
                if kind == "trust":
                    first = octets.replace(b"cmsproof trust 2", b"cmsproof trust 1").replace(b" - - ", b" ")
                    found.setdefault(first, (f"{name} in version 1", kind))
    return [(name, kind, octets) for octets, (name, kind) in found.items()]


def policy_of(options):
    """The policy that options of `evidence check` state."""
    given = dict(zip(options, options[1:]))
    pairs = [word.split("=") for before, word in zip(options, options[1:]) if before == "--end"]
    ends = [(name, lists.end_of_period(last.encode())) for name, last in pairs]
    at = lists.end_of_period(given["--at"].encode()) if "--at" in given else None
    return evidence.Policy(ends, at, "--whole" in options)


class Records:
    """Evidence records, their lists, and what each is asked: a document and options."""

    def __init__(self, folder):
        self.trust, self.answers = ((folder / name).read_bytes() for name in ("trust.txt", "answers.txt"))
        self.terms = rules.Terms(lists.entries_of(self.trust), lists.answers_of(self.answers))
        self.asked = {}
        for line in (folder / "rows.txt").read_text().splitlines():
            if not line.startswith("#"):
                name, document, options, _ = line.split("|")
                data = (folder / "files" / document.strip()).read_bytes()
                self.asked.setdefault((folder / "records" / f"{name.strip()}.ers").read_bytes(), []).append((data, options.split()))
        self.all = [(f"record {number}", "ers", octets) for number, octets in enumerate(self.asked)]


def signatures_of(files):
    """The signatures of all signers of the files."""
    found = set()
    for _, kind, octets in files:
        try:
            found |= {signer.signature for signer in forms.read_signed_data(octets).signers} if kind == "p7s" else set()
        except (der.Fault, forms.NotSignedData):
            pass
    return sorted(found)


def stamped_by(octets, signatures):
    """That of the signatures which a token or a response stamps; no octets of others."""
    try:
        content = forms.read_signed_data(expected.stamp_token(octets)).content
        imprint = forms.whole(content or b"", forms.tst_info).imprint
    except (der.Fault, forms.NotSignedData, rules.Refused):
        return b""
    return next((signature for signature in signatures if rules.has_digest(imprint, signature, rules.Weak())), b"")


# ---- mutations of octets


def flipped(chance, octets):
    at = chance.randrange(len(octets))
    return octets[:at] + bytes([octets[at] ^ 1 << chance.randrange(8)]) + octets[at + 1 :]


def replaced(chance, octets):
    at = chance.randrange(len(octets))
    return octets[:at] + bytes([chance.choice(OCTETS)]) + octets[at + 1 :]


def cut_out(chance, octets):
    at = chance.randrange(len(octets))
    return octets[:at] + octets[at + chance.choice((1, 2, 3, 16, 300)) :]


def doubled(chance, octets):
    at = chance.randrange(len(octets))
    return octets[:at] + octets[at : at + chance.choice((1, 2, 16, 300))] + octets[at:]


def put_in(chance, octets):
    at = chance.randrange(len(octets) + 1)
    return octets[:at] + bytes(chance.choice(OCTETS) for _ in range(chance.choice((1, 1, 2, 5)))) + octets[at:]


def ended(chance, octets):
    return octets[: chance.randrange(len(octets))]


# ---- mutations of elements


def children(body):
    """The elements that a body is, or None where it is no elements."""
    try:
        return der.elements(body)
    except der.Fault:
        return None


def inside(element):
    """The elements inside one, a string's too, which may hold a token or an extension's value."""
    if element.tag & 0x20 or element.tag in (der.OCTETS,):
        return children(element.body())
    return None


def changed_element(chance, element, donors):
    """An element in the place of this one: changed here, or inside."""
    parts = inside(element)
    if not parts or chance.random() < 0.12:
        return here(chance, element, donors)
    wholes = [part.whole() for part in parts]
    number = chance.choices(range(len(parts)), [len(whole) for whole in wholes])[0]
    wholes[number] = changed_element(chance, parts[number], donors)
    return der.element(element.tag, *wholes)


def here(chance, element, donors):
    whole, body = element.whole(), element.body()
    parts = [part.whole() for part in inside(element) or []]
    ways = [
        lambda: b"",
        lambda: whole + whole,
        lambda: chance.choice(donors),
        lambda: whole + chance.choice(donors),
        lambda: der.element(chance.choice(OCTETS), body),
        lambda: whole[:1] + chance.choice(LENGTHS) + body,
        lambda: der.element(element.tag, b""),
        lambda: der.element(element.tag, mutated_octets(chance, body) if body else b"\0"),
    ]
    if len(parts) > 1:
        ways += [
            lambda: der.element(element.tag, *chance.sample(parts, len(parts))),
            lambda: der.element(element.tag, *sorted(parts)),
            lambda: der.element(element.tag, *parts, chance.choice(parts)),
            lambda: der.element(element.tag, *(parts * chance.choice((2, 40)))),
        ]
    return chance.choice(ways)()


def mutated_octets(chance, octets):
    return chance.choice((flipped, replaced, cut_out, doubled, put_in, ended))(chance, octets)


def mutated(chance, octets, donors):
    for _ in range(chance.choice((1, 1, 1, 2, 3))):
        tops = children(octets)
        if tops and chance.random() < 0.8:
            number = chance.randrange(len(tops))
            wholes = [t.whole() for t in tops]
            wholes[number] = changed_element(chance, tops[number], donors)
            octets = b"".join(wholes)
        elif octets:
            octets = mutated_octets(chance, octets)
    return octets


def elements(octets):
    """Each element of the octets, those inside too."""
    for element in children(octets) or []:
        yield element.whole()
        if inside(element):
            yield from elements(element.body())


# ---- trying


def sums_line(octets, name):
    """The line of a file as sha256sum writes it."""
    return f"{hashlib.sha256(octets).hexdigest()}  {name}\n".encode()


# a file that records of one are not for
OTHER = b"another document"
SUMS = sums_line(b"one", "a/b") + sums_line(b"two", "c") + b"\\" + sums_line(b"three", "d\\n")


def tokens_for(octets, data):
    """Tokens over what the renewals of a record stand on, one in its last chain, one of a new chain, and one of such a chain for another file
    too; any others where it has none."""
    found = []
    for stands in (
        lambda record: renewals.renewal_of(record, None),
        lambda record: renewals.rehash_of(record, None, [sha(data)], True),
        lambda record: renewals.rehash_of(record, None, [sha(data), sha(OTHER)], True),
    ):
        try:
            standing = stands(renewals.record_in(octets))
            found.append(Token(LATER, imprint=standing.leaf, alg=standing.alg).octets)
        except sums.Refused:
            found.append(Token(LATER).octets)
    return found


class Fuzz:
    def __init__(self, program, folder, files, keep):
        self.runs, self.keep, self.records, self.row = Runs(program, folder), keep, Records(RECORDS), (b"", [])
        files = files + self.records.all + [("a list of digests", "sums", SUMS)]
        self.runs.put("trust-records", self.records.trust)
        self.runs.put("answers-records", self.records.answers)
        self.content = ([octets for _, kind, octets in files if kind == "bin"] or [b""])[0]
        self.runs.put("content", self.content)
        self.files = files = [file for file in files if file[1] != "bin"]
        self.kinds = {
            "p7s": self.signed,
            "tok": self.token,
            "tsr": self.response,
            "tsq": self.request,
            "der": self.certificate,
            "trust": self.list,
            "ers": self.record,
            "sums": self.sums,
        }
        self.donors = sorted({e for _, kind, octets in files if kind != "trust" for e in elements(octets) if len(e) < 400})
        self.known = set()
        for _, kind, octets in files:
            self.known |= openssl_judge.opaque_parts(octets) or set()
        self.tried, self.read, self.findings = 0, 0, 0
        self.signatures = signatures_of(files)
        trust = [octets for _, kind, octets in files if kind == "trust"] or [b"cmsproof trust 2\n"]
        self.trust = trust[0]
        self.runs.put("trust", self.trust)
        self.data = b""
        self.terms = rules.Terms(lists.entries_of(self.trust), self.answered())
        self.sha1 = rules.Terms(self.terms.trust, self.terms.answers, True)
        lines = ["cmsproof answers 1", *sorted(self.terms.answers)]
        self.runs.put("answers", "".join(line + "\n" for line in lines).encode())
        authority = lists.Entry("tsa", None, None, forms.whole(LASTING, forms.certificate))
        self.trust_under = [*self.terms.trust, authority]
        self.runs.put("trust-under", lists.written(self.trust_under))
        self.put_partners()

    def answered(self):
        """All questions of the files: as if each signature held."""
        lines, asking = set(), rules.Terms(lists.entries_of(self.trust), [])
        for _, kind, octets in self.files:
            for ask in ASKED.get(kind, ()):
                text, status = ask(octets, asking)
                lines.update(text.splitlines()[1:] if status == 0 else [])
        return lines

    def put_partners(self):
        """A request and a response that answers it, for the other side of `match`."""
        by_kind = {kind: [o for _, k, o in self.files if k == kind] for kind in ("tsq", "tsr")}
        pairs = [(q, r) for q in by_kind["tsq"] for r in by_kind["tsr"] if expected.matched(q, r)[1] == 0]
        self.pair = pairs[0] if pairs else (b"", b"")
        self.runs.put("request", self.pair[0])
        self.runs.put("response", self.pair[1])

    def signed(self, octets):
        yield ["show", "signed", "in"], expected.reads(octets, forms.content_info)
        yield ["check", "--trust", "trust", "--answers", "answers", "in"], expected.check(octets, self.terms)
        yield (
            ["check", "--trust", "trust", "--answers", "answers", "--content", "content", "in"],
            expected.check(octets, self.terms, self.content),
        )
        yield ["fit", "--sha1", "in"], expected.fits(octets, sha1=True)
        yield ["questions", "--trust", "trust", "in"], expected.questions(octets, self.terms)
        yield from self.under(octets, [])
        yield from self.under(octets, ["--content", "content"], self.content)
        yield from self.stamp(octets)

    def under(self, octets, words, *content):
        """What is said of octets as a signed file beside a record that is made of them, and of a content that is handed in."""
        moment, options = self.beside
        record = Growing(octets, *content).begin(moment, names=[names_2(sha(LASTING))])
        asked = record.asked(building.key(2))
        self.runs.put("beside", record.whole())
        lines = ["cmsproof answers 1", *asked, *sorted(self.terms.answers)]
        self.runs.put("answers-under", "".join(line + "\n" for line in lines).encode())
        terms = rules.Terms(self.trust_under, [*asked, *self.terms.answers])
        yield UNDER + words + options + ["in"], evidence.under(record.whole(), octets, terms, policy_of(options), *content)

    def stamp(self, octets):
        """What is said of octets as a stamp, of what was stamped as the file was made."""
        yield STAMP_CHECK, expected.stamp_check(octets, lambda: self.data, self.terms)
        yield STAMP_CHECK[:2] + ["--sha1"] + STAMP_CHECK[2:], expected.stamp_check(octets, lambda: self.data, self.sha1)
        yield ["stamp", "questions", "--trust", "trust", "in"], expected.stamp_questions(octets, self.terms)

    def response(self, octets):
        yield ["show", "response", "in"], expected.reads(octets, forms.response)
        yield ["match", "request", "in"], expected.matched(self.pair[0], octets)[:2]
        yield from self.stamp(octets)

    def request(self, octets):
        yield ["show", "request", "in"], expected.reads(octets, forms.request)
        yield ["match", "in", "response"], expected.matched(octets, self.pair[1])[:2]

    def certificate(self, octets):
        yield ["cert", "in"], expected.reads(octets, forms.certificate)

    def list(self, octets):
        _, fault = lists.trust(octets)
        yield ["migrate", "in", "out"], (fault or "", 2 if fault else 0)

    def record(self, octets):
        data, options = self.row
        terms, policy = self.records.terms, policy_of(options)
        yield ["show", "evidence", "in"], expected.reads(octets, records.evidence_record)
        yield RECORD_CHECK + options + ["in", "data"], evidence.check(octets, [data], terms, policy)
        alone = [word for word in options if word != "--whole"]
        yield UNDER_RECORD + alone + ["--evidence", "in", "data"], evidence.under(octets, data, terms, policy_of(alone))
        yield ["evidence", "questions", "--trust", "trust-records", "in"], evidence.questions(octets, terms)
        yield from self.renewals(octets)

    def renewals(self, octets):
        """What is said of octets as a record that is renewed, by tokens over what the unchanged record stood on; and of a list of digests, and a
        token, of which a record is made."""
        renewing, rehashing, grouped = self.tokens
        line = sums_line(self.data, "in")
        yield ["evidence", "renew", "--request", "out", "in"], renewals.renew(octets, None, "out")
        yield ["evidence", "renew", "--token", "renewing", "in"], renewals.renew(octets, renewing, "in")
        yield REHASH + ["--request", "out", "sums"], renewals.rehash(line, octets, None, "out")
        yield REHASH + ["--token", "rehashing", "sums"], renewals.rehash(line, octets, rehashing, "in.ers")
        lines = line + b" " + sums_line(OTHER, "other")
        yield REHASH + ["--request", "out", "sums-two"], renewals.rehash(lines, octets, None, "out")
        yield REHASH + ["--alone", "--token", "rehashing", "sums"], renewals.rehash(line, octets, rehashing, "in.ers", True)
        yield REHASH + ["--alone", "--token", "grouped", "sums-two"], renewals.rehash(lines, octets, grouped, "in.ers", True)

    def token(self, octets):
        """What is said of octets as a token: as a stamp, and as that of a record which is made."""
        yield from self.signed(octets)
        line = sums_line(self.data, "in")
        yield ["evidence", "make", "--token", "in", "--into", MADE, "sums"], renewals.made(line, octets, MADE)

    def sums(self, octets):
        """What is said of octets as a list of digests."""
        try:
            root = sums.tree([one.digest for one in sums.read(octets)])[0]
            said = "", 0, {"out": renewals.request(root, "sha256")}
        except sums.Refused as error:
            said = *error.said, {}
        yield ["evidence", "request", "in", "out"], said

    def one(self, chance, number):
        name, kind, octets = chance.choice(self.files)
        self.data = stamped_by(octets, self.signatures)
        self.beside = chance.choice(MOMENTS), chance.choice(POLICIES)
        if kind == "ers":
            self.row = chance.choice(self.records.asked[octets])
            self.data = self.row[0]
            self.tokens = tokens_for(octets, self.data)
            for name, token in zip(("renewing", "rehashing", "grouped"), self.tokens):
                self.runs.put(name, token)
        octets = mutated_octets(chance, octets) if kind in ("trust", "sums") else mutated(chance, octets, self.donors)
        self.runs.put("data", self.data)
        self.runs.put("sums", sums_line(self.data, "in"))
        self.runs.put("sums-two", sums_line(self.data, "in") + b" " + sums_line(OTHER, "other"))
        for words, (line, status, *files) in self.kinds[kind](octets):
            # (a command may have replaced them)
            for name in ("in", "in.ers"):
                self.runs.put(name, octets)
            self.runs.remove("out")
            self.runs.empty()
            answer = self.runs.run(words)
            self.tried += 1
            self.read += words[0] in ("show", "cert") and answer[0] == 0
            what = fault_of_form(*answer)
            # (from status 3 on the line is on standard error)
            said = answer[1] if status < 3 else answer[2]
            if what is None and answer[0] != status or line is not None and said != line:
                what = what or "status %d and %r are expected" % (status, (line or "")[:200])
            if what is None and files and self.runs.differs(words, files[0]):
                what = "the files that are there differ"
            if what is None and words[:2] == ["show", "signed"]:
                what = openssl_judge.differs(octets, answer[1], self.known)
            if what is not None:
                self.found(name, number, words, octets, answer, what)

    def found(self, name, number, words, octets, answer, what):
        self.findings += 1
        os.makedirs(self.keep, exist_ok=True)
        path = os.path.join(self.keep, "%d-%s" % (number, words[0]))
        with open(path, "wb") as file:
            file.write(octets)
        with open(path + ".txt", "w") as file:
            file.write("%s, made of %s\n%s\nanswered %r\n" % (" ".join(words), name, what, answer))
        print("FOUND", path, what, repr(answer)[:200], flush=True)


def main():
    parser = argparse.ArgumentParser(description=__doc__, formatter_class=argparse.RawDescriptionHelpFormatter)
    parser.add_argument("program", nargs="?", default="./cmsproof")
    parser.add_argument("--minutes", type=float, default=1)
    parser.add_argument("--seed", type=int, default=random.SystemRandom().randrange(1 << 32))
    parser.add_argument("--files", nargs="*", default=[os.path.join(TOP, folder) for folder in FOLDERS])
    parser.add_argument("--keep", default="fuzz-findings")
    words = parser.parse_args()
    print("seed %d" % words.seed, flush=True)
    chance, ends, number = random.Random(words.seed), time.monotonic() + 60 * words.minutes, 0
    with tempfile.TemporaryDirectory() as folder:
        fuzz = Fuzz(words.program, folder, read_files(words.files), words.keep)
        while time.monotonic() < ends:
            number += 1
            fuzz.one(chance, number)
    counts = number, len(fuzz.files), fuzz.tried, fuzz.read, fuzz.findings
    print("%d inputs made of %d files, %d runs, %d inputs read, %d found" % counts)
    sys.exit(1 if fuzz.findings else 0)


if __name__ == "__main__":
    main()
