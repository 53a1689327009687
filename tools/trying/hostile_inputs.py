#!/usr/bin/env python3
"""The small inputs of hostile.py and the commands that read them, each with what the rules say of any octets in its place.

    python3 tools/trying/hostile_inputs.py FOLDER

writes those inputs into the folder.
"""
from __future__ import annotations

import os
import sys
from pathlib import Path

sys.path.insert(0, str(Path(__file__).resolve().parent.parent))
from oracle import der, expected, forms, lists, records, rules, sums  # noqa: E402
from oracle.der import element, number, octets, oid, sequence  # noqa: E402
from samples import building, signed_files as made  # noqa: E402
from samples.building import request_of, sha  # noqa: E402
from trying import record_inputs, under_inputs  # noqa: E402

FILE = building.stamped(made.TOKEN)
UNSTAMPED = building.signed_data([made.PLAIN.stamped()])
DETACHED = building.stamped(made.TOKEN, content=None)
TOKEN = made.TOKEN.octets
WITH_ALL = building.stamped(made.WITH_TSA, made.BY_V_1, of=made.KEYED, certificates=building.CS + building.CT, version=3)
SIGNER, AUTHORITY = building.CS, building.CT
TRUST = b"cmsproof trust 1\nsigner %s\ntsa %s\n" % (SIGNER.hex().encode(), AUTHORITY.hex().encode())
TRUST_2 = b"cmsproof trust 2\r\n# two\r\n\r\nsigner 20240101000000Z - %s\r\ntsa - 20240115100000.5Z %s" % (
    SIGNER.hex().upper().encode(),
    AUTHORITY.hex().encode(),
)
LINES = [made.PLAIN.question(building.key(1)), made.TOKEN.signer.question(building.key(2))]
ANSWERS = ("cmsproof answers 1\n" + "".join(line + "\n" for line in LINES)).encode()
TERMS = rules.Terms(lists.entries_of(TRUST), LINES)
KEYED = dict((name, octets) for name, _, octets in made.CERTIFICATES)["Keyed"]
TRUST_ALL = b"cmsproof trust 1\nsigner %s\ntsa %s\n" % (KEYED.hex().encode(), AUTHORITY.hex().encode())
LINES_ALL = [
    made.KEYED.question(building.key(6)),
    *(token.signer.question(building.key(2)) for token in (made.WITH_TSA, made.BY_V_1)),
]
ANSWERS_ALL = ("cmsproof answers 1\n" + "".join(line + "\n" for line in LINES_ALL)).encode()
TERMS_ALL = rules.Terms(lists.entries_of(TRUST_ALL), LINES_ALL)


REQUEST = request_of(sha(b"abc"), cert=True)
RESPONSE = sequence(sequence(number(0)), made.WITH_TSA.octets)
# digests of two files, one in a folder, one with an escaped name
SUMS = f"{sha(b'abc').hex()}  a/b\n\\{sha(b'').hex().upper()} *c\\\\\\n\n".encode()
STAMP = forms.read_signed_data(TOKEN).content
# an evidence record (RFC 4998) with each part; the second archive time-stamp has the token alone, the third one none
BY_SHA_512 = element(0xA0, oid("2.16.840.1.101.3.4.2.3"))
FIELDS = element(0xA1, building.attribute("2.999.1"), building.attribute("2.999.2"))
TREE = element(0xA2, sequence(octets(b"a"), octets(b"")), sequence(octets(b"b")))
RECORD = sequence(
    number(1),
    sequence(sequence(oid("2.16.840.1.101.3.4.2.1"), b"\5\0")),
    element(0xA0, building.attribute("2.999.3")),
    element(0xA1, oid("2.999.4"), b"\5\0"),
    sequence(sequence(sequence(BY_SHA_512, FIELDS, TREE, TOKEN), sequence(TOKEN)), sequence(sequence(b"\x30\0"))),
)
BY_SHA_1 = building.Token(alg="sha1")
LINES_SHA_1 = [BY_SHA_1.signer.question(building.key(2))]
ANSWERS_SHA_1 = ("cmsproof answers 1\n" + LINES_SHA_1[0] + "\n").encode()
CERTIFICATES = [("cert", SIGNER), ("cert of an authority", AUTHORITY), ("cert with a key identifier", KEYED)]


def check_with_lists(trust, answers):
    """What `check` says of the file with these lists."""
    entries, fault = lists.trust(trust)
    if fault:
        return fault, 2
    lines, fault = lists.answers(answers)
    return (fault, 2) if fault else expected.check(FILE, rules.Terms(entries, lines))


def signature_request(file):
    """What `request --of` says of a file, and the request that it makes."""
    try:
        signed = forms.read_signed_data(file)
    except der.Fault as fault:
        return "malformed %s\n" % fault, 2, None
    except forms.NotSignedData:
        return "refused A1 NotSignedData\n", 1, None
    if not signed.signers:
        return "refused A2 NoSuchSigner\n", 1, None
    return "", 0, request_of(sha(signed.signers[0].signature))


def migrated(text):
    """What `migrate` says of a trust list, and the one that it makes."""
    entries, fault = lists.trust(text)
    return (fault, 2, None) if fault else ("", 0, lists.written(entries))


def root_request(text):
    """What `evidence request` says of a list of digests, and the request that it makes."""
    try:
        return "", 0, request_of(sums.tree([one.digest for one in sums.read(text)])[0])
    except sums.Refused as refused:
        return *refused.said, None


def stamp_with_lists(trust, answers):
    """What `stamp check` says of the response with these lists."""
    entries, fault = lists.trust(trust)
    if fault:
        return fault, 2
    lines, fault = lists.answers(answers)
    return (fault, 2) if fault else expected.stamp_check(RESPONSE, lambda: b"abc", rules.Terms(entries, lines))


def missing():
    """What is read of the file `missing`."""
    raise expected.Unread("failed open missing")


CHECK = ["check", "--trust", "trust", "--answers", "answers"]
STAMP_CHECK = ["stamp", *CHECK]
STAMP_QUESTIONS = ["stamp", "questions", "--trust", "trust"]
BUFFER = CHECK + ["--buffer"]
QUESTIONS = ["questions", "--trust", "trust"]
ATTACH = ["attach", "--signer", "1", "--token"]
# name, octets, words with `in` in their place, what is expected of octets there: line, status and, if it makes one, the file `out`; of some
# what makes of the octets further files that the words name
COMMANDS = [
    ("check", FILE, CHECK + ["in"], lambda o: expected.check(o, TERMS)),
    ("check with content", DETACHED, CHECK + ["--content", "content", "in"], lambda o: expected.check(o, TERMS, b"abc")),
    (
        "check with certificates",
        WITH_ALL,
        ["check", "--trust", "trust-all", "--answers", "answers-all", "in"],
        lambda o: expected.check(o, TERMS_ALL),
    ),
    ("check --sha1", UNSTAMPED, CHECK + ["--sha1", "in"], lambda o: expected.check(o, rules.Terms(TERMS.trust, LINES, True))),
    ("check --buffer", FILE, BUFFER + ["499", "in"], lambda o: expected.check(o, TERMS, room=499)),
    ("check --buffer, too small", FILE, BUFFER + ["498", "in"], lambda o: expected.check(o, TERMS, room=498)),
    ("check --buffer, one octet", FILE, BUFFER + ["1", "in"], lambda o: expected.check(o, TERMS, room=1)),
    (
        "check --buffer with content",
        DETACHED,
        BUFFER + ["499", "--content", "content", "in"],
        lambda o: expected.check(o, TERMS, b"abc", 499),
    ),
    ("fit", FILE, ["fit", "in"], expected.fits),
    ("fit with content", DETACHED, ["fit", "--content", "content", "in"], lambda o: expected.fits(o, b"abc")),
    ("questions", FILE, QUESTIONS + ["in"], lambda o: expected.questions(o, TERMS)),
    ("questions --buffer", FILE, QUESTIONS + ["--buffer", "499", "in"], lambda o: expected.questions(o, TERMS, 499)),
    ("questions --buffer, too small", FILE, QUESTIONS + ["--buffer", "498", "in"], lambda o: expected.questions(o, TERMS, 498)),
    ("questions --buffer, one octet", FILE, QUESTIONS + ["--buffer", "1", "in"], lambda o: expected.questions(o, TERMS, 1)),
    ("show signed", FILE, ["show", "signed", "in"], lambda o: expected.reads(o, forms.content_info)),
    ("show signed with certificates", WITH_ALL, ["show", "signed", "in"], lambda o: expected.reads(o, forms.content_info)),
    ("show request", REQUEST, ["show", "request", "in"], lambda o: expected.reads(o, forms.request)),
    ("show response", RESPONSE, ["show", "response", "in"], lambda o: expected.reads(o, forms.response)),
    ("show tst", STAMP, ["show", "tst", "in"], lambda o: expected.reads(o, forms.tst_info)),
    ("show evidence", RECORD, ["show", "evidence", "in"], records.shown),
    *((name, c, ["cert", "in"], lambda o: expected.reads(o, forms.certificate)) for name, c in CERTIFICATES),
    ("match, request", REQUEST, ["match", "in", "response", "out"], lambda o: expected.matched(o, RESPONSE)),
    ("match, response", RESPONSE, ["match", "request", "in", "out"], lambda o: expected.matched(REQUEST, o)),
    ("attach, file", UNSTAMPED, ATTACH + ["token", "in", "out"], lambda o: expected.attached(o, 1, TOKEN)),
    ("attach, stamped file", FILE, ATTACH + ["token", "in", "out"], lambda o: expected.attached(o, 1, TOKEN)),
    ("attach, token", TOKEN, ATTACH + ["in", "unstamped", "out"], lambda o: expected.attached(UNSTAMPED, 1, o)),
    ("compare, first", UNSTAMPED, ["compare", "in", "file"], lambda o: expected.compared(o, FILE)),
    ("compare, second", UNSTAMPED, ["compare", "file", "in"], lambda o: expected.compared(FILE, o)),
    ("request --of", UNSTAMPED, ["request", "--of", "in", "out"], signature_request),
    ("evidence request", SUMS, ["evidence", "request", "in", "out"], root_request),
    ("migrate", TRUST, ["migrate", "in", "out"], migrated),
    ("migrate, version 2", TRUST_2, ["migrate", "in", "out"], migrated),
    (
        "check, trust list",
        TRUST,
        ["check", "--trust", "in", "--answers", "answers", "file"],
        lambda o: check_with_lists(o, ANSWERS),
    ),
    (
        "check, answers list",
        ANSWERS,
        ["check", "--trust", "trust", "--answers", "in", "file"],
        lambda o: check_with_lists(TRUST, o),
    ),
    ("stamp check, token", TOKEN, STAMP_CHECK + ["in", "content"], lambda o: expected.stamp_check(o, lambda: b"abc", TERMS)),
    (
        "stamp check, response",
        RESPONSE,
        STAMP_CHECK + ["in", "content"],
        lambda o: expected.stamp_check(o, lambda: b"abc", TERMS),
    ),
    ("stamp check, other data", TOKEN, STAMP_CHECK + ["in", "file"], lambda o: expected.stamp_check(o, lambda: FILE, TERMS)),
    ("stamp check without data", RESPONSE, STAMP_CHECK + ["in", "missing"], lambda o: expected.stamp_check(o, missing, TERMS)),
    ("stamp check, data", b"abc", STAMP_CHECK + ["token", "in"], lambda o: expected.stamp_check(TOKEN, lambda: o, TERMS)),
    (
        "stamp check --sha1",
        BY_SHA_1.octets,
        ["stamp", "check", "--trust", "trust", "--answers", "answers-sha1", "--sha1", "in", "content"],
        lambda o: expected.stamp_check(o, lambda: b"abc", rules.Terms(TERMS.trust, LINES_SHA_1, True)),
    ),
    (
        "stamp check, trust list",
        TRUST_2,
        ["stamp", "check", "--trust", "in", "--answers", "answers", "response", "content"],
        lambda o: stamp_with_lists(o, ANSWERS),
    ),
    (
        "stamp check, answers list",
        ANSWERS,
        ["stamp", "check", "--trust", "trust", "--answers", "in", "response", "content"],
        lambda o: stamp_with_lists(TRUST, o),
    ),
    ("stamp questions, token", TOKEN, STAMP_QUESTIONS + ["in"], lambda o: expected.stamp_questions(o, TERMS)),
    ("stamp questions, response", RESPONSE, STAMP_QUESTIONS + ["in"], lambda o: expected.stamp_questions(o, TERMS)),
    *record_inputs.COMMANDS,
    *under_inputs.COMMANDS,
]
BESIDE = {
    "trust": TRUST,
    "answers": ANSWERS,
    "content": b"abc",
    "response": RESPONSE,
    "request": REQUEST,
    "token": TOKEN,
    "unstamped": UNSTAMPED,
    "file": FILE,
    "trust-all": TRUST_ALL,
    "answers-all": ANSWERS_ALL,
    "answers-sha1": ANSWERS_SHA_1,
    "detached": DETACHED,
    "signer": SIGNER,
    "stamp": STAMP,
    "record": RECORD,
    "empty": b"",
    "sums": f"{sha(b'abc').hex()}  out\n".encode(),
    **record_inputs.BESIDE,
    **under_inputs.BESIDE,
}


def write(folder):
    """Writes the files that stand beside the input."""
    for name, contents in BESIDE.items():
        with open(os.path.join(folder, name), "wb") as file:
            file.write(contents)


if __name__ == "__main__":
    write(sys.argv[1])
