"""Families of hostile.py of large inputs: elements that are nested 100,000 deep, lists of 1,000,000 members. Each runs with a
stack of 512 KiB, at a tenth of its size and at its size: the answer is the same, and the time ten times as long, and a little."""
from __future__ import annotations

import os

from oracle import der, forms
from oracle.der import element, number, octets, oid, sequence
from samples import building
from samples.building import attribute, extension, request_of, sha, signed_data, stamp_attribute, stamps
from samples.signed_files import PLAIN, TOKEN
from trying.hostile_inputs import ANSWERS, AUTHORITY, CHECK, SIGNER, STAMP_CHECK, STAMP_QUESTIONS, TRUST
from trying.hostile_runs import measured

DEPTH, COUNT, STACK = 100_000, 1_000_000, 512 << 10
ACCEPTED = "accepted 20240115100000Z\n"
OTHER = "2.999.9"
SMALL = attribute(OTHER)
ALGORITHM = sequence(oid("2.999.1"))


def nested(depth, tag=0x30):
    """So many elements, one in the other."""
    headers, size = [], 0
    for _ in range(depth):
        header = der.header(tag, size)
        headers.append(header)
        size += len(header)
    return b"".join(reversed(headers))


def stamped_with(*more, signed=(), **parts):
    """The stamped file with more unsigned attributes in front of the stamp, and with these parts."""
    return signed_data([building.signer(more=signed).stamped(*more, stamps(TOKEN))], **parts)


def signers(count):
    return signed_data([PLAIN.stamped(stamps(TOKEN))] * count)


def extensions(count):
    return extension(OTHER, b"", False) * count


def certificate_with(extensions):
    return building.certificate(7, building.NAME_T, building.key(2), extensions=extensions)


def stamp_with(end):
    """The TSTInfo of the token with more at its end."""
    return sequence(der.only(forms.read_signed_data(TOKEN.octets).content).body(), end)


def request_with(end):
    return sequence(der.only(request_of(sha(b"abc"))).body(), end)


def granted_nested(depth):
    """A response with so many elements, one in the other, in the place of its token."""
    return sequence(sequence(number(0)), nested(depth))


KEEPING = CHECK + ["--buffer", str(64 << 20)]
# name, the octets of `in` of a size, words, and what they print; None where a text of that size is printed
NESTED = [
    ("a file", nested, ["show", "signed", "in"], "malformed M6 Tag at %d\n"),
    ("indefinite lengths", lambda n: b"\x30\x80" * n, ["fit", "in"], "malformed M3 Indefinite at 1\n"),
    ("a value of an unsigned attribute", lambda n: stamped_with(attribute(OTHER, nested(n))), KEEPING + ["in"], ACCEPTED),
    ("a token before the token", lambda n: stamped_with(stamp_attribute(nested(n))), KEEPING + ["in"], ACCEPTED),
    ("a certificate", lambda n: stamped_with(certificates=nested(n)), KEEPING + ["in"], ACCEPTED),
    ("revocation information", lambda n: stamped_with(crls=nested(n, 0xA1)), KEEPING + ["in"], ACCEPTED),
    ("parameters", lambda n: stamped_with(algorithms=sequence(oid(OTHER), nested(n))), KEEPING + ["in"], ACCEPTED),
    ("a content", lambda n: stamped_with(content=nested(n)), ["fit", "in"], "refused signer 1 S6 DigestDiffers\n"),
    ("a content, shown", lambda n: stamped_with(content=nested(n)), ["show", "signed", "in"], None),
    ("a name of a certificate", lambda n: building.certificate(5, nested(n), building.key(1)), ["cert", "in"], None),
    (
        "parameters of a request",
        lambda n: sequence(number(1), sequence(sequence(oid(OTHER), nested(n)), octets(b"a"))),
        ["show", "request", "in"],
        None,
    ),
    ("a name in a TSTInfo", lambda n: stamp_with(element(0xA0, nested(n, 0xA4))), ["show", "tst", "in"], None),
    (
        "a token in a response",
        lambda n: sequence(sequence(number(0)), nested(n)),
        ["match", "request", "in"],
        "refused P3 TokenMalformed\n",
    ),
    ("a stamp", nested, STAMP_CHECK + ["in", "content"], "malformed M6 Tag at %d\n"),
    ("a token in a stamp", granted_nested, STAMP_CHECK + ["in", "content"], "refused K1 M6 Tag at %d\n"),
    ("a token in a stamp, asked", granted_nested, STAMP_QUESTIONS + ["in"], "malformed M6 Tag at %d\n"),
    ("a certificate of a stamp", lambda n: response_with(nested(n)), STAMP_CHECK + ["in", "content"], ACCEPTED),
]
MANY = [
    ("unsigned attributes", lambda n: stamped_with(*[SMALL] * n), KEEPING + ["in"], ACCEPTED),
    ("values of an attribute", lambda n: stamped_with(attribute(OTHER, b"\5\0" * n)), KEEPING + ["in"], ACCEPTED),
    ("signed attributes", lambda n: stamped_with(signed=[SMALL] * n), KEEPING + ["in"], "refused signer 1 S9 SignatureFails\n"),
    ("signed attributes, asked", lambda n: stamped_with(signed=[SMALL] * n), ["questions", "--trust", "trust", "in"], None),
    ("certificates", lambda n: stamped_with(certificates=b"\x30\0" * n), KEEPING + ["in"], ACCEPTED),
    ("revocation lists", lambda n: stamped_with(crls=b"\x30\0" * n), KEEPING + ["in"], ACCEPTED),
    ("digest algorithms", lambda n: stamped_with(algorithms=ALGORITHM * n), KEEPING + ["in"], ACCEPTED),
    ("tokens that are none", lambda n: stamped_with(stamp_attribute(b"\x30\0" * n)), KEEPING + ["in"], ACCEPTED),
    ("attributes with such a token", lambda n: stamped_with(*[stamp_attribute(b"\x30\0")] * n), KEEPING + ["in"], ACCEPTED),
    ("tokens, a tenth as many", lambda n: stamped_with(stamp_attribute(TOKEN.octets * (n // 10))), KEEPING + ["in"], ACCEPTED),
    ("signers, a tenth as many", lambda n: signers(n // 10), KEEPING + ["in"], ACCEPTED),
    ("signers of `fit`", lambda n: signed_data([PLAIN.stamped()] * n), ["fit", "in"], "fits %d\n"),
    ("signers, shown", lambda n: signed_data([PLAIN.stamped()] * (n // 10)), ["show", "signed", "in"], None),
    (
        "certificates of a token, matched",
        lambda n: response_with(b"\x30\0" * n),
        ["match", "wanting", "in"],
        "refused P7 CertMissing\n",
    ),
    ("certificates of a stamp", lambda n: response_with(b"\x30\0" * n), STAMP_CHECK + ["in", "content"], ACCEPTED),
    ("certificates of a stamp, asked", lambda n: response_with(b"\x30\0" * n), STAMP_QUESTIONS + ["in"], None),
    (
        "extensions of a stamp",
        lambda n: building.Token(extensions=extensions(n)).octets,
        STAMP_CHECK + ["in", "content"],
        "refused K14 SignatureFails\n",
    ),
    (
        "texts of a stamp",
        lambda n: sequence(sequence(number(1), sequence(b"\x0c\1a" * n)), TOKEN.octets),
        STAMP_CHECK + ["in", "content"],
        ACCEPTED,
    ),
    ("octets of DATA", lambda n: b"a" * (100 * n), STAMP_CHECK + ["token", "in"], "refused K9 ImprintDiffers\n"),
    (
        "attributes beside a new token",
        lambda n: signed_data([PLAIN.stamped(*[SMALL] * n)]),
        ["attach", "--signer", "1", "--token", "token", "in", "out"],
        "",
    ),
    ("extensions of a certificate", lambda n: certificate_with(extensions(n)), ["cert", "in"], None),
    ("extensions of a TSTInfo", lambda n: stamp_with(element(0xA1, extensions(n))), ["show", "tst", "in"], None),
    ("extensions of a request", lambda n: request_with(element(0xA0, extensions(n))), ["show", "request", "in"], None),
    ("archive time-stamps", lambda n: record_with(sequence(b"\x30\0") * (n // 10)), ["show", "evidence", "in"], None),
    (
        "hash values of an archive time-stamp",
        lambda n: record_with(sequence(element(0xA2, sequence(b"\4\0" * n)), b"\x30\0")),
        ["show", "evidence", "in"],
        None,
    ),
    (
        "lists of an archive time-stamp",
        lambda n: record_with(sequence(element(0xA2, sequence(b"\4\0") * n), b"\x30\0")),
        ["show", "evidence", "in"],
        None,
    ),
    (
        "texts of a response",
        lambda n: sequence(sequence(number(2), sequence(b"\x0c\1a" * n))),
        ["show", "response", "in"],
        None,
    ),
    (
        "octets of an identifier",
        lambda n: request_with_policy(b"\x2a" + b"\x81" * (n - 2) + b"\1"),
        ["show", "request", "in"],
        None,
    ),
    ("arcs of an identifier", lambda n: request_with_policy(b"\x2a" + b"\x81\1" * n), ["show", "request", "in"], None),
    ("octets of a serial number", lambda n: certificate_of_serial(n), ["cert", "in"], None),
]


def record_with(stamps):
    """An evidence record of one chain."""
    return sequence(number(1), sequence(), sequence(sequence(stamps)))


def response_with(certificates):
    return sequence(sequence(number(0)), building.Token(certificates=certificates).octets)


def request_with_policy(contents):
    parts = der.only(request_of(sha(b"abc"))).body()
    return sequence(parts, element(6, contents))


def certificate_of_serial(size):
    period = sequence(*map(building.time, building.JANUARY))
    signed = sequence(element(2, b"\1" * size), building.SIGNING, building.NAME_A, period, building.NAME_A, building.key(1))
    return sequence(signed, building.SIGNING, element(3, b"\0\0"))


def hexes(octets):
    return octets.hex().encode()


MIGRATE, IN_TRUST = ["migrate", "in", "out"], ["check", "--trust", "in", "--answers", "answers", "file"]
IN_ANSWERS = ["check", "--trust", "trust", "--answers", "in", "file"]
# name, the text of `in` of so many lines, words, and what they print
LINES = [
    ("comments of a trust list", lambda n: TRUST + b"#\n" * n, IN_TRUST, ACCEPTED),
    ("empty lines of a trust list", lambda n: TRUST + b"\n" * n, ["migrate", "in", "out"], ""),
    ("entries of a trust list", lambda n: TRUST + b"tsa %s\n" % hexes(AUTHORITY) * n, ["migrate", "in", "out"], ""),
    ("entries that are tried", lambda n: TRUST + b"signer %s\n" % hexes(SIGNER) * n, IN_TRUST, ACCEPTED),
    (
        "entries that are asked",
        lambda n: TRUST + b"signer %s\n" % hexes(SIGNER) * n,
        ["questions", "--trust", "in", "file"],
        None,
    ),
    ("a bad line behind comments", lambda n: TRUST + b"#\n" * n + b"bad", MIGRATE, "trust L2 Line at line %d\n"),
    ("lines of an answers list", lambda n: ANSWERS + b"- - - - -\n" * n, IN_ANSWERS, ACCEPTED),
    ("answers, the wanted one last", lambda n: ANSWERS[:19] + b"00 01 02 03 04\n" * n + ANSWERS[19:], IN_ANSWERS, ACCEPTED),
    (
        "entries that are tried of a stamp",
        lambda n: TRUST + b"tsa %s\n" % hexes(AUTHORITY) * n,
        ["stamp", "check", "--trust", "in", "--answers", "answers", "token", "content"],
        ACCEPTED,
    ),
    ("octets of one line", lambda n: TRUST + b"signer " + b"30" * n, MIGRATE, "trust L3 Certificate at line 4\n"),
]


def line_of(printed, name, size):
    """The line for an input of this size."""
    if printed is None or "%d" not in printed:
        return printed
    return printed % {
        "a file": lambda n: len(der.header(0x30, len(nested(n - 1)))),
        "signers of `fit`": lambda n: n,
        "a bad line behind comments": lambda n: n + 4,
        "a stamp": lambda n: len(nested(n)) - len(nested(n - 2)),
        "a token in a stamp": lambda n: len(nested(n)) - len(nested(n - 1)),
        "a token in a stamp, asked": lambda n: len(nested(n)) - len(nested(n - 1)),
    }[name](size)


def grown(runs, rows, size):
    """Each row at a tenth of the size and at the size."""
    runs.put("wanting", request_of(sha(b"abc"), cert=True))
    for name, make, words, printed in rows:
        times = []
        for count in (size // 10, size):
            runs.put("in", make(count))
            length = os.path.getsize(os.path.join(runs.folder, "in"))
            status, said, seconds = measured([runs.program, *words], runs.folder, None if runs.checked else STACK)
            if count == size and seconds > 13 * times[0] + 0.5:
                seconds = min(seconds, *(measured([runs.program, *words], runs.folder)[2] for _ in range(2)))
            times.append(seconds)
            line = line_of(printed, name, count)
            good = status in (0, 1, 2) and (said == line if line is not None else status == 0)
            what = None if good else "%r is expected" % line
            if what is None and count == size and times[1] > 13 * times[0] + 0.5:
                what = "the time is not linear: %.2f and %.2f seconds" % tuple(times)
            runs.note(what, words + ["(%s, %d)" % (name, count)], (status, said[:200]))
        print("    %-40s %9d octets %7.2f seconds" % (name, length, times[1]), flush=True)


def deep(runs):
    grown(runs, NESTED, DEPTH)


def many(runs):
    grown(runs, MANY, COUNT)


def lines(runs):
    grown(runs, LINES, COUNT)


FAMILIES = {"nested": deep, "many": many, "lines": lines}
