#!/usr/bin/env python3
"""Writes the octet strings of crates/vectors_run/data/files/signed.blobs, which are certificates, what a verifier is asked, and
signed files. They are built of the parts of building.py.

    python3 tools/samples/signed_files.py FILE
"""
from __future__ import annotations

import re
import sys
from pathlib import Path

sys.path.insert(0, str(Path(__file__).resolve().parent.parent))
from oracle.der import element, number, octets, oid, sequence  # noqa: E402
from oracle.identifiers import DATA, SUBJECT_KEY_IDENTIFIER, TIME_STAMPING  # noqa: E402
from samples.building import (
    CS,
    CT,
    NAME_A,
    NAME_T,
    Signer,
    Token,
    attribute,
    certificate,
    digest_alg,
    digest_attribute,
)  # noqa: E402
from samples.building import extension, issuer_serial, key, names_1, names_2, purposes, sha, signed_data, signer  # noqa: E402
from samples.building import stamped, stamps, type_attribute  # noqa: E402

# ---- certificates

KEY_ID = extension(SUBJECT_KEY_IDENTIFIER, octets(b"\1\2"), critical=False)
MANY = certificate(7, NAME_T, key(2))
LASTING = certificate(7, NAME_T, key(2), ("240101000000Z", "99991231235959Z"), purposes(TIME_STAMPING))
ENDED = certificate(7, NAME_T, key(3), ("240101000000Z", "240110000000Z"), purposes(TIME_STAMPING))
TWO_PURPOSES = certificate(7, NAME_T, key(2), extensions=purposes(TIME_STAMPING, "1.3.6.1.5.5.7.3.1"))
UNCRITICAL = certificate(7, NAME_T, key(2), extensions=purposes(TIME_STAMPING, critical=False))
CERTIFICATES = [
    ("Signer", "Of a signer, with the serial number 5: good in January 2024.", CS),
    ("OtherKey", "Of the same signer, with another key.", certificate(5, NAME_A, key(5))),
    (
        "Later",
        "Of the same signer, good from 2024-01-16 on.",
        certificate(5, NAME_A, key(1), ("240116000000Z", "240131235959Z")),
    ),
    ("Second", "Of another signer, with the serial number 6.", certificate(6, NAME_A, key(4))),
    ("Keyed", "Of a signer, with a key identifier.", certificate(8, NAME_A, key(6), extensions=KEY_ID)),
    (
        "KeyedAgain",
        "Of a signer, with the same key identifier and another key.",
        certificate(9, NAME_A, key(1), extensions=KEY_ID),
    ),
    ("Tsa", "Of an authority, with the serial number 7: for time-stamping alone, good in January 2024.", CT),
    ("Many", "Of this authority, and not for time-stamping alone.", MANY),
    ("Lasting", "Of this authority, good to the end of the year 9999, as a GeneralizedTime.", LASTING),
    ("Ended", "Of this authority, with another key, good until 2024-01-10.", ENDED),
    ("TwoPurposes", "Of this authority, with a second purpose.", TWO_PURPOSES),
    ("Uncritical", "Of this authority, where the purpose is not critical.", UNCRITICAL),
]

# ---- tokens

TOKEN, AT_9, AT_11, AT_12 = (Token(at="20240115%s0000Z" % hour) for hour in ("10", "09", "11", "12"))
AT_HALF, ZERO_AT_9, ZERO = Token("20240115100000.5Z"), Token("20240115090000Z", imprint=bytes(32)), Token(imprint=bytes(32))
OF_ABD, OF_ABD_AT_11 = Token(of=b"abd"), Token("20240115110000Z", b"abd")
LAST_SECOND, PAST_LAST = Token("20240131235959Z"), Token("20240131235959.5Z")
V_1 = names_1(sha(CT, "sha1"))
BY_V_1, BY_V_1_NOT_V_2, UNNAMED = Token(names=[V_1]), Token(names=[V_1, names_2(bytes(32))]), Token(names=[])
BY_LASTING, BY_MANY, BY_TWO, BY_UNCRITICAL = (Token(names=[names_2(sha(c))]) for c in (LASTING, MANY, TWO_PURPOSES, UNCRITICAL))
BY_512_224 = Token(names=[names_2(sha(CT, "sha512_224"), digest_alg("sha512_224"))])
WITH_TSA = Token(certificates=CT)

# ---- signers

PLAIN, SECOND = signer(), signer(6, b"abd")
DIFFERENT = signer(signature=b"abd")
KEYED = signer(sid=element(0x80, b"\1\2"))
BY_SHA_1 = signer(alg="sha1")
# An attribute that nobody reads, so that the attributes of two signers differ.
SECOND_WITH_MORE = signer(6, b"abd", more=[attribute("2.999.9", element(5))])
OF_NOTHING = signer(content=b"")
NAMED, WRONG_HASH, OTHER_SERIAL, OTHER_ISSUER, TWO_NAMES, OTHER_TAG = (
    signer(more=[names_2(*n)])
    for n in (
        (sha(CS), b"", issuer_serial(5, element(0xA4, NAME_A))),
        (sha(CT), b"", issuer_serial(5, element(0xA4, NAME_A))),
        (sha(CS), b"", issuer_serial(6, element(0xA4, NAME_A))),
        (sha(CS), b"", issuer_serial(5, element(0xA4, NAME_T))),
        (sha(CS), b"", issuer_serial(5, element(0xA4, NAME_A), element(0xA4, NAME_A))),
        (sha(CS), b"", issuer_serial(5, element(0xA5, NAME_A))),
    )
)
NAMED_TWICE = signer(more=[names_2(sha(CS)), names_2(sha(CS))])
UNKNOWN = "1.2.840.113549.2.5"
TWICE = Signer(
    sequence(NAME_A, number(5)),
    [type_attribute(DATA), digest_attribute(sha(b"abc")), digest_attribute(sha(b"abd"))],
    b"abc",
    digest_alg(UNKNOWN),
)
BARE = Signer(sequence(NAME_A, number(5)), [], b"abc")
BOTH = [PLAIN.stamped(stamps(TOKEN)), SECOND.stamped(stamps(OF_ABD_AT_11))]
EXCHANGED = signed_data([signer(swapped=True).stamped()])

# ---- files

FORMS = [
    ("Empty", "No octet.", b""),
    ("Indefinite", "A length that is not definite.", bytes.fromhex("3080")),
    ("OtherType", "A ContentInfo of the type 1.2.", sequence(oid("1.2"), element(0xA0, element(5)))),
    ("NoSigner", "No signer.", signed_data([])),
    ("NoSignerDetached", "No signer and no content.", signed_data([], None)),
    ("Exchanged", "The signed attributes are not in order.", EXCHANGED),
    ("ExchangedAndMore", "The same, and an octet follows.", EXCHANGED + b"\0"),
    ("Bare", "Its signer has no signed attributes.", signed_data([BARE.stamped()])),
    (
        "DigestTwice",
        "Its signer has two digests of the content, by an algorithm that is unknown.",
        signed_data([TWICE.stamped()]),
    ),
    (
        "ByUnknown",
        "Its signer has another digest, by an algorithm that is unknown.",
        stamped(of=signer(content=b"abd", alg=UNKNOWN)),
    ),
    ("OtherContent", "Its content is `abd`, and its signer has the digest of `abc`.", stamped(content=b"abd")),
    ("BySha1", "Its signer has the digest by SHA-1.", stamped(TOKEN, of=BY_SHA_1)),
    ("Unstamped", "Its signer has no token.", signed_data([PLAIN.stamped()])),
    ("Stamped", "One signer, whose signature `abc` was stamped at 2024-01-15 10:00:00.", stamped(TOKEN)),
    ("Detached", "The same without the content.", stamped(TOKEN, content=None)),
    ("DetachedEmpty", "The same with the digest of a content of no octet.", stamped(TOKEN, of=OF_NOTHING, content=None)),
    ("WithSignerFirst", "The certificates of the signer and of the authority are in it.", stamped(TOKEN, certificates=CS + CT)),
    ("WithTsaFirst", "The same in the other order.", stamped(TOKEN, certificates=CT + CS)),
]
STAMPS = [
    ("AtLastSecond", "Stamped at 2024-01-31 23:59:59.", stamped(LAST_SECOND)),
    ("PastLastSecond", "Stamped half a second later.", stamped(PAST_LAST)),
    ("AtHalf", "Stamped at 2024-01-15 10:00:00.5.", stamped(AT_HALF)),
    ("ZeroAtEnd", "The fraction of its genTime ends in 0.", stamped(Token("20240229120000.50Z"))),
    ("NoLeapDay", "Its genTime is on the 29th of February 2023.", stamped(Token("20230229120000Z"))),
    ("OtherImprint", "Its signature is `abd`, and the imprint is that of its content `abc`.", stamped(TOKEN, of=DIFFERENT)),
    ("OtherSignature", "Its signature is `abd`, and so is the imprint.", stamped(OF_ABD, of=DIFFERENT)),
    ("CriticalExtension", "The TSTInfo has a critical extension.", stamped(Token(extensions=extension("2.999.5", b"")))),
    ("Spoiled", "The last octet of the TSTInfo was changed.", stamped(Token(spoiled=True))),
    ("WithTsaInToken", "The certificate of the authority is in the token.", stamped(WITH_TSA)),
    ("ByFirstVersion", "The token names its authority by the attribute of version 1.", stamped(BY_V_1)),
    ("ByFirstNotSecond", "The token names it by version 1, and nobody by version 2.", stamped(BY_V_1_NOT_V_2)),
    ("Unnamed", "The token names nobody.", stamped(UNNAMED)),
    ("BySha512224", "The token names it by SHA-512/224.", stamped(BY_512_224)),
    ("ByLasting", "The token names the certificate that is good to the end of the year 9999.", stamped(BY_LASTING)),
    ("ByMany", "The token names the one that is not for time-stamping alone.", stamped(BY_MANY)),
    ("ByTwoPurposes", "The token names the one with two purposes.", stamped(BY_TWO)),
    ("ByUncritical", "The token names the one whose purpose is not critical.", stamped(BY_UNCRITICAL)),
    ("ZeroFirst", "A token of 09:00 with an imprint of zeros, and one of 10:00 that is right.", stamped(ZERO_AT_9, TOKEN)),
    (
        "ZeroLast",
        "The same in the other order, as two values of one attribute.",
        signed_data([PLAIN.stamped(stamps(TOKEN, ZERO_AT_9))]),
    ),
    ("ZeroBoth", "Two tokens with imprints of zeros.", stamped(ZERO_AT_9, ZERO)),
    ("EarlierFirst", "Tokens of 09:00 and 10:00.", stamped(AT_9, TOKEN)),
    (
        "LaterFirst",
        "Tokens of 11:00 and 10:00, as two values of one attribute.",
        signed_data([PLAIN.stamped(stamps(AT_11, TOKEN))]),
    ),
    (
        "HalfFirst",
        "Tokens of 10:00:00.5 and 10:00:00, and an attribute of another type between.",
        signed_data([PLAIN.stamped(stamps(AT_HALF), attribute("2.999.9", element(5)), stamps(TOKEN))]),
    ),
]
SIGNERS = [
    ("ByKey", "Its signer is named by a key identifier.", stamped(TOKEN, of=KEYED, version=3)),
    ("Named", "Its signer names its certificate, with issuer and serial number.", stamped(TOKEN, of=NAMED)),
    ("OtherHash", "Its signer names another certificate.", stamped(of=WRONG_HASH)),
    ("OtherSerial", "Its signer names a certificate with another serial number.", stamped(of=OTHER_SERIAL)),
    ("OtherIssuer", "Its signer names a certificate of another issuer.", stamped(of=OTHER_ISSUER)),
    ("TwoNames", "Its signer names the issuer twice.", stamped(of=TWO_NAMES)),
    ("OtherTag", "Its signer names the issuer as an ediPartyName.", stamped(of=OTHER_TAG)),
    ("NamedTwice", "Its signer has the attribute twice.", stamped(of=NAMED_TWICE)),
    ("Two", "Two signers, stamped at 10:00 and at 11:00.", signed_data(BOTH)),
    ("TwoExchanged", "The same in the other order.", signed_data(BOTH[::-1])),
    (
        "TwoOfThree",
        "Two signers, stamped at 09:00 and 12:00, and at 10:00.",
        signed_data([PLAIN.stamped(stamps(AT_9), stamps(AT_12)), SECOND.stamped(stamps(OF_ABD))]),
    ),
    (
        "SecondDiffers",
        "Two signers, the second of which has the digest of another content.",
        signed_data([PLAIN.stamped(stamps(TOKEN)), signer(6, b"abd", b"abd").stamped()]),
    ),
    (
        "SecondUnstamped",
        "Two signers, the second of which has no token.",
        signed_data([PLAIN.stamped(stamps(TOKEN)), SECOND.stamped()]),
    ),
    (
        "SecondWithMore",
        "Two signers, the second of which has one attribute more.",
        signed_data([PLAIN.stamped(stamps(TOKEN)), SECOND_WITH_MORE.stamped(stamps(OF_ABD_AT_11))]),
    ),
]
MANY_SIGNERS = [PLAIN.stamped(stamps(TOKEN))] * 300
OF_MANY = [
    (
        "BeforeMany",
        "What comes before the signers of a file with 300 of them.",
        signed_data(MANY_SIGNERS)[: -len(b"".join(MANY_SIGNERS))],
    ),
    ("EachOfMany", "Each of these signers.", MANY_SIGNERS[0]),
]
OF_SIGNER = Signer.__new__(Signer)
OF_SIGNER.__dict__.update(TOKEN.signer.__dict__, tail=PLAIN.tail)
QUESTIONS = [
    ("Plain", "Of the signer, under its key.", PLAIN.question(key(1))),
    ("OtherKey", "The same, under the other key.", PLAIN.question(key(5))),
    ("Second", "Of the second signer, whose attributes are those of the first.", SECOND.question(key(4))),
    ("SecondWithMore", "Of the second signer with one attribute more.", SECOND_WITH_MORE.question(key(4))),
    ("OtherSignature", "Of the signer whose signature is `abd`.", DIFFERENT.question(key(1))),
    ("BySha1", "Of the signer with the digest by SHA-1.", BY_SHA_1.question(key(1))),
    ("OfNothing", "Of the signer of a content of no octet.", OF_NOTHING.question(key(1))),
    ("Named", "Of the signer that names its certificate.", NAMED.question(key(1))),
    ("OtherHash", "Of the one that names another.", WRONG_HASH.question(key(1))),
    ("OtherSerial", "Of the one that names another serial number.", OTHER_SERIAL.question(key(1))),
    ("OtherIssuer", "Of the one that names another issuer.", OTHER_ISSUER.question(key(1))),
    ("TwoNames", "Of the one that names the issuer twice.", TWO_NAMES.question(key(1))),
    ("OtherTag", "Of the one that names it as an ediPartyName.", OTHER_TAG.question(key(1))),
    ("NamedTwice", "Of the one that has the attribute twice.", NAMED_TWICE.question(key(1))),
    ("Token", "Of the token of 10:00.", TOKEN.signer.question(key(2))),
    ("TokenEnded", "The same, under the key of the certificate that has ended.", TOKEN.signer.question(key(3))),
    ("TokenWithSigner", "The same, with the attributes of the signer.", OF_SIGNER.question(key(2))),
    ("At9", "Of the token of 09:00.", AT_9.signer.question(key(2))),
    ("At11", "Of the token of 11:00.", AT_11.signer.question(key(2))),
    ("At12", "Of the token of 12:00.", AT_12.signer.question(key(2))),
    ("AtHalf", "Of the token of 10:00:00.5.", AT_HALF.signer.question(key(2))),
    ("LastSecond", "Of the token of the last second of the month.", LAST_SECOND.signer.question(key(2))),
    ("PastLastSecond", "Of the token half a second later.", PAST_LAST.signer.question(key(2))),
    ("ZeroAt9", "Of the token of 09:00 with an imprint of zeros.", ZERO_AT_9.signer.question(key(2))),
    ("Zero", "Of the token of 10:00 with an imprint of zeros.", ZERO.signer.question(key(2))),
    ("OfAbd", "Of the token of 10:00 on `abd`.", OF_ABD.signer.question(key(2))),
    ("OfAbdAt11", "Of the token of 11:00 on `abd`.", OF_ABD_AT_11.signer.question(key(2))),
    ("ByFirstVersion", "Of the token that names its authority by version 1.", BY_V_1.signer.question(key(2))),
    ("ByFirstNotSecond", "Of the token that names nobody by version 2.", BY_V_1_NOT_V_2.signer.question(key(2))),
    ("Unnamed", "Of the token that names nobody.", UNNAMED.signer.question(key(2))),
    ("BySha512224", "Of the token that names it by SHA-512/224.", BY_512_224.signer.question(key(2))),
    (
        "ByLasting",
        "Of the token that names the certificate that is good to the end of the year 9999.",
        BY_LASTING.signer.question(key(2)),
    ),
    ("ByMany", "Of the token that names the one that is not for time-stamping alone.", BY_MANY.signer.question(key(2))),
    ("ByTwoPurposes", "Of the token that names the one with two purposes.", BY_TWO.signer.question(key(2))),
    ("ByUncritical", "Of the token that names the one whose purpose is not critical.", BY_UNCRITICAL.signer.question(key(2))),
]
assert len({line for _, _, line in QUESTIONS}) == len(QUESTIONS)
HEAD = """\
# `tools/samples/signed_files.py` writes this file. 2.999 is an arc for examples; signatures are any octets.
"""


def blob_name(name):
    """The words of a name, as `by_sha512_224` for `BySha512224`."""
    return "_".join(re.findall("[A-Z][a-z]*(?:512(?=224)|[0-9]*)|224", name)).lower()


def wrapped(digits, mark=""):
    """Digits in lines of 128, each after the mark of a text if they are one."""
    return ["%s%s" % (mark, digits[i : i + 128]) for i in range(0, len(digits), 128)]


def blob(name, lines):
    """An octet string, in one line if it has one."""
    return "%s =%s\n" % (name, " " + (lines or ["-"])[0] if len(lines) < 2 else "".join("\n " + line for line in lines))


def octets_blobs(prefix, rows):
    return "".join("# %s\n%s" % (what, blob(prefix + blob_name(name), wrapped(octets.hex()))) for name, what, octets in rows)


def line_blob(name, what, line):
    """A line of an answers list, which has a space, 20, between its words."""
    words = [wrapped(word, "'") for word in line.split()]
    lines = [part + (" 20" if part is parts[-1] and parts is not words[-1] else "") for parts in words for part in parts]
    return "# %s\n%s" % (what, blob("asked_" + blob_name(name), lines))


def every(names):
    """All of these lines, each with its end, 0a."""
    lines = ["$asked_%s 0a" % blob_name(name) for name in names]
    return blob("asked_every", [" ".join(lines[i : i + 5]) for i in range(0, len(lines), 5)])


def of_many():
    """A file with three hundred signers."""
    rows = ("ten_of_many", "each_of_many", 10), ("hundred_of_many", "ten_of_many", 10), ("three_hundred", "hundred_of_many", 3)
    return "".join(blob(name, ["$before_many"] * (times == 3) + [" ".join(["$" + part] * times)]) for name, part, times in rows)


def main(path):
    with open(path, "w") as file:
        file.write(HEAD + "\n# Certificates.\n\n" + octets_blobs("cert_", CERTIFICATES))
        file.write("\n# What a verifier is asked: lines of an answers list.\n\n")
        file.write("".join(line_blob(*row) for row in QUESTIONS))
        file.write(
            "# All of them: also signatures with the attributes of others.\n" + every([name for name, _, _ in QUESTIONS])
        )
        file.write("\n# Signed files.\n\n" + octets_blobs("", FORMS + STAMPS + SIGNERS + OF_MANY))
        file.write("# Three hundred of them.\n" + of_many())


if __name__ == "__main__":
    main(sys.argv[1])
