"""Tests of the oracle, tools/oracle: it judges the program, so its own tables are held against standards, docs/FORMAT.md, OpenSSL, and
the rows of crates/vectors_run, which were worked out by hand. At the end it is made wrong in one place after another, and each
time these tests must notice. None of them runs the program."""
import contextlib
import functools
import io
import itertools
import shutil
import subprocess
import sys
import tempfile
import unittest
from pathlib import Path
from unittest import mock

TOP = Path(__file__).resolve().parent.parent.parent
sys.path.insert(0, str(TOP / "tools"))
from oracle import answers, der, evidence, expected, forms, identifiers, lists  # noqa: E402
from oracle import openssl_judge, openssl_lines, rules  # noqa: E402
from oracle import openssl_signed, real_stamps, records, rows, rules_rows, stamps_rows, under_rows  # noqa: E402
from trying import verdicts  # noqa: E402

REAL = TOP / "data" / "real"
FOREIGN = TOP / "crates" / "real_files" / "data"

# ---- DER, by X.690: the number of its paragraph behind each row

# the octets of an element, and its identifier, the octets of its header and its contents
ELEMENTS = [
    ("1a05 4a6f6e6573", 0x1A, 2, b"Jones"),  # 8.14
    ("4305 4a6f6e6573", 0x43, 2, b"Jones"),  # 8.14
    ("a207 4305 4a6f6e6573", 0xA2, 2, b"\x43\x05Jones"),  # 8.14
    ("8205 4a6f6e6573", 0x82, 2, b"Jones"),  # 8.14
    ("300a 1605 536d697468 0101ff", 0x30, 2, b"\x16\x05Smith\x01\x01\xff"),  # 8.9
    ("0500", 0x05, 2, b""),  # 8.8
    ("0426" + "61" * 38, 0x04, 2, b"a" * 38),  # 8.1.3.4: L = 38 is 26
    ("0481c9" + "61" * 201, 0x04, 3, b"a" * 201),  # 8.1.3.5: L = 201 is 81 c9
    ("047f" + "61" * 127, 0x04, 2, b"a" * 127),  # 10.1
    ("048180" + "61" * 128, 0x04, 3, b"a" * 128),
    ("0481ff" + "61" * 255, 0x04, 3, b"a" * 255),
    ("04820100" + "61" * 256, 0x04, 4, b"a" * 256),
    ("0482ffff" + "61" * 65535, 0x04, 4, b"a" * 65535),
    ("0483010000" + "61" * 65536, 0x04, 5, b"a" * 65536),
]
# octets that are no element in DER: the number of the kind in docs/FORMAT.md, section 3, and where
NO_ELEMENTS = [
    ("04817f" + "61" * 127, 4, 1),  # 10.1: the length is not the shortest
    ("048200ff" + "61" * 255, 4, 1),
    ("04820000", 4, 1),
    ("0480 0000", 3, 1),  # 10.1: no indefinite form
    ("04ff", 4, 1),  # 8.1.3.5 c
    ("0485 0000000001 61", 4, 1),
    ("0000", 2, 0),  # 8.1.5
    ("1f 1f 00", 2, 0),
    ("3f 1f 00", 2, 0),
    ("bf 1f 00", 2, 0),
    ("", 1, 0),
    ("04", 1, 1),
    ("0481", 1, 2),
    ("048201", 1, 3),
    ("0401", 5, 0),
    ("0402 61", 5, 0),
    ("0484ffffffff", 5, 0),
    ("0401 61 00", 7, 3),
]
# a number, and the INTEGER (8.3); those of RSA's Layman's Guide to ASN.1, 5.7, and both sides of each further octet
NUMBERS = [
    (0, "020100"),
    (127, "02017f"),
    (128, "02020080"),
    (255, "020200ff"),
    (256, "02020100"),
    (32767, "02027fff"),
    (32768, "0203008000"),
    (-1, "0201ff"),
    (-128, "020180"),
    (-129, "0202ff7f"),
    (-32768, "02028000"),
    (-32769, "0203ff7fff"),
    (2**64, "0209010000000000000000"),
]
# the text of an object identifier, and its contents (8.19)
OIDS = [
    ("2.100.3", "813403"),  # 8.19.5
    ("2.999.3", "883703"),  # 8.19.5 since 2008
    ("2.999", "8837"),
    ("1.2.840.113549", "2a864886f70d"),  # RSA's Layman's Guide, 5.9
    ("0.0", "00"),
    ("0.39", "27"),
    ("1.0", "28"),
    ("1.39", "4f"),
    ("2.0", "50"),
    ("2.47", "7f"),
    ("2.48", "8100"),
    ("2.5.4.3", "550403"),
    ("2.5.29.37", "551d25"),
    ("1.3.6.1.5.5.7.3.8", "2b06010505070308"),
    ("2.16.840.1.101.3.4.2.1", "608648016503040201"),
    ("1.3.14.3.2.26", "2b0e03021a"),
    ("2.25.340282366920938463463374607431768211455", "6983ffffffffffffffffffffffffffffffffff7f"),
]
# a test of contents, and contents that it takes or refuses
CONTENTS = [
    ("is_boolean", ("ff", "00"), ("", "01", "fe", "ffff", "0000")),  # 8.2, 11.1
    (
        "is_integer",
        ("00", "7f", "80", "0080", "ff7f", "0100", "ff00"),
        ("", "0000", "007f", "ff80", "ffff", "ff8000"),
    ),  # 8.3.2
    ("is_bits", ("00", "040a3b5f291cd0", "0780", "00ff", "0000", "0100"), ("", "01", "07", "0801", "040a3b5f291cd8")),
    ("is_bits", ("0680", "06c0", "01fe"), ("0860", "ff00", "0101", "0601", "0740")),  # 8.6.2, 11.2.1
    (
        "is_oid",
        ("813403", "883703", "00", "7f", "8100", "2a864886f70d"),
        ("", "80", "8001", "2a8001", "2a81", "813483"),
    ),  # 8.19.2
]
# a time's text, and its moment: 14 digits and 9 of the fraction; None where it is no time
TIMES = [
    (der.GENERALIZED, "19920521000000Z", "19920521000000000000000"),  # 11.7.5
    (der.GENERALIZED, "19920622123421Z", "19920622123421000000000"),
    (der.GENERALIZED, "19920722132100.3Z", "19920722132100300000000"),
    (der.GENERALIZED, "19920520240000Z", None),  # 11.7.5: midnight
    (der.GENERALIZED, "19920622123421.0Z", None),  # 11.7.5: spurious zeros
    (der.GENERALIZED, "19920722132100.30Z", None),
    (der.GENERALIZED, "199207221321Z", None),  # 11.7.2: no seconds
    (der.GENERALIZED, "19920722132100,3Z", None),  # 11.7.4
    (der.GENERALIZED, "19920722132100.Z", None),
    (der.GENERALIZED, "19920722132100+0100", None),  # 11.7.1
    (der.GENERALIZED, "19920722132100z", None),
    (der.GENERALIZED, "19920722132100", None),
    (der.GENERALIZED, "20240101000000.123456789Z", "20240101000000123456789"),
    (der.GENERALIZED, "20240101000000.1234567891Z", None),  # FORMAT.md, section 7
    (der.GENERALIZED, "20240101000000.25Z", "20240101000000250000000"),
    (der.GENERALIZED, "00000229235959Z", "00000229235959000000000"),
    (der.GENERALIZED, "20000229000000Z", "20000229000000000000000"),
    (der.GENERALIZED, "19000229000000Z", None),
    (der.GENERALIZED, "21000229000000Z", None),
    (der.GENERALIZED, "20230229000000Z", None),
    (der.GENERALIZED, "20240431000000Z", None),
    (der.GENERALIZED, "20240001000000Z", None),
    (der.GENERALIZED, "20241301000000Z", None),
    (der.GENERALIZED, "20240100000000Z", None),
    (der.GENERALIZED, "20240101006000Z", None),
    (der.GENERALIZED, "20161231235960Z", None),
    (der.GENERALIZED, " 2024010100000Z", None),
    (der.UTC, "920521000000Z", "19920521000000000000000"),  # 11.8.4
    (der.UTC, "920622123421Z", "19920622123421000000000"),
    (der.UTC, "920520240000Z", None),  # 11.8.4: midnight
    (der.UTC, "9207221321Z", None),  # 11.8.4: no seconds
    (der.UTC, "920722132100.3Z", None),
    (der.UTC, "500101000000Z", "19500101000000000000000"),  # RFC 5280 4.1.2.5.1
    (der.UTC, "491231235959Z", "20491231235959000000000"),
]

# ---- docs/FORMAT.md: its worked examples, and what it says of them

DIGEST = "ba7816bf8f01cfea414140de5dae2223b00361a396177a9cb410ff61f20015ad"  # FIPS 180-2, appendix B.1: the SHA-256 of abc
REQUEST = bytes.fromhex("3039 020101 3031 300d 0609608648016503040201 0500 0420" + DIGEST + "0101ff")
CERTIFICATE = bytes.fromhex(
    "3038 302e 020107 300306012a 3000 301e 170d3234303130313030303030305a 170d3234303133313233353935395a 3000 3000 300306012a 030100"
)
SIGNED = bytes.fromhex(
    "3081b7 06092a864886f70d010702 a081a9 3081a6 020101 310d 300b0609608648016503040201 3012 06092a864886f70d010701 a005 0403616263"
    "317e 307c 020101 3011 300c310a300806035504030c0141 020105 300b0609608648016503040201 a04b"
    "3018 06092a864886f70d010903 310b06092a864886f70d010701 302f 06092a864886f70d010904 31220420"
    + DIGEST
    + "3005 0603883701 0403616263"
)
TYPE_ATTRIBUTE, DIGEST_ATTRIBUTE = SIGNED[99:125], SIGNED[125:174]


def changed(octets, at, octet):
    """The octets with another one at this place."""
    return octets[:at] + bytes([octet]) + octets[at + 1 :]


# octets, and their fault as a request (section 3, 8)
REQUEST_FAULTS = f"""
30 M1 End at 1
308201 M1 End at 3
3003020101 M1 End at 5
1f M2 HighTag at 0
3080 M3 Indefinite at 1
3081050000000000 M4 LengthForm at 1
308200 M4 LengthForm at 1
3085 M4 LengthForm at 1
3005020101 M5 Overrun at 0
3003020501 M5 Overrun at 2
31 M6 Tag at 0
3180 M6 Tag at 0
30120201013007300306012a04000101ff020105 M6 Tag at 17
{REQUEST.hex()}00 M7 Trailing at 59
300402020001 M8 Integer at 4
300b0201013006300206000400 M9 Oid at 11
300d0201013008300406022a800400 M9 Oid at 11
300f0201013007300306012a0400010105 M10 Boolean at 16
3003020102 M13 Value at 4
"""
# what reads octets, the octets, and their fault (section 3, 8, 9)
FAULTS = [
    *((forms.request, *line.split(" ", 1)) for line in REQUEST_FAULTS.strip().splitlines()),
    (forms.certificate, changed(CERTIFICATE, 57, 8).hex(), "M11 Bits at 57"),
    (forms.certificate, CERTIFICATE.replace(b"240101", b"241301").hex(), "M12 Time at 18"),
    (forms.certificate, "30073005a003020103", "M13 Value at 8"),
    (forms.content_info, changed(SIGNED, 22, 2).hex(), "M13 Value at 22"),
    (forms.content_info, changed(SIGNED, 64, 2).hex(), "M13 Value at 64"),
    (forms.content_info, (SIGNED[:99] + DIGEST_ATTRIBUTE + TYPE_ATTRIBUTE + SIGNED[174:]).hex(), "M14 Order at 148"),
    (
        forms.content_info,
        "303006092a864886f70d010702a02330210201013100300306012a3115301302010180003003" "06012aa000300306012a0400",
        "M15 Empty at 41",
    ),
    (functools.partial(forms.attribute, in_order=True), "300b06012a3106020102020101", "M14 Order at 10"),
    (records.evidence_record, "300d02010130003006300431023000", "M6 Tag at 11"),
    (records.evidence_record, "300d02010230003006300430023000", "M13 Value at 4"),
    (records.evidence_record, "300702010130003000", "M15 Empty at 7"),
    (records.evidence_record, "30110201013000300a30083006a20230003000", "M15 Empty at 15"),
]
# Each form as sections 2, 8, 9 and 12 have it: its parts, each of which may be absent if it has a `?`, by what reads it.
ALGORITHM, EXTENSION, IMPRINT = "300306012a", "300506012a0400", "300b300306012a0404abcdef01"
ATTRIBUTE, PAIR = "300706012a31020500", "30073002a4000201 05".replace(" ", "")
FORMS = {
    "Request": (forms.request, "020101 %s 06012a? 020105? 0101ff? a007%s?" % (IMPRINT, EXTENSION)),
    "Imprint": (forms.imprint, "%s 0400" % ALGORITHM),
    "AlgId": (forms.algorithm, "06012a 0500?"),
    "Extension": (forms.extension, "06012a 0101ff? 0400"),
    "EvidenceRecord": (records.evidence_record, "020101 3000 a009%s? a10306012a? 3006300430023000" % ATTRIBUTE),
    "ArchiveTimeStamp": (records.stamp, "a00306012a? a109%s? a20430020400? 3000" % ATTRIBUTE),
    "TSTInfo": (
        forms.tst_info,
        "020101 06012a %s 020105 180f32303234303130313030303030305a 3003020101? 0101ff? 020109? a0028200? a107%s?"
        % (IMPRINT, EXTENSION),
    ),
    "Accuracy": (forms.accuracy, "020101? 800101? 810101?"),
    "Response": (forms.response, "3003020100 3000?"),
    "Status": (lambda c: forms.response(inside(c)), "020100 30020c00? 030100?"),
    "SigningCertificate": (forms.signing_certificate(False), "300430020400 3000?"),
    "SigningCertificateV2": (forms.signing_certificate(True), "300430020400 3000?"),
    "EssId": (lambda c: forms.named(c, False), "0400 %s?" % PAIR),
    "EssIdV2": (lambda c: forms.named(c, True), "%s? 0400 %s?" % (ALGORITHM, PAIR)),
    "Certificate": (forms.certificate, "%s %s 030100" % (CERTIFICATE[2:50].hex(), ALGORITHM)),
    "Tbs": (
        lambda c: forms.certificate(inside(c, "300306012a030100")),
        "a003020102? 020107 %s 3000 %s 3000 3000 810100? 820100? a3093007%s?"
        % (ALGORITHM, CERTIFICATE[14:46].hex(), EXTENSION),
    ),
    "ContentInfo": (forms.content_info, "06012a a0020500"),
    "SignedData": (
        forms.signed_data,
        "020101 3100 300306012a a0023000? a1023000? 3100",
    ),
    "Encap": (forms.encapsulated, "06012a a0020400?"),
    "SignerInfo": (
        forms.signer,
        "020101 8000 %s a009%s? %s 0400 a109%s?" % (ALGORITHM, ATTRIBUTE, ALGORITHM, ATTRIBUTE),
    ),
    "Attribute": (functools.partial(forms.attribute, in_order=False), "06012a 31020500"),
}


def inside(cursor, behind=""):
    """A cursor at a SEQUENCE of the one there, and what is behind it: for forms that are a part of another alone."""
    element = cursor.take(der.SEQUENCE)
    return der.Cursor(der.sequence(element.whole(), bytes.fromhex(behind)))


# ---- rules, by the standards

# what is done to the file of FORMAT.md, and what `fit` says of it by docs/LINES.md
OTHER_TYPE = SIGNED.replace(TYPE_ATTRIBUTE, TYPE_ATTRIBUTE[:-1] + b"\2")
FITS = [
    (SIGNED, None, "fits 1\n", 0),
    (SIGNED, b"abc", "refused C5 ContentTwice\n", 1),
    (bytes.fromhex("300f06092a864886f70d010701a0020400"), None, "refused C2 NotSignedData\n", 1),  # section 9
    (changed(SIGNED, 57, 0x64), None, "refused signer 1 S6 DigestDiffers\n", 1),
    (changed(SIGNED, 173, 0), None, "refused signer 1 S6 DigestDiffers\n", 1),
    (OTHER_TYPE, None, "refused signer 1 S3 ContentTypeDiffers\n", 1),  # RFC 5652 11.1
    (changed(SIGNED, 96, 9), None, "refused signer 1 S5 DigestAlgorithm\n", 1),
    (changed(SIGNED, 137, 9), None, "refused signer 1 S4 DigestAttr\n", 1),  # RFC 5652 11.2
    (changed(SIGNED, 111, 2), None, "refused signer 1 S2 ContentTypeAttr\n", 1),
    (SIGNED[:-1], None, "malformed M5 Overrun at 0\n", 2),
]
# the names that OpenSSL has for identifiers
NAMES = {
    "sha1": identifiers.DIGEST_OIDS["sha1"],
    "sha224": identifiers.DIGEST_OIDS["sha224"],
    "sha256": identifiers.DIGEST_OIDS["sha256"],
    "sha384": identifiers.DIGEST_OIDS["sha384"],
    "sha512": identifiers.DIGEST_OIDS["sha512"],
    "sha512-224": identifiers.DIGEST_OIDS["sha512_224"],
    "sha512-256": identifiers.DIGEST_OIDS["sha512_256"],
    "pkcs7-data": identifiers.DATA,
    "pkcs7-signedData": identifiers.SIGNED_DATA,
    "id-smime-ct-TSTInfo": identifiers.TST_INFO,
    "contentType": identifiers.CONTENT_TYPE,
    "messageDigest": identifiers.MESSAGE_DIGEST,
    "id-smime-aa-signingCertificate": identifiers.SIGNING_CERTIFICATE,
    "id-smime-aa-signingCertificateV2": identifiers.SIGNING_CERTIFICATE_V2,
    "id-smime-aa-timeStampToken": identifiers.TIME_STAMP_TOKEN,
    "subjectKeyIdentifier": identifiers.SUBJECT_KEY_IDENTIFIER,
    "extendedKeyUsage": identifiers.EXTENDED_KEY_USAGE,
    "timeStamping": identifiers.TIME_STAMPING,
    "rsassaPss": identifiers.RSA_PSS,
    "ecdsa-with-SHA256": identifiers.ECDSA_SHA256,
}


def fault_of(read, octets):
    """The fault of octets, as it is printed, or None."""
    try:
        forms.whole(octets, read)
        return None
    except der.Fault as fault:
        return str(fault)


@functools.cache
def made_by_openssl(text):
    """What `openssl asn1parse -genstr` makes of a text."""
    with tempfile.TemporaryDirectory() as folder:
        made = Path(folder) / "made"
        subprocess.run(["openssl", "asn1parse", "-genstr", text, "-noout", "-out", made], check=True, capture_output=True)
        return made.read_bytes()


class Der(unittest.TestCase):
    """Elements and their contents, by X.690."""

    def test_elements(self):
        for digits, tag, head, contents in ELEMENTS:
            octets = bytes.fromhex(digits)
            found = der.only(octets)
            self.assertEqual((found.tag, found.start, found.body(), found.whole()), (tag, head, contents, octets), digits[:20])
            self.assertEqual(der.element(tag, contents), octets, digits[:20])
            self.assertEqual([part.whole() for part in der.elements(octets + octets)], [octets, octets])

    def test_no_elements(self):
        for digits, kind, at in NO_ELEMENTS:
            with self.assertRaises(der.Fault, msg=digits[:20]) as caught:
                der.only(bytes.fromhex(digits))
            self.assertEqual((caught.exception.kind, caught.exception.at), (kind, at), digits[:20])

    def test_numbers(self):
        for number, digits in NUMBERS:
            self.assertEqual(der.number(number).hex(), digits)
            self.assertTrue(der.is_integer(bytes.fromhex(digits)[2:]))

    def test_object_identifiers(self):
        for text, digits in OIDS:
            self.assertEqual((der.oid_contents(text).hex(), der.oid_text(bytes.fromhex(digits))), (digits, text))
            self.assertTrue(der.is_oid(bytes.fromhex(digits)))

    def test_contents(self):
        for test, good, bad in CONTENTS:
            for digits in good + bad:
                self.assertEqual(getattr(der, test)(bytes.fromhex(digits)), digits in good, f"{test} {digits}")

    def test_times(self):
        for tag, text, moment in TIMES:
            self.assertEqual(der.moment_of(tag, text.encode()), moment, text)
            if moment is not None and tag == der.GENERALIZED:
                self.assertEqual(der.time_text(moment), text)


class Format(unittest.TestCase):
    """docs/FORMAT.md."""

    def test_the_worked_examples(self):
        asked = forms.whole(REQUEST, forms.request)
        self.assertEqual(
            (len(REQUEST), asked.imprint.digest.hex(), asked.policy, asked.nonce, asked.cert), (59, DIGEST, None, None, True)
        )
        self.assertEqual(
            (der.oid_text(asked.imprint.alg.oid), asked.imprint.alg.parameters), ("2.16.840.1.101.3.4.2.1", b"\5\0")
        )
        held = forms.whole(CERTIFICATE, forms.certificate)
        self.assertEqual(
            (len(CERTIFICATE), held.serial, held.issuer, held.key, held.extensions), (58, b"\7", b"\x30\0", b"\x30\0", [])
        )
        self.assertEqual((held.first[:14], held.last[:14]), ("20240101000000", "20240131235959"))
        signed = forms.read_signed_data(SIGNED)
        signer = signed.signers[0]
        self.assertEqual(
            (len(SIGNED), signed.version, signed.content, der.oid_text(signed.type)), (186, 1, b"abc", "1.2.840.113549.1.7.1")
        )
        self.assertEqual((signer.sid.issuer, signer.sid.serial, signer.signature), (SIGNED[67:81], b"\5", b"abc"))
        self.assertEqual((signer.tail, len(signer.tail)), (SIGNED[98:174], 76))
        self.assertEqual([der.oid_text(a.oid) for a in signer.signed], ["1.2.840.113549.1.9.3", "1.2.840.113549.1.9.4"])

    def test_faults(self):
        for read, digits, fault in FAULTS:
            self.assertEqual(fault_of(read, bytes.fromhex(digits)), fault, digits[:60])

    def test_the_forms(self):
        for name, (read, text) in FORMS.items():
            parts = [(bytes.fromhex(part.rstrip("?")), part.endswith("?")) for part in text.split()]
            self.is_form(name, read, parts)

    def is_form(self, name, read, parts):
        """Asserts that octets of the form are read, whichever optional parts are there, and none that differ in a part."""
        must = [part for part, optional in parts if not optional]
        for choice in itertools.product((False, True), repeat=len(parts)):
            chosen = [part for (part, optional), there in zip(parts, choice) if there or not optional]
            self.assertIsNone(fault_of(read, der.sequence(*chosen)), f"{name}: {[part.hex() for part in chosen]}")
        every = [part for part, _ in parts]
        for at, (part, optional) in enumerate(parts):
            if not optional:
                lacking = [p for p, opt in parts if not opt and p is not part]
                self.assertIsNotNone(fault_of(read, der.sequence(*lacking)), f"{name} without {part.hex()}")
            self.assertIsNotNone(
                fault_of(read, der.sequence(*every[:at], b"\x1e\0", *every[at:])), f"{name} before {part.hex()}"
            )
            if at + 1 < len(every) and part[0] != every[at + 1][0]:
                swapped = every[:at] + [every[at + 1], every[at]] + every[at + 2 :]
                self.assertIsNotNone(fault_of(read, der.sequence(*swapped)), f"{name}: {part.hex()} after the next")
        self.assertIsNotNone(fault_of(read, der.sequence(*every, b"\x1e\0")), f"{name} and more")
        self.assertIsNotNone(fault_of(read, der.element(der.SET, *must)), f"{name} as a SET")

    def test_streams(self):
        front, kept = SIGNED[:58], 11 + 128  # the type of the content and the signers are kept
        self.assertEqual(expected.check(SIGNED, rules.Terms([], []), room=kept)[0], "refused signer 1 S7 UnknownSigner\n")
        self.assertEqual(expected.check(SIGNED, rules.Terms([], []), room=kept - 1), ("failed X3 TooLong\n", 4))
        self.assertEqual(expected.check(front, rules.Terms([], []))[0], "malformed M5 Overrun at 0\n")
        self.assertEqual(expected.check(SIGNED + b"\0", rules.Terms([], []))[0], "malformed M7 Trailing at 186\n")


class Rules(unittest.TestCase):
    """Rules and lines, by hand."""

    def test_fits(self):
        for octets, content, line, status in FITS:
            self.assertEqual(expected.fits(octets, content), (line, status))

    def test_the_rows(self):
        said = io.StringIO()
        with contextlib.redirect_stdout(said):
            status = rules_rows.main()
        self.assertEqual(status, 0, said.getvalue())
        told = int(said.getvalue().splitlines()[-1].split()[0])
        self.assertGreaterEqual(told, 380)

    def test_the_rows_of_stamps(self):
        said = io.StringIO()
        with contextlib.redirect_stdout(said):
            status = stamps_rows.main()
        self.assertEqual(status, 0, said.getvalue())
        told = int(said.getvalue().splitlines()[-1].split()[0])
        self.assertGreaterEqual(told, 190)

    def test_the_rows_of_files_beside_records(self):
        said = io.StringIO()
        with contextlib.redirect_stdout(said):
            status = under_rows.main()
        self.assertEqual(status, 0, said.getvalue())
        told = int(said.getvalue().splitlines()[-1].split()[0])
        self.assertGreaterEqual(told, 45)

    def test_the_rows_of_evidence_records(self):
        folder, blobs, told = TOP / "crates" / "vectors_run" / "data" / "commands", {}, 0
        for name in ("commands.blobs", "stamps.blobs", "evidence.blobs"):
            blobs = rows.blobs_of((folder / name).read_text(), blobs)
        for line in (folder / "evidence.rows").read_text().splitlines():
            if line.startswith("run words=show+evidence+shown "):
                row = rows.Row(line, blobs)
                text, status = records.shown(rows.octets_of(row.text("files").removeprefix("shown:"), blobs))
                self.assertEqual(f"{status} " + text.replace("\n", "\\n"), row.wanted)
                told += 1
        self.assertGreaterEqual(told, 40)

    def test_lists(self):
        digits = CERTIFICATE.hex()
        for text, fault in (
            ("cmsproof trust 1\nsigner %s\n" % digits, None),
            ("cmsproof trust 2\r\n# a\r\n\r\ntsa - 20240101000000Z %s" % digits.upper(), None),
            ("cmsproof trust 3\n", "trust L1 Version at line 1\n"),
            ("cmsproof trust 1\n\ntsa  %s\n" % digits, "trust L2 Line at line 3\n"),
            ("cmsproof trust 1\ntsa %s\n" % digits[1:], "trust L2 Line at line 2\n"),
            ("cmsproof trust 1\ntsa - - %s\n" % digits, "trust L2 Line at line 2\n"),
            ("cmsproof trust 2\ntsa 20240101000000.1Z 20240101000000Z %s\n" % digits, "trust L5 Period at line 2\n"),
            ("cmsproof trust 2\ntsa 20240101000000Z - \n", "trust L3 Certificate at line 2\n"),
            ("cmsproof trust 1\nsigner %s00\n" % digits, "trust L3 Certificate at line 2\n"),
        ):
            self.assertEqual(lists.trust(text.encode())[1], fault, text[:60])


@unittest.skipUnless(shutil.which("openssl"), "there is no openssl")
class OpenSsl(unittest.TestCase):
    """What OpenSSL says."""

    def test_what_it_makes(self):
        for number, digits in NUMBERS:
            self.assertEqual(made_by_openssl(f"INTEGER:{number}").hex(), digits)
        for text, digits in OIDS:
            self.assertEqual(made_by_openssl(f"OID:{text}")[2:].hex(), digits)
        for name, oid in NAMES.items():
            self.assertEqual(der.oid_text(der.only(made_by_openssl(f"OID:{name}"), der.OID).body()), oid, name)

    def test_each_element_of_real_files(self):
        for path in sorted([*REAL.glob("*.p7s"), *FOREIGN.glob("*.t??"), *FOREIGN.glob("*.der")]):
            octets = path.read_bytes()
            if octets[1] != 0x80:
                self.is_shown(openssl_signed.elements(path, octets), der.only(octets), path.name)

    def is_shown(self, shown, element, name):
        """Asserts that an element, and each one inside it, are where asn1parse shows them."""
        found = element.at, element.start - element.at, element.whole()
        self.assertEqual(found, (shown.at, shown.head, shown.whole), name)
        if element.tag & 0x20:
            cursor, parts = der.Cursor(element.octets, element.start, element.stop), []
            while cursor.at < cursor.end:
                parts.append(cursor.take())
            self.assertEqual(len(parts), len(shown.parts), name)
            for part, inner in zip(shown.parts, parts):
                self.is_shown(part, inner, name)

    def test_the_files_that_it_writes_again(self):
        for path in sorted(REAL.glob("*.p7s")):
            octets = path.read_bytes()
            read = expected.reads(octets, forms.content_info)
            self.assertEqual((read[0] is None), openssl_judge.cms(octets) == octets, path.name)

    def test_the_verdicts_on_real_files(self):
        asking = rules.Terms(lists.entries_of((REAL / "trust.txt").read_bytes()), [])
        for name, place, verdict in verdicts.EXPECTED:
            octets, content = (REAL / name).read_bytes(), None if place is None else (REAL / place).read_bytes()
            vouched = vouched_by_openssl(expected.questions(octets, asking)[0])
            line, _ = expected.check(octets, rules.Terms(asking.trust, vouched), content)
            self.assertTrue(line.startswith(verdict), f"{name}: {line}")
            for one in vouched if line.startswith("accepted") else []:
                less, status = expected.check(octets, rules.Terms(asking.trust, set(vouched) - {one}), content)
                self.assertRegex(less, "^refused signer [12] (S9|token 1 K14) SignatureFails\n$")
                self.assertEqual(status, 1)

    def test_the_stamps_of_real_files(self):
        with tempfile.TemporaryDirectory() as folder:
            compared = real_stamps.Compared(real_stamps.Judges(Path(folder), REAL / "trust.txt", None, False))
            for found in real_stamps.found_in([FOREIGN], []):
                compared.take(found)
        self.assertEqual((dict(compared.table), compared.faults), ({("accepted", "OK"): 6}, 0))

    def test_the_moments_of_tokens(self):
        for name, place, verdict in verdicts.EXPECTED:
            if verdict == "accepted ":
                octets = (REAL / name).read_bytes()
                tokens = [token for signer in forms.read_signed_data(octets).signers for token in rules.tokens_of(signer)]
                texts = [time_by_openssl(token) for token in tokens]
                contents = [forms.read_signed_data(token).content for token in tokens]
                self.assertEqual([der.time_text(forms.whole(c, forms.tst_info).time) for c in contents], texts, name)


@functools.cache
def vouched_by_openssl(text):
    """The questions of a text whose signatures hold by openssl."""
    if not text.startswith("cmsproof questions"):
        return []
    return [question.line.decode() for question in answers.read_questions(text.encode()) if answers.holds(question)[0]]


@functools.cache
def time_by_openssl(token):
    """The genTime of a token that `openssl ts` prints."""
    with tempfile.TemporaryDirectory() as folder:
        (Path(folder) / "token").write_bytes(token)
        words = ["openssl", "ts", "-reply", "-token_in", "-text", "-in", "token"]
        done = subprocess.run(words, cwd=folder, check=True, capture_output=True)
    return openssl_lines.time_of(openssl_lines.must_say(done.stdout.decode(), "Time stamp"))


def no_length(cursor, first):
    """A length in BER: the shortest form isn't demanded."""
    count = max(cursor.octets[first] - 0x80, 0)
    return (
        int.from_bytes(cursor.octets[first + 1 : first + 1 + count], "big") if count else cursor.octets[first],
        first + 1 + count,
    )


STAMP_TOKEN, STAMPED_AT = expected.stamp_token, rules.stamped_at


def data_first(token, stamped, terms):
    """A token that is judged once it is read what it should stamp."""
    octets = stamped()
    return STAMPED_AT(token, lambda: octets, terms)


def asked_of_anything(stamp, terms):
    """The questions of a stamp, of which nothing is refused."""
    return "".join(line + "\n" for line in ["cmsproof questions 1", *expected.token_questions(stamp, terms)]), 0


# what is made wrong: an object, a name there, and what is in its place
WRONG = [
    (der, "is_boolean", lambda contents: len(contents) == 1),
    (der, "is_integer", lambda contents: len(contents) > 0),
    (der, "is_oid", lambda contents: len(contents) > 0),
    (der, "is_bits", lambda contents: len(contents) > 0),
    (der, "is_civil", lambda text: True),
    (der, "is_identifier", lambda octet: True),
    (der, "moment_of", lambda tag, contents: contents[:-1].decode()),
    (der, "oid_contents", lambda text: bytes(map(int, text.split(".")))),
    (der, "number", lambda value: der.element(der.INTEGER, value.to_bytes(9, "big", signed=True))),
    (der.Cursor, "length", no_length),
    (der.Cursor, "finish", lambda cursor, absent=False: None),
    (der.Cursor, "has", lambda cursor, *tags: False),
    (forms, "ordered", lambda c, read, *tags: forms.many(c, read)),
    (forms, "filled", lambda c, tag: c.take(tag)),
    (forms, "version", lambda c, *allowed: forms.integer(c)[0]),
    (forms, "last_extensions", lambda c, tag: []),
    (rules, "fit", lambda signer, content, of, weak: None),
    (rules, "holds", lambda entry, moment: True),
    (rules, "stamping_only", lambda certificate: True),
    (rules, "names", lambda attributes, certificate, must: True),
    (rules, "matches", lambda sid, certificate: True),
    (rules, "has_digest", lambda imprint, octets, weak: True),
    (rules, "allowed_name", lambda alg, weak: rules.digest_name(alg)),
    (rules, "stamp_of", lambda content, weak: forms.whole(content, forms.tst_info)),
    (rules, "key_id", lambda certificate: None),
    (rules.Terms, "vouched", lambda terms, entries, signer: entries),
    (rules, "left", lambda code, entries: entries),
    (rules, "digest_name", lambda alg: rules.DIGESTS.get(alg.oid)),
    (lists, "end_of_period", lambda field: None),
    (lists, "is_answer_field", lambda field: True),
    (expected, "file_of", lambda octets, content, read: (read(octets), content or read(octets).content)),
    (expected, "certificates", lambda signed: iter(())),
    (expected, "token_questions", lambda token, terms: []),
    (expected, "granted", lambda given: given.token or b""),
    (expected, "stamp_token", lambda stamp: stamp),
    (expected, "stamp_token", lambda stamp: expected.granted(forms.whole(stamp, forms.response))),
    (expected, "stamp_token", lambda stamp: STAMP_TOKEN(der.Cursor(stamp).take().whole())),
    (expected, "stamp_questions", asked_of_anything),
    (rules, "stamped_at", data_first),
    (rules.Terms, "stamped_by", lambda terms, entry, moment: rules.holds(entry, moment)),
    (rules.Terms, "as_of", lambda terms, shown, weak: rules.Terms(terms.trust, terms.answers)),
    (evidence, "lasts", lambda name, moment, ends: True),
    (evidence, "of_record", lambda refusal: refusal.said),
    (evidence, "shown", lambda octets, data, terms, policy: policy.at or "20240120000000000000000"),
]


@unittest.skipUnless(shutil.which("openssl"), "there is no openssl")
class WrongOracle(unittest.TestCase):
    """The tests above notice an oracle that is wrong."""

    def test_each_is_noticed(self):
        self.assertTrue(is_passed())
        for place, name, instead in WRONG:
            with self.subTest(name=f"{place.__name__}.{name}"), mock.patch.object(place, name, instead):
                self.assertFalse(is_passed())


def is_passed():
    """Whether all tests above pass."""
    suite = unittest.TestSuite(map(unittest.defaultTestLoader.loadTestsFromTestCase, (Der, Format, Rules, OpenSsl)))
    result = unittest.TestResult()
    result.failfast = True
    suite.run(result)
    return result.wasSuccessful()


if __name__ == "__main__":
    unittest.main()
