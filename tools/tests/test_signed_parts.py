"""Tests of how much memory it takes to find the parts of a SignedData: whoever made the file can have put in any number."""
import tracemalloc
import unittest
from datetime import datetime
from unittest import mock

from making import REAL, TOP, need_tools

need_tools()
from oracle.der import element, oid

from cryptography import x509
from cryptography.hazmat.primitives import hashes
from cryptography.hazmat.primitives.asymmetric import ec
from cryptography.hazmat.primitives.serialization import Encoding

from cmsproof_tools import der, issuers, signed_parts
from cmsproof_tools.signatures import is_signed, signed_in

CERTIFICATE = TOP / "crates" / "real_files" / "data" / "cert_rsa_signer.der"
DATES = datetime(2020, 1, 1), datetime(2030, 1, 1)

# elements of two octets (NULL), and the first five parts of a SignerInfo (RFC 5652 5.3)
MANY = b"\x05\x00" * 200_000
FIVE = element(2, b"\1") + element(0x30) * 3 + element(4, b"x")
TOKEN = oid("1.2.840.113549.1.9.16.2.14")
SIGNED = oid("1.2.840.113549.1.7.2")


def signed(*signers):
    """A ContentInfo of a SignedData with these signers."""
    content = element(0x30, oid("1.2.840.113549.1.7.1"))
    parts = element(0x30, element(2, b"\1"), element(0x31), content, element(0x31, *signers))
    return element(0x30, SIGNED, element(0xA0, parts))


def stamped(*attribute):
    """A SignedData whose signer has an unsigned attribute of these parts."""
    return signed(element(0x30, FIVE, element(0xA1, element(0x30, *attribute))))


class Memory(unittest.TestCase):
    def test_many_elements(self):
        rows = {
            "elements": MANY,
            "parts of a ContentInfo": element(0x30, MANY),
            "parts of a SignedData": element(0x30, SIGNED, element(0xA0, element(0x30, MANY))),
            "signers": signed(element(0x30, FIVE) * 20_000),
            "parts of a signer": signed(element(0x30, FIVE, MANY)),
            "parts of an attribute": stamped(TOKEN, MANY),
            "attributes": signed(element(0x30, FIVE, element(0xA1, element(0x30, oid("1.2.3"), element(0x31)) * 20_000))),
            "values": stamped(TOKEN, element(0x31, MANY)),
            "values of another attribute": stamped(oid("1.2.3"), element(0x31, MANY)),
            "parts of a token's signer": stamped(TOKEN, element(0x31, signed(element(0x30, MANY)))),
            "signers of a token": stamped(TOKEN, element(0x31, signed(MANY))),
        }
        for name, octets in rows.items():
            tracemalloc.start()
            try:
                signed_parts.everything_in(octets)
            except ValueError:
                pass
            peak = tracemalloc.get_traced_memory()[1]
            tracemalloc.stop()
            self.assertLess(peak / len(octets), 3, name)

    def test_what_is_there_is_found(self):
        """As `openssl cms -cmsout -print` shows it: a signer with a token, whose time it is, one certificate, and two in the token."""
        found, (signer,) = signed_parts.everything_in((REAL / "rsa_attached_ts.p7s").read_bytes())
        (token,) = signer.tokens
        self.assertEqual((token.time, len(found), len(token.bag), signer.sid.identifier), ("20261122071759Z", 3, 2, 0x30))
        self.assertTrue(token.sid is not None and token.stamped)

    def test_more_than_are_looked_at(self):
        token, signer = element(0x30), element(0x30, FIVE)
        most = signed_parts.MOST_TOKENS
        for octets, count in ((signed(signer * most), most), (stamped(TOKEN, element(0x31, token * (most - 1))), 1)):
            self.assertEqual(len(signed_parts.everything_in(octets)[1]), count)
        for octets in (signed(signer * (most + 1)), stamped(TOKEN, element(0x31, token * most))):
            with self.assertRaises(signed_parts.TooMany):
                signed_parts.everything_in(octets)


class Files(unittest.TestCase):
    """Long certificates of one file are not kept when the next one is looked at."""

    def certificate(self, number):
        """A certificate of an eighth of a megabyte."""
        name = x509.Name([x509.NameAttribute(x509.NameOID.COMMON_NAME, f"c{number}")])
        found = x509.CertificateBuilder(name, name, self.key.public_key(), number + 1, *DATES)
        long = x509.UnrecognizedExtension(x509.ObjectIdentifier("2.999.9"), bytes([number]) * (1 << 17))
        return found.add_extension(long, False).sign(self.key, hashes.SHA256()).public_bytes(Encoding.DER)

    def test_one_of_many_extensions_is_not_read(self):
        (number, algorithm, signature), many = self.parts(), element(0x30, oid("2.999"), element(4, b""))
        for count, read in ((1, True), (1 << 16, False)):
            octets = element(0x30, element(0x30, number, element(0xA3, element(0x30, many * count))), algorithm, signature)
            self.assertEqual(issuers.certificate_of(octets) is not None, read, count)

    def parts(self):
        """The fields of a certificate without its extensions, and what stands behind them."""
        tbs, algorithm, signature = der.elements(der.only(0x30, CERTIFICATE.read_bytes()))
        fields = [field.whole for field in der.elements(tbs.contents) if field.identifier != 0xA3]
        return b"".join(fields), algorithm.whole, signature.whole

    def test_what_stays(self):
        self.key = ec.generate_private_key(ec.SECP256R1())
        growing = issuers.Growing(mock.Mock(between=()), [], print)
        tracemalloc.start()
        for number in range(40):
            (certificate,) = growing.pool_of((self.certificate(number),)).certificates
            self.assertTrue(is_signed(signed_in(certificate.octets), certificate.key))
            issuers.list_of_one("signer", certificate.octets)
            growing.holds("signer", certificate, "20261122071759Z")
        stays = tracemalloc.get_traced_memory()[0]
        tracemalloc.stop()
        self.assertLess(stays, 4 << 20)


if __name__ == "__main__":
    unittest.main()
