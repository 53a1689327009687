"""Tests of cmsproof-verify, over signatures that openssl makes on the spot."""
import hashlib
import math
import shutil
import subprocess
import sys
import tempfile
import tracemalloc
import unittest
from pathlib import Path
from typing import NamedTuple
from unittest import mock

from making import (
    DIGESTS,
    INSTALLED,
    TOP,
    Keys,
    algorithm,
    digest_algorithm,
    element,
    need_tools,
    processor_seconds,
    pss,
    question,
    run_tool,
    without_library,
)

need_tools()

from cryptography.hazmat.primitives.asymmetric import ec
from oracle.der import oid
from oracle.identifiers import SHA_2

PKCS_1, ECDSA, DSA = "1.2.840.113549.1.1.", "1.2.840.10045.4.", "2.16.840.1.101.3.4.3."
NULL = b"\x05\x00"
TAIL = b"\x0c" + b"of any form."
LONG_OID, SHORTEST = b"\x2a" + b"\xff" * 3000000 + b"\1", "a number is not in its shortest form"
RSA_OIDS = {"sha1": "5", "sha224": "14", "sha256": "11", "sha384": "12", "sha512": "13", "sha512-224": "15", "sha512-256": "16"}
ECDSA_OIDS = {"sha1": "1", "sha224": "3.1", "sha256": "3.2", "sha384": "3.3", "sha512": "3.4"}
DSA_OIDS = {"sha1": "1.2.840.10040.4.3", "sha224": DSA + "1", "sha256": DSA + "2", "sha384": DSA + "3", "sha512": DSA + "4"}
CURVES = ["P-192", "P-224", "P-256", "P-384", "P-521", "brainpoolP256r1", "brainpoolP384r1", "brainpoolP512r1"]


class Case(NamedTuple):
    """A kind of signature: a name, the kind of key, openssl's digest (None: the key's own), algorithms, openssl's options."""

    name: str
    key: str
    digest: str
    digest_algorithm: bytes
    algorithm: bytes
    options: tuple = ()


def pss_case(name, key, digest, mask, salt, of=None):
    """A kind of RSASSA-PSS."""
    options = ("rsa_padding_mode:pss", f"rsa_mgf1_md:{mask}", f"rsa_pss_saltlen:{salt}")
    return Case(name, key, digest, digest_algorithm(digest), of or pss(digest, mask, salt), options)


def pss_and(identifier, number):
    """The algorithm of the kind `PSS sha256` with one part more at its end."""
    return pss("sha256", "sha256", 32, element(identifier, element(2, bytes([number]))))


def number(value):
    """An INTEGER."""
    return element(2, value.to_bytes(value.bit_length() // 8 + 1, "big"))


def key_of(identifier, parameters, octets):
    """A SubjectPublicKeyInfo."""
    return element(0x30, algorithm(identifier, parameters), element(3, b"\0" + octets))


def padded(octets, length):
    """The padding of PKCS #1 v1.5 before octets (RFC 8017 9.2)."""
    return b"\0\1" + b"\xff" * (length - 3 - len(octets)) + b"\0" + octets


def padded_salt(length):
    """The algorithm of the kind `PSS sha256` with zeros before the number of its salt, for which the default of the mask is another."""
    parts = [element(0xA0, digest_algorithm("sha256")), element(0xA2, element(2, bytes(99) + bytes([length])))]
    return algorithm(PKCS_1 + "10", element(0x30, *parts))


def cases():
    """Each kind of signature that the tool judges."""
    yield from (Case(f"RSA {d}", "rsa", d, digest_algorithm(d), algorithm(PKCS_1 + "1", NULL)) for d in DIGESTS)
    yield from (
        Case(f"RSA by OID {d}", "rsa", d, digest_algorithm(d), algorithm(PKCS_1 + n, NULL)) for d, n in RSA_OIDS.items()
    )
    yield Case("RSA without NULL", "rsa", "sha256", algorithm(DIGESTS["sha256"], NULL), algorithm(PKCS_1 + "11"))
    yield from (pss_case(f"PSS {d}", "rsa", d, d, 32) for d in DIGESTS)
    yield pss_case("PSS with another mask", "rsa", "sha256", "sha1", 20)
    yield pss_case("PSS without salt", "rsa", "sha384", "sha384", 0)
    yield pss_case("PSS of defaults", "rsa", "sha1", "sha1", 20, algorithm(PKCS_1 + "10", element(0x30)))
    yield pss_case("PSS with a key for it", "rsa-pss", "sha512", "sha512", 64)
    yield pss_case("PSS as the key prescribes", "rsa-pss-bound", "sha256", "sha256", 32)
    yield pss_case("PSS with more salt than prescribed", "rsa-pss-bound", "sha256", "sha256", 40)
    for curve in CURVES:
        yield Case(f"ECDSA {curve}", curve, "sha256", digest_algorithm("sha256"), algorithm(ECDSA + "3.2"))
    for digest, number in ECDSA_OIDS.items():
        yield Case(f"ECDSA {digest}", "P-384", digest, digest_algorithm(digest), algorithm(ECDSA + number))
    for digest, number in DSA_OIDS.items():
        yield Case(f"DSA {digest}", "dsa", digest, digest_algorithm(digest), algorithm(number))
    yield Case("Ed25519", "ed25519", None, digest_algorithm("sha512"), algorithm("1.3.101.112"))
    yield Case("Ed448", "ed448", None, algorithm(SHA_2 + "12"), algorithm("1.3.101.113"))
    yield Case(
        "Ed448 with a length", "ed448", None, algorithm(SHA_2 + "18", bytes.fromhex("02020200")), algorithm("1.3.101.113")
    )
    yield Case("Ed448 with SHA-512", "ed448", None, digest_algorithm("sha512"), algorithm("1.3.101.113"))


def flipped(octets, at):
    """The octets with one bit turned over."""
    at %= len(octets)
    return octets[:at] + bytes([octets[at] ^ 1]) + octets[at + 1 :]


# what was changed, and the tail and the signature that come of it
CHANGES = [
    ("the first octet of the signature", lambda tail, signature: (tail, flipped(signature, 0))),
    ("its middle", lambda tail, signature: (tail, flipped(signature, len(signature) // 2))),
    ("its last octet", lambda tail, signature: (tail, flipped(signature, -1))),
    ("an octet less", lambda tail, signature: (tail, signature[:-1])),
    ("an octet more", lambda tail, signature: (tail, signature + b"\0")),
    ("a zero in front", lambda tail, signature: (tail, b"\0" + signature)),
    ("zeros", lambda tail, signature: (tail, bytes(len(signature)))),
    ("no signature", lambda tail, signature: (tail, b"")),
    ("the signature's octets turned round", lambda tail, signature: (tail, signature[::-1])),
    ("the first octet of the tail", lambda tail, signature: (flipped(tail, 0), signature)),
    ("the last octet of the tail", lambda tail, signature: (flipped(tail, -1), signature)),
    ("a shorter tail", lambda tail, signature: (tail[:-1], signature)),
    ("a longer tail", lambda tail, signature: (tail + b"\0", signature)),
    ("no tail", lambda tail, signature: (b"", signature)),
]


class Verifying(unittest.TestCase):
    """Signatures of each kind, good ones and changed ones."""

    @classmethod
    def setUpClass(cls):
        cls.keys = Keys()
        cls.addClassCleanup(cls.keys.close)
        cls.made = [(case, cls.keys.public(case.key), cls.signature(case)) for case in cases()]

    @classmethod
    def signature(cls, case, signed=b"\x31" + TAIL):
        """The signature of the octets, of this kind."""
        return cls.keys.sign(case.key, case.digest, signed, case.options)

    def case(self, name):
        """A kind by its name, with the public key and the signature."""
        return next(made for made in self.made if made[0].name == name)

    def answered(self, lines):
        """What the tool answers to these questions, and its standard error."""
        text = "".join(line + "\n" for line in ["cmsproof questions 1", *lines])
        status, out, err = run_tool("cmsproof-verify", said=text.encode())
        self.assertEqual(status, 0, err)
        answers = out.decode().split("\n")
        self.assertEqual((answers[0], answers[-1]), ("cmsproof answers 1", ""))
        return answers[1:-1], err

    def none_vouched(self, lines):
        """Asserts that the tool vouches for none of the questions, and has a line on standard error for each."""
        answers, err = self.answered([line for _, line in lines])
        self.assertEqual([name for name, line in lines if line in answers], [])
        self.assertEqual(len(err.splitlines()), len(lines), err)
        return err

    def test_each_kind_is_vouched_for(self):
        lines = [question(key, case.digest_algorithm, case.algorithm, TAIL, s) for case, key, s in self.made]
        answers, err = self.answered(lines)
        self.assertEqual([case.name for (case, _, _), line in zip(self.made, lines) if line not in answers], [], err)
        self.assertEqual((answers, err), (lines, ""))

    def test_no_changed_signature_is_vouched_for(self):
        lines = []
        for case, key, good in self.made:
            for what, change in CHANGES:
                tail, signature = change(TAIL, good)
                lines.append((f"{case.name}: {what}", question(key, case.digest_algorithm, case.algorithm, tail, signature)))
        self.assertGreaterEqual(len(lines), 30 * len(CHANGES))
        self.none_vouched(lines)

    def test_the_key_of_another_is_not_vouched_for(self):
        others = {kind: self.keys.public(kind + ".other") for kind in {case.key for case, _, _ in self.made}}
        self.none_vouched(
            [
                (case.name, question(others[case.key], case.digest_algorithm, case.algorithm, TAIL, s))
                for case, _, s in self.made
            ]
        )

    def test_a_signature_without_the_identifier_of_the_set_is_not_vouched_for(self):
        self.none_vouched(
            [
                (case.name, question(key, case.digest_algorithm, case.algorithm, TAIL, self.signature(case, identifier + TAIL)))
                for case, key, _ in self.made
                for identifier in (b"", b"\xa0")
            ]
        )

    def test_digest_and_algorithm_must_agree(self):
        lines = []
        for case, key, signature in self.made:
            for digest in {"sha1", "sha256", "sha384"} - {case.digest}:
                lines.append(
                    (f"{case.name} {digest}", question(key, digest_algorithm(digest), case.algorithm, TAIL, signature))
                )
        err = self.none_vouched(lines)
        self.assertIn("not judged: the digest algorithm SHA-384 does not agree with the signature algorithm", err)

    def test_an_algorithm_of_another_family_is_not_vouched_for(self):
        families = [self.case(name) for name in ("RSA sha256", "PSS sha256", "ECDSA P-256", "DSA sha256", "Ed25519", "Ed448")]
        self.none_vouched(
            [
                (f"{case.name} as {other.name}", question(key, other.digest_algorithm, other.algorithm, TAIL, signature))
                for case, key, signature in families
                for other, _, _ in families
                if other != case
            ]
        )

    def test_the_command_openssl_says_the_same(self):
        lines = []
        for case, key, good in self.made:
            if case.name.startswith(("RSA", "ECDSA", "DSA")):
                for tail, signature in [(TAIL, good), *(change(TAIL, good) for _, change in CHANGES[1::4])]:
                    lines.append(question(key, case.digest_algorithm, case.algorithm, tail, signature))
        text = "".join(line + "\n" for line in ["cmsproof questions 1", *lines])
        done = subprocess.run(
            [sys.executable, TOP / "tools" / "oracle" / "answers.py"], input=text.encode(), capture_output=True, check=True
        )
        self.assertEqual(done.stdout.decode().splitlines()[1:], self.answered(lines)[0])
        self.assertEqual(len(done.stderr.splitlines()), len(CHANGES[1::4]) * len(lines) // (1 + len(CHANGES[1::4])))

    def test_pss_parameters_are_honoured(self):
        _, key, signature = self.case("PSS sha256")
        _, bound, prescribed = self.case("PSS as the key prescribes")
        shorter = self.keys.sign("rsa", "sha256", b"\x31" + TAIL, pss_case("", "rsa", "sha256", "sha256", 20).options)
        unholding, form = "the signature does not hold", "not judged: the parameters of RSASSA-PSS are not as they must be: "
        bounds = "not judged: the parameters of RSASSA-PSS are not those that the key prescribes"
        by_384 = "not judged: the signature is by SHA-384, and the digest algorithm is SHA-256"
        by_1 = by_384.replace("384", "1")
        rows = [
            ("another salt", unholding, key, pss("sha256", "sha256", 31), signature),
            ("another mask", unholding, key, pss("sha256", "sha1", 32), signature),
            ("a salt of another length than stated", unholding, key, pss("sha256", "sha256", 32), shorter),
            ("a salt that is not in its shortest form", form + SHORTEST, key, padded_salt(32), signature),
            ("another digest", by_384, key, pss("sha384", "sha256", 32), signature),
            ("defaults", by_1, key, algorithm(PKCS_1 + "10", element(0x30)), signature),
            ("no parameters", form + "another element was due", key, algorithm(PKCS_1 + "10"), signature),
            ("NULL", form + "another element was due", key, algorithm(PKCS_1 + "10", NULL), signature),
            ("a negative salt", form + "a value is not allowed", key, pss("sha256", "sha256", 0xE0), signature),
            ("a trailer of 2", form + "a value is not allowed", key, pss_and(0xA3, 2), signature),
            ("another part", form + "a part is not known", key, pss_and(0xA4, 1), signature),
            ("a part twice", form + "a part is not in its place", key, pss_and(0xA2, 32), signature),
            ("the bound key with another mask", bounds, bound, pss("sha256", "sha1", 32), prescribed),
            ("the bound key with less salt", bounds, bound, pss("sha256", "sha256", 20), prescribed),
        ]
        for name, said, of_key, of_signature, octets in rows:
            line = question(of_key, digest_algorithm("sha256"), of_signature, TAIL, octets)
            self.assertEqual(self.none_vouched([(name, line)]), f"cmsproof-verify: line 2: {said}\n", name)

    def test_a_key_for_pss_signs_nothing_else(self):
        _, key, signature = self.case("RSA by OID sha256")
        for_pss = element(0x30, algorithm(PKCS_1 + "10"), key[4 + len(algorithm(PKCS_1 + "1", NULL)) :])
        line = question(for_pss, digest_algorithm("sha256"), algorithm(PKCS_1 + "11", NULL), TAIL, signature)
        self.assertIn("not judged: the key is not one for RSA", self.none_vouched([("PKCS #1 v1.5", line)]))
        _, _, signature = self.case("PSS sha256")
        line = question(for_pss, digest_algorithm("sha256"), pss("sha256", "sha256", 32), TAIL, signature)
        self.assertEqual(self.answered([line]), ([line], ""))

    def test_algorithms_that_cannot_be_judged(self):
        _, key, signature = self.case("RSA sha256")
        sha256, rsa = digest_algorithm("sha256"), algorithm(PKCS_1 + "1", NULL)
        other_curve = self.keys.public("secp256k1")
        k1 = self.keys.sign("secp256k1", "sha256", b"\x31" + TAIL)
        rows = [
            (
                "the signature algorithm 1.2.840.113549.1.1.4 is not known",
                key,
                sha256,
                algorithm(PKCS_1 + "4", NULL),
                signature,
            ),
            ("the signature algorithm 2.999.1 is not known", key, sha256, algorithm("2.999.1"), signature),
            # (its time would grow with the square of its length)
            (
                "the signature algorithm is not in its form: an object",
                key,
                sha256,
                element(0x30, element(6, LONG_OID)),
                signature,
            ),
            (
                "the digest algorithm 1.2.840.113549.2.5 is not known",
                key,
                algorithm("1.2.840.113549.2.5", NULL),
                rsa,
                signature,
            ),
            ("the parameters of the digest algorithm SHA-256", key, algorithm(DIGESTS["sha256"], element(4)), rsa, signature),
            ("the signature algorithm, RSA, has parameters", key, sha256, algorithm(PKCS_1 + "1", element(4)), signature),
            ("the digest algorithm is not in its form", key, b"\x30", rsa, signature),
            ("the signature algorithm is not in its form", key, sha256, b"\x30\x00", signature),
            ("the signature algorithm is not in its form", key, sha256, rsa + b"\0", signature),
            ("the key cannot be read", b"\x30\x00", sha256, rsa, signature),
            ("the key cannot be read", key[:-1], sha256, rsa, signature),
            ("the key cannot be read", b"", sha256, rsa, signature),
            ("the key is not one for ECDSA", key, sha256, algorithm(ECDSA + "3.2"), signature),
            ("the key is not one for RSA", self.keys.public("P-256"), sha256, rsa, signature),
            ("the curve secp256k1 is not known", other_curve, sha256, algorithm(ECDSA + "3.2"), k1),
        ]
        for said, *fields, signature in rows:
            err = self.none_vouched([(said, question(*fields, TAIL, signature))])
            self.assertIn(f"cmsproof-verify: line 2: not judged: {said}", err)

    def test_keys_under_which_anybody_can_sign(self):
        from cmsproof_tools import verifying

        hashed = element(0x30, algorithm(DIGESTS["sha256"], NULL), element(4, hashlib.sha256(b"\x31" + TAIL).digest()))
        modulus, prime, order = 1 << 2047 | 1, (1 << 1024) - 105, (1 << 159) | 1
        # (each number is its own power where the exponent is 1 more than a multiple of each of these primes less 1)
        multiple = 2**6 * 3**4 * 5**2 * 7 * 11 * 13
        primes = [p for p in range(753, 1 << 18) if multiple % (p - 1) == 0 and pow(2, p - 1, p) == 1 and verifying.is_prime(p)]
        moduli = [(prime * (prime - 74), (prime - 1) * (prime - 75) + 1), (math.prod(primes), multiple + 1)]
        # (SP 800-89 5.3.3, as of `openssl pkey -pubcheck`: no small prime)
        moduli.append((prime * 3, 65537))
        numbers = number(prime), number(order), number(1)
        rsa, dsa = algorithm(PKCS_1 + "11", NULL), algorithm(DSA + "2")
        third = next(root for base in (2, 3, 5) if (root := pow(base, (prime - 1) // 3, prime)) != 1)
        hashed_short = int.from_bytes(hashlib.sha256(b"\x31" + TAIL).digest()[:20], "big")
        by_anybody = next(
            element(0x30, number(first), number(second))
            for power in (1, 2)
            for second in (1, 2)
            if (hashed_short + (first := pow(third, power, prime) % order)) * second % 3 == power
        )
        # (p is q^7: of powers of 1 + q^6 by q whoever sees one knows the exponent, and modulo q each is 1)
        group = (1 << 256) - 189
        in_power = number(group**7), number(group), number(1 + group**6)
        of_both = element(0x30, number(1), number((int.from_bytes(hashlib.sha256(b"\x31" + TAIL).digest(), "big") + 7) % group))
        small = [bytes(32), b"\1" + bytes(31), b"\1" + bytes(30) + b"\x80", b"\xee" + b"\xff" * 30 + b"\x7f"]
        small += [bytes.fromhex("26e8958fc2b227b045c3f489f2ef98f0d5dfac05d3c63339b13802886d53fc05")]
        rows = [
            (key_of(PKCS_1 + "1", NULL, element(0x30, number(modulus), number(1))), rsa, padded(hashed, 256)),
            *(
                (
                    key_of(PKCS_1 + "1", NULL, element(0x30, number(n), number(e))),
                    rsa,
                    padded(hashed, (n.bit_length() + 7) // 8),
                )
                for n, e in moduli
            ),
            (key_of("1.2.840.10040.4.1", element(0x30, *numbers), number(1)), dsa, element(0x30, number(1), number(1))),
            # (the order of g is 3, which divides 2^159 + 1)
            (
                key_of("1.2.840.10040.4.1", element(0x30, number(prime), number(order), number(third)), number(third)),
                dsa,
                by_anybody,
            ),
            (key_of("1.2.840.10040.4.1", element(0x30, *in_power), number(1 + 7 * group**6)), dsa, of_both),
            *((key_of("1.3.101.112", b"", key), algorithm("1.3.101.112"), key + bytes(32)) for key in small),
            (key_of("1.3.101.113", b"", b"\1" + bytes(56)), algorithm("1.3.101.113"), b"\1" + bytes(113)),
        ]
        for key, of_signature, signature in rows:
            digest = digest_algorithm("sha256" if of_signature in (rsa, dsa) else "sha512")
            err = self.none_vouched([(key.hex(), question(key, digest, of_signature, TAIL, signature))])
            self.assertIn("cmsproof-verify: line 2: not judged: anybody can sign under the key", err)

    def test_the_point_at_infinity(self):
        """Under it OpenSSL verifies what anybody signed, with any number in the place of a key: whether Python's library reads it or not,
        nothing is vouched for."""
        from cmsproof_tools import verifying

        order, secret = int("ffffffff00000000ffffffffffffffffbce6faada7179e84f3b9cac2fc632551", 16), 12345
        other = ec.derive_private_key(secret, ec.SECP256R1()).public_key()
        hashed = int.from_bytes(hashlib.sha256(b"\x31" + TAIL).digest(), "big")
        second = number(hashed * pow(secret, -1, order) % order)
        signature = element(0x30, number(other.public_numbers().x % order), second)
        infinity = key_of("1.2.840.10045.2.1", oid("1.2.840.10045.3.1.7"), b"\0")
        # (OpenSSL cuts as many bits of the octet as the one before says, and puts pieces together)
        pieces = element(0x30, element(0x30, oid("1.2.840.10045.2.1"), oid("1.2.840.10045.3.1.7")), element(0x23, element(3, b"\0\0")))
        for key in (infinity, *(infinity[:-2] + bits for bits in (b"\7\0", b"\7\x7f", b"\1\1")), pieces):
            asked = key.hex(), question(key, digest_algorithm("sha256"), algorithm(ECDSA + "3.2"), TAIL, signature)
            self.assertIn("line 2: not judged: the key cannot be read: its point is at infinity", self.none_vouched([asked]))
            with mock.patch.object(verifying, "load_der_public_key", lambda octets: other):
                with self.assertRaisesRegex(verifying.Unjudged, "its point is at infinity"):
                    verifying.key_of.__wrapped__(key)

    def test_a_key_that_takes_hours_to_be_judged(self):
        """RSA with 5,000,000 bits, DSA with numbers of 100,000 or a group of as many: no program signs under one. And DSA with a prime less
        one that can be halved 3,800 times."""
        long, short = (1 << 100_000) - 1, (1 << 159) | 1
        key = key_of(PKCS_1 + "1", NULL, element(0x30, number((1 << 5_000_000) - 1), number(65537)))
        asked = question(key, digest_algorithm("sha256"), algorithm(PKCS_1 + "11", NULL), TAIL, bytes(256))
        begun = processor_seconds()
        err = self.none_vouched([("RSA", asked)])
        self.assertIn("cmsproof-verify: line 2: not judged: the key of RSA is longer than OpenSSL takes", err)
        self.assertLess(processor_seconds() - begun, 30)
        order = (1 << 256) - 189
        prime = (2989 * order << 3800) + 1
        too_long = "not judged: the key of DSA is longer than is tried here"
        for *numbers, said in (
            (long, short, 3, too_long),
            ((1 << 2047) | 1, (1 << 2046) | 1, 3, too_long),
            (long, long - 2, 3, too_long),
            (prime, order, pow(3, (prime - 1) // order, prime), "the signature does not hold"),
        ):
            key = key_of("1.2.840.10040.4.1", element(0x30, *map(number, numbers)), number(numbers[-1]))
            asked = question(key, digest_algorithm("sha256"), algorithm(DSA + "2"), TAIL, element(0x30, number(1), number(1)))
            begun = processor_seconds()
            self.assertIn(f"cmsproof-verify: line 2: {said}", self.none_vouched([("DSA", asked)]))
            self.assertLess(processor_seconds() - begun, 30)

    def test_many_parts_take_no_memory(self):
        from cmsproof_tools import der, verifying

        many = b"\5\0" * 300000
        rows = [
            (der.algorithm, element(0x30, many)),
            (der.algorithm, many),
            (verifying.pss_of, element(0x30, many)),
            (verifying.pss_of, element(0x30, element(0xA0, many))),
        ]
        for read, octets in rows:
            tracemalloc.start()
            self.assertRaises((ValueError, verifying.Unjudged), read, octets)
            peak = tracemalloc.get_traced_memory()[1]
            tracemalloc.stop()
            self.assertLess(peak, 4 * len(octets))

    def test_algorithms_that_are_not_in_der(self):
        _, key, signature = self.case("RSA sha256")
        inside, rsa = digest_algorithm("sha256")[2:], algorithm(PKCS_1 + "1", NULL)
        long = element(0x06, b"\x2a" + b"\x81" * 127 + b"\x01")
        rows = [
            b"\x30\x81\x0b" + inside,  # a length that is not the shortest
            b"\x30\x82\x00\x0b" + inside,
            b"\x30\x80" + inside + b"\0\0",  # an indefinite one
            b"\x30\x85\0\0\0\0\x0b" + inside,
            b"\x30\x0c" + inside,  # one that is too long
            b"\x30\x84\xff\xff\xff\xff" + inside,
            b"\x30\x82\x0b",
            b"\x31\x0b" + inside,  # other identifiers
            b"\x1f\x0b" + inside,
            b"\0\x0b" + inside,
            element(0x30, element(0x0D, inside[2:])),
            element(0x30, inside, b"\x05\x00\x05\x00"),  # other contents
            element(0x30, element(0x06)),
            element(0x30, element(0x06, inside[2:-1] + b"\x81")),
            element(0x30, element(0x06, b"\x60\x80" + inside[3:])),
            element(0x30, long),
        ]
        pairs = [pair for octets in rows for pair in ((octets, rsa), (digest_algorithm("sha256"), octets))]
        err = self.none_vouched([(str(pair), question(key, *pair, TAIL, signature)) for pair in pairs])
        for pair, line in zip(pairs, err.splitlines()):
            known = long in pair[0] + pair[1]
            self.assertIn(" is not known" if known else " algorithm is not in its form: ", line, pair)


class Texts(unittest.TestCase):
    """The texts of questions and answers, the words, and what may be missing."""

    @classmethod
    def setUpClass(cls):
        cls.keys = Keys()
        cls.addClassCleanup(cls.keys.close)
        fields = cls.keys.public("P-256"), digest_algorithm("sha256"), algorithm(ECDSA + "3.2"), TAIL
        cls.good = question(*fields, cls.keys.sign("P-256", "sha256", b"\x31" + TAIL))
        cls.other = question(*fields, cls.keys.sign("P-256", "sha256", b"\x31" + TAIL))
        cls.bad = question(*fields, b"abc")

    def said(self, text, *words):
        """The status of the tool, what it writes, and the standard error."""
        status, out, err = run_tool("cmsproof-verify", *words, said=text.encode())
        return status, out.decode(), err

    def test_the_answers_are_the_lines_that_hold_in_their_order(self):
        good, bad, other = self.good, self.bad, self.other
        unholding = "cmsproof-verify: line {}: the signature does not hold\n".format
        rows = [
            ("cmsproof questions 1", [], ""),
            ("cmsproof questions 1\n", [], ""),
            ("cmsproof questions 1\r\n", [], ""),
            (f"cmsproof questions 1\n{good}", [good], ""),
            (f"cmsproof questions 1\n{good}\n{other}\n", [good, other], ""),
            (f"cmsproof questions 1\n{other}\n{good}\n", [other, good], ""),
            (f"cmsproof questions 1\n{good}\n{good}\n", [good, good], ""),
            (f"cmsproof questions 1\r\n{good}\r\n", [good], ""),
            (f"cmsproof questions 1\n# why\n\n{bad}\n{good}\n{bad}\n", [good], unholding(4) + unholding(6)),
            (f"cmsproof questions 1\n{good.upper()}\n", [good.upper()], ""),
        ]
        for text, answers, err in rows:
            expected = "".join(line + "\n" for line in ["cmsproof answers 1", *answers])
            self.assertEqual(self.said(text), (0, expected, err), text[:60])

    def test_texts_that_are_none(self):
        first = "cmsproof-verify: -: no questions text: the first line is not `cmsproof questions 1`\n"
        other = "cmsproof-verify: -: line {} is no question: five fields in hexadecimal, with a space between two\n".format
        head, good = "cmsproof questions 1\n", self.good
        rows = [
            ("", first.replace("\n", "; it is empty\n")),
            ("\n" + head, first),
            ("cmsproof questions\n", first),
            ("cmsproof questions 10\n", first),
            ("cmsproof questions 1 \n", first),
            ("cmsproof questions 1\r\r\n", first),
            (f"{head}{good} 00\n", other(2)),
            (f"{head}{good}\n\n# x\n {good}\n", other(5)),
            (f"{head}{good} \n", other(2)),
            (f"{head}- - - -\n", other(2)),
            (head + good.replace(" ", "  ", 1), other(2)),
            (f"{head}{good}0\n", other(2)),
            (f"{head}{good[:-1]}g\n", other(2)),
            (f"{head}{good}\r\r\n", other(2)),
            (head + good.replace(" ", "\t"), other(2)),
            (f"{head}-- - - - -\n", other(2)),
        ]
        for text, err in rows:
            self.assertEqual(self.said(text), (2, "", err), text[:60])

    def test_empty_fields_are_read(self):
        status, out, err = self.said("cmsproof questions 1\n- - - - -\n")
        self.assertEqual((status, out), (0, "cmsproof answers 1\n"))
        self.assertEqual(
            err, "cmsproof-verify: line 2: not judged: the digest algorithm is not in its form: another element was due\n"
        )

    def test_files_by_name(self):
        with tempfile.TemporaryDirectory() as folder:
            asked, answers = Path(folder) / "questions", Path(folder) / "answers"
            asked.write_text(f"cmsproof questions 1\n{self.good}\n")
            self.assertEqual(self.said("", asked)[1], f"cmsproof answers 1\n{self.good}\n")
            self.assertEqual(self.said("", asked, answers), (0, "", ""))
            self.assertEqual(answers.read_text(), f"cmsproof answers 1\n{self.good}\n")
            self.assertEqual(self.said(asked.read_text(), "-", answers), (0, "", ""))
            missing, inside = Path(folder) / "missing", answers / "inside"
            rows = [
                ((missing,), f"failed open {missing}: No such file or directory"),
                ((folder,), f"failed open {folder}: Is a directory"),
                ((asked, inside), f"failed write {inside}: Not a directory"),
            ]
            for words, line in rows:
                self.assertEqual(self.said("", *words), (4, "", f"cmsproof-verify: {line}\n"))

    def test_a_text_that_is_none_leaves_the_answers_as_they_are(self):
        with tempfile.TemporaryDirectory() as folder:
            answers = Path(folder) / "answers"
            answers.write_text("as before")
            self.assertEqual(self.said("cmsproof questions 2\n", "-", answers)[0], 2)
            self.assertEqual(answers.read_text(), "as before")

    def test_words(self):
        self.assertEqual(
            self.said("", "a", "b", "c"), (3, "", "cmsproof-verify: unrecognized arguments: c (see cmsproof-verify --help)\n")
        )
        self.assertEqual(
            self.said("", "--quick")[::2],
            (3, "cmsproof-verify: unrecognized arguments: --quick (see cmsproof-verify --help)\n"),
        )
        status, out, err = self.said("", "--help")
        self.assertEqual(
            (status, out.splitlines()[0], err), (0, "usage: cmsproof-verify [-h] [--version] [QUESTIONS] [ANSWERS]", "")
        )
        status, out, err = self.said("", "--version")
        self.assertEqual((status, out.split()[0], err), (0, "cmsproof-verify", ""))

    def test_standard_output_that_fails(self):
        with open("/dev/full", "wb") as full:
            done = subprocess.run(
                [sys.executable, INSTALLED / "cmsproof-verify"],
                input=b"cmsproof questions 1\n",
                stdout=full,
                stderr=subprocess.PIPE,
            )
        self.assertEqual((done.returncode, done.stderr), (4, b"cmsproof-verify: failed write -: No space left on device\n"))

    def test_what_is_missing(self):
        library = (
            f"cmsproof-verify: Python's library `cryptography` is missing for {sys.executable} "
            "(No module named 'cryptography'): install Debian's python3-cryptography\n"
        )
        with tempfile.TemporaryDirectory() as folder:
            environment = without_library(folder)
            text = f"cmsproof questions 1\n{self.good}\n".encode()
            self.assertEqual(run_tool("cmsproof-verify", said=text, env=environment), (4, b"", library))
            self.assertEqual(run_tool("cmsproof-verify", "--version", env=environment)[0], 0)
            alone = Path(folder) / "cmsproof-verify"
            shutil.copy(INSTALLED / "cmsproof-verify", alone)
            done = subprocess.run([sys.executable, alone], capture_output=True, input=b"", check=False)
            modules = b"cmsproof-verify: its modules, lib/cmsproof beside the folder bin, are missing, or Python is too old\n"
            self.assertEqual((done.returncode, done.stdout, done.stderr), (4, b"", modules))
            done = subprocess.run(
                [INSTALLED / "cmsproof-verify"], capture_output=True, input=b"", env={"PATH": folder}, check=False
            )
            self.assertEqual((done.returncode, done.stdout, len(done.stderr.splitlines())), (127, b"", 1))
            self.assertIn(b"python3", done.stderr)


if __name__ == "__main__":
    unittest.main()
