"""Whether the signature of a question holds, by Python's library `cryptography`. No arithmetic of signatures is done here.

The signature algorithms are those of RFC 3370, 4056, 5753, 5754, 8419 and of RFC 5758 for DSA with SHA-2. What is said here is
which call of the library an algorithm asks for, and that the digest algorithm of the signer agrees with it.
"""
from __future__ import annotations

import hashlib
import importlib
import math
import warnings
from binascii import unhexlify
from functools import lru_cache
from typing import Any, Callable, NamedTuple

from cryptography.exceptions import InvalidSignature
from cryptography.hazmat.primitives import hashes
from cryptography.hazmat.primitives.asymmetric import dsa, ec, ed448, ed25519, padding, rsa
from cryptography.hazmat.primitives.asymmetric.utils import Prehashed
from cryptography.hazmat.primitives.serialization import Encoding, PublicFormat, load_der_public_key
from cryptography.utils import CryptographyDeprecationWarning

from cmsproof_tools import der
from cmsproof_tools.running import kept_if_short
from cmsproof_tools.texts import PLACE, UNHOLDING, Question, fields_of, octets_of_fields, question_of

# (old versions of the library read it with the first key: in each process by itself, if it is not read here)
importlib.import_module("cryptography.hazmat.backends.openssl.backend")
# Old keys and curves are what archives have; whether to trust them is said by the trust list.
warnings.filterwarnings("ignore", category=CryptographyDeprecationWarning)

SHA_2, PKCS_1, MGF_1 = "2.16.840.1.101.3.4.2.", "1.2.840.113549.1.1.", "1.2.840.113549.1.1.8"
PSS_ALGORITHM = PKCS_1 + "10"
# keys on elliptic curves, which name their curve by an object identifier (RFC 5480 2.1.1)
ELLIPTIC, BITS = "1.2.840.10045.2.1", 0x03
HASHES = {
    "SHA-1": hashes.SHA1(),
    "SHA-224": hashes.SHA224(),
    "SHA-256": hashes.SHA256(),
    "SHA-384": hashes.SHA384(),
    "SHA-512": hashes.SHA512(),
    "SHA-512/224": hashes.SHA512_224(),
    "SHA-512/256": hashes.SHA512_256(),
}
# by what octets are hashed beforehand
HASHING: dict[str, Callable[[bytes], Any]] = {
    "SHA-1": hashlib.sha1,
    "SHA-224": hashlib.sha224,
    "SHA-256": hashlib.sha256,
    "SHA-384": hashlib.sha384,
    "SHA-512": hashlib.sha512,
}
# how many digits the fields of a question have at most that are kept: twice those of the longest key
LONGEST_KEPT = 1 << 14
NO_PARAMETERS = (b"", b"\x05\x00")
# object identifier, the digest, and its parameters; SHAKE256 is of 512 bits (RFC 8419 2.3)
DIGESTS = {
    "1.3.14.3.2.26": ("SHA-1", NO_PARAMETERS),
    SHA_2 + "1": ("SHA-256", NO_PARAMETERS),
    SHA_2 + "2": ("SHA-384", NO_PARAMETERS),
    SHA_2 + "3": ("SHA-512", NO_PARAMETERS),
    SHA_2 + "4": ("SHA-224", NO_PARAMETERS),
    SHA_2 + "5": ("SHA-512/224", NO_PARAMETERS),
    SHA_2 + "6": ("SHA-512/256", NO_PARAMETERS),
    SHA_2 + "12": ("SHAKE256", (b"",)),
    SHA_2 + "18": ("SHAKE256", (b"\x02\x02\x02\x00",)),
}
# object identifier, the kind of signature, and the digests that agree with it
SIGNATURES = {
    PKCS_1 + "1": ("RSA", tuple(HASHES)),
    PKCS_1 + "5": ("RSA", ("SHA-1",)),
    PKCS_1 + "11": ("RSA", ("SHA-256",)),
    PKCS_1 + "12": ("RSA", ("SHA-384",)),
    PKCS_1 + "13": ("RSA", ("SHA-512",)),
    PKCS_1 + "14": ("RSA", ("SHA-224",)),
    PKCS_1 + "15": ("RSA", ("SHA-512/224",)),
    PKCS_1 + "16": ("RSA", ("SHA-512/256",)),
    PSS_ALGORITHM: ("RSA-PSS", tuple(HASHES)),
    "1.2.840.10045.4.1": ("ECDSA", ("SHA-1",)),
    "1.2.840.10045.4.3.1": ("ECDSA", ("SHA-224",)),
    "1.2.840.10045.4.3.2": ("ECDSA", ("SHA-256",)),
    "1.2.840.10045.4.3.3": ("ECDSA", ("SHA-384",)),
    "1.2.840.10045.4.3.4": ("ECDSA", ("SHA-512",)),
    "1.2.840.10040.4.3": ("DSA", ("SHA-1",)),
    "2.16.840.1.101.3.4.3.1": ("DSA", ("SHA-224",)),
    "2.16.840.1.101.3.4.3.2": ("DSA", ("SHA-256",)),
    "2.16.840.1.101.3.4.3.3": ("DSA", ("SHA-384",)),
    "2.16.840.1.101.3.4.3.4": ("DSA", ("SHA-512",)),
    "1.3.101.112": ("Ed25519", ("SHA-512",)),
    # The program knows no SHAKE256, so that an Ed448 file can be accepted only with SHA-512, which is as long.
    "1.3.101.113": ("Ed448", ("SHAKE256", "SHA-512")),
}
KEYS: dict[str, Any] = {
    "RSA": rsa.RSAPublicKey,
    "RSA-PSS": rsa.RSAPublicKey,
    "ECDSA": ec.EllipticCurvePublicKey,
    "DSA": dsa.DSAPublicKey,
    "Ed25519": ed25519.Ed25519PublicKey,
    "Ed448": ed448.Ed448PublicKey,
}
# those of NIST over primes, and those of RFC 5639
CURVES = (
    "secp192r1",
    "secp224r1",
    "secp256r1",
    "secp384r1",
    "secp521r1",
    "brainpoolP256r1",
    "brainpoolP384r1",
    "brainpoolP512r1",
)


# how many bits the modulus of RSA has at most for OpenSSL, and the exponent; and the product of the primes that do not divide the
# modulus (SP 800-89 5.3.3)
LONGEST_MODULUS, LONGEST_EXPONENT = 16_384, 256
SMALL_PRIMES = math.prod(
    number for number in range(2, 752) if all(number % other for other in range(2, math.isqrt(number) + 1))
)
# how many bits p and q of DSA have at most (FIPS 186-4 4.2 has p of 3,072): the time of a power grows with the cube of their length
LONGEST_DSA = 4096, 256
# how often a number is tried that may be prime, and p of DSA, which takes 40 milliseconds each time if it has 2,048 bits: one that is none
# passes each time with a chance of a quarter at most
ROUNDS, ROUNDS_OF_P = 40, 20
# the y of the points of edwards25519 of order 1, 4 and 8, but for their signs (RFC 7748 4.1)
SMALL_25519 = (
    0,
    1,
    int.from_bytes(bytes.fromhex("26e8958fc2b227b045c3f489f2ef98f0d5dfac05d3c63339b13802886d53fc05"), "little"),
)


class Unjudged(Exception):
    """A signature that cannot be judged, or may not be: it is not vouched for. Its text says why."""


class Pss(NamedTuple):
    """Parameters of RSASSA-PSS (RFC 4055 3.1): the digest, that of the mask, and how many octets the salt has."""

    digest: str
    mask: str
    salt: int


class Key(NamedTuple):
    """A public key of the library; whether it is for RSASSA-PSS alone; and the parameters that it then prescribes, if any."""

    public: Any
    pss_alone: bool
    prescribed: Pss | None


def algorithm_of(octets: bytes, what: str) -> tuple[str, bytes]:
    """Object identifier and parameters of an AlgorithmIdentifier; `what` names it in the text of Unjudged."""
    try:
        return der.algorithm(octets)
    except ValueError as error:
        raise Unjudged(f"the {what} algorithm is not in its form: {error}") from error


def digest_of(octets: bytes) -> str:
    """The name of the digest that an AlgorithmIdentifier names."""
    oid, parameters = algorithm_of(octets, "digest")
    name, allowed = DIGESTS.get(oid, (None, ()))
    if name is None:
        raise Unjudged(f"the digest algorithm {oid} is not known")
    if parameters not in allowed:
        raise Unjudged(f"the parameters of the digest algorithm {name} are not as they must be")
    return name


def pss_of(parameters: bytes) -> Pss:
    """The parameters of RSASSA-PSS, with the defaults where one is absent (RFC 4055 3.1)."""
    digest, mask, salt, trailer, last = "SHA-1", "SHA-1", 20, 1, 0
    for identifier, contents, _ in der.elements(der.only(der.SEQUENCE, parameters), 5):
        if identifier <= last:
            raise ValueError("a part is not in its place")
        last = identifier
        if identifier == 0xA0:
            digest = digest_of(contents)
        elif identifier == 0xA1:
            function, of_function = der.algorithm(contents)
            if function != MGF_1:
                raise Unjudged(f"the mask function {function} of RSASSA-PSS is not known")
            mask = digest_of(of_function)
        elif identifier == 0xA2:
            salt = der.number(contents)
        elif identifier == 0xA3:
            trailer = der.number(contents)
        else:
            raise ValueError("a part is not known")
    if trailer != 1 or salt < 0 or mask not in HASHES or digest not in HASHES:
        raise ValueError("a value is not allowed")
    return Pss(digest, mask, salt)


def pss_read(parameters: bytes) -> Pss:
    """As `pss_of`, with Unjudged for each fault."""
    try:
        return pss_of(parameters)
    except ValueError as error:
        raise Unjudged(f"the parameters of RSASSA-PSS are not as they must be: {error}") from error


@lru_cache(maxsize=4096)
def key_of(octets: bytes) -> Key:
    """The key that a SubjectPublicKeyInfo holds (RFC 5280 4.1.2.7)."""
    try:
        parts = der.elements(der.only(der.SEQUENCE, octets))
        oid, parameters = der.algorithm(parts[0].whole)
        # (OpenSSL verifies under the point at infinity, and some versions of the library read it, also as an octet of which bits are cut, or
        # as a string in pieces; no other point has one octet)
        if oid == ELLIPTIC and (parts[1].identifier != BITS or len(parts[1].contents) < 3):
            raise ValueError("its point is at infinity, so that anybody can sign (SEC 1 3.2.2.1)")
        # (which some versions of the library read, and others do not)
        if oid == ELLIPTIC and parameters[:1] != bytes([der.OID]):
            raise ValueError("its curve is not named by an object identifier, but spelled out or left out (RFC 5480 2.1.1)")
        public = load_der_public_key(octets)
    except Exception as error:  # whatever the library says here, it has no key
        raise Unjudged(f"the key cannot be read: {error}") from error
    alone = oid == PSS_ALGORITHM
    return Key(public, alone, pss_read(parameters) if alone and parameters else None)


def check_key(key: Key, kind: str) -> None:
    """Raises Unjudged unless the key is one for this kind of signatures, and one under which nobody can sign but its owner."""
    if not isinstance(key.public, KEYS[kind]) or (key.pss_alone and kind != "RSA-PSS"):
        raise Unjudged(f"the key is not one for {kind}")
    if kind == "ECDSA" and key.public.curve.name not in CURVES:
        raise Unjudged(f"the curve {key.public.curve.name} is not known")
    if is_anybodys(key.public):
        raise Unjudged("anybody can sign under the key")


def is_anybodys(public: Any) -> bool:
    """Whether a key is none of its kind, so that whoever sees it can sign: numbers of RSA that are none (RFC 8017 3.1), numbers of DSA that
    do not make a group with the key in it (SP 800-89 5.3.1), a point of EdDSA whose order is small (RFC 8032 5.1, 5.2). Raises Unjudged
    where numbers are too long for that."""
    if isinstance(public, rsa.RSAPublicKey):
        return is_no_rsa(public.public_numbers().n, public.public_numbers().e)
    if isinstance(public, dsa.DSAPublicKey):
        numbers = public.public_numbers()
        p, q, g = numbers.parameter_numbers.p, numbers.parameter_numbers.q, numbers.parameter_numbers.g
        if p.bit_length() > LONGEST_DSA[0] or q.bit_length() > LONGEST_DSA[1]:
            raise Unjudged("the key of DSA is longer than is tried here")
        # (where q is not prime, the order of g may be a small factor of it; where p is not, as where it is q^7, anybody may find the
        # number that is secret)
        in_group = all(1 < number < p - 1 and pow(number, q, p) == 1 for number in (g, numbers.y))
        return not (in_group and is_prime(q) and is_prime(p, ROUNDS_OF_P))
    if isinstance(public, (ed25519.Ed25519PublicKey, ed448.Ed448PublicKey)):
        return is_of_small_order(public.public_bytes(Encoding.Raw, PublicFormat.Raw))
    return False


def is_no_rsa(modulus: int, exponent: int) -> bool:
    """Whether the exponent of RSA is even, below 3 or long, or the modulus has a small prime (SP 800-89 5.3.3), or the power is the number
    itself, so that what is signed is its own signature. (That the modulus is composite is not looked at: it would take 30 milliseconds.)
    """
    if modulus.bit_length() > LONGEST_MODULUS:
        raise Unjudged("the key of RSA is longer than OpenSSL takes")
    odd = exponent % 2 == 1 and 3 <= exponent and exponent.bit_length() <= LONGEST_EXPONENT
    return not odd or math.gcd(modulus, SMALL_PRIMES) != 1 or pow(2, exponent, modulus) == 2


@lru_cache(maxsize=4096)
def is_prime(number: int, rounds: int = ROUNDS) -> bool:
    """Whether an odd number above 3 is prime, by Miller and Rabin (FIPS 186-4 C.3.1), with bases that nobody knows before. It is kept: a
    key is asked about again for each of its algorithms, and where nothing is verified under it for each signature."""
    if number < 5 or number % 2 == 0:
        return False
    import secrets

    twos = ((number - 1) & -(number - 1)).bit_length() - 1
    for _ in range(rounds):
        powers = [pow(2 + secrets.randbelow(number - 3), number >> twos, number)]
        while len(powers) < twos and powers[-1] not in (1, number - 1):
            powers.append(powers[-1] ** 2 % number)
        if powers[-1] != number - 1 and powers != [1]:
            return False
    return True


def is_of_small_order(point: bytes) -> bool:
    """Whether the octets of a point on a curve of EdDSA are one whose order divides the cofactor: its y, modulo the curve's prime, is
    one of few, and its x has either sign."""
    small: tuple[int, ...] = SMALL_25519
    prime, number = (1 << 255) - 19, int.from_bytes(point, "little") & ((1 << 255) - 1)
    if len(point) != 32:
        small, prime, number = (0, 1), (1 << 448) - (1 << 224) - 1, int.from_bytes(point[:-1], "little")
    return number % prime in small or -number % prime in small


def check_pss(key: Key, digest: str, pss: Pss) -> None:
    """Raises Unjudged unless the parameters agree with the signer's digest and with those of the key (RFC 4055 1.2, 3.3)."""
    if pss.digest != digest:
        raise Unjudged(f"the signature is by {pss.digest}, and the digest algorithm is {digest}")
    bound = key.prescribed
    if bound is not None and (pss[:2] != bound[:2] or pss.salt < bound.salt):
        raise Unjudged("the parameters of RSASSA-PSS are not those that the key prescribes")


def call_of(kind: str, digest: str, parameters: bytes, key: Key) -> tuple[Any, ...]:
    """What the library's `verify` is told behind signature and octets, for a signature of this kind."""
    if kind == "RSA-PSS":
        pss = pss_read(parameters)
        check_pss(key, digest, pss)
        return padding.PSS(padding.MGF1(HASHES[pss.mask]), pss.salt), HASHES[digest]
    if parameters not in NO_PARAMETERS:
        raise Unjudged(f"the signature algorithm, {kind}, has parameters")
    if kind == "RSA":
        return padding.PKCS1v15(), HASHES[digest]
    if kind == "ECDSA":
        return (ec.ECDSA(HASHES[digest]),)
    return (HASHES[digest],) if kind == "DSA" else ()


@lru_cache(maxsize=4096)
def asking(key_octets: bytes, digest_octets: bytes, algorithm_octets: bytes) -> tuple[Any, tuple[Any, ...]]:
    """The key, and what its `verify` is told behind signature and octets: the same for each signature under it by these algorithms.
    Raises Unjudged where there is no such call."""
    digest = digest_of(digest_octets)
    oid, parameters = algorithm_of(algorithm_octets, "signature")
    kind, agreeing = SIGNATURES.get(oid, (None, ()))
    if kind is None:
        raise Unjudged(f"the signature algorithm {oid} is not known")
    if digest not in agreeing:
        raise Unjudged(f"the digest algorithm {digest} does not agree with the signature algorithm {oid}, {kind}")
    key = key_of(key_octets)
    check_key(key, kind)
    return key.public, call_of(kind, digest, parameters, key)


def holds(question: Question) -> bool:
    """Whether the signature is good under the key, over the SET OF attributes. Raises Unjudged where that cannot be said."""
    public, call = asking(question.key, question.digest, question.algorithm)
    return is_good(public.verify, question.signature, question.signed(), call)


def is_good(verify: Callable[..., None], signature: bytes, octets: bytes, call: tuple[Any, ...]) -> bool:
    """Whether a call of the library says that a signature is good. Raises Unjudged where it says neither."""
    try:
        verify(signature, octets, *call)
        return True
    except InvalidSignature:
        return False
    except Exception as error:
        raise unjudged(error) from error


def unjudged(error: Exception) -> Unjudged:
    """What is raised where the library says of a signature neither that it is good nor that it is bad: whatever else it says, it does not
    say that it is good."""
    return Unjudged(f"the library cannot judge it: {error or type(error).__name__}")


class Asking(NamedTuple):
    """What is the same for all signatures under a key by these algorithms: what hashes the octets before, if anything does, and the
    library's call with what it is told behind signature and octets."""

    hashed: Any
    verify: Callable[..., None]
    call: tuple[Any, ...]


def asking_in(fields: bytes) -> Asking:
    """As `asking`, of the first three fields of a question's line. `hashlib` hashes, which some versions of the library do in five times
    the time. Raises ValueError where these are no such fields."""
    key, digest, algorithm = octets_of_fields(fields)
    public, call = asking(key, digest, algorithm)
    name = DIGESTS[der.algorithm(digest)[0]][0]
    if name not in HASHING or not call:
        return Asking(None, public.verify, call)
    hashed = Prehashed(HASHES[name])
    if isinstance(public, ec.EllipticCurvePublicKey):
        return Asking(HASHING[name], public.verify, (ec.ECDSA(hashed),))
    return Asking(HASHING[name], public.verify, (*call[:-1], hashed))


# what was asked by the first three fields of lines, which stand beside it: by these fields, and the last one of each PLACE in lines, as a
# key may have several algorithms; and how many of each are kept
BY_FIELDS: dict[bytes, tuple[bytes, Asking]] = {}
KEPT: dict[bytes, tuple[bytes, Asking]] = {}
MOST_KEPT = 1024


def asking_of(line: bytes) -> tuple[bytes, Asking]:
    """The first three fields of a line, as `fields_of`, and what they ask, which is kept. Raises ValueError where they ask nothing; where
    it is kept nobody looks here whether the rest is that of a question."""
    fields = fields_of(line)
    found = BY_FIELDS.get(fields)
    if found is None:
        question_of(0, line)
        found = fields, asking_in(fields[:-1])
        # (of few octets, since files have the parameters)
        if len(fields) > LONGEST_KEPT:
            return found
        if len(BY_FIELDS) >= MOST_KEPT:
            BY_FIELDS.clear()
        BY_FIELDS[fields] = found
    if len(KEPT) >= MOST_KEPT:
        KEPT.clear()
    KEPT[line[PLACE]] = found
    return found


def fault_in(line: bytes) -> str | None:
    """None where the signature of the question in a line holds, and otherwise why it is not vouched for. Raises ValueError if the line is
    no question. (This is asked twice of each file of an archive.)"""
    found = KEPT.get(line[PLACE])
    try:
        # (all octets of the fields are compared, so that what is kept is the key that the line has)
        if found is None or not line.startswith(found[0]):
            found = asking_of(line)
        fields, (hashed, verify, call) = found
        of_tail, _, of_signature = line[len(fields) :].partition(b" ")
        try:
            tail, signature = unhexlify(of_tail), unhexlify(of_signature)
        except ValueError:
            # (a field may be `-`)
            tail = signature = b""
        if not tail or not signature:
            return None if holds(question_of(0, line)) else UNHOLDING
        octets = b"\x31" + tail
        try:
            verify(signature, octets if hashed is None else hashed(octets).digest(), *call)
            return None
        except InvalidSignature:
            return UNHOLDING
        except Exception as error:
            raise unjudged(error) from error
    except Unjudged as reason:
        return f"not judged: {reason}"


# (by the whole line: what holds of it holds of it again)
fault_kept = kept_if_short(64)(fault_in)
