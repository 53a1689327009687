"""Whether what an issuer signs is signed by its key: certificates, revocation lists (RFC 5280 4.1, 5.1) and responses (RFC 6960
4.2.1) have one form. The library `cryptography` does the arithmetic, of the algorithms that `verifying` knows."""
from __future__ import annotations

from typing import NamedTuple

from cryptography.exceptions import InvalidSignature
from cryptography.hazmat.primitives.asymmetric import dsa, rsa

from cmsproof_tools import der
from cmsproof_tools.running import kept_if_short
from cmsproof_tools.verifying import PKCS_1, SIGNATURES, Unjudged, call_of, check_key, key_of, pss_read

# keys of fewer bits are broken in practice (RSA of 768 bits in 2009): none of a path has them, whatever else is allowed
LEAST_BITS = 1024


class Signed(NamedTuple):
    """The three parts of what is signed: the octets, the AlgorithmIdentifier, and the signature."""

    octets: bytes
    algorithm: bytes
    signature: bytes


class Algorithm(NamedTuple):
    """A signature algorithm: its kind, its digest, and its parameters."""

    kind: str
    digest: str
    parameters: bytes


def signed_in(octets: bytes) -> Signed:
    """The parts of a certificate, a list or a basic response. Raises ValueError where the octets are none."""
    signed, algorithm, signature, *_ = der.elements(der.elements(octets)[0].contents)
    return Signed(signed.whole, algorithm.whole, signature.contents[1:])


def algorithm_in(octets: bytes) -> Algorithm:
    """What an AlgorithmIdentifier names. Raises Unjudged where that is not known, as of MD5."""
    try:
        oid, parameters = der.algorithm(octets)
    except ValueError as error:
        raise Unjudged(f"the signature algorithm is not in its form: {error}") from error
    kind, digests = SIGNATURES.get(oid, ("", ()))
    # (of RSA without a digest that is named only a SignerInfo says the rest)
    if not kind or oid == PKCS_1 + "1":
        raise Unjudged(f"the signature algorithm {oid} is not known")
    return Algorithm(kind, pss_read(parameters).digest if kind == "RSA-PSS" else digests[0], parameters)


def is_weak(octets: bytes, sha1: bool) -> bool:
    """Whether the algorithm of a signature is none that a good word may stand on: not known, or of SHA-1 where that is not
    allowed."""
    try:
        return algorithm_in(octets).digest == "SHA-1" and not sha1
    except Unjudged:
        return True


def is_small(key: bytes) -> bool:
    """Whether a SubjectPublicKeyInfo has a key that is too small. Raises Unjudged where it cannot be read."""
    public = key_of(key).public
    return isinstance(public, (rsa.RSAPublicKey, dsa.DSAPublicKey)) and public.key_size < LEAST_BITS


@kept_if_short(4096)
def is_signed(signed: Signed, key: bytes) -> bool:
    """Whether a signature holds under the key in a SubjectPublicKeyInfo. Raises Unjudged where that cannot be said."""
    algorithm, public = algorithm_in(signed.algorithm), key_of(key)
    check_key(public, algorithm.kind)
    try:
        public.public.verify(signed.signature, signed.octets, *call_of(*algorithm, public))
        return True
    except InvalidSignature:
        return False
    except Unjudged:
        raise
    except Exception as error:  # whatever else the library says, it does not say that the signature is good
        raise Unjudged(f"the library cannot judge it: {error or type(error).__name__}") from error


def is_under(signed: Signed, key: bytes) -> bool:
    """Whether it can be said that a signature holds under the key in a SubjectPublicKeyInfo."""
    try:
        return is_signed(signed, key)
    except Unjudged:
        return False
