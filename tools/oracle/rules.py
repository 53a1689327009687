"""The rules of docs/FORMAT.md and docs/REFUSALS.md for signers, tokens and what is trusted (S1 to S10, K1 to K14). Written from
those pages and the RFCs, over the readings of forms.py, and apart from the program."""
from __future__ import annotations

import hashlib
from typing import Callable, Iterable, Optional

from oracle import der, forms, identifiers
from oracle.der import Element, Fault
from oracle.forms import Attribute, Certificate, Imprint, NotSignedData, Signer, SignerId, TstInfo, read_signed_data, whole
from oracle.lists import Entry

DIGESTS = {der.oid_contents(oid): name for oid, name in identifiers.DIGESTS.items()}
DATA, TST_INFO = der.oid_contents(identifiers.DATA), der.oid_contents(identifiers.TST_INFO)
CONTENT_TYPE, MESSAGE_DIGEST = der.oid_contents(identifiers.CONTENT_TYPE), der.oid_contents(identifiers.MESSAGE_DIGEST)
NAMES_1, NAMES_2 = der.oid_contents(identifiers.SIGNING_CERTIFICATE), der.oid_contents(identifiers.SIGNING_CERTIFICATE_V2)
STAMP = der.oid_contents(identifiers.TIME_STAMP_TOKEN)
KEY_ID, PURPOSES = der.oid_contents(identifiers.SUBJECT_KEY_IDENTIFIER), der.oid_contents(identifiers.EXTENDED_KEY_USAGE)
# the one purpose of a time-stamping authority (RFC 3161 2.3)
STAMPING = der.sequence(der.oid(identifiers.TIME_STAMPING))
# a directoryName (RFC 5280 4.2.1.6)
DIRECTORY_NAME = 0xA4
# names of digest algorithms that are not allowed: mostly SHA-1 alone, or none
Weak = frozenset[str]

RULES = {
    "C2": "NotSignedData",
    "C3": "NoSigner",
    "C4": "NoContent",
    "C5": "ContentTwice",
    "S1": "NoSignedAttrs",
    "S2": "ContentTypeAttr",
    "S3": "ContentTypeDiffers",
    "S4": "DigestAttr",
    "S5": "DigestAlgorithm",
    "S6": "DigestDiffers",
    "S7": "UnknownSigner",
    "S8": "NotNamed",
    "S9": "SignatureFails",
    "S10": "NoToken",
    "K2": "ContentType",
    "K3": "NoContent",
    "K4": "OneSigner",
    "K7": "CriticalExtension",
    "K8": "ImprintAlgorithm",
    "K9": "ImprintDiffers",
    "K10": "UnknownTsa",
    "K11": "NotNamed",
    "K12": "Purpose",
    "K13": "Period",
    "K14": "SignatureFails",
    "P1": "Status",
    "P2": "NoToken",
    "P3": "TokenMalformed",
    "P4": "Imprint",
    "P5": "Nonce",
    "P6": "Policy",
    "P7": "CertMissing",
}


class Refused(Exception):
    """A rule that fails: its code, and what follows it where that is not its name."""

    def __init__(self, code: str, rest: object = None) -> None:
        super().__init__(f"{code} {rest or RULES[code]}")


def digest_name(alg: forms.Algorithm) -> Optional[str]:
    """The name of the digest algorithm that an AlgorithmIdentifier names, or None."""
    return DIGESTS.get(alg.oid) if alg.parameters in (None, b"\5\0") else None


def digest(name: str, octets: bytes) -> bytes:
    """The digest of octets."""
    return hashlib.new(name, octets).digest()


def weak_unless(sha1: bool) -> Weak:
    """What is not allowed where nothing is said of moments: SHA-1, unless it is allowed."""
    return Weak() if sha1 else Weak({"sha1"})


def allowed_name(alg: forms.Algorithm, weak: Weak) -> Optional[str]:
    """The name of a digest algorithm, None where it is not known or not allowed."""
    name = digest_name(alg)
    return None if name in weak else name


def has_digest(imprint: Imprint, octets: bytes, weak: Weak) -> bool:
    """Whether an imprint is the digest of octets, by an algorithm that is known and allowed."""
    name = allowed_name(imprint.alg, weak)
    return name is not None and imprint.digest == digest(name, octets)


# ---- a signer and a content


def one(attributes: list[Attribute], of: bytes) -> Optional[Element]:
    """The value of the attribute of a type, where it is there once with one value."""
    found = [a for a in attributes if a.oid == of]
    return found[0].values[0] if len(found) == 1 and len(found[0].values) == 1 else None


def fit(signer: Signer, content: bytes, of: bytes, weak: Weak) -> None:
    """S1 to S6."""
    if signer.signed is None:
        raise Refused("S1")
    kind = one(signer.signed, CONTENT_TYPE)
    if kind is None or kind.tag != der.OID:
        raise Refused("S2")
    if kind.body() != of:
        raise Refused("S3")
    held = one(signer.signed, MESSAGE_DIGEST)
    if held is None or held.tag != der.OCTETS:
        raise Refused("S4")
    name = allowed_name(signer.alg, weak)
    if name is None:
        raise Refused("S5")
    if held.body() != digest(name, content):
        raise Refused("S6")


# ---- a certificate, and who is named


def key_id(certificate: Certificate) -> Optional[bytes]:
    """The key identifier of a certificate (RFC 5280 4.2.1.2)."""
    for extension in certificate.extensions:
        if extension.oid == KEY_ID:
            try:
                return der.only(extension.value, der.OCTETS).body()
            except Fault:
                return None
    return None


def matches(sid: SignerId, certificate: Certificate) -> bool:
    """Whether a signer's identifier is that of a certificate."""
    if sid.key_id is not None:
        return key_id(certificate) == sid.key_id
    return (certificate.issuer, certificate.serial) == (sid.issuer, sid.serial)


def stamping_only(certificate: Certificate) -> bool:
    """Whether a certificate is for time-stamping alone, and that critically."""
    return any(e.oid == PURPOSES and e.critical and e.value == STAMPING for e in certificate.extensions)


def attribute_names(attributes: list[Attribute], of: bytes, certificate: Certificate) -> bool:
    """Whether the signing-certificate attribute of this type, which is there, names the certificate."""
    value = one(attributes, of)
    if value is None:
        return False
    try:
        identifiers = whole(value.whole(), forms.signing_certificate(of == NAMES_2))
    except Fault:
        return False
    if not identifiers:
        return False
    first = identifiers[0]
    name = "sha1" if of == NAMES_1 else "sha256" if first.alg is None else digest_name(first.alg)
    if name is None or first.hash != digest(name, certificate.whole):
        return False
    if first.names is None:
        return True
    issuers = [(n.tag, n.body()) for n in first.names]
    return issuers == [(DIRECTORY_NAME, certificate.issuer)] and first.serial == certificate.serial


def names(attributes: list[Attribute], certificate: Certificate, must: bool) -> bool:
    """Whether each of the signing-certificate attributes names the certificate; `must` where one must be there."""
    present = [of for of in (NAMES_1, NAMES_2) if any(a.oid == of for a in attributes)]
    return all(attribute_names(attributes, of, certificate) for of in present) and (bool(present) or not must)


# ---- what is trusted and vouched for


def holds(entry: Entry, moment: str) -> bool:
    """Whether an entry is trusted at a moment."""
    c = entry.certificate
    return (
        c.first <= moment <= c.last
        and (entry.first is None or entry.first <= moment)
        and (entry.last is None or moment <= entry.last)
    )


def question(certificate: Certificate, signer: Signer) -> str:
    """What a verifier is asked about a signer, under the key of a certificate."""
    fields = certificate.key, signer.alg.whole, signer.signature_alg.whole, signer.tail, signer.signature
    return " ".join(f.hex() or "-" for f in fields)


class Terms:
    """Whom a user trusts, the lines of the answers list, what is not allowed, SHA-1 or nothing; and the moment by which an evidence record
    shows the file that is judged, if one does."""

    def __init__(self, trust: list[Entry], answers: Iterable[str], sha1: bool = False) -> None:
        self.trust, self.answers, self.weak = trust, set(answers), weak_unless(sha1)
        self.shown: Optional[str] = None

    def as_of(self, shown: str, weak: Weak) -> Terms:
        """The same of a file that an evidence record shows by this moment, when these algorithms did not hold."""
        terms = Terms(self.trust, self.answers)
        terms.weak, terms.shown = weak, shown
        return terms

    def stamped_by(self, entry: Entry, moment: str) -> bool:
        """Whether an authority's entry serves for a token of this moment (K13): it holds then; and where a record shows the file, the moment
        is not later than that of the record, at which the entry holds too."""
        return holds(entry, moment) and (self.shown is None or moment <= self.shown and holds(entry, self.shown))

    def of(self, role: str, sid: SignerId) -> list[Entry]:
        """The entries of a role for a signer's identifier."""
        return [e for e in self.trust if e.role == role and matches(sid, e.certificate)]

    def vouched(self, entries: list[Entry], signer: Signer) -> list[Entry]:
        """Those of the entries under whose key the signature is good."""
        return [e for e in entries if question(e.certificate, signer) in self.answers]


def left(code: str, entries: list[Entry]) -> list[Entry]:
    """The entries; the rule of this code fails where there are none."""
    if not entries:
        raise Refused(code)
    return entries


# ---- tokens


def token_signer(token: bytes, weak: Weak) -> tuple[Signer, bytes]:
    """K1 to K5: the one signer of a token, and its content."""
    try:
        signed = read_signed_data(token)
    except Fault as fault:
        raise Refused("K1", fault)
    except NotSignedData:
        raise Refused("K1", "NotSignedData")
    if signed.type != TST_INFO:
        raise Refused("K2")
    if signed.content is None:
        raise Refused("K3")
    if len(signed.signers) != 1:
        raise Refused("K4")
    try:
        fit(signed.signers[0], signed.content, TST_INFO, weak)
    except Refused as rule:
        raise Refused("K5", rule)
    return signed.signers[0], signed.content


def stamp_of(content: bytes, weak: Weak) -> TstInfo:
    """K6 to K8: the TSTInfo of a token, which is told without what it stamps."""
    try:
        stamp = whole(content, forms.tst_info)
    except Fault as fault:
        raise Refused("K6", fault)
    if any(e.critical for e in stamp.extensions):
        raise Refused("K7")
    if allowed_name(stamp.imprint.alg, weak) is None:
        raise Refused("K8")
    return stamp


def stamped_at(token: bytes, stamped: Callable[[], bytes], terms: Terms) -> str:
    """The moment with which a token passes, K1 to K14; what it should stamp is asked for only once K1 to K8 hold."""
    signer, content = token_signer(token, terms.weak)
    stamp = stamp_of(content, terms.weak)
    if not has_digest(stamp.imprint, stamped(), terms.weak):
        raise Refused("K9")
    entries = left("K10", terms.of("tsa", signer.sid))
    entries = left("K11", [e for e in entries if names(signer.signed or [], e.certificate, True)])
    entries = left("K12", [e for e in entries if stamping_only(e.certificate)])
    entries = left("K13", [e for e in entries if terms.stamped_by(e, stamp.time)])
    left("K14", terms.vouched(entries, signer))
    return stamp.time


def token_moment(token: bytes, stamped: bytes, terms: Terms) -> str:
    """The moment with which a token passes for octets that are there."""
    return stamped_at(token, lambda: stamped, terms)


def tokens_of(signer: Signer) -> list[bytes]:
    """The tokens of a signer."""
    return [v.whole() for a in signer.unsigned if a.oid == STAMP for v in a.values]


def stamped_moments(signer: Signer, terms: Terms) -> tuple[list[str], Optional[Refused]]:
    """The moments of the tokens that pass, and the rule that the first one fails."""
    moments: list[str] = []
    first = None
    for number, token in enumerate(tokens_of(signer)):
        try:
            moments.append(token_moment(token, signer.signature, terms))
        except Refused as rule:
            first = rule if number == 0 else first
    return moments, first


def signer_moment(signer: Signer, content: bytes, of: bytes, terms: Terms) -> str:
    """The moment of a signer: S1 to S10, and its first token's rule."""
    fit(signer, content, of, terms.weak)
    moments, rule = stamped_moments(signer, terms)
    entries = terms.of("signer", signer.sid)
    entries = left("S7", [e for e in entries if not moments or any(holds(e, m) for m in moments)])
    entries = left("S8", [e for e in entries if names(signer.signed or [], e.certificate, False)])
    entries = left("S9", terms.vouched(entries, signer))
    if not tokens_of(signer):
        raise Refused("S10")
    if not moments:
        raise Refused("token 1", rule)
    return min(m for m in moments if any(holds(e, m) for e in entries))
