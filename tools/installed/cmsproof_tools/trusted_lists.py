"""National trusted lists (ETSI TS 119 612): which services a list takes for trusted, and when. Nothing here is proved.

The signature is verified by `xmlsec1` under the scheme operator's certificate that the user hands in, and by no key of the file.
Before that it is looked that the one signature stands at the top, covers the whole list, and fetches nothing.
"""
from __future__ import annotations

import base64
import hashlib
import re
import subprocess
import tempfile
from datetime import datetime
from pathlib import Path
from typing import Iterator, NamedTuple, Union
from xml.etree import ElementTree

from cmsproof_tools.certificates import Certificate
from cmsproof_tools.paths import SECONDS, pem
from cmsproof_tools.periods import OPEN, Period, just_before, moment_of
from cmsproof_tools.running import FAILED, Stop, one_line, shown

LIST, SIGNATURE = "{http://uri.etsi.org/02231/v2#}", "{http://www.w3.org/2000/09/xmldsig#}"
MOST_OCTETS = 64 << 20
ENVELOPED = "http://www.w3.org/2000/09/xmldsig#enveloped-signature"
CANONICAL = re.compile(
    r"http://www\.w3\.org/(?:TR/2001/REC-xml-c14n-20010315|2001/10/xml-exc-c14n#|2006/12/xml-c14n11)(?:#?WithComments)?"
)
# digests of what is covered and of the signature, by SHA-2, or by SHA-1 where that is allowed (RFC 9231 2.1, 2.3)
METHOD = r"http://www\.w3\.org/[0-9]{4}/(?:[0-9]{2}/)?xml(?:dsig(?:-more|11)?|enc)#(?:(?:rsa|ecdsa|dsa)-)?sha(%s)(?:-rsa-MGF1)?"
SHA_2 = "224|256|384|512"
TYPES = "http://uri.etsi.org/TrstSvc/Svctype/"
AUTHORITIES = tuple(TYPES + name for name in ("TSA/QTST", "TSA", "TSA/TSS-QC", "TSA/TSS-AdESQCandQES"))
ISSUERS = (TYPES + "CA/QC",)
# the statuses of a service that is trusted (5.5.4; the last ones are those of before July 2016)
GOOD = ("granted", "recognisedatnationallevel", "undersupervision", "supervisionincessation", "accredited", "setbynationallaw")
# where services stand (5.2): nothing that stands in the signature, which does not cover itself, is one
PROVIDERS = "/".join(LIST + name for name in ("TrustServiceProviderList", "TrustServiceProvider"))
SERVICES = "/".join(LIST + name for name in ("TSPServices", "TSPService"))
# the critical extensions of a service that are known (5.5.9.1 to 5.5.9.4)
EXTENSIONS = ("ExpiredCertsRevocationInfo", "Qualifications", "TakenOverBy", "AdditionalServiceInformation")
INFORMATION = "http://uri.etsi.org/TrstSvc/TrustedList/SvcInfoExt/"


class Service(NamedTuple):
    """A certificate of a service, whether the service is an authority, and a period in which it is trusted."""

    certificate: Certificate
    stamping: bool
    period: Period


class Listed(NamedTuple):
    """A certificate of a service that is or was one of authorities, or one of issuers, and the periods in which that is trusted."""

    certificate: Certificate
    stamping: bool
    periods: list[Period]


class State(NamedTuple):
    """What a list says of a service from a time on."""

    since: datetime
    kind: str
    good: bool


def tree_of(octets: bytes) -> ElementTree.Element:
    """The list as a tree. Raises ValueError where the octets are none, or have what XML can fetch or expand."""
    if len(octets) > MOST_OCTETS:
        raise ValueError(f"it has more than {MOST_OCTETS} octets")
    text = octets.decode("utf-8")
    declared = re.match(r"\ufeff?<\?xml[^>]*?encoding\s*=\s*[\"']([^\"']*)", text)
    # (XML without a mark can be in UTF-16 all the same: then each second octet of what is looked for is 00)
    if "\0" in text or "<!DOCTYPE" in text or (declared and declared[1].lower() != "utf-8"):
        raise ValueError("it has a DOCTYPE, or is not in UTF-8")
    try:
        root = ElementTree.fromstring(octets)
    except ElementTree.ParseError as error:
        raise ValueError(f"it is no XML: {error}") from error
    if root.tag != LIST + "TrustServiceStatusList":
        raise ValueError("it is no TrustServiceStatusList")
    return root


def check_covered(root: ElementTree.Element) -> None:
    """Raises ValueError unless the tree has one signature, at its top, which covers all of it and fetches nothing."""
    if len(list(root.iter(SIGNATURE + "Signature"))) != 1 or root.find(SIGNATURE + "Signature") is None:
        raise ValueError("it has not exactly one signature at its top")
    references = list(root.iter(SIGNATURE + "Reference"))
    inside = root.findall(f"{SIGNATURE}Signature/{SIGNATURE}SignedInfo/{SIGNATURE}Reference")
    if references != inside:
        raise ValueError("a reference is not in the signature")
    whole = 0
    for reference in references:
        named = [transform.get("Algorithm", "") for transform in reference.iter(SIGNATURE + "Transform")]
        uri = reference.get("URI")
        whole += uri == "" and named.count(ENVELOPED) == 1
        other = [name for name in named if not CANONICAL.fullmatch(name) and not (name == ENVELOPED and uri == "")]
        if uri is None or not (uri == "" or uri.startswith("#")) or other:
            raise ValueError("its signature fetches or changes what it covers")
    if whole != 1:
        raise ValueError("its signature does not cover the whole list")


def check_methods(root: ElementTree.Element, sha1: bool) -> None:
    """Raises ValueError where the signature, or a digest that it covers, is by an algorithm that is not good enough."""
    known = re.compile(METHOD % (SHA_2 + "|1" * sha1))
    signed = root.findall(f"{SIGNATURE}Signature/{SIGNATURE}SignedInfo")
    for found in (
        found for part in signed for name in ("SignatureMethod", "DigestMethod") for found in part.iter(SIGNATURE + name)
    ):
        if not known.fullmatch(found.get("Algorithm", "")):
            raise ValueError(
                f"its signature is by an algorithm that is not good enough: {one_line(found.get('Algorithm', ''))[:80]}"
            )


def check_signature(octets: bytes, root: ElementTree.Element, operator: Certificate, sha1: bool) -> None:
    """Raises ValueError unless the list is signed under the key of this certificate."""
    check_covered(root)
    check_methods(root, sha1)
    with tempfile.TemporaryDirectory(prefix="cmsproof-") as folder:
        (Path(folder) / "list.xml").write_bytes(octets)
        (Path(folder) / "operator.pem").write_bytes(pem([operator]))
        # (of KeyInfo names of keys alone are read, of which there is none: so no key of the file counts)
        words = ["xmlsec1", "--verify", "--enabled-key-data", "key-name", "--pubkey-cert-pem", "operator.pem"]
        words += ["--enabled-reference-uris", "empty,same-doc"]
        words += ["--id-attr:Id", "http://uri.etsi.org/01903/v1.3.2#:SignedProperties", "list.xml"]
        try:
            done = subprocess.run(
                words, cwd=folder, stdin=subprocess.DEVNULL, capture_output=True, timeout=SECONDS, check=False
            )
        except subprocess.TimeoutExpired as error:
            raise ValueError(f"xmlsec1 took longer than {SECONDS} seconds") from error
        except OSError as error:
            missing = f"failed run xmlsec1: {error.strerror}: signatures of trusted lists are verified by it, Debian's package xmlsec1"
            raise Stop(FAILED, missing) from error
    if done.returncode != 0:
        raise ValueError("its signature does not hold under the certificate of the scheme operator")


def part_of(parent: ElementTree.Element, name: str) -> ElementTree.Element:
    """The one part of this name. Raises ValueError where there is none, or more."""
    found = parent.findall(LIST + name)
    if len(found) != 1:
        raise ValueError(f"{parent.tag.rpartition('}')[2]} has not one {name}")
    return found[0]


def text_of(parent: ElementTree.Element, name: str) -> str:
    """The text in the one part of this name. Raises ValueError where there is none, or more is in it than a text."""
    found = part_of(parent, name)
    if len(found):
        raise ValueError(f"{name} is no text")
    return (found.text or "").strip()


def time_in(text: str) -> datetime:
    """The time in a text, in whole seconds of UTC (xs:dateTime). Raises ValueError where none is there."""
    return datetime.strptime(re.sub(r"\.0+Z$", "Z", text), "%Y-%m-%dT%H:%M:%SZ")


def is_strange(found: ElementTree.Element) -> bool:
    """Whether what is said has a critical extension that is not known: then it is not to be believed (5.3.17, 5.4.6, 5.5.9)."""
    critical = [part for part in found.iter(LIST + "Extension") if part.get("Critical", "0").strip() not in ("false", "0")]
    names = [{part.tag.rpartition("}")[2] for part in extension} for extension in critical]
    return any(not known or not known <= set(EXTENSIONS) for known in names)


def states_of(service: ElementTree.Element) -> Iterator[State]:
    """What a list says of a service now and before. Raises ValueError where it does not say one thing of each time."""
    history = service.findall(f"{LIST}ServiceHistory/{LIST}ServiceHistoryInstance")
    for found in [part_of(service, "ServiceInformation"), *history]:
        kind = text_of(found, "ServiceTypeIdentifier")
        status = text_of(found, "ServiceStatus").rstrip("/").rpartition("/")[2].lower()
        uses = {
            uri.text.strip()
            for uri in found.iter(LIST + "URI")
            if uri.text and uri.text.strip().startswith(INFORMATION + "For")
        }
        # (what is for web sites alone signs no documents)
        signing = not uses or bool(uses & {INFORMATION + "ForeSignatures", INFORMATION + "ForeSeals"})
        yield State(time_in(text_of(found, "StatusStartingTime")), kind, status in GOOD and signing and not is_strange(found))


def periods_of(states: list[State], until: str) -> Iterator[tuple[str, Period]]:
    """The kinds and periods in which a service is trusted, the last of which ends when the list does. The first state is that of
    now; of two that begin together the older one does not count, nor does an older one that begins later."""
    ordered = sorted(reversed(states), key=lambda state: state.since)
    for at, state in enumerate(ordered):
        if state.good and state.since <= states[0].since:
            first, why = moment_of(state.since), "the list is to be renewed then" if until != OPEN else ""
            last = Period(OPEN, until, why, serves=OPEN)
            if at + 1 < len(ordered):
                last = last.cut(Period(OPEN, just_before(ordered[at + 1].since), "the status of the service changes"))
            period = Period(first).cut(last)
            if not period.is_none():
                yield state.kind, period


def certificates_of(service: ElementTree.Element, passing: bool) -> Iterator[Certificate]:
    """The certificates of a service. Raises ValueError where one cannot be read, unless such ones are passed over."""
    where = f"{LIST}ServiceInformation/{LIST}ServiceDigitalIdentity/{LIST}DigitalId/{LIST}X509Certificate"
    for found in service.findall(where):
        try:
            yield Certificate(base64.b64decode("".join((found.text or "").split()), validate=True))
        except ValueError:
            if not passing:
                raise


class TrustedList:
    """A list in a file. Raises ValueError, with a line, where it is none, or its signature does not hold."""

    def __init__(self, name: str, octets: bytes, operator: Union[Certificate, None], sha1: bool = False) -> None:
        self.name, self.octets, self.operator = shown(name), octets, operator
        self.root = tree_of(octets)
        if operator is not None:
            check_signature(octets, self.root, operator, sha1)
        scheme = part_of(self.root, "SchemeInformation")
        version = text_of(scheme, "TSLVersionIdentifier")
        if not version.isdecimal() or int(version) < 5:
            raise ValueError(f"its version is {one_line(version)[:20]!r}, and the first that is read is 5 (TS 119 612 V2.1.1)")
        if is_strange(scheme):
            raise ValueError("a critical extension of its scheme is not known")
        self.territory = one_line((scheme.findtext(LIST + "SchemeTerritory") or "").strip()[:20])
        following = part_of(scheme, "NextUpdate")
        self.until = moment_of(time_in(text_of(following, "dateTime"))) if len(following) else OPEN

    def listed(self) -> Iterator[Listed]:
        """The services of authorities and of issuers of qualified certificates, also those that are not trusted."""
        providers = [found for found in self.root.findall(PROVIDERS) if not is_strange(part_of(found, "TSPInformation"))]
        for service in (service for provider in providers for service in provider.findall(SERVICES)):
            states = list(states_of(service))
            for stamping, kinds in ((False, ISSUERS), (True, AUTHORITIES)):
                if any(state.kind in kinds for state in states):
                    periods = [period for kind, period in periods_of(states, self.until) if kind in kinds]
                    # (one that nobody can read is on no path)
                    read = certificates_of(service, passing=not periods)
                    yield from (Listed(certificate, stamping, periods) for certificate in read)

    def services(self) -> Iterator[Service]:
        """Those services in the periods in which they are trusted."""
        for certificate, stamping, periods in self.listed():
            for period in periods:
                # (of what an issuer issued the path says when it is valid)
                held = period if certificate.is_issuer() else period.cut(certificate.validity())
                if not held.is_none():
                    yield Service(certificate, stamping, held)

    def about(self) -> str:
        """What it is, for a reader, with a warning if nobody verified its signature."""
        digest = hashlib.sha256(self.octets).hexdigest()
        signed = (
            "NOBODY VERIFIED ITS SIGNATURE" if self.operator is None else f"signed under sha256 {self.operator.fingerprint()}"
        )
        return f"trusted list {self.name} of {self.territory}, sha256 {digest}, {signed}"
