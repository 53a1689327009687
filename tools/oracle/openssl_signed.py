"""A SignedData as OpenSSL shows it: the elements of `openssl asn1parse`, in the order of RFC 5652 5.1, held against the fields of
`openssl cms -cmsout -print`. What does not agree ends the script."""
from __future__ import annotations

import re
import subprocess
import sys
import tempfile
from dataclasses import dataclass, field
from pathlib import Path
from typing import NoReturn, Optional

from oracle import identifiers
from oracle.openssl_lines import HASHES

DATA, PSS = identifiers.DATA, identifiers.RSA_PSS
TYPES = {"content": identifiers.CONTENT_TYPE, "digest": identifiers.MESSAGE_DIGEST}
TOKEN = identifiers.TIME_STAMP_TOKEN
NAMES = {oid: name for name, oid in HASHES.items()}
# a member of the sets of certificates and revocation lists
LISTED = re.compile(r" {6}d\.\w+: *$")


def fail(what: str) -> NoReturn:
    """Ends the script, which can't say what must be printed."""
    sys.exit(f"real_files.py: {what}")


def demand(holds: bool, what: str) -> None:
    """Ends the script unless this holds."""
    if not holds:
        fail(what)


def ran(*words: object, given: Optional[bytes] = None) -> subprocess.CompletedProcess[bytes]:
    """How openssl ends, with these octets on its standard input."""
    return subprocess.run(["openssl", *map(str, words)], input=given, capture_output=True)


def openssl(*words: object, given: Optional[bytes] = None) -> str:
    """What openssl prints."""
    done = ran(*words, given=given)
    if done.returncode:
        fail(f"openssl {' '.join(map(str, words))}: {done.stderr.decode()}")
    return done.stdout.decode("latin-1")


# Elements, as `openssl asn1parse` prints them.


class Element:
    """An element: where it is, what it is called, what is said of its contents, and the elements in it."""

    def __init__(self, row: re.Match[str], octets: bytes) -> None:
        self.at, self.depth, self.head = int(row[1]), int(row[2]), int(row[3])
        self.indefinite = row[4] == "inf"
        length = 0 if self.indefinite else int(row[4])
        self.tag, self.said = row[5].strip(), row[6] or ""
        self.parts: list[Element] = []
        self.whole = octets[self.at : self.at + self.head + length]
        self.contents = self.whole[self.head :]


ROW = re.compile(r" *(\d+):d=(\d+) +hl=(\d+) l= *(\d+|inf) +(?:cons|prim): ([^:]*)(?::(.*))?$")


def elements(path: Path, octets: bytes) -> Element:
    """The first element of a file, with those inside it."""
    stack: list[Element] = []
    first = None
    for line in openssl("asn1parse", "-inform", "DER", "-in", path).splitlines():
        row = ROW.match(line)
        if row is None:
            fail(f"asn1parse {path.name}: {line}")
        found = Element(row, octets)
        del stack[found.depth :]
        if stack:
            stack[-1].parts.append(found)
        else:
            first = found
        stack.append(found)
    return first or fail(f"asn1parse {path.name}: no element")


# What `openssl cms -cmsout -print` prints.


def oids_by_name(text: str) -> dict[str, str]:
    """Each object identifier that is printed with its name, by this name."""
    return dict(re.findall(r"^ *(?:algorithm|object|contentType|eContentType): (.*) \(([\d.]+)\)$", text, re.M))


def no_types() -> Optional[list[str]]:
    """Attributes of which none was printed yet."""
    return []


@dataclass
class SignerFields:
    """The fields of a SignerInfo."""

    version: int
    sid: str = ""
    digest: str = ""
    signed: Optional[list[str]] = field(default_factory=no_types)
    signature: str = ""
    unsigned: Optional[list[str]] = field(default_factory=no_types)

    def put(self, part: str, line: str) -> None:
        """Takes what a line says of a part."""
        absent, of = line.strip() == "<ABSENT>", line.startswith("            object: ")
        if part == "signedAttrs" and (absent or of):
            self.signed = None if absent else [*(self.signed or []), oid_of(line)]
        elif part == "unsignedAttrs" and (absent or of):
            self.unsigned = None if absent else [*(self.unsigned or []), oid_of(line)]
        elif part == "digestAlgorithm" and line.startswith("          algorithm: "):
            self.digest = oid_of(line)
        elif part == "signatureAlgorithm" and line.startswith("          algorithm: "):
            self.signature = oid_of(line)


@dataclass
class Fields:
    """The fields of a SignedData: versions, identifiers, how many certificates and revocation lists, signers."""

    version: int = 0
    type: str = ""
    certificates: Optional[int] = None
    crls: Optional[int] = None
    digests: list[str] = field(default_factory=list)
    signers: list[SignerFields] = field(default_factory=list)


def printed(text: str) -> Fields:
    """The fields of a SignedData that is printed."""
    found = Fields()
    section, part = "", ""
    for line in text.splitlines():
        outer = re.match(r" {4}([a-zA-Z]\w*): ?(.*)$", line)
        inner = re.match(r" {8}([a-zA-Z][\w.]*): ?(.*)$", line)
        if outer:
            section, part = outer.group(1), ""
            if section == "version":
                found.version = int(outer.group(2))
        elif section == "digestAlgorithms" and inner and inner.group(1) == "algorithm":
            found.digests.append(oid_of(inner.group(2)))
        elif section == "encapContentInfo" and line.startswith("      eContentType: "):
            found.type = oid_of(line)
        elif section == "certificates" and LISTED.match(line):
            found.certificates = (found.certificates or 0) + 1
        elif section == "crls" and LISTED.match(line):
            found.crls = (found.crls or 0) + 1
        elif section == "signerInfos" and inner:
            part = inner.group(1)
            if part == "version":
                found.signers.append(SignerFields(int(inner.group(2))))
            elif part.startswith("d."):
                found.signers[-1].sid = part[2:]
        elif section == "signerInfos" and part:
            found.signers[-1].put(part, line)
    return found


def oid_of(line: str) -> str:
    """The object identifier at the end of a line."""
    found = re.search(r" ?\(?([\d.]+)\)$", line)
    return found.group(1) if found else fail(f"no object identifier: {line}")


# A SignedData: the elements in the order of RFC 5652 5.1, held against what is printed.


class Signed:
    """A signed file; `refused` says why it is none that is read."""

    def __init__(self, path: Path, octets: bytes) -> None:
        self.octets, self.refused = octets, ""
        first = elements(path, octets)
        if first.indefinite:
            # X.690 10.1: DER has definite lengths, and M3 is found where the length octet is (docs/FORMAT.md, section 3).
            self.refused = f"malformed M3 Indefinite at {first.at + 1}"
            return
        text = openssl("cms", "-cmsout", "-print", "-inform", "DER", "-in", path)
        kind, explicit = first.parts
        if oids_by_name(text)[kind.said] != identifiers.SIGNED_DATA:
            self.refused = "not a SignedData"
            return
        self.printed, self.names = printed(text), oids_by_name(text)
        version, digests, encapsulated, *others, signers = explicit.parts[0].parts
        self.version, self.digests = int(version.said, 16), [self.oid(a.parts[0]) for a in digests.parts]
        self.type = self.oid(encapsulated.parts[0])
        self.content = encapsulated.parts[1].parts[0].contents if len(encapsulated.parts) == 2 else None
        self.certificates = self.choices(others, "cont [ 0 ]")
        self.crls = self.choices(others, "cont [ 1 ]")
        self.signers = [Signer(self, s) for s in signers.parts]
        self.hold()

    def oid(self, element: Element) -> str:
        """The object identifier of an element."""
        demand(element.tag == "OBJECT", "an identifier is no OBJECT")
        return element.said if re.fullmatch(r"[\d.]+", element.said) else self.names[element.said]

    def choices(self, others: list[Element], tag: str) -> Optional[list[Element]]:
        """The members of the set with this identifier, None where it is absent."""
        return next((o.parts for o in others if o.tag == tag), None)

    def hold(self) -> None:
        """Demands that asn1parse and cms -print say the same."""
        certificates = None if self.certificates is None else len(self.certificates)
        crls = None if self.crls is None else len(self.crls)
        parsed = Fields(self.version, self.type, certificates, crls, self.digests, [s.held for s in self.signers])
        demand(parsed == self.printed, f"asn1parse says {parsed}, and cms -print {self.printed}")

    def demanded_version(self) -> int:
        """The version that it must have (RFC 5652 5.1)."""
        tags = [c.tag for c in (self.certificates or []) + (self.crls or [])]
        demand(
            set(tags) <= {"SEQUENCE"}, "a certificate or a revocation list of another kind: state the version that it demands"
        )
        return 3 if self.type != DATA or any(s.version == 3 for s in self.signers) else 1


class Signer:
    """A signer of a file, and the fields of it that asn1parse shows."""

    def __init__(self, file: Signed, element: Element) -> None:
        version, sid, algorithm, *others = element.parts
        self.version, self.algorithm = int(version.said, 16), file.oid(algorithm.parts[0])
        self.attributes = others.pop(0) if others[0].tag == "cont [ 0 ]" else None
        self.signature_algorithm, self.signature = file.oid(others[0].parts[0]), others[1].contents
        self.unsigned = others[2] if len(others) == 3 else None
        self.sid = sid
        self.types = None if self.attributes is None else [file.oid(a.parts[0]) for a in self.attributes.parts]
        self.unsigned_types = None if self.unsigned is None else [file.oid(a.parts[0]) for a in self.unsigned.parts]
        self.tokens = values_of(self.unsigned, self.unsigned_types, TOKEN)
        named = "subjectKeyIdentifier" if sid.tag == "cont [ 0 ]" else "issuerAndSerialNumber"
        self.held = SignerFields(self.version, named, self.algorithm, self.types, self.signature_algorithm, self.unsigned_types)
        # RFC 5652 5.4: what is signed has the tag of a SET OF in the place of [0].
        self.signed = None if self.attributes is None else b"\x31" + self.attributes.whole[1:]

    def only(self, what: str) -> Element:
        """The only value of the only signed attribute of a type: the files here all have it (S2, S4)."""
        types, values = self.types or [], values_of(self.attributes, self.types, TYPES[what])
        demand(types.count(TYPES[what]) == 1 and len(values) == 1, f"not exactly one {what} attribute with one value")
        return values[0]

    def sid_line(self) -> str:
        """The line of its identifier."""
        if self.sid.tag == "cont [ 0 ]":
            return f"keyid {self.sid.contents.hex()}"
        issuer, serial = self.sid.parts
        return f"issuer {issuer.whole.hex()} serial {serial.contents.hex()}"

    def verifies(self, certificates: Optional[list[Element]]) -> bool:
        """Whether the signature holds over the signed octets under the key of a certificate of the file."""
        with tempfile.TemporaryDirectory() as temporary:
            folder = Path(temporary)
            (folder / "signature").write_bytes(self.signature)
            sure = ["-sigopt", "rsa_padding_mode:pss"] if self.signature_algorithm == PSS else []
            for certificate in certificates or []:
                key = openssl("x509", "-inform", "DER", "-noout", "-pubkey", given=certificate.whole)
                (folder / "key").write_text(key)
                words = ["-verify", str(folder / "key"), *sure, "-signature", str(folder / "signature")]
                if ran("dgst", "-" + NAMES[self.algorithm], *words, given=self.signed).returncode == 0:
                    return True
        return False


def values_of(attributes: Optional[Element], types: Optional[list[str]], of: str) -> list[Element]:
    """The values of the attributes of a type."""
    listed = attributes.parts if attributes else []
    return [value for attribute, kind in zip(listed, types or []) if kind == of for value in attribute.parts[1].parts]
