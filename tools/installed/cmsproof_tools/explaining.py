"""What stands behind a refusal: its cause and its cure (cures.py), and of some which certificate a signer names, when it was good and
trusted, and when it was stamped.

It is for a reader, and no part of a verdict. It reads the file again, and takes for granted that `check` found it well formed. Nothing
in a file says whom to trust: each cure that lists somebody has the fingerprint compared elsewhere first.
"""
from __future__ import annotations

import re
from typing import Iterator, NamedTuple

import cmsproof
from cmsproof.octets import Buffer
from cmsproof_tools import der
from cmsproof_tools.certificates import Certificate
from cmsproof_tools.cures import known_cures, plain, said_of
from cmsproof_tools.listing import is_by_issuers, is_for_no_time
from cmsproof_tools.running import shown
from cmsproof_tools.signed_parts import IN_CONTENT, TST_INFO, content_type_of, parts_of, some, token_of_stamp
from cmsproof_tools.texts import TrustEntry, in_order, is_moment, trust_entries

TOKEN = "1.2.840.113549.1.9.16.2.14"
CONTEXT_0, CONTEXT_1, KEY_IDENTIFIER, GENERALIZED_TIME = 0xA0, 0xA1, 0x80, 0x18
SHORT_NAMES = {"2.5.4.3": "CN", "2.5.4.5": "SERIALNUMBER", "2.5.4.6": "C", "2.5.4.10": "O", "2.5.4.11": "OU"}
# more is not read: the elements in them take much more memory, and whoever made the file can have put in any number
LONGEST = 1 << 20
LIST_IT = (
    "find the certificate under which the {} verifies, compare its SHA-256 with what its owner told you in another way, and only then "
    "list it as {}, if it is the right one (REFUSALS.md, {})"
)
# what helps where the list was made of what issuers issued, and has no entry: no path held
ISSUE_IT = (
    "no path from it to an issuer of the list held at the time of a stamp, as standard error said when the list was made. {}: name its "
    "issuer by {}, once you compared the SHA-256 of that with what its owner told you in another way than by this file; "
)
# what helps where the list has an issuer in the place of whom it issued a certificate to
ISSUER = (
    "an entry as {} trusts nobody to whom it issued a certificate: name the issuer by {} of cmsproof-trust or cmsproof-archive, once you "
    "compared its SHA-256 with what its owner told you in another way, or list the {}'s own certificate likewise (REFUSALS.md, {})"
)
STAMP_AGAIN = "or have the signature stamped by an authority that you trust (REFUSALS.md, K10)"
CURES = {
    "S7": LIST_IT.format("signature", "signer", "S7"),
    "K10": LIST_IT.format("token", "tsa", "K10"),
    "S7 by issuers": ISSUE_IT.format("It is about the signer", "--issuer") + "else leave the file refused (REFUSALS.md, S7)",
    "K10 by issuers": ISSUE_IT.format("It is about the time-stamping authority, and not about the signer", "--tsa-issuer")
    + STAMP_AGAIN,
    "S7 of an issuer": ISSUER.format("signer", "--issuer", "signer", "S7"),
    "K10 of an issuer": ISSUER.format("tsa", "--tsa-issuer", "token's signer", "K10"),
    "period": "the certificate was valid then, but its entry is for another time: give it another period, if you trust it then",
    "early": "it was stamped before the certificate was valid: have the content signed and stamped again",
    "late": "it was stamped after the certificate had expired: only an earlier stamp helps",
    "tsa": "the certificate of the authority was not valid then: have the signature stamped again",
    "no time of a signer": (
        "the entry is for no time, and stays so: no stamp of this certificate's passed when the list was made. Make the list anew with the "
        "issuer, once a stamp passes: the path is then judged at its time"
    ),
    "no time of a tsa": (
        "the entry is for no time, and stays so: it only says who the authority is. When the list was made, no token under it passed, no "
        "path of it to an issuer held at the token's time, or it was revoked, as standard error said then. Make the list anew with this "
        "file; if it stays so, have the signature stamped again"
    ),
    "period by issuers": (
        "the certificate was valid then, but its entry is for another time, and the comment above it says why. If it was revoked, that "
        "stays so. If what is known of its revocation ends, make the list anew with what is known now"
    ),
}
# what is said of a time-stamp token that is checked as if it were a signed file
TOKEN_ALONE = (
    "the file is a time-stamp token by itself, and its signer is a time-stamping authority, which no list has as signer. Cure: check the "
    "file whose signature it stamps, into which cmsproof attach puts it, or say --stamps if it is over a file beside it; nobody is to be "
    "listed for this"
)
# the code of a fault behind that of a token's rule, as in `K1 M6 Tag at 4`
BEHIND = re.compile(r"\bK[0-9]+ ([MS][0-9]+) ")


class Signer(NamedTuple):
    """A SignerInfo: the element that names its certificate, and its time-stamp tokens."""

    sid: der.Element
    tokens: list[der.Element]


def parts_at(octets: Buffer, at: int, end: int) -> Iterator[tuple[int, int, int]]:
    """The elements in this part of a file as identifier, begin of the contents, and end."""
    while at < end:
        head = bytes(octets[at : at + 6])
        length, begin = der.length_at(head, 1)
        yield head[0], at + begin, at + begin + length
        at += begin + length


def signer_infos(octets: Buffer) -> list[der.Element]:
    """The elements in signerInfos of a SignedData: only the headers are read of what stands before them."""
    _, begin, end = next(parts_at(octets, 0, len(octets)))
    *_, (_, begin, end) = parts_at(octets, begin, end)
    _, begin, end = next(parts_at(octets, begin, end))
    *_, (_, begin, end) = parts_at(octets, begin, end)
    if end - begin > LONGEST:
        raise ValueError("the signers are too long")
    return der.elements(bytes(octets[begin:end]))


def signer_of(info: der.Element) -> Signer:
    """The signer in a SignerInfo (RFC 5652 5.3)."""
    parts = der.elements(info.contents)
    tokens: list[der.Element] = []
    for attribute in der.elements(parts[-1].contents) if parts[-1].identifier == CONTEXT_1 else []:
        kind, values = der.elements(attribute.contents)
        if der.oid_text(kind.contents) == TOKEN:
            tokens += der.elements(values.contents)
    return Signer(parts[1], tokens)


def token_parts(token: der.Element) -> tuple[list[Signer], list[str]]:
    """The signers of a token (RFC 3161 2.4.2), and its genTime, none or one."""
    parts = der.elements(der.elements(der.elements(token.contents)[1].contents)[0].contents)
    octets = der.elements(der.elements(parts[2].contents)[1].contents)[0].contents
    found = [part for part in der.elements(der.only(der.SEQUENCE, octets)) if part.identifier == GENERALIZED_TIME]
    times = [part.contents.decode("ascii") for part in found]
    return [signer_of(info) for info in der.elements(parts[-1].contents)], list(filter(is_moment, times[:1]))


def times_of(token: der.Element) -> list[str]:
    """The genTime of a token, or none where it has none that can be read."""
    try:
        return token_parts(token)[1]
    except (ValueError, IndexError):
        return []


def is_named(certificate: Certificate, sid: der.Element) -> bool:
    """Whether a certificate is the one that a signer names (RFC 5652 5.3)."""
    if sid.identifier == KEY_IDENTIFIER:
        return len(sid.contents) < 128 and certificate.has_key_identifier(sid.contents)
    fields = der.elements(der.elements(der.only(der.SEQUENCE, certificate.octets))[0].contents)
    serial, issuer = (fields[1], fields[3]) if fields[0].identifier == CONTEXT_0 else (fields[0], fields[2])
    return issuer.whole + serial.whole == sid.contents


def name_text(name: der.Element) -> str:
    """A Name for a reader."""
    found = []
    for part in der.elements(name.contents):
        for pair in der.elements(part.contents):
            kind, value = der.elements(pair.contents)
            oid = der.oid_text(kind.contents)
            found.append(f"{SHORT_NAMES.get(oid, oid)}={value.contents.decode('utf-8', 'replace')}")
    return shown(",".join(reversed(found)))


def sid_text(sid: der.Element) -> str:
    """What a signer names, for a reader."""
    if sid.identifier == KEY_IDENTIFIER:
        return f"key identifier {sid.contents.hex()}"
    issuer, serial = der.elements(sid.contents)
    return f"serial {serial.contents.hex()}, issuer {name_text(issuer)}"


def fault_at(entry: TrustEntry, certificate: Certificate, time: str) -> str | None:
    """Why an entry does not hold at a time: a word of CURES, or None where it holds."""
    if not in_order(certificate.time_text("not_valid_before"), time):
        return "early"
    if not in_order(time, certificate.time_text("not_valid_after")):
        return "late"
    if is_for_no_time(entry.first, entry.last, certificate):
        return f"no time of a {entry.role}"
    first, last = entry.first, entry.last
    return None if (first == "-" or in_order(first, time)) and (last == "-" or in_order(time, last)) else "period"


def entry_text(entry: TrustEntry, certificate: Certificate) -> str:
    """An entry of the list, for a reader."""
    subject, *_, valid = certificate.about()[:4]
    return f"line {entry.number} of the list, {shown(subject)}, {valid}, trusted {entry.first} to {entry.last}"


def issuer_among(entries: list[tuple[TrustEntry, Certificate]], sid: der.Element) -> tuple[TrustEntry, Certificate] | None:
    """The first entry with the certificate of the issuer that a signer names, or None where there is none."""
    if sid.identifier == KEY_IDENTIFIER:
        return None
    issuer = der.elements(sid.contents)[0].whole
    return next((pair for pair in entries if pair[1].is_issuer() and pair[1].fields[4].whole == issuer), None)


def of_certificate(trusted: bytes, role: str, sid: der.Element, times: list[str], code: str) -> str:
    """What is to be said of the certificate that a signer names, at these times."""
    entries = [(entry, Certificate(entry.octets)) for entry in trust_entries(trusted) if entry.role == role]
    listed = [(entry, certificate) for entry, certificate in entries if is_named(certificate, sid)]
    # (nobody has verified these tokens when the signer's certificate is not known)
    said = "the time in its token is " if len(times) == 1 else "the times in its tokens are "
    stamped = said + " and ".join(times) if times else "no time in a token can be read"
    if not listed and (issuer := issuer_among(entries, sid)) is not None:
        named, cure = f"the issuer of the {role} that is named ({sid_text(sid)})", CURES[f"{code} of an issuer"]
        return f"{entry_text(*issuer)}, is {named}, {stamped}. Cure: {cure}"
    if not listed:
        cure = CURES[f"{code} by issuers" if is_by_issuers(trusted) else code]
        return f"no {role} of the list is the one that is named ({sid_text(sid)}), {stamped}. Cure: {cure}"
    faults = {fault for pair in listed for time in times if (fault := fault_at(*pair, time)) is not None}
    if role == "tsa":
        faults = {"tsa" if fault in ("early", "late") else fault for fault in faults}
    if is_by_issuers(trusted):
        faults = {"period by issuers" if fault == "period" else fault for fault in faults}
    entry_texts = "; ".join(entry_text(*pair) for pair in listed)
    return " ".join([f"it names {entry_texts}; {stamped}.", *(f"Cure: {CURES[fault]}." for fault in sorted(faults))])


def of_parties(octets: Buffer, trusted: bytes, parts: dict[str, str]) -> str:
    """What is to be said of the certificate that is named, where the refusal is S7, K10 or K13."""
    code = parts["code"]
    if "signer" not in parts:
        # (a time-stamp over a whole content)
        (info,) = signer_infos(octets)
        return of_certificate(trusted, "tsa", signer_of(info).sid, times_of(der.elements(bytes(octets))[0]), code)
    signer = signer_of(signer_infos(octets)[int(parts["signer"]) - 1])
    if code == "S7":
        times = [time for token in signer.tokens for time in times_of(token)]
        return of_certificate(trusted, "signer", signer.sid, times, code)
    signers, times = token_parts(signer.tokens[int(parts["token"]) - 1])
    return of_certificate(trusted, "tsa", signers[0].sid, times, code)


def of_code(code: str, line: str, of_stamp: bool = False) -> str:
    """The cause and the cure of a code, and of the fault behind it that the line has."""
    behind = known_cures().get(found[1]) if (found := BEHIND.search(line)) else None
    return said_of(code, of_stamp) + (f" Behind it: {plain(behind.when)}." if behind else "")


def token_fault(token: bytes) -> str:
    """What a time-stamp token lacks that `match` (P3) and `attach` (A3) take, by what the library reads in it (RFC 3161 2.4.2): no text
    where nothing does."""
    signed = cmsproof.show("signed", token)
    if "line" in signed:
        return f"it is {signed['line']}"
    if signed["type"] != TST_INFO:
        return f"its content has the type {signed['type']}, and not id-ct-TSTInfo, {TST_INFO}"
    if signed["signers"] != 1:
        return f"it has {signed['signers']} signers, and not one"
    if not isinstance(signed["content"], int):
        return "it has no content"
    _, explicit = some(token, *parts_of(token, len(token))[2][2:], IN_CONTENT)
    ((_, _, begin, end),) = some(token, *explicit[2:], 1)
    info = cmsproof.show("tst", token[begin:end])
    return f"its TSTInfo is {info['line']}" if "line" in info else ""


def of_response(octets: Buffer) -> str:
    """What is to be said of the token in a response of an authority (RFC 3161 2.4.2): no text if the octets are none, or have none."""
    whole = bytes(octets)
    if len(whole) > LONGEST or cmsproof.show("response", whole).get("token") != "present":
        return ""
    fault = token_fault(bytes(token_of_stamp(whole)))
    return f" Of the token in the response: {fault}." if fault else " The token in the response has its form."


def of_token(octets: Buffer, converted: str) -> str:
    """What is to be said of a time-stamp token that is checked as if it were a signed file."""
    short = len(octets) <= LONGEST
    fault = f"it was not in DER ({converted})" if converted else token_fault(bytes(octets)) if short else ""
    return TOKEN_ALONE + (f". What `match` (P3) and `attach` (A3) do not take of it: {fault}" if fault else "")


def of_file_stamp(octets: Buffer, trusted: bytes, parts: dict[str, str], line: str) -> str:
    """What explains the refusal of a stamp of a file, or of what a container has of it, which is no signature."""
    code = parts.get("code", "")
    try:
        if code in ("K10", "K13"):
            return of_parties(token_of_stamp(octets), trusted, parts).replace("the signature stamped", "the file stamped")
    except (ValueError, IndexError, KeyError):
        pass  # octets that anybody can write: what holds of the code is said
    return of_code(code, line, True)


def explanation(
    octets: Buffer, trusted: bytes, parts: dict[str, str], line: str = "", converted: str = "", of_stamp: bool = False
) -> str:
    """What explains a refusal with these parts of a line: of each code the cause and the cure, in one line. `converted` is what was done
    to get the octets, and `of_stamp` says that they are a stamp of a file."""
    if of_stamp:
        return of_file_stamp(octets, trusted, parts, line)
    code = parts.get("code", "")
    if code[:1] in ("S", "C") and content_type_of(octets) == TST_INFO:
        return plain(of_token(octets, converted))
    if code[:1] == "M":
        return of_code(code, line) + of_response(octets)
    try:
        if code in ("S7", "K10", "K13"):
            return of_parties(octets, trusted, parts)
    except (ValueError, IndexError, KeyError):
        pass  # octets that anybody can write: what holds of the code is said
    return of_code(code, line)
