"""The line that the program must print of a file, and its exit status, command by command, by docs/LINES.md and the rules of
rules.py."""
from __future__ import annotations

from typing import Callable, Iterator, Optional, TypeVar

from oracle import der, forms, identifiers, rules
from oracle.der import Cursor, Fault
from oracle.forms import (
    Certificate,
    NotSignedData,
    Request,
    Response,
    SignedData,
    Signer,
    TooLong,
    TstInfo,
    read_signed_data,
    whole,
)
from oracle.rules import TST_INFO, Refused, Terms

# a line and a status; and what a command makes beside that
Said = tuple[str, int]
Made = tuple[str, int, Optional[bytes]]
Judged = TypeVar("Judged")


def malformed(fault: Fault, *of: str) -> Said:
    """What is said of a fault, of an input with this name where a command has two."""
    return " ".join(["malformed", *of, f"{fault}\n"]), 2


# ---- check, fit, questions, show, cert


def file_of(octets: bytes, content: Optional[bytes], read: Callable[[bytes], SignedData]) -> tuple[SignedData, bytes]:
    """C1 to C5: the SignedData of a file, and its content."""
    try:
        signed = read(octets)
    except NotSignedData:
        raise Refused("C2")
    if not signed.signers:
        raise Refused("C3")
    if signed.content is not None and content is not None:
        raise Refused("C5")
    held = signed.content if content is None else content
    if held is None:
        raise Refused("C4")
    return signed, held


def judged(
    octets: bytes,
    content: Optional[bytes],
    judge: Callable[[Signer, bytes, bytes], Judged],
    answer: Callable[[list[Judged]], str],
    read: Callable[[bytes], SignedData] = read_signed_data,
) -> Said:
    """The line and the status of a command that judges each signer."""
    try:
        signed, held = file_of(octets, content, read)
    except Fault as fault:
        return malformed(fault)
    except TooLong:
        return "failed X3 TooLong\n", 4
    except Refused as rule:
        return f"refused {rule}\n", 1
    given = []
    for number, signer in enumerate(signed.signers, start=1):
        try:
            given.append(judge(signer, held, signed.type))
        except Refused as rule:
            return f"refused signer {number} {rule}\n", 1
    return answer(given), 0


def check(octets: bytes, terms: Terms, content: Optional[bytes] = None, room: int = 1 << 26) -> Said:
    """`check`, which reads the file as a stream and keeps so many octets of it."""

    def judge(signer: Signer, given: bytes, of: bytes) -> str:
        return rules.signer_moment(signer, given, of, terms)

    def answer(moments: list[str]) -> str:
        return f"accepted {der.time_text(max(moments))}\n"

    return judged(octets, content, judge, answer, lambda file: forms.read_stream(file, room))


def fits(octets: bytes, content: Optional[bytes] = None, sha1: bool = False) -> Said:
    """`fit`."""

    def judge(signer: Signer, given: bytes, of: bytes) -> None:
        rules.fit(signer, given, of, rules.weak_unless(sha1))

    return judged(octets, content, judge, lambda given: f"fits {len(given)}\n")


def token_questions(token: bytes, terms: Terms) -> list[str]:
    """What a verifier is asked about a token."""
    try:
        signed = read_signed_data(token)
    except (Fault, NotSignedData):
        return []
    if len(signed.signers) != 1 or signed.signers[0].signed is None:
        return []
    signer = signed.signers[0]
    return [rules.question(e.certificate, signer) for e in terms.of("tsa", signer.sid)]


def questions(octets: bytes, terms: Terms, room: int = 1 << 26) -> Said:
    """`questions`, which reads the file as a stream and keeps so many octets of it."""
    try:
        signed = forms.read_stream(octets, room)
    except Fault as fault:
        return malformed(fault)
    except TooLong:
        return "failed X3 TooLong\n", 4
    except NotSignedData:
        return "refused Q2 NotSignedData\n", 1
    lines = ["cmsproof questions 1"]
    for signer in signed.signers:
        if signer.signed is None:
            continue
        lines += [rules.question(e.certificate, signer) for e in terms.of("signer", signer.sid)]
        for token in rules.tokens_of(signer):
            lines += token_questions(token, terms)
    return "".join(line + "\n" for line in lines), 0


def reads(octets: bytes, read: Callable[[Cursor], object]) -> tuple[Optional[str], int]:
    """The line and the status of `show` and `cert` for octets that are malformed, else None and 0."""
    try:
        value = whole(octets, read)
    except Fault as fault:
        return malformed(fault)
    return (None, 0) if value is not None else ("refused NotSignedData\n", 1)


# ---- a response and a request


def matched(request: bytes, response: bytes) -> Made:
    """The line and the status of `match`, and the token that it writes."""
    try:
        asked = whole(request, forms.request)
    except Fault as fault:
        return (*malformed(fault, "request"), None)
    try:
        given = whole(response, forms.response)
    except Fault as fault:
        return (*malformed(fault, "response"), None)
    try:
        answering(asked, given)
    except Refused as rule:
        return f"refused {rule}\n", 1, None
    return "answers\n", 0, given.token


def token_of(octets: bytes) -> Optional[tuple[SignedData, TstInfo]]:
    """The SignedData of a token and its TSTInfo, or None where the octets are no token."""
    try:
        signed = read_signed_data(octets)
        if signed.type != TST_INFO or signed.content is None:
            return None
        return signed, whole(signed.content, forms.tst_info)
    except (Fault, NotSignedData):
        return None


def granted(given: Response) -> bytes:
    """P1 and P2: the token of a response."""
    if given.status not in (b"\0", b"\1"):
        raise Refused("P1")
    if given.token is None:
        raise Refused("P2")
    return given.token


def answering(asked: Request, given: Response) -> None:
    """P1 to P7."""
    token = token_of(granted(given))
    if token is None or len(token[0].signers) != 1:
        raise Refused("P3")
    signed, stamp = token
    if (stamp.imprint.alg.oid, stamp.imprint.digest) != (asked.imprint.alg.oid, asked.imprint.digest):
        raise Refused("P4")
    if asked.nonce is not None and stamp.nonce != asked.nonce:
        raise Refused("P5")
    if asked.policy is not None and stamp.policy != asked.policy:
        raise Refused("P6")
    if asked.cert and not any(rules.names(signed.signers[0].signed or [], c, True) for c in certificates(signed)):
        raise Refused("P7")


def certificates(signed: SignedData) -> Iterator[Certificate]:
    """The certificates of a SignedData that can be read."""
    for element in signed.certificates:
        try:
            yield whole(element.whole(), forms.certificate)
        except Fault:
            pass


# ---- a stamp by itself: a token, or a response that has one


class Unread(Exception):
    """Octets that cannot be had: the line of the failure."""


def stamp_token(octets: bytes) -> bytes:
    """The token of a stamp: of a response, a SEQUENCE that begins with one, the token in it; else the one whole element that the octets
    are."""
    if begins_as_response(octets):
        return granted(whole(octets, forms.response))
    return der.only(octets).whole()


def begins_as_response(octets: bytes) -> bool:
    """Whether octets begin with a SEQUENCE that begins with one: a token's first part is an OBJECT IDENTIFIER (RFC 5652 3)."""
    try:
        return Cursor(octets).take(der.SEQUENCE).body()[:1] == bytes([der.SEQUENCE])
    except Fault:
        return False


def stamp_check(octets: bytes, data: Callable[[], bytes], terms: Terms) -> Said:
    """`stamp check`; `data` reads what should be stamped, and raises `Unread` where it cannot."""
    try:
        moment = rules.stamped_at(stamp_token(octets), data, terms)
    except Fault as fault:
        return malformed(fault)
    except Refused as rule:
        return f"refused {rule}\n", 1
    except Unread as failure:
        return f"{failure}\n", 4
    return f"accepted {der.time_text(moment)}\n", 0


def stamp_questions(octets: bytes, terms: Terms) -> Said:
    """`stamp questions`."""
    try:
        token = stamp_token(octets)
        read_signed_data(token)
    except Fault as fault:
        return malformed(fault)
    except NotSignedData:
        return "refused Q2 NotSignedData\n", 1
    except Refused as rule:
        return f"refused {rule}\n", 1
    return "".join(line + "\n" for line in ["cmsproof questions 1", *token_questions(token, terms)]), 0


# ---- a token attached, and two files compared


def with_token(file: bytes, number: int, token: bytes) -> bytes:
    """The file with this value as one more token of the signer of this number: the attribute appended, the lengths of all that is
    round it made anew, all else as it was (RFC 5652 5.1, 5.3)."""

    def last_changed(element: der.Element, change: Callable[[der.Element], bytes]) -> bytes:
        """The element with its last part changed."""
        *parts, last = der.elements(element.body())
        return der.element(element.tag, *(part.whole() for part in parts), change(last))

    def signers_changed(signers: der.Element) -> bytes:
        wholes = [stamped(s) if at == number else s.whole() for at, s in enumerate(der.elements(signers.body()), start=1)]
        return der.element(signers.tag, *wholes)

    def stamped(signer: der.Element) -> bytes:
        attribute = der.sequence(der.oid(identifiers.TIME_STAMP_TOKEN), der.element(der.SET, token))
        parts = der.elements(signer.body())
        unsigned = parts.pop().body() if parts[-1].tag == 0xA1 else b""
        return der.sequence(*(part.whole() for part in parts), der.element(0xA1, unsigned, attribute))

    def explicit_changed(explicit: der.Element) -> bytes:
        return last_changed(explicit, lambda signed: last_changed(signed, signers_changed))

    return last_changed(der.only(file, der.SEQUENCE), explicit_changed)


def attached(octets: bytes, number: int, token: bytes) -> Made:
    """The line and the status of `attach`, and the file that it makes."""
    try:
        signed = read_signed_data(octets)
    except Fault as fault:
        return (*malformed(fault), None)
    except NotSignedData:
        return "refused A1 NotSignedData\n", 1, None
    if not 1 <= number <= len(signed.signers):
        return "refused A2 NoSuchSigner\n", 1, None
    found = token_of(token)
    if found is None:
        return "refused A3 TokenMalformed\n", 1, None
    if not rules.has_digest(found[1].imprint, signed.signers[number - 1].signature, rules.Weak()):
        return "refused A4 ImprintDiffers\n", 1, None
    return "", 0, with_token(octets, number, token)


def side(octets: bytes, number: int) -> tuple[Optional[str], bytes, bytes]:
    """What is compared of a signer of a file: its digest algorithm, its attributes, and the content."""
    try:
        signed = read_signed_data(octets)
    except NotSignedData:
        raise Refused("E1", "NotSignedData")
    if not 1 <= number <= len(signed.signers):
        raise Refused("E2", "NoSuchSigner")
    if signed.content is None:
        raise Refused("E3", "NoContent")
    signer = signed.signers[number - 1]
    try:
        rules.fit(signer, signed.content, signed.type, rules.Weak())
    except Refused as rule:
        raise Refused("E4", rule)
    return rules.digest_name(signer.alg), signer.tail, signed.content


def compared(*files: bytes, signers: tuple[int, int] = (1, 1)) -> Said:
    """The line and the status of `compare` of a signer of each of two files, the first if nothing is said."""
    sides = []
    for name, octets, number in zip(("first", "second"), files, signers):
        try:
            sides.append(side(octets, number))
        except Fault as fault:
            return malformed(fault, name)
        except Refused as rule:
            return f"refused {name} {rule}\n", 1
    if sides[0][:2] != sides[1][:2]:
        return "different\n", 1
    return ("same\n", 0) if sides[0][2] == sides[1][2] else ("collision\n", 1)
