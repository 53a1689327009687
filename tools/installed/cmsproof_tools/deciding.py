"""On what it hangs that a file is accepted: which token of which signer decided, and under which certificates of the trust list.

The line says the moment alone. Where a file has several tokens, the library is asked of each whether it is valid.
"""
from __future__ import annotations

from functools import lru_cache
from struct import Struct
from typing import Iterator, NamedTuple, Sequence

import cmsproof
from cmsproof.octets import Buffer
from cmsproof.tokens import token_time
from cmsproof_tools import der
from cmsproof_tools.chains import links_of
from cmsproof_tools.found import Found
from cmsproof_tools.rows import Decided, Linked, Listed, Noting, digest_of, grounds_text, is_of_token, keys_of
from cmsproof_tools.signed_parts import Token, parts_of, signers_of, token_of
from cmsproof_tools.texts import PLACE, Question, TrustEntry, fields_of, in_order, numbered_lines, question_of, trust_entries

# id-aa-timeStampToken (RFC 3161 appendix A) as an element, and in how many octets it is searched
TOKEN, SEARCHED = bytes.fromhex("060b2a864886f70d010910020e"), 1 << 20
# the beginnings of a SET and of a SEQUENCE in it whose lengths have two octets, which stand behind each
HEADS, SET, SEQUENCE, UNSIGNED = Struct(">HHHH"), 0x3182, 0x3082, 0xA1
# the attribute message-digest (RFC 5652 11.2) with a digest of 32 octets, but for these
DIGEST_ATTRIBUTE, SHA_256 = bytes.fromhex("302f06092a864886f70d01090431220420"), "2.16.840.1.101.3.4.2.1"
# of how many keys and algorithms the grounds are kept, and how many time-stamps an evidence record has at most of which they are
MOST_KEPT, MOST_LINKS = 4096, 256
Held = tuple[str, tuple[Listed, ...], str]


def has_one_token(octets: bytes) -> bool:
    """Whether these octets of a SignedData in DER have one time-stamp token of a signer at most: the name of the attribute is there
    once, and has one value, of 256 to 65,531 octets. (False is no more than that it is to be looked at. `rfind` is four times as fast as
    `find` here.)"""
    at = octets.rfind(TOKEN)
    if not 0 <= at <= len(octets) - len(TOKEN) - HEADS.size or octets.rfind(TOKEN, 0, at + len(TOKEN) - 1) >= 0:
        return False
    outer, length, inner, inside = HEADS.unpack_from(octets, at + len(TOKEN))
    return bool(outer == SET and inner == SEQUENCE and length == inside + 4)


def usual_grounds(octets: Buffer, lines: Sequence[bytes], noting: Noting) -> str:
    """The grounds of an accepted file with one signer and one token, each under a key that one certificate of the list has, by the lines of
    the questions that were vouched for; "" of any other. A signer is asked about before its tokens."""
    if len(lines) != 2 or len(octets) > SEARCHED:
        return ""
    first, second = lines
    if first.rpartition(b" ")[2] == second.rpartition(b" ")[2]:
        return ""
    if not has_one_token(octets if type(octets) is bytes else bytes(octets)):
        return ""
    place = first[PLACE], second[PLACE]
    found = noting.usual.get(place)
    # (all octets of the keys and the algorithms are compared)
    if found is None or not first.startswith(found[0]) or not second.startswith(found[1]):
        found = grounds_by_fields(first, second, noting)
        keep(noting, place, found)
    return found[2]


def grounds_by_fields(first: bytes, second: bytes, noting: Noting) -> tuple[bytes, bytes, str]:
    """The first three fields of both lines, and the grounds by these, which are kept: keys may have several algorithms, in any order."""
    fields = fields_of(first), fields_of(second)
    found = noting.usual.get(fields)
    if found is None or found[:2] != fields:
        signer, token = question_of(0, first), question_of(0, second)
        listed = [noting.keys.get(("signer", signer.key), ()), noting.keys.get(("tsa", token.key), ())]
        holds = ("signer", listed[0], digest_of(signer.digest)), ("tsa", listed[1], digest_of(token.digest))
        decided = Decided(1, 1, sums_of(listed[1]), sums_of(listed[0]))
        found = *fields, grounds_text(holds, (decided,)) if list(map(len, listed)) == [1, 1] else ""
        keep(noting, fields, found)
    return found


def keep(noting: Noting, by: tuple[bytes, bytes], found: tuple[bytes, bytes, str]) -> None:
    """Keeps grounds, of no more than is said."""
    if len(noting.usual) >= MOST_KEPT:
        noting.usual.clear()
    noting.usual[by] = found


def content_sum(line: str, vouched: Sequence[Question]) -> bytes:
    """The SHA-256 of the content of an accepted file, as its first signer has it in message-digest (RFC 5652 11.2): the checker
    compared both. No octets if the signer has another digest algorithm, or the file is not accepted."""
    if not line.startswith("accepted ") or not vouched or digest_of(vouched[0].digest) != SHA_256:
        return b""
    try:
        _, begin = der.length_at(vouched[0].tail, 0)
        (value,) = [whole for _, _, whole in der.elements(vouched[0].tail[begin:]) if whole.startswith(DIGEST_ATTRIBUTE)]
    except (ValueError, IndexError):
        return b""
    return value[len(DIGEST_ATTRIBUTE) :]


def sums_of(listed: Sequence[Listed]) -> tuple[str, ...]:
    """The SHA-256 of some certificates."""
    return tuple(one.sha256 for one in listed)


def named_by(sid: der.Element, listed: tuple[Listed, ...]) -> tuple[Listed, ...]:
    """Those of some certificates that a signer names (RFC 5652 5.3); all if there is one, or if none can be told."""
    if len(listed) < 2:
        return listed
    from cmsproof_tools.certificates import Certificate

    try:
        return tuple(one for one in listed if Certificate(one.octets).is_named(sid)) or listed
    except (ValueError, IndexError):
        return listed


def held(role: str, sid: der.Element, questions: Sequence[Question], noting: Noting) -> Held:
    """Under which certificates of this role a signature holds whose questions a verifier vouched for, and its digest algorithm."""
    listed = dict.fromkeys(one for question in questions for one in noting.keys.get((role, question.key), ()))
    return role, named_by(sid, tuple(listed)), digest_of(questions[0].digest) if questions else ""


def signer_in(token: Token) -> tuple[der.Element, bytes]:
    """The element that names the certificate of a token's signer, and the signature (RFC 5652 5.3)."""
    parts = parts_of(token.octets, len(token.octets))
    (info,) = der.elements(token.octets[parts[-1][2] : parts[-1][3]])
    fields = der.elements(info.contents)
    return fields[1], fields[-2 if fields[-1].identifier == UNSIGNED else -1].contents


class Stamp(NamedTuple):
    """A valid token: the numbers of its signer and its own, its time, and under what both hold."""

    signer: int
    token: int
    time: str
    authority: Held
    certificate: Held


def stamps_of(
    octets: Buffer, vouched: Sequence[Question], trust: cmsproof.TrustList, noting: Noting, sha1: bool
) -> Iterator[Stamp]:
    """The valid tokens of the signers of a SignedData, as the library says, but those later than what is noted counts until. Raises
    ValueError if they are too many to be looked at."""
    asked: dict[bytes, list[Question]] = {}
    for question in vouched:
        asked.setdefault(question.signature, []).append(question)
    for number, signer in enumerate(signers_of(octets, parts_of(octets, len(octets))), 1):
        for place, token in enumerate(signer.tokens, 1):
            if token.time is None:
                continue
            sid, signature = signer_in(token)
            good = asked.get(signature, [])
            time = token_time(token.octets, token.stamped, trust=trust, vouched=good, sha1=sha1) if good else None
            if time is not None and (not noting.until or in_order(time, noting.until)):
                by = held("signer", signer.sid, asked.get(token.stamped, []), noting)
                yield Stamp(number, place, time, held("tsa", sid, good, noting), by)


def is_lapsed(entry: TrustEntry, moment: str) -> bool:
    """Whether an entry is an authority's that does not hold at a moment."""
    from cmsproof_tools.certificates import Certificate
    from cmsproof_tools.explaining import fault_at

    try:
        return entry.role == "tsa" and fault_at(entry, Certificate(entry.octets), moment) is not None
    except (ValueError, IndexError):
        return False  # the library judges lists; here a reader only misses that


@lru_cache(maxsize=16)
def list_as_of(trusted: bytes, moment: str) -> tuple[cmsproof.TrustList, dict[tuple[str, bytes], tuple[Listed, ...]]]:
    """A trust list without the authorities whose entries do not hold at a moment, and the certificates in it."""
    lapsed = {entry.number for entry in trust_entries(trusted) if is_lapsed(entry, moment)}
    text = b"\n".join(line for number, line in numbered_lines(trusted) if number not in lapsed)
    return cmsproof.TrustList(text), keys_of(text)


def grounds_of_record(octets: Buffer, vouched: Sequence[Question], noting: Noting) -> str:
    """Under what the time-stamps of an evidence record hold, each of them unless they are very many, and of which authority the last one is,
    as a text of JSON. Raises ValueError or IndexError where they cannot be read."""
    asked: dict[bytes, list[Question]] = {}
    for question in vouched:
        asked.setdefault(question.signature, []).append(question)
    holds, chains = list[Held](), list[Linked]()
    links = links_of(octets)
    for link in links:
        sid, signature = signer_in(token_of(link.token, b""))
        holds.append(held("tsa", sid, asked.get(signature, []), noting))
        if link.time is not None and len(links) <= MOST_LINKS:
            _, listed, digest = holds[-1]
            chains.append(Linked(link.chain, link.time, link.algorithm or "", digest, sums_of(listed)))
    return grounds_text(tuple(holds), (Decided(0, 0, sums_of(holds[-1][1]), ()),), tuple(chains))


def grounds_of(
    found: Found, line: str, vouched: Sequence[Question], trust: cmsproof.TrustList, noting: Noting, sha1: bool
) -> str:
    """Under what signatures hold, and what decided if the file is accepted, as a text of JSON: valid stamps alone count then. Where
    they cannot be found, an authority without a name is there."""
    if not line.startswith("accepted "):
        roles = (("tsa" if is_of_token(question.tail) else "signer", question) for question in vouched)
        return grounds_text(
            tuple((role, noting.keys.get((role, one.key), ()), digest_of(one.digest)) for role, one in roles), ()
        )
    if found.kind == "record":
        try:
            return grounds_of_record(found.signed, vouched, noting)
        except (ValueError, IndexError):
            pass
    if found.kind != "signed":
        holds = tuple(("tsa", noting.keys.get(("tsa", one.key), ()), digest_of(one.digest)) for one in vouched)
        return grounds_text(holds, (Decided(0, 0, sums_of([one for _, listed, _ in holds for one in listed]), ()),))
    try:
        stamps = list(stamps_of(found.signed, vouched, trust, noting, sha1))
    except (ValueError, IndexError):
        stamps = []
    holds = tuple(ground for stamp in stamps for ground in (stamp.certificate, stamp.authority))
    decided = [stamp for stamp in stamps if f"accepted {stamp.time}" == line]
    said = tuple(Decided(one.signer, one.token, sums_of(one.authority[1]), sums_of(one.certificate[1])) for one in decided)
    return grounds_text(holds if said else (("tsa", (Listed("", b""),), ""),), said)
