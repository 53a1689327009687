"""Until when the last time-stamp of an evidence record (RFC 4998) serves, by a trust list and the ends of digest algorithms.

A record that is accepted by its own time is accepted at a later moment exactly if its last time-stamp lasts until then (5.3, step 2): its
token passes under an entry of an authority that holds when it was made and still then, and its digest algorithms hold then. Of all but the
imprint that is asked here, of the proved library where it has a call for it, so that nobody needs the file whose record it is.
"""
from __future__ import annotations

from collections import deque
from functools import cached_property
from typing import Iterator, NamedTuple, TypeVar

import cmsproof
from cmsproof import tokens
from cmsproof.calls import give_back, room
from cmsproof.octets import Buffer, octets_of, of_bytes
from cmsproof_tools import der
from cmsproof_tools.periods import Period
from cmsproof_tools.rows import digest_of
from cmsproof_tools.running import MALFORMED, REFUSED, SHORT, kept_if_short, module
from cmsproof_tools.signed_parts import CONTEXT_0, SET, Span, header, parts_of, some, spans, time_in, tst_fields
from cmsproof_tools.texts import Question, answers_of, in_order, read_questions, trust_entries
from cmsproof_tools.timelines import NAMES, earliest

# how many fields a record and an archive time-stamp have at most (RFC 4998 3.1, 4.1)
IN_RECORD, IN_STAMP = 5, 4
VERSION_1 = bytes.fromhex("020101")
# the attributes that name a certificate (RFC 2634 5.4, RFC 5035 3), as elements
NAMING = (bytes.fromhex("060b2a864886f70d010910020c"), bytes.fromhex("060b2a864886f70d010910022f"))
# what a token fails under an entry, by what a signed file fails whose signer has such an entry; the last of those has no token of its own
OF_SIGNER = {"S7": "K10 UnknownTsa", "S8": "K11 NotNamed", "S9": "K14 SignatureFails", "S10": ""}
NOT_NAMED, PURPOSE, PERIOD = "K11 NotNamed", "K12 Purpose", "K13 Period"
# the rules of a token that come before its imprint
BEFORE_IMPRINT = tuple(f"K{number}" for number in range(1, 9))
NO_ANSWERS = answers_of([])
# of how many tokens is kept what is said of them
MOST_KEPT = 64
Item = TypeVar("Item")


class Unjudged(Exception):
    """Nobody can say until when a record serves: the status, and why not."""

    def __init__(self, status: int, reason: str) -> None:
        super().__init__(reason)
        self.status = status


class Last(NamedTuple):
    """The last archive time-stamp of a record: its time, the identifiers of the digest algorithms of its lists and of its imprint, its token,
    a record that has that token alone, and no lists, and one that has besides the algorithm that this archive time-stamp names."""

    time: str
    algorithms: tuple[str, ...]
    token: bytes
    alone: bytes
    without_lists: bytes

    def failing(self, rule: str) -> Unjudged:
        """That it fails a rule, in the words of a check."""
        return Unjudged(REFUSED, f"{rule}, its last time-stamp, of {self.time}")


class Passed(NamedTuple):
    """What is said of a token that passes: until when the last of its entries lasts, and the identifier of the digest algorithm of its signature."""

    lasts: str
    digest: str


def last_in(items: Iterator[Item]) -> Item:
    """The last of some items. Raises IndexError where there is none."""
    return deque(items, maxlen=1).pop()


def sequence(*parts: bytes) -> bytes:
    """A SEQUENCE of these elements."""
    contents = b"".join(parts)
    return header(der.SEQUENCE, len(contents)) + contents


@kept_if_short(64)
def named_in(contents: bytes) -> str:
    """The identifier in the contents of an AlgorithmIdentifier. Raises ValueError or IndexError where there is none."""
    return der.oid_text(der.elements(contents, 1)[0].contents)


def algorithms_of(octets: Buffer, fields: list[Span], imprint: bytes) -> tuple[str, ...]:
    """The identifiers of the algorithms of an archive time-stamp with these fields: that of its lists, which is that of the imprint where it
    is absent (RFC 4998 4.1), and that of the imprint. Raises ValueError where one cannot be read."""
    identifier, _, begin, end = fields[0]
    named = bytes(octets[begin:end]) if identifier == CONTEXT_0 else imprint
    return tuple(dict.fromkeys(map(named_in, (named, imprint))))


@kept_if_short(64)
def stated_in(token: bytes) -> tuple[str, bytes]:
    """The time that a token says, and the AlgorithmIdentifier of its imprint without its head. Raises ValueError or IndexError where it cannot be
    read."""
    stated = tst_fields(token, parts_of(token, len(token)))
    time = time_in(stated)
    if time is None:
        raise ValueError("it says no time")
    return time, der.elements(stated[2].contents, 1)[0].contents


def last_of(octets: Buffer) -> Last:
    """The last archive time-stamp of octets in which the library found a record. Raises ValueError or IndexError where its token cannot be
    read."""
    (_, _, begin, end) = next(spans(octets, 0, len(octets)))
    parts = some(octets, begin, end, IN_RECORD)
    _, _, begin, end = last_in(spans(octets, *last_in(spans(octets, *parts[-1][2:]))[2:]))
    fields = some(octets, begin, end, IN_STAMP)
    token = bytes(octets[fields[-1][1] : fields[-1][3]])
    time, imprint = stated_in(token)
    before = VERSION_1, bytes(octets[parts[1][1] : parts[1][3]])
    alone = without_lists = sequence(*before, sequence(sequence(sequence(token))))
    identifier, begin, _, end = fields[0]
    if identifier == CONTEXT_0:
        without_lists = sequence(*before, sequence(sequence(sequence(bytes(octets[begin:end]), token))))
    return Last(time, algorithms_of(octets, fields, imprint), token, alone, without_lists)


def is_good(question: Question) -> bool:
    """Whether the signature of a question holds."""
    return module("verifying").fault_in(question.line) is None


def names_certificate(tail: bytes) -> bool:
    """Whether signed attributes, a SET without its first octet, have one that names a certificate, itself and not in a value of another one."""
    octets = bytes([SET]) + tail
    try:
        ((_, _, begin, end),) = some(octets, 0, len(octets), 1)
        # (whoever made them can have put in any number)
        return any(octets.startswith(NAMING, at, stop) for _, _, at, stop in spans(octets, begin, end))
    except (ValueError, IndexError):
        return False


class Entry:
    """An entry of an authority in a trust list: when it holds, as in a check, and until when its certificate serves, by which it is judged how
    long a time-stamp does; whether that is for time-stamping alone; and itself as a list that has it as a signer's, made if it is needed."""

    def __init__(self, octets: bytes, period: Period, is_stamping: bool) -> None:
        self.octets, self.period, self.is_stamping = octets, period, is_stamping

    @cached_property
    def as_signer(self) -> cmsproof.TrustList:
        """The list by which the library says of a token, which is a SignedData, whether its signer is the one of this certificate."""
        return cmsproof.TrustList(f"cmsproof trust 2\nsigner - - {self.octets.hex()}\n".encode())

    def fault(self, last: Last) -> str:
        """The rule that a token fails under this entry, "" if it fails none, but that of the imprint."""
        if not self.is_stamping:
            return PURPOSE
        if not self.period.has(last.time):
            return PERIOD
        said = cmsproof.check(last.token, trust=self.as_signer, verifier=is_good, sha1=True)
        # (a token of its own, which anybody can put there, is refused only where none of S1 to S10 fails: docs/LINES.md, `cmsproof check`)
        is_of_own_token = said.verdict == "refused" and said.token is not None
        return "" if is_of_own_token else OF_SIGNER.get(said.code or "", f"K5 {said.code}")


class By:
    """By what it is judged until when a record serves: the trust list, with the entries of its authorities by their keys, the ends of
    algorithms by their names, and the moment up to which records are to serve."""

    def __init__(self, trust: cmsproof.TrustList, ends: dict[str, str], moment: str) -> None:
        self.trust, self.ends, self.moment = trust, ends, moment
        self.kept: dict[bytes, Passed] = {}
        self.entries: dict[bytes, list[Entry]] = {}
        for one in trust_entries(trust.text):
            if one.role == "tsa":
                said = cmsproof.show("certificate", one.octets)
                period = Period(said["from"], said["until"]).cut(Period(one.first, one.last, "", one.serves))
                entry = Entry(one.octets, period, said["stamping"] == "yes")
                self.entries.setdefault(bytes.fromhex(said["key"]), []).append(entry)

    def under(self, last: Last, asked: tuple[Question, ...]) -> list[Entry]:
        """The entries under which the last time-stamp passes, of which these questions are asked. Raises Unjudged where there is none."""
        found = [entry for key in dict.fromkeys(one.key for one in asked) for entry in self.entries[key]]
        is_named = bool(found) and names_certificate(asked[0].tail)
        faults = [entry.fault(last) if is_named else NOT_NAMED for entry in found]
        if "" not in faults:
            # (of several the one counts that comes furthest, as in a check)
            raise last.failing("W4 " + max(faults, key=lambda one: int(one[1:].split(" ")[0]), default="K10 UnknownTsa"))
        return [entry for entry, fault in zip(found, faults) if not fault]

    def passed(self, last: Last) -> Passed:
        """What is said of the token of a last time-stamp, by its octets and the trust list alone. Raises Unjudged where it fails."""
        # (whatever is stamped, these octets are read as it behind those rules alone)
        said = tokens.said_of(of_bytes(last.token), of_bytes(b""), self.trust, NO_ANSWERS, True)
        line = tokens.line_of(said)
        if line.split(" ")[1] in BEFORE_IMPRINT:
            raise last.failing("W4 " + line.removeprefix("refused "))
        asked = tuple(read_questions(asked_of(last.alone, self.trust)))
        served = [entry.period.served for entry in self.under(last, asked)]
        lasts = served[0]
        for one in served:
            lasts = one if in_order(lasts, one) else lasts
        return Passed(lasts, digest_of(asked[0].digest))

    def passed_or_kept(self, last: Last) -> Passed:
        """As `passed`, which is kept of the last ones: very many records can have the same token, and a verifier is asked about it once."""
        if len(last.alone) > SHORT:
            return self.passed(last)
        found = self.kept.pop(last.alone, None) or self.passed(last)
        self.kept[last.alone] = found
        while len(self.kept) > MOST_KEPT:
            del self.kept[next(iter(self.kept))]
        return found

    def holds(self, last: Last, algorithm: str) -> str:
        """The last moment at which a digest algorithm holds, "" without an end. Raises Unjudged where it holds at none."""
        name = NAMES.get(algorithm, "")
        if not name:
            raise last.failing(f"W1 Algorithm {algorithm}")
        if name == "sha1" and name not in self.ends:
            raise last.failing("W6 Weak without an end of sha1")
        return self.ends.get(name, "")


def asked_of(octets: Buffer, trust: cmsproof.TrustList) -> bytes:
    """What a verifier is asked of a record, as a text. Raises Unjudged where octets are none that can be judged."""
    own = room()
    try:
        with octets_of(octets) as given:
            text = own.asked(trust, given, "cmsproof_evidence_questions")
    finally:
        give_back(own)
    if text:
        return text
    code = cmsproof.evidence.questions(octets, trust=trust).code
    line = cmsproof.show("evidence", octets).get("line", "") if code == "V1" else "refused V2 Encrypted"
    raise Unjudged(MALFORMED if code == "V1" else REFUSED, line)


def last_and_end(octets: Buffer, by: By) -> tuple[Last, str]:
    """The last time-stamp of a record, and the last moment at which it serves. Raises Unjudged where octets are none, where nobody can say it, or
    where it is made later than the moment up to which it is to serve, which a check does not accept."""
    asked_of(octets, by.trust)
    try:
        last = last_of(octets)
    except (ValueError, IndexError) as error:
        raise Unjudged(REFUSED, "its last time-stamp is no token that can be read") from error
    found = by.passed_or_kept(last)
    if not in_order(last.time, by.moment):
        raise last.failing(f"W5 Order by {by.moment}")
    ends = [by.holds(last, one) for one in dict.fromkeys((*last.algorithms, found.digest))]
    return last, earliest([found.lasts, *ends])


def end_of(octets: Buffer, by: By) -> str:
    """The last moment at which the last time-stamp of a record serves. Raises Unjudged as `last_and_end`."""
    return last_and_end(octets, by)[1]
