"""What `evidence check` and `evidence questions` must print of evidence records, and `check --evidence` of a signed file beside one, by RFC 4998
1.1, 4.3 and 5.3, docs/REFUSALS.md, sections 6 and 12, and docs/LINES.md. Written from those, over the readings of records.py and the rules of
rules.py, and apart from the program."""
from __future__ import annotations

from typing import NamedTuple, Optional

from oracle import der, expected, forms, rules
from oracle.der import Fault
from oracle.expected import Said, token_questions
from oracle.forms import Signer, TstInfo
from oracle.lists import Entry
from oracle.records import Record, Stamp, evidence_record, stated
from oracle.rules import Refused, Terms, digest, digest_name, left

RULES = {"W1": "Algorithm", "W2": "HashLength", "W3": "NotCovered", "W5": "Order", "W6": "Weak", "W7": "Lapsed", "W8": "Others"}
# a list of ends: the name of an algorithm and the last moment at which it holds
Ends = list[tuple[str, str]]


class Policy(NamedTuple):
    """By what records are judged beside the lists: ends of algorithms, the moment up to which the last time-stamp must serve, and whether
    its first list may have nothing else than what it must cover."""

    ends: Ends
    at: Optional[str] = None
    whole: bool = False


class Link(NamedTuple):
    """A time-stamp in its place: the numbers of its chain and its own, what it must cover, the algorithm of the first in its chain, and the
    TSTInfo that its token states."""

    chain: int
    number: int
    stamp: Stamp
    covered: list[bytes]
    first: Optional[str]
    told: Optional[TstInfo]

    @property
    def algorithm(self) -> Optional[str]:
        """The name of its digest algorithm: that of the field, or else the imprint's."""
        return algorithm_of(self.stamp, self.told)


class Passed(NamedTuple):
    """A token that passes: its signer, what it states, and the entries that are left for it."""

    signer: Signer
    told: TstInfo
    entries: list[Entry]


class Unshown(Exception):
    """Why a record shows nothing: the line and the status."""

    def __init__(self, line: str, status: int = 1) -> None:
        super().__init__(line)
        self.said = line + "\n", status


class Unfit(Unshown):
    """Why a time-stamp does not stand: its place, and the rule."""

    def __init__(self, link: Link, code: str, rest: object = None) -> None:
        super().__init__(f"refused chain {link.chain} stamp {link.number} {code} {rest or RULES[code]}")


def algorithm_of(stamp: Stamp, told: Optional[TstInfo]) -> Optional[str]:
    """The name of the digest algorithm of a time-stamp."""
    if stamp.alg is not None:
        return digest_name(stamp.alg)
    return digest_name(told.imprint.alg) if told else None


def node(name: str, values: list[bytes]) -> bytes:
    """The node over hash values (RFC 4998 4.3, step 3): of one that value, of more the digest of them in ascending order."""
    return values[0] if len(values) == 1 else digest(name, b"".join(sorted(values)))


def root(name: str, lists: list[list[bytes]], covered: list[bytes]) -> bytes:
    """The hash value that must have been stamped, where what must be covered is."""
    if not lists:
        return covered[0]
    found = node(name, lists[0])
    for values in lists[1:]:
        found = node(name, [*values, found])
    return found


def links_of(record: Record, data: list[bytes]) -> list[Link]:
    """The time-stamps of a record of data in their order (RFC 4998 5.2)."""
    found = []
    for place, chain in enumerate(record.chains):
        before, first = b"", algorithm_of(chain[0], stated(chain[0].token))
        for number, stamp in enumerate(chain, 1):
            told, covered = stated(stamp.token), list[bytes]()
            name = algorithm_of(stamp, told)
            if name and number > 1:
                covered = [digest(name, before)]
            elif name and place == 0:
                covered = [digest(name, one) for one in data]
            elif name:
                earlier = digest(name, der.sequence(*record.wholes[:place]))
                covered = [digest(name, digest(name, one) + earlier) for one in data]
            found.append(Link(place + 1, number, stamp, list(dict.fromkeys(covered)), first, told))
            before = stamp.token
    return found


def passed(token: bytes, name: Optional[str], due: Optional[bytes], terms: Terms) -> Passed:
    """K1 to K14 of a token whose imprint must be this hash value by this algorithm."""
    signer, content = rules.token_signer(token, rules.Weak())
    told = rules.stamp_of(content, rules.Weak())
    if digest_name(told.imprint.alg) != name:
        raise Refused("K8")
    if told.imprint.digest != due:
        raise Refused("K9")
    entries = left("K10", terms.of("tsa", signer.sid))
    entries = left("K11", [e for e in entries if rules.names(signer.signed or [], e.certificate, True)])
    entries = left("K12", [e for e in entries if rules.stamping_only(e.certificate)])
    entries = left("K13", [e for e in entries if rules.holds(e, told.time)])
    return Passed(signer, told, left("K14", terms.vouched(entries, signer)))


def stands(link: Link, before: Optional[Link], is_last: bool, terms: Terms, policy: Policy) -> Passed:
    """W1 to W5."""
    name, due, lists = link.algorithm, None, link.stamp.lists
    if link.stamp.alg is not None or link.told is not None:
        if name is None or name != link.first:
            raise Unfit(link, "W1")
        if any(len(value) != len(digest(name, b"")) for values in lists for value in values):
            raise Unfit(link, "W2")
        if not (set(link.covered) <= set(lists[0]) if lists else len(link.covered) == 1):
            raise Unfit(link, "W3")
        due = root(name, lists, link.covered)
    try:
        good = passed(link.stamp.token, name, due, terms)
    except Refused as rule:
        raise Unfit(link, "W4", rule) from rule
    late = is_last and policy.at is not None and good.told.time > policy.at
    if late or (before is not None and before.told is not None and good.told.time <= before.told.time):
        raise Unfit(link, "W5")
    return good


def lasts(name: Optional[str], moment: str, ends: Ends) -> bool:
    """Whether an algorithm holds at a moment: SHA-1 only by an end."""
    said = [last for of, last in ends if of == name]
    return all(moment <= last for last in said) and (name != "sha1" or bool(said))


def open_record(octets: bytes) -> Record:
    """The record, which must be one, and not of data that are encrypted."""
    try:
        record = forms.whole(octets, evidence_record)
    except Fault as fault:
        raise Unshown(f"malformed {fault}", 2) from fault
    if record.encryption is not None:
        raise Unshown("refused V2 Encrypted")
    return record


def shown(octets: bytes, data: list[bytes], terms: Terms, policy: Policy) -> str:
    """The moment by which a record shows data."""
    record = open_record(octets)
    if not data:
        raise Unshown("refused V3 NoData")
    links = links_of(record, data)
    good = [
        stands(link, links[place - 1] if place else None, place + 1 == len(links), terms, policy)
        for place, link in enumerate(links)
    ]
    for place, (link, by) in enumerate(zip(links, good)):
        until = good[place + 1].told.time if place + 1 < len(good) else policy.at or by.told.time
        if not all(lasts(name, until, policy.ends) for name in (link.algorithm, digest_name(by.signer.alg))):
            raise Unfit(link, "W6")
        if not any(rules.holds(entry, until) for entry in by.entries):
            raise Unfit(link, "W7")
    if policy.whole and set(links[0].stamp.lists[0] if links[0].stamp.lists else []) - set(links[0].covered):
        raise Unfit(links[0], "W8")
    return good[0].told.time


def check(octets: bytes, data: list[bytes], terms: Terms, policy: Policy) -> Said:
    """The line of `evidence check`, and its status."""
    try:
        return f"accepted {der.time_text(shown(octets, data, terms, policy))}\n", 0
    except Unshown as refusal:
        return refusal.said


def of_record(refusal: Unshown) -> Said:
    """What `check --evidence` says of a record that shows nothing."""
    line, status = refusal.said
    word, _, rest = line.partition(" ")
    return f"{word} record {rest}", status


def under(
    octets: bytes, file: bytes, terms: Terms, policy: Policy, content: Optional[bytes] = None, room: int = 1 << 26
) -> Said:
    """`check --evidence`: a signed file as one could judge it at the moment by which the record shows it, and the content that is handed in
    (RFC 4998 1.1): an algorithm is allowed if it holds then (5.3), and a token's authority is trusted as K13 says."""
    try:
        moment = shown(octets, [file] if content is None else [file, content], terms, policy)
    except Unshown as refusal:
        return of_record(refusal)
    weak = rules.Weak(name for name in rules.DIGESTS.values() if not lasts(name, moment, policy.ends))
    return expected.check(file, terms.as_of(moment, weak), content, room)


def questions(octets: bytes, terms: Terms) -> Said:
    """The text of `evidence questions`, or its line, and its status."""
    try:
        record = open_record(octets)
    except Unshown as refusal:
        return refusal.said
    asked = [line for chain in record.chains for stamp in chain for line in token_questions(stamp.token, terms)]
    return "".join(line + "\n" for line in ["cmsproof questions 1", *asked]), 0
