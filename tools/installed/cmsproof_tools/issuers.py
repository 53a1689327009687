"""Trust by issuer: which certificates of signed files a trust list gets, each with its period. Nothing here is proved.

A stamp's time is believed only under an authority that is listed. So there are two steps: first the authorities, whose paths are
judged at the times of their tokens; then the signers, whose paths are judged at the times of tokens that pass under these. Under
which certificate a signature verifies, and whether a token passes, the proved calls say. Paths are judged by OpenSSL.
"""
from __future__ import annotations

import hashlib
from collections import defaultdict
from typing import Callable, Iterable, NamedTuple, Union

from cmsproof import ListRefused, TrustList, questions, show
from cmsproof.octets import Buffer
from cmsproof.tokens import token_time
from cmsproof_tools import der
from cmsproof_tools.certificates import Certificate
from cmsproof_tools.finding import again_in_der
from cmsproof_tools.found import Found
from cmsproof_tools.listing import NO_TIME, is_for_no_time, no_time
from cmsproof_tools.paths import MOST_OF_FILE, Broken, Judge, Path, Pool, Unsigned
from cmsproof_tools.periods import Period
from cmsproof_tools.revocation import Revocation
from cmsproof_tools.running import kept_if_short
from cmsproof_tools.signed_parts import Signer, Token, TooMany, everything_in, token_of
from cmsproof_tools.texts import Question
from cmsproof_tools.verify import fault_of

HEAD = "cmsproof trust 2\n"
# how many certificates of a file are judged, and how many its signers and each of them may name: whoever made it can have put in
# any number
MOST_JUDGED, MOST_ASKED, MOST_NAMED = 500, 2500, 20
# how many certificates of a file are judged that get an entry for no time at most
MOST_BARRED = 20
# why such an entry is there
BARRED = {
    "signer": NO_TIME + ": no stamp passes, and it is here so that a check names the stamp's rule",
    "tsa": NO_TIME + ": no token under it passes, or no path of it holds then; it is here so that a check names the rule",
}
# the longest certificate that is read: one of extensions alone takes 80 times its length in memory, and two seconds for a megabyte
LONGEST = 1 << 18
# how many signers wait until OpenSSL judges them in one run, and how many certificates their file may have for that
MOST_WAITING, FEW = 32, 100
# of how many files the certificates are kept, and of how many octets in all
MOST_KEPT, MOST_OCTETS = 1000, 1 << 16


class Entry(NamedTuple):
    """An entry of a list: its role, period and certificate, the file where it was found, and the path, if it has one."""

    role: str
    period: Period
    certificate: Certificate
    found: str
    path: Union[Path, None] = None

    def line(self) -> str:
        """Its line of the list."""
        return f"{self.role} {self.period.first} {self.period.last} {self.certificate.octets.hex()}\n"


class Trusted(NamedTuple):
    """Whom the user trusts: the issuers of signers, and those of authorities; what is known of revocations, None where nobody
    asked; other certificates that may be part of a path; whether SHA-1 is allowed; and the period that all entries are in."""

    signers: Judge
    authorities: Judge
    revocation: Union[Revocation, None] = None
    between: tuple[Certificate, ...] = ()
    sha1: bool = False
    most: Period = Period()


@kept_if_short(4096)
def certificate_of(octets: bytes) -> Union[Certificate, None]:
    """The certificate in these octets, or None where the library cannot read it, or they are too many."""
    if len(octets) > LONGEST:
        return None
    try:
        certificate = Certificate(octets)
        certificate.validity()
        return certificate
    except (ValueError, IndexError):
        return None


def signs_documents(certificate: Certificate) -> bool:
    """Whether its key is for signing documents; it is not where what it is for cannot be read."""
    try:
        return certificate.signs_documents()
    except (ValueError, IndexError):
        return False


@kept_if_short(1024)
def list_of_one(role: str, octets: bytes) -> TrustList:
    """A list that trusts one certificate at any time."""
    return TrustList(f"{HEAD}{role} - - {octets.hex()}\n".encode())


def under_which(octets: Buffer, certificates: list[Certificate]) -> list[tuple[Certificate, list[Question]]]:
    """The certificates under which a signature of a SignedData verifies, and those questions: the proved call is asked about each
    by itself. One that the proved reader does not take is none of them, for no list can have it."""
    found = []
    for certificate in certificates:
        try:
            trust = list_of_one("signer", certificate.octets)
        except ListRefused:
            continue
        asked = questions(octets, trust=trust).asked
        held = [question for question in asked if fault_of(question) is None]
        if held:
            found.append((certificate, held))
    return found


class Waiting(NamedTuple):
    """A signer who is to be judged: the name of its file, its certificate, those that are at hand, and the moment."""

    name: str
    certificate: Certificate
    pool: Pool
    moment: str


def in_der(found: Found) -> Union[Found, None]:
    """The same in DER where the proved call finds it malformed, as by BER in it, and OpenSSL can: as the check takes it then."""
    malformed = questions(found.signed, trust=TrustList(HEAD.encode())).code == "Q1"
    return again_in_der(found, "M3") if malformed else None


class Growing:
    """A list that grows by what is found in files. `told` is called with a line for what gets no entry."""

    def __init__(self, trusted: Trusted, given: Iterable[Entry], told: Callable[[str], None]) -> None:
        self.trusted, self.told = trusted, told
        self.entries: list[Entry] = []
        self.clocks: list[Entry] = []
        self.authorities: Union[TrustList, None] = None
        self.by_certificate: dict[tuple[str, bytes], list[Entry]] = defaultdict(list)
        # entries for no time, by what they do not trust
        self.barred: dict[tuple[str, bytes], Entry] = {}
        for entry in given:
            if is_for_no_time(entry.period.first, entry.period.last, entry.certificate):
                period = entry.period._replace(ends=BARRED[entry.role])
                self.barred[entry.role, entry.certificate.octets] = entry._replace(period=period)
            else:
                self.put(entry)
        self.failed: set[tuple[str, bytes, str, int]] = set()
        self.unissued: set[tuple[str, bytes, int]] = set()
        self.to_bar: dict[tuple[str, bytes], tuple[str, Certificate, Pool]] = {}
        self.waiting: list[Waiting] = []
        self.pools: dict[tuple[bytes, ...], Pool] = {}
        self.left, self.asked, self.left_to_bar = 0, 0, 0

    def put(self, entry: Entry) -> None:
        """Puts an entry into it."""
        self.entries.append(entry)
        self.by_certificate[entry.role, entry.certificate.octets].append(entry)
        if entry.role == "tsa":
            self.clocks.append(entry)
            self.authorities = None

    def holds(self, role: str, certificate: Certificate, moment: str) -> bool:
        """Whether an entry trusts a certificate in a role at a moment."""
        return any(entry.period.has(moment) for entry in self.by_certificate.get((role, certificate.octets), ()))

    def found_in(self, name: str, found: Found) -> tuple[Pool, list[Signer], Found]:
        """The certificates that a file, its tokens and the user have, its signers, and where they were found. A file with too many
        gets a line."""
        try:
            octets, signers = everything_in(found.signed)
        except TooMany as error:
            self.told(f"{name}: {error}: it is not looked at")
            return Pool([]), [], found
        except (ValueError, IndexError):
            again = in_der(found)
            if again is not None:
                return self.found_in(name, again)
            self.told(f"{name}: it is no SignedData in DER: no entry")
            return Pool([]), [], found
        self.left, self.asked, self.left_to_bar = MOST_JUDGED, 0, MOST_BARRED
        return self.pool_of(tuple(dict.fromkeys(octets))), signers, found

    def pool_of(self, octets: tuple[bytes, ...]) -> Pool:
        """These certificates and those that the user has. Files of one signer mostly have the same ones, which are kept."""
        pool = self.pools.get(octets)
        if pool is None:
            read = map(certificate_of, octets)
            pool = Pool([*(one for one in read if one is not None), *self.trusted.between])
            if len(octets) <= FEW and sum(map(len, octets)) <= MOST_OCTETS and len(self.pools) < MOST_KEPT:
                self.pools[octets] = pool
        pool.left = MOST_OF_FILE
        return pool

    def named(self, what: str, name: str, sid: der.Element, pool: Pool) -> list[Certificate]:
        """The certificates that a signer names, about which the proved call is then asked."""
        found = pool.named(sid)
        if len(found) > MOST_NAMED:
            self.told(f"{name}: {what} names more than {MOST_NAMED} certificates: they are not looked at")
            return []
        self.asked += len(found)
        if self.asked > MOST_ASKED:
            self.told(f"{name}: its signers and tokens name more than {MOST_ASKED} certificates: no more are looked at")
            return []
        return found

    def take(self, name: str, found: Found) -> bool:
        """Both steps for what is found in a file: its authorities, and its signers if nothing is open about its stamps. Answers whether
        it is to be taken again, once the authorities of all files are known."""
        if found.kind == "token":
            self.take_stamp(name, found)
            return False
        pool, signers, found = self.found_in(name, found)
        open_ones = [token for signer in signers for token in signer.tokens if not self.take_authority(name, token, pool)]
        return bool(open_ones) or self.take_signers(name, found, signers, pool)

    def adds_nothing(self, found: Found) -> bool:
        """Whether a file has no entry to add, nor a line: each of its signers and tokens has entries at the times that the tokens say. More
        entries change nothing of that."""
        try:
            octets, signers = everything_in(found.signed)
        except (ValueError, IndexError):
            return False
        if found.kind == "token":
            token = token_of(bytes(found.signed), b"")
            clocks = [] if token.sid is None else self.pool_of(tuple(dict.fromkeys(octets))).named(token.sid)
            return len(clocks) == 1 and self.all_hold("tsa", clocks, token.time)
        if not 1 <= len(signers) + sum(len(signer.tokens) for signer in signers) <= FEW:
            return False
        pool = self.pool_of(tuple(dict.fromkeys(octets)))
        return all(self.has_entries(signer, pool) for signer in signers)

    def has_entries(self, signer: Signer, pool: Pool) -> bool:
        """Whether a signer and its tokens have entries at the times that the tokens say."""
        named = pool.named(signer.sid)
        if not signer.tokens or len(named) > 1:
            return False
        for token in signer.tokens:
            clocks = [] if token.sid is None else pool.named(token.sid)
            if len(clocks) > 1 or not self.all_hold("tsa", clocks, token.time):
                return False
            if not self.all_hold("signer", named, token.time):
                return False
        return True

    def take_again(self, name: str, found: Found) -> bool:
        """The second step alone, for what was taken before."""
        if found.kind != "token":
            pool, signers, found = self.found_in(name, found)
            self.take_signers(name, found, signers, pool)
        return False

    def take_stamp(self, name: str, found: Found) -> None:
        """The authority of a time-stamp over a whole content."""
        pool, _, found = self.found_in(name, found)
        content = b"" if found.content is None else found.content
        self.take_authority(name, token_of(bytes(found.signed), b""), pool, content)

    def take_authority(self, name: str, token: Token, pool: Pool, content: Union[Buffer, None] = None) -> bool:
        """The first step: the authority of a token, judged at the token's time. Answers whether its certificates are trusted then. `content`
        is what a token is over that is over no signature."""
        if token.sid is None:
            return False
        named = self.named("a token", name, token.sid, pool)
        if self.all_hold("tsa", named, token.time):
            return True
        for certificate, held in under_which(token.octets, named):
            trust = list_of_one("tsa", certificate.octets)
            over = token.stamped if content is None else content
            moment = token_time(token.octets, over, trust=trust, vouched=held, sha1=self.trusted.sha1)
            if moment is not None and self.may_judge("tsa", name, certificate, moment):
                self.judge("tsa", name, certificate, pool, moment)
            self.bar("tsa", name, certificate, pool)
        return self.all_hold("tsa", named, token.time)

    def all_hold(self, role: str, named: list[Certificate], moment: Union[str, None]) -> bool:
        """Whether there are certificates, and entries for each of them at a moment."""
        return bool(named) and moment is not None and all(self.holds(role, found, moment) for found in named)

    def take_signers(self, name: str, found: Found, signers: list[Signer], pool: Pool) -> bool:
        """The second step: the signers of a file, each judged at the times of its tokens that pass. Answers what `take` answers."""
        looked = False
        for number, signer in enumerate(signers, start=1):
            named = self.named(f"signer {number}", name, signer.sid, pool)
            if {one.octets for one in named} & {one.certificate.octets for one in self.waiting}:
                self.settle()
            # (where the list has entries at the times that the tokens say, the file adds nothing)
            known = bool(signer.tokens) and all(self.all_hold("signer", named, token.time) for token in signer.tokens)
            if not named:
                self.told(f"{name}: the certificate of signer {number} is neither in it nor given")
            elif not known:
                again, looked = (None if looked else in_der(found)), True
                if again is not None:
                    return self.take(name, again)
                self.take_signer(f"{name}: signer {number}", found.signed, signer, named, pool)
        return False

    def take_signer(self, name: str, signed: Buffer, signer: Signer, named: list[Certificate], pool: Pool) -> None:
        """The certificates of one signer under which its signature verifies."""
        moments = {moment for token in signer.tokens if (moment := self.passing(token)) is not None}
        if not moments:
            self.told(f"{name}: no stamp passes under a listed authority")
            new = [one for one in named if not self.is_known("signer", one, pool)]
            for certificate, _ in under_which(signed, new):
                self.bar("signer", name, certificate, pool)
            return
        for certificate, _ in under_which(signed, named):
            for moment in sorted(moments):
                if self.may_judge("signer", name, certificate, moment):
                    self.waiting.append(Waiting(name, certificate, pool, moment))
        if len(self.waiting) >= MOST_WAITING or len(pool.certificates) > FEW:
            self.settle()

    def settle(self) -> None:
        """Judges the signers that wait: those whose paths go by the same issuers in one run of OpenSSL."""
        waiting, self.waiting = self.waiting, []
        self.trusted.signers.foresee((found[1:] for found in waiting), "any")
        for found in waiting:
            self.judge("signer", *found)

    def passing(self, token: Token) -> Union[str, None]:
        """The time of a token that passes under the authorities of the list."""
        if token.sid is None:
            return None
        if self.authorities is None:
            self.authorities = TrustList((HEAD + "".join(entry.line() for entry in self.clocks)).encode())
        found = {entry.certificate.octets: entry.certificate for entry in self.clocks}
        named = [certificate for certificate in found.values() if certificate.is_named(token.sid)]
        held = [question for _, asked in under_which(token.octets, named) for question in asked]
        return token_time(token.octets, token.stamped, trust=self.authorities, vouched=held, sha1=self.trusted.sha1)

    def may_judge(self, role: str, name: str, certificate: Certificate, moment: str) -> bool:
        """Whether a certificate is to be judged: no entry is there yet, and not too many of the file were before it."""
        if self.holds(role, certificate, moment):
            return False
        self.left -= 1
        if self.left < 0:
            self.told(f"{name}: of one file no more than {MOST_JUDGED} certificates are judged")
        return self.left >= 0

    def judge(self, role: str, name: str, certificate: Certificate, pool: Pool, moment: str) -> None:
        """Puts an entry into the list if a path of a certificate holds at a moment, or tells why none does."""
        key = role, hashlib.sha256(certificate.octets).digest(), moment, pool.mark
        if self.holds(role, certificate, moment) or key in self.failed:
            return
        try:
            path, period = self.path_of(role, certificate, pool, moment)
            self.put(Entry(role, period, certificate, name, path))
        except Broken as fault:
            self.failed.add(key)
            self.told(f"{name}: no path for {certificate.name_text('subject')}, {role}, at {moment}: {fault}")

    def is_known(self, role: str, certificate: Certificate, pool: Pool) -> bool:
        """Whether a certificate has an entry, waits for one for no time, or can have none by the certificates that are at hand."""
        place = role, certificate.octets
        if place in self.by_certificate or place in self.barred or place in self.to_bar:
            return True
        return (role, hashlib.sha256(certificate.octets).digest(), pool.mark) in self.unissued

    def bar(self, role: str, name: str, certificate: Certificate, pool: Pool) -> None:
        """Puts an entry for no time behind the list for a certificate that an issuer issued, unless another entry has it: it trusts
        nobody, and lets a check name the rule by which no stamp passes, and not S7, or K10, of somebody who is known. Says once of a file
        that it has more of them than get one."""
        if self.left_to_bar < 0 or self.is_known(role, certificate, pool):
            return
        self.left_to_bar -= 1
        if self.left_to_bar < 0:
            self.told(
                f"{name}: of one file no more than {MOST_BARRED} certificates get an entry for no time: others can be S7 or K10"
            )
            return
        self.to_bar[role, certificate.octets] = name, certificate, pool
        if len(self.to_bar) >= MOST_WAITING:
            self.settle_barred()

    def settle_barred(self) -> None:
        """Judges the certificates that wait for an entry for no time: those whose paths go by the same issuers in one run of OpenSSL."""
        waiting, self.to_bar = self.to_bar, {}
        for role, judge, purpose in (
            ("signer", self.trusted.signers, "any"),
            ("tsa", self.trusted.authorities, "timestampsign"),
        ):
            asked = [(one, pool, one.validity().first) for (kind, _), (_, one, pool) in waiting.items() if kind == role]
            judge.foresee(asked, purpose)
        for (role, octets), (name, certificate, pool) in waiting.items():
            pool.left = MOST_OF_FILE
            path, until = self.issued(role, certificate, pool), show("certificate", octets).get("until", ".")
            if path is None or "." in until:
                self.unissued.add((role, hashlib.sha256(octets).digest(), pool.mark))
            else:
                self.barred[role, octets] = Entry(role, no_time(until, BARRED[role]), certificate, name, path)

    def issued(self, role: str, certificate: Certificate, pool: Pool) -> Union[Path, None]:
        """A path of a certificate to an issuer that is trusted, which holds when all of it is valid; whether it was revoked, or the issuer
        is trusted then, is not looked at."""
        stamping = role == "tsa"
        if not stamping and not signs_documents(certificate):
            return None
        judge = self.trusted.authorities if stamping else self.trusted.signers
        return judge.ever(certificate, pool, "timestampsign" if stamping else "any")

    def listed(self) -> list[Entry]:
        """All entries, authorities first; those for no time only where no other one has the certificate."""
        self.settle_barred()
        more = [entry for place, entry in self.barred.items() if place not in self.by_certificate]
        return sorted([*self.entries, *more], key=lambda entry: entry.role != "tsa")

    def path_of(self, role: str, certificate: Certificate, pool: Pool, moment: str) -> tuple[Path, Period]:
        """A path of a certificate that holds at a moment, and its period. Raises Broken with the first reason why none does, rather one
        of a path whose signatures hold."""
        stamping = role == "tsa"
        if not stamping and not signs_documents(certificate):
            raise Broken("its key is not for signing documents (keyUsage, extendedKeyUsage: RFC 5280 4.2.1)")
        faults: list[Broken] = []
        judge = self.trusted.authorities if stamping else self.trusted.signers
        for path in judge.paths(certificate, pool, moment, "timestampsign" if stamping else "any"):
            try:
                if isinstance(path, Broken):
                    raise path
                return path, self.period_of(path, moment, stamping)
            except Broken as fault:
                faults.append(fault)
        raise next((fault for fault in faults if not isinstance(fault, Unsigned)), faults[0])

    def period_of(self, path: Path, moment: str, stamping: bool) -> Period:
        """The period of a path. Raises Broken where revocation, or the user, leaves the moment out."""
        revocation = self.trusted.revocation
        period = path.period() if revocation is None else revocation.cut(path, moment, stamping)
        period = period.cut(self.trusted.most)
        if not period.has(moment):
            raise Broken(f"it is trusted from {period.first} to {period.last}: {period.ends or 'it begins later'}")
        return period
