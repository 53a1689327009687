"""Families of hostile.py of large evidence records (RFC 4998): lists of 100,000 hash values, 5,000 lists, chains of 1,000 time-stamps, and
elements that are nested 100,000 deep; and of signed files beside such records. Each runs with a stack of 512 KiB and with memory for a few
times the octets that it reads, at a tenth of its size and at its size, and must print what the oracle works out; the time may be so many
times as long as its row says, and a little."""
from __future__ import annotations

import hashlib
import os
from datetime import datetime, timedelta
from pathlib import Path

from oracle import evidence
from oracle.der import element, oid, sequence
from oracle.rules import Terms
from samples import building
from samples.building import sha
from samples.recorded import Growing, archive_stamp, record_of
from samples.signed_files import TOKEN
from trying import under_inputs
from trying.hostile_runs import measured
from trying.hostile_sizes import OTHER, SMALL, STACK, nested
from trying.record_inputs import BEGUN, DATA, TERMS, TRUST, UNSAID, WHOLE

VALUES, LISTS, STAMPS, DEPTH = 100_000, 5_000, 1_000, 100_000
IN_ORDER, SQUARED = 13, 130
# how many octets a run may take for each that it reads, and beside
FOR_EACH, BESIDE = 8, 8 << 20
SECONDS = "%Y%m%d%H%M%SZ"


class Asked:
    """What is asked of a command: a record, the signatures in it for which the verifier vouches, the data, and by what it is judged."""

    def __init__(self, octets, lines=(), data=(DATA,), policy=UNSAID, trust=TRUST, questions=False):
        self.octets, self.lines, self.data, self.policy = octets, list(lines), list(data), policy
        self.trust, self.questions = trust, questions

    def put(self, runs):
        """Writes the files, and gives the words."""
        runs.put("in", self.octets)
        runs.put("in-trust", self.trust)
        words = ["evidence", "questions", "--trust", "in-trust", "in"]
        if not self.questions:
            runs.put("in-answers", "".join(line + "\n" for line in ["cmsproof answers 1", *self.lines]).encode())
            names = [f"data/{number}" for number in range(len(self.data))]
            for name, octets in zip(names, self.data):
                runs.put(name, octets)
            words = ["evidence", "check", "--trust", "in-trust", "--answers", "in-answers"]
            words += ["--whole"] * self.policy.whole + ["in", *names]
        return words

    def expected(self):
        """What the oracle says."""
        terms = Terms(TERMS.trust, self.lines)
        if self.questions:
            return evidence.questions(self.octets, terms)
        return evidence.check(self.octets, self.data, terms, self.policy)

    def read(self):
        """How many octets the command reads, but for the data."""
        return len(self.octets) + len(self.trust) + sum(map(len, self.lines))


class Under(Asked):
    """What is asked of a signed file beside a record of it, which begins as `make` says and has so many time-stamps more."""

    def __init__(self, file, count=0, make=None):
        growing = Growing(file).begin(under_inputs.AT, make=make, names=under_inputs.LONGER)
        for number in range(1, count + 1):
            growing.renew(at(number, under_inputs.AT), names=under_inputs.LONGER)
        lines = [*under_inputs.OF_FILE, *growing.asked(building.key(2))]
        super().__init__(growing.whole(), lines, [file], trust=under_inputs.TRUST)

    def put(self, runs):
        """Writes the files, and gives the words."""
        super().put(runs)
        return ["check", "--trust", "in-trust", "--answers", "in-answers", "--evidence", "in", "data/0"]

    def expected(self):
        """What the oracle says."""
        return evidence.under(self.octets, self.data[0], Terms(under_inputs.ENTRY, self.lines), UNSAID)

    def read(self):
        """How many octets the command reads."""
        return super().read() + len(self.data[0])


def of(growing, more=b"", **rest):
    """What is asked of a record that grew."""
    return Asked(growing.whole(more), growing.asked(building.key(2)), growing.data, **rest)


def values(count):
    """So many hash values."""
    return [sha(b"%d" % number) for number in range(count)]


def in_lists(make, *data, **rest):
    """A record of one time-stamp with the lists that `make` gives of what must be covered."""
    return of(Growing(*(data or (DATA,))).begin(BEGUN, make=make), **rest)


def one_list(put):
    """The row's function: a list in which so many hash values and the one that must be covered are put."""
    return lambda count: in_lists(lambda covered: [put(covered[0], values(count))])


def at(number, first="20240110000000Z"):
    """The moment that is so many seconds after the first."""
    return (datetime.strptime(first, SECONDS) + timedelta(seconds=number)).strftime(SECONDS)


def renewed(count, **rest):
    """A record whose chain has so many time-stamps."""
    growing = Growing(DATA).begin(at(0))
    for number in range(1, count):
        growing.renew(at(number))
    return of(growing, **rest)


def chains(count, **rest):
    """A record of so many chains of one time-stamp."""
    growing = Growing(DATA)
    for number in range(count):
        growing.begin(at(number))
    return of(growing, **rest)


def group(count, put=lambda covered: covered[::-1], policy=WHOLE):
    """A record of a group of so many data, whose hash values stand in the other order, or as `put` has them."""
    return in_lists(lambda covered: [put(covered)], *(b"%d" % number for number in range(count)), policy=policy)


def group_in_order(count):
    """A record of a group of so many data, whose hash values stand in order, and between them twenty-five times as many others."""
    return group(count, lambda covered: sorted([*covered, *values(26 * count)[count:]]), UNSAID)


def rising_and_falling(first, hashes):
    """The odd ones of them in ascending order, then the even ones in descending order."""
    ordered = sorted([first, *hashes])
    return ordered[1::2] + ordered[::2][::-1]


def alike(count):
    """Hash values that differ in their last octets alone."""
    return in_lists(lambda covered: [[covered[0], *(bytes(28) + number.to_bytes(4, "big") for number in range(count, 0, -1))]])


def other_length(count):
    """The last hash value is an octet short."""
    return in_lists(lambda covered: [[*covered, *values(count), bytes(31)]])


def with_token(token):
    """A record of one time-stamp, which is these octets."""
    return Asked(record_of([archive_stamp(token)]))


def small(more=b"", **rest):
    """A record of one time-stamp without lists."""
    return of(Growing(DATA).begin(BEGUN, **rest), more)


def entries_that_are_tried(count):
    """A trust list with so many copies of its entry."""
    asked = small()
    asked.trust = TRUST + TRUST[TRUST.index(b"tsa") :] * count
    return asked


def answers_before(count):
    """An answers list with so many other lines."""
    asked = small()
    asked.lines = [f"00 01 02 03 {hashlib.sha256(b'%d' % number).hexdigest()}" for number in range(count)] + asked.lines
    return asked


# name, what is asked at a size, the size, and how many times as long ten times of it may take
ROWS = [
    ("values in order", one_list(lambda first, hashes: sorted([first, *hashes])), VALUES, IN_ORDER),
    ("values in descending order", one_list(lambda first, hashes: sorted([first, *hashes])[::-1]), VALUES, IN_ORDER),
    ("values in no order, the wanted one last", one_list(lambda first, hashes: [*hashes, first]), VALUES, IN_ORDER),
    ("values that rise and fall", one_list(rising_and_falling), VALUES, IN_ORDER),
    ("one value, again and again", one_list(lambda first, hashes: [first] * len(hashes)), VALUES, IN_ORDER),
    ("the same, --whole", lambda n: in_lists(lambda covered: [covered * n], policy=WHOLE), VALUES, IN_ORDER),
    ("values, --whole", lambda n: in_lists(lambda covered: [[*covered, *values(n)]], policy=WHOLE), VALUES, IN_ORDER),
    ("values that are alike but for their end", alike, VALUES, IN_ORDER),
    ("values without the wanted one", one_list(lambda first, hashes: hashes), VALUES, IN_ORDER),
    ("values, the last one short", other_length, VALUES, IN_ORDER),
    ("values of a second list", lambda n: in_lists(lambda covered: [covered, values(n)]), VALUES, IN_ORDER),
    ("lists", lambda n: in_lists(lambda covered: [covered, *([one] for one in values(n))]), LISTS, IN_ORDER),
    ("lists, many", lambda n: in_lists(lambda covered: [covered, *([one] for one in values(n))]), VALUES, IN_ORDER),
    ("time-stamps of a chain", renewed, STAMPS, IN_ORDER),
    ("time-stamps of a chain, asked", lambda n: renewed(n, questions=True), STAMPS, IN_ORDER),
    ("time-stamps that are none", lambda n: Asked(record_of([archive_stamp(b"\x30\0")] * n)), VALUES, IN_ORDER),
    ("the same, asked", lambda n: Asked(record_of([archive_stamp(b"\x30\0")] * n), questions=True), VALUES, IN_ORDER),
    # (each must cover all before it)
    ("chains", chains, STAMPS, SQUARED),
    ("chains, asked", lambda n: chains(n, questions=True), STAMPS, IN_ORDER),
    # (each is looked for among all)
    ("data of a group", group, 2 * STAMPS, SQUARED),
    ("data of a group, in order", group_in_order, 4 * STAMPS, IN_ORDER),
    ("the whole group in order, --whole", lambda n: group(n, sorted), 6 * STAMPS, IN_ORDER),
    ("certificates of a token", lambda n: small(certificates=b"\x30\0" * n), VALUES, IN_ORDER),
    ("extensions of a TSTInfo", lambda n: small(extensions=building.extension(OTHER, b"", False) * n), VALUES, IN_ORDER),
    ("attributes of a time-stamp", lambda n: small(attributes=SMALL * n), VALUES, IN_ORDER),
    ("cryptoInfos", lambda n: small(element(0xA0, SMALL * n)), VALUES, IN_ORDER),
    ("entries of the trust list", entries_that_are_tried, VALUES, IN_ORDER),
    ("lines of the answers list", answers_before, VALUES, IN_ORDER),
    ("a signed file, values", lambda n: Under(under_inputs.FILE, make=lambda covered: [[*covered, *values(n)]]), VALUES, IN_ORDER),
    ("a signed file, time-stamps of a chain", lambda n: Under(under_inputs.FILE, n), STAMPS, IN_ORDER),
    ("a signed file with many tokens", lambda n: Under(building.stamped(*[TOKEN] * n)), STAMPS, IN_ORDER),
]
NESTED = [
    ("a record", lambda n: Asked(nested(n)), DEPTH, IN_ORDER),
    ("a record, asked", lambda n: Asked(nested(n), questions=True), DEPTH, IN_ORDER),
    ("indefinite lengths", lambda n: Asked(b"\x30\x80" * n), DEPTH, IN_ORDER),
    ("a token", lambda n: with_token(nested(n)), DEPTH, IN_ORDER),
    ("a token, asked", lambda n: Asked(record_of([archive_stamp(nested(n))]), questions=True), DEPTH, IN_ORDER),
    ("chains in chains", lambda n: Asked(record_of([nested(n)])), DEPTH, IN_ORDER),
    ("lists in lists", lambda n: Asked(record_of([sequence(element(0xA2, nested(n)), b"\x30\0")])), DEPTH, IN_ORDER),
    ("a certificate of a token", lambda n: small(certificates=nested(n)), DEPTH, IN_ORDER),
    ("a value of an attribute", lambda n: small(attributes=building.attribute(OTHER, nested(n))), DEPTH, IN_ORDER),
    ("a cryptoInfo", lambda n: small(element(0xA0, building.attribute(OTHER, nested(n)))), DEPTH, IN_ORDER),
    ("parameters of an encryption", lambda n: small(element(0xA1, oid(OTHER), nested(n))), DEPTH, IN_ORDER),
]


def differs(runs, answer, asked, before, times):
    """What is wrong with a run of the size; `before` are the seconds that a tenth took."""
    status, _, seconds = answer
    line, wanted = asked.expected()
    printed = Path(runs.folder, "measured").read_text("latin-1")
    if (status, printed) != (wanted, line):
        return f"status {wanted} and {line[:200]!r} are expected"
    if before is not None and seconds > times * before + 0.5:
        return f"the time grows too much: {before:.2f} and {seconds:.2f} seconds"
    return None


def grown(runs, rows):
    """Each row at a tenth of its size and at its size."""
    os.makedirs(os.path.join(runs.folder, "data"), exist_ok=True)
    for name, make, size, times in rows:
        before = None
        for count in (size // 10, size):
            asked = make(count)
            words = [runs.program, *asked.put(runs)]
            limits = () if runs.checked else (STACK, FOR_EACH * asked.read() + BESIDE)
            answer = measured(words, runs.folder, *limits)
            if before is not None and answer[2] > times * before + 0.5:
                answer = min((measured(words, runs.folder, *limits) for _ in range(2)), key=lambda run: run[2])
            runs.note(differs(runs, answer, asked, before, times), words[1:9] + ["(%s, %d)" % (name, count)], (answer[0], answer[1][:200]))
            before = answer[2]
        print("    %-40s %9d octets %7.2f seconds" % (name, len(asked.octets), answer[2]), flush=True)


def records(runs):
    grown(runs, ROWS)


def records_nested(runs):
    grown(runs, NESTED)


FAMILIES = {"records": records, "deep records": records_nested}
