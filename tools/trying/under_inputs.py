"""The small signed files beside evidence records (RFC 4998 1.1) of hostile_inputs.py, and the commands that read them, each with
what the rules say of any octets in their place. Where a file is changed its record is made anew, of the changed one, so that the
file is judged."""
from __future__ import annotations

from oracle import evidence, lists, rules
from oracle.evidence import Policy
from samples import building, signed_files as made
from samples.building import CS, CT, names_2, sha
from samples.recorded import Growing
from trying import record_inputs
from trying.record_inputs import ENCRYPTED, tree

FILE = building.stamped(made.TOKEN)
DETACHED = building.stamped(made.TOKEN, content=None)
BY_SHA_1 = building.stamped(made.TOKEN, of=made.BY_SHA_1)
CONTENT = b"abc"
# later than the file's token, and within its authority's time; the record's authority is another one, which lasts longer
AT, LATER = "20240120000000Z", "20260101000000Z"
LONGER = [names_2(sha(made.LASTING))]
ENTRIES = b"signer %s\ntsa %s\ntsa %s\n" % tuple(one.hex().encode() for one in (CS, CT, made.LASTING))
TRUST = b"cmsproof trust 1\n" + ENTRIES
# the authority of the file's token is trusted until the moment of the record, and once more from then on
PERIODS = b"signer - 20240115100000Z %s\r\ntsa - 20240120000000Z %s\ntsa 20240120000000Z - %s\ntsa - - %s"
TRUST_2 = b"cmsproof trust 2\r\n# four\r\n\r\n" + PERIODS % tuple(one.hex().encode() for one in (CS, CT, CT, made.LASTING))
ENTRY = lists.entries_of(TRUST)
OF_FILE = [made.PLAIN.question(building.key(1)), made.TOKEN.signer.question(building.key(2))]
UNSAID = Policy([])
# SHA-1 holds at the record's moment and not a second longer, SHA-512 not so long
ENDS = [("sha1", "20240120000000Z"), ("sha512", "20240119235959Z")]
ENDING = [word for name, last in ENDS for word in ("--end", f"{name}={last}")] + ["--at", LATER]
LASTING = Policy([(name, lists.end_of_period(last.encode())) for name, last in ENDS], lists.end_of_period(LATER.encode()))


def recorded(*data):
    """A record of data, of more than one as a group."""
    return Growing(*data).begin(AT, make=tree() if len(data) == 1 else None, names=LONGER)


def answers(*records):
    """The lines of all questions of the files and of records."""
    of_files = [*OF_FILE, made.BY_SHA_1.question(building.key(1))]
    return of_files + [line for record in records for line in record.asked(building.key(2))]


def text_of(lines):
    """An answers list."""
    return "".join(line + "\n" for line in ["cmsproof answers 1", *lines]).encode()


def beside(*more):
    """What makes of octets the files beside them: a record of them and more data, and an answers list for it."""

    def files(octets):
        record = recorded(octets, *more)
        return {"beside.ers": record.whole(), "answers-beside": text_of(answers(record))}

    return files


def judged(octets, *content, policy=UNSAID, room=1 << 26):
    """What is said of a file, and of a content that is handed in, by the record that is made of them."""
    record = recorded(octets, *content)
    terms = rules.Terms(ENTRY, answers(record))
    return evidence.under(record.whole(), octets, terms, policy, *content, room=room)


SHOWN, GROUP = recorded(FILE), recorded(DETACHED, CONTENT)
RECORD, OF_GROUP = SHOWN.whole(), GROUP.whole()
LINES = answers(SHOWN, GROUP, record_inputs.SMALL)
TERMS = rules.Terms(ENTRY, LINES)
SHORT = text_of([*OF_FILE, *SHOWN.asked(building.key(2))])


def with_lists(trust, answered):
    """What is said of the file and its record with these lists."""
    entries, fault = lists.trust(trust)
    if fault:
        return fault, 2
    lines, fault = lists.answers(answered)
    return (fault, 2) if fault else evidence.under(RECORD, FILE, rules.Terms(entries, lines), UNSAID)


def unread(octets):
    """What is said of a record and a file that is not there, which is opened unless the record is none, or is of what is encrypted."""
    try:
        evidence.open_record(octets)
    except evidence.Unshown as refusal:
        return evidence.of_record(refusal)
    return "failed open missing\n", 4


UNDER = ["check", "--trust", "trust-under", "--answers", "answers-under", "--evidence"]
BESIDE_IN = ["check", "--trust", "trust-under", "--answers", "answers-beside", "--evidence", "beside.ers"]
# as the rows of hostile_inputs.py, and what makes further files of the octets
COMMANDS = [
    ("check --evidence, record", RECORD, UNDER + ["in", "file"], lambda o: evidence.under(o, FILE, TERMS, UNSAID)),
    ("check --evidence, file", FILE, BESIDE_IN + ["in"], judged, beside()),
    (
        "check --evidence, --content and --buffer",
        DETACHED,
        BESIDE_IN + ["--buffer", "499", "--content", "content", "in"],
        lambda o: judged(o, CONTENT, room=499),
        beside(CONTENT),
    ),
    (
        "check --evidence, --buffer too small",
        FILE,
        BESIDE_IN + ["--buffer", "498", "in"],
        lambda o: judged(o, room=498),
        beside(),
    ),
    (
        "check --evidence, --end and --at",
        BY_SHA_1,
        BESIDE_IN + [*ENDING, "in"],
        lambda o: judged(o, policy=LASTING),
        beside(),
    ),
    (
        "check --evidence, content",
        CONTENT,
        UNDER + ["group-under", "--content", "in", "detached"],
        lambda o: evidence.under(OF_GROUP, DETACHED, TERMS, UNSAID, o),
    ),
    ("check --evidence, no file", ENCRYPTED, UNDER + ["in", "missing"], unread),
    (
        "check --evidence, trust list",
        TRUST_2,
        ["check", "--trust", "in", "--answers", "answers-under", "--evidence", "record-under", "file"],
        lambda o: with_lists(o, text_of(LINES)),
    ),
    (
        "check --evidence, answers list",
        SHORT,
        ["check", "--trust", "trust-under", "--answers", "in", "--evidence", "record-under", "file"],
        lambda o: with_lists(TRUST, o),
    ),
]
# what stands beside the input
BESIDE = {"trust-under": TRUST, "answers-under": text_of(LINES), "record-under": RECORD, "group-under": OF_GROUP}
