"""The small evidence records (RFC 4998) of hostile_inputs.py and the commands that read them, each with what the rules say of any octets in
their place: a tree over two documents, a group of two, and a record by SHA-1 that was renewed twice, with each field that a record may
have."""
from __future__ import annotations

from oracle import evidence, lists, renewals, rules, sums
from oracle.der import element, oid
from oracle.evidence import Policy
from samples import building
from samples.building import CT, Token, sha
from samples.recorded import Growing

DATA, OTHER = b"abc", b"another document"
TRUST = b"cmsproof trust 1\ntsa %s\n" % CT.hex().encode()
TRUST_2 = b"cmsproof trust 2\r\n# one\r\n\r\ntsa 20240101000000Z 20240131000000Z %s" % CT.hex().encode()
ENDS = [("sha1", b"20240120000000Z"), ("sha512", b"20350101000000.5Z"), ("sha1", b"20240116000000Z")]
AT = b"20240131000000Z"
BEGUN, RENEWED, AGAIN = "20240110100000Z", "20240112100000Z", "20240115100000.5Z"


def tree(alg="sha256"):
    """The lists of a tree of three documents: the one that must be covered, a second one beside it, and a third one."""
    return lambda covered: [[sha(OTHER, alg), *covered], [sha(b"a third document", alg)]]


SMALL = Growing(DATA).begin(BEGUN, make=tree())
GROUP = Growing(DATA, OTHER).begin(BEGUN)
OLD = Growing(DATA).begin(BEGUN, "sha1", make=tree("sha1"), attributes=building.attribute("2.999.1"))
OLD.renew(RENEWED, make=lambda covered: [covered]).begin(AGAIN, "sha512", named=True)
TREE, OF_GROUP, OF_OLD = SMALL.whole(), GROUP.whole(), OLD.whole(element(0xA0, building.attribute("2.999.2")))
ENCRYPTED = SMALL.whole(element(0xA1, oid("2.999.3")))
LINES = [line for record in (SMALL, GROUP, OLD) for line in record.asked(building.key(2))]
ANSWERS = "".join(line + "\n" for line in ["cmsproof answers 1", *LINES]).encode()
TERMS = rules.Terms(lists.entries_of(TRUST), LINES)
LASTING = Policy([(name, lists.end_of_period(last)) for name, last in ENDS], lists.end_of_period(AT))
UNSAID, WHOLE = Policy([]), Policy([], whole=True)


def with_lists(trust, answers):
    """What `evidence check` says of the tree with these lists."""
    entries, fault = lists.trust(trust)
    if fault:
        return fault, 2
    lines, fault = lists.answers(answers)
    return (fault, 2) if fault else evidence.check(TREE, [DATA], rules.Terms(entries, lines), UNSAID)


def unread(octets):
    """What it says of a record and data that are not there: nothing of these is opened if the record is none, or is encrypted."""
    said = evidence.check(octets, [b""], TERMS, UNSAID)
    return said if said[1] == 2 or said[0].startswith("refused V") else ("failed open missing\n", 4)


# digests of two files, one in a folder, one with an escaped name, and the token over their root
SUMS = f"{sha(DATA).hex()}  a/b\n\\{sha(OTHER).hex().upper()} *c\\\\\\n\n".encode()
OF_SUMS = Token(imprint=sums.tree([sha(DATA), sha(OTHER)])[0]).octets
# what renews the first record: another archive time-stamp, and another chain
LATER = "20240118100000Z"
RENEWING = Token(LATER, imprint=sha(SMALL.tokens[-1].octets)).octets
REHASHING = Token(LATER, imprint=sha(sha(DATA) + sha(SMALL.archive_sequence()))).octets
SUMS_IN, SUMS_AGAIN = (f"{sha(DATA).hex()}  {name}\n".encode() for name in ("in", "again"))
SUMS_GROUP = SUMS_IN + f" {sha(OTHER).hex()}  other\n".encode()
GROUPED = Token(LATER, imprint=renewals.rehash_of(renewals.record_in(OF_GROUP), None, [sha(DATA), sha(OTHER)]).leaf).octets
MAKE = ["evidence", "make", "--into", "made", "--token"]
REHASH_HERE = ["evidence", "rehash", "--alg", "sha256", "--into", "."]
# (in the first lists of the others a neighbour stands)
REHASH_ALONE = REHASH_HERE + ["--alone"]


def rehashed(text):
    """What `evidence rehash` says of a list of digests where the records stand that are named `again`: of another name that there is none."""
    try:
        names = [name for name, _ in sums.recorded(text)]
    except sums.Refused:
        names = [b"again"]
    if names != [b"again"]:
        return None, 4, {"again.ers": TREE}
    return renewals.rehash(text, TREE, REHASHING, "again.ers", True)


EVIDENCE_CHECK = ["evidence", "check", "--trust", "trust-tsa", "--answers", "answers-tsa"]
EVIDENCE_QUESTIONS = ["evidence", "questions", "--trust", "trust-tsa"]
SAID = [word for name, last in ENDS for word in ("--end", f"{name}={last.decode()}")] + ["--at", AT.decode()]
# as the rows of hostile_inputs.py
COMMANDS = [
    ("evidence check, tree", TREE, EVIDENCE_CHECK + ["in", "content"], lambda o: evidence.check(o, [DATA], TERMS, UNSAID)),
    (
        "evidence check, renewed",
        OF_OLD,
        EVIDENCE_CHECK + SAID + ["in", "content"],
        lambda o: evidence.check(o, [DATA], TERMS, LASTING),
    ),
    (
        "evidence check, group",
        OF_GROUP,
        EVIDENCE_CHECK + ["--whole", "in", "other", "content"],
        lambda o: evidence.check(o, [OTHER, DATA], TERMS, WHOLE),
    ),
    ("evidence check, encrypted", ENCRYPTED, EVIDENCE_CHECK + ["in", "missing"], unread),
    ("evidence check, data", DATA, EVIDENCE_CHECK + ["tree", "in"], lambda o: evidence.check(TREE, [o], TERMS, UNSAID)),
    (
        "evidence check, trust list",
        TRUST_2,
        ["evidence", "check", "--trust", "in", "--answers", "answers-tsa", "tree", "content"],
        lambda o: with_lists(o, ANSWERS),
    ),
    (
        "evidence check, answers list",
        ANSWERS.split(b"\n")[0] + b"\n" + ANSWERS.split(b"\n")[1],
        ["evidence", "check", "--trust", "trust-tsa", "--answers", "in", "tree", "content"],
        lambda o: with_lists(TRUST, o),
    ),
    ("evidence questions", OF_OLD, EVIDENCE_QUESTIONS + ["in"], lambda o: evidence.questions(o, TERMS)),
    ("evidence make, sums", SUMS, MAKE + ["of-sums", "in"], lambda o: renewals.made(o, OF_SUMS, "made")),
    ("evidence make, token", OF_SUMS, MAKE + ["in", "sums-two"], lambda o: renewals.made(SUMS, o, "made")),
    (
        "evidence renew --request",
        OF_OLD,
        ["evidence", "renew", "--request", "out", "in"],
        lambda o: renewals.renew(o, None, "out"),
    ),
    (
        "evidence renew, record",
        TREE,
        ["evidence", "renew", "--token", "renewing", "in"],
        lambda o: renewals.renew(o, RENEWING, "in"),
    ),
    (
        "evidence renew, token",
        RENEWING,
        ["evidence", "renew", "--token", "in", "again.ers"],
        lambda o: renewals.renew(TREE, o, "again.ers"),
    ),
    (
        "evidence rehash --request",
        OF_OLD,
        REHASH_ALONE + ["--request", "out", "sums-in"],
        lambda o: renewals.rehash(SUMS_IN, o, None, "out", True),
    ),
    (
        "evidence rehash, record",
        TREE,
        REHASH_ALONE + ["--token", "rehashing", "sums-in"],
        lambda o: renewals.rehash(SUMS_IN, o, REHASHING, "in.ers", True),
    ),
    (
        "evidence rehash, group",
        OF_GROUP,
        REHASH_HERE + ["--token", "grouped", "sums-group"],
        lambda o: renewals.rehash(SUMS_GROUP, o, GROUPED, "in.ers"),
    ),
    (
        "evidence rehash, token",
        REHASHING,
        REHASH_ALONE + ["--token", "in", "sums-again"],
        lambda o: renewals.rehash(SUMS_AGAIN, TREE, o, "again.ers", True),
    ),
    ("evidence rehash, sums", SUMS_AGAIN, REHASH_ALONE + ["--token", "rehashing", "in"], rehashed),
]
# what commands change, which is as it was before each
CHANGED = {"again": TREE, "again.ers": TREE}
# what stands beside the input
BESIDE = {
    "trust-tsa": TRUST,
    "answers-tsa": ANSWERS,
    "other": OTHER,
    "tree": TREE,
    "tree.ers": TREE,
    "sums-tree": f"{sha(DATA).hex()}  tree\n".encode(),
    "of-group": OF_GROUP,
    "of-old": OF_OLD,
    "encrypted": ENCRYPTED,
    "of-sums": OF_SUMS,
    "sums-two": SUMS,
    "renewing": RENEWING,
    "rehashing": REHASHING,
    "grouped": GROUPED,
    "sums-group": SUMS_GROUP,
    "sums-in": SUMS_IN,
    "sums-again": SUMS_AGAIN,
    **CHANGED,
}
