"""What the tests of evidence records (RFC 4998) in cmsproof-archive share: the records in data/records, made ones, and a folder with a list in
which the tool is asked."""
import os
import subprocess
import unittest

from archiving import CHANGED
from making import MODULES, PROGRAM, TOP, folder_of, need_tools, run_tool

need_tools()

from oracle.der import element, number, oid, sequence  # noqa: E402
from oracle.identifiers import DIGEST_OIDS, TST_INFO  # noqa: E402
from samples import hierarchy as h  # noqa: E402
from samples.building import digest_attribute, names_2, octets as string, sha, signed_data, type_attribute  # noqa: E402

DATA = TOP / "data" / "records"
ROWS = [line.split(" | ") for line in (DATA / "rows.txt").read_text().splitlines() if not line.startswith("#")]
ENDS = ["--end", "sha1=20160101000000Z", "--end", "sha256=20350101000000Z"]
AT = ["--at", "20261231000000Z"]
BEGUN, RENEWED, AGAIN = "20210501100000Z", "20230502100000.5Z", "20250503100000Z"
FILE, OTHER = b"a map\n", b"another map\n"


def record_of(name):
    """The octets of a record in data/records."""
    return (DATA / "records" / f"{name}.ers").read_bytes()


def knows_records():
    """Whether the program has the commands."""
    if not PROGRAM.exists():
        return False
    return subprocess.run([PROGRAM, "evidence", "check", "--help"], capture_output=True, check=False).returncode == 0


class Made:
    """Authorities that are listed, one that is not, and records round their tokens without lists of hash values (RFC 4998 4.1)."""

    def __init__(self):
        self.root, self.anna = h.root("Clocks"), h.issue("Anna", h.root())
        self.clock, self.second, self.other = (h.issue(name, self.root, [h.STAMPING]) for name in ("Clock", "Second", "Other"))
        entries = [("signer", self.anna), ("tsa", self.clock), ("tsa", self.second)]
        self.list = ("cmsproof trust 2\n" + "".join(f"{role} - - {who.octets.hex()}\n" for role, who in entries)).encode()

    def token(self, stamped, at, by):
        """A token over these octets, of this authority."""
        return self.token_over(sha(stamped), at, by)

    def token_over(self, digest, at, by):
        """A token over what has this digest, of this authority, whose clock says this time."""
        imprint = sequence(sequence(oid(DIGEST_OIDS["sha256"])), string(digest))
        info = sequence(number(1), oid("2.999.3"), imprint, number(9), element(0x18, at.encode()))
        signer = h.signed_by(by, [type_attribute(TST_INFO), digest_attribute(sha(info)), names_2(sha(by.octets))])
        return signed_data([signer.stamped()], info, TST_INFO, by.octets, 3)

    def record(self, of=FILE, times=(BEGUN,), by=None):
        """A record of octets: a time-stamp over them, and one over each before it."""
        stamps, before = [], of
        for at in times:
            before = self.token(before, at, by or (self.clock if before == of else self.second))
            stamps.append(sequence(before))
        return sequence(number(1), sequence(sequence(oid(DIGEST_OIDS["sha256"]))), sequence(sequence(*stamps)))


MADE = Made()
GOOD, TWICE = MADE.record(), MADE.record(times=(BEGUN, RENEWED, AGAIN))
OF_OTHER, STRANGE = MADE.record(OTHER), MADE.record(by=MADE.other)
EVIDENCED = f"evidenced {BEGUN}"


class WithFolder(unittest.TestCase):
    """A folder with a trust list, in which cmsproof-archive --records is asked about `files`, whose records are in `records`."""

    trust = MADE.list

    def setUp(self):
        self.folder = folder_of(self)
        (self.folder / "list").write_bytes(self.trust)
        (self.folder / "files").mkdir(), (self.folder / "records").mkdir()

    def put(self, name, given=FILE):
        """Makes a file."""
        path = os.path.join(os.fsencode(self.folder), os.fsencode(name))
        os.makedirs(os.path.dirname(path), exist_ok=True)
        with open(path, "wb") as file:
            file.write(given)

    def put_with(self, name, record=GOOD, given=FILE):
        """Makes a file in `files`, and its record."""
        self.put(f"files/{name}", given), self.put(f"records/files/{name}.ers", record)

    def run_archive(self, *words, tool=("cmsproof-archive",), records="records", **rest):
        """The status of the tool, its lines, and its standard error."""
        status, out, err = run_tool(*tool, "--trust", "list", "--records", records, *words, cwd=self.folder, **rest)
        return status, out.decode().splitlines(), err

    def by_changed(self, code, *words):
        """What is said by the tool with a part of it changed by this code, of `files`."""
        (self.folder / "changed.py").write_text(CHANGED.format(installed=str(MODULES), code=code))
        os.chmod(self.folder / "changed.py", 0o755)
        return self.run_archive("--jobs", "1", *words, "files", tool=(self.folder / "changed.py",))
