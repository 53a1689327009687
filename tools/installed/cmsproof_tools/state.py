"""The state of an archive: a file of SQLite with a row for each part of each file that was judged.

What is read from it is validated, since it may be damaged or another's. It is a record of this user, and no evidence: whoever can
write it can write any row.
"""
from __future__ import annotations

import json
import os
import re
import sqlite3
import stat
import time
from contextlib import contextmanager
from functools import lru_cache
from typing import Any, Iterable, Iterator, NamedTuple
from urllib.parse import quote

from cmsproof_tools.lines import UNSIGNED, WITHOUT, parts_of
from cmsproof_tools.rows import Decided, Ground, Linked, Row, mark_now
from cmsproof_tools import running
from cmsproof_tools.running import FAILED, Stop, shown, shown_apart
from cmsproof_tools.texts import MOMENT, is_moment

# `cmsp`, by which the file is known, and the version of its tables and of the texts in them
APPLICATION, VERSION = 0x636D7370, 2
TABLES = {
    "lists": "CREATE TABLE lists (sha256 TEXT PRIMARY KEY, text BLOB NOT NULL) WITHOUT ROWID",
    "bases": "CREATE TABLE bases (number INTEGER PRIMARY KEY, text TEXT NOT NULL UNIQUE)",
    "grounds": "CREATE TABLE grounds (number INTEGER PRIMARY KEY, text TEXT NOT NULL UNIQUE)",
    "files": "CREATE TABLE files (name BLOB NOT NULL, part BLOB NOT NULL, size INTEGER NOT NULL, time INTEGER NOT NULL,"
    " mark TEXT NOT NULL, sha256 BLOB NOT NULL, content BLOB NOT NULL, status INTEGER NOT NULL, line TEXT NOT NULL,"
    " verdict TEXT GENERATED ALWAYS AS (substr(line, 1, instr(line || ' ', ' ') - 1)) VIRTUAL,"
    " ground INTEGER NOT NULL, basis INTEGER NOT NULL, judged INTEGER NOT NULL, PRIMARY KEY (name, part)) WITHOUT ROWID",
}
MADE = sorted((("table", name, statement) for name, statement in TABLES.items()), key=repr)
COLUMNS = "name, part, size, time, mark, sha256, content, status, line, judged"
INSERT = f"INSERT OR REPLACE INTO files ({COLUMNS}, ground, basis) VALUES ({'?, ' * 11}?)"
SELECT = f"SELECT {COLUMNS}, grounds.text, basis FROM files LEFT JOIN grounds ON grounds.number = ground"
# what a row counts as (lines.counts_as)
COUNTS_AS = f"CASE WHEN part = x'' AND line IN {WITHOUT} THEN '{UNSIGNED}' ELSE verdict END"
# what a value may be long: a trust list of many thousand certificates
LONGEST = 1 << 28
# what a file can be
VERDICTS = running.VERDICTS
# after how many files, and after how many seconds, rows are written for good: so few that no process waits for the next names
FILES, SECONDS = 400, 1.0
# how many texts of grounds are known by their numbers: each evidence record can have its own
MOST_GROUNDS = 10_000
# none: octets are bound as `bytearray`, since sqlite3 looks for an adapter of each `bytes` (DECISIONS, 300)
NO_OCTETS = bytearray()
# how the words of a basis and of grounds look, which a report shows: nobody else's words get there
SUM, SUM_OR_NONE = re.compile(r"[0-9a-f]{64}"), re.compile(r"(?:[0-9a-f]{64})?")
WORD = rf"--[a-z0-9]+(?:-[a-z0-9]+)*(?: (?:[a-z0-9-]+=)?{MOMENT})?"
POLICY, OID_OR_NONE = re.compile(rf"(?:{WORD}(?: {WORD})*)?"), re.compile(r"(?:[0-9]+(?:\.[0-9]+)+)?")


class Basis(NamedTuple):
    """By what files are judged: the SHA-256 of the trust list, that of the content which is named for all files or "", the options
    that allow more, and the versions of all that judges."""

    trust: str
    content: str
    policy: str
    versions: str


@contextmanager
def told(path: str) -> Iterator[None]:
    """Ends the tool with one line where the file cannot be read, is damaged, or cannot be written."""
    try:
        yield
    except (sqlite3.Error, OverflowError, UnicodeError) as error:
        raise Stop(FAILED, f"failed state {shown(path)}: {error}") from error


def damaged(path: str, what: str) -> Stop:
    """What ends the tool where a file holds something else than a state."""
    return Stop(FAILED, f"failed state {shown(path)}: {what}")


def beside(path: str) -> list[str]:
    """The files of a state: its own, and those that SQLite has beside it while it is written, and removes: where a link leads to it, there."""
    place = os.path.realpath(path) if os.path.islink(path) else path
    return [path, *(place + ending for ending in ("-wal", "-shm", "-journal"))]


def checked_path(path: str, is_new: bool) -> str:
    """The path of a state as SQLite takes it: one that it reads as no address, of a regular file, or of none if it is new."""
    try:
        if not stat.S_ISREG(os.stat(path).st_mode):
            raise damaged(path, "it is no regular file")
    except FileNotFoundError as error:
        if not is_new:
            raise Stop(FAILED, f"failed open {shown(path)}: {error.strerror}") from error
        others = list(filter(os.path.lexists, beside(path)[1:]))
        # (another run may make the state at the same time: first itself, and then what is beside it)
        if others and not os.path.exists(path):
            raise damaged(path, f"{shown(others[0])} is there without it, and would be lost") from error
    except (OSError, ValueError) as error:
        raise Stop(FAILED, f"failed open {shown(path)}: {error}") from error
    return os.path.abspath(path)


def made(database: sqlite3.Connection) -> None:
    """Makes the tables in a file that has none."""
    database.execute("BEGIN IMMEDIATE")
    for statement in TABLES.values():
        database.execute(statement)
    database.execute(f"PRAGMA application_id = {APPLICATION}")
    database.execute(f"PRAGMA user_version = {VERSION}")
    database.execute("COMMIT")


def made_of(database: sqlite3.Connection) -> list[tuple[str, str, str]]:
    """The kind, the name and the statement of all that was made in a database, whatever it is called: the statement is what counts, and
    only an index that belongs to a table has none."""
    return sorted(database.execute("SELECT type, name, sql FROM sqlite_master WHERE sql IS NOT NULL"), key=repr)


def connected(path: str, is_new: bool) -> tuple[sqlite3.Connection, str]:
    """The database at a path. In a folder where this user may make no file, SQLite reads one of its kind only as one that nobody writes,
    which holds where no run left what is to be put into it, and as long as the file has the mark that is given with it."""
    place, words = checked_path(path, is_new), ""
    real = os.path.realpath(place)
    # (the mark is that before anybody is looked for: whoever begins to write behind that changes it)
    mark = "" if is_new or os.access(os.path.dirname(real), os.W_OK) else mark_now(real)
    if mark and os.path.lexists(beside(real)[1]):
        mark = ""
    if mark:
        place, words = f"file:{quote(os.fsencode(real))}", "?mode=ro&immutable=1"
    return sqlite3.connect(place + words, timeout=60, isolation_level=None, uri=bool(words)), mark


def opened(path: str, is_new: bool) -> tuple[sqlite3.Connection, str]:
    """The database of a state, whose tables are those of this version and nothing else, and its mark as in `connected`. It may be made if
    `is_new`."""
    database, mark = connected(path, is_new)
    if hasattr(database, "setlimit"):
        database.setlimit(0, LONGEST)  # SQLITE_LIMIT_LENGTH, which Python names from 3.11 on
    database.execute("PRAGMA trusted_schema = OFF")
    found = made_of(database)
    number = database.execute("PRAGMA application_id").fetchone()[0]
    if not found and not number and is_new:
        # (another run may make them at the same time: the second one finds them)
        try:
            made(database)
        except sqlite3.OperationalError:
            database.rollback()
            found = made_of(database)
            if found != MADE:
                raise
        return database, mark
    if number != APPLICATION:
        raise damaged(path, "it is no state of cmsproof-archive")
    version = database.execute("PRAGMA user_version").fetchone()[0]
    if version != VERSION or found != MADE:
        raise damaged(path, f"it is a state of another version than {VERSION}, or has other tables: begin a new one")
    return database, mark


def is_digest(octets: object, empty: bool) -> bool:
    """Whether this is a SHA-256, or nothing where that is allowed."""
    return isinstance(octets, bytes) and (len(octets) == 32 or (empty and not octets))


def is_word(word: object, form: re.Pattern[str]) -> bool:
    """Whether this is a text of a form."""
    return isinstance(word, str) and form.fullmatch(word) is not None


def basis_of(text: object) -> Basis:
    """The basis that a text of JSON says. Raises ValueError if it says something else."""
    found = json.loads(text) if isinstance(text, str) else None
    forms = (SUM, SUM_OR_NONE, POLICY, re.compile(r".*"))
    if not isinstance(found, list) or len(found) != 4 or not all(map(is_word, found, forms)) or not found[3].isprintable():
        raise ValueError("it is no basis")
    return Basis(*found)


class Grounds(NamedTuple):
    """Under what the signatures of a part hold, what decided, and the time-stamps of an evidence record."""

    holds: tuple[Ground, ...]
    decided: tuple[Decided, ...]
    chains: tuple[Linked, ...] = ()


def decided_of(found: Any) -> Decided:
    """What decided, as JSON has it. Raises ValueError if it is none."""
    signer, token, *sums = found
    if not (type(signer) is type(token) is int and signer >= 0 <= token and len(sums) == 2):
        raise ValueError("its grounds are none")
    if not all(isinstance(several, list) and all(is_word(one, SUM) for one in several) for several in sums):
        raise ValueError("its grounds are none")
    return Decided(signer, token, tuple(sums[0]), tuple(sums[1]))


def linked_of(found: Any) -> Linked:
    """A time-stamp of an evidence record, as JSON has it. Raises ValueError if it is none."""
    chain, at, algorithm, digest, authorities = found
    if type(chain) is not int or chain < 1 or not isinstance(at, str) or not is_moment(at):
        raise ValueError("its grounds are none")
    if not all(is_word(one, OID_OR_NONE) for one in (algorithm, digest)):
        raise ValueError("its grounds are none")
    if not isinstance(authorities, list) or not all(is_word(one, SUM) for one in authorities):
        raise ValueError("its grounds are none")
    return Linked(chain, at, algorithm, digest, tuple(authorities))


@lru_cache(maxsize=1024)
def grounds_in(text: object) -> Grounds:
    """The grounds that a text of JSON says. Raises ValueError if it says something else."""
    found = json.loads(text) if isinstance(text, str) else None
    if not isinstance(found, dict) or not {"holds", "decided"} <= set(found) <= {"holds", "decided", "chains"}:
        raise ValueError("it has no grounds")
    rows = [row for several in found.values() for row in (several if isinstance(several, list) else [None])]
    if not all(isinstance(row, list) for row in rows):
        raise ValueError("its grounds are none")
    holds = found["holds"]
    if not all(len(row) == 3 and row[0] in ("signer", "tsa") for row in holds):
        raise ValueError("its grounds are none")
    if not all(is_word(row[1], SUM_OR_NONE) and is_word(row[2], OID_OR_NONE) for row in holds):
        raise ValueError("its grounds are none")
    chains = tuple(linked_of(row) for row in found.get("chains", ()))
    return Grounds(tuple(Ground(*row) for row in holds), tuple(decided_of(row) for row in found["decided"]), chains)


def row_of(values: tuple[Any, ...]) -> Row:
    """The row that a database gave. Raises ValueError where it is none that a state has."""
    name, part, size, changed, mark, sha256, content, status, line, judged, grounds = values[:11]
    if type(name) is not bytes or type(part) is not bytes or b"\0" in name or not name:
        raise ValueError("it has no name")
    if not type(size) is type(changed) is type(status) is type(judged) is int or size < 0:
        raise ValueError("its numbers are none")
    if type(mark) is not str or type(line) is not str or not line.isprintable():
        raise ValueError("its line is none")
    if not is_digest(sha256, True) or not is_digest(content, True):
        raise ValueError("its SHA-256 is none")
    if parts_of(status, line) is None:
        raise ValueError(f"its line does not go with its status {status}")
    grounds_in(grounds)
    return Row(os.fsdecode(name), os.fsdecode(part), size, changed, mark, sha256, content, status, line, grounds, judged)


class State:
    """A state that is open. The rows that are put are written for good from time to time, and when it is closed."""

    def __init__(self, path: str, is_new: bool = True) -> None:
        """Opens it, and makes it if there is none and `is_new`. Raises Stop, with a line, if it is none or cannot be written."""
        self.path, self.is_new, self.basis_number, self.next = path, is_new, 0, time.monotonic() + SECONDS
        self.grounds: dict[str, int] = {}
        # the rows of files that are to be written, without the name, by its octets
        self.pending: dict[bytes, list[tuple[Any, ...]]] = {}
        with told(path):
            self.database, self.mark = opened(path, is_new)
            if is_new:
                self.database.execute("PRAGMA journal_mode = WAL")
                self.database.execute("PRAGMA synchronous = NORMAL")
            else:
                self.database.execute("PRAGMA query_only = ON")
                # (all that is read is of one moment: a row, by what it was judged, and which other files there are)
                self.database.execute("BEGIN")

    def __enter__(self) -> State:
        return self

    def __exit__(self, *_: object) -> None:
        with told(self.path):
            # (to end what was only read can fail once more where it looks damaged, and would hide what was told)
            if self.is_new:
                self.commit()
            self.database.close()

    def check_unwritten(self) -> None:
        """Ends the tool where SQLite reads the state as one that nobody writes, and somebody did meanwhile: rows may be missing then."""
        if self.mark and mark_now(os.path.realpath(self.path)) != self.mark:
            raise damaged(self.path, "it was written while it was read: run this again")

    def number(self, table: str, text: str) -> int:
        """The number of a text in a table of texts, where it is put if it is new."""
        self.begin()
        self.database.execute(f"INSERT OR IGNORE INTO {table} (text) VALUES (?)", (text,))
        found = self.database.execute(f"SELECT number FROM {table} WHERE text = ?", (text,)).fetchone()
        return int(found[0])

    def judge_by(self, basis: Basis, trusted: bytes) -> None:
        """Says by what files are judged from now on; the trust list is kept."""
        with told(self.path):
            # (what was put before was judged by another one, and only what is written for good has a number)
            self.commit()
            number = self.number("bases", json.dumps(basis))
            self.database.execute("INSERT OR REPLACE INTO lists VALUES (?, ?)", (basis.trust, trusted))
            self.commit()
            self.basis_number = number

    def begin(self) -> None:
        """Begins to write, unless it has begun."""
        if not self.database.in_transaction:
            self.database.execute("BEGIN IMMEDIATE")

    def commit(self) -> None:
        """Writes for good what was put. Nobody else can write meanwhile, and before and behind it all can."""
        try:
            self.write()
        except BaseException:
            # (SQLite may have taken back the grounds that were put just now, as where the disk is full, or with MemoryError where memory is
            # short, and gives their numbers to others)
            self.grounds.clear()
            raise
        self.next = time.monotonic() + SECONDS

    def write(self) -> None:
        """As `commit`, where what is known by numbers is there."""
        if self.pending:
            self.begin()
            self.database.executemany("DELETE FROM files WHERE name = ?", ((name,) for name in self.known()))
            self.database.executemany(
                INSERT, [self.bound(name, values) for name, rows in self.pending.items() for values in rows]
            )
            self.pending = {}
        if self.database.in_transaction:
            self.database.execute("COMMIT")

    def known(self) -> Iterable[bytes]:
        """The names of the files whose rows are to be written and that may have rows: none is asked for by itself, where few stand
        between the first one and the last."""
        most = 2 * len(self.pending)
        between = "SELECT DISTINCT name FROM files WHERE name BETWEEN ? AND ? LIMIT ?"
        found = self.database.execute(between, (min(self.pending), max(self.pending), most)).fetchall()
        return self.pending if len(found) == most else self.pending.keys() & {name for (name,) in found}

    def bound(self, name: bytes, values: tuple[Any, ...]) -> tuple[object, ...]:
        """A row as it is written."""
        text, size, changed, mark, sha256, summed, status, line, grounds, judged = values
        number = self.grounds.get(grounds)
        if number is None:
            if len(self.grounds) >= MOST_GROUNDS:
                self.grounds.clear()
            number = self.grounds.setdefault(grounds, self.number("grounds", grounds))
        part = bytearray(os.fsencode(text)) if text else NO_OCTETS
        content = bytearray(summed) if summed else NO_OCTETS
        octets = bytearray(sha256)
        return bytearray(name), part, size, changed, mark, octets, content, status, line, judged, number, self.basis_number

    def put(self, name: str, rows: list[Row]) -> None:
        """Puts the rows of all parts of one file in the place of those that it has: all of them, or none if the tool ends."""
        self.put_values(name, [row[1:] for row in rows])

    def put_values(self, name: str, rows: list[tuple[Any, ...]]) -> None:
        """As `put`, of rows without the name."""
        self.pending[os.fsencode(name)] = rows
        if len(self.pending) >= FILES or time.monotonic() >= self.next:
            with told(self.path):
                self.commit()

    def is_empty(self) -> bool:
        """Whether no row is written."""
        with told(self.path):
            return self.database.execute("SELECT 1 FROM files LIMIT 1").fetchone() is None

    def rows_where(self, condition: str, words: tuple[object, ...]) -> Iterator[tuple[Row, int]]:
        """The rows of which this holds, each with the number of its basis. Raises Stop where one is none."""
        with told(self.path):
            for values in self.database.execute(f"{SELECT} {condition}", words):
                try:
                    yield row_of(values), values[11]
                except (ValueError, RecursionError) as error:
                    name = shown(repr(values[0])[:200])
                    raise damaged(self.path, f"the row of {name} is damaged: {error}") from error

    def of_file(self, name: str) -> list[tuple[Row, int]]:
        """The rows of a file that are written, each with the number of its basis."""
        return list(self.rows_where("WHERE name = ?", (os.fsencode(name),)))

    def called(self, row: Row) -> str:
        """The name of a file and its part, as they are shown, with an escape between where they can be read as another file, or as one and
        a part of that."""
        return shown_apart(row.name, row.part) if row.part and self.is_twofold(row) else row.called

    def is_twofold(self, row: Row) -> bool:
        """Whether a file has a name that is longer than that of a row, and with which its name and part begin, up to a space or the end.
        (The last name that may be one is looked for, and each other one is a beginning of it.)"""
        first, both = os.fsencode(f"{row.name} "), os.fsencode(f"{row.name} {row.part}")
        between, last = "SELECT name FROM files WHERE name BETWEEN ? AND ? ORDER BY name DESC LIMIT 1", both
        with told(self.path):
            while found := self.database.execute(between, (bytearray(first), bytearray(last))).fetchone():
                if (both + b" ").startswith(found[0] + b" "):
                    return True
                last = os.path.commonprefix([both, found[0][:-1]])
        return False

    def kept(self, name: str, mark: str, since: int = 0) -> list[Row]:
        """The rows of a file that need not be judged again: it has this mark, they are by the same basis and judged since this
        moment, and no reading failed. No rows if it is to be judged."""
        found = self.of_file(name) if mark else []
        same = all(row.mark == mark and basis == self.basis_number for row, basis in found)
        return (
            [row for row, _ in found] if same and all(row.status != FAILED and row.judged >= since for row, _ in found) else []
        )

    def names(self, verdict: str) -> list[str]:
        """The names of the files of which a part counts as this, in the order of their octets."""
        with told(self.path):
            found = self.database.execute(f"SELECT DISTINCT name FROM files WHERE {COUNTS_AS} = ? ORDER BY name", (verdict,))
            return [os.fsdecode(name) for (name,) in found if isinstance(name, bytes) and name and b"\0" not in name]

    def names_ending(self, ending: str) -> list[str]:
        """The names of the files that have rows and end so."""
        octets = os.fsencode(ending)
        with told(self.path):
            found = self.database.execute(
                "SELECT DISTINCT name FROM files WHERE substr(name, ?) = ?", (-len(octets), bytearray(octets))
            )
            return [os.fsdecode(name) for (name,) in found if isinstance(name, bytes) and name and b"\0" not in name]

    def rows(self, only: str = "") -> Iterator[tuple[Row, int]]:
        """All rows, or those of one verdict, in the order of their names, each with the number of its basis."""
        return self.rows_where(f"WHERE ? IN ('', {COUNTS_AS}) ORDER BY name, part", (only,))

    def bases(self) -> dict[int, Basis]:
        """By what files were judged, by the numbers of their rows."""
        found = {}
        with told(self.path):
            for number, text in self.database.execute("SELECT number, text FROM bases"):
                try:
                    found[number] = basis_of(text)
                except (ValueError, RecursionError) as error:
                    raise damaged(self.path, f"basis {number} is damaged") from error
        return found

    def trust_list(self, sha256: str) -> bytes:
        """The trust list with this SHA-256, which is computed anew; no octets if it is not there."""
        import hashlib

        with told(self.path):
            found = self.database.execute("SELECT text FROM lists WHERE sha256 = ?", (sha256,)).fetchone()
        octets = found[0] if found and isinstance(found[0], bytes) else b""
        return octets if hashlib.sha256(octets).hexdigest() == sha256 else b""
