"""What `cmsproof-archive stamp` and `renew` do alike: a state with batches, each of which gets one time-stamp; the program, which makes what is
kept; and the answer of an authority, which is judged before it is kept.

A batch is a folder in the state, whose name is a number. What stands in it was put there whole: `terms.json`, what it is of; `request.tsq`,
before it is sent; `response.tsr` and `token.tok`, once they are judged; `done`. So a run goes on behind what is there.
"""
from __future__ import annotations

import ctypes
import errno
import fcntl
import json
import os
import re
import shutil
import signal
import stat
import subprocess
import sys
import time
from contextlib import contextmanager, suppress
from typing import Any, Callable, Iterator, NamedTuple, Optional
from urllib.parse import SplitResult

import cmsproof
from cmsproof_tools import authority
from cmsproof_tools.evidenced import first_ends
from cmsproof_tools.lasting import VERSION_1, By, Unjudged, end_of, sequence
from cmsproof_tools.rows import time_text
from cmsproof_tools.running import FAILED, MALFORMED, REFUSED, USAGE, Stop
from cmsproof_tools.running import one_line, shown, tell, write
from cmsproof_tools.signed_parts import certificates_of, parts_of, time_in, tst_fields
from cmsproof_tools.texts import in_order, is_moment
from cmsproof_tools.workers import LIBRARY, PR_SET_PDEATHSIG

REQUEST, RESPONSE, TOKEN, DONE_FILE, TERMS = "request.tsq", "response.tsr", "token.tok", "done", "terms.json"
NEW = ".new"
READING = os.O_RDONLY | os.O_NOFOLLOW | os.O_CLOEXEC
# the rights to a folder of anybody's and to one of its user's own, and those to write that the group and others have
ANYBODYS, OWN, OTHERS = 0o777, 0o700, 0o022
# how many seconds two clocks may be apart without a word
APART = 300
# an AlgorithmIdentifier, which each record has one of at least
SHA_256 = bytes.fromhex("300b0609608648016503040201")
# the first octet of a nonce, so that it is a positive number, and how many are chosen
POSITIVE, CHOSEN = "01", 16
# of how many characters the reason of an authority is shown that refuses
SHOWN = 200
# how the program says that it failed at a file, whose name is any text of whoever named the file
FAILURE = re.compile(r"(failed [a-z]+ )(.*)", re.DOTALL)


class Batch(NamedTuple):
    """A batch: the folder where it stands, and what was asked for when it was begun."""

    path: str
    terms: dict[str, str]

    def place(self, name: str) -> str:
        """The path of a file in it."""
        return os.path.join(self.path, name)

    def has(self, name: str) -> bool:
        """Whether it has this file."""
        return os.path.lexists(self.place(name))

    def read(self, name: str) -> bytes:
        """The octets of a file in it. Raises Stop, with a line, where it cannot be read, as a link."""
        try:
            with open(os.open(self.place(name), READING), "rb") as file:
                return file.read()
        except OSError as error:
            raise Stop(FAILED, f"failed read {shown(self.place(name))}: {error.strerror}") from error

    def put(self, name: str, octets: bytes) -> None:
        """Puts a file into it, whole or not at all, and through no link."""
        if os.path.islink(self.place(name)):
            raise Stop(FAILED, f"failed write {shown(self.place(name))}: it is a link")
        write(self.place(name), octets)
        sync(self.path)

    def remove(self, name: str) -> None:
        """Removes a file of it, if it is there. Raises Stop, with a line, where that fails."""
        try:
            os.unlink(self.place(name))
        except FileNotFoundError:
            pass
        except OSError as error:
            raise Stop(FAILED, f"failed write {shown(self.place(name))}: {error.strerror}") from error

    def begun_with(self) -> dict[str, str]:
        """The terms that it was begun with. Raises Stop, with a line, where they cannot be read."""
        try:
            found = json.loads(self.read(TERMS))
        except (ValueError, RecursionError):
            found = None
        if not isinstance(found, dict) or not all(isinstance(one, str) for one in found.values()):
            raise Stop(FAILED, f"failed state {shown(self.place(TERMS))}: it is damaged")
        return found

    def sweep(self, name: str) -> None:
        """Removes what is left of a file of many octets that a run was writing when it was killed."""
        with suppress(OSError):
            for one in os.listdir(self.path):
                if one.startswith(f".{name}."):
                    os.unlink(self.place(one))


def sync(folder: str) -> None:
    """Has the disk know what names are in a folder."""
    with suppress(OSError):
        descriptor = os.open(folder, os.O_RDONLY | os.O_DIRECTORY | os.O_CLOEXEC)
        try:
            os.fsync(descriptor)
        finally:
            os.close(descriptor)


def made(folder: str, mode: int = ANYBODYS) -> None:
    """Makes a folder with these rights, less the mask of this process, if it is not there. Raises Stop, with a line, where that fails."""
    try:
        os.makedirs(folder, mode, exist_ok=True)
    except OSError as error:
        raise Stop(FAILED, f"failed write {shown(folder)}: {error.strerror}") from error


@contextmanager
def closing_descriptor(descriptor: int) -> Iterator[None]:
    """A block behind which a descriptor is closed."""
    try:
        yield
    finally:
        os.close(descriptor)


def check_own(path: str, found: os.stat_result) -> None:
    """Ends the tool where others may write a folder of a state: what they put there, as digests, would be stamped."""
    if found.st_uid not in (os.geteuid(), 0):
        raise Stop(FAILED, f"failed state {shown(path)}: it is another user's, who can put anything into it")
    if found.st_mode & OTHERS:
        reason = "others may write it, and put anything into it: look what is in it, then take that right away by chmod go-w"
        raise Stop(FAILED, f"failed state {shown(path)}: {reason}")


@contextmanager
def held(state: str) -> Iterator[None]:
    """A block in which no other run has the state."""
    try:
        descriptor = os.open(state, os.O_RDONLY | os.O_DIRECTORY | os.O_CLOEXEC)
    except OSError as error:
        raise Stop(FAILED, f"failed open {shown(state)}: {error.strerror}") from error
    with closing_descriptor(descriptor):
        check_own(state, os.fstat(descriptor))
        try:
            fcntl.flock(descriptor, fcntl.LOCK_EX | fcntl.LOCK_NB)
        except OSError as error:
            reason = "another run has it" if error.errno == errno.EWOULDBLOCK else error.strerror
            raise Stop(FAILED, f"failed state {shown(state)}: {reason}") from error
        yield


def check_writable(folder: str) -> None:
    """Ends the tool where no record can be put into a folder, before a time-stamp is asked for."""
    if not os.access(folder, os.W_OK | os.X_OK):
        raise Stop(FAILED, f"failed write {shown(folder)}: no record can be put there")


def free_in(folder: str) -> Optional[int]:
    """How many octets are free in the file system of a folder, None where it does not say that."""
    try:
        found = os.statvfs(folder)
    except OSError:
        return None
    return found.f_bavail * found.f_frsize if found.f_blocks else None


def check_room(batch: Batch, folder: str, count: int, without: Callable[[], int]) -> None:
    """Ends the tool, before any is written, where so many records, of which `without` counts those that have not the token of the batch yet,
    have no room for it in a folder: whoever is on the line can make a token as long as an answer may be."""
    size, free = len(batch.read(TOKEN)), free_in(folder)
    if free is None or count * size <= free or (lacking := without()) * size <= free:
        return
    needed = f"{lacking} records by a token of {size} octets need {lacking * size} octets, and {free} are free"
    raise Stop(FAILED, f"failed write {shown(folder)}: {needed}")


def settle(folder: str) -> None:
    """Has the disk know all that is in the file system of a folder. (The program has it know the octets of records, and not their names.)"""
    try:
        descriptor = os.open(folder, os.O_RDONLY | os.O_DIRECTORY | os.O_CLOEXEC)
        with closing_descriptor(descriptor):
            if LIBRARY.syncfs(descriptor):
                raise OSError(ctypes.get_errno(), os.strerror(ctypes.get_errno()))
    except OSError as error:
        raise Stop(FAILED, f"failed write {shown(folder)}: {error.strerror}") from error


def numbers_in(state: str) -> list[int]:
    """The numbers of the batches in a state, in their order."""
    try:
        return sorted(int(name) for name in os.listdir(state) if name.isdecimal() and name == str(int(name)))
    except OSError as error:
        raise Stop(FAILED, f"failed open {shown(state)}: {error.strerror}") from error


def last_in(state: str, terms: dict[str, str], key: str) -> Batch:
    """The last batch in a state, if it is not done, or a new one. Ends the tool where it is one of another command, whose terms have not
    this key."""
    numbers = numbers_in(state)
    last = Batch(os.path.join(state, str(numbers[-1] if numbers else 1)), terms)
    if last.has(DONE_FILE):
        last = Batch(os.path.join(state, str(numbers[-1] + 1)), terms)
    made(last.path, OWN)
    found = os.lstat(last.path)
    if not stat.S_ISDIR(found.st_mode):
        raise Stop(FAILED, f"failed state {shown(last.path)}: it is a link")
    check_own(last.path, found)
    sync(state)
    if last.has(TERMS) and key not in last.begun_with():
        raise Stop(USAGE, f"{shown(last.path)} is a batch of another command: name another --state")
    return last


def program_of(given: Any) -> str:
    """The path of the program. Ends the tool where there is none."""
    own = os.path.join(os.path.dirname(os.path.realpath(sys.argv[0])), "cmsproof")
    found = given.program or (own if os.access(own, os.X_OK) and os.path.isfile(own) else shutil.which("cmsproof"))
    if not found:
        raise Stop(FAILED, "the program cmsproof is neither beside this tool nor on PATH: --program names it")
    return os.path.abspath(found)


def end_with(parent: int) -> None:
    """Has a process that was just started end when this one ends, so that none of an earlier run works beside a later one."""
    LIBRARY.prctl(PR_SET_PDEATHSIG, signal.SIGKILL, 0, 0, 0)
    if os.getppid() != parent:
        os.kill(os.getpid(), signal.SIGKILL)


def line_of(said: bytes) -> str:
    """What the program said, as one line: a name in it, which is as it is, as names are shown."""
    text = said.decode("utf-8", "backslashreplace").strip("\n")
    found = FAILURE.fullmatch(text)
    return found[1] + shown(found[2]) if found else text.partition("\n")[0]


def run_program(given: Any, batch: Batch, *words: str, prepare: Callable[[], None] = lambda: None) -> None:
    """Runs a command of the program in the folder of a batch, which `prepare` makes ready in the process of its own. Ends the tool with its
    line and status where it does not succeed."""
    program, parent = program_of(given), os.getpid()

    def ready() -> None:
        end_with(parent)
        prepare()

    try:
        done = subprocess.run(
            [program, "evidence", *words],
            cwd=batch.path,
            stdin=subprocess.DEVNULL,
            capture_output=True,
            check=False,
            preexec_fn=ready,
        )
    except (OSError, subprocess.SubprocessError) as error:
        raise Stop(FAILED, f"failed run {shown(program)}: {getattr(error, 'strerror', None) or error}") from error
    if done.returncode == 0:
        return
    line = line_of(done.stdout + done.stderr) or f"it ended with status {done.returncode}"
    status = done.returncode if done.returncode in (REFUSED, MALFORMED, FAILED) else FAILED
    raise Stop(status, f"cmsproof evidence {words[0]}: {line}")


def put_in_place(batch: Batch, name: str) -> None:
    """Gives a file that the program made its name, once its octets are on the disk."""
    try:
        with open(batch.place(name + NEW), "rb") as file:
            os.fsync(file.fileno())
        os.replace(batch.place(name + NEW), batch.place(name))
    except OSError as error:
        raise Stop(FAILED, f"failed write {shown(batch.place(name))}: {error.strerror}") from error
    sync(batch.path)


def request_in(batch: Batch) -> bytes:
    """The request of a batch. Ends the tool where it is none, which is the fault of no authority."""
    request = batch.read(REQUEST)
    if cmsproof.show("request", request).get("shown") != "request":
        where = shown(batch.place(REQUEST))
        raise Stop(FAILED, f"failed state {where}: it is no request: remove it to have another one made")
    return request


def reason_in(response: bytes) -> str:
    """Why an authority did not grant a request, as it says it (RFC 3161 2.4.2)."""
    said = cmsproof.show("response", response)
    return one_line(", ".join([str(said.get("status", "")), *said.get("fail", []), *said.get("text", [])]))[:SHOWN]


def token_in(batch: Batch, response: bytes) -> bytes:
    """The token of a response that answers the request. Ends the tool where it does not."""
    said = cmsproof.match(batch.read(REQUEST), response)
    if not said.done or said.octets is None:
        reason = f": {reason_in(response)}" if said.code == "P1" else ""
        raise Stop(MALFORMED if said.verdict == "malformed" else REFUSED, f"the answer of the authority: {said.line}{reason}")
    return said.octets


def time_of(token: bytes) -> str:
    """The time that a token says, for a reader."""
    try:
        return time_in(tst_fields(token, parts_of(token, len(token)))) or "a time that cannot be read"
    except (ValueError, IndexError):
        return "a time that cannot be read"


def own_list(token: bytes) -> cmsproof.TrustList:
    """The certificates in a token as a list of authorities, by which it counts if its signature holds, whosever it is."""
    try:
        found = certificates_of(token, parts_of(token, len(token)))
    except (ValueError, IndexError):
        found = []
    read = [one for one in found if "shown" in cmsproof.show("certificate", one)]
    return cmsproof.TrustList(b"".join([b"cmsproof trust 2\n", *(b"tsa - - %s\n" % one.hex().encode() for one in read)]))


def later_of(first: str, second: str) -> str:
    """The later of two moments; what is no moment is none."""
    return second if not is_moment(first) or (is_moment(second) and in_order(first, second)) else first


def served_until(given: Any, trust: Any, token: bytes, moment: str) -> str:
    """The last moment at which a token serves, by a trust list and the ends of algorithms. Ends the tool where it counts under no authority,
    or is later than a moment. (That it is over the root its request says, and the program compares it with that.)"""
    record = sequence(VERSION_1, sequence(SHA_256), sequence(sequence(sequence(token))))
    try:
        return end_of(record, By(trust, dict(first_ends(given.end)), moment))
    except Unjudged as error:
        raise Stop(error.status, f"the token of the authority: {error}") from error


def judge(tool: str, given: Any, trust: Any, token: bytes) -> None:
    """Ends the tool where a token counts under no authority of the trust list, or its algorithms or its authority have ended."""
    if trust is None:
        tell(tool, "no --trust: nobody looked whose time-stamp it is")
        trust = own_list(token)
    # (of two clocks one is ahead)
    moment = later_of(time_text(int(time.time())), time_of(token))
    end = served_until(given, trust, token, moment)
    if not in_order(moment, end):
        raise Stop(REFUSED, f"the token of the authority: it served until {end} alone")


def tell_where_apart(tool: str, token: bytes) -> None:
    """Says where a token that comes just now says another time than the clock here."""
    now, said = int(time.time()), time_of(token)
    if not is_moment(said) or not in_order(time_text(now - APART), said) or not in_order(said, time_text(now + APART)):
        tell(tool, f"the token of the authority says {said}, and the clock here {time_text(now)}")


def kept_as(batch: Batch, helps: str) -> str:
    """Where an answer is kept, and what helps: by default that another one is asked for."""
    return f"; it is kept as {shown(batch.place(RESPONSE))}: {helps or 'remove that to ask again'}"


def answered(
    tool: str, given: Any, batch: Batch, address: SplitResult, judged: Callable[[bytes], None], help_of: Callable[[], str] = str
) -> str:
    """Has the token of the batch there, and answers its time. What is kept was judged, and is judged again: of one that is refused then `help_of`
    says what helps, where another one would not."""
    is_kept, request = batch.has(RESPONSE), request_in(batch)
    response = batch.read(RESPONSE) if is_kept else authority.answer_to(request, address, given.timeout)
    try:
        token = token_in(batch, response)
        judged(token)
    except Stop as stop:
        raise Stop(stop.status, stop.line + (kept_as(batch, help_of()) if is_kept else "")) from stop
    if not is_kept:
        tell_where_apart(tool, token)
        batch.put(RESPONSE, response)
    batch.put(TOKEN, token)
    return time_of(token)
