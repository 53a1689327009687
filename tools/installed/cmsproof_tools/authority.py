"""A time-stamping authority that is asked over HTTP (RFC 3161 3.4). Whatever answers is a stranger: it may say anything, and go on for
ever."""
from __future__ import annotations

import http.client
import signal
import socket
import time
import urllib.error
import urllib.request
from contextlib import contextmanager
from types import FrameType
from typing import Any, Iterator, NoReturn, Optional
from urllib.parse import SplitResult, urlsplit

from cmsproof_tools import VERSION
from cmsproof_tools.running import FAILED, USAGE, Stop, one_line, shown

QUERY, REPLY = "application/timestamp-query", "application/timestamp-reply"
SCHEMES = ("http", "https")
# how many octets an answer has at most, and of how many a text is shown that is none
LONGEST, SHOWN = 1 << 20, 200
PIECE = 1 << 16


class Late(Exception):
    """The time is over."""


def address_of(text: str) -> SplitResult:
    """The address of an authority. Ends the tool where it is none, or has a password, which others would see among the processes."""
    try:
        parts = urlsplit(text)
        has_port = parts.port is None or parts.port > 0
    except ValueError:
        parts, has_port = SplitResult("", "", "", "", ""), False
    if parts.scheme not in SCHEMES or not parts.hostname or not has_port or not text.isascii() or not text.isprintable():
        raise Stop(USAGE, "--tsa is no address as http://tsa.example/stamp")
    if " " in text or "@" in parts.netloc:
        raise Stop(USAGE, "--tsa has a space, or a name or a password, which others would see")
    return parts


def address_shown(parts: SplitResult) -> str:
    """An address without what may be a secret: what stands behind a `?` or `#`."""
    return shown(f"{parts.scheme}://{parts.netloc}{parts.path}")


class NoRedirect(urllib.request.HTTPRedirectHandler):
    """Follows nobody elsewhere: a redirection of RFC 3161 is none, and would become a GET without the request."""

    def redirect_request(self, *_: Any, **__: Any) -> None:
        """None: it stays an error with its own status."""
        return None


@contextmanager
def ended_after(seconds: float) -> Iterator[None]:
    """A block that raises Late where it takes longer, whatever it waits for."""

    def late(_: int, __: Optional[FrameType]) -> NoReturn:
        raise Late

    # (whoever started the tool may have blocked the signal: it would not come, or one that waits would come now and is dropped)
    before = signal.signal(signal.SIGALRM, signal.SIG_IGN)
    blocked = signal.pthread_sigmask(signal.SIG_UNBLOCK, (signal.SIGALRM,))
    signal.signal(signal.SIGALRM, late)
    signal.setitimer(signal.ITIMER_REAL, seconds)
    try:
        yield
    finally:
        signal.setitimer(signal.ITIMER_REAL, 0)
        signal.pthread_sigmask(signal.SIG_SETMASK, blocked)
        signal.signal(signal.SIGALRM, before)


def body_of(answer: Any, end: float) -> bytes:
    """The octets of an answer, at most one more than it may have. (They go into a room of that length: `read` takes memory for as many as a
    chunk says, and for all that come where it says -1.)"""
    room, length = memoryview(bytearray(LONGEST + 1)), 0
    while length <= LONGEST:
        if time.monotonic() > end:
            raise Late
        got = answer.readinto(room[length : length + PIECE])
        if not got:
            break
        length += got
    return bytes(room[:length])


def fault_of(answer: Any, body: bytes) -> str:
    """Why an answer is none, "" if it may be one."""
    kind = answer.headers.get_content_type() if answer.headers.get("Content-Type") else ""
    if answer.status != 200:
        return f"it answers with status {answer.status}"
    if kind != REPLY:
        return f"its answer is {one_line(kind)[:SHOWN] or 'of no type'}, and no {REPLY}"
    if len(body) > LONGEST:
        return f"its answer has more than {LONGEST} octets"
    said, coding = answer.headers.get("Content-Length"), answer.headers.get("Content-Encoding", "identity")
    if said is not None and said.strip() != str(len(body)):
        return "its answer was cut off"
    if coding.strip().lower() != "identity":
        return f"its answer is packed by {one_line(coding)[:SHOWN]}, which nobody asked for"
    return "" if body else "its answer is empty"


def failed(address: SplitResult, reason: object) -> Stop:
    """What ends the tool where an authority could not be asked."""
    return Stop(FAILED, f"failed request {address_shown(address)}: {one_line(str(reason))[:SHOWN]}")


def answer_to(request: bytes, address: SplitResult, seconds: float) -> bytes:
    """What an authority answers to a request, as a time-stamp response should be. Raises Stop, with a line, where it does not answer so."""
    headers = {"Content-Type": QUERY, "Accept": REPLY, "User-Agent": f"cmsproof-archive/{VERSION}"}
    asked = urllib.request.Request(address.geturl(), data=request, headers=headers, method="POST")
    opener, end = urllib.request.build_opener(NoRedirect), time.monotonic() + seconds
    try:
        with ended_after(seconds), opener.open(asked, timeout=seconds) as answer:
            body = body_of(answer, end)
            fault = fault_of(answer, body)
    except urllib.error.HTTPError as error:
        with error:
            raise failed(address, f"it answers with status {error.code}") from error
    except (Late, socket.timeout) as error:
        raise failed(address, f"it took longer than {seconds:g} seconds") from error
    except http.client.InvalidURL as error:
        raise failed(address, "the address is none") from error
    except http.client.IncompleteRead as error:
        raise failed(address, "its answer was cut off") from error
    except (OSError, http.client.HTTPException) as error:
        # (urllib wraps what failed, a time that is over too)
        reason = getattr(error, "reason", None) or error
        if isinstance(reason, socket.timeout):
            reason = f"it took longer than {seconds:g} seconds"
        raise failed(address, reason) from error
    except ValueError as error:
        # (its words are not said: they can have the address of a proxy, with a password)
        raise failed(address, "the address is none, or that of a proxy, or where it sends us") from error
    if fault:
        raise failed(address, fault)
    return body
