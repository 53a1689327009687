"""The calls: each asks the library about octets or about the file at a path, which is mapped."""
from __future__ import annotations

import ctypes
from typing import Any, Callable, NamedTuple, Optional, Sequence, Union, cast

from cmsproof import library as lib
from cmsproof.lists import TrustList, refused
from cmsproof.octets import Given, Octets, octets_if_any, octets_of, of_bytes, plain
from cmsproof.verdicts import Said, Unexpected, Verdict, said_of, verdict_of
from cmsproof.verifiers import Verifier, Vouching, vouching
from cmsproof_tools.texts import Question, answers_of, read_questions

# what a first try of a text has room for: the questions of a file of few signers
ROOM = 1 << 13
# what is no short questions text
LONG = 1 << 16
# the statuses of a file that was judged; and what the calls are handed that convert nothing, as ctypes hands it on
JUDGED = (lib.DONE, lib.REFUSED, lib.MALFORMED)
NONE, NO = ctypes.c_size_t.from_param(0), ctypes.c_bool.from_param(False)


class Questions(NamedTuple):
    """What a verifier is asked about a file.

    text   as `cmsproof questions` prints it; empty if nothing can be asked
    asked  the questions, in their order
    code   None, or why nothing can be asked: 'Q1' of a malformed file, 'Q2' of one that is no SignedData, and of a time-stamp 'P1' of a
           response that is not granted, 'P2' of one without a token; of a malformed evidence record 'V1', of an encrypted one 'V2'
    """

    text: bytes
    asked: tuple[Question, ...]
    code: Optional[str]


class Room:
    """What calls write into: a text, the numbers of an answer, and an answers list. One check at a time has it, in any thread."""

    def __init__(self) -> None:
        self.length, self.answer, self.answers = ctypes.c_size_t(), lib.Answer(), lib.Handle()
        self.to_answer, self.to_answers = ctypes.byref(self.answer), ctypes.byref(self.answers)
        # how many octets a file and an answers list have, for the calls that convert nothing
        self.of_file, self.of_answers, self.calls = ctypes.c_size_t(), ctypes.c_size_t(), lib.straight()
        self.make(ROOM)

    def make(self, size: int) -> None:
        """Makes room for so many octets of a text."""
        # (of an array of this type a part is `bytes`)
        self.text: Any = (ctypes.c_char * size)()
        self.size = size
        at, length = ctypes.c_void_p(ctypes.addressof(self.text)), ctypes.byref(self.length)
        self.words = at, size, length, self.to_answer
        self.ready = ctypes.c_void_p.from_param(at), ctypes.c_size_t.from_param(size), length, self.to_answer

    def written(self, call: Callable[..., int], *words: Any) -> tuple[int, bytes]:
        """The status and text of a call that makes a text: tried with the room that is there, and again with as much as it says."""
        status = call(*words, *self.words)
        while status == lib.NO_ROOM and self.length.value > self.size:
            self.make(self.length.value)
            status = call(*words, *self.words)
        if status == lib.NO_MEMORY:
            raise MemoryError("libcmsproof was refused memory")
        length = self.length.value
        if status in (lib.NO_ROOM, lib.NO_LIST) or length > self.size:
            raise Unexpected(f"the library said status {status} with a length of {length}")
        return status, cast(bytes, self.text[:length])

    def asked(self, trust: TrustList, octets: Octets, call: str = "cmsproof_questions") -> bytes:
        """What must be verified of a file, as a questions text; no octets of one of which nothing can be asked: `check` says why."""
        held = trust.held
        with held.lock:
            status, text = self.written(getattr(lib.library(), call), held.handle, *octets)
        return text if status == lib.DONE else b""

    def checked(
        self, trust: TrustList, octets: Octets, rest: tuple[Any, ...], answers: bytes, call: str = "cmsproof_check"
    ) -> tuple[int, bytes]:
        """The status and line of a check with these answers, whose numbers are in `answer`. `rest` is what the call takes behind the
        file."""
        held, loaded = trust.held, lib.library()
        try:
            status = loaded.cmsproof_answers_read(self.to_answers, *of_bytes(answers), self.to_answer)
            if status != lib.DONE:
                raise refused("answers", status, self.answer)
            with held.lock:
                return self.written(getattr(loaded, call), held.handle, self.to_answers, *octets, *rest)
        finally:
            loaded.cmsproof_answers_free(self.to_answers)

    def asked_short(self, trust: TrustList, octets: bytes) -> bytes:
        """As `asked`, of octets in memory."""
        held, of_file = trust.held, self.of_file
        of_file.value = len(octets)
        with held.lock:
            status = self.calls.questions(held.reference, octets, of_file, *self.ready)
        length = self.length.value
        if status == lib.DONE and length <= self.size:
            text: bytes = self.text[:length]
            return text
        return self.asked(trust, of_bytes(octets))

    def said(self, trust: TrustList, octets: bytes, answers: bytes, sha1: bool) -> Said:
        """What a check of octets in memory says, with these answers and no content beside them."""
        if type(octets) is not bytes or type(answers) is not bytes:
            raise TypeError("bytes are needed")  # (nobody else looks at what is handed to these calls)
        held, (_, check, read, free), to_answers, allowed = trust.held, self.calls, self.to_answers, lib.Flag.from_param(sha1)
        of_file, of_answers, (room, size, length, numbers) = self.of_file, self.of_answers, self.ready
        of_file.value, of_answers.value = len(octets), len(answers)
        try:
            status = read(to_answers, answers, of_answers, numbers)
            if status != lib.DONE:
                raise refused("answers", status, self.answer)
            with held.lock:
                words = held.reference, to_answers, octets, of_file, b"", NONE, NO, allowed, room, size, length, numbers
                status = check(*words)
        finally:
            free(to_answers)
        written = self.length.value
        if status in JUDGED and written <= self.size:
            return said_of(status, self.answer, self.text[:written])
        status, line = self.checked(trust, of_bytes(octets), (b"", 0, False, sha1), answers)
        return said_of(status, self.answer, line)


# those that nobody has now: taken and put back whole, so that neither a thread nor a signal's check gets one that is in use
SPARE: list[Room] = []


def room() -> Room:
    """A room that is nobody else's."""
    try:
        return SPARE.pop()
    except IndexError:
        return Room()


def give_back(used: Room) -> None:
    """Leaves a room to the next check, unless it was made large."""
    if used.size == ROOM:
        SPARE.append(used)


# the answers list where nothing is asked
NO_ANSWERS = answers_of([])


def answers_to(text: bytes, verifier: Vouching) -> bytes:
    """The answers list for a questions text."""
    return verifier.answers(text) if text else NO_ANSWERS


def written(call: Callable[..., int], *words: Any) -> tuple[int, lib.Answer, bytes]:
    """The status, numbers and text of a call that makes a text."""
    own = Room()
    status, text = own.written(call, *words)
    return status, own.answer, text


def asked_of(trust: TrustList, octets: Octets) -> tuple[int, lib.Answer, bytes]:
    """What `questions` says of octets."""
    with trust.held.taken() as handle:
        return written(lib.library().cmsproof_questions, handle, *octets)


def questions(file: Given, *, trust: TrustList) -> Questions:
    """What a verifier is asked before a file is checked: the signatures that may count under this list."""
    with octets_of(file) as octets:
        said = asked_of(trust, octets)
    return questions_of(*said)


def questions_of(status: int, answer: lib.Answer, text: bytes) -> Questions:
    """The questions of a call's status, numbers and text."""
    if status == lib.DONE:
        return Questions(text, tuple(read_questions(text)), None)
    if status not in (lib.REFUSED, lib.MALFORMED) or not answer.letter:
        raise Unexpected(f"the library said status {status} of questions")
    # (of a stamp that is neither a token nor a response the numbers are those of the fault)
    return Questions(b"", (), "Q1" if status == lib.MALFORMED else f"{chr(answer.letter)}{answer.number}")


def check(
    file: Given,
    *,
    trust: TrustList,
    content: Optional[Given] = None,
    verifier: Verifier = "openssl",
    sha1: bool = False,
) -> Verdict:
    """By which moment a file was signed by all its signers, or why that is not shown.

    `file` and `content` are octets, or paths of regular files; `content` is for a signature whose content stands beside it.
    `verifier` is asked each question once, and only True vouches; "openssl" is OpenSSL, through Python's library `cryptography`.
    `sha1` lets SHA-1 count as a digest of contents and stamps. Raises OSError for a file that cannot be read or that is changed meanwhile, and what the verifier raises.
    """
    asked, own = vouching(verifier), room()
    try:
        with octets_of(file) as octets, octets_if_any(content) as beside:
            answers = answers_to(own.asked(trust, octets), asked)
            status, line = own.checked(trust, octets, (*beside, content is not None, sha1), answers)
        # (only here, where the files are known to be as they were)
        return verdict_of(status, own.answer, line)
    finally:
        give_back(own)


def check_several(
    files: Sequence[bytes], *, trust: TrustList, verifiers: Sequence[Vouching], sha1: bool = False
) -> list[Union[Said, Exception]]:
    """What `check` says of each of some short files, by a verifier of its own, or raises for it.

    Each step is done for all of them before the next one: so it takes two thirds of the time, since the processor keeps at hand what a
    step needs. What was asked about is what is checked: the octets are in memory.
    """
    own, found = room(), cast("list[Union[Said, Exception, None]]", [None] * len(files))
    octets = [plain(one) for one in files]
    texts = [b""] * len(octets)
    try:
        for number, one in enumerate(octets):
            try:
                text = own.asked_short(trust, one)
                if len(text) <= LONG:
                    texts[number] = text
                else:  # of one that is long not more than one is kept
                    found[number] = own.said(trust, one, verifiers[number].answers(text), sha1)
            except Exception as error:
                found[number] = error
        for number, text in enumerate(texts):
            if found[number] is None:
                try:
                    texts[number] = verifiers[number].answers(text) if text else NO_ANSWERS
                except Exception as error:
                    found[number] = error
        for number, one in enumerate(octets):
            if found[number] is None:
                try:
                    found[number] = own.said(trust, one, texts[number], sha1)
                except Exception as error:
                    found[number] = error
    finally:
        give_back(own)
    return cast("list[Union[Said, Exception]]", found)
