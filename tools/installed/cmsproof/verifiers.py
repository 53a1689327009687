"""Who says whether a signature holds. The library asks questions; a verifier vouches for some of them."""
from __future__ import annotations

from typing import Callable, Iterable, Union

from cmsproof_tools.texts import Question, answers_of, answers_text, lines_asked, read_questions


class Vouching:
    """A verifier of all questions of a file at once."""

    def answers(self, text: bytes) -> bytes:
        """The answers list for a questions text: the lines whose signatures hold, as they are."""
        raise NotImplementedError


# Whether the signature of a question is good under its key: anything but True is no. The text "openssl" is OpenSSL, asked through
# Python's library `cryptography`.
Verifier = Union[str, Callable[[Question], bool], Vouching]


def cryptography_verifier(question: Question) -> bool:
    """Verifies by Python's library `cryptography`, which asks OpenSSL. A signature that it cannot judge is not vouched for."""
    from cmsproof_tools import verifying

    try:
        return verifying.holds(question)
    except verifying.Unjudged:
        return False


class ByCryptography(Vouching):
    """As `cryptography_verifier`, of all questions of a file."""

    def answers(self, text: bytes) -> bytes:
        """The answers list for a questions text."""
        from cmsproof_tools import verifying

        return answers_of(line for line in lines_asked(text) if verifying.fault_in(line) is None)


class ByFunction(Vouching):
    """A verifier that is asked each question by itself."""

    def __init__(self, asked: Callable[[Question], bool]) -> None:
        self.asked = asked

    def answers(self, text: bytes) -> bytes:
        """The answers list for a questions text."""
        return answers_text(vouched(read_questions(text), self.asked))


def vouching(verifier: Verifier) -> Vouching:
    """The verifier that is meant. Raises ValueError for the name of another one, and TypeError for what cannot be asked."""
    if isinstance(verifier, Vouching):
        return verifier
    if verifier == "openssl":
        return ByCryptography()
    if isinstance(verifier, str):
        raise ValueError(f'no verifier is called {verifier!r}: "openssl" is one, and so is each function of a question')
    if not callable(verifier):
        raise TypeError(f'a verifier is "openssl" or a function, and not {type(verifier).__name__}')
    return ByFunction(verifier)


def vouched(questions: Iterable[Question], verifier: Callable[[Question], bool]) -> list[Question]:
    """The questions for which a verifier answers True itself, not something that counts as true."""
    return [question for question in questions if verifier(question) is True]
