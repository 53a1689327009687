"""The calls that are the program's other commands: fit, compare, request, match, attach, show. Each takes octets or paths."""
from __future__ import annotations

from typing import Any, Optional, Union

from cmsproof import library as lib
from cmsproof.calls import written
from cmsproof.octets import Given, octets_if_any, octets_of, of_bytes
from cmsproof.results import Result, result_of
from cmsproof.showing import dictionary_of
from cmsproof.verdicts import Unexpected, code_of

# what can be shown, and its number in the library
TYPES = {"request": 1, "response": 2, "tst": 3, "signed": 4, "certificate": 5, "evidence": 6}


def fit(file: Given, *, content: Optional[Given] = None, sha1: bool = False) -> Result:
    """Whether content and signed attributes of each signer belong together, as `cmsproof fit` says it. No signature is verified."""
    with octets_of(file) as octets, octets_if_any(content) as beside:
        said = written(lib.library().cmsproof_fit, *octets, *beside, content is not None, sha1)
    return result_of(*said)


def compare(first: Given, second: Given, *, first_signer: int = 1, second_signer: int = 1) -> Result:
    """Whether a signer of one file and one of another sign the same, as `cmsproof compare` says it."""
    with octets_of(first) as one, octets_of(second) as other:
        said = written(lib.library().cmsproof_compare, *one, number(first_signer), *other, number(second_signer))
    return result_of(*said)


def match(request: Given, response: Given) -> Result:
    """Whether a response answers a request, as `cmsproof match` says it; then `octets` is its token. No signature is verified."""
    with octets_of(request) as one, octets_of(response) as other:
        found = result_of(*written(lib.library().cmsproof_match, *one, *other))
        if found.done:
            found = found.with_octets(made(*written(lib.library().cmsproof_token, *one, *other)))
    return found


def attach(file: Given, token: Given, *, signer: int = 1) -> Result:
    """A file with a token attached to a signer, as `cmsproof attach` writes it: `octets` is the new file. No signature is verified."""
    with octets_of(file) as one, octets_of(token) as other:
        status, answer, text = written(lib.library().cmsproof_attach, *one, number(signer), *other)
    if status == lib.DONE:
        return Result(True, "attached", None, None, None, "", made(status, answer, text))
    return result_of(status, answer, text)


def request(
    data: Optional[Given] = None,
    *,
    digest: Optional[bytes] = None,
    algorithm: str = "sha256",
    policy: str = "",
    nonce: Union[int, bytes] = b"",
    certificate: bool = False,
) -> bytes:
    """A time-stamp request (RFC 3161 2.4.1), of data that are hashed or of their digest.

    `nonce` is a number, or the contents of an INTEGER. Raises ValueError where a value is not as it must be.
    """
    if (data is None) == (digest is None):
        raise ValueError("data or a digest is needed, and not both")
    name, identifier, number_text = algorithm.encode(), policy.encode(), contents_of(nonce)
    # (of a number `bytes` would make as many zeros)
    with octets_if_any(data if digest is None else memoryview(digest).tobytes()) as octets:
        call = lib.library().cmsproof_request_of if digest is None else lib.library().cmsproof_request
        words = (*of_bytes(name), *octets, *of_bytes(identifier), *of_bytes(number_text), certificate)
        status, answer, text = written(call, *words)
    return requested(status, answer, text, algorithm)


def request_of_signature(
    file: Given,
    *,
    signer: int = 1,
    algorithm: str = "sha256",
    policy: str = "",
    nonce: Union[int, bytes] = b"",
    certificate: bool = False,
) -> Result:
    """A time-stamp request of a signer's signature in a file, as `cmsproof request --of` makes it: `octets` is the request.

    `nonce` is as for `request`. Raises ValueError where a value is not as it must be, before the file is judged.
    """
    name, identifier, number_text = algorithm.encode(), policy.encode(), contents_of(nonce)
    with octets_of(file) as octets:
        words = (*of_bytes(name), *octets, number(signer))
        rest = (*of_bytes(identifier), *of_bytes(number_text), certificate)
        status, answer, text = written(lib.library().cmsproof_request_of_signature, *words, *rest)
    if status in (lib.DONE, lib.USAGE):
        return Result(True, "requested", None, None, None, "", requested(status, answer, text, algorithm))
    return result_of(status, answer, text)


def show(kind: str, given: Given) -> dict[str, Any]:
    """What `cmsproof show` and `cmsproof cert` print of octets, as a dictionary: `kind` is 'request', 'response', 'tst', 'signed',
    'certificate' or 'evidence'. Where the octets are no such thing, it has `verdict`, `code` and `line` instead."""
    if kind not in TYPES:
        raise ValueError(f"{kind!r} is none of {', '.join(TYPES)}")
    with octets_of(given) as octets:
        status, answer, text = written(lib.library().cmsproof_show, TYPES[kind], *octets)
    if status == lib.DONE:
        return dictionary_of(made(status, answer, text).decode("ascii"))
    if status not in (lib.REFUSED, lib.MALFORMED):
        raise Unexpected(f"the library said status {status} of what is shown")
    verdict = "malformed" if status == lib.MALFORMED else "refused"
    return {"verdict": verdict, "code": code_of(answer), "line": text.decode("ascii", "replace").rstrip("\n")}


def contents_of(nonce: Union[int, bytes]) -> bytes:
    """The contents of the INTEGER that a nonce is."""
    return nonce.to_bytes(nonce.bit_length() // 8 + 1, "big", signed=True) if isinstance(nonce, int) else bytes(nonce)


def requested(status: int, answer: lib.Answer, text: bytes, algorithm: str) -> bytes:
    """The request that a call made. Raises ValueError where a value was not as it must be."""
    if status == lib.USAGE:
        raise ValueError(text.decode("ascii", "replace").rstrip("\n") or f"no request can have the algorithm {algorithm!r}")
    return made(status, answer, text)


def number(signer: int) -> int:
    """The number of a signer. Raises ValueError where there can be none."""
    if not 1 <= signer < 1 << 64:
        raise ValueError(f"{signer} is the number of no signer")
    return signer


def made(status: int, answer: lib.Answer, octets: bytes) -> bytes:
    """The octets that a call made, if it did."""
    if status != lib.DONE or answer.verdict != lib.WRITTEN:
        raise Unexpected(f"the library said status {status} and verdict {answer.verdict} of what it should make")
    return octets
