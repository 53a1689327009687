"""cmsproof in Python: by which moment a signed file was signed, asked of the proved library libcmsproof in this process.

    trust = cmsproof.TrustList.from_file("trust.txt")
    verdict = cmsproof.check("signed.p7s", trust=trust)
    print(verdict.accepted, verdict.moment, verdict.line)

`check` is what the commands `cmsproof questions`, `cmsproof-verify` and `cmsproof check` are together, and says the same line.
`fit`, `compare`, `match`, `attach`, `request` and `show` are the commands of these names, `request_of_signature` is
`request --of`, `stamp.check` judges a time-stamp by itself, and `evidence.check` an evidence record (RFC 4998); `evidence.make`, `renew`
and `rehash` make and renew such records. A refusal is a value, a `Verdict` with `accepted` False, or a `Result` with `done` False.
Exceptions are for wrong use, for files that cannot be read or that change meanwhile, for lists that are none (`ListRefused`), for records
that are not made (`evidence.Unmade`), and for memory that is refused (`MemoryError`). These modules are tested, and nothing about them is
proved.
"""
from __future__ import annotations

from importlib import import_module
from typing import TYPE_CHECKING, Any

from cmsproof.calls import Questions, check, questions
from cmsproof.lists import ListRefused, TrustList
from cmsproof.verdicts import Unexpected, Verdict
from cmsproof.verifiers import Verifier, cryptography_verifier

if TYPE_CHECKING:
    from cmsproof import evidence, stamp
    from cmsproof.commands import attach, compare, fit, match, request, request_of_signature, show
    from cmsproof.results import Result
    from cmsproof.tokens import check_token

__all__ = [
    "ListRefused",
    "Questions",
    "Result",
    "TrustList",
    "Unexpected",
    "Verdict",
    "Verifier",
    "attach",
    "check",
    "check_token",
    "compare",
    "cryptography_verifier",
    "evidence",
    "fit",
    "match",
    "questions",
    "request",
    "request_of_signature",
    "show",
    "stamp",
]

# what is read once it is asked for: modules, and what has a module
MODULES = ("evidence", "stamp")
LATER = {
    **dict.fromkeys(("attach", "compare", "fit", "match", "request", "request_of_signature", "show"), "commands"),
    "Result": "results",
    "check_token": "tokens",
}


def __getattr__(name: str) -> Any:
    if name in MODULES:
        return import_module(f"cmsproof.{name}")
    if name not in LATER:
        raise AttributeError(f"module {__name__!r} has no attribute {name!r}")
    return getattr(import_module(f"{__name__}.{LATER[name]}"), name)


def __dir__() -> list[str]:
    return sorted({*globals(), *LATER, *MODULES})
