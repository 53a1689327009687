"""The lines of a time-stamp, a request and a response (docs/LINES.md), from what `openssl ts -text` prints of it."""
from __future__ import annotations

import datetime
import re
from typing import Optional

from oracle.identifiers import DIGESTS

# what openssl calls a digest algorithm, and its identifier
HASHES = {name.replace("_", "-"): oid for oid, name in DIGESTS.items()}
STATUSES = {
    "Granted.": "granted",
    "Granted with modifications.": "grantedWithMods",
    "Rejected.": "rejection",
    "Waiting.": "waiting",
}
FAILURES = {
    "unrecognized or unsupported algorithm identifier": "badAlg",
    "the requested TSA policy is not supported by the TSA": "unacceptedPolicy",
    "the data submitted has the wrong format": "badDataFormat",
    "transaction not permitted or supported": "badRequest",
}
ABSENT = "unspecified"


def said(text: str, name: str) -> Optional[str]:
    """What is printed behind a name, None where this is absent."""
    found = re.search(f"^{re.escape(name)}: (.*)$", text, re.M)
    return None if found is None or found.group(1) == ABSENT else found.group(1)


def must_say(text: str, name: str) -> str:
    """What is printed behind a name that must be there."""
    found = said(text, name)
    if found is None:
        raise ValueError(f"openssl says nothing of {name}")
    return found


def number(text: str) -> str:
    """The contents of an INTEGER that is not negative, from digits as `0x9f`."""
    digits = text[2:].lower()
    digits = digits if len(digits) % 2 == 0 else "0" + digits
    return digits if int(digits[:2], 16) < 128 else "00" + digits


def time_of(text: str) -> str:
    """A GeneralizedTime, from `Nov 23 17:45:01.5 2026 GMT`."""
    fraction = re.search(r"\.(\d+)", text)
    day = datetime.datetime.strptime(re.sub(r"\.\d+", "", text), "%b %d %H:%M:%S %Y GMT")
    digits = fraction.group(1).rstrip("0") if fraction else ""
    return day.strftime("%Y%m%d%H%M%S") + ("." + digits if digits else "") + "Z"


def accuracy_of(text: str) -> str:
    """The line of an accuracy."""
    numbers = []
    for unit in ("seconds", "millis", "micros"):
        found = re.search(r"(unspecified|0x[0-9A-F]+) " + unit, text)
        if found is None:
            raise ValueError(f"openssl says nothing of the {unit} of an accuracy")
        numbers.append("-" if found.group(1) == ABSENT else number(found.group(1)))
    return "accuracy " + " ".join(numbers)


def imprint_of(text: str) -> str:
    """The octets of an imprint in hexadecimal, from the dump that is printed."""
    dump = re.search(r"^Message data:\n((?:    .*\n)+)", text, re.M)
    if dump is None:
        raise ValueError("openssl prints no imprint")
    return "".join(re.findall("[0-9a-f]{2}", "".join(line[11:59] for line in dump.group(1).splitlines())))


def stamp_lines(text: str, tsa: Optional[bytes], names: Optional[dict[str, str]] = None) -> list[str]:
    """The lines of a TSTInfo, from its text. Of the `tsa` it has the name alone, so its octets are handed in; `names` are those that
    the configuration gave to identifiers."""
    policy = must_say(text, "Policy OID")
    lines = [
        "tst",
        "policy " + (names or {}).get(policy, policy),
        "algorithm " + HASHES[must_say(text, "Hash Algorithm")],
        "digest " + imprint_of(text),
        "serial " + number(must_say(text, "Serial number")),
        "time " + time_of(must_say(text, "Time stamp")),
    ]
    accuracy, nonce = said(text, "Accuracy"), said(text, "Nonce")
    if accuracy is not None:
        lines.append(accuracy_of(accuracy))
    # That it is no, OpenSSL says of an absent one; it spells no default.
    lines.append("ordering " + {"yes": "true", "no": "absent"}[must_say(text, "Ordering")])
    if nonce is not None:
        lines.append("nonce " + number(nonce))
    if (tsa is None) != (said(text, "TSA") is None):
        raise ValueError("openssl says of the name of an authority that it is there, or that it is not")
    return lines if tsa is None else [*lines, "tsa " + tsa.hex()]


def request_lines(text: str) -> list[str]:
    """The lines of a request, from its text."""
    lines = ["request", "algorithm " + HASHES[must_say(text, "Hash Algorithm")], "digest " + imprint_of(text)]
    policy, nonce = said(text, "Policy OID"), said(text, "Nonce")
    lines += [] if policy is None else ["policy " + policy]
    lines += [] if nonce is None else ["nonce " + number(nonce)]
    # That it is no, OpenSSL says of an absent one; it spells no default.
    return [*lines, "certreq " + ("true" if said(text, "Certificate required") == "yes" else "absent")]


def response_lines(text: str) -> list[str]:
    """The lines of a response, from its text."""
    lines = ["response", "status " + STATUSES[must_say(text, "Status")]]
    description, failures = said(text, "Status description"), said(text, "Failure info")
    lines += [] if description is None else ["text " + description]
    lines += [] if failures is None else ["fail " + FAILURES[failure] for failure in failures.split(", ")]
    return [*lines, "token absent" if "Not included." in text else "token present"]
