"""What stands behind the refusal of an evidence record (RFC 4998), in the words of who keeps an archive: its cause and its cure (cures.py),
and of some which authority it is about, and until when it had to hold. It is for a reader, and no part of a verdict."""
from __future__ import annotations

import re
from typing import Union

from cmsproof.octets import Buffer
from cmsproof_tools.certificates import Certificate
from cmsproof_tools.chains import Link, end_of, links_of
from cmsproof_tools.cures import OF_RECORDS, known_cures, plain, said_of
from cmsproof_tools.deciding import signer_in
from cmsproof_tools.explaining import LONGEST, entry_text, is_named, sid_text
from cmsproof_tools.signed_parts import token_of
from cmsproof_tools.texts import trust_entries

# the rule of a token behind W4, and the fault behind that
BEHIND = re.compile(r" W4 (K[0-9]+)(?: ([MS][0-9]+))?\b")
# the rules that turn on which authority it is
OF_AUTHORITY = ("K10", "K13", "W7")


def place_text(link: Link) -> str:
    """Which time-stamp it is, for a reader."""
    first = "the first time-stamp" if link.chain == link.number == 1 else f"time-stamp {link.number} of chain {link.chain}"
    return f"{first}, of {link.time}" if link.time else first


def covered_text(links: list[Link], number: int) -> str:
    """What a time-stamp must cover, for a reader (RFC 4998 4.2, 5.2)."""
    if number == 0:
        return "the document"
    is_first = links[number - 1].chain != links[number].chain
    return "the document together with all chains before it" if is_first else "the time-stamp before it"


def of_authority(trusted: bytes, link: Link, until: Union[str, None]) -> str:
    """Which authority a time-stamp names, what the list has of it, and until when it had to hold."""
    sid, _ = signer_in(token_of(link.token, b""))
    entries = [(entry, Certificate(entry.octets)) for entry in trust_entries(trusted) if entry.role == "tsa"]
    listed = [entry_text(entry, certificate) for entry, certificate in entries if is_named(certificate, sid)]
    named = "; ".join(listed) if listed else f"no tsa of the list ({sid_text(sid)})"
    return f"It names {named}." + (f" It had to hold until {until}." if until else "")


def about(octets: Buffer, trusted: bytes, parts: dict[str, str], code: str, at: str) -> str:
    """What is to be said of the time-stamp that a line names: no text where it cannot be read."""
    if len(octets) > LONGEST or "chain" not in parts:
        return ""
    try:
        links = links_of(octets)
        place = int(parts["chain"]), int(parts["chainstamp"])
        number = next(number for number, link in enumerate(links) if (link.chain, link.number) == place)
        until = end_of(links, number, at)
        found = [f"It is about {place_text(links[number])}."]
        if code == "W3":
            found.append(f"It must cover {covered_text(links, number)}.")
        elif code in OF_AUTHORITY:
            found.append(of_authority(trusted, links[number], until))
        elif until and code == "W6":
            found.append(f"Its use ends at {until}.")
    except (ValueError, IndexError, KeyError, StopIteration):
        return ""  # octets that anybody can write: what holds of the code is said
    return "".join(" " + one for one in found)


def explanation(octets: Buffer, trusted: bytes, parts: dict[str, str], line: str, at: str) -> str:
    """What explains the refusal of a record with these parts of its line, in one line. `at` is until when its last time-stamp serves."""
    code = parts.get("code", "")
    if code[:1] == "M":
        fault, record = known_cures().get(code), known_cures()["V1"]
        cause = "it is no evidence record in DER (RFC 4998 3.1)" + (f": {fault.when}" if fault else "")
        return plain(f"Cause: {cause}. Cure: {record.cure} (REFUSALS.md, section {record.section}).")
    found = BEHIND.search(line)
    if code != "W4" or found is None:
        return said_of(code) + about(octets, trusted, parts, code, at)
    rule, fault = known_cures().get(found[1]), known_cures().get(found[2] or "")
    cause, helps = OF_RECORDS.get(found[1], ("", ""))
    said = f"Cause: {cause or (rule.when if rule else '')}" + (f": {fault.when}" if fault else "")
    return plain(f"{said}. Cure: {helps} (REFUSALS.md, section 12).") + about(octets, trusted, parts, found[1], at)
