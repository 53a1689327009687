"""The chains of time-stamps in an evidence record (RFC 4998 5.1), for a reader: no part of a verdict. It takes for granted that the library
read the record."""
from __future__ import annotations

from typing import NamedTuple, Union

import cmsproof
from cmsproof.octets import Buffer
from cmsproof_tools import der


class Link(NamedTuple):
    """An archive time-stamp: the numbers of its chain and of its place there, its digest algorithm, the time that its token says, and the
    token; None of what it has not."""

    chain: int
    number: int
    algorithm: Union[str, None]
    time: Union[str, None]
    token: bytes


def tokens_in(octets: bytes) -> list[bytes]:
    """The time-stamps in the chains of a record, in the order of the file. Raises ValueError or IndexError where it is none."""
    chains = der.elements(der.elements(der.only(der.SEQUENCE, octets))[-1].contents)
    found = [der.elements(stamp.contents)[-1].whole for chain in chains for stamp in der.elements(chain.contents)]
    return found


def links_of(record: Buffer) -> list[Link]:
    """The time-stamps of a record, in the order of the file. Raises ValueError or IndexError where it is none."""
    octets = bytes(record)
    told = cmsproof.show("evidence", octets).get("stamp", [])
    tokens = tokens_in(octets)
    if len(told) != len(tokens):
        raise ValueError("it is no evidence record")
    return [Link(one["chain"], one["stamp"], one["algorithm"], one["time"], token) for one, token in zip(told, tokens)]


def end_of(links: list[Link], number: int, at: str) -> Union[str, None]:
    """Until when this time-stamp serves: the time of the next one, and of the last one `at`, or where that is "" its own time."""
    return links[number + 1].time if number + 1 < len(links) else at or links[number].time
