"""The words by which issuers are named, for cmsproof-trust and cmsproof-archive."""
from __future__ import annotations

import argparse
from typing import Any, NamedTuple, Sequence, Union

from cmsproof_tools.periods import Period


class Asked(NamedTuple):
    """What a user asks for: files with issuers of signers and of authorities, other certificates, revocation lists, and the rest; and whether
    the authorities of time-stamps beside files are looked for."""

    issuers: Sequence[str] = ()
    tsa_issuers: Sequence[str] = ()
    between: Sequence[str] = ()
    lists: Sequence[str] = ()
    folders: Sequence[str] = ()
    responses: Sequence[str] = ()
    trusted_lists: Sequence[str] = ()
    operator: Union[str, None] = None
    sha1: bool = False
    several: bool = False
    most: Period = Period()
    stamps: bool = False


def add_words(parser: argparse.ArgumentParser, several: bool) -> None:
    """The words that name issuers and what goes with them; with several files behind each, or with one."""
    for word, what in (
        ("--issuer", "an issuer whose signers are trusted"),
        ("--tsa-issuer", "an issuer whose time-stamping authorities are trusted"),
        ("--intermediate", "certificates that may be part of a path, any number in a file; they are not trusted"),
        ("--crl", "revocation lists; every certificate of a path must then be covered"),
        ("--crl-dir", "a folder of revocation lists"),
        ("--ocsp", "stored responses of OCSP, one in a file"),
        ("--trusted-list", "a national trusted list (ETSI TS 119 612), whose authorities and issuers are trusted"),
    ):
        more: dict[str, Any] = {"action": "extend", "nargs": "+"} if several else {"action": "append"}
        what += "" if several else "; say it before each"
        parser.add_argument(word, default=[], metavar="DIR" if word == "--crl-dir" else "FILE", help=what, **more)
    operator = "the certificate under which trusted lists are signed; without it nobody verifies that"
    parser.add_argument("--scheme-operator", action="once", metavar="FILE", help=operator)


def behind(words: Sequence[str], options: Sequence[str]) -> list[str]:
    """The words that stand behind the value of one of these options, up to the next word that begins with `-`: where one value is taken,
    they are files of another kind."""
    found, at = list[str](), 0
    while at < len(words) and words[at] != "--":
        name, equals, _ = words[at].partition("=")
        at += 1
        if name in options:
            at += not equals
            while at < len(words) and not words[at].startswith("-"):
                found.append(words[at])
                at += 1
    return found


def names_issuers(given: argparse.Namespace) -> bool:
    """Whether the words name somebody who issues certificates."""
    return bool(given.issuer or given.tsa_issuer or given.trusted_list)


def goes_with_issuers(given: argparse.Namespace) -> bool:
    """Whether there are words that need an issuer."""
    return bool(given.crl or given.crl_dir or given.ocsp or given.intermediate or given.scheme_operator)


def asked_of(given: argparse.Namespace, several: bool = False, most: Period = Period()) -> Asked:
    """What these words ask for."""
    return Asked(
        given.issuer,
        given.tsa_issuer,
        given.intermediate,
        given.crl,
        given.crl_dir,
        given.ocsp,
        given.trusted_list,
        given.scheme_operator,
        bool(given.sha1),
        several,
        most,
        bool(getattr(given, "stamps", False)),
    )
