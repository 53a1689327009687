"""cmsproof-trust: makes a trust list from certificates."""
from __future__ import annotations

import argparse
import os
from typing import TYPE_CHECKING, Callable, Iterator, NamedTuple

from cmsproof_tools.issuer_words import add_words, asked_of, goes_with_issuers, names_issuers
from cmsproof_tools.listing import HEAD, warnings_of
from cmsproof_tools.running import DONE, MALFORMED, REFUSED, Stop, Words, module, read, shown, tell, write
from cmsproof_tools.texts import in_order, is_moment, trust_entries

if TYPE_CHECKING:
    from cmsproof_tools.certificates import Certificate

ABOUT = """Writes a trust list, version 2, of the certificates in these files to standard output, in the order in which they
are named. A comment above each says whose it is.

    cmsproof-trust --signer alice.pem --tsa authority.pem --until 20351231235959Z > trust.txt

A file holds one certificate, in DER or PEM. A file with several in PEM is refused, for whoever made it may have put one more
into it; with --all, each of them is trusted. A listed certificate is not trusted for those that it issued. A TIME is written as
YYYYMMDDHHMMSSZ or YYYYMMDDHHMMSS.fZ, in UTC.

Before you trust a certificate, compare its SHA-256, which its comment has, with what its owner told you in another way.

With an issuer, the certificates are found in signed files: authorities first, then signers, at the times of stamps that pass:

    cmsproof-trust --issuer ca.pem --tsa-issuer tsa-ca.pem --crl *.crl --from-files letters/*.p7s > trust.txt

OpenSSL judges the paths. A certificate without a valid path gets no entry, and a line on standard error. With revocation lists an
entry ends with what is known, and a line above it says until when the certificate serves, for what looks ahead, as
`cmsproof-archive due`. This is not proved.

A line on standard error warns of an authority's certificate that is not for time-stamping alone (RFC 3161 2.3), for the program
refuses the tokens under it, and of one that is an issuer's.

Exit status: 0 done; 1 a file has several certificates, or one that is no issuer's, two lists differ, two trusted lists are of one
territory, or nobody gets an entry, and no list is written; 2 a file does not have the form of what it was named as; 3 wrong words;
4 a file, a library or OpenSSL failed.
"""
# the words about lists, each of which is said alone
LISTS = {"explain", "diff", "merge"}


class Entry(NamedTuple):
    """An entry of the list: the role, the file where the certificate was found, and the certificate."""

    role: str
    path: str
    certificate: Certificate

    def warnings(self) -> list[str]:
        """What a reader should know before trusting it."""
        return warnings_of(self.role, self.certificate)


def moment(text: str) -> str:
    """A moment of a trust list."""
    if is_moment(text):
        return text
    raise argparse.ArgumentTypeError(f"{text} is no time, as 20351231235959Z is one")


def named_as(role: str) -> Callable[[str], tuple[str, str]]:
    """How a file is named for this role."""
    return lambda path: (role, path)


def add_lists(parser: Words) -> None:
    """The words about lists."""
    parser.add_argument("--explain", action="once", metavar="LIST", help="show a trust list as a table")
    differ = "show where two trust lists differ; status 1 if they do"
    parser.add_argument("--diff", action="once", nargs=2, metavar=("OLD", "NEW"), help=differ)
    merge = "write one list of several: a certificate is trusted when all that have it do"
    parser.add_argument("--merge", action="extend", nargs="+", metavar="LIST", help=merge)


def parser_of(tool: str) -> Words:
    """The parser of the words."""
    parser = Words(tool, description=ABOUT)
    for role, what in (("signer", "somebody who signs files"), ("tsa", "a time-stamping authority")):
        parser.add_argument(
            "--" + role,
            dest="named",
            action="extend",
            nargs="+",
            default=[],
            metavar="FILE",
            type=named_as(role),
            help=f"the certificate of {what}",
        )
    add_words(parser, several=True)
    parser.add_argument(
        "--from-files", action="extend", nargs="+", default=[], metavar="FILE", help="the signed files to look at"
    )
    parser.add_argument(
        "--files-from", action="append", default=[], metavar="FILE", help="a list of their names, one on each line"
    )
    parser.add_argument("--null", action="store_true", help="names in lists end in an octet 00, as find -print0 writes them")
    parser.add_argument("--sha1", action="store_true", help="allow SHA-1 in certificates, lists, responses and stamps")
    add_lists(parser)
    parser.add_argument("--all", action="store_true", help="take each certificate of a file that has several")
    for word, name in (("--from", "first"), ("--until", "last")):
        when = f"the {name} moment of trust; open by default"
        parser.add_argument(word, dest=name, action="once", type=moment, metavar="TIME", help=when)
    return parser


def certificates_of(path: str, several: bool) -> list[Certificate]:
    """The certificates of a file, in their order: one, unless several are allowed."""
    try:
        found: list[Certificate] = module("certificates").certificates_in(read(path))
    except ValueError as error:
        raise Stop(MALFORMED, f"{shown(path)}: {error}") from error
    count = len({certificate.octets for certificate in found})
    if count > 1 and not several:
        choice = "name a file with the one that you trust, or trust all of them by --all"
        raise Stop(REFUSED, f"{shown(path)}: {count} certificates are in it: {choice}")
    return found


def entries_of(named: list[tuple[str, str]], several: bool, told: Callable[[str], None]) -> list[Entry]:
    """The entries of the files that are named, each once. `told` is called with a line for each that is left out."""
    entries: list[Entry] = []
    known: set[tuple[str, bytes]] = set()
    for role, path in named:
        for number, certificate in enumerate(certificates_of(path, several), start=1):
            if (role, certificate.octets) in known:
                told(f"{shown(path)}: certificate {number} is in the list already")
                continue
            known.add((role, certificate.octets))
            entries.append(Entry(role, path, certificate))
    return entries


def lines_of(entries: list[Entry], first: str, last: str) -> Iterator[str]:
    """The lines of the list."""
    yield HEAD
    for entry in entries:
        yield ""
        yield "# " + shown(entry.path)
        yield from ("# " + line for line in entry.certificate.about())
        yield from ("# warning: " + line for line in entry.warnings())
        yield f"{entry.role} {first} {last} {entry.certificate.octets.hex()}"


def compared(tool: str, parser: Words, given: argparse.Namespace) -> int | None:
    """Does what is asked about lists, and answers the exit status; None where nothing is asked."""
    said = {name for name, value in vars(given).items() if value != parser.get_default(name)}
    if not said & LISTS:
        return None
    # (a period, or an issuer, would be left out without a word)
    if len(said) > 1:
        parser.error("--explain, --diff and --merge go with no other word")
    lists = module("comparing_lists")
    if given.merge is not None:
        text, told = lists.merged(given.merge)
        for line in told:
            tell(tool, line)
        write("-", text)
        return DONE
    lines = list(lists.differing(*given.diff) if given.diff else lists.explained(given.explain))
    write("-", "".join(line + "\n" for line in lines).encode("utf-8", "surrogateescape"))
    return REFUSED if given.diff and lines else DONE


def issued(tool: str, given: argparse.Namespace, entries: list[Entry]) -> int:
    """Writes the list of what issuers that are trusted issued, and answers the exit status."""
    issuers, issuing, archive = module("issuers"), module("issuing"), module("archive")
    names = [*given.from_files, *(name for path in given.files_from for name in archive.names_in(path, given.null))]
    period = module("periods").Period(given.first or "-", given.last or "-", "--until says so" if given.last else "")
    known = [issuers.Entry(entry.role, period, entry.certificate, shown(entry.path)) for entry in entries]
    asked = asked_of(given, given.all, period)
    text, status = issuing.list_text(asked, known, names, lambda line: tell(tool, line), jobs=len(os.sched_getaffinity(0)))
    if not any(trust_entries(text)):
        raise Stop(max(status, REFUSED), "no certificate of these files gets an entry: no list is written")
    write("-", text)
    return int(status)


def check_words(parser: Words, given: argparse.Namespace) -> bool:
    """Whether issuers are named. Ends the tool where words are missing that go with others."""
    issuers, files = names_issuers(given), given.from_files + given.files_from
    if issuers and not files:
        parser.error("no signed file is named: --from-files FILE or --files-from FILE")
    if (files or goes_with_issuers(given)) and not issuers:
        parser.error("no issuer is named: --issuer FILE or --tsa-issuer FILE")
    if not given.named and not issuers:
        parser.error("no certificate is named: --signer FILE or --tsa FILE")
    if given.first and given.last and not in_order(given.first, given.last):
        parser.error("--from is later than --until")
    return issuers


def main(tool: str, words: list[str]) -> int:
    """Runs the tool with these words and answers its exit status."""
    parser = parser_of(tool)
    given = parser.parse_args(words)
    status = compared(tool, parser, given)
    if status is not None:
        return status
    by_issuer = check_words(parser, given)
    entries = entries_of(given.named, given.all, lambda line: tell(tool, line))
    status = DONE
    if by_issuer:
        status = issued(tool, given, entries)
    else:
        text = "".join(line + "\n" for line in lines_of(entries, given.first or "-", given.last or "-"))
        write("-", text.encode("utf-8", "surrogateescape"))
    for entry in entries:
        for line in entry.warnings():
            tell(tool, f"warning: {shown(entry.path)}: {entry.certificate.about()[0]}: {line}")
    return status
