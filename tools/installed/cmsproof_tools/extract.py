"""cmsproof-extract: writes the SignedData and the contents that are found in files, for whoever wants to check them by hand."""
from __future__ import annotations

import hashlib
import json
import os
import signal
from functools import partial as partial_of
from typing import NamedTuple, Union

import cmsproof
from cmsproof.octets import Buffer, File
from cmsproof_tools import descriptors
from cmsproof_tools.checking import Unread, opened
from cmsproof_tools.finding import TOO_LONG, again_in_der, found_in
from cmsproof_tools.found import Found, Unfound
from cmsproof_tools.kinds import EMPTY
from cmsproof_tools.outcomes import lost, named
from cmsproof_tools.running import DONE, FAILED, Started, Stop, Words, one_line, shown, tell, write
from cmsproof_tools.signed_parts import without_empty
from cmsproof_tools.workers import Workers
from cmsproof_tools.writing import put_new

ABOUT = """Writes each signature that is found in files, as a SignedData in DER, and its content, if the file has it elsewhere, with a
line of JSON for each.

    cmsproof-extract --to signatures contract.pdf
    cmsproof questions --trust trust.txt signatures/contract.pdf.1.p7s | cmsproof-verify > answers.txt
    cmsproof check --trust trust.txt --answers answers.txt --content signatures/contract.pdf.1.content signatures/contract.pdf.1.p7s

With --mend unsigned attributes that are there and empty (M15) are left out of what is written, which no signature covers:

    cmsproof-extract --mend --to mended letter.p7s

No file is replaced. Exit status: 0 all is written; 1 a file has nothing to write, or a signature is refused; 3 wrong words; 4 a file
or a library failed.
"""
ENDINGS = {"signed": "p7s", "token": "tst"}
NO_TRUST = b"cmsproof trust 2\n"
# what is noted where --mend left nothing out
NOTHING = "nothing to mend: no unsigned attributes are there and empty (M15)"
# how many signers are named of those whose attributes are left out: a file can have any number
MOST_NAMED = 20


class Wanted(NamedTuple):
    """What is written besides: signatures that do not cover the whole file; and whether empty unsigned attributes are left out."""

    partial: bool
    mend: bool


def digest_of(octets: Buffer) -> str:
    """The SHA-256 of octets."""
    with memoryview(octets) as view:
        return hashlib.sha256(view).hexdigest()


def written(found: Found, beginning: str) -> dict[str, object]:
    """Writes a signature and its content, and answers the members of JSON that say so."""
    members: dict[str, object] = {"container": found.container, "kind": found.kind}
    members.update({name: text for name in ("converted", "covers") if (text := getattr(found, name))})
    if found.notes:
        members["notes"] = [one_line(note) for note in found.notes]
    for what, ending, octets in (("signed", ENDINGS[found.kind], found.signed), ("content", "content", found.content)):
        if octets is not None:
            put_new(f"{beginning}.{ending}", octets)
            members.update({what: f"{beginning}.{ending}", f"{what}_sha256": digest_of(octets)})
    return members


def extracted(name: str, folder: str, number: int, found: Union[Found, Unfound]) -> tuple[int, dict[str, object]]:
    """The status and the line of JSON of what was found in a file."""
    members: dict[str, object] = {**named(name), **({"part": one_line(found.part)} if found.part else {})}
    if isinstance(found, Unfound):
        return found.status, {**members, "line": found.line, "reason": one_line(found.reason)}
    return DONE, {**members, **written(found, os.path.join(folder, f"{os.path.basename(name)}.{number}"))}


def in_der(found: Union[Found, Unfound]) -> Union[Found, Unfound]:
    """The same in DER, where the library says that it is malformed and it is BER."""
    if isinstance(found, Unfound) or cmsproof.questions(found.signed, trust=cmsproof.TrustList(NO_TRUST)).code != "Q1":
        return found
    return again_in_der(found, "M3") or found


def mended(found: Union[Found, Unfound]) -> Union[Found, Unfound]:
    """The same without empty unsigned attributes, and with what was done; as it was, if there are none, or it is no SignedData."""
    if isinstance(found, Unfound):
        return found
    try:
        octets, signers = without_empty(found.signed)
    except (ValueError, IndexError):
        return found
    if not signers:
        return found
    more = f" and {len(signers) - MOST_NAMED} more" if len(signers) > MOST_NAMED else ""
    whose = ", ".join(map(str, signers[:MOST_NAMED])) + more
    done = f"left out the empty unsigned attributes (a1 00) of signer {whose}, which no signature covers, and wrote the lengths around again"
    return found._replace(signed=octets, converted=", ".join(filter(None, [found.converted, done])))


def ready(found: Union[Found, Unfound], mend: bool) -> Union[Found, Unfound]:
    """The same in DER, and mended if that is asked for; where nothing was to be mended a note says so. Of an empty file nothing is written."""
    if isinstance(found, Found) and not len(found.signed):
        return Unfound(found.part, "F1", EMPTY, found.container)
    # (which the library finds malformed too, so that it would be taken for BER)
    before = mended(found) if mend else found
    read = in_der(before)
    last = mended(read) if mend else read
    if not mend or isinstance(last, Unfound) or before is not found or last is not read:
        return last
    return last._replace(notes=(*last.notes, NOTHING))


def extract(name: str, file: File, folder: str, wanted: Wanted) -> int:
    """Writes all that is found in a file, and answers the worst status."""
    worst = DONE
    for number, found in enumerate(found_in(name, file, wanted.partial), 1):
        status, members = extracted(name, folder, number, ready(found, wanted.mend))
        write("-", json.dumps(members).encode() + b"\n")
        worst = max(worst, status)
    return worst


def outcome_of(tool: str, folder: str, wanted: Wanted, name: str) -> tuple[int, str]:
    """The status of one file, and the line that ends the tool if something fails that costs all files. What else fails is said on
    standard error."""
    try:
        with opened(name) as file:
            status = extract(name, file, folder, wanted)
        return max(status, FAILED if Started.lost else DONE), ""
    except Stop as stop:
        return stop.status, stop.line
    except ImportError as error:
        return FAILED, str(error)
    except Unread as error:
        tell(tool, str(error))
    except MemoryError:
        tell(tool, f"{shown(name)}: failed memory")
    except OSError as error:
        tell(tool, f"failed write {shown(str(error.filename2 or error.filename or folder))}: {error.strerror}")
    except Exception as error:  # a fault of the tool itself: it costs this file, and no other one
        tell(tool, f"{shown(name)}: failed extract: {type(error).__name__}: {error}")
    return FAILED, ""


def lost_at(name: str, by: int) -> tuple[int, str]:
    """As `outcome_of`, of a file at which the process ended that read it, by this signal: that of `bounded`, or another one."""
    if by == signal.SIGPROF:
        status, members = extracted(name, "", 0, Unfound("", "F4", TOO_LONG))
    else:
        (outcome,) = lost(name, by)
        status, members = outcome.status, {**named(name), "line": outcome.line}
    write("-", json.dumps(members).encode() + b"\n")
    return status, ""


def keep_copies(names: list[str]) -> None:
    """Reads what is no file and is named as a descriptor: a process that is started later can't read it once more."""
    for name in names:
        if descriptors.number_named(name) is not None:
            try:
                os.close(descriptors.taken(name, Started.descriptors))
            except (OSError, descriptors.Unfit):
                pass  # which is said of the file


def extract_all(tool: str, folder: str, wanted: Wanted, names: list[str]) -> int:
    """Writes what is found in files, in a process of its own, which is replaced where one ends it, and answers the worst status."""
    keep_copies(names)
    worst = DONE
    with Workers(1, partial_of(outcome_of, tool, folder, wanted)) as workers:
        for name in names:
            # (one at a time, so that no file is read again because another one ended the process)
            for status, line in workers.results([name], lost_at):
                if line:
                    raise Stop(status, line)
                worst = max(worst, status)
    return worst


def make_folder(folder: str) -> None:
    """Makes the folder to write into, if it is not there; the one that it is in must be."""
    try:
        os.mkdir(folder)
    except FileExistsError:
        pass  # (if it is no folder, that is said of the first file that is to be written)
    except OSError as error:
        raise Stop(FAILED, f"failed write {shown(folder)}: {error.strerror}") from error


def main(tool: str, words: list[str]) -> int:
    """Runs the tool with these words and answers its exit status."""
    parser = Words(tool, description=ABOUT)
    about = "the folder to write into, which is made if it is not there; by default the current one"
    parser.add_argument("--to", default=".", metavar="DIR", help=about)
    parser.add_argument("--partial", action="store_true", help="also write signatures that do not cover the whole file")
    parser.add_argument("--mend", action="store_true", help="leave out unsigned attributes that are there and empty (M15)")
    parser.add_argument("files", nargs="+", metavar="FILE", help="a file")
    given = parser.parse_args(words)
    if given.to == "-":
        parser.error("- is no name for --to: write ./-")
    make_folder(given.to)
    return extract_all(tool, given.to, Wanted(given.partial, given.mend), given.files)
