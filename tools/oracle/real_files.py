#!/usr/bin/env python3
"""Makes the text that `crates/real_files` must print, crates/real_files/stdout, from what OpenSSL says of its files.

    python3 tools/oracle/real_files.py > crates/real_files/stdout
    python3 tools/oracle/real_files.py --compare

The first line of crates/real_files/args is the content of the files that were signed without it; each other line is a file that
is told about. `openssl asn1parse` says where the elements of a file are, `openssl cms -cmsout -print` the versions, the types
and algorithms and which parts there are, `openssl ts` and `openssl x509` what is in requests, responses, tokens and
certificates, and `openssl dgst` all digests. The script ends with an error if two of these commands do not agree about a file,
and if a file NAME.N.tok is not the token of the signer N of NAME_ts.p7s. It verifies each signature over the octets whose digest
is in the line `signed`, where the certificate is in the file, and says on the standard error how many hold. What OpenSSL cannot
say, the rules that refuse a file, is worked out below from docs/LINES.md, each with a remark. The program itself is never run.

With --compare nothing is written; the exit status is 1 if the text is not that of crates/real_files/stdout.
"""
from __future__ import annotations

import datetime
import functools
import re
import sys
from pathlib import Path
from typing import Optional

TOOLS = Path(__file__).resolve().parent.parent
sys.path.insert(0, str(TOOLS))
from oracle.identifiers import DIGEST_OIDS  # noqa: E402
from oracle.openssl_lines import request_lines, response_lines, stamp_lines  # noqa: E402
from oracle.openssl_signed import NAMES, Signed, Signer, demand, elements, openssl  # noqa: E402

ROOT = TOOLS.parent
CRATE, SHOWN = ROOT / "crates" / "real_files", ROOT / "data" / "real"
SHA_1 = DIGEST_OIDS["sha1"]


@functools.cache
def digest(octets: bytes, name: str = "sha256") -> str:
    """The digest of octets, in hexadecimal, by openssl."""
    return openssl("dgst", "-r", "-" + name, given=octets).split()[0]


# The lines, in the order in which docs/LINES.md and the crate state them.


def sum_line(name: str, octets: bytes) -> str:
    """A line of how long octets are, and of their digest."""
    return f"{name} {len(octets)} sha256 {digest(octets)}"


def agreement(version: int, demanded: int) -> str:
    """What is shown of a version."""
    return f"version {version} {'agrees' if version == demanded else 'differs'}"


def shown_lines(file: Signed) -> list[str]:
    """The lines that show a file."""
    lines = [
        "signed",
        agreement(file.version, file.demanded_version()),
        f"digests {len(file.digests)}",
        f"type {file.type}",
        "content absent" if file.content is None else f"content {len(file.content)}",
        f"certificates {len(file.certificates or [])}",
        f"crls {len(file.crls or [])}",
        f"signers {len(file.signers)}",
    ]
    for place, signer in enumerate(file.signers, start=1):
        # RFC 5652 5.3: version 3 goes with a key identifier, and 1 with issuer and serial number.
        demanded = 3 if signer.sid_line().startswith("keyid") else 1
        lines += [
            f"signer {place} {agreement(signer.version, demanded)}",
            signer.sid_line(),
            f"digest {signer.algorithm}",
            f"signature {signer.signature_algorithm}",
            "attributes absent" if signer.types is None else f"attributes {len(signer.types)}",
            f"tokens {len(signer.tokens)}",
        ]
    return lines


def part_lines(file: Signed) -> list[str]:
    """The lines of its parts."""
    lines = ["parts"] + [f"lists {oid}" for oid in file.digests]
    lines.append("content -" if file.content is None else sum_line("content", file.content))
    for name, parts in ("certificates", file.certificates), ("crls", file.crls):
        lines.append(f"{name} {'-' if parts is None else len(parts)}")
    for place, signer in enumerate(file.signers, start=1):
        lines.append(f"signer {place}")
        lines += [f"attribute {oid}" for oid in signer.types or []]
        lines.append("signed -" if signer.signed is None else sum_line("signed", signer.signed))
        lines.append(sum_line("signature", signer.signature))
        lines.append(f"unsigned {'-' if signer.unsigned_types is None else len(signer.unsigned_types)}")
        lines += [sum_line("token", token.whole) for token in signer.tokens]
    return lines


def answer(file: Signed, content: Optional[bytes]) -> str:
    """Whether the file fits a content that is handed in, or none: the rules of `cmsproof fit`, in their order."""
    if file.refused:
        # C1 is told by the fault alone; C2 by its code.
        return file.refused if file.refused.startswith("malformed") else "refused C2 NotSignedData"
    if not file.signers:
        return "refused C3 NoSigner"
    if file.content is not None and content is not None:
        return "refused C5 ContentTwice"
    signed = file.content if content is None else content
    if signed is None:
        return "refused C4 NoContent"
    for place, signer in enumerate(file.signers, start=1):
        rule = signer_rule(file, signer, signed)
        if rule:
            return f"refused signer {place} {rule}"
    return f"fits {len(file.signers)}"


def signer_rule(file: Signed, signer: Signer, content: bytes) -> Optional[str]:
    """The first of S1 to S6 that a signer fails. SHA-1 is not allowed."""
    if signer.types is None:
        return "S1 NoSignedAttrs"
    demand(file.oid(signer.only("content")) == file.type, "the content-type attribute names another type (S3)")
    stated = signer.only("digest").contents.hex()
    if signer.algorithm == SHA_1:
        return "S5 DigestAlgorithm"
    return None if digest(content, NAMES[signer.algorithm]) == stated else "S6 DigestDiffers"


def changed(content: bytes, place: int) -> bytes:
    """A content with one bit changed."""
    return content[:place] + bytes([content[place] ^ 1]) + content[place + 1 :]


def answer_lines(file: Signed, content: bytes) -> list[str]:
    """The lines of the answers, for each way to hand in a content."""
    last = len(content) - 1
    handed: list[tuple[str, Optional[bytes]]] = [
        ("alone", None),
        ("beside", content),
        ("pieces", content),
        ("opened", content),
        ("cut", content[:-1]),
    ]
    handed += [(f"changed {place}", changed(content, place)) for place in (0, len(content) // 2, last)]
    return [f"{name} {answer(file, octets)}" for name, octets in handed]


def signed_lines(file: Signed) -> list[str]:
    """The lines of a SignedData."""
    if file.refused:
        # What reads it twice, to show it and to write it, says the same twice.
        return [file.refused, f"read {file.refused}"]
    # DER has one encoding of a value, so what is written is the file.
    return shown_lines(file) + part_lines(file) + [sum_line("written", file.octets)]


def hold_token(path: Path, octets: bytes) -> None:
    """Demands that NAME.N.tok is the token of the signer N of NAME_ts.p7s."""
    name, place, _ending = path.name.split(".")
    stamped = path.with_name(f"{name}_ts.p7s")
    tokens = Signed(stamped, stamped.read_bytes()).signers[int(place) - 1].tokens
    demand([token.whole for token in tokens] == [octets], f"{path.name} is not the token of signer {place} of {stamped.name}")


def time_of(text: str, name: str) -> str:
    """An end of the validity that `openssl x509 -dates` prints."""
    found = re.search(f"{name}=(.*)", text)
    return f"{datetime.datetime.strptime(found.group(1) if found else '', '%b %d %H:%M:%S %Y GMT'):%Y%m%d%H%M%SZ}"


def certificate_lines(path: Path, octets: bytes) -> list[str]:
    """The lines of a certificate."""
    body = elements(path, octets).parts[0].parts[1:]  # behind the version
    serial, _algorithm, issuer, _validity, subject, key = body[:6]

    def about(*words: str) -> str:
        return openssl("x509", "-inform", "DER", "-in", path, "-noout", *words)

    stated = about("-serial").strip().partition("=")[2]
    demand(serial.contents.hex().upper() == stated, f"{path.name}: the serial numbers differ")
    identifier = re.search(r"Identifier: \n *([0-9A-F:]+)", about("-ext", "subjectKeyIdentifier"))
    purpose = re.search(r"Usage: (critical)?\n *(.*)", about("-ext", "extendedKeyUsage"))
    # RFC 3161 2.3: the purpose is critical, and it is the only one.
    stamping = purpose is not None and purpose.groups() == ("critical", "Time Stamping")
    lines = ["cert", f"serial {serial.contents.hex()}", f"issuer {issuer.whole.hex()}", f"subject {subject.whole.hex()}"]
    lines += ["from " + time_of(about("-dates"), "notBefore"), "until " + time_of(about("-dates"), "notAfter")]
    lines.append(f"key {key.whole.hex()}")
    if identifier:
        lines.append(f"keyid {identifier.group(1).replace(':', '').lower()}")
    return [*lines, f"stamping {'yes' if stamping else 'no'}"]


def lines_of(path: Path, octets: bytes, content: bytes, held: list[bool]) -> list[str]:
    """The lines of a file; whether its signatures hold is put into `held`."""
    if path.suffix == ".tsq":
        return request_lines(openssl("ts", "-query", "-text", "-in", path))
    if path.suffix == ".tsr":
        return response_lines(openssl("ts", "-reply", "-text", "-in", path))
    if path.suffix == ".der":
        return certificate_lines(path, octets)
    file = Signed(path, octets)
    if not file.refused:
        held += [s.verifies(file.certificates) for s in file.signers if s.signed is not None]
    stamp = []
    if path.suffix == ".tok":
        hold_token(path, octets)
        stamp = stamp_lines(openssl("ts", "-reply", "-token_in", "-text", "-in", path), None)
    return signed_lines(file) + stamp + answer_lines(file, content)


def hold_copies() -> None:
    """The documents' commands read data/real, and the program's folder must hold its own: a link is refused by `rt`."""
    for copy in sorted(SHOWN.glob("*.p7s")) + [SHOWN / "blob.bin"]:
        demand(copy.read_bytes() == (CRATE / "data" / copy.name).read_bytes(), f"{copy} differs from the file in {CRATE}/data")


def main() -> int:
    """Makes the text, and writes or compares it."""
    hold_copies()
    place, *names = (CRATE / "args").read_text().split()
    content, text = (CRATE / "data" / place).read_bytes(), ""
    held: list[bool] = []
    for name in names:
        path = CRATE / "data" / name
        octets = path.read_bytes()
        lines = [f"file {name}", sum_line("octets", octets)] + lines_of(path, octets, content, held)
        text += "".join(line + "\n" for line in lines) + "\n"
    verified = f"{len(held)} signers with signed attributes; openssl verifies {held.count(True)} of these"
    print(f"{len(names)} files, {verified}", file=sys.stderr)
    if "--compare" not in sys.argv[1:]:
        sys.stdout.write(text)
    elif text != (CRATE / "stdout").read_text():
        print("the text is not that of crates/real_files/stdout", file=sys.stderr)
        return 1
    return 0


if __name__ == "__main__":
    sys.exit(main())
