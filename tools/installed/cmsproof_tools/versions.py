"""The versions of all that judges a file: the tools, the library, and the verifier."""
from __future__ import annotations

import hashlib
import importlib.util
import os
import pathlib
import platform

import cryptography
from cryptography.hazmat.backends.openssl.backend import backend

from cmsproof.library import SONAME, library
from cmsproof_tools import VERSION

HERE = pathlib.Path(__file__).resolve().parent


def version_of(name: str) -> str:
    """The version of a library of Python, which need not be there. (What reads it is long to load.)"""
    if importlib.util.find_spec(name) is None:
        return "none"
    from importlib import metadata

    try:
        return metadata.version(name)
    except metadata.PackageNotFoundError:
        return "none"


def digest_of_code() -> str:
    """The first digits of a SHA-256 of the code of the tools and of the package below them: code of one version can change."""
    digest = hashlib.sha256()
    for path in sorted([*HERE.rglob("*.py"), *HERE.with_name("cmsproof").rglob("*.py")]):
        octets = path.read_bytes()
        digest.update(f"{path.relative_to(HERE.parent)} {len(octets)}\n".encode() + octets)
    return digest.hexdigest()[:12]


def digest_of_library() -> str:
    """The first digits of a SHA-256 of the library's file, for the same reason: its number stays as long as its calls do. No text where nobody
    says which file it is."""
    library()
    try:
        with open("/proc/self/maps", encoding="utf-8", errors="surrogateescape") as maps:
            paths = [pathlib.Path(line.rstrip("\n").split(" ", 5)[5].lstrip(" ")) for line in maps if f"/{SONAME}" in line]
        # (a folder may be called so too)
        return hashlib.sha256(next(path for path in paths if path.name.startswith(SONAME)).read_bytes()).hexdigest()[:12]
    except (OSError, IndexError, StopIteration):
        return ""


def versions() -> dict[str, str]:
    """The versions by the names of what has them."""
    number = library().cmsproof_version()
    return {
        "cmsproof-archive": f"{VERSION} {digest_of_code()}",
        "libcmsproof": f"{number >> 16}.{number & 0xFFFF}",
        "cryptography": vars(cryptography)["__version__"],
        "pikepdf": version_of("pikepdf"),
        "verifier": backend.openssl_version_text(),
        "python": platform.python_version(),
    }


def versions_text() -> str:
    """The versions on one line."""
    return ", ".join(f"{name} {version}" for name, version in versions().items())


def versions_kept() -> str:
    """The versions by which a state says that rows were judged, on one line: where nobody says which file the library is, those of no other
    run. (Workers elsewhere may have a library of another machine.)"""
    return f"{versions_text()}, {SONAME} {digest_of_library() or os.urandom(6).hex()}"


# what was said first, when the code was read that this process has
FIRST: list[str] = []


def versions_told() -> str:
    """The versions on one line, as one process tells them another: and how they were before, if other code was installed beside a process
    that stays, which has read the old one."""
    now = versions_text()
    FIRST[:] = FIRST or [now]
    return now if FIRST == [now] else f"{FIRST[0]}, and installed since {now}"
