"""The library libcmsproof by ctypes: the functions, structs and numbers of include/cmsproof.h."""
from __future__ import annotations

import ctypes
import os
from ctypes import POINTER, Structure, c_bool, c_int64, c_size_t, c_uint32, c_uint64, c_void_p
from functools import lru_cache
from struct import Struct
from typing import Any, NamedTuple

SONAME = "libcmsproof.so.1"
# the first number of the version, which says which functions and structs there are
VERSION = 1
DONE, REFUSED, MALFORMED, USAGE, FAILED, NO_ROOM, NO_MEMORY, NO_LIST = range(1, 9)
ACCEPTED, REFUSES, IS_MALFORMED, FAILS, FITS, ANSWERS, SAME, DIFFERENT, COLLISION, WRITTEN = range(1, 11)


class Answer(Structure):
    """What a call says in numbers: `cmsproof_answer`. One of zeros says nothing."""

    _fields_ = [
        ("verdict", c_uint32),
        ("letter", c_uint32),
        ("number", c_uint32),
        ("inner", c_uint32),
        ("kind", c_uint32),
        ("nanoseconds", c_uint32),
        ("seconds", c_int64),
        ("at", c_uint64),
        ("signer", c_uint64),
        ("token", c_uint64),
        ("line", c_uint64),
    ]


# verdict, letter, kind, nanoseconds and seconds of an Answer, all at once
NUMBERS_SAID = Struct("=2I8x2Iq")


class Handle(Structure):
    """A list or a tree that the library holds: `cmsproof_trust`, `cmsproof_answers` or `cmsproof_tree`. One of zeros holds none."""

    _fields_ = [("inside", c_void_p), ("held", c_bool)]


class Flag:
    """A `bool` of the header: True or False alone, since a text as "no" counts as true too, and would let SHA-1 count."""

    @classmethod
    def from_param(cls, given: object) -> Any:
        """What ctypes hands on."""
        if not isinstance(given, bool):
            raise TypeError(f"True or False is needed, and not {given!r}")
        return c_bool.from_param(given)


# (c_void_p takes bytes, an array and an address)
OCTETS, TEXT = (c_void_p, c_size_t), (c_void_p, c_size_t, POINTER(c_size_t))
LIST, SAID, NUMBERS = (POINTER(Handle),), (POINTER(Answer),), (POINTER(c_uint64), c_size_t)
SIGNATURES: dict[str, tuple[Any, ...]] = {
    "cmsproof_trust_read": (*LIST, *OCTETS, *SAID),
    "cmsproof_trust_count": (*LIST, POINTER(c_size_t)),
    "cmsproof_answers_read": (*LIST, *OCTETS, *SAID),
    "cmsproof_questions": (*LIST, *OCTETS, *TEXT, *SAID),
    "cmsproof_check": (*LIST, *LIST, *OCTETS, *OCTETS, Flag, Flag, *TEXT, *SAID),
    "cmsproof_check_under": (*LIST, *LIST, *OCTETS, *OCTETS, Flag, *OCTETS, *OCTETS, *OCTETS, *TEXT, *SAID),
    "cmsproof_check_token": (*LIST, *LIST, *OCTETS, *OCTETS, Flag, *SAID),
    "cmsproof_stamp_check": (*LIST, *LIST, *OCTETS, *OCTETS, Flag, *TEXT, *SAID),
    "cmsproof_stamp_questions": (*LIST, *OCTETS, *TEXT, *SAID),
    "cmsproof_evidence_check": (*LIST, *LIST, *OCTETS, *OCTETS, *NUMBERS, *OCTETS, *OCTETS, Flag, *TEXT, *SAID),
    "cmsproof_evidence_questions": (*LIST, *OCTETS, *TEXT, *SAID),
    "cmsproof_tree_make": (*LIST, *OCTETS, *OCTETS, *SAID),
    "cmsproof_tree_root": (*LIST, *TEXT, *SAID),
    "cmsproof_evidence_make": (*LIST, *OCTETS, *OCTETS, *TEXT, *SAID),
    "cmsproof_evidence_renew_algorithm": (*OCTETS, *TEXT, *SAID),
    "cmsproof_evidence_renew_leaf": (*OCTETS, *OCTETS, *OCTETS, *TEXT, *SAID),
    "cmsproof_evidence_renew": (*LIST, *OCTETS, *OCTETS, *TEXT, *SAID),
    "cmsproof_evidence_rehash_leaf": (*OCTETS, *OCTETS, *OCTETS, Flag, *OCTETS, *TEXT, *SAID),
    "cmsproof_evidence_rehash": (*LIST, *OCTETS, *OCTETS, Flag, *OCTETS, *TEXT, *SAID),
    "cmsproof_fit": (*OCTETS, *OCTETS, Flag, Flag, *TEXT, *SAID),
    "cmsproof_compare": (*OCTETS, c_uint64, *OCTETS, c_uint64, *TEXT, *SAID),
    "cmsproof_request": (*OCTETS, *OCTETS, *OCTETS, *OCTETS, Flag, *TEXT, *SAID),
    "cmsproof_request_of": (*OCTETS, *OCTETS, *OCTETS, *OCTETS, Flag, *TEXT, *SAID),
    "cmsproof_request_of_signature": (*OCTETS, *OCTETS, c_uint64, *OCTETS, *OCTETS, Flag, *TEXT, *SAID),
    "cmsproof_match": (*OCTETS, *OCTETS, *TEXT, *SAID),
    "cmsproof_token": (*OCTETS, *OCTETS, *TEXT, *SAID),
    "cmsproof_attach": (*OCTETS, c_uint64, *OCTETS, *TEXT, *SAID),
    "cmsproof_show": (c_uint32, *OCTETS, *TEXT, *SAID),
}


@lru_cache(maxsize=None)
def library() -> ctypes.CDLL:
    """The library: the one beside these modules, or else the system's. Raises ImportError, with a line, if there is none of this
    version."""
    beside = os.path.join(os.path.dirname(os.path.realpath(__file__)), SONAME)
    try:
        loaded = ctypes.CDLL(beside if os.path.exists(beside) else SONAME)
        version = loaded.cmsproof_version
        version.argtypes, version.restype = (), c_uint32
        if version() >> 16 != VERSION:
            raise ImportError(f"{SONAME} has version {version() >> 16}, and this package needs {VERSION}")
        for name, words in SIGNATURES.items():
            call = getattr(loaded, name)
            call.argtypes, call.restype = words, c_uint32
        for name in ("cmsproof_trust_free", "cmsproof_answers_free", "cmsproof_tree_free"):
            call = getattr(loaded, name)
            call.argtypes, call.restype = LIST, None
    except (OSError, AttributeError) as error:
        raise ImportError(f"the library {SONAME} cannot be used (`make library` builds it): {error}") from error
    return loaded


class Straight(NamedTuple):
    """Calls of the library that convert nothing of what they are handed, which takes as long as they need themselves. Each word must be
    what the header has in its place: `bytes` for octets, and else what ctypes makes of this very type, never a number of Python's.
    """

    questions: Any
    check: Any
    read: Any
    free: Any


@lru_cache(maxsize=None)
def straight() -> Straight:
    """The calls by which short files are checked: those of the library that is loaded, also where its file is another one by now. (No
    other thread of Python runs meanwhile: to let it, and to wait for it, takes longer than it could do in that time.)"""
    loaded = ctypes.PyDLL(library()._name, handle=library()._handle)
    calls = Straight(
        loaded.cmsproof_questions, loaded.cmsproof_check, loaded.cmsproof_answers_read, loaded.cmsproof_answers_free
    )
    for call in calls[:3]:
        call.restype = c_uint32
    calls.free.restype = None
    return calls
