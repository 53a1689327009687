"""Bundles of evidence records (RFC 4998): what shows the verdict of a record and of its file again, and that verdict, asked anew."""
from __future__ import annotations

import json
import time
from contextlib import ExitStack
from functools import partial
from typing import Any, NamedTuple, Union

import cmsproof
from cmsproof.octets import File
from cmsproof.verdicts import Said
from cmsproof_tools import bundles
from cmsproof_tools.archive_words import ALGORITHMS
from cmsproof_tools.bundles import ANSWERS, CONTENT, QUESTIONS, RECORD, TRUST, VERDICT, VERIFY, Bundle, Malformed, summed
from cmsproof_tools.checking import EVIDENCED, STATUSES, opened
from cmsproof_tools.evidenced import first_ends
from cmsproof_tools.evidence import Judged, check_all, content_of, differences, trust_of
from cmsproof_tools.running import Stop, one_line, shown
from cmsproof_tools.texts import answers_text, is_moment
from cmsproof_tools.verify import fault_of
from cmsproof_tools.versions import versions

# (which belongs to the form: another text needs another number of it)
HOW = """This bundle shows what cmsproof says of one evidence record (RFC 4998), which is of one file, content.bin.

Three commands of cmsproof show it again, in the folder into which the bundle was unpacked:

    cmsproof evidence questions --trust trust.txt record.ers > asked.txt
    cmsproof-verify asked.txt vouched.txt
    cmsproof evidence check --trust trust.txt --answers vouched.txt{options} record.ers content.bin

The last one prints the line of verdict.txt. `cmp asked.txt questions.txt` and `cmp vouched.txt answers.txt` print nothing.{content}

One command does all of this, and compares the sums of MANIFEST.json, and trust.txt with your own trust list:

    cmsproof-archive evidence --verify BUNDLE --trust YOURS{handed}

Whom to trust is for you to say, and trust.txt is what the maker of this bundle says; so is until when an algorithm holds, each `--end`, and
up to when the last time-stamp must serve, `--at`. What is accepted existed at the time in the line. Whose it is no record says.
"""


class Policy(NamedTuple):
    """By what a record is judged beside the trust list: ends of algorithms, the moment up to which the last time-stamp must serve or "", and
    whether nothing else may be covered."""

    ends: tuple[tuple[str, str], ...]
    at: str
    whole: bool

    def words(self) -> str:
        """The options of the program that say so."""
        ends = "".join(f" --end {name}={last}" for name, last in self.ends)
        return ends + (f" --at {self.at}" if self.at else "") + (" --whole" if self.whole else "")


def policy_of(manifest: dict[str, Any]) -> Policy:
    """By what the record of a bundle was judged. Raises Malformed where its manifest does not say it."""
    ends, at, whole = manifest["ends"], manifest["at"], manifest["whole"]
    if not all(isinstance(end, list) and len(end) == 2 and all(isinstance(part, str) for part in end) for end in ends):
        raise Malformed("its ends of algorithms are none")
    if not all(name in ALGORITHMS and is_moment(last) for name, last in ends) or not (at == "" or is_moment(at)):
        raise Malformed("its ends of algorithms are none")
    pairs = tuple((name, last) for name, last in ends)
    if pairs != first_ends(pairs):
        raise Malformed("its ends of algorithms are none")
    return Policy(pairs, at, whole)


def judged(record: Any, data: Any, trust: cmsproof.TrustList, policy: Policy) -> Judged:
    """Asks of a record, verifies each question, and checks the record of these data with the answers."""
    asked = cmsproof.evidence.questions(record, trust=trust)
    vouched = [question for question in asked.asked if fault_of(question) is None]
    lines = {question.line for question in vouched}
    ends, at = dict(policy.ends), policy.at or None
    said = cmsproof.evidence.check(
        record, data, trust=trust, verifier=lambda one: one.line in lines, ends=ends, at=at, whole=policy.whole
    )
    return Judged(Said(said.verdict, said.code, said.line), asked.text, answers_text(vouched))


def how(manifest: dict[str, Any]) -> str:
    """The text that says how a bundle is verified."""
    content, options = manifest["content"], policy_of(manifest).words()
    if content["member"]:
        return HOW.format(options=options, content="", handed="")
    text = f"\n\nThe file is not in the bundle: content.bin is the one of {content['size']} octets with the SHA-256\n"
    return HOW.format(options=options, content=f"{text}{content['sha256']}.", handed=" --content content.bin")


def make(given: Any) -> tuple[int, str]:
    """Makes a bundle, and gives the status and the line of its verdict."""
    with ExitStack() as stack:
        trusted = bytes(stack.enter_context(opened(given.trust)).octets)
        trust = trust_of(trusted, given.trust)
        record = stack.enter_context(opened(given.record))
        file = stack.enter_context(opened(given.file))
        policy = Policy(first_ends(given.end), given.at or "", given.whole)
        said = judged(record.octets, file.octets, trust, policy)
        line, status = said.verdict.line, STATUSES[said.verdict.verdict]
        if not said.questions:
            raise Stop(status, f"{shown(given.record)}: {line}: there is nothing to be shown of it")
        members = {RECORD: record.octets, TRUST: trusted, QUESTIONS: said.questions, ANSWERS: said.answers}
        members[VERDICT] = line.encode() + b"\n"
        manifest: dict[str, Any] = {
            "form": bundles.RECORD_FORM,
            **{"file": one_line(given.file), "record": one_line(given.record), **summed(record.octets)},
            **{"line": line, "status": status, "ends": policy.ends, "at": policy.at, "whole": policy.whole},
            "versions": versions(),
            "content": {**summed(file.octets), "member": not given.without_content},
            "made": time.strftime("%Y%m%d%H%M%SZ", time.gmtime()),
        }
        members[VERIFY] = how({**manifest, "ends": [list(end) for end in policy.ends]}).encode()
        if not given.without_content:
            members[CONTENT] = file.octets
        manifest["members"] = {name: summed(octets) for name, octets in members.items()}
        members[bundles.MANIFEST] = (json.dumps(manifest, indent=1) + "\n").encode()
        bundles.write_bundle(given.to, members, partial(check_all, record, file))
    return status, told(line)


def told(line: str) -> str:
    """A line of the library as the tools say it: whose an accepted record's file is no record says."""
    return line.replace("accepted ", EVIDENCED, 1)


def judged_again(bundle: Bundle, beside: Union[File, None], trust: cmsproof.TrustList) -> tuple[Judged, list[str]]:
    """What is said of the record of a bundle now, and what the bundle has otherwise. Raises Malformed if it is none."""
    policy, data = policy_of(bundle.manifest), content_of(bundle, beside)
    if data is None:
        raise Malformed("by its manifest there is no file that the record is of")
    said = judged(bundle.members[RECORD], data, trust, policy)
    return said, differences(bundle, said, how)
