"""`cmsproof-archive evidence`: a bundle with all that shows a verdict again, and the verdict of a bundle, asked anew."""
from __future__ import annotations

import json
import time
from contextlib import ExitStack, contextmanager
from functools import partial
from typing import Any, Callable, Iterator, NamedTuple, Optional, Union

import cmsproof
from cmsproof_tools import bundles
from cmsproof_tools.archive_words import add_judging
from cmsproof_tools.bundles import ANSWERS, CONTENT, QUESTIONS, RECORD, SIGNED, TRUST, VERDICT, VERIFY
from cmsproof_tools.bundles import Bundle, Malformed, summed
from cmsproof.octets import File
from cmsproof.verdicts import Said
from cmsproof_tools.checking import STATUSES, Unread, check_unchanged, opened
from cmsproof_tools.evidenced import first_ends
from cmsproof_tools.finding import again_in_der, as_one, found_apart
from cmsproof_tools.found import Found, Unfound
from cmsproof_tools.listing import no_list
from cmsproof_tools.outcomes import lost
from cmsproof_tools.running import DONE, FAILED, MALFORMED, REFUSED, USAGE, Started, Stop, Words
from cmsproof_tools.running import check_kept, module, one_line, shown, tell, write
from cmsproof_tools.texts import answers_text
from cmsproof_tools.verify import fault_of
from cmsproof_tools.versions import versions
from cmsproof_tools.workers import Workers

ABOUT = """Makes a bundle, a zip file, of all that shows the verdict of one file again: the signed file, its content, the trust
list, questions, answers, the line, versions, the SHA-256 of each, and how to verify it. Or asks anew what a bundle says.

    cmsproof-archive evidence --trust trust.txt letter.p7s --to letter.zip
    cmsproof-archive evidence --verify letter.zip --trust trust.txt

With --record the bundle is of an evidence record and of its file:

    cmsproof-archive evidence --trust trust.txt --record records/map.tif.ers map.tif --to map.zip

The answers of a bundle are not believed: its signatures are verified anew. Its trust list says whom its maker trusts: --trust
names yours, which must be the same. Only --list-of-the-bundle goes by its maker's, which anybody can write: look at it first.

Exit status: of a bundle that is made or says the same, that of its line: 0 accepted; 1 refused; 2 malformed. Also 1 a bundle that
says something else; 2 a file that is no bundle; 3 wrong words; 4 a file or the library failed.
"""
# (which belongs to the form: another text needs another number of it)
HOW = """This bundle shows what cmsproof says of one signed file.

Three commands of cmsproof show it again, in the folder into which the bundle was unpacked:

    cmsproof questions --trust trust.txt signed.p7s > asked.txt
    cmsproof-verify asked.txt vouched.txt
    cmsproof check --trust trust.txt --answers vouched.txt{options} signed.p7s

The last one prints the line of verdict.txt. `cmp asked.txt questions.txt` and `cmp vouched.txt answers.txt` print nothing.{content}

One command does all of this, and compares the sums of MANIFEST.json, and trust.txt with your own trust list:

    cmsproof-archive evidence --verify BUNDLE --trust YOURS{handed}

Whom to trust is for you to say, and trust.txt is what the maker of this bundle says: anybody can make a list and a bundle in which a
file is accepted. With --list-of-the-bundle in place of --trust YOURS the command goes by it. To have the bundle stamped by an authority, ask for
a stamp of its manifest: `cmsproof request --digest $(sha256sum < MANIFEST.json | cut -c 1-64) manifest.tsq`.
"""


class Judged(NamedTuple):
    """What was said of a signature: its verdict, the questions as a text, and the answers."""

    verdict: Union[cmsproof.Verdict, Said]
    questions: bytes
    answers: bytes


def judged(signed: Any, content: Any, trust: cmsproof.TrustList, sha1: bool) -> Judged:
    """Asks of these octets, verifies each question, and checks them with the answers."""
    asked = cmsproof.questions(signed, trust=trust)
    vouched = [question for question in asked.asked if fault_of(question) is None]
    lines = {question.line for question in vouched}
    verdict = cmsproof.check(signed, trust=trust, content=content, verifier=lambda question: question.line in lines, sha1=sha1)
    return Judged(verdict, asked.text, answers_text(vouched))


def trust_of(octets: Any, name: str) -> cmsproof.TrustList:
    """The trust list of these octets. Raises Stop, with a line, if it is none."""
    try:
        return cmsproof.TrustList(bytes(octets))
    except cmsproof.ListRefused as error:
        raise no_list(name, bytes(octets), error) from error


@contextmanager
def chosen(name: str, file: File, part: Optional[str]) -> Iterator[Found]:
    """The signature of a file that is meant. Raises Stop, with a line, if there is none, or more than one."""
    parts = [one.part for one in found_apart(name, file)]
    meant = [number for number, one in enumerate(parts) if part in (None, one)]
    if len(meant) != 1:
        raise Stop(USAGE, f"{shown(name)}: --part must name one of these: {', '.join(map(shown, parts))}")
    for number, one in enumerate(found_apart(name, file)):
        if number == meant[0]:
            called = shown(f"{name} {one.part}" if one.part else name)
            if isinstance(one, Unfound):
                raise Stop(one.status, f"{called}: {one.line}")
            if one.kind != "signed":
                raise Stop(USAGE, f"{called}: a token alone has no bundle")
            yield one


def how(manifest: dict[str, Any]) -> str:
    """The text that says how a bundle is verified."""
    content = manifest["content"]
    options = (" --content content.bin" if content else "") + (" --sha1" if manifest["sha1"] else "")
    if not content or content["member"]:
        return HOW.format(options=options, content="", handed="")
    text = f"\n\nThe content is not in the bundle: content.bin is the file of {content['size']} octets with the SHA-256\n"
    return HOW.format(options=options, content=f"{text}{content['sha256']}.", handed=" --content content.bin")


def check_all(*files: Optional[File]) -> None:
    """Raises Unread if the octets of one of these files may be others than they were."""
    for file in filter(None, files):
        check_unchanged(file)


def make(tool: str, given: Any) -> tuple[int, str]:
    """Makes a bundle, and gives the status and the line of its verdict."""
    with ExitStack() as stack:
        trusted = bytes(stack.enter_context(opened(given.trust)).octets)
        trust = trust_of(trusted, given.trust)
        file = stack.enter_context(opened(given.file))
        found = stack.enter_context(chosen(given.file, file, given.part))
        beside = None if given.content is None else stack.enter_context(opened(given.content))
        if found.content is not None and beside is not None:
            raise Stop(REFUSED, f"{shown(given.file)}: its content is in it, and --content names another")
        content = found.content if beside is None else beside.octets
        said = judged(found.signed, content, trust, given.sha1)
        if (other := again_in_der(found, said.verdict.code)) is not None:
            found = other
            said = judged(found.signed, content, trust, given.sha1)
        line, status = said.verdict.line, STATUSES[said.verdict.verdict]
        if not said.questions:
            raise Stop(status, f"{shown(given.file)}: {line}: there is nothing to be shown of it")
        members = {SIGNED: found.signed, TRUST: trusted, QUESTIONS: said.questions, ANSWERS: said.answers}
        members[VERDICT] = line.encode() + b"\n"
        manifest: dict[str, Any] = {
            "form": bundles.FORM,
            **{"file": one_line(given.file), "part": one_line(found.part), **summed(file.octets)},
            **{"line": line, "status": status, "sha1": given.sha1, "versions": versions()},
            "content": None if content is None else {**summed(content), "member": not given.without_content},
            "made": time.strftime("%Y%m%d%H%M%SZ", time.gmtime()),
        }
        members[VERIFY] = how(manifest).encode()
        if content is not None and not given.without_content:
            members[CONTENT] = content
        manifest["members"] = {name: summed(octets) for name, octets in members.items()}
        members[bundles.MANIFEST] = (json.dumps(manifest, indent=1) + "\n").encode()
        bundles.write_bundle(given.to, members, partial(check_all, file, beside))
        for note in found.notes:
            tell(tool, f"{shown(given.file)}: {note}")
    return status, line


def content_of(bundle: Bundle, beside: Optional[File]) -> Any:
    """The content of a bundle: None if there is none but in the signed file. Raises Malformed if it is not the one that it says."""
    said = bundle.manifest["content"]
    if said is None:
        if CONTENT in bundle.members or beside is not None:
            raise Malformed("by its manifest there is no content beside the signed file")
        return None
    if set(said) != {"size", "sha256", "member"} or (CONTENT in bundle.members) is not said["member"]:
        raise Malformed("its manifest says something else of the content")
    content = bundle.members.get(CONTENT) if beside is None else memoryview(beside.octets)
    if content is None:
        raise Stop(
            USAGE, f"the content is not in the bundle: --content names it, with the SHA-256 {shown(str(said['sha256']))}"
        )
    if summed(content) != {"size": said["size"], "sha256": said["sha256"]}:
        raise Malformed("the content is another one than its manifest says")
    return content


def differences(bundle: Bundle, said: Judged, how: Callable[[dict[str, Any]], str]) -> list[str]:
    """What a bundle has otherwise than it is found now; `how` makes the text that says how it is verified."""
    manifest, members = bundle.manifest, bundle.members
    line = said.verdict.line
    found = [
        (QUESTIONS, bytes(members[QUESTIONS]) == said.questions),
        (ANSWERS, bytes(members[ANSWERS]) == said.answers),
        (VERDICT, bytes(members[VERDICT]) == line.encode() + b"\n"),
        ("the line of the manifest", manifest["line"] == line and manifest["status"] == STATUSES[said.verdict.verdict]),
        (VERIFY, bytes(members[VERIFY]) == how(manifest).encode()),
    ]
    return [name for name, same in found if not same]


def judged_again(bundle: Bundle, beside: Optional[File], trust: cmsproof.TrustList) -> tuple[Judged, list[str]]:
    """What is said of the signed file of a bundle now, and what the bundle has otherwise. Raises Malformed if it is none."""
    content = content_of(bundle, beside)
    said = judged(bundle.members[SIGNED], content, trust, bundle.manifest["sha1"])
    return said, differences(bundle, said, how)


def unlike(bundle: Bundle, given: Any) -> str:
    """What the user did not say by which the verdict of a bundle was found; no text if there is nothing."""
    manifest = bundle.manifest
    if RECORD not in bundle.members:
        if given.end or given.at or given.whole:
            return "none of --end, --at and --whole, for it is no evidence record's"
        return "--sha1, which you did not say" if manifest["sha1"] and not given.sha1 else ""
    of_records = module("evidence_of_records")
    policy = of_records.policy_of(manifest)
    mine = of_records.Policy(first_ends(given.end), given.at or "", given.whole)
    # (who goes by the maker's list and says no word goes by the maker's words too)
    if policy.words() == mine.words() or (given.list_of_the_bundle and not mine.words()):
        return ""
    return f"{policy.words().strip() or 'no word'}, and you said another"


def unshown(bundle: Bundle, given: Any) -> Iterator[str]:
    """What nobody but the maker of a bundle says."""
    manifest = bundle.manifest
    if given.trust is None:
        sum_of = summed(bundle.members[TRUST])["sha256"]
        yield f"its trust list is its maker's, with the SHA-256 {sum_of}: anybody can write one"
    if RECORD in bundle.members:
        words = module("evidence_of_records").policy_of(manifest).words()
        if words and not (given.end or given.at or given.whole):
            yield f"its maker says{words}, and you did not"
        return
    if {"size": manifest["size"], "sha256": manifest["sha256"]} != summed(bundle.members[SIGNED]):
        named = f"{shown(manifest['file'])}, with the SHA-256 {shown(manifest['sha256'])}"
        yield f"nothing shows that its signature is in {named}: its maker says so, and the bundle does not have that file"


def verify(tool: str, given: Any) -> tuple[int, str]:
    """Asks anew what a bundle says, and gives the status, and what is to be said of it."""
    with ExitStack() as stack:
        file = stack.enter_context(opened(given.verify))
        beside = None if given.content is None else stack.enter_context(opened(given.content))
        bundle = bundles.read_bundle(file.octets)
        # (a bundle is a zip file that is not packed)
        is_of_record = RECORD in bundle.members
        one = as_one(given.verify, Found("", bundle.members[RECORD if is_of_record else SIGNED], container="asic"), b"")
        if isinstance(one, Unfound):
            return REFUSED, f"differs: {one.line}: {one.reason}"
        trusted = bytes(bundle.members[TRUST])
        if given.trust is not None and bytes(stack.enter_context(opened(given.trust)).octets) != trusted:
            return REFUSED, "differs: the trust list is another one than yours"
        if words := unlike(bundle, given):
            return REFUSED, f"differs: its verdict is one with {words}"
        again = module("evidence_of_records").judged_again if is_of_record else judged_again
        said, differ = again(bundle, beside, trust_of(trusted, f"{given.verify}, {TRUST}"))
    told = module("evidence_of_records").told(said.verdict.line) if is_of_record else said.verdict.line
    if differ:
        return REFUSED, f"differs: {', '.join(differ)}; it is now {told}"
    for line in unshown(bundle, given):
        tell(tool, f"{shown(given.verify)}: {line}")
    under = ", under the trust list of its maker" if given.trust is None else ""
    return STATUSES[said.verdict.verdict], f"same: {told}{under}"


def parser_of(tool: str) -> Words:
    """The parser of the words."""
    parser = Words(tool, description=ABOUT)
    mine = "the trust list; with --verify yours, which that of the bundle must be"
    parser.add_argument("--trust", action="once", metavar="LIST", help=mine)
    parser.add_argument("--content", action="once", metavar="FILE", help="the content, if the file does not hold it, or the bundle")
    parser.add_argument("--sha1", action="store_true", help="allow SHA-1 as a digest of contents and stamped signatures")
    parser.add_argument(
        "--record", action="once", metavar="FILE", help="make a bundle of this evidence record (RFC 4998), which is of the file"
    )
    add_judging(parser, "--record or --verify")
    parser.add_argument("--part", action="once", metavar="PART", help="which signature of the file, as it is shown behind its name")
    parser.add_argument("--without-content", action="store_true", help="put only the SHA-256 of a content into the bundle")
    parser.add_argument("--to", action="once", metavar="ZIP", help="the bundle that is made")
    parser.add_argument("--verify", action="once", metavar="ZIP", help="a bundle, of which is asked anew what it says")
    parser.add_argument(
        "--list-of-the-bundle", action="store_true", help="with --verify: go by the trust list of whoever made the bundle"
    )
    parser.add_argument(
        "file", nargs="?", metavar="FILE", help="a signed file, or with --record the file that the record is of"
    )
    return parser


def outcome_of(tool: str, given: Any, name: str) -> tuple[int, str]:
    """The status, and the line that ends the tool, if something fails; else what there is to be said is written."""
    try:
        if given.verify is not None:
            status, line = verify(tool, given)
        else:
            status, line = make(tool, given) if given.record is None else module("evidence_of_records").make(given)
        write("-", f"{shown(name)}: {one_line(line)}\n".encode())
        return max(status, FAILED if Started.lost else DONE), ""
    except Stop as stop:
        return stop.status, stop.line
    except Malformed as error:
        return MALFORMED, f"{shown(name)}: no bundle of evidence: {error}"
    except (Unread, ImportError) as error:
        return FAILED, str(error)
    except MemoryError:
        return FAILED, "failed memory"
    except Exception as error:  # a fault of the tool itself
        return FAILED, f"failed evidence: {type(error).__name__}: {error}"


def ended_at(name: str, by: int) -> tuple[int, str]:
    """As `outcome_of`, where the process ended that did it, by this signal."""
    (outcome,) = lost(name, by)
    return outcome.status, f"{outcome.called}: {outcome.line}"


def main(tool: str, words: list[str]) -> int:
    """Runs the tool with these words and answers its exit status."""
    parser = parser_of(tool)
    given = parser.parse_args(words)
    making = [given.to, given.file]
    if given.verify is None and (None in making or given.trust is None):
        parser.error("--trust LIST FILE --to ZIP makes a bundle, and --verify ZIP asks what one says")
    if given.verify is not None and (making != [None, None] or given.part is not None or given.without_content):
        parser.error(
            "with --verify only --trust or --list-of-the-bundle, --content, --sha1, --end, --at and --whole may be there"
        )
    if given.verify is not None and (given.trust is None) is not given.list_of_the_bundle:
        parser.error(
            "whom do you trust? --trust LIST names your list, --list-of-the-bundle goes by its maker's: say one of both"
        )
    of_record = given.end or given.at is not None or given.whole
    if given.verify is None and given.record is None and of_record:
        parser.error("--end, --at and --whole go with --record, or with --verify")
    if given.record is not None and (given.verify is not None or given.sha1 or {given.content, given.part} != {None}):
        parser.error("--record goes with none of --verify, --content, --sha1 and --part")
    if given.verify is None and given.list_of_the_bundle:
        parser.error("--list-of-the-bundle goes with --verify")
    if given.to == "-":
        parser.error("- is no name for --to: write ./-")
    if given.verify is None:
        check_kept(given.to, [given.file, given.trust, given.content, given.record])
    name = given.file if given.verify is None else given.verify
    # (in a process of its own, which ends where a long file is cut that is mapped there)
    with Workers(1, partial(outcome_of, tool, given)) as workers:
        ((status, line),) = workers.results([name], ended_at)
    if line:
        raise Stop(status, line)
    return int(status)
