#!/usr/bin/env python3
"""Shows that rows notice wrong bodies by themselves: edits of must-fail/ and more-edits/ are applied to a copy of the crates, `rt try`
builds and runs `vectors_run` of it with no proof, and rows must differ.

    python3 tools/trying/wrong_bodies.py [BATCH ..]

BATCH is the number of a batch of BATCHES below, from 1; without one all are tried. A build takes minutes, so it has several edits.
Each stands there with the rows that must notice it: a file, and kinds of rows. The judge of these uses no crate in which the batch has
another edit, so what differs there is due to this edit alone. Only such rows are run. It prints a line for each edit; the status is 1
if the rows of one all agree, if one can't be applied, or if a run gave no count.
"""
from __future__ import annotations

import pathlib
import re
import shutil
import subprocess
import sys
import tempfile

sys.path.insert(0, str(pathlib.Path(__file__).resolve().parent.parent))
import changes  # noqa: E402
import edits  # noqa: E402

SECONDS = 900

# The area and kinds of rows, and the crates that their judge calls; those below them are used too.
CALLS = {
    "der: cursor": "der_core",
    "der: oid_parse oid_text": "der_oid_text",
    "der: algorithm identified lengths": "digests",
    "der: signed certificate": "lines_shown",
    "types: elements ordered_elements tagged_elements": "der_lists",
    "types: utc generalized": "der_time",
    "types: signed_data signer versions": "cms_types",
    "types: certificate extensions_say": "cert_types",
    "types: signing_certificate": "ess_types",
    "types: stamp": "tsp_types",
    "rules: names": "check_names cert_types cms_types",
    "rules: answers": "tsp_requester tsp_types",
    "rules: signer": "check_fit cms_types",
    "rules: compare": "cms_compare",
    "rules: attach": "tsp_requester",
    "rules: trust vouches rewritten": "trust_lists der_time",
    "rules: token": "check_verdict trust_lists der_time",
    "rules: questions": "check_questions trust_lists",
    "rules: report": "lines_report check_verdict check_fit der_time",
    "files: found": "cms_stream",
    "files: check": "cmsproof_api check_stream cms_stream lines_shown",
    "commands: task": "cli_words cli_tasks",
    "commands: run": "cli_commands cli_words cli_failures",
}

# Each batch: the edit as CRATE/NAME, the file of rows, and a kind of its rows.
BATCHES = """
der_oid_text/oid_second_arc_39                 der/texts                   oid_parse
der_time/turn_of_the_years_at_49               types/times                 utc
digests/null_refused                           der/algorithms              identified
der_lists/order_strict                         types/lists                 ordered_elements

der_oid_text/oid_leading_zero                  der/texts                   oid_parse
der_time/second_60                             types/times                 utc
digests/another_length                         der/algorithms              algorithm
cms_types/tokens_of_the_first_attribute_alone  types/signed_data           signer

der_oid_text/oid_no_point                      der/texts                   oid_text
cert_types/repeated_extension_passes           types/certificates          certificate
ess_types/second_identifier_for_the_first      types/signing_certificates  signing_certificate
cms_types/signed_attributes_in_any_order       types/signed_data           signed_data

der_oid_text/oid_always_hex                    der/texts                   oid_text
tsp_types/stamp_nonce_is_the_serial            types/stamps                stamp
check_fit/sha1_without_the_policy              rules/signers               signer
trust_lists/roles_exchanged                    rules/lists                 trust

cms_compare/tails_by_length                    rules/compared              compare
tsp_requester/content_in_place_of_the_signature rules/attached             attach
list_answers/answers_match_four_fields         rules/lists                 vouches
lines_shown/signers_counted_from_0             der/shown                   signed

tsp_requester/token_without_the_nonce_accepted rules/answers               answers
check_verdict/token_imprint_not_compared       rules/tokens                token
cms_compare/second_told_as_first               rules/compared              compare
lines_shown/subject_for_issuer                 der/shown                   certificate

cms_stream/opened_drops_the_first_signer       files/passes                found
tsp_requester/imprint_by_its_octets_alone      rules/answers               answers
cms_compare/attributes_before_content          rules/compared              compare
lines_shown/digest_for_signature               der/shown                   signed

check_questions/token_questions_left_out       rules/questions             questions
lines_report/token_and_signer_exchanged        rules/refusals              report
cms_compare/same_by_length                     rules/compared              compare
tsp_requester/unsigned_attributes_dropped      rules/attached              attach

check_names/issuer_serial_without_its_serial   rules/names                 names

tsp_requester/name_of_another_rule             rules/attached              attach

check_stream/half_of_each_piece_hashed         files/check                 check

cli_words/trust_for_answers                    commands/words              task

cli_commands/fits_told_of_one                  commands/fit                run

cli_failures/refusal_without_its_rule          commands/show               run

der_core/length_81_05_accepted                 der/elements                cursor

check_verdict/token_any_purpose                files/check                 check
"""


def batches():
    """The batches, each a list of edits with the file of rows and the kind of rows that must notice it."""
    blocks = [[line.split() for line in block.split("\n")] for block in BATCHES.strip().split("\n\n")]
    return [[(edit, f"{rows}.rows", kind) for edit, rows, kind in block] for block in blocks]


def crates_used(crates, name, kind):
    """The crates that the judge of a kind of rows in a file uses."""
    area = name.split("/")[0]
    called = next(names.split() for key, names in CALLS.items() if key.split(":")[0] == area and kind in key.split()[1:])
    return {*called, *(it for crate in called for it in changes.below(crates, crate))}


def faults_of(crates, batch):
    """Why what differs can't tell of one edit of a batch."""
    edited = [edit.split("/")[0] for edit, _, _ in batch]
    faults = []
    for edit, rows, kind in batch:
        used = [name for name in edited if name in crates_used(crates, rows, kind)]
        if used != [edit.split("/")[0]]:
            faults.append(f"{edit}: its rows use the edits of {' '.join(used) or 'no crate'}")
    return faults


def file_of(top, edit):
    """The file of an edit, CRATE/NAME."""
    crate, name = edit.split("/")
    found = [top / "crates" / crate / folder / f"{name}.edit" for folder in changes.EDITS]
    return next((it for it in found if it.is_file()), found[0])


def apply(copy, edit):
    """Applies an edit to a copy, and answers why it can't be."""
    place = file_of(copy, edit)
    fault = edits.fault_of(place) if place.is_file() else "there is no such edit"
    if not fault:
        for path, old, new in edits.pairs_of(place):
            code = place.parent.parent / path
            code.write_text(code.read_text().replace(old, new))
    return fault


def keep_rows(path, kind):
    """Leaves only rows of a kind in a file, and answers how many there are."""
    kept = [line if line.split(" ")[0] == kind else "" for line in path.read_text().split("\n")]
    path.write_text("\n".join(kept))
    return sum(map(bool, kept))


def counts_of(copy, names):
    """How many rows of each file agree, and what `rt try` says if it gives no count."""
    folder = copy / "crates" / "vectors_run"
    areas = [name.split("/")[0] for name in names]
    words = [
        it for it in (folder / "args").read_text().split() if it in names or it.endswith(".blobs") and it.split("/")[0] in areas
    ]
    given = [word for it in words for word in ("--data", f"{it}=data/{it}")]
    with open(folder / "stdin", "rb") as stdin:
        words = ["rt", "try", "--seconds", str(SECONDS), *given, "--", *words]
        ran = subprocess.run(words, cwd=folder, stdin=stdin, capture_output=True, text=True, check=False)
    found = re.findall(r"^(\S+): ([0-9]+) of ([0-9]+) rows agree$", ran.stdout, re.M)
    # a row that names octets which aren't there says nothing of the edit
    unread = set(re.findall(r"^(\S+):[0-9]+: bad row: a name that is not known$", ran.stdout, re.M))
    return {name: (int(agreed), int(rows)) for name, agreed, rows in found if name not in unread}, ran.stderr


def try_batch(top, number, batch):
    """Tries a batch, and answers how many of its edits were not noticed."""
    with tempfile.TemporaryDirectory(prefix="wrong-bodies-") as folder:
        copy = pathlib.Path(folder)
        shutil.copytree(top / "crates", copy / "crates", ignore=shutil.ignore_patterns("out"))
        for name in (changes.LISTING, "HANDLES"):
            shutil.copy(top / name, copy)
        faults = [f"{edit}: {why}" for edit, _, _ in batch if (why := apply(copy, edit))]
        rows = {name: keep_rows(copy / "crates/vectors_run/data" / name, kind) for _, name, kind in batch}
        counts, said = counts_of(copy, rows) if not faults else ({}, "")
    for fault in faults:
        print(fault)
    missed = 0
    for edit, name, kind in batch:
        agreed, count = counts.get(name, (0, 0))
        noticed = 0 < count == rows[name] and agreed < count
        missed += not noticed
        told = f"{count - agreed} of {count} rows differ" if count else "no count"
        print(f"{number} {edit}: {'noticed' if noticed else 'NOT NOTICED'}, {kind} of {name}: {told}", flush=True)
    if said and not counts:
        print(said.rstrip())
    return missed


def main(words, top=changes.TOP):
    crates, found = changes.read_crates(top), batches()
    chosen = [int(word) for word in words if word.isdecimal()] or range(1, len(found) + 1)
    faults = [fault for batch in found for fault in faults_of(crates, batch)]
    if faults or any(not word.isdecimal() for word in words) or not all(1 <= it <= len(found) for it in chosen):
        print("\n".join(faults) or f"wrong_bodies: a BATCH is a number from 1 to {len(found)}", file=sys.stderr)
        return 3
    missed = sum(try_batch(top, number, found[number - 1]) for number in chosen)
    tried = sum(len(found[number - 1]) for number in chosen)
    print(f"wrong_bodies: {tried - missed} of {tried} edits are noticed by rows")
    return 1 if missed else 0


if __name__ == "__main__":
    sys.exit(main(sys.argv[1:]))
