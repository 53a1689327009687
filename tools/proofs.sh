#!/bin/sh
# proofs.sh: `rt ci`, whose output and status it hands on; and status 1 if that passed although an edit of must-fail/ could not be
# applied, compiled or read: `rt ci` says so in a note and lets it pass, but such an edit shows nothing. Nor is it a pass where what
# was said could not all be kept and handed on, since the note may be in what is lost.
# It runs by tools/kept_sums.py: some builds of the kit take the sum of a crate once for each path through the graph of crates, in
# `rt ci` too, which then uses none of them.
set -u
folder=$(mktemp -d) || exit 1
trap 'rm -rf "$folder"' EXIT
{
    status=0
    python3 "$(dirname "$0")/kept_sums.py" ci 2>&1 || status=$?
    echo "$status" > "$folder/status"
} | tee "$folder/said" || { echo "cmsproof: not all that 'rt ci' said could be kept" >&2; exit 1; }
status=$(cat "$folder/status")
[ -n "$status" ] || { echo "cmsproof: the status of 'rt ci' could not be kept" >&2; exit 1; }
if [ "$status" -eq 0 ] && grep -q 'bad must-fail edits' "$folder/said"; then
    echo "cmsproof: an edit of must-fail/ is bad, as told above: mend it, or remove it"
    status=1
fi
exit "$status"
