#!/bin/sh
# Runs each command of the program as `rt try` builds it, unproved and with address checks, with the Nth growth of memory refused:
# `devices.sh [FROM [TO]]`, from 1 to 60 by default. Each N takes a build, some half minute. A case must print all that it gives, or
# say `failed memory`, or X4 where a record is judged: prints a line for each N, and ends with the status 1 where a case does neither.
# tools/trying/failing.py does the same with the built program in seconds, and fails reads, writes and opens too, which `rt try` of this
# kit does not.
set -eu
top=$(cd "$(dirname "$0")/../.." && pwd)
folder=$(mktemp -d)
trap 'rm -rf "$folder"' EXIT
trap 'exit 1' INT TERM
python3 "$top/tools/trying/device_cases.py" "$folder"
data=$(for name in "$folder"/data/*; do printf ' --data %s=%s' "$(basename "$name")" "$name"; done)
cd "$top/crates/cmsproof"
n=${1:-1}
bad=0
while [ "$n" -le "${2:-60}" ]; do
    # shellcheck disable=SC2086
    rt try --fail-alloc "$n" --cases "$folder/cases" $data < /dev/null > "$folder/log" 2>&1 || true
    told=$(grep -a -c -E 'failed (memory|X4 OutOfMemory)' "$folder/log" || true)
    counts=$(grep -a '^cases=' "$folder/log" || echo 'cases=none differs=none')
    echo "growth $n refused: $told cases say so, $counts"
    case "$counts " in *" fault=0 differs=$told no-answer=0 "*) ;; *) bad=1; cat "$folder/log" ;; esac
    n=$((n + 1))
done
exit $bad
