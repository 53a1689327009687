#!/bin/sh
# known.sh FOLDER: makes, for the programs of this folder, an answers list of all questions of the real files whose signature is
# good, FOLDER/answers. The trust list is data/real/trust.txt.
set -eu
unset CDPATH
folder=$(cd "$1" && pwd)
cd "$(dirname "$0")/../../.."
# (the program and the tool that are tested: those that are installed, else those of this folder)
program=./cmsproof tools=tools/installed
[ -z "${CMSPROOF_TREE:-}" ] || program=$CMSPROOF_TREE/bin/cmsproof tools=$CMSPROOF_TREE/bin
echo 'cmsproof questions 1' > "$folder/questions"
for file in data/real/*.p7s; do
    "$program" questions --trust data/real/trust.txt "$file" > "$folder/one" || continue # what is no file of DER has none
    tail -n +2 "$folder/one" >> "$folder/questions"
done
python3 "$tools/cmsproof-verify" "$folder/questions" "$folder/answers"
[ "$(grep -c '^30' "$folder/answers")" -ge 8 ] || { echo "known.sh: too few signatures are good" >&2; exit 1; }
