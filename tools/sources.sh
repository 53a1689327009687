#!/bin/sh
# sources.sh [list]: prints the digest of the sources that dist/ is made of, or the text that it is the SHA-256 of. That text has the
# lines of crates.txt of cmsproof, cmsproof_c, workloads and all crates below them, ordered; HANDLES; and a line of
# `sha256sum` for each file in src/, specs/ and proofs/ of these crates, ordered by their names. It needs no git. It ends with a line
# and status 1 where there is a link, which would lead to a text that the digest is not of, or something else that is no file.
set -eu
unset CDPATH
cd "$(dirname "$0")/.."
export LC_ALL=C

stop() {
    echo "cmsproof: $1" >&2
    exit 1
}

# the names, and behind each its line of crates.txt, which is read as `rt` reads it
lines=$(awk '
    function take(name, words, number) {
        if (!(name in line) || name in taken) return
        taken[name] = 1
        for (number = split(uses[name], words); number >= 1; number--) take(words[number])
    }
    {
        text = $0
        sub(/#.*/, "", text)
        gsub(/[ \t\r\f\v,]+/, " ", text)
        sub(/^ /, "", text)
        name = text
        sub(/[ :].*/, "", name)
        if (name == "") next
        line[name] = $0
        uses[name] = sub(/^[^:]*:/, "", text) ? text : ""
    }
    END { take("cmsproof"); take("cmsproof_c"); take("workloads"); for (name in taken) print name "\t" line[name] }' crates.txt | sort)
crates=$(printf '%s\n' "$lines" | cut -f 1)
[ -n "$crates" ] || stop "crates.txt names no crate cmsproof"

# the folders of the crates; some have no definitions or no proofs
set -- "${1:-}"
for crate in $crates; do
    for part in src specs proofs; do
        folder=crates/$crate/$part
        if [ -d "$folder" ] || [ -L "$folder" ]; then set -- "$@" "$folder"; fi
    done
done
wanted=$1
shift
[ $# -gt 0 ] || stop "the crates of crates.txt have no sources"
odd=$(find "$@" ! -type f ! -type d) || stop "the folders of the crates cannot all be read"
[ -z "$odd" ] || stop "no file and no folder: $(echo $odd)"

listed() {
    printf '%s\n' "$lines" | cut -f 2-
    cat HANDLES
    find "$@" -type f -print0 | sort -z | xargs -0 sha256sum
}

listed=$(listed "$@")
if [ "$wanted" = list ]; then printf '%s\n' "$listed"; else printf '%s\n' "$listed" | sha256sum | cut -d ' ' -f 1; fi
