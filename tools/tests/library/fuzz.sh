#!/bin/sh
# fuzz.sh SECONDS [FLAG ..]: fuzzes the library for so long, on one processor, by libFuzzer of clang (Debian: clang), with flags of
# libFuzzer. Its assembly is built anew with a counter at the start of each of its blocks, which libFuzzer reads as coverage: only
# the flags and one octet of memory are touched there, and the flags are put back. An input with a finding stays in build/fuzz. It
# ends with status 1 at a finding, and says how many blocks were reached.
set -eu
unset CDPATH
cd "$(dirname "$0")/../../.."
seconds=$1 build=build/fuzz real=data/real sources=tools/tests/library assembly=dist/libcmsproof-x86_64-linux.s.gz
shift
[ "$(uname -m)" = x86_64 ] || { echo "fuzz.sh: the counters are for x86-64" >&2; exit 1; }
rm -rf "$build"
mkdir -p "$build/seeds" "$build/corpus"
build=$(cd "$build" && pwd)
sh "$sources/known.sh" "$build"

gzip -dc "$assembly" | awk '
    function counted() {
        print "\tleaq -128(%rsp), %rsp\n\tpushfq\n\tincb blocks+" count++ "(%rip)\n\tpopfq\n\tleaq 128(%rsp), %rsp"
    }
    { print }
    /^(\.LBB[0-9]+_[0-9]+:|# %bb\.)/ { counted() }
    END {
        print "\t.section __libfuzzer_extra_counters,\"aw\",@progbits\n\t.globl blocks\nblocks:\n\t.zero " count
        print "\t.section .rodata\n\t.globl block_count\n\t.p2align 3\nblock_count:\n\t.quad " count
    }
' > "$build/library.s"
clang -c -o "$build/library.o" "$build/library.s"
clang -std=c11 -g -O1 -Wall -Wextra -Werror -fsanitize=fuzzer,address,undefined -fno-sanitize-recover=all -Iinclude \
    -o "$build/fuzz" "$sources/fuzz.c" "$build/library.o" dist/runtime.c

seed() { # CALL CHOICES FILE: a seed of a file
    printf "\\$(printf %03o "$1")\\$(printf %03o "$2")" | cat - "$3" > "$build/seeds/$1-$2-$(basename "$3")"
}
for file in "$real"/*.p7s crates/real_files/data/*.p7[sm]; do
    seed 0 0 "$file"
    seed 0 1 "$file"
    seed 7 0 "$file"
    for call in 0 1 2 3 10 51; do seed 6 $call "$file"; done
done
for file in crates/real_files/data/*.tok; do
    seed 2 0 "$file"
    seed 6 11 "$file"
done
for file in crates/real_files/data/*.ts[qr]; do
    for call in 5 7 8 9 12 25; do seed 6 $call "$file"; done
done
for file in crates/real_files/data/*.der; do seed 6 64 "$file"; done
printf 1.2.840.113549 > "$build/policy"
seed 6 6 "$build/policy"
seed 1 0 "$real/blob.bin"
seed 3 0 "$real/trust.txt"
sed 's/^cmsproof trust 2/cmsproof trust 1/; s/ - - / /' "$real/trust.txt" > "$build/trust1.txt"
seed 3 0 "$build/trust1.txt"
sed 's/ - - / 20200101000000Z 20991231235959.5Z /' "$real/trust.txt" > "$build/trust2.txt"
seed 3 0 "$build/trust2.txt"
seed 4 0 "$build/answers"
head -c 40 "$real/blob.bin" > "$build/changes"
seed 5 1 "$build/changes"

cd "$build"
export TRUST="$OLDPWD/$real/trust.txt" ANSWERS="$build/answers" CONTENT="$OLDPWD/$real/blob.bin" FILE="$OLDPWD/$real/rsa_detached_ts.p7s"
export TOKEN="$OLDPWD/crates/real_files/data/rsa_detached.1.tok" REQUEST="$OLDPWD/crates/real_files/data/rsa_attached.1.tsq"
export RESPONSE="$OLDPWD/crates/real_files/data/rsa_attached.1.tsr"
./fuzz -max_total_time="$seconds" -max_len=16384 -timeout=10 -rss_limit_mb=2048 -print_final_stats=1 "$@" corpus seeds > log 2>&1 || {
    tail -40 log
    echo "fuzz.sh: a finding, in build/fuzz"
    exit 1
}
grep -E 'INITED|DONE|^fuzz.c|stat::average' log
