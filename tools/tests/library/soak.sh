#!/bin/sh
# soak.sh LIBRARY [MINUTES]: what takes long: 8 threads for a minute under TSan, and some rounds under helgrind and drd; each octet of
# each real file changed, and a part of these files beside the command; each allocation refused in turn on all of them; then fuzz.sh
# for so long (10). It ends with status 1 at the first finding.
set -eu
unset CDPATH
minutes=${2:-10}
library=$(cd "$1" && pwd)
cd "$(dirname "$0")/../../.."
sources=tools/tests/library real=data/real token=crates/real_files/data/rsa_attached.1.tok
folder=$(mktemp -d)
trap 'rm -rf "$folder"' EXIT
sh "$sources/known.sh" "$folder"
known="$real/trust.txt $folder/answers $real/blob.bin"
build() { # NAME FLAG ..: builds the program NAME.c as FOLDER/NAME
    program=$1
    shift
    gcc -std=c99 -g -O1 -Wall -Wextra -Werror -pedantic -Iinclude -pthread -o "$folder/$program" "$@" "$sources/$program.c" \
        "$library/libcmsproof.a"
}

build threads -fsanitize=thread
# shellcheck disable=SC2086 # three words
"$folder/threads" $known 60 "$real"/*.p7s
build threads
for tool in helgrind drd; do
    # shellcheck disable=SC2086
    valgrind -q --tool=$tool --error-exitcode=9 "$folder/threads" $known 30 "$real"/*.p7s
done
build refused -Wl,--wrap=malloc,--wrap=realloc,--wrap=free
# shellcheck disable=SC2086
valgrind -q --error-exitcode=9 --leak-check=no "$folder/refused" $known "$token" "${token%.tok}.tsq" "${token%.tok}.tsr" "$real"/*.p7s
build changed
python3 "$sources/beside.py" "$folder/changed" "$folder/answers" 50 "$real"/*.p7s
sh "$sources/fuzz.sh" "$((minutes * 60))"
