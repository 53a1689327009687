#!/bin/sh
# build.sh [OUT]: builds the program of dist/ by the C compiler $CC (cc), as ./cmsproof or OUT, and says so in one line. It builds for
# this processor, or for the one that $MACHINE names, with a compiler for that. It ends with a line and status 1 where the sums of
# dist/ differ, or where it has no assembly for the processor or the system.
set -eu
unset CDPATH
cd "$(dirname "$0")/.."
out=${1:-cmsproof} machine=${MACHINE:-$(uname -m)} system=$(uname -s) cc=${CC:-cc}

stop() {
    echo "cmsproof: $1" >&2
    exit 1
}

[ "$machine" != arm64 ] || machine=aarch64
case $system:$machine in
Linux:x86_64 | Linux:aarch64) ;;
*) stop "dist/ has no program for $machine under $system, only for x86_64 and aarch64 under Linux: 'make proved' builds one for x86_64 Linux with the Rattle toolchain" ;;
esac
assembly=cmsproof-$machine-linux.s.gz
[ -f dist/SHA256SUMS ] || stop "dist/SHA256SUMS is missing: check the folder out again"
for name in cmsproof-x86_64-linux.s.gz cmsproof-aarch64-linux.s.gz libcmsproof-x86_64-linux.s.gz libcmsproof-aarch64-linux.s.gz \
    workloads-x86_64-linux.s.gz workloads-aarch64-linux.s.gz runtime.c PROVENANCE; do
    grep -q "^[0-9a-f]\{64\}  $name\$" dist/SHA256SUMS || stop "dist/SHA256SUMS has no sum of $name: check dist/ out again"
done
differing=$(cd dist && sha256sum --check --quiet SHA256SUMS 2>&1) || stop "dist/ was changed or damaged: $(echo $differing); check it out again, or make it anew: make dist"
command -v "${cc%% *}" > /dev/null || stop "there is no C compiler $cc: apt install build-essential, or make CC=NAME"

folder=$(mktemp -d)
trap 'rm -rf "$folder"' EXIT
gzip -dc "dist/$assembly" > "$folder/cmsproof.s"
# shellcheck disable=SC2086 # CC may have flags
$cc -std=c11 -O2 -fPIE -pie -Wall -Wextra -Wpedantic -Wconversion -Wl,-z,relro,-z,now -Wl,-z,noexecstack \
    -o "$folder/cmsproof" "$folder/cmsproof.s" dist/runtime.c || stop "$cc did not build dist/$assembly and dist/runtime.c; they need the GNU C library, 2.28 or newer"
# (written beside and renamed: what was cut short, where the disk is full say, would be newer than dist/, and so be kept by `make`)
{ install -m 755 "$folder/cmsproof" "$out.new" && mv -f "$out.new" "$out"; } || stop "$out was not written"
of=$(sed -n 's/^sources sha256 //p' dist/PROVENANCE) sources=$(sh tools/sources.sh) || sources=
if [ -n "$sources" ] && [ "$of" = "$sources" ]; then
    echo "cmsproof: built $out from dist/$assembly by $cc; dist/ says that it is of these sources ('make verify-dist' proves it)"
else
    echo "cmsproof: built $out from dist/$assembly by $cc, which is NOT of the sources in crates/: 'make proved' builds those, 'make dist' renews dist/"
fi
