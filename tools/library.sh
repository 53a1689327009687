#!/bin/sh
# library.sh [FOLDER]: builds the library for C of dist/ in FOLDER (build/library), by the C compiler $CC (cc): libcmsproof.a,
# libcmsproof.so.1 with its link libcmsproof.so, cmsproof.pc and the header. It is of the assembly of crates/cmsproof_c and the three
# functions for memory in dist/runtime.c. It is for this processor, or for the one that $MACHINE names, with a compiler for that and
# its binutils. cmsproof.pc is for the folder $PREFIX (/usr/local) and the folder $PC_LIBDIR for libraries (its lib). Only names that
# begin with cmsproof_ are exported. It ends with status 1 where the sums of dist/ differ, where something was not built, where
# another name is exported, or where the stack would be executable.
set -eu
unset CDPATH
cd "$(dirname "$0")/.."
out=${1:-build/library} cc=${CC:-cc} machine=${MACHINE:-$(uname -m)} version=1.0
[ "$machine" = "$(uname -m)" ] && for= || for=$machine-linux-gnu-

stop() {
    echo "cmsproof: $1" >&2
    exit 1
}

assembly=libcmsproof-$machine-linux.s.gz
[ "$(uname -s)" = Linux ] && [ -f "dist/$assembly" ] || stop "dist/ has no library for $machine under $(uname -s), only for x86_64 and aarch64 under Linux"
for name in "$assembly" runtime.c; do
    grep -q "^[0-9a-f]\{64\}  $name\$" dist/SHA256SUMS || stop "dist/SHA256SUMS has no sum of $name: check dist/ out again"
done
differing=$(cd dist && sha256sum --check --quiet SHA256SUMS 2>&1) || stop "dist/ was changed or damaged: $(echo $differing); check it out again"
for tool in "${cc%% *}" "${for}ar" "${for}ld" "${for}objcopy" "${for}nm" "${for}readelf"; do
    command -v "$tool" > /dev/null || stop "there is no $tool: apt install build-essential"
done
mkdir -p "$out"
out=$(cd "$out" && pwd)
folder=$(mktemp -d)
trap 'rm -rf "$folder"' EXIT

gzip -dc "dist/$assembly" > "$folder/library.s"
# shellcheck disable=SC2086 # CC may have flags
$cc -c -o "$folder/library.o" "$folder/library.s" || stop "$cc did not build dist/$assembly"

# The functions for memory, without those for the arguments of a program.
sed -n '1,/^void rattle_dealloc(void \*block) {/p' dist/runtime.c > "$folder/memory.c"
# shellcheck disable=SC2086 # CC may have flags
$cc -std=c11 -O2 -fPIC -Wall -Wextra -c -o "$folder/memory.o" "$folder/memory.c" || stop "$cc did not compile the functions for memory"

# One object, in which the names that C has no business with are local.
"${for}ld" -r -o "$folder/all.o" "$folder/library.o" "$folder/memory.o" || stop "the objects were not joined"
"${for}objcopy" --wildcard --keep-global-symbol='cmsproof_*' "$folder/all.o" "$folder/cmsproof.o"
rm -f "$out/libcmsproof.a"
"${for}ar" rcsD "$out/libcmsproof.a" "$folder/cmsproof.o"

printf 'CMSPROOF_1 {\n    global: cmsproof_*;\n    local: *;\n};\n' > "$folder/names"
$cc -shared -s -o "$out/libcmsproof.so.1" "$folder/cmsproof.o" -Wl,-soname,libcmsproof.so.1 -Wl,--version-script="$folder/names" \
    -Wl,-Bsymbolic,-z,defs,-z,relro,-z,now,-z,noexecstack || stop "$cc did not link libcmsproof.so.1"
ln -sf libcmsproof.so.1 "$out/libcmsproof.so"
install -m 644 include/cmsproof.h "$out/cmsproof.h"
[ -n "${PC_LIBDIR:-}" ] || PC_LIBDIR='${prefix}/lib'
cat > "$out/cmsproof.pc" << PC
prefix=${PREFIX:-/usr/local}
includedir=\${prefix}/include
libdir=$PC_LIBDIR

Name: cmsproof
Description: by which moment the signatures of a file existed; each answer is proved
Version: $version
Cflags: -I\${includedir}
Libs: -L\${libdir} -lcmsproof
PC

others=$("${for}nm" -D --defined-only "$out/libcmsproof.so.1" | awk '$3 !~ /^(cmsproof_|CMSPROOF_1$)/ && $3 !~ /^cmsproof_.*@@CMSPROOF_1$/ {print $3}' | grep -v '^CMSPROOF_1' || true)
[ -z "$others" ] || stop "libcmsproof.so.1 exports $(echo $others)"
"${for}readelf" -lW "$out/libcmsproof.so.1" | grep -q 'GNU_STACK.* RW ' || stop "libcmsproof.so.1 has an executable stack"
# what the header declares is what is exported, no more and no less
declared=$(grep -o 'cmsproof_[a-z_]*(' include/cmsproof.h | tr -d '(' | sort -u)
exported=$("${for}nm" -D --defined-only "$out/libcmsproof.so.1" | awk '$2 == "T" {sub(/@.*/, "", $3); print $3}' | sort -u)
[ "$declared" = "$exported" ] || stop "the header declares other functions than the library exports: $(echo "$declared" "$exported" | tr ' ' '\n' | sort | uniq -u | tr '\n' ' ')"
echo "cmsproof: built libcmsproof.a and libcmsproof.so.1 in $out"
