# shellcheck shell=sh disable=SC2154,SC2034
# What the packages share, which are made by a script in this folder for the ARCH that is its word. $top is the folder of the
# repository, and $machine what `uname -m` calls that ARCH.
unset CDPATH
top=$(cd "$(dirname "$0")/.." && pwd)

# stop LINE: ends with this line.
stop() {
    echo "cmsproof: $1" >&2
    exit 1
}

# what has make, tar and gzip do something else than is written here
unset MAKEFLAGS MFLAGS GNUMAKEFLAGS MAKEFILES MAKELEVEL TAR_OPTIONS GZIP
version=$(sed -n 's/^VERSION = "\(.*\)"$/\1/p' "$top/tools/installed/cmsproof_tools/__init__.py")
[ -n "$version" ] || stop "tools/installed/cmsproof_tools/__init__.py has no line of the version"
# all times in the packages are those of the newest version's day, so that two builds give the same octets
day=$(sed -n 's/^## \[[0-9.]*\] - \([0-9-]*\)$/\1/p' "$top/CHANGELOG.md" | head -n 1)
[ -n "$day" ] || stop "CHANGELOG.md has no line '## [VERSION] - DAY'"
SOURCE_DATE_EPOCH=$(date -u -d "$day" +%s)
export SOURCE_DATE_EPOCH LC_ALL=C TZ=UTC
umask 022
work=$(mktemp -d)
trap 'rm -rf "$work"' EXIT
mkdir -p "$top/packages"

# compiler MACHINE ARCH: its C compiler, which is the system's own or a cross compiler.
compiler() {
    if [ "$(uname -m)" = "$1" ]; then
        echo "${CC:-cc}"
    elif command -v "$1-linux-gnu-gcc" > /dev/null; then
        echo "$1-linux-gnu-gcc"
    else
        stop "no C compiler for $1: apt install gcc-$(echo "$1" | tr _ -)-linux-gnu libc6-dev-$2-cross, or leave $2 out of ARCHES"
    fi
}

arch=$1
case $arch in
amd64) machine=x86_64 ;;
arm64) machine=aarch64 ;;
*) stop "there is no package for $arch" ;;
esac
# without a compiler it ends here, before anything is made
compiler "$machine" "$arch" > "$work/compiler"

# program MACHINE ARCH OUT FLAG ..: builds the program of dist/ for a machine.
program() {
    machine=$1 out=$3 cc=$(compiler "$1" "$2")
    shift 3
    for summed in "cmsproof-$machine-linux.s.gz" runtime.c PROVENANCE; do
        grep -q "^[0-9a-f]\{64\}  $summed\$" "$top/dist/SHA256SUMS" || stop "dist/SHA256SUMS has no sum of $summed"
    done
    (cd "$top/dist" && sha256sum --check --quiet SHA256SUMS)
    gzip -dc "$top/dist/cmsproof-$machine-linux.s.gz" > "$work/cmsproof.s"
    # shellcheck disable=SC2086 # CC may have flags
    $cc -std=c11 -O2 -D_FORTIFY_SOURCE=2 -fPIE "$@" -s -Wl,-z,relro,-z,now -o "$out" "$work/cmsproof.s" "$top/dist/runtime.c"
    rm "$work/cmsproof.s"
}

# library MACHINE ARCH PREFIX LIBDIR: builds the library of dist/ for a machine in $work/library, by the script that `make` builds it by.
# The last two are what its file for pkg-config says.
library() {
    MACHINE=$1 CC=$(compiler "$1" "$2") PREFIX=$3 PC_LIBDIR=$4 sh "$top/tools/library.sh" "$work/library" > "$work/library.log"
}

# development FOLDER LIBDIR: puts there what a C program is built on: the header into include, the others into LIBDIR.
development() {
    install -d "$1/include" "$2/pkgconfig"
    install -m 644 "$work/library/cmsproof.h" "$1/include"
    install -m 644 "$work/library/libcmsproof.a" "$2"
    ln -s libcmsproof.so.1 "$2/libcmsproof.so"
    install -m 644 "$work/library/cmsproof.pc" "$2/pkgconfig"
}

# known: ends where `make install` would take a file that git does not know, as a module that the builder is writing. Of sources that are
# no clone, all is taken that is in the folders.
known() {
    [ -e "$top/.git" ] && command -v git > /dev/null || return 0
    make -s -C "$top" list-installed > "$work/installed"
    (cd "$top" && xargs env -u GIT_DIR -u GIT_WORK_TREE -u GIT_INDEX_FILE git ls-files --error-unmatch --) < "$work/installed" \
        > "$work/known" 2> "$work/unknown" || stop "what would be packed is not as git knows it: $(head -n 1 "$work/unknown")"
}

# tree FOLDER PREFIX: what `make install` puts there.
tree() {
    known
    make -s -C "$top" -o cmsproof -o tools/installed/cmsproof/libcmsproof.so.1 install DESTDIR="$1" PREFIX="$2" > "$work/install.log"
}

# put FILE NAME: puts a package into packages/, whole or not at all.
put() {
    install -m 644 "$1" "$top/packages/$2.new"
    mv -f "$top/packages/$2.new" "$top/packages/$2"
    echo "cmsproof: made packages/$2"
}
