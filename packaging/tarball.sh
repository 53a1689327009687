#!/bin/sh
# tarball.sh ARCH: makes packages/cmsproof-VERSION-ARCH.tar.gz of dist/ and the tools, with a program that needs no library of the
# system; ARCH is amd64 or arm64. Two builds give the same octets.
set -eu
# shellcheck source=packaging/common.sh
. "$(dirname "$0")/common.sh"
name=cmsproof-$version-$arch
root=$work/$name

tree "$root" ""
program "$machine" "$arch" "$root/bin/cmsproof" -static-pie
# (the place of the file itself says where the others are)
# shellcheck disable=SC2016
library "$machine" "$arch" '${pcfiledir}/../..' ''
install -m 644 "$work/library/libcmsproof.so.1" "$root/lib/cmsproof/cmsproof"
install -m 644 "$work/library/libcmsproof.so.1" "$root/lib"
development "$root" "$root/lib"
echo "To install it, run as root: cp -r bin include lib share /usr/local/ && ldconfig (the tools need python3 and its library cryptography)" \
    > "$root/INSTALL"
(cd "$root" && find . -type f -printf '%P\0' | sort -z | xargs -0 sha256sum) > "$work/SHA256SUMS"
mv "$work/SHA256SUMS" "$root/SHA256SUMS"
tar --sort=name --mtime="@$SOURCE_DATE_EPOCH" --owner=0 --group=0 --numeric-owner --format=gnu -C "$work" -cf "$work/tar" "$name"
gzip -9n < "$work/tar" > "$work/tar.gz"
put "$work/tar.gz" "$name.tar.gz"
