#!/bin/sh
# deb.sh ARCH: makes of dist/ and the tools, for ARCH amd64 or arm64, packages/NAME_VERSION_ARCH.deb of three names: cmsproof, the
# program and its tools; libcmsproof1, the library for programs in C; libcmsproof-dev, what these are built on. Two builds give the
# same octets.
set -eu
# shellcheck source=packaging/common.sh
. "$(dirname "$0")/common.sh"
maintainer='The cmsproof authors <maintainers@users.noreply.jilwerros.example>'
places=usr/lib/$machine-linux-gnu

# texts ROOT NAME: puts the texts into a tree that each package of Debian has.
texts() {
    documents=$1/usr/share/doc/$2
    install -d "$documents"
    {
        cat "$top/LICENSE" && echo && cat "$top/NOTICE" && echo
        echo "The words of the Apache License, under which some of these may be used too, are in /usr/share/common-licenses/Apache-2.0."
    } > "$documents/copyright"
    printf '%s (%s) stable; urgency=low\n\n  * CHANGELOG.md of cmsproof says what is new.\n\n -- %s  %s\n' \
        "$2" "$version" "$maintainer" "$(date -u -R -d "@$SOURCE_DATE_EPOCH")" | gzip -9n > "$documents/changelog.gz"
}

# package ROOT NAME FILE ..: makes the package of a tree, by packaging/control.NAME. The newest version of the C library of which one of
# the files has a symbol is the one that it needs.
package() {
    root=$1 name=$2
    shift 2
    libc=$(for file; do readelf -V "$file"; done | grep -o 'GLIBC_[0-9.]*' | cut -d_ -f2 | sort -V | tail -n 1)
    size=$(find "$root" -type f -not -path '*/DEBIAN/*' -printf '%s\n' | awk '{ sum += int(($1 + 1023) / 1024) } END { print sum }')
    install -d "$root/DEBIAN"
    sed -e "s/@VERSION@/$version/; s/@ARCH@/$arch/; s/@LIBC@/$libc/; s/@SIZE@/$size/; s/@MAINTAINER@/$maintainer/" \
        "$top/packaging/control.$name" > "$root/DEBIAN/control"
    (cd "$root" && find usr -type f -print0 | sort -z | xargs -0 md5sum) > "$work/md5sums"
    mv "$work/md5sums" "$root/DEBIAN/md5sums"
    find "$root" -exec touch -h -d "@$SOURCE_DATE_EPOCH" {} +
    dpkg-deb --root-owner-group -Zxz --build "$root" "$work/$name.deb" > "$work/dpkg.log"
}

one=$work/root shared=$work/shared dev=$work/dev
tree "$one" /usr
# (the other folder is the administrator's, and Debian's zsh looks there in /usr/local alone)
mv "$one/usr/share/zsh/site-functions" "$one/usr/share/zsh/vendor-completions"
program "$machine" "$arch" "$one/usr/bin/cmsproof" -pie
library "$machine" "$arch" /usr "/$places"
install -m 644 "$work/library/libcmsproof.so.1" "$one/usr/lib/cmsproof/cmsproof"
# Debian's own Python, without modules of the user or of PYTHONPATH
sed -i '1s,.*,#!/usr/bin/python3 -I,' "$one"/usr/bin/cmsproof-*
find "$one/usr/share/man" -type f -exec gzip -9n {} +
texts "$one" cmsproof
rm "$one/usr/share/doc/cmsproof/LICENSE" "$one/usr/share/doc/cmsproof/NOTICE"
gzip -9nc "$top/CHANGELOG.md" > "$one/usr/share/doc/cmsproof/CHANGELOG.md.gz"
install -d "$one/DEBIAN"
install -m 755 "$top/packaging/postinst" "$top/packaging/prerm" "$one/DEBIAN"

texts "$shared" libcmsproof1
install -d "$shared/$places" "$shared/DEBIAN"
install -m 644 "$work/library/libcmsproof.so.1" "$shared/$places"
echo "libcmsproof 1 libcmsproof1 (>= $version)" > "$shared/DEBIAN/shlibs"
echo 'activate-noawait ldconfig' > "$shared/DEBIAN/triggers"

texts "$dev" libcmsproof-dev
development "$dev/usr" "$dev/$places"
install -m 644 "$top/docs/LIBRARY.md" "$top/docs/check.c" "$top/docs/stamp.c" "$top/docs/Check.java" "$dev/usr/share/doc/libcmsproof-dev"

package "$one" cmsproof "$one/usr/bin/cmsproof" "$one/usr/lib/cmsproof/cmsproof/libcmsproof.so.1"
package "$shared" libcmsproof1 "$shared/$places/libcmsproof.so.1"
package "$dev" libcmsproof-dev "$shared/$places/libcmsproof.so.1"
for name in cmsproof libcmsproof1 libcmsproof-dev; do put "$work/$name.deb" "${name}_${version}_$arch.deb"; done
