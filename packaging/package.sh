#!/bin/sh
# package.sh FOLDER: build/scanboot_VERSION_amd64.deb of what was installed there, with its papers, as Debian wants them. dist.mk calls it.
. "$(dirname "$0")/common.sh"
command -v dpkg-deb >/dev/null || { echo 'dist: no Debian package is made: dpkg-deb is missing (Debian package dpkg)' >&2; exit 1; }
tree=$1
doc=$tree/usr/share/doc/scanboot
papers "$doc"
mv "$doc/LICENCE" "$doc/copyright"
mv "$doc/CHANGELOG.md" "$doc/changelog"
gzip -9n "$doc/changelog" "$tree"/usr/share/man/man*/*

# its size in KiB, each file rounded up; who keeps it is told in the manner of Debian's tools
size=$(find "$tree" -type f -printf '%s\n' | awk '{ all += int(($1 + 1023) / 1024) } END { print all }')
maintainer="${DEBFULLNAME:-The owner of scanboot} <${DEBEMAIL:-owner@scanboot.invalid}>"
mkdir "$tree/DEBIAN"
filled packaging/control.in >"$tree/DEBIAN/control"
(cd "$tree" && find usr -type f | sort | xargs md5sum) >build/dist/md5sums
mv build/dist/md5sums "$tree/DEBIAN"
dpkg-deb --root-owner-group -Zxz --build "$tree" "build/scanboot_${version}_amd64.deb" >/dev/null
