#!/bin/sh
# archive.sh FOLDER: build/scanboot-VERSION.tar.gz of what was installed there, with its papers and sums. dist.mk calls it.
. "$(dirname "$0")/common.sh"
tree=$1
name=$(basename "$tree")
papers "$tree"
# said once: the package, which is made after it, has the same page
[ -z "$doubt" ] || echo "dist: $doubt" >&2
filled packaging/README.in >"$tree/README"
sed -i 's|^prefix=.*|prefix=${pcfiledir}/../..|' "$tree/lib/pkgconfig/scanboot.pc"
(cd "$tree" && find -- * -type f | sort | xargs sha256sum) >build/dist/SHA256SUMS
mv build/dist/SHA256SUMS "$tree"
tar --sort=name --format=ustar --owner=0 --group=0 --numeric-owner --mode=u=rwX,go=rX --mtime="@$SOURCE_DATE_EPOCH" \
    -C "$(dirname "$tree")" -cf - "$name" | gzip -9n >"build/$name.tar.gz"
