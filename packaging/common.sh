# For the two scripts beside it to read in: what both archive and package have, the same each time they are made.
set -eu
umask 022
export LC_ALL=C
version=$VERSION
# the version's day, of which all times are
day=$(sed -n "s/^## $version - //p" CHANGELOG.md)
[ -n "$day" ] || { echo "dist: CHANGELOG.md has no version $version" >&2; exit 1; }
SOURCE_DATE_EPOCH=${SOURCE_DATE_EPOCH:-$(date -u -d "$day" +%s)}
export SOURCE_DATE_EPOCH
# the oldest C library that has all that the program calls
glibc=$(readelf -V build/dist/scanboot | grep -o 'GLIBC_[0-9][0-9.]*' | sort -V | tail -n 1)
glibc=${glibc#GLIBC_}

# The gate's last page; and before it, where it is so, that the sums on it are of other files than those here.
gate() {
    doubt=
    if [ ! -s build/gate-page.txt ]; then
        doubt='The gate was not run where this was made.'
    elif ! grep -E '^[0-9a-f]{64}  ' build/gate-page.txt | sha256sum --status -c 2>/dev/null; then
        doubt='The gate was last run on other files than these.'
    fi
    [ -z "$doubt" ] || echo "$doubt"
    [ ! -s build/gate-page.txt ] || cat build/gate-page.txt
}

# papers FOLDER: what nobody installs, but who signs wants to see
papers() {
    cp packaging/LICENCE "$1"
    rt version >"$1/KIT"
    gate >"$1/GATE"
}

# filled TEMPLATE: with this version's numbers
filled() {
    sed -e "s|@VERSION@|$version|" -e "s|@GLIBC@|$glibc|" -e "s|@SIZE@|${size:-}|" -e "s|@MAINTAINER@|${maintainer:-}|" "$1"
}
