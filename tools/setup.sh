#!/bin/sh
# Sees to the tools that the build and the tests use. Debian packages that are missing are installed where that is allowed, and named otherwise.
set -eu
. "$(dirname "$0")/machine.sh"

missing=
# want COMMAND PACKAGE
want() {
    command -v "$1" >/dev/null 2>&1 || missing="$missing $2"
}

find_missing() {
    missing=
    want make make
    want gcc gcc
    want g++ g++
    want python3 python3
    want cargo cargo
    want nm binutils
    want dpkg-deb dpkg
    if [ -n "$emulator" ]; then
        want "$compiler" gcc-x86-64-linux-gnu
        want "$emulator" qemu-user
        [ -e /usr/x86_64-linux-gnu/lib/libc.a ] || missing="$missing libc6-dev-amd64-cross"
    fi
}

if ! command -v rt >/dev/null 2>&1; then
    echo 'setup: the Rattle kit is missing: put its rt on the path' >&2
    exit 1
fi
find_missing
[ -z "$missing" ] && exit 0

if [ "$(id -u)" = 0 ] && command -v apt-get >/dev/null 2>&1; then
    echo "setup: installing$missing"
    export DEBIAN_FRONTEND=noninteractive
    # shellcheck disable=SC2086
    apt-get install -y -q --no-install-recommends $missing >/dev/null 2>&1 ||
        { apt-get update -q >/dev/null 2>&1 && apt-get install -y -q --no-install-recommends $missing >/dev/null; } || true
    find_missing
    [ -z "$missing" ] && exit 0
fi
echo "setup: these packages are missing:$missing" >&2
echo "setup: as root: apt-get install --no-install-recommends$missing" >&2
exit 1
