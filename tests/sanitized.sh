#!/bin/sh
# The command-line program's own C code under gcc's sanitizers of addresses and of undefined behaviour, used as in tests/host.sh.
# They do not run under the emulator: on x86-64 the program calls the library, and elsewhere plain C that stands in its place.
set -u
cd "$(dirname "$0")/.." || exit 1
. tools/machine.sh
mkdir -p build/sanitized
warnings='-Wall -Wextra -Wpedantic -Wconversion -Wshadow -Werror'
flags='-std=c11 -g -O1 -fsanitize=address,undefined -fno-sanitize-recover=all -D_GNU_SOURCE -Iinclude'
# shellcheck disable=SC2086
case $emulator in
'') make -s -f build.mk lib && library=build/libscanboot.a ;;
*) library=build/sanitized/plain.o && gcc $flags -c second/driver/plain.c -o $library ;;
esac &&
    gcc $flags $warnings host/*.c $library -o build/sanitized/scanboot &&
    gcc $flags $warnings tests/inspected.c fuzz/inspect.c $(find host -name '*.c' ! -name main.c) $library -o build/sanitized/inspected ||
    { echo '0 passed, 1 failed'; exit 1; }

# `scanboot inspect` on the samples and on a file for each rule and kind, cut at every place
. tests/says.sh
folder=$(mktemp -d)
trap 'rm -rf "$folder"' EXIT
tests=$PWD/tests
(cd "$folder" && python3 "$tests/host/inputs.py" rules a.img kinds.out x.elf x.hex x.srec x.txt v1.out v0.out turned.out odd.out \
    bench.out harm.out turning.out name.open name.cut name.255 name.300)
says 'files that are cut anywhere are described' build/sanitized/inspected second/samples/* "$folder"/*

export ASAN_OPTIONS=detect_leaks=0
sh tests/host.sh build/sanitized/scanboot >"$folder/log" 2>&1
add $? "$(tail -n 1 "$folder/log")"
cat "$folder/log"
end
