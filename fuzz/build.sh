#!/bin/sh
# Builds build/fuzz/fuzz and build/fuzz/inspect, and the inputs that they begin with.
set -eu
cd "$(dirname "$0")/.."
. fuzz/clang.sh
here=build/fuzz
rm -rf "$here/objects"
mkdir -p "$here/corpus" "$here/seeds" "$here/described" "$here/files" "$here/objects"
flags='-std=gnu11 -g -O1 -Wall -Wextra -fno-omit-frame-pointer'
covered='-fsanitize=fuzzer,address,undefined -fno-sanitize-recover=all'

# Only plain C is instrumented for coverage: what the harness does is no discovery.
# shellcheck disable=SC2086
"$clang" $flags $covered -DPLAIN_NAMES -c -o "$here/objects/plain.o" second/driver/plain.c
# shellcheck disable=SC2086
"$clang" $flags -fsanitize=address,undefined -fno-sanitize-recover=all -c -o "$here/objects/fuzz.o" fuzz/fuzz.c
# shellcheck disable=SC2086
"$clang" $covered -o "$here/fuzz" "$here/objects/fuzz.o" "$here/objects/plain.o"
rm "$here/objects"/*
# `scanboot inspect` is C of ours throughout: all of it is instrumented, with plain C in the library's place. The program's files are
# compiled on all processors, a few at a time.
top=$PWD
# shellcheck disable=SC2086
find "$top/host" -name '*.c' ! -name main.c -print0 |
    (cd "$here/objects" && xargs -0 -n 6 -P "$(nproc)" "$clang" $flags $covered -D_GNU_SOURCE -I"$top/include" -c)
# shellcheck disable=SC2086
"$clang" $flags $covered -Iinclude -o "$here/inspect" fuzz/inspect.c second/driver/plain.c "$here/objects"/*.o
rm -r "$here/objects"
python3 fuzz/seeds.py second/samples "$here/seeds"
(cd "$here/files" && python3 "$top/tests/host/inputs.py" rules a.img turned.img kinds.out x.elf x.hex x.srec x.txt v1.out v0.out turned.out odd.out &&
    find . -size +64k -delete)
