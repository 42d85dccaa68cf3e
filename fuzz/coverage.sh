#!/bin/sh
# Which part of plain C the inputs of build/fuzz reach, counted by gcov; the lines that none reaches are printed.
set -eu
cd "$(dirname "$0")/.."
. tools/machine.sh
here=build/fuzz/coverage
rm -rf "$here"
mkdir -p "$here"
gcc -std=c11 -O0 --coverage -DPLAIN_NAMES -c -o "$here/plain.o" second/driver/plain.c
gcc -std=gnu11 -O1 -Wall -Wextra -o "$here/replay" fuzz/replay.c fuzz/fuzz.c "$here/plain.o" --coverage
SCANBOOT_DRIVER="$emulator build/driver" find build/fuzz/corpus build/fuzz/seeds -type f -exec "$here/replay" {} + 2>"$here/codes" >/dev/null
gcov -b -o "$here" plain.o >"$here/summary" 2>/dev/null
mv plain.c.gcov "$here"
grep -A 3 "plain.c'" "$here/summary" | sed -n 's/^\(Lines\|Branches\|Taken\)/plain C: \1/p'
sed -n 's/^ *#####: */not reached: plain.c:/p' "$here/plain.c.gcov"
