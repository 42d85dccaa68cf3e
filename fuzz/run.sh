#!/bin/sh
# run.sh [SECONDS]: the fuzzer for so many seconds. It ends with another status than 0, and keeps the input as build/fuzz/found-*,
# on a difference between plain C and the library, a crash of either, or a finding of a sanitizer. A quarter as long again it is
# `scanboot inspect` that has to make text and JSON of anything.
# What it has learnt stays in build/fuzz/corpus. Which lines of plain C that reaches: fuzz/coverage.sh.
set -eu
cd "$(dirname "$0")/.."
seconds=${1:-60}
here=build/fuzz
make -s build/driver
sh fuzz/build.sh
. tools/machine.sh
status=0
SCANBOOT_DRIVER="$emulator build/driver" "$here/fuzz" -max_total_time="$seconds" -max_len=16384 -timeout=60 \
    -use_value_profile=1 -reload=0 -print_final_stats=1 -dict=fuzz/words.dict \
    -artifact_prefix="$here/found-" "$here/corpus" "$here/seeds" >"$here/log" 2>&1 || status=$?
sed -n -e '/INITED/p' -e '/DONE/p' -e '/^stat::/p' -e '/^codes answered/,/walk own/p' -e '/^fuzz:/p' -e '/ERROR/,/SUMMARY/p' \
    -e '/Test unit written/p' "$here/log"
if [ "$status" != 0 ]; then
    echo "fuzz: stopped with status $status; the whole log is $here/log, the input $here/found-*"
    exit 1
fi
sh fuzz/coverage.sh
"$here/inspect" -max_total_time=$((seconds / 4 + 1)) -max_len=4096 -timeout=60 -use_value_profile=1 -reload=0 -print_final_stats=1 \
    -dict=fuzz/words.dict -artifact_prefix="$here/found-inspect-" "$here/described" "$here/files" second/samples >"$here/inspect.log" 2>&1 || status=$?
sed -n -e '/INITED/p' -e '/DONE/p' -e '/^fuzz:/p' -e '/ERROR/,/SUMMARY/p' -e '/Test unit written/p' "$here/inspect.log"
if [ "$status" != 0 ]; then
    echo "fuzz: inspect stopped with status $status; the whole log is $here/inspect.log, the input $here/found-inspect-*"
    exit 1
fi
echo "fuzz: nothing found in $seconds s"
