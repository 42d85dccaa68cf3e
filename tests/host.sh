#!/bin/sh
# The command-line program, used as a person uses it: build/scanboot, or the program whose path is given.
# Each subject in tests/host/ runs alone too. The last line is 'N passed, M failed', their sum.
set -u
cd "$(dirname "$0")/.." || exit 1
[ $# = 1 ] || make -s -f build.mk host || { echo '0 passed, 1 failed'; exit 1; }
. tests/says.sh
log=$(mktemp)
trap 'rm -f "$log"' EXIT
for subject in tests/host/*.sh; do
    name=$(basename "$subject" .sh)
    [ "$name" != common ] || continue
    sh "$subject" "${1:-build/scanboot}" >"$log" 2>&1
    add $? "$(tail -n 1 "$log")"
    sed "s/^/$name: /" "$log"
done
end
