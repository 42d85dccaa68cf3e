#!/bin/sh
# The proofs, in this checkout as it stands: `rt ci` proves every crate, tries the must-fail edits, and runs the program. What it passed of the same
# files in an earlier run on this machine it takes from there, and its line 'rt: ok' says how much that is.
# That line only tells of an edit that is bad, which shows nothing of any promise: here it has failed.
# The last line is 'N passed, M failed'.
set -u
cd "$(dirname "$0")/.." || exit 1
. tests/says.sh
folder=$(mktemp -d)
trap 'rm -rf "$folder"' EXIT

{ rt ci 2>&1; echo $? >"$folder/status"; } | tee "$folder/log"
add "$(cat "$folder/status")" "$(tail -n 1 "$folder/log")"

# edits KIND: how many of that kind the line tells of
edits() { sed -n "s/^rt: ok;.*[;,] \(must-fail edits: \)\{0,1\}\([0-9]*\) $1[;,].*/\2/p" "$folder/log"; }
if [ "$its_failed" = 0 ]; then
    says 'rt ci says that all is well' grep -q '^rt: ok;' "$folder/log"
    bad=$(edits bad)
    refused=$(edits refused)
    says "no must-fail edit is bad: ${bad:-0}" [ "${bad:-0}" = 0 ]
    says "each must-fail edit is refused: ${refused:-0}" [ "${refused:-0}" = "$(find crates/*/must-fail -name '*.edit' | wc -l)" ]
fi
end
