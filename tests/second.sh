#!/bin/sh
# The second program beside the library: it is built, answers every call of the library, and is compared with it over a pipe. The
# samples that a script made of another are made again.
# The last line is 'N passed, M failed'.
set -eu
cd "$(dirname "$0")/.."
make -s build/driver
(cd second && cargo build --release --offline --quiet)
. tools/machine.sh
. tests/says.sh

# made_again SAMPLE SCRIPT WORDS..: the script makes the sample of c6x.out
made_again() {
    sample=second/samples/$1 script=second/samples/$2
    shift 2
    python3 "$script" second/samples/c6x.out "$@" | cmp -s - "$sample"
}
says 'the sample long-name.out is made again' made_again long-name.out long_name.py long_nam long_named_section
says 'the sample c6x-initialised.out is made again' made_again c6x-initialised.out initialised.py .stack=80003000 .debug_x=80004000

status=0
# shellcheck disable=SC2086
second/target/release/second test --cases "${1:-500000}" --samples second/samples --peer $emulator build/driver >build/second.log || status=$?
sed '$d' build/second.log
add "$status" "$(tail -n 1 build/second.log)"
end
