#!/bin/sh
# The listing program beside the second program. The last line is 'N passed, M failed'.
set -eu
cd "$(dirname "$0")/.."
make -s build/listing
(cd second && cargo build --release --offline --quiet)
. tools/machine.sh
# shellcheck disable=SC2086
exec python3 tests/listing.py ${emulator:+$emulator -L /usr/x86_64-linux-gnu} build/listing -- second/target/release/second list
