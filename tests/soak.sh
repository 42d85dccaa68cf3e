#!/bin/sh
# soak.sh [N [SEED]]: N generated cases against the second program, half as many with patterns and half as many with an order;
# each time others, or those of SEED.
# The last line is 'N passed, M failed'.
set -eu
cd "$(dirname "$0")/.."
cases=${1:-1000000}
seed=${2:-$(od -A n -t u4 -N 4 /dev/urandom | tr -d ' ')}
make -s build/driver
(cd second && cargo build --release --offline --quiet)
. tools/machine.sh
echo "seed $seed, $cases cases; again: make soak N=$cases SEED=$seed"
# shellcheck disable=SC2086
exec second/target/release/second test --cases "$cases" --seed "$seed" --samples second/samples --peer $emulator build/driver
