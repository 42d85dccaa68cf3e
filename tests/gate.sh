#!/bin/sh
# The gate. Each part is a command whose last line is 'N passed, M failed'; the last line here is their sum.
set -u
cd "$(dirname "$0")/.."
mkdir -p build
. tests/says.sh
begun=$(date +%s)

# begin NAME COMMAND..: a part, beside whatever follows; its whole output is kept in build/gate-NAME.log
begin() {
    name=$1
    shift
    : >"build/gate-$name.end"
    (
        start=$(date +%s)
        "$@" >"build/gate-$name.log" 2>&1
        echo "$? $(($(date +%s) - start))" >"build/gate-$name.end"
    ) &
}

# count NAME: what a part that has ended found
count() {
    log=build/gate-$1.log
    read -r status took <"build/gate-$1.end" || status=1 took=0
    last=$(tail -n 1 "$log")
    add "$status" "$last"
    printf '%s: %s passed, %s failed (%s s)\n' "$1" "$its_passed" "$its_failed" "$took" >>build/gate-parts.txt
    printf -- '-- %s: %s (%s s)\n' "$1" "$last" "$took"
    if [ "$its_failed" != 0 ]; then
        printf 'The end of %s:\n' "$log"
        tail -n 40 "$log" | cut -c 1-400
    fi
}

# part NAME COMMAND..: begun, waited for and counted
part() {
    begin "$@"
    wait $!
    count "$1"
}

: >build/gate-parts.txt
: >build/gate-page.txt
part proofs sh tests/proofs.sh
part listing sh tests/listing.sh
part face sh tests/face.sh
part exports python3 tests/exports.py
part stack python3 tests/stack.py
part flags sh tests/flags.sh
# the program twice, once under sanitizers, on a processor each
begin sanitized sh tests/sanitized.sh
sanitized=$!
part host sh tests/host.sh
part delivery sh tests/delivery.sh
part examples sh tests/examples.sh
part dist sh tests/dist.sh
wait $sanitized
count sanitized
part docs python3 tests/docs.py
part promises python3 tests/promises.py
part borders python3 tests/borders.py
part second sh tests/second.sh

# The last page, which is kept for those who get what was tested: what was proved, what it was, and the counts with their times. The program
# was tested as a whole by the one name; by the other, which is the same file where nothing is emulated, the dist part has tried what is
# handed out.
page() {
    echo 'Each crate, proved now or in an earlier run on this machine; each must-fail edit, refused; and what rt ci says of all:'
    sed -n -e 's/^rt: \([a-z_]* proved\)$/  \1/p' -e 's/^rt: \([a-z_]*\) is kept: .*/  \1 proved earlier/p' \
        -e 's/^rt: must-fail \([^:]*\): refused.*/  \1 refused/p' -e 's/^rt: \(ok;.*\)/  \1/p' build/gate-proofs.log
    echo
    echo "What was proved and tested, with $(rt version), on $(date -u +%Y-%m-%d):"
    sha256sum include/scanboot.h build/libscanboot.a build/scanboot.program build/dist/scanboot
    echo
    cat build/gate-parts.txt
    printf 'The whole gate: %s s\n' $(($(date +%s) - begun))
    end
}
page >build/gate-page.txt
status=$?
echo
cat build/gate-page.txt
exit $status
