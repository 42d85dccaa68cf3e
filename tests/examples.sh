#!/bin/sh
# The examples, built as their first lines say, out of what was installed: a host that sees the processor's memories, a host before a
# port; and the map of a scanner's memory. The last line is 'N passed, M failed'.
. "$(dirname "$0")/begin.sh"
needs lib host
samples=second/samples

at=$folder/root/opt/scanboot
examples=$at/share/doc/scanboot/examples
says 'make install' make -s install DESTDIR="$folder/root" PREFIX=/opt/scanboot
if command -v pkg-config >/dev/null; then
    flags() { PKG_CONFIG_PATH=$at/lib/pkgconfig PKG_CONFIG_SYSROOT_DIR=$folder/root pkg-config "$@" scanboot; }
else
    flags() { echo "-I$at/include -L$at/lib -lscanboot"; }
fi
warned='-Wall -Wextra -Wpedantic -Wconversion -Wshadow -Werror'

# A host that sees the memories: what it says, and how it ends.
# shellcheck disable=SC2046,SC2086
says 'host.c builds without a warning' $compiler -std=c99 $warned $link "$examples/host.c" $(flags --cflags --libs) -o "$folder/host"
# host STATUS SAID WORD..: given these words it says this and ends so
host() {
    status=$1 said_by_host=$2
    shift 2
    says "host $*: $said_by_host" [ "$($emulator "$folder/host" "$@" 2>&1; echo "ends with $?")" = "$said_by_host
ends with $status" ]
}
host 0 'started at 00000400' $samples/c6x.out
host 0 'started at 00000400' $samples/c6x-ld.out
host 0 'started at 00000400' $samples/c6x-plain.out
host 0 'started at 00001000' $samples/c4x-patched.out
host 0 'started at 00000400' $samples/edges.out
host 0 'started at 00001000' $samples/many-256.out
host 1 'refused 13 9: the section loads to an address of an earlier section' $samples/c6x-attributes.out
host 1 'refused 6 0: the file has unresolved references (flag 0002h is clear)' $samples/c4x-relocatable.out
python3 tests/coff.py "$folder/elsewhere.out" 400 400 1122334455 0 20000000 66
host 1 'refused 29 1: the section or block is not wholly inside the window' "$folder/elsewhere.out"
cp $samples/c6x.out "$folder/full.out"
truncate -s 16777216 "$folder/full.out"
host 0 'started at 00000400' "$folder/full.out"
printf '\0' >>"$folder/full.out"
host 1 'refused 1 0: the file is longer than 16777216 bytes' "$folder/full.out"
host 3 "$folder/none: No such file or directory" "$folder/none"
host 3 "$folder: Is a directory" "$folder"
host 2 'usage: host FILE [PATTERN]..'
# with patterns
host 0 'started at 00000400' $samples/c6x-attributes.out '.c6xabi*'
host 1 'refused 29 1: the section or block is not wholly inside the window' "$folder/elsewhere.out" '?'
host 0 'started at 00000000' "$folder/elsewhere.out" '*'
host 1 'refused 17 0: there are more than 16 patterns, or one has not 1 to 64 bytes' $samples/c6x.out .x ''
python3 examples/scanner.py "$folder/scanner.out"
host 0 'started at 0000AC80' "$folder/scanner.out"

# The memories that it leaves, and those that a host before a port leaves: as the library's load has them, with gcc's sanitizers where
# nothing is emulated.
[ -n "$emulator" ] && watched='' || watched='-g -fsanitize=address,undefined -fno-sanitize-recover=all'
# leaves NAME SOURCE..: a test in C, on every file
leaves() {
    name=$1
    shift
    # shellcheck disable=SC2086
    says "tests/$name.c builds without a warning" \
        $compiler -std=c11 $warned $watched $link -Iinclude "tests/$name.c" tests/images.c "$@" build/libscanboot.a -o "$folder/$name"
    $emulator "$folder/$name" $samples/*.out "$folder/scanner.out" >"$folder/told" 2>"$folder/refusals"
    add $? "$(tail -n 1 "$folder/told")"
    [ "$its_failed" = 0 ] || grep -v -e '^started at ' "$folder/told"
}
leaves memories
# shellcheck disable=SC2046,SC2086
says 'hpi.c builds without a warning' $compiler -std=c99 $warned -c "$examples/hpi.c" $(flags --cflags) -o "$folder/hpi.o"
# shellcheck disable=SC2046,SC2086
says 'as C++ too' g++ -std=c++11 $warned -fsyntax-only -x c++ "$examples/hpi.c" $(flags --cflags)
leaves hpi tests/port.c examples/hpi.c
# The slip that lost bytes beside a block, for which the model is there: whole words written, whatever stood in them.
sed 's/count < 4 ? read_word(address) : 0/0/' examples/hpi.c >"$folder/slip.c"
# shellcheck disable=SC2086
says 'the slip builds' $compiler -std=c11 $link -Iinclude -Iexamples tests/hpi.c tests/images.c tests/port.c "$folder/slip.c" \
    build/libscanboot.a -o "$folder/slip"
says 'the slip is found' [ "$($emulator "$folder/slip" | grep -c '^failed: ')" -gt 300 ]

# The picture is what the program draws.
build/scanboot map "$folder/scanner.out" -o "$folder/scanner.svg"
says 'examples/scanner.svg is of this version' cmp -s "$folder/scanner.svg" examples/scanner.svg

end
