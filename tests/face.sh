#!/bin/sh
# The C face: the header compiles clean, answers are taken apart as their own kind alone, the archive has every call and wants nothing,
# the calls answer a C program, and the manual page is that of the header. The last line is 'N passed, M failed'.
. "$(dirname "$0")/begin.sh"
needs lib build/face

# The header alone, included twice, in both languages.
printf '#include "scanboot.h"\n#include "scanboot.h"\n' >"$folder/twice.c"
clean='-Wall -Wextra -Wpedantic -Wconversion -Wshadow -Werror -fsyntax-only -Iinclude'
for language in c99 c11 c17 c2x c++11 c++17 c++20; do
    case $language in c++*) with='g++ -x c++' ;; *) with='gcc -x c' ;; esac
    # shellcheck disable=SC2086
    says "the header is clean $language" $with -std=$language $clean "$folder/twice.c"
done

# The call that its comment shows.
{
    printf '#include "scanboot.h"\nvoid shown(const uint8_t *file, size_t file_len, uint8_t *out, size_t out_len);\n'
    printf 'void shown(const uint8_t *file, size_t file_len, uint8_t *out, size_t out_len)\n{\n'
    sed -n -e '/^ \*     order [0-3] /d' -e 's/^ \*     //p' include/scanboot.h
    printf '(void)made;\n}\n'
} >"$folder/shown.c"
# shellcheck disable=SC2086
says 'the call that the header shows compiles' gcc -std=c99 $clean "$folder/shown.c"
says 'and there is one' grep -q 'scanboot_convert_with($' "$folder/shown.c"

# Each call, and what its answer may be taken apart with.
cat >"$folder/table" <<'TABLE'
version()
measure(in,1) code index image_length kept
convert(in,1,out,1) code index image_length kept
list(in,1,out,1) code index text_length
read_image(in,1) code index entry blocks
block_at(in,1,1) code index offset size next_place
block_addresses_at(in,1,1) load_address run_address
block(in,1,1) code index offset size next_place
block_addresses(in,1,1) load_address run_address
load_image(in,1,1,out,1) code index placed
load_coff(in,1,1,out,1) code index placed
check(in,1,in,1) code index
measure_with(in,1,in,1) code index image_length kept
convert_with(in,1,out,1,in,1,1) code index image_length kept
read_image_with(in,1,1) code index entry blocks
block_at_with(in,1,1,1) code index offset size next_place
block_addresses_at_with(in,1,1,1) load_address run_address
block_with(in,1,1,1) code index offset size next_place
block_addresses_with(in,1,1,1) load_address run_address
load_image_with(in,1,1,out,1,1) code index placed
load_coff_with(in,1,1,out,1,in,1) code index placed
check_with(in,1,in,1,in,1,1) code index
takes(in,1,in,1)
TABLE
declared=$(sed -n 's/^SCANBOOT_TO_BE_READ [a-z0-9_]* \(scanboot_[a-z_]*\)(.*/\1/p' include/scanboot.h | sort)
says 'the table has every call' [ "$(sed 's/^\([a-z_]*\).*/scanboot_\1/' "$folder/table" | sort)" = "$declared" ]

# Every call's answer taken apart in every way, a line each, which says whether that is right; and every answer left unread.
while read -r call right; do
    for figure in code index image_length kept text_length entry blocks offset size next_place placed load_address run_address; do
        case " $right " in *" $figure "*) verdict=right ;; *) verdict=wrong ;; esac
        echo "    (void)scanboot_$figure(scanboot_$call); /* $verdict */"
    done
done <"$folder/table" >"$folder/pairs"
sed 's/^\([^ ]*\).*/    scanboot_\1; \/* wrong *\//' "$folder/table" >"$folder/unread"
begin='#include "scanboot.h"
void all(const uint8_t *in, uint8_t *out);
void all(const uint8_t *in, uint8_t *out)
{'

# finds NAME BEGIN LINES WORD..: with these words the compiler finds fault with the lines that are wrong, and with no other
finds() {
    said=$1
    { echo "$2" && cat "$3" && echo '    (void)in, (void)out;' && echo '}'; } >"$folder/lines.c"
    shift 3
    wrong=$(grep -n 'wrong' "$folder/lines.c" | cut -d : -f 1)
    found=$("$@" -Wall -Wextra -Werror -ftrack-macro-expansion=0 -O -Iinclude -c "$folder/lines.c" -o "$folder/lines.o" 2>&1 |
        sed -n 's|^[^ ]*/lines.c:\([0-9]*\):.* error: .*|\1|p' | sort -n -u)
    says "$said" [ "$found" = "$wrong" ]
}
finds 'C takes an answer apart as its own kind alone' "$begin" "$folder/pairs" gcc -std=c99
finds 'C++ takes an answer apart as its own kind alone' "$begin" "$folder/pairs" g++ -std=c++11 -x c++
finds 'C warns of each answer that goes unread' "$begin" "$folder/unread" gcc -std=c99
finds 'C++ warns of each answer that goes unread' "$begin" "$folder/unread" g++ -std=c++11 -x c++
begin="#include <stddef.h>
#include <stdint.h>
#undef __GNUC__
$begin"
finds 'C++17 warns of it by a word of its own' "$begin" "$folder/unread" g++ -std=c++17 -x c++

# What the archive wants from outside, and what it gives.
wanted=$(nm -u build/libscanboot.a | sed -n 's/^ *U //p' | sort -u)
says "the archive wants nothing of the C library: $wanted" [ -z "$wanted" ]
given=$(nm -g --defined-only build/libscanboot.a | sed -n 's/^[0-9a-f]* T //p' | sort)
says 'the archive gives what the header declares, and no other name' [ "$given" = "$declared" ]

# counts COMMAND..: a test of its own
counts() {
    "$@" >"$folder/counted"
    add $? "$(tail -n 1 "$folder/counted")"
    grep '^failed: ' "$folder/counted"
}
# The calls.
# shellcheck disable=SC2086
counts $emulator build/face

# The same as C++, where a compiler of it for x86-64 is at hand.
if [ -z "$emulator" ]; then
    says 'the calls from C++ build' g++ -std=c++11 -Wall -Wextra -Wpedantic -Werror -Iinclude -x c++ tests/face.c -x none build/libscanboot.a \
        -o "$folder/face"
    counts "$folder/face"
fi

# The manual page, and its example on the image of the bench's entry A.
if command -v groff >/dev/null; then
    says 'the manual page is clean' [ -z "$(groff -man -Tutf8 -ww -z man/scanboot.3 2>&1)" ]
fi
counts python3 tests/page.py "$folder/example.c"
# shellcheck disable=SC2086
says 'the examples of the manual page build' \
    $compiler -std=c99 -Wall -Wextra -Wpedantic -Werror $link -Iinclude "$folder/example.c" build/libscanboot.a -o "$folder/example"
printf '\0\0\0\0\5\0\0\0\0\4\0\0\0\0\0\200\21\42\63\104\125\0\0\0\0\0\0\0' >"$folder/a.img"
says 'it tells of each block' [ "$($emulator "$folder/example" <"$folder/a.img")" = '5 bytes to 00000400' ]
says 'it tells of a refusal' [ "$(head -c 27 "$folder/a.img" | $emulator "$folder/example" 2>&1)" = \
    'refused 21: the image ends inside a block or without its end flag' ]

end
