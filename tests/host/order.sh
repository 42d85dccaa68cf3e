#!/bin/sh
# Images of other byte orders.
. "$(dirname "$0")/common.sh"
inputs a.out a.img bench.out harm.out long.out bare.out bare.img words.out start.out cut.out empty one x.elf r13 r14 r25 flash \
    words.img words.img.1 words.img.2 words.img.3 start.img start.img.1 many.img many.img.1 many.img.3

# hex FILE: its bytes, as a person reads them
hex() { od -A n -v -t x1 -w64 "$1" | sed 's/^ //'; }

# A in each order, byte for byte; and in every way to say it.
while read -r order bytes; do
    run convert a.out --order "$order" -o "$order.img"
    says "A in order $order" [ "$status$(cat out err)" = 0 ]
    says "its bytes in order $order" [ "$(hex "$order.img")" = "$bytes" ]
done <<'BYTES'
0 00 00 00 00 05 00 00 00 00 04 00 00 00 00 00 80 11 22 33 44 55 00 00 00 00 00 00 00
1 00 00 00 00 00 00 00 05 00 00 04 00 80 00 00 00 11 22 33 44 55 00 00 00 00 00 00 00
2 00 00 00 00 05 00 00 00 00 04 00 00 00 00 00 80 44 33 22 11 00 00 00 55 00 00 00 00
3 00 00 00 00 00 00 00 05 00 00 04 00 80 00 00 00 44 33 22 11 00 00 00 55 00 00 00 00
big 00 00 00 00 00 00 00 05 00 00 04 00 80 00 00 00 44 33 22 11 00 00 00 55 00 00 00 00
BYTES
says 'order 0 is the image as it was' same 0.img a.img
for words in '--order=3' '--order=big' '--order 0x3' '--order 03' '--ord big'; do
    # shellcheck disable=SC2086
    run convert $words a.out -o -
    says "order 3 by $words" same out 3.img
done

# in_order FILE PATTERN..: in each order its image, the check, the blocks, the memory and the C array are those of order 0
in_order() {
    file=$1
    shift
    name=$(basename "$file")
    skips=$([ $# = 0 ] || printf " --skip '%s'" "$@")
    eval "run convert '$file' $skips -o plain"
    run blocks plain
    mv out plain.text
    rm -f plain.memory
    run load plain --base 0 --size 0x20000 --fill 0xAA -o plain.memory
    loads=$status$(sed 's/ of plain$/ of image/' err)
    for order in 0 1 2 3; do
        eval "run convert '$file' $skips --order $order -o image"
        says "$name in order $order" ask turned image plain $order
        eval "run check '$file' image $skips --order $order"
        says "$name in order $order: the check" [ "$status$(head -n 1 out)$(cat err)" = 0same ]
        run blocks image --order $order
        says "$name in order $order: the blocks" same out plain.text
        run blocks image --order $order --json
        says "$name in order $order: the blocks as JSON" ask ordered_blocks out plain $order
        run load image --order $order --base 0 --size 0x20000 --fill 0xAA -o memory
        says "$name in order $order: the load" [ "$status$(cat err)" = "$loads" ]
        [ "$status" != 0 ] || says "$name in order $order: the memory" same memory plain.memory
        eval "run convert '$file' $skips --order $order --c-array boot"
        says "$name in order $order: the array" ask array_in $order out plain boot "$file" "$@"
    done
}
in_order a.out
in_order bench.out
in_order bench.out '.test*' .stack
in_order harm.out '*/*'
in_order long.out
in_order bare.out
in_order start.out
in_order "$samples/c6x.out"
in_order "$samples/edges.out"
in_order "$samples/many-256.out"
run convert a.out --order 3 --c-array boot_table -o a.h
printf '#include "a.h"\nint user(void);\nint user(void) { return boot_table[7] == 5 && sizeof boot_table == BOOT_TABLE_LENGTH; }\n' >user.c
says 'the array is C99' gcc -std=c99 -Wall -Wextra -Wpedantic -Werror -fsyntax-only user.c
run load many.img.3 --order big --base 0 --size 0x10000 -o memory
says 'many blocks' ask loaded memory many.img 0 0x10000 0
run check a.out - --order 2 <2.img
says 'an image from standard input' wrote same

# A wrong order is most often refused, and the right one told; in JSON too.
hinted() { told_first "scanboot: refused $1 .*; it would be read with --order $2\$"; }
for order in 0 1 2 3; do
    for told in 0 1 2 3; do
        [ $told != $order ] || continue
        # what stands reversed and should not, or the other way round: numbers are met before padding
        case $((order ^ told)) in 2) code=25 ;; *) code=21 ;; esac
        for words in "blocks $order.img" "load $order.img --base 0x400 --size 8 -o memory.$told" "check a.out $order.img" "map $order.img -o map.$told"; do
            # shellcheck disable=SC2086
            run $words --order $told
            says "$words told $told" ended 4
            says "$words told $told: the order" hinted $code $order
            says "$words told $told: nothing written" [ "$(cat out; ls memory.? map.? 2>/dev/null)" = '' ]
        done
    done
done
run blocks 3.img
says 'without --order it is 0' told \
    'scanboot: refused 21 0: the image ends inside a block or without its end flag: 3.img, after 0 whole blocks; it would be read with --order 3'
run blocks 3.img --json
says 'as JSON' ask same_json out '{"refused": {"code": 21, "index": 0, "text": "the image ends inside a block or without its end flag",
    "file": "3.img", "hint": "it would be read with --order 3"}}'
run check a.out 2.img --order 0 --json
says 'of a check too' ask same_json out \
    '{"refused": {"code": 25, "index": 0, "text": "a padding byte of the block is not 0", "file": "2.img", "hint": "it would be read with --order 2"}}'
run blocks words.img.1
says 'all orders that it may be' hinted 21 '1 or 3'
run blocks words.img.2 --order big
says 'of whole words nothing tells which' hinted 21 '0 or 2'
for file in r25 flash one; do
    for order in 0 1 2 3; do
        run blocks $file --order $order
        says "$file has none in which it would be read, told $order" [ "$status$(grep -c -e --order err)" = 40 ]
    done
done
run blocks a.out --order 3
says 'a COFF file is named still' told_of 'is it a COFF file? then list'
run load x.elf --order 3 --base 0 --size 8 -o memory.3
says 'and so is another kind' told_of 'it is an ELF file: load takes a boot image'
# what begins so is an image, whatever takes a COFF file
for words in 'list 3.img' 'stats words.img.1' 'convert 3.img -o x' 'load --coff 3.img --base 0 --size 8 -o x' 'check 3.img 3.img --order 3'; do
    # shellcheck disable=SC2086
    run $words
    says "$words: an image of another order is one" told_first 'scanboot: refused 3 0: .*; is it an image? '
done
run check 3.img a.out --order 3
says 'the two of a check swapped' told_of 'the two may be swapped: check takes FILE, then IMAGE'

# A check that differs, where the image is the same in another order.
run check words.out words.img.2
says 'bytes of whole words that stand reversed differ' ended 1
says 'and the order is told' \
    told 'scanboot: differs 41: at 00001000 the file places 01 and the image 04 (section 0, block 0); it would be the same with --order 2'
run check words.out words.img.3 --order 1
says 'also with numbers that do' told_of '(section 0, block 0); it would be the same with --order 3'
run check words.out words.img --order 2 --json
says 'as JSON' ask same_json out '{"same": false, "code": 41, "difference": {"kind": "other byte", "address": 4096,
    "file": {"section": 0, "name": "", "byte": 1, "run": 4096}, "image": {"block": 0, "byte": 4, "run": 4096}},
    "hint": "it would be the same with --order 0", "order": 2}'
run check start.out start.img.1
says 'an entry point that does' told \
    'scanboot: differs 40: the entry point is 00001004 in the file and 04100000 in the image; it would be the same with --order 1 or 3'
run check start.out start.img --order 3
says 'of which nothing tells which' told_of '; it would be the same with --order 0 or 2'
run check words.out words.img --order 0 --json
says 'the same as JSON names the order' ask same_json out '{"same": true, "code": 0, "difference": null, "order": 0}'
run check words.out words.img.3 --order big --json --all
says 'by its number' ask same_json out '{"same": true, "code": 0, "difference": null, "differences": [], "order": 3}'

# What differs is told after undoing: as of the same image in order 0.
for image in entry byte run less hole more before nothing both early all; do
    inputs $image.img $image.img.1 $image.img.2 $image.img.3
    for words in '' --all; do
        # shellcheck disable=SC2086
        run check a.out $image.img $words
        mv out plain.out
        mv err plain.err
        for order in 1 2 3; do
            # shellcheck disable=SC2086
            run check a.out $image.img.$order --order $order $words
            says "$image in order $order $words" ended 1
            says "$image in order $order $words: where" same err plain.err
            says "$image in order $order $words: all" same out plain.out
        done
    done
done

# Drawn: the same picture, with the order under the title.
run map a.img -o plain.svg
for order in 1 2 3; do
    cp $order.img a.img
    run map a.img --order $order -o map.svg
    says "a map in order $order" look map.svg picture 1 1 , shows "boot image in byte order $order, 1 block · 5 bytes · entry point 00000000"
    sed "s/boot image in byte order $order, /boot image, /" map.svg >as_plain.svg
    says "which is else that of order 0" same as_plain.svg plain.svg
done
cp 0.img a.img

# Inspected: what it would be read in, and its blocks.
run inspect 3.img
says 'what it is' wrote '3.img: a boot image of another byte order (--order 3), 28 bytes' \
    'as an image: refused 21 0: the image ends inside a block or without its end flag' \
    '  a block at byte 4 is cut: 83886068 bytes missing; it says that it has 83886080 bytes, more than any image; in the other byte order it would be 5' \
    '  what to do: scanboot explain 21' 'as an image with --order 3: taken; 1 block' 'entry point: 00000000' \
    'remark: the entry point 00000000 lies in no block' '' '  block  load      run             size     data at' \
    '      0  00000400  80000000           5          16'
run inspect words.img.1
says 'of several all, and the first is shown' [ "$(grep -c -x -e 'words.img.1: a boot image of another byte order (--order 1 or 3), 44 bytes' \
    -e 'as an image with --order 1: taken; 2 blocks' -e 'entry point: 00001004, in block 0' -e '      1  00003000  00002000           4          36' out)" = 4 ]
run inspect words.img
says 'not of one that is taken as it is' [ "$(grep -c order out)" = 0 ]
while read -r file orders kind; do
    run inspect --json "$file"
    says "$file: kind" ask same_member out kind "\"$kind\""
    says "$file: orders" ask same_member out orders "$orders"
done <<'ORDERS'
a.img [0] image
1.img [1] turned image
2.img [2] turned image
words.img [0,2] image
words.img.3 [1,3] turned image
start.img [0,1,2,3] image
flash [] broken image
a.out [] coff
empty [] empty
ORDERS
run inspect --json many.img.1
says 'blocks as JSON' ask ordered_blocks out many.img 1

# What is no order: refused by the library, after patterns and before all else, and nothing is made.
mkdir refused
for words in 'blocks a.img' 'blocks empty' 'blocks a.out' 'load a.img --base 0x400 --size 8 -o refused/x' 'load a.img --base 0 --size 16777217 -o refused/x' \
    'load empty --base 0 --size 8 -o refused/x' 'convert a.out -o refused/x' 'convert a.out --c-array x -o refused/x' 'convert a.img -o refused/x' \
    'convert cut.out -o refused/x' 'convert r14 -o refused/x' 'check a.out a.img' 'check r13 empty' 'check a.img a.out' 'map a.img -o refused/x' \
    'map a.out -o refused/x' 'map one -o refused/x'; do
    for order in 4 0x100 4294967295; do
        # shellcheck disable=SC2086
        run $words --order $order
        says "$words --order $order" told "scanboot: refused 33 0: the byte order is none of 0 to 3: --order $((order))"
        says "$words --order $order: ended" ended 4
        says "$words --order $order: nothing written" [ "$(cat out)$(ls refused)" = '' ]
    done
done
for words in 'convert a.out -o refused/x' 'check a.out a.img' 'map a.img -o refused/x'; do
    # shellcheck disable=SC2086
    run $words --order 4 --skip ''
    says "$words: patterns come first" told_first 'scanboot: refused 17 0: '
done
for words in 'blocks a.img' 'check r13 a.img'; do
    # shellcheck disable=SC2086
    run $words --order 7 --json
    says "$words: as JSON" ask same_member out refused \
        '{"code": 33, "index": 0, "text": "the byte order is none of 0 to 3", "file": "a.img", "hint": null}'
done

# Wrong usage.
for word in '' middle Big little -1 +1 ' 1'; do
    misused "--order ORDER is neither a number nor 'big': $word" blocks a.img --order "$word"
    misused "--order ORDER is neither a number nor 'big': $word" convert missing --order "$word" -o refused/x
done
misused '--order ORDER is no number, in decimal or after 0x' check a.out a.img --order 3x
misused '--order ORDER is too large' map a.img --order 4294967296 -o refused/x
misused '--order ORDER is given twice' blocks a.img --order 1 --order 1
misused 'nothing stands behind --order' blocks a.img --order
for words in 'list a.out' 'stats a.out' 'inspect a.img' 'explain 33'; do
    # shellcheck disable=SC2086
    misused 'unknown option --order' $words --order 1
done
misused '--order ORDER goes without --coff: it is that of an image' load --coff a.out --order 0 --base 0x400 --size 8 -o refused/x
misused '--order ORDER is for an image, and this is a COFF file: a.out' map a.out --order 0 -o refused/x
misused '--skip PATTERN is for a COFF file, and this is an image: 3.img' map 3.img --order 3 --skip x -o refused/x

end
