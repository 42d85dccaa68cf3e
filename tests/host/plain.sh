#!/bin/sh
# Plain sections: those with no flag that gives a type. With raw data they are kept.
. "$(dirname "$0")/common.sh"
inputs plain.out plain.cut plain.low plain.none plain.name

# What is loaded of the file, in every command that tells of it.
run list plain.out
says 'those with raw data are listed' wrote 'coff sections 9 kept 4 entry 00000000' '0 load 00000000 run 00000000 size 4' \
    '1 load 00001000 run 00001000 size 7' '2 load 00002000 run 00002000 size 5' '3 load 00003000 run 00003000 size 1' 'image 80'
run convert plain.out -o plain.img
says 'they are converted' ask counted plain.img plain.out
run check plain.out plain.img
says 'and the image is that of the file' [ "$status$(cat out err)" = 0same ]
run load plain.img --base 0 --size 0x4000 -o image.mem
run load --coff plain.out --base 0 --size 0x4000 -o file.mem
says 'loading either puts them there' same image.mem file.mem
says 'byte for byte' ask loaded file.mem plain.img 0 0x4000 0
run stats plain.out
says 'they are counted as initialised data, those without as uninitialised' wrote 'code sections 1 bytes 4' 'data sections 3 bytes 13' \
    'initialised sections 4 bytes 17' 'uninitialised sections 2 bytes 25' 'total sections 6 bytes 42' 'uncounted sections 3 bytes 6'
run map plain.out -o plain.svg
for name in .coeffs .tables .padded; do
    says "$name is drawn" grep -q -F "$name" plain.svg
done
says 'one without raw data is not' [ "$(grep -c -F .later plain.svg)" = 0 ]

# What inspect says of each.
run inspect plain.out
says 'plain, and what other flags there are' [ "$(sed -n '/^section/,$p' out | sed 's/^.\{53\}//')" = "$(cat <<'SECTIONS'
name     flags                kept
.text    TEXT                 yes
.coeffs  plain                yes
.tables  plain CLINK align 2  yes
.padded  plain PADDED         yes
.later   plain                no: it is plain, and its raw offset is 0
.empty   plain                no: its size is 0
.group   GROUP                no: its type is none of TEXT, DATA and VECTOR
.pad     PAD                  no: its type is none of TEXT, DATA and VECTOR
.bss     BSS                  no: its type is none of TEXT, DATA and VECTOR
SECTIONS
)" ]
run inspect --json plain.out
says 'the same as JSON' ask sections_right out plain.out

# Left out by name, as any other.
run convert plain.out --skip '.coe*' --skip .tables -o left.img
says 'a pattern leaves them out' ask counted left.img plain.out '.coe*' .tables
run check plain.out left.img --skip '.coe*' --skip .tables
says 'which is told' wrote same "left out: section 1 '.coeffs', 7 bytes, by '.coe*'" "left out: section 2 '.tables', 5 bytes, by '.tables'"
run check plain.out left.img
says 'an image without them is another' told 'scanboot: differs 41: at 00001000 the file places 05 and the image nothing (section 1)'
run list plain.out --skip .later
says 'one without raw data is not told as left out, since it is not kept anyway' wrote 'coff sections 9 kept 4 entry 00000000' \
    '0 load 00000000 run 00000000 size 4' '1 load 00001000 run 00001000 size 7' '2 load 00002000 run 00002000 size 5' \
    '3 load 00003000 run 00003000 size 1' 'image 80' 'left out: nothing'
run stats plain.out --skip '.coe*'
says 'and counted apart' wrote 'code sections 1 bytes 4' 'data sections 2 bytes 6' 'initialised sections 3 bytes 10' \
    'uninitialised sections 2 bytes 25' 'total sections 5 bytes 35' 'uncounted sections 3 bytes 6' 'skipped sections 1 bytes 7' \
    "left out: section 1 '.coeffs', 7 bytes, by '.coe*'"

# Rule 10 is asked of those with raw data, and nothing of those without.
run list plain.cut
says 'raw data that is cut' told_of 'refused 10 0: '
run list plain.low
says 'raw data that begins in the headers' told_of 'refused 10 0: '
run inspect plain.low
says 'is told as such' grep -q 'raw data from byte 1 to byte 6' out
run list plain.none
says 'no raw data, and nothing to refuse' wrote 'coff sections 1 kept 0 entry 00000000' 'image 8'

run list plain.name
says 'no name is read without patterns' wrote 'coff sections 2 kept 1 entry 00000000' '1 load 00000400 run 00000000 size 5' 'image 28'
run convert plain.name --skip '*' -o none.img
says 'with them it is that of the first which is kept' told_of 'refused 16 0: '
says 'and that section is named' grep -q 'section 1' err

# A file of a real linker.
run inspect "$samples/c6x-plain.out"
says 'its plain section with raw data' grep -q ' 493  .coeffs   plain          yes$' out
says 'and the one without' grep -q '   0  .work     plain          no: it is plain, and its raw offset is 0$' out

# Who asks is told.
for command in stats inspect; do
    run $command --help
    says "$command --help speaks of them" grep -q -w -i plain out
done
# causes CODE WORDS: it is explained by these
causes() {
    run explain "$1"
    says "$2 ($1)" sh -c "tr -s '\n ' '  ' <out | grep -q '$2'"
}
causes 13 'a plain section, which has no type flag, is loaded too'
causes 41 'a version before 1.3.0, which left plain sections out'

end
