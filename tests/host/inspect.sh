#!/bin/sh
# A file of any kind described, refused or not.
. "$(dirname "$0")/common.sh"
inputs rules a.out a.img split.img many.img kinds.out odd.out x.elf x.hex x.srec x.txt v1.out v0.out turned.out empty one \
    cut far cut.0 cut.1 cut.2 cut.3 cut.4 turned.img flash lost.out moved.out loaded.out shifted.out crossed.out copied.img overlays16.out bare.out \
    dated.out

# What it is: the first line.
while read -r file what; do
    run inspect "$file"
    says "$file is described" ended 0
    says "$file: nothing is told on standard error" told_nothing
    says "$file: $what" [ "$(head -n 1 out)" = "$file: $what" ]
done <<'KINDS'
a.out a COFF file of version 2 for the C6000 (target 0099h), 75 bytes
r4 a COFF file of version 2 for the C5400 (target 0098h), 22 bytes
r2 a COFF file of version 2, 21 bytes
v1.out a COFF file of version 1 for the C6000 (target 0099h), 22 bytes
v0.out a COFF file of version 0 for the C3x/C4x (target 0093h), 60 bytes
turned.out a COFF file of the other byte order, version 2, for the C6000 (target 0099h), 70 bytes
a.img a boot image, 28 bytes
r25 perhaps a boot image, 24 bytes
x.elf an ELF file of 32 bits, little-endian, for machine 140 (C6000), 52 bytes
x.hex an Intel Hex file, 36 bytes
x.srec a file of Motorola S-records, 43 bytes
x.txt a text file, 30 bytes
one a text file, 1 byte
empty an empty file, 0 bytes
r1 a file of no kind that is known here, 16777217 bytes
KINDS
"$scanboot" inspect - <r1 >out 2>err
says 'a length that nobody knows' [ "$(head -n 1 out)" = 'standard input: a file of no kind that is known here, over 16777216 bytes' ]

# Of a kind that is neither a COFF file nor an image no rule is spoken of, only what is taken.
for file in x.elf x.hex x.srec x.txt one empty; do
    run inspect $file
    says "$file: what is taken" [ "$(sed -n 2p out)" = "not taken: scanboot takes the linker's COFF file of version 2, or a boot image" ]
    says "$file: and no rule" [ "$(grep -c -e refused -e explain out)" = 0 ]
done

# A whole file, and a whole image, as a person reads them.
run inspect "$samples/c6x.out"
says 'a sample' wrote "$samples/c6x.out: a COFF file of version 2 for the C6000 (target 0099h), 767 bytes" \
    'as a COFF file: taken; 7 of 10 sections are kept, and the image has 220 bytes' \
    'time stamp: not set' \
    'flags: 0107h, relocations stripped, no unresolved references, little-endian target' \
    'entry point: 00000400, in section 1 (.text)' \
    '' \
    'section  load      run             size      raw at  name      flags          kept' \
    '      0  00000000  00000000          32         530  .vectors  TEXT align 32  yes' \
    '      1  00000400  00000400          32         562  .text     TEXT align 32  yes' \
    '      2  00001001  00001001           3         594  .const    TEXT VECTOR    yes' \
    '      3  80000000  80000000          11         597  .data     DATA           yes' \
    '      4  80000100  80000100           7         608  .coeffs   TEXT           yes' \
    '      5  80000203  80000203           5         615  long_nam  TEXT           yes' \
    '      6  80001000  00008000          32         620  .overlay  TEXT align 32  yes' \
    '      7  80002000  80002000          37           0  .bss      BSS            no: its type is none of TEXT, DATA and VECTOR' \
    '      8  80003000  80003000          64           0  .stack    BSS            no: its type is none of TEXT, DATA and VECTOR' \
    '      9  00000000  00000000           3         652  .debug_x  DSECT          no: DSECT is set'
run inspect split.img
says 'an image' wrote 'split.img: a boot image, 40 bytes' 'as an image: taken; 2 blocks' 'entry point: 00000000' \
    'remark: the entry point 00000000 lies in no block' \
    '' \
    '  block  load      run             size     data at' \
    '      0  00000404  80000004           1          16' \
    '      1  00000400  80000000           4          32'
run inspect kinds.out
says 'why sections are not kept' [ "$(sed -n 's/.* no: //p' out | tr '\n' ';')" = "$(printf '%s;' 'its type is none of TEXT, DATA and VECTOR' \
    'its type is none of TEXT, DATA and VECTOR' 'NOLOAD is set' 'COPY is set' 'DSECT is set')" ]
says 'where the processor starts' grep -q '^entry point: 00001002, in section 1$' out

# What a processor finds at the entry point: of a block that is loaded there and runs there nothing is remarked.
# enters FILE NUMBER LOADED RUNS WHERE REMARK: the same as JSON
enters() {
    run inspect "$1"
    says "$1: the entry point" grep -q -x "entry point: $5" out
    says "$1: ${6:-no remark}" [ "$(sed -n 's/^remark: //p' out | grep -v optional)" = "${6:+the entry point $6}" ]
    run inspect --json "$1"
    says "$1: the entry point as JSON" grep -q -F "\"entered\": $2, \"loaded_there\": $3, \"runs_there\": $4" out
}
enters kinds.out 1 true true '00001002, in section 1' ''
enters many.img 1108 true true '00000040, in block 1108' ''
enters lost.out null false false 00001800 '00001800 lies in no section that is loaded'
enters split.img null false false 00000000 '00000000 lies in no block'
enters moved.out 0 false true '00008010, where section 0 (.text) runs' \
    '00008010 lies where section 0 runs: nothing stands there until it is moved from 80000000'
enters copied.img 0 false true '80000000, where block 0 runs' '80000000 lies where block 0 runs: nothing stands there until it is moved from 00000000'
enters overlays16.out 0 false true '00008000, where section 0 runs' \
    '00008000 lies where section 0 runs: nothing stands there until it is moved from 80000000'
enters loaded.out 2 true false '00002004, where section 2 (.overlay) is loaded' \
    '00002004 lies where section 2 is loaded, but what stands there runs at 80000004'
enters shifted.out 0 true false '00001020, where section 0 is loaded' \
    '00001020 lies where section 0 is loaded, but what stands there runs at 00001030'
enters crossed.out 1 true false '00001004, where section 1 is loaded' \
    '00001004 lies where section 1 is loaded, but what stands there runs at 80000004'
run inspect bare.out
says 'where nothing is loaded at all' grep -q -x 'remark: there is no kept section: nothing would be loaded' out
run inspect dated.out
says 'a time stamp' grep -q -x 'time stamp: 2001-09-09 01:46:40 UTC' out

# Names, and a target of the other byte order.
run inspect odd.out
says 'names' [ "$(sed -n 's/^ *[0-9]  .\{44\}\(.*\)  TEXT   yes/\1/p' out | sed 's/ *$//' | cut -c 1-30 | tr '\n' ';')" = \
    '.text;eight_by;.a_name_longer_than_eight;;a?[2J?;(cannot be read);(cannot be read);nnnnnnnnnnnnnnnnnnnnnnnnnnnnnn;' ]
says 'a target of the other byte order' grep -q '^remark: its target is big-endian (flag 0200h): .*raw data is copied as it stands$' out
run inspect turned.out
says 'headers of the other byte order' grep -q '^remark: its headers are big-endian; here they are read little-endian' out
run inspect x.elf
says 'what to do about ELF' grep -q -e '--abi=coffabi' out

# Both sides of each refusal.
cat >reasons <<'REASONS'
r1 1 0 no more of it was read
r2 2 0 its header ends at byte 21: 1 byte missing
r3 3 0 its version is 00C1h
r4 4 0 its target is 0098h, the C5400
r5 5 0 the size is 26
r6 6 0 its flags are 0001h
r7 7 0 it says that it has 257
r8 8 0 1 section header would end at byte 70, and the file at byte 69: 1 byte missing; 0 are whole
r9 9 0 its magic number is 0000h
r10 10 1 section 1 has raw data from byte 117 to byte 122; it begins 1 byte before the headers' end at byte 118
cut 10 0 section 0 has raw data from byte 70 to byte 75; it passes the file's end at byte 74 by 1 byte
far 10 0 section 0 (.far) has raw data from byte 0 to byte 500; it begins 70 bytes before the headers' end at byte 70; it passes the file's end at byte 75 by 425 bytes
r11 11 0 section 0 has the load address FFFFFFFC and 5 bytes: 1 byte past the last address FFFFFFFF
r12 12 0 section 0 has the run address FFFFFFFC and 5 bytes: 1 byte past the last address FFFFFFFF
r13 13 2 section 2 meets section 0; both load to 00000004-00000004, 1 byte
r14 14 0 it would have 18000032 bytes, 1222816 too many
r20 20 0 no more of it was read
r21 21 1 a block's size, or the end flag, at byte 20 is cut: 2 bytes missing
cut.0 21 0 the entry point at byte 0 is cut: 1 byte missing
cut.1 21 0 a block's header at byte 4 is cut: 4 bytes missing; it says that it has 5 bytes
cut.2 21 0 a block at byte 4 is cut: 2 bytes missing; it says that it has 5 bytes
cut.3 21 0 the padding of a block at byte 4 is cut: 1 byte missing; it says that it has 5 bytes
cut.4 21 1 a block's size, or the end flag, at byte 24 is cut: 4 bytes missing
turned.img 21 0 a block at byte 4 is cut: 83886068 bytes missing; it says that it has 83886080 bytes, more than any image; in the other byte order it would be 5
r22 22 4096 a further block begins at byte 65540
r23 23 1 block 1 has the load address FFFFFFFF and 2 bytes: 1 byte past the last address FFFFFFFF
r24 24 0 block 0 has the run address FFFFFFFF and 2 bytes: 1 byte past the last address FFFFFFFF
r25 25 0 block 0 has 01h at byte 18, where its padding stands
r26 26 1 the end flag is at byte 20, and 1 byte behind it, 00h
flash 26 1 the end flag is at byte 24, and 100 bytes behind it, all FFh
r27 27 2 block 2 meets block 0; both load to 00000000-00000000, 1 byte
REASONS
while read -r file code index reason; do
    run inspect "$file"
    says "$file: the verdict" grep -q ": refused $code $index: " out
    says "$file: $reason" grep -q -x -F "  $reason" out
    says "$file: where to read on" grep -q -x "  what to do: scanboot explain $code" out
    "$scanboot" inspect --json "$file" >"$file.json" 2>err
done <reasons
says 'and as JSON, with the figures' ask reasons_right reasons

# The JSON of every sample, and of images, beside what Python reads in them.
for file in "$samples"/*.out odd.out kinds.out r7 r8; do
    run inspect --json "$file"
    says "$(basename "$file"): all sections as JSON" ask sections_right out "$file"
done
for file in a.img split.img many.img; do
    run inspect --json "$file"
    says "$file: all blocks as JSON" ask inspected_blocks out "$file"
done
run inspect --json r23
says 'blocks up to where an image breaks' ask same_member out blocks \
    '[{"block": 0, "load": 0, "run": 0, "size": 1, "data": 16}, {"block": 1, "load": 4294967295, "run": 0, "size": 2, "data": 32}]'
run inspect --json x.elf
says 'an ELF file as JSON' ask same_member out elf '{"bits": 32, "order": "little", "machine": 140}'

# From and to the standard files.
run inspect - <a.out
says 'from standard input' [ "$(head -n 1 out)" = 'standard input: a COFF file of version 2 for the C6000 (target 0099h), 75 bytes' ]
run inspect missing
says 'a missing file' ended 3
run inspect .
says 'a folder' ended 3
"$scanboot" inspect a.out >/dev/full 2>err
status=$?
says 'a full disk' ended 3
run inspect a.out -o x
says 'no output' ended 2

end
