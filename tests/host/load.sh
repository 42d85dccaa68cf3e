#!/bin/sh
# Loading.
. "$(dirname "$0")/common.sh"
inputs a.out a.img cut.out split.img many.img bare.img wide.img r14 r25

run load a.img --base 0x400 --size 8 --fill 0xAA -o memory
says 'the image of A loads' ended 0
says 'and says nothing' told_nothing
says 'eight bytes of memory' [ "$(od -A n -t x1 memory)" = ' 11 22 33 44 55 aa aa aa' ]
run load --coff a.out --base 1024 --size 8 --fill 170 -o direct
says 'A loads directly' same memory direct
run load a.out --coff --base=0X3fF --size=0x10 -o -
says 'the options in another order' [ "$(od -A n -t x1 out)" = ' 00 11 22 33 44 55 00 00 00 00 00 00 00 00 00 00' ]
run load split.img --base 0 --size 0x1000 -o memory
says 'two blocks' ask loaded memory split.img 0 0x1000 0
run load many.img --base 0 --size 65536 --fill 255 -o memory
says 'many blocks' ask loaded memory many.img 0 65536 255
run load bare.img --base 0 --size 0 -o memory
says 'nothing into nothing' [ "$status$(stat -c %s memory)" = 00 ]
run load wide.img --base 0 --size 16777216 -o memory
says 'the largest window' [ "$(stat -c %s memory)" = 16777216 ]
mkdir loads
run load a.img --base 0x400 --size 4 -o loads/memory
says 'a block outside' told 'scanboot: refused 29 0: the section or block is not wholly inside the window: block 0 of a.img'
says 'ends with 4' ended 4
run load --coff r14 --base 0 --size 9000000 -o loads/memory
says 'a section outside' told 'scanboot: refused 29 1: the section or block is not wholly inside the window: section 1 of r14'
run load a.img --base 0x400 --size 16777217 -o loads/memory
says 'a window that is too long' told_first 'scanboot: refused 28 0: the window is longer than 16777216 bytes'
run load a.img --base 0x400 --size 0xffffffffffffffff -o loads/memory
says 'a window that is far too long' told_first 'scanboot: refused 28 0: '
run load a.img --base 0xfffffff0 --size 17 -o loads/memory
says 'a window past the last address' told_first 'scanboot: refused 28 0: '
run load a.img --base 0x100000400 --size 8 -o loads/memory
says 'a base past the last address' told_first 'scanboot: refused 28 0: '
run load a.out --base 0x400 --size 8 -o loads/memory
says 'a COFF file is no image' \
    told "scanboot: refused 26 0: bytes follow the image's end flag: a.out, after 0 whole blocks; is it a COFF file? then --coff"
run load cut.out --base 0x400 --size 8 -o loads/memory
says 'nor is what begins as one' told_of 'cut.out, after 0 whole blocks; is it a COFF file? then --coff'
run load r25 --base 0 --size 8 -o loads/memory
says 'a wrong image is not taken for one' told 'scanboot: refused 25 0: a padding byte of the block is not 0: block 0 of r25'
run load a.out --base 0 --size 16777217 -o loads/memory
says 'a wrong window has no such hint' told_of 'past the last address: --base and --size'
says 'at the end of its line' grep -q ' --base and --size$' err
run load --coff a.img --base 0x400 --size 8 -o loads/memory
says 'an image is no COFF file' \
    told 'scanboot: refused 3 0: the file is not COFF version 2 (version is not 00C2h): a.img; is it an image? then without --coff'
run load --coff cut.out --base 0x400 --size 8 -o loads/memory
says 'a refused COFF file is not taken for one' \
    told "scanboot: refused 10 0: the section's raw data begins inside the headers or ends past the file: section 0 of cut.out"
says 'no refused load makes a file' only loads ''

end
