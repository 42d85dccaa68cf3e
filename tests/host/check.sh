#!/bin/sh
# Checking.
. "$(dirname "$0")/common.sh"
inputs a.out a.img cut.out r14 r25 split.img entry.img byte.img run.img less.img hole.img more.img before.img nothing.img both.img early.img all.img \
    zeros.out ones.img many.img kinds.out

run check a.out a.img
says 'A is its image' wrote same
says 'with status 0' ended 0
run check a.out split.img
says 'in other pieces too' wrote same
run check --json a.out split.img
says 'the same as JSON' ask same_json out '{"same": true, "code": 0, "difference": null}'
run check - a.img <a.out
says 'the file from standard input' wrote same
run check a.out - <a.img
says 'the image from standard input' wrote same
# differs IMAGE LINE JSON: of an image beside A the line, and the same as JSON
differs() {
    run check a.out "$1"
    says "$1: the line" told "scanboot: differs $2"
    says "$1: the status" ended 1
    says "$1: not a word else" wrote_nothing
    run check --json a.out "$1"
    says "$1: JSON" ask same_json out "{\"same\": false, \"code\": ${2%%:*}, \"difference\": $3}"
    says "$1: the status with JSON" ended 1
    says "$1: the line with JSON" told "scanboot: differs $2"
}
differs entry.img '40: the entry point is 00000000 in the file and 00000010 in the image' \
    '{"kind": "entry point", "file": 0, "image": 16}'
differs byte.img '41: at 00000402 the file places 33 and the image FF (section 0, block 0)' \
    '{"kind": "other byte", "address": 1026, "file": {"section": 0, "name": "", "byte": 51, "run": 2147483650}, "image": {"block": 0, "byte": 255, "run": 2147483650}}'
differs run.img '41: at 00000404 the run address is 80000004 in the file and 80000000 in the image (section 0, block 0)' \
    '{"kind": "other run address", "address": 1028, "file": {"section": 0, "name": "", "byte": 85, "run": 2147483652}, "image": {"block": 0, "byte": 85, "run": 2147483648}}'
differs less.img '41: at 00000403 the file places 44 and the image nothing (section 0)' \
    '{"kind": "missing in image", "address": 1027, "file": {"section": 0, "name": "", "byte": 68, "run": 2147483651}, "image": null}'
differs hole.img '41: at 00000401 the file places 22 and the image nothing (section 0)' \
    '{"kind": "missing in image", "address": 1025, "file": {"section": 0, "name": "", "byte": 34, "run": 2147483649}, "image": null}'
differs more.img '41: at 00000405 the image places 21 and the file nothing (block 0)' \
    '{"kind": "missing in file", "address": 1029, "file": null, "image": {"block": 0, "byte": 33, "run": 2147483653}}'
differs before.img '41: at 000003FF the image places 21 and the file nothing (block 0)' \
    '{"kind": "missing in file", "address": 1023, "file": null, "image": {"block": 0, "byte": 33, "run": 2147483647}}'
differs nothing.img '41: at 00000400 the file places 11 and the image nothing (section 0)' \
    '{"kind": "missing in image", "address": 1024, "file": {"section": 0, "name": "", "byte": 17, "run": 2147483648}, "image": null}'
differs both.img '41: at 00000400 the file places 11 and the image 00 (section 0, block 0)' \
    '{"kind": "other byte", "address": 1024, "file": {"section": 0, "name": "", "byte": 17, "run": 2147483648}, "image": {"block": 0, "byte": 0, "run": 0}}'
differs early.img '41: at 00000400 the file places 11 and the image 00 (section 0, block 0)' \
    '{"kind": "other byte", "address": 1024, "file": {"section": 0, "name": "", "byte": 17, "run": 2147483648}, "image": {"block": 0, "byte": 0, "run": 2147483648}}'
run check r14 a.img
says 'a file whose image would be too long' told 'scanboot: differs 41: at 00000000 the file places 00 and the image nothing (section 0)'
run check cut.out a.img
says 'a file that is refused' told_of 'refused 10 0: ' && says 'is named' told_of 'section 0 of cut.out'
run check a.out r25
says 'an image that is refused' told 'scanboot: refused 25 0: a padding byte of the block is not 0: block 0 of r25'

# Every range that differs.
run check --all a.out a.img
says 'all of nothing' wrote same
run check --all --json a.out a.img
says 'all of nothing as JSON' ask same_json out '{"same": true, "code": 0, "difference": null, "differences": []}'
run check --all a.out byte.img
says 'one byte: the line stays' told 'scanboot: differs 41: at 00000402 the file places 33 and the image FF (section 0, block 0)'
says 'one byte: its range' wrote '00000402-00000402 size 1: other bytes: file 33, image FF (section 0, block 0)' 'in all: 1 range, 1 byte'
says 'one byte: the status' ended 1
places='(section 0, block 2)'
run check a.out all.img --all
says 'each kind: the line' told 'scanboot: differs 40: the entry point is 00000000 in the file and 00000010 in the image'
says 'each kind: the status' ended 1
says 'each kind, by ascending address' wrote 'entry point: file 00000000, image 00000010' \
    '000003FE-000003FF size 2: missing in file: file nothing, image 21 21 (block 1)' \
    '00000400-00000401 size 2: other bytes: file 11 22, image EE EE (section 0, block 0)' \
    '00000402-00000402 size 1: missing in image: file 33, image nothing (section 0)' \
    '00000403-00000403 size 1: other run address: file 80000003, image 90000003 (section 0, block 2)' \
    '00000404-00000404 size 1: other bytes and run address: file 55, image EE; run address file 80000004, image 90000004 '"$places" \
    'FFFFFFF0-FFFFFFFF size 16: missing in file: file nothing, image 00 01 02 03 04 05 06 07 ... (block 3)' 'in all: 6 ranges, 23 bytes'
run check --json --all a.out all.img
says 'each kind as JSON' ask same_json out '{"same": false, "code": 40, "difference": {"kind": "entry point", "file": 0, "image": 16},
    "differences": [{"kind": "entry point", "file": 0, "image": 16},
    {"kind": "missing in file", "first": 1022, "last": 1023, "size": 2, "file": null,
     "image": {"block": 1, "run": 2147483646, "bytes": [33, 33]}},
    {"kind": "other bytes", "first": 1024, "last": 1025, "size": 2, "file": {"section": 0, "name": "", "run": 2147483648, "bytes": [17, 34]},
     "image": {"block": 0, "run": 2147483648, "bytes": [238, 238]}},
    {"kind": "missing in image", "first": 1026, "last": 1026, "size": 1,
     "file": {"section": 0, "name": "", "run": 2147483650, "bytes": [51]}, "image": null},
    {"kind": "other run address", "first": 1027, "last": 1027, "size": 1, "file": {"section": 0, "name": "", "run": 2147483651, "bytes": [68]},
     "image": {"block": 2, "run": 2415919107, "bytes": [68]}},
    {"kind": "other bytes and run address", "first": 1028, "last": 1028, "size": 1,
     "file": {"section": 0, "name": "", "run": 2147483652, "bytes": [85]}, "image": {"block": 2, "run": 2415919108, "bytes": [238]}},
    {"kind": "missing in file", "first": 4294967280, "last": 4294967295, "size": 16, "file": null,
     "image": {"block": 3, "run": 0, "bytes": [0, 1, 2, 3, 4, 5, 6, 7]}}]}'
run check --all zeros.out ones.img
says '12 MiB that all differ are one range' wrote \
    '00000000-00BFFFFF size 12582912: other bytes: file 00 00 00 00 00 00 00 00 ..., image 01 01 01 01 01 01 01 01 ... (section 0, block 0)' \
    'in all: 1 range, 12582912 bytes'
run check --all kinds.out many.img
says 'thousands of ranges' ask all_differ out kinds.out many.img
run check --all --json kinds.out many.img
says 'thousands of ranges as JSON' ask all_differ_json out kinds.out many.img
run check --all cut.out a.img
says 'of a refused file there is no list' ended 4

end
