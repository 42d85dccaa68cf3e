#!/bin/sh
# The wrong kind of file is named by every command, at the end of the line that refuses it.
. "$(dirname "$0")/common.sh"
inputs a.out a.img cut.out r25 x.elf x.hex x.srec x.txt v1.out v0.out turned.out empty most.out flash

# hints WORDS.. HINT: the refusal ends so, with status 4 and nothing written; '' is no hint
hints() {
    for hint; do :; done
    words=
    while [ $# -gt 1 ]; do
        words="$words $1"
        shift
    done
    # shellcheck disable=SC2086
    run $words
    says "$words: refused" ended 4
    says "$words: nothing written" wrote_nothing
    if [ -n "$hint" ]; then
        says "$words: $hint" told_first "scanboot: refused .*; $hint\$"
    else
        says "$words: no hint" told_first 'scanboot: refused [^;]*$'
    fi
}

# An image for a file, a file for an image, and the two of a check.
hints convert a.img -o - "is it an image? convert takes the linker's COFF file"
hints list a.img 'is it an image? then blocks'
hints stats a.img "is it an image? stats takes the linker's COFF file"
hints load --coff a.img --base 0 --size 8 -o - 'is it an image? then without --coff'
hints blocks a.out 'is it a COFF file? then list'
hints blocks cut.out 'is it a COFF file? then list'
hints load a.out --base 0 --size 8 -o - 'is it a COFF file? then --coff'
for file in flash r25; do
    hints convert $file -o - "is it an image? convert takes the linker's COFF file"
    hints list $file 'is it an image? then blocks'
    hints stats $file "is it an image? stats takes the linker's COFF file"
    hints load --coff $file --base 0 --size 8 -o - 'is it an image? then without --coff'
    hints check $file a.out 'the two may be swapped: check takes FILE, then IMAGE'
    hints check $file a.img 'is it an image? check takes FILE, then IMAGE'
done
hints check a.img a.out 'the two may be swapped: check takes FILE, then IMAGE'
hints check a.img cut.out 'the two may be swapped: check takes FILE, then IMAGE'
hints check a.img a.img 'is it an image? check takes FILE, then IMAGE'
hints check a.out a.out 'is it a COFF file? check takes FILE, then IMAGE'
run check a.img a.out
says 'the line before the hint is as ever' told_first 'scanboot: refused 3 0: the file is not COFF version 2 (version is not 00C2h): a.img; '

# Other kinds, at every place where a file is given.
coff="the linker's COFF file"
while read -r file name; do
    hints convert "$file" -o - "it is $name: convert takes $coff"
    hints list "$file" "it is $name: list takes $coff"
    hints stats "$file" "it is $name: stats takes $coff"
    hints blocks "$file" "it is $name: blocks takes a boot image"
    hints load "$file" --base 0 --size 8 -o - "it is $name: load takes a boot image"
    hints load --coff "$file" --base 0 --size 8 -o - "it is $name: load --coff takes $coff"
    hints check "$file" a.img "it is $name: check takes FILE, then IMAGE"
    hints check a.out "$file" "it is $name: check takes FILE, then IMAGE"
    hints map "$file" -o - "it is $name: map takes $coff or a boot image"
done <<'KINDS'
x.elf an ELF file
x.hex an Intel Hex file
x.srec a file of Motorola S-records
x.txt a text file
v1.out a COFF file of version 1
v0.out a COFF file of version 0
turned.out a COFF file of the other byte order
empty an empty file
KINDS
{ cat x.elf; cat most.out; } >long.elf
hints convert long.elf -o - "it is an ELF file: convert takes $coff"

# No hint where the kind is right, or nothing can be said.
hints list cut.out ''
hints blocks r25 ''
hints load a.out --base 0 --size 16777217 -o - ''
hints load --coff a.out --base 0 --size 8 -o - ''
head -c 40 /dev/zero | tr '\0' '\377' >noise
hints convert noise -o - ''
hints map noise -o - ''
printf 'S9 is no record\n' >almost.txt
hints list almost.txt "it is a text file: list takes $coff"
printf ':0500\n' >almost.hex
hints list almost.hex "it is a text file: list takes $coff"

# With --json a refusal is JSON too, and the line stays.
refusal() {
    expected=$1
    shift
    run "$@" --json
    says "JSON of $*" ask same_json out "{\"refused\": $expected}"
    says "the status of $*" ended 4
    says "the line of $*" told_first 'scanboot: refused '
}
refusal "{\"code\": 10, \"index\": 0, \"text\": \"the section's raw data begins inside the headers or ends past the file\",
    \"file\": \"cut.out\", \"hint\": null}" list cut.out
refusal '{"code": 25, "index": 0, "text": "a padding byte of the block is not 0", "file": "r25", "hint": null}' blocks r25
refusal '{"code": 25, "index": 0, "text": "a padding byte of the block is not 0", "file": "r25", "hint": null}' check a.out r25
refusal '{"code": 3, "index": 0, "text": "the file is not COFF version 2 (version is not 00C2h)", "file": "a.img",
    "hint": "the two may be swapped: check takes FILE, then IMAGE"}' check a.img a.out
refusal '{"code": 2, "index": 0, "text": "the file is shorter than a COFF file header of 22 bytes",
    "file": "-", "hint": "it is an empty file: stats takes the linker'"'"'s COFF file"}' stats - <empty
odd=$(printf 'a "b"\\\n\377\303\251.out')
cp cut.out "$odd"
run list --json "$odd"
says 'any name is JSON' ask refused_file out "$(printf 'a "b"\\\n\357\277\275\303\251.out')"
"$scanboot" list cut.out --json >/dev/full 2>err
status=$?
says 'a refusal that cannot be written' ended 3

end
