#!/bin/sh
# Refusals: every rule's own, with its code and index in one line, and nothing else done.
. "$(dirname "$0")/common.sh"
inputs rules cut.out meet.out over.out empty

mkdir refused
while read -r name command code index; do
    case $command in
    convert) run convert "$name" -o refused/new.img ;;
    *) run "$command" "$name" ;;
    esac
    says "rule $code" told_first "scanboot: refused $code $index: .*$name"
    says "rule $code: status" ended 4
    says "rule $code: nothing written" wrote_nothing
done <rules
run convert cut.out -o refused/new.img
says 'a refusal is one line' told "scanboot: refused 10 0: the section's raw data begins inside the headers or ends past the file: section 0 of cut.out"
says 'a refusal makes no output' absent refused/new.img
printf 'old' >refused/old.img
touch -d '2001-02-03 04:05:06' refused/old.img
before=$(stat -c '%i %Y %s' refused/old.img)
for words in 'convert cut.out' 'convert --c-array x cut.out' 'load r25 --base 0 --size 1' 'map cut.out'; do
    # shellcheck disable=SC2086
    run $words -o refused/old.img
    says "a refusal leaves an old file alone: $words" [ "$before" = "$(stat -c '%i %Y %s' refused/old.img)" ]
done
says 'nothing is left beside a refused output' only refused old.img
run convert meet.out -o -
says 'the index is the later section' told 'scanboot: refused 13 1: the section loads to an address of an earlier section: section 1 of meet.out'
says 'nothing goes to standard output' wrote_nothing
run list empty
says 'an empty file' told "scanboot: refused 2 0: the file is shorter than a COFF file header of 22 bytes: empty; it is an empty file: \
list takes the linker's COFF file"
run convert over.out -o refused/new.img
says 'a file of 16777217 bytes is refused' told 'scanboot: refused 1 0: the file is longer than 16777216 bytes: over.out'
head -c 100000000 /dev/zero | "$scanboot" list - >out 2>err
status=$?
says 'endless input is refused' told_first 'scanboot: refused 1 0: .*standard input'
odd=$(printf 'two\nlines')
cp cut.out "$odd"
run list "$odd"
says 'a name of two lines is told in one' told_of 'section 0 of two?lines'

end
