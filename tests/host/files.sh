#!/bin/sh
# Files that cannot be read or written.
. "$(dirname "$0")/common.sh"
inputs a.out a.img cut.out

mkdir files
run convert missing.out -o files/new.img
says 'a missing file ends with 3' ended 3
says 'a missing file is named' told 'scanboot: missing.out: No such file or directory'
says 'a missing file makes no output' only files ''
for words in 'list' 'blocks' 'stats' 'check a.out' 'map -o files/map.svg' 'load --base 0 --size 1 -o files/memory'; do
    # shellcheck disable=SC2086
    run $words missing.out
    says "a missing file: $words" ended 3
done
run check missing.out a.img
says 'a missing file of two' ended 3
run list .
says 'a folder is no file' ended 3
"$scanboot" list - <&- >out 2>err
status=$?
says 'no standard input' ended 3
"$scanboot" check a.out - <&- >out 2>err
status=$?
says 'no standard input behind a file' ended 3
says 'is told' told 'scanboot: standard input: Bad file descriptor'
"$scanboot" check - a.img <&- >out 2>err
says 'no standard input before a file' told 'scanboot: standard input: Bad file descriptor'
for words in 'list a.out' 'check a.out a.img' 'convert a.out -o -' '--help'; do
    # shellcheck disable=SC2086
    "$scanboot" $words >&- 2>err
    status=$?
    says "no standard output: $words" ended 3
    says "no standard output is told: $words" told 'scanboot: standard output: Bad file descriptor'
done
"$scanboot" convert a.out -o closed.img <&- >&- 2>&-
says 'without any standard file' same closed.img a.img
"$scanboot" convert cut.out -o closed.img 2>&-
status=$?
says 'a refusal that cannot be told' ended 4
says 'does not go elsewhere' same closed.img a.img
run convert a.out -o nowhere/new.img
says 'a missing folder ends with 3' ended 3
says 'a missing folder is named' told 'scanboot: nowhere/new.img: No such file or directory'
run convert a.out -o files
says 'a folder is no output' told 'scanboot: files: Is a directory'
says 'and ends with 3' ended 3
ln -s nothing dangling
run convert a.out -o dangling
says 'a link that leads nowhere is no output' told 'scanboot: dangling: a link that leads nowhere'
says 'and ends with 3 too' ended 3
says 'nothing is made where it leads' absent nothing
ln -s circle circle
run convert a.out -o circle
says 'nor is a link to itself' told 'scanboot: circle: Too many levels of symbolic links'
run convert a.out -o ''
says 'an empty name is no output' ended 3
says 'nothing was made' only files ''

end
