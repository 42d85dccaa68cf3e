#!/bin/sh
# Options as people type them: what is written is the same every time.
. "$(dirname "$0")/common.sh"
inputs a.out a.img

while read -r words; do
    rm -f u.img
    # shellcheck disable=SC2086
    run convert $words
    says "convert $words" same u.img a.img
    says "convert $words: nothing else" [ "$status$(cat out err)" = 0 ]
done <<'WORDS'
a.out -o u.img
a.out -ou.img
-o u.img a.out
-ou.img -- a.out
a.out --output u.img
a.out --output=u.img
--output u.img a.out
--out=u.img a.out
-o u.img -- a.out
WORDS
for words in 'a.out -o -' 'a.out -o-' '- -o - --' '-o - -' '--output=- -'; do
    # shellcheck disable=SC2086
    run convert $words <a.out
    says "convert $words" same out a.img
done

run load a.img --base 0x400 --size 8 --fill 0xAA -o memory
for words in 'a.img --base=0x400 --size=8 --fill=0xAA' '--ba 1024 --si 8 --fi 170 a.img' '--fill 170 --coff --size 8 --base 1024 a.out' \
    '--size=0x8 a.img --fill=0Xaa --base 0x0400'; do
    # shellcheck disable=SC2086
    run load $words --output m
    says "load $words" same m memory
done

# A word behind an option is its value, whatever it looks like, and '--' ends the options.
run convert a.out -o --help
says 'an output with the name of an option' same ./--help a.img
cp a.out ./--json
run list -- --json
says 'a file with the name of an option' ended 0
run list --json --json
says 'which is an option before --' ended 2

# Wherever getopt is told by its environment to stop at the first file.
POSIXLY_CORRECT=1 "$scanboot" convert a.out -o p.img >out 2>err
says 'options behind a file' same p.img a.img

end
