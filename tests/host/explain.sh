#!/bin/sh
# What a refusal means, told at the bench.
. "$(dirname "$0")/common.sh"
inputs a.out cut.out
header=$tests/../include/scanboot.h

run explain
says 'all codes are explained' ended 0
says 'and nothing is told on standard error' told_nothing
cp out all
says 'each code of the header once, in order, by its name and its text' ask explained all "$header"
says 'no wider than a screen' [ "$(wc -L <all)" -lt 80 ]
says 'no code sends the reader to another' [ "$(grep -c 'code [0-9]' all)" = 0 ]
for code in 0 1 15 16 17 20 30 33 40 41; do
    run explain "$code"
    says "code $code alone is what all have of it" ask paragraph all "$code" out
done
run explain 17
for words in 'Leave an empty pattern away' "too long by a '\*'" "'.test\*' takes all that begin so"; do
    says "what to do with patterns: $words" sh -c "tr -s '\n ' '  ' <out | grep -q \"$words\""
done
run list cut.out
run explain "$(sed 's/.*refused \([0-9]*\) .*/\1/' err)"
says 'the code that a refusal has told' grep -q '^10 SCANBOOT_RAW_DATA$' out
for part in 'The rule' 'What usually causes it' 'What to do'; do
    says "has: $part" grep -q "^$part\$" out
done
cp out ten
for word in SCANBOOT_RAW_DATA scanboot_raw_data RAW_DATA raw_data 010; do
    run explain $word
    says "the same by $word" same out ten
done
for word in 18 19 31 32 34 42 256 4294967306 18446744073709551626 -1 10.0 0x0A '' SCANBOOT RAW ' 10' a.out; do
    run explain -- "$word"
    says "no such code: '$word'" ended 2
    says "and is told: '$word'" told "scanboot: no such code: $word" "scanboot: try 'scanboot explain --help'"
    says "and nothing else: '$word'" wrote_nothing
done
run explain 10 11
says 'two codes' ended 2
run explain --json 10
says 'no JSON' ended 2
"$scanboot" explain 10 >/dev/full 2>err
status=$?
says 'a full disk' ended 3

end
