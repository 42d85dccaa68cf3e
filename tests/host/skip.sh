#!/bin/sh
# Sections left out by name.
. "$(dirname "$0")/common.sh"
inputs bench.out harm.out long_name.out odd.out kinds.out a.out a.img more.img cut.out bare.out bare.img empty one r13 r14 x.elf x.txt \
    name.size name.none name.behind name.out name.far name.past name.open name.cut name.empty name.last name.more \
    name.254 name.255 name.300 twins.out turning.out

# Converted, in every way to say it; and checked with the same patterns, with others and with none.
run convert bench.out -o whole.img
run convert bench.out --skip '.test*' --skip .stack -o left.img
says 'it converts' ended 0
says 'and says nothing' [ -z "$(cat out err)" ]
says 'what is left' ask counted left.img bench.out '.test*' .stack
says 'which is not all' [ "$(stat -c %s left.img)" -lt "$(stat -c %s whole.img)" ]
while read -r words; do
    rm -f again.img
    # the words are quoted as a person quotes them
    eval "run convert -o again.img $words"
    says "convert $words" same again.img left.img
    says "convert $words: nothing else" [ "$status$(cat out err)" = 0 ]
done <<'WORDS'
--skip .stack --skip '.test*' bench.out
bench.out --skip=.stack '--skip=.test*'
--skip '.test*' bench.out --skip=.stack
--skip '.test*' --skip .stack --skip .stack -- bench.out
--skip '.t?st*' --skip '.s????' bench.out
--skip '.test_a' --skip '.test_of_the_long_nam?' --skip '.testing' --skip '*.s*t*ack**' bench.out
--sk='.test*' --sk .stack bench.out
WORDS
run check bench.out left.img --skip '.test*' --skip .stack
says 'the same under the same patterns' ended 0
says 'and what was left out, by which of them' wrote same "left out: section 1 '.stack', 5 bytes, by '.stack'" \
    "left out: section 2 '.test_a', 6 bytes, by '.test*'" "left out: section 3 '.test_of_the_long_name', 7 bytes, by '.test*'" \
    "left out: section 4 '.testing', 8 bytes, by '.test*'"
says 'no word on standard error' told_nothing
run check bench.out left.img
says 'without them it differs' ended 1
says 'by what is missing' told 'scanboot: differs 41: at 00001000 the file places 04 and the image nothing (section 1)'
says 'and nothing is left out' wrote_nothing
run check bench.out left.img --skip '.test*'
says 'with one of them too' ended 1
says 'and says what that one left out' grep -q -x "left out: section 4 '.testing', 8 bytes, by '.test\*'" out
run check bench.out whole.img --skip '.test*' --all
says 'the whole image is more than what is left, and that is named' told \
    "scanboot: differs 41: at 00002000 the image places 08 and the file nothing (block 2); section 2 '.test_a' is left out there, by '.test*'"
says 'all of it is listed behind what was left out' [ "$(cut -d : -f 1 out | uniq | tr '\n' ';')" = \
    'left out;00002000-00002005 size 6;00003000-00003006 size 7;00004000-00004007 size 8;in all;' ]
run check bench.out whole.img --skip .testing
says 'of several the one at that place' told \
    "scanboot: differs 41: at 00004000 the image places 10 and the file nothing (block 4); section 4 '.testing' is left out there, by '.testing'"
run check cut.out a.img --skip '*'
says 'one without a name' told "scanboot: differs 41: at 00000400 the image places 11 and the file nothing (block 0); section 0 is left out there, by '*'"
run check a.out more.img --skip x
says 'and none where the image has more than the whole file' \
    told_of 'scanboot: differs 41: at 00000405 the image places 21 and the file nothing (block 0)' 2
says 'at the end of its line' grep -q '(block 0)$' err
run check bench.out whole.img --skip 'no*'
says 'a pattern that takes nothing changes nothing' ended 0
says 'which is said' wrote same 'left out: nothing'
says 'and told, since it may be a slip' told "scanboot: note: in bench.out no section has a name that this pattern takes: 'no*'"
for words in "" "--all"; do
    # shellcheck disable=SC2086
    run check --json bench.out left.img --skip '.test*' --skip .stack --skip .x $words
    says "the same as JSON $words" ask same_member out same true
    says "what was left out as JSON $words" ask left_out out bench.out '.test*' .stack .x
    # shellcheck disable=SC2086
    run check --json bench.out left.img --skip .stack $words
    says "not the same as JSON $words" ask same_member out same false
    says "what was left out as JSON then $words" ask left_out out bench.out .stack
done
says 'the name of what is missing' ask same_member out difference '{"kind": "missing in image", "address": 8192,
    "file": {"section": 2, "name": ".test_a", "byte": 8, "run": 8192}, "image": null}'

# Loaded directly: as the image of what is left is.
run load --coff bench.out --base 0 --size 0x8000 --fill 0xAA --skip '.test*' --skip .stack -o direct
says 'it loads' [ "$status$(cat out err)" = 0 ]
run load left.img --base 0 --size 0x8000 --fill 0xAA -o memory
says 'what is left' same direct memory
run list bench.out --skip '[.]*' --skip '.[a-z]*' --skip '\.text' --skip .TEXT
says 'brackets and backslashes are bytes like others, and case counts' grep -q -x 'left out: nothing' out
run load --coff bench.out --base 0x5000 --size 0x10 --skip '?*' -o -
says 'a name of no bytes is not taken by ?*' [ "$(od -A n -t x1 -N 10 out)" = ' 14 15 16 17 18 19 1a 1b 1c 00' ]
run load --coff bench.out --base 0 --size 0 --skip '*' -o memory
says 'but by *' [ "$status$(stat -c %s memory)" = 00 ]

# Listed, counted, drawn and inspected.
run list bench.out --skip '.test*'
says 'what would be left, listed' wrote 'coff sections 8 kept 3 entry 00000002' '0 load 00000000 run 00000000 size 4' \
    '1 load 00001000 run 00001000 size 5' '5 load 00005000 run 00005000 size 9' 'image 68' \
    "left out: section 2 '.test_a', 6 bytes, by '.test*'" "left out: section 3 '.test_of_the_long_name', 7 bytes, by '.test*'" \
    "left out: section 4 '.testing', 8 bytes, by '.test*'"
# listed FILE PATTERN..: plain and as JSON
listed() {
    file=$1
    shift
    name="$(basename "$file"): $*"
    skips=$(printf " --skip '%s'" "$@")
    eval "run list '$file' $skips"
    mv out text
    says "$name: the listing" ended 0
    eval "run list '$file' --json $skips"
    says "$name: the listing as JSON" ask list_json out text "$file" "$@"
    eval "run convert '$file' $skips -o s.img"
    says "$name: the image" ask counted s.img "$file" "$@"
    eval "run convert '$file' $skips --c-array s"
    says "$name: the array" ask array out s.img s "$file" "$@"
    eval "run check '$file' s.img $skips"
    says "$name: the check" [ "$status$(head -n 1 out)" = 0same ]
    eval "run inspect --json '$file' $skips"
    says "$name: inspected" ask sections_right out "$file" "$@"
}
listed bench.out '*'
listed bench.out '.test*' .x .stack
listed bench.out '.b*' '.test_c'
listed "$samples/many-256.out" '.s0?1'
listed "$samples/many-256.out" '.s?0*' '*1*' '.text'
listed "$samples/c6x.out" .stack '.debug*' '.co*'
listed "$samples/c6x-initialised.out" .stack '.debug*'
listed "$samples/long-name.out" '*_section' '.over*'
listed "$samples/c6x-ld.out" '*o*'
listed "$samples/edges.out" '.?'
run list "$samples/many-256.out" --skip '.s0?1'
says 'ten of 256' [ "$(grep -c "^left out: section [0-9]*1 '.s0[0-9]1', " out)" = 10 ]
run list "$samples/c6x-initialised.out" --skip .stack --skip '.debug*'
says 'a stack and debug information that would be loaded' [ "$(grep '^left out: ' out | tr '\n' ';')" = \
    "left out: section 8 '.stack', 64 bytes, by '.stack';left out: section 9 '.debug_x', 3 bytes, by '.debug*';" ]
run convert "$samples/c6x.out" -o s.img
run check "$samples/c6x.out" s.img --skip .stack --skip '.debug*'
says 'the whole image is the same where they are not kept anyway' [ "$status$(cat out err)" = "0same
left out: nothing" ]
run list r14 --skip x
says 'an image that would be too long' wrote 'coff sections 2 kept 2 entry 00000000' '0 load 00000000 run 00000000 size 9000000' \
    '1 load 00895440 run 00000000 size 9000000' 'image 18000032' 'left out: nothing'
run inspect r14 --skip x
says 'of which inspect says the same' grep -q -x '  it would have 18000032 bytes, 1222816 too many' out
run stats bench.out --skip '.test*' --skip .bss
says 'counted' wrote 'code sections 1 bytes 4' 'data sections 2 bytes 14' 'initialised sections 3 bytes 18' 'uninitialised sections 1 bytes 10' \
    'total sections 4 bytes 28' 'uncounted sections 1 bytes 11' 'skipped sections 3 bytes 21' \
    "left out: section 2 '.test_a', 6 bytes, by '.test*'" "left out: section 3 '.test_of_the_long_name', 7 bytes, by '.test*'" \
    "left out: section 4 '.testing', 8 bytes, by '.test*'"
run stats --json bench.out --skip '.test*'
says 'counted as JSON' ask same_member out skipped '{"sections": 3, "bytes": 21}'
says 'with what was left out' ask left_out out bench.out '.test*'
run map bench.out --skip '.test*' -o map.svg
says 'drawn' look map.svg picture 3 0 , explained , shows .stack - .test_a .testing
says 'and told under the title' look map.svg shows 'COFF file, 3 of 8 sections loaded · 18 bytes · entry point 00000002' , \
    notes "left out by name: 3 sections, 21 bytes, by '.test*': '.test_a'"
run map "$samples/c6x.out" --skip '.c*' --skip .data --skip .stack --skip '.co*' -o map.svg
says 'with all patterns that leave something out, and all names' look map.svg picture 4 1 , \
    shows "left out by name: 3 sections, 21 bytes, by '.c*' '.data': '.const', '.data', '.coeffs'"
run map bench.out --skip .x -o map.svg
says 'that nothing was' look map.svg shows 'left out by name: nothing' , picture 6 0
says 'and the slip' told_of "no section has a name that this pattern takes: '.x'"
run inspect bench.out --skip '.test*' --skip .x --skip '*g'
says 'inspected: what the library says then' grep -q -x 'as a COFF file: taken; 3 of 8 sections are kept, 3 left out by name, and the image has 68 bytes' out
says 'each section with the first pattern that takes it' [ "$(sed -n 's/.*  \(yes\|no: .*\)/\1/p' out | tr '\n' ';')" = \
    "yes;yes;no: '.test*' takes its name;no: '.test*' takes its name;no: '.test*' takes its name;yes;\
no: its type is none of TEXT, DATA and VECTOR;no: DSECT is set; '.test*' takes its name too;" ]
says 'and what takes none' grep -q -x "remark: no section has a name that this pattern takes: '.x'" out
says 'no word on standard error' told_nothing
for file in a.img x.elf x.txt empty one; do
    run inspect $file --skip '*'
    says "patterns of $file" grep -q -x 'remark: the patterns say nothing of it: it has no section names that can be read' out
    run inspect $file --skip '*' --json
    says "as JSON" ask same_member out remarks "$(python3 -c 'import json, sys; print(json.dumps([r[8:-1] for r in sys.stdin if r[:7] == "remark:"]))' <<REMARKS
$("$scanboot" inspect $file --skip '*')
REMARKS
)"
done

# Patterns that take nothing are told by every command, whose status stays; with two in one line.
for words in 'list bench.out' 'stats bench.out --json' 'convert bench.out -o n.img' 'convert bench.out --c-array n' 'map bench.out -o n.svg' \
    'load --coff bench.out --base 0 --size 0x8000 -o n.mem' 'check bench.out whole.img'; do
    # shellcheck disable=SC2086
    run $words --skip .text2 --skip .tex
    says "$words: ends as ever" ended 0
    says "$words: tells of slips" told "scanboot: note: in bench.out no section has a name that these patterns take: '.text2' '.tex'"
done
run list bench.out --skip .bss
says 'a section that is not kept anyway is taken without a word' [ "$status$(cat err)" = 0 ]

# A section that is left out breaks no rule: what only its name can mend is mended.
run convert "$samples/c6x-attributes.out" --skip '.c6xabi*' -o s.img
says 'sections that met' ended 0
says 'what is left of them' ask counted s.img "$samples/c6x-attributes.out" '.c6xabi*'
run inspect "$samples/c6x-attributes.out" --skip .vectors
says 'inspect tells the same' grep -q '^as a COFF file: taken; 7 of 11 ' out
run inspect r13 --skip x
says 'a section that meets is told still' grep -q -x '  section 2 meets section 0; both load to 00000004-00000004, 1 byte' out
run list cut.out --skip '*'
says 'raw data that is missing' wrote 'coff sections 1 kept 0 entry 00000000' 'image 8' "left out: section 0, 5 bytes, by '*'"

# Names that do harm where they are shown as they are.
echo 'int user(void); int user(void) { return harm[0]; }' >user.c
run convert harm.out -o harm.img
run convert harm.out --c-array harm -o harm.h
says 'in the comments of an array' ask array harm.h harm.img harm harm.out
says 'which is C99' gcc -std=c99 -trigraphs -Wall -Wextra -Wpedantic -Werror -fsyntax-only -include harm.h -x c user.c
for pattern in '*/*' '??/*' '*\*' "*'*" "$(printf 'a\nb')" "$(printf '*\377*')" '*[*' '*%*' '</*' '*>'; do
    run convert harm.out --skip "$pattern" -o left.img
    says "left out by $pattern" ask counted left.img harm.out "$pattern"
    run convert harm.out --skip "$pattern" --c-array harm -o left.h
    says "in comments: $pattern" ask array left.h left.img harm harm.out "$pattern"
    says "C99: $pattern" gcc -std=c99 -trigraphs -Wall -Wextra -Wpedantic -Werror -fsyntax-only -include left.h -x c user.c
    says "C++: $pattern" g++ -std=c++11 -trigraphs -Wall -Wextra -Wpedantic -Werror -fsyntax-only -include left.h -x c++ user.c
    run check harm.out left.img --skip "$pattern"
    cat out err >shown
    run list harm.out --skip "$pattern"
    cat out err >>shown
    run inspect harm.out --skip "$pattern"
    cat out err >>shown
    says "on a terminal: $pattern" ask plain_text shown
    run map harm.out --skip "$pattern" -o map.svg
    says "in SVG: $pattern" look map.svg notes 'left out by name: '
done
for pattern in '*/*' "*'*" '*\*' '*[*' '*%*' '</*' '*>'; do
    run list harm.out --json --skip "$pattern"
    says "in JSON: $pattern" ask left_out out harm.out "$pattern"
    run inspect harm.out --json --skip "$pattern"
    says "inspected: $pattern" ask sections_right out harm.out "$pattern"
done
run list harm.out --json --skip "$(printf '*\377*')"
says 'what is no character in JSON' ask same_member out patterns '[{"pattern": "*\ufffd*", "takes": 1}]'

# Two patterns that differ look different, and a name cannot go on as its line does.
while read -r pattern shown; do
    run list bench.out --skip "$(printf "$pattern")"
    says "told as $shown" told "scanboot: note: in bench.out no section has a name that this pattern takes: $shown"
    run inspect bench.out --skip "$(printf "$pattern")"
    says "remarked as $shown" grep -q -x -F "remark: no section has a name that this pattern takes: $shown" out
done <<'PATTERNS'
q*\033* 'q*\x1B*'
q*?* 'q*?*'
q*\\x1B* 'q*\x5Cx1B*'
q\047 'q\x27'
q\377\303\251 'q\xFFé'
q\342\200\256 'q\xE2\x80\xAE'
q\330\234 'q\xD8\x9C'
q\040r 'q r'
PATTERNS
run list harm.out --skip "$(printf '*\033*')" --skip 'x*'
says 'the pattern as it was given' grep -q -x -F "left out: section 4 'a\x1B[2J\x07\x7F', 1 byte, by '*\x1B*'" out
says 'a name that looks like a line' grep -q -x -F "left out: section 15 'x\x27), 9 bytes, by \x27.y\x27\x0Aleft out: nothing', 1 byte, by 'x*'" out
says 'and one line for each of both' [ "$(grep -c '^left out: ' out)" = 2 ]
run list harm.out --skip '*'
says 'each name in quotes' ask quoted_names out harm.out
run list turning.out --skip '*'
says 'characters that turn a line' ask quoted_names out turning.out
run inspect turning.out
says 'are not shown' [ "$(grep -c ' a?b  ' out)" = 15 ]

# Of a long name all bytes are asked, and the first 255 are shown.
run list long_name.out --skip 'n*x' --skip '*m*m*m*x'
says 'long names are taken by their ends' [ "$(sed -n 's/^left out: section \([0-9]*\) .*, by \(.*\)/\1 \2/p' out | tr '\n' ';')" = "1 'n*x';3 '*m*m*m*x';" ]
says 'and cut where they are shown' [ "$(sed -n "s/^left out: section 1 '\(n*\)', 1 byte, .*/\1/p" out | tr -d '\n' | wc -c)" = 255 ]
run list long_name.out --skip "$(printf '%064d' 0 | tr 0 n)"
says 'a pattern takes a name as a whole' grep -q -x 'left out: nothing' out

# Too many patterns, and patterns of a wrong length: rule 17, before all others, in every command.
many() { i=0; while [ $i -lt "$1" ]; do printf ' --skip .x%d' $i; i=$((i + 1)); done; }
long=$(printf '%065d' 0)
run list bench.out $(many 16)
says '16 patterns' ended 0
run list bench.out --skip "${long%?}"
says '64 bytes' ended 0
words_17="there are more than 16 patterns, or one has not 1 to 64 bytes: --skip: "
mkdir refused
# seventeen WHAT WORDS..: what these words of a command are refused with, and that nothing is made
seventeen() {
    what=$1
    shift
    run "$@"
    says "$*: told" told "scanboot: refused 17 0: $words_17$what"
    says "$*: ended" ended 4
    says "$*: nothing written" [ "$(cat out)$(ls refused)" = '' ]
}
for words in 'list bench.out' 'stats bench.out' 'convert bench.out -o refused/x' 'convert bench.out --c-array x -o refused/x' \
    'map bench.out -o refused/x' 'load --coff bench.out --base 0 --size 0x8000 -o refused/x' 'check bench.out whole.img'; do
    # shellcheck disable=SC2086,SC2046
    seventeen '17 patterns are given' $words $(many 17)
    # shellcheck disable=SC2086
    seventeen 'pattern 0, counted from 0, has 0 bytes' $words --skip ''
    # shellcheck disable=SC2086
    seventeen 'pattern 1, counted from 0, has 65 bytes' $words --skip .x --skip "$long"
done
seventeen 'pattern 2, counted from 0, has 0 bytes' list bench.out --skip a --skip b --skip=
# shellcheck disable=SC2046
seventeen '18 patterns are given' list bench.out $(many 17) --skip ''
for words in 'list empty' 'list cut.out' 'list r13' 'convert r14 -o refused/x' 'list a.img' 'check empty empty' 'check a.img bench.out' \
    'load --coff bench.out --base 0 --size 16777217 -o refused/x' 'map cut.out -o refused/x' 'map one -o refused/x' 'list name.size'; do
    # shellcheck disable=SC2086
    seventeen 'pattern 0, counted from 0, has 0 bytes' $words --skip ''
done
for words in 'list bench.out' 'stats bench.out' 'check bench.out whole.img'; do
    # shellcheck disable=SC2086
    run $words --skip '' --json
    says "$words: as JSON" ask same_member out refused \
        '{"code": 17, "index": 0, "text": "there are more than 16 patterns, or one has not 1 to 64 bytes", "file": "bench.out", "hint": null}'
    says "$words: ended" ended 4
done

# Names that cannot be read: rule 16, of a kept section, with patterns only.
cat >reasons <<'REASONS'
name.size 16 0 the name of section 0 begins at byte 3 of the string table, inside the table's own size, its first 4 bytes
name.none 16 0 the name of section 0 begins at byte 4 of the string table, which would begin at byte 75; the file ends at byte 78
name.behind 16 0 the name of section 0 begins at byte 4 of the string table, which would begin at byte 1075; the file ends at byte 75
name.out 16 0 the name of section 0 begins at byte 9 of the string table, which has 9 bytes
name.far 16 0 the name of section 0 begins at byte 4294967295 of the string table, which has 9 bytes
name.past 16 0 the name of section 0 begins at byte 50 of the string table, which would begin at byte 75; the file ends at byte 84
name.open 16 0 the name of section 0 begins at byte 4 of the string table, byte 79 of the file, and no zero byte ends it before the table does at byte 83
name.cut 16 0 the name of section 0 begins at byte 4 of the string table, byte 79 of the file, and no zero byte ends it before the file does at byte 83
name.254 16 0 the name of section 0 begins at byte 4 of the string table, byte 79 of the file, and no zero byte ends it before the table does at byte 333
name.255 16 0 the name of section 0 begins at byte 4 of the string table, byte 79 of the file, and no zero byte ends it before the table does at byte 334
name.300 16 0 the name of section 0 begins at byte 4 of the string table, byte 79 of the file, and no zero byte ends it before the table does at byte 379
odd.out 16 0 the name of section 5 begins at byte 2147483647 of the string table, which has 341 bytes
REASONS
while read -r file code index reason; do
    run list "$file" --skip '*'
    says "$file: told, with its section" told "scanboot: refused 16 0: a section's name cannot be read from the string table: section \
$(echo "$reason" | sed 's/.*section \([0-9]*\) .*/\1/') of $file"
    says "$file: ended" ended 4
    says "$file: nothing written" wrote_nothing
    run list "$file" --skip '*' --json
    says "$file: as JSON" ask same_member out refused \
        "{\"code\": 16, \"index\": 0, \"text\": \"a section's name cannot be read from the string table\", \"file\": \"$file\", \"hint\": null}"
    run list "$file"
    says "$file: without patterns no name is missed" [ "$status$(cat err)" = 0 ]
    mv out text
    run list "$file" --json
    says "$file: and none is told" ask list_json out text "$file"
    run inspect "$file"
    says "$file: nor by inspect" grep -q '^as a COFF file: taken; ' out
    says "$file: which says so of the section" grep -q '(cannot be read)  *TEXT  *yes$' out
    run inspect --json "$file"
    says "$file: also as JSON" ask sections_right out "$file"
    run inspect "$file" --skip 'no such name'
    says "$file: no remark on what nobody knows" [ "$(grep -c -e '^remark: .*kept section' -e '^remark: .*pattern' -e '^remark: .* lies ' out)" = 0 ]
    run inspect "$file" --skip '*'
    says "$file: inspected: $reason" grep -q -x -F "  $reason" out
    says "$file: where to read on" grep -q -x "  what to do: scanboot explain 16" out
    says "$file: and the section" grep -q '(cannot be read)  *TEXT  *no: its name cannot be read$' out
    "$scanboot" inspect --json "$file" --skip '*' >"$file.json" 2>err
done <reasons
says 'and as JSON, with the figures' ask reasons_right reasons
run inspect a.out $(many 17)
says 'inspect: too many patterns' grep -q -x '  17 patterns are given' out
says 'what stands in the file is shown as without them' grep -q ' yes$' out
run inspect --json a.out --skip '' --skip .x
says 'and as JSON' ask same_member out as_coff '{"code": 17, "index": 0, "text": "there are more than 16 patterns, or one has not 1 to 64 bytes",
    "reason": "pattern 0, counted from 0, has 0 bytes", "figures": {"pattern": 0, "bytes": 0}}'
for words in 'stats odd.out' 'convert odd.out -o refused/x' 'map odd.out -o refused/x' 'load --coff odd.out --base 0 --size 0x8000 -o refused/x' \
    'check odd.out a.img' 'check odd.out one'; do
    # shellcheck disable=SC2086
    run $words --skip .nothing
    says "$words" told "scanboot: refused 16 0: a section's name cannot be read from the string table: section 5 of odd.out"
    says "$words: ended" ended 4
    says "$words: nothing written" [ "$(cat out)$(ls refused)" = '' ]
done
for file in name.last name.more; do
    run list $file --skip 'n??e'
    says "$file: a name that just can be read" grep -q -x "left out: section 0 'name', 5 bytes, by 'n??e'" out
done
run list name.empty --skip '?*'
says 'a name of no bytes in the table' grep -q -x 'left out: nothing' out

# Where patterns have no meaning.
misused 'unknown option --skip' blocks a.img --skip x
misused 'unknown option --skip' explain 17 --skip x
misused '--skip PATTERN goes with --coff: an image has no names' load a.img --skip x --base 0x400 --size 8 -o refused/x
misused '--skip PATTERN is for a COFF file, and this is an image: a.img' map a.img --skip x -o refused/x
misused 'nothing stands behind --skip' list bench.out --skip
quote='; quote a pattern, or the shell puts names of files in its place'
misused "one word too many: name.size$quote" list bench.out --skip name.none name.size
misused "one word too many: bench.out$quote" list --skip name.none name.size bench.out
misused "one word too many: b$quote" check bench.out whole.img --skip a b
misused "one word too many: b$quote" convert bench.out --skip=a -o refused/x -- b
misused 'one word too many: b' list bench.out b --skip a
run list a.img --skip x
says 'an image is no COFF file, with patterns or without' \
    told 'scanboot: refused 3 0: the file is not COFF version 2 (version is not 00C2h): a.img; is it an image? then blocks'
run convert bare.out --skip x -o b.img
says 'a file without sections' same b.img bare.img

# The program reads names itself, and asks the library for the image that it would make: with a mistake in that reading it tells nothing, even if
# as many sections and bytes are left.
(
    cd "$tests/.." && . tools/machine.sh && mkdir "$folder/planted" && cp host/*.[ch] "$folder/planted" &&
        sed -i '/^int section_name(/,/^}/s/header_of(file, number)/header_of(file, number ^ 1)/' "$folder/planted/headers.c" &&
        ! cmp -s host/headers.c "$folder/planted/headers.c" &&
        $compiler $link -std=c11 -D_GNU_SOURCE -Iinclude "$folder"/planted/*.c build/libscanboot.a -o "$folder/mistaken" && echo "$emulator" >"$folder/with"
)
says 'a program with a mistake builds' [ -x mistaken ]
for words in 'list twins.out' 'stats twins.out' 'map twins.out -o -' 'convert twins.out --c-array x'; do
    # shellcheck disable=SC2046,SC2086
    says "it tells nothing: $words" sh -c "$(cat with) ./mistaken $words --skip .a >out 2>err; [ \$? = 134 ] && [ ! -s out ]" 2>/dev/null
    run $words --skip .a
    says "without the mistake: $words" ended 0
done

end
