#!/bin/sh
# The map.
. "$(dirname "$0")/common.sh"
inputs a.out a.img cut.out one bare.out bare.img long.out wide.img many.img r14 r25 kinds.out between.out apart.out \
    overlays3.out overlays10.out overlays16.out stairs.out names.out 64.out 65.out lost.out far.out moved.out loaded.out shifted.out crossed.out \
    turning.out apart.img adjoining.img bytes.img unlike.img some.img copied.img overlays.img others.img

# looks NAME QUESTION.. [, QUESTION..]..: the picture in map.svg is kept under a number; at the end all are looked at
pictures=0
looks() {
    named=$1
    shift
    pictures=$((pictures + 1))
    mv map.svg $pictures.svg
    printf '%s\0' $(($# + 2)) "$named" $pictures.svg "$@" >>questions
}
# map FILE COUNT MOVED [, QUESTION..]: a map of so many blocks, of which so many run elsewhere
map() {
    file=$1 count=$2 moved=$3
    shift 3
    run map "$file" -o map.svg
    says "a map of $file" ended 0
    looks "the map of $file" picture "$count" "$moved" , explained "$@"
}
map a.out 1 1
map a.img 1 1
map long.out 1 1
map wide.img 1 0
map r14 2 1
map "$samples/c6x.out" 7 1

# A gap on the right is not said to be empty, and each kind is explained.
map between.out 3 2 , shows 'what runs elsewhere' 'section that runs elsewhere: its band leads there; no other is drawn on the right' \
    'gap, folded: on the left nothing is loaded there, on the right no band leads there' - 'gap, folded: nothing is loaded there'
map apart.out 2 2 , shows 'gap, folded: no band leads there'
map kinds.out 6 0 , shows 'gap, folded: nothing is loaded there' - 'what runs elsewhere'

# Overlays stand side by side; what there is no room for is counted.
map overlays3.out 3 3 , leaders_seen
map overlays10.out 10 10 , leaders_seen
map stairs.out 8 8 , leaders_seen
map overlays16.out 16 16 , leaders_seen , shows '+4 more' 'sections that there is no room to draw; they are listed beside' \
    'gap: nothing is loaded there' , entered red

# Names of sections, in labels and tool tips: odd ones, long ones and none. Where no section has one, there is no column.
map names.out 8 2 , shows name .text '<&>"%s'"'" '?é?' aaaaaaaaaaaaaaaa 'aaaaaaaaaaaaa...' 'xxxxxxxxxxxxx...' - aaaaaaaaaaaaaaaaa '' , \
    tells 'section 0, .text: 64 bytes' 'section 1, <&>"%s'"'"': ' 'section 4, aaaaaaaaaaaaaaaaa: ' 'section 6: 64 bytes'
map kinds.out 6 0 , shows 'loaded at' - name
map turning.out 15 5 , shows 'a?b' , tells 'section 0, a?b: ' 'section 9, a?b: ' 'section 14, a?b: '
says 'no such character in the whole picture' ask plain_text $pictures.svg

# An entry point in a section that is loaded and runs there is marked, and that is all.
map kinds.out 6 0 , shows entry 'entry point' , entered black

# strays FILE COUNT MOVED MARK [LEGEND]: any other entry point. What inspect remarks on it stands under the title.
strays() {
    run inspect "$1"
    remark=$(sed -n 's/^remark: \(the entry point [0-9A-F]* lies .*\)/\1/p' out)
    map "$1" "$2" "$3" , shows "$remark" ${5:+"$5"} - 'entry point' , entered "$4"
}
strays lost.out 3 1 red 'entry point, where nothing is loaded'
strays far.out 3 1 nowhere
strays moved.out 1 1 red 'entry point, where nothing is loaded'
strays loaded.out 3 1 red 'entry point, where what is loaded runs elsewhere'
strays shifted.out 1 1 red 'entry point, where what is loaded runs elsewhere'
strays crossed.out 2 2 red 'entry point, where what is loaded runs elsewhere'
map bare.out 0 0 , shows 'the entry point 00000000 lies in no section that is loaded' 'Nothing is loaded.' , entered nowhere
map bare.img 0 0 , shows 'the entry point 00000000 lies in no block' 'Nothing is loaded.' , entered nowhere

# Up to 64 blocks each alone; more are drawn together, but for the one that is entered, and those that run elsewhere if they are few.
map 64.out 64 21 , tells 'section 0, .section0: ' 'section 31, .section31: ' 'section 63, .section63: '
map 65.out 65 21 , shows .section1 '.section3...' '.section12...' , tells 'section 1, .section1: ' 'section 2, .section2: ' \
    '2 sections, 3–4, .section3–.section4: 128 bytes, loaded at 00003000–0000403F'
map "$samples/many-256.out" 256 0 , tells 'section 0, .text: ' '8 sections, 1–8, .s001–.s008: 30 bytes, loaded at 80000010–80000081'
map many.img 4096 0 , tells 'block 1108: 2 bytes, loaded at 00000040' '128 blocks: 256 bytes, loaded at 00000050–00000841'
map apart.img 4096 0 , tells 'block 2000: 4 bytes'
map adjoining.img 4096 0 , tells 'block 1000: 4 bytes'
map bytes.img 4096 0 , tells 'block 77: 1 byte,'
map unlike.img 4096 0 , tells 'block 300: '
run map unlike.img -o map.svg
says 'the same map once more' same map.svg $pictures.svg
map some.img 4096 11 , tells 'block 7: ' 'block 407: ' 'block 4007: '
map copied.img 4096 4096 , entered red , tells 'block 0: ' '128 blocks, 1–128: 512 bytes, loaded at 00000008–00000403, run at 80000008–80000403'
map overlays.img 4096 4096
map others.img 4096 2048 , shows 'blocks some or all of which run elsewhere; where is not drawn' - 'what runs elsewhere'

# Names of files in the title: what XML or UTF-8 does not allow, and what is too long.
cp a.out '<a & "b">.out'
cp a.out "$(printf 'a\377\303\251\001.out')"
map '<a & "b">.out' 1 1
map "$(printf 'a\377\303\251\001.out')" 1 1
while read -r name shown; do
    # shellcheck disable=SC2059
    name=$(printf "$name") shown=$(printf "$shown")
    cp a.out "$name"
    run map "$name" -o map.svg
    looks "the title of $name" titled "$shown"
done <<'NAMES'
\340\244\271.out \340\244\271.out
\355\236\243.out \355\236\243.out
\357\275\206\357\277\275.out \357\275\206\357\277\275.out
\360\237\230\200.out \360\237\230\200.out
\361\200\200\200\364\217\277\275.out \361\200\200\200\364\217\277\275.out
a\011b\012c\015d\177.out a?b?c?d?.out
a\342\200\256b\342\200\217c\330\234d\302\205e.out a?b?c?d?e.out
\342\200\220\342\201\252\330\233\302\240.out \342\200\220\342\201\252\330\233\302\240.out
\357\277\276\357\277\277.out ??????.out
\340\237\277\355\240\200.out ??????.out
\360\217\277\277\364\220\200\200\365.out ?????????.out
\300\200\001\037\303.out ?????.out
\360\237\230 ???
NAMES
for letter in 'W 22.1' 'w 18.5' 'i 6.9' '0 13.9'; do
    name=$(printf '%0120d' 0 | tr 0 "${letter% *}")
    cp bare.img "$name"
    run map "$name" -o map.svg
    looks "a long title fits: ${letter% *}" title_fits "${letter#* }"
done

run map - -o - <a.out
mv out map.svg
looks 'a map from and to the standard files' picture 1 1
mkdir maps
run map cut.out -o maps/map.svg
says 'a COFF file that is refused has no map' told_of 'refused 10 0: '
run map r25 -o maps/map.svg
says 'an image that is refused has no map' told_of 'refused 25 0: '
run map one -o maps/map.svg
says 'what is neither is refused as an image' told_of 'refused 21 0: '
says 'and no map is made' only maps ''

python3 "$tests/host/picture.py" <questions >answers 2>&1
add $? "$(tail -n 1 answers)"
sed '$d' answers
end
