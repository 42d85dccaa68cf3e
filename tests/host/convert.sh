#!/bin/sh
# Converting.
. "$(dirname "$0")/common.sh"
inputs a.out a.img long.out long.img most.out bare.out bare.img

run convert a.out -o new.img
says 'A converts' ended 0
says 'A says nothing' told_nothing
says 'A writes nothing to standard output' wrote_nothing
says 'the image of A' same new.img a.img
says 'the image has the usual mode' [ "$(stat -c %a new.img)" = 644 ]
run convert -o first.img a.out
says 'the output may come first' ended 0
says 'and is the same' same first.img a.img
run convert long.out -o long.new
says 'a file over 65536 bytes converts' same long.new long.img
run convert most.out -o most.new
says 'a file of 16777216 bytes converts' same most.new a.img
printf 'old' >old
run convert a.out -o old
says 'an old file is replaced' same old a.img
chmod 600 old
run convert a.out -o old
says 'and keeps its mode' [ "$(stat -c %a old)" = 600 ]
mkdir 'a folder'
cp a.out 'a folder/-a file'
(cd 'a folder' && "$scanboot" convert -o '-an image' -- '-a file') >out 2>err
says 'names with spaces and dashes' same 'a folder/-an image' a.img
says 'nothing is left beside' only 'a folder' '-a file -an image'
mkdir links
printf 'old' >links/there
ln -s there links/here
run convert a.out -o links/here
says 'a link stays a link' [ -L links/here ]
says 'what it leads to is replaced' same links/there a.img
ln -s nothing links/nowhere
run convert a.out -o links/nowhere
says 'a link that leads nowhere is no output' told 'scanboot: links/nowhere: a link that leads nowhere'
says 'and stays' [ -L links/nowhere ]
ln -s "$scanboot" called
./called convert a.out -o called.img >out 2>err
says 'the program may be called by a link' same called.img a.img
run convert - -o - <a.out
says 'from standard input to standard output' same out a.img
name=$(printf '%0255d' 0)
mkdir long
run convert a.out -o "long/$name"
says 'the longest name that a file may have' same "long/$name" a.img
says 'and nothing beside it' only long "$name"
run convert a.out -o "long/0$name"
says 'a longer one is told' told "scanboot: long/0$name: File name too long"
says 'and leaves nothing' only long "$name"
run convert bare.out -o bare.new
says 'a file without sections' same bare.new bare.img

end
