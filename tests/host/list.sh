#!/bin/sh
# Listing.
. "$(dirname "$0")/common.sh"
inputs a.out long.out bare.out r14

run list a.out
says 'A lists' ended 0
says 'the listing of A' wrote 'coff sections 1 kept 1 entry 00000000' '0 load 00000400 run 80000000 size 5' 'image 28'
says 'the listing of A says nothing else' told_nothing
run list long.out
says 'a file over 65536 bytes lists' wrote 'coff sections 1 kept 1 entry 00000000' '0 load 00001000 run 00000000 size 102400' 'image 102420'
run list r14
says 'so does one whose image would be too long' wrote 'coff sections 2 kept 2 entry 00000000' \
    '0 load 00000000 run 00000000 size 9000000' '1 load 00895440 run 00000000 size 9000000' 'image 18000032'
run list --json a.out
says 'A as JSON' ask same_json out \
    '{"sections": 1, "entry": 0, "kept": [{"section": 0, "name": "", "load": 1024, "run": 2147483648, "size": 5}], "image": 28}'
run list bare.out --json
says 'no section as JSON' ask same_json out '{"sections": 0, "entry": 0, "kept": [], "image": 8}'
run list - <a.out
says 'from standard input' ended 0

end
