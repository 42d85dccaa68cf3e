#!/bin/sh
# The samples.
. "$(dirname "$0")/common.sh"

for file in c6x c6x-ld c6x-initialised c6x-plain c4x-patched edges many-256 long-name; do
    run convert "$samples/$file.out" -o s.img
    says "$file converts" ended 0
    says "$file: the kept sections" ask counted s.img "$samples/$file.out"
    run check "$samples/$file.out" s.img
    says "$file: checked" wrote same
    "$scanboot" list "$samples/$file.out" >text 2>err
    "$scanboot" list --json "$samples/$file.out" >json 2>>err
    says "$file: listed twice" ask list_json json text "$samples/$file.out"
    "$scanboot" blocks s.img >text 2>err
    "$scanboot" blocks --json s.img >json 2>>err
    says "$file: the blocks" ask blocks_right s.img text json
    run convert "$samples/$file.out" --c-array s -o s.h
    says "$file: the array" ask array s.h s.img s "$samples/$file.out"
    run stats "$samples/$file.out"
    says "$file: statistics" ended 0
done
run convert "$samples/c4x-relocatable.out" -o no.img
says 'a sample that is not finally linked' told_of 'refused 6 0: '
run convert "$samples/c6x-attributes.out" -o no.img
says 'a sample whose sections meet' told_of 'refused 13 9: '
says 'no image of these' absent no.img

end
