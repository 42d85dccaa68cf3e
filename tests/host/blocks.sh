#!/bin/sh
# Blocks.
. "$(dirname "$0")/common.sh"
inputs a.img long.img split.img bare.img many.img wide.img

run blocks a.img
says 'the blocks of A' wrote 'image blocks 1 entry 00000000' '0 load 00000400 run 80000000 size 5' 'image 28'
for name in a.img long.img split.img bare.img many.img wide.img; do
    "$scanboot" blocks "$name" >text 2>err
    "$scanboot" blocks --json "$name" >json 2>>err
    says "the blocks of $name" ask blocks_right "$name" text json
done

end
