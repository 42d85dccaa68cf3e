#!/bin/sh
# A full disk.
. "$(dirname "$0")/common.sh"
inputs a.out a.img long.out

for words in 'list a.out' 'blocks a.img' 'check a.out a.img' 'stats a.out' 'convert a.out -o -' 'map a.out -o -' '--help'; do
    # shellcheck disable=SC2086
    "$scanboot" $words >/dev/full 2>err
    status=$?
    says "a full disk: $words" ended 3
    says "a full disk is told: $words" told 'scanboot: standard output: No space left on device'
done
mkdir disk
printf 'old' >disk/old.img
(ulimit -f 8 && "$scanboot" convert long.out -o disk/old.img) >out 2>err
status=$?
says 'a file over the limit of sizes ends with 3' ended 3
says 'a file over the limit of sizes is told' told 'scanboot: disk/old.img: File too large'
says 'the old file stays' [ "$(cat disk/old.img)" = old ]
says 'nothing is left beside it' only disk old.img
trap 'umount "$folder/disk" 2>/dev/null; rm -rf "$folder"' EXIT
if mount -t tmpfs -o size=64k tmpfs disk 2>/dev/null; then
    printf 'old' >disk/old.img
    for name in old new; do
        run convert long.out -o "disk/$name.img"
        says "a full disk under an output ends with 3: $name" ended 3
        says "a full disk under an output is told: $name" told "scanboot: disk/$name.img: No space left on device"
    done
    says 'the old file stays on a full disk' [ "$(cat disk/old.img)" = old ]
    says 'nothing is left on it' only disk old.img
    umount disk
else
    echo 'not tried: a small disk of its own cannot be mounted here'
fi

end
