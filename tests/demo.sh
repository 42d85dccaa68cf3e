#!/bin/sh
# A COFF file of one section, made here, listed and converted; then the image's bytes.
set -eu
cd "$(dirname "$0")/.."
file=build/demo.out
image=build/demo.img
python3 tests/coff.py "$file" 80000000 400 1122334455
echo "build/scanboot list $file"
build/scanboot list "$file"
echo "build/scanboot convert $file -o $image"
build/scanboot convert "$file" -o "$image"
od -A d -t x1 "$image"
