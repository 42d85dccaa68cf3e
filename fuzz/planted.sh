#!/bin/sh
# Would it be found? Plain C stands in for the library, each time with one mistake: the fuzzer has to find it in a minute.
# The last line is 'N passed, M failed'.
set -u
cd "$(dirname "$0")/.." || exit
here=build/fuzz/planted
rm -rf "$here"
mkdir -p "$here"
sh fuzz/build.sh || exit 1
passed=0
failed=0

# plant NAME OLD NEW: the first OLD of plain.c becomes NEW
plant() {
    python3 - "$2" "$3" >"$here/wrong.c" <<'PY'
import sys
text = open('second/driver/plain.c').read()
assert sys.argv[1] in text, sys.argv[1]
sys.stdout.write(text.replace(sys.argv[1], sys.argv[2], 1))
PY
    gcc -std=c11 -D_GNU_SOURCE -O2 -w -Iinclude -Isecond/driver -o "$here/driver" second/driver/driver.c "$here/wrong.c" || exit 1
    mkdir -p "$here/corpus"
    if SCANBOOT_DRIVER=$here/driver build/fuzz/fuzz -max_total_time=60 -max_len=16384 -use_value_profile=1 -reload=0 -dict=fuzz/words.dict \
        -artifact_prefix="$here/found-" "$here/corpus" build/fuzz/seeds >"$here/log" 2>&1; then
        failed=$((failed + 1))
        echo "not found: $1"
    else
        passed=$((passed + 1))
        echo "found: $1 ($(grep -m 1 '^fuzz: ' "$here/log"))"
    fi
    rm -rf "$here/corpus"
}

plant 'raw data may begin a byte early' 'b.raw < headers_end' 'b.raw + 1 < headers_end'
plant 'a run range may not end at 2^32' '(uint64_t)b.run + b.size > ADDRESSES' '(uint64_t)b.run + b.size >= ADDRESSES'
plant 'padding is not written' 'memset(area + size, 0, padded(size) - size);' ''
plant 'touching is meeting' 'a->load < load_end(b)' 'a->load <= load_end(b)'
plant 'whole words are placed' 'source + b->raw, b->size, order)' 'source + b->raw, padded(b->size), order)'
plant 'a block past the last is answered' 'number >= p.count' 'number > p.count'
plant 'run addresses are not compared' '|| p->run + x != q->run + y' ''
plant 'a size field is read past the end' 'if (length - at < 4)' 'if (length - at < 3)'
plant 'a byte of the file is read past its end' 'length < FILE_HEADER' 'length < FILE_HEADER - 1'
plant 'the last of the sections is not listed' 'for (uint32_t i = 0; i < p.count; i++) {
        const struct block *b = &p.blocks[i];
        n = sprintf' 'for (uint32_t i = 0; i + 1 < p.count; i++) {
        const struct block *b = &p.blocks[i];
        n = sprintf'
plant 'sections that are not kept are counted' ': conversion(length, p.count)' ': conversion(length, p.sections)'
plant 'a place is cut to 32 bits' 'if (place > length || length - place < 4)' 'if ((uint32_t)place > length || length - (uint32_t)place < 4)'
plant 'the padding may be cut at a place' 'length - place - 12 < padded(size)' 'length - place - 12 < size'
plant 'a star takes at least one character' 'starts = j;' 'starts = ++j;'
plant 'a name may end within a pattern' 'return i == pattern.length;' 'return 1;'
plant 'eight characters are read on into the next field' 'memchr(header, 0, NAME)' 'memchr(header, 0, SECTION_HEADER)'
plant 'offsets are counted from behind the size of the string table' 'if (offset < 4 || offset >= table.length)' 'offset += 4;
    if (offset < 4 || offset >= table.length)'
plant 'names are read of sections that are not kept' 'if (!kept(get32(h + 40), b.size, b.raw))
            continue;
        if (patterns->count && !read_name(h, table, &name))
            return refuse(16, 0);' 'if (patterns->count && !read_name(h, table, &name))
            return refuse(16, 0);
        if (!kept(get32(h + 40), b.size, b.raw))
            continue;'
plant 'a flag is forgotten that gives a type' '| BSS | VECTOR }' '| VECTOR }'
plant 'plain sections without raw data are kept' 'return size != 0 && raw != 0;' 'return size != 0;'
plant 'a pattern of 65 bytes is taken' 'length <= MOST_PATTERN_BYTES' 'length <= MOST_PATTERN_BYTES + 1'
plant 'padding is judged before it is undone' 'image[b.raw + stands_at(k, order)] != 0' 'image[b.raw + k] != 0'
plant 'the first byte of a reversed four is taken for the fifth' 'to[k] = area[stands_at(k, order)];' \
    'to[k] = area[k < size / 4 * 4 ? stands_at(k, order) : k];'
plant 'four bytes with padding are not reversed' 'area[stands_at(k, order)] = k < size' \
    'area[k < size / 4 * 4 ? stands_at(k, order) : k] = k < size'
plant 'order 4 is let through' 'order > BOTH_TURNED' 'order > BOTH_TURNED + 1'
plant 'an order is asked by its lowest byte' 'order > BOTH_TURNED' '(uint8_t)order > BOTH_TURNED'
plant 'the window is asked before the order' 'uint64_t refused = read_order(order);
    if (refused)
        return refused;
    if (window_refused' 'uint64_t refused;
    if (window_refused'
plant 'the order is asked before the patterns' 'uint64_t refused = read_patterns(row, row_len, &patterns);
    if (!refused)
        refused = read_order(order);' 'uint64_t refused = read_order(order);
    if (!refused)
        refused = read_patterns(row, row_len, &patterns);'
plant 'the size at a place is not undone' 'uint32_t size = get_number(image + place, order);' 'uint32_t size = get32(image + place);'
plant 'run addresses are not undone' 'b.run = get_number(image + at + 8, order);' 'b.run = get32(image + at + 8);'
plant 'fours are compared from where a stretch begins' 'image + q->raw, y, n, order)' 'image + q->raw + y, 0, n, order)'
echo "$passed passed, $failed failed"
[ "$failed" = 0 ]
