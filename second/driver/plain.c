/* The library's calls in plain C, unproved: to try the driver, and to compare
 * speed with. Compiled with -DPLAIN_NAMES the functions are called plain_convert
 * and so on (plain.h), so that they can stand beside the library in one program. */

#include "plain.h"

#include <stdio.h>
#include <stdlib.h>
#include <string.h>

#ifdef PLAIN_NAMES
#define CALL(name) plain_##name
#else
#define CALL(name) scanboot_##name
#endif

#define MOST 16777216u
#define ADDRESSES ((uint64_t)1 << 32)
#define MOST_SECTIONS 256
#define MOST_BLOCKS 4096
#define TEXT_MOST 16384    /* no text is as long: 256 lines of at most 45 bytes, and two more */

#define MOST_PATTERNS 16
#define MOST_PATTERN_BYTES 64

enum { FILE_HEADER = 22, OPTIONAL_HEADER = 28, SECTION_HEADER = 48, NAME = 8, SYMBOL = 18 };
enum { DSECT = 0x1, NOLOAD = 0x2, COPY = 0x10, TEXT = 0x20, DATA = 0x40, BSS = 0x80, VECTOR = 0x8000 };
/* A plain section has none of these; 4h and 8h are flags without a name. */
enum { LISTED = DSECT | NOLOAD | 0x4 | 0x8 | COPY | TEXT | DATA | BSS | VECTOR };
/* What an order reverses in each four bytes of an image; an order is a set of these. */
enum { NUMBERS_TURNED = 1, DATA_TURNED = 2, BOTH_TURNED = NUMBERS_TURNED | DATA_TURNED };

/* A kept section or a block of an image. */
struct block {
    uint32_t load, run, size;
    uint32_t raw;    /* offset of its bytes in the file or image */
    uint32_t index;
};

struct program {
    uint32_t entry;
    uint32_t sections;
    uint32_t count;
    struct block blocks[MOST_BLOCKS];
};

static uint32_t get16(const uint8_t *p)
{
    return (uint32_t)p[0] | (uint32_t)p[1] << 8;
}

static uint32_t get32(const uint8_t *p)
{
    return get16(p) | get16(p + 2) << 16;
}

static void put32(uint8_t *p, uint32_t v)
{
    p[0] = (uint8_t)v;
    p[1] = (uint8_t)(v >> 8);
    p[2] = (uint8_t)(v >> 16);
    p[3] = (uint8_t)(v >> 24);
}

static uint64_t refuse(unsigned code, uint64_t index)
{
    return code | index << 8;
}

static uint64_t padded(uint64_t size)
{
    return (size + 3) & ~(uint64_t)3;
}

/* Rule 33: 0, or the packed refusal. */
static uint64_t read_order(uint32_t order)
{
    return order > BOTH_TURNED ? refuse(33, 0) : 0;
}

/* A number of an image. Those of a COFF file have no order: get32. */
static uint32_t get_number(const uint8_t *p, uint32_t order)
{
    uint32_t v = get32(p);
    return order & NUMBERS_TURNED ? __builtin_bswap32(v) : v;
}

static void put_number(uint8_t *p, uint32_t v, uint32_t order)
{
    put32(p, order & NUMBERS_TURNED ? __builtin_bswap32(v) : v);
}

/* Where a data area, which has whole fours, holds the byte that undoing puts at k. */
static size_t stands_at(size_t k, uint32_t order)
{
    return order & DATA_TURNED ? k ^ 3 : k;
}

/* Eight bytes as this machine reads them. Two fours at once are faster than one, and how
 * fast depends less on where the compiler happens to put the loop. */
static uint64_t get_eight(const uint8_t *p)
{
    uint64_t v;
    memcpy(&v, p, sizeof v);
    return v;
}

/* Each four of them reversed. */
static uint64_t turn_eight(uint64_t v)
{
    v = __builtin_bswap64(v);
    return v << 32 | v >> 32;
}

/* As many of so many bytes as are whole eights; answers how many. */
static size_t copy_turned(uint8_t *to, const uint8_t *from, size_t size)
{
    size_t k = 0;
    for (; size - k >= 8; k += 8) {
        uint64_t v = turn_eight(get_eight(from + k));
        memcpy(to + k, &v, sizeof v);
    }
    return k;
}

/* The first `size` bytes of a data area, undone. */
static void copy_from_area(uint8_t *to, const uint8_t *area, size_t size, uint32_t order)
{
    if (!(order & DATA_TURNED)) {
        memcpy(to, area, size);
        return;
    }
    for (size_t k = copy_turned(to, area, size); k < size; k++)
        to[k] = area[stands_at(k, order)];
}

/* A whole data area: the bytes and their padding. */
static void copy_to_area(uint8_t *area, const uint8_t *from, size_t size, uint32_t order)
{
    if (!(order & DATA_TURNED)) {
        memcpy(area, from, size);
        memset(area + size, 0, padded(size) - size);
        return;
    }
    for (size_t k = copy_turned(area, from, size); k < padded(size); k++)
        area[stands_at(k, order)] = k < size ? from[k] : 0;
}

/* Whether n bytes are those that undoing puts at `at` and on. Fours can be compared
 * whole from where one begins. */
static int same_as_area(const uint8_t *bytes, const uint8_t *area, size_t at, size_t n, uint32_t order)
{
    if (!(order & DATA_TURNED))
        return memcmp(bytes, area + at, n) == 0;
    size_t k = 0;
    for (; k < n && (at + k) % 4 != 0; k++)
        if (bytes[k] != area[stands_at(at + k, order)])
            return 0;
    for (; n - k >= 8; k += 8)
        if (get_eight(bytes + k) != turn_eight(get_eight(area + at + k)))
            return 0;
    for (; k < n; k++)
        if (bytes[k] != area[stands_at(at + k, order)])
            return 0;
    return 1;
}

static uint64_t load_end(const struct block *b)
{
    return (uint64_t)b->load + b->size;
}

static int by_load(const void *a, const void *b)
{
    uint32_t x = ((const struct block *)a)->load, y = ((const struct block *)b)->load;
    return (x > y) - (x < y);
}

static int meet(const struct block *a, const struct block *b)
{
    return a->load < load_end(b) && b->load < load_end(a);
}

/* The first block that meets an earlier one, or NULL. Sorted ranges tell fast
 * whether there is one at all. */
static const struct block *first_that_meets(const struct program *p)
{
    struct block sorted[MOST_BLOCKS];
    uint32_t i, j;
    memcpy(sorted, p->blocks, p->count * sizeof sorted[0]);
    qsort(sorted, p->count, sizeof sorted[0], by_load);
    for (i = 1; i < p->count; i++)
        if (meet(&sorted[i - 1], &sorted[i]))
            break;
    if (i >= p->count)
        return NULL;
    for (j = 1; j < p->count; j++)
        for (i = 0; i < j; i++)
            if (meet(&p->blocks[i], &p->blocks[j]))
                return &p->blocks[j];
    return NULL;
}

static int kept(uint32_t flags, uint32_t size, uint32_t raw)
{
    if (!(flags & LISTED))
        return size != 0 && raw != 0;
    return size != 0 && !(flags & (DSECT | NOLOAD | COPY)) && (flags & (TEXT | DATA | VECTOR));
}

/* A part of a buffer: a pattern, a name, or the string table. */
struct part {
    const uint8_t *at;
    size_t length;
};

struct patterns {
    uint32_t count;
    struct part all[MOST_PATTERNS];
};

static const struct patterns no_patterns;

static int sound_pattern(size_t length)
{
    return length >= 1 && length <= MOST_PATTERN_BYTES;
}

/* Rule 17: 0, or the packed refusal. Each pattern ends with a zero byte or with the row. */
static uint64_t read_patterns(const uint8_t *row, size_t length, struct patterns *p)
{
    p->count = 0;
    for (size_t from = 0; from < length;) {
        const uint8_t *zero = memchr(row + from, 0, length - from);
        struct part one = { row + from, zero ? (size_t)(zero - (row + from)) : length - from };
        if (p->count == MOST_PATTERNS || !sound_pattern(one.length))
            return refuse(17, 0);
        p->all[p->count++] = one;
        from += one.length + 1;
    }
    return 0;
}

/* Two pointers: where both do not agree, the last star takes one character more. An
 * earlier star need not, for the last one can take whatever that would have. */
static int takes(struct part pattern, struct part name)
{
    size_t i = 0, j = 0;
    size_t behind_star = 0, starts = 0;    /* where to go on; there is no star while this is 0 */
    while (j < name.length) {
        if (i < pattern.length && pattern.at[i] == '*') {
            behind_star = ++i;
            starts = j;
        } else if (i < pattern.length && (pattern.at[i] == '?' || pattern.at[i] == name.at[j])) {
            i++;
            j++;
        } else if (behind_star) {
            i = behind_star;
            j = ++starts;
        } else {
            return 0;
        }
    }
    while (i < pattern.length && pattern.at[i] == '*')
        i++;
    return i == pattern.length;
}

static int any_takes(const struct patterns *p, struct part name)
{
    for (uint32_t i = 0; i < p->count; i++)
        if (takes(p->all[i], name))
            return 1;
    return 0;
}

/* As much of it as its size says and the file holds, from its size field on; without
 * a whole size field it is empty. In 64 bits its place does not wrap. */
static struct part string_table(const uint8_t *file, size_t length)
{
    uint64_t at = get32(file + 8) + SYMBOL * (uint64_t)get32(file + 12);
    struct part table = { NULL, 0 };
    if (at + 4 > length)
        return table;
    table.at = file + at;
    table.length = get32(table.at);
    if (table.length > length - at)
        table.length = length - at;
    return table;
}

/* Rule 16: whether the name in this header can be read. */
static int read_name(const uint8_t *header, struct part table, struct part *name)
{
    uint32_t offset = get32(header + 4);
    const uint8_t *zero;
    if (get32(header) != 0 || offset == 0) {
        zero = memchr(header, 0, NAME);
        name->at = header;
        name->length = zero ? (size_t)(zero - header) : NAME;
        return 1;
    }
    if (offset < 4 || offset >= table.length)
        return 0;
    name->at = table.at + offset;
    zero = memchr(name->at, 0, table.length - offset);
    name->length = zero ? (size_t)(zero - name->at) : 0;
    return zero != NULL;
}

/* Rules 1 to 13, and 16 where there are patterns: 0, or the packed refusal. */
static uint64_t read_coff(const uint8_t *file, size_t length, const struct patterns *patterns, struct program *p)
{
    if (length > MOST)
        return refuse(1, 0);
    if (length < FILE_HEADER)
        return refuse(2, 0);
    uint32_t sections = get16(file + 2);
    uint32_t optional = get16(file + 16);
    if (get16(file) != 0x00c2)
        return refuse(3, 0);
    if (get16(file + 20) != 0x0099)
        return refuse(4, 0);
    if (optional != 0 && optional != OPTIONAL_HEADER)
        return refuse(5, 0);
    if (!(get16(file + 18) & 0x0002))
        return refuse(6, 0);
    if (sections > MOST_SECTIONS)
        return refuse(7, 0);
    size_t headers_end = FILE_HEADER + optional + SECTION_HEADER * (size_t)sections;
    if (length < headers_end)
        return refuse(8, 0);
    if (optional && get16(file + FILE_HEADER) != 0x0108)
        return refuse(9, 0);
    p->entry = optional ? get32(file + FILE_HEADER + 16) : 0;
    p->sections = sections;
    p->count = 0;
    struct part table = string_table(file, length), name;
    for (uint32_t i = 0; i < sections; i++) {
        const uint8_t *h = file + FILE_HEADER + optional + SECTION_HEADER * (size_t)i;
        struct block b = { get32(h + 12), get32(h + 8), get32(h + 16), get32(h + 20), i };
        if (!kept(get32(h + 40), b.size, b.raw))
            continue;
        if (patterns->count && !read_name(h, table, &name))
            return refuse(16, 0);
        if (patterns->count && any_takes(patterns, name))
            continue;
        if (b.raw < headers_end || (uint64_t)b.raw + b.size > length)
            return refuse(10, i);
        if (load_end(&b) > ADDRESSES)
            return refuse(11, i);
        if ((uint64_t)b.run + b.size > ADDRESSES)
            return refuse(12, i);
        p->blocks[p->count++] = b;
    }
    const struct block *later = first_that_meets(p);
    return later ? refuse(13, later->index) : 0;
}

/* Rule 33, then 20 to 27: 0, or the packed refusal. */
static uint64_t read_image(const uint8_t *image, size_t length, uint32_t order, struct program *p)
{
    uint64_t refused = read_order(order);
    if (refused)
        return refused;
    if (length > MOST)
        return refuse(20, 0);
    if (length < 4)
        return refuse(21, 0);
    p->entry = get_number(image, order);
    p->count = 0;
    size_t at = 4;
    for (;;) {
        if (length - at < 4)
            return refuse(21, p->count);
        struct block b = { 0, 0, get_number(image + at, order), (uint32_t)at + 12, p->count };
        if (b.size == 0)
            break;
        if (p->count == MOST_BLOCKS)
            return refuse(22, MOST_BLOCKS);
        if (length - at < 12 || length - at - 12 < padded(b.size))
            return refuse(21, p->count);
        b.load = get_number(image + at + 4, order);
        b.run = get_number(image + at + 8, order);
        if (load_end(&b) > ADDRESSES)
            return refuse(23, p->count);
        if ((uint64_t)b.run + b.size > ADDRESSES)
            return refuse(24, p->count);
        for (size_t k = b.size; k < padded(b.size); k++)
            if (image[b.raw + stands_at(k, order)] != 0)
                return refuse(25, p->count);
        at = b.raw + padded(b.size);
        p->blocks[p->count++] = b;
    }
    if (at + 4 != length)
        return refuse(26, p->count);
    const struct block *later = first_that_meets(p);
    return later ? refuse(27, later->index) : 0;
}

static uint64_t image_length(const struct program *p)
{
    uint64_t length = 8;
    for (uint32_t i = 0; i < p->count; i++)
        length += 12 + padded(p->blocks[i].size);
    return length;
}

/* Rules 17 and 33, then 1 to 14 with 16: 0, or the packed refusal. */
static uint64_t read_to_convert(const uint8_t *file, size_t file_len, const uint8_t *row, size_t row_len,
                                uint32_t order, struct program *p, uint64_t *length)
{
    struct patterns patterns;
    uint64_t refused = read_patterns(row, row_len, &patterns);
    if (!refused)
        refused = read_order(order);
    if (!refused)
        refused = read_coff(file, file_len, &patterns, p);
    if (refused)
        return refused;
    *length = image_length(p);
    return *length > MOST ? refuse(14, 0) : 0;
}

static uint64_t conversion(uint64_t length, uint64_t count)
{
    return length << 8 | count << 40;
}

uint64_t CALL(measure_with)(const uint8_t *file, size_t file_len, const uint8_t *row, size_t row_len)
{
    struct program p;
    uint64_t length, refused = read_to_convert(file, file_len, row, row_len, 0, &p, &length);
    return refused ? refused : conversion(length, p.count);
}

uint64_t CALL(measure)(const uint8_t *file, size_t file_len)
{
    return CALL(measure_with)(file, file_len, NULL, 0);
}

uint64_t CALL(convert_with)(const uint8_t *file, size_t file_len, uint8_t *out, size_t out_len, const uint8_t *row,
                            size_t row_len, uint32_t order)
{
    struct program p;
    uint64_t length, refused = read_to_convert(file, file_len, row, row_len, order, &p, &length);
    if (refused)
        return refused;
    if (out_len < length)
        return refuse(15, 0);
    put_number(out, p.entry, order);
    out += 4;
    for (uint32_t i = 0; i < p.count; i++) {
        const struct block *b = &p.blocks[i];
        put_number(out, b->size, order);
        put_number(out + 4, b->load, order);
        put_number(out + 8, b->run, order);
        copy_to_area(out + 12, file + b->raw, b->size, order);
        out += 12 + padded(b->size);
    }
    put_number(out, 0, order);
    return conversion(length, p.count);
}

uint64_t CALL(convert)(const uint8_t *file, size_t file_len, uint8_t *out, size_t out_len)
{
    return CALL(convert_with)(file, file_len, out, out_len, NULL, 0, 0);
}

/* The text is made aside: how long it is decides whether a byte is written. */
uint64_t CALL(list)(const uint8_t *file, size_t file_len, uint8_t *text, size_t text_len)
{
    struct program p;
    char whole[TEXT_MOST];
    uint64_t refused = read_coff(file, file_len, &no_patterns, &p);
    if (refused)
        return refused;
    int n = sprintf(whole, "coff sections %u kept %u entry %08X\n", (unsigned)p.sections, (unsigned)p.count,
                    (unsigned)p.entry);
    size_t used = (size_t)n;
    for (uint32_t i = 0; i < p.count; i++) {
        const struct block *b = &p.blocks[i];
        n = sprintf(whole + used, "%u load %08X run %08X size %u\n", (unsigned)b->index, (unsigned)b->load,
                    (unsigned)b->run, (unsigned)b->size);
        used += (size_t)n;
    }
    n = sprintf(whole + used, "image %llu\n", (unsigned long long)image_length(&p));
    used += (size_t)n;
    if (text_len < used)
        return refuse(15, 0);
    memcpy(text, whole, used);
    return (uint64_t)used << 8;
}

uint64_t CALL(read_image_with)(const uint8_t *image, size_t image_len, uint32_t order)
{
    struct program p;
    uint64_t refused = read_image(image, image_len, order, &p);
    return refused ? refused : (uint64_t)p.entry << 8 | (uint64_t)p.count << 40;
}

uint64_t CALL(read_image)(const uint8_t *image, size_t image_len)
{
    return CALL(read_image_with)(image, image_len, 0);
}

/* What begins at a place, whatever stands elsewhere in the image: 0, or the
 * packed refusal. The end flag is a block without bytes, place or addresses. */
static uint64_t find_block_at(const uint8_t *image, size_t length, uint64_t place, uint32_t order, struct block *b)
{
    uint64_t refused = read_order(order);
    memset(b, 0, sizeof *b);
    if (refused)
        return refused;
    if (length > MOST)
        return refuse(20, 0);
    if (place > length || length - place < 4)
        return refuse(21, 0);
    uint32_t size = get_number(image + place, order);
    if (size == 0)
        return 0;
    if (length - place < 12 || length - place - 12 < padded(size))
        return refuse(21, 0);
    b->size = size;
    b->load = get_number(image + place + 4, order);
    b->run = get_number(image + place + 8, order);
    b->raw = (uint32_t)place + 12;
    return 0;
}

static uint64_t found(const struct block *b)
{
    return (uint64_t)b->raw << 8 | (uint64_t)b->size << 36;
}

static uint64_t addresses(const struct block *b)
{
    return (uint64_t)b->load | (uint64_t)b->run << 32;
}

uint64_t CALL(block_at_with)(const uint8_t *image, size_t image_len, uint64_t place, uint32_t order)
{
    struct block b;
    uint64_t refused = find_block_at(image, image_len, place, order, &b);
    return refused ? refused : found(&b);
}

uint64_t CALL(block_at)(const uint8_t *image, size_t image_len, uint64_t place)
{
    return CALL(block_at_with)(image, image_len, place, 0);
}

uint64_t CALL(block_addresses_at_with)(const uint8_t *image, size_t image_len, uint64_t place, uint32_t order)
{
    struct block b;
    uint64_t refused = find_block_at(image, image_len, place, order, &b);
    return refused ? 0 : addresses(&b);
}

uint64_t CALL(block_addresses_at)(const uint8_t *image, size_t image_len, uint64_t place)
{
    return CALL(block_addresses_at_with)(image, image_len, place, 0);
}

/* The block with this number: 0, or the packed refusal. */
static uint64_t find_block(const uint8_t *image, size_t length, uint64_t number, uint32_t order, struct block *b)
{
    struct program p;
    uint64_t refused = read_image(image, length, order, &p);
    if (refused)
        return refused;
    if (number >= p.count)
        return refuse(30, 0);
    *b = p.blocks[number];
    return 0;
}

uint64_t CALL(block_with)(const uint8_t *image, size_t image_len, uint64_t number, uint32_t order)
{
    struct block b;
    uint64_t refused = find_block(image, image_len, number, order, &b);
    return refused ? refused : found(&b);
}

uint64_t CALL(block)(const uint8_t *image, size_t image_len, uint64_t number)
{
    return CALL(block_with)(image, image_len, number, 0);
}

uint64_t CALL(block_addresses_with)(const uint8_t *image, size_t image_len, uint64_t number, uint32_t order)
{
    struct block b;
    uint64_t refused = find_block(image, image_len, number, order, &b);
    return refused ? 0 : addresses(&b);
}

uint64_t CALL(block_addresses)(const uint8_t *image, size_t image_len, uint64_t number)
{
    return CALL(block_addresses_with)(image, image_len, number, 0);
}

static int window_refused(uint64_t base, size_t length)
{
    return length > MOST || base > ADDRESSES || base + length > ADDRESSES;
}

/* The order is that of the source's bytes; a COFF file's stand as they are. */
static uint64_t place(const struct program *p, const uint8_t *source, uint32_t order, uint64_t base, uint8_t *window,
                      size_t length)
{
    uint64_t placed = 0;
    for (uint32_t i = 0; i < p->count; i++) {
        const struct block *b = &p->blocks[i];
        if (b->load < base || load_end(b) > base + length)
            return refuse(29, b->index);
    }
    for (uint32_t i = 0; i < p->count; i++) {
        const struct block *b = &p->blocks[i];
        copy_from_area(window + (b->load - base), source + b->raw, b->size, order);
        placed += b->size;
    }
    return placed << 8;
}

uint64_t CALL(load_image_with)(const uint8_t *image, size_t image_len, uint64_t base, uint8_t *window,
                               size_t window_len, uint32_t order)
{
    struct program p;
    uint64_t refused = read_order(order);
    if (refused)
        return refused;
    if (window_refused(base, window_len))
        return refuse(28, 0);
    refused = read_image(image, image_len, order, &p);
    return refused ? refused : place(&p, image, order, base, window, window_len);
}

uint64_t CALL(load_image)(const uint8_t *image, size_t image_len, uint64_t base, uint8_t *window, size_t window_len)
{
    return CALL(load_image_with)(image, image_len, base, window, window_len, 0);
}

uint64_t CALL(load_coff_with)(const uint8_t *file, size_t file_len, uint64_t base, uint8_t *window, size_t window_len,
                              const uint8_t *row, size_t row_len)
{
    struct program p;
    struct patterns patterns;
    uint64_t refused = read_patterns(row, row_len, &patterns);
    if (refused)
        return refused;
    if (window_refused(base, window_len))
        return refuse(28, 0);
    refused = read_coff(file, file_len, &patterns, &p);
    return refused ? refused : place(&p, file, 0, base, window, window_len);
}

uint64_t CALL(load_coff)(const uint8_t *file, size_t file_len, uint64_t base, uint8_t *window, size_t window_len)
{
    return CALL(load_coff_with)(file, file_len, base, window, window_len, NULL, 0);
}

/* Those of a file and of an image in an order, both sorted by load address: walked
 * side by side, a stretch at a time. */
static int same_placement(const struct program *a, const uint8_t *file,
                          const struct program *b, const uint8_t *image, uint32_t order)
{
    uint32_t i = 0, j = 0, x = 0, y = 0;    /* blocks, and bytes done of each */
    while (i < a->count && j < b->count) {
        const struct block *p = &a->blocks[i], *q = &b->blocks[j];
        uint32_t p_left = p->size - x, q_left = q->size - y;
        uint32_t n = p_left < q_left ? p_left : q_left;
        if (p->load + x != q->load + y || p->run + x != q->run + y)
            return 0;
        if (!same_as_area(file + p->raw + x, image + q->raw, y, n, order))
            return 0;
        x += n;
        y += n;
        if (x == p->size) {
            i++;
            x = 0;
        }
        if (y == q->size) {
            j++;
            y = 0;
        }
    }
    return i == a->count && j == b->count;
}

uint64_t CALL(check_with)(const uint8_t *file, size_t file_len, const uint8_t *image, size_t image_len,
                          const uint8_t *row, size_t row_len, uint32_t order)
{
    struct program a, b;
    struct patterns patterns;
    uint64_t refused = read_patterns(row, row_len, &patterns);
    if (!refused)
        refused = read_order(order);
    if (!refused)
        refused = read_coff(file, file_len, &patterns, &a);
    if (!refused)
        refused = read_image(image, image_len, order, &b);
    if (refused)
        return refused;
    if (a.entry != b.entry)
        return refuse(40, 0);
    qsort(a.blocks, a.count, sizeof a.blocks[0], by_load);
    qsort(b.blocks, b.count, sizeof b.blocks[0], by_load);
    return same_placement(&a, file, &b, image, order) ? 0 : refuse(41, 0);
}

uint64_t CALL(check)(const uint8_t *file, size_t file_len, const uint8_t *image, size_t image_len)
{
    return CALL(check_with)(file, file_len, image, image_len, NULL, 0, 0);
}

uint32_t CALL(takes)(const uint8_t *pattern, size_t pattern_len, const uint8_t *name, size_t name_len)
{
    struct part one = { pattern, pattern_len }, of = { name, name_len };
    return sound_pattern(pattern_len) && takes(one, of);
}

#ifndef PLAIN_NAMES
/* That of the header whose calls stand here: 1.4.0. */
uint32_t scanboot_version(void)
{
    return 1u << 16 | 4u << 8 | 0u;
}
#endif
