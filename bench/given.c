#include "given.h"
#include "blocks.h"
#include "names.h"

#include <stdio.h>
#include <stdlib.h>
#include <string.h>

struct given given;

void stop(const char *why)
{
    fprintf(stderr, "bench: %s\n", why);
    exit(1);
}

uint8_t *room(size_t length)
{
    uint8_t *at = malloc(length);
    if (at == NULL)
        stop("no memory");
    memset(at, 0xaa, length);
    return at;
}

uint8_t *put(uint8_t *at, uint64_t number, int width)
{
    for (int i = 0; i < width; i++)
        *at++ = (uint8_t)(number >> 8 * i);
    return at;
}

static uint64_t state = 0x9e3779b97f4a7c15u;

uint64_t next(void)
{
    state ^= state << 13;
    state ^= state >> 7;
    state ^= state << 17;
    return state;
}

/* Unless they are ODD, all but the last end at a multiple of four, so that images of any
 * cut have the same length. */
size_t stretch_end(const struct setting *s, size_t i, size_t count)
{
    if (i == 0 || i == count)
        return i == 0 ? 0 : given.raw;
    return given.raw / 4 * i / count * 4 + (s->order == ODD ? 1 + i % 3 : 0);
}

/* Where section `i` is loaded. FALLING: the stretches in reverse order, without a gap. MEETING: so too, but the last
 * section begins where the first does. */
static size_t load_of(const struct setting *s, unsigned i)
{
    unsigned last = s->sections - 1;
    switch (s->order) {
    case SHARED: return given.raw * i;
    case FALLING: return BASE + given.raw - stretch_end(s, i + 1u, s->sections);
    case MEETING: return i == last ? load_of(s, 0) : BASE + given.raw - stretch_end(s, i + 1u, s->sections);
    default: return BASE + stretch_end(s, i, s->sections);
    }
}

/* Where sections rise, the raw bytes as they stand load from BASE on, without a gap.
 * `behind` bytes follow them in the file. */
static void make_file(const struct setting *s, size_t behind)
{
    size_t headers = FILE_HEADER + SECTION_HEADER * (size_t)s->sections;
    /* an image has 12 bytes for each block, and padding, which the file must leave room for */
    size_t of_block = s->order == ODD ? BLOCK_HEADER + 3 : BLOCK_HEADER;
    size_t most_raw = MOST - 8 - of_block * s->blocks, left = s->length - headers - behind;
    given.raw = left < most_raw ? left : most_raw;
    given.file_length = headers + given.raw + behind;
    given.file = room(given.file_length);
    given.raw_at = given.file + headers;
    uint8_t *at = given.file;
    memset(at, 0, headers);
    put(at, 0xc2, 2);
    put(at + 2, s->sections, 2);
    put(at + 18, 2, 2);
    put(at + 20, 0x99, 2);
    for (unsigned i = 0; i < s->sections; i++) {
        size_t from = stretch_end(s, i, s->sections), to = stretch_end(s, i + 1, s->sections);
        uint8_t *header = at + FILE_HEADER + SECTION_HEADER * (size_t)i;
        int shared = s->order == SHARED;
        put(header + 8, shared ? 0 : BASE + RUN_APART + from, 4);
        put(header + 12, load_of(s, i), 4);
        put(header + 16, shared ? given.raw : to - from, 4);
        put(header + 20, shared ? headers : headers + from, 4);
        put(header + 40, s->order == PLAIN ? 0 : 0x20, 4);
    }
    for (size_t i = headers; i + 8 <= headers + given.raw; i += 8) {
        uint64_t eight = next();
        memcpy(given.file + i, &eight, 8);
    }
}

void prepare(const struct setting *s, const struct named *named)
{
    given.sections = s->sections;
    given.blocks = s->blocks;
    make_file(s, named != NULL ? table_length(named) : 0);
    if (named != NULL)
        give_names(named);
    if (s->blocks != 0)
        make_image(s);
    given.lent_length = MOST;
    given.lent = room(given.lent_length);
}
