/* examples/hpi.c before the model of a port: on the files that are named, and on blocks
 * of every alignment and of small sizes, alone and two in one word. The memory that it
 * leaves is that of scanboot_load_image, and no word is touched without need.
 * Prints what failed, then how many passed and failed. */
#include "../examples/hpi.h"
#include "images.h"
#include "port.h"

#include <stdio.h>

static struct image image;
static const uint8_t bytes[] = { 0x11, 0x22, 0x33, 0x44, 0x55, 0x66, 0x77, 0x88, 0x99 };
enum { SIZES = sizeof bytes };

/* How many words a block has bytes in, and how many of them are its own alone. */
static unsigned words_of(struct block block)
{
    uint64_t end = (uint64_t)block.load + block.size;
    return (unsigned)((end + 3) / 4 - block.load / 4);
}

static unsigned whole_words_of(struct block block)
{
    uint64_t from = ((uint64_t)block.load + 3) / 4, to = ((uint64_t)block.load + block.size) / 4;
    return to > from ? (unsigned)(to - from) : 0;
}

/* The memory in windows of `span` bytes, each of them in which a block begins. */
static int is_as_loaded(uint32_t span)
{
    static uint8_t window[0x10000];
    const uint32_t count = block_count(&image);
    int same = 1;
    for (uint32_t i = 0; i < count; i++) {
        uint32_t base = block_of(&image, i).load / span * span;
        if (i > 0 && block_of(&image, i - 1).load / span * span == base)
            continue;
        same = same && scanboot_code(load_inside(&image, base, window, span)) == SCANBOOT_OK;
        for (uint32_t k = 0; k < span; k++)
            same = same && port_byte(base + k) == window[k];
    }
    return same;
}

static int told(const char *of, const char *what, int holds)
{
    if (!holds)
        printf("%s: %s\n", of, what);
    return holds;
}

static int loads_to(const char *of, uint32_t span, int counts_up)
{
    unsigned words = 0, whole = 0;
    scanboot_reading reading = scanboot_read_image(image.bytes, image.length);
    port_begin(counts_up);
    for (uint32_t i = 0; i < scanboot_blocks(reading); i++) {
        struct block block = block_of(&image, i);
        port_allow(block.load, block.size);
        words += words_of(block);
        whole += whole_words_of(block);
    }
    return told(of, "not taken", scanboot_code(reading) == SCANBOOT_OK) &
           told(of, "another answer", hpi_load(image.bytes, image.length).packed == reading.packed) &
           told(of, "a word is touched that should not be", port_use.faults == 0) &
           told(of, "not each word of each block is written once", port_use.writes == words) &
           told(of, "not each word that is shared is read once", port_use.reads == words - whole) &
           told(of, "the memory is not as scanboot_load_image leaves it", is_as_loaded(span));
}

/* Through a port that does not count up by itself, and through one that does. */
static int loads(const char *of, uint32_t span)
{
    return loads_to(of, span, 0) & loads_to(of, span, 1);
}

/* Of an image that cannot be read nothing is loaded: one cut anywhere, or here and there
 * if it is long. */
static void refuse_cut(const char *of)
{
    unsigned touched = 0, taken = 0;
    for (size_t length = 0; length < image.length; length += image.length < 1000 ? 1 : 61) {
        port_begin(0);
        scanboot_reading reading = hpi_load(image.bytes, length);
        taken += scanboot_code(reading) == SCANBOOT_OK;
        touched += port_use.addresses + port_use.reads + port_use.writes;
    }
    says("cut it is refused, and the port not touched", of, taken == 0 && touched == 0);
}

/* A block of every alignment and size 1 to 9: at the lowest addresses, in the middle, and
 * one that ends at the last address. */
static void load_one(uint32_t alignment, uint32_t size)
{
    const uint32_t from[] = { alignment, 0x80000010u + alignment, 0u - size };
    for (size_t i = 0; i < sizeof from / sizeof from[0]; i++) {
        begin_image(&image, 0);
        add_block(&image, from[i], bytes, size);
        end_image(&image);
        says("it is loaded", "one block", loads("one block", 64));
    }
}

/* Two blocks, the second up to two bytes behind the first, in either order. */
static void load_two(uint32_t alignment, uint32_t size, uint32_t second_size)
{
    const uint32_t first = 0x80000010u + alignment;
    int loaded = 1;
    for (uint32_t gap = 0; gap < 3; gap++) {
        uint32_t second = first + size + gap;
        begin_image(&image, 0);
        add_block(&image, first, bytes, size);
        add_block(&image, second, bytes, second_size);
        end_image(&image);
        loaded &= loads("two blocks", 64);
        begin_image(&image, 0);
        add_block(&image, second, bytes, second_size);
        add_block(&image, first, bytes, size);
        end_image(&image);
        loaded &= loads("two blocks, the later first", 64);
    }
    says("they are loaded", "two blocks", loaded);
}

int main(int count, char **given)
{
    for (int i = 1; i < count; i++)
        if (convert(given[i], &image) == SCANBOOT_OK) {
            says("it is loaded", given[i], loads(given[i], 0x10000));
            refuse_cut(given[i]);
        }
    for (uint32_t alignment = 0; alignment < 4; alignment++)
        for (uint32_t size = 1; size <= SIZES; size++) {
            load_one(alignment, size);
            for (uint32_t second_size = 1; second_size <= SIZES; second_size++)
                load_two(alignment, size, second_size);
        }
    begin_image(&image, 0);
    end_image(&image);
    says("it is taken", "no block", loads("no block", 64));
    printf("%u passed, %u failed\n", passed, failed);
    return failed != 0;
}
