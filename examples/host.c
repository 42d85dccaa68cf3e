/* What a host program needs to bring up the processor: the linker's file becomes a
 * boot image, each block of it goes into the memory that holds it, the processor
 * starts.
 *
 *     cc host.c $(pkg-config --cflags --libs scanboot) -o host
 *     ./host program.out
 *     ./host program.out .stack '.test*'
 *
 * The second way leaves out the sections whose names these patterns take.
 *
 * Here the host sees the processor's memories as its own, and copies into them by memcpy,
 * which is for plain memory: one that wants its words whole, or in order, is written word
 * by word. hpi.c is for a host that reaches the memories through a port. */
#include <scanboot.h>
#include <stdio.h>
#include <stdlib.h>
#include <string.h>

/* These stand in for the board: the processor's memories as the host sees them, each
 * with its address for the processor, and the line that ends the reset. */
static uint8_t internal[0x10000], external[0x40000], shared[0x10000], highest[0x10000];

static const struct memory {
    uint32_t base;
    uint32_t size;
    uint8_t *bytes;
} memories[] = {
    { 0x00000000u, sizeof internal, internal },
    { 0x00400000u, sizeof external, external },
    { 0x80000000u, sizeof shared, shared },
    { 0xffff0000u, sizeof highest, highest },
};

/* At which address a processor begins after its reset is the maker's choice; many do
 * not look at the entry point. */
static void start(uint32_t entry)
{
    printf("started at %08X\n", (unsigned)entry);
}

static int refused(unsigned code, uint64_t index)
{
    fprintf(stderr, "refused %u %lu: %s\n", code, (unsigned long)index, scanboot_text(code));
    return 1;
}

/* Where the host sees the processor's address `load`, or NULL where no memory holds
 * all of the `size` bytes from there on. */
static uint8_t *seen_at(uint32_t load, uint32_t size)
{
    for (size_t i = 0; i < sizeof memories / sizeof memories[0]; i++) {
        const struct memory *memory = &memories[i];
        if (load >= memory->base && (uint64_t)load + size <= (uint64_t)memory->base + memory->size)
            return memory->bytes + (load - memory->base);
    }
    return NULL;
}

/* Walks the blocks of an image that can be read. Asked to WRITE, copies each to where
 * it belongs, its own bytes and not its padding. */
enum pass { ASK, WRITE };

static int place(const uint8_t *image, size_t length, uint32_t blocks, enum pass pass)
{
    uint64_t at = SCANBOOT_FIRST_PLACE;
    for (uint32_t number = 0; number < blocks; number++) {
        scanboot_found block = scanboot_block_at(image, length, at);
        uint32_t load = scanboot_load_address(scanboot_block_addresses_at(image, length, at));
        uint8_t *to = seen_at(load, scanboot_size(block));
        if (to == NULL)
            return refused(SCANBOOT_OUTSIDE, number);
        if (pass == WRITE)
            memcpy(to, image + scanboot_offset(block), scanboot_size(block));
        at = scanboot_next_place(block);
    }
    return 0;
}

/* A host that has an image begins here. Whatever is refused, is so before the first
 * byte is written. */
static int boot_image(const uint8_t *image, size_t length)
{
    scanboot_reading whole = scanboot_read_image(image, length);
    if (scanboot_code(whole) != SCANBOOT_OK)
        return refused(scanboot_code(whole), scanboot_index(whole));
    if (place(image, length, scanboot_blocks(whole), ASK) != 0)
        return 1;
    place(image, length, scanboot_blocks(whole), WRITE);
    start(scanboot_entry(whole));
    return 0;
}

/* Without patterns, a row of length 0, measuring and converting are scanboot_measure and
 * scanboot_convert. The order is 0, whatever the host's own: here the library's calls read
 * the image, and the bytes are copied as they will stand. */
static int boot_file(const uint8_t *file, size_t length, const uint8_t *row, size_t row_length)
{
    scanboot_conversion made = scanboot_measure_with(file, length, row, row_length);
    if (scanboot_code(made) != SCANBOOT_OK)
        return refused(scanboot_code(made), scanboot_index(made));
    size_t room = scanboot_image_length(made);
    uint8_t *image = malloc(room);
    if (image == NULL) {
        perror("the image");
        return 3;
    }
    made = scanboot_convert_with(file, length, image, room, row, row_length, 0);
    int status = scanboot_code(made) == SCANBOOT_OK ? boot_image(image, room)
                                                    : refused(scanboot_code(made), scanboot_index(made));
    free(image);
    return status;
}

/* The words as one row of patterns, each with a zero byte behind it. */
static uint8_t *row_of(char **words, size_t *length)
{
    uint8_t *row = NULL;
    for (*length = 0; *words != NULL; words++) {
        size_t more = strlen(*words) + 1;
        row = realloc(row, *length + more);
        if (row == NULL) {
            perror("the patterns");
            exit(3);
        }
        memcpy(row + *length, *words, more);
        *length += more;
    }
    return row;
}

int main(int count, char **given)
{
    /* a byte more than a file may have, so that rule 1 is the library's to ask */
    static uint8_t file[SCANBOOT_MOST_BYTES + 1];
    if (count < 2) {
        fprintf(stderr, "usage: host FILE [PATTERN]..\n");
        return 2;
    }
    FILE *from = fopen(given[1], "rb");
    size_t length = from != NULL ? fread(file, 1, sizeof file, from) : 0;
    if (from == NULL || ferror(from)) {
        perror(given[1]);
        return 3;
    }
    size_t row_length;
    uint8_t *row = row_of(given + 2, &row_length);
    int status = boot_file(file, length, row, row_length);
    free(row);
    return status;
}
