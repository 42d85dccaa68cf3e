#include "images.h"

#include <stdio.h>
#include <stdlib.h>
#include <string.h>

unsigned passed, failed;

void says(const char *what, const char *of, int holds)
{
    if (holds)
        passed++;
    else {
        failed++;
        printf("failed: %s: %s\n", of, what);
    }
}

static void add_number(struct image *image, uint32_t number)
{
    for (int i = 0; i < 4; i++)
        image->bytes[image->length++] = (uint8_t)(number >> 8 * i);
}

void begin_image(struct image *image, uint32_t entry)
{
    image->length = 0;
    add_number(image, entry);
}

void add_block(struct image *image, uint32_t load, const uint8_t *bytes, uint32_t size)
{
    if (size > sizeof image->bytes - image->length - 20)
        abort();
    add_number(image, size);
    add_number(image, load);
    add_number(image, load);
    memcpy(image->bytes + image->length, bytes, size);
    for (image->length += size; image->length % 4 != 0;)
        image->bytes[image->length++] = 0;
}

void end_image(struct image *image)
{
    add_number(image, 0);
}

unsigned convert(const char *path, struct image *image)
{
    static uint8_t file[0x20000];
    FILE *from = fopen(path, "rb");
    if (from == NULL) {
        perror(path);
        exit(3);
    }
    size_t length = fread(file, 1, sizeof file, from);
    fclose(from);
    scanboot_conversion made = scanboot_convert(file, length, image->bytes, sizeof image->bytes);
    image->length = scanboot_image_length(made);
    return scanboot_code(made);
}

uint32_t block_count(const struct image *image)
{
    return scanboot_blocks(scanboot_read_image(image->bytes, image->length));
}

struct block block_of(const struct image *image, uint32_t number)
{
    scanboot_found found = scanboot_block(image->bytes, image->length, number);
    scanboot_addresses addresses = scanboot_block_addresses(image->bytes, image->length, number);
    struct block block = { scanboot_load_address(addresses), scanboot_size(found),
                           image->bytes + scanboot_offset(found) };
    return block;
}

uint8_t pattern(uint32_t address)
{
    return (uint8_t)(0xa5 ^ address * 29 ^ address >> 8 ^ address >> 24);
}

scanboot_loading load_inside(const struct image *image, uint32_t base, uint8_t *window, uint32_t size)
{
    static struct image inside;
    const uint32_t count = block_count(image);
    begin_image(&inside, 0);
    for (uint32_t i = 0; i < count; i++) {
        struct block block = block_of(image, i);
        if (block.load >= base && block.load - base < size)
            add_block(&inside, block.load, block.bytes, block.size);
    }
    end_image(&inside);
    for (uint32_t i = 0; i < size; i++)
        window[i] = pattern(base + i);
    return scanboot_load_image(inside.bytes, inside.length, base, window, size);
}
