/* Images for the tests of the examples, and the memory that each should leave. */
#ifndef IMAGES_H
#define IMAGES_H

#include "scanboot.h"

struct image {
    size_t length;
    uint8_t bytes[0x20000];
};

/* An image is begun, gets its blocks, and is ended. */
void begin_image(struct image *image, uint32_t entry);
void add_block(struct image *image, uint32_t load, const uint8_t *bytes, uint32_t size);
void end_image(struct image *image);

/* The image of a COFF file, or the code of what is refused. */
unsigned convert(const char *path, struct image *image);

/* Block `number` of an image that can be read, asked for by its number: the examples
 * walk. */
struct block {
    uint32_t load;
    uint32_t size;
    const uint8_t *bytes;
};
struct block block_of(const struct image *image, uint32_t number);
uint32_t block_count(const struct image *image);

/* What every memory holds at first. */
uint8_t pattern(uint32_t address);

/* Fills the window with the pattern, and lets scanboot_load_image load those blocks of
 * the image that begin inside it. */
scanboot_loading load_inside(const struct image *image, uint32_t base, uint8_t *window, uint32_t size);

/* Counts what was found true and what not; says what was not. */
extern unsigned passed, failed;
void says(const char *what, const char *of, int holds);

#endif
