/* What a case of the bench works on: a file, an image of the same bytes, and a buffer to lend. */
#ifndef BENCH_GIVEN_H
#define BENCH_GIVEN_H

#include "scanboot.h"

#include <stddef.h>
#include <stdint.h>

#define MOST ((size_t)SCANBOOT_MOST_BYTES)
#define BASE 0x80000000u
#define RUN_APART 0x10000000u    /* how far above its load address each section or block runs */
#define FILE_HEADER 22
#define SECTION_HEADER 48
#define BLOCK_HEADER 12

/* The first eight are of an image's blocks. Of rows: so many rows take turns, with one block at a time or with a run of
 * them; each row ascends, far from the others, as what goes to one of several memories does, or was one of several images
 * that were joined. LAST_MEETS: shuffled, but the last is loaded where the first is, so that the image is refused.
 * The others are of a file's sections. SHARED: each has all raw bytes, so that the image would be longer than the file by
 * far. PLAIN: none has a type flag. FALLING: each is loaded below all before it. MEETING: the same, but the last is loaded
 * where the first is, so that the file is refused. NAMELESS: no name can be read, for which calls with patterns refuse it.
 * ODD is of both: they rise, and where one ends and the next begins is no multiple of four. */
enum order { ASCENDING, DESCENDING, SHUFFLED, TWO_ROWS, FOUR_ROWS, EIGHT_ROWS, FOUR_ROWS_IN_RUNS, LAST_MEETS,
             SHARED, PLAIN, FALLING, MEETING, NAMELESS, ODD };
/* WALK and NUMBERS go through all blocks: from place to place, and by number. MATCH
 * goes through all names, TAKES asks of the one that all sections share. The calls with
 * options take the patterns and the byte order that are given. */
enum call { CONVERT, LIST, READ, BLOCK, LOAD_IMAGE, LOAD_COFF, CHECK, MEASURE, PLACE, WALK, NUMBERS, ADDRESSES,
            MEASURE_WITH, CONVERT_WITH, LOAD_COFF_WITH, CHECK_WITH, TAKES, MATCH,
            READ_WITH, BLOCK_WITH, LOAD_IMAGE_WITH, PLACE_WITH, WALK_WITH, NUMBERS_WITH, ADDRESSES_WITH, NOTHING };

/* A file of `sections` sections that is `length` bytes long, and, where `blocks`
 * is not 0, an image of the same bytes in that many blocks. */
struct setting {
    const char *name;
    enum call call;
    size_t length;
    unsigned sections, blocks;
    enum order order;
};

struct named;

extern struct given {
    uint8_t *file, *image, *lent;
    size_t file_length, image_length, lent_length;
    size_t raw;    /* bytes of all sections */
    const uint8_t *raw_at;
    unsigned sections, blocks;
    uint64_t last;    /* the place of the last block */
    const uint8_t *row;    /* the patterns, each with its zero byte */
    size_t row_length;
    unsigned taken;    /* sections that they take */
    const uint8_t *name;    /* that all sections share, if they do */
    size_t name_length;
    uint32_t byte_order;    /* of the image that is there, and of the one that is asked for */
    unsigned code;    /* of the refusal that is due, 0 if none is; and its index */
    uint64_t index;
} given;

void stop(const char *why);
uint8_t *room(size_t length);
uint8_t *put(uint8_t *at, uint64_t number, int width);

/* Numbers that look random, the same at each start. */
uint64_t next(void);

/* The i-th of `count` stretches of the raw bytes ends here; each section has one, and each block. */
size_t stretch_end(const struct setting *s, size_t i, size_t count);

/* `named` is NULL where the sections have no names. */
void prepare(const struct setting *s, const struct named *named);

#endif
