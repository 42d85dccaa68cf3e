/* Where a COFF file and an image differ. Whether they do is the library's answer; this
 * finds the places. */
#ifndef DIFFERENCE_H
#define DIFFERENCE_H

#include "answers.h"

enum { OTHER_BYTES = 1, OTHER_RUN = 2 };

/* Addresses that lie side by side, in one section or none and in one block or none, and
 * differ in the same way. */
struct difference {
    uint32_t first;
    uint64_t size;
    const struct block *section; /* NULL: the file places nothing there */
    const struct block *block;   /* NULL: the image places nothing there */
    int how;                     /* where both place something: OTHER_BYTES, OTHER_RUN or both */
};

/* Both programs, sorted by load address, and how far they have been walked. */
struct walk {
    const struct program *file;
    const struct program *image;
    size_t in_file;
    size_t in_image;
    uint64_t address;
};

struct walk begin_walk(struct program *file, struct program *image);

/* The next difference by ascending address; 0 where there is none. Going through all of
 * them looks at each byte once. */
int next_difference(struct walk *walk, struct difference *found);

/* What a block places at an address inside. */
uint8_t byte_in(const struct block *block, uint32_t address);
uint32_t run_in(const struct block *block, uint32_t address);

#endif
