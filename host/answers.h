/* The library's answers about whole files, in C's terms. */
#ifndef ANSWERS_H
#define ANSWERS_H

#include "skip.h"

/* A kept section of a COFF file or a block of an image. */
struct block {
    uint32_t number; /* of the section among all, kept or not; of the block */
    uint32_t load;
    uint32_t run;
    uint32_t size;
    const uint8_t *raw; /* its bytes as the processor finds them */
};

struct program {
    const char *path;
    const char *part; /* what its blocks are called: "section" or "block" */
    uint32_t entry;
    uint32_t sections; /* of a COFF file, kept or not */
    char **names;      /* of these, as they are shown; NULL for one that cannot be read */
    struct bytes file; /* this file, */
    struct skipped skipped; /* and what patterns take of it */
    uint32_t order;    /* of an image */
    uint64_t image;    /* length of the image, or that it would have */
    size_t count;
    struct block *blocks;
    void *copy; /* of the file or image, in which the blocks' bytes stand where patterns were given, or an order that
                   reverses them */
};

/* Reads a COFF file or an image; one byte over the limit is enough for the
 * library to refuse it. */
struct bytes read_bytes(const char *path);

/* A code and its index, of whichever call. */
struct outcome {
    unsigned code;
    unsigned long long index;
};

#define outcome_of(answer) outcome_in((answer).packed)
struct outcome outcome_in(uint64_t packed);

/* What the library says of a COFF file by the rules 1 to 13, 16 and 17, and of an image in a byte order. */
struct outcome ask_coff(struct bytes file, struct patterns patterns);
struct outcome ask_image(struct bytes image, uint32_t order);

/* The program in a file that the library has taken, with the patterns that take these
 * sections, which are lent. */
struct program coff_program(const char *path, struct bytes file, struct skipped skipped);
struct program image_program(const char *path, struct bytes image, uint32_t order);
void forget_program(struct program *program);

/* The block that begins at a place of an image, whatever stands elsewhere in it; the
 * place becomes that of the next. 0 at the end flag, and where no whole block stands.
 * Its number is the caller's, and its bytes are those of the image, in whatever order. */
int next_block(struct bytes image, uint32_t order, uint64_t *place, struct block *block);

/* The blocks in the order of their load addresses. */
void sort_by_load(struct program *program);

/* What a processor finds that starts at the entry point of a program as it was loaded. */
enum start {
    IN_NO_BLOCK,
    ONLY_RUNS,   /* a block runs there and is loaded elsewhere: nothing stands there until it is moved */
    ONLY_LOADED, /* a block is loaded there, and what stands there runs elsewhere */
    LOADED_AND_RUNS
};

/* Which of these, and the block; NULL if there is none. Of several blocks it is one that
 * is loaded there rather than one that is not, and then the one of the lowest number. */
struct entered {
    enum start start;
    const struct block *block;
};
struct entered entered_in(const struct program *program);

/* What is to be said of it, in one sentence without a full stop; of an entry point where
 * a block is loaded and runs, nothing. */
void add_entered(struct text *text, const struct program *program);

#endif
