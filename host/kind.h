/* What kind of file something is, as far as its bytes tell; and the hint that ends the
 * line of a refusal where a command was given another kind than it takes. */
#ifndef KIND_H
#define KIND_H

#include "answers.h"

enum kind {
    IS_EMPTY,
    IS_COFF,         /* of version 2, refused or not */
    IS_COFF_1,
    IS_COFF_0,
    IS_TURNED_COFF,  /* its headers are of the other byte order */
    IS_IMAGE,        /* the library takes it */
    IS_TURNED_IMAGE, /* the library takes it in another order than 0 alone */
    IS_BROKEN_IMAGE, /* the library refuses it in any, and it begins as one */
    IS_ELF,
    IS_HEX,
    IS_S_RECORDS,
    IS_TEXT,
    IS_OTHER
};

enum kind kind_of(struct bytes content);

/* Whether it is an image, in whatever order, or begins as one. */
int is_like_image(enum kind kind);

/* "a COFF file of version 2", "an ELF file" and so on. */
const char *kind_name(enum kind kind);

/* Whose processor a COFF file is for, or NULL: for a message only, and only those that
 * are well known. */
const char *target_name(uint32_t target);

/* What a file is given for. */
enum purpose {
    TO_CONVERT,
    TO_LIST,
    TO_COUNT,      /* by stats */
    TO_SHOW,       /* by blocks */
    TO_LOAD,       /* as an image */
    TO_LOAD_COFF,
    TO_CHECK,      /* the first of two */
    TO_CHECK_WITH, /* the second */
    SWAPPED,       /* the first, where the two seem to be in the wrong order */
    TO_DRAW
};

/* Words for the end of the line of a refusal, or NULL. They stand until the next call. */
const char *hint_for(struct outcome outcome, struct bytes content, enum purpose purpose);

#endif
