/* What can be said of a file without trusting it. */
#ifndef INSPECT_H
#define INSPECT_H

#include "kind.h"
#include "reason.h"

enum { MOST_REMARKS = 5 };

struct inspected {
    const char *path;
    struct bytes content; /* of a file over the limit no more than shows that it is */
    uint64_t length;      /* of all of it; 0 of one over the limit whose length nobody knows */
    enum kind kind;
    struct patterns patterns; /* that are given */
    struct skipped skipped;   /* what they take; nothing if they are refused */
    struct outcome as_coff;   /* by the rules 1 to 14, 16 and 17 */
    struct outcome as_image;  /* in order 0 */
    unsigned orders;          /* in which the library takes it as one: a bit for each */
    uint32_t order;           /* in which its blocks are shown: the first of these, or 0 */
    struct reason no_coff; /* why it is refused as one */
    struct reason no_image;
    struct program program; /* the kept sections or the blocks, as far as they can be read */
    struct entered entered; /* the one of them in which the entry point lies */
    struct text remarks[MOST_REMARKS];
    size_t count;
};

/* Looks at a file of any bytes; the same with patterns. */
struct inspected look_at(const char *path, struct bytes content);
struct inspected look_at_with(const char *path, struct bytes content, struct patterns patterns);
void forget(struct inspected *inspected);

/* Whether its headers can be shown: it is a COFF file of version 2, and long enough. */
int has_headers(const struct inspected *inspected);

/* Whether its blocks can be: it is an image, in whatever order, or begins as one. */
int has_blocks(const struct inspected *inspected);

/* Of a COFF file of any version its target; -1 of others, and where it is cut off. */
long target_of(const struct inspected *inspected);

/* What stands in the first bytes of an ELF file; bits 0 and order NULL where they say
 * nothing that is known. */
struct elf {
    unsigned bits;
    const char *order;
    uint32_t machine;
};
struct elf elf_of(struct bytes content);

/* What it is, in words: its kind, and what is known of a file of that kind. */
void add_description(struct text *text, const struct inspected *inspected);

/* The word for a bit of a section's flags, or NULL: then it is shown as a number.
 * Bits 8 to 11 are the alignment. */
const char *flag_word(unsigned bit);

/* All of it for people to read, and as JSON. */
void add_plain(struct text *text, const struct inspected *inspected);
void add_json(struct text *text, const struct inspected *inspected);

#endif
