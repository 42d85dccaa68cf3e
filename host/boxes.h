/* What the picture shows as one box: a block, or neighbours drawn together. */
#ifndef BOXES_H
#define BOXES_H

#include "answers.h"
#include "axis.h"

/* No picture has more boxes, so that no page becomes too large to be looked at. */
#define MOST_BOXES 64

struct box {
    const struct block *blocks; /* in the order of their load addresses */
    size_t count;
    size_t moves; /* how many of them run elsewhere than they are loaded */
    uint64_t bytes;
    int64_t distance; /* from where they are loaded to where they run */
    int mixed;        /* it is not the same for all: where they run is not drawn */
};

struct boxes {
    struct box *at;
    size_t count;
    uint64_t reach;            /* over how many addresses a box of several blocks reaches at most; 0 if there is none */
    const struct box *entered; /* the box of the block in which the entry point lies, or NULL */
};

/* The boxes of a program whose blocks are sorted by load address. If the blocks are
 * more than MOST_BOXES, neighbours share a box that reaches over a power of two of
 * addresses at most: the least that leaves no more than MOST_BOXES. */
struct boxes boxes_of(const struct program *program);

struct range loaded_range(const struct box *box);

/* Of a box that is not mixed. */
struct range run_range(const struct box *box);

/* The name of its section, or those of the first and the last of several; where both
 * have no room, in sizes of a label's letters, the first and "...". "" if it has none.
 * The text stands until the next call. */
const char *name_of(const struct program *program, const struct box *box, double room);

/* Whether the box runs at other addresses than it is loaded to, all at one distance. */
int is_moved(const struct box *box);

#endif
