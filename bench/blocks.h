/* The image of a case: its blocks, in the order that is asked for. */
#ifndef BENCH_BLOCKS_H
#define BENCH_BLOCKS_H

#include "given.h"

/* Of the file that is given. */
void make_image(const struct setting *s);

#endif
