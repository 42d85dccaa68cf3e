/* Cases in which an image is written or read in a byte order. */
#ifndef BENCH_ORDERS_H
#define BENCH_ORDERS_H

#include "names.h"

/* Each job is a case in each of its orders, and is called by its name, ", order " and the order. */
struct turned {
    struct named named;    /* sections have names only where there are patterns */
    const char *orders;    /* a digit for each */
};

void tell_turned(enum asked asked);

/* The job that is so called, and the order into given.byte_order; NULL if there is none. */
const struct turned *find_turned(const char *name);

#endif
