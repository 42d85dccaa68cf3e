/* Cases without patterns and without a byte order. */
#ifndef BENCH_CASES_H
#define BENCH_CASES_H

#include "given.h"

void tell_settings(void);

/* By its name, or any other by its numbers: `CALL:LENGTH:SECTIONS:BLOCKS:ORDER`, and behind them the byte order if there is
 * one, as bench/growth.py asks for them. */
const struct setting *find_setting(const char *name);

#endif
