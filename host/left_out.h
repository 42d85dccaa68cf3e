/* How it is told what patterns leave out of a COFF file. Where no pattern was given,
 * nothing is told. */
#ifndef LEFT_OUT_H
#define LEFT_OUT_H

#include "answers.h"

/* A line for each section that is left out, or one that there is none. */
void add_left_out_lines(struct text *text, const struct program *program);

/* All of them in one line, what is most wanted first: "2 sections, 10 bytes, by '.c*':
 * '.const', '.coeffs'", or "nothing". */
void add_left_out_in_short(struct text *text, const struct program *program);

/* Of an address, the first section that would be loaded there and is left out, with the
 * pattern, behind other words; nothing if there is none. */
void add_left_out_at(struct text *text, const struct program *program, uint32_t address);

/* JSON, behind other members: the patterns, each with how many sections it takes; and the
 * sections that are left out. */
void add_patterns_member(struct text *text, const struct skipped *skipped);
void add_left_out_members(struct text *text, const struct program *program);

/* The patterns that take no section of the file, in one sentence without a full stop;
 * nothing if there are none. */
void add_idle(struct text *text, const struct skipped *skipped);

/* The same as a line on standard error: such a pattern may be a slip. */
void tell_idle(const struct skipped *skipped, const char *path);

#endif
