/* How a refusal is told. */
#ifndef REFUSAL_H
#define REFUSAL_H

#include "kind.h"
#include "words.h"

/* A file that was given to a command, and the patterns and the byte order that were given with it. */
struct input {
    const char *path;
    enum purpose purpose;
    struct bytes content;
    struct patterns patterns;
    uint32_t order;
};

/* Reads the first or the second file, which is given for a purpose. */
struct input take(const struct words *words, int which, enum purpose purpose);

/* One line on standard error and status 4: the code, its index, what it means and of
 * what, and a hint where the input is of another kind than the command takes, or an
 * image of another order. With `json` the same goes to standard output as JSON. */
_Noreturn void refuse(struct outcome outcome, struct input input, int json);

/* The same where the answer is a refusal. */
void unless_refused(struct outcome outcome, struct input input, int json);

/* What the patterns take of a COFF file that the library has taken with them. One that
 * takes nothing is told. */
struct skipped skip_in(struct input input);

/* What is left of a COFF file, unless it is refused. */
struct program take_program(struct input input, int json);

#endif
