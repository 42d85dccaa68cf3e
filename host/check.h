/* Telling how a COFF file and an image differ. */
#ifndef CHECK_H
#define CHECK_H

#include "difference.h"
#include "text.h"

/* As JSON: which section or block, and the section's name. */
void add_part(struct text *text, const struct program *program, const struct block *block);

/* Tells every difference, the entry points first and then by ascending address: a line
 * for each, or members of an object as JSON. A long text is written out in parts; its
 * end is left to the caller. */
void write_all_differences(struct text *text, struct program *file, struct program *image, int json);

#endif
