/* An image as a C header. */
#ifndef ARRAY_H
#define ARRAY_H

#include "answers.h"

/* Letters, digits and underscores, and no word of C's or C++'s own. */
int is_c_name(const char *name);

/* Whether the name, which is one in C, or the macros made of it are for the compiler
 * alone: C and C++ reserve them by their underscores. */
int is_reserved(const char *name);

/* Whether it begins as all names of scanboot.h do, which is to be included beside it. */
int is_librarys(const char *name);

/* The header's text: the image, which the library has made of a COFF file in a byte order, as an array `name`. */
struct bytes c_array(const char *name, const struct program *file, struct bytes image, uint32_t order);

#endif
