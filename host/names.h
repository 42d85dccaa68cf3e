/* File names, as they are given and as they are shown. */
#ifndef NAMES_H
#define NAMES_H

#include <stddef.h>

/* "-" stands for standard input or standard output. */
int is_standard(const char *path);

/* The name in a message of one line: what is obeyed and not shown becomes '?'. The
 * text stands until the call after the next. */
const char *in_one_line(const char *path);

/* The last part of the path, or "standard input". */
const char *last_part(const char *path);

/* How many bytes the character takes, of a text that ends in 0; or 0 if UTF-8 or XML
 * has none that begins so. */
size_t character(const unsigned char *c);

/* Whether what begins so, in a text that ends in 0, is a character that a terminal or a
 * browser obeys and does not show: a control character, or one that breaks a line or
 * turns its direction. */
int is_obeyed(const unsigned char *c);

#endif
