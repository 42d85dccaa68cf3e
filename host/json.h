/* Strings as JSON has them. */
#ifndef JSON_H
#define JSON_H

#include "text.h"

/* The string in quotes, or null for NULL. What is no character in UTF-8 becomes
 * U+FFFD, the character that stands for such. */
void add_string(struct text *text, const char *string);

#endif
