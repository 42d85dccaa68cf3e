/* A text that grows. */
#ifndef TEXT_H
#define TEXT_H

#include "files.h"

struct text {
    char *at;
    size_t length;
    size_t room;
};

/* Adds to the end, as printf would. */
__attribute__((format(printf, 2, 3))) void add(struct text *text, const char *format, ...);

/* Adds a name for people to read: what a terminal obeys and does not show, and what is no
 * character in UTF-8, becomes '?'. */
void add_shown(struct text *text, const char *name);

/* Adds a name or a pattern in quotes, so that two that differ look different and none looks
 * like the words around it: bytes of the above, a quote and a backslash become \xNN. */
void add_quoted(struct text *text, const char *name);

/* Room for `length` characters more; the caller writes them and adds to the length. */
char *more_room(struct text *text, size_t length);

struct bytes as_bytes(struct text text);

#endif
