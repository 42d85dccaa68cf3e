#include "text.h"
#include "names.h"

#include <stdarg.h>
#include <stdio.h>
#include <stdlib.h>

char *more_room(struct text *text, size_t length)
{
    if (text->room - text->length < length) {
        text->room = 2 * (text->room + length);
        text->at = realloc(text->at, text->room);
        if (text->at == NULL)
            no_memory();
    }
    return text->at + text->length;
}

void add(struct text *text, const char *format, ...)
{
    va_list values;
    va_start(values, format);
    int length = vsnprintf(NULL, 0, format, values);
    va_end(values);
    char *end = more_room(text, (size_t)length + 1);
    va_start(values, format);
    vsnprintf(end, (size_t)length + 1, format, values);
    va_end(values);
    text->length += (size_t)length;
}

void add_shown(struct text *text, const char *name)
{
    const unsigned char *c = (const unsigned char *)name;
    while (*c != '\0') {
        size_t length = character(c);
        if (length == 0 || is_obeyed(c))
            add(text, "?");
        else
            add(text, "%.*s", (int)length, (const char *)c);
        c += length > 0 ? length : 1;
    }
}

void add_quoted(struct text *text, const char *name)
{
    const unsigned char *c = (const unsigned char *)name;
    add(text, "'");
    while (*c != '\0') {
        size_t length = character(c), left = length > 0 ? length : 1;
        int shown = length > 0 && !is_obeyed(c) && *c != '\'' && *c != '\\';
        for (; left > 0; left--)
            add(text, shown ? "%c" : "\\x%02X", *c++);
    }
    add(text, "'");
}

struct bytes as_bytes(struct text text)
{
    struct bytes bytes = { (uint8_t *)text.at, text.length };
    return bytes;
}
