#include "json.h"
#include "names.h"

void add_string(struct text *text, const char *string)
{
    const unsigned char *c = (const unsigned char *)string;
    if (string == NULL) {
        add(text, "null");
        return;
    }
    add(text, "\"");
    while (*c != '\0') {
        size_t length = character(c);
        if (*c < 0x20 || *c == 0x7f)
            add(text, "\\u%04x", *c);
        else if (*c == '"' || *c == '\\')
            add(text, "\\%c", *c);
        else if (length == 0)
            add(text, "\\ufffd");
        else
            add(text, "%.*s", (int)length, (const char *)c);
        c += length > 0 ? length : 1;
    }
    add(text, "\"");
}
