#include "names.h"

#include <string.h>

int is_standard(const char *path)
{
    return strcmp(path, "-") == 0;
}

const char *in_one_line(const char *path)
{
    static char shown[2][1024];
    static int turn;
    char *line = shown[turn ^= 1];
    size_t length = 0;
    if (is_standard(path))
        return "standard input";
    while (*path != '\0' && length + 4 < sizeof shown[0]) {
        const unsigned char *c = (const unsigned char *)path;
        line[length++] = is_obeyed(c) ? '?' : *path;
        path += is_obeyed(c) && character(c) > 0 ? character(c) : 1;
    }
    strcpy(line + length, *path == '\0' ? "" : "...");
    return line;
}

const char *last_part(const char *path)
{
    const char *slash = strrchr(path, '/');
    if (is_standard(path))
        return "standard input";
    return slash != NULL && slash[1] != '\0' ? slash + 1 : path;
}

/* The second byte decides whether it is written too long, half of a pair or too large. */
size_t character(const unsigned char *c)
{
    static const struct {
        unsigned char first, last, least, most;
        size_t length;
    } forms[] = {
        { 0x09, 0x0a, 0, 0, 1 },       { 0x0d, 0x0d, 0, 0, 1 },       { 0x20, 0x7f, 0, 0, 1 },
        { 0xc2, 0xdf, 0x80, 0xbf, 2 }, { 0xe0, 0xe0, 0xa0, 0xbf, 3 }, { 0xe1, 0xec, 0x80, 0xbf, 3 },
        { 0xed, 0xed, 0x80, 0x9f, 3 }, { 0xee, 0xef, 0x80, 0xbf, 3 }, { 0xf0, 0xf0, 0x90, 0xbf, 4 },
        { 0xf1, 0xf3, 0x80, 0xbf, 4 }, { 0xf4, 0xf4, 0x80, 0x8f, 4 },
    };
    for (size_t i = 0; i < sizeof forms / sizeof forms[0]; i++) {
        if (c[0] < forms[i].first || c[0] > forms[i].last)
            continue;
        size_t length = forms[i].length;
        if (length > 1 && (c[1] < forms[i].least || c[1] > forms[i].most))
            return 0;
        for (size_t j = 2; j < length; j++)
            if ((c[j] & 0xc0) != 0x80)
                return 0;
        /* U+FFFE and U+FFFF are the two that XML leaves out */
        return c[0] == 0xef && c[1] == 0xbf && c[2] >= 0xbe ? 0 : length;
    }
    return 0;
}

/* U+0080 to U+009F are control characters too; U+061C, U+200E, U+200F, U+202A to U+202E and U+2066 to U+2069 turn the
 * direction of a line, U+2028 and U+2029 break it. */
int is_obeyed(const unsigned char *c)
{
    if (c[0] == 0xc2)
        return c[1] >= 0x80 && c[1] < 0xa0;
    if (c[0] == 0xd8)
        return c[1] == 0x9c;
    if (c[0] == 0xe2 && c[1] == 0x80)
        return c[2] == 0x8e || c[2] == 0x8f || (c[2] >= 0xa8 && c[2] <= 0xae);
    if (c[0] == 0xe2 && c[1] == 0x81)
        return c[2] >= 0xa6 && c[2] <= 0xa9;
    return c[0] < 0x20 || c[0] == 0x7f;
}
