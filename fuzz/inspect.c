/* `scanboot inspect` on inputs that libFuzzer makes, or on those that tests/inspected.c has for it.
 *
 * It reads headers, flags and names of files that nobody has checked. Beside what the sanitizers see, each input has to give
 * text of lines that a terminal can show, and JSON; and the hints at the ends of refusals are asked for too. It is looked at
 * without patterns, and with those that its last bytes spell, so that files need no form of their own here: where a file
 * ends with its string table, they spell its names. plain.c stands in the library's place, so that this can run on any
 * machine. */

#include "../host/inspect.h"
#include "../host/names.h"

#include <ctype.h>
#include <stdio.h>
#include <stdlib.h>
#include <string.h>

static void wrong(const char *what, const char *where)
{
    fprintf(stderr, "fuzz: %s: %.200s\n", what, where);
    abort();
}

/* ---- JSON: each function answers the place behind what it read ---- */

static const char *value(const char *c);

static const char *space(const char *c)
{
    return c + strspn(c, " \n");
}

static const char *string(const char *c)
{
    const char *begin = c;
    if (*c++ != '"')
        wrong("no string", begin);
    while (*c != '"') {
        size_t length = character((const unsigned char *)c);
        if (length == 0 || (unsigned char)*c < 0x20)
            wrong("no character of JSON", begin);
        if (*c == '\\' && c[1] == 'u') {
            for (int i = 2; i < 6; i++)
                if (!isxdigit((unsigned char)c[i]))
                    wrong("no character of JSON", begin);
            length = 6;
        } else if (*c == '\\') {
            if (c[1] != '"' && c[1] != '\\')
                wrong("no character of JSON", begin);
            length = 2;
        }
        c += length;
    }
    return c + 1;
}

/* Members or elements up to the closing sign. */
static const char *several(const char *c, char closing)
{
    c = space(c + 1);
    if (*c == closing)
        return c + 1;
    for (;;) {
        if (closing == '}') {
            c = space(string(c));
            if (*c++ != ':')
                wrong("no colon", c - 1);
        }
        c = space(value(c));
        if (*c == closing)
            return c + 1;
        if (*c != ',')
            wrong("no comma", c);
        c = space(c + 1);
    }
}

static const char *value(const char *c)
{
    static const char *const words[] = { "null", "true", "false" };
    c = space(c);
    if (*c == '{' || *c == '[')
        return several(c, *c == '{' ? '}' : ']');
    if (*c == '"')
        return string(c);
    for (size_t i = 0; i < 3; i++)
        if (strncmp(c, words[i], strlen(words[i])) == 0)
            return c + strlen(words[i]);
    size_t digits = strspn(c, "0123456789");
    if (digits == 0 || (digits > 1 && *c == '0'))
        wrong("no value of JSON", c);
    return c + digits;
}

/* ---- one input ---- */

static void shown(const char *text)
{
    for (const char *c = text; *c != '\0'; c += *c == '\n' ? 1 : character((const unsigned char *)c)) {
        int control = (unsigned char)*c < 0x20 || *c == 0x7f || ((unsigned char)*c == 0xc2 && (unsigned char)c[1] < 0xa0);
        if (*c != '\n' && (control || character((const unsigned char *)c) == 0))
            wrong("nothing that a terminal shows", c);
    }
}

int LLVMFuzzerInitialize(int *argc, char ***argv)
{
    (void)argc;
    (void)argv;
    return 0;
}

static void look(struct bytes content, struct patterns patterns)
{
    struct text plain = { NULL, 0, 0 }, json = { NULL, 0, 0 };
    struct inspected inspected = look_at_with("a \"file\"", content, patterns);
    add_plain(&plain, &inspected);
    add_json(&json, &inspected);
    if (plain.length != strlen(plain.at) || json.length != strlen(json.at))
        wrong("a 0 in a text", plain.at);
    shown(plain.at);
    if (*space(value(json.at)) != '\0')
        wrong("more than one value of JSON", json.at);
    hint_for(inspected.as_coff, content, (enum purpose)(content.length % (TO_DRAW + 1)));
    hint_for(inspected.as_image, content, (enum purpose)(content.length % (TO_DRAW + 1)));
    forget(&inspected);
    free(plain.at);
    free(json.at);
}

/* Up to so many of the last bytes, each pattern up to a zero byte, as words of a command line would be. */
enum { ROW = 128 };

static void look_with_patterns(struct bytes content)
{
    char row[ROW + 1];
    const char *at[ROW + 1];
    struct patterns patterns = { at, 0, { (uint8_t *)row, content.length < ROW ? content.length : ROW } };
    if (patterns.row.length > 0)
        memcpy(row, content.at + (content.length - patterns.row.length), patterns.row.length);
    row[patterns.row.length++] = '\0';
    for (size_t from = 0; from < patterns.row.length; from += strlen(row + from) + 1)
        at[patterns.count++] = row + from;
    look(content, patterns);
}

int LLVMFuzzerTestOneInput(const uint8_t *data, size_t size)
{
    struct bytes content = { malloc(size), size }; /* exactly, so that a byte beside it is seen */
    if (size > 0)
        memcpy(content.at, data, size);
    look(content, no_patterns);
    look_with_patterns(content);
    free(content.at);
    return 0;
}
