#include "skip.h"
#include "headers.h"
#include "scanboot.h"
#include "words.h"

#include <stdlib.h>
#include <string.h>

const struct patterns no_patterns = { NULL, 0, { NULL, 0 } };

/* A zero byte behind each, the last too: so a pattern of no bytes crosses as one. */
struct patterns patterns_in(const struct words *words)
{
    struct patterns patterns = { words->skip, words->skips, { NULL, 0 } };
    struct text row = { NULL, 0, 0 };
    for (size_t i = 0; i < words->skips; i++) {
        size_t length = strlen(words->skip[i]) + 1;
        memcpy(more_room(&row, length), words->skip[i], length);
        row.length += length;
    }
    patterns.row = as_bytes(row);
    return patterns;
}

struct wrong_patterns wrong_patterns(struct patterns patterns)
{
    struct wrong_patterns wrong = { .too_many = patterns.count > SCANBOOT_MOST_PATTERNS };
    for (; !wrong.too_many && wrong.number < patterns.count; wrong.number++) {
        wrong.length = strlen(patterns.at[wrong.number]);
        if (wrong.length < 1 || wrong.length > SCANBOOT_MOST_PATTERN_BYTES)
            break;
    }
    return wrong;
}

void add_wrong_patterns(struct text *text, struct patterns patterns)
{
    struct wrong_patterns wrong = wrong_patterns(patterns);
    if (wrong.too_many)
        add(text, "%zu patterns are given", patterns.count);
    else
        add(text, "pattern %zu, counted from 0, has %zu byte%s", wrong.number, wrong.length,
            wrong.length == 1 ? "" : "s");
}

static int takes(const char *pattern, struct bytes name)
{
    return scanboot_takes((const uint8_t *)pattern, strlen(pattern), name.at, name.length) != 0;
}

struct skipped skipped_in(struct bytes file, struct patterns patterns)
{
    struct skipped skipped = { .patterns = patterns, .sections = headers_in(file) };
    skipped.by = room_of(skipped.sections, sizeof *skipped.by);
    skipped.takes = room_of(patterns.count, sizeof *skipped.takes);
    for (uint32_t number = 0; patterns.count > 0 && number < skipped.sections; number++) {
        struct bytes name;
        if (!section_name(file, number, &name))
            continue;
        for (size_t i = 0; i < patterns.count; i++) {
            if (!takes(patterns.at[i], name))
                continue;
            skipped.takes[i]++;
            if (skipped.by[number] == NULL)
                skipped.by[number] = patterns.at[i];
        }
    }
    return skipped;
}

void forget_skipped(struct skipped *skipped)
{
    free(skipped->by);
    free(skipped->takes);
}

const char *why_out(struct bytes file, const struct skipped *skipped, uint32_t number)
{
    const char *why = why_left(section_header(file, number));
    struct bytes name;
    if (why != NULL || skipped->patterns.count == 0)
        return why;
    if (skipped->by[number] != NULL)
        return "a pattern takes its name";
    return section_name(file, number, &name) ? NULL : "its name cannot be read";
}

int is_left_out(struct bytes file, const struct skipped *skipped, uint32_t number)
{
    return skipped->by[number] != NULL && why_left(section_header(file, number)) == NULL;
}

size_t left_out_in(struct bytes file, const struct skipped *skipped)
{
    size_t count = 0;
    for (uint32_t number = 0; number < skipped->sections; number++)
        count += (size_t)is_left_out(file, skipped, number);
    return count;
}

uint32_t unreadable_name(struct bytes file)
{
    uint32_t number = 0;
    struct bytes name;
    while (number < headers_in(file) &&
           (why_left(section_header(file, number)) != NULL || section_name(file, number, &name)))
        number++;
    return number;
}

struct bytes marked(struct bytes file, const struct skipped *skipped)
{
    if (skipped->patterns.count == 0)
        return file;
    struct bytes copy = make_room(file.length);
    memcpy(copy.at, file.at, file.length);
    for (uint32_t number = 0; number < skipped->sections; number++)
        if (skipped->by[number] != NULL)
            mark_unloaded(copy, number);
    return copy;
}
