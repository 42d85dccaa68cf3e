/* Sections left out by name: the patterns of --skip, and what they take of a COFF file.
 * Whether a pattern takes a name is the library's answer; the name is read here (headers.h). */
#ifndef SKIP_H
#define SKIP_H

#include "text.h"

struct words;

/* As they were given, and as they cross to the library. */
struct patterns {
    const char **at;
    size_t count;
    struct bytes row;
};

extern const struct patterns no_patterns;

struct patterns patterns_in(const struct words *words);

/* What is wrong with patterns that the library refuses (17), and the numbers in it. */
struct wrong_patterns {
    size_t number; /* of the first that has not 1 to 64 bytes, counted from 0 */
    size_t length;
    int too_many; /* then there is no such number */
};
struct wrong_patterns wrong_patterns(struct patterns patterns);
void add_wrong_patterns(struct text *text, struct patterns patterns);

/* Of patterns that the library takes, and of a file: each name was matched once against each. */
struct skipped {
    struct patterns patterns;
    uint32_t sections; /* of the file */
    const char **by;   /* of each section the first pattern that takes its name, or NULL */
    size_t *takes;     /* of each pattern, how many sections have a name that it takes, kept or not */
};

struct skipped skipped_in(struct bytes file, struct patterns patterns);
void forget_skipped(struct skipped *skipped);

/* Why a section is not kept, in a few words; NULL where it is. With patterns, a name that
 * cannot be read refuses the file. */
const char *why_out(struct bytes file, const struct skipped *skipped, uint32_t number);

/* Whether patterns alone leave the section out: it is otherwise kept. */
int is_left_out(struct bytes file, const struct skipped *skipped, uint32_t number);
size_t left_out_in(struct bytes file, const struct skipped *skipped);

/* The first section that is otherwise kept and whose name cannot be read; the file's section
 * count if there is none. */
uint32_t unreadable_name(struct bytes file);

/* The file as the library's calls without patterns have to see it: a copy in which what is
 * left out is marked NOLOAD. Without patterns the file itself. */
struct bytes marked(struct bytes file, const struct skipped *skipped);

#endif
