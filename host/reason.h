/* Both sides of a refusal: what its rule compares, in words and in figures. That
 * something is refused is the library's answer; these are read from the file. */
#ifndef REASON_H
#define REASON_H

#include "answers.h"
#include "text.h"

struct fact {
    const char *name;
    uint64_t value;
};

struct reason {
    struct text sentence; /* without a full stop; empty where nothing is refused */
    struct fact facts[6];
    size_t count;
};

/* Why the library refuses patterns (17), a COFF file of which they take these sections
 * (1 to 14, 16), or an image in order 0 (20 to 27). */
struct reason why_no_patterns(struct patterns patterns);
struct reason why_no_file(struct bytes file, struct outcome outcome, const struct skipped *skipped);
struct reason why_no_image(struct bytes image, struct outcome outcome);

/* The header of a section as a block, without its bytes. */
struct block section_block(struct bytes file, uint32_t number);

/* For those that make a reason. */
void note(struct reason *reason, const char *name, uint64_t value);

/* "section 3 (.text)", or without a name where it cannot be read or has no letter. */
void add_section(struct text *text, struct bytes file, uint32_t number);

/* " byte" or " bytes", with the number before it. */
void add_bytes_of(struct text *text, uint64_t count);

/* That a range from `first` on passes the last address. */
void add_passing(struct reason *reason, const char *kind, uint32_t first, uint32_t size);

/* The addresses that two blocks both load to, if there are any. */
int shared(struct block a, struct block b, uint32_t *first, uint32_t *last);
void add_shared(struct reason *reason, struct block a, struct block b);

#endif
