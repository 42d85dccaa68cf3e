#include "left_out.h"
#include "json.h"
#include "names.h"
#include "reason.h"

#include <stdio.h>
#include <stdlib.h>

static int has_name(const struct program *program, uint32_t number)
{
    const char *name = program->names[number];
    return name != NULL && name[0] != '\0';
}

/* "section 4 '.coeffs'". Its name may be anything: without quotes it could go on as the line does. */
static void add_section_left_out(struct text *text, const struct program *program, uint32_t number)
{
    add(text, "section %u", number);
    if (has_name(program, number)) {
        add(text, " ");
        add_quoted(text, program->names[number]);
    }
}

/* "section 4 '.coeffs', 7 bytes, by '.c*'". */
static void add_left_out(struct text *text, const struct program *program, uint32_t number)
{
    add_section_left_out(text, program, number);
    add(text, ", ");
    add_bytes_of(text, section_block(program->file, number).size);
    add(text, ", by ");
    add_quoted(text, program->skipped.by[number]);
}

void add_left_out_lines(struct text *text, const struct program *program)
{
    const struct skipped *skipped = &program->skipped;
    if (skipped->patterns.count == 0)
        return;
    if (left_out_in(program->file, skipped) == 0)
        add(text, "left out: nothing\n");
    for (uint32_t number = 0; number < skipped->sections; number++) {
        if (!is_left_out(program->file, skipped, number))
            continue;
        add(text, "left out: ");
        add_left_out(text, program, number);
        add(text, "\n");
    }
}

void add_left_out_at(struct text *text, const struct program *program, uint32_t address)
{
    for (uint32_t number = 0; number < program->skipped.sections; number++) {
        struct block block = section_block(program->file, number);
        if (!is_left_out(program->file, &program->skipped, number) || address < block.load ||
            address - block.load >= block.size)
            continue;
        add(text, "; ");
        add_section_left_out(text, program, number);
        add(text, " is left out there, by ");
        add_quoted(text, program->skipped.by[number]);
        return;
    }
}

/* How many sections a pattern leaves out, and their bytes: of several that take one, the first does. */
static size_t left_out_by(const struct program *program, const char *pattern, unsigned long long *bytes)
{
    size_t count = 0;
    for (uint32_t number = 0; number < program->skipped.sections; number++) {
        if (program->skipped.by[number] != pattern || !is_left_out(program->file, &program->skipped, number))
            continue;
        *bytes += section_block(program->file, number).size;
        count++;
    }
    return count;
}

void add_left_out_in_short(struct text *text, const struct program *program)
{
    const struct skipped *skipped = &program->skipped;
    struct text by = { NULL, 0, 0 };
    unsigned long long bytes = 0;
    const char *between = ": ";
    for (size_t i = 0; i < skipped->patterns.count; i++) {
        if (left_out_by(program, skipped->patterns.at[i], &bytes) == 0)
            continue;
        add(&by, by.length == 0 ? ", by " : " ");
        add_quoted(&by, skipped->patterns.at[i]);
    }
    size_t count = left_out_in(program->file, skipped);
    if (count == 0)
        add(text, "nothing");
    else
        add(text, "%zu section%s, %llu byte%s%s", count, count == 1 ? "" : "s", bytes, bytes == 1 ? "" : "s", by.at);
    for (uint32_t number = 0; number < skipped->sections; number++) {
        if (!has_name(program, number) || !is_left_out(program->file, skipped, number))
            continue;
        add(text, "%s", between);
        add_quoted(text, program->names[number]);
        between = ", ";
    }
    free(by.at);
}

void add_patterns_member(struct text *text, const struct skipped *skipped)
{
    add(text, ",\n \"patterns\": [");
    for (size_t i = 0; i < skipped->patterns.count; i++) {
        add(text, "%s{\"pattern\": ", i == 0 ? "" : ", ");
        add_string(text, skipped->patterns.at[i]);
        add(text, ", \"takes\": %zu}", skipped->takes[i]);
    }
    add(text, "]");
}

void add_left_out_members(struct text *text, const struct program *program)
{
    const struct skipped *skipped = &program->skipped;
    const char *between = "";
    if (skipped->patterns.count == 0)
        return;
    add_patterns_member(text, skipped);
    add(text, ",\n \"left_out\": [");
    for (uint32_t number = 0; number < skipped->sections; number++) {
        struct block block = section_block(program->file, number);
        if (!is_left_out(program->file, skipped, number))
            continue;
        add(text, "%s\n  {\"section\": %u, \"name\": ", between, number);
        add_string(text, program->names[number]);
        add(text, ", \"load\": %u, \"run\": %u, \"size\": %u, \"pattern\": ", block.load, block.run, block.size);
        add_string(text, skipped->by[number]);
        add(text, "}");
        between = ",";
    }
    add(text, "]");
}

void add_idle(struct text *text, const struct skipped *skipped)
{
    size_t idle = 0;
    for (size_t i = 0; i < skipped->patterns.count; i++)
        idle += skipped->takes[i] == 0;
    if (idle == 0)
        return;
    add(text, "no section has a name that %s:", idle == 1 ? "this pattern takes" : "these patterns take");
    for (size_t i = 0; i < skipped->patterns.count; i++) {
        if (skipped->takes[i] > 0)
            continue;
        add(text, " ");
        add_quoted(text, skipped->patterns.at[i]);
    }
}

void tell_idle(const struct skipped *skipped, const char *path)
{
    struct text text = { NULL, 0, 0 };
    add_idle(&text, skipped);
    if (text.length > 0)
        fprintf(stderr, "scanboot: note: in %s %s\n", in_one_line(path), text.at);
    free(text.at);
}
