#include "headers.h"
#include "inspect.h"
#include "left_out.h"
#include "names.h"
#include "scanboot.h"

#include <stdlib.h>
#include <string.h>
#include <time.h>

const char *flag_word(unsigned bit)
{
    static const char *const words[32] = { "DSECT", "NOLOAD", "GROUP", "PAD",  "COPY",  "TEXT",   "DATA",  "BSS", NULL,
                                           NULL,    NULL,     NULL,    "BLOCK", "PASS", "CLINK", "VECTOR", "PADDED" };
    return words[bit];
}

/* The words, the alignment, and the rest in hexadecimal; where none gives a type, "plain" before them. */
static void add_flags(struct text *text, struct section_header header)
{
    uint32_t flags = header.flags, rest = flags & ~(uint32_t)0xf00;
    size_t before = text->length;
    if (!has_type(header))
        add(text, "plain");
    for (unsigned bit = 0; bit < 32; bit++) {
        if (!(flags >> bit & 1) || flag_word(bit) == NULL)
            continue;
        add(text, "%s%s", text->length > before ? " " : "", flag_word(bit));
        rest &= ~((uint32_t)1 << bit);
    }
    if (flags & 0xf00)
        add(text, "%salign %u", text->length > before ? " " : "", 1u << (flags >> 8 & 15));
    if (rest != 0)
        add(text, "%s%Xh", text->length > before ? " " : "", rest);
}

static void add_file_flags(struct text *text, uint32_t flags)
{
    static const struct {
        uint32_t flag;
        const char *words;
    } known[] = { { STRIPPED, "relocations stripped" }, { RESOLVED, "no unresolved references" },
                  { 0x8, "local symbols stripped" },    { LITTLE, "little-endian target" },
                  { BIG, "big-endian target" } };
    add(text, "%04Xh", flags);
    for (size_t i = 0; i < sizeof known / sizeof known[0]; i++)
        if (flags & known[i].flag)
            add(text, ", %s", known[i].words);
}

/* Spaces up to a column that is `width` wide and began at `from`. */
static void fill(struct text *text, size_t from, size_t width)
{
    size_t used = text->length - from;
    add(text, "%*s", (int)(used < width ? width - used : 0) + 2, "");
}

/* Whether a section is kept, or why not; and the pattern that takes its name, if one does. */
static void add_kept(struct text *text, const struct inspected *inspected, uint32_t number)
{
    const char *by = inspected->skipped.by[number], *why = why_out(inspected->content, &inspected->skipped, number);
    int besides = !is_left_out(inspected->content, &inspected->skipped, number);
    if (by == NULL || besides)
        add(text, why == NULL ? "yes" : "no: %s", why);
    if (by != NULL) {
        add(text, besides ? "; " : "no: ");
        add_quoted(text, by);
        add(text, besides ? " takes its name too" : " takes its name");
    }
    add(text, "\n");
}

/* One line of the table. */
static void add_row(struct text *text, const struct inspected *inspected, uint32_t number, size_t widths[2])
{
    const char *name = inspected->program.names[number];
    struct section_header header = section_header(inspected->content, number);
    add(text, "%7u  %08X  %08X  %10u  %10u  ", number, header.load, header.run, header.size, header.raw);
    size_t from = text->length;
    if (name != NULL)
        add_shown(text, name);
    else
        add(text, "(cannot be read)");
    fill(text, from, widths[0]);
    from = text->length;
    add_flags(text, header);
    fill(text, from, widths[1]);
    add_kept(text, inspected, number);
}

/* Names and flags stand in columns as wide as the widest takes, up to a bound. */
static void find_widths(const struct inspected *inspected, size_t widths[2])
{
    struct text tried = { NULL, 0, 0 };
    widths[0] = strlen("name");
    widths[1] = strlen("flags");
    for (uint32_t i = 0; i < inspected->program.sections; i++) {
        const char *name = inspected->program.names[i];
        size_t length = strlen(name != NULL ? name : "(cannot be read)");
        tried.length = 0;
        add_flags(&tried, section_header(inspected->content, i));
        if (length > widths[0])
            widths[0] = length < 32 ? length : 32;
        if (tried.length > widths[1])
            widths[1] = tried.length < 32 ? tried.length : 32;
    }
    free(tried.at);
}

static void add_sections(struct text *text, const struct inspected *inspected)
{
    size_t widths[2];
    find_widths(inspected, widths);
    add(text, "\nsection  load      run             size      raw at  %-*s  %-*s  kept\n", (int)widths[0], "name",
        (int)widths[1], "flags");
    for (uint32_t i = 0; i < inspected->program.sections; i++)
        add_row(text, inspected, i, widths);
}

static void add_headers(struct text *text, const struct inspected *inspected)
{
    struct file_header header = file_header(inspected->content);
    time_t stamp = header.time;
    struct tm when;
    char date[40] = "not set";
    if (stamp != 0 && gmtime_r(&stamp, &when) != NULL)
        strftime(date, sizeof date, "%Y-%m-%d %H:%M:%S UTC", &when);
    add(text, "time stamp: %s\nflags: ", date);
    add_file_flags(text, header.flags);
    add(text, "\n");
}

static void add_blocks(struct text *text, const struct inspected *inspected)
{
    add(text, "\n  block  load      run             size     data at\n");
    for (size_t i = 0; i < inspected->program.count; i++) {
        struct block block = inspected->program.blocks[i];
        add(text, "%7u  %08X  %08X  %10u  %10zu\n", block.number, block.load, block.run, block.size,
            (size_t)(block.raw - inspected->content.at));
    }
}

static void add_refusal(struct text *text, struct outcome outcome, const struct reason *reason)
{
    add(text, "refused %u %llu: %s\n", outcome.code, outcome.index, scanboot_text(outcome.code));
    add(text, "  %s\n", reason->sentence.at);
    add(text, "  what to do: scanboot explain %u\n", outcome.code);
}

static void add_taken(struct text *text, const struct inspected *inspected)
{
    const struct program *program = &inspected->program;
    add(text, "as a COFF file: taken; %zu of %u sections are kept, ", program->count, program->sections);
    if (inspected->patterns.count > 0)
        add(text, "%zu left out by name, ", left_out_in(inspected->content, &inspected->skipped));
    add(text, "and the image has %llu bytes\n", (unsigned long long)program->image);
}

/* As what it is; of what is of no known kind, as a COFF file and as an image. Of a kind
 * that is neither, a rule would speak of fields that it does not have. */
static void add_verdicts(struct text *text, const struct inspected *inspected)
{
    int coff = inspected->kind == IS_COFF || target_of(inspected) >= 0, blocks = has_blocks(inspected);
    const struct program *program = &inspected->program;
    if (!coff && !blocks && inspected->kind != IS_OTHER) {
        add(text, "not taken: scanboot takes the linker's COFF file of version 2, or a boot image\n");
        return;
    }
    if (!blocks && inspected->as_coff.code == SCANBOOT_OK)
        add_taken(text, inspected);
    else if (!blocks) {
        add(text, "as a COFF file: ");
        add_refusal(text, inspected->as_coff, &inspected->no_coff);
    }
    if (!coff && inspected->as_image.code == SCANBOOT_OK)
        add(text, "as an image: taken; %zu block%s\n", program->count, program->count == 1 ? "" : "s");
    else if (!coff) {
        add(text, "as an image: ");
        add_refusal(text, inspected->as_image, &inspected->no_image);
    }
    if (inspected->kind == IS_TURNED_IMAGE)
        add(text, "as an image with --order %u: taken; %zu block%s\n", inspected->order, program->count,
            program->count == 1 ? "" : "s");
}

static void add_entry(struct text *text, const struct inspected *inspected)
{
    static const char *const behind[] = { [ONLY_RUNS] = " runs", [ONLY_LOADED] = " is loaded", [LOADED_AND_RUNS] = "" };
    struct entered entered = inspected->entered;
    add(text, "entry point: %08X", inspected->program.entry);
    if (entered.block != NULL) {
        add(text, entered.start == LOADED_AND_RUNS ? ", in " : ", where ");
        if (has_headers(inspected))
            add_section(text, inspected->content, entered.block->number);
        else
            add(text, "block %u", entered.block->number);
        add(text, "%s", behind[entered.start]);
    }
    add(text, "\n");
}

void add_plain(struct text *text, const struct inspected *inspected)
{
    add_shown(text, in_one_line(inspected->path));
    add(text, ": ");
    add_description(text, inspected);
    if (inspected->length < inspected->content.length)
        add(text, ", over %u bytes", SCANBOOT_MOST_BYTES);
    else {
        add(text, ", ");
        add_bytes_of(text, inspected->length);
    }
    add(text, "\n");
    add_verdicts(text, inspected);
    if (has_headers(inspected))
        add_headers(text, inspected);
    if (has_headers(inspected) || has_blocks(inspected))
        add_entry(text, inspected);
    for (size_t i = 0; i < inspected->count; i++)
        add(text, "remark: %s\n", inspected->remarks[i].at);
    if (has_headers(inspected))
        add_sections(text, inspected);
    if (has_blocks(inspected))
        add_blocks(text, inspected);
}
