#include "check.h"

enum { SHOWN = 8, LONG = 1 << 16 };

static const char *kind_of_range(struct difference d)
{
    if (d.block == NULL)
        return "missing in image";
    if (d.section == NULL)
        return "missing in file";
    if (d.how == OTHER_BYTES)
        return "other bytes";
    return d.how == OTHER_RUN ? "other run address" : "other bytes and run address";
}

static uint32_t shown(struct difference d)
{
    return d.size < SHOWN ? (uint32_t)d.size : SHOWN;
}

static void add_bytes(struct text *text, const char *side, const struct block *block, struct difference d)
{
    add(text, "%s", side);
    for (uint32_t i = 0; block != NULL && i < shown(d); i++)
        add(text, " %02X", byte_in(block, d.first + i));
    add(text, "%s", block == NULL ? " nothing" : shown(d) < d.size ? " ..." : "");
}

static void add_line(struct text *text, struct difference d)
{
    add(text, "%08X-%08X size %llu: %s:", d.first, (uint32_t)(d.first + d.size - 1), (unsigned long long)d.size,
        kind_of_range(d));
    if (d.how != OTHER_RUN) {
        add_bytes(text, " file", d.section, d);
        add_bytes(text, ", image", d.block, d);
    }
    if (d.how & OTHER_RUN)
        add(text, "%s file %08X, image %08X", d.how & OTHER_BYTES ? "; run address" : "", run_in(d.section, d.first),
            run_in(d.block, d.first));
    if (d.section != NULL)
        add(text, " (section %u%s", d.section->number, d.block == NULL ? ")\n" : ", ");
    if (d.block != NULL)
        add(text, "%sblock %u)\n", d.section == NULL ? " (" : "", d.block->number);
}

static void add_side(struct text *text, const char *side, const struct program *program, const struct block *block,
                     struct difference d)
{
    if (block == NULL) {
        add(text, ", \"%s\": null", side);
        return;
    }
    add(text, ",\n   \"%s\": {", side);
    add_part(text, program, block);
    add(text, ", \"run\": %u, \"bytes\": [", run_in(block, d.first));
    for (uint32_t i = 0; i < shown(d); i++)
        add(text, "%s%u", i == 0 ? "" : ", ", byte_in(block, d.first + i));
    add(text, "]}");
}

static void add_object(struct text *text, const struct walk *walk, struct difference d)
{
    add(text, "  {\"kind\": \"%s\", \"first\": %u, \"last\": %u, \"size\": %llu", kind_of_range(d), d.first,
        (uint32_t)(d.first + d.size - 1), (unsigned long long)d.size);
    add_side(text, "file", walk->file, d.section, d);
    add_side(text, "image", walk->image, d.block, d);
    add(text, "}");
}

static void write_if_long(struct text *text)
{
    if (text->length < LONG)
        return;
    write_output(as_bytes(*text));
    text->length = 0;
}

void write_all_differences(struct text *text, struct program *file, struct program *image, int json)
{
    struct walk walk = begin_walk(file, image);
    struct difference d;
    unsigned long long ranges = 0, bytes = 0;
    int entries = file->entry != image->entry;
    if (json)
        add(text, ",\n \"differences\": [");
    if (json && entries)
        add(text, "\n  {\"kind\": \"entry point\", \"file\": %u, \"image\": %u}", file->entry, image->entry);
    else if (entries)
        add(text, "entry point: file %08X, image %08X\n", file->entry, image->entry);
    for (; next_difference(&walk, &d); ranges++, bytes += d.size) {
        if (json) {
            add(text, "%s\n", entries || ranges > 0 ? "," : "");
            add_object(text, &walk, d);
        } else
            add_line(text, d);
        write_if_long(text);
    }
    if (json)
        add(text, "]");
    else
        add(text, "in all: %llu range%s, %llu byte%s\n", ranges, ranges == 1 ? "" : "s", bytes, bytes == 1 ? "" : "s");
}
