#include "headers.h"
#include "inspect.h"
#include "json.h"
#include "left_out.h"
#include "order.h"
#include "scanboot.h"

#include <stdlib.h>

static const char *word_for(enum kind kind)
{
    static const char *const words[] = {
        [IS_EMPTY] = "empty",
        [IS_COFF] = "coff",
        [IS_COFF_1] = "coff 1",
        [IS_COFF_0] = "coff 0",
        [IS_TURNED_COFF] = "turned coff",
        [IS_IMAGE] = "image",
        [IS_TURNED_IMAGE] = "turned image",
        [IS_BROKEN_IMAGE] = "broken image",
        [IS_ELF] = "elf",
        [IS_HEX] = "intel hex",
        [IS_S_RECORDS] = "s-records",
        [IS_TEXT] = "text",
        [IS_OTHER] = "other",
    };
    return words[kind];
}

static void add_verdict(struct text *text, const char *as, struct outcome outcome, const struct reason *reason)
{
    add(text, ",\n \"%s\": {\"code\": %u, \"index\": %llu, \"text\": ", as, outcome.code, outcome.index);
    add_string(text, scanboot_text(outcome.code));
    add(text, ",\n  \"reason\": ");
    add_string(text, reason->sentence.length > 0 ? reason->sentence.at : NULL);
    add(text, ", \"figures\": {");
    for (size_t i = 0; i < reason->count; i++)
        add(text, "%s\"%s\": %llu", i == 0 ? "" : ", ", reason->facts[i].name,
            (unsigned long long)reason->facts[i].value);
    add(text, "}}");
}

/* Those in which it is taken as an image; and that in which its blocks are shown. */
static void add_orders_members(struct text *text, const struct inspected *inspected)
{
    const char *between = "";
    add(text, ",\n \"orders\": [");
    for (unsigned order = 0; inspected->orders >> order != 0; order++) {
        if (!(inspected->orders & IN_ORDER(order)))
            continue;
        add(text, "%s%u", between, order);
        between = ", ";
    }
    add(text, "]");
    if (has_blocks(inspected))
        add(text, ", \"order\": %u", inspected->order);
}

static void add_flag_words(struct text *text, uint32_t flags)
{
    const char *between = "";
    add(text, "\"words\": [");
    for (unsigned bit = 0; bit < 32; bit++) {
        if (!(flags >> bit & 1) || flag_word(bit) == NULL)
            continue;
        add(text, "%s\"%s\"", between, flag_word(bit));
        between = ", ";
    }
    add(text, "], \"alignment\": %u", 1u << (flags >> 8 & 15));
}

static void add_section_object(struct text *text, const struct inspected *inspected, uint32_t number)
{
    struct bytes file = inspected->content;
    struct section_header header = section_header(file, number);
    const char *why = why_out(file, &inspected->skipped, number);
    add(text, "  {\"section\": %u, \"name\": ", number);
    add_string(text, inspected->program.names[number]);
    add(text, ", \"load\": %u, \"run\": %u, \"size\": %u, \"raw\": %u,\n   \"flags\": %u, ", header.load, header.run,
        header.size, header.raw, header.flags);
    add_flag_words(text, header.flags);
    add(text, ", \"plain\": %s, \"kept\": %s, \"why\": ", has_type(header) ? "false" : "true",
        why == NULL ? "true" : "false");
    add_string(text, why);
    add(text, ", \"pattern\": ");
    add_string(text, inspected->skipped.by[number]);
    add(text, "}");
}

static void add_coff_object(struct text *text, const struct inspected *inspected)
{
    struct bytes file = inspected->content;
    struct file_header header = file_header(file);
    const char *order = header.flags & BIG ? "\"big\"" : header.flags & LITTLE ? "\"little\"" : "null";
    add(text, ",\n \"header\": {\"version\": %u, \"sections\": %u, \"time\": %u, \"optional\": %u, \"flags\": %u, ",
        header.version, header.sections, header.time, header.optional, header.flags);
    add(text, "\"order\": %s}", order);
    add(text, ",\n \"sections\": [");
    for (uint32_t i = 0; i < headers_in(file); i++) {
        add(text, i == 0 ? "\n" : ",\n");
        add_section_object(text, inspected, i);
    }
    add(text, "]");
}

static void add_block_objects(struct text *text, const struct inspected *inspected)
{
    add(text, ",\n \"blocks\": [");
    for (size_t i = 0; i < inspected->program.count; i++) {
        struct block block = inspected->program.blocks[i];
        add(text, "%s\n  {\"block\": %u, \"load\": %u, \"run\": %u, \"size\": %u, \"data\": %zu}", i == 0 ? "" : ",",
            block.number, block.load, block.run, block.size, (size_t)(block.raw - inspected->content.at));
    }
    add(text, "]");
}

/* What is known of the kind: null of other kinds. */
static void add_kind_members(struct text *text, const struct inspected *inspected)
{
    long target = target_of(inspected);
    add(text, ",\n \"target\": ");
    add(text, target >= 0 ? "%ld" : "null", target);
    add(text, ", \"target_name\": ");
    add_string(text, target >= 0 ? target_name((uint32_t)target) : NULL);
    add(text, ", \"image\": ");
    add(text, inspected->as_coff.code == SCANBOOT_OK ? "%llu" : "null", (unsigned long long)inspected->program.image);
    if (inspected->kind != IS_ELF)
        return;
    struct elf elf = elf_of(inspected->content);
    add(text, ",\n \"elf\": {\"bits\": %u, \"order\": ", elf.bits);
    add_string(text, elf.order);
    add(text, ", \"machine\": %u}", elf.machine);
}

static void add_entry_object(struct text *text, const struct inspected *inspected)
{
    struct entered entered = inspected->entered;
    int loaded = entered.start == LOADED_AND_RUNS || entered.start == ONLY_LOADED;
    int runs = entered.start == LOADED_AND_RUNS || entered.start == ONLY_RUNS;
    add(text, ",\n \"entry\": %u, \"entered\": ", inspected->program.entry);
    add(text, entered.block != NULL ? "%u" : "null", entered.block != NULL ? entered.block->number : 0);
    add(text, ", \"loaded_there\": %s, \"runs_there\": %s", loaded ? "true" : "false", runs ? "true" : "false");
}

void add_json(struct text *text, const struct inspected *inspected)
{
    struct text what = { NULL, 0, 0 };
    add_description(&what, inspected);
    add(text, "{\"file\": ");
    add_string(text, inspected->path);
    add(text, ", \"length\": ");
    add(text, inspected->length < inspected->content.length ? "null" : "%llu", (unsigned long long)inspected->length);
    add(text, ", \"kind\": \"%s\",\n \"what\": ", word_for(inspected->kind));
    add_string(text, what.at);
    add_kind_members(text, inspected);
    add_verdict(text, "as_coff", inspected->as_coff, &inspected->no_coff);
    add_verdict(text, "as_image", inspected->as_image, &inspected->no_image);
    add_orders_members(text, inspected);
    if (has_headers(inspected) || has_blocks(inspected))
        add_entry_object(text, inspected);
    if (has_headers(inspected))
        add_coff_object(text, inspected);
    if (inspected->skipped.patterns.count > 0)
        add_patterns_member(text, &inspected->skipped);
    if (has_blocks(inspected))
        add_block_objects(text, inspected);
    add(text, ",\n \"remarks\": [");
    for (size_t i = 0; i < inspected->count; i++) {
        add(text, i == 0 ? "" : ", ");
        add_string(text, inspected->remarks[i].at);
    }
    add(text, "]}\n");
    free(what.at);
}
