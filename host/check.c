/* check: whether an image still is the COFF file it came from, and if not, where
 * the two first differ, or all places where they do. */
#include "check.h"
#include "commands.h"
#include "json.h"
#include "left_out.h"
#include "order.h"
#include "refusal.h"
#include "scanboot.h"

#include <stdio.h>
#include <stdlib.h>

static const char *kind_of_first(struct difference d)
{
    if (d.block == NULL)
        return "missing in image";
    if (d.section == NULL)
        return "missing in file";
    return d.how & OTHER_BYTES ? "other byte" : "other run address";
}

/* An image that was made without the patterns, or with fewer, places what they leave out. */
static void tell_more(struct difference d, const struct program *file)
{
    struct text text = { NULL, 0, 0 };
    add_left_out_at(&text, file, d.first);
    fprintf(stderr, "the image places %02X and the file nothing (block %u)%s", byte_in(d.block, d.first),
            d.block->number, text.length > 0 ? text.at : "");
    free(text.at);
}

static void tell_placement(struct difference d, const struct program *file)
{
    uint32_t at = d.first;
    fprintf(stderr, "scanboot: differs 41: at %08X ", at);
    if (d.block == NULL)
        fprintf(stderr, "the file places %02X and the image nothing (section %u)", byte_in(d.section, at),
                d.section->number);
    else if (d.section == NULL)
        tell_more(d, file);
    else if (d.how & OTHER_BYTES)
        fprintf(stderr, "the file places %02X and the image %02X (section %u, block %u)", byte_in(d.section, at),
                byte_in(d.block, at), d.section->number, d.block->number);
    else
        fprintf(stderr, "the run address is %08X in the file and %08X in the image (section %u, block %u)",
                run_in(d.section, at), run_in(d.block, at), d.section->number, d.block->number);
}

void add_part(struct text *text, const struct program *program, const struct block *block)
{
    add(text, "\"%s\": %u", program->part, block->number);
    if (program->names == NULL)
        return;
    add(text, ", \"name\": ");
    add_string(text, program->names[block->number]);
}

static void add_place(struct text *text, const char *side, const struct program *program, const struct block *block,
                      uint32_t at)
{
    add(text, ",\n  \"%s\": ", side);
    if (block == NULL) {
        add(text, "null");
        return;
    }
    add(text, "{");
    add_part(text, program, block);
    add(text, ", \"byte\": %u, \"run\": %u}", byte_in(block, at), run_in(block, at));
}

/* The library has said that there is one. */
static struct difference first_placement(struct program *file, struct program *image)
{
    struct walk walk = begin_walk(file, image);
    struct difference d;
    if (!next_difference(&walk, &d))
        abort();
    return d;
}

/* The first difference: the line that tells it, with a hint at its end, and as JSON. */
static void tell_first(unsigned code, struct program *file, struct program *image, const char *hint)
{
    if (code == SCANBOOT_ENTRY_DIFFERS)
        fprintf(stderr, "scanboot: differs 40: the entry point is %08X in the file and %08X in the image",
                file->entry, image->entry);
    else
        tell_placement(first_placement(file, image), file);
    fprintf(stderr, "%s%s\n", hint != NULL ? "; " : "", hint != NULL ? hint : "");
}

static void add_first(struct text *text, unsigned code, struct program *file, struct program *image)
{
    add(text, "{\"same\": false, \"code\": %u, \"difference\":\n", code);
    if (code == SCANBOOT_ENTRY_DIFFERS) {
        add(text, " {\"kind\": \"entry point\", \"file\": %u, \"image\": %u}", file->entry, image->entry);
        return;
    }
    struct difference d = first_placement(file, image);
    add(text, " {\"kind\": \"%s\", \"address\": %u", kind_of_first(d), d.first);
    add_place(text, "file", file, d.section, d.first);
    add_place(text, "image", image, d.block, d.first);
    add(text, "}");
}

static void say_same(const struct program *file, const struct words *words)
{
    struct text text = { NULL, 0, 0 };
    if (words->option[JSON] != NULL) {
        add(&text, "{\"same\": true, \"code\": 0, \"difference\": null%s",
            words->option[ALL] != NULL ? ", \"differences\": []" : "");
        add_order_member(&text, words);
        add_left_out_members(&text, file);
        add(&text, "}\n");
    } else {
        add(&text, "same\n");
        add_left_out_lines(&text, file);
    }
    write_output(as_bytes(text));
}

/* With a hint or without, which in JSON is a member like that of a refusal. */
static void say_different(unsigned code, struct program *file, struct program *image, const struct words *words,
                          const char *hint)
{
    struct text text = { NULL, 0, 0 };
    int json = words->option[JSON] != NULL;
    tell_first(code, file, image, hint);
    if (json)
        add_first(&text, code, file, image);
    else
        add_left_out_lines(&text, file);
    if (json && hint != NULL) {
        add(&text, ",\n \"hint\": ");
        add_string(&text, hint);
    }
    if (words->option[ALL] != NULL)
        write_all_differences(&text, file, image, json);
    if (json) {
        add_order_member(&text, words);
        add_left_out_members(&text, file);
        add(&text, "}\n");
    }
    write_output(as_bytes(text));
}

/* Where the first file is like an image and the second a COFF file, it is most likely that
 * they stand in the wrong order. */
static struct input blamed(struct outcome outcome, struct input file, struct input image)
{
    if (outcome.code >= SCANBOOT_IMAGE_TOO_LONG)
        return image;
    if (is_like_image(kind_of(file.content)) && kind_of(image.content) == IS_COFF)
        file.purpose = SWAPPED;
    return file;
}

/* Of two that differ in the order that was told, the orders in which they do not; NULL if there is none. */
static const char *same_otherwise(struct input file, struct input image)
{
    unsigned orders = orders_same(file.content, image.content, file.patterns);
    struct text hint = { NULL, 0, 0 };
    if (orders != 0) {
        add(&hint, "it would be the same with --order ");
        add_orders(&hint, orders);
    }
    return hint.at;
}

void check(const struct words *words)
{
    struct input file = take(words, 0, TO_CHECK), image = take(words, 1, TO_CHECK_WITH);
    struct bytes coff = file.content, boot = image.content, row = file.patterns.row;
    struct outcome outcome = outcome_of(
        scanboot_check_with(coff.at, coff.length, boot.at, boot.length, row.at, row.length, image.order));
    if (outcome.code != SCANBOOT_OK && outcome.code < SCANBOOT_ENTRY_DIFFERS)
        refuse(outcome, blamed(outcome, file, image), words->option[JSON] != NULL);
    struct program of_file = coff_program(file.path, coff, skip_in(file));
    if (outcome.code == SCANBOOT_OK) {
        say_same(&of_file, words);
        return;
    }
    struct program of_image = image_program(image.path, boot, image.order);
    say_different(outcome.code, &of_file, &of_image, words, same_otherwise(file, image));
    exit(EXIT_DIFFERENT);
}
