#include "refusal.h"
#include "json.h"
#include "left_out.h"
#include "names.h"
#include "order.h"
#include "scanboot.h"

#include <stdio.h>
#include <stdlib.h>

struct input take(const struct words *words, int which, enum purpose purpose)
{
    const char *path = words->file[which];
    uint32_t order = order_in(words);
    struct input input = { path, purpose, read_bytes(path), patterns_in(words), order };
    return input;
}

/* The options that are refused, and why. */
static void show_patterns(struct patterns patterns)
{
    struct text text = { NULL, 0, 0 };
    add_wrong_patterns(&text, patterns);
    fprintf(stderr, "--skip: %s", text.at);
    free(text.at);
}

/* Of what a refusal speaks. */
static void show_what(struct outcome outcome, struct input input)
{
    const char *name = in_one_line(input.path);
    switch (outcome.code) {
    case SCANBOOT_RAW_DATA:
    case SCANBOOT_SECTION_LOAD:
    case SCANBOOT_SECTION_RUN:
    case SCANBOOT_SECTIONS_MEET:
        fprintf(stderr, "section %llu of %s", outcome.index, name);
        break;
    case SCANBOOT_SECTION_NAME: /* which has no index */
        fprintf(stderr, "section %u of %s", unreadable_name(input.content), name);
        break;
    case SCANBOOT_PATTERNS:
        show_patterns(input.patterns);
        break;
    case SCANBOOT_ORDER:
        fprintf(stderr, "--order %u", input.order);
        break;
    case SCANBOOT_TOO_MANY_BLOCKS:
    case SCANBOOT_BLOCK_LOAD:
    case SCANBOOT_BLOCK_RUN:
    case SCANBOOT_PADDING:
    case SCANBOOT_BLOCKS_MEET:
        fprintf(stderr, "block %llu of %s", outcome.index, name);
        break;
    case SCANBOOT_IMAGE_CUT:
    case SCANBOOT_BYTES_FOLLOW:
        fprintf(stderr, "%s, after %llu whole block%s", name, outcome.index, outcome.index == 1 ? "" : "s");
        break;
    case SCANBOOT_OUTSIDE:
        fprintf(stderr, "%s %llu of %s", input.purpose == TO_LOAD_COFF ? "section" : "block", outcome.index, name);
        break;
    case SCANBOOT_WINDOW:
        fprintf(stderr, "--base and --size");
        break;
    default:
        fprintf(stderr, "%s", name);
    }
}

static void write_json(struct outcome outcome, struct input input, const char *hint)
{
    struct text text = { NULL, 0, 0 };
    add(&text, "{\"refused\": {\"code\": %u, \"index\": %llu, \"text\": ", outcome.code, outcome.index);
    add_string(&text, scanboot_text(outcome.code));
    add(&text, ",\n \"file\": ");
    add_string(&text, input.path);
    add(&text, ", \"hint\": ");
    add_string(&text, hint);
    add(&text, "}}\n");
    write_output(as_bytes(text));
}

/* Of an image that the library would take in other orders, which these are; of other inputs, what hint_for says. */
static const char *hint_on(struct outcome outcome, struct input input)
{
    int as_image = outcome.code >= SCANBOOT_IMAGE_TOO_LONG && outcome.code < SCANBOOT_WINDOW;
    unsigned orders = as_image ? orders_taking(input.content) : 0;
    struct text hint = { NULL, 0, 0 };
    if (orders == 0)
        return hint_for(outcome, input.content, input.purpose);
    add(&hint, "it would be read with --order ");
    add_orders(&hint, orders);
    return hint.at;
}

_Noreturn void refuse(struct outcome outcome, struct input input, int json)
{
    const char *hint = hint_on(outcome, input);
    if (json)
        write_json(outcome, input, hint);
    fprintf(stderr, "scanboot: refused %u %llu: %s: ", outcome.code, outcome.index, scanboot_text(outcome.code));
    show_what(outcome, input);
    fprintf(stderr, "%s%s\n", hint != NULL ? "; " : "", hint != NULL ? hint : "");
    exit(EXIT_REFUSED);
}

void unless_refused(struct outcome outcome, struct input input, int json)
{
    if (outcome.code != SCANBOOT_OK)
        refuse(outcome, input, json);
}

struct skipped skip_in(struct input input)
{
    struct skipped skipped = skipped_in(input.content, input.patterns);
    tell_idle(&skipped, input.path);
    return skipped;
}

struct program take_program(struct input input, int json)
{
    unless_refused(ask_coff(input.content, input.patterns), input, json);
    return coff_program(input.path, input.content, skip_in(input));
}
