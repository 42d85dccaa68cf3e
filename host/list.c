/* list: the kept sections of a COFF file. blocks: the blocks of an image. */
#include "commands.h"
#include "json.h"
#include "left_out.h"
#include "order.h"
#include "refusal.h"
#include "scanboot.h"
#include "text.h"

/* The entry point and the list that both have in common. */
static void add_list(struct text *text, struct program program, const char *list)
{
    add(text, "\"entry\": %u,\n \"%s\": [", program.entry, list);
    for (size_t i = 0; i < program.count; i++) {
        struct block block = program.blocks[i];
        add(text, "%s\n  {\"%s\": %u, ", i == 0 ? "" : ",", program.part, block.number);
        if (program.names != NULL) {
            add(text, "\"name\": ");
            add_string(text, program.names[block.number]);
            add(text, ", ");
        }
        add(text, "\"load\": %u, \"run\": %u, \"size\": %u}", block.load, block.run, block.size);
    }
    add(text, "%s],\n \"image\": %llu", program.count == 0 ? "" : "\n ", (unsigned long long)program.image);
}

static void add_lines(struct text *text, struct program program)
{
    for (size_t i = 0; i < program.count; i++) {
        struct block block = program.blocks[i];
        add(text, "%u load %08X run %08X size %u\n", block.number, block.load, block.run, block.size);
    }
    add(text, "image %llu\n", (unsigned long long)program.image);
}

/* The library's own text, which is proved. */
static void write_listing(struct input input)
{
    struct bytes file = input.content, text = make_room(SCANBOOT_LISTING_BYTES);
    unless_refused(ask_coff(file, no_patterns), input, 0);
    text.length = (size_t)scanboot_text_length(scanboot_list(file.at, file.length, text.at, text.length));
    write_output(text);
}

/* That text knows no patterns: what they leave is listed in the same form, by this program. */
void list(const struct words *words)
{
    struct input input = take(words, 0, TO_LIST);
    int json = words->option[JSON] != NULL;
    if (!json && words->skips == 0) {
        write_listing(input);
        return;
    }
    struct program program = take_program(input, json);
    struct text text = { NULL, 0, 0 };
    if (json) {
        add(&text, "{\"sections\": %u,\n ", program.sections);
        add_list(&text, program, "kept");
        add_left_out_members(&text, &program);
        add(&text, "}\n");
    } else {
        add(&text, "coff sections %u kept %zu entry %08X\n", program.sections, program.count, program.entry);
        add_lines(&text, program);
        add_left_out_lines(&text, &program);
    }
    write_output(as_bytes(text));
}

void blocks(const struct words *words)
{
    struct input input = take(words, 0, TO_SHOW);
    int json = words->option[JSON] != NULL;
    unless_refused(ask_image(input.content, input.order), input, json);
    struct program program = image_program(input.path, input.content, input.order);
    struct text text = { NULL, 0, 0 };
    if (json) {
        add(&text, "{");
        add_list(&text, program, "blocks");
        add_order_member(&text, words);
        add(&text, "}\n");
    } else {
        add(&text, "image blocks %zu entry %08X\n", program.count, program.entry);
        add_lines(&text, program);
    }
    write_output(as_bytes(text));
}
