/* stats: how much memory a program takes, and of what kind. */
#include "commands.h"
#include "headers.h"
#include "left_out.h"
#include "refusal.h"
#include "text.h"

struct count {
    unsigned sections;
    unsigned long long bytes;
};

static struct count sum(struct count a, struct count b)
{
    struct count both = { a.sections + b.sections, a.bytes + b.bytes };
    return both;
}

static void add_count(struct text *text, const struct words *words, const char *name, struct count count)
{
    if (words->option[JSON] != NULL)
        add(text, "%s\"%s\": {\"sections\": %u, \"bytes\": %llu}", text->length == 1 ? "" : ",\n ", name, count.sections,
            count.bytes);
    else
        add(text, "%s sections %u bytes %llu\n", name, count.sections, count.bytes);
}

/* Of a section that is not kept: whether it takes memory all the same, in which nothing is put. */
static int takes_memory(struct section_header header)
{
    int bss = (header.flags & BSS) && !(header.flags & (DSECT | NOLOAD | COPY));
    return header.size != 0 && (bss || !has_type(header));
}

/* Which sections are kept, and their sizes, is the library's answer. */
void stats(const struct words *words)
{
    struct input input = take(words, 0, TO_COUNT);
    struct bytes file = input.content;
    struct program program = take_program(input, words->option[JSON] != NULL);
    struct count code = { 0, 0 }, data = { 0, 0 }, bss = { 0, 0 }, other = { 0, 0 }, skipped = { 0, 0 };
    size_t next = 0;
    for (uint32_t number = 0; number < program.sections; number++) {
        struct section_header header = section_header(file, number);
        int kept = next < program.count && program.blocks[next].number == number;
        struct count one = { 1, kept ? program.blocks[next].size : header.size };
        next += (size_t)kept;
        if (kept && (header.flags & (TEXT | VECTOR)))
            code = sum(code, one);
        else if (kept)
            data = sum(data, one);
        else if (is_left_out(file, &program.skipped, number))
            skipped = sum(skipped, one);
        else if (takes_memory(header))
            bss = sum(bss, one);
        else
            other = sum(other, one);
    }
    struct text text = { NULL, 0, 0 };
    if (words->option[JSON] != NULL)
        add(&text, "{");
    add_count(&text, words, "code", code);
    add_count(&text, words, "data", data);
    add_count(&text, words, "initialised", sum(code, data));
    add_count(&text, words, "uninitialised", bss);
    add_count(&text, words, "total", sum(sum(code, data), bss));
    add_count(&text, words, "uncounted", other);
    if (words->skips > 0)
        add_count(&text, words, "skipped", skipped);
    if (words->option[JSON] != NULL) {
        add_left_out_members(&text, &program);
        add(&text, "}\n");
    } else
        add_left_out_lines(&text, &program);
    write_output(as_bytes(text));
}
