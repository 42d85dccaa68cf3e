#include "reason.h"
#include "headers.h"

#include <stdlib.h>

void note(struct reason *reason, const char *name, uint64_t value)
{
    if (reason->count == sizeof reason->facts / sizeof reason->facts[0])
        abort();
    reason->facts[reason->count].name = name;
    reason->facts[reason->count++].value = value;
}

struct block section_block(struct bytes file, uint32_t number)
{
    struct section_header header = section_header(file, number);
    struct block block = { number, header.load, header.run, header.size, NULL };
    return block;
}

void add_section(struct text *text, struct bytes file, uint32_t number)
{
    char name[MOST_NAME + 1];
    add(text, "section %u", number);
    if (section_called(file, number, name) && name[0] != '\0') {
        add(text, " (");
        add_shown(text, name);
        add(text, ")");
    }
}

void add_bytes_of(struct text *text, uint64_t count)
{
    add(text, "%llu byte%s", (unsigned long long)count, count == 1 ? "" : "s");
}

void add_passing(struct reason *reason, const char *kind, uint32_t first, uint32_t size)
{
    uint64_t over = (uint64_t)first + size - ((uint64_t)1 << 32);
    add(&reason->sentence, " has the %s address %08X and ", kind, first);
    add_bytes_of(&reason->sentence, size);
    add(&reason->sentence, ": ");
    add_bytes_of(&reason->sentence, over);
    add(&reason->sentence, " past the last address FFFFFFFF");
    note(reason, "address", first);
    note(reason, "size", size);
    note(reason, "over", over);
}

int shared(struct block a, struct block b, uint32_t *first, uint32_t *last)
{
    uint64_t a_end = (uint64_t)a.load + a.size, b_end = (uint64_t)b.load + b.size;
    uint64_t from = a.load > b.load ? a.load : b.load, end = a_end < b_end ? a_end : b_end;
    *first = (uint32_t)from;
    *last = (uint32_t)(end - 1);
    return from < end;
}

void add_shared(struct reason *reason, struct block a, struct block b)
{
    uint32_t first, last;
    if (!shared(a, b, &first, &last))
        abort();
    add(&reason->sentence, "; both load to %08X-%08X, ", first, last);
    add_bytes_of(&reason->sentence, (uint64_t)last - first + 1);
    note(reason, "first", first);
    note(reason, "last", last);
    note(reason, "bytes", (uint64_t)last - first + 1);
}
