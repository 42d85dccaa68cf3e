#include "port.h"
#include "../examples/hpi.h"
#include "images.h"

#include <stdio.h>
#include <stdlib.h>

enum { PAGE = 4096, PAGES = 256, BLOCKS = 4096 };

/* The pages that were looked at or written; all others hold the pattern. */
static struct page {
    uint32_t number;
    uint8_t bytes[PAGE];
} pages[PAGES];
static size_t page_count;

static struct {
    uint64_t from;
    uint64_t to;
} allowed[BLOCKS];
static size_t allowed_count;

static uint32_t address;
static int address_is_set, counting;

struct port_use port_use;

static uint8_t *byte_at(uint32_t at)
{
    size_t i = 0;
    while (i < page_count && pages[i].number != at / PAGE)
        i++;
    if (i == PAGES)
        abort();
    if (i == page_count) {
        pages[page_count++].number = at / PAGE;
        for (uint32_t k = 0; k < PAGE; k++)
            pages[i].bytes[k] = pattern(at / PAGE * PAGE + k);
    }
    return &pages[i].bytes[at % PAGE];
}

uint8_t port_byte(uint32_t at)
{
    return *byte_at(at);
}

void port_begin(int counts_up)
{
    static const struct port_use unused;
    port_use = unused;
    page_count = allowed_count = 0;
    address_is_set = 0;
    counting = counts_up;
}

void port_allow(uint32_t load, uint32_t size)
{
    if (allowed_count == BLOCKS)
        abort();
    allowed[allowed_count].from = load;
    allowed[allowed_count++].to = (uint64_t)load + size;
}

static void fault(const char *what)
{
    port_use.faults++;
    printf("the port: %08X: %s\n", (unsigned)address, what);
}

/* Whether the word at the address is some block's, in part or as a whole. */
static int is_in_part(void)
{
    for (size_t i = 0; i < allowed_count; i++)
        if (allowed[i].from < (uint64_t)address + 4 && address < allowed[i].to)
            return 1;
    return 0;
}

static int is_whole(void)
{
    for (size_t i = 0; i < allowed_count; i++)
        if (allowed[i].from <= address && (uint64_t)address + 4 <= allowed[i].to)
            return 1;
    return 0;
}

static void touch(void)
{
    if (!address_is_set)
        fault("touched before an address was written");
    if (!is_in_part())
        fault("touched without a byte of a block in it");
}

void port_set_address(uint32_t at)
{
    port_use.addresses++;
    address = at;
    address_is_set = 1;
    if (at % 4 != 0)
        fault("an address inside a word");
}

void port_write(uint32_t word)
{
    port_use.writes++;
    touch();
    for (uint32_t i = 0; i < 4; i++)
        *byte_at(address + i) = (uint8_t)(word >> 8 * i);
    address += counting ? 4 : 0;
}

uint32_t port_read(void)
{
    uint32_t word = 0;
    port_use.reads++;
    touch();
    if (is_whole())
        fault("read, though all of it is a block's");
    for (uint32_t i = 0; i < 4; i++)
        word |= (uint32_t)*byte_at(address + i) << 8 * i;
    address += counting ? 4 : 0;
    return word;
}
