#include "headers.h"

#include <string.h>

enum { SYMBOL = 18, NAME = 8, ENTRY_POINT = 16 };

uint32_t half_at(const uint8_t *at)
{
    return (uint32_t)at[0] | (uint32_t)at[1] << 8;
}

uint32_t number_at(const uint8_t *at)
{
    return half_at(at) | half_at(at + 2) << 16;
}

uint32_t turned_half_at(const uint8_t *at)
{
    return (uint32_t)at[0] << 8 | at[1];
}

uint32_t turned_number_at(const uint8_t *at)
{
    return turned_half_at(at) << 16 | turned_half_at(at + 2);
}

struct file_header file_header(struct bytes file)
{
    struct file_header header = { half_at(file.at),      half_at(file.at + 2),  number_at(file.at + 4),
                                  half_at(file.at + 16), half_at(file.at + 18), half_at(file.at + 20) };
    return header;
}

uint64_t headers_begin(struct bytes file)
{
    return FILE_HEADER + file_header(file).optional;
}

uint64_t headers_end(struct bytes file)
{
    return headers_begin(file) + (uint64_t)SECTION_HEADER * file_header(file).sections;
}

uint32_t entry_of(struct bytes file)
{
    int there = file_header(file).optional == OPTIONAL_HEADER && file.length >= FILE_HEADER + OPTIONAL_HEADER;
    return there ? number_at(file.at + FILE_HEADER + ENTRY_POINT) : 0;
}

uint32_t headers_in(struct bytes file)
{
    if (file.length < FILE_HEADER || file.length < headers_begin(file))
        return 0;
    size_t whole = (file.length - (size_t)headers_begin(file)) / SECTION_HEADER;
    uint32_t said = file_header(file).sections;
    return said < whole ? said : (uint32_t)whole;
}

static uint8_t *header_of(struct bytes file, uint32_t number)
{
    return file.at + headers_begin(file) + SECTION_HEADER * (size_t)number;
}

struct section_header section_header(struct bytes file, uint32_t number)
{
    const uint8_t *header = header_of(file, number);
    struct section_header read = { number_at(header + 8), number_at(header + 12), number_at(header + 16),
                                   number_at(header + 20), number_at(header + 40) };
    return read;
}

int has_type(struct section_header header)
{
    return (header.flags & (DSECT | NOLOAD | GROUP | PAD | COPY | TEXT | DATA | BSS | VECTOR)) != 0;
}

const char *why_left(struct section_header header)
{
    if (header.size == 0)
        return "its size is 0";
    if (header.flags & DSECT)
        return "DSECT is set";
    if (header.flags & NOLOAD)
        return "NOLOAD is set";
    if (header.flags & COPY)
        return "COPY is set";
    if (!has_type(header))
        return header.raw != 0 ? NULL : "it is plain, and its raw offset is 0";
    return header.flags & (TEXT | DATA | VECTOR) ? NULL : "its type is none of TEXT, DATA and VECTOR";
}

void mark_unloaded(struct bytes file, uint32_t number)
{
    header_of(file, number)[40] |= NOLOAD;
}

struct string_table string_table(struct bytes file)
{
    struct string_table table = { .at = (uint64_t)number_at(file.at + 8) + (uint64_t)number_at(file.at + 12) * SYMBOL };
    if (table.at + 4 <= file.length)
        table.size = number_at(file.at + table.at);
    table.end = table.at + table.size < file.length ? table.at + table.size : file.length;
    return table;
}

uint32_t name_offset(struct bytes file, uint32_t number)
{
    const uint8_t *header = header_of(file, number);
    return number_at(header) == 0 ? number_at(header + 4) : 0;
}

static int name_in_table(struct bytes file, uint32_t offset, struct bytes *name)
{
    struct string_table table = string_table(file);
    if (offset < 4 || table.at + offset >= table.end)
        return 0;
    uint8_t *first = file.at + table.at + offset;
    const uint8_t *zero = memchr(first, 0, (size_t)(table.end - (table.at + offset)));
    name->at = first;
    name->length = zero != NULL ? (size_t)(zero - first) : 0;
    return zero != NULL;
}

int section_name(struct bytes file, uint32_t number, struct bytes *name)
{
    uint8_t *header = header_of(file, number);
    if (name_offset(file, number) != 0)
        return name_in_table(file, name_offset(file, number), name);
    name->at = header;
    name->length = strnlen((const char *)header, NAME);
    return 1;
}

/* Where the last zero byte of the string table stands: a name that begins behind it has no end. 0 if there is none. */
static uint64_t last_zero(struct bytes file, struct string_table table)
{
    const uint8_t *zero = table.at < table.end ? memrchr(file.at + table.at, 0, (size_t)(table.end - table.at)) : NULL;
    return zero != NULL ? (uint64_t)(zero - file.at) : 0;
}

/* By that zero byte no more is read of a name than is shown. */
static int called(struct bytes file, uint32_t number, uint64_t table, uint64_t zero, char name[MOST_NAME + 1])
{
    uint32_t offset = name_offset(file, number);
    const char *first = (const char *)header_of(file, number);
    size_t most = NAME;
    memset(name, 0, MOST_NAME + 1);
    if (offset != 0) {
        uint64_t begin = table + offset;
        if (offset < 4 || begin > zero)
            return 0;
        first = (const char *)file.at + begin;
        most = zero - begin < MOST_NAME ? (size_t)(zero - begin) : MOST_NAME;
    }
    memcpy(name, first, strnlen(first, most));
    return 1;
}

int section_called(struct bytes file, uint32_t number, char name[MOST_NAME + 1])
{
    struct string_table table = string_table(file);
    return called(file, number, table.at, last_zero(file, table), name);
}

/* The table's last zero byte is looked for once: a hostile file has thousands of sections, and a table without one. */
char **section_names(struct bytes file)
{
    uint32_t count = headers_in(file);
    struct string_table table = string_table(file);
    uint64_t zero = last_zero(file, table);
    char **names = room_of(count, sizeof *names + MOST_NAME + 1);
    char *text = (char *)(names + count);
    for (uint32_t number = 0; number < count; number++, text += MOST_NAME + 1)
        names[number] = called(file, number, table.at, zero, text) ? text : NULL;
    return names;
}
