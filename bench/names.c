#include "names.h"

#include <fnmatch.h>
#include <stdio.h>
#include <string.h>

#define SIXTY_AS EIGHT("aaaaaaa") "aaaa"

/* Each has 64 bytes, and takes no name of nothing but a. With LONGEST every place of the name is worth a try, and at each
 * all that follows the first star is compared; without the star at its end only the last place is. */
#define LONGEST "*" SIXTY_AS "ab*"
#define LONGEST_AT_END "*" SIXTY_AS "aab"
#define MANY_STARS "*a*a*a*a*b*"
#define MANY_STARS_AT_END "*a*a*a*a*b"

#define TWO_STARS ROW("*b*\0*a*b\0a*a*b\0?*?*b")
#define USUAL_ROW ROW(".stack\0.debug*\0.test*\0*.test\0.s0?1\0.bss\0.const.*\0tmp*\0"    \
                      ".sysmem\0.args\0.ppinfo\0*_old\0.trace?\0.log.*\0*scratch*\0.cio")
#define SIXTEEN_TIMES EIGHT(LONGEST "\0" LONGEST "\0")
#define WORST_ROW SIXTEEN_TIMES, sizeof(SIXTEEN_TIMES) - 1    /* one zero byte at its end is enough */

/* Every sixteenth section has a name of the second list, which USUAL_ROW takes. Up to eight bytes stand in the header,
 * without a zero byte where there are eight; more stand in the string table. */
static const char *const usual_names[] = {
    ".text", ".cinit", ".const", ".far", ".switch", ".vectors", ".data", ".s002", ".text:_fir_filter", ".pinit",
    ".const:_coefficients", ".iram", ".text:_interrupt_handlers", ".hwi_vec", ".text:_decode_frame",
};
static const char *const taken_names[] = {
    ".stack", ".debug_line", ".s001", "fir.test", ".bss", ".test_fft", "tmp", ".const.scratch",
};
enum { EACH = 16, USUAL = 15, TAKEN = 8, NAME = 8, TABLE_SIZE = 4 };

/* Files of one section and one name: of a million bytes, and the longest. */
#define HEADERS(sections) (FILE_HEADER + SECTION_HEADER * (size_t)(sections))
#define ROOM_FOR_NAME(length, sections) ((length) - HEADERS(sections) - 4 * (size_t)(sections) - TABLE_SIZE - 1)
#define MILLION 1000000 + 256, 1, 0, ASCENDING
#define ALL MOST, 1, 0, ASCENDING
#define LONGEST_NAME ROOM_FOR_NAME(MOST, 1)

static const struct named cases[] = {
    { { "convert 256 sections, no pattern", CONVERT_WITH, SECTIONS, 0, ASCENDING }, TIMED, 0, NO_ROW },
    { { "convert 256 sections, 16 patterns", CONVERT_WITH, SECTIONS, 0, ASCENDING }, TIMED, 0, USUAL_ROW },
    { { "measure 256 sections, no pattern", MEASURE_WITH, SECTIONS, 0, ASCENDING }, TIMED, 0, NO_ROW },
    { { "measure 256 sections, 16 patterns", MEASURE_WITH, SECTIONS, 0, ASCENDING }, TIMED, 0, USUAL_ROW },
    { { "match 256 names, 16 patterns", MATCH, SECTIONS, 0, ASCENDING }, TIMED, 0, USUAL_ROW },
    { { "a name of 1,000,000, *a*a*a*a*b", MEASURE_WITH, MILLION }, TIMED, 1000000, ROW(MANY_STARS_AT_END) },
    { { "a name of 1,000,000, *a*a*a*a*b*", MEASURE_WITH, MILLION }, TIMED, 1000000, ROW(MANY_STARS) },
    { { "a name of 1,000,000, *a..ab of 64 bytes", MEASURE_WITH, MILLION }, TIMED, 1000000, ROW(LONGEST_AT_END) },
    { { "a name of 1,000,000, *a..ab* of 64 bytes", MEASURE_WITH, MILLION }, TIMED, 1000000, ROW(LONGEST) },
    { { "a name of 16 MiB, *a*a*a*a*b", MEASURE_WITH, ALL }, TIMED, LONGEST_NAME, ROW(MANY_STARS_AT_END) },
    { { "a name of 16 MiB, *a*a*a*a*b*", MEASURE_WITH, ALL }, TIMED, LONGEST_NAME, ROW(MANY_STARS) },

    { { "a name of 16 MiB, *a..ab of 64 bytes", MEASURE_WITH, ALL }, SLOW, LONGEST_NAME, ROW(LONGEST_AT_END) },
    { { "a name of 16 MiB, *a..ab* of 64 bytes", MEASURE_WITH, ALL }, SLOW, LONGEST_NAME, ROW(LONGEST) },
    { { "256 sections with one name of 16 MiB, usual patterns", MEASURE_WITH, MOST, 256, 0, ASCENDING }, SLOW,
      ROOM_FOR_NAME(MOST, 256), USUAL_ROW },
    { { "1 section with a name of 16 MiB, 16 worst patterns", MEASURE_WITH, ALL }, SLOW, LONGEST_NAME, WORST_ROW },

    /* the length of the image has ten digits, which the listing writes by as many calls inside each other */
    { { "list, an image of 4 GB", LIST, MOST, 256, 0, SHARED }, STACKED, 100, NO_ROW },
    { { "addresses, the last of 64", ADDRESSES, 65536, 1, 64, SHUFFLED }, STACKED, 100, NO_ROW },
    /* these end inside the reader of headers, or behind all that it can do */
    { { "measure, sections that fall", MEASURE, SECTIONS, 0, FALLING }, STACKED, 100, NO_ROW },
    { { "measure, sections that meet", MEASURE, SECTIONS, 0, MEETING }, STACKED, 100, NO_ROW },
    { { "measure, no name and 32 stars", MEASURE_WITH, SECTIONS, 0, NAMELESS }, STACKED, 100, ROW(DEEPEST) },
    { { "measure, sections that fall and 32 stars", MEASURE_WITH, SECTIONS, 0, FALLING }, STACKED, 100, ROW(DEEPEST) },
    { { "measure, no pattern", MEASURE_WITH, SECTIONS, 0, ASCENDING }, STACKED, 100, NO_ROW },
    { { "measure, two stars", MEASURE_WITH, SECTIONS, 0, ASCENDING }, STACKED, 100, TWO_STARS },
    { { "measure, 32 stars", MEASURE_WITH, SECTIONS, 0, ASCENDING }, STACKED, 100, ROW(DEEPEST) },
    { { "convert, no pattern", CONVERT_WITH, SECTIONS, 0, ASCENDING }, STACKED, 100, NO_ROW },
    { { "convert, two stars", CONVERT_WITH, SECTIONS, 0, ASCENDING }, STACKED, 100, TWO_STARS },
    { { "convert, 32 stars", CONVERT_WITH, SECTIONS, 0, ASCENDING }, STACKED, 100, ROW(DEEPEST) },
    { { "load file, no pattern", LOAD_COFF_WITH, SECTIONS, 0, ASCENDING }, STACKED, 100, NO_ROW },
    { { "load file, two stars", LOAD_COFF_WITH, SECTIONS, 0, ASCENDING }, STACKED, 100, TWO_STARS },
    { { "load file, 32 stars", LOAD_COFF_WITH, SECTIONS, 0, ASCENDING }, STACKED, 100, ROW(DEEPEST) },
    { { "check, no pattern", CHECK_WITH, SECTIONS, 64, SHUFFLED }, STACKED, 100, NO_ROW },
    { { "check, two stars", CHECK_WITH, SECTIONS, 64, SHUFFLED }, STACKED, 100, TWO_STARS },
    { { "check, 32 stars", CHECK_WITH, SECTIONS, 64, SHUFFLED }, STACKED, 100, ROW(DEEPEST) },
    { { "takes, no star", TAKES, SECTIONS, 0, ASCENDING }, STACKED, 100, ROW("aab") },
    { { "takes, two stars", TAKES, SECTIONS, 0, ASCENDING }, STACKED, 100, ROW("*a*b") },
    { { "takes, 32 stars", TAKES, SECTIONS, 0, ASCENDING }, STACKED, 100, ROW(DEEPEST) },
};

void tell_named(enum asked asked)
{
    for (size_t i = 0; i < sizeof cases / sizeof cases[0]; i++)
        if (cases[i].asked == asked)
            puts(cases[i].setting.name);
}

const struct named *find_named(const char *name)
{
    for (size_t i = 0; i < sizeof cases / sizeof cases[0]; i++)
        if (strcmp(cases[i].setting.name, name) == 0)
            return &cases[i];
    return NULL;
}

static const char *usual_name(unsigned section)
{
    return section % EACH == USUAL ? taken_names[section / EACH % TAKEN] : usual_names[section % EACH];
}

size_t table_length(const struct named *named)
{
    size_t length = TABLE_SIZE;
    if (named->name_length != 0)
        return length + named->name_length + 1;
    for (unsigned i = 0; i < named->setting.sections; i++)
        if (strlen(usual_name(i)) > NAME)
            length += strlen(usual_name(i)) + 1;
    return length;
}

static uint8_t *header_of(unsigned section)
{
    return given.file + HEADERS(section);
}

/* No symbols: the string table begins where they would. */
void give_names(const struct named *named)
{
    size_t length = table_length(named), used = TABLE_SIZE;
    uint8_t *table = given.file + given.file_length - length;
    put(given.file + 8, (uint64_t)(table - given.file), 4);
    put(table, length, 4);
    if (named->name_length != 0) {
        memset(table + TABLE_SIZE, 'a', named->name_length);
        table[length - 1] = named->setting.order == NAMELESS ? 'a' : 0;
    }
    for (unsigned i = 0; i < named->setting.sections; i++) {
        const char *name = usual_name(i);
        if (named->name_length != 0) {
            put(header_of(i) + 4, TABLE_SIZE, 4);
        } else if (strlen(name) <= NAME) {
            memcpy(header_of(i), name, strlen(name));
        } else {
            put(header_of(i) + 4, used, 4);
            memcpy(table + used, name, strlen(name) + 1);
            used += strlen(name) + 1;
        }
    }
    given.row = (const uint8_t *)named->row;
    given.row_length = named->row_length;
    given.name = table + TABLE_SIZE;
    given.name_length = named->name_length;
    given.taken = named->name_length != 0 ? 0 : named->setting.sections / EACH;
}

/* A name with a zero byte behind it: where it stands in the table, or copied from the header. */
static const char *name_of(unsigned section, char *copy)
{
    const uint8_t *header = header_of(section);
    uint32_t front, offset, table;
    memcpy(&front, header, 4);
    memcpy(&offset, header + 4, 4);
    memcpy(&table, given.file + 8, 4);
    if (front == 0 && offset != 0)
        return (const char *)given.file + table + offset;
    memcpy(copy, header, NAME);
    copy[NAME] = 0;
    return copy;
}

double steps(void)
{
    char copy[NAME + 1];
    double names = 0, patterns = 0;
    for (unsigned i = 0; i < given.sections; i++)
        names += (double)strlen(name_of(i, copy));
    for (size_t i = 0; i < given.row_length; i++)
        patterns += given.row[i] != 0;
    return names * patterns;
}

uint32_t fnmatch_takes(const uint8_t *pattern, size_t pattern_len, const uint8_t *name, size_t name_len)
{
    (void)pattern_len;
    (void)name_len;
    return fnmatch((const char *)pattern, (const char *)name, 0) == 0;
}

uint64_t take_one(taking *takes)
{
    return takes(given.row, given.row_length - 1, given.name, given.name_length);
}

static int is_taken(taking *takes, const char *name)
{
    const uint8_t *end = given.row + given.row_length;
    size_t name_length = strlen(name);
    for (const uint8_t *pattern = given.row; pattern < end;) {
        size_t length = strlen((const char *)pattern);
        if (takes(pattern, length, (const uint8_t *)name, name_length))
            return 1;
        pattern += length + 1;
    }
    return 0;
}

uint64_t match_all(taking *takes)
{
    char copy[NAME + 1];
    unsigned taken = 0;
    for (unsigned i = 0; i < given.sections; i++)
        taken += (unsigned)is_taken(takes, name_of(i, copy));
    return taken != given.taken;
}
