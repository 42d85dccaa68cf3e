#include "cases.h"

#include <inttypes.h>
#include <stdio.h>
#include <string.h>

/* Where images of many blocks are only read, each block has two kilobytes, so that cases differ in nothing but number and
 * order: what a header costs depends on how far it is from the next. Where their bytes are moved or compared, all blocks
 * together have 16 MiB. 4,096 of them are then four kilobytes apart, which is the most, and are read by themselves too. */
static const struct setting settings[] = {
    { "convert 4 KiB, 4 sections", CONVERT, 4096, 4, 0, ASCENDING },
    { "convert 16 MiB, 1 section", CONVERT, MOST, 1, 0, ASCENDING },
    { "convert 16 MiB, 16 sections", CONVERT, MOST, 16, 0, ASCENDING },
    { "convert 16 MiB, 256 sections", CONVERT, MOST, 256, 0, ASCENDING },
    { "measure 256 sections", MEASURE, 65536, 256, 0, ASCENDING },
    { "measure 256 plain sections", MEASURE, 65536, 256, 0, PLAIN },
    { "list 256 sections", LIST, 65536, 256, 0, ASCENDING },
    { "read 1 block", READ, 65536, 1, 1, ASCENDING },
    { "read 64 blocks, ascending", READ, 65536, 1, 64, ASCENDING },
    { "read 64 blocks, descending", READ, 65536, 1, 64, DESCENDING },
    { "read 64 blocks, shuffled", READ, 65536, 1, 64, SHUFFLED },
    { "read 4096 blocks, ascending", READ, MOST / 2, 1, 4096, ASCENDING },
    { "read 4096 blocks, descending", READ, MOST / 2, 1, 4096, DESCENDING },
    { "read 1000 blocks, shuffled", READ, 1000 * 2048, 1, 1000, SHUFFLED },
    { "read 2000 blocks, shuffled", READ, 2000 * 2048, 1, 2000, SHUFFLED },
    { "read 4096 blocks, shuffled", READ, MOST / 2, 1, 4096, SHUFFLED },
    { "read 16 MiB, 4096 blocks, shuffled", READ, MOST, 1, 4096, SHUFFLED },
    { "read 4096 blocks, shuffled, the last meets an earlier one", READ, MOST / 2, 1, 4096, LAST_MEETS },
    { "read 4096 blocks, 2 rows interleaved", READ, MOST / 2, 1, 4096, TWO_ROWS },
    { "read 4096 blocks, 4 rows interleaved", READ, MOST / 2, 1, 4096, FOUR_ROWS },
    { "read 4096 blocks, 8 rows interleaved", READ, MOST / 2, 1, 4096, EIGHT_ROWS },
    { "read 4096 blocks, 4 rows in runs of 20", READ, MOST / 2, 1, 4096, FOUR_ROWS_IN_RUNS },
    { "block, the last of 4096, ascending", BLOCK, MOST / 2, 1, 4096, ASCENDING },
    { "block, the last of 4096, shuffled", BLOCK, MOST / 2, 1, 4096, SHUFFLED },
    { "place, the last of 4096 blocks", PLACE, MOST / 2, 1, 4096, ASCENDING },
    { "walk 64 blocks, ascending", WALK, 65536, 1, 64, ASCENDING },
    { "walk 64 blocks, shuffled", WALK, 65536, 1, 64, SHUFFLED },
    { "walk 4096 blocks, ascending", WALK, MOST / 2, 1, 4096, ASCENDING },
    { "walk 4096 blocks, shuffled", WALK, MOST / 2, 1, 4096, SHUFFLED },
    { "by number each of 64 blocks, ascending", NUMBERS, 65536, 1, 64, ASCENDING },
    { "by number each of 64 blocks, shuffled", NUMBERS, 65536, 1, 64, SHUFFLED },
    { "load image 16 MiB, 1 block", LOAD_IMAGE, MOST, 1, 1, ASCENDING },
    { "load image 16 MiB, 4096 blocks, ascending", LOAD_IMAGE, MOST, 1, 4096, ASCENDING },
    { "load image 16 MiB, 1000 blocks, shuffled", LOAD_IMAGE, MOST, 1, 1000, SHUFFLED },
    { "load image 16 MiB, 2000 blocks, shuffled", LOAD_IMAGE, MOST, 1, 2000, SHUFFLED },
    { "load image 16 MiB, 4096 blocks, shuffled", LOAD_IMAGE, MOST, 1, 4096, SHUFFLED },
    { "load file 16 MiB, 1 section", LOAD_COFF, MOST, 1, 0, ASCENDING },
    { "load file 16 MiB, 256 sections", LOAD_COFF, MOST, 256, 0, ASCENDING },
    { "check 16 MiB, 1 block", CHECK, MOST, 1, 1, ASCENDING },
    { "check 16 MiB, 4096 blocks in file order", CHECK, MOST, 1, 4096, ASCENDING },
    { "check 16 MiB, 1000 blocks, shuffled", CHECK, MOST, 1, 1000, SHUFFLED },
    { "check 16 MiB, 2000 blocks, shuffled", CHECK, MOST, 1, 2000, SHUFFLED },
    { "check 16 MiB, 4096 blocks, shuffled", CHECK, MOST, 1, 4096, SHUFFLED },
    { "check 16 MiB, 256 sections, 4096 blocks, shuffled", CHECK, MOST, 256, 4096, SHUFFLED },
};

void tell_settings(void)
{
    for (size_t i = 0; i < sizeof settings / sizeof settings[0]; i++)
        puts(settings[i].name);
}

static const struct setting *numbered_setting(const char *name)
{
    static struct setting s = { "by its numbers", READ, 0, 0, 0, ASCENDING };
    unsigned call, order;
    int numbers = sscanf(name, "%u:%zu:%u:%u:%u:%" SCNu32, &call, &s.length, &s.sections, &s.blocks, &order, &given.byte_order);
    if (numbers < 5 || (call > NUMBERS && call != CONVERT_WITH) || order > LAST_MEETS)
        return NULL;
    s.call = (enum call)call;
    s.order = (enum order)order;
    return &s;
}

const struct setting *find_setting(const char *name)
{
    const struct setting *other = numbered_setting(name);
    if (other != NULL)
        return other;
    for (size_t i = 0; i < sizeof settings / sizeof settings[0]; i++)
        if (strcmp(settings[i].name, name) == 0)
            return &settings[i];
    stop("no such case");
    return NULL;
}
