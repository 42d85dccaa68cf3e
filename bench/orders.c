#include "orders.h"

#include <stdio.h>
#include <string.h>

#define BETWEEN ", order "

/* Files and images are those of the cases without an order. 0 is asked where it tells what an order costs, and 3 where
 * more than numbers and bytes on their own may be seen. */
static const struct turned jobs[] = {
    { { { "convert 4 KiB, 4 sections", CONVERT_WITH, 4096, 4, 0, ASCENDING }, TIMED, 0, NO_ROW }, "0123" },
    { { { "convert 16 MiB, 1 section", CONVERT_WITH, MOST, 1, 0, ASCENDING }, TIMED, 0, NO_ROW }, "0123" },
    { { { "convert 16 MiB, 16 sections", CONVERT_WITH, MOST, 16, 0, ASCENDING }, TIMED, 0, NO_ROW }, "12" },
    { { { "convert 16 MiB, 256 sections", CONVERT_WITH, MOST, 256, 0, ASCENDING }, TIMED, 0, NO_ROW }, "12" },
    { { { "convert 16 MiB, 256 odd sections", CONVERT_WITH, MOST, 256, 0, ODD }, TIMED, 0, NO_ROW }, "02" },
    { { { "read 1 block", READ_WITH, 65536, 1, 1, ASCENDING }, TIMED, 0, NO_ROW }, "12" },
    { { { "read 64 blocks, ascending", READ_WITH, 65536, 1, 64, ASCENDING }, TIMED, 0, NO_ROW }, "0123" },
    { { { "read 64 odd blocks", READ_WITH, 65536, 1, 64, ODD }, TIMED, 0, NO_ROW }, "012" },
    { { { "read 4096 blocks, ascending", READ_WITH, MOST / 2, 1, 4096, ASCENDING }, TIMED, 0, NO_ROW }, "12" },
    { { { "block, the last of 4096, ascending", BLOCK_WITH, MOST / 2, 1, 4096, ASCENDING }, TIMED, 0, NO_ROW }, "12" },
    { { { "place, the last of 4096 blocks", PLACE_WITH, MOST / 2, 1, 4096, ASCENDING }, TIMED, 0, NO_ROW }, "012" },
    { { { "walk 64 blocks, ascending", WALK_WITH, 65536, 1, 64, ASCENDING }, TIMED, 0, NO_ROW }, "012" },
    { { { "walk 4096 blocks, ascending", WALK_WITH, MOST / 2, 1, 4096, ASCENDING }, TIMED, 0, NO_ROW }, "12" },
    { { { "by number each of 64 blocks, ascending", NUMBERS_WITH, 65536, 1, 64, ASCENDING }, TIMED, 0, NO_ROW }, "12" },
    { { { "load image 4 KiB, 4 blocks", LOAD_IMAGE_WITH, 4096, 1, 4, ASCENDING }, TIMED, 0, NO_ROW }, "0123" },
    { { { "load image 16 MiB, 1 block", LOAD_IMAGE_WITH, MOST, 1, 1, ASCENDING }, TIMED, 0, NO_ROW }, "0123" },
    { { { "load image 16 MiB, 4096 blocks, ascending", LOAD_IMAGE_WITH, MOST, 1, 4096, ASCENDING }, TIMED, 0, NO_ROW }, "12" },
    { { { "load image 16 MiB, 4096 odd blocks", LOAD_IMAGE_WITH, MOST, 1, 4096, ODD }, TIMED, 0, NO_ROW }, "02" },
    { { { "check 4 KiB, 4 blocks", CHECK_WITH, 4096, 1, 4, ASCENDING }, TIMED, 0, NO_ROW }, "0123" },
    { { { "check 16 MiB, 1 block", CHECK_WITH, MOST, 1, 1, ASCENDING }, TIMED, 0, NO_ROW }, "0123" },
    { { { "check 16 MiB, 4096 blocks in file order", CHECK_WITH, MOST, 1, 4096, ASCENDING }, TIMED, 0, NO_ROW }, "12" },
    { { { "check 16 MiB, 256 sections, 4096 blocks, shuffled", CHECK_WITH, MOST, 256, 4096, SHUFFLED }, TIMED, 0, NO_ROW }, "2" },
    { { { "check 16 MiB, 256 odd sections, 1 block", CHECK_WITH, MOST, 256, 1, ODD }, TIMED, 0, NO_ROW }, "02" },

    { { { "convert, odd sections", CONVERT_WITH, SECTIONS, 0, ODD }, STACKED, 0, NO_ROW }, "0123" },
    { { { "convert, 32 stars", CONVERT_WITH, SECTIONS, 0, ASCENDING }, STACKED, 100, ROW(DEEPEST) }, "23" },
    { { { "read, odd blocks", READ_WITH, 65536, 1, 64, ODD }, STACKED, 0, NO_ROW }, "0123" },
    { { { "read, shuffled blocks", READ_WITH, 65536, 1, 64, SHUFFLED }, STACKED, 0, NO_ROW }, "23" },
    { { { "block, odd blocks", BLOCK_WITH, 65536, 1, 64, ODD }, STACKED, 0, NO_ROW }, "0123" },
    { { { "block, shuffled blocks", BLOCK_WITH, 65536, 1, 64, SHUFFLED }, STACKED, 0, NO_ROW }, "23" },
    { { { "addresses, odd blocks", ADDRESSES_WITH, 65536, 1, 64, ODD }, STACKED, 0, NO_ROW }, "0123" },
    { { { "addresses, shuffled blocks", ADDRESSES_WITH, 65536, 1, 64, SHUFFLED }, STACKED, 0, NO_ROW }, "23" },
    { { { "place, odd blocks", PLACE_WITH, 65536, 1, 64, ODD }, STACKED, 0, NO_ROW }, "0123" },
    { { { "load image, odd blocks", LOAD_IMAGE_WITH, 65536, 1, 64, ODD }, STACKED, 0, NO_ROW }, "0123" },
    { { { "load image, shuffled blocks", LOAD_IMAGE_WITH, 65536, 1, 64, SHUFFLED }, STACKED, 0, NO_ROW }, "23" },
    { { { "check, odd sections and blocks", CHECK_WITH, SECTIONS, 64, ODD }, STACKED, 0, NO_ROW }, "0123" },
    { { { "check, shuffled blocks", CHECK_WITH, SECTIONS, 64, SHUFFLED }, STACKED, 0, NO_ROW }, "23" },
    { { { "check, 32 stars", CHECK_WITH, SECTIONS, 64, SHUFFLED }, STACKED, 100, ROW(DEEPEST) }, "23" },
};

void tell_turned(enum asked asked)
{
    for (size_t i = 0; i < sizeof jobs / sizeof jobs[0]; i++)
        for (const char *order = jobs[i].orders; jobs[i].named.asked == asked && *order != 0; order++)
            printf("%s" BETWEEN "%c\n", jobs[i].named.setting.name, *order);
}

const struct turned *find_turned(const char *name)
{
    const char *between = strstr(name, BETWEEN);
    if (between == NULL)
        return NULL;
    size_t length = (size_t)(between - name);
    char order = between[strlen(BETWEEN)];
    for (size_t i = 0; i < sizeof jobs / sizeof jobs[0]; i++) {
        const char *job = jobs[i].named.setting.name;
        if (strlen(job) == length && memcmp(job, name, length) == 0 && order != 0 && strchr(jobs[i].orders, order)) {
            given.byte_order = (uint32_t)(order - '0');
            return &jobs[i];
        }
    }
    return NULL;
}
