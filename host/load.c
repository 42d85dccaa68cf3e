/* load: what the processor's memory holds after an image, or a COFF file, was loaded. */
#include "commands.h"
#include "refusal.h"
#include "scanboot.h"

#include <string.h>

void load(const struct words *words)
{
    int coff = words->option[COFF] != NULL;
    if (!coff && words->skips > 0)
        misused("--skip PATTERN goes with --coff: an image has no names", "");
    if (coff && words->option[ORDER] != NULL)
        misused("--order ORDER goes without --coff: it is that of an image", "");
    uint64_t base = number_of(words, BASE, UINT64_MAX);
    uint64_t size = number_of(words, SIZE, UINT64_MAX);
    int fill = words->option[FILL] != NULL ? (int)number_of(words, FILL, 255) : 0;
    struct input input = take(words, 0, coff ? TO_LOAD_COFF : TO_LOAD);
    struct bytes source = input.content, row = input.patterns.row;
    /* one byte over the limit is enough for the library to refuse the window */
    struct bytes window = make_room(size <= SCANBOOT_MOST_BYTES ? (size_t)size : (size_t)SCANBOOT_MOST_BYTES + 1);
    memset(window.at, fill, window.length);
    scanboot_loading loaded = coff ? scanboot_load_coff_with(source.at, source.length, base, window.at, window.length,
                                                             row.at, row.length)
                                   : scanboot_load_image_with(source.at, source.length, base, window.at, window.length,
                                                              input.order);
    unless_refused(outcome_of(loaded), input, 0);
    if (coff)
        skip_in(input);
    write_file(words->option[OUTPUT], window);
}
