/* map: the memory, drawn. */
#include "commands.h"
#include "picture.h"
#include "refusal.h"
#include "scanboot.h"

/* A COFF file if the library takes it for one, else an image. What is neither is
 * refused as a COFF file if it begins as one. Wrong options are refused of either. */
static struct program program_of(struct input input, int ordered)
{
    struct outcome as_coff = ask_coff(input.content, input.patterns);
    struct outcome as_image = ask_image(input.content, input.order);
    if (as_coff.code == SCANBOOT_PATTERNS)
        refuse(as_coff, input, 0);
    if (as_image.code == SCANBOOT_ORDER)
        refuse(as_image, input, 0);
    if (as_coff.code == SCANBOOT_OK && ordered)
        misused("--order ORDER is for an image, and this is a COFF file: ", input.path);
    if (as_coff.code == SCANBOOT_OK)
        return coff_program(input.path, input.content, skip_in(input));
    if (as_image.code == SCANBOOT_OK && input.patterns.count > 0)
        misused("--skip PATTERN is for a COFF file, and this is an image: ", input.path);
    if (as_image.code == SCANBOOT_OK)
        return image_program(input.path, input.content, input.order);
    refuse(kind_of(input.content) == IS_COFF ? as_coff : as_image, input, 0);
}

void map(const struct words *words)
{
    struct program program = program_of(take(words, 0, TO_DRAW), words->option[ORDER] != NULL);
    write_file(words->option[OUTPUT], picture_of(&program));
}
