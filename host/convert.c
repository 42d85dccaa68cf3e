/* convert: a COFF file to a boot image, as a binary file or as a C header. */
#include "array.h"
#include "commands.h"
#include "refusal.h"
#include "scanboot.h"

/* Measuring takes no order. So the conversion is asked first, without room: it asks every rule of the call in its order,
 * and of one that breaks none says that there is no room. */
static struct bytes converted(struct input input)
{
    struct bytes file = input.content, row = input.patterns.row;
    struct outcome asked =
        outcome_of(scanboot_convert_with(file.at, file.length, NULL, 0, row.at, row.length, input.order));
    if (asked.code != SCANBOOT_OUTPUT_TOO_SHORT)
        refuse(asked, input, 0);
    struct bytes image =
        make_room(scanboot_image_length(scanboot_measure_with(file.at, file.length, row.at, row.length)));
    unless_refused(outcome_of(scanboot_convert_with(file.at, file.length, image.at, image.length, row.at, row.length,
                                                    input.order)),
                   input, 0);
    return image;
}

void convert(const struct words *words)
{
    const char *name = words->option[ARRAY];
    const char *output = words->option[OUTPUT];
    if (name == NULL)
        need(words, OUTPUT);
    else if (!is_c_name(name))
        misused("not a name in C: ", name);
    else if (is_reserved(name))
        misused("a name that C or C++ reserves: ", name);
    else if (is_librarys(name))
        misused("a name of the library's own: ", name);
    struct input input = take(words, 0, TO_CONVERT);
    struct bytes image = converted(input);
    struct skipped skipped = skip_in(input);
    if (name == NULL) {
        write_file(output, image);
        return;
    }
    struct program program = coff_program(input.path, input.content, skipped);
    write_file(output != NULL ? output : "-", c_array(name, &program, image, input.order));
}
