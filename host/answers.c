#include "answers.h"
#include "headers.h"
#include "order.h"
#include "scanboot.h"

#include <stdio.h>
#include <stdlib.h>
#include <string.h>

struct bytes read_bytes(const char *path)
{
    return read_file(path, (size_t)SCANBOOT_MOST_BYTES + 1);
}

struct outcome outcome_in(uint64_t packed)
{
    struct outcome outcome = { scanboot_code_in(packed), scanboot_index_in(packed) };
    return outcome;
}

/* A file whose image would be too long is still one that can be listed and loaded. */
struct outcome ask_coff(struct bytes file, struct patterns patterns)
{
    struct bytes row = patterns.row;
    struct outcome outcome = outcome_of(scanboot_measure_with(file.at, file.length, row.at, row.length));
    struct outcome taken = { SCANBOOT_OK, 0 };
    return outcome.code == SCANBOOT_IMAGE_WOULD_BE_TOO_LONG ? taken : outcome;
}

struct outcome ask_image(struct bytes image, uint32_t order)
{
    return outcome_of(scanboot_read_image_with(image.at, image.length, order));
}

int next_block(struct bytes image, uint32_t order, uint64_t *place, struct block *block)
{
    scanboot_found found = scanboot_block_at_with(image.at, image.length, *place, order);
    scanboot_addresses addresses = scanboot_block_addresses_at_with(image.at, image.length, *place, order);
    if (scanboot_size(found) == 0)
        return 0;
    block->load = scanboot_load_address(addresses);
    block->run = scanboot_run_address(addresses);
    block->size = scanboot_size(found);
    block->raw = image.at + scanboot_offset(found);
    *place = scanboot_next_place(found);
    return 1;
}

static int is_same_block(struct block a, struct block b)
{
    return a.load == b.load && a.run == b.run && a.size == b.size && memcmp(a.raw, b.raw, a.size) == 0;
}

/* What is left of the file by this program's reading of names is what the library's own reading leaves of it: the image
 * that the library makes has these sections as its blocks. Of one that would be too long nothing but that is known. */
static void must_agree(const struct program *program)
{
    struct bytes file = program->file, row = program->skipped.patterns.row;
    int too_long = program->image > SCANBOOT_MOST_BYTES;
    struct bytes image = make_room(too_long ? 0 : (size_t)program->image);
    scanboot_conversion made = scanboot_convert_with(file.at, file.length, image.at, image.length, row.at, row.length,
                                                     SCANBOOT_ORDER_PLAIN);
    uint64_t place = SCANBOOT_FIRST_PLACE;
    struct block block;
    if (scanboot_code(made) != (too_long ? SCANBOOT_IMAGE_WOULD_BE_TOO_LONG : SCANBOOT_OK))
        abort();
    for (size_t i = 0; !too_long && i < program->count; i++)
        if (!next_block(image, SCANBOOT_ORDER_PLAIN, &place, &block) || !is_same_block(block, program->blocks[i]))
            abort();
    if (!too_long && next_block(image, SCANBOOT_ORDER_PLAIN, &place, &block))
        abort();
    free(image.at);
}

/* The figures are those of the library's listing; where the bytes stand in the
 * file is in the section's header. The listing takes no patterns: it is of the file in
 * which the sections that they take are marked. */
struct program coff_program(const char *path, struct bytes given, struct skipped skipped)
{
    struct bytes file = marked(given, &skipped);
    struct program program = { .path = path, .part = "section", .file = given, .skipped = skipped };
    struct bytes listing = make_room(SCANBOOT_LISTING_BYTES);
    unsigned sections, kept, number, load, run, size, entry;
    unsigned long long image;
    listing.at[scanboot_text_length(scanboot_list(file.at, file.length, listing.at, listing.length))] = 0;
    const char *line = (const char *)listing.at;
    if (sscanf(line, "coff sections %u kept %u entry %x", &sections, &kept, &entry) != 3)
        abort();
    program.entry = entry;
    program.sections = sections;
    program.blocks = room_of(kept, sizeof *program.blocks);
    for (line = strchr(line, '\n') + 1; program.count < kept; line = strchr(line, '\n') + 1) {
        if (sscanf(line, "%u load %x run %x size %u", &number, &load, &run, &size) != 4)
            abort();
        struct block block = { number, load, run, size, file.at + section_header(file, number).raw };
        program.blocks[program.count++] = block;
    }
    if (sscanf(line, "image %llu", &image) != 1)
        abort();
    program.image = image;
    program.names = section_names(file);
    program.copy = file.at != given.at ? file.at : NULL;
    if (skipped.patterns.count > 0)
        must_agree(&program);
    free(listing.at);
    return program;
}

void forget_program(struct program *program)
{
    free(program->names);
    free(program->blocks);
    free(program->copy);
}

struct program image_program(const char *path, struct bytes image, uint32_t order)
{
    struct program program = { .path = path, .part = "block", .order = order, .image = image.length };
    scanboot_reading reading = scanboot_read_image_with(image.at, image.length, order);
    size_t count = scanboot_blocks(reading);
    uint64_t place = SCANBOOT_FIRST_PLACE;
    program.entry = scanboot_entry(reading);
    program.blocks = room_of(count, sizeof *program.blocks);
    if (order & SCANBOOT_ORDER_DATA)
        program.copy = turned(image).at;
    while (program.count < count) {
        struct block *block = &program.blocks[program.count];
        if (!next_block(image, order, &place, block))
            abort();
        block->number = (uint32_t)program.count++;
        if (program.copy != NULL)
            block->raw = (const uint8_t *)program.copy + (block->raw - image.at);
    }
    return program;
}

static int compare_loads(const void *left, const void *right)
{
    uint32_t a = ((const struct block *)left)->load;
    uint32_t b = ((const struct block *)right)->load;
    return (a > b) - (a < b);
}

void sort_by_load(struct program *program)
{
    qsort(program->blocks, program->count, sizeof *program->blocks, compare_loads);
}

static int reaches(uint32_t first, uint32_t size, uint32_t address)
{
    return address >= first && address - first < size;
}

static enum start start_in(const struct block *block, uint32_t entry)
{
    if (reaches(block->load, block->size, entry))
        return block->load == block->run ? LOADED_AND_RUNS : ONLY_LOADED;
    return reaches(block->run, block->size, entry) ? ONLY_RUNS : IN_NO_BLOCK;
}

struct entered entered_in(const struct program *program)
{
    struct entered entered = { IN_NO_BLOCK, NULL };
    for (size_t i = 0; i < program->count; i++) {
        const struct block *block = &program->blocks[i];
        enum start start = start_in(block, program->entry);
        if (start > entered.start ||
            (start == entered.start && start != IN_NO_BLOCK && block->number < entered.block->number)) {
            entered.start = start;
            entered.block = block;
        }
    }
    return entered;
}

void add_entered(struct text *text, const struct program *program)
{
    struct entered entered = entered_in(program);
    const struct block *block = entered.block;
    if (entered.start == LOADED_AND_RUNS)
        return;
    add(text, "the entry point %08X lies ", program->entry);
    if (entered.start == ONLY_RUNS)
        add(text, "where %s %u runs: nothing stands there until it is moved from %08X", program->part, block->number,
            block->load);
    else if (entered.start == ONLY_LOADED)
        add(text, "where %s %u is loaded, but what stands there runs at %08X", program->part, block->number,
            block->run + (program->entry - block->load));
    else
        add(text, "in no %s%s", program->part, program->part[0] == 's' ? " that is loaded" : "");
}
