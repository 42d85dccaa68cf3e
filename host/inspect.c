/* inspect: what can be said of any file, refused or not. It never refuses. */
#include "inspect.h"
#include "commands.h"
#include "headers.h"
#include "left_out.h"
#include "order.h"
#include "scanboot.h"

#include <stdlib.h>
#include <string.h>

int has_headers(const struct inspected *inspected)
{
    return inspected->kind == IS_COFF && inspected->content.length >= FILE_HEADER;
}

int has_blocks(const struct inspected *inspected)
{
    return is_like_image(inspected->kind);
}

/* The kept sections by their headers and names: the file may be one that is refused. */
static struct program kept_sections(struct bytes file, const struct skipped *skipped)
{
    struct program program = { .part = "section", .sections = headers_in(file), .entry = entry_of(file) };
    program.names = section_names(file);
    program.blocks = room_of(program.sections, sizeof *program.blocks);
    for (uint32_t i = 0; i < program.sections; i++)
        if (why_out(file, skipped, i) == NULL)
            program.blocks[program.count++] = section_block(file, i);
    return program;
}

static uint32_t entry_in(struct bytes image, uint32_t order)
{
    if (image.length < SCANBOOT_FIRST_PLACE)
        return 0;
    return order & SCANBOOT_ORDER_NUMBERS ? turned_number_at(image.at) : number_at(image.at);
}

/* The blocks up to where the image breaks a rule in this order. */
static struct program blocks_up_to(struct bytes image, uint32_t order)
{
    struct program program = { .part = "block", .entry = entry_in(image, order) };
    struct outcome outcome = ask_image(image, order);
    unsigned code = outcome.code;
    int broken = code == SCANBOOT_BLOCK_LOAD || code == SCANBOOT_BLOCK_RUN || code == SCANBOOT_PADDING;
    size_t most = broken ? (size_t)outcome.index + 1 : 4096;
    uint64_t place = SCANBOOT_FIRST_PLACE;
    program.blocks = room_of(most, sizeof *program.blocks);
    while (program.count < most && next_block(image, order, &place, &program.blocks[program.count])) {
        program.blocks[program.count].number = (uint32_t)program.count;
        program.count++;
    }
    return program;
}

static struct text *remark(struct inspected *inspected)
{
    if (inspected->count == MOST_REMARKS)
        abort();
    return &inspected->remarks[inspected->count++];
}

/* Whether patterns are asked of a section whose name cannot be read: nobody knows what they would leave of the file. */
static int lacks_a_name(const struct inspected *inspected)
{
    struct bytes file = inspected->content;
    return inspected->skipped.patterns.count > 0 && unreadable_name(file) < headers_in(file);
}

/* Whether no section or block is left out that could hold the entry point. */
static int shows_all(const struct inspected *inspected)
{
    unsigned code = inspected->as_image.code;
    if (!has_headers(inspected))
        return inspected->orders != 0 || code == SCANBOOT_BYTES_FOLLOW || code == SCANBOOT_BLOCKS_MEET;
    struct file_header header = file_header(inspected->content);
    return header.sections == headers_in(inspected->content) &&
           (header.optional == 0 || header.optional == OPTIONAL_HEADER) && !lacks_a_name(inspected);
}

static void remark_on_entry(struct inspected *inspected)
{
    const struct program *program = &inspected->program;
    inspected->entered = entered_in(program);
    if (inspected->entered.start == LOADED_AND_RUNS || !shows_all(inspected))
        return;
    if (program->count == 0)
        add(remark(inspected), "there is no %s: nothing would be loaded",
            has_headers(inspected) ? "kept section" : "block");
    else
        add_entered(remark(inspected), program);
}

static void remark_on_headers(struct inspected *inspected)
{
    struct file_header header = file_header(inspected->content);
    if (header.optional == 0)
        add(remark(inspected), "there is no optional header, so the entry point is taken to be 0");
    if (header.flags & BIG)
        add(remark(inspected), "its target is big-endian (flag 0200h): the numbers in headers and images are "
                               "little-endian in any case, and raw data is copied as it stands");
}

/* A pattern that takes nothing may be a slip; of what has no sections, none can take any. */
static void remark_on_patterns(struct inspected *inspected)
{
    struct text idle = { NULL, 0, 0 };
    if (inspected->patterns.count > 0 && !has_headers(inspected))
        add(&idle, "the patterns say nothing of it: it has no section names that can be read");
    else if (!lacks_a_name(inspected))
        add_idle(&idle, &inspected->skipped);
    if (idle.length > 0)
        *remark(inspected) = idle;
}

static void remark_on_kind(struct inspected *inspected)
{
    if (inspected->kind == IS_TURNED_COFF)
        add(remark(inspected), "its headers are big-endian; here they are read little-endian, whatever the target's "
                               "own byte order is");
    if (inspected->kind == IS_ELF)
        add(remark(inspected), "an image is made from a COFF file: compile and link for the COFF ABI (--abi=coffabi)");
}

/* What the library says of it as an image, and why; and in which orders it takes it. */
static void read_as_image(struct inspected *inspected)
{
    struct bytes image = inspected->content;
    inspected->as_image = ask_image(image, SCANBOOT_ORDER_PLAIN);
    inspected->no_image = why_no_image(image, inspected->as_image);
    inspected->orders = orders_taking(image);
    while (inspected->orders != 0 && !(inspected->orders & IN_ORDER(inspected->order)))
        inspected->order++;
}

/* What the library says of it as a COFF file, and why. */
static scanboot_conversion measure(struct inspected *inspected)
{
    struct bytes file = inspected->content, row = inspected->patterns.row;
    scanboot_conversion measured = scanboot_measure_with(file.at, file.length, row.at, row.length);
    inspected->as_coff = outcome_of(measured);
    int refused = inspected->as_coff.code == SCANBOOT_PATTERNS;
    inspected->skipped = skipped_in(file, refused || !has_headers(inspected) ? no_patterns : inspected->patterns);
    inspected->no_coff = refused ? why_no_patterns(inspected->patterns)
                                 : why_no_file(file, inspected->as_coff, &inspected->skipped);
    return measured;
}

struct inspected look_at(const char *path, struct bytes content)
{
    return look_at_with(path, content, no_patterns);
}

struct inspected look_at_with(const char *path, struct bytes content, struct patterns patterns)
{
    struct inspected inspected;
    memset(&inspected, 0, sizeof inspected);
    inspected.path = path;
    inspected.content = content;
    inspected.patterns = patterns;
    inspected.length = content.length > SCANBOOT_MOST_BYTES ? length_of_file(path) : content.length;
    inspected.kind = kind_of(content);
    scanboot_conversion measured = measure(&inspected);
    read_as_image(&inspected);
    if (has_headers(&inspected))
        inspected.program = kept_sections(content, &inspected.skipped);
    else if (has_blocks(&inspected))
        inspected.program = blocks_up_to(content, inspected.order);
    inspected.program.image = scanboot_image_length(measured);
    if (has_headers(&inspected) || has_blocks(&inspected))
        remark_on_entry(&inspected);
    if (has_headers(&inspected))
        remark_on_headers(&inspected);
    remark_on_kind(&inspected);
    remark_on_patterns(&inspected);
    return inspected;
}

void forget(struct inspected *inspected)
{
    free(inspected->no_coff.sentence.at);
    free(inspected->no_image.sentence.at);
    free(inspected->program.names);
    free(inspected->program.blocks);
    forget_skipped(&inspected->skipped);
    for (size_t i = 0; i < inspected->count; i++)
        free(inspected->remarks[i].at);
}

void inspect(const struct words *words)
{
    const char *path = words->file[0];
    struct inspected inspected = look_at_with(path, read_bytes(path), patterns_in(words));
    struct text text = { NULL, 0, 0 };
    if (words->option[JSON] != NULL)
        add_json(&text, &inspected);
    else
        add_plain(&text, &inspected);
    write_output(as_bytes(text));
}
