#include "headers.h"
#include "kind.h"
#include "reason.h"
#include "scanboot.h"

#include <stdlib.h>

/* Rules 1 to 9: a field of the headers, and what it says. */

static void too_short(struct reason *reason, struct bytes file)
{
    add(&reason->sentence, "its header ends at byte %zu: ", file.length);
    add_bytes_of(&reason->sentence, FILE_HEADER - file.length);
    add(&reason->sentence, " missing");
    note(reason, "length", file.length);
    note(reason, "missing", FILE_HEADER - file.length);
}

static void other_target(struct reason *reason, uint32_t target)
{
    const char *name = target_name(target);
    add(&reason->sentence, "its target is %04Xh", target);
    if (name != NULL)
        add(&reason->sentence, ", the %s", name);
    note(reason, "target", target);
}

static void headers_cut(struct reason *reason, struct bytes file)
{
    uint64_t missing = headers_end(file) - file.length;
    uint32_t sections = file_header(file).sections;
    add(&reason->sentence, "%u section header%s end at byte %llu, and the file at byte %zu: ", sections,
        sections == 1 ? " would" : "s would", (unsigned long long)headers_end(file), file.length);
    add_bytes_of(&reason->sentence, missing);
    add(&reason->sentence, " missing; %u are whole", headers_in(file));
    note(reason, "sections", sections);
    note(reason, "whole", headers_in(file));
    note(reason, "missing", missing);
}

static void field(struct reason *reason, const char *what, const char *name, uint32_t value)
{
    add(&reason->sentence, "%s %04Xh", what, value);
    note(reason, name, value);
}

static void of_headers(struct reason *reason, struct bytes file, unsigned code)
{
    if (code == SCANBOOT_FILE_TOO_SHORT) {
        too_short(reason, file);
        return;
    }
    struct file_header header = file_header(file);
    if (code == SCANBOOT_FILE_VERSION)
        field(reason, "its version is", "version", header.version);
    else if (code == SCANBOOT_TARGET)
        other_target(reason, header.target);
    else if (code == SCANBOOT_UNRESOLVED)
        field(reason, "its flags are", "flags", header.flags);
    else if (code == SCANBOOT_HEADERS_CUT)
        headers_cut(reason, file);
    else if (code == SCANBOOT_MAGIC)
        field(reason, "its magic number is", "magic", half_at(file.at + FILE_HEADER));
    else if (code == SCANBOOT_OPTIONAL_SIZE) {
        add(&reason->sentence, "the size is %u", header.optional);
        note(reason, "size", header.optional);
    } else {
        add(&reason->sentence, "it says that it has %u", header.sections);
        note(reason, "sections", header.sections);
    }
}

/* Rule 16: where a name should stand. */
static void no_name(struct reason *reason, struct bytes file)
{
    uint32_t number = unreadable_name(file), offset = name_offset(file, number);
    struct string_table table = string_table(file);
    unsigned long long at = table.at, begin = at + offset;
    add(&reason->sentence, "the name of section %u begins at byte %u of the string table", number, offset);
    note(reason, "section", number);
    note(reason, "offset", offset);
    if (offset < 4) {
        add(&reason->sentence, ", inside the table's own size, its first 4 bytes");
    } else if (at + 4 > file.length || (offset < table.size && begin >= file.length)) {
        add(&reason->sentence, ", which would begin at byte %llu; the file ends at byte %zu", at, file.length);
        note(reason, "table", at);
        note(reason, "length", file.length);
    } else if (offset >= table.size) {
        add(&reason->sentence, ", which has ");
        add_bytes_of(&reason->sentence, table.size);
        note(reason, "size", table.size);
    } else {
        add(&reason->sentence, ", byte %llu of the file, and no zero byte ends it before the %s does at byte %llu",
            begin, table.end < file.length ? "table" : "file", (unsigned long long)table.end);
        note(reason, "begin", begin);
        note(reason, "end", table.end);
    }
}

/* Rules 10 to 13: a section. */

static void raw_data(struct reason *reason, struct bytes file, uint32_t number)
{
    struct section_header header = section_header(file, number);
    uint64_t begin = header.raw, end = begin + header.size, least = headers_end(file);
    add(&reason->sentence, " has raw data from byte %llu to byte %llu", (unsigned long long)begin,
        (unsigned long long)end);
    note(reason, "begin", begin);
    note(reason, "end", end);
    if (begin < least) {
        add(&reason->sentence, "; it begins ");
        add_bytes_of(&reason->sentence, least - begin);
        add(&reason->sentence, " before the headers' end at byte %llu", (unsigned long long)least);
        note(reason, "headers_end", least);
        note(reason, "before", least - begin);
    }
    if (end > file.length) {
        add(&reason->sentence, "; it passes the file's end at byte %zu by ", file.length);
        add_bytes_of(&reason->sentence, end - file.length);
        note(reason, "length", file.length);
        note(reason, "over", end - file.length);
    }
}

static void meeting(struct reason *reason, struct bytes file, uint32_t number, const struct skipped *skipped)
{
    struct block later = section_block(file, number);
    uint32_t first, last;
    for (uint32_t i = 0; i < number; i++) {
        struct block earlier = section_block(file, i);
        if (why_out(file, skipped, i) != NULL || !shared(later, earlier, &first, &last))
            continue;
        add(&reason->sentence, " meets ");
        add_section(&reason->sentence, file, i);
        note(reason, "meets", i);
        add_shared(reason, later, earlier);
        return;
    }
}

static void of_section(struct reason *reason, struct bytes file, struct outcome outcome, const struct skipped *skipped)
{
    uint32_t number = (uint32_t)outcome.index;
    struct section_header header = section_header(file, number);
    add_section(&reason->sentence, file, number);
    if (outcome.code == SCANBOOT_RAW_DATA)
        raw_data(reason, file, number);
    else if (outcome.code == SCANBOOT_SECTION_LOAD)
        add_passing(reason, "load", header.load, header.size);
    else if (outcome.code == SCANBOOT_SECTION_RUN)
        add_passing(reason, "run", header.run, header.size);
    else
        meeting(reason, file, number, skipped);
}

static void too_long_an_image(struct reason *reason, struct bytes file, const struct skipped *skipped)
{
    struct program program = coff_program("", file, *skipped);
    add(&reason->sentence, "it would have ");
    add_bytes_of(&reason->sentence, program.image);
    add(&reason->sentence, ", %llu too many", (unsigned long long)(program.image - SCANBOOT_MOST_BYTES));
    note(reason, "image", program.image);
    note(reason, "over", program.image - SCANBOOT_MOST_BYTES);
    forget_program(&program);
}

struct reason why_no_patterns(struct patterns patterns)
{
    struct reason reason = { .count = 0 };
    struct wrong_patterns wrong = wrong_patterns(patterns);
    add_wrong_patterns(&reason.sentence, patterns);
    note(&reason, wrong.too_many ? "patterns" : "pattern", wrong.too_many ? patterns.count : wrong.number);
    if (!wrong.too_many)
        note(&reason, "bytes", wrong.length);
    return reason;
}

struct reason why_no_file(struct bytes file, struct outcome outcome, const struct skipped *skipped)
{
    struct reason reason = { .count = 0 };
    switch (outcome.code) {
    case SCANBOOT_OK: break;
    case SCANBOOT_FILE_TOO_LONG: add(&reason.sentence, "no more of it was read"); break;
    case SCANBOOT_RAW_DATA:
    case SCANBOOT_SECTION_LOAD:
    case SCANBOOT_SECTION_RUN:
    case SCANBOOT_SECTIONS_MEET: of_section(&reason, file, outcome, skipped); break;
    case SCANBOOT_IMAGE_WOULD_BE_TOO_LONG: too_long_an_image(&reason, file, skipped); break;
    case SCANBOOT_SECTION_NAME: no_name(&reason, file); break;
    default: of_headers(&reason, file, outcome.code);
    }
    return reason;
}
