#include "array.h"
#include "headers.h"
#include "names.h"
#include "scanboot.h"
#include "text.h"

#include <ctype.h>
#include <string.h>
#include <strings.h>

/* The words of C to C23 and of C++ to C++23 that begin with a letter, and main,
 * which can be no array in C++. */
static const char *const own_words[] = {
    "alignas", "alignof", "and", "and_eq", "asm", "auto", "bitand", "bitor", "bool", "break", "case", "catch", "char",
    "char8_t", "char16_t", "char32_t", "class", "co_await", "co_return", "co_yield", "compl", "concept", "const",
    "const_cast", "consteval", "constexpr", "constinit", "continue", "decltype", "default", "delete", "do", "double",
    "dynamic_cast", "else", "enum", "explicit", "export", "extern", "false", "float", "for", "friend", "goto", "if",
    "inline", "int", "long", "main", "mutable", "namespace", "new", "noexcept", "not", "not_eq", "nullptr", "operator",
    "or", "or_eq", "private", "protected", "public", "register", "reinterpret_cast", "requires", "restrict", "return",
    "short", "signed", "sizeof", "static", "static_assert", "static_cast", "struct", "switch", "template", "this",
    "thread_local", "throw", "true", "try", "typedef", "typeid", "typename", "typeof", "typeof_unqual", "union",
    "unsigned", "using", "virtual", "void", "volatile", "wchar_t", "while", "xor", "xor_eq",
};

static int is_plain(char c)
{
    return (c >= 'a' && c <= 'z') || (c >= 'A' && c <= 'Z') || (c >= '0' && c <= '9') || c == '_';
}

int is_c_name(const char *name)
{
    if (name[0] == '\0' || (name[0] >= '0' && name[0] <= '9') || strlen(name) > 200)
        return 0;
    for (const char *c = name; *c != '\0'; c++)
        if (!is_plain(*c))
            return 0;
    for (size_t i = 0; i < sizeof own_words / sizeof own_words[0]; i++)
        if (strcmp(name, own_words[i]) == 0)
            return 0;
    return 1;
}

/* The array stands outside of any function, where every first underscore is
 * reserved; a last one and that of NAME_LENGTH would be two in a row. */
int is_reserved(const char *name)
{
    return name[0] == '_' || name[strlen(name) - 1] == '_' || strstr(name, "__") != NULL;
}

/* In any case: the macro NAME_LENGTH is in capitals. */
int is_librarys(const char *name)
{
    return strncasecmp(name, "scanboot_", strlen("scanboot_")) == 0;
}

/* NAME for the names of macros. */
static void add_upper(struct text *text, const char *name)
{
    for (; *name != '\0'; name++)
        add(text, "%c", toupper((unsigned char)*name));
}

/* A file's name inside a comment, which must not end the comment. */
static void add_harmless(struct text *text, const char *name)
{
    for (; *name != '\0'; name++)
        add(text, "%c", is_plain(*name) || strchr(".-+ ", *name) != NULL ? *name : '_');
}

/* A section's name or a pattern inside a comment. Without a slash none ends or begins there; a backslash and what is
 * no plain letter or sign are written as hexadecimal numbers, so that two names that differ look different. */
static void add_in_comment(struct text *text, const char *name)
{
    for (const unsigned char *c = (const unsigned char *)name; *c != '\0'; c++)
        add(text, *c > 0x20 && *c < 0x7f && *c != '/' && *c != '\\' ? "%c" : "\\x%02X", *c);
}

static void add_section_in_comment(struct text *text, const struct program *file, uint32_t number)
{
    const char *name = file->names[number];
    add(text, "section %u", number);
    if (name == NULL || name[0] == '\0')
        return;
    add(text, " (");
    add_in_comment(text, name);
    add(text, ")");
}

/* What stands reversed in it. */
static void add_order(struct text *text, uint32_t order)
{
    static const char *const reversed[] = {
        [SCANBOOT_ORDER_NUMBERS] = "entry point, sizes and addresses stand reversed in each four bytes",
        [SCANBOOT_ORDER_DATA] = "the blocks' bytes stand reversed in each four",
        [SCANBOOT_ORDER_BIG] = "each four bytes of it stand reversed",
    };
    if (order != SCANBOOT_ORDER_PLAIN)
        add(text, "\n * Byte order %u: %s.", order, reversed[order]);
}

/* With which patterns it was made, and what they have left out. */
static void add_skipped(struct text *text, const struct program *file)
{
    const struct skipped *skipped = &file->skipped;
    for (size_t i = 0; i < skipped->patterns.count; i++) {
        add(text, i == 0 ? "\n * Made with --skip '" : " --skip '");
        add_in_comment(text, skipped->patterns.at[i]);
        add(text, "'");
    }
    for (uint32_t number = 0; number < skipped->sections; number++) {
        if (!is_left_out(file->file, skipped, number))
            continue;
        add(text, "\n * left out: ");
        add_section_in_comment(text, file, number);
        add(text, ", size %u, by '", section_header(file->file, number).size);
        add_in_comment(text, skipped->by[number]);
        add(text, "'");
    }
    if (skipped->patterns.count > 0 && left_out_in(file->file, skipped) == 0)
        add(text, "\n * left out: nothing");
}

/* Twelve bytes to a line: as many as stand before a block's raw bytes. */
static void add_bytes(struct text *text, const uint8_t *bytes, size_t length, int last)
{
    static const char digits[] = "0123456789abcdef";
    for (size_t i = 0; i < length; i++) {
        char *end = more_room(text, 16);
        size_t n = 0;
        if (i % 12 == 0)
            n = (size_t)(stpcpy(end, "    ") - end);
        end[n++] = '0';
        end[n++] = 'x';
        end[n++] = digits[bytes[i] >> 4];
        end[n++] = digits[bytes[i] & 15];
        if (i + 1 < length || !last)
            end[n++] = ',';
        end[n++] = i % 12 == 11 || i + 1 == length ? '\n' : ' ';
        text->length += n;
    }
}

/* The image has a block for each kept section, in their order. Its bytes are those that it has in its byte order. */
struct bytes c_array(const char *name, const struct program *file, struct bytes image, uint32_t order)
{
    struct program program = image_program(file->path, image, order);
    const uint8_t *place = image.at + SCANBOOT_FIRST_PLACE;
    struct text text = { NULL, 0, 0 };
    add(&text, "/* Boot image for a TI C6000, made from ");
    add_harmless(&text, last_part(file->path));
    add(&text, " by scanboot %s:\n * entry point %08X, %zu block%s, %zu bytes.", SCANBOOT_VERSION_TEXT, program.entry,
        program.count, program.count == 1 ? "" : "s", image.length);
    add_order(&text, order);
    add_skipped(&text, file);
    add(&text, " */\n");
    /* no other header has such a guard: it keeps the case of NAME, and its own prefix begins no NAME */
    add(&text, "#ifndef SCANBOOT_C_ARRAY_%s\n#define SCANBOOT_C_ARRAY_%s\n\n#define ", name, name);
    add_upper(&text, name);
    add(&text, "_LENGTH %zuul\n\nstatic const unsigned char %s[] = {\n    /* entry point %08X */\n", image.length, name,
        program.entry);
    add_bytes(&text, image.at, 4, 0);
    for (size_t i = 0; i < program.count; i++) {
        struct block block = program.blocks[i];
        size_t length = 12 + ((size_t)block.size + 3) / 4 * 4;
        add(&text, "    /* block %u: ", block.number);
        add_section_in_comment(&text, file, file->blocks[i].number);
        add(&text, ", size %u, load address %08X, run address %08X */\n", block.size, block.load, block.run);
        add_bytes(&text, place, length, 0);
        place += length;
    }
    add(&text, "    /* end flag */\n");
    add_bytes(&text, image.at + image.length - 4, 4, 1);
    add(&text, "};\n\n#endif\n");
    return as_bytes(text);
}
