#include "kind.h"
#include "headers.h"
#include "order.h"
#include "scanboot.h"

#include <ctype.h>
#include <stdio.h>
#include <string.h>

const char *target_name(uint32_t target)
{
    static const struct {
        uint32_t number;
        const char *name;
    } targets[] = {
        { 0x93, "C3x/C4x" }, { 0x97, "TMS470" }, { 0x98, "C5400" },  { 0x99, "C6000" },
        { 0x9c, "C5500" },   { 0x9d, "C2800" },  { 0xa0, "MSP430" },
    };
    for (size_t i = 0; i < sizeof targets / sizeof targets[0]; i++)
        if (targets[i].number == target)
            return targets[i].name;
    return NULL;
}

/* In version 0 the target stands in the version's place, and there is no other; a header
 * has 20 bytes and that of a section 40. */
static int is_coff_0(struct bytes content)
{
    if (content.length < 20 || target_name(half_at(content.at)) == NULL)
        return 0;
    uint32_t sections = half_at(content.at + 2), optional = half_at(content.at + 16);
    return sections > 0 && (optional == 0 || optional == OPTIONAL_HEADER) &&
           20 + optional + 40 * (size_t)sections <= content.length;
}

static enum kind kind_of_coff(struct bytes content)
{
    uint32_t version = content.length < 2 ? 0 : half_at(content.at);
    if (version == 0xc2)
        return IS_COFF;
    if (is_coff_0(content))
        return IS_COFF_0;
    if (content.length < FILE_HEADER)
        return IS_OTHER;
    if (version == 0xc1 && target_name(file_header(content).target) != NULL)
        return IS_COFF_1;
    uint32_t turned = turned_half_at(content.at);
    int either = turned == 0xc1 || turned == 0xc2;
    return either && target_name(turned_half_at(content.at + 20)) != NULL ? IS_TURNED_COFF : IS_OTHER;
}

/* How many hexadecimal digits stand from `at` on. */
static size_t digits_at(struct bytes content, size_t at)
{
    size_t count = 0;
    while (at + count < content.length && isxdigit(content.at[at + count]))
        count++;
    return count;
}

static unsigned byte_in_digits(const uint8_t *at)
{
    char digits[] = { (char)at[0], (char)at[1], '\0' };
    unsigned value;
    return sscanf(digits, "%x", &value) == 1 ? value : 0;
}

/* A first record whose count of bytes is right: a mark, the count in two digits, and as
 * many bytes and `more` behind it. */
static int is_record(struct bytes content, size_t mark, unsigned more)
{
    size_t digits = content.length > mark ? digits_at(content, mark) : 0;
    return digits >= 2 && digits == 2 + 2 * (size_t)(byte_in_digits(content.at + mark) + more);
}

/* No control character but those of a text, and no byte that UTF-8 never has. */
static int is_printed(uint8_t c)
{
    if (c < 0x20)
        return c == '\t' || c == '\n' || c == '\f' || c == '\r';
    return c != 0x7f && c != 0xc0 && c != 0xc1 && c < 0xf5;
}

static int is_text(struct bytes content)
{
    size_t i = 0;
    while (i < content.length && is_printed(content.at[i]))
        i++;
    return i == content.length;
}

/* A block that is whole, or one that is cut and whose size and addresses could be so. */
static int begins_as_image(struct bytes content)
{
    uint64_t place = SCANBOOT_FIRST_PLACE;
    struct block block;
    if (next_block(content, SCANBOOT_ORDER_PLAIN, &place, &block))
        return 1;
    if (content.length < SCANBOOT_FIRST_PLACE + 12)
        return 0;
    const uint8_t *header = content.at + SCANBOOT_FIRST_PLACE;
    uint64_t size = number_at(header), last = (uint64_t)1 << 32;
    return size > 0 && size < SCANBOOT_MOST_BYTES && number_at(header + 4) + size <= last &&
           number_at(header + 8) + size <= last;
}

enum kind kind_of(struct bytes content)
{
    if (content.length == 0)
        return IS_EMPTY;
    if (ask_coff(content, no_patterns).code == SCANBOOT_OK)
        return IS_COFF;
    unsigned orders = orders_taking(content);
    if (orders != 0)
        return orders & IN_ORDER(SCANBOOT_ORDER_PLAIN) ? IS_IMAGE : IS_TURNED_IMAGE;
    if (content.length >= 4 && memcmp(content.at, "\177ELF", 4) == 0)
        return IS_ELF;
    enum kind coff = kind_of_coff(content);
    if (coff != IS_OTHER)
        return coff;
    if (content.at[0] == ':' && is_record(content, 1, 4))
        return IS_HEX;
    if (content.length > 1 && content.at[0] == 'S' && isdigit(content.at[1]) && is_record(content, 2, 0))
        return IS_S_RECORDS;
    if (is_text(content))
        return IS_TEXT;
    return begins_as_image(content) ? IS_BROKEN_IMAGE : IS_OTHER;
}

int is_like_image(enum kind kind)
{
    return kind == IS_IMAGE || kind == IS_TURNED_IMAGE || kind == IS_BROKEN_IMAGE;
}

const char *kind_name(enum kind kind)
{
    static const char *const names[] = {
        [IS_EMPTY] = "an empty file",
        [IS_COFF] = "a COFF file of version 2",
        [IS_COFF_1] = "a COFF file of version 1",
        [IS_COFF_0] = "a COFF file of version 0",
        [IS_TURNED_COFF] = "a COFF file of the other byte order",
        [IS_IMAGE] = "a boot image",
        [IS_TURNED_IMAGE] = "a boot image of another byte order",
        [IS_BROKEN_IMAGE] = "perhaps a boot image",
        [IS_ELF] = "an ELF file",
        [IS_HEX] = "an Intel Hex file",
        [IS_S_RECORDS] = "a file of Motorola S-records",
        [IS_TEXT] = "a text file",
        [IS_OTHER] = "a file of no kind that is known here",
    };
    return names[kind];
}

#define CHECK_TAKES "check takes FILE, then IMAGE"

/* The kind that is easily given instead, what is asked then, and what the command takes. */
static const struct {
    enum kind mistaken;
    const char *question;
    const char *takes;
} advice[] = {
    [TO_CONVERT] = { IS_IMAGE, "is it an image? convert takes the linker's COFF file",
                     "convert takes the linker's COFF file" },
    [TO_LIST] = { IS_IMAGE, "is it an image? then blocks", "list takes the linker's COFF file" },
    [TO_COUNT] = { IS_IMAGE, "is it an image? stats takes the linker's COFF file",
                   "stats takes the linker's COFF file" },
    [TO_SHOW] = { IS_COFF, "is it a COFF file? then list", "blocks takes a boot image" },
    [TO_LOAD] = { IS_COFF, "is it a COFF file? then --coff", "load takes a boot image" },
    [TO_LOAD_COFF] = { IS_IMAGE, "is it an image? then without --coff", "load --coff takes the linker's COFF file" },
    [TO_CHECK] = { IS_IMAGE, "is it an image? " CHECK_TAKES, CHECK_TAKES },
    [TO_CHECK_WITH] = { IS_COFF, "is it a COFF file? " CHECK_TAKES, CHECK_TAKES },
    [SWAPPED] = { IS_IMAGE, "the two may be swapped: " CHECK_TAKES, CHECK_TAKES },
    [TO_DRAW] = { IS_OTHER, NULL, "map takes the linker's COFF file or a boot image" },
};

/* Kinds that are told apart by more than what the library says. */
static int is_known(enum kind kind)
{
    return kind == IS_EMPTY || kind == IS_COFF_1 || kind == IS_COFF_0 || kind == IS_TURNED_COFF || kind == IS_ELF ||
           kind == IS_HEX || kind == IS_S_RECORDS || kind == IS_TEXT;
}

/* A refusal by the image's length, the room, the patterns or the window is not one of the input's kind;
 * and of one that is too long it is not asked whether it could be given otherwise. */
const char *hint_for(struct outcome outcome, struct bytes content, enum purpose purpose)
{
    static char hint[200];
    unsigned code = outcome.code;
    if (code == SCANBOOT_IMAGE_WOULD_BE_TOO_LONG || code == SCANBOOT_OUTPUT_TOO_SHORT || code == SCANBOOT_PATTERNS ||
        code >= SCANBOOT_WINDOW)
        return NULL;
    enum kind kind = kind_of(content);
    enum kind mistaken = advice[purpose].mistaken;
    int is_it = kind == mistaken || (mistaken == IS_IMAGE && is_like_image(kind));
    if (is_it && code != SCANBOOT_FILE_TOO_LONG && code != SCANBOOT_IMAGE_TOO_LONG)
        return advice[purpose].question;
    if (!is_known(kind))
        return NULL;
    snprintf(hint, sizeof hint, "it is %s: %s", kind_name(kind), advice[purpose].takes);
    return hint;
}
