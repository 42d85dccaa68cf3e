/* The C face, called as a C program calls it, or one in C++, as which this compiles
 * too: empty buffers, patterns, byte orders, the codes' texts, answers taken apart, and
 * how they are handed over. Prints what failed, then how many passed and failed. */
#include "scanboot.h"

#include <stdio.h>
#include <string.h>

static unsigned passed, failed;

static void says(const char *what, int holds)
{
    if (holds)
        passed++;
    else {
        failed++;
        printf("failed: %s\n", what);
    }
}

#define is(answer, code, index) is_in((answer).packed, code, index)

static int is_in(uint64_t packed, unsigned code, uint64_t index)
{
    return scanboot_code_in(packed) == code && scanboot_index_in(packed) == index;
}

/* Entry A of the bench, and its image. */
static const uint8_t file_a[75] = {
    0xc2, 0, 1, 0, 0, 0, 0, 0, 0, 0, 0, 0, 0, 0, 0, 0, 0, 0, 2, 0, 0x99, 0,
    0, 0, 0, 0, 0, 0, 0, 0, 0, 0, 0, 0x80, 0, 4, 0, 0, 5, 0, 0, 0, 70, 0, 0, 0,
    0, 0, 0, 0, 0, 0, 0, 0, 0, 0, 0, 0, 0, 0, 0, 0, 0x20, 0, 0, 0, 0, 0, 0, 0,
    0x11, 0x22, 0x33, 0x44, 0x55
};
static const uint8_t image_a[28] = {
    0, 0, 0, 0, 5, 0, 0, 0, 0, 4, 0, 0, 0, 0, 0, 0x80, 0x11, 0x22, 0x33, 0x44, 0x55
};
/* No section and no block. */
static const uint8_t bare_file[22] = { 0xc2, 0, 0, 0, 0, 0, 0, 0, 0, 0, 0, 0, 0, 0, 0, 0, 0, 0, 2, 0, 0x99, 0 };
static const uint8_t bare_image[8] = { 0 };

/* NULL with length 0, at each place where a buffer goes. */
static void empty_buffers(void)
{
    uint8_t out[8];
    says("convert nothing into nothing", is(scanboot_convert(NULL, 0, NULL, 0), 2, 0));
    says("convert nothing", is(scanboot_convert(NULL, 0, out, sizeof out), 2, 0));
    says("convert into nothing", is(scanboot_convert(file_a, sizeof file_a, NULL, 0), 15, 0));
    says("list nothing", is(scanboot_list(NULL, 0, out, sizeof out), 2, 0));
    says("list into nothing", is(scanboot_list(file_a, sizeof file_a, NULL, 0), 15, 0));
    says("list nothing into nothing", is(scanboot_list(NULL, 0, NULL, 0), 2, 0));
    says("read nothing", is(scanboot_read_image(NULL, 0), 21, 0));
    says("a block of nothing", is(scanboot_block(NULL, 0, 0), 21, 0));
    says("addresses in nothing", scanboot_block_addresses(NULL, 0, 0).both == 0);
    says("measure nothing", is(scanboot_measure(NULL, 0), 2, 0));
    says("a place in nothing", is(scanboot_block_at(NULL, 0, 0), 21, 0));
    says("addresses at a place in nothing", scanboot_block_addresses_at(NULL, 0, 0).both == 0);
    says("load nothing", is(scanboot_load_image(NULL, 0, 0, NULL, 0), 21, 0));
    says("load into nothing", is(scanboot_load_image(image_a, sizeof image_a, 0x400, NULL, 0), 29, 0));
    says("load no block into nothing", scanboot_load_image(bare_image, sizeof bare_image, 0, NULL, 0).packed == 0);
    says("load no file", is(scanboot_load_coff(NULL, 0, 0, NULL, 0), 2, 0));
    says("load a file into nothing", is(scanboot_load_coff(file_a, sizeof file_a, 0x400, NULL, 0), 29, 0));
    says("load no section into nothing", scanboot_load_coff(bare_file, sizeof bare_file, 0, NULL, 0).packed == 0);
    says("check nothing", is(scanboot_check(NULL, 0, NULL, 0), 2, 0));
    says("check against nothing", is(scanboot_check(file_a, sizeof file_a, NULL, 0), 21, 0));
    says("check nothing against an image", is(scanboot_check(NULL, 0, image_a, sizeof image_a), 2, 0));
    says("measure nothing with nothing", is(scanboot_measure_with(NULL, 0, NULL, 0), 2, 0));
    says("convert into nothing with nothing", is(scanboot_convert_with(file_a, sizeof file_a, NULL, 0, NULL, 0, 0), 15, 0));
    says("read nothing in any order", is(scanboot_read_image_with(NULL, 0, 3), 21, 0));
    says("a block of nothing in any order", is(scanboot_block_with(NULL, 0, 0, 1), 21, 0));
    says("addresses in nothing in any order", scanboot_block_addresses_with(NULL, 0, 0, 1).both == 0);
    says("a place in nothing in any order", is(scanboot_block_at_with(NULL, 0, 0, 1), 21, 0));
    says("addresses at a place in nothing in any order", scanboot_block_addresses_at_with(NULL, 0, 0, 1).both == 0);
    says("load nothing in any order", is(scanboot_load_image_with(NULL, 0, 0, NULL, 0, 2), 21, 0));
    says("load into nothing with nothing", is(scanboot_load_coff_with(file_a, sizeof file_a, 0, NULL, 0, NULL, 0), 29, 0));
    says("check against nothing with nothing", is(scanboot_check_with(file_a, sizeof file_a, NULL, 0, NULL, 0, 0), 21, 0));
    says("no pattern takes no name", scanboot_takes(NULL, 0, NULL, 0) == 0);
}

/* A string as bytes. With its own zero byte at the end it is a row of patterns as well as without. */
#define row(string) (const uint8_t *)(string), sizeof(string)
#define bare(string) (const uint8_t *)(string), sizeof(string) - 1
#define with_name(string) named(string, sizeof(string) - 1), sizeof file_a

/* A with these bytes for its section's name. */
static const uint8_t *named(const char *name, size_t length)
{
    static uint8_t file[sizeof file_a];
    memcpy(file, file_a, sizeof file);
    memcpy(file + 22, name, length);
    return file;
}

/* The name of A's section has no bytes. */
static void patterns(void)
{
    uint8_t out[30], window[8], untouched[30];
    memset(out, 0xaa, sizeof out);
    memset(window, 0xaa, sizeof window);
    memset(untouched, 0xaa, sizeof untouched);
    scanboot_conversion made = scanboot_measure_with(file_a, sizeof file_a, row("*"));
    says("all is left out", is(made, SCANBOOT_OK, 0) && scanboot_image_length(made) == 8 && scanboot_kept(made) == 0);
    says("nothing is", scanboot_measure_with(file_a, sizeof file_a, row("?*")).packed ==
                           scanboot_measure(file_a, sizeof file_a).packed);
    made = scanboot_convert_with(file_a, sizeof file_a, out, sizeof out, row(".x\0*"), 0);
    says("converted without it", is(made, SCANBOOT_OK, 0) && memcmp(out, bare_image, 8) == 0 && out[8] == 0xaa);
    made = scanboot_convert_with(file_a, sizeof file_a, out, sizeof out, row(".x"), 0);
    says("and with it", is(made, SCANBOOT_OK, 0) && memcmp(out, image_a, sizeof image_a) == 0);
    says("with no pattern", scanboot_convert_with(file_a, sizeof file_a, out, 28, NULL, 0, 0).packed == made.packed);
    scanboot_loading loaded = scanboot_load_coff_with(file_a, sizeof file_a, 0x400, window, sizeof window, row("*"));
    says("loaded without it", loaded.packed == 0 && memcmp(window, untouched, sizeof window) == 0);
    loaded = scanboot_load_coff_with(file_a, sizeof file_a, 0x400, window, sizeof window, row("?"));
    says("and with it", is(loaded, SCANBOOT_OK, 0) && scanboot_placed(loaded) == 5);
    says("the same without it", is(scanboot_check_with(file_a, sizeof file_a, bare_image, 8, row("*"), 0), SCANBOOT_OK, 0));
    says("which its image is not", is(scanboot_check_with(file_a, sizeof file_a, image_a, 28, row("*"), 0), 41, 0));
    says("but with it", is(scanboot_check_with(file_a, sizeof file_a, image_a, 28, row("?"), 0), SCANBOOT_OK, 0));
}

/* The names that a row of patterns takes, with its last zero byte and without. */
static void rows(void)
{
    says("a name of eight bytes", scanboot_kept(scanboot_measure_with(with_name("abcdefgh"), row("abcdefgh"))) == 0);
    says("is not read on", scanboot_kept(scanboot_measure_with(with_name("abcdefgh"), row("abcdefgh?*"))) == 1);
    says("one of the first", scanboot_kept(scanboot_measure_with(with_name(".stack"), bare(".stack\0.test*"))) == 0);
    says("and of the second", scanboot_kept(scanboot_measure_with(with_name(".test1"), bare(".stack\0.test*"))) == 0);
    says("of neither", scanboot_kept(scanboot_measure_with(with_name(".tes"), bare(".stack\0.test*"))) == 1);
    /* what the header warns of */
    says("strlen ends at the first", scanboot_kept(scanboot_measure_with(with_name(".test1"), (const uint8_t *)".stack\0.test*",
                                                                         strlen(".stack\0.test*"))) == 1);
    says("a name of no bytes", scanboot_kept(scanboot_measure_with(with_name("\0bc"), row("*"))) == 0);
    says("one past the file", is(scanboot_measure_with(with_name("\0\0\0\0\377"), row("*")), SCANBOOT_SECTION_NAME, 0));
    says("which goes unread without patterns", is(scanboot_measure_with(with_name("\0\0\0\0\377"), NULL, 0), 0, 0));
    says("the table is where the symbols end", scanboot_kept(scanboot_measure_with(with_name("\0\0\0\0\26"), row("?*"))) == 1);
    says("takes", scanboot_takes(bare(".t?st*"), bare(".test")) == 1 && scanboot_takes(bare("*"), NULL, 0) == 1);
    says("takes not", scanboot_takes(bare(".t?st"), bare(".test2")) == 0 && scanboot_takes(bare("?"), NULL, 0) == 0);
}

/* Rule 17, before all others, whatever is asked: a row of too many, an empty one in each place, and one that is too long. */
static void refused_patterns(void)
{
    uint8_t out[30] = { 0 }, many[2 * SCANBOOT_MOST_PATTERNS + 1], wide[SCANBOOT_MOST_PATTERN_BYTES + 1];
    for (size_t i = 0; i < sizeof many; i++)
        many[i] = i % 2 == 0 ? 'x' : 0;
    memset(wide, 'x', sizeof wide);
    says("16 patterns", is(scanboot_measure_with(file_a, sizeof file_a, many, sizeof many - 1), SCANBOOT_OK, 0));
    says("17 patterns", is(scanboot_measure_with(file_a, sizeof file_a, many, sizeof many), SCANBOOT_PATTERNS, 0));
    says("64 bytes", is(scanboot_measure_with(file_a, sizeof file_a, wide, sizeof wide - 1), SCANBOOT_OK, 0));
    says("65 bytes", is(scanboot_measure_with(file_a, sizeof file_a, wide, sizeof wide), SCANBOOT_PATTERNS, 0));
    says("an empty one alone", is(scanboot_measure_with(NULL, 0, row("")), SCANBOOT_PATTERNS, 0));
    says("at the end", is(scanboot_measure_with(NULL, 0, row("x\0")), SCANBOOT_PATTERNS, 0));
    says("between", is(scanboot_convert_with(NULL, 0, out, 0, row("x\0\0y"), 0), SCANBOOT_PATTERNS, 0));
    says("before the window", is(scanboot_load_coff_with(NULL, 0, (uint64_t)1 << 33, out, 1, row("")), SCANBOOT_PATTERNS, 0));
    says("before the image", is(scanboot_check_with(file_a, sizeof file_a, NULL, 0, row(""), 0), SCANBOOT_PATTERNS, 0));
    says("before the order", is(scanboot_check_with(NULL, 0, NULL, 0, row(""), 4), SCANBOOT_PATTERNS, 0));
    says("of a conversion too", is(scanboot_convert_with(NULL, 0, NULL, 0, row(""), 4), SCANBOOT_PATTERNS, 0));
    says("a pattern that is none takes nothing", scanboot_takes(wide, sizeof wide, wide, sizeof wide) == 0);
    says("and one of 64 bytes does", scanboot_takes(wide, 64, wide, 64) == 1 && scanboot_takes(wide, 64, wide, 65) == 0);
}

/* The image of A in each order. */
static const uint8_t ordered_a[4][28] = {
    { 0, 0, 0, 0, 5, 0, 0, 0, 0, 4, 0, 0, 0, 0, 0, 0x80, 0x11, 0x22, 0x33, 0x44, 0x55 },
    { 0, 0, 0, 0, 0, 0, 0, 5, 0, 0, 4, 0, 0x80, 0, 0, 0, 0x11, 0x22, 0x33, 0x44, 0x55 },
    { 0, 0, 0, 0, 5, 0, 0, 0, 0, 4, 0, 0, 0, 0, 0, 0x80, 0x44, 0x33, 0x22, 0x11, 0, 0, 0, 0x55 },
    { 0, 0, 0, 0, 0, 0, 0, 5, 0, 0, 4, 0, 0x80, 0, 0, 0, 0x44, 0x33, 0x22, 0x11, 0, 0, 0, 0x55 },
};

/* In each order every call with an order answers as the one without it does of the image in order 0. */
static void orders(void)
{
    uint8_t untouched[30], plain[8];
    memset(untouched, 0xaa, sizeof untouched);
    memset(plain, 0xaa, sizeof plain);
    scanboot_loading placed = scanboot_load_image(image_a, sizeof image_a, 0x400, plain, sizeof plain);
    for (uint32_t order = SCANBOOT_ORDER_PLAIN; order <= SCANBOOT_ORDER_BIG; order++) {
        const uint8_t *image = ordered_a[order];
        const size_t length = sizeof image_a;
        uint8_t out[30], window[8];
        memset(out, 0xaa, sizeof out);
        memset(window, 0xaa, sizeof window);
        scanboot_conversion made = scanboot_convert_with(file_a, sizeof file_a, out, sizeof out, NULL, 0, order);
        says("converted in an order", made.packed == scanboot_measure(file_a, sizeof file_a).packed &&
                                          memcmp(out, image, length) == 0 && memcmp(out + length, untouched, 2) == 0);
        says("read in it", scanboot_read_image_with(image, length, order).packed ==
                               scanboot_read_image(image_a, length).packed);
        says("a place in it", scanboot_block_at_with(image, length, SCANBOOT_FIRST_PLACE, order).packed ==
                                  scanboot_block_at(image_a, length, SCANBOOT_FIRST_PLACE).packed);
        says("addresses at a place", scanboot_block_addresses_at_with(image, length, SCANBOOT_FIRST_PLACE, order).both ==
                                         (0x400 | (uint64_t)0x80000000u << 32));
        says("the end flag", scanboot_block_at_with(image, length, 24, order).packed == 0 &&
                                 scanboot_block_addresses_at_with(image, length, 24, order).both == 0);
        says("a block by its number",
             scanboot_block_with(image, length, 0, order).packed == scanboot_block(image_a, length, 0).packed);
        says("its addresses", scanboot_block_addresses_with(image, length, 0, order).both ==
                                  scanboot_block_addresses(image_a, length, 0).both);
        says("no other block", is(scanboot_block_with(image, length, 1, order), SCANBOOT_NO_SUCH_BLOCK, 0));
        scanboot_loading loaded = scanboot_load_image_with(image, length, 0x400, window, sizeof window, order);
        says("loaded in it", loaded.packed == placed.packed && memcmp(window, plain, sizeof window) == 0);
        says("of five bytes five", is(scanboot_load_image_with(image, length, 0x400, window, 5, order), SCANBOOT_OK, 0) &&
                                       is(scanboot_load_image_with(image, length, 0x400, window, 4, order), SCANBOOT_OUTSIDE, 0));
        says("the same in it", is(scanboot_check_with(file_a, sizeof file_a, image, length, NULL, 0, order), SCANBOOT_OK, 0));
        says("not without the section", is(scanboot_check_with(file_a, sizeof file_a, image, length, row("*"), order), 41, 0));
    }
}

/* An image that is told in another order: where numbers stand reversed a block of 5000000h bytes is cut, where the bytes do
 * the padding has one of them. */
static void mistaken_orders(void)
{
    uint8_t window[8], untouched[8];
    memset(window, 0xaa, sizeof window);
    memset(untouched, 0xaa, sizeof untouched);
    for (uint32_t order = 0; order < 4; order++)
        for (uint32_t told = 0; told < 4; told++) {
            const unsigned code = order == told ? SCANBOOT_OK : (order ^ told) == 2 ? SCANBOOT_PADDING : SCANBOOT_IMAGE_CUT;
            says("read as told", is(scanboot_read_image_with(ordered_a[order], 28, told), code, 0));
            if (code == SCANBOOT_OK)
                continue;
            says("not loaded as told", is(scanboot_load_image_with(ordered_a[order], 28, 0x400, window, 8, told), code, 0));
            says("not checked", is(scanboot_check_with(file_a, sizeof file_a, ordered_a[order], 28, NULL, 0, told), code, 0));
        }
    says("a refusal leaves the window", memcmp(window, untouched, sizeof window) == 0);
}

/* Rule 33, before all but 17, and with nothing changed. */
static void refused_orders(void)
{
    static const uint32_t none[] = { 4, 5, 0x100, 0x01000000, 0x80000000u, UINT32_MAX };
    uint8_t out[30], untouched[30];
    memset(out, 0xaa, sizeof out);
    memset(untouched, 0xaa, sizeof untouched);
    for (size_t i = 0; i < sizeof none / sizeof none[0]; i++) {
        const uint32_t order = none[i];
        says("converted in none", is(scanboot_convert_with(file_a, sizeof file_a, out, 30, NULL, 0, order), SCANBOOT_ORDER, 0));
        says("before the file", is(scanboot_convert_with(NULL, 0, NULL, 0, row(".x"), order), SCANBOOT_ORDER, 0));
        says("read in none", is(scanboot_read_image_with(image_a, 28, order), SCANBOOT_ORDER, 0));
        says("before the image", is(scanboot_read_image_with(NULL, 0, order), SCANBOOT_ORDER, 0));
        says("a place", is(scanboot_block_at_with(image_a, 28, 4, order), SCANBOOT_ORDER, 0));
        says("before the place", is(scanboot_block_at_with(image_a, 28, UINT64_MAX, order), SCANBOOT_ORDER, 0));
        says("no addresses there", scanboot_block_addresses_at_with(image_a, 28, 4, order).both == 0);
        says("a block", is(scanboot_block_with(image_a, 28, 0, order), SCANBOOT_ORDER, 0));
        says("before the number", is(scanboot_block_with(image_a, 28, 1, order), SCANBOOT_ORDER, 0));
        says("no addresses of it", scanboot_block_addresses_with(image_a, 28, 0, order).both == 0);
        says("loaded in none", is(scanboot_load_image_with(image_a, 28, 0x400, out, 8, order), SCANBOOT_ORDER, 0));
        says("before the window", is(scanboot_load_image_with(NULL, 0, (uint64_t)1 << 33, out, 1, order), SCANBOOT_ORDER, 0));
        says("checked in none", is(scanboot_check_with(file_a, sizeof file_a, image_a, 28, NULL, 0, order), SCANBOOT_ORDER, 0));
        says("before both", is(scanboot_check_with(NULL, 0, NULL, 0, row(".x"), order), SCANBOOT_ORDER, 0));
    }
    says("and nothing written", memcmp(out, untouched, sizeof out) == 0);
}

static void answers(void)
{
    uint8_t out[30];
    uint8_t window[8];
    scanboot_conversion made = scanboot_convert(file_a, sizeof file_a, out, sizeof out);
    says("A converts", is(made, SCANBOOT_OK, 0));
    says("the image's length", scanboot_image_length(made) == 28);
    says("its kept sections", scanboot_kept(made) == 1);
    says("the image", memcmp(out, image_a, sizeof image_a) == 0);
    says("A is measured so too", scanboot_measure(file_a, sizeof file_a).packed == made.packed);
    uint8_t plain[sizeof file_a];
    memcpy(plain, file_a, sizeof plain);
    plain[62] = 0;
    says("without a type it is measured so too", scanboot_measure(plain, sizeof plain).packed == made.packed);
    plain[62] = 0x80;
    says("of BSS nothing is kept", scanboot_kept(scanboot_measure(plain, sizeof plain)) == 0);
    made = scanboot_convert(file_a, sizeof file_a - 1, out, sizeof out);
    says("A cut is refused", is(made, SCANBOOT_RAW_DATA, 0));
    says("a refusal has no length", scanboot_image_length(made) == 0);
    says("A cut is not measured", scanboot_measure(file_a, sizeof file_a - 1).packed == made.packed);
    scanboot_reading read = scanboot_read_image(image_a, sizeof image_a);
    says("the image reads", is(read, SCANBOOT_OK, 0));
    says("its entry point", scanboot_entry(read) == 0);
    says("its blocks", scanboot_blocks(read) == 1);
    scanboot_loading loaded = scanboot_load_image(image_a, sizeof image_a, 0x400, window, sizeof window);
    says("the image loads", is(loaded, SCANBOOT_OK, 0));
    says("bytes placed", scanboot_placed(loaded) == 5);
    loaded = scanboot_load_coff(file_a, sizeof file_a, 0x400, window, sizeof window);
    says("the file loads", is(loaded, SCANBOOT_OK, 0) && scanboot_placed(loaded) == 5);
    says("a base beyond 32 bits", is(scanboot_load_coff(file_a, sizeof file_a, (uint64_t)1 << 32 | 0x400, window, 8), 28, 0));
    says("the check", is(scanboot_check(file_a, sizeof file_a, image_a, sizeof image_a), SCANBOOT_OK, 0));
}

/* The one block of A's image, asked for by its number and by its place. */
static void blocks(void)
{
    scanboot_found block = scanboot_block(image_a, sizeof image_a, 0);
    says("its block", is(block, SCANBOOT_OK, 0));
    says("the block's bytes", scanboot_offset(block) == 16);
    says("the block's size", scanboot_size(block) == 5);
    says("what follows it", scanboot_next_place(block) == 24);
    scanboot_addresses addresses = scanboot_block_addresses(image_a, sizeof image_a, 0);
    says("the block's load address", scanboot_load_address(addresses) == 0x400);
    says("the block's run address", scanboot_run_address(addresses) == 0x80000000u);
    says("the same at its place", scanboot_block_at(image_a, sizeof image_a, SCANBOOT_FIRST_PLACE).packed == block.packed);
    says("and its addresses",
         scanboot_block_addresses_at(image_a, sizeof image_a, SCANBOOT_FIRST_PLACE).both == addresses.both);
    block = scanboot_block(image_a, sizeof image_a, 1);
    says("there is no other block", is(block, SCANBOOT_NO_SUCH_BLOCK, 0));
    says("and no size of it", scanboot_size(block) == 0);
    says("nor of a number beyond 32 bits", is(scanboot_block(image_a, sizeof image_a, (uint64_t)1 << 32), 30, 0));
    says("behind it stands the end flag", scanboot_block_at(image_a, sizeof image_a, 24).packed == 0);
    says("without addresses", scanboot_block_addresses_at(image_a, sizeof image_a, 24).both == 0);
    says("behind that stands nothing", is(scanboot_block_at(image_a, sizeof image_a, 25), SCANBOOT_IMAGE_CUT, 0));
    says("nor past the image", is(scanboot_block_at(image_a, sizeof image_a, UINT64_MAX), SCANBOOT_IMAGE_CUT, 0));
    says("nor at a place beyond 32 bits", is(scanboot_block_at(image_a, sizeof image_a, (uint64_t)1 << 32 | 4), 21, 0));
    says("a block that is cut", is(scanboot_block_at(image_a, 23, SCANBOOT_FIRST_PLACE), SCANBOOT_IMAGE_CUT, 0));
    says("has no addresses", scanboot_block_addresses_at(image_a, 23, SCANBOOT_FIRST_PLACE).both == 0);
    says("and is whole without an end flag", is(scanboot_block_at(image_a, 24, SCANBOOT_FIRST_PLACE), SCANBOOT_OK, 0));
}

/* The order has four bytes, of which the ABI does not say what stands above them, in a register or on the stack: calls that
 * hand over eight, as a compiler may. */
static void wide_orders(void)
{
    typedef void (*any)(void);
    uint64_t (*volatile read)(const uint8_t *, size_t, uint64_t) =
        (uint64_t(*)(const uint8_t *, size_t, uint64_t))(any)scanboot_read_image_with;
    uint64_t (*volatile load)(const uint8_t *, size_t, uint64_t, uint8_t *, size_t, uint64_t) =
        (uint64_t(*)(const uint8_t *, size_t, uint64_t, uint8_t *, size_t, uint64_t))(any)scanboot_load_image_with;
    uint64_t (*volatile check)(const uint8_t *, size_t, const uint8_t *, size_t, const uint8_t *, size_t, uint64_t) =
        (uint64_t(*)(const uint8_t *, size_t, const uint8_t *, size_t, const uint8_t *, size_t, uint64_t))(any)scanboot_check_with;
    const uint64_t above = (uint64_t)0xffffffffu << 32;
    uint8_t window[8];
    for (uint32_t order = 0; order < 4; order++) {
        says("what stands above the order", read(ordered_a[order], 28, above | order) == (uint64_t)1 << 40);
        says("of a load", load(ordered_a[order], 28, 0x400, window, sizeof window, above | order) == 5 << 8);
        says("and of a check", check(file_a, sizeof file_a, ordered_a[order], 28, NULL, 0, above | order) == 0);
    }
    says("is not looked at", read(image_a, 28, above | 4) == SCANBOOT_ORDER);
}

static void version(void)
{
    says("the library is of the header's version", scanboot_version() == 65536u * SCANBOOT_VERSION_MAJOR +
                                                       256u * SCANBOOT_VERSION_MINOR + SCANBOOT_VERSION_PATCH);
    char text[40];
    snprintf(text, sizeof text, "%d.%d.%d", SCANBOOT_VERSION_MAJOR, SCANBOOT_VERSION_MINOR, SCANBOOT_VERSION_PATCH);
    says("and so is its text", strcmp(text, SCANBOOT_VERSION_TEXT) == 0);
}

/* The library answers numbers, the header says structs: both come back in the same
 * register. Each shape of call, taken for one that answers a number. */
static void registers(void)
{
    typedef void (*any)(void);
    uint64_t (*volatile read)(const uint8_t *, size_t) =
        (uint64_t(*)(const uint8_t *, size_t))(any)scanboot_read_image;
    uint64_t (*volatile at)(const uint8_t *, size_t, uint64_t) =
        (uint64_t(*)(const uint8_t *, size_t, uint64_t))(any)scanboot_block_addresses_at;
    uint64_t (*volatile check)(const uint8_t *, size_t, const uint8_t *, size_t) =
        (uint64_t(*)(const uint8_t *, size_t, const uint8_t *, size_t))(any)scanboot_check;
    says("an answer is a number in a register", read(image_a, sizeof image_a) == (uint64_t)1 << 40);
    says("and so is a refusal", read(image_a, 27) == (SCANBOOT_IMAGE_CUT | 1 << 8));
    says("and so are addresses", at(image_a, sizeof image_a, SCANBOOT_FIRST_PLACE) == (0x400 | (uint64_t)0x80000000 << 32));
    says("and so is a verdict", check(file_a, sizeof file_a, bare_image, sizeof bare_image) == SCANBOOT_PLACEMENT_DIFFERS);
    says("no kind is larger than its number",
         sizeof(scanboot_conversion) == 8 && sizeof(scanboot_listing) == 8 && sizeof(scanboot_reading) == 8 &&
             sizeof(scanboot_found) == 8 && sizeof(scanboot_loading) == 8 && sizeof(scanboot_verdict) == 8 &&
             sizeof(scanboot_addresses) == 8);
}

/* The listing of A has 83 bytes: into the most that any takes, a byte more, just enough, and a byte less. */
static void listings(void)
{
    static const char text_a[] = "coff sections 1 kept 1 entry 00000000\n0 load 00000400 run 80000000 size 5\nimage 28\n";
    static uint8_t text[SCANBOOT_LISTING_BYTES], untouched[SCANBOOT_LISTING_BYTES];
    const size_t length = sizeof text_a - 1;
    const size_t rooms[] = { sizeof text, length + 1, length };
    memset(untouched, 0xaa, sizeof untouched);
    for (size_t i = 0; i < sizeof rooms / sizeof rooms[0]; i++) {
        memcpy(text, untouched, sizeof text);
        scanboot_listing answer = scanboot_list(file_a, sizeof file_a, text, rooms[i]);
        says("A lists", is(answer, SCANBOOT_OK, 0) && scanboot_text_length(answer) == length);
        says("its listing", memcmp(text, text_a, length) == 0);
        says("and nothing behind it", memcmp(text + length, untouched, sizeof text - length) == 0);
    }
    memcpy(text, untouched, sizeof text);
    scanboot_listing answer = scanboot_list(file_a, sizeof file_a, text, length - 1);
    says("a byte less is too short", is(answer, SCANBOOT_OUTPUT_TOO_SHORT, 0) && scanboot_text_length(answer) == 0);
    says("and stays as it was", memcmp(text, untouched, sizeof text) == 0);
    answer = scanboot_list(file_a, sizeof file_a - 1, text, sizeof text);
    says("A cut is not listed", is(answer, SCANBOOT_RAW_DATA, 0) && scanboot_text_length(answer) == 0);
    says("nor written about", memcmp(text, untouched, sizeof text) == 0);
    says("a refusal of the file comes first", is(scanboot_list(file_a, sizeof file_a - 1, text, 1), SCANBOOT_RAW_DATA, 0));
}

/* The largest numbers that an answer can hold, at each end of each part. */
static void packing(void)
{
    const uint64_t refusal = 27 | (uint64_t)4095 << 8;
    const scanboot_conversion no_conversion = { refusal };
    const scanboot_reading no_reading = { refusal };
    const scanboot_found no_block = { refusal };
    const scanboot_loading no_loading = { refusal };
    const scanboot_listing no_listing = { refusal };
    says("a refusal", is(no_reading, 27, 4095));
    says("no figures", scanboot_image_length(no_conversion) == 0 && scanboot_kept(no_conversion) == 0 &&
                           scanboot_entry(no_reading) == 0 && scanboot_blocks(no_reading) == 0 &&
                           scanboot_offset(no_block) == 0 && scanboot_size(no_block) == 0 &&
                           scanboot_next_place(no_block) == 0 && scanboot_placed(no_loading) == 0 &&
                           scanboot_text_length(no_listing) == 0);
    const scanboot_conversion made = { (uint64_t)16777216 << 8 | (uint64_t)256 << 40 };
    says("no refusal", is(made, 0, 0));
    says("the longest image", scanboot_image_length(made) == 16777216);
    says("the most kept", scanboot_kept(made) == 256);
    const scanboot_reading image = { (uint64_t)0xffffffff << 8 | (uint64_t)4096 << 40 };
    says("the highest entry point", scanboot_entry(image) == 0xffffffffu);
    says("the most blocks", scanboot_blocks(image) == 4096);
    const scanboot_found block = { (uint64_t)16777216 << 8 | (uint64_t)16777215 << 36 };
    says("a far block", scanboot_offset(block) == 16777216 && scanboot_size(block) == 16777215);
    says("what follows it", scanboot_next_place(block) == 2 * 16777216u);
    const scanboot_addresses addresses = { (uint64_t)0xfffffffeu | (uint64_t)0xfffffffd << 32 };
    says("high addresses", scanboot_load_address(addresses) == 0xfffffffeu && scanboot_run_address(addresses) == 0xfffffffdu);
    const scanboot_loading loaded = { (uint64_t)16777216 << 8 };
    says("many placed", scanboot_placed(loaded) == 16777216);
    const scanboot_listing listed = { (uint64_t)SCANBOOT_LISTING_BYTES << 8 };
    says("a long listing", scanboot_text_length(listed) == SCANBOOT_LISTING_BYTES);
}

static void texts(void)
{
    static const unsigned codes[] = { 0, 1, 2, 3, 4, 5, 6, 7, 8, 9, 10, 11, 12, 13, 14, 15, 16, 17, 20, 21, 22, 23, 24, 25, 26, 27,
                                      28, 29, 30, 33, 40, 41 };
    const size_t count = sizeof codes / sizeof codes[0];
    const char *none = scanboot_text(99);
    for (size_t i = 0; i < count; i++) {
        const char *text = scanboot_text(codes[i]);
        int own = strcmp(text, none) != 0;
        for (size_t j = 0; j < i; j++)
            own = own && strcmp(text, scanboot_text(codes[j])) != 0;
        says("every code has a text of its own", own);
    }
    says("no other code has one", strcmp(scanboot_text(18), none) == 0 && strcmp(scanboot_text(256), none) == 0);
}

int main(void)
{
    empty_buffers();
    answers();
    patterns();
    rows();
    refused_patterns();
    orders();
    mistaken_orders();
    refused_orders();
    blocks();
    version();
    registers();
    wide_orders();
    listings();
    packing();
    texts();
    printf("%u passed, %u failed\n", passed, failed);
    return failed != 0;
}
