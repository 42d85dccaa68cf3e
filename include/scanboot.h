/* scanboot: boot images for a TI C6000 signal processor.
 *
 * Calls over lent bytes. A COFF file of the linker is measured, converted to a
 * boot image, or listed; an image is read, and walked or asked for its blocks; an
 * image or the COFF file itself is loaded into one window of memory; an image is
 * checked against the file it came from.
 *
 * An image is the entry point; for each block its size, its load address, its run
 * address, its bytes, and zeros up to a multiple of four; then a size of 0, the end
 * flag. Numbers have four bytes, the lowest first, and the bytes of a block stand as
 * they will in memory; hosts of the other byte order may ask for either reversed in
 * each four, as is said where byte orders are. A section of a file is kept, and
 * becomes a block, if its size is not 0, none of its flags is DSECT, NOLOAD or COPY,
 * and one is TEXT, DATA or VECTOR. A section with none of DSECT (1h), NOLOAD (2h),
 * GROUP (4h), PAD (8h), COPY (10h), TEXT (20h), DATA (40h), BSS (80h) and VECTOR
 * (8000h) is plain, the maker's regular section (STYP_REG). It is kept too if neither
 * its size nor its raw data offset is 0. Where the caller gives patterns, a section of
 * either kind is kept only if none of them takes its name. A host puts a block at its
 * load address. Where its run address is another, the program on the processor moves it
 * there itself.
 *
 * What is said of a call below is proved of its code, for every input: it ends,
 * it reads and writes nothing outside the buffers it was lent, and it answers as
 * described. No call keeps a pointer, allocates, or has a state of its own: any
 * number of threads may be in any of them at once. Time and stack are measured and
 * not proved: count on 1024 bytes of stack, whatever is asked for; the most that a
 * call was seen to take is 988. The library is x86-64 code for Linux.
 *
 * What the caller sees to:
 *   - each pointer is good for as many bytes as the length behind it says;
 *   - the buffer that a call writes overlaps no buffer that it reads;
 *   - no other thread writes to any of them during the call.
 * An empty buffer is length 0 with any pointer, NULL too: it is not followed.
 *
 * Every answer but those of scanboot_version and scanboot_takes is one 64-bit number,
 * in a struct of its call's kind, so that one call's answer is not taken apart as
 * another's. Take it apart with the functions at the end: a code, which is 0 on success;
 * on a refusal an index, and all figures are 0; on success index 0, and the figures
 * named at the call.
 *
 * What stays in later versions: each code's number and meaning, and what each call
 * answers. New calls come, and with them new codes: take every code but 0 for a
 * refusal. Which bits of an answer hold what may change, so compile again with the
 * library's own header. Until 2.0.0 there are two exceptions, and CHANGELOG.md tells of
 * each: a name may change, and so may which sections are kept, as in 1.3.0 with plain
 * ones. Until then the calls whose names end in _with gain parameters as new options
 * come; in 2.0.0 their lists of parameters are final. */
#ifndef SCANBOOT_H
#define SCANBOOT_H

#include <stddef.h>
#include <stdint.h>

#ifdef __cplusplus
extern "C" {
#endif

/* The version of this header, and of the program that comes with it;
 * scanboot_version() is that of the library itself. */
#define SCANBOOT_VERSION_MAJOR 1
#define SCANBOOT_VERSION_MINOR 4
#define SCANBOOT_VERSION_PATCH 0
#define SCANBOOT_VERSION_TEXT "1.4.0"

/* An answer that goes unread is warned of by compilers that can. */
#if defined(__GNUC__)
#define SCANBOOT_TO_BE_READ __attribute__((warn_unused_result))
#elif (defined(__cplusplus) && __cplusplus >= 201703L) || (defined(__STDC_VERSION__) && __STDC_VERSION__ >= 202311L)
#define SCANBOOT_TO_BE_READ [[nodiscard]]
#else
#define SCANBOOT_TO_BE_READ
#endif

/* No file, image or window may be longer than this, nor may an image become so. */
#define SCANBOOT_MOST_BYTES 16777216u

/* The first block of an image begins behind the entry point. */
#define SCANBOOT_FIRST_PLACE 4u

/* This much room is enough for every listing. */
#define SCANBOOT_LISTING_BYTES 16384u

/* A call takes at most so many patterns, of one byte to so many each. */
#define SCANBOOT_MOST_PATTERNS 16u
#define SCANBOOT_MOST_PATTERN_BYTES 64u

/* The byte orders of an image; 3 is both reversals. */
#define SCANBOOT_ORDER_PLAIN 0u
#define SCANBOOT_ORDER_NUMBERS 1u
#define SCANBOOT_ORDER_DATA 2u
#define SCANBOOT_ORDER_BIG 3u

/* Every code that a call can answer. "Section N" and "block N" stand where the
 * index is the number of a section or block, counted from 0, kept or not; where
 * neither stands, the index is 0 unless the line says otherwise. */
enum scanboot_codes {
    SCANBOOT_OK = 0,

    /* of a COFF file, in the order in which they are asked */
    SCANBOOT_FILE_TOO_LONG = 1,        /* over 16,777,216 bytes */
    SCANBOOT_FILE_TOO_SHORT = 2,       /* under 22 bytes */
    SCANBOOT_FILE_VERSION = 3,         /* version not 00C2h */
    SCANBOOT_TARGET = 4,               /* target not 0099h */
    SCANBOOT_OPTIONAL_SIZE = 5,        /* optional header size neither 0 nor 28 */
    SCANBOOT_UNRESOLVED = 6,           /* flag 0002h clear: not finally linked */
    SCANBOOT_TOO_MANY_SECTIONS = 7,    /* more than 256 */
    SCANBOOT_HEADERS_CUT = 8,          /* file ends before the end of the section headers */
    SCANBOOT_MAGIC = 9,                /* optional header present, magic not 0108h */
    SCANBOOT_SECTION_NAME = 16,        /* with patterns only, before 10 of the same section, which is otherwise kept: the
                                          name's offset is under 4, or the name has no zero byte inside string table and file */
    SCANBOOT_RAW_DATA = 10,            /* section N: raw data begins inside the headers or ends past the file */
    SCANBOOT_SECTION_LOAD = 11,        /* section N: load address + size over 2^32 */
    SCANBOOT_SECTION_RUN = 12,         /* section N: run address + size over 2^32 */
    SCANBOOT_SECTIONS_MEET = 13,       /* section N loads to an address of an earlier kept section */

    /* of measuring (14) and of a conversion, after those of the file; of a listing 15 alone */
    SCANBOOT_IMAGE_WOULD_BE_TOO_LONG = 14, /* over 16,777,216 bytes */
    SCANBOOT_OUTPUT_TOO_SHORT = 15,        /* the output has less room than the image, or the listing, takes */

    /* of an image, in the order in which they are asked, block by block */
    SCANBOOT_IMAGE_TOO_LONG = 20,      /* over 16,777,216 bytes */
    SCANBOOT_IMAGE_CUT = 21,           /* ends inside a field, block or padding, or with no end flag; index: whole blocks before, 0 at a place */
    SCANBOOT_TOO_MANY_BLOCKS = 22,     /* a 4,097th block begins; index: 4096 */
    SCANBOOT_BLOCK_LOAD = 23,          /* block N: load address + size over 2^32 */
    SCANBOOT_BLOCK_RUN = 24,           /* block N: run address + size over 2^32 */
    SCANBOOT_PADDING = 25,             /* block N: a padding byte is not 0 */
    SCANBOOT_BYTES_FOLLOW = 26,        /* bytes follow the end flag; index: number of blocks */
    SCANBOOT_BLOCKS_MEET = 27,         /* block N loads to an address of an earlier block */

    /* of a load: 28 before the rules of its input, 29 after them */
    SCANBOOT_WINDOW = 28,              /* window over 16,777,216 bytes, or base + length over 2^32 */
    SCANBOOT_OUTSIDE = 29,             /* section N or block N, the first that is not wholly inside the window */

    /* of asking for a block, after those of the image */
    SCANBOOT_NO_SUCH_BLOCK = 30,       /* the number is not below the block count */

    /* of patterns, before all others of a call */
    SCANBOOT_PATTERNS = 17,            /* more than 16 patterns, or one that has not 1 to 64 bytes */

    /* of a byte order, after 17 and before all others of a call */
    SCANBOOT_ORDER = 33,               /* the order is none of 0 to 3 */

    /* of a check, after those of the file and of the image */
    SCANBOOT_ENTRY_DIFFERS = 40,       /* the entry points differ */
    SCANBOOT_PLACEMENT_DIFFERS = 41    /* the entry points are equal, and some address receives
                                          another byte, another run address, or nothing */
};

/* The kinds of answers. The x86-64 ABI hands over a struct of one number as that
 * number: it costs nothing. */
typedef struct { uint64_t packed; } scanboot_conversion; /* of measuring and converting */
typedef struct { uint64_t packed; } scanboot_listing;
typedef struct { uint64_t packed; } scanboot_reading;    /* of reading an image */
typedef struct { uint64_t packed; } scanboot_found;      /* of asking for a block, by place or number */
typedef struct { uint64_t packed; } scanboot_loading;
typedef struct { uint64_t packed; } scanboot_verdict;    /* of a check */
typedef struct { uint64_t both; } scanboot_addresses;    /* of a block; this one has no code */

/* The library's version: 65536 times the major number, 256 times the minor one,
 * and the patch number. */
SCANBOOT_TO_BE_READ uint32_t scanboot_version(void);

/* Measures what a COFF file would become: as scanboot_convert answers where there
 * is room enough, and nothing is written.
 * Codes: 0, 1 to 14. Figures: scanboot_image_length, scanboot_kept. */
SCANBOOT_TO_BE_READ scanboot_conversion scanboot_measure(const uint8_t *file, size_t file_len);

/* Converts a COFF file to a boot image.
 * On success the image stands at the start of `out`, and every byte of `out`
 * behind it is as it was. On a refusal no byte of `out` has changed.
 * Codes: 0, 1 to 15. Figures: scanboot_image_length, scanboot_kept.
 * scanboot_measure tells how long `out` has to be; 16,777,216 bytes are enough
 * for every image. */
SCANBOOT_TO_BE_READ scanboot_conversion scanboot_convert(const uint8_t *file, size_t file_len, uint8_t *out,
                                                         size_t out_len);

/* Lists a COFF file: a line for the file, one for each kept section, and one
 * for the length of the image. Each line ends in one LF; there is no 0 byte.
 * On success the listing stands at the start of `text`, and every byte of
 * `text` behind it is as it was. On a refusal no byte of `text` has changed.
 * Codes: 0, 1 to 13, 15. Figure: scanboot_text_length.
 * SCANBOOT_LISTING_BYTES are enough for every listing; with a shorter buffer
 * the call refuses (15) what does not fit. */
SCANBOOT_TO_BE_READ scanboot_listing scanboot_list(const uint8_t *file, size_t file_len, uint8_t *text,
                                                   size_t text_len);

/* Reads an image, and tells whether it is whole.
 * Codes: 0, 20 to 27. Figures: scanboot_entry, scanboot_blocks. */
SCANBOOT_TO_BE_READ scanboot_reading scanboot_read_image(const uint8_t *image, size_t image_len);

/* Tells what block begins at a place of an image, a number of bytes from its start,
 * in constant time. The first begins at SCANBOOT_FIRST_PLACE, the next of each at
 * scanboot_next_place; in an image that scanboot_read_image takes, that meets each
 * of its blocks in order, and then the end flag, which is told as a size of 0.
 * So read the image first, once: this call looks only at the place it is given. What
 * stands elsewhere, whether the padding is 0 and where the addresses lie is not
 * looked at, and a walk that meets a refusal sees a size of 0 too. Refused is an
 * image over 16,777,216 bytes (20), and a place from which no whole size field or,
 * where that field is not 0, no whole block with its padding stands in the image (21).
 * Codes: 0, 20, 21; the index is 0. Figures: scanboot_offset, the place of the
 * block's bytes in the image, scanboot_size, their number, and
 * scanboot_next_place; at the end flag all are 0. */
SCANBOOT_TO_BE_READ scanboot_found scanboot_block_at(const uint8_t *image, size_t image_len, uint64_t place);

/* The addresses of the same block, which do not fit beside the other figures:
 * scanboot_load_address and scanboot_run_address. This answer has no code; where
 * scanboot_block_at refuses, and at the end flag, both are 0. */
SCANBOOT_TO_BE_READ scanboot_addresses scanboot_block_addresses_at(const uint8_t *image, size_t image_len,
                                                                   uint64_t place);

/* Asks for one block of an image by its number, counted from 0. The whole image
 * is read each time: to go through all blocks, walk with scanboot_block_at.
 * Codes: 0, 20 to 27, 30. Figures: scanboot_offset, scanboot_size and
 * scanboot_next_place. */
SCANBOOT_TO_BE_READ scanboot_found scanboot_block(const uint8_t *image, size_t image_len, uint64_t number);

/* Its addresses. This answer has no code; where scanboot_block refuses, both
 * are 0. */
SCANBOOT_TO_BE_READ scanboot_addresses scanboot_block_addresses(const uint8_t *image, size_t image_len,
                                                                uint64_t number);

/* Loads an image into a window: window[0] is the processor's address `base`.
 * On success each block's bytes, exactly its size, stand from its load address
 * minus `base` on, and every other byte of the window is as it was. On a
 * refusal no byte of the window has changed. The entry point is for the caller.
 * In what widths and in what order the window is written is not said. For memories
 * that lie apart, or that are reached through a port, walk the blocks instead:
 * host.c and hpi.c among the examples do.
 * Codes: 0, 20 to 27, 28, 29. Figure: scanboot_placed. */
SCANBOOT_TO_BE_READ scanboot_loading scanboot_load_image(const uint8_t *image, size_t image_len, uint64_t base,
                                                         uint8_t *window, size_t window_len);

/* The same from a COFF file: its kept sections are placed as the blocks of its
 * image would be.
 * Codes: 0, 1 to 13, 28, 29. Figure: scanboot_placed. */
SCANBOOT_TO_BE_READ scanboot_loading scanboot_load_coff(const uint8_t *file, size_t file_len, uint64_t base,
                                                        uint8_t *window, size_t window_len);

/* Checks an image against a COFF file. Code 0 means that both have the same
 * entry point and that every address receives the same byte with the same run
 * address from both, or nothing from both: blocks may come in any order and be
 * cut anywhere.
 * Codes: 0, 1 to 13, 20 to 27, 40, 41. No figure. */
SCANBOOT_TO_BE_READ scanboot_verdict scanboot_check(const uint8_t *file, size_t file_len, const uint8_t *image,
                                                    size_t image_len);

/* Options. Each call below is the one of its name without _with, and behind its
 * parameters takes what may be asked for besides: patterns where it reads a file, a
 * byte order where it reads or writes an image. With no pattern and order 0 it answers
 * as the call without _with does.
 *
 * Patterns leave sections out by name: a section that a pattern takes by its name is
 * not kept. With no pattern no name is looked at.
 *
 * Patterns cross as one row of bytes, in which each ends with a zero byte or with the
 * row. So a C string does, with its own zero byte at the end or without it: here are
 * two patterns.
 *
 *     static const char skip[] = ".stack\0.test*";
 *     scanboot_conversion made = scanboot_convert_with(
 *         file, file_len, out, out_len, (const uint8_t *)skip, sizeof skip, 0);
 *
 * Its length is sizeof, not strlen, which ends at the first zero byte and would give
 * the first pattern alone. A length of 0 gives none, with any pointer. Two zero bytes
 * on end have a pattern of no bytes between them, and that is refused (17).
 *
 * In a pattern `?` takes one character, whichever it is, `*` takes any number of
 * them, none too, and every other byte takes itself: case counts, and nothing makes a
 * plain byte of `?` or `*`. A pattern takes a name as a whole: `.test` leaves
 * `.test2` in.
 *
 * A section's name is bytes 0 to 7 of its header up to the first zero byte. Where
 * bytes 0 to 3 are zero and 4 to 7 are not, these are an offset into the string table,
 * which stands behind the symbol table and opens with its own size of four bytes,
 * which is counted in; there the name ends with a zero byte. Names are read only of
 * sections that are otherwise kept. One that cannot be read refuses the file (16),
 * whatever the patterns are.
 *
 * Time grows at most with the bytes of the patterns times those of the names, and many
 * sections may share one name that is as long as the file.
 *
 * A byte order is for a host that reads the image with its own instructions and has the
 * other byte order, or whose port turns what it writes. It says what stands reversed in
 * each four bytes of the image: with 1 its numbers (entry point, sizes and addresses),
 * with 2 the blocks' bytes with their padding, with 3 both, with 0 neither. A big-endian
 * host asks for 3 where the processor is little-endian, and for 1 where it is big-endian
 * too. Of the number 400h and the bytes 11 22 33 44, as they will stand in memory:
 *
 *     order 0    00 04 00 00   11 22 33 44
 *     order 1    00 00 04 00   11 22 33 44
 *     order 2    00 04 00 00   44 33 22 11
 *     order 3    00 00 04 00   44 33 22 11
 *
 * A fifth byte 55 stands in a four of its own, 55 00 00 00 or 00 00 00 55. Whoever made
 * an image tells its order; nothing in the image does. A call that is told it undoes it:
 * an image in any order is read, loaded and checked as the same image in order 0 is, and
 * refused by the same rules. Of the block's bytes exactly its size are placed, and none
 * of the padding. Told another order than it was written in, an image is most often
 * refused, and not always. Where every size is a multiple of four, one in order 2 passes
 * for one in 0 and one in 3 for one in 1, and the other way round: its blocks' bytes then
 * stand reversed. Where it has no block, or its sizes read the same reversed, as 65792
 * does, its entry point and addresses may be taken for others. */

/* Codes: 0, 1 to 14, 16, 17. */
SCANBOOT_TO_BE_READ scanboot_conversion scanboot_measure_with(const uint8_t *file, size_t file_len,
                                                              const uint8_t *patterns, size_t patterns_len);

/* The image is as long in every order.
 * Codes: 0, 1 to 17, 33. */
SCANBOOT_TO_BE_READ scanboot_conversion scanboot_convert_with(const uint8_t *file, size_t file_len, uint8_t *out,
                                                              size_t out_len, const uint8_t *patterns,
                                                              size_t patterns_len, uint32_t order);

/* Codes: 0, 20 to 27, 33. */
SCANBOOT_TO_BE_READ scanboot_reading scanboot_read_image_with(const uint8_t *image, size_t image_len, uint32_t order);

/* The offset is where the block's bytes begin; in orders 2 and 3 they stand there
 * reversed in each four, up to scanboot_next_place.
 * Codes: 0, 20, 21, 33. */
SCANBOOT_TO_BE_READ scanboot_found scanboot_block_at_with(const uint8_t *image, size_t image_len, uint64_t place,
                                                          uint32_t order);

/* Its addresses; where scanboot_block_at_with refuses, both are 0. */
SCANBOOT_TO_BE_READ scanboot_addresses scanboot_block_addresses_at_with(const uint8_t *image, size_t image_len,
                                                                        uint64_t place, uint32_t order);

/* The offset is that of scanboot_block_at_with.
 * Codes: 0, 20 to 27, 30, 33. */
SCANBOOT_TO_BE_READ scanboot_found scanboot_block_with(const uint8_t *image, size_t image_len, uint64_t number,
                                                       uint32_t order);

/* Its addresses; where scanboot_block_with refuses, both are 0. */
SCANBOOT_TO_BE_READ scanboot_addresses scanboot_block_addresses_with(const uint8_t *image, size_t image_len,
                                                                     uint64_t number, uint32_t order);

/* Codes: 0, 20 to 27, 28, 29, 33; 33 comes before 28. */
SCANBOOT_TO_BE_READ scanboot_loading scanboot_load_image_with(const uint8_t *image, size_t image_len, uint64_t base,
                                                              uint8_t *window, size_t window_len, uint32_t order);

/* Codes: 0, 1 to 13, 16, 17, 28, 29; 17 comes before 28. */
SCANBOOT_TO_BE_READ scanboot_loading scanboot_load_coff_with(const uint8_t *file, size_t file_len, uint64_t base,
                                                             uint8_t *window, size_t window_len,
                                                             const uint8_t *patterns, size_t patterns_len);

/* "Same" is meant of what the patterns leave of the file: an image that was made with
 * them is the same, one that was made without them is not, if they take a section that
 * would be kept. The order is the image's.
 * Codes: 0, 1 to 13, 16, 17, 20 to 27, 33, 40, 41. */
SCANBOOT_TO_BE_READ scanboot_verdict scanboot_check_with(const uint8_t *file, size_t file_len, const uint8_t *image,
                                                         size_t image_len, const uint8_t *patterns,
                                                         size_t patterns_len, uint32_t order);

/* Whether one pattern takes a name, both as bytes without a zero byte behind them: 1
 * if it does, else 0. A pattern that has not 1 to 64 bytes takes no name. */
SCANBOOT_TO_BE_READ uint32_t scanboot_takes(const uint8_t *pattern, size_t pattern_len, const uint8_t *name,
                                            size_t name_len);

/* Taking an answer apart. */

/* Of every answer but addresses: its code, 0 on success. */
#define scanboot_code(answer) scanboot_code_in((answer).packed)

/* Of every answer but addresses: the index that goes with a refusal's code. Else 0. */
#define scanboot_index(answer) scanboot_index_in((answer).packed)

/* What these two are made of, for a number that was taken out of its kind. */
static inline unsigned scanboot_code_in(uint64_t packed)
{
    return (unsigned)(packed & 0xffu);
}

static inline uint64_t scanboot_index_in(uint64_t packed)
{
    return scanboot_code_in(packed) == 0 ? 0 : packed >> 8;
}

/* What the figures below are made of: the number in `width` bits from the bit `low`
 * on, or 0 on a refusal. */
static inline uint64_t scanboot_figure_in(uint64_t packed, unsigned low, unsigned width)
{
    return scanboot_code_in(packed) == 0 ? (packed >> low) & (((uint64_t)1 << width) - 1) : 0;
}

/* Of measuring and converting: the length of the image. */
static inline uint32_t scanboot_image_length(scanboot_conversion answer)
{
    return (uint32_t)scanboot_figure_in(answer.packed, 8, 32);
}

/* Of measuring and converting: the number of kept sections. */
static inline uint32_t scanboot_kept(scanboot_conversion answer)
{
    return (uint32_t)scanboot_figure_in(answer.packed, 40, 24);
}

/* Of scanboot_list: the length of the listing. */
static inline uint64_t scanboot_text_length(scanboot_listing answer)
{
    return scanboot_figure_in(answer.packed, 8, 56);
}

/* Of scanboot_read_image: the entry point. */
static inline uint32_t scanboot_entry(scanboot_reading answer)
{
    return (uint32_t)scanboot_figure_in(answer.packed, 8, 32);
}

/* Of scanboot_read_image: the number of blocks. */
static inline uint32_t scanboot_blocks(scanboot_reading answer)
{
    return (uint32_t)scanboot_figure_in(answer.packed, 40, 24);
}

/* Of scanboot_block_at and scanboot_block: where its bytes begin in the image. */
static inline uint32_t scanboot_offset(scanboot_found answer)
{
    return (uint32_t)scanboot_figure_in(answer.packed, 8, 28);
}

/* Of scanboot_block_at and scanboot_block: how many bytes it has. */
static inline uint32_t scanboot_size(scanboot_found answer)
{
    return (uint32_t)scanboot_figure_in(answer.packed, 36, 28);
}

/* Of scanboot_block_at and scanboot_block: where the next block, or the end flag,
 * begins. */
static inline uint32_t scanboot_next_place(scanboot_found answer)
{
    return scanboot_offset(answer) + (scanboot_size(answer) + 3) / 4 * 4;
}

/* Of a load: how many bytes were placed. */
static inline uint64_t scanboot_placed(scanboot_loading answer)
{
    return scanboot_figure_in(answer.packed, 8, 56);
}

/* Of scanboot_block_addresses_at and scanboot_block_addresses. */
static inline uint32_t scanboot_load_address(scanboot_addresses addresses)
{
    return (uint32_t)(addresses.both & 0xffffffffu);
}

static inline uint32_t scanboot_run_address(scanboot_addresses addresses)
{
    return (uint32_t)(addresses.both >> 32);
}

/* A few English words for a code, for a message. The text is constant. */
static inline const char *scanboot_text(unsigned code)
{
    switch (code) {
    case SCANBOOT_OK: return "no refusal";
    case SCANBOOT_FILE_TOO_LONG: return "the file is longer than 16777216 bytes";
    case SCANBOOT_FILE_TOO_SHORT: return "the file is shorter than a COFF file header of 22 bytes";
    case SCANBOOT_FILE_VERSION: return "the file is not COFF version 2 (version is not 00C2h)";
    case SCANBOOT_TARGET: return "the file is not for the C6000 (target is not 0099h)";
    case SCANBOOT_OPTIONAL_SIZE: return "the optional header's size is neither 0 nor 28";
    case SCANBOOT_UNRESOLVED: return "the file has unresolved references (flag 0002h is clear)";
    case SCANBOOT_TOO_MANY_SECTIONS: return "the file has more than 256 sections";
    case SCANBOOT_HEADERS_CUT: return "the file ends before the end of its section headers";
    case SCANBOOT_MAGIC: return "the optional header's magic number is not 0108h";
    case SCANBOOT_RAW_DATA: return "the section's raw data begins inside the headers or ends past the file";
    case SCANBOOT_SECTION_LOAD: return "the section's load range ends past the last address";
    case SCANBOOT_SECTION_RUN: return "the section's run range ends past the last address";
    case SCANBOOT_SECTIONS_MEET: return "the section loads to an address of an earlier section";
    case SCANBOOT_IMAGE_WOULD_BE_TOO_LONG: return "the image would be longer than 16777216 bytes";
    case SCANBOOT_OUTPUT_TOO_SHORT: return "the output is shorter than the image or the listing";
    case SCANBOOT_SECTION_NAME: return "a section's name cannot be read from the string table";
    case SCANBOOT_PATTERNS: return "there are more than 16 patterns, or one has not 1 to 64 bytes";
    case SCANBOOT_IMAGE_TOO_LONG: return "the image is longer than 16777216 bytes";
    case SCANBOOT_IMAGE_CUT: return "the image ends inside a block or without its end flag";
    case SCANBOOT_TOO_MANY_BLOCKS: return "the image has more than 4096 blocks";
    case SCANBOOT_BLOCK_LOAD: return "the block's load range ends past the last address";
    case SCANBOOT_BLOCK_RUN: return "the block's run range ends past the last address";
    case SCANBOOT_PADDING: return "a padding byte of the block is not 0";
    case SCANBOOT_BYTES_FOLLOW: return "bytes follow the image's end flag";
    case SCANBOOT_BLOCKS_MEET: return "the block loads to an address of an earlier block";
    case SCANBOOT_WINDOW: return "the window is longer than 16777216 bytes or ends past the last address";
    case SCANBOOT_OUTSIDE: return "the section or block is not wholly inside the window";
    case SCANBOOT_NO_SUCH_BLOCK: return "the image has no block with this number";
    case SCANBOOT_ORDER: return "the byte order is none of 0 to 3";
    case SCANBOOT_ENTRY_DIFFERS: return "file and image have different entry points";
    case SCANBOOT_PLACEMENT_DIFFERS: return "file and image place different bytes or run addresses";
    default: return "no such code";
    }
}

#ifdef __cplusplus
}
#endif

#endif
