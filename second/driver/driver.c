/* Calls the library for the second program, over standard input and output.
 *
 * Build (the library's archive as a whole, so that a call it does not have yet
 * is found missing here instead of at link time):
 *   gcc -O2 -static -I ../include -o driver driver/driver.c \
 *       -Wl,--whole-archive libscanboot.a -Wl,--no-whole-archive
 *
 * All numbers on the pipe are 64 bits, little-endian. A request is eight of
 * them, three more for a call from 12 on, and the bytes of the file, of the image,
 * and of the patterns where there are any:
 *   0  the call in bits 0 to 7: 1 convert, 2 list, 3 read, 4 block (both of its
 *      calls), 5 load an image, 6 load a COFF file, 7 check, 8 measure, 9 block
 *      at a place (both of its calls), 10 walk (see walk()), 11 version; with
 *      patterns 12 measure, 13 convert, 14 load a COFF file, 15 check; 16 whether
 *      a pattern, which is all of the patterns, takes a name, which is the file;
 *      with a byte order, which 13 and 15 take too, 17 read, 18 block, 19 load an
 *      image, 20 block at a place, 21 walk;
 *      bits 8 to 10 and 12: the file, the image, the lent buffer, the patterns lie
 *      directly behind a guard page instead of directly before one;
 *      bit 11: a buffer of length 0 is a null pointer
 *   1  base of a load, number or place of a block
 *   2  length of the file       3  how many of its bytes follow; the rest is 0
 *   4  length of the image      5  how many of its bytes follow; the rest is 0
 *   6  length of the lent buffer
 *   7  what it holds before: below 65536 the place in the table made by
 *      make_table(), else the lowest byte of this number throughout
 *   8  length of the patterns   9  how many of their bytes follow; the rest is 0
 *  10  the byte order, of which the call gets the lowest 32 bits; a call that takes
 *      none gets none
 * An answer is five numbers and bytes:
 *   0  the packed answer, the version, or whether the pattern takes the name
 *   1  the answer of scanboot_block_addresses or scanboot_block_addresses_at, with
 *      an order or without, else 0
 *   2  bit 0: the file was changed; bit 1: the image was changed; bit 2: bytes
 *      beside a buffer were changed; bit 3: the library does not have the call;
 *      bit 4: the patterns were changed
 *   3  offset of the first changed byte of the lent buffer, 0 if there is none
 *   4  how many bytes follow: from the first changed one to the last
 *
 * A byte read or written in a guard page ends this process. On the other side
 * of a buffer lie bytes that are compared after the call. Buffers longer than
 * GUARDED lie at the start of a large area of zeros without guards, of which
 * only the first SEEN bytes are compared: such lengths are there to be refused. */

#include <stdint.h>
#include <stdio.h>
#include <stdlib.h>
#include <string.h>
#include <sys/mman.h>
#include <sys/resource.h>
#include <unistd.h>

#include "scanboot.h"

#pragma weak scanboot_version
#pragma weak scanboot_measure
#pragma weak scanboot_convert
#pragma weak scanboot_list
#pragma weak scanboot_read_image
#pragma weak scanboot_block_at
#pragma weak scanboot_block_addresses_at
#pragma weak scanboot_block
#pragma weak scanboot_block_addresses
#pragma weak scanboot_load_image
#pragma weak scanboot_load_coff
#pragma weak scanboot_check
#pragma weak scanboot_measure_with
#pragma weak scanboot_convert_with
#pragma weak scanboot_load_coff_with
#pragma weak scanboot_check_with
#pragma weak scanboot_takes
#pragma weak scanboot_read_image_with
#pragma weak scanboot_block_with
#pragma weak scanboot_block_addresses_with
#pragma weak scanboot_block_at_with
#pragma weak scanboot_block_addresses_at_with
#pragma weak scanboot_load_image_with

/* Guards and rooms are multiples of this, whatever the page size is. */
#define GRAIN ((size_t)65536)
#define GUARDED ((size_t)16777216 + GRAIN)
#define LARGE (((size_t)1 << 32) + ((size_t)1 << 24))
#define SEEN ((size_t)1 << 17)
#define TABLE (GUARDED + 65536)
#define BESIDE ((size_t)64)
#define BESIDE_BYTE 0xc5

enum { FILE_CHANGED = 1, IMAGE_CHANGED = 2, BESIDE_CHANGED = 4, CALL_ABSENT = 8, PATTERNS_CHANGED = 16 };

static void stop(const char *why)
{
    fprintf(stderr, "driver: %s\n", why);
    exit(2);
}

static void *map(size_t length, int protection)
{
    void *at = mmap(NULL, length, protection, MAP_PRIVATE | MAP_ANONYMOUS | MAP_NORESERVE, -1, 0);
    if (at == MAP_FAILED)
        stop("no memory");
    return at;
}

/* ---- the pipe ---- */

static unsigned char out[1 << 17];
static size_t out_used;

static void write_all(const unsigned char *from, size_t n)
{
    while (n > 0) {
        ssize_t done = write(1, from, n);
        if (done <= 0)
            exit(1);
        from += done;
        n -= (size_t)done;
    }
}

static void flush(void)
{
    write_all(out, out_used);
    out_used = 0;
}

static void put(const void *from, size_t n)
{
    if (n > sizeof out - out_used)
        flush();
    if (n > sizeof out) {
        write_all(from, n);
        return;
    }
    memcpy(out + out_used, from, n);
    out_used += n;
}

static unsigned char in[1 << 17];
static size_t in_used, in_end;

/* Ends the process when the requests end. Before it waits for more, all answers
 * go out: the other side may be waiting for them. */
static void get(void *to, size_t n)
{
    unsigned char *at = to;
    while (n > 0) {
        if (in_used == in_end) {
            flush();
            ssize_t got = read(0, in, sizeof in);
            if (got <= 0)
                exit(0);
            in_used = 0;
            in_end = (size_t)got;
        }
        size_t part = in_end - in_used < n ? in_end - in_used : n;
        memcpy(at, in + in_used, part);
        in_used += part;
        at += part;
        n -= part;
    }
}

static uint64_t number(const unsigned char *at)
{
    uint64_t value = 0;
    for (int i = 7; i >= 0; i--)
        value = value << 8 | at[i];
    return value;
}

static void set_number(unsigned char *at, uint64_t value)
{
    for (int i = 0; i < 8; i++)
        at[i] = (unsigned char)(value >> 8 * i);
}

static void put_number(uint64_t value)
{
    unsigned char bytes[8];
    set_number(bytes, value);
    put(bytes, 8);
}

/* ---- buffers ---- */

struct slot {
    unsigned char *room;    /* GUARDED bytes between two guards */
    unsigned char *large;   /* LARGE zeros, mapped when first needed */
    unsigned char *at;      /* the buffer of this case */
    size_t length;
    unsigned char *beside;  /* bytes on the side without a guard */
    size_t beside_length;
};

static struct slot file_slot, image_slot, patterns_slot, lent_slot;

static void make_slot(struct slot *slot)
{
    unsigned char *all = map(GUARDED + 3 * GRAIN, PROT_NONE);
    size_t over = (uintptr_t)all % GRAIN;
    slot->room = all + (over ? GRAIN - over : 0) + GRAIN;
    if (mprotect(slot->room, GUARDED, PROT_READ | PROT_WRITE) != 0)
        stop("no guard pages");
}

/* Chooses where the buffer lies; its bytes are not set yet. */
static void place(struct slot *slot, size_t length, int behind_guard)
{
    slot->length = length;
    slot->beside_length = 0;
    if (length > GUARDED) {
        if (length > LARGE)
            stop("a length that no case has");
        if (!slot->large)
            slot->large = map(LARGE, PROT_READ | PROT_WRITE);
        slot->at = slot->large;
        return;
    }
    size_t left = GUARDED - length;
    slot->beside_length = left < BESIDE ? left : BESIDE;
    if (behind_guard) {
        slot->at = slot->room;
        slot->beside = slot->at + length;
    } else {
        slot->at = slot->room + left;
        slot->beside = slot->at - slot->beside_length;
    }
    memset(slot->beside, BESIDE_BYTE, slot->beside_length);
}

static int beside_changed(const struct slot *slot)
{
    for (size_t i = 0; i < slot->beside_length; i++)
        if (slot->beside[i] != BESIDE_BYTE)
            return 1;
    return 0;
}

static void *pointer(const struct slot *slot, int null_when_empty)
{
    return slot->length == 0 && null_when_empty ? NULL : slot->at;
}

static const unsigned char zeros[65536];

static int all_zero(const unsigned char *at, size_t n)
{
    for (; n > sizeof zeros; at += sizeof zeros, n -= sizeof zeros)
        if (memcmp(at, zeros, sizeof zeros) != 0)
            return 0;
    return memcmp(at, zeros, n) == 0;
}

/* What was sent of an input, for comparing it after the call. */
struct input {
    unsigned char *sent;
    size_t sent_length;
};

static struct input file_input, image_input, patterns_input;

static void get_input(struct input *input, struct slot *slot, size_t length, size_t sent, int behind)
{
    if (sent > GUARDED || sent > length)
        stop("a request that is none");
    get(input->sent, sent);
    input->sent_length = sent;
    place(slot, length, behind);
    memcpy(slot->at, input->sent, sent);
    if (length <= GUARDED)
        memset(slot->at + sent, 0, length - sent);
}

static int input_changed(const struct input *input, struct slot *slot)
{
    size_t seen = slot->length <= GUARDED ? slot->length : SEEN;
    size_t sent = input->sent_length;
    if (seen < sent)
        seen = sent;
    int changed = memcmp(slot->at, input->sent, sent) != 0 || !all_zero(slot->at + sent, seen - sent);
    if (slot->length > GUARDED)
        memset(slot->at, 0, changed ? seen : sent);
    return changed;
}

/* ---- the lent buffer ---- */

static unsigned char *table;       /* TABLE bytes, the same on both sides */
static unsigned char *one_byte;    /* GUARDED bytes of one value */
static const unsigned char *before;

static void make_table(void)
{
    uint64_t x = 0x9e3779b97f4a7c15u;
    table = map(TABLE + 8, PROT_READ | PROT_WRITE);
    for (size_t i = 0; i < TABLE; i += 8) {
        x ^= x << 13;
        x ^= x >> 7;
        x ^= x << 17;
        for (int k = 0; k < 8; k++)
            table[i + (size_t)k] = (unsigned char)(x >> 8 * k);
    }
}

static void fill_lent(size_t length, uint64_t fill, int behind)
{
    place(&lent_slot, length, behind);
    if (length > GUARDED) {
        before = NULL;
        return;
    }
    if (fill < 65536) {
        before = table + fill;
    } else {
        memset(one_byte, (int)(fill & 255), length);
        before = one_byte;
    }
    memcpy(lent_slot.at, before, length);
}

/* The bytes of the lent buffer that differ from what it held before. */
static void put_lent(void)
{
    const unsigned char *now = lent_slot.at;
    size_t end = lent_slot.length;
    const unsigned char *old = before;
    if (!old) {
        static unsigned char nothing[SEEN];
        old = nothing;
        end = SEEN;
    }
    size_t first = 0;
    while (end - first >= 1024 && memcmp(now + first, old + first, 1024) == 0)
        first += 1024;
    while (first < end && now[first] == old[first])
        first++;
    if (first == end) {
        put_number(0);
        put_number(0);
        return;
    }
    while (end - first > 1024 && memcmp(now + end - 1024, old + end - 1024, 1024) == 0)
        end -= 1024;
    while (now[end - 1] == old[end - 1])
        end--;
    put_number(first);
    put_number(end - first);
    put(now + first, end - first);
    if (!before)
        memset(lent_slot.at, 0, end);
}

/* ---- the calls ---- */

struct answer {
    uint64_t packed, addresses;
    int absent;
};

/* From the first place to the end flag, to a refusal, or until the lent buffer is
 * full: it receives what both calls answer at each block, 16 bytes. Answers what
 * the last call did. */
static uint64_t walk(const uint8_t *image, size_t length, uint8_t *lent, size_t room)
{
    uint64_t place = SCANBOOT_FIRST_PLACE;
    for (;;) {
        scanboot_found found = scanboot_block_at(image, length, place);
        if (scanboot_code(found) != 0 || scanboot_size(found) == 0 || room < 16)
            return found.packed;
        set_number(lent, found.packed);
        set_number(lent + 8, scanboot_block_addresses_at(image, length, place).both);
        lent += 16;
        room -= 16;
        place = scanboot_next_place(found);
    }
}

/* The same, of an image in this order. */
static uint64_t walk_with(const uint8_t *image, size_t length, uint8_t *lent, size_t room, uint32_t order)
{
    uint64_t place = SCANBOOT_FIRST_PLACE;
    for (;;) {
        scanboot_found found = scanboot_block_at_with(image, length, place, order);
        if (scanboot_code(found) != 0 || scanboot_size(found) == 0 || room < 16)
            return found.packed;
        set_number(lent, found.packed);
        set_number(lent + 8, scanboot_block_addresses_at_with(image, length, place, order).both);
        lent += 16;
        room -= 16;
        place = scanboot_next_place(found);
    }
}

/* Those that read an image in an order. */
static struct answer call_in_order(int which, uint64_t n, int null, uint32_t order)
{
    const uint8_t *image = pointer(&image_slot, null);
    uint8_t *lent = pointer(&lent_slot, null);
    size_t i = image_slot.length, l = lent_slot.length;
    int at = scanboot_block_at_with && scanboot_block_addresses_at_with;
    struct answer a = { 0, 0, 0 };
    if (which == 17 && scanboot_read_image_with)
        a.packed = scanboot_read_image_with(image, i, order).packed;
    else if (which == 18 && scanboot_block_with && scanboot_block_addresses_with) {
        a.packed = scanboot_block_with(image, i, n, order).packed;
        a.addresses = scanboot_block_addresses_with(image, i, n, order).both;
    } else if (which == 19 && scanboot_load_image_with)
        a.packed = scanboot_load_image_with(image, i, n, lent, l, order).packed;
    else if (which == 20 && at) {
        a.packed = scanboot_block_at_with(image, i, n, order).packed;
        a.addresses = scanboot_block_addresses_at_with(image, i, n, order).both;
    } else if (which == 21 && at)
        a.packed = walk_with(image, i, lent, l, order);
    else
        a.absent = 1;
    return a;
}

/* Those with patterns. */
static struct answer call_with(int which, uint64_t n, int null, uint32_t order)
{
    const uint8_t *file = pointer(&file_slot, null), *image = pointer(&image_slot, null);
    const uint8_t *patterns = pointer(&patterns_slot, null);
    uint8_t *lent = pointer(&lent_slot, null);
    size_t f = file_slot.length, i = image_slot.length, p = patterns_slot.length, l = lent_slot.length;
    struct answer a = { 0, 0, 0 };
    if (which == 12 && scanboot_measure_with)
        a.packed = scanboot_measure_with(file, f, patterns, p).packed;
    else if (which == 13 && scanboot_convert_with)
        a.packed = scanboot_convert_with(file, f, lent, l, patterns, p, order).packed;
    else if (which == 14 && scanboot_load_coff_with)
        a.packed = scanboot_load_coff_with(file, f, n, lent, l, patterns, p).packed;
    else if (which == 15 && scanboot_check_with)
        a.packed = scanboot_check_with(file, f, image, i, patterns, p, order).packed;
    else if (which == 16 && scanboot_takes)
        a.packed = scanboot_takes(patterns, p, file, f);
    else
        a.absent = 1;
    return a;
}

static struct answer call(int which, uint64_t n, int null, uint32_t order)
{
    const uint8_t *file = pointer(&file_slot, null);
    const uint8_t *image = pointer(&image_slot, null);
    uint8_t *lent = pointer(&lent_slot, null);
    size_t f = file_slot.length, i = image_slot.length, l = lent_slot.length;
    struct answer a = { 0, 0, 0 };
    if (which == 1 && scanboot_convert)
        a.packed = scanboot_convert(file, f, lent, l).packed;
    else if (which == 2 && scanboot_list)
        a.packed = scanboot_list(file, f, lent, l).packed;
    else if (which == 3 && scanboot_read_image)
        a.packed = scanboot_read_image(image, i).packed;
    else if (which == 4 && scanboot_block && scanboot_block_addresses) {
        a.packed = scanboot_block(image, i, n).packed;
        a.addresses = scanboot_block_addresses(image, i, n).both;
    } else if (which == 5 && scanboot_load_image)
        a.packed = scanboot_load_image(image, i, n, lent, l).packed;
    else if (which == 6 && scanboot_load_coff)
        a.packed = scanboot_load_coff(file, f, n, lent, l).packed;
    else if (which == 7 && scanboot_check)
        a.packed = scanboot_check(file, f, image, i).packed;
    else if (which == 8 && scanboot_measure)
        a.packed = scanboot_measure(file, f).packed;
    else if (which == 9 && scanboot_block_at && scanboot_block_addresses_at) {
        a.packed = scanboot_block_at(image, i, n).packed;
        a.addresses = scanboot_block_addresses_at(image, i, n).both;
    } else if (which == 10 && scanboot_block_at && scanboot_block_addresses_at)
        a.packed = walk(image, i, lent, l);
    else if (which == 11 && scanboot_version)
        a.packed = scanboot_version();
    else if (which >= 17)
        a = call_in_order(which, n, null, order);
    else if (which >= 12)
        a = call_with(which, n, null, order);
    else
        a.absent = 1;
    return a;
}

static void answer_one(void)
{
    unsigned char head[88] = { 0 };
    get(head, 64);
    uint64_t way = number(head);
    if ((way & 255) >= 12)
        get(head + 64, 24);
    int null = (way >> 11 & 1) != 0;
    get_input(&file_input, &file_slot, number(head + 16), number(head + 24), way >> 8 & 1);
    get_input(&image_input, &image_slot, number(head + 32), number(head + 40), way >> 9 & 1);
    get_input(&patterns_input, &patterns_slot, number(head + 64), number(head + 72), way >> 12 & 1);
    fill_lent(number(head + 48), number(head + 56), way >> 10 & 1);

    struct answer a = call((int)(way & 255), number(head + 8), null, (uint32_t)number(head + 80));

    uint64_t flags = 0;
    if (input_changed(&file_input, &file_slot))
        flags |= FILE_CHANGED;
    if (input_changed(&image_input, &image_slot))
        flags |= IMAGE_CHANGED;
    if (input_changed(&patterns_input, &patterns_slot))
        flags |= PATTERNS_CHANGED;
    if (beside_changed(&file_slot) || beside_changed(&image_slot) || beside_changed(&patterns_slot)
        || beside_changed(&lent_slot))
        flags |= BESIDE_CHANGED;
    if (a.absent)
        flags |= CALL_ABSENT;
    put_number(a.packed);
    put_number(a.addresses);
    put_number(flags);
    put_lent();
}

int main(void)
{
    /* A crash is an answer here, and leaves no file behind. */
    struct rlimit none = { 0, 0 };
    setrlimit(RLIMIT_CORE, &none);
    make_slot(&file_slot);
    make_slot(&image_slot);
    make_slot(&patterns_slot);
    make_slot(&lent_slot);
    file_input.sent = map(GUARDED, PROT_READ | PROT_WRITE);
    image_input.sent = map(GUARDED, PROT_READ | PROT_WRITE);
    patterns_input.sent = map(GUARDED, PROT_READ | PROT_WRITE);
    one_byte = map(GUARDED, PROT_READ | PROT_WRITE);
    make_table();
    for (;;)
        answer_one();
}
