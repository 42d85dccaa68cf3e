/* The library against plain C, on inputs that libFuzzer makes.
 *
 * Coverage and the sanitizers are of plain C (second/driver/plain.c), which is compiled for this machine. The
 * library is x86-64 code and may run under an emulator, so it is called in a process of its own, the driver
 * (second/driver/driver.c), where each buffer lies at a guard page. Every input goes to both. Answers, figures
 * and the bytes of the lent buffer afterwards have to be equal, nothing else may have changed, and the driver
 * has to live; otherwise the input is kept and the run ends.
 *
 * An input is 16 bytes and the bytes of the file or image:
 *   0       bits 0 to 2: which calls
 *               0 convert   1 list   2 read an image   3 both calls for a block   4 load an image
 *               5 load a COFF file   6 check, the file cut at the byte given   7 check of a file against its
 *               own image, of which one byte may be changed
 *           with bit 7 of byte 7:
 *               0 measure   1 both calls for what begins at a place   2 walk: those calls from the first place
 *               on, their answers in the lent buffer
 *               and with patterns: 3 measure   4 convert   5 load a COFF file   6 check of a file against its own
 *               image, of which one byte may be changed   7 whether a pattern takes a name, which is the file
 *           with bit 6 of byte 7, an image in a byte order, which 4 and 6 with patterns take too:
 *               0 read an image   1 both calls for a block   2 load an image   3 both calls for what begins at a
 *               place   4 walk   5 check, the file cut at the byte given
 *               and of a file's own image, of which one byte may be changed: 6 load   7 walk
 *           bits 3 to 5: the file, the image, the lent buffer and the patterns lie behind their guard page, not
 *           before it
 *           bit 6: a buffer of length 0 is a null pointer
 *           bit 7: the lent buffer holds one byte throughout, else a part of the driver's table; of a check with
 *           patterns: its image was made without them
 *   1       that byte; for a file's own image what the changed byte is combined with
 *   2-3     length of the lent buffer
 *   4-5     where the file ends and the image begins, for a check that cuts; the changed byte of an own image; how
 *           many of the input's last bytes are the patterns, for calls that have them: so the file and the patterns
 *           can each become longer, and the other stays
 *   6       the byte order: see order_of(); bits 2 and 3: what its bits 0 and 1 are combined with for the order in
 *           which an own image is made
 *   7       bits 6 and 7: see above
 *   8-15    the window's base, the block's number or place; the changed byte, for a check with patterns
 *
 * The driver's command is in SCANBOOT_DRIVER, its words apart by spaces. */

#include "../second/driver/plain.h"

#include <errno.h>
#include <signal.h>
#include <stdint.h>
#include <stdio.h>
#include <stdlib.h>
#include <string.h>
#include <sys/types.h>
#include <unistd.h>

enum { CONVERT, LIST, READ, BLOCK, LOAD_IMAGE, LOAD_COFF, CHECK, CHECK_OWN, MEASURE, BLOCK_AT, WALK,
       MEASURE_WITH, CONVERT_WITH, LOAD_COFF_WITH, CHECK_WITH, TAKES,
       READ_IN, BLOCK_IN, LOAD_IMAGE_IN, BLOCK_AT_IN, WALK_IN, CHECK_IN, LOAD_OWN, WALK_OWN, CALLS };
enum { HEAD = 16, ROOM = 65536, CODES = 64, FIRST_PLACE = 4, STEP = 16 };

static const char *const names[CALLS] = { "convert", "list", "read", "block", "load image", "load coff", "check",
                                          "check own", "measure", "block at", "walk", "measure with",
                                          "convert with", "load with", "check with", "takes", "read in order",
                                          "block in order", "load in order", "at in order", "walk in order",
                                          "check in order", "load own", "walk own" };
/* the driver's numbers of these calls; from OPTIONS on, requests are longer */
enum { OPTIONS = 12 };
static const int driver_call[CALLS] = { 1, 2, 3, 4, 5, 6, 7, 7, 8, 9, 10, 12, 13, 14, 15, 16, 17, 18, 19, 20, 21, 15, 19, 21 };

static int to_driver, from_driver;
static uint8_t table[2 * ROOM];
static unsigned long answered[CALLS][CODES];

static uint64_t number(const uint8_t *at, int bytes)
{
    uint64_t value = 0;
    for (int i = bytes - 1; i >= 0; i--)
        value = value << 8 | at[i];
    return value;
}

/* ---- the driver ---- */

static void start_driver(void)
{
    static char words[4096];
    char *argv[64];
    int n = 0, in[2], out[2];
    const char *command = getenv("SCANBOOT_DRIVER");
    if (!command || strlen(command) >= sizeof words) {
        fprintf(stderr, "fuzz: SCANBOOT_DRIVER is not set\n");
        exit(2);
    }
    strcpy(words, command);
    for (char *w = strtok(words, " "); w && n < 63; w = strtok(NULL, " "))
        argv[n++] = w;
    argv[n] = NULL;
    if (n == 0 || pipe(in) != 0 || pipe(out) != 0) {
        fprintf(stderr, "fuzz: no driver\n");
        exit(2);
    }
    signal(SIGPIPE, SIG_IGN);
    if (fork() == 0) {
        dup2(in[0], 0);
        dup2(out[1], 1);
        close(in[0]), close(in[1]), close(out[0]), close(out[1]);
        execvp(argv[0], argv);
        _exit(127);
    }
    close(in[0]);
    close(out[1]);
    to_driver = in[1];
    from_driver = out[0];
}

static void different(const char *what, uint64_t plain, uint64_t library)
{
    fprintf(stderr, "fuzz: %s: plain C %llx, the library %llx\n", what, (unsigned long long)plain,
            (unsigned long long)library);
    abort();
}

static void send(const void *from, size_t n)
{
    const uint8_t *at = from;
    while (n > 0) {
        ssize_t done = write(to_driver, at, n);
        if (done < 0 && errno == EINTR)    /* libFuzzer's clock */
            continue;
        if (done <= 0)
            different("the driver has died", 0, 0);
        at += done;
        n -= (size_t)done;
    }
}

static void receive(void *to, size_t n)
{
    uint8_t *at = to;
    while (n > 0) {
        ssize_t got = read(from_driver, at, n);
        if (got < 0 && errno == EINTR)
            continue;
        if (got <= 0)
            different("the driver has died", 0, 0);
        at += got;
        n -= (size_t)got;
    }
}

/* The driver's table of bytes for lent buffers; as much of it as can be used here. */
static void make_table(void)
{
    uint64_t x = 0x9e3779b97f4a7c15u;
    for (size_t i = 0; i < sizeof table; i += 8) {
        x ^= x << 13;
        x ^= x >> 7;
        x ^= x << 17;
        for (size_t k = 0; k < 8; k++)
            table[i + k] = (uint8_t)(x >> 8 * k);
    }
}

static void report(void)
{
    fprintf(stderr, "codes answered, and how often:\n");
    for (int c = 0; c < CALLS; c++) {
        fprintf(stderr, "  %-14s", names[c]);
        for (int code = 0; code < CODES; code++)
            if (answered[c][code])
                fprintf(stderr, " %d:%lu", code, answered[c][code]);
        fprintf(stderr, "\n");
    }
}

int LLVMFuzzerInitialize(int *argc, char ***argv)
{
    (void)argc;
    (void)argv;
    make_table();
    start_driver();
    atexit(report);
    return 0;
}

/* ---- one input ---- */

/* A buffer of exactly this length, so that a byte beside it is seen. */
static uint8_t *exact(const uint8_t *from, size_t n, int null)
{
    if (n == 0 && null)
        return NULL;
    uint8_t *at = malloc(n);
    if (n > 0)
        memcpy(at, from, n);
    return at;
}

struct given {
    int which, null;
    uint32_t order;
    uint64_t n;
    uint8_t *file, *image, *lent, *row;
    size_t file_length, image_length, lent_length, row_length;
};

struct answer {
    uint64_t packed, addresses;
};

static void set_number(uint8_t *at, uint64_t value)
{
    for (int i = 0; i < 8; i++)
        at[i] = (uint8_t)(value >> 8 * i);
}

/* As the driver walks. */
static uint64_t plain_walk(const struct given *g, uint32_t order)
{
    uint64_t place = FIRST_PLACE;
    for (size_t at = 0;; at += STEP) {
        uint64_t found = plain_block_at_with(g->image, g->image_length, place, order);
        uint64_t offset = found >> 8 & 0xfffffff, size = found >> 36;
        if ((found & 255) != 0 || size == 0 || g->lent_length - at < STEP)
            return found;
        set_number(g->lent + at, found);
        set_number(g->lent + at + 8, plain_block_addresses_at_with(g->image, g->image_length, place, order));
        place = offset + (size + 3) / 4 * 4;
    }
}

/* Of an image in a byte order. */
static struct answer by_plain_in(const struct given *g)
{
    struct answer a = { 0, 0 };
    switch (g->which) {
    case READ_IN: a.packed = plain_read_image_with(g->image, g->image_length, g->order); break;
    case BLOCK_IN:
        a.packed = plain_block_with(g->image, g->image_length, g->n, g->order);
        a.addresses = plain_block_addresses_with(g->image, g->image_length, g->n, g->order);
        break;
    case BLOCK_AT_IN:
        a.packed = plain_block_at_with(g->image, g->image_length, g->n, g->order);
        a.addresses = plain_block_addresses_at_with(g->image, g->image_length, g->n, g->order);
        break;
    case LOAD_IMAGE_IN: case LOAD_OWN:
        a.packed = plain_load_image_with(g->image, g->image_length, g->n, g->lent, g->lent_length, g->order);
        break;
    case WALK_IN: case WALK_OWN: a.packed = plain_walk(g, g->order); break;
    default:
        a.packed = plain_check_with(g->file, g->file_length, g->image, g->image_length, g->row, g->row_length, g->order);
        break;
    }
    return a;
}

static struct answer by_plain(const struct given *g)
{
    struct answer a = { 0, 0 };
    if (g->which >= READ_IN)
        return by_plain_in(g);
    switch (g->which) {
    case CONVERT: a.packed = plain_convert(g->file, g->file_length, g->lent, g->lent_length); break;
    case LIST: a.packed = plain_list(g->file, g->file_length, g->lent, g->lent_length); break;
    case READ: a.packed = plain_read_image(g->image, g->image_length); break;
    case BLOCK:
        a.packed = plain_block(g->image, g->image_length, g->n);
        a.addresses = plain_block_addresses(g->image, g->image_length, g->n);
        break;
    case LOAD_IMAGE: a.packed = plain_load_image(g->image, g->image_length, g->n, g->lent, g->lent_length); break;
    case LOAD_COFF: a.packed = plain_load_coff(g->file, g->file_length, g->n, g->lent, g->lent_length); break;
    case MEASURE: a.packed = plain_measure(g->file, g->file_length); break;
    case BLOCK_AT:
        a.packed = plain_block_at(g->image, g->image_length, g->n);
        a.addresses = plain_block_addresses_at(g->image, g->image_length, g->n);
        break;
    case WALK: a.packed = plain_walk(g, 0); break;
    case MEASURE_WITH: a.packed = plain_measure_with(g->file, g->file_length, g->row, g->row_length); break;
    case CONVERT_WITH:
        a.packed = plain_convert_with(g->file, g->file_length, g->lent, g->lent_length, g->row, g->row_length, g->order);
        break;
    case LOAD_COFF_WITH:
        a.packed = plain_load_coff_with(g->file, g->file_length, g->n, g->lent, g->lent_length, g->row, g->row_length);
        break;
    case CHECK_WITH: a = by_plain_in(g); break;
    case TAKES: a.packed = plain_takes(g->row, g->row_length, g->file, g->file_length); break;
    default: a.packed = plain_check(g->file, g->file_length, g->image, g->image_length); break;
    }
    return a;
}

/* The library's answer; `lent` becomes what the lent buffer holds afterwards. */
static struct answer by_library(const struct given *g, int behind, uint64_t fill, uint8_t *lent)
{
    uint8_t bytes[88], head[40];
    int call = driver_call[g->which];
    uint64_t request[11] = { (uint64_t)(call | (behind & 7) << 8 | g->null << 11 | (behind >> 2 & 1) << 12), g->n,
                             g->file_length, g->file_length, g->image_length, g->image_length, g->lent_length, fill,
                             g->row_length, g->row_length, g->order };
    for (int i = 0; i < 11; i++)
        set_number(bytes + 8 * i, request[i]);
    send(bytes, call >= OPTIONS ? 88 : 64);
    send(g->file, g->file_length);
    send(g->image, g->image_length);
    send(g->row, g->row_length);
    receive(head, sizeof head);
    struct answer a = { number(head, 8), number(head + 8, 8) };
    uint64_t changed = number(head + 16, 8), first = number(head + 24, 8), length = number(head + 32, 8);
    if (changed != 0)
        different("an input or bytes beside a buffer were changed", 0, changed);
    if (first > g->lent_length || length > g->lent_length - first)
        different("bytes outside the lent buffer", g->lent_length, first + length);
    receive(lent + first, length);
    return a;
}

/* Bits 0 and 1. With both of bits 6 and 7 it is no order, but a number that ends in these two bits. */
static uint32_t order_of(uint8_t byte)
{
    static const uint32_t none[4] = { 4, 256, 0x80000000, 0xfffffffc };
    return (byte & 3) + (byte >> 6 == 3 ? none[byte >> 4 & 3] : 0);
}

static uint32_t order_made(uint8_t byte)
{
    return (byte ^ byte >> 2) & 3;
}

/* What an image of the file with these patterns and in this order is, with one byte changed. */
static size_t own_image(const uint8_t *file, size_t length, const uint8_t *row, size_t row_length, uint32_t order, size_t which,
                        uint8_t with, uint8_t made[2 * ROOM])
{
    uint64_t converted = plain_convert_with(file, length, made, 2 * ROOM, row, row_length, order);
    size_t image_length = (converted & 255) == 0 ? converted >> 8 & 0xffffffff : 0;
    if (image_length > 0)
        made[which % image_length] ^= with;
    return image_length;
}

/* Of the calls with patterns. */
static void take_patterns(const uint8_t *data, size_t n, size_t cut, struct given *g, const uint8_t **image, uint8_t made[2 * ROOM])
{
    const uint8_t *file = data + HEAD;
    g->row_length = cut < n ? cut : n;
    g->file_length = n - g->row_length;
    if (g->which != CONVERT_WITH && g->which != LOAD_COFF_WITH)
        g->lent_length = 0;
    if (g->which == CHECK_WITH) {
        g->image_length = own_image(file, g->file_length, file + g->file_length, data[0] & 128 ? 0 : g->row_length,
                                    order_made(data[6]), g->n, data[1], made);
        *image = made;
    }
}

static int which_call(const uint8_t *data)
{
    return (data[7] & 64 ? READ_IN : data[7] & 128 ? MEASURE : CONVERT) + (data[0] & 7);
}

/* Which calls an input is for, and what of it they are given; no buffers yet. */
static struct given taken_apart(const uint8_t *data, size_t size, const uint8_t **image)
{
    static uint8_t made[2 * ROOM];
    const uint8_t *body = data + HEAD;
    size_t n = size - HEAD, cut = number(data + 4, 2);
    struct given g;
    memset(&g, 0, sizeof g);
    g.which = which_call(data);
    g.order = order_of(data[6]);
    g.null = data[0] >> 6 & 1;
    g.n = number(data + 8, 8);
    g.lent_length = number(data + 2, 2);
    *image = body;
    switch (g.which) {
    case READ: case BLOCK: case BLOCK_AT:
    case READ_IN: case BLOCK_IN: case BLOCK_AT_IN: g.lent_length = 0; /* fall through */
    case LOAD_IMAGE: case WALK:
    case LOAD_IMAGE_IN: case WALK_IN: g.image_length = n; break;
    case CHECK: case CHECK_IN:
        g.lent_length = 0;
        g.file_length = cut < n ? cut : n;
        g.image_length = n - g.file_length;
        *image = body + g.file_length;
        break;
    case CHECK_OWN:
        g.lent_length = 0;
        g.file_length = n;
        g.image_length = own_image(body, n, NULL, 0, 0, cut, data[1], made);
        *image = made;
        break;
    case LOAD_OWN: case WALK_OWN:
        g.image_length = own_image(body, n, NULL, 0, order_made(data[6]), cut, data[1], made);
        *image = made;
        break;
    case MEASURE_WITH: case CONVERT_WITH: case LOAD_COFF_WITH: case CHECK_WITH: case TAKES:
        take_patterns(data, n, cut, &g, image, made);
        break;
    case MEASURE: g.lent_length = 0; /* fall through */
    default: g.file_length = n; break;
    }
    return g;
}

int LLVMFuzzerTestOneInput(const uint8_t *data, size_t size)
{
    static uint8_t library_lent[ROOM];
    const uint8_t *image;
    if (size < HEAD || size > ROOM)
        return 0;
    struct given g = taken_apart(data, size, &image);
    uint64_t fill = data[0] & 128 ? 65536u | data[1] : g.n & 0xffff;
    memset(library_lent, data[1], g.lent_length);
    if (fill < 65536)
        memcpy(library_lent, table + fill, g.lent_length);
    g.file = exact(data + HEAD, g.file_length, g.null);
    g.image = exact(image, g.image_length, g.null);
    g.lent = exact(library_lent, g.lent_length, g.null);
    g.row = exact(data + HEAD + g.file_length, g.row_length, g.null);

    struct answer library = by_library(&g, data[0] >> 3 & 7, fill, library_lent);
    struct answer plain = by_plain(&g);
    if (plain.packed != library.packed)
        different(names[g.which], plain.packed, library.packed);
    if (plain.addresses != library.addresses)
        different("addresses of a block", plain.addresses, library.addresses);
    for (size_t i = 0; i < g.lent_length; i++)
        if (g.lent[i] != library_lent[i])
            different("a byte of the lent buffer", g.lent[i], library_lent[i]);
    answered[g.which][plain.packed & (CODES - 1)]++;
    free(g.file);
    free(g.image);
    free(g.lent);
    free(g.row);
    return 0;
}
