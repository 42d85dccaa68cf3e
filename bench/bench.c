/* The calls under measurement, each beside plain C and beside what moves or
 * compares the same bytes.
 *
 *   bench cases              names the cases without patterns, one to a line
 *   bench cases WHICH        those with patterns: timed, slow or stacked, with which are
 *                            also those with a byte order; turned: these, to be timed
 *   bench run CASE WHO N     prepares the case, then makes the call N times;
 *                            N = 0 shows what the preparing costs
 *   bench time CASE WHO N    nanoseconds of one call, the least of N rounds
 *                            behind one that is not counted; N = 0 counts that
 *   bench stack CASE WHO     bytes of stack that the call uses at most
 *   bench call CASE          the library's functions that it calls
 *   bench steps CASE         bytes of patterns times bytes of names
 *
 * WHO is proved (the library), plain (second/driver/plain.c), bytes (memcpy,
 * memcmp), or, in cases with patterns, fnmatch (glibc's: names are read and
 * matched, and nothing else is done). Where calls are counted or timed, every
 * answer is looked at, and a case that does not succeed ends the program, or one
 * that is not refused as it has to be. */
#include "../second/driver/plain.h"
#include "cases.h"
#include "orders.h"

#include <stdio.h>
#include <stdlib.h>
#include <string.h>
#include <time.h>
#include <ucontext.h>

static const char *const functions[] = {
    [CONVERT] = "scanboot_convert",
    [LIST] = "scanboot_list",
    [READ] = "scanboot_read_image",
    [BLOCK] = "scanboot_block",
    [LOAD_IMAGE] = "scanboot_load_image",
    [LOAD_COFF] = "scanboot_load_coff",
    [CHECK] = "scanboot_check",
    [MEASURE] = "scanboot_measure",
    [PLACE] = "scanboot_block_at scanboot_block_addresses_at",
    [WALK] = "",
    [NUMBERS] = "",
    [ADDRESSES] = "scanboot_block_addresses",
    [MEASURE_WITH] = "scanboot_measure_with",
    [CONVERT_WITH] = "scanboot_convert_with",
    [LOAD_COFF_WITH] = "scanboot_load_coff_with",
    [CHECK_WITH] = "scanboot_check_with",
    [TAKES] = "scanboot_takes",
    [MATCH] = "",
    [READ_WITH] = "scanboot_read_image_with",
    [BLOCK_WITH] = "scanboot_block_with",
    [LOAD_IMAGE_WITH] = "scanboot_load_image_with",
    [PLACE_WITH] = "scanboot_block_at_with scanboot_block_addresses_at_with",
    [WALK_WITH] = "",
    [NUMBERS_WITH] = "",
    [ADDRESSES_WITH] = "scanboot_block_addresses_with",
    [NOTHING] = "",
};

/* What asking for a block answers, with both of its calls. These stand apart, so
 * that what they need is not in the stack that is measured of other calls. */
typedef uint64_t asking(uint64_t where);
#define APART static __attribute__((noinline))

APART uint64_t proved_at(uint64_t place)
{
    (void)scanboot_load_address(scanboot_block_addresses_at(given.image, given.image_length, place));
    return scanboot_block_at(given.image, given.image_length, place).packed;
}

APART uint64_t proved_number(uint64_t number)
{
    (void)scanboot_load_address(scanboot_block_addresses(given.image, given.image_length, number));
    return scanboot_block(given.image, given.image_length, number).packed;
}

APART uint64_t proved_at_with(uint64_t place)
{
    (void)scanboot_load_address(scanboot_block_addresses_at_with(given.image, given.image_length, place, given.byte_order));
    return scanboot_block_at_with(given.image, given.image_length, place, given.byte_order).packed;
}

APART uint64_t proved_number_with(uint64_t number)
{
    (void)scanboot_load_address(scanboot_block_addresses_with(given.image, given.image_length, number, given.byte_order));
    return scanboot_block_with(given.image, given.image_length, number, given.byte_order).packed;
}

APART uint64_t plain_at(uint64_t place)
{
    plain_block_addresses_at(given.image, given.image_length, place);
    return plain_block_at(given.image, given.image_length, place);
}

APART uint64_t plain_number(uint64_t number)
{
    plain_block_addresses(given.image, given.image_length, number);
    return plain_block(given.image, given.image_length, number);
}

APART uint64_t plain_at_with(uint64_t place)
{
    plain_block_addresses_at_with(given.image, given.image_length, place, given.byte_order);
    return plain_block_at_with(given.image, given.image_length, place, given.byte_order);
}

APART uint64_t plain_number_with(uint64_t number)
{
    plain_block_addresses_with(given.image, given.image_length, number, given.byte_order);
    return plain_block_with(given.image, given.image_length, number, given.byte_order);
}

/* From the first place to the end flag; the answer there, if all were met. */
APART uint64_t walk(asking *at)
{
    unsigned met = 0;
    scanboot_found found = { at(SCANBOOT_FIRST_PLACE) };
    for (; scanboot_size(found) != 0; met++)
        found.packed = at(scanboot_next_place(found));
    return met == given.blocks ? found.packed : 1;
}

APART uint64_t by_number(asking *block)
{
    for (unsigned i = 0; i < given.blocks; i++)
        if (scanboot_code_in(block(i)) != 0)
            return 1;
    return 0;
}

/* What is called for NOTHING: it shows what calling takes by itself. */
static __attribute__((noipa)) scanboot_verdict proved_nothing(void)
{
    scanboot_verdict none = { 0 };
    return none;
}

static __attribute__((noipa)) uint64_t plain_nothing(void)
{
    return 0;
}

/* One call, or one of them for each block. A refusal would measure nothing. */
static uint64_t proved(enum call call)
{
    switch (call) {
    case CONVERT: return scanboot_convert(given.file, given.file_length, given.lent, given.lent_length).packed;
    case LIST: return scanboot_list(given.file, given.file_length, given.lent, given.lent_length).packed;
    case READ: return scanboot_read_image(given.image, given.image_length).packed;
    case BLOCK: return scanboot_block(given.image, given.image_length, given.blocks - 1).packed;
    case LOAD_IMAGE: return scanboot_load_image(given.image, given.image_length, BASE, given.lent, given.lent_length).packed;
    case LOAD_COFF: return scanboot_load_coff(given.file, given.file_length, BASE, given.lent, given.lent_length).packed;
    case CHECK: return scanboot_check(given.file, given.file_length, given.image, given.image_length).packed;
    case MEASURE: return scanboot_measure(given.file, given.file_length).packed;
    case PLACE:
        (void)scanboot_load_address(scanboot_block_addresses_at(given.image, given.image_length, given.last));
        return scanboot_block_at(given.image, given.image_length, given.last).packed;
    case WALK: return walk(proved_at);
    case NUMBERS: return by_number(proved_number);
    case ADDRESSES: return scanboot_block_addresses(given.image, given.image_length, given.blocks - 1).both == 0;
    case MEASURE_WITH: return scanboot_measure_with(given.file, given.file_length, given.row, given.row_length).packed;
    case CONVERT_WITH:
        return scanboot_convert_with(given.file, given.file_length, given.lent, given.lent_length, given.row,
                                     given.row_length, given.byte_order).packed;
    case LOAD_COFF_WITH:
        return scanboot_load_coff_with(given.file, given.file_length, BASE, given.lent, given.lent_length, given.row,
                                       given.row_length).packed;
    case CHECK_WITH:
        return scanboot_check_with(given.file, given.file_length, given.image, given.image_length, given.row,
                                   given.row_length, given.byte_order).packed;
    case TAKES: return take_one(scanboot_takes);
    case MATCH: return match_all(scanboot_takes);
    case READ_WITH: return scanboot_read_image_with(given.image, given.image_length, given.byte_order).packed;
    case BLOCK_WITH:
        return scanboot_block_with(given.image, given.image_length, given.blocks - 1, given.byte_order).packed;
    case LOAD_IMAGE_WITH:
        return scanboot_load_image_with(given.image, given.image_length, BASE, given.lent, given.lent_length,
                                        given.byte_order).packed;
    case PLACE_WITH:
        (void)scanboot_load_address(scanboot_block_addresses_at_with(given.image, given.image_length, given.last, given.byte_order));
        return scanboot_block_at_with(given.image, given.image_length, given.last, given.byte_order).packed;
    case WALK_WITH: return walk(proved_at_with);
    case NUMBERS_WITH: return by_number(proved_number_with);
    case ADDRESSES_WITH:
        return scanboot_block_addresses_with(given.image, given.image_length, given.blocks - 1, given.byte_order).both == 0;
    case NOTHING: return proved_nothing().packed;
    }
    return 1;
}

static uint64_t plain(enum call call)
{
    switch (call) {
    case CONVERT: return plain_convert(given.file, given.file_length, given.lent, given.lent_length);
    case LIST: return plain_list(given.file, given.file_length, given.lent, given.lent_length);
    case READ: return plain_read_image(given.image, given.image_length);
    case BLOCK: return plain_block(given.image, given.image_length, given.blocks - 1);
    case LOAD_IMAGE: return plain_load_image(given.image, given.image_length, BASE, given.lent, given.lent_length);
    case LOAD_COFF: return plain_load_coff(given.file, given.file_length, BASE, given.lent, given.lent_length);
    case CHECK: return plain_check(given.file, given.file_length, given.image, given.image_length);
    case MEASURE: return plain_measure(given.file, given.file_length);
    case PLACE:
        plain_block_addresses_at(given.image, given.image_length, given.last);
        return plain_block_at(given.image, given.image_length, given.last);
    case WALK: return walk(plain_at);
    case NUMBERS: return by_number(plain_number);
    case ADDRESSES: return plain_block_addresses(given.image, given.image_length, given.blocks - 1) == 0;
    case MEASURE_WITH: return plain_measure_with(given.file, given.file_length, given.row, given.row_length);
    case CONVERT_WITH:
        return plain_convert_with(given.file, given.file_length, given.lent, given.lent_length, given.row, given.row_length,
                                  given.byte_order);
    case LOAD_COFF_WITH:
        return plain_load_coff_with(given.file, given.file_length, BASE, given.lent, given.lent_length, given.row,
                                    given.row_length);
    case CHECK_WITH:
        return plain_check_with(given.file, given.file_length, given.image, given.image_length, given.row, given.row_length,
                                given.byte_order);
    case TAKES: return take_one(plain_takes);
    case MATCH: return match_all(plain_takes);
    case READ_WITH: return plain_read_image_with(given.image, given.image_length, given.byte_order);
    case BLOCK_WITH: return plain_block_with(given.image, given.image_length, given.blocks - 1, given.byte_order);
    case LOAD_IMAGE_WITH:
        return plain_load_image_with(given.image, given.image_length, BASE, given.lent, given.lent_length, given.byte_order);
    case PLACE_WITH:
        plain_block_addresses_at_with(given.image, given.image_length, given.last, given.byte_order);
        return plain_block_at_with(given.image, given.image_length, given.last, given.byte_order);
    case WALK_WITH: return walk(plain_at_with);
    case NUMBERS_WITH: return by_number(plain_number_with);
    case ADDRESSES_WITH:
        return plain_block_addresses_with(given.image, given.image_length, given.blocks - 1, given.byte_order) == 0;
    case NOTHING: return plain_nothing();
    }
    return 1;
}

/* The same bytes, moved or compared at once. Volatile, so that the compiler
 * takes no call away. */
static void *(*volatile move)(void *, const void *, size_t) = memcpy;
static int (*volatile compare)(const void *, const void *, size_t) = memcmp;
static uint8_t *twin;

static uint64_t bytes(enum call call)
{
    if (call == NOTHING)
        return 0;
    if (call == CHECK || call == CHECK_WITH)
        return compare(given.raw_at, twin, given.raw) != 0;
    move(given.lent, given.raw_at, given.raw);
    return 0;
}

/* Names are read and matched, whatever the call does besides. */
static uint64_t fnmatch_alone(enum call call)
{
    (void)call;
    return match_all(fnmatch_takes);
}

typedef uint64_t (*maker)(enum call call);

static maker find_maker(const char *who)
{
    if (strcmp(who, "proved") == 0)
        return proved;
    if (strcmp(who, "plain") == 0)
        return plain;
    if (strcmp(who, "bytes") == 0)
        return bytes;
    if (strcmp(who, "fnmatch") == 0)
        return fnmatch_alone;
    stop("WHO is proved, plain, bytes or fnmatch");
    return NULL;
}

/* Of an image that has to be refused: 0 if the call tells the rule and the block. Elsewhere nothing is done but the
 * call, whose own cost may be small. */
static maker refused_maker;

static uint64_t refusal(enum call call)
{
    uint64_t answer = refused_maker(call);
    return scanboot_code_in(answer) != given.code || scanboot_index_in(answer) != given.index;
}

static maker looked_at(maker make)
{
    refused_maker = make;
    return given.code != 0 ? refusal : make;
}

static void make_call(maker make, const struct setting *s)
{
    if (scanboot_code_in(make(s->call)) != 0)
        stop("the call did not answer as it has to");
}

/* The processor's time for this process: no call waits, so that what else runs on the machine is left out. */
static double now(void)
{
    struct timespec t;
    clock_gettime(CLOCK_PROCESS_CPUTIME_ID, &t);
    return (double)t.tv_sec * 1e9 + (double)t.tv_nsec;
}

/* The least of so many rounds, each of enough calls to take a hundredth of a second, behind
 * one that is not counted. */
static double nanoseconds(maker make, const struct setting *s, long rounds)
{
    unsigned long calls = 1;
    double least = 1e18;
    for (long round = 0; round <= rounds;) {
        double begun = now();
        for (unsigned long i = 0; i < calls; i++)
            make_call(make, s);
        double took = now() - begun;
        if (took < 1e7 && round == 0 && rounds > 0) {
            calls *= 2;
            continue;
        }
        if ((round > 0 || rounds == 0) && took / (double)calls < least)
            least = took / (double)calls;
        round++;
    }
    return least;
}

/* A stack of its own, painted: what lost its paint was used. */
#define STACK ((size_t)1 << 21)
#define PAINT 0x5a

static ucontext_t here, there;
static maker stacked_maker;
static enum call stacked_call;

static void on_stack(void)
{
    stacked_maker(stacked_call);
}

static size_t stack_of(maker make, enum call call)
{
    uint8_t *stack = room(STACK);
    memset(stack, PAINT, STACK);
    stacked_maker = make;
    stacked_call = call;
    getcontext(&there);
    there.uc_stack.ss_sp = stack;
    there.uc_stack.ss_size = STACK;
    there.uc_link = &here;
    makecontext(&there, on_stack, 0);
    swapcontext(&here, &there);
    size_t left = 0;
    while (left < STACK && stack[left] == PAINT)
        left++;
    free(stack);
    return STACK - left;
}

static void tell_cases(const char *which)
{
    int stacked = strcmp(which, "stacked") == 0;
    if (strcmp(which, "turned") != 0)
        tell_named(strcmp(which, "slow") == 0 ? SLOW : stacked ? STACKED : TIMED);
    if (stacked || strcmp(which, "turned") == 0)
        tell_turned(stacked ? STACKED : TIMED);
}

int main(int count, char **word)
{
    if (count == 2 && strcmp(word[1], "cases") == 0) {
        tell_settings();
        return 0;
    }
    if (count == 3 && strcmp(word[1], "cases") == 0) {
        tell_cases(word[2]);
        return 0;
    }
    if (count < 3)
        stop("see the top of bench.c");
    const struct turned *turned = find_turned(word[2]);
    const struct named *named = turned != NULL ? &turned->named : find_named(word[2]);
    const struct setting *s = named != NULL ? &named->setting : find_setting(word[2]);
    if (strcmp(word[1], "call") == 0) {
        puts(functions[s->call]);
        return 0;
    }
    prepare(s, turned != NULL && named->row == NULL ? NULL : named);
    if (count == 3 && strcmp(word[1], "steps") == 0) {
        printf("%.0f\n", steps());
        return 0;
    }
    if (count < 4)
        stop("see the top of bench.c");
    maker make = find_maker(word[3]), looked = looked_at(make);
    twin = room(given.raw);
    memcpy(twin, given.raw_at, given.raw);
    if (strcmp(word[1], "run") == 0 && count == 5) {
        for (long i = strtol(word[4], NULL, 10); i > 0; i--)
            make_call(looked, s);
    } else if (strcmp(word[1], "time") == 0 && count == 5) {
        printf("%.1f\n", nanoseconds(looked, s, strtol(word[4], NULL, 10)));
    } else if (strcmp(word[1], "stack") == 0) {
        printf("%zu\n", stack_of(make, s->call) - stack_of(make, NOTHING));
    } else {
        stop("see the top of bench.c");
    }
    return 0;
}
