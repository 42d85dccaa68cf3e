/* Cases in which sections have names and calls have patterns. */
#ifndef BENCH_NAMES_H
#define BENCH_NAMES_H

#include "given.h"

/* What a case is for: times that everybody asks for, times that take seconds, or stack. */
enum asked { TIMED, SLOW, STACKED };

#define NO_ROW NULL, 0
#define ROW(text) (text), sizeof(text)

/* A pattern of 64 bytes that takes no name of nothing but a, with as many stars as can stand apart: a matcher that calls
 * itself for every star nests its calls as deep with it as it can. */
#define EIGHT(text) text text text text text text text text
#define DEEPEST EIGHT("*a*a*a") "*a*a*a*a*a*a*a*b"

/* A file of 64 KiB with 256 sections. */
#define SECTIONS 65536, 256

struct named {
    struct setting setting;
    enum asked asked;
    size_t name_length;    /* of one name of nothing but a, which all sections share; 0: they have usual names */
    const char *row;
    size_t row_length;
};

void tell_named(enum asked asked);
const struct named *find_named(const char *name);

/* How long the string table is; and the names put into a file that has room for it behind its raw bytes. */
size_t table_length(const struct named *named);
void give_names(const struct named *named);

/* Bytes of a pattern times bytes of a name, summed up over all of both. */
double steps(void);

/* Whether a pattern takes a name: scanboot_takes, and what stands beside it. */
typedef uint32_t taking(const uint8_t *pattern, size_t pattern_len, const uint8_t *name, size_t name_len);

/* glibc's; it asks for a zero byte behind both. */
taking fnmatch_takes;

/* Of the one name and the one pattern of a case. It keeps nothing on the stack, so that only the call's own is measured. */
uint64_t take_one(taking *takes);

/* Each name is read and tried with one pattern after the other until one takes it. 0 if as many are taken as have to
 * be. */
uint64_t match_all(taking *takes);

#endif
