/* Whole files in and out. The path "-" is standard input or standard output. */
#ifndef FILES_H
#define FILES_H

#include <stddef.h>
#include <stdint.h>

struct bytes {
    uint8_t *at;
    size_t length;
};

/* To be called first: from then on no file that is opened takes the place of a
 * standard file that was closed when the program was started. */
void hold_standard_files(void);

/* Reads the file at `path`, but no more than `most` bytes of it. Where that
 * fails, says why on standard error and ends the program with status 3. */
struct bytes read_file(const char *path, size_t most);

/* How long a regular file is; 0 of anything else. */
uint64_t length_of_file(const char *path);

/* Makes `path` a file of these bytes, which takes the place of what was there in
 * one step (replace.h); what is no regular file is written through instead. Where
 * that fails, says why on standard error and ends the program with status 3. */
void write_file(const char *path, struct bytes content);

/* Writes all of it to an open file: 0, or -1 with errno set. */
int write_all(int to, struct bytes content);

/* Writes to standard output, all of it or status 3. */
void write_output(struct bytes content);

/* Whether what is written to `output` would go into what `input` is read from: a
 * file that is lost then, and not a terminal or a pipe, which may be both. */
int is_same_file(const char *input, const char *output);

/* `length` bytes of zeros, and one more behind them. */
struct bytes make_room(size_t length);

/* Room for `count` things of this size, all zeros. */
void *room_of(size_t count, size_t size);

/* Says what cannot be read or written and why, by errno's number or in words: status 3. */
_Noreturn void file_failed(const char *path, int why);
_Noreturn void file_failed_since(const char *path, const char *why);

/* Memory has run out: status 3. */
_Noreturn void no_memory(void);

/* What the program ends with, beside 0; 1 is only for a check that finds a difference, as diff and cmp have it. */
enum { EXIT_DIFFERENT = 1, EXIT_USAGE = 2, EXIT_FILES = 3, EXIT_REFUSED = 4 };

#endif
