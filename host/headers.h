/* What stands in a COFF file's headers and no answer of the library has: flags and
 * sizes of sections that are not kept, where raw data begins, and names.
 * This is a second reader, not proved. Nothing that the library refuses or makes
 * rests on it, and it trusts no file: what lies outside is said to be missing. */
#ifndef HEADERS_H
#define HEADERS_H

#include "files.h"

enum { FILE_HEADER = 22, OPTIONAL_HEADER = 28, SECTION_HEADER = 48 };

struct file_header {
    uint32_t version;
    uint32_t sections; /* as many as it says, which may be more than there are */
    uint32_t time;
    uint32_t optional; /* the size of the optional header */
    uint32_t flags;
    uint32_t target;
};

struct section_header {
    uint32_t run;
    uint32_t load;
    uint32_t size;
    uint32_t raw;
    uint32_t flags;
};

/* Of a file and of a section. */
enum { STRIPPED = 0x1, RESOLVED = 0x2, LITTLE = 0x100, BIG = 0x200 };
enum {
    DSECT = 0x1,
    NOLOAD = 0x2,
    GROUP = 0x4,
    PAD = 0x8,
    COPY = 0x10,
    TEXT = 0x20,
    DATA = 0x40,
    BSS = 0x80,
    VECTOR = 0x8000
};

/* Of a longer name the first so many bytes are shown: a small file could have thousands. */
enum { MOST_NAME = 255 };

/* The string table, which follows the symbols and opens with its own size, which is counted in. */
struct string_table {
    uint64_t at;
    uint64_t size; /* as it says; 0 where the file ends before or inside that field */
    uint64_t end;  /* where it ends, or the file before it */
};

/* The header of a file of at least as many bytes. */
struct file_header file_header(struct bytes file);

/* Where the section headers begin, and where as many as the file says would end. */
uint64_t headers_begin(struct bytes file);
uint64_t headers_end(struct bytes file);

/* The entry point: 0 without an optional header. */
uint32_t entry_of(struct bytes file);

/* How many whole section headers the file holds, which may be fewer than it says. */
uint32_t headers_in(struct bytes file);

/* The header of a section with a number below that. */
struct section_header section_header(struct bytes file, uint32_t number);

/* Whether one of the nine flags above is set, which give a section its type; without one it is plain. */
int has_type(struct section_header header);

/* Why a section's header does not keep it, in a few words; NULL where it does. */
const char *why_left(struct section_header header);

/* Sets NOLOAD in the header of a section: it is not kept from then on. */
void mark_unloaded(struct bytes file, uint32_t number);

struct string_table string_table(struct bytes file);

/* Where the name of the same section stands in the string table; 0 if it stands in the header. */
uint32_t name_offset(struct bytes file, uint32_t number);

/* The name, a part of the file: at most eight bytes of its header, or those that stand in
 * the string table, as far as a zero byte. 0 where it cannot be read. */
int section_name(struct bytes file, uint32_t number, struct bytes *name);

/* The first MOST_NAME bytes of it as a text that ends in 0. 0 where any of it cannot be read. */
int section_called(struct bytes file, uint32_t number, char name[MOST_NAME + 1]);

/* What section_called says of each section of the file, NULL where it is 0. One free() frees them. */
char **section_names(struct bytes file);

/* Two and four bytes, the lowest first. */
uint32_t half_at(const uint8_t *at);
uint32_t number_at(const uint8_t *at);

/* The same, the highest first. */
uint32_t turned_half_at(const uint8_t *at);
uint32_t turned_number_at(const uint8_t *at);

#endif
