/* What the program can be told to do. */
#ifndef COMMANDS_H
#define COMMANDS_H

#include "words.h"

void convert(const struct words *words);
void list(const struct words *words);
void blocks(const struct words *words);
void load(const struct words *words);
void check(const struct words *words);
void stats(const struct words *words);
void map(const struct words *words);
void inspect(const struct words *words);
void explain(const struct words *words);

extern const char program_help[];
extern const char convert_help[];
extern const char list_help[];
extern const char blocks_help[];
extern const char load_help[];
extern const char check_help[];
extern const char stats_help[];
extern const char map_help[];
extern const char inspect_help[];
extern const char explain_help[];

#endif
