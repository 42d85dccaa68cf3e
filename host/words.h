/* The words of the command line. */
#ifndef WORDS_H
#define WORDS_H

#include <stddef.h>
#include <stdint.h>

enum option_number { OUTPUT, ARRAY, BASE, SIZE, FILL, COFF, SKIP, ORDER, JSON, ALL, HELP, VERSION, OPTIONS };

/* What the words after the command say. What was not given is NULL; an option that
 * takes no value is "". --skip may be given more than once: option[] has the last. */
struct words {
    const char *file[2];
    const char *option[OPTIONS];
    const char **skip; /* what stands behind each --skip, in their order */
    size_t skips;
};

struct command {
    const char *name;
    const char *help;
    int least;         /* so many words that are no options must be given, */
    int most;          /* and no more than so many may be */
    unsigned takes;    /* options, one bit each; --help is taken by all */
    unsigned needs;
    void (*run)(const struct words *words);
};

#define BIT(option) (1u << (option))

/* Goes on to the word that is the command, and says what the program itself is asked
 * for before it: HELP, VERSION, or nothing: OPTIONS. */
int skip_to_command(int *count, char ***given);

/* The words of a command, the first of which is its name. Where HELP is among them,
 * the others are not looked at. */
struct words read_words(const struct command *command, int count, char **given);

/* Ends the program with status 2 where the option was not given. */
void need(const struct words *words, enum option_number option);

/* The number behind an option, in decimal or hexadecimal after 0x. */
uint64_t number_of(const struct words *words, enum option_number option, uint64_t most);

/* Says what is wrong with the words and where help is found, that of the command if
 * it is known, and ends the program with status 2. */
_Noreturn void misused(const char *what, const char *word);

#endif
