#include "words.h"
#include "files.h"
#include "names.h"

#include <errno.h>
#include <getopt.h>
#include <stdio.h>
#include <stdlib.h>
#include <string.h>

/* An option's name, its letter, and what stands behind it, if anything does. */
static const struct {
    const char *name;
    char letter;
    const char *value;
} options[OPTIONS] = {
    [OUTPUT] = { "output", 'o', "OUTPUT" }, [ARRAY] = { "c-array", 0, "NAME" }, [BASE] = { "base", 0, "ADDR" },
    [SIZE] = { "size", 0, "N" },            [FILL] = { "fill", 0, "BYTE" },     [COFF] = { "coff", 0, NULL },
    [SKIP] = { "skip", 0, "PATTERN" },      [ORDER] = { "order", 0, "ORDER" },  [JSON] = { "json", 0, NULL },
    [ALL] = { "all", 0, NULL },             [HELP] = { "help", 'h', NULL },     [VERSION] = { "version", 'V', NULL },
};

/* The program itself, whose words end where a command begins. */
static const struct command program = { "", "", 0, 0, BIT(VERSION), 0, NULL };

/* Whose words are read. */
static const struct command *reading = &program;

static _Noreturn void misused_as_told(void)
{
    fprintf(stderr, "scanboot: try 'scanboot %s%s--help'\n", reading->name, reading == &program ? "" : " ");
    exit(EXIT_USAGE);
}

_Noreturn void misused(const char *what, const char *word)
{
    fprintf(stderr, "scanboot: %s%s\n", what, in_one_line(word));
    misused_as_told();
}

/* By the letter, if the option has one: that is what people type. */
static _Noreturn void misused_option(int option, const char *what)
{
    const char *value = options[option].value;
    if (options[option].letter != 0)
        fprintf(stderr, "scanboot: -%c", options[option].letter);
    else
        fprintf(stderr, "scanboot: --%s", options[option].name);
    fprintf(stderr, "%s%s %s\n", value != NULL ? " " : "", value != NULL ? value : "", what);
    misused_as_told();
}

/* getopt answers with an option's letter, or with its number above all letters where
 * its name was given; with 1 for a word that is no option, and -1 before those that
 * follow "--". */
enum { NAMED = 256, A_WORD = 1, NO_MORE = -1 };

/* The words in their order, wherever the options stand ('-'), and no message of
 * getopt's own (':'). */
static int next_word(int count, char **given)
{
    char letters[2 * OPTIONS + 3] = "-:";
    struct option names[OPTIONS + 1];
    size_t length = 2, found = 0;
    for (int option = 0; option < OPTIONS; option++) {
        int valued = options[option].value != NULL;
        struct option name = { options[option].name, valued ? required_argument : no_argument, NULL, NAMED + option };
        if (!((reading->takes | BIT(HELP)) & BIT(option)))
            continue;
        names[found++] = name;
        if (options[option].letter != 0)
            letters[length++] = options[option].letter;
        if (options[option].letter != 0 && valued)
            letters[length++] = ':';
    }
    memset(&names[found], 0, sizeof names[found]);
    letters[length] = '\0';
    return getopt_long(count, given, letters, names, NULL);
}

/* The option that getopt found; where it found something else, the words are wrong. */
static int option_found(int got, char **given)
{
    for (int option = 0; option < OPTIONS; option++)
        if (got == NAMED + option || (got == options[option].letter && got != 0))
            return option;
    if (got == ':')
        misused("nothing stands behind ", given[optind - 1]);
    if (optopt >= NAMED)
        misused_option(optopt - NAMED, "takes no value");
    char letter[] = { '-', (char)(optopt > 0 && optopt < 128 ? optopt : '?'), '\0' };
    misused("unknown option ", optopt != 0 ? letter : given[optind - 1]);
}

int skip_to_command(int *count, char ***given)
{
    int got = next_word(*count, *given);
    if (got != A_WORD && got != NO_MORE)
        return option_found(got, *given);
    int at = got == A_WORD ? optind - 1 : optind;
    if (at >= *count)
        misused("no command given", "");
    *count -= at;
    *given += at;
    return OPTIONS;
}

/* Behind --skip it is most likely one of several names that the shell has put there. */
static _Noreturn void misused_word(const struct words *words, const char *word)
{
    fprintf(stderr, "scanboot: one word too many: %s%s\n", in_one_line(word),
            words->skips > 0 ? "; quote a pattern, or the shell puts names of files in its place" : "");
    misused_as_told();
}

static void take_file(const struct command *command, struct words *words, const char *word)
{
    int i = 0;
    while (i < command->most && words->file[i] != NULL)
        i++;
    if (i == command->most)
        misused_word(words, word);
    words->file[i] = word;
}

static void take_option(struct words *words, int option, const char *value)
{
    if (option == SKIP)
        words->skip[words->skips++] = value;
    else if (words->option[option] != NULL)
        misused_option(option, "is given twice");
    words->option[option] = value;
}

/* What one word alone cannot show. */
static void want_all(const struct command *command, const struct words *words)
{
    if (command->least > 0 && words->file[0] == NULL)
        misused("no file given to ", command->name);
    if (command->least > 1 && words->file[1] == NULL)
        misused("no IMAGE given to ", command->name);
    if (command->least > 1 && is_standard(words->file[0]) && is_standard(words->file[1]))
        misused("only one file can be standard input", "");
    for (int option = 0; option < OPTIONS; option++)
        if (command->needs & BIT(option))
            need(words, (enum option_number)option);
}

struct words read_words(const struct command *command, int count, char **given)
{
    struct words words = { .skip = room_of((size_t)count, sizeof *words.skip) };
    int got;
    reading = command;
    for (optind = 0; (got = next_word(count, given)) != NO_MORE;) {
        if (got == A_WORD) {
            take_file(command, &words, optarg);
            continue;
        }
        int option = option_found(got, given);
        take_option(&words, option, options[option].value != NULL ? optarg : "");
        if (option == HELP)
            return words;
    }
    while (optind < count)
        take_file(command, &words, given[optind++]);
    want_all(command, &words);
    return words;
}

void need(const struct words *words, enum option_number option)
{
    if (words->option[option] == NULL)
        misused_option(option, "is missing");
}

uint64_t number_of(const struct words *words, enum option_number option, uint64_t most)
{
    const char *digits = words->option[option];
    int hexadecimal = digits[0] == '0' && (digits[1] == 'x' || digits[1] == 'X');
    const char *allowed = hexadecimal ? "0123456789abcdefABCDEF" : "0123456789";
    digits += hexadecimal ? 2 : 0;
    if (digits[0] == '\0' || digits[strspn(digits, allowed)] != '\0')
        misused_option(option, "is no number, in decimal or after 0x");
    errno = 0;
    unsigned long long number = strtoull(digits, NULL, hexadecimal ? 16 : 10);
    if (errno != 0 || number > most)
        misused_option(option, "is too large");
    return number;
}
