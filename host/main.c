/* scanboot: the library at the command line. What is refused, made, loaded, listed
 * or found the same is the library's answer; files and words are the program's. */
#include "commands.h"
#include "files.h"
#include "scanboot.h"

#include <string.h>

static void help(const struct words *words);

static const struct command commands[] = {
    { "convert", convert_help, 1, 1, BIT(OUTPUT) | BIT(ARRAY) | BIT(SKIP) | BIT(ORDER), 0, convert },
    { "list", list_help, 1, 1, BIT(SKIP) | BIT(JSON), 0, list },
    { "blocks", blocks_help, 1, 1, BIT(ORDER) | BIT(JSON), 0, blocks },
    { "load", load_help, 1, 1, BIT(OUTPUT) | BIT(COFF) | BIT(BASE) | BIT(SIZE) | BIT(FILL) | BIT(SKIP) | BIT(ORDER),
      BIT(OUTPUT) | BIT(BASE) | BIT(SIZE), load },
    { "check", check_help, 2, 2, BIT(SKIP) | BIT(ORDER) | BIT(JSON) | BIT(ALL), 0, check },
    { "stats", stats_help, 1, 1, BIT(SKIP) | BIT(JSON), 0, stats },
    { "map", map_help, 1, 1, BIT(OUTPUT) | BIT(SKIP) | BIT(ORDER), BIT(OUTPUT), map },
    { "inspect", inspect_help, 1, 1, BIT(SKIP) | BIT(JSON), 0, inspect },
    { "explain", explain_help, 0, 1, 0, 0, explain },
    { "help", program_help, 0, 1, 0, 0, help },
};

static int say(const char *text)
{
    struct bytes bytes = { (uint8_t *)text, strlen(text) };
    write_output(bytes);
    return 0;
}

static const struct command *command_called(const char *name)
{
    for (size_t i = 0; i < sizeof commands / sizeof commands[0]; i++)
        if (strcmp(name, commands[i].name) == 0)
            return &commands[i];
    misused("unknown command ", name);
}

/* help: what --help says, of the program or of the command that is named. */
static void help(const struct words *words)
{
    const char *name = words->file[0];
    say(name != NULL ? command_called(name)->help : program_help);
}

/* Before anything is read: to change a file in place is not what these commands do. */
static void keep_inputs(const struct command *command, const struct words *words)
{
    const char *output = words->option[OUTPUT] != NULL ? words->option[OUTPUT] : "-";
    if (!(command->takes & BIT(OUTPUT)))
        return;
    for (int i = 0; i < command->most; i++)
        if (words->file[i] != NULL && is_same_file(words->file[i], output))
            misused("the output is one of the inputs: ", words->file[i]);
}

int main(int count, char **given)
{
    hold_standard_files();
    int asked = skip_to_command(&count, &given);
    if (asked == HELP)
        return say(program_help);
    if (asked == VERSION)
        return say("scanboot " SCANBOOT_VERSION_TEXT "\n");
    const struct command *command = command_called(given[0]);
    struct words words = read_words(command, count, given);
    if (words.option[HELP] != NULL)
        return say(command->help);
    keep_inputs(command, &words);
    command->run(&words);
    return 0;
}
