#include "commands/options.h"
#include "commands/output.h"

#include <stdint.h>
#include <stdio.h>
#include <stdlib.h>
#include <string.h>

#ifndef YINQOCHA_VERSION
#define YINQOCHA_VERSION "unknown"
#endif

static const struct command commands[] = {
    { "plan", TAKES_FORM | TAKES_HTML, 1, SIZE_MAX, "at least one DAY", command_plan, help_plan },
    { "best", TAKES_FORM | TAKES_HTML, 1, SIZE_MAX, "at least one DAY", command_best, help_best },
    { "check", TAKES_FORM | TAKES_PAPER, 1, 1, "one DAY", command_check, help_check },
    { "compare", TAKES_FORM, 3, 3, "DAY FIRST SECOND", command_compare, help_compare },
    { "sheet", TAKES_OUTPUT, 1, 1, "one DAY", command_sheet, help_sheet },
    { "show", TAKES_FORM, 1, 1, "one DAY", command_show, help_show },
};

static const struct command *command_find(const char *name)
{
    for (size_t n = 0; n < sizeof commands / sizeof *commands; n++)
        if (strcmp(commands[n].name, name) == 0)
            return &commands[n];
    return NULL;
}

static int print(const char *string)
{
    struct text text = TEXT_EMPTY;
    text_put(&text, string);
    return output_write(&text) ? STATUS_GOOD : STATUS_BAD;
}

static int no_command(const char *name)
{
    fprintf(stderr, "yinqocha: there is no command %s\nsee yinqocha --help\n", name);
    return STATUS_USAGE;
}

/* yinqocha help, and yinqocha help CMD. */
static int help(int argc, char **argv)
{
    if (argc == 0)
        return print(help_all);
    if (argc > 1) {
        fputs("yinqocha help: expected one command\nsee yinqocha --help\n", stderr);
        return STATUS_USAGE;
    }
    const struct command *command = command_find(argv[0]);
    return command != NULL ? print(command->help) : no_command(argv[0]);
}

static int run(const struct command *command, int argc, char **argv)
{
    const char **files = memory_new((size_t)argc, sizeof *files);
    struct options options;
    struct text words = TEXT_EMPTY;
    int status = STATUS_USAGE;
    if (!options_read(command, argc, argv, files, &options, &words))
        fprintf(stderr, "yinqocha %s: %s\nsee yinqocha %s --help\n", command->name,
                text_string(&words), command->name);
    else
        status = options.help ? print(command->help) : command->run(&options);
    text_free(&words);
    free(files);
    return status;
}

int desk_main(int argc, char **argv)
{
    const char *name = argc > 1 ? argv[1] : NULL;
    if (name == NULL) {
        fputs("yinqocha: expected a command: plan, best, check, compare, sheet, show or help\n"
              "see yinqocha --help\n", stderr);
        return STATUS_USAGE;
    }
    if (strcmp(name, "--help") == 0 || strcmp(name, "-h") == 0)
        return print(help_all);
    if (strcmp(name, "help") == 0)
        return help(argc - 2, argv + 2);
    if (strcmp(name, "--version") == 0)
        return print("yinqocha " YINQOCHA_VERSION "\n");
    const struct command *command = command_find(name);
    return command != NULL ? run(command, argc - 2, argv + 2) : no_command(name);
}
