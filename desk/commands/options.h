/*
 * options.h - the command line
 */

#ifndef DESK_OPTIONS_H
#define DESK_OPTIONS_H

#include "commands/commands.h"

/* The options that a subcommand takes besides --help. */
enum takes { TAKES_FORM = 1, TAKES_HTML = 2, TAKES_OUTPUT = 4, TAKES_PAPER = 8 };

/* A subcommand: the number of its files, what it does, and its help. */
struct command {
    const char *name;
    unsigned takes;
    size_t least, most;
    const char *files; /* the words for its files in a message */
    int (*run)(const struct options *options);
    const char *help;
};

/* What `yinqocha --help` prints, and what --help prints behind each subcommand. */
extern const char help_all[];
extern const char help_plan[], help_best[], help_check[], help_compare[], help_sheet[], help_show[];

/* Reads the arguments behind the subcommand's name. `files` has room for all of them. False where
 * they are wrong; `words` then says why. With --help nothing else counts. */
bool options_read(const struct command *command, int argc, char **argv, const char **files,
                  struct options *options, struct text *words);

#endif
