/*
 * commands.h - the subcommands
 */

#ifndef DESK_COMMANDS_H
#define DESK_COMMANDS_H

#include "render/render.h"

/* Exit statuses. Of several days the highest counts. */
enum status {
    STATUS_GOOD = 0,    /* a plan, passed, the same */
    STATUS_REFUSED = 1, /* long or none, not passed, different */
    STATUS_BAD = 2,     /* bad input or a fault, or something could not be read or written */
    STATUS_USAGE = 3    /* the command line is wrong */
};

enum form { FORM_TEXT, FORM_JSON, FORM_CSV, FORM_LINES };

/* What a command line says. Arguments that are no options are `files`, in order. */
struct options {
    enum form form;
    const char *html;   /* --html FILE */
    const char *output; /* -o FILE, --output FILE */
    const char *list, *set, *page;
    const char *const *files;
    size_t count;
    bool help;
};

int command_plan(const struct options *options);
int command_best(const struct options *options);
int command_check(const struct options *options);
int command_compare(const struct options *options);
int command_sheet(const struct options *options);
int command_show(const struct options *options);

/* All of the command, from the arguments to the exit status. */
int desk_main(int argc, char **argv);

#endif
