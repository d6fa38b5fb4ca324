#include "commands/options.h"

#include <stdint.h>
#include <string.h>

/* The arguments that are being read. */
struct reading {
    const struct command *command;
    struct options *options;
    const char **files;
    char **argv;
    int argc, at;
    const char *form; /* the option that chose the form, as it was written */
    struct text *words;
};

/* An option and where its value goes: a form, or a string. */
struct option {
    const char *name;
    unsigned takes;
    enum form form;
    const char **value; /* NULL for an option without a value */
    const char *what;   /* the value in words */
};

static bool wrong(struct reading *reading, const char *before, const char *argument,
                  const char *behind)
{
    text_format(reading->words, "%s%s%s", before, argument, behind);
    return false;
}

/* Takes the value of an option, which stands behind a = or is the next argument. */
static bool read_value(struct reading *reading, const struct option *option, const char *value)
{
    if (*option->value != NULL)
        return wrong(reading, "", option->name, " is given twice");
    if (value == NULL && reading->at + 1 < reading->argc)
        value = reading->argv[++reading->at];
    if (value == NULL || *value == '\0') {
        text_format(reading->words, "%s lacks its value: expected %s", option->name, option->what);
        return false;
    }
    *option->value = value;
    return true;
}

static bool read_form(struct reading *reading, const struct option *option, const char *value)
{
    if (value != NULL)
        return wrong(reading, "", option->name, " takes no value");
    if (reading->form != NULL && strcmp(reading->form, option->name) != 0) {
        text_format(reading->words, "%s and %s exclude each other", reading->form, option->name);
        return false;
    }
    reading->form = option->name;
    reading->options->form = option->form;
    return true;
}

/* Whether an argument is this option: its name, a = and a value behind it or not. A short one may
 * have its value right behind it. */
static bool is_option(const char *argument, const char *name, const char **value)
{
    size_t len = strlen(name);
    *value = NULL;
    if (strncmp(argument, name, len) != 0)
        return false;
    if (argument[len] == '\0')
        return true;
    *value = argument + len + (name[1] == '-' ? 1 : 0);
    return name[1] != '-' || argument[len] == '=';
}

static bool read_option(struct reading *reading, const char *argument)
{
    struct options *options = reading->options;
    const struct option all[] = {
        { "--json", TAKES_FORM, FORM_JSON, NULL, NULL },
        { "--csv", TAKES_FORM, FORM_CSV, NULL, NULL },
        { "--lines", TAKES_FORM, FORM_LINES, NULL, NULL },
        { "--html", TAKES_HTML, FORM_TEXT, &options->html, "the file to write" },
        { "--output", TAKES_OUTPUT, FORM_TEXT, &options->output, "the file to write" },
        { "-o", TAKES_OUTPUT, FORM_TEXT, &options->output, "the file to write" },
        { "--list", TAKES_PAPER, FORM_TEXT, &options->list, "the file of a list of places" },
        { "--set", TAKES_PAPER, FORM_TEXT, &options->set, "benches, such as 0,2,5-7" },
        { "--page", TAKES_PAPER, FORM_TEXT, &options->page, "the file of a page of sets" },
    };
    for (size_t n = 0; n < sizeof all / sizeof *all; n++) {
        const char *value;
        if ((reading->command->takes & all[n].takes) == 0
            || !is_option(argument, all[n].name, &value))
            continue;
        return all[n].value != NULL ? read_value(reading, &all[n], value)
                                    : read_form(reading, &all[n], value);
    }
    return wrong(reading, "there is no option ", argument, "");
}

/* Standard input is read once, so one argument at most may stand for it. */
static bool check_input(struct reading *reading)
{
    const struct options *options = reading->options;
    const char *const papers[] = { options->list, options->page };
    size_t inputs = 0;
    for (size_t n = 0; n < options->count; n++)
        inputs += strcmp(options->files[n], "-") == 0;
    for (size_t n = 0; n < 2; n++)
        inputs += papers[n] != NULL && strcmp(papers[n], "-") == 0;
    return inputs < 2 || wrong(reading, "standard input, ", "-", ", can be given once only");
}

/* Whether there are as many files and papers as the subcommand needs. */
static bool check_counts(struct reading *reading)
{
    const struct command *command = reading->command;
    const struct options *options = reading->options;
    int papers = (options->list != NULL) + (options->set != NULL) + (options->page != NULL);
    if (options->count < command->least || options->count > command->most) {
        text_format(reading->words, "expected %s, and there %s %zu file%s", command->files,
                    options->count == 1 ? "is" : "are", options->count,
                    options->count == 1 ? "" : "s");
        return false;
    }
    if ((command->takes & TAKES_PAPER) != 0 && papers != 1) {
        text_put(reading->words, papers == 0 ? "expected one of --list, --set and --page"
                                             : "--list, --set and --page exclude each other");
        return false;
    }
    if (options->html != NULL && strcmp(options->html, "-") == 0)
        return wrong(reading, "", "--html", " needs a file of its own, not standard output");
    return check_input(reading);
}

bool options_read(const struct command *command, int argc, char **argv, const char **files,
                  struct options *options, struct text *words)
{
    struct reading reading = { command, options, files, argv, argc, 0, NULL, words };
    bool only_files = false;
    *options = (struct options){ .form = FORM_TEXT, .files = files };
    for (; reading.at < argc; reading.at++) {
        const char *argument = argv[reading.at];
        if (only_files || argument[0] != '-' || argument[1] == '\0') {
            files[options->count++] = argument;
        } else if (strcmp(argument, "--") == 0) {
            only_files = true;
        } else if (strcmp(argument, "--help") == 0 || strcmp(argument, "-h") == 0) {
            options->help = true;
            return true;
        } else if (!read_option(&reading, argument)) {
            return false;
        }
    }
    return check_counts(&reading);
}
