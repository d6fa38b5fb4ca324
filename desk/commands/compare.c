#include "commands/output.h"

#include "day/read.h"

#include <string.h>

/* A comparison with its lists. */
struct comparing {
    const struct options *options;
    struct day *day;
    struct messages messages;
    struct table first, second;
};

static const char *shown_file(const char *path)
{
    return strcmp(path, "-") == 0 ? "standard input" : path;
}

/* Says on standard error what a fault means. */
static void put_fault(const struct compare_report *report)
{
    const struct compared *compared = report->compared;
    bool first = compared->place == 0;
    struct messages messages = MESSAGES_NONE;
    struct text words = TEXT_EMPTY;
    fault_words(report->day, compared->fault, compared->place,
                first ? report->first : report->second, NULL, &words);
    message_fault(&messages, first ? report->first_file : report->second_file, 0, 0,
                  compared->fault, compared->place, "%s", text_string(&words));
    output_messages(&messages);
    text_free(&words);
    messages_free(&messages);
}

static bool print(const struct options *options, const struct compare_report *report)
{
    struct text text = TEXT_EMPTY;
    bool fault = report->compared->comparison == COMPARISON_FAULT;
    switch (options->form) {
    case FORM_TEXT:
        if (!fault)
            text_compare(report, output_screen(), &text);
        break;
    case FORM_JSON:
        json_compare(report, &text);
        break;
    case FORM_CSV:
        csv_compare(report, &text);
        break;
    case FORM_LINES:
        lines_compare(report, &text);
        break;
    }
    bool printed = output_write(&text);
    if (fault)
        put_fault(report);
    return printed;
}

static int run(struct comparing *comparing)
{
    const struct options *options = comparing->options;
    struct day *day = comparing->day;
    if (day_read(options->files[0], DAY_WHOLE, day, &comparing->messages) != DAY_READ)
        return output_bad_input(options, day->file_names[0], &comparing->messages);
    bool first = list_read(day, options->files[1], &comparing->first, &comparing->messages);
    bool second = list_read(day, options->files[2], &comparing->second, &comparing->messages);
    if (!first || !second)
        return output_bad_input(options, day->file_names[0], &comparing->messages);
    struct compared compared;
    ask_compare(day, &comparing->first, &comparing->second, &compared);
    struct compare_report report = {
        day, &compared, &comparing->first, &comparing->second,
        shown_file(options->files[1]), shown_file(options->files[2]),
    };
    if (!print(options, &report) || compared.comparison == COMPARISON_FAULT)
        return STATUS_BAD;
    return compared.comparison == COMPARISON_SAME ? STATUS_GOOD : STATUS_REFUSED;
}

int command_compare(const struct options *options)
{
    struct comparing comparing = {
        options, day_new(), MESSAGES_NONE, TABLE_EMPTY, TABLE_EMPTY,
    };
    int status = run(&comparing);
    table_free(&comparing.first);
    table_free(&comparing.second);
    messages_free(&comparing.messages);
    day_free(comparing.day);
    return status;
}
