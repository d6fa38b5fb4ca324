#include "commands/output.h"

#include "day/benches.h"
#include "day/read.h"

#include <string.h>

/* A check with what is checked. */
struct check {
    const struct options *options;
    struct day *day;
    struct messages messages;
    struct table list, page;
    uint64_t set;
    struct checked checked;
    struct reason reason;
};

/* Reads the list, the page or the set. */
static bool read_paper(struct check *check)
{
    const struct options *options = check->options;
    if (options->list != NULL)
        return list_read(check->day, options->list, &check->list, &check->messages);
    if (options->page != NULL)
        return page_read(check->day, options->page, &check->page, &check->messages);
    struct spot spot = { "--set", 1, 1 };
    check->set = benches_read(check->day, options->set, strlen(options->set), spot,
                              &check->messages);
    return check->set != 0;
}

static void ask(struct check *check)
{
    if (check->options->list != NULL)
        ask_list(check->day, &check->list, &check->checked);
    else if (check->options->page != NULL)
        ask_page(check->day, &check->page, &check->checked);
    else
        ask_set(check->day, check->set, &check->checked);
}

/* The file of a list or page as shown to people. */
static const char *paper_file(const struct options *options)
{
    const char *path = options->list != NULL ? options->list : options->page;
    return path != NULL && strcmp(path, "-") == 0 ? "standard input" : path;
}

/* Says on standard error what a fault means. */
static void put_fault(const struct check *check, const struct check_report *report)
{
    struct messages messages = MESSAGES_NONE;
    struct text words = TEXT_EMPTY;
    fault_words(check->day, check->checked.fault, check->checked.place, report->list, report->page,
                &words);
    message_fault(&messages, report->file != NULL ? report->file : "--set", 0, 0,
                  check->checked.fault, check->checked.place, "%s", text_string(&words));
    output_messages(&messages);
    text_free(&words);
    messages_free(&messages);
}

static bool print(const struct check *check, const struct check_report *report)
{
    struct text text = TEXT_EMPTY;
    switch (check->options->form) {
    case FORM_TEXT:
        if (check->checked.verdict != VERDICT_FAULT)
            text_check(report, output_screen(), &text);
        break;
    case FORM_JSON:
        json_check(report, &text);
        break;
    case FORM_CSV:
        csv_check(report, &text);
        break;
    case FORM_LINES:
        lines_check(report, &text);
        break;
    }
    bool printed = output_write(&text);
    if (check->checked.verdict == VERDICT_FAULT)
        put_fault(check, report);
    return printed;
}

static int run(struct check *check)
{
    const struct options *options = check->options;
    if (day_read(options->files[0], DAY_WHOLE, check->day, &check->messages) != DAY_READ
        || !read_paper(check))
        return output_bad_input(options, check->day->file_names[0], &check->messages);
    ask(check);
    struct check_report report = {
        .day = check->day,
        .checked = &check->checked,
        .list = options->list != NULL ? &check->list : NULL,
        .page = options->page != NULL ? &check->page : NULL,
        .set = check->set,
        .file = paper_file(options),
    };
    if (options->set != NULL && check->checked.verdict == VERDICT_PASSED) {
        reason_of(check->day, check->set, &check->reason);
        report.reason = &check->reason;
    }
    if (!print(check, &report) || check->checked.verdict == VERDICT_FAULT)
        return STATUS_BAD;
    return check->checked.verdict == VERDICT_PASSED ? STATUS_GOOD : STATUS_REFUSED;
}

int command_check(const struct options *options)
{
    struct check check = {
        .options = options,
        .day = day_new(),
        .messages = MESSAGES_NONE,
        .list = TABLE_EMPTY,
        .page = TABLE_EMPTY,
    };
    int status = run(&check);
    table_free(&check.list);
    table_free(&check.page);
    messages_free(&check.messages);
    day_free(check.day);
    return status;
}
