#include "commands/output.h"

#include "day/read.h"
#include "render/layout.h"

#include <stdlib.h>
#include <string.h>

/* Days that are planned one after another. */
struct run {
    const struct options *options;
    bool best;
    struct screen screen;
    struct text html;
    struct summary *summaries; /* of the days that are done */
    size_t done;
    int status;
};

/* A day with all that is told of it. */
struct planned {
    struct day *day;
    struct messages messages;
    struct outcome outcome;
    struct reason reason;
};

/* Shows that the search is going on, for it runs up to 31 targets. */
static void show_progress(const struct run *run, const struct day *day)
{
    struct text behind = TEXT_EMPTY;
    if (run->options->count > 1)
        text_format(&behind, " (%zu of %zu)", run->done + 1, run->options->count);
    text_put(&behind, ", ");
    put_count(day->jobs, "job", "s", &behind);
    text_put(&behind, " on ");
    put_count(day->contents.benches, "bench", "es", &behind);
    text_put(&behind, ", at most 31 targets");
    progress_begin("best: ", day->file_names[0], text_string(&behind));
    text_free(&behind);
}

/* Has the library plan the day, and finds the reason of a none. */
static struct report ask(const struct run *run, struct planned *planned)
{
    struct report report = { planned->day, &planned->outcome, NULL, &planned->messages };
    if (run->best) {
        show_progress(run, planned->day);
        ask_best(planned->day, &planned->outcome);
        progress_end();
    } else {
        ask_plan(planned->day, &planned->outcome);
    }
    if (planned->outcome.answer == ANSWER_NONE) {
        reason_of(planned->day, planned->outcome.set, &planned->reason);
        report.reason = &planned->reason;
    }
    return report;
}

static int status_of(const struct report *report)
{
    if (report->outcome == NULL || report->outcome->answer == ANSWER_FAULT)
        return STATUS_BAD;
    return report->outcome->answer == ANSWER_PLAN ? STATUS_GOOD : STATUS_REFUSED;
}

/* The report in the form that was asked for. A single day that was not read is told by its messages
 * alone where people read. */
static bool print(const struct run *run, const struct report *report)
{
    struct text text = TEXT_EMPTY;
    switch (run->options->form) {
    case FORM_TEXT:
        if (run->options->count == 1 && report->outcome == NULL)
            break;
        text_report(report, run->screen, &text);
        text_put(&text, run->options->count > 1 ? "\n" : "");
        break;
    case FORM_JSON:
        json_report(report, &text);
        break;
    case FORM_CSV:
        if (run->done == 0)
            csv_report_header(&text);
        csv_report(report, &text);
        break;
    case FORM_LINES:
        lines_report(report, &text);
        break;
    }
    return output_write(&text);
}

/* Plans a day and tells of it. False where nothing more can be told. */
static bool run_day(struct run *run, const char *path)
{
    struct planned planned = { .day = day_new(), .messages = MESSAGES_NONE };
    struct report report = { planned.day, NULL, NULL, &planned.messages };
    enum day_parts parts = run->best ? DAY_WITHOUT_TARGET : DAY_WHOLE;
    if (day_read(path, parts, planned.day, &planned.messages) == DAY_READ)
        report = ask(run, &planned);
    bool printed = print(run, &report);
    output_messages(&planned.messages);
    if (run->options->html != NULL)
        html_report(&report, &run->html);
    summary_of(&report, &run->summaries[run->done++]);
    int status = status_of(&report);
    run->status = status > run->status ? status : run->status;
    messages_free(&planned.messages);
    day_free(planned.day);
    return printed;
}

/* The table of several days, where people read. */
static bool print_table(const struct run *run)
{
    struct text text = TEXT_EMPTY;
    if (run->options->form != FORM_TEXT || run->options->count < 2)
        return true;
    text_summaries(run->summaries, run->done, run->screen, &text);
    return output_write(&text);
}

static bool run_days(struct run *run)
{
    const struct options *options = run->options;
    for (size_t n = 0; n < options->count; n++)
        if (!run_day(run, options->files[n]))
            return false;
    if (!print_table(run))
        return false;
    if (options->html == NULL)
        return true;
    html_end(&run->html);
    return output_file(options->html, text_string(&run->html), run->html.len);
}

/* Begins the page, with a title that says what is on it. */
static void begin_page(struct run *run)
{
    struct text title = TEXT_EMPTY;
    const char *file = run->options->files[0];
    if (run->options->count > 1)
        text_format(&title, "%s of %zu days", run->best ? "Best targets" : "Plans",
                    run->options->count);
    else
        text_format(&title, "%s of %s", run->best ? "Best target" : "Plan",
                    strcmp(file, "-") == 0 ? "standard input" : file);
    html_begin(text_string(&title), &run->html);
    text_free(&title);
}

static int run_all(const struct options *options, bool best)
{
    if (options->html != NULL && !output_allowed(options->html, PRODUCT_PAGE, options))
        return STATUS_USAGE;
    struct run run = { .options = options, .best = best, .screen = output_screen() };
    run.summaries = memory_new(options->count, sizeof *run.summaries);
    if (options->html != NULL)
        begin_page(&run);
    if (!run_days(&run))
        run.status = STATUS_BAD;
    for (size_t n = 0; n < run.done; n++)
        summary_free(&run.summaries[n]);
    free(run.summaries);
    text_free(&run.html);
    return run.status;
}

int command_plan(const struct options *options)
{
    return run_all(options, false);
}

int command_best(const struct options *options)
{
    return run_all(options, true);
}
