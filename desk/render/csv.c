#include "day/benches.h"
#include "day/csv.h"
#include "render/render.h"

#include <inttypes.h>
#include <string.h>

/* The first cell of a row, and a cell behind it. Names are put down as they are, also those that a
 * spreadsheet would take for a formula: this is what the user wrote, and programs read it back. */
static void first_cell(const char *value, struct text *text)
{
    csv_render(value, strlen(value), ',', text);
}

static void cell(const char *value, struct text *text)
{
    text_byte(text, ',');
    if (value != NULL)
        csv_render(value, strlen(value), ',', text);
}

static void number(uint64_t value, struct text *text)
{
    text_format(text, ",%" PRIu64, value);
}

/* So many empty cells, and the end of the row. */
static void end(size_t empty, struct text *text)
{
    text_repeat(text, ",", empty);
    text_byte(text, '\n');
}

void csv_report_header(struct text *text)
{
    text_put(text, "day,answer,target,job,name,minutes,bench,bench_name\n");
}

static void begin(const struct report *report, const char *answer, struct text *text)
{
    first_cell(report->day->file_names[0], text);
    cell(answer, text);
    number(report->outcome->target, text);
}

static void job_cells(const struct day *day, size_t job, struct text *text)
{
    number(job, text);
    cell(day->job[job].name, text);
    number(day->contents.jobs[job].minutes, text);
}

static void bench_cells(const struct day *day, size_t bench, struct text *text)
{
    number(bench, text);
    cell(day->bench_names[bench], text);
}

static void plan(const struct report *report, struct text *text)
{
    const char *answer = report->outcome->best ? "best" : "plan";
    for (size_t job = 0; job < report->day->jobs; job++) {
        begin(report, answer, text);
        job_cells(report->day, job, text);
        bench_cells(report->day, report->outcome->places[job], text);
        end(0, text);
    }
    if (report->day->jobs == 0) {
        begin(report, answer, text);
        end(5, text);
    }
}

static void none(const struct report *report, struct text *text)
{
    for (size_t bench = 0; bench < report->day->contents.benches; bench++)
        if (YINQOCHA_HAS_BENCH(report->outcome->set, bench)) {
            begin(report, "none", text);
            text_put(text, ",,,");
            bench_cells(report->day, bench, text);
            end(0, text);
        }
}

/* The row of a day that was not read, or not planned because of a fault. */
static void refused(const struct report *report, struct text *text)
{
    bool error = report->outcome == NULL && first_fault(report->messages) == NULL;
    first_cell(report->day->file_names[0], text);
    cell(error ? "error" : "fault", text);
    end(6, text);
}

void csv_report(const struct report *report, struct text *text)
{
    if (report->outcome == NULL) {
        refused(report, text);
        return;
    }
    switch (report->outcome->answer) {
    case ANSWER_PLAN:
        plan(report, text);
        break;
    case ANSWER_LONG:
        begin(report, "long", text);
        job_cells(report->day, report->outcome->job, text);
        end(2, text);
        break;
    case ANSWER_NONE:
        none(report, text);
        break;
    case ANSWER_FAULT:
        refused(report, text);
        break;
    }
}

/* The cells largest, fullest, set, job, fault and place: those that a verdict has. */
static void verdict(const struct checked *checked, struct text *text)
{
    switch (checked->verdict) {
    case VERDICT_PASSED:
        cell("passed", text);
        if (checked->paper != PAPER_LIST) {
            end(6, text);
            break;
        }
        number(checked->largest, text);
        number(checked->fullest, text);
        end(4, text);
        break;
    case VERDICT_NOT_PASSED:
        cell("not passed", text);
        if (checked->paper != PAPER_PAGE) {
            end(6, text);
            break;
        }
        text_put(text, ",,");
        number(checked->set, text);
        end(3, text);
        break;
    case VERDICT_LONG:
        cell("long", text);
        text_put(text, ",,,");
        number(checked->job, text);
        end(2, text);
        break;
    case VERDICT_FAULT:
        cell("fault", text);
        text_put(text, ",,,,");
        number(checked->fault, text);
        number(checked->place, text);
        end(0, text);
        break;
    }
}

void csv_check(const struct check_report *report, struct text *text)
{
    static const char *const papers[] = { "list", "set", "page" };
    text_put(text, "day,check,answer,largest,fullest,set,job,fault,place\n");
    first_cell(report->day->file_names[0], text);
    cell(papers[report->checked->paper], text);
    verdict(report->checked, text);
}

void csv_compare(const struct compare_report *report, struct text *text)
{
    static const char *const answers[] = { "same", "different", "fault" };
    const struct day *day = report->day;
    const char *answer = answers[report->compared->comparison];
    text_put(text, "day,answer,job,name,first,second\n");
    if (report->compared->comparison != COMPARISON_DIFFERENT) {
        first_cell(day->file_names[0], text);
        cell(answer, text);
        end(4, text);
        return;
    }
    for (size_t job = 0; job < day->jobs; job++) {
        uint64_t first = report->first->entries[job], second = report->second->entries[job];
        if (first == second)
            continue;
        first_cell(day->file_names[0], text);
        cell(answer, text);
        number(job, text);
        cell(day->job[job].name, text);
        number(first, text);
        number(second, text);
        end(0, text);
    }
}

void csv_day(const struct day *day, struct text *text)
{
    text_put(text, "name,minutes,benches\n");
    for (size_t job = 0; job < day->jobs; job++) {
        struct text benches = TEXT_EMPTY;
        if (day->job[job].name != NULL)
            first_cell(day->job[job].name, text);
        else
            text_format(text, "%zu", job);
        number(day->contents.jobs[job].minutes, text);
        benches_render(day, day->contents.jobs[job].allowed, &benches);
        cell(text_string(&benches), text);
        end(0, text);
        text_free(&benches);
    }
}
