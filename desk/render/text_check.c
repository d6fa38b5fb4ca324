#include "render/layout.h"

#include <inttypes.h>
#include <string.h>

#define TIMES "\xC3\x97"

/* The name of a file in a sentence. */
static void put_file(const char *file, struct text *text)
{
    put_front(file, strlen(file), SIZE_MAX, text);
}

static void put_target(const struct day *day, struct text *text)
{
    text_put(text, "the target of ");
    put_minutes(day->contents.target, text);
}

static void passed_list_words(const struct check_report *report, struct text *text)
{
    const struct day *day = report->day;
    put_file(report->file, text);
    text_put(text, " is a plan of this day: every job is on one of its benches, and no bench has "
                   "more than ");
    put_minutes(report->checked->largest, text);
    text_put(text, " (");
    day_bench_name(day, report->checked->fullest, text);
    text_put(text, "); the bound is ");
    put_minutes(day_bound(day, day->contents.target), text);
    text_format(text, " for the target of %" PRIu64 ".", day->contents.target);
    text_put(text, report->checked->largest > day->contents.target
                       ? " The fullest bench is above the target, within the bound.\n"
                       : " Every bench is within the target.\n");
}

/* The benches whose loads are above the bound. */
static void overloaded_words(const struct check_report *report, struct text *text)
{
    const struct day *day = report->day;
    uint64_t bound = day_bound(day, day->contents.target), loads[YINQOCHA_MAX_BENCHES];
    unsigned above = 0;
    memcpy(loads, day->contents.booked, sizeof loads);
    for (size_t j = 0; j < day->jobs; j++)
        loads[report->list->entries[j]] += day->contents.jobs[j].minutes;
    text_put(text, "Above the bound of ");
    put_minutes(bound, text);
    text_put(text, ": ");
    for (size_t b = 0; b < day->contents.benches; b++) {
        if (loads[b] <= bound)
            continue;
        text_put(text, above++ > 0 ? ", " : "");
        day_bench_name(day, b, text);
        text_format(text, " (%" PRIu64 ")", loads[b]);
    }
    text_put(text, ".\n");
}

static void list_words(const struct check_report *report, struct text *text)
{
    size_t first = 0;
    if (report->checked->verdict == VERDICT_PASSED) {
        passed_list_words(report, text);
        return;
    }
    put_file(report->file, text);
    text_put(text, " is no plan of this day.\n");
    size_t count = list_misplaced(report->day, report->list, &first);
    if (count == 0) {
        overloaded_words(report, text);
        return;
    }
    text_put(text, "In a wrong place: ");
    misplaced_words(report->day, report->list, first, text);
    if (count > 1)
        text_format(text, "; and %zu more", count - 1);
    text_put(text, ".\n");
}

/* A set that is blocking, or is not. */
static void put_blocking(const struct day *day, uint64_t set, bool passed, struct text *text)
{
    unsigned count = benches_count(set);
    put_set_first(day, set, text);
    text_put(text, count == 1 ? " is " : " are ");
    text_put(text, passed ? "a blocking set for " : "no blocking set for ");
    put_target(day, text);
    if (passed) {
        text_put(text, ": no assignment keeps every bench within it.\n");
        return;
    }
    text_format(text, ": a placement leaves what must lie there within %u " TIMES " %" PRIu64 " = ",
                count, day->contents.target);
    put_minutes(count * day->contents.target, text);
    text_put(text, ". That does not say whether an assignment keeps every bench within the "
                   "target.\n");
}

static void set_words(const struct check_report *report, struct text *text)
{
    put_blocking(report->day, report->set, report->checked->verdict == VERDICT_PASSED, text);
}

static void page_words(const struct check_report *report, struct text *text)
{
    const struct table *page = report->page;
    uint64_t together = 0;
    if (report->checked->verdict == VERDICT_NOT_PASSED) {
        text_format(text, "Set %" PRIu64 " of ", report->checked->set);
        put_file(report->file, text);
        text_put(text, ", counted from 0, is not blocking. ");
        put_blocking(report->day, page->entries[report->checked->set], false, text);
        return;
    }
    put_file(report->file, text);
    if (page->count == 0) {
        text_put(text, " has no set, which says nothing about the target.\n");
        return;
    }
    for (size_t n = 0; n < page->count; n++)
        together |= page->entries[n];
    text_put(text, " has ");
    put_count(page->count, "set", "s", text);
    text_put(text, page->count == 1 ? ", which is blocking" : ", each blocking, and no two share a "
                                                              "bench");
    text_put(text, ". ");
    put_blocking(report->day, together, true, text);
}

static void long_words(const struct check_report *report, struct text *text)
{
    uint64_t job = report->checked->job;
    text_put(text, report->day->job[job].name != NULL ? "The job " : "The ");
    day_job_name(report->day, job, text);
    text_put(text, " has ");
    put_minutes(report->day->contents.jobs[job].minutes, text);
    text_put(text, ", more than ");
    put_target(report->day, text);
    text_put(text, ": no assignment keeps every bench within it, and no set is judged.\n");
}

void text_check(const struct check_report *report, struct screen screen, struct text *text)
{
    static const char *const verdicts[] = {
        [VERDICT_PASSED] = "passed", [VERDICT_NOT_PASSED] = "not passed", [VERDICT_LONG] = "long",
        [VERDICT_FAULT] = "fault",
    };
    const struct checked *checked = report->checked;
    struct text words = TEXT_EMPTY;
    if (checked->verdict == VERDICT_FAULT) {
        fault_words(report->day, checked->fault, checked->place, report->list, report->page,
                    &words);
    } else if (checked->verdict == VERDICT_LONG) {
        long_words(report, &words);
    } else {
        (checked->paper == PAPER_LIST  ? list_words
         : checked->paper == PAPER_SET ? set_words
                                       : page_words)(report, &words);
    }
    put_heading(report->day, verdicts[checked->verdict],
                checked->verdict == VERDICT_PASSED ? COLOUR_GREEN : COLOUR_RED, screen, text);
    put_paragraphs(&words, 0, false, screen, text);
    text_free(&words);
    if (report->reason != NULL && checked->verdict == VERDICT_PASSED) {
        text_byte(text, '\n');
        text_reason(report->day, report->reason, screen, text);
    }
}
