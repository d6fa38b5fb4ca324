#include "render/layout.h"

#include "base/utf8.h"

#include <inttypes.h>
#include <string.h>

/* The columns of the table of jobs that are elsewhere. */
struct widths {
    size_t job, first, second;
};

static void job_words(const struct day *day, size_t job, struct text *text)
{
    day_job_name(day, job, text);
    text_format(text, " (%" PRIu64 ")", day->contents.jobs[job].minutes);
}

static bool is_elsewhere(const struct compare_report *report, size_t job)
{
    return report->first->entries[job] != report->second->entries[job];
}

static size_t wider(size_t columns, const struct text *words)
{
    size_t wide = utf8_columns(text_string(words), words->len);
    return wide > columns ? wide : columns;
}

static size_t smaller(size_t a, size_t b)
{
    return a < b ? a : b;
}

/* Each column as wide as its words, as far as the screen goes. */
static struct widths widths_of(const struct compare_report *report, struct screen screen)
{
    struct widths widths = { strlen("job"), strlen("first"), strlen("second") };
    for (size_t j = 0; j < report->day->jobs; j++) {
        struct text job = TEXT_EMPTY, first = TEXT_EMPTY, second = TEXT_EMPTY;
        if (!is_elsewhere(report, j))
            continue;
        job_words(report->day, j, &job);
        day_bench_name(report->day, report->first->entries[j], &first);
        day_bench_name(report->day, report->second->entries[j], &second);
        widths.job = wider(widths.job, &job);
        widths.first = wider(widths.first, &first);
        widths.second = wider(widths.second, &second);
        text_free(&job);
        text_free(&first);
        text_free(&second);
    }
    size_t bench = screen.columns / 4 - 2;
    widths.first = smaller(widths.first, bench);
    widths.second = smaller(widths.second, bench);
    widths.job = smaller(widths.job, screen.columns - 6 - widths.first - widths.second);
    return widths;
}

/* A row, in which the words of a column are cut where they are too long for it. */
static void put_row(const struct widths *widths, const struct text *job, const struct text *first,
                    const struct text *second, struct text *text)
{
    text_put(text, "  ");
    put_padded(text_string(job), job->len, widths->job, text);
    text_put(text, "  ");
    put_padded(text_string(first), first->len, widths->first, text);
    text_put(text, "  ");
    put_front(text_string(second), second->len, widths->second, text);
    text_byte(text, '\n');
}

static void put_titles(const struct widths *widths, struct text *text)
{
    struct text job = TEXT_EMPTY, first = TEXT_EMPTY, second = TEXT_EMPTY;
    text_put(&job, "job");
    text_put(&first, "first");
    text_put(&second, "second");
    put_row(widths, &job, &first, &second, text);
    text_free(&job);
    text_free(&first);
    text_free(&second);
}

static void put_elsewhere(const struct compare_report *report, struct screen screen,
                          struct text *text)
{
    struct widths widths = widths_of(report, screen);
    put_titles(&widths, text);
    for (size_t j = 0; j < report->day->jobs; j++) {
        struct text job = TEXT_EMPTY, first = TEXT_EMPTY, second = TEXT_EMPTY;
        if (!is_elsewhere(report, j))
            continue;
        job_words(report->day, j, &job);
        day_bench_name(report->day, report->first->entries[j], &first);
        day_bench_name(report->day, report->second->entries[j], &second);
        put_row(&widths, &job, &first, &second, text);
        text_free(&job);
        text_free(&first);
        text_free(&second);
    }
}

/* What the comparison says, in words. */
static void compare_words(const struct compare_report *report, struct text *text)
{
    size_t elsewhere = 0;
    for (size_t j = 0; j < report->day->jobs; j++)
        elsewhere += is_elsewhere(report, j);
    if (report->compared->comparison == COMPARISON_SAME)
        text_put(text, "Every job is on the same bench in ");
    else
        text_format(text, "%zu of %zu jobs %s elsewhere: ", elsewhere, report->day->jobs,
                    elsewhere == 1 ? "is" : "are");
    put_front(report->first_file, strlen(report->first_file), SIZE_MAX, text);
    text_put(text, report->compared->comparison == COMPARISON_SAME ? " and " : " is the first, ");
    put_front(report->second_file, strlen(report->second_file), SIZE_MAX, text);
    text_put(text, report->compared->comparison == COMPARISON_SAME ? "." : " the second.");
}

void text_compare(const struct compare_report *report, struct screen screen, struct text *text)
{
    const struct compared *compared = report->compared;
    struct text words = TEXT_EMPTY;
    bool same = compared->comparison == COMPARISON_SAME;
    if (compared->comparison == COMPARISON_FAULT)
        fault_words(report->day, compared->fault, compared->place,
                    compared->place == 0 ? report->first : report->second, NULL, &words);
    else
        compare_words(report, &words);
    put_heading(report->day, same ? "the same" : compared->comparison == COMPARISON_DIFFERENT
                                                    ? "different" : "fault",
                same ? COLOUR_GREEN : COLOUR_RED, screen, text);
    put_wrapped(text_string(&words), words.len, 0, screen, text);
    text_free(&words);
    if (compared->comparison == COMPARISON_DIFFERENT) {
        text_byte(text, '\n');
        put_elsewhere(report, screen, text);
    }
}
