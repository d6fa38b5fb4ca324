#include "render/layout.h"

#include "base/utf8.h"

#include <inttypes.h>
#include <stdlib.h>
#include <string.h>

/* What is told of an answer behind its numbers: the fullest bench, the job that is too long, the
 * blocking set, or the first thing that is wrong. */
static void words_of(const struct report *report, struct text *text)
{
    const struct outcome *outcome = report->outcome;
    const struct messages *messages = report->messages;
    if (outcome == NULL) {
        text_put(text, messages != NULL && messages->count > 0 ? messages->all[0].words : "");
        return;
    }
    switch (outcome->answer) {
    case ANSWER_PLAN:
        day_bench_name(report->day, outcome->fullest, text);
        break;
    case ANSWER_LONG:
        day_job_name(report->day, outcome->job, text);
        text_format(text, " (%" PRIu64 ")", report->day->contents.jobs[outcome->job].minutes);
        break;
    case ANSWER_NONE:
        put_set(report->day, outcome->set, text);
        break;
    case ANSWER_FAULT:
        text_format(text, "fault %" PRIu32 " %" PRIu32, outcome->fault, outcome->place);
        break;
    }
}

void summary_of(const struct report *report, struct summary *summary)
{
    const char *file = report->day->file_names[0];
    *summary = (struct summary){ .answer = ANSWER_FAULT, .words = TEXT_EMPTY };
    summary->file = memory_string(file, strlen(file));
    words_of(report, &summary->words);
    if (report->outcome == NULL || report->outcome->answer == ANSWER_FAULT)
        return;
    summary->answer = report->outcome->answer;
    summary->best = report->outcome->best;
    summary->benches = report->day->contents.benches;
    summary->jobs = report->day->jobs;
    summary->target = report->outcome->target;
    summary->largest = report->outcome->largest;
    summary->bound = day_bound(report->day, report->outcome->target);
}

void summary_free(struct summary *summary)
{
    free(summary->file);
    text_free(&summary->words);
    *summary = (struct summary){ .file = NULL };
}

/* The columns of the table. Numbers are put at the right end of theirs. */
enum column { FILE_COLUMN, ANSWER, BENCHES, JOBS, TARGET, LARGEST, WORDS, COLUMNS };

static const char *const titles[COLUMNS] = {
    "day", "answer", "benches", "jobs", "target", "largest/bound", "where or why",
};

static bool is_number(enum column column)
{
    return column >= BENCHES && column <= LARGEST;
}

static void put_number(bool there, uint64_t number, struct text *text)
{
    if (there)
        text_format(text, "%" PRIu64, number);
    else
        text_put(text, "-");
}

/* What stands in a cell. */
static void put_cell(const struct summary *summary, enum column column, struct text *text)
{
    static const char *const answers[] = {
        [ANSWER_PLAN] = "plan", [ANSWER_LONG] = "long", [ANSWER_NONE] = "none",
        [ANSWER_FAULT] = "bad",
    };
    bool read = summary->answer != ANSWER_FAULT;
    switch (column) {
    case FILE_COLUMN:
        text_put(text, summary->file);
        break;
    case ANSWER:
        text_put(text, summary->best ? "best" : answers[summary->answer]);
        break;
    case BENCHES:
        put_number(read, summary->benches, text);
        break;
    case JOBS:
        put_number(read, summary->jobs, text);
        break;
    case TARGET:
        put_number(read, summary->target, text);
        break;
    case LARGEST:
        put_number(summary->answer == ANSWER_PLAN, summary->largest, text);
        if (summary->answer == ANSWER_PLAN)
            text_format(text, "/%" PRIu64, summary->bound);
        break;
    default:
        text_add(text, text_string(&summary->words), summary->words.len);
        break;
    }
}

/* The columns that a column would like to have. */
static size_t wanted_columns(const struct summary *summaries, size_t count, enum column column)
{
    size_t widest = strlen(titles[column]);
    for (size_t n = 0; n < count; n++) {
        struct text cell = TEXT_EMPTY;
        put_cell(&summaries[n], column, &cell);
        size_t columns = utf8_columns(text_string(&cell), cell.len);
        widest = columns > widest ? columns : widest;
        text_free(&cell);
    }
    return widest;
}

static size_t sum_of(const size_t widths[COLUMNS])
{
    size_t sum = 0;
    for (enum column column = 0; column < COLUMNS; column++)
        sum += widths[column] > 0 ? widths[column] + (sum > 0 ? 2 : 0) : 0;
    return sum;
}

/* Takes columns from one until the table fits, but leaves it so many. */
static void narrow(size_t widths[COLUMNS], enum column column, size_t least, struct screen screen)
{
    size_t sum = sum_of(widths);
    if (sum <= screen.columns || widths[column] <= least)
        return;
    size_t over = sum - screen.columns;
    widths[column] = over < widths[column] - least ? widths[column] - over : least;
}

/* The words give way first, then the file's name; then whole columns are left out. */
static void fit_columns(size_t widths[COLUMNS], struct screen screen)
{
    static const enum column dispensable[] = { BENCHES, JOBS, WORDS, LARGEST, TARGET };
    narrow(widths, WORDS, 24, screen);
    narrow(widths, FILE_COLUMN, 16, screen);
    narrow(widths, WORDS, 14, screen);
    for (size_t n = 0; n < sizeof dispensable / sizeof *dispensable; n++)
        if (sum_of(widths) > screen.columns)
            widths[dispensable[n]] = 0;
    narrow(widths, FILE_COLUMN, 8, screen);
}

static void put_row(const struct summary *summary, const size_t widths[COLUMNS],
                    struct screen screen, struct text *text)
{
    size_t begun = text->len;
    for (enum column column = 0; column < COLUMNS; column++) {
        struct text cell = TEXT_EMPTY;
        if (widths[column] == 0)
            continue;
        if (summary == NULL)
            text_put(&cell, titles[column]);
        else
            put_cell(summary, column, &cell);
        text_put(text, text->len > begun ? "  " : "");
        size_t taken = utf8_columns(text_string(&cell), cell.len);
        size_t blanks = taken < widths[column] ? widths[column] - taken : 0;
        bool refused = column == ANSWER && summary != NULL && summary->answer != ANSWER_PLAN;
        text_repeat(text, " ", is_number(column) ? blanks : 0);
        if (refused)
            colour_begin(screen, COLOUR_RED, text);
        (column == FILE_COLUMN ? put_end : put_front)(text_string(&cell), cell.len, widths[column],
                                                      text);
        if (refused)
            colour_end(screen, text);
        text_repeat(text, " ", !is_number(column) && column != WORDS ? blanks : 0);
        text_free(&cell);
    }
    trim_end(text);
    text_byte(text, '\n');
}

/* How many days have which answer. */
static void put_totals(const struct summary *summaries, size_t count, struct screen screen,
                       struct text *text)
{
    static const char *const answers[] = {
        [ANSWER_PLAN] = "with a plan", [ANSWER_LONG] = "with a job that is too long",
        [ANSWER_NONE] = "with a blocking set", [ANSWER_FAULT] = "not planned",
    };
    struct text words = TEXT_EMPTY;
    size_t counts[] = { 0, 0, 0, 0 };
    for (size_t n = 0; n < count; n++)
        counts[summaries[n].answer]++;
    put_count(count, "day", "s", &words);
    text_put(&words, ": ");
    bool begun = false;
    for (size_t answer = 0; answer < 4; answer++) {
        if (counts[answer] == 0)
            continue;
        text_format(&words, "%s%zu %s", begun ? ", " : "", counts[answer], answers[answer]);
        begun = true;
    }
    put_wrapped(text_string(&words), words.len, 0, screen, text);
    text_free(&words);
}

void text_summaries(const struct summary *summaries, size_t count, struct screen screen,
                    struct text *text)
{
    size_t widths[COLUMNS];
    for (enum column column = 0; column < COLUMNS; column++)
        widths[column] = wanted_columns(summaries, count, column);
    fit_columns(widths, screen);
    put_row(NULL, widths, screen, text);
    for (size_t n = 0; n < count; n++)
        put_row(&summaries[n], widths, screen, text);
    put_totals(summaries, count, screen, text);
}
