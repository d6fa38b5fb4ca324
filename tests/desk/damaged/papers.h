/*
 * papers.h - lists of places and pages of sets, damaged and checked against a sample day
 */

#ifndef DAMAGED_PAPERS_H
#define DAMAGED_PAPERS_H

#include "damaged/answers.h"
#include "damaged/kinds.h"

/* Any sample day that is read; NULL for one that is not. */
static struct day *any_read_day(struct draws *draws)
{
    const struct sample *sample = any_day(draw(draws, 3) > 0 ? &days : &sheets, draws);
    struct messages messages = MESSAGES_NONE;
    struct day *day = day_new();
    enum day_read result = day_read_bytes(sample->path, sample->bytes.bytes, sample->bytes.len,
                                          DAY_WHOLE, day, &messages);
    messages_free(&messages);
    if (result == DAY_READ)
        return day;
    day_free(day);
    return NULL;
}

/* Puts a few jobs on other benches of theirs. */
static void rearrange(const struct day *day, struct outcome *outcome, struct draws *draws)
{
    for (uint64_t n = day->jobs > 0 ? draw(draws, 4) : 0; n > 0; n--) {
        size_t job = draw(draws, day->jobs);
        unsigned bench = (unsigned)draw(draws, YINQOCHA_MAX_BENCHES);
        while (!YINQOCHA_HAS_BENCH(day->contents.jobs[job].allowed, bench))
            bench = (bench + 1) % YINQOCHA_MAX_BENCHES;
        outcome->places[job] = bench;
    }
}

/* A list of places like the plan of a day, in lines or CSV; or one without a job. */
static void print_list(const struct day *day, const struct outcome *outcome, struct draws *draws,
                       struct text *text)
{
    static struct outcome other;
    other = *outcome;
    if (draw(draws, 2) > 0)
        rearrange(day, &other, draws);
    struct report report = { day, &other, NULL, NULL };
    if (outcome->answer != ANSWER_PLAN)
        text_put(text, "# nothing\n");
    else if (draw(draws, 2) > 0)
        lines_report(&report, text);
    else
        csv_report_header(text), csv_report(&report, text);
}

static void compare_lists(const struct day *day, const struct outcome *outcome,
                          const struct table *list, struct draws *draws)
{
    struct table own = TABLE_EMPTY;
    for (size_t j = 0; j < day->jobs; j++)
        table_add(&own, outcome->places[j]);
    struct compared compared;
    ask_compare(day, list, &own, &compared);
    met[LISTS_SAME + compared.comparison]++;
    struct compare_report report = { day, &compared, list, &own, "damaged.list", "own.list" };
    comparison_holds(&report, draws);
    table_free(&own);
}

static void check_list(const struct day *day, const struct outcome *outcome,
                       const struct table *list, struct draws *draws)
{
    struct checked checked;
    ask_list(day, list, &checked);
    met[checked.verdict == VERDICT_PASSED       ? LISTS_PASSED
        : checked.verdict == VERDICT_NOT_PASSED ? LISTS_NOT_PASSED
                                                : LISTS_FAULT]++;
    struct check_report report = {
        .day = day, .checked = &checked, .list = list, .file = "damaged.list",
    };
    check_holds(&report, draws);
    if (outcome->answer == ANSWER_PLAN)
        compare_lists(day, outcome, list, draws);
}

static void try_list(struct draws *draws)
{
    static struct outcome outcome;
    struct day *day = any_read_day(draws);
    if (day == NULL)
        return;
    struct text printed = TEXT_EMPTY;
    if (draw(draws, 2) > 0)
        ask_plan(day, &outcome);
    else
        ask_best(day, &outcome);
    print_list(day, &outcome, draws, &printed);
    start("a list", &printed);
    if (draw(draws, 2) > 0)
        damage(&tried.bytes, draws);
    struct table list = TABLE_EMPTY;
    struct messages messages = MESSAGES_NONE;
    bool read = list_read_bytes(day, "damaged.list", tried.bytes.bytes, tried.bytes.len, &list,
                                &messages);
    messages_hold(&messages, read);
    if (read)
        check_list(day, &outcome, &list, draws);
    else
        met[LISTS_BAD]++;
    text_free(&printed);
    table_free(&list);
    messages_free(&messages);
    day_free(day);
}

/* A page of sets that share no bench; the first is the blocking set of a none, if it is one. */
static void print_page(const struct day *day, struct draws *draws, struct text *text)
{
    static struct outcome outcome;
    ask_plan(day, &outcome);
    uint64_t left = day_all_benches(day);
    if (outcome.answer == ANSWER_NONE) {
        struct report report = { day, &outcome, NULL, NULL };
        lines_report(&report, text);
        left &= ~outcome.set;
    }
    while (left != 0 && draw(draws, 3) == 0) {
        uint64_t set = left & draw(draws, UINT64_MAX);
        if (set == 0)
            continue;
        benches_render(day, set, text);
        text_byte(text, '\n');
        left &= ~set;
    }
}

/* The sets of a page one by one, as far as each is one of the day's. */
static void check_sets(const struct day *day, const struct table *page, struct draws *draws)
{
    static struct reason reason;
    for (size_t n = 0; n < page->count && n < 4; n++) {
        struct checked checked;
        struct check_report report = { .day = day, .checked = &checked, .set = page->entries[n] };
        ask_set(day, report.set, &checked);
        if (checked.verdict == VERDICT_PASSED) {
            reason_of(day, report.set, &reason);
            reason_holds(day, &reason);
            report.reason = &reason;
        }
        check_holds(&report, draws);
    }
}

static void try_page(struct draws *draws)
{
    struct day *day = any_read_day(draws);
    if (day == NULL)
        return;
    struct text printed = TEXT_EMPTY;
    print_page(day, draws, &printed);
    start("a page", &printed);
    damage(&tried.bytes, draws);
    struct table page = TABLE_EMPTY;
    struct messages messages = MESSAGES_NONE;
    bool read = page_read_bytes(day, "damaged.page", tried.bytes.bytes, tried.bytes.len, &page,
                                &messages);
    messages_hold(&messages, read);
    if (read) {
        struct checked checked;
        ask_page(day, &page, &checked);
        met[PAGES_PASSED + checked.verdict]++;
        struct check_report report = {
            .day = day, .checked = &checked, .page = &page, .file = "damaged.page",
        };
        check_holds(&report, draws);
        check_sets(day, &page, draws);
    } else {
        met[PAGES_BAD]++;
    }
    text_free(&printed);
    table_free(&page);
    messages_free(&messages);
    day_free(day);
}

#endif
