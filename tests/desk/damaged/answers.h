/*
 * answers.h - what holds of every answer to a day, in every form
 *
 *     answers_hold        the plan, the best target and the reason of a none
 *     refusal_holds       a day that was not read
 *     check_holds         a check of a list, a set or a page from elsewhere
 *     comparison_holds    a comparison of two lists
 */

#ifndef DAMAGED_ANSWERS_H
#define DAMAGED_ANSWERS_H

#include "damaged/holds.h"
#include "day/benches.h"

/* A plan's list, as printed, reads back as its places, passes, and is the same plan. */
static void list_reads_back(const struct day *day, const struct outcome *outcome,
                            const struct text *text)
{
    struct table list = TABLE_EMPTY;
    struct messages messages = MESSAGES_NONE;
    struct checked checked;
    struct compared compared;
    require(list_read_bytes(day, "back", text->bytes, text->len, &list, &messages) &&
                messages.count == 0,
            "a plan that was printed reads back as a list");
    require(list.count == day->jobs &&
                (list.count == 0 ||
                 memcmp(list.entries, outcome->places, list.count * sizeof *list.entries) == 0),
            "a list that reads back has the plan's places");
    if (!outcome->best) {
        ask_list(day, &list, &checked);
        require(checked.verdict == VERDICT_PASSED && checked.largest == outcome->largest &&
                    checked.fullest == outcome->fullest,
                "a list that reads back passes");
    }
    ask_compare(day, &list, &list, &compared);
    require(compared.comparison == COMPARISON_SAME, "a list is the same as itself");
    table_free(&list);
    messages_free(&messages);
}

/* A blocking set, as printed, reads back as a page of one set that passes. */
static void set_reads_back(const struct day *day, const struct outcome *outcome,
                           const struct text *lines)
{
    struct table page = TABLE_EMPTY;
    struct messages messages = MESSAGES_NONE;
    struct checked checked;
    require(page_read_bytes(day, "back", lines->bytes, lines->len, &page, &messages) &&
                page.count == 1 && page.entries[0] == outcome->set,
            "a none that was printed reads back as a page");
    ask_page(day, &page, &checked);
    require(checked.verdict == VERDICT_PASSED, "a page that reads back passes");
    ask_set(day, outcome->set, &checked);
    require(checked.verdict == VERDICT_PASSED, "the set of a none passes");
    struct text set = TEXT_EMPTY;
    benches_render(day, outcome->set, &set);
    struct spot spot = { "back", 1, 1 };
    require(benches_read(day, set.bytes, set.len, spot, &messages) == outcome->set,
            "a set that was printed reads back");
    text_free(&set);
    table_free(&page);
    messages_free(&messages);
}

static void reason_holds(const struct day *day, const struct reason *reason)
{
    require(reason->capacity == benches_count(reason->set) * day->contents.target, "k * T");
    if (reason->placement)
        require(reason->weight > reason->capacity &&
                    reason->weight == reason->booked + reason->light.minutes + reason->heavy,
                "what must lie on the set weighs more than it has");
    else
        require(reason->crowd.count == benches_count(reason->crowd_benches) + 1u,
                "a crowd has one job more than benches");
}

/* The lines of a report: words and numbers, one line or one for each job behind the first. */
static void lines_hold(const struct report *report, const struct text *lines)
{
    size_t count = 0;
    for (size_t at = 0; at < lines->len; at++)
        count += lines->bytes[at] == '\n';
    require(utf8_strict(lines->bytes, lines->len) && lines->len > 0 &&
                lines->bytes[lines->len - 1] == '\n',
            "lines end in a line end");
    size_t plan = report->outcome->answer == ANSWER_PLAN ? report->day->jobs : 0;
    require(count == 1 + plan + (report->outcome->best ? 1 : 0), "lines of an answer");
}

static void text_form_holds(const struct report *report, struct draws *draws)
{
    struct text text = TEXT_EMPTY;
    struct screen screen = { 40 + (unsigned)draw(draws, 200), false };
    text_report(report, screen, &text);
    require(text_strict(&text, screen.columns), "the text of an answer fits the screen");
    screen.colour = true;
    text_report(report, screen, &text);
    text_free(&text);
    screen.colour = false;
    struct summary summary;
    summary_of(report, &summary);
    text_summaries(&summary, 1, screen, &text);
    require(text_strict(&text, screen.columns), "the table of days fits the screen");
    summary_free(&summary);
    text_free(&text);
}

static void page_holds(const struct report *report)
{
    struct text text = TEXT_EMPTY;
    html_begin("damaged <&> days", &text);
    html_report(report, &text);
    html_end(&text);
    require(utf8_strict(text.bytes, text.len) && html_strict(&text), "the page of an answer");
    text_free(&text);
}

static void csv_form_holds(const struct report *report, const struct text *csv)
{
    size_t rows, expected = 2;
    const struct outcome *outcome = report->outcome;
    if (outcome->answer == ANSWER_PLAN && report->day->jobs > 0)
        expected = report->day->jobs + 1;
    if (outcome->answer == ANSWER_NONE)
        expected = benches_count(outcome->set) + 1u;
    require(csv_strict(csv, &rows) && rows == expected, "the CSV of an answer has its rows");
}

static void report_holds(const struct report *report, struct draws *draws)
{
    const struct outcome *outcome = report->outcome;
    bool plan = outcome->answer == ANSWER_PLAN;
    struct text json = TEXT_EMPTY, csv = TEXT_EMPTY, lines = TEXT_EMPTY;
    require(outcome->answer != ANSWER_FAULT, "a day that was read has no fault");
    json_report(report, &json);
    json_names_hold(&json, report->day, plan, plan);
    csv_report_header(&csv);
    csv_report(report, &csv);
    csv_form_holds(report, &csv);
    lines_report(report, &lines);
    lines_hold(report, &lines);
    if (plan) {
        if (report->day->jobs > 0)
            list_reads_back(report->day, outcome, &csv);
        list_reads_back(report->day, outcome, &lines);
    }
    if (outcome->answer == ANSWER_NONE)
        set_reads_back(report->day, outcome, &lines);
    text_form_holds(report, draws);
    /* Pages take the most time, and that of a best target has the same parts as a plan's. */
    if (!outcome->best || draw(draws, 4) == 0)
        page_holds(report);
    text_free(&json);
    text_free(&csv);
    text_free(&lines);
}

/* Plans a day and finds its best target. */
static enum answer answers_hold(const struct day *day, struct draws *draws, bool *placement)
{
    static struct outcome outcome, best;
    static struct reason reason;
    ask_plan(day, &outcome);
    struct report report = { day, &outcome, NULL, NULL };
    if (outcome.answer == ANSWER_NONE) {
        reason_of(day, outcome.set, &reason);
        reason_holds(day, &reason);
        report.reason = &reason;
        *placement = reason.placement;
    }
    report_holds(&report, draws);
    ask_best(day, &best);
    require(best.answer == ANSWER_PLAN && best.best, "every day has a best target");
    report = (struct report){ day, &best, NULL, NULL };
    report_holds(&report, draws);
    return outcome.answer;
}

/* A day that was not read, in every form. */
static void refusal_holds(const struct day *day, const struct messages *messages, bool fault,
                          struct draws *draws)
{
    struct report report = { day, NULL, NULL, messages };
    struct text json = TEXT_EMPTY, csv = TEXT_EMPTY, lines = TEXT_EMPTY;
    size_t rows;
    json_report(&report, &json);
    json_names_hold(&json, day, false, false);
    csv_report_header(&csv);
    csv_report(&report, &csv);
    require(csv_strict(&csv, &rows) && rows == 2, "the CSV of a day that was not read");
    lines_report(&report, &lines);
    require(fault ? strncmp(lines.bytes, "fault ", 6) == 0 : strcmp(lines.bytes, "error\n") == 0,
            "the lines of a day that was not read");
    text_form_holds(&report, draws);
    page_holds(&report);
    text_free(&json);
    text_free(&csv);
    text_free(&lines);
}

/* A check that was made, in every form. */
static void check_holds(const struct check_report *report, struct draws *draws)
{
    struct text text = TEXT_EMPTY, json = TEXT_EMPTY, csv = TEXT_EMPTY, lines = TEXT_EMPTY;
    struct screen screen = { 40 + (unsigned)draw(draws, 200), false };
    text_check(report, screen, &text);
    require(text_strict(&text, screen.columns), "the text of a check fits the screen");
    json_check(report, &json);
    json_names_hold(&json, report->day, false, false);
    csv_check(report, &csv);
    require(csv.len > 0 && utf8_strict(csv.bytes, csv.len), "the CSV of a check");
    lines_check(report, &lines);
    require(lines.len > 0 && lines.bytes[lines.len - 1] == '\n', "the line of a check");
    text_free(&text);
    text_free(&json);
    text_free(&csv);
    text_free(&lines);
}

/* A comparison that was made, in every form. */
static void comparison_holds(const struct compare_report *report, struct draws *draws)
{
    struct text text = TEXT_EMPTY, json = TEXT_EMPTY, csv = TEXT_EMPTY, lines = TEXT_EMPTY;
    struct screen screen = { 40 + (unsigned)draw(draws, 200), false };
    text_compare(report, screen, &text);
    require(text_strict(&text, screen.columns), "the text of a comparison fits the screen");
    json_compare(report, &json);
    json_names_hold(&json, report->day, false, false);
    csv_compare(report, &csv);
    require(csv.len > 0 && utf8_strict(csv.bytes, csv.len), "the CSV of a comparison");
    lines_compare(report, &lines);
    require(lines.len > 0 && lines.bytes[lines.len - 1] == '\n', "the line of a comparison");
    text_free(&text);
    text_free(&json);
    text_free(&csv);
    text_free(&lines);
}

#endif
