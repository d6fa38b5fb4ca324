#include "ask/ask.h"

/* True where the call did its work; its value is then written. Otherwise the fault and its place
 * are. */
static bool done(uint64_t word, uint32_t *value, uint32_t *fault, uint32_t *place)
{
    *fault = YINQOCHA_FAULT(word);
    *place = *fault != YINQOCHA_OK ? YINQOCHA_VALUE(word) : 0;
    *value = *fault == YINQOCHA_OK ? YINQOCHA_VALUE(word) : 0;
    return *fault == YINQOCHA_OK;
}

void ask_plan(const struct day *day, struct outcome *outcome)
{
    uint64_t answer[YINQOCHA_ANSWER_ENTRIES] = { 0 };
    uint32_t value;
    *outcome = (struct outcome){ .answer = ANSWER_FAULT, .target = day->contents.target };
    uint64_t word = yinqocha_plan(day->sheet, day->sheet_len,
                                  outcome->places, sizeof outcome->places,
                                  outcome->loads, sizeof outcome->loads, answer, sizeof answer);
    if (!done(word, &value, &outcome->fault, &outcome->place))
        return;
    if (value == YINQOCHA_LONG) {
        outcome->answer = ANSWER_LONG;
        outcome->job = answer[0];
        return;
    }
    outcome->moves = answer[1];
    if (value == YINQOCHA_NONE) {
        outcome->answer = ANSWER_NONE;
        outcome->set = answer[0];
        return;
    }
    outcome->answer = ANSWER_PLAN;
    outcome->largest = answer[0];
    outcome->fullest = answer[2];
}

void ask_best(const struct day *day, struct outcome *outcome)
{
    uint64_t answer[YINQOCHA_BEST_ENTRIES] = { 0 };
    uint32_t value;
    *outcome = (struct outcome){ .answer = ANSWER_FAULT, .best = true };
    uint64_t word = yinqocha_best(day->sheet, day->sheet_len,
                                  outcome->places, sizeof outcome->places,
                                  outcome->loads, sizeof outcome->loads, answer, sizeof answer);
    if (!done(word, &value, &outcome->fault, &outcome->place))
        return;
    outcome->answer = ANSWER_PLAN;
    outcome->target = answer[0];
    outcome->largest = answer[1];
    outcome->moves = answer[2];
    outcome->fullest = answer[3];
    outcome->runs = answer[4];
}

static enum verdict verdict_of(uint32_t value)
{
    return value == YINQOCHA_PASSED ? VERDICT_PASSED
           : value == YINQOCHA_LONG ? VERDICT_LONG
                                    : VERDICT_NOT_PASSED;
}

void ask_list(const struct day *day, const struct table *list, struct checked *checked)
{
    uint64_t answer[YINQOCHA_CHECK_PLAN_ENTRIES] = { 0 };
    uint32_t value;
    *checked = (struct checked){ .paper = PAPER_LIST, .verdict = VERDICT_FAULT };
    uint64_t word = yinqocha_check_plan(day->sheet, day->sheet_len, list->entries,
                                        list->count * sizeof *list->entries,
                                        answer, sizeof answer);
    if (!done(word, &value, &checked->fault, &checked->place))
        return;
    checked->verdict = verdict_of(value);
    checked->largest = answer[0];
    checked->fullest = answer[1];
}

void ask_set(const struct day *day, uint64_t set, struct checked *checked)
{
    uint64_t answer[YINQOCHA_CHECK_SET_ENTRIES] = { 0 };
    uint32_t value;
    *checked = (struct checked){ .paper = PAPER_SET, .verdict = VERDICT_FAULT };
    uint64_t word = yinqocha_check_set(day->sheet, day->sheet_len, set, answer, sizeof answer);
    if (!done(word, &value, &checked->fault, &checked->place))
        return;
    checked->verdict = verdict_of(value);
    checked->job = answer[0];
}

void ask_page(const struct day *day, const struct table *page, struct checked *checked)
{
    uint64_t answer[YINQOCHA_CHECK_PAGE_ENTRIES] = { 0 };
    uint32_t value;
    *checked = (struct checked){ .paper = PAPER_PAGE, .verdict = VERDICT_FAULT };
    uint64_t word = yinqocha_check_page(day->sheet, day->sheet_len, page->entries,
                                        page->count * sizeof *page->entries,
                                        answer, sizeof answer);
    if (!done(word, &value, &checked->fault, &checked->place))
        return;
    checked->verdict = verdict_of(value);
    if (checked->verdict == VERDICT_LONG)
        checked->job = answer[0];
    else
        checked->set = answer[0];
}

void ask_compare(const struct day *day, const struct table *first, const struct table *second,
                 struct compared *compared)
{
    uint32_t value;
    *compared = (struct compared){ .comparison = COMPARISON_FAULT };
    uint64_t word = yinqocha_compare(day->sheet, day->sheet_len, first->entries,
                                     first->count * sizeof *first->entries, second->entries,
                                     second->count * sizeof *second->entries);
    if (done(word, &value, &compared->fault, &compared->place))
        compared->comparison = value == YINQOCHA_SAME ? COMPARISON_SAME : COMPARISON_DIFFERENT;
}
