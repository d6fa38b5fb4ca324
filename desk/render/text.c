#include "render/layout.h"

#include <inttypes.h>

static void put_sentence(const struct report *report, struct screen screen, struct text *text)
{
    struct text sentence = TEXT_EMPTY;
    sentence_of(report, &sentence);
    put_wrapped(text_string(&sentence), sentence.len, 0, screen, text);
    text_free(&sentence);
}

static void text_none(const struct report *report, struct screen screen, struct text *text)
{
    put_sentence(report, screen, text);
    if (report->reason != NULL) {
        text_byte(text, '\n');
        text_reason(report->day, report->reason, screen, text);
    }
}

/* The answer in a word or two. */
static void answer_words(const struct report *report, struct text *text)
{
    static const char *const words[] = {
        [ANSWER_PLAN] = "plan", [ANSWER_LONG] = "long", [ANSWER_NONE] = "none",
        [ANSWER_FAULT] = "fault",
    };
    const struct outcome *outcome = report->outcome;
    if (outcome != NULL && outcome->best && outcome->answer == ANSWER_PLAN)
        text_format(text, "best target %" PRIu64, outcome->target);
    else
        text_put(text, outcome == NULL ? "not planned" : words[outcome->answer]);
}

void text_report(const struct report *report, struct screen screen, struct text *text)
{
    const struct outcome *outcome = report->outcome;
    bool plan = outcome != NULL && outcome->answer == ANSWER_PLAN;
    struct text answer = TEXT_EMPTY;
    answer_words(report, &answer);
    put_heading(report->day, text_string(&answer), plan ? COLOUR_GREEN : COLOUR_RED, screen, text);
    text_free(&answer);
    if (outcome != NULL && outcome->answer != ANSWER_FAULT) {
        put_facts(report->day, outcome->target, plan, screen, text);
        text_byte(text, '\n');
    }
    if (plan) {
        text_plan(report, screen, text);
        text_byte(text, '\n');
    }
    if (outcome != NULL && outcome->answer == ANSWER_NONE)
        text_none(report, screen, text);
    else
        put_sentence(report, screen, text);
}
