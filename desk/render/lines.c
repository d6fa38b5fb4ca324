#include "render/render.h"

#include <inttypes.h>

const struct message *first_fault(const struct messages *messages)
{
    const struct message *first = NULL;
    for (size_t n = 0; n < messages->count; n++) {
        const struct message *message = &messages->all[n];
        if (message->fault > 0 && (first == NULL || message->place < first->place))
            first = message;
    }
    return first;
}

static void fault(uint32_t fault, uint32_t place, struct text *text)
{
    text_format(text, "fault %" PRIu32 " %" PRIu32 "\n", fault, place);
}

/* Each bench of a set behind a space, and the line end. */
static void benches(uint64_t set, struct text *text)
{
    for (unsigned bench = 0; bench < YINQOCHA_MAX_BENCHES; bench++)
        if (YINQOCHA_HAS_BENCH(set, bench))
            text_format(text, " %u", bench);
    text_byte(text, '\n');
}

static void plan(const struct day *day, const struct outcome *outcome, struct text *text)
{
    if (outcome->best)
        text_format(text, "best %" PRIu64 " %" PRIu64 "\n", outcome->target, outcome->runs);
    text_format(text, "plan %" PRIu64 " %" PRIu64 " %" PRIu64 "\n", outcome->largest,
                outcome->moves, outcome->fullest);
    for (size_t job = 0; job < day->jobs; job++)
        text_format(text, "%zu %" PRIu64 "\n", job, outcome->places[job]);
}

void lines_messages(const struct messages *messages, struct text *text)
{
    const struct message *first = first_fault(messages);
    if (first != NULL)
        fault(first->fault, first->place, text);
    else
        text_put(text, "error\n");
}

void lines_report(const struct report *report, struct text *text)
{
    const struct outcome *outcome = report->outcome;
    if (outcome == NULL) {
        lines_messages(report->messages, text);
        return;
    }
    switch (outcome->answer) {
    case ANSWER_PLAN:
        plan(report->day, outcome, text);
        break;
    case ANSWER_LONG:
        text_format(text, "long %" PRIu64 "\n", outcome->job);
        break;
    case ANSWER_NONE:
        text_format(text, "none %" PRIu64, outcome->moves);
        benches(outcome->set, text);
        break;
    case ANSWER_FAULT:
        fault(outcome->fault, outcome->place, text);
        break;
    }
}

void lines_check(const struct check_report *report, struct text *text)
{
    const struct checked *checked = report->checked;
    switch (checked->verdict) {
    case VERDICT_PASSED:
        if (checked->paper == PAPER_LIST)
            text_format(text, "passed %" PRIu64 " %" PRIu64 "\n", checked->largest,
                        checked->fullest);
        else
            text_put(text, "passed\n");
        break;
    case VERDICT_NOT_PASSED:
        if (checked->paper == PAPER_PAGE)
            text_format(text, "not passed %" PRIu64 "\n", checked->set);
        else
            text_put(text, "not passed\n");
        break;
    case VERDICT_LONG:
        text_format(text, "long %" PRIu64 "\n", checked->job);
        break;
    case VERDICT_FAULT:
        fault(checked->fault, checked->place, text);
        break;
    }
}

void lines_compare(const struct compare_report *report, struct text *text)
{
    switch (report->compared->comparison) {
    case COMPARISON_SAME:
        text_put(text, "same\n");
        break;
    case COMPARISON_DIFFERENT:
        text_put(text, "different\n");
        break;
    case COMPARISON_FAULT:
        fault(report->compared->fault, report->compared->place, text);
        break;
    }
}

void lines_day(const struct day *day, struct text *text)
{
    const struct yinqocha_contents *contents = &day->contents;
    text_format(text,
                "%" PRIu64 " benches, share %" PRIu64 "/%" PRIu64 ", target %" PRIu64
                " minutes, %zu jobs\n",
                contents->benches, contents->p, contents->q, contents->target, day->jobs);
    for (unsigned bench = 0; bench < contents->benches; bench++)
        if (contents->booked[bench] > 0)
            text_format(text, "bench %u: %" PRIu64 " minutes booked\n", bench,
                        contents->booked[bench]);
    for (size_t job = 0; job < day->jobs; job++) {
        text_format(text, "job %zu: %" PRIu64 " minutes, benches", job,
                    contents->jobs[job].minutes);
        benches(contents->jobs[job].allowed, text);
    }
}
