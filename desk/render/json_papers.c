#include "render/json.h"

#include <inttypes.h>

/* The fault of a list, a set or a page, with its words. */
static void paper_fault(const struct day *day, uint32_t number, uint32_t place,
                        const struct table *list, const struct table *page, struct text *text)
{
    struct text words = TEXT_EMPTY;
    fault_words(day, number, place, list, page, &words);
    json_fault(number, place, text);
    json_word("message", text_string(&words), text);
    text_free(&words);
}

void json_check(const struct check_report *report, struct text *text)
{
    static const char *const papers[] = { "list", "set", "page" };
    const struct checked *checked = report->checked;
    json_begin(report->day->file_names[0], text);
    json_word("check", papers[checked->paper], text);
    switch (checked->verdict) {
    case VERDICT_PASSED:
        json_word("answer", "passed", text);
        if (checked->paper == PAPER_LIST) {
            json_number("largest", checked->largest, text);
            json_number("fullest", checked->fullest, text);
        }
        break;
    case VERDICT_NOT_PASSED:
        json_word("answer", "not passed", text);
        if (checked->paper == PAPER_PAGE)
            json_number("set", checked->set, text);
        break;
    case VERDICT_LONG:
        json_word("answer", "long", text);
        json_number("job", checked->job, text);
        break;
    case VERDICT_FAULT:
        paper_fault(report->day, checked->fault, checked->place, report->list, report->page, text);
        break;
    }
    json_end(text);
}

/* The jobs that two lists put on different benches; lists without a fault have all jobs. */
static void moved(const struct compare_report *report, struct text *text)
{
    text_put(text, ",\"jobs\":[");
    size_t count = 0;
    for (size_t job = 0; job < report->day->jobs; job++)
        if (report->first->entries[job] != report->second->entries[job]) {
            json_comma(count++, text);
            text_format(text, "%zu", job);
        }
    text_byte(text, ']');
}

void json_compare(const struct compare_report *report, struct text *text)
{
    const struct compared *compared = report->compared;
    json_begin(report->day->file_names[0], text);
    if (compared->comparison == COMPARISON_FAULT) {
        const struct table *list = compared->place == 0 ? report->first : report->second;
        paper_fault(report->day, compared->fault, compared->place, list, NULL, text);
    } else {
        json_word("answer", compared->comparison == COMPARISON_SAME ? "same" : "different", text);
        moved(report, text);
    }
    json_end(text);
}

void json_day(const struct day *day, struct text *text)
{
    const struct yinqocha_contents *contents = &day->contents;
    json_begin(day->file_names[0], text);
    json_number("benches", contents->benches, text);
    json_share(day, text);
    json_number("target", contents->target, text);
    text_put(text, ",\"names\":[");
    for (unsigned bench = 0; bench < contents->benches; bench++) {
        json_comma(bench, text);
        json_name(day->bench_names[bench], text);
    }
    text_put(text, "],\"booked\":[");
    for (unsigned bench = 0; bench < contents->benches; bench++) {
        json_comma(bench, text);
        text_format(text, "%" PRIu64, contents->booked[bench]);
    }
    text_put(text, "],\"jobs\":[");
    for (size_t job = 0; job < day->jobs; job++) {
        json_comma(job, text);
        json_job(day, job, text);
        text_byte(text, '}');
    }
    text_byte(text, ']');
    json_end(text);
}
