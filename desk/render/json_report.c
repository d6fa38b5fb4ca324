#include "render/json.h"

#include <inttypes.h>
#include <string.h>

static void jobs(const struct jobs *jobs, struct text *text)
{
    text_byte(text, '[');
    for (size_t n = 0; n < jobs->count; n++) {
        json_comma(n, text);
        text_format(text, "%u", (unsigned)jobs->job[n]);
    }
    text_byte(text, ']');
}

static void head(const struct report *report, struct text *text)
{
    const struct day *day = report->day;
    const struct outcome *outcome = report->outcome;
    json_number("benches", day->contents.benches, text);
    json_number("jobs", day->jobs, text);
    json_share(day, text);
    json_number("target", outcome->target, text);
    if (outcome->best)
        json_number("runs", outcome->runs, text);
    json_number("bound", day_bound(day, outcome->target), text);
}

static void loads(const struct day *day, const struct outcome *outcome, struct text *text)
{
    json_key("loads", text);
    text_byte(text, '[');
    for (unsigned bench = 0; bench < day->contents.benches; bench++) {
        json_comma(bench, text);
        text_format(text, "{\"bench\":%u,\"name\":", bench);
        json_name(day->bench_names[bench], text);
        json_number("booked", day->contents.booked[bench], text);
        json_number("load", outcome->loads[bench], text);
        text_put(text, ",\"jobs\":[");
        size_t count = 0;
        for (size_t job = 0; job < day->jobs; job++)
            if (outcome->places[job] == bench) {
                json_comma(count++, text);
                text_format(text, "%zu", job);
            }
        text_put(text, "]}");
    }
    text_byte(text, ']');
}

static void places(const struct day *day, const struct outcome *outcome, struct text *text)
{
    json_key("places", text);
    text_byte(text, '[');
    for (size_t job = 0; job < day->jobs; job++) {
        json_comma(job, text);
        json_job(day, job, text);
        json_number("bench", outcome->places[job], text);
        text_byte(text, '}');
    }
    text_byte(text, ']');
}

static void plan(const struct report *report, struct text *text)
{
    json_word("answer", report->outcome->best ? "best" : "plan", text);
    head(report, text);
    json_number("largest", report->outcome->largest, text);
    json_number("moves", report->outcome->moves, text);
    json_number("fullest", report->outcome->fullest, text);
    loads(report->day, report->outcome, text);
    places(report->day, report->outcome, text);
}

static void long_job(const struct report *report, struct text *text)
{
    size_t job = report->outcome->job;
    json_word("answer", "long", text);
    head(report, text);
    json_number("job", job, text);
    json_key("name", text);
    json_name(report->day->job[job].name, text);
    json_number("minutes", report->day->contents.jobs[job].minutes, text);
}

static void heavy(const struct reason *reason, struct text *text)
{
    text_put(text, ",\"heavy\":{\"inside\":");
    jobs(&reason->inside, text);
    json_key("shared", text);
    jobs(&reason->shared, text);
    json_key("outside", text);
    jobs(&reason->outside, text);
    text_format(text, ",\"placement\":%s", reason->placement ? "true" : "false");
    if (reason->placement) {
        json_number("least", reason->heavy, text);
        text_byte(text, '}');
        json_number("weight", reason->weight, text);
    } else {
        json_key("crowd", text);
        jobs(&reason->crowd, text);
        json_benches("crowd_benches", reason->crowd_benches, text);
        text_put(text, "},\"weight\":null");
    }
}

static void none(const struct report *report, struct text *text)
{
    const struct reason *reason = report->reason;
    json_word("answer", "none", text);
    head(report, text);
    json_number("moves", report->outcome->moves, text);
    json_benches("set", report->outcome->set, text);
    json_number("capacity", reason->capacity, text);
    json_number("booked", reason->booked, text);
    text_format(text, ",\"light\":{\"minutes\":%" PRIu64 ",\"jobs\":", reason->light.minutes);
    jobs(&reason->light, text);
    text_byte(text, '}');
    heavy(reason, text);
}

/* A number that counts from 1, null for 0. */
static void number_or_null(const char *key, size_t value, struct text *text)
{
    if (value > 0)
        json_number(key, value, text);
    else
        text_format(text, ",\"%s\":null", key);
}

static void message_of(const struct message *message, bool with_fault, struct text *text)
{
    text_put(text, "{\"file\":");
    json_string(message->file, strlen(message->file), text);
    number_or_null("line", message->line, text);
    number_or_null("column", message->column, text);
    json_word("message", message->words, text);
    if (with_fault && message->fault > 0) {
        json_number("fault", message->fault, text);
        json_number("place", message->place, text);
    } else if (with_fault) {
        text_put(text, ",\"fault\":null,\"place\":null");
    }
    text_byte(text, '}');
}

void json_messages(const char *file, const struct messages *messages, struct text *text)
{
    const struct message *first = first_fault(messages);
    json_begin(file, text);
    if (first != NULL)
        json_fault(first->fault, first->place, text);
    else
        json_word("answer", "error", text);
    text_put(text, ",\"errors\":[");
    for (size_t n = 0; n < messages->count; n++) {
        json_comma(n, text);
        message_of(&messages->all[n], first != NULL, text);
    }
    text_byte(text, ']');
    json_number("left_out", messages->left_out, text);
    json_end(text);
}

void json_report(const struct report *report, struct text *text)
{
    const char *file = report->day->file_names[0];
    if (report->outcome == NULL) {
        json_messages(file, report->messages, text);
        return;
    }
    json_begin(file, text);
    switch (report->outcome->answer) {
    case ANSWER_PLAN:
        plan(report, text);
        break;
    case ANSWER_LONG:
        long_job(report, text);
        break;
    case ANSWER_NONE:
        none(report, text);
        break;
    case ANSWER_FAULT:
        json_fault(report->outcome->fault, report->outcome->place, text);
        text_put(text, ",\"errors\":[],\"left_out\":0");
        break;
    }
    json_end(text);
}
