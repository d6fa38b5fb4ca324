#include "base/utf8.h"
#include "render/html.h"
#include "render/svg.h"

#include <inttypes.h>
#include <stdio.h>
#include <string.h>

/* The name of a day's file; of a very long one the end. */
static void heading(const char *file, const char *answer, struct text *text)
{
    const size_t most = 150;
    size_t len = strlen(file), front = 0, columns = utf8_columns(file, len);
    while (columns > most) {
        uint32_t point;
        size_t step = utf8_next(file + front, len - front, &point);
        columns -= step > 0 ? utf8_columns_of(point) : 1;
        front += step > 0 ? step : 1;
    }
    text_put(text, "<h1>");
    text_put(text, front > 0 ? "\xE2\x80\xA6" : "");
    html_escape(file + front, len - front, text);
    text_format(text, " <b>%s</b></h1>\n", answer);
}

static void fact(uint64_t number, const char *one, const char *more, struct text *text)
{
    text_format(text, "<span>%" PRIu64 " %s</span> ", number, number == 1 ? one : more);
}

static void named_fact(const char *name, uint64_t number, struct text *text)
{
    text_format(text, "<span>%s %" PRIu64 "</span> ", name, number);
}

static void facts(const struct report *report, struct text *text)
{
    const struct yinqocha_contents *contents = &report->day->contents;
    const struct outcome *outcome = report->outcome;
    text_put(text, "<p class=\"facts\">");
    fact(contents->benches, "bench", "benches", text);
    fact(report->day->jobs, "job", "jobs", text);
    text_format(text, "<span>share %" PRIu64 "/%" PRIu64 "</span> ", contents->p, contents->q);
    named_fact(outcome->best ? "best target" : "target", outcome->target, text);
    named_fact("bound", day_bound(report->day, outcome->target), text);
    if (outcome->answer == ANSWER_PLAN)
        named_fact("largest load", outcome->largest, text);
    if (outcome->answer != ANSWER_LONG)
        fact(outcome->moves, "move", "moves", text);
    text_put(text, "</p>\n");
}

static void sentence(const struct report *report, struct text *text)
{
    struct text said = TEXT_EMPTY;
    sentence_of(report, &said);
    text_put(text, "<p class=\"sentence\">");
    html_words(text_string(&said), said.len, 700, text);
    text_put(text, "</p>\n");
    text_free(&said);
}

/* The paragraphs of the reason: a line each. */
static void why(const struct report *report, struct text *text)
{
    struct text said = TEXT_EMPTY;
    reason_words(report->day, report->reason, &said);
    const char *line = text_string(&said);
    text_put(text, "<div class=\"why\">\n");
    while (*line != '\0') {
        size_t len = strcspn(line, "\n");
        text_put(text, "<p>");
        html_words(line, len, 420, text);
        text_put(text, "</p>\n");
        line += len + (line[len] == '\n' ? 1 : 0);
    }
    text_put(text, "</div>\n");
    text_free(&said);
}

/* An entry of the key of a picture: a box as the picture has it, and what it is. */
static void entry(const char *group, const char *class, const char *meaning, struct text *text)
{
    text_format(text, "<span><svg viewBox=\"0 0 26 13\" aria-hidden=\"true\"><g class=\"%s\">"
                "<rect class=\"%s\" x=\"1\" y=\"1\" width=\"24\" height=\"11\"/></g></svg>%s"
                "</span> ", group, class, meaning);
}

static void line_entry(const char *class, const char *meaning, struct text *text)
{
    text_format(text, "<span><svg viewBox=\"0 0 26 13\" aria-hidden=\"true\"><line class=\"%s\" "
                "x1=\"13\" y1=\"0\" x2=\"13\" y2=\"13\"/></svg>%s</span> ", class, meaning);
}

static bool any_booked(const struct day *day)
{
    for (size_t bench = 0; bench < day->contents.benches; bench++)
        if (day->contents.booked[bench] > 0)
            return true;
    return false;
}

static bool any_heavy(const struct day *day, uint64_t target)
{
    for (size_t job = 0; job < day->jobs; job++)
        if (day_is_heavy(day, job, target))
            return true;
    return false;
}

static void plan_key(const struct report *report, struct text *text)
{
    if (any_booked(report->day))
        entry("booked", "part", "booked", text);
    if (any_heavy(report->day, report->outcome->target))
        entry("heavy", "part", "heavy job", text);
    if (report->day->jobs > 0)
        entry("light", "part", "light job", text);
    line_entry("target", "target", text);
    line_entry("bound", "bound", text);
    text_put(text, "<span>figures are minutes</span>");
}

static void none_key(const struct report *report, struct text *text)
{
    const struct reason *reason = report->reason;
    char meaning[96];
    if (reason->placement) {
        snprintf(meaning, sizeof meaning, "booked in the set: %" PRIu64, reason->booked);
        entry("booked", "part", meaning, text);
        snprintf(meaning, sizeof meaning, "light jobs that can go nowhere else: %" PRIu64,
                 reason->light.minutes);
        entry("light", "part", meaning, text);
        snprintf(meaning, sizeof meaning, "heavy jobs, at least: %" PRIu64, reason->heavy);
        entry("heavy", "part", meaning, text);
        entry("past", "over", "past the target", text);
    } else {
        entry("heavy", "part", "heavy job", text);
        if (reason->set != reason->crowd_benches && any_booked(report->day))
            entry("booked", "part", "booked", text);
    }
    entry("marked", "room", "bench of the set", text);
    if (reason->placement || reason->set != reason->crowd_benches)
        entry("free", "room", "other bench", text);
    text_put(text, "<span>figures are minutes</span>");
}

static void long_key(const struct report *report, struct text *text)
{
    entry("heavy", "part", "the job", text);
    entry("past", "over", "past the target", text);
    entry("marked", "room", "bench that the job may use", text);
    entry("free", "room", "other bench", text);
    if (any_booked(report->day))
        entry("booked", "part", "booked", text);
    text_put(text, "<span>figures are minutes</span>");
}

static void picture(const struct report *report, struct text *text)
{
    static void (*const pictures[])(const struct report *, enum shape, struct text *) = {
        [ANSWER_PLAN] = svg_plan, [ANSWER_LONG] = svg_long, [ANSWER_NONE] = svg_none
    };
    static void (*const keys[])(const struct report *, struct text *) = {
        [ANSWER_PLAN] = plan_key, [ANSWER_LONG] = long_key, [ANSWER_NONE] = none_key
    };
    pictures[report->outcome->answer](report, SHAPE_WIDE, text);
    pictures[report->outcome->answer](report, SHAPE_NARROW, text);
    text_put(text, "<p class=\"key\">");
    keys[report->outcome->answer](report, text);
    text_put(text, "</p>\n");
}

static const char *answer_of(const struct report *report)
{
    static const char *const answers[] = { "plan", "long", "none", "fault" };
    if (report->outcome == NULL)
        return first_fault(report->messages) != NULL ? "fault" : "error";
    return report->outcome->best && report->outcome->answer == ANSWER_PLAN
               ? "best"
               : answers[report->outcome->answer];
}

void html_report(const struct report *report, struct text *text)
{
    bool planned = report->outcome != NULL && report->outcome->answer != ANSWER_FAULT;
    text_put(text, "<section>\n");
    heading(report->day->file_names[0], answer_of(report), text);
    if (planned)
        facts(report, text);
    sentence(report, text);
    if (planned && report->outcome->answer == ANSWER_NONE)
        why(report, text);
    if (planned)
        picture(report, text);
    if (report->outcome == NULL)
        html_messages(report->messages, text);
    text_put(text, "</section>\n");
}
