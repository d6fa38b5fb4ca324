#include "render/svg.h"

#include <inttypes.h>
#include <stdio.h>
#include <string.h>

/* The height of the one wide bar, of a set or of a long job. */
#define BAR 260

static uint64_t larger(uint64_t one, uint64_t other)
{
    return one > other ? one : other;
}

/* The most that is booked on a bench. */
static uint64_t most_booked(const struct day *day)
{
    uint64_t most = 0;
    for (size_t bench = 0; bench < day->contents.benches; bench++)
        most = larger(most, day->contents.booked[bench]);
    return most;
}

/* A bar of parts that stand behind each other, against a number of minutes. Its words are put
 * down last, above everything else. */
struct wide_bar {
    enum shape shape;
    struct scale scale;
    uint64_t sum;       /* of the parts so far */
    struct text *parts; /* what is drawn of them */
    struct text words;
};

static int bar_top(enum shape shape)
{
    return 2 * shape_size(shape);
}

/* Adds a part with the words for it, which are cut to its width, or left out where they would be
 * too short to tell anything. */
static void part(struct wide_bar *bar, const char *class, const char *name, uint64_t minutes,
                 const char *words)
{
    if (minutes == 0)
        return;
    int size = shape_size(bar->shape), top = bar_top(bar->shape);
    struct text cut = TEXT_EMPTY;
    int x = scale_at(&bar->scale, bar->sum);
    bar->sum += minutes;
    int width = scale_at(&bar->scale, bar->sum) - x;
    svg_open(class, name, minutes, "", bar->parts);
    svg_part((struct box){ x, top, width, BAR }, bar->parts);
    svg_close(bar->parts);
    words_cut(words, width - 60, size, &cut);
    if (cut.len > 0 && (width > 5 * size || strcmp(cut.bytes, words) == 0))
        svg_words("inside", x + 30, top + BAR / 2 + words_foot(size), size, cut.bytes, &bar->words);
    text_free(&cut);
}

/* Ends the bar: what of it is past the minutes that there are, their line and label, and the sums.
 * Returns where the drawing ends. */
static int end_bar(struct wide_bar *bar, uint64_t minutes, const char *label, const char *past)
{
    int size = shape_size(bar->shape), top = bar_top(bar->shape), bottom = top + BAR;
    int line = scale_at(&bar->scale, minutes), end = scale_at(&bar->scale, bar->sum);
    struct text *text = bar->parts;
    char words[64];
    svg_rect("over", (struct box){ line, top, end - line, BAR }, text);
    svg_line("target", line, size * 13 / 10, line, bottom + 30, text);
    text_add(text, text_string(&bar->words), bar->words.len);
    svg_label(bar->shape, line, size, size, label, text);
    snprintf(words, sizeof words, "%" PRIu64, bar->sum);
    svg_words("strong", end + 40, top + BAR / 2 + words_foot(size), size, words, text);
    snprintf(words, sizeof words, "%" PRIu64 " %s", bar->sum - minutes, past);
    svg_words("strong end", end, bottom + size * 13 / 10, size, words, text);
    text_free(&bar->words);
    return bottom + 2 * size;
}

/* The set as one bar: what is booked, the light jobs that can go nowhere else, and the least that
 * heavy jobs leave there, against the minutes to the target. Returns where the drawing ends. */
static int set_bar(const struct report *report, enum shape shape, struct text *text)
{
    const struct day *day = report->day;
    const struct reason *reason = report->reason;
    struct wide_bar bar = { .shape = shape, .parts = text };
    char words[96];
    bar.scale = (struct scale){ 10, shape_width(shape) - 20 - 6 * shape_size(shape),
                                larger(reason->weight, 1) };
    part(&bar, "booked", "booked", reason->booked, "booked");
    for (size_t n = 0; n < reason->light.count; n++) {
        struct text name = TEXT_EMPTY;
        size_t job = reason->light.job[n];
        day_job_name(day, job, &name);
        part(&bar, "light", text_string(&name), day->contents.jobs[job].minutes,
             text_string(&name));
        text_free(&name);
    }
    part(&bar, "heavy", "heavy jobs, at least", reason->heavy, "heavy jobs");
    snprintf(words, sizeof words, "%u \xC3\x97 %" PRIu64 " = %" PRIu64, reason->count,
             report->outcome->target, reason->capacity);
    return end_bar(&bar, reason->capacity, words, "too many");
}

/* The rows of a day that was not planned. */
static struct bench_rows rows_of(const struct report *report, enum shape shape, uint64_t marked,
                                 uint64_t minutes)
{
    uint64_t target = report->outcome->target;
    uint64_t most = larger(larger(target, most_booked(report->day)), larger(minutes, 1));
    return (struct bench_rows){ report->day, shape, target, marked, most };
}

/* Where heavy jobs cannot be placed, their drawing shows the set too if it has their benches. */
void svg_none(const struct report *report, enum shape shape, struct text *text)
{
    const struct reason *reason = report->reason;
    struct bench_rows rows = rows_of(report, shape, reason->set, 0);
    struct text body = TEXT_EMPTY;
    int height = reason->placement ? set_bar(report, shape, &body)
                                   : svg_crowd(report, shape, &body);
    if (reason->placement || reason->set != reason->crowd_benches)
        height = svg_bench_rows(&rows, height + shape_size(shape), &body);
    svg_picture(shape, height,
                reason->placement ? "The minutes of the blocking set against what must lie there, "
                                    "and the benches with what is booked"
                                  : "Heavy jobs, and the benches that they have between them",
                &body, text);
    text_free(&body);
}

void svg_long(const struct report *report, enum shape shape, struct text *text)
{
    const struct yinqocha_job *job = &report->day->contents.jobs[report->outcome->job];
    struct bench_rows rows = rows_of(report, shape, job->allowed, job->minutes);
    struct text body = TEXT_EMPTY, name = TEXT_EMPTY;
    struct wide_bar bar = { .shape = shape, .parts = &body };
    char words[40];
    bar.scale = bench_columns(&rows) == 1
                    ? bench_scale(&rows, 0)
                    : (struct scale){ 10, shape_width(shape) - 20 - 6 * shape_size(shape),
                                      rows.most };
    day_job_name(report->day, report->outcome->job, &name);
    part(&bar, "heavy", text_string(&name), job->minutes, text_string(&name));
    snprintf(words, sizeof words, "target %" PRIu64, report->outcome->target);
    int height = end_bar(&bar, report->outcome->target, words, "too long");
    height = svg_bench_rows(&rows, height + shape_size(shape), &body);
    svg_picture(shape, height,
                "The job that is longer than the target, and the benches with what is booked",
                &body, text);
    text_free(&body);
    text_free(&name);
}
