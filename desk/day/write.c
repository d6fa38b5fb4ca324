#include "day/write.h"

#include "base/utf8.h"
#include "day/benches.h"

/* Names in a column are padded to the widest of them, but not beyond this. */
#define WIDEST_NAME 40

/* A list of benches is by name up to these columns. By number every list is short, and with it the
 * text of every day is well below the most that is read. */
#define WIDEST_LIST 60

/* The line of the benches. An only name is in quotes always: it might begin like a number. */
static void benches_line(const struct day *day, struct text *text)
{
    size_t benches = (size_t)day->contents.benches;
    if (day->bench_names[0] == NULL) {
        text_format(text, "benches %zu\n", benches);
        return;
    }
    struct text name = TEXT_EMPTY;
    text_put(text, "benches ");
    for (size_t b = 0; b < benches; b++) {
        name.len = 0;
        name_render(day->bench_names[b], &name);
        bool quotes = benches == 1 && name.bytes[0] != '"';
        text_format(text, "%s%s%s%s", b == 0 ? "" : ", ", quotes ? "\"" : "", name.bytes,
                    quotes ? "\"" : "");
    }
    text_byte(text, '\n');
    text_free(&name);
}

/* A bench as a booking or a list has it: its name, otherwise its number. */
static void bench_item(const struct day *day, size_t bench, struct text *text)
{
    if (day->bench_names[bench] != NULL)
        name_render(day->bench_names[bench], text);
    else
        text_format(text, "%zu", bench);
}

/* A job's benches by name where they have names and the list is short, otherwise by number. */
static void benches_list(const struct day *day, uint64_t set, struct text *text)
{
    bool all = day->contents.benches > 1 && set == day_all_benches(day);
    size_t from = text->len;
    for (size_t b = 0; b < day->contents.benches && day->bench_names[0] != NULL && !all; b++)
        if (YINQOCHA_HAS_BENCH(set, b)) {
            text_put(text, text->len == from ? "" : ",");
            bench_item(day, b, text);
        }
    if (text->len == from || utf8_columns(text->bytes + from, text->len - from) > WIDEST_LIST) {
        text->len = from;
        benches_render(day, set, text);
    }
}

/* A job's name as its line has it. */
static void job_name(const struct day *day, size_t job, struct text *text)
{
    if (day->job[job].name != NULL)
        name_render(day->job[job].name, text);
    else
        text_format(text, "%zu", job);
}

/* The columns of the widest name and of the longest number of minutes. */
static void widths_of(const struct day *day, size_t *names, int *minutes)
{
    struct text name = TEXT_EMPTY;
    *names = 0;
    *minutes = 1;
    for (size_t j = 0; j < day->jobs; j++) {
        name.len = 0;
        job_name(day, j, &name);
        size_t width = utf8_columns(name.bytes, name.len);
        if (width > *names)
            *names = width < WIDEST_NAME ? width : WIDEST_NAME;
        int digits = 1;
        for (uint64_t left = day->contents.jobs[j].minutes; left > 9; left /= 10)
            digits++;
        if (digits > *minutes)
            *minutes = digits;
    }
    text_free(&name);
}

static void job_lines(const struct day *day, struct text *text)
{
    size_t names;
    int minutes;
    widths_of(day, &names, &minutes);
    for (size_t j = 0; j < day->jobs; j++) {
        text_put(text, "job ");
        size_t from = text->len;
        job_name(day, j, text);
        size_t width = utf8_columns(text->bytes + from, text->len - from);
        text_repeat(text, " ", width < names ? names - width : 0);
        text_format(text, " %*llu ", minutes, (unsigned long long)day->contents.jobs[j].minutes);
        benches_list(day, day->contents.jobs[j].allowed, text);
        text_byte(text, '\n');
    }
}

void day_render(const struct day *day, struct text *text)
{
    const struct yinqocha_contents *contents = &day->contents;
    benches_line(day, text);
    text_format(text, "share %u/%u\ntarget %llu\n", (unsigned)contents->p, (unsigned)contents->q,
                (unsigned long long)contents->target);
    for (size_t b = 0; b < contents->benches; b++)
        if (contents->booked[b] > 0) {
            text_put(text, "booked ");
            bench_item(day, b, text);
            text_format(text, " %llu\n", (unsigned long long)contents->booked[b]);
        }
    job_lines(day, text);
}
