/* Names that are checked and names and sets of benches that are written. */

#include "base/utf8.h"
#include "day/benches.h"
#include "day/scan.h"

#include <string.h>

/* Whether all characters may stand in a name; the first that may not has a message. */
static bool characters_check(const char *bytes, size_t len, const char *what, struct spot spot,
                             struct messages *messages)
{
    for (size_t at = 0; at < len; spot.column++) {
        uint32_t point = 0;
        size_t step = utf8_next(bytes + at, len - at, &point);
        if (step == 0 || !utf8_printable(point)) {
            bad_character(messages, spot, bytes + at, len - at, what);
            return false;
        }
        at += step;
    }
    return true;
}

bool name_check(const char *bytes, size_t len, const char *what, struct spot spot,
                struct messages *messages)
{
    bool job = strcmp(what, "job") == 0;
    if (len == 0) {
        message_add(messages, spot.file, spot.line, spot.column,
                    "the name of the %s is missing: expected one of 1 to %d bytes", what,
                    DAY_MOST_NAME);
        return false;
    }
    if (!characters_check(bytes, len, job ? "in the name of a job" : "in the name of a bench", spot,
                          messages))
        return false;
    if (is_blank(bytes[0]) || is_blank(bytes[len - 1])) {
        complain(messages, spot, bytes, len, " has a blank at an end: expected a name without one");
        return false;
    }
    if (len > DAY_MOST_NAME) {
        complain(messages, spot, bytes, len,
                 " is too long for the name of a %s: it has %zu bytes, and a name at most %d", what,
                 len, DAY_MOST_NAME);
        return false;
    }
    return true;
}

void name_render(const char *name, struct text *text)
{
    if (strpbrk(name, " \t,\"#") == NULL) {
        text_put(text, name);
        return;
    }
    text_byte(text, '"');
    for (; *name != '\0'; name++) {
        if (*name == '"')
            text_byte(text, '"');
        text_byte(text, *name);
    }
    text_byte(text, '"');
}

/* Neighbours of a set. */
struct run {
    unsigned first, last;
};

/* The runs of a set by rising bench, at most 64: two neighbours are a run each. */
static unsigned runs_of(uint64_t set, struct run *runs)
{
    unsigned count = 0;
    for (unsigned b = 0; b < YINQOCHA_MAX_BENCHES; b++) {
        if (!YINQOCHA_HAS_BENCH(set, b))
            continue;
        unsigned last = b;
        while (last + 1 < YINQOCHA_MAX_BENCHES && YINQOCHA_HAS_BENCH(set, last + 1))
            last++;
        if (last < b + 2)
            last = b;
        runs[count++] = (struct run){ b, last };
        b = last;
    }
    return count;
}

static void run_render(struct run run, struct text *text)
{
    text_format(text, "%u", run.first);
    if (run.last > run.first)
        text_format(text, "-%u", run.last);
}

void benches_render(const struct day *day, uint64_t set, struct text *text)
{
    if (day->contents.benches > 1 && set == day_all_benches(day)) {
        text_put(text, "all");
        return;
    }
    struct run runs[YINQOCHA_MAX_BENCHES];
    unsigned count = runs_of(set, runs);
    for (unsigned n = 0; n < count; n++) {
        text_put(text, n == 0 ? "" : ",");
        run_render(runs[n], text);
    }
}

/* What stands before part n of so many: nothing, a comma, or "and". */
static const char *joint(unsigned n, unsigned count)
{
    return n == 0 ? "" : n + 1 < count ? ", " : " and ";
}

void benches_words(const struct day *day, uint64_t set, struct text *text)
{
    unsigned count = benches_count(set), shown = 0;
    if (count == 0) {
        text_put(text, "no bench");
        return;
    }
    if (day->bench_names[0] == NULL) {
        struct run runs[YINQOCHA_MAX_BENCHES];
        unsigned all = runs_of(set, runs);
        text_put(text, count == 1 ? "bench " : "benches ");
        for (unsigned n = 0; n < all; n++) {
            text_put(text, joint(n, all));
            run_render(runs[n], text);
        }
        return;
    }
    for (unsigned b = 0; b < YINQOCHA_MAX_BENCHES; b++)
        if (YINQOCHA_HAS_BENCH(set, b)) {
            text_put(text, joint(shown++, count));
            if (day->bench_names[b] != NULL && strchr(day->bench_names[b], ',') != NULL)
                name_render(day->bench_names[b], text);
            else
                day_bench_name(day, b, text);
        }
}
