#include "ask/ask.h"

#include "day/benches.h"

#include <inttypes.h>

size_t list_misplaced(const struct day *day, const struct table *list, size_t *first)
{
    size_t count = 0;
    for (size_t j = 0; j < day->jobs && j < list->count; j++) {
        uint64_t bench = list->entries[j];
        if (bench < day->contents.benches
            && YINQOCHA_HAS_BENCH(day->contents.jobs[j].allowed, bench))
            continue;
        if (count == 0)
            *first = j;
        count++;
    }
    return count;
}

void misplaced_words(const struct day *day, const struct table *list, size_t job, struct text *text)
{
    uint64_t bench = list->entries[job];
    text_put(text, day->job[job].name != NULL ? "job " : "");
    day_job_name(day, job, text);
    if (bench >= day->contents.benches) {
        text_format(text, " is on bench %" PRIu64 ", which the day lacks", bench);
        return;
    }
    text_put(text, " is on ");
    day_bench_name(day, bench, text);
    text_put(text, ", which it does not allow (it allows ");
    benches_words(day, day->contents.jobs[job].allowed, text);
    text_put(text, ")");
}

static void no_assignment_words(const struct day *day, const struct table *list, struct text *text)
{
    size_t job;
    text_put(text, "the list is no assignment");
    if (list == NULL)
        return;
    if (list->count != day->jobs) {
        text_format(text, ": it has %zu place%s, and the day has %zu job%s", list->count,
                    list->count == 1 ? "" : "s", day->jobs, day->jobs == 1 ? "" : "s");
    } else if (list_misplaced(day, list, &job) > 0) {
        text_put(text, ": ");
        misplaced_words(day, list, job, text);
    }
}

/* The benches that a set of the page shares with those before it. */
static uint64_t shared_benches(const struct table *page, uint32_t set)
{
    uint64_t before = 0;
    for (uint32_t n = 0; n < set; n++)
        before |= page->entries[n];
    return before & page->entries[set];
}

void fault_words(const struct day *day, uint32_t fault, uint32_t place, const struct table *list,
                 const struct table *page, struct text *text)
{
    switch (fault) {
    case YINQOCHA_NO_ASSIGNMENT:
        no_assignment_words(day, list, text);
        break;
    case YINQOCHA_BAD_LIST:
        text_format(text,
                    "the places of the list are %zu and the jobs of the day %zu: expected as many",
                    list != NULL ? list->count : 0, day->jobs);
        break;
    case YINQOCHA_BAD_SET:
        if (page != NULL)
            text_format(text, "set %" PRIu32 " of the page, counted from 0, has no bench, or one "
                        "that the day lacks", place);
        else
            text_put(text, "the set has no bench, or one that the day lacks");
        break;
    case YINQOCHA_SHARED_BENCH:
        text_format(text, "set %" PRIu32 " of the page, counted from 0, shares ", place);
        if (page != NULL && place < page->count)
            benches_words(day, shared_benches(page, place), text);
        else
            text_put(text, "a bench");
        text_put(text, " with an earlier set, where no two may share a bench");
        break;
    default:
        text_put(text, "the library refused the sheet");
        break;
    }
}
