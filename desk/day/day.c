#include "day/day.h"

#include <stdlib.h>

struct day *day_new(void)
{
    return memory_new(1, sizeof(struct day));
}

void day_free(struct day *day)
{
    if (day == NULL)
        return;
    for (size_t n = 0; n < day->files; n++)
        free(day->file_names[n]);
    for (size_t b = 0; b < YINQOCHA_MAX_BENCHES; b++)
        free(day->bench_names[b]);
    for (size_t j = 0; j < day->jobs; j++)
        free(day->job[j].name);
    free(day->sheet);
    free(day);
}

const char *day_file(const struct day *day, struct origin origin)
{
    return origin.file < day->files ? day->file_names[origin.file] : "";
}

void day_bench_name(const struct day *day, size_t bench, struct text *text)
{
    if (bench < YINQOCHA_MAX_BENCHES && day->bench_names[bench] != NULL)
        text_put(text, day->bench_names[bench]);
    else
        text_format(text, "bench %zu", bench);
}

void day_job_name(const struct day *day, size_t job, struct text *text)
{
    if (job < day->jobs && day->job[job].name != NULL)
        text_put(text, day->job[job].name);
    else
        text_format(text, "job %zu", job);
}

/* FNV-1a. */
uint32_t name_hash(const char *name, size_t len)
{
    uint32_t hash = 2166136261u;
    for (size_t at = 0; at < len; at++)
        hash = (hash ^ (unsigned char)name[at]) * 16777619u;
    return hash;
}

/* Most names differ in their first bytes, so that a call for each would take longer than this. */
static bool is_named(const char *string, const char *name, size_t len)
{
    if (string == NULL)
        return false;
    for (size_t at = 0; at < len; at++)
        if (string[at] != name[at] || string[at] == '\0')
            return false;
    return string[len] == '\0';
}

size_t day_find_job(const struct day *day, const char *name, size_t len)
{
    uint32_t hash = name_hash(name, len);
    size_t job = 0;
    while (job < day->jobs
           && (day->job[job].name_hash != hash || !is_named(day->job[job].name, name, len)))
        job++;
    return job;
}

size_t day_find_bench(const struct day *day, const char *name, size_t len)
{
    size_t bench = 0;
    while (bench < day->contents.benches && !is_named(day->bench_names[bench], name, len))
        bench++;
    return bench;
}

uint64_t day_bound(const struct day *day, uint64_t target)
{
    const struct yinqocha_contents *contents = &day->contents;
    return contents->q == 0 ? 0 : (5 * contents->q + contents->p) * target / (3 * contents->q);
}

bool day_is_heavy(const struct day *day, size_t job, uint64_t target)
{
    return day->contents.q * day->contents.jobs[job].minutes > day->contents.p * target;
}

unsigned benches_count(uint64_t set)
{
    unsigned count = 0;
    for (; set != 0; set &= set - 1)
        count++;
    return count;
}

uint64_t day_all_benches(const struct day *day)
{
    uint64_t benches = day->contents.benches;
    if (benches == 0)
        return 0;
    return benches >= YINQOCHA_MAX_BENCHES ? UINT64_MAX : ~(UINT64_MAX >> benches);
}
