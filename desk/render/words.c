#include "render/layout.h"

#include <inttypes.h>

/* Of a longer list of jobs so many are named, and the rest counted. */
#define LIST_WHOLE 24
#define LIST_FRONT 20

/* A job at the beginning of a sentence: "Job axle", "Job 3". */
static void put_job(const struct day *day, size_t job, struct text *text)
{
    if (day->job[job].name != NULL)
        text_format(text, "Job %s", day->job[job].name);
    else
        text_format(text, "Job %zu", job);
}

/* Jobs by name with their minutes, and with their benches if they are asked for. */
static void put_jobs(const struct day *day, const struct jobs *jobs, bool benches,
                     struct text *text)
{
    size_t shown = jobs->count > LIST_WHOLE ? LIST_FRONT : jobs->count;
    uint64_t left = jobs->minutes;
    for (size_t n = 0; n < shown; n++) {
        const struct yinqocha_job *job = &day->contents.jobs[jobs->job[n]];
        text_put(text, n == 0 ? "" : "; ");
        day_job_name(day, jobs->job[n], text);
        text_format(text, " (%" PRIu64, job->minutes);
        if (benches) {
            text_put(text, " on ");
            put_set(day, job->allowed, text);
        }
        text_put(text, ")");
        left -= job->minutes;
    }
    if (shown < jobs->count)
        text_format(text, "; and %zu more (%" PRIu64 " together)", jobs->count - shown, left);
}

/* How many benches of a plan are above its target. */
static unsigned above_target(const struct report *report)
{
    unsigned above = 0;
    for (unsigned b = 0; b < report->day->contents.benches; b++)
        above += report->outcome->loads[b] > report->outcome->target;
    return above;
}

/* "more than 860 minutes (North)". */
static void put_largest(const struct report *report, struct text *text)
{
    text_put(text, "more than ");
    put_minutes(report->outcome->largest, text);
    text_put(text, " (");
    day_bench_name(report->day, report->outcome->fullest, text);
    text_put(text, ")");
}

/* The lowest bench that is booked for more than the target; the number of benches if none is. */
static unsigned booked_above_target(const struct report *report)
{
    unsigned bench = 0;
    while (bench < report->day->contents.benches
           && report->day->contents.booked[bench] <= report->outcome->target)
        bench++;
    return bench;
}

static void sentence_of_plan(const struct report *report, struct text *text)
{
    const struct outcome *outcome = report->outcome;
    unsigned above = above_target(report);
    text_put(text, report->day->jobs > 0 ? "Every job has one of its benches, and no bench has "
                                         : "There is no job, and no bench has ");
    put_largest(report, text);
    text_put(text, "; the bound is ");
    put_minutes(day_bound(report->day, outcome->target), text);
    text_format(text, " for the target of %" PRIu64 ".", outcome->target);
    if (above == 0) {
        text_put(text, " Every bench is within the target.");
        return;
    }
    text_put(text, " ");
    put_count(above, "bench", "es", text);
    text_format(text, " %s above the target, within the bound; ", above == 1 ? "is" : "are");
    unsigned booked = booked_above_target(report);
    if (booked == report->day->contents.benches) {
        text_put(text, "the plan does not show whether the target itself can be met.");
        return;
    }
    text_put(text, "the target itself cannot be met, for ");
    day_bench_name(report->day, booked, text);
    text_put(text, " alone is booked for ");
    put_minutes(report->day->contents.booked[booked], text);
    text_put(text, ".");
}

static void sentence_of_best(const struct report *report, struct text *text)
{
    const struct outcome *outcome = report->outcome;
    text_put(text, "The best target is ");
    put_minutes(outcome->target, text);
    text_put(text, report->day->jobs > 0 ? ": with it every job has one of its benches, and no "
                                           "bench has " : ": with it no bench has ");
    put_largest(report, text);
    text_format(text, ", within the bound of %" PRIu64 ".",
                day_bound(report->day, outcome->target));
    if (outcome->target > 0)
        text_format(text, " The target %" PRIu64 " was refused: no assignment has all its loads "
                    "below %" PRIu64 ".", outcome->target - 1, outcome->target);
    text_put(text, " The search ran ");
    put_count(outcome->runs, "target", "s", text);
    text_put(text, ".");
}

/* Why there is none, where heavy jobs cannot be placed. */
static void crowd_sentence(const struct reason *reason, struct text *text)
{
    put_count(reason->crowd.count, "heavy job", "s", text);
    text_put(text, " have only ");
    put_count(benches_count(reason->crowd_benches), "bench", "es", text);
    text_put(text, " between them, and no bench takes two within the target.");
}

static void sentence_of_none(const struct report *report, struct text *text)
{
    const struct reason *reason = report->reason;
    text_put(text, "No assignment keeps every bench within the target of ");
    put_minutes(report->outcome->target, text);
    text_put(text, ": ");
    if (reason != NULL && reason->placement) {
        put_set(report->day, reason->set, text);
        text_put(text, reason->count == 1 ? " has " : " have ");
        put_minutes(reason->capacity, text);
        text_format(text, " to the target, and at least %" PRIu64 " must lie there.",
                    reason->weight);
    } else if (reason != NULL && reason->crowd.count > 0) {
        crowd_sentence(reason, text);
    } else {
        text_put(text, "what must lie on ");
        put_set(report->day, report->outcome->set, text);
        text_put(text, " is more than the target leaves there.");
    }
}

static void sentence_of_long(const struct report *report, struct text *text)
{
    const struct outcome *outcome = report->outcome;
    put_job(report->day, outcome->job, text);
    text_put(text, " has ");
    put_minutes(report->day->contents.jobs[outcome->job].minutes, text);
    text_format(text, ", more than the target of %" PRIu64 ", so no assignment keeps every bench "
                "within the target.", outcome->target);
}

void sentence_of(const struct report *report, struct text *text)
{
    if (report->outcome == NULL) {
        size_t wrong = report->messages != NULL
                           ? report->messages->count + report->messages->left_out : 0;
        text_put(text, "The day was not planned: ");
        put_count(wrong, "thing", "s", text);
        text_put(text, wrong == 1 ? " is wrong." : " are wrong.");
        return;
    }
    switch (report->outcome->answer) {
    case ANSWER_PLAN:
        (report->outcome->best ? sentence_of_best : sentence_of_plan)(report, text);
        break;
    case ANSWER_LONG:
        sentence_of_long(report, text);
        break;
    case ANSWER_NONE:
        sentence_of_none(report, text);
        break;
    case ANSWER_FAULT:
        text_format(text, "The library refused the sheet (fault %" PRIu32 ", place %" PRIu32 ").",
                    report->outcome->fault, report->outcome->place);
        break;
    }
}

/* What makes a job heavy, and why that matters. */
static void put_heavy(const struct day *day, struct text *text)
{
    text_format(text, "more than %" PRIu64 "/%" PRIu64 " of the target of ", day->contents.p,
                day->contents.q);
    put_minutes(day->contents.target, text);
    text_put(text, ", so no bench takes two of them within the target");
}

/* The benches of the set on which something is booked, with what it is. */
static void booked_words(const struct day *day, const struct reason *reason, struct text *text)
{
    unsigned benches = 0;
    if (reason->booked == 0) {
        text_put(text, "Nothing is booked there.\n");
        return;
    }
    text_put(text, "Booked there: ");
    put_minutes(reason->booked, text);
    text_put(text, " (");
    for (unsigned b = 0; b < day->contents.benches; b++) {
        if (!YINQOCHA_HAS_BENCH(reason->set, b) || day->contents.booked[b] == 0)
            continue;
        text_put(text, benches++ > 0 ? ", " : "");
        text_format(text, "%" PRIu64 " on ", day->contents.booked[b]);
        day_bench_name(day, b, text);
    }
    text_put(text, ").\n");
}

static void light_words(const struct day *day, const struct reason *reason, struct text *text)
{
    if (reason->light.count == 0) {
        text_put(text, "No light job has all its benches there.\n");
        return;
    }
    put_count(reason->light.count, "light job", "s", text);
    text_put(text, " can go nowhere else, ");
    put_minutes(reason->light.minutes, text);
    text_put(text, ": ");
    put_jobs(day, &reason->light, false, text);
    text_put(text, ".\n");
}

/* Which heavy jobs contend for the benches of the set. */
static void contending_words(const struct day *day, const struct reason *reason, struct text *text)
{
    if (reason->inside.count > 0) {
        text_put(text, "With no bench elsewhere: ");
        put_jobs(day, &reason->inside, false, text);
        text_put(text, ". ");
    }
    if (reason->shared.count > 0) {
        text_put(text, "With one bench elsewhere: ");
        put_jobs(day, &reason->shared, true, text);
        text_put(text, ". ");
    }
    if (reason->outside.count > 0) {
        text_put(text, "Heavy jobs on the benches elsewhere: ");
        put_jobs(day, &reason->outside, true, text);
        text_put(text, ". ");
    }
}

static void heavy_words(const struct day *day, const struct reason *reason, struct text *text)
{
    size_t count = reason->inside.count + reason->shared.count;
    if (count == 0) {
        text_format(text, "No heavy job, of more than %" PRIu64 "/%" PRIu64 " of the target, has a "
                    "bench there.\n", day->contents.p, day->contents.q);
        return;
    }
    put_count(count, "heavy job", "s", text);
    text_put(text, count == 1           ? " has a bench there; a heavy job has "
                   : reason->count == 1 ? " contend for this bench; each has "
                                        : " contend for these benches; each has ");
    put_heavy(day, text);
    text_put(text, ". ");
    contending_words(day, reason, text);
    text_put(text, "However the heavy jobs are placed, at least ");
    put_minutes(reason->heavy, text);
    text_put(text, reason->heavy == 1 ? " of them lies there.\n" : " of them lie there.\n");
}

static void crowd_words(const struct day *day, const struct reason *reason, struct text *text)
{
    text_format(text, "These %zu jobs are heavy (", reason->crowd.count);
    put_heavy(day, text);
    text_put(text, "), and have only ");
    put_count(benches_count(reason->crowd_benches), "bench", "es", text);
    text_put(text, " between them (");
    put_set(day, reason->crowd_benches, text);
    text_put(text, "): ");
    put_jobs(day, &reason->crowd, false, text);
    text_put(text, ".\nWhere heavy jobs cannot all be placed, every set of benches is blocking");
    if (reason->set != reason->crowd_benches) {
        text_put(text, "; the set here is ");
        put_set(day, reason->set, text);
    }
    text_put(text, ".\n");
}

void reason_parts(const struct day *day, const struct reason *reason, struct text *text)
{
    if (!reason->placement) {
        if (reason->crowd.count > 0)
            crowd_words(day, reason, text);
        return;
    }
    text_put(text, "The blocking set has ");
    put_set(day, reason->set, text);
    text_format(text, ": %u \xC3\x97 %" PRIu64 " = ", reason->count, day->contents.target);
    put_minutes(reason->capacity, text);
    text_put(text, " to the target.\n");
    booked_words(day, reason, text);
    light_words(day, reason, text);
    heavy_words(day, reason, text);
}

void reason_words(const struct day *day, const struct reason *reason, struct text *text)
{
    reason_parts(day, reason, text);
    if (!reason->placement)
        return;
    text_format(text, "Together that is at least %" PRIu64 " + %" PRIu64 " + %" PRIu64 " = ",
                reason->booked, reason->light.minutes, reason->heavy);
    put_minutes(reason->weight, text);
    text_format(text, ", %" PRIu64 " more than %" PRIu64 ".\n", reason->weight - reason->capacity,
                reason->capacity);
}
