/*
 * The reasons of blocking sets (desk/ask/reason.h) against every placement of random small days,
 * and against placements that are known on days of 64 benches, also with targets above the most
 * minutes of a booking. Prints one line; exits 1 at the first difference.
 */

#include "ask/ask.h"
#include "ask/reason.h"

#include <inttypes.h>
#include <stdio.h>
#include <stdlib.h>

#define DAYS 60000
#define NO_PLACEMENT UINT64_MAX

/* What the days have covered. */
static struct {
    unsigned nones, sets;            /* the planner's own sets, and others that are blocking */
    unsigned large, filled;          /* targets above 2^20 - 1; so much so that bookings end */
    unsigned outside, without_heavy; /* a heavy job placed outside; none that touches the set */
    unsigned in_the_way; /* heavy jobs outside that may keep others in the set */
    unsigned light, booked;
    unsigned crowds, far; /* no placement; of jobs without a bench in the set */
} seen;

static uint64_t random_state = UINT64_C(0x9E3779B97F4A7C15);

/* Below `count`, which is above 0. */
static uint64_t random_below(uint64_t count)
{
    random_state ^= random_state << 13;
    random_state ^= random_state >> 7;
    random_state ^= random_state << 17;
    return (random_state >> 11) % count;
}

static uint64_t random_from(uint64_t first, uint64_t last)
{
    return first + random_below(last - first + 1);
}

static void fail(const struct day *day, uint64_t set, const char *what)
{
    const struct yinqocha_contents *sheet = &day->contents;
    printf("reasons: %s\n  benches %" PRIu64 ", share %" PRIu64 "/%" PRIu64 ", target %" PRIu64
           ", set %" PRIx64 "\n", what, sheet->benches, sheet->p, sheet->q, sheet->target, set);
    for (unsigned b = 0; b < sheet->benches; b++)
        if (sheet->booked[b] > 0)
            printf("  booked %u %" PRIu64 "\n", b, sheet->booked[b]);
    for (size_t j = 0; j < day->jobs; j++)
        printf("  job %zu: %" PRIu64 ", benches %" PRIx64 "\n", j, sheet->jobs[j].minutes,
               sheet->jobs[j].allowed);
    exit(1);
}

#define REQUIRE(condition, day, set, what) \
    do { \
        if (!(condition)) \
            fail(day, set, what); \
    } while (0)

/* Every placement of some heavy jobs. */
struct placing {
    const struct day *day;
    const uint16_t *jobs;
    size_t count;
    uint64_t set;
};

/* The least that a placement leaves in the set, of the jobs from `at` on and with some benches
 * taken; NO_PLACEMENT where there is none. */
static uint64_t least_of(const struct placing *placing, size_t at, uint64_t taken)
{
    if (at == placing->count)
        return 0;
    const struct yinqocha_job *job = &placing->day->contents.jobs[placing->jobs[at]];
    uint64_t least = NO_PLACEMENT;
    for (unsigned b = 0; b < placing->day->contents.benches; b++) {
        if (!YINQOCHA_HAS_BENCH(job->allowed, b) || YINQOCHA_HAS_BENCH(taken, b))
            continue;
        uint64_t rest = least_of(placing, at + 1, taken | YINQOCHA_BENCH(b));
        if (rest == NO_PLACEMENT)
            continue;
        uint64_t weight = rest + (YINQOCHA_HAS_BENCH(placing->set, b) ? job->minutes : 0);
        if (weight < least)
            least = weight;
    }
    return least;
}

static bool is_heavy(const struct day *day, size_t job)
{
    const struct yinqocha_contents *sheet = &day->contents;
    return sheet->q * sheet->jobs[job].minutes > sheet->p * sheet->target;
}

/* Requires that a list has exactly the jobs that are heavy or light as asked for, have all benches
 * in the set or one on either side, by rising number, with their sum. */
static void require_jobs(const struct day *day, uint64_t set, const struct jobs *jobs, bool heavy,
                         bool inside, const char *what)
{
    size_t at = 0;
    uint64_t minutes = 0;
    for (size_t j = 0; j < day->jobs; j++) {
        uint64_t allowed = day->contents.jobs[j].allowed;
        bool all = (allowed & ~set) == 0, some = (allowed & set) != 0;
        if (is_heavy(day, j) != heavy || !(inside ? all : some && !all))
            continue;
        REQUIRE(at < jobs->count && jobs->job[at] == j, day, set, what);
        minutes += day->contents.jobs[j].minutes;
        at++;
    }
    REQUIRE(at == jobs->count && minutes == jobs->minutes, day, set, what);
}

/* Requires that the jobs of a crowd have no placement, that all but one always have one, and that
 * they have one bench fewer than there are jobs. */
static void require_crowd(const struct day *day, const struct reason *reason)
{
    const struct jobs *crowd = &reason->crowd;
    uint64_t set = reason->set, benches = 0, minutes = 0;
    REQUIRE(crowd->count > 0 && crowd->count <= YINQOCHA_MAX_BENCHES + 1, day, set, "crowd size");
    for (size_t n = 0; n < crowd->count; n++) {
        REQUIRE(is_heavy(day, crowd->job[n]), day, set, "a job of the crowd is light");
        REQUIRE(n == 0 || crowd->job[n - 1] < crowd->job[n], day, set, "order of the crowd");
        benches |= day->contents.jobs[crowd->job[n]].allowed;
        minutes += day->contents.jobs[crowd->job[n]].minutes;
    }
    REQUIRE(benches == reason->crowd_benches, day, set, "benches of the crowd");
    REQUIRE(minutes == crowd->minutes, day, set, "minutes of the crowd");
    REQUIRE(benches_count(benches) + 1 == crowd->count, day, set, "benches against jobs");
    struct placing all = { day, crowd->job, crowd->count, set };
    REQUIRE(least_of(&all, 0, 0) == NO_PLACEMENT, day, set, "the crowd can be placed");
    for (size_t left = 0; left < crowd->count; left++) {
        uint16_t rest[YINQOCHA_MAX_JOBS];
        size_t count = 0;
        for (size_t n = 0; n < crowd->count; n++)
            if (n != left)
                rest[count++] = crowd->job[n];
        struct placing fewer = { day, rest, count, set };
        REQUIRE(least_of(&fewer, 0, 0) != NO_PLACEMENT, day, set, "the crowd is not the least");
    }
    seen.crowds++;
    seen.far += (benches & set) == 0;
}

/* Requires what a reason says of a blocking set, given the least that a placement leaves there. */
static void require_reason(const struct day *day, uint64_t set, uint64_t least)
{
    struct reason reason;
    reason_of(day, set, &reason);
    uint64_t booked = 0;
    for (unsigned b = 0; b < day->contents.benches; b++)
        booked += YINQOCHA_HAS_BENCH(set, b) ? day->contents.booked[b] : 0;
    REQUIRE(reason.set == set && reason.count == benches_count(set), day, set, "set");
    REQUIRE(reason.capacity == reason.count * day->contents.target, day, set, "capacity");
    REQUIRE(reason.booked == booked, day, set, "booked");
    require_jobs(day, set, &reason.light, false, true, "light jobs");
    require_jobs(day, set, &reason.inside, true, true, "heavy jobs inside");
    require_jobs(day, set, &reason.shared, true, false, "heavy jobs that are shared");
    REQUIRE(reason.placement == (least != NO_PLACEMENT), day, set, "placement");
    if (!reason.placement) {
        require_crowd(day, &reason);
        return;
    }
    REQUIRE(reason.heavy == least, day, set, "least weight of the heavy jobs");
    REQUIRE(reason.weight == booked + reason.light.minutes + least, day, set, "weight");
    REQUIRE(reason.weight > reason.capacity, day, set, "weight against capacity");
    REQUIRE(reason.crowd.count == 0 && reason.crowd_benches == 0, day, set, "crowd");
    seen.large += day->contents.target > YINQOCHA_MAX_MINUTES && least > 0;
    seen.outside += least < reason.inside.minutes + reason.shared.minutes;
    seen.light += reason.light.count > 0;
    seen.booked += booked > 0;
    seen.without_heavy += reason.inside.count + reason.shared.count == 0;
}

/* Requires that the heavy jobs that a reason names leave as much in the set by themselves, and that
 * those outside have no bench in it. */
static void require_named(const struct day *day, uint64_t set, uint64_t least)
{
    struct reason reason;
    reason_of(day, set, &reason);
    const struct jobs *named[] = { &reason.inside, &reason.shared, &reason.outside };
    uint16_t heavy[YINQOCHA_MAX_JOBS];
    size_t count = 0;
    for (size_t k = 0; k < 3; k++)
        for (size_t n = 0; n < named[k]->count; n++)
            heavy[count++] = named[k]->job[n];
    for (size_t n = 0; n < reason.outside.count; n++)
        REQUIRE(is_heavy(day, reason.outside.job[n])
                    && (day->contents.jobs[reason.outside.job[n]].allowed & set) == 0,
                day, set, "heavy jobs outside");
    struct placing placing = { day, heavy, count, set };
    REQUIRE(least == NO_PLACEMENT || least_of(&placing, 0, 0) == least, day, set,
            "the named jobs weigh something else");
    seen.in_the_way += least != NO_PLACEMENT && reason.outside.count > 0;
}

/* The same with the least found by every placement. */
static void require_small_reason(const struct day *day, uint64_t set)
{
    uint16_t heavy[YINQOCHA_MAX_JOBS];
    size_t count = 0;
    for (size_t j = 0; j < day->jobs; j++)
        if (is_heavy(day, j))
            heavy[count++] = (uint16_t)j;
    struct placing placing = { day, heavy, count, set };
    uint64_t least = least_of(&placing, 0, 0);
    require_reason(day, set, least);
    require_named(day, set, least);
}

static void add_job(struct day *day, uint64_t minutes, uint64_t allowed)
{
    day->contents.jobs[day->jobs].minutes = minutes;
    day->contents.jobs[day->jobs].allowed = allowed;
    day->jobs++;
}

static void begin_day(struct day *day, uint64_t benches, uint64_t target)
{
    static const uint64_t shares[][2] = { { 4, 7 }, { 3, 5 }, { 2, 3 }, { 3, 4 }, { 126, 127 } };
    size_t share = random_below(sizeof shares / sizeof *shares);
    day->contents = (struct yinqocha_contents){ .benches = benches, .target = target };
    day->contents.p = shares[share][0];
    day->contents.q = shares[share][1];
    day->jobs = 0;
}

/* Has the library write the sheet; false where it refuses the day. */
static bool write_day(struct day *day)
{
    uint64_t minutes[YINQOCHA_MAX_JOBS], allowed[YINQOCHA_MAX_JOBS];
    for (size_t j = 0; j < day->jobs; j++) {
        minutes[j] = day->contents.jobs[j].minutes;
        allowed[j] = day->contents.jobs[j].allowed;
    }
    uint64_t word = yinqocha_write(day->contents.benches, day->contents.p, day->contents.q,
                                   day->contents.target,
                                   day->contents.booked, sizeof day->contents.booked,
                                   minutes, day->jobs * sizeof *minutes,
                                   allowed, day->jobs * sizeof *allowed,
                                   day->sheet, YINQOCHA_MAX_WRITTEN_BYTES);
    day->sheet_len = YINQOCHA_VALUE(word);
    return YINQOCHA_FAULT(word) == YINQOCHA_OK;
}

/* A bench, or two. */
static uint64_t one_or_two(uint64_t benches)
{
    uint64_t set = YINQOCHA_BENCH(random_below(benches));
    if (random_below(3) > 0)
        set |= YINQOCHA_BENCH(random_below(benches));
    return set;
}

/* A day of up to 6 benches, 8 heavy jobs and 6 light ones. A target above the most minutes of a job
 * has heavy jobs only where the share leaves room for them. */
static void small_day(struct day *day)
{
    static const uint64_t targets[] = { 1, 2, 7, 9, 20, 480, 1048575, 1048576, 1500000, 1835000 };
    uint64_t target = targets[random_below(sizeof targets / sizeof *targets)];
    begin_day(day, random_from(1, 6), target);
    const struct yinqocha_contents *sheet = &day->contents;
    uint64_t longest = sheet->target;
    if (longest > YINQOCHA_MAX_MINUTES)
        longest = YINQOCHA_MAX_MINUTES;
    uint64_t light = sheet->p * sheet->target / sheet->q;
    uint64_t most_heavy = random_below(4) == 0 ? 8 : sheet->benches + 1;
    uint64_t heavy = light < longest ? random_below(most_heavy + 1) : 0;
    for (uint64_t n = 0; n < heavy; n++) {
        uint64_t allowed = one_or_two(sheet->benches);
        add_job(day, random_from(light + 1, longest), allowed);
    }
    for (uint64_t n = random_below(7); n > 0; n--) {
        uint64_t allowed = one_or_two(sheet->benches);
        allowed |= one_or_two(sheet->benches);
        add_job(day, random_below((light < longest ? light : longest) + 1), allowed);
    }
    for (unsigned b = 0; b < sheet->benches; b++)
        if (random_below(3) == 0)
            day->contents.booked[b] = random_below(longest + longest / 4 + 1)
                                      % (YINQOCHA_MAX_MINUTES + 1);
}

/* The planner's own set, and one at random if the library says that it is blocking. */
static void try_small_day(struct day *day)
{
    small_day(day);
    struct outcome outcome;
    struct checked checked;
    if (!write_day(day))
        return;
    ask_plan(day, &outcome);
    if (outcome.answer == ANSWER_NONE) {
        seen.nones++;
        require_small_reason(day, outcome.set);
    }
    uint64_t set = 0;
    for (unsigned b = 0; b < day->contents.benches; b++)
        set |= random_below(2) == 0 ? YINQOCHA_BENCH(b) : 0;
    ask_set(day, set, &checked);
    if (checked.verdict == VERDICT_PASSED) {
        seen.sets++;
        require_small_reason(day, set);
    }
}

/* A day of 64 benches with one placement: each heavy job has a bench of its own. All benches but
 * the first few are the set, booked and filled until it is blocking. */
static void try_known_day(struct day *day)
{
    begin_day(day, YINQOCHA_MAX_BENCHES, random_from(1, 1048575 + 1048575 / 4 * 3));
    struct yinqocha_contents *sheet = &day->contents;
    uint64_t light = sheet->p * sheet->target / sheet->q, least = 0, set = 0;
    uint64_t longest = sheet->target < YINQOCHA_MAX_MINUTES ? sheet->target : YINQOCHA_MAX_MINUTES;
    unsigned outside = (unsigned)random_below(4);
    uint64_t density = random_below(5);
    for (unsigned b = 0; b < YINQOCHA_MAX_BENCHES; b++) {
        bool inside = b >= outside;
        set |= inside ? YINQOCHA_BENCH(b) : 0;
        sheet->booked[b] = longest;
        if (light < longest && random_below(4) < density) {
            add_job(day, random_from(light + 1, longest), YINQOCHA_BENCH(b));
            least += inside ? day->contents.jobs[day->jobs - 1].minutes : 0;
        }
    }
    for (unsigned n = 0; n < 200; n++)
        add_job(day, light < longest ? light : longest, YINQOCHA_BENCH(outside));
    seen.filled += sheet->target > YINQOCHA_MAX_MINUTES && least > 0
                   && least < benches_count(set) * (sheet->target - YINQOCHA_MAX_MINUTES);
    struct checked checked;
    REQUIRE(write_day(day), day, set, "the day has a fault");
    ask_set(day, set, &checked);
    if (checked.verdict != VERDICT_PASSED)
        return;
    seen.sets++;
    require_reason(day, set, least);
}

/* A day of 64 benches and 512 heavy jobs. */
static void try_crowded_day(struct day *day)
{
    begin_day(day, YINQOCHA_MAX_BENCHES, random_from(100, 1048575));
    const struct yinqocha_contents *sheet = &day->contents;
    while (day->jobs < YINQOCHA_MAX_JOBS)
        add_job(day, sheet->target, one_or_two(YINQOCHA_MAX_BENCHES));
    struct outcome outcome;
    REQUIRE(write_day(day), day, 0, "the day has a fault");
    ask_plan(day, &outcome);
    REQUIRE(outcome.answer == ANSWER_NONE, day, 0, "512 heavy jobs are no none");
    require_reason(day, outcome.set, NO_PLACEMENT);
}

int main(void)
{
    struct day *day = day_new();
    uint8_t sheet[YINQOCHA_MAX_WRITTEN_BYTES];
    day->sheet = sheet;
    for (unsigned n = 0; n < DAYS; n++)
        try_small_day(day);
    for (unsigned n = 0; n < 400; n++)
        try_known_day(day);
    for (unsigned n = 0; n < 4; n++)
        try_crowded_day(day);
    day->sheet = NULL;
    day_free(day);
    bool enough = seen.nones > 5000 && seen.sets > 5000 && seen.large > 1000 && seen.filled > 10
                  && seen.outside > 1000 && seen.light > 1000 && seen.booked > 1000
                  && seen.crowds > 1000 && seen.far > 100 && seen.without_heavy > 100
                  && seen.in_the_way > 100;
    printf("reasons: %u nones and %u other sets hold (%u with large targets, %u with heavy jobs "
           "placed outside, %u crowds, %u of them elsewhere)%s\n",
           seen.nones, seen.sets, seen.large, seen.outside, seen.crowds, seen.far,
           enough ? "" : ": too few of a kind");
    return enough ? 0 : 1;
}
