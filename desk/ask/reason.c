#include "ask/reason.h"

static void jobs_add(struct jobs *jobs, const struct day *day, size_t job)
{
    jobs->job[jobs->count++] = (uint16_t)job;
    jobs->minutes += day->contents.jobs[job].minutes;
}

static void jobs_remove(struct jobs *jobs, const struct day *day, size_t at)
{
    jobs->minutes -= day->contents.jobs[jobs->job[at]].minutes;
    jobs->count--;
    for (size_t n = at; n < jobs->count; n++)
        jobs->job[n] = jobs->job[n + 1];
}

/*
 * A trial is a sheet of heavy jobs of the day alone, with the day's benches, share and target, and
 * so many minutes more on the benches of the set, of which the library says whether the set is
 * blocking. With H the least that a placement of these jobs leaves in the set, k its benches and T
 * the target, it is blocking exactly if no placement exists or H + more > k * T.
 *
 * The trial has no fault. The day is accepted, so its benches, share, target, minutes and sets are
 * fit for a sheet. Its set is blocking, so no job is longer than T; a heavy job then has more than
 * p/q of the longest job's minutes and, as the day has no fault 12, at most two benches. The jobs
 * added here have one bench. So the trial has no fault 12 either.
 *
 * There is room for `more` up to k * T. Bookings take k * M, with M = 2^20 - 1, which is enough
 * where T <= M. Where T > M, some job of at most M minutes is heavy, so p * T < q * M, T < 7/4 * M,
 * and less than 3/4 * 64 * M = 48 * M is left for light jobs. Each of these takes up to p * T / q
 * minutes, rounded down, which is at least 4/7 * M - 1, so 85 of them are enough. More than 0 is
 * only asked for where a placement exists, which has a bench for each heavy job: these are at most
 * 64, and 64 + 85 is within the 512 jobs of a sheet.
 */
struct trial {
    uint64_t booked[YINQOCHA_MAX_BENCHES];
    uint64_t minutes[YINQOCHA_MAX_JOBS], allowed[YINQOCHA_MAX_JOBS];
    size_t jobs;
};

/* TRIAL_UNTOLD does not happen, see above. */
enum trial_answer { TRIAL_BLOCKING, TRIAL_NOT_BLOCKING, TRIAL_UNTOLD };

static uint64_t smaller(uint64_t a, uint64_t b)
{
    return a < b ? a : b;
}

static void trial_job(struct trial *trial, uint64_t minutes, uint64_t allowed)
{
    trial->minutes[trial->jobs] = minutes;
    trial->allowed[trial->jobs] = allowed;
    trial->jobs++;
}

/* Puts minutes on benches of the set: bookings first, then light jobs on its lowest bench. False
 * where they find no room. */
static bool trial_load(struct trial *trial, const struct day *day, uint64_t set, uint64_t more)
{
    const struct yinqocha_contents *sheet = &day->contents;
    uint64_t lowest = 0;
    for (unsigned b = YINQOCHA_MAX_BENCHES; b-- > 0;) {
        if (!YINQOCHA_HAS_BENCH(set, b))
            continue;
        lowest = YINQOCHA_BENCH(b);
        trial->booked[b] = smaller(more, YINQOCHA_MAX_MINUTES);
        more -= trial->booked[b];
    }
    uint64_t light = smaller(sheet->p * sheet->target / sheet->q, YINQOCHA_MAX_MINUTES);
    while (more > 0 && light > 0 && trial->jobs < YINQOCHA_MAX_JOBS) {
        uint64_t minutes = smaller(more, light);
        trial_job(trial, minutes, lowest);
        more -= minutes;
    }
    return more == 0;
}

static enum trial_answer try_set(const struct day *day, uint64_t set, const struct jobs *heavy,
                                 uint64_t more)
{
    const struct yinqocha_contents *sheet = &day->contents;
    struct trial trial = { .jobs = 0 };
    uint8_t bytes[YINQOCHA_MAX_WRITTEN_BYTES];
    uint64_t answer[YINQOCHA_CHECK_SET_ENTRIES];
    for (size_t n = 0; n < heavy->count; n++)
        trial_job(&trial, sheet->jobs[heavy->job[n]].minutes, sheet->jobs[heavy->job[n]].allowed);
    if (!trial_load(&trial, day, set, more))
        return TRIAL_UNTOLD;
    uint64_t word = yinqocha_write(sheet->benches, sheet->p, sheet->q, sheet->target,
                                   trial.booked, sizeof trial.booked,
                                   trial.minutes, trial.jobs * sizeof *trial.minutes,
                                   trial.allowed, trial.jobs * sizeof *trial.allowed,
                                   bytes, sizeof bytes);
    if (YINQOCHA_FAULT(word) == YINQOCHA_OK)
        word = yinqocha_check_set(bytes, YINQOCHA_VALUE(word), set, answer, sizeof answer);
    return word == YINQOCHA_PASSED       ? TRIAL_BLOCKING
           : word == YINQOCHA_NOT_PASSED ? TRIAL_NOT_BLOCKING
                                         : TRIAL_UNTOLD;
}

/* The least that a placement leaves in the set, where one exists: `blocking`, in the end the fewest
 * minutes that make the set blocking, is k * T + 1 - H. At least 1 is needed, for no placement
 * leaves more than one job of at most T minutes on a bench, and k * T + 1 are enough. */
static bool weigh_heavy(const struct day *day, const struct jobs *heavy, struct reason *reason)
{
    uint64_t not_blocking = 0, blocking = reason->capacity + 1;
    while (blocking - not_blocking > 1) {
        uint64_t middle = not_blocking + (blocking - not_blocking) / 2;
        switch (try_set(day, reason->set, heavy, middle)) {
        case TRIAL_BLOCKING:
            blocking = middle;
            break;
        case TRIAL_NOT_BLOCKING:
            not_blocking = middle;
            break;
        case TRIAL_UNTOLD:
            return false;
        }
    }
    reason->heavy = reason->capacity + 1 - blocking;
    return true;
}

/* How near a job is to the set: 0 where none of its benches is in it, 2 where all are. */
static unsigned nearness(const struct day *day, size_t job, uint64_t set)
{
    uint64_t allowed = day->contents.jobs[job].allowed;
    return (allowed & set) == 0 ? 0 : (allowed & ~set) == 0 ? 2 : 1;
}

/* Leaves jobs out of heavy ones that have no placement, as long as the rest has none: those far
 * from the set first, so that what is left lies in it if it can. Jobs of which each can be placed
 * once another is left out have one bench fewer than there are jobs: by Hall's theorem some of
 * them have fewer benches than jobs, these are then all of them, and without one of them there are
 * as many benches as jobs. */
static void find_crowd(const struct day *day, const struct jobs *heavy, struct reason *reason)
{
    struct jobs crowd = *heavy;
    for (unsigned near = 0; near <= 2; near++) {
        for (size_t at = crowd.count; at-- > 0;) {
            if (nearness(day, crowd.job[at], reason->set) != near)
                continue;
            struct jobs fewer = crowd;
            jobs_remove(&fewer, day, at);
            if (try_set(day, reason->set, &fewer, 0) == TRIAL_BLOCKING)
                crowd = fewer;
        }
    }
    reason->crowd = crowd;
    for (size_t n = 0; n < crowd.count; n++)
        reason->crowd_benches |= day->contents.jobs[crowd.job[n]].allowed;
}

/* Sorts the day's jobs by what they have to do with the set. */
static void sort_jobs(const struct day *day, struct reason *reason, struct jobs *heavy)
{
    for (size_t j = 0; j < day->jobs; j++) {
        unsigned near = nearness(day, j, reason->set);
        if (!day_is_heavy(day, j, day->contents.target)) {
            if (near == 2)
                jobs_add(&reason->light, day, j);
            continue;
        }
        jobs_add(heavy, day, j);
        if (near == 2)
            jobs_add(&reason->inside, day, j);
        else if (near == 1)
            jobs_add(&reason->shared, day, j);
    }
}

/* Finds the heavy jobs outside of the set that may keep the shared ones from leaving it: from the
 * outer benches of these on, every heavy job at a bench that is reached leads to its other one. */
static void find_outside(const struct day *day, const struct jobs *heavy, struct reason *reason)
{
    const struct yinqocha_job *jobs = day->contents.jobs;
    uint64_t reached = 0, before;
    for (size_t n = 0; n < reason->shared.count; n++)
        reached |= jobs[reason->shared.job[n]].allowed & ~reason->set;
    do {
        before = reached;
        for (size_t n = 0; n < heavy->count; n++)
            if (nearness(day, heavy->job[n], reason->set) == 0
                && (jobs[heavy->job[n]].allowed & reached) != 0)
                reached |= jobs[heavy->job[n]].allowed;
    } while (reached != before);
    for (size_t n = 0; n < heavy->count; n++)
        if (nearness(day, heavy->job[n], reason->set) == 0
            && (jobs[heavy->job[n]].allowed & reached) != 0)
            jobs_add(&reason->outside, day, heavy->job[n]);
}

void reason_of(const struct day *day, uint64_t set, struct reason *reason)
{
    struct jobs heavy = { .count = 0 };
    *reason = (struct reason){ .set = set, .count = benches_count(set) };
    reason->capacity = reason->count * day->contents.target;
    for (unsigned b = 0; b < YINQOCHA_MAX_BENCHES; b++)
        if (YINQOCHA_HAS_BENCH(set, b))
            reason->booked += day->contents.booked[b];
    sort_jobs(day, reason, &heavy);
    find_outside(day, &heavy, reason);
    enum trial_answer alone =
        heavy.count > 0 ? try_set(day, set, &heavy, 0) : TRIAL_NOT_BLOCKING;
    if (alone == TRIAL_BLOCKING)
        find_crowd(day, &heavy, reason);
    reason->placement = alone == TRIAL_NOT_BLOCKING
                        && (heavy.count == 0 || weigh_heavy(day, &heavy, reason));
    if (reason->placement)
        reason->weight = reason->booked + reason->light.minutes + reason->heavy;
}
