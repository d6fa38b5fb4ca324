/*
 * reason.h - why a day has no assignment within its target
 *
 * A blocking set of k benches has k * T minutes to the target, and what must lie there weighs more:
 * what is booked there, the light jobs that can go nowhere else, and in every placement (each heavy
 * job on one of its benches, no bench taking two) the heavy jobs placed inside. The first two are
 * sums of the sheet. The least that a placement leaves inside is found by asking the library's
 * check of a set: of the heavy jobs alone with more and more booked on the set, so that it answers
 * from which point on the set is blocking. Where no placement exists, the same check finds heavy
 * jobs that cannot be placed, and of which no one can be left out.
 */

#ifndef DESK_REASON_H
#define DESK_REASON_H

#include "day/day.h"

/* Jobs by rising number. */
struct jobs {
    uint16_t job[YINQOCHA_MAX_JOBS];
    size_t count;
    uint64_t minutes; /* of all of them together */
};

struct reason {
    uint64_t set;      /* the benches */
    unsigned count;    /* k */
    uint64_t capacity; /* k * T */

    uint64_t booked;    /* on benches of the set */
    struct jobs light;  /* those whose benches all lie in the set */
    struct jobs inside; /* the heavy jobs whose benches all lie in the set */
    struct jobs shared; /* the heavy jobs with a bench in the set and one outside */
    struct jobs outside; /* the other heavy jobs that may keep these from going there: those with a
                          * bench to which one of them can go, or can make another go */

    /* Where a placement exists: the least that the heavy jobs weigh inside, and with what is booked
     * and the light jobs that is `weight`, which is more than the capacity. */
    bool placement;
    uint64_t heavy, weight;

    /* Where none exists: heavy jobs of which no one can be left out, and the benches that they
     * have between them, one fewer than there are jobs. */
    struct jobs crowd;
    uint64_t crowd_benches;
};

/* The reason of a set that is blocking for the day's own target. */
void reason_of(const struct day *day, uint64_t set, struct reason *reason);

#endif
