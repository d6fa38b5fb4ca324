/*
 * The C door's checks of the answer table: the fullest bench, which is its third entry, and room
 * for three entries.
 */

#ifndef ANSWERS_H
#define ANSWERS_H

#include "door.h"

static void add_job(struct fields *fields, uint64_t minutes, uint64_t allowed)
{
    fields->minutes[fields->jobs] = minutes;
    fields->allowed[fields->jobs++] = allowed;
}

/* Four benches with T = 9, and a job on each that has so many minutes; 0 is no job. */
static struct fields four_benches(uint64_t on_0, uint64_t on_1, uint64_t on_2, uint64_t on_3)
{
    const uint64_t minutes[] = { on_0, on_1, on_2, on_3 };
    struct fields fields = { .benches = 4, .p = 4, .q = 7, .target = 9, .booked_len = 32 };
    for (size_t b = 0; b < 4; b++)
        if (minutes[b] > 0)
            add_job(&fields, minutes[b], YINQOCHA_BENCH(b));
    return fields;
}

/* A plan without moves, in an answer table of three entries and in a longer one. */
static void require_fullest(const struct fields *fields, uint64_t largest, uint64_t fullest,
                            const char *what)
{
    size_t places_len = 8 * fields->jobs, loads_len = 8 * fields->benches;
    for (size_t answer_len = 24; answer_len <= 40; answer_len += 8) {
        require(plan_fields(fields, places_len, loads_len, answer_len) == YINQOCHA_PLAN, what);
        require_answer(largest, 0, fullest, what);
        require(table_entry(&loads, fullest) == largest, what);
    }
}

static void fullest_by_jobs(void)
{
    struct fields fields = four_benches(3, 4, 8, 7);
    require_fullest(&fields, 8, 2, "bench 2 alone");
    fields = four_benches(3, 4, 8, 8);
    require_fullest(&fields, 8, 2, "bench 2, and bench 3 as full");
    fields = four_benches(3, 8, 7, 8);
    require_fullest(&fields, 8, 1, "bench 1, and bench 3 as full");
    fields = four_benches(9, 9, 9, 9);
    require_fullest(&fields, 9, 0, "all benches as full");
    fields = four_benches(0, 0, 0, 0);
    require_fullest(&fields, 0, 0, "nothing to do");
    fields = four_benches(0, 5, 0, 6);
    for (size_t j = 0; j < 4; j++)
        add_job(&fields, 1, YINQOCHA_BENCH(0));
    require_fullest(&fields, 6, 3, "most jobs on bench 0");
    printf("door: the fullest bench is the lowest with the largest load\n");
}

static void fullest_by_bookings(void)
{
    struct fields fields = four_benches(6, 0, 8, 0);
    fields.booked[3] = 9;
    require_fullest(&fields, 9, 3, "booked, without a job");
    fields.booked[3] = 8;
    require_fullest(&fields, 8, 2, "a higher bench that is booked is as full");
    fields.booked[1] = 8;
    require_fullest(&fields, 8, 1, "a lower bench that is booked is as full");
    fields.booked[0] = 3;
    require_fullest(&fields, 9, 0, "a booking and a job");
    fields = example_5(0);
    fields.benches = YINQOCHA_MAX_BENCHES;
    fields.booked_len = 8 * YINQOCHA_MAX_BENCHES;
    for (size_t b = 0; b < YINQOCHA_MAX_BENCHES; b++)
        fields.booked[b] = 8;
    require_fullest(&fields, 8, 0, "64 benches as full");
    fields.booked[63] = 9;
    require_fullest(&fields, 9, 63, "the last of 64 benches");
    printf("door: booked minutes count in the fullest bench\n");
}

/* Plans into the tables as the call before has left them. */
static uint64_t plan_again(const struct fields *fields)
{
    uint64_t length = write_fields(fields, sizeof buffer - 2 * GUARD);
    return yinqocha_plan(out, length, table_start(&places), 24, table_start(&loads), 16,
                         table_start(&answer), ANSWER_BYTES);
}

/* Example 7, whose fullest bench is 1, before each of the other answers, and after them. */
static void answers_in_turn(void)
{
    const uint64_t both = YINQOCHA_BENCH(0) | YINQOCHA_BENCH(1);
    struct fields example_7 = example_5(1), too_long = example_5(1), example_4 = example_5(3);
    example_7.target = 5;
    too_long.target = 4;
    example_4.target = 8;
    require(plan_fields(&example_7, 8, 16, ANSWER_BYTES) == YINQOCHA_PLAN, "example 7: a plan");
    require_answer(5, 0, 1, "example 7: fullest bench 1");
    require(plan_again(&too_long) == YINQOCHA_LONG, "after a plan: long");
    require_answer(0, 0, 0, "long after a plan: third entry 0");
    require(plan_again(&example_7) == YINQOCHA_PLAN, "after long: a plan");
    require_answer(5, 0, 1, "a plan after long: fullest bench 1");
    require(plan_again(&example_4) == YINQOCHA_NONE, "after a plan: none");
    require_answer(both, 0, 0, "none after a plan: third entry 0");
    require(plan_again(&example_7) == YINQOCHA_PLAN, "after none: a plan");
    require_answer(5, 0, 1, "a plan after none: fullest bench 1");
    printf("door: the third entry of long and of none is 0, whatever it was\n");
}

/* Long, example 4 (none) and example 5 (plan), in answer tables of each length. */
static void answer_room(void)
{
    static const uint64_t targets[] = { 4, 8, 9 };
    static const uint64_t words[] = { YINQOCHA_LONG, YINQOCHA_NONE, YINQOCHA_PLAN };
    struct fields fields = example_5(3);
    for (size_t n = 0; n < 3; n++) {
        fields.target = targets[n];
        for (size_t bytes = 0; bytes < 24; bytes++)
            require_plan_fault(plan_fields(&fields, 24, 16, bytes), YINQOCHA_NO_ROOM, 0,
                               "an answer table of fewer than 24 bytes");
        for (size_t bytes = 24; bytes <= 40; bytes++) {
            require(plan_fields(&fields, 24, 16, bytes) == words[n], "24 bytes or more");
            require(table_entry(&answer, 2) == 0, "24 bytes or more: third entry");
            require_entries(&answer, 3, "behind the third entry");
        }
    }
    printf("door: an answer table has three entries, and a byte less is fault 13\n");
}

static void answer_tables(void)
{
    fullest_by_jobs();
    fullest_by_bookings();
    answers_in_turn();
    answer_room();
}

#endif /* ANSWERS_H */
