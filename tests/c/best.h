/*
 * The C door's checks of the best target: its five numbers, its plan, its faults, and what the
 * tables keep.
 */

#ifndef BEST_H
#define BEST_H

#include "answers.h"
#include "door.h"

/* The bytes of an answer table of the best target. */
#define BEST_BYTES (8 * YINQOCHA_BEST_ENTRIES)

static void fill_tables(void)
{
    memset(&places, FILL, sizeof places);
    memset(&loads, FILL, sizeof loads);
    memset(&answer, FILL, sizeof answer);
}

/* The best target of a sheet, with tables of these lengths in bytes. */
static uint64_t best_of(const uint8_t *sheet, size_t sheet_len, size_t places_len, size_t loads_len,
                        size_t answer_len)
{
    fill_tables();
    return yinqocha_best(sheet, sheet_len, table_start(&places), places_len,
                         table_start(&loads), loads_len, table_start(&answer), answer_len);
}

/* The same of fields that are written first. */
static uint64_t best_fields(const struct fields *fields, size_t places_len, size_t loads_len,
                            size_t answer_len)
{
    uint64_t length = write_fields(fields, sizeof buffer - 2 * GUARD);
    require(YINQOCHA_FAULT(length) == YINQOCHA_OK, "a sheet with a best target");
    uint64_t word = best_of(out, length, places_len, loads_len, answer_len);
    require_untouched_after(length, "the sheet's guards");
    return word;
}

/* The numbers of the answer table, in its order. */
struct best {
    uint64_t target, largest, moves, fullest, runs;
};

static void require_numbers(struct best best, const char *what)
{
    require(table_entry(&answer, 0) == best.target, what);
    require(table_entry(&answer, 1) == best.largest, what);
    require(table_entry(&answer, 2) == best.moves, what);
    require(table_entry(&answer, 3) == best.fullest, what);
    require(table_entry(&answer, 4) == best.runs, what);
    require_entries(&answer, YINQOCHA_BEST_ENTRIES, what);
}

/* The fields have this best target, in tables that fit and in longer ones. */
static void require_best(const struct fields *fields, struct best best, const char *what)
{
    size_t jobs = fields->jobs, benches = fields->benches;
    for (size_t more = 0; more <= 33; more += 11) {
        uint64_t word = best_fields(fields, 8 * jobs + more, 8 * benches + more, BEST_BYTES + more);
        require(word == YINQOCHA_BEST, what);
        require_numbers(best, what);
        require_entries(&places, jobs, what);
        require_entries(&loads, benches, what);
        require(table_entry(&loads, best.fullest) == best.largest, what);
    }
}

/* The jobs have these places, one digit each. */
static void require_places(const char *digits, const char *what)
{
    for (size_t j = 0; digits[j] != '\0'; j++)
        require(table_entry(&places, j) == (uint64_t)(digits[j] - '0'), what);
}

/* Whatever the sheet's own target is, with a plan, long and none. The targets that are run: 15, 7,
 * 11, 9 and 8; 8, 4, 2 and 3; 10, 5, 2 and 4; 5, 2 and 4. */
static void best_examples(void)
{
    static const uint64_t targets[] = { 0, 4, 8, 9, 100, YINQOCHA_MAX_TARGET };
    for (size_t n = 0; n < sizeof targets / sizeof *targets; n++) {
        struct fields fields = example_5(3);
        fields.target = targets[n];
        require_best(&fields, (struct best){ 9, 15, 0, 0, 5 }, "best target of example 5");
        require_places("000", "best target of example 5: places");
        fields.jobs = 2;
        require_best(&fields, (struct best){ 5, 5, 0, 0, 4 }, "best target of example 6");
        require_places("10", "best target of example 6: places");
        fields.jobs = 1;
        require_best(&fields, (struct best){ 5, 5, 0, 1, 3 }, "best target of example 7");
        require_places("1", "best target of example 7: places");
        fields = example_5(4);
        fields.target = targets[n];
        for (size_t j = 0; j < 4; j++)
            fields.minutes[j] = 2;
        require_best(&fields, (struct best){ 4, 6, 1, 0, 4 }, "best target of example 8");
        require_places("1000", "best target of example 8: places");
    }
    printf("door: a best target has its five numbers and its plan, whatever the sheet's target\n");
}

/* No job, checks alone, bookings alone, and bookings with jobs. */
static void best_without_minutes(void)
{
    struct fields fields = example_5(0);
    require_best(&fields, (struct best){ 0, 0, 0, 0, 1 }, "best target without a job");
    fields = example_5(3);
    memset(fields.minutes, 0, sizeof fields.minutes);
    fields.allowed[1] = YINQOCHA_BENCH(1);
    require_best(&fields, (struct best){ 0, 0, 0, 0, 1 }, "best target of checks alone");
    require_places("010", "best target of checks alone: places");
    /* 21 * 13 = 39 * 7; 13, 6, 10, 8 and 7 are run, also if more benches are booked. */
    fields = example_5(0);
    fields.booked_len = 16;
    fields.booked[1] = 13;
    require_best(&fields, (struct best){ 7, 13, 0, 1, 5 }, "best target of a booking alone");
    fields.booked[0] = 13;
    require_best(&fields, (struct best){ 7, 13, 0, 0, 5 }, "best target of two bookings");
    /* 9, 4, 7, 6 and 5 are run. At 9 the job is light, and on bench 0. */
    fields = example_5(1);
    fields.booked_len = 16;
    fields.booked[1] = 4;
    require_best(&fields, (struct best){ 5, 9, 0, 1, 5 }, "best target of a booking and a job");
    require_places("1", "best target of a booking and a job: places");
    printf("door: a best target of no job, of checks, of bookings, and of bookings with a job\n");
}

/* 32, 34 and 35 give a plan, 33 and 36 are refused. 98, 49, 24, 37, 31, 34 and 33 are run. */
static void best_between_refused_targets(void)
{
    static const uint32_t words[] = { YINQOCHA_PLAN, YINQOCHA_NONE, YINQOCHA_PLAN, YINQOCHA_PLAN,
                                      YINQOCHA_NONE };
    struct fields fields = example_5(3);
    fields.p = 5;
    fields.q = 6;
    fields.booked_len = 16;
    fields.booked[0] = 14;
    fields.booked[1] = 35;
    fields.minutes[0] = 6;
    fields.minutes[1] = 30;
    fields.minutes[2] = 27;
    for (uint64_t target = 32; target <= 36; target++) {
        fields.target = target;
        require(plan_fields(&fields, 24, 16, ANSWER_BYTES) == words[target - 32], "32 to 36");
        require_best(&fields, (struct best){ 34, 65, 0, 1, 7 }, "between two that are refused");
        require_places("010", "between two that are refused: places");
    }
    printf("door: a lower target than the best may give a plan, one below the best does not\n");
}

/* 512 jobs of the most minutes, and a booking: the search starts as high as it can. */
static void best_of_most_minutes(void)
{
    struct fields fields = example_5(YINQOCHA_MAX_JOBS);
    fields.p = 20;
    fields.q = 31;
    fields.booked_len = 16;
    fields.booked[1] = YINQOCHA_MAX_MINUTES;
    for (size_t j = 0; j < YINQOCHA_MAX_JOBS; j++) {
        fields.minutes[j] = YINQOCHA_MAX_MINUTES;
        fields.allowed[j] = YINQOCHA_BENCH(0);
    }
    require(best_fields(&fields, 8 * 512, 16, BEST_BYTES) == YINQOCHA_BEST, "the most minutes");
    require_numbers((struct best){ 285308270, 536870400, 0, 0, 31 }, "the most minutes");
    printf("door: at most 31 targets are run\n");
}

/* The plan is that of planning with this target, and one below there is none. */
static void best_and_plan(void)
{
    for (uint64_t minutes = 1; minutes <= 40; minutes++) {
        struct fields fields = four_benches(minutes, 5, 40 - minutes, 9);
        for (size_t j = 0; j < 12; j++)
            add_job(&fields, 1 + j * minutes % 7, YINQOCHA_BENCH(j % 4) | YINQOCHA_BENCH(j % 3));
        size_t places_len = 8 * fields.jobs;
        require(best_fields(&fields, places_len, 32, BEST_BYTES) == YINQOCHA_BEST, "a best target");
        struct table best_places = places, best_loads = loads, best = answer;
        fields.target = table_entry(&best, 0);
        require(plan_fields(&fields, places_len, 32, ANSWER_BYTES) == YINQOCHA_PLAN, "its plan");
        require(memcmp(&places, &best_places, sizeof places) == 0, "its plan: places");
        require(memcmp(&loads, &best_loads, sizeof loads) == 0, "its plan: loads");
        require_answer(table_entry(&best, 1), table_entry(&best, 2), table_entry(&best, 3),
                       "its plan: largest load, moves, fullest bench");
        fields.target--;
        require(plan_fields(&fields, places_len, 32, ANSWER_BYTES) != YINQOCHA_PLAN, "one below");
    }
    printf("door: a best target's plan is that of planning with it, and one below there is none\n");
}

static void best_faults(void)
{
    struct fields fields = example_5(3);
    for (size_t bytes = 0; bytes < BEST_BYTES; bytes++)
        require_plan_fault(best_fields(&fields, 24, 16, bytes), YINQOCHA_NO_ROOM, 0,
                           "an answer table of fewer than 40 bytes");
    for (size_t bytes = BEST_BYTES; bytes <= BEST_BYTES + 16; bytes++) {
        require(best_fields(&fields, 24, 16, bytes) == YINQOCHA_BEST, "40 bytes or more");
        require_numbers((struct best){ 9, 15, 0, 0, 5 }, "40 bytes or more");
    }
    require_plan_fault(best_fields(&fields, 23, 16, 40), YINQOCHA_NO_ROOM, 0, "places too short");
    require_plan_fault(best_fields(&fields, 24, 15, 40), YINQOCHA_NO_ROOM, 0, "loads too short");
    require_plan_fault(best_fields(&fields, 0, 0, 0), YINQOCHA_NO_ROOM, 0, "no tables");
    size_t length = sizeof example_12;
    for (size_t cut = 0; cut < length; cut++) {
        uint64_t plan = yinqocha_plan(example_12, cut, NULL, 0, NULL, 0, NULL, 0);
        uint64_t word = best_of(example_12, cut, 24, 16, BEST_BYTES);
        require(word == plan, "a sheet cut off: the word of planning");
        require_plan_fault(word, YINQOCHA_SHEET_CUT, YINQOCHA_VALUE(plan), "a sheet cut off");
    }
    static const uint8_t zeros[YINQOCHA_MAX_SHEET_BYTES + 1];
    require_plan_fault(best_of(zeros, sizeof zeros, 24, 16, BEST_BYTES), YINQOCHA_SHEET_TOO_LONG, 0,
                       "65,537 bytes");
    fill_tables();
    uint64_t word = yinqocha_best(NULL, 0, NULL, 0, NULL, 0, NULL, 0);
    require_plan_fault(word, YINQOCHA_SHEET_CUT, 0, "no sheet and no tables");
    word = yinqocha_best(example_12, length, NULL, 0, NULL, 0, NULL, 0);
    require_plan_fault(word, YINQOCHA_NO_ROOM, 0, "NULL for each table");
    printf("door: a best target has the sheet's faults, then fault 13; the tables are untouched\n");
}

static void best_targets(void)
{
    best_examples();
    best_without_minutes();
    best_between_refused_targets();
    best_of_most_minutes();
    best_and_plan();
    best_faults();
}

#endif /* BEST_H */
