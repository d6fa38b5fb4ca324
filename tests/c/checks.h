/*
 * The C door's checks of lists and of sets that come from elsewhere: what passes, the numbers of
 * the answer table, the faults, and what the table keeps.
 */

#ifndef CHECKS_H
#define CHECKS_H

#include "answers.h"
#include "best.h"
#include "door.h"

#define BOTH (YINQOCHA_BENCH(0) | YINQOCHA_BENCH(1))

/* A call that checks a table. */
typedef uint64_t check_call(const uint8_t *, size_t, const void *, size_t, void *, size_t);

/* A table, in bytes, is checked with an answer table of so many bytes. */
static uint64_t check_table(check_call *call, const struct fields *fields, const void *table,
                            size_t table_len, size_t answer_len)
{
    size_t length = sheet_of(fields);
    memset(&answer, FILL, sizeof answer);
    uint64_t word = call(out, length, table, table_len, table_start(&answer), answer_len);
    require_untouched_after(length, "the checked sheet's guards");
    return word;
}

static uint64_t check_list(const struct fields *fields, const void *list, size_t list_len,
                           size_t answer_len)
{
    return check_table(yinqocha_check_plan, fields, list, list_len, answer_len);
}

/* A set is checked with an answer table of so many bytes. */
static uint64_t check_set(const struct fields *fields, uint64_t set, size_t answer_len)
{
    size_t length = sheet_of(fields);
    memset(&answer, FILL, sizeof answer);
    uint64_t word = yinqocha_check_set(out, length, set, table_start(&answer), answer_len);
    require_untouched_after(length, "the checked sheet's guards");
    return word;
}

static void require_check_fault(uint64_t word, uint32_t number, uint32_t place, const char *what)
{
    require(YINQOCHA_FAULT(word) == number, what);
    require(YINQOCHA_VALUE(word) == place, what);
    require_entries(&answer, 0, what);
}

/* One place a job, in an answer table that fits and in longer ones. */
static void require_list(const struct fields *fields, const uint64_t *list, uint64_t word,
                         uint64_t largest, uint64_t fullest, const char *what)
{
    for (size_t more = 0; more <= 20; more += 5) {
        require(check_list(fields, list, 8 * fields->jobs, 16 + more) == word, what);
        require(table_entry(&answer, 0) == largest, what);
        require(table_entry(&answer, 1) == fullest, what);
        require_entries(&answer, YINQOCHA_CHECK_PLAN_ENTRIES, what);
    }
}

static void require_passed(const struct fields *fields, const uint64_t *list, uint64_t largest,
                           uint64_t fullest, const char *what)
{
    require_list(fields, list, YINQOCHA_PASSED, largest, fullest, what);
}

static void require_not_passed(const struct fields *fields, const uint64_t *list, const char *what)
{
    require_list(fields, list, YINQOCHA_NOT_PASSED, 0, 0, what);
}

/* A set, in an answer table that fits and in longer ones. */
static void require_set(const struct fields *fields, uint64_t set, uint64_t word, uint64_t entry,
                        const char *what)
{
    for (size_t more = 0; more <= 20; more += 5) {
        require(check_set(fields, set, 8 + more) == word, what);
        require(table_entry(&answer, 0) == entry, what);
        require_entries(&answer, YINQOCHA_CHECK_SET_ENTRIES, what);
    }
}

/* 21 * 5 <= 39 * 4, 21 * 13 = 39 * 7, and 21 * 14 <= 39 * 8 < 21 * 15. */
static void lists_and_the_bound(void)
{
    static const uint64_t all_on_0[] = { 0, 0, 0 }, last_on_1[] = { 0, 0, 1 };
    static const uint64_t two_on_1[] = { 0, 1, 1 };
    struct fields fields = example_5(1);
    fields.target = 4;
    require_passed(&fields, all_on_0, 5, 0, "a job longer than T");
    fields = example_5(3);
    require_passed(&fields, all_on_0, 15, 0, "example 5");
    require_passed(&fields, last_on_1, 10, 0, "example 5, one job elsewhere");
    require_passed(&fields, two_on_1, 10, 1, "example 5, two jobs elsewhere");
    fields.target = 8;
    require_not_passed(&fields, all_on_0, "the bound of target 8");
    require_passed(&fields, last_on_1, 10, 0, "within the bound of target 8");
    fields = example_5(2);
    fields.target = 7;
    fields.minutes[0] = 7;
    fields.minutes[1] = 6;
    require_passed(&fields, all_on_0, 13, 0, "the bound itself");
    fields.minutes[1] = 7;
    require_not_passed(&fields, all_on_0, "one above the bound");
    fields = example_5(1);
    fields.target = 7;
    fields.booked_len = 16;
    fields.booked[1] = 13;
    require_passed(&fields, all_on_0, 13, 1, "a booking at the bound");
    fields.booked[1] = 14;
    require_not_passed(&fields, all_on_0, "a booking above the bound");
    fields.booked[1] = 5;
    require_passed(&fields, all_on_0, 5, 0, "a bench as full by its booking");
    printf("door: a list passes up to the bound of the sheet's target, bookings included\n");
}

static void lists_and_benches(void)
{
    static const uint64_t no_bench[] = { 2, 63, 64, 255, 256, UINT64_C(1) << 32,
                                         UINT64_C(1) << 63, UINT64_MAX };
    struct fields fields = example_5(3);
    fields.allowed[1] = YINQOCHA_BENCH(1);
    uint64_t list[] = { 0, 1, 1 };
    require_passed(&fields, list, 10, 1, "benches that the jobs allow");
    list[1] = 0;
    require_not_passed(&fields, list, "a bench that a job does not allow");
    for (size_t n = 0; n < sizeof no_bench / sizeof *no_bench; n++) {
        for (size_t j = 0; j < 3; j++) {
            uint64_t places[] = { 0, 1, 1 };
            places[j] = no_bench[n];
            require_not_passed(&fields, places, "a place that is no bench");
        }
    }
    fields = example_5(2);
    fields.target = 0;
    fields.minutes[0] = fields.minutes[1] = 0;
    fields.allowed[0] = YINQOCHA_BENCH(1);
    require_passed(&fields, (uint64_t[]){ 1, 0 }, 0, 0, "checks at target 0");
    require_not_passed(&fields, (uint64_t[]){ 0, 0 }, "a check on another bench");
    printf("door: a list passes only with each job on a bench that it allows\n");
}

static void lists_of_other_lengths(void)
{
    static uint64_t many[YINQOCHA_MAX_JOBS + 2];
    const uint64_t list[] = { 1, 0, 0 };
    struct fields fields = example_5(3);
    for (size_t bytes = 0; bytes <= 32; bytes++) {
        uint64_t word = check_list(&fields, many, bytes, 16);
        if (bytes > 16 && bytes <= 24)
            require(word == YINQOCHA_PASSED, "a begun entry counts");
        else
            require_check_fault(word, YINQOCHA_BAD_LIST, 0, "not one place a job");
    }
    require(check_list(&fields, list, 17, 16) == YINQOCHA_PASSED, "missing bytes are 0");
    require(table_entry(&answer, 0) == 10 && table_entry(&answer, 1) == 0, "missing bytes are 0");
    require_check_fault(check_list(&fields, many, sizeof many, 16), YINQOCHA_BAD_LIST, 0,
                        "514 places");
    require_check_fault(check_list(&fields, NULL, 0, 16), YINQOCHA_BAD_LIST, 0, "no list");
    fields = example_5(0);
    require(check_list(&fields, NULL, 0, 16) == YINQOCHA_PASSED, "no list and no job");
    require_check_fault(check_list(&fields, many, 1, 16), YINQOCHA_BAD_LIST, 0, "no job");
    fields = example_5(YINQOCHA_MAX_JOBS);
    fields.target = 5 * YINQOCHA_MAX_JOBS;
    require(check_list(&fields, many, 8 * 512, 16) == YINQOCHA_PASSED, "512 places");
    require(table_entry(&answer, 0) == 2560, "512 places: the largest load");
    require_check_fault(check_list(&fields, many, 8 * 512 + 1, 16), YINQOCHA_BAD_LIST, 0,
                        "a begun 513th place");
    require_check_fault(check_list(&fields, many, 8 * 511, 16), YINQOCHA_BAD_LIST, 0, "511 places");
    printf("door: a list without one place a job is fault 16, a begun entry counts\n");
}

static void sets_that_block(void)
{
    struct fields fields = example_5(3);
    require_set(&fields, BOTH, YINQOCHA_NOT_PASSED, 0, "example 5: light jobs");
    fields.booked_len = 16;
    fields.booked[1] = 3;
    require_set(&fields, BOTH, YINQOCHA_NOT_PASSED, 0, "15 and 3 are 2 * 9");
    fields.booked[1] = 4;
    require_set(&fields, BOTH, YINQOCHA_PASSED, 0, "15 and 4 are more");
    require_set(&fields, YINQOCHA_BENCH(1), YINQOCHA_NOT_PASSED, 0, "jobs with a bench outside");
    fields.target = 8;
    require_set(&fields, BOTH, YINQOCHA_PASSED, 0, "example 4: no placement");
    require_set(&fields, YINQOCHA_BENCH(0), YINQOCHA_PASSED, 0, "example 4: one bench");
    fields.target = 4;
    require_set(&fields, BOTH, YINQOCHA_LONG, 0, "job 0 is too long");
    fields.minutes[0] = 4;
    require_set(&fields, BOTH, YINQOCHA_LONG, 1, "job 1 is too long");
    printf("door: a set passes if it is blocking, and a job above T is long\n");
}

/* Heavy jobs of 8 or less at T = 8: one with one bench, a cycle of two, a tree, one of three. */
static void sets_and_placements(void)
{
    struct fields fields = { .benches = 4, .p = 4, .q = 7, .target = 8 };
    add_job(&fields, 8, YINQOCHA_BENCH(0));
    add_job(&fields, 8, BOTH);
    add_job(&fields, 1, YINQOCHA_BENCH(1));
    require_set(&fields, YINQOCHA_BENCH(1), YINQOCHA_PASSED, 0, "driven to bench 1");
    require_set(&fields, YINQOCHA_BENCH(0), YINQOCHA_NOT_PASSED, 0, "8 on bench 0");
    fields.jobs = 0;
    add_job(&fields, 8, BOTH);
    add_job(&fields, 6, BOTH);
    add_job(&fields, 1, YINQOCHA_BENCH(0));
    require_set(&fields, YINQOCHA_BENCH(0), YINQOCHA_NOT_PASSED, 0, "6 and 1 on bench 0");
    add_job(&fields, 2, YINQOCHA_BENCH(0));
    require_set(&fields, YINQOCHA_BENCH(0), YINQOCHA_PASSED, 0, "6 and 3 on bench 0");
    require_set(&fields, BOTH, YINQOCHA_PASSED, 0, "14 and 3 on two benches");
    require_set(&fields, BOTH | YINQOCHA_BENCH(3), YINQOCHA_NOT_PASSED, 0, "17 on three benches");
    fields.jobs = 0;
    add_job(&fields, 8, BOTH);
    add_job(&fields, 6, YINQOCHA_BENCH(1) | YINQOCHA_BENCH(2));
    const uint64_t ends = YINQOCHA_BENCH(0) | YINQOCHA_BENCH(2);
    add_job(&fields, 4, YINQOCHA_BENCH(0));
    add_job(&fields, 4, YINQOCHA_BENCH(2));
    add_job(&fields, 2, ends);
    require_set(&fields, ends, YINQOCHA_NOT_PASSED, 0, "6 and 10 at the ends of a tree");
    fields.minutes[4] = 3;
    require_set(&fields, ends, YINQOCHA_PASSED, 0, "6 and 11 at the ends of a tree");
    add_job(&fields, 5, YINQOCHA_BENCH(3));
    add_job(&fields, 5, YINQOCHA_BENCH(3));
    require_set(&fields, YINQOCHA_BENCH(0), YINQOCHA_PASSED, 0, "no placement on bench 3");
    printf("door: a set is held against every placement\n");
}

static void set_faults(void)
{
    struct fields fields = example_5(3);
    for (uint64_t target = 4; target <= 9; target++) {
        fields.target = target;
        require_check_fault(check_set(&fields, 0, 8), YINQOCHA_BAD_SET, 0, "an empty set");
        require_check_fault(check_set(&fields, UINT64_MAX, 8), YINQOCHA_BAD_SET, 2, "64 benches");
        for (uint32_t b = 2; b < 64; b++) {
            const uint64_t more = YINQOCHA_BENCH(b) | YINQOCHA_BENCH(63);
            require_check_fault(check_set(&fields, BOTH | more, 8), YINQOCHA_BAD_SET, b,
                                "the lowest bench that the head lacks");
        }
    }
    fields.benches = YINQOCHA_MAX_BENCHES;
    require_set(&fields, YINQOCHA_BENCH(63), YINQOCHA_NOT_PASSED, 0, "the last bench");
    require_set(&fields, UINT64_MAX, YINQOCHA_NOT_PASSED, 0, "all 64 benches");
    printf("door: an empty set and a bench that the head lacks are fault 17\n");
}

static void check_faults(void)
{
    static const uint64_t list[] = { 0, 0, 1, 0 };
    struct fields fields = example_5(3);
    for (size_t bytes = 0; bytes < 16; bytes++)
        for (size_t places_len = 16; places_len <= 32; places_len += 8)
            require_check_fault(check_list(&fields, list, places_len, bytes), YINQOCHA_NO_ROOM, 0,
                                "a list's answer table of fewer than 16 bytes");
    for (size_t bytes = 0; bytes < 8; bytes++) {
        require_check_fault(check_set(&fields, BOTH, bytes), YINQOCHA_NO_ROOM, 0, "no whole entry");
        require_check_fault(check_set(&fields, 0, bytes), YINQOCHA_NO_ROOM, 0, "before fault 17");
    }
    memset(&answer, FILL, sizeof answer);
    uint8_t *const table = table_start(&answer);
    for (size_t cut = 0; cut < sizeof example_12; cut++) {
        uint64_t plan = yinqocha_plan(example_12, cut, NULL, 0, NULL, 0, NULL, 0);
        uint64_t word = yinqocha_check_plan(example_12, cut, NULL, 0, table, 16);
        require(word == plan, "a list of a sheet cut off");
        require_check_fault(word, YINQOCHA_SHEET_CUT, YINQOCHA_VALUE(plan), "a sheet cut off");
        require(yinqocha_check_set(example_12, cut, 0, table, 8) == plan, "a set of it");
        require_entries(&answer, 0, "a set of a sheet cut off");
    }
    static const uint8_t zeros[YINQOCHA_MAX_SHEET_BYTES + 1];
    require_check_fault(yinqocha_check_plan(zeros, sizeof zeros, list, 24, table, 16),
                        YINQOCHA_SHEET_TOO_LONG, 0, "a list, 65,537 bytes");
    require_check_fault(yinqocha_check_set(zeros, sizeof zeros, BOTH, table, 8),
                        YINQOCHA_SHEET_TOO_LONG, 0, "a set, 65,537 bytes");
    uint64_t word = yinqocha_check_plan(NULL, 0, NULL, 0, NULL, 0);
    require_check_fault(word, YINQOCHA_SHEET_CUT, 0, "a list of no sheet");
    word = yinqocha_check_set(NULL, 0, BOTH, NULL, 0);
    require_check_fault(word, YINQOCHA_SHEET_CUT, 0, "a set of no sheet");
    word = yinqocha_check_plan(example_12, sizeof example_12, list, 24, NULL, 0);
    require_check_fault(word, YINQOCHA_NO_ROOM, 0, "NULL for a list's answer");
    word = yinqocha_check_set(example_12, sizeof example_12, BOTH, NULL, 0);
    require_check_fault(word, YINQOCHA_NO_ROOM, 0, "NULL for a set's answer");
    printf("door: checking has the sheet's faults, then 13, then 16 or 17; the table is kept\n");
}

/* Up to sixteen jobs on four benches, others in each turn. */
static struct fields mixed_jobs(uint64_t turn)
{
    struct fields fields = four_benches(turn % 7, 5, turn % 5, 4);
    for (size_t j = 0; j < 12; j++)
        add_job(&fields, 1 + j * turn % 9, YINQOCHA_BENCH(j % 4) | YINQOCHA_BENCH(j % 3));
    return fields;
}

/* With many targets: our own plan and our own set pass. */
static void own_answers_pass(void)
{
    size_t plans = 0, sets = 0;
    for (uint64_t turn = 1; turn <= 80; turn++) {
        struct fields fields = mixed_jobs(turn);
        for (fields.target = 4; fields.target < 24; fields.target++) {
            uint64_t word = plan_fields(&fields, 8 * fields.jobs, 32, ANSWER_BYTES);
            uint64_t first = table_entry(&answer, 0), fullest = table_entry(&answer, 2);
            if (word == YINQOCHA_PLAN) {
                struct table own = places;
                uint64_t list[MOST_JOBS];
                for (size_t j = 0; j < fields.jobs; j++)
                    list[j] = table_entry(&own, j);
                require_passed(&fields, list, first, fullest, "our own plan");
                plans++;
            } else if (word == YINQOCHA_NONE) {
                require_set(&fields, first, YINQOCHA_PASSED, 0, "our own set");
                sets++;
            } else {
                require_set(&fields, BOTH, YINQOCHA_LONG, first, "our own long job");
            }
        }
    }
    require(plans >= 100 && sets >= 100, "enough plans and sets");
    printf("door: our own plans and our own sets pass\n");
}

static void checks_of_papers(void)
{
    lists_and_the_bound();
    lists_and_benches();
    lists_of_other_lengths();
    sets_that_block();
    sets_and_placements();
    set_faults();
    check_faults();
    own_answers_pass();
}

#endif /* CHECKS_H */
