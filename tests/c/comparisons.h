/*
 * The C door's checks of comparing: plans that are the same, plans with one job elsewhere, plans
 * with equal loads, and lists that are no assignment.
 */

#ifndef COMPARISONS_H
#define COMPARISONS_H

#include "door.h"

/* Two lists of one place a job, on the sheet of the fields. */
static uint64_t compare_plans(const struct fields *fields, const uint64_t *first,
                              const uint64_t *second)
{
    size_t length = sheet_of(fields), bytes = 8 * fields->jobs;
    uint64_t word = yinqocha_compare(out, length, first, bytes, second, bytes);
    require_untouched_after(length, "the compared sheet's guards");
    return word;
}

/* The same of two plans in both orders. */
static void require_compared(const struct fields *fields, const uint64_t *one, const uint64_t *two,
                             uint64_t word, const char *what)
{
    require(compare_plans(fields, one, two) == word, what);
    require(compare_plans(fields, two, one) == word, what);
}

static void require_list_fault(uint64_t word, uint32_t place, const char *what)
{
    require(YINQOCHA_FAULT(word) == YINQOCHA_NO_ASSIGNMENT, what);
    require(YINQOCHA_VALUE(word) == place, what);
}

/* One list is no assignment and the other is: both orders, and the one with itself. */
static void require_no_assignment(const struct fields *fields, const uint64_t *bad,
                                  const uint64_t *good, const char *what)
{
    require_list_fault(compare_plans(fields, bad, good), 0, what);
    require_list_fault(compare_plans(fields, good, bad), 1, what);
    require_list_fault(compare_plans(fields, bad, bad), 0, what);
}

/* Example 5: its plan, and plans in which one job or two are elsewhere. */
static void compared_plans(void)
{
    struct fields fields = example_5(3);
    require(plan_fields(&fields, 24, 16, ANSWER_BYTES) == YINQOCHA_PLAN, "example 5: a plan");
    const uint64_t planned[] = { table_entry(&places, 0), table_entry(&places, 1),
                                 table_entry(&places, 2) };
    static const uint64_t all_on_0[] = { 0, 0, 0 }, all_on_1[] = { 1, 1, 1 };
    static const uint64_t first_on_1[] = { 1, 0, 0 }, last_on_1[] = { 0, 0, 1 };
    require_compared(&fields, planned, all_on_0, YINQOCHA_SAME, "the plan and its places");
    require_compared(&fields, planned, planned, YINQOCHA_SAME, "both lists in one buffer");
    require_compared(&fields, planned, last_on_1, YINQOCHA_DIFFERENT, "the last job elsewhere");
    require_compared(&fields, planned, first_on_1, YINQOCHA_DIFFERENT, "the first job elsewhere");
    require_compared(&fields, planned, all_on_1, YINQOCHA_DIFFERENT, "every job elsewhere");
    require_compared(&fields, first_on_1, last_on_1, YINQOCHA_DIFFERENT, "equal loads");
    fields.booked_len = 8;
    fields.booked[0] = 10;
    require_compared(&fields, first_on_1, first_on_1, YINQOCHA_SAME, "booked: the same");
    require_compared(&fields, first_on_1, last_on_1, YINQOCHA_DIFFERENT, "booked: equal loads");
    printf("door: plans are the same when every job is on the same bench\n");
}

/* 512 jobs, of 0 to 4 minutes, the last of 0; each allows two benches, whose numbers differ in one
 * bit, so that every bit counts. */
static void compared_full_sheets(void)
{
    static uint64_t list[YINQOCHA_MAX_JOBS], other[YINQOCHA_MAX_JOBS];
    struct fields fields = example_5(YINQOCHA_MAX_JOBS);
    fields.benches = YINQOCHA_MAX_BENCHES;
    for (size_t j = 0; j < YINQOCHA_MAX_JOBS; j++) {
        list[j] = other[j] = j % YINQOCHA_MAX_BENCHES;
        fields.minutes[j] = (j + 4) % 5;
        fields.allowed[j] = YINQOCHA_BENCH(list[j]) | YINQOCHA_BENCH(list[j] ^ 1u << j % 6);
    }
    require_compared(&fields, list, other, YINQOCHA_SAME, "512 jobs: the same");
    for (size_t j = 0; j < YINQOCHA_MAX_JOBS; j++) {
        other[j] = list[j] ^ 1u << j % 6;
        require_compared(&fields, list, other, YINQOCHA_DIFFERENT, "512 jobs: one elsewhere");
        other[j] = list[j] ^ 63;
        require_no_assignment(&fields, other, list, "512 jobs: one on a bench not allowed");
        other[j] = list[j];
    }
    printf("door: of 512 jobs each is compared, job 511 and those of 0 minutes too\n");
}

/* Example 5 with a third bench, which no job allows. */
static void benches_not_allowed(void)
{
    static const uint64_t good[] = { 0, 0, 1 }, elsewhere[] = { 1, 0, 1 };
    static const uint64_t on_2[] = { 0, 0, 2 }, others_on_2[] = { 2, 2, 0 };
    static const uint64_t no_bench[] = { 0, 64, 1 }, too_wide[] = { 0, UINT64_C(1) << 32, 1 };
    struct fields fields = example_5(3);
    fields.benches = 3;
    require_no_assignment(&fields, on_2, good, "a bench not allowed, else the same");
    require_no_assignment(&fields, on_2, elsewhere, "a bench not allowed, a job elsewhere");
    require_no_assignment(&fields, no_bench, good, "no bench");
    require_no_assignment(&fields, too_wide, good, "a bench beyond 32 bits");
    require_list_fault(compare_plans(&fields, on_2, others_on_2), 0, "the first is judged first");
    require_list_fault(compare_plans(&fields, others_on_2, on_2), 0, "the first is judged first");
    printf("door: a bench that the job does not allow is fault 13, and no difference\n");
}

static uint64_t compare_lists(const uint64_t *first, size_t first_len, const uint64_t *second,
                              size_t second_len)
{
    return yinqocha_compare(example_12, sizeof example_12, first, first_len, second, second_len);
}

static void lengths_of_lists(void)
{
    static const uint64_t list[] = { 0, 0, 1, 0 }, other[] = { 0, 0, 0, 0 };
    static const uint64_t no_bench[] = { 0, 2, 0 };
    static const uint64_t begun[] = { 0, 0, UINT64_C(0xA5A5A5A5A5A5A501) };
    static uint64_t many[YINQOCHA_MAX_JOBS + 2];
    for (size_t length = 17; length <= 24; length++) {
        require(compare_lists(list, length, list, 24) == YINQOCHA_SAME, "a begun entry: the same");
        require(compare_lists(list, length, other, 24) == YINQOCHA_DIFFERENT,
                "a begun entry: the last job elsewhere");
        require_list_fault(compare_lists(list, length + 8, list, 24), 0, "a begun entry too many");
    }
    require(compare_lists(begun, 17, list, 24) == YINQOCHA_SAME, "bytes behind a begun entry");
    require_list_fault(compare_lists(list, 16, list, 24), 0, "first list: too short");
    require_list_fault(compare_lists(list, 24, list, 16), 1, "second list: too short");
    require_list_fault(compare_lists(list, 24, list, 25), 1, "second list: too long");
    require_list_fault(compare_lists(list, 24, many, sizeof many), 1, "second list: 514 places");
    require_list_fault(compare_lists(no_bench, 24, list, 16), 0, "before the second list's length");
    require_list_fault(compare_lists(NULL, 0, NULL, 0), 0, "no lists");
    printf("door: a list without one place a job is fault 13, and a begun entry counts\n");
}

static void require_cut_sheet(const uint64_t *first, size_t first_len, const uint64_t *second,
                              size_t second_len, const char *what)
{
    uint64_t word = yinqocha_compare(NULL, 0, first, first_len, second, second_len);
    require(YINQOCHA_FAULT(word) == YINQOCHA_SHEET_CUT, what);
    require(YINQOCHA_VALUE(word) == 0, what);
}

static void compared_without_a_sheet(void)
{
    static const uint64_t list[] = { 0, 0 };
    require_cut_sheet(NULL, 0, NULL, 0, "no sheet and no lists");
    require_cut_sheet(list, 16, list, 16, "no sheet: the same list");
    require_cut_sheet(list, 16, list, 8, "no sheet: lists of two lengths");
    printf("door: comparing has the sheet's faults first\n");
}

static void comparisons(void)
{
    compared_plans();
    compared_full_sheets();
    benches_not_allowed();
    lengths_of_lists();
    compared_without_a_sheet();
}

#endif /* COMPARISONS_H */
