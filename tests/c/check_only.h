/*
 * The C door's checks of check-only jobs, those of 0 minutes, and of tables of minutes that end
 * before or inside an entry.
 */

#ifndef CHECK_ONLY_H
#define CHECK_ONLY_H

#include "comparisons.h"
#include "door.h"

static void require_cut(const struct fields *fields, size_t minutes_len, size_t allowed_len,
                        uint32_t number, uint32_t place, const char *what)
{
    for (size_t room = 0; room <= YINQOCHA_MAX_WRITTEN_BYTES; room += YINQOCHA_MAX_WRITTEN_BYTES) {
        uint64_t word = write_tables(fields, minutes_len, allowed_len, room);
        require(YINQOCHA_FAULT(word) == number, what);
        require(YINQOCHA_VALUE(word) == place, what);
        require_untouched_after(0, what);
    }
}

/* Example 12's sheet with 0 minutes for job 1: written, planned and compared. */
static void written_checks(void)
{
    static const uint64_t on_0[] = { 0, 0, 0 }, check_on_1[] = { 0, 1, 0 };
    static const uint64_t check_on_2[] = { 0, 2, 0 }, last_on_1[] = { 0, 0, 1 };
    uint8_t sheet[sizeof example_12];
    memcpy(sheet, example_12, sizeof sheet);
    memcpy(sheet + 24 + 3, (const uint8_t[]){ 0x00, 0x00, 0x0C }, 3);
    struct fields fields = example_5(3);
    fields.minutes[1] = 0;
    require(write_fields(&fields, sizeof sheet) == sizeof sheet, "a check: length");
    require(memcmp(out, sheet, sizeof sheet) == 0, "a check: bytes");
    require_untouched_after(sizeof sheet, "a check: later bytes");
    require(plan_fields(&fields, 24, 16, ANSWER_BYTES) == YINQOCHA_PLAN, "a check: a plan");
    for (size_t j = 0; j < 3; j++)
        require(table_entry(&places, j) == 0, "a check: places");
    require(table_entry(&loads, 0) == 10 && table_entry(&loads, 1) == 0, "a check: loads");
    require_answer(10, 0, 0, "a check: largest load, moves, fullest bench");
    require_entries(&places, 3, "a check: behind the places");
    require_compared(&fields, on_0, on_0, YINQOCHA_SAME, "a check on the same bench");
    require_compared(&fields, on_0, check_on_1, YINQOCHA_DIFFERENT, "a check elsewhere");
    require_compared(&fields, on_0, last_on_1, YINQOCHA_DIFFERENT, "a job of 5 elsewhere");
    require_no_assignment(&fields, check_on_2, on_0, "a check on a bench that is not there");
    uint64_t word = yinqocha_compare(sheet, sizeof sheet, on_0, 24, on_0, 8);
    require_list_fault(word, 1, "a check without a place");
    /* 0 minutes on three benches, beside a longest job of 5 and alone. */
    fields.benches = 3;
    fields.allowed[1] |= YINQOCHA_BENCH(2);
    require(write_fields(&fields, sizeof sheet) == sizeof sheet, "a check on three benches");
    fields.minutes[0] = fields.minutes[2] = 0;
    require(write_fields(&fields, sizeof sheet) == sizeof sheet, "checks alone");
    fields.allowed[1] = 0;
    require_fault(&fields, sizeof sheet, YINQOCHA_BAD_ALLOWED, 1, "a check that allows no bench");
    printf("door: a job of 0 minutes is written, read, and has its place, which is compared\n");
}

/* Every length of the table of minutes, of jobs of 5 minutes and of jobs of 0. The first job
 * without minutes is refused: a begun entry has them only if a byte of it is above 0. */
static void missing_minutes(void)
{
    for (uint64_t minutes = 0; minutes <= 5; minutes += 5) {
        struct fields fields = example_5(4);
        for (size_t j = 0; j < 4; j++)
            fields.minutes[j] = minutes;
        for (size_t length = 0; length <= 32; length++) {
            size_t with_minutes = minutes == 0 ? length / 8 : (length + 7) / 8;
            if (with_minutes < 4)
                require_cut(&fields, length, 32, YINQOCHA_BAD_MINUTES, (uint32_t)with_minutes,
                            "fewer minutes than benches");
            else
                require(write_tables(&fields, length, 32, YINQOCHA_SHEET_BYTES(0, 4)) ==
                            YINQOCHA_SHEET_BYTES(0, 4), "minutes for each job");
        }
    }
    uint64_t word = yinqocha_write(2, 4, 7, 9, NULL, 0, NULL, 0,
                                   (const uint64_t[]){ YINQOCHA_BENCH(0) }, 8, NULL, 0);
    require(YINQOCHA_FAULT(word) == YINQOCHA_BAD_MINUTES, "benches without minutes");
    require(YINQOCHA_VALUE(word) == 0, "benches without minutes: place");
    printf("door: a job without minutes is fault 10 and no job of 0 minutes\n");
}

/* The last entry of minutes begun, with each number of bytes, where the other table ends before the
 * job, inside its entry and behind it. */
static void begun_minutes(void)
{
    struct fields fields = example_5(2);
    for (size_t length = 9; length < 16; length++) {
        fields.minutes[1] = 0;
        for (size_t allowed = 8; allowed <= 16; allowed++)
            require_cut(&fields, length, allowed, YINQOCHA_BAD_MINUTES, 1, "begun with 0");
        /* The last byte that is there is 1, the ones behind it are not read. */
        fields.minutes[1] = UINT64_C(0x101) << (8 * (length - 9));
        if (length <= 11) {
            require(write_tables(&fields, length, 16, YINQOCHA_SHEET_BYTES(0, 2)) ==
                        YINQOCHA_SHEET_BYTES(0, 2), "begun with a byte above 0");
            require_cut(&fields, length, 8, YINQOCHA_BAD_ALLOWED, 1, "begun, and no bench");
        } else
            require_cut(&fields, length, 16, YINQOCHA_BAD_MINUTES, 1, "begun and too wide");
    }
    fields = example_5(YINQOCHA_MAX_JOBS + 1);
    fields.minutes[511] = fields.minutes[512] = 0;
    require_cut(&fields, 8 * 511, 8 * 512, YINQOCHA_BAD_MINUTES, 511, "job 511 without minutes");
    require_cut(&fields, 8 * 511 + 7, 8 * 512, YINQOCHA_BAD_MINUTES, 511, "job 511 begun");
    require_cut(&fields, 8 * 511, 8 * 513, YINQOCHA_BAD_MINUTES, 511, "before the 513th job");
    for (size_t length = 8 * 512; length <= 8 * 513; length++)
        require_cut(&fields, length, 8 * 513, YINQOCHA_TOO_MANY_JOBS, 512, "the 513th job");
    size_t full = YINQOCHA_SHEET_BYTES(0, 512);
    require(write_tables(&fields, 8 * 512, 8 * 512, full) == full, "512 jobs, the last of 0");
    printf("door: a begun entry has minutes only with a byte above 0\n");
}

/* Checks alone, a job above 0 and a booking, with T = 0. */
static void no_minutes_to_give(void)
{
    struct fields fields = example_5(3);
    fields.target = 0;
    for (size_t j = 0; j < 3; j++)
        fields.minutes[j] = 0;
    fields.allowed[1] = YINQOCHA_BENCH(1);
    require(plan_fields(&fields, 24, 16, ANSWER_BYTES) == YINQOCHA_PLAN, "T = 0: a plan");
    require(table_entry(&places, 0) == 0 && table_entry(&places, 1) == 1 &&
                table_entry(&places, 2) == 0, "T = 0: places");
    require(table_entry(&loads, 0) == 0 && table_entry(&loads, 1) == 0, "T = 0: loads");
    require_answer(0, 0, 0, "T = 0: largest load, moves, fullest bench");
    require_entries(&places, 3, "T = 0: behind the places");
    fields.booked_len = 8;
    fields.booked[0] = 1;
    require(plan_fields(&fields, 24, 16, ANSWER_BYTES) == YINQOCHA_NONE, "T = 0, booked: none");
    require_answer(YINQOCHA_BENCH(0), 2, 0, "T = 0, booked: two checks leave bench 0");
    fields.minutes[1] = 1;
    require(plan_fields(&fields, 24, 16, ANSWER_BYTES) == YINQOCHA_LONG, "T = 0, 1 minute: long");
    require_answer(1, 0, 0, "T = 0, 1 minute: job 1");
    require_entries(&places, 0, "T = 0, 1 minute: places");
    fields = example_5(YINQOCHA_MAX_JOBS);
    fields.benches = YINQOCHA_MAX_BENCHES;
    fields.target = 0;
    for (size_t j = 0; j < YINQOCHA_MAX_JOBS; j++) {
        fields.minutes[j] = 0;
        fields.allowed[j] = UINT64_MAX >> j % YINQOCHA_MAX_BENCHES;
    }
    require(plan_fields(&fields, 8 * 512, 8 * 64, ANSWER_BYTES) == YINQOCHA_PLAN, "512 checks");
    for (size_t j = 0; j < YINQOCHA_MAX_JOBS; j++)
        require(table_entry(&places, j) == j % YINQOCHA_MAX_BENCHES, "512 checks: places");
    require_answer(0, 0, 0, "512 checks: the answer");
    printf("door: with T = 0 checks alone have a plan, and a job above 0 is long\n");
}

/* Example 8 with a check before its four jobs: the check moves, then job 0 of the example. */
static void moved_check(void)
{
    struct fields fields = example_5(5);
    fields.target = 4;
    for (size_t j = 0; j < 5; j++)
        fields.minutes[j] = j == 0 ? 0 : 2;
    require(plan_fields(&fields, 40, 16, ANSWER_BYTES) == YINQOCHA_PLAN, "a check moves: a plan");
    for (size_t j = 0; j < 5; j++)
        require(table_entry(&places, j) == (j < 2), "a check moves: places");
    require(table_entry(&loads, 0) == 6 && table_entry(&loads, 1) == 2, "a check moves: loads");
    require_answer(6, 2, 0, "a check moves: largest load, moves, fullest bench");
    printf("door: a job of 0 minutes is moved as any light job is\n");
}

static void check_only_jobs(void)
{
    written_checks();
    missing_minutes();
    begun_minutes();
    no_minutes_to_give();
    moved_check();
}

#endif /* CHECK_ONLY_H */
