/*
 * The C door, from C. Writing: example 12's bytes, each fault of the writer, empty buffers, and
 * outputs that fit exactly or lack one byte. Planning: sheets that were written, with each of the
 * three answers, and tables that fit exactly or lack one byte. comparisons.h has the checks of
 * comparing two plans, bookings.h those of booked benches, answers.h those of the answer table,
 * check_only.h those of jobs of 0 minutes, best.h those of the best target, checks.h those of lists
 * and sets from elsewhere, pages.h those of pages of sets, reading.h those of reading, door.h what
 * all checks use. From the repository root, after `rt lib` in crates/yinqocha:
 *
 *     gcc -std=c11 -Wall -Wextra -Werror -Iinclude tests/c/door.c \
 *         crates/yinqocha/out/libyinqocha.a -o target/door
 */

#include "answers.h"
#include "best.h"
#include "bookings.h"
#include "check_only.h"
#include "checks.h"
#include "comparisons.h"
#include "door.h"
#include "pages.h"
#include "reading.h"
#include "yinqocha.h"

#include <stdio.h>
#include <stdlib.h>
#include <string.h>

static void example_sheet(void)
{
    struct fields fields = example_5(3);
    uint64_t word = write_fields(&fields, sizeof example_12 + 5);
    require(YINQOCHA_FAULT(word) == YINQOCHA_OK, "example 12: no fault");
    require(YINQOCHA_VALUE(word) == sizeof example_12, "example 12: length");
    require(YINQOCHA_VALUE(word) == YINQOCHA_SHEET_BYTES(0, 3), "example 12: length in the header");
    require(memcmp(out, example_12, sizeof example_12) == 0, "example 12: bytes");
    require_untouched_after(sizeof example_12, "example 12: later bytes");
    printf("door: example 12's sheet has its bytes, later bytes are untouched\n");
}

static void faults(void)
{
    size_t room = YINQOCHA_MAX_WRITTEN_BYTES;
    struct fields fields = example_5(3);
    fields.benches = 0;
    require_fault(&fields, room, YINQOCHA_BAD_BENCHES, 0, "0 benches");
    fields.benches = YINQOCHA_MAX_BENCHES + 1;
    require_fault(&fields, room, YINQOCHA_BAD_BENCHES, 0, "65 benches");
    fields = example_5(3);
    fields.target = YINQOCHA_MAX_TARGET + 1;
    require_fault(&fields, room, YINQOCHA_BAD_BENCHES, 0, "target too wide");
    fields = example_5(3);
    fields.p = 7;
    require_fault(&fields, room, YINQOCHA_BAD_SHARE, 0, "share 7/7");
    fields.p = YINQOCHA_MAX_SHARE + 1 + 4;
    require_fault(&fields, room, YINQOCHA_BAD_SHARE, 0, "p too wide");
    fields = example_5(YINQOCHA_MAX_JOBS + 1);
    require_fault(&fields, room, YINQOCHA_TOO_MANY_JOBS, YINQOCHA_MAX_JOBS, "513 jobs");
    fields = example_5(3);
    fields.minutes[1] = YINQOCHA_MAX_MINUTES + 1;
    require_fault(&fields, room, YINQOCHA_BAD_MINUTES, 1, "minutes of 2^20");
    fields.minutes[1] = UINT64_MAX;
    require_fault(&fields, room, YINQOCHA_BAD_MINUTES, 1, "minutes too wide");
    fields = example_5(3);
    fields.allowed[2] = 0;
    require_fault(&fields, room, YINQOCHA_BAD_ALLOWED, 2, "no bench");
    fields.allowed[2] = YINQOCHA_BENCH(2);
    require_fault(&fields, room, YINQOCHA_BAD_ALLOWED, 2, "a bench the head lacks");
    fields = example_5(2);
    fields.benches = 3;
    fields.minutes[0] = 7;
    fields.allowed[1] |= YINQOCHA_BENCH(2);
    require_fault(&fields, room, YINQOCHA_LONG_JOB_WITH_CHOICE, 1, "7 * 5 > 4 * 7");
    fields.minutes[1] = 4;
    require(write_fields(&fields, room) == YINQOCHA_SHEET_BYTES(0, 2), "7 * 4 = 4 * 7");
    printf("door: faults 7 to 12 have their numbers and places, the output is untouched\n");
}

static void require_exact_room(const struct fields *fields, size_t length)
{
    require(write_fields(fields, length) == length, "an output that fits exactly");
    require_untouched_after(length, "behind an output that fits exactly");
    require_fault(fields, length - 1, YINQOCHA_NO_ROOM, 0, "an output one byte too short");
}

static void room(void)
{
    for (size_t jobs = 0; jobs <= YINQOCHA_MAX_JOBS; jobs++) {
        struct fields fields = example_5(jobs);
        require_exact_room(&fields, YINQOCHA_SHEET_BYTES(0, jobs));
        fields.benches = YINQOCHA_MAX_BENCHES;
        for (size_t b = 0; b < YINQOCHA_MAX_BENCHES; b++)
            fields.booked[b] = 1;
        fields.booked_len = 8 * YINQOCHA_MAX_BENCHES;
        require_exact_room(&fields, YINQOCHA_SHEET_BYTES(YINQOCHA_MAX_BENCHES, jobs));
    }
    require(YINQOCHA_MAX_WRITTEN_BYTES == 7629, "the most bytes that are written");
    printf("door: an output fits exactly, and one byte less is fault 13\n");
}

static void empty_buffers(void)
{
    static const uint8_t no_jobs[] = { 0x11, 0x00, 0x07, 0x04, 0x10, 0x38, 0x00,
                                       0x00, 0x01, 0x20, 0x13, 0x00, 0x00 };
    memset(buffer, FILL, sizeof buffer);
    uint64_t word = yinqocha_write(2, 4, 7, 9, NULL, 0, NULL, 0, NULL, 0, out, sizeof no_jobs);
    require(word == sizeof no_jobs, "no tables: length");
    require(memcmp(out, no_jobs, sizeof no_jobs) == 0, "no tables: bytes");
    require_untouched_after(sizeof no_jobs, "no tables: later bytes");
    word = yinqocha_write(2, 4, 7, 9, NULL, 0, NULL, 0, NULL, 0, NULL, 0);
    require(YINQOCHA_FAULT(word) == YINQOCHA_NO_ROOM, "no output");
    require(YINQOCHA_VALUE(word) == 0, "no output: place");
    const uint8_t minutes[] = { 5 };
    word = yinqocha_write(2, 4, 7, 9, NULL, 0, minutes, sizeof minutes, NULL, 0, NULL, 0);
    require(YINQOCHA_FAULT(word) == YINQOCHA_BAD_ALLOWED, "minutes without benches");
    require(YINQOCHA_VALUE(word) == 0, "minutes without benches: place");
    const uint8_t booked[] = { 3 };
    word = yinqocha_write(2, 4, 7, 9, booked, sizeof booked, NULL, 0, NULL, 0, out, 20);
    require(word == YINQOCHA_SHEET_BYTES(1, 0), "bookings without jobs");
    printf("door: NULL with length 0 is an empty buffer\n");
}

static void plans(void)
{
    /* Example 8: four jobs of 2 on both benches, T = 4; job 0 moves to bench 1. */
    struct fields fields = example_5(4);
    fields.target = 4;
    for (size_t j = 0; j < 4; j++)
        fields.minutes[j] = 2;
    const uint64_t benches[] = { 1, 0, 0, 0 };
    require(plan_fields(&fields, 32, 16, ANSWER_BYTES) == YINQOCHA_PLAN, "example 8: a plan");
    for (size_t j = 0; j < 4; j++)
        require(table_entry(&places, j) == benches[j], "example 8: places");
    require(table_entry(&loads, 0) == 6 && table_entry(&loads, 1) == 2, "example 8: loads");
    require_answer(6, 1, 0, "example 8: largest load, moves, fullest bench");
    require_entries(&places, 4, "example 8: behind the places");
    require_entries(&loads, 2, "example 8: behind the loads");
    require(plan_fields(&fields, 47, 31, 4096) == YINQOCHA_PLAN, "longer tables: a plan");
    require_entries(&places, 4, "longer tables: later places");
    require_entries(&loads, 2, "longer tables: later loads");
    require_answer(6, 1, 0, "longer tables: the answer");
    printf("door: a plan has its places, loads and numbers, later bytes are untouched\n");
}

static void long_and_none(void)
{
    struct fields fields = example_5(3);
    fields.target = 8;
    fields.minutes[1] = 9;
    require(plan_fields(&fields, 24, 16, ANSWER_BYTES) == YINQOCHA_LONG, "long");
    require_answer(1, 0, 0, "long: job 1, 0 and 0");
    require_entries(&places, 0, "long: places");
    require_entries(&loads, 0, "long: loads");
    fields.minutes[1] = 5;
    require(plan_fields(&fields, 24, 16, ANSWER_BYTES) == YINQOCHA_NONE, "example 4: none");
    uint64_t set = table_entry(&answer, 0);
    require(set == (YINQOCHA_BENCH(0) | YINQOCHA_BENCH(1)), "example 4: benches 0 and 1");
    require(YINQOCHA_HAS_BENCH(set, 1) && !YINQOCHA_HAS_BENCH(set, 2), "example 4: bench by bench");
    require_answer(set, 0, 0, "example 4: the set, 0 moves, and 0");
    require_entries(&places, 0, "example 4: places");
    require_entries(&loads, 0, "example 4: loads");
    printf("door: long and none have their three numbers, places and loads are untouched\n");
}

static void plan_faults(void)
{
    struct fields fields = example_5(3);
    require(plan_fields(&fields, 24, 16, 24) == YINQOCHA_PLAN, "tables that fit exactly");
    require_plan_fault(plan_fields(&fields, 23, 16, 24), YINQOCHA_NO_ROOM, 0, "places too short");
    require_plan_fault(plan_fields(&fields, 24, 15, 24), YINQOCHA_NO_ROOM, 0, "loads too short");
    require_plan_fault(plan_fields(&fields, 24, 16, 23), YINQOCHA_NO_ROOM, 0, "answer too short");
    require_plan_fault(plan_fields(&fields, 24, 16, 16), YINQOCHA_NO_ROOM, 0, "two entries");
    fields.target = 4;
    require_plan_fault(plan_fields(&fields, 24, 16, 16), YINQOCHA_NO_ROOM, 0, "before long");
    uint64_t word = yinqocha_plan(example_12, sizeof example_12 - 1, table_start(&places), 0,
                                  table_start(&loads), 0, table_start(&answer), 0);
    require_plan_fault(word, YINQOCHA_SHEET_CUT, sizeof example_12 - 3, "a sheet cut off");
    word = yinqocha_plan(NULL, 0, NULL, 0, NULL, 0, NULL, 0);
    require_plan_fault(word, YINQOCHA_SHEET_CUT, 0, "no sheet");
    /* Frames of version 0 without a body, and one begun. */
    static const uint8_t zeros[YINQOCHA_MAX_SHEET_BYTES + 1];
    word = yinqocha_plan(zeros, YINQOCHA_MAX_SHEET_BYTES, NULL, 0, NULL, 0, NULL, 0);
    require_plan_fault(word, YINQOCHA_SHEET_CUT, YINQOCHA_MAX_SHEET_BYTES - 1, "65,536 bytes");
    word = yinqocha_plan(zeros, sizeof zeros, NULL, 0, NULL, 0, NULL, 0);
    require_plan_fault(word, YINQOCHA_SHEET_TOO_LONG, 0, "65,537 bytes");
    word = yinqocha_plan(example_12, sizeof example_12, NULL, 0, NULL, 0, NULL, 0);
    require_plan_fault(word, YINQOCHA_NO_ROOM, 0, "no tables");
    printf("door: planning has the sheet's faults, then fault 13; the tables are untouched\n");
}

int main(void)
{
    example_sheet();
    faults();
    room();
    empty_buffers();
    plans();
    long_and_none();
    plan_faults();
    comparisons();
    bookings();
    answer_tables();
    check_only_jobs();
    best_targets();
    checks_of_papers();
    pages_of_sets();
    readings();
    printf("door: all checks hold\n");
    return EXIT_SUCCESS;
}
