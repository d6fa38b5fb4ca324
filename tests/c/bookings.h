/*
 * The C door's checks of booked benches: sheets with bookings written, refused, planned and read.
 */

#ifndef BOOKINGS_H
#define BOOKINGS_H

#include "door.h"

/* Two benches booked: their frames stand between the head and the jobs, by rising bench. */
static void written_bookings(void)
{
    static const uint8_t booked[] = { 0x14, 0x00, 0x04, 0x00, 0x00, 0x00, 0xC0,
                                      0x14, 0x00, 0x04, 0x07, 0xFF, 0xFF, 0xC0 };
    size_t length = YINQOCHA_SHEET_BYTES(2, 3);
    struct fields fields = example_5(3);
    fields.booked[0] = 3;
    fields.booked[1] = YINQOCHA_MAX_MINUTES;
    /* The second entry's upper bytes may lack, for they are 0, and entries past the 64th are 0. */
    for (fields.booked_len = 11; fields.booked_len <= 8 * MOST_BOOKED; fields.booked_len++) {
        require(write_fields(&fields, length) == length, "bookings: length");
        require(memcmp(out, example_12, 10) == 0, "bookings: head");
        require(memcmp(out + 10, booked, sizeof booked) == 0, "bookings: bytes");
        require(memcmp(out + 24, example_12 + 10, length - 24) == 0, "bookings: jobs and end");
        require_untouched_after(length, "bookings: later bytes");
    }
    fields.booked_len = 9;
    require(write_fields(&fields, length) == length, "a begun entry counts");
    require(out[20] == 0x04 && out[21] == 0x00 && out[22] == 0x3F, "bytes that it lacks are 0");
    fields.booked_len = 8;
    require(write_fields(&fields, length) == length - 7, "an entry that is not there is 0");
    printf("door: bookings above 0 stand by rising bench, whatever the table's length\n");
}

static void booking_faults(void)
{
    size_t room = YINQOCHA_MAX_WRITTEN_BYTES;
    struct fields fields = example_5(3);
    fields.booked_len = sizeof fields.booked;
    fields.booked[1] = YINQOCHA_MAX_MINUTES + 1;
    require_fault(&fields, room, YINQOCHA_BAD_BOOKING, 1, "booked minutes too wide");
    fields.booked[YINQOCHA_MAX_BENCHES + 1] = 1;
    require_fault(&fields, room, YINQOCHA_BAD_BOOKING, 1, "the lowest bench first");
    fields.booked[1] = 0;
    require_fault(&fields, room, YINQOCHA_BAD_BOOKING, 65, "an entry past the 64th");
    fields.booked_len = 8 * 65 + 1;
    require_fault(&fields, room, YINQOCHA_BAD_BOOKING, 65, "a begun entry past the 64th");
    fields.booked_len = 8 * 65;
    require(write_fields(&fields, room) == YINQOCHA_SHEET_BYTES(0, 3), "behind the table");
    fields.booked[2] = 1;
    require_fault(&fields, room, YINQOCHA_BAD_BOOKING, 2, "a booked bench the head lacks");
    fields.minutes[0] = YINQOCHA_MAX_MINUTES + 1;
    require_fault(&fields, 0, YINQOCHA_BAD_BOOKING, 2, "before the jobs and the room");
    fields.p = 7;
    require_fault(&fields, room, YINQOCHA_BAD_SHARE, 0, "after the share");
    fields.benches = 0;
    require_fault(&fields, room, YINQOCHA_BAD_BENCHES, 0, "after the benches");
    printf("door: fault 14 has the bench for its place, after 7 and 8 and before 9 to 13\n");
}

/* Example 8 with bookings: of bench 0, so that two jobs move; above T, with a plan and without. */
static void booked_plans(void)
{
    struct fields fields = example_5(4);
    fields.target = 4;
    fields.booked_len = 16;
    for (size_t j = 0; j < 4; j++)
        fields.minutes[j] = 2;
    fields.booked[0] = 2;
    require(plan_fields(&fields, 32, 16, ANSWER_BYTES) == YINQOCHA_PLAN, "bench 0 booked: a plan");
    require(table_entry(&places, 0) == 1 && table_entry(&places, 1) == 1, "bench 0 booked: moved");
    require(table_entry(&places, 2) == 0 && table_entry(&places, 3) == 0, "bench 0 booked: left");
    require(table_entry(&loads, 0) == 6 && table_entry(&loads, 1) == 4, "bench 0 booked: loads");
    require_answer(6, 2, 0, "bench 0 booked: largest load, moves, fullest bench");
    require_entries(&loads, 2, "bench 0 booked: behind the loads");
    fields.booked[0] = 0;
    fields.booked[1] = 7;
    fields.jobs = 1;
    require(plan_fields(&fields, 8, 16, ANSWER_BYTES) == YINQOCHA_PLAN, "7 booked of 4: a plan");
    require(table_entry(&loads, 0) == 2 && table_entry(&loads, 1) == 7, "7 booked of 4: loads");
    require_answer(7, 0, 1, "7 booked of 4: largest load, moves, fullest bench");
    fields.booked[1] = 8;
    require(plan_fields(&fields, 8, 16, ANSWER_BYTES) == YINQOCHA_NONE, "8 booked of 4: none");
    require_answer(YINQOCHA_BENCH(1), 0, 0, "8 booked of 4: bench 1");
    fields.minutes[0] = 5;
    require(plan_fields(&fields, 8, 16, ANSWER_BYTES) == YINQOCHA_LONG, "a job of 5 of 4: long");
    require_answer(0, 0, 0, "a job of 5 of 4: job 0");
    printf("door: booked minutes are in the loads and in the answer\n");
}

/* A bench that the head lacks, and one booked for 0 minutes and again, with frames of version 0
 * before, between and behind. */
static void read_bookings(void)
{
    static const uint8_t no_bench[] = { 0x14, 0x00, 0x04, 0x08, 0x00, 0x00, 0x00 };
    static const uint8_t again[] = { 0x00, 0x00, 0x00, 0x14, 0x00, 0x04, 0x04, 0x00, 0x00, 0x00,
                                     0x00, 0x00, 0x00, 0x14, 0x00, 0x04, 0x04, 0x00, 0x01, 0x40 };
    uint8_t sheet[sizeof example_12 + sizeof again];
    memcpy(sheet, example_12, 10);
    memcpy(sheet + 10, no_bench, sizeof no_bench);
    memcpy(sheet + 17, example_12 + 10, sizeof example_12 - 10);
    uint64_t word = yinqocha_plan(sheet, sizeof example_12 + 7, NULL, 0, NULL, 0, NULL, 0);
    require(YINQOCHA_FAULT(word) == YINQOCHA_BAD_BOOKING, "a booked bench the head lacks");
    require(YINQOCHA_VALUE(word) == 10, "a booked bench the head lacks: place");
    memcpy(sheet + 10, again, sizeof again);
    memcpy(sheet + 30, example_12 + 10, sizeof example_12 - 10);
    word = yinqocha_plan(sheet, sizeof sheet, NULL, 0, NULL, 0, NULL, 0);
    require(YINQOCHA_FAULT(word) == YINQOCHA_BOOKED_TWICE, "a bench booked twice");
    require(YINQOCHA_VALUE(word) == 23, "a bench booked twice: place");
    word = yinqocha_compare(sheet, sizeof sheet, NULL, 0, NULL, 0);
    require(YINQOCHA_FAULT(word) == YINQOCHA_BOOKED_TWICE, "comparing: a bench booked twice");
    printf("door: a sheet's bookings have faults 14 and 15, with the frame for their place\n");
}

static void bookings(void)
{
    written_bookings();
    booking_faults();
    booked_plans();
    read_bookings();
}

#endif /* BOOKINGS_H */
