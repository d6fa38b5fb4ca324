/*
 * The C door's checks of reading: what was written is read back, what a sheet from elsewhere shows,
 * every fault of a sheet, and tables that fit exactly, are longer or lack one byte.
 */

#ifndef READING_H
#define READING_H

#include "door.h"

_Static_assert(sizeof(struct yinqocha_contents) == YINQOCHA_CONTENTS_BYTES(YINQOCHA_MAX_JOBS),
               "the struct is a table with room for every sheet");
_Static_assert(offsetof(struct yinqocha_contents, booked) == 8 * 4, "behind the head's entries");
_Static_assert(offsetof(struct yinqocha_contents, jobs) == YINQOCHA_CONTENTS_BYTES(0),
               "behind the booked entries");

/* The table between its guards, longer than any sheet needs. */
static uint8_t contents_buffer[GUARD + YINQOCHA_CONTENTS_BYTES(MOST_JOBS) + GUARD];
static uint8_t *const contents = contents_buffer + GUARD;

static uint64_t read_sheet(const uint8_t *sheet, size_t sheet_len, size_t room)
{
    memset(contents_buffer, FILL, sizeof contents_buffer);
    return yinqocha_read(sheet, sheet_len, contents, room);
}

/* Nothing of the table was written but its first `length` bytes. */
static void require_kept_after(size_t length, const char *what)
{
    for (size_t i = 0; i < sizeof contents_buffer; i++)
        if (i < GUARD || i >= GUARD + length)
            require(contents_buffer[i] == FILL, what);
}

/* The table has the fields' numbers, and nothing behind them was written. */
static void require_contents(const struct fields *fields, const char *what)
{
    const uint64_t head[] = { fields->benches, fields->p, fields->q, fields->target };
    for (size_t n = 0; n < 4; n++)
        require(number_at(contents + 8 * n) == head[n], what);
    for (size_t b = 0; b < YINQOCHA_MAX_BENCHES; b++)
        require(number_at(contents + 8 * (4 + b)) == fields->booked[b], what);
    for (size_t j = 0; j < fields->jobs; j++) {
        require(number_at(contents + 8 * (68 + 2 * j)) == fields->minutes[j], what);
        require(number_at(contents + 8 * (69 + 2 * j)) == fields->allowed[j], what);
    }
    require_kept_after(YINQOCHA_CONTENTS_BYTES(fields->jobs), what);
}

/* The sheet shows the fields, in a table that fits exactly and in longer ones; one byte less is
 * fault 13. */
static void require_read(const uint8_t *sheet, size_t sheet_len, const struct fields *fields,
                         const char *what)
{
    size_t exact = YINQOCHA_CONTENTS_BYTES(fields->jobs);
    for (size_t more = 0; more <= 16; more += 4) {
        require(read_sheet(sheet, sheet_len, exact + more) == fields->jobs, what);
        require_contents(fields, what);
    }
    uint64_t word = read_sheet(sheet, sheet_len, exact - 1);
    require(YINQOCHA_FAULT(word) == YINQOCHA_NO_ROOM && YINQOCHA_VALUE(word) == 0, what);
    require_kept_after(0, what);
}

/* All 64 benches are booked, and no two benches or neighbouring jobs have the same numbers. */
static struct fields full_fields(size_t jobs)
{
    struct fields fields = example_5(jobs);
    fields.benches = YINQOCHA_MAX_BENCHES;
    fields.p = YINQOCHA_MAX_SHARE - 1;
    fields.q = YINQOCHA_MAX_SHARE;
    fields.target = YINQOCHA_MAX_TARGET;
    fields.booked_len = 8 * YINQOCHA_MAX_BENCHES;
    for (size_t b = 0; b < YINQOCHA_MAX_BENCHES; b++)
        fields.booked[b] = YINQOCHA_MAX_MINUTES - 257 * b;
    for (size_t j = 0; j < jobs; j++) {
        fields.minutes[j] = YINQOCHA_MAX_MINUTES - 2049 * j;
        fields.allowed[j] = YINQOCHA_BENCH(j % 64) | YINQOCHA_BENCH(63 - j / 8);
    }
    return fields;
}

static void written_and_read(void)
{
    for (size_t jobs = 0; jobs <= YINQOCHA_MAX_JOBS; jobs++) {
        struct fields fields = jobs % 2 == 0 ? full_fields(jobs) : example_5(jobs);
        size_t length = sheet_of(&fields);
        require_read(out, length, &fields, "what was written is read back");
        require_untouched_after(length, "the sheet that is read, and its guards");
    }
    printf("door: what was written is read back, and a table one byte too short is fault 13\n");
}

/* The names of the struct, and its jobs and bookings written again. */
static void named_contents(void)
{
    static struct yinqocha_contents day;
    static uint8_t first[YINQOCHA_MAX_WRITTEN_BYTES];
    struct fields fields = full_fields(YINQOCHA_MAX_JOBS);
    size_t length = sheet_of(&fields);
    memcpy(first, out, length);
    require(yinqocha_read(first, length, &day, sizeof day) == YINQOCHA_MAX_JOBS, "512 jobs");
    struct fields again = { .benches = day.benches, .p = day.p, .q = day.q, .target = day.target,
                            .booked_len = sizeof day.booked, .jobs = YINQOCHA_MAX_JOBS };
    memcpy(again.booked, day.booked, sizeof day.booked);
    for (size_t j = 0; j < YINQOCHA_MAX_JOBS; j++) {
        again.minutes[j] = day.jobs[j].minutes;
        again.allowed[j] = day.jobs[j].allowed;
    }
    require(sheet_of(&again) == length && memcmp(out, first, length) == 0, "written again");
    printf("door: a struct of names is a table of contents\n");
}

/* Example 12 with frames of versions 0, 2 and 15 around it, and bench 1 booked for 0 minutes. */
static void foreign_frames(void)
{
    static const uint8_t before[] = { 0x00, 0x00, 0x00, 0xF4, 0x00, 0x01, 0xFF };
    static const uint8_t between[] = { 0x21, 0x00, 0x07, 0x04, 0x10, 0x38, 0x00, 0x00, 0x01, 0x20,
                                       0x14, 0x00, 0x04, 0x04, 0x00, 0x00, 0x00 };
    uint8_t sheet[2 * sizeof before + sizeof between + sizeof example_12];
    uint8_t *end = sheet;
    memcpy(end, before, sizeof before);
    end += sizeof before;
    memcpy(end, example_12, 10);
    end += 10;
    memcpy(end, between, sizeof between);
    end += sizeof between;
    memcpy(end, example_12 + 10, sizeof example_12 - 10);
    end += sizeof example_12 - 10;
    memcpy(end, before, sizeof before);
    struct fields fields = example_5(3);
    require_read(example_12, sizeof example_12, &fields, "example 12 shows example 5");
    require_read(sheet, sizeof sheet, &fields, "and so with frames that are not shown");
    printf("door: frames of other versions and bookings of 0 minutes are not shown\n");
}

/* The fault comes before fault 13, so it is the same in any table, which keeps its contents. */
static void require_read_fault(const uint8_t *sheet, size_t sheet_len, uint32_t number,
                               uint32_t place, const char *what)
{
    static const size_t rooms[] = { 0, 543, YINQOCHA_CONTENTS_BYTES(MOST_JOBS) };
    for (size_t n = 0; n < sizeof rooms / sizeof *rooms; n++) {
        uint64_t word = read_sheet(sheet, sheet_len, rooms[n]);
        require(YINQOCHA_FAULT(word) == number && YINQOCHA_VALUE(word) == place, what);
        require_kept_after(0, what);
    }
}

/* Example 12 with one byte changed. */
static void changed_sheets(void)
{
    static const struct {
        size_t at;
        uint8_t byte;
        uint32_t number, place;
        const char *what;
    } changes[] = {
        { 10, 0x15, YINQOCHA_UNKNOWN_KIND, 10, "kind 5 is read" },
        { 10, 0x11, YINQOCHA_OUT_OF_PLACE, 10, "a second head is read" },
        { 12, 0x0A, YINQOCHA_BODY_LENGTH, 10, "a job of 10 bytes is read" },
        { 23, 0x01, YINQOCHA_SPARE_BIT, 10, "a spare bit is read" },
        { 3, 0x00, YINQOCHA_BAD_BENCHES, 0, "0 benches are read" },
        { 4, 0x1C, YINQOCHA_BAD_SHARE, 0, "the share 7/7 is read" },
        { 29, 0x50, YINQOCHA_BAD_ALLOWED, 24, "a job without benches is read" },
        { 43, 0x5E, YINQOCHA_BAD_ALLOWED, 38, "a job with a bench that the head lacks is read" },
    };
    for (size_t n = 0; n < sizeof changes / sizeof *changes; n++) {
        uint8_t sheet[sizeof example_12];
        memcpy(sheet, example_12, sizeof sheet);
        sheet[changes[n].at] = changes[n].byte;
        require_read_fault(sheet, sizeof sheet, changes[n].number, changes[n].place,
                           changes[n].what);
    }
    uint8_t choice[sizeof example_12];
    memcpy(choice, example_12, sizeof choice);
    choice[3] = 0x06;
    choice[29] = 0x5E;
    require_read_fault(choice, sizeof choice, YINQOCHA_LONG_JOB_WITH_CHOICE, 1, "7 * 5 > 4 * 5");
}

/* Example 12 with two frames behind its head that book a bench. */
static void booked_sheets(void)
{
    static const uint8_t no_bench[] = { 0x14, 0x00, 0x04, 0x00, 0x00, 0x00, 0x40,
                                        0x14, 0x00, 0x04, 0x08, 0x00, 0x00, 0x00 };
    static const uint8_t twice[] = { 0x14, 0x00, 0x04, 0x04, 0x00, 0x00, 0x00,
                                     0x14, 0x00, 0x04, 0x04, 0x00, 0x00, 0x40 };
    uint8_t sheet[sizeof example_12 + sizeof twice];
    memcpy(sheet, example_12, 10);
    memcpy(sheet + 24, example_12 + 10, sizeof example_12 - 10);
    memcpy(sheet + 10, no_bench, sizeof no_bench);
    require_read_fault(sheet, sizeof sheet, YINQOCHA_BAD_BOOKING, 17, "a bench the head lacks");
    memcpy(sheet + 10, twice, sizeof twice);
    require_read_fault(sheet, sizeof sheet, YINQOCHA_BOOKED_TWICE, 17, "a bench booked twice");
}

/* Sheets that are cut, lack their end, or are too long, and a 513th job in place of the end. */
static void sheet_lengths(void)
{
    static const uint8_t zeros[YINQOCHA_MAX_SHEET_BYTES + 1];
    static uint8_t sheet[YINQOCHA_SHEET_BYTES(0, MOST_JOBS)];
    uint32_t jobs_end = sizeof example_12 - 3;
    require_read_fault(example_12, jobs_end + 2, YINQOCHA_SHEET_CUT, jobs_end, "an end cut off");
    require_read_fault(example_12, jobs_end, YINQOCHA_SHEET_CUT, jobs_end, "no end");
    require_read_fault(zeros, sizeof zeros, YINQOCHA_SHEET_TOO_LONG, 0, "65,537 bytes");
    struct fields fields = example_5(YINQOCHA_MAX_JOBS);
    size_t length = sheet_of(&fields);
    memcpy(sheet, out, length);
    memcpy(sheet + length - 3, example_12 + 10, 14);
    memcpy(sheet + length + 11, example_12 + jobs_end, 3);
    require_read_fault(sheet, sizeof sheet, YINQOCHA_TOO_MANY_JOBS, 10 + 14 * YINQOCHA_MAX_JOBS,
                       "513 jobs are read");
}

/* No buffers, and every room that is too short for example 12. */
static void short_tables(void)
{
    uint64_t word = yinqocha_read(NULL, 0, NULL, 0);
    require(YINQOCHA_FAULT(word) == YINQOCHA_SHEET_CUT && YINQOCHA_VALUE(word) == 0, "no sheet");
    word = yinqocha_read(example_12, sizeof example_12, NULL, 0);
    require(YINQOCHA_FAULT(word) == YINQOCHA_NO_ROOM && YINQOCHA_VALUE(word) == 0, "no table");
    for (size_t room = 0; room < YINQOCHA_CONTENTS_BYTES(3); room++) {
        word = read_sheet(example_12, sizeof example_12, room);
        require(YINQOCHA_FAULT(word) == YINQOCHA_NO_ROOM && YINQOCHA_VALUE(word) == 0, "no room");
        require_kept_after(0, "no room: the table");
    }
}

static void readings(void)
{
    written_and_read();
    named_contents();
    foreign_frames();
    changed_sheets();
    booked_sheets();
    sheet_lengths();
    short_tables();
    printf("door: reading has the sheet's faults, then fault 13; the table is untouched\n");
}

#endif /* READING_H */
