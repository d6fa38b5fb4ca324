/*
 * What the checks of the C door use: fields that are written and planned, and buffers between
 * guards.
 */

#ifndef DOOR_H
#define DOOR_H

#include "yinqocha.h"

#include <stdio.h>
#include <stdlib.h>
#include <string.h>

#define GUARD 16
#define FILL 0xA5
#define MOST_JOBS (YINQOCHA_MAX_JOBS + 1)
#define MOST_BOOKED (YINQOCHA_MAX_BENCHES + 2)

/* Example 5's sheet, in the bytes of example 12. */
static const uint8_t example_12[] = {
    0x11, 0x00, 0x07, 0x04, 0x10, 0x38, 0x00, 0x00, 0x01, 0x20,
    0x12, 0x00, 0x0B, 0x00, 0x00, 0x5C, 0, 0, 0, 0, 0, 0, 0, 0,
    0x12, 0x00, 0x0B, 0x00, 0x00, 0x5C, 0, 0, 0, 0, 0, 0, 0, 0,
    0x12, 0x00, 0x0B, 0x00, 0x00, 0x5C, 0, 0, 0, 0, 0, 0, 0, 0,
    0x13, 0x00, 0x00,
};

/* What the writer is given. */
struct fields {
    uint64_t benches, p, q, target;
    uint64_t booked[MOST_BOOKED];
    uint64_t minutes[MOST_JOBS];
    uint64_t allowed[MOST_JOBS];
    size_t booked_len, jobs;
};

/* The output between its guards. */
static uint8_t buffer[GUARD + YINQOCHA_SHEET_BYTES(MOST_BOOKED, MOST_JOBS) + GUARD];
static uint8_t *const out = buffer + GUARD;

static void require(int holds, const char *what)
{
    if (!holds) {
        printf("door: FAILED, %s\n", what);
        exit(EXIT_FAILURE);
    }
}

/* Nothing was written but the first `length` bytes of the output. */
static void require_untouched_after(size_t length, const char *what)
{
    for (size_t i = 0; i < sizeof buffer; i++)
        if (i < GUARD || i >= GUARD + length)
            require(buffer[i] == FILL, what);
}

/* Example 5's head with `jobs` jobs of 5 minutes on both benches, and nothing booked. */
static struct fields example_5(size_t jobs)
{
    struct fields fields = { .benches = 2, .p = 4, .q = 7, .target = 9, .jobs = jobs };
    for (size_t j = 0; j < jobs; j++) {
        fields.minutes[j] = 5;
        fields.allowed[j] = YINQOCHA_BENCH(0) | YINQOCHA_BENCH(1);
    }
    return fields;
}

/* Writes with tables of minutes and of benches allowed of these lengths in bytes. */
static uint64_t write_tables(const struct fields *fields, size_t minutes_len, size_t allowed_len,
                             size_t room)
{
    memset(buffer, FILL, sizeof buffer);
    return yinqocha_write(fields->benches, fields->p, fields->q, fields->target,
                          fields->booked, fields->booked_len, fields->minutes, minutes_len,
                          fields->allowed, allowed_len, out, room);
}

static uint64_t write_fields(const struct fields *fields, size_t room)
{
    return write_tables(fields, 8 * fields->jobs, 8 * fields->jobs, room);
}

/* The sheet of the fields, in `out`; its length. */
static size_t sheet_of(const struct fields *fields)
{
    uint64_t length = write_fields(fields, sizeof buffer - 2 * GUARD);
    require(YINQOCHA_FAULT(length) == YINQOCHA_OK, "the sheet of the fields is written");
    return length;
}

static void require_fault(const struct fields *fields, size_t room, uint32_t number,
                          uint32_t place, const char *what)
{
    uint64_t word = write_fields(fields, room);
    require(YINQOCHA_FAULT(word) == number, what);
    require(YINQOCHA_VALUE(word) == place, what);
    require_untouched_after(0, what);
}

/* The number in eight bytes, the least significant first. */
static uint64_t number_at(const uint8_t *bytes)
{
    uint64_t number = 0;
    for (size_t i = 8; i-- > 0;)
        number = number << 8 | bytes[i];
    return number;
}

/* A table between its guards. */
struct table {
    uint8_t bytes[GUARD + 8 * YINQOCHA_MAX_JOBS + GUARD];
};

static struct table places, loads, answer;

/* The bytes of an answer table. */
#define ANSWER_BYTES (8 * YINQOCHA_ANSWER_ENTRIES)

static uint8_t *table_start(struct table *table)
{
    return table->bytes + GUARD;
}

static uint64_t table_entry(struct table *table, size_t n)
{
    return number_at(table_start(table) + 8 * n);
}

/* Nothing of the table was written but its first `entries` entries. */
static void require_entries(const struct table *table, size_t entries, const char *what)
{
    for (size_t i = 0; i < sizeof table->bytes; i++)
        if (i < GUARD || i >= GUARD + 8 * entries)
            require(table->bytes[i] == FILL, what);
}

/* The answer table has these entries, and nothing behind them was written. */
static void require_answer(uint64_t first, uint64_t second, uint64_t third, const char *what)
{
    require(table_entry(&answer, 0) == first, what);
    require(table_entry(&answer, 1) == second, what);
    require(table_entry(&answer, 2) == third, what);
    require_entries(&answer, YINQOCHA_ANSWER_ENTRIES, what);
}

/* The sheet of the fields is written, and planned with tables of these lengths in bytes. */
static uint64_t plan_fields(const struct fields *fields, size_t places_len, size_t loads_len,
                            size_t answer_len)
{
    size_t length = sheet_of(fields);
    memset(&places, FILL, sizeof places);
    memset(&loads, FILL, sizeof loads);
    memset(&answer, FILL, sizeof answer);
    uint64_t word = yinqocha_plan(out, length, table_start(&places), places_len,
                                  table_start(&loads), loads_len, table_start(&answer), answer_len);
    require_untouched_after(length, "the sheet's guards");
    return word;
}

static void require_plan_fault(uint64_t word, uint32_t number, uint32_t place, const char *what)
{
    require(YINQOCHA_FAULT(word) == number, what);
    require(YINQOCHA_VALUE(word) == place, what);
    require_entries(&places, 0, what);
    require_entries(&loads, 0, what);
    require_entries(&answer, 0, what);
}

#endif /* DOOR_H */
