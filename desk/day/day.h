/*
 * day.h - a day at the desk
 *
 * A day is what a sheet holds, with the names that people gave to benches and jobs and the places
 * in their files from which each part came. It is read from text (read.h), from text and CSV, or
 * from the bytes of a sheet; the library writes and reads the sheet itself. Jobs and benches count
 * from 0.
 */

#ifndef DESK_DAY_H
#define DESK_DAY_H

#include "base/messages.h"
#include "base/text.h"
#include "yinqocha.h"

#include <stdbool.h>

/* Where a part of a day stands in a file of text: `file` is 0 for the day's own file, otherwise
 * the number of a file of jobs. Line 0 where there is no text, as for a sheet. */
struct origin {
    size_t file, line, column;
};

/* The files of a day: its own, then those of its `jobs` lines. */
#define DAY_MOST_FILES 65

/* The most bytes of a file of text: a day, jobs, a list or a page. */
#define DESK_MOST_BYTES ((size_t)4 << 20)

/* The most bytes of a name. */
#define DAY_MOST_NAME 255

struct job {
    char *name; /* NULL for a job of a sheet, which has none */
    struct origin origin, benches_origin;
    uint32_t name_hash; /* for day_find_job() */
};

struct day {
    /* As shown to people; file_names[0] is the day's: its path, or "standard input". */
    char *file_names[DAY_MOST_FILES];
    size_t files;
    bool from_sheet;

    /* What the sheet holds. allowed is a set of benches as yinqocha.h has it. */
    struct yinqocha_contents contents;
    size_t jobs;
    size_t jobs_left_out; /* those behind the 512th; such a day is refused */

    /* What only people need. bench_names[b] is NULL for a bench without a name. */
    char *bench_names[YINQOCHA_MAX_BENCHES];
    struct job job[YINQOCHA_MAX_JOBS];
    struct origin benches_origin, share_origin, target_origin;
    struct origin booked_origin[YINQOCHA_MAX_BENCHES];
    bool share_read; /* the share's line has two numbers, which may be a bad share */

    /* The sheet's bytes: those that were read, or those that the library wrote. */
    uint8_t *sheet;
    size_t sheet_len;
};

/* A new day without anything in it, which is some 60 KiB; and the end of one. */
struct day *day_new(void);
void day_free(struct day *day);

/* The file of an origin, as shown to people. */
const char *day_file(const struct day *day, struct origin origin);

/* What a bench or a job is called. A bench with a name is that name; one without is "bench 3".
 * A job with a name is that name; one of a sheet is "job 3". Added to a text as they are, with
 * no quotes. */
void day_bench_name(const struct day *day, size_t bench, struct text *text);
void day_job_name(const struct day *day, size_t job, struct text *text);

/* The job or the bench with a name; the number of jobs or of benches if there is none. */
size_t day_find_job(const struct day *day, const char *name, size_t len);
size_t day_find_bench(const struct day *day, const char *name, size_t len);
uint32_t name_hash(const char *name, size_t len);

/* The largest whole load within the bound of a target: (5q + p) * T / (3q), rounded down. */
uint64_t day_bound(const struct day *day, uint64_t target);

/* Whether a job is heavy for a target: q * minutes > p * T. */
bool day_is_heavy(const struct day *day, size_t job, uint64_t target);

/* The benches of a set, how many there are, and the set of all benches of the day. */
unsigned benches_count(uint64_t set);
uint64_t day_all_benches(const struct day *day);

#endif
