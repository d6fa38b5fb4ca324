/*
 * yinqocha.h - sheets and plans of the bay planner
 *
 * A sheet holds one day of a depot's test bay: how many benches there are, the share p/q, the
 * target T in minutes, the minutes for which benches are booked before the day begins, and the
 * jobs, each with its minutes and the benches that may take it. A program that has these as plain
 * numbers, such as the depot's screen program, writes a sheet with yinqocha_write(), has it planned
 * with yinqocha_plan(), or with the best target instead of its own with yinqocha_best(), and tells
 * whether two plans of it are the same, job by job, with yinqocha_compare(). A program that has a
 * sheet gets the numbers of it with yinqocha_read(). A plan or a blocking set that comes from
 * elsewhere is checked with yinqocha_check_plan() and yinqocha_check_set(), a page of such sets
 * with yinqocha_check_page(). Link it with libyinqocha.a (x86-64).
 *
 * This header is the manual. It says first what holds of every call, then what the numbers mean,
 * then describes each function, with a program that uses it and what the program prints. Jobs and
 * benches count from 0.
 *
 *
 * MEMORY AND THREADS
 *
 * The caller lends every buffer for the time of the call. The library keeps no pointer, takes
 * nothing from the heap, and has no state. Threads may call it at the same time as long as none
 * writes to a buffer that another is using. A buffer that a call writes must overlap no other
 * buffer of the call. A thread that plans or finds the best target needs about 115 KiB of stack,
 * one that reads, compares or checks about 72 KiB, one that only writes about 20 KiB.
 *
 * A buffer is a pointer and a length in bytes, and the pointer may have any alignment. NULL with
 * length 0 is an empty buffer. The library reads no byte behind a buffer's length and writes none.
 *
 * A call never fails in any other way than by its result word. Every value of every number and
 * every content of every buffer has an answer.
 *
 *
 * TABLES
 *
 * A table is a buffer of numbers of 8 bytes each, least significant byte first. On a little-endian
 * machine, as x86-64 is, an array of uint64_t is passed as it is: `minutes, sizeof minutes`.
 *
 * In a table that is read a begun entry counts, and the bytes that it lacks are 0; a begun entry of
 * minutes must have a byte above 0, see WRITING A SHEET. In a table that is written only whole
 * entries count as room, length / 8 of them; a call writes entries from the first on, and every
 * other byte keeps its contents.
 *
 *
 * THE RESULT WORD
 *
 * Every function returns 64 bits. If the high 32 bits are 0, the call has done its work and the
 * low 32 bits are its value. Otherwise the high 32 bits are the number of a fault, the low 32 bits
 * are its place, and the call has written nothing.
 */

#ifndef YINQOCHA_H
#define YINQOCHA_H

#include <stddef.h>
#include <stdint.h>

#ifdef __cplusplus
extern "C" {
#endif

/* The fault number of a result word, or YINQOCHA_OK. */
#define YINQOCHA_FAULT(word) ((uint32_t)((uint64_t)(word) >> 32))

/* The value of a result word without a fault, and the place of one with a fault. */
#define YINQOCHA_VALUE(word) ((uint32_t)((uint64_t)(word) & UINT64_C(0xFFFFFFFF)))

/*
 * FAULT NUMBERS, in the order in which they are tried
 *
 * The place is given in parentheses. "Frame" means the first byte of the faulty frame, counted
 * from the start of the sheet. Where a sheet is read, 2 to 9, 11, 14 and 15 are tried in the order
 * below at each frame, and 12 after the whole sheet. Where fields are written, 7 and 8 have place
 * 0, 14 has the bench, and 9 to 12 have the job number.
 */
#define YINQOCHA_OK 0u

/* Faults of a sheet that is read. */

/* The sheet is longer than YINQOCHA_MAX_SHEET_BYTES, 65,536 (0). */
#define YINQOCHA_SHEET_TOO_LONG 1u
/* The sheet ends inside a frame of any version (frame), or its frames are over and none was an end
 * frame (the sheet's length). */
#define YINQOCHA_SHEET_CUT 2u
/* A version 1 frame has a kind other than 1, 2, 3, 4 (frame). */
#define YINQOCHA_UNKNOWN_KIND 3u
/* A version 1 frame is out of its place: a booking, job or end before the head, a second head, a
 * booking after a job, or any after the end (frame). */
#define YINQOCHA_OUT_OF_PLACE 4u
/* The body length is not that of its kind (frame). */
#define YINQOCHA_BODY_LENGTH 5u
/* A spare bit is 1 (frame). */
#define YINQOCHA_SPARE_BIT 6u

/* Faults of a sheet that is read and of fields that are written. */

/* The head has 0 benches or more than 64 (read: frame; written: 0). Writing: or the target does not
 * fit its field of 30 bits. */
#define YINQOCHA_BAD_BENCHES 7u
/* The share is bad: q is 0, or 7p < 4q, or p >= q (read: frame; written: 0). Writing: or p or q
 * does not fit its field of 7 bits. */
#define YINQOCHA_BAD_SHARE 8u
/* A bench is booked that the head lacks (read: frame, also if it is booked for 0 minutes; written:
 * the bench). Writing: or its booked minutes do not fit their field of 20 bits. */
#define YINQOCHA_BAD_BOOKING 14u
/* The bench already had a booking, also one of 0 minutes (read: frame; writing never meets it). */
#define YINQOCHA_BOOKED_TWICE 15u
/* It is the 513th job (read: frame; written: 512). */
#define YINQOCHA_TOO_MANY_JOBS 9u
/* Writing only: a job's minutes do not fit their field of 20 bits, or the table of minutes has no
 * entry for it (the job). No sheet that is read has it. */
#define YINQOCHA_BAD_MINUTES 10u
/* A job allows no bench, or a bench the head lacks (read: frame; written: the job). */
#define YINQOCHA_BAD_ALLOWED 11u
/* A job allows three or more benches and q * minutes > p * W, with W the longest job's minutes (the
 * lowest such job, read or written). */
#define YINQOCHA_LONG_JOB_WITH_CHOICE 12u

/* Faults of the other buffers. Two share their number, since no function has both. */

/* Writing, reading, planning, finding the best target, checking: a table or an output that the call
 * fills is too short (0). Writing: the sheet does not fit. Reading: there are fewer than 68 numbers
 * and two more for each job. Planning: there are fewer places than jobs, fewer loads than benches,
 * or fewer than three numbers for the answer. The best target: there are fewer places than jobs,
 * fewer loads than benches, or fewer than five numbers for the answer. Checking: there are fewer
 * than two numbers for the answer to a plan, or none for the answer to a set or to a page. */
#define YINQOCHA_NO_ROOM 13u
/* Comparing: a list is no assignment, it does not give each job one bench that it allows (0 for the
 * first list, 1 for the second). */
#define YINQOCHA_NO_ASSIGNMENT 13u
/* Checking a plan: the list does not have one place a job (0). */
#define YINQOCHA_BAD_LIST 16u
/* Checking a set: it is empty (0), or it has a bench that the head lacks (the lowest such one).
 * Checking a page: a set of it is so (the set's number on the page, from 0). */
#define YINQOCHA_BAD_SET 17u
/* Checking a page: a set shares a bench with an earlier one (the later set's number). */
#define YINQOCHA_SHARED_BENCH 18u

/*
 * LIMITS
 */
#define YINQOCHA_MAX_BENCHES 64u
#define YINQOCHA_MAX_JOBS 512u
#define YINQOCHA_MAX_SHARE 127u         /* of p and of q */
#define YINQOCHA_MAX_TARGET 1073741823u /* 2^30 - 1 */
#define YINQOCHA_MAX_MINUTES 1048575u   /* of a job and of a booking, 2^20 - 1 */

/* The most bytes of a sheet. A caller that takes a sheet from a file makes room for one more, so
 * that a longer file is fault 1 and not a sheet that was cut. */
#define YINQOCHA_MAX_SHEET_BYTES 65536u

/* A set of benches is a number of 64 bits: the benches that a job allows, the blocking set of an
 * answer, the set that is checked, and each set on a page. The bit of bench b, 0 to 63, and whether
 * bench b is in a set. */
#define YINQOCHA_BENCH(b) (UINT64_C(1) << (63 - (b)))
#define YINQOCHA_HAS_BENCH(set, b) (((uint64_t)(set) & YINQOCHA_BENCH(b)) != 0)

/* The length in bytes of a sheet with so many bookings above 0 and so many jobs: the head has 10,
 * each booking 7, each job 14, the end 3. It is a size_t. */
#define YINQOCHA_SHEET_BYTES(bookings, jobs) \
    ((size_t)10 + (size_t)7 * (bookings) + (size_t)14 * (jobs) + (size_t)3)

/* The most bytes that the writer gives. */
#define YINQOCHA_MAX_WRITTEN_BYTES YINQOCHA_SHEET_BYTES(YINQOCHA_MAX_BENCHES, YINQOCHA_MAX_JOBS)

/*
 * WRITING A SHEET
 *
 * In:
 *   benches   how many benches there are, 1 to 64
 *   p, q      the share p/q: at least 4/7 and less than 1, each number at most 127
 *   target    the target T in minutes, 0 to 2^30 - 1
 *   booked    a table: entry b is the minutes for which bench b is booked, 0 to 2^20 - 1, and 0 for
 *             a bench that is not there. An entry that the table lacks is 0, so that NULL with
 *             length 0 books nothing.
 *   minutes   a table: entry j is the minutes of job j, 0 to 2^20 - 1
 *   allowed   a table: entry j is the benches of job j, the sum of YINQOCHA_BENCH(b) over the
 *             benches b that may take it, at least one, each below `benches`
 *
 * The share says how long a job with three or more benches may be, at most p/q of the longest job's
 * minutes (fault 12), and how far a plan may go beyond the target, to (5/3 + p/(3q)) * T: a larger
 * share admits longer jobs with so much choice and loosens that bound, from 13/7 * T at the share
 * 4/7 towards 2 * T.
 *
 * A job of 0 minutes is a check that takes no bench time; it is given a bench like any other job,
 * and may allow as many benches as the head has.
 *
 * The number of jobs is that of the longer of `minutes` and `allowed`, a begun entry counting as
 * one. A job has 0 minutes only where all eight bytes of its entry are there and are 0. Where
 * `minutes` ends before the entry, or inside it with no byte above 0, the job has no minutes, which
 * is fault 10. A job for which `allowed` has no entry allows no bench, which is fault 11.
 *
 * Booked minutes are taken before the day begins, such as for a recall. They are part of the
 * bench's load whatever the plan. They may be more than the target, and the share and fault 12
 * speak of jobs alone.
 *
 * Out:
 *   out       the sheet: the head, the bookings above 0 by rising bench, the jobs in order, and
 *             the end. Later bytes keep their contents.
 *   result    the length of the sheet, YINQOCHA_SHEET_BYTES(bookings above 0, jobs)
 *
 * Faults: 7, then 8, then for each bench in order 14, then for each job in order 9, 10 and 11, then
 * 12, then 13. An entry of `booked` past the 64th is 0 or fault 14 with its number (the low 32 bits
 * of it) as place. After a fault `out` keeps its contents. An output of YINQOCHA_MAX_WRITTEN_BYTES
 * bytes, which is 7,629, always has room.
 *
 * Example: three jobs of 5 minutes on bench 0 or 1, bench 1 booked for 4, target 9, into a file.
 *
 *     #include "yinqocha.h"
 *
 *     #include <inttypes.h>
 *     #include <stdio.h>
 *
 *     int main(void)
 *     {
 *         const uint64_t both = YINQOCHA_BENCH(0) | YINQOCHA_BENCH(1);
 *         const uint64_t booked[] = { 0, 4 };
 *         const uint64_t minutes[] = { 5, 5, 5 };
 *         const uint64_t allowed[] = { both, both, both };
 *         uint8_t sheet[YINQOCHA_SHEET_BYTES(1, 3)];
 *
 *         uint64_t word = yinqocha_write(2, 4, 7, 9, booked, sizeof booked,
 *                                        minutes, sizeof minutes, allowed, sizeof allowed,
 *                                        sheet, sizeof sheet);
 *         uint32_t value = YINQOCHA_VALUE(word);
 *         if (YINQOCHA_FAULT(word) != YINQOCHA_OK) {
 *             printf("fault %" PRIu32 ", place %" PRIu32 "\n", YINQOCHA_FAULT(word), value);
 *             return 1;
 *         }
 *         FILE *file = fopen("day.sheet", "wb");
 *         if (file == NULL || fwrite(sheet, 1, value, file) != value || fclose(file) != 0) {
 *             perror("day.sheet");
 *             return 1;
 *         }
 *         printf("day.sheet has %" PRIu32 " bytes\n", value);
 *         return 0;
 *     }
 *
 * It prints:
 *
 *     day.sheet has 62 bytes
 */
uint64_t yinqocha_write(uint64_t benches, uint64_t p, uint64_t q, uint64_t target,
                        const void *booked, size_t booked_len,
                        const void *minutes, size_t minutes_len,
                        const void *allowed, size_t allowed_len,
                        uint8_t *out, size_t out_len);

/*
 * READING A SHEET
 *
 * In:
 *   sheet     the bytes of a sheet
 *
 * Out:
 *   contents  a table: four entries of the head, which are benches, p, q and target; then 64, of
 *             which entry b is the minutes for which bench b is booked, 0 for a bench that is not
 *             booked or not there; then two for each job in order, its minutes and its benches, the
 *             sum of YINQOCHA_BENCH(b) over the benches b that may take it
 *   result    the number of jobs, 0 to 512
 *
 * A struct yinqocha_contents has these entries under their names, and room for every sheet. Like an
 * array of uint64_t it is passed as it is: `&day, sizeof day`. For a sheet of n jobs a table of
 * YINQOCHA_CONTENTS_ENTRIES(n) entries is enough, which is YINQOCHA_CONTENTS_BYTES(n) bytes. Later
 * bytes of a table keep their contents, so of a struct's jobs only those that the sheet has are
 * filled.
 *
 * What yinqocha_write() wrote is read back: the entries are the numbers that it was given. A sheet
 * from elsewhere may have more in it. Frames of other versions than 1 are passed over and not
 * shown, and a bench booked for 0 minutes is shown as one that is not booked.
 *
 * Faults: 1, then 2 to 9, 11, 14 and 15 frame by frame, then 12, then 13. After a fault the table
 * keeps its contents.
 *
 * Example: a sheet of two jobs, one of them a check, with bench 1 booked for 4, shown.
 *
 *     #include "yinqocha.h"
 *
 *     #include <inttypes.h>
 *     #include <stdio.h>
 *
 *     static void show(const struct yinqocha_contents *day, uint32_t jobs)
 *     {
 *         printf("%" PRIu64 " benches, share %" PRIu64 "/%" PRIu64 ", target %" PRIu64 "\n",
 *                day->benches, day->p, day->q, day->target);
 *         for (unsigned b = 0; b < day->benches; b++)
 *             if (day->booked[b] > 0)
 *                 printf("bench %u is booked for %" PRIu64 " minutes\n", b, day->booked[b]);
 *         for (uint32_t j = 0; j < jobs; j++) {
 *             printf("job %" PRIu32 " has %" PRIu64 " minutes, benches", j, day->jobs[j].minutes);
 *             for (unsigned b = 0; b < day->benches; b++)
 *                 if (YINQOCHA_HAS_BENCH(day->jobs[j].allowed, b))
 *                     printf(" %u", b);
 *             printf("\n");
 *         }
 *     }
 *
 *     int main(void)
 *     {
 *         const uint64_t booked[] = { 0, 4 };
 *         const uint64_t minutes[] = { 5, 0 };
 *         const uint64_t allowed[] = { YINQOCHA_BENCH(0) | YINQOCHA_BENCH(1), YINQOCHA_BENCH(1) };
 *         uint8_t sheet[YINQOCHA_SHEET_BYTES(1, 2)];
 *         struct yinqocha_contents day;
 *
 *         uint64_t word = yinqocha_write(2, 4, 7, 9, booked, sizeof booked,
 *                                        minutes, sizeof minutes, allowed, sizeof allowed,
 *                                        sheet, sizeof sheet);
 *         if (YINQOCHA_FAULT(word) == YINQOCHA_OK)
 *             word = yinqocha_read(sheet, sizeof sheet, &day, sizeof day);
 *         if (YINQOCHA_FAULT(word) != YINQOCHA_OK) {
 *             printf("fault %" PRIu32 ", place %" PRIu32 "\n",
 *                    YINQOCHA_FAULT(word), YINQOCHA_VALUE(word));
 *             return 1;
 *         }
 *         show(&day, YINQOCHA_VALUE(word));
 *         return 0;
 *     }
 *
 * It prints:
 *
 *     2 benches, share 4/7, target 9
 *     bench 1 is booked for 4 minutes
 *     job 0 has 5 minutes, benches 0 1
 *     job 1 has 0 minutes, benches 1
 */

/* The entries of a table of contents of a sheet with so many jobs, and its bytes. Each is a
 * size_t. */
#define YINQOCHA_CONTENTS_ENTRIES(jobs) ((size_t)68 + (size_t)2 * (jobs))
#define YINQOCHA_CONTENTS_BYTES(jobs) ((size_t)8 * YINQOCHA_CONTENTS_ENTRIES(jobs))

/* A job of a sheet that was read: its minutes, and the benches that may take it. */
struct yinqocha_job {
    uint64_t minutes, allowed;
};

/* The table of contents of a sheet, YINQOCHA_CONTENTS_BYTES(YINQOCHA_MAX_JOBS) bytes. */
struct yinqocha_contents {
    uint64_t benches, p, q, target;
    uint64_t booked[YINQOCHA_MAX_BENCHES];
    struct yinqocha_job jobs[YINQOCHA_MAX_JOBS];
};

uint64_t yinqocha_read(const uint8_t *sheet, size_t sheet_len,
                       void *contents, size_t contents_len);

/*
 * PLANNING A SHEET
 *
 * The planner tries the sheet's target T and gives one of three answers.
 *
 *   plan   each job has one of its benches, and no bench is loaded above the bound:
 *          3q * load <= (5q + p) * T
 *   long   a job has more than T minutes, so no assignment keeps every bench within T
 *   none   a set of k benches is blocking: what must lie on them, booked minutes included, weighs
 *          more than k * T, however the jobs are placed; so no assignment keeps every bench within
 *          T
 *
 * A bench's load is its booked minutes and those of its jobs. If some assignment keeps every bench
 * within T, the answer is a plan. There may be one also where a booking is above T, which is no
 * reason for long.
 *
 * In:
 *   sheet     the bytes of a sheet
 *
 * Out:
 *   places    a table: entry j is the bench of job j. Written for a plan only.
 *   loads     a table: entry b is the load of bench b in minutes, its booking included. Written for
 *             a plan only.
 *   answer    a table of three entries:
 *
 *                       first entry          second entry    third entry
 *             plan      the largest load     the moves made  the fullest bench
 *             long      the lowest such job  0               0
 *             none      the blocking set     the moves made  0
 *
 *   result    YINQOCHA_PLAN, YINQOCHA_LONG or YINQOCHA_NONE
 *
 * A job of more than p/q of T minutes is heavy, and the others are light; a booking is neither.
 * Where no job is longer than T, a heavy job allows at most two benches. The moves are how many
 * times the planner put a light job on another bench on its way to the answer, at most benches *
 * light jobs that allow two or more; they say nothing of how good a plan is.
 *
 * A job of 0 minutes is light whatever T is, also at T = 0. It has its place in a plan, may be
 * moved, and counts among the light jobs. With T = 0 every job above 0 is too long, and jobs of 0
 * minutes alone have a plan, with largest load 0, unless a bench is booked.
 *
 * The fullest bench is the one whose load is the largest load, the lowest of them if several are
 * as full; where every load is 0, it is bench 0.
 *
 * Every table must have its room whatever the answer will be: places one entry for each job, loads
 * one for each bench, answer three. Later bytes of a table keep their contents, and after long and
 * none all of places and loads does.
 *
 * Faults: 1, then 2 to 9, 11, 14 and 15 frame by frame, then 12, then 13. After a fault all three
 * tables keep their contents. YINQOCHA_MAX_JOBS places and YINQOCHA_MAX_BENCHES loads always have
 * room.
 *
 * Example: four jobs of 2 minutes and a check on bench 0 or 1, booked for 2 and 3; three targets.
 *
 *     #include "yinqocha.h"
 *
 *     #include <inttypes.h>
 *     #include <stdio.h>
 *
 *     static int plan(uint64_t target)
 *     {
 *         const uint64_t both = YINQOCHA_BENCH(0) | YINQOCHA_BENCH(1);
 *         const uint64_t booked[] = { 2, 3 };
 *         const uint64_t minutes[] = { 2, 2, 2, 2, 0 };
 *         const uint64_t allowed[] = { both, both, both, both, both };
 *         uint8_t sheet[YINQOCHA_SHEET_BYTES(2, 5)];
 *         uint64_t places[5], loads[2], answer[YINQOCHA_ANSWER_ENTRIES];
 *
 *         uint64_t word = yinqocha_write(2, 4, 7, target, booked, sizeof booked,
 *                                        minutes, sizeof minutes, allowed, sizeof allowed,
 *                                        sheet, sizeof sheet);
 *         if (YINQOCHA_FAULT(word) == YINQOCHA_OK)
 *             word = yinqocha_plan(sheet, sizeof sheet, places, sizeof places,
 *                                  loads, sizeof loads, answer, sizeof answer);
 *         if (YINQOCHA_FAULT(word) != YINQOCHA_OK) {
 *             printf("fault %" PRIu32 ", place %" PRIu32 "\n",
 *                    YINQOCHA_FAULT(word), YINQOCHA_VALUE(word));
 *             return 1;
 *         }
 *         printf("target %" PRIu64 ": ", target);
 *         switch (YINQOCHA_VALUE(word)) {
 *         case YINQOCHA_LONG:
 *             printf("job %" PRIu64 " is too long\n", answer[0]);
 *             break;
 *         case YINQOCHA_NONE:
 *             printf("blocking benches");
 *             for (unsigned b = 0; b < YINQOCHA_MAX_BENCHES; b++)
 *                 if (YINQOCHA_HAS_BENCH(answer[0], b))
 *                     printf(" %u", b);
 *             printf(", %" PRIu64 " moves\n", answer[1]);
 *             break;
 *         case YINQOCHA_PLAN:
 *             printf("largest load %" PRIu64 ", %" PRIu64 " moves, fullest bench %" PRIu64 "\n",
 *                    answer[0], answer[1], answer[2]);
 *             for (unsigned j = 0; j < 5; j++)
 *                 printf("job %u on bench %" PRIu64 "\n", j, places[j]);
 *             for (unsigned b = 0; b < 2; b++)
 *                 printf("bench %u has %" PRIu64 " minutes\n", b, loads[b]);
 *             break;
 *         }
 *         return 0;
 *     }
 *
 *     int main(void)
 *     {
 *         return plan(1) || plan(3) || plan(4);
 *     }
 *
 * It prints:
 *
 *     target 1: job 0 is too long
 *     target 3: blocking benches 0 1, 0 moves
 *     target 4: largest load 7, 2 moves, fullest bench 1
 *     job 0 on bench 1
 *     job 1 on bench 1
 *     job 2 on bench 0
 *     job 3 on bench 0
 *     job 4 on bench 0
 *     bench 0 has 6 minutes
 *     bench 1 has 7 minutes
 */
#define YINQOCHA_PLAN 1u
#define YINQOCHA_LONG 2u
#define YINQOCHA_NONE 3u

/* The entries of an answer table. */
#define YINQOCHA_ANSWER_ENTRIES 3u

uint64_t yinqocha_plan(const uint8_t *sheet, size_t sheet_len,
                       void *places, size_t places_len,
                       void *loads, size_t loads_len,
                       void *answer, size_t answer_len);

/*
 * FINDING THE BEST TARGET
 *
 * The search looks for a low target that the planner can vouch for. It plans the sheet with other
 * targets than its own, which is not looked at. The first is the total of all jobs' minutes plus
 * the largest booking, and gives a plan always. The others lie in the middle, rounded down, between
 * the lowest target that gave a plan and the one above the highest that was refused, which is 0
 * before any was; long and none both refuse a target. Where the two meet the search ends, after 31
 * targets at the most. There is an answer for every sheet without a fault.
 *
 * What holds of the target that is returned:
 *
 *   - Planning the sheet with this target gives the plan that is returned.
 *   - The target is 0, or planning with the target one below gives long or none.
 *   - No assignment has all loads below the target: every assignment has a largest load of at
 *     least the target.
 *   - So the plan's largest load is within (5/3 + p/(3q)) times the best possible one:
 *     3q * load <= (5q + p) * (the largest load of any assignment)
 *
 * Refusal is not monotone: a target that is lower by two or more may give a plan too, and one that
 * is higher may be refused. The search knows only the targets that it ran.
 *
 * In:
 *   sheet     the bytes of a sheet, with any target
 *
 * Out:
 *   places    a table: entry j is the bench of job j
 *   loads     a table: entry b is the load of bench b in minutes, its booking included
 *   answer    a table of five entries: the target; the largest load, the moves made and the fullest
 *             bench of the plan with this target; the number of targets run, 1 to 31
 *   result    YINQOCHA_BEST
 *
 * Every table must have its room whatever the answer will be: places one entry for each job, loads
 * one for each bench, answer five. Later bytes of a table keep their contents.
 *
 * Faults: those of planning in the same order, 1, then 2 to 9, 11, 14 and 15 frame by frame, then
 * 12, then 13. After a fault all three tables keep their contents. YINQOCHA_MAX_JOBS places and
 * YINQOCHA_MAX_BENCHES loads always have room.
 *
 * Example: the jobs and bookings of the example above. A target has to be given and is not used.
 *
 *     #include "yinqocha.h"
 *
 *     #include <inttypes.h>
 *     #include <stdio.h>
 *
 *     int main(void)
 *     {
 *         const uint64_t both = YINQOCHA_BENCH(0) | YINQOCHA_BENCH(1);
 *         const uint64_t booked[] = { 2, 3 };
 *         const uint64_t minutes[] = { 2, 2, 2, 2, 0 };
 *         const uint64_t allowed[] = { both, both, both, both, both };
 *         uint8_t sheet[YINQOCHA_SHEET_BYTES(2, 5)];
 *         uint64_t places[5], loads[2], answer[YINQOCHA_BEST_ENTRIES];
 *
 *         uint64_t word = yinqocha_write(2, 4, 7, 0, booked, sizeof booked,
 *                                        minutes, sizeof minutes, allowed, sizeof allowed,
 *                                        sheet, sizeof sheet);
 *         if (YINQOCHA_FAULT(word) == YINQOCHA_OK)
 *             word = yinqocha_best(sheet, sizeof sheet, places, sizeof places,
 *                                  loads, sizeof loads, answer, sizeof answer);
 *         if (YINQOCHA_FAULT(word) != YINQOCHA_OK) {
 *             printf("fault %" PRIu32 ", place %" PRIu32 "\n",
 *                    YINQOCHA_FAULT(word), YINQOCHA_VALUE(word));
 *             return 1;
 *         }
 *         printf("target %" PRIu64 " after %" PRIu64 " runs\n", answer[0], answer[4]);
 *         printf("largest load %" PRIu64 ", %" PRIu64 " moves, fullest bench %" PRIu64 "\n",
 *                answer[1], answer[2], answer[3]);
 *         for (unsigned j = 0; j < 5; j++)
 *             printf("job %u on bench %" PRIu64 "\n", j, places[j]);
 *         for (unsigned b = 0; b < 2; b++)
 *             printf("bench %u has %" PRIu64 " minutes\n", b, loads[b]);
 *         return 0;
 *     }
 *
 * It prints:
 *
 *     target 4 after 5 runs
 *     largest load 7, 2 moves, fullest bench 1
 *     job 0 on bench 1
 *     job 1 on bench 1
 *     job 2 on bench 0
 *     job 3 on bench 0
 *     job 4 on bench 0
 *     bench 0 has 6 minutes
 *     bench 1 has 7 minutes
 */
#define YINQOCHA_BEST 1u

/* The entries of an answer table of the best target. */
#define YINQOCHA_BEST_ENTRIES 5u

uint64_t yinqocha_best(const uint8_t *sheet, size_t sheet_len,
                       void *places, size_t places_len,
                       void *loads, size_t loads_len,
                       void *answer, size_t answer_len);

/*
 * COMPARING TWO PLANS
 *
 * Two plans of one sheet are the same when every job is on the same bench, also each job of 0
 * minutes. Plans that are the same have equal loads on every bench. Plans with equal loads need not
 * be the same: two jobs of equal minutes may have changed places, or a job of 0 minutes may be
 * elsewhere. Minutes, bookings and the target play no part in it.
 *
 * In:
 *   sheet     the bytes of a sheet
 *   first     a table: entry j is the bench of job j in the first plan
 *   second    the same for the second plan
 *
 * Each list has one entry for each job, no more and no fewer; pass 8 * jobs bytes of a longer
 * table. The lists need not come from yinqocha_plan(), and both may be one buffer.
 *
 * Out:
 *   result    YINQOCHA_SAME       every job is on the same bench
 *             YINQOCHA_DIFFERENT  some job is not
 *
 * Faults: those of the sheet, 1 to 9, 11, 12, 14 and 15 as above; then 13, here
 * YINQOCHA_NO_ASSIGNMENT, with place 0 if the first list does not give each job one bench that it
 * allows, and then 13 with place 1 if the second does not. A bench that the job does not allow is a
 * fault, not a difference.
 *
 * In the example lists 0, 1 and 2 have equal loads, 10 minutes on bench 0 and 5 on bench 1: in list
 * 1 two jobs of 5 minutes have changed places, in list 2 only the check is elsewhere.
 *
 * Example: three jobs of 5 minutes and a check on bench 0 or 1, and five lists of places.
 *
 *     #include "yinqocha.h"
 *
 *     #include <inttypes.h>
 *     #include <stdio.h>
 *
 *     int main(void)
 *     {
 *         const uint64_t both = YINQOCHA_BENCH(0) | YINQOCHA_BENCH(1);
 *         const uint64_t minutes[] = { 5, 5, 5, 0 };
 *         const uint64_t allowed[] = { both, both, both, both };
 *         const uint64_t lists[5][4] = { { 0, 0, 1, 0 }, { 1, 0, 0, 0 }, { 0, 0, 1, 1 },
 *                                        { 0, 1, 1, 0 }, { 0, 0, 2, 0 } };
 *         uint8_t sheet[YINQOCHA_SHEET_BYTES(0, 4)];
 *
 *         uint64_t word = yinqocha_write(2, 4, 7, 9, NULL, 0, minutes, sizeof minutes,
 *                                        allowed, sizeof allowed, sheet, sizeof sheet);
 *         if (YINQOCHA_FAULT(word) != YINQOCHA_OK) {
 *             printf("fault %" PRIu32 ", place %" PRIu32 "\n",
 *                    YINQOCHA_FAULT(word), YINQOCHA_VALUE(word));
 *             return 1;
 *         }
 *         for (unsigned n = 0; n < 5; n++) {
 *             word = yinqocha_compare(sheet, sizeof sheet, lists[0], sizeof lists[0],
 *                                     lists[n], sizeof lists[n]);
 *             if (YINQOCHA_FAULT(word) == YINQOCHA_NO_ASSIGNMENT)
 *                 printf("0 and %u: the %s is no assignment\n", n,
 *                        YINQOCHA_VALUE(word) == 0 ? "first" : "second");
 *             else if (YINQOCHA_FAULT(word) != YINQOCHA_OK)
 *                 printf("0 and %u: the sheet has fault %" PRIu32 "\n", n, YINQOCHA_FAULT(word));
 *             else
 *                 printf("0 and %u: %s\n", n,
 *                        YINQOCHA_VALUE(word) == YINQOCHA_SAME ? "the same" : "different");
 *         }
 *         return 0;
 *     }
 *
 * It prints:
 *
 *     0 and 0: the same
 *     0 and 1: different
 *     0 and 2: different
 *     0 and 3: different
 *     0 and 4: the second is no assignment
 */
#define YINQOCHA_DIFFERENT 0u
#define YINQOCHA_SAME 1u

uint64_t yinqocha_compare(const uint8_t *sheet, size_t sheet_len,
                          const void *first, size_t first_len,
                          const void *second, size_t second_len);

/*
 * CHECKING A PLAN
 *
 * A plan may come from elsewhere, such as from a supplier. The checker holds its list of places
 * against the sheet and the sheet's own target T: the list is passed if and only if
 *
 *   - each job is on a bench that it allows, and
 *   - no bench is loaded above the bound, 3q * load <= (5q + p) * T, its booked minutes included.
 *
 * A plan of yinqocha_plan() always passes for the same sheet, with the same largest load and the
 * same fullest bench, and one of yinqocha_best() passes for the sheet with the target found. A job
 * longer than T is no reason to fail by itself: if its bench is within the bound, the list passes.
 *
 * In:
 *   sheet     the bytes of a sheet
 *   places    a table: entry j is the bench of job j. An entry that is no bench at all, such as 64,
 *             is a bench that the job does not allow.
 *
 * The list has one entry for each job, no more and no fewer; pass 8 * jobs bytes of a longer table.
 *
 * Out:
 *   answer    a table of two entries:
 *
 *                          first entry       second entry
 *             passed       the largest load  the fullest bench, the lowest if several are as full
 *             not passed   0                 0
 *
 *             Later bytes keep their contents.
 *   result    YINQOCHA_PASSED or YINQOCHA_NOT_PASSED
 *
 * Faults: those of the sheet, 1 to 9, 11, 12, 14 and 15 as above; then 13 if the answer has fewer
 * than two entries; then 16 if the list does not have one place a job. After a fault the answer
 * keeps its contents.
 *
 * In the example the target is 8, and a load of up to 14 is within the bound.
 *
 * Example: three jobs of 5 minutes on bench 0 or 1, bench 1 booked for 4, and four lists of places.
 *
 *     #include "yinqocha.h"
 *
 *     #include <inttypes.h>
 *     #include <stdio.h>
 *
 *     int main(void)
 *     {
 *         const uint64_t both = YINQOCHA_BENCH(0) | YINQOCHA_BENCH(1);
 *         const uint64_t booked[] = { 0, 4 };
 *         const uint64_t minutes[] = { 5, 5, 5 };
 *         const uint64_t allowed[] = { both, both, both };
 *         const uint64_t lists[4][3] = { { 0, 0, 1 }, { 0, 1, 1 }, { 0, 0, 0 }, { 0, 0, 2 } };
 *         uint8_t sheet[YINQOCHA_SHEET_BYTES(1, 3)];
 *         uint64_t answer[YINQOCHA_CHECK_PLAN_ENTRIES];
 *
 *         uint64_t word = yinqocha_write(2, 4, 7, 8, booked, sizeof booked,
 *                                        minutes, sizeof minutes, allowed, sizeof allowed,
 *                                        sheet, sizeof sheet);
 *         for (unsigned n = 0; n < 4 && YINQOCHA_FAULT(word) == YINQOCHA_OK; n++) {
 *             word = yinqocha_check_plan(sheet, sizeof sheet, lists[n], sizeof lists[n],
 *                                        answer, sizeof answer);
 *             if (word == YINQOCHA_PASSED)
 *                 printf("list %u: passed, %" PRIu64 " minutes on bench %" PRIu64 "\n", n,
 *                        answer[0], answer[1]);
 *             else if (word == YINQOCHA_NOT_PASSED)
 *                 printf("list %u: not passed\n", n);
 *         }
 *         if (YINQOCHA_FAULT(word) == YINQOCHA_OK)
 *             word = yinqocha_check_plan(sheet, sizeof sheet, lists[0], 2 * sizeof lists[0][0],
 *                                        answer, sizeof answer);
 *         printf("fault %" PRIu32 ", place %" PRIu32 "\n",
 *                YINQOCHA_FAULT(word), YINQOCHA_VALUE(word));
 *         return 0;
 *     }
 *
 * It prints:
 *
 *     list 0: passed, 10 minutes on bench 0
 *     list 1: passed, 14 minutes on bench 1
 *     list 2: not passed
 *     list 3: not passed
 *     fault 16, place 0
 */
#define YINQOCHA_NOT_PASSED 0u
#define YINQOCHA_PASSED 1u

/* The entries of an answer table of a checked plan. */
#define YINQOCHA_CHECK_PLAN_ENTRIES 2u

uint64_t yinqocha_check_plan(const uint8_t *sheet, size_t sheet_len,
                             const void *places, size_t places_len,
                             void *answer, size_t answer_len);

/*
 * CHECKING A BLOCKING SET
 *
 * The checker says whether a set of benches is blocking for the sheet and its own target T. Where
 * no job is longer than T, a heavy job, of more than p/q of T minutes, allows at most two benches.
 * A placement puts each heavy job on a bench that it allows, no bench taking two. A set of k
 * benches is blocking if in every placement
 *
 *     the heavy jobs placed inside it
 *     + all light jobs whose benches all lie inside it
 *     + the booked minutes of its benches
 *
 * weigh more than k * T. Where no placement exists, every set is blocking. If a set is blocking, no
 * assignment keeps every bench within T; there may be a plan all the same, which goes beyond T up
 * to its bound. The blocking set of a none of yinqocha_plan() always passes for the same sheet.
 *
 * In:
 *   sheet     the bytes of a sheet
 *   set       the benches, the sum of YINQOCHA_BENCH(b) over the benches b of the set, at least one
 *
 * Out:
 *   answer    a table of one entry: for long the lowest job that has more than T minutes, otherwise
 *             0. Later bytes keep their contents.
 *   result    YINQOCHA_PASSED      the set is blocking
 *             YINQOCHA_NOT_PASSED  it is not
 *             YINQOCHA_LONG        a job has more than T minutes: the set is not judged, and no
 *                                  assignment keeps every bench within T
 *
 * Faults: those of the sheet, 1 to 9, 11, 12, 14 and 15 as above; then 13 if the answer has no
 * entry; then 17, with place 0 if the set is empty, otherwise with the lowest bench of it that the
 * head lacks. After a fault the answer keeps its contents.
 *
 * In the example there are three jobs of 5 minutes on bench 0 or 1. With target 8 they are heavy,
 * and no placement puts three of them on two benches. With target 9 they are light, and 15 is not
 * more than 2 * 9; with 4 minutes booked on bench 1 as well, 19 is.
 *
 * Example: the set of benches 0 and 1, with several targets and bookings, and a bench too many.
 *
 *     #include "yinqocha.h"
 *
 *     #include <inttypes.h>
 *     #include <stdio.h>
 *
 *     static void check(uint64_t target, uint64_t on_bench_1, uint64_t set)
 *     {
 *         const uint64_t both = YINQOCHA_BENCH(0) | YINQOCHA_BENCH(1);
 *         const uint64_t booked[] = { 0, on_bench_1 };
 *         const uint64_t minutes[] = { 5, 5, 5 };
 *         const uint64_t allowed[] = { both, both, both };
 *         uint8_t sheet[YINQOCHA_SHEET_BYTES(1, 3)];
 *         uint64_t answer[YINQOCHA_CHECK_SET_ENTRIES];
 *
 *         uint64_t word = yinqocha_write(3, 4, 7, target, booked, sizeof booked,
 *                                        minutes, sizeof minutes, allowed, sizeof allowed,
 *                                        sheet, sizeof sheet);
 *         if (YINQOCHA_FAULT(word) == YINQOCHA_OK)
 *             word = yinqocha_check_set(sheet, YINQOCHA_VALUE(word), set, answer, sizeof answer);
 *         printf("target %" PRIu64 ", booked %" PRIu64 ": ", target, on_bench_1);
 *         if (YINQOCHA_FAULT(word) != YINQOCHA_OK)
 *             printf("fault %" PRIu32 ", place %" PRIu32 "\n",
 *                    YINQOCHA_FAULT(word), YINQOCHA_VALUE(word));
 *         else if (YINQOCHA_VALUE(word) == YINQOCHA_LONG)
 *             printf("job %" PRIu64 " is too long\n", answer[0]);
 *         else
 *             printf("%s\n", YINQOCHA_VALUE(word) == YINQOCHA_PASSED ? "passed" : "not passed");
 *     }
 *
 *     int main(void)
 *     {
 *         const uint64_t both = YINQOCHA_BENCH(0) | YINQOCHA_BENCH(1);
 *         check(4, 0, both);
 *         check(8, 0, both);
 *         check(9, 0, both);
 *         check(9, 4, both);
 *         check(9, 4, both | YINQOCHA_BENCH(3));
 *         return 0;
 *     }
 *
 * It prints:
 *
 *     target 4, booked 0: job 0 is too long
 *     target 8, booked 0: passed
 *     target 9, booked 0: not passed
 *     target 9, booked 4: passed
 *     target 9, booked 4: fault 17, place 3
 */

/* The entries of an answer table of a checked set. The result may be YINQOCHA_LONG too. */
#define YINQOCHA_CHECK_SET_ENTRIES 1u

uint64_t yinqocha_check_set(const uint8_t *sheet, size_t sheet_len, uint64_t set,
                            void *answer, size_t answer_len);

/*
 * CHECKING A PAGE OF SETS
 *
 * A page has any number of sets, such as all that one fleet sends. It is passed if and only if
 * every set on it is blocking for the sheet and its own target T, as above, and no two share a
 * bench; two that do are fault 18. A page of one set passes exactly if yinqocha_check_set() passes
 * that set.
 *
 * Two blocking sets that share no bench make one, in any order and grouping. So the union of a
 * passed page that has at least one set is blocking: yinqocha_check_set() passes it, and no
 * assignment keeps every bench within T. An empty page is passed, and says nothing about T.
 *
 * In:
 *   sheet     the bytes of a sheet
 *   page      a table: entry i is set i, the sum of YINQOCHA_BENCH(b) over its benches b, at least
 *             one. NULL with length 0 is an empty page.
 *
 * A page without a fault has at most 64 sets. A longer one has a fault at set 64 at the latest, and
 * no entry behind that one is looked at. A begun entry counts as a set; the bytes that it lacks are
 * those of its lowest benches.
 *
 * Out:
 *   answer    a table of one entry:
 *
 *             passed       0
 *             not passed   the first set that is not blocking, by its number on the page
 *             long         the lowest job that has more than T minutes
 *
 *             Later bytes keep their contents.
 *   result    YINQOCHA_PASSED      every set is blocking, or there is none
 *             YINQOCHA_NOT_PASSED  some set is not
 *             YINQOCHA_LONG        a job has more than T minutes: no set is judged, and no
 *                                  assignment keeps every bench within T; also if the page is empty
 *
 * Faults: those of the sheet, 1 to 9, 11, 12, 14 and 15 as above; then 13 if the answer has no
 * entry; then for each set in page order 17, if it is empty or has a bench that the head lacks, and
 * 18, if it shares a bench with an earlier set. The place of both is the set's number, from 0.
 * After a fault the answer keeps its contents.
 *
 * In the example benches 0 and 2 are booked for 9 minutes, and bench 1 has a job of 8. With target
 * 8 benches 0 and 2 are blocking, each by itself, and bench 1 is not, for 8 is not more than 8.
 *
 * Example: pages of four benches with target 8, then one with target 7.
 *
 *     #include "yinqocha.h"
 *
 *     #include <inttypes.h>
 *     #include <stdio.h>
 *
 *     static void check(uint64_t target, const uint64_t *page, size_t page_len)
 *     {
 *         const uint64_t booked[] = { 9, 0, 9 };
 *         const uint64_t minutes[] = { 8 };
 *         const uint64_t allowed[] = { YINQOCHA_BENCH(1) };
 *         uint8_t sheet[YINQOCHA_SHEET_BYTES(2, 1)];
 *         uint64_t answer[YINQOCHA_CHECK_PAGE_ENTRIES];
 *
 *         uint64_t word = yinqocha_write(4, 4, 7, target, booked, sizeof booked,
 *                                        minutes, sizeof minutes, allowed, sizeof allowed,
 *                                        sheet, sizeof sheet);
 *         if (YINQOCHA_FAULT(word) == YINQOCHA_OK)
 *             word = yinqocha_check_page(sheet, sizeof sheet, page, page_len,
 *                                        answer, sizeof answer);
 *         if (YINQOCHA_FAULT(word) != YINQOCHA_OK)
 *             printf("fault %" PRIu32 ", set %" PRIu32 "\n",
 *                    YINQOCHA_FAULT(word), YINQOCHA_VALUE(word));
 *         else if (YINQOCHA_VALUE(word) == YINQOCHA_LONG)
 *             printf("job %" PRIu64 " is too long\n", answer[0]);
 *         else if (YINQOCHA_VALUE(word) == YINQOCHA_NOT_PASSED)
 *             printf("set %" PRIu64 " is not blocking\n", answer[0]);
 *         else
 *             printf("passed\n");
 *     }
 *
 *     int main(void)
 *     {
 *         const uint64_t pages[4][2] = {
 *             { YINQOCHA_BENCH(0), YINQOCHA_BENCH(2) },
 *             { YINQOCHA_BENCH(0), YINQOCHA_BENCH(1) },
 *             { YINQOCHA_BENCH(0), YINQOCHA_BENCH(0) | YINQOCHA_BENCH(2) },
 *             { YINQOCHA_BENCH(0), YINQOCHA_BENCH(4) },
 *         };
 *         check(8, NULL, 0);
 *         for (unsigned n = 0; n < 4; n++)
 *             check(8, pages[n], sizeof pages[n]);
 *         check(7, pages[0], sizeof pages[0]);
 *         return 0;
 *     }
 *
 * It prints:
 *
 *     passed
 *     passed
 *     set 1 is not blocking
 *     fault 18, set 1
 *     fault 17, set 1
 *     job 0 is too long
 */

/* The entries of an answer table of a checked page. The result may be YINQOCHA_LONG too. */
#define YINQOCHA_CHECK_PAGE_ENTRIES 1u

uint64_t yinqocha_check_page(const uint8_t *sheet, size_t sheet_len,
                             const void *page, size_t page_len,
                             void *answer, size_t answer_len);

#ifdef __cplusplus
}
#endif

#endif /* YINQOCHA_H */
