/*
 * papers.h - lists of places and pages of sets, as they come from elsewhere
 *
 * A list of places is what `plan` prints with --lines or with --csv, or the same made elsewhere:
 *   - lines of a job's number and a bench (number or name), after a first line that begins with
 *     `plan`, or two that begin with `best` and `plan`, if there are such; blank lines and comments
 *     (#) do not count;
 *   - or a CSV table with a column `bench`, and a column `job` (number) or, without one, `name`;
 *     where both stand, the name is that of the job, so that a list of another day is seen.
 * A job stands once. The list ends behind the highest job that it has, and every job below that one
 * is in it; whether it is as long as the day has jobs is for the library to say.
 *
 * A page of sets has a list of benches (benches.h) a line; blank lines and comments do not count. A
 * line that begins with `none` and a number of moves, as `plan` prints it with --lines, has its
 * benches behind them with blanks between.
 */

#ifndef DESK_PAPERS_H
#define DESK_PAPERS_H

#include "day/day.h"

/* A list or a page, as a table for the library. */
struct table {
    uint64_t *entries;
    size_t count, room;
};

#define TABLE_EMPTY { NULL, 0, 0 }

void table_add(struct table *table, uint64_t entry);
void table_free(struct table *table);

/* Both return whether all was well; otherwise messages say what was not. */
bool list_read(const struct day *day, const char *path, struct table *list,
               struct messages *messages);
bool page_read(const struct day *day, const char *path, struct table *page,
               struct messages *messages);

/* The same of bytes that were read already. */
bool list_read_bytes(const struct day *day, const char *path, const char *bytes, size_t len,
                     struct table *list, struct messages *messages);
bool page_read_bytes(const struct day *day, const char *path, const char *bytes, size_t len,
                     struct table *page, struct messages *messages);

#endif
