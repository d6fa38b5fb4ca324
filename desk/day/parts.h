/*
 * parts.h - what read.h is made of: the readers of text and of CSV, and the sheet of a day
 */

#ifndef DESK_PARTS_H
#define DESK_PARTS_H

#include "day/read.h"

/* Whether bytes are a table of jobs: the first row that is not blank has its columns. */
bool csv_of_jobs(const char *bytes, size_t len);

/* Reads the lines of a day. */
void day_read_text(const char *bytes, size_t len, enum day_parts parts, struct day *day,
                   struct messages *messages);

/* Adds the jobs of a CSV file; `file` is its number among the day's files. */
void day_read_csv(const char *bytes, size_t len, size_t file, struct day *day,
                  struct messages *messages);

/* Adds a job to a day; its name, minutes and benches have been read. A message and no job where
 * there are 512 already or another has its name. */
bool day_add_job(struct day *day, const char *name, size_t name_len, uint64_t minutes,
                 uint64_t allowed, struct origin name_origin, struct origin benches_origin,
                 struct messages *messages);

/* Has the library judge the share of a day whose text has other errors, so that all are told in one
 * go. */
void day_judge_share(const struct day *day, struct messages *messages);

/* Has the library write the sheet of a day of text. Each fault that it finds has a message: of jobs
 * that are too long for three or more benches all of them, otherwise the first. */
enum day_read day_write_sheet(struct day *day, struct messages *messages);

/* Has the library read a sheet. Takes a copy of the bytes. */
enum day_read day_read_sheet(const char *bytes, size_t len, struct day *day,
                             struct messages *messages);

#endif
