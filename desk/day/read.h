/*
 * read.h - days out of files
 *
 * A file with a byte of 0 in it, or whose name ends in `.sheet`, is a sheet; any other is text.
 * Every sheet without a fault has such a byte, and no text has one.
 *
 * A day of text has one item a line; a # outside of quotes begins a comment, a line may be blank or
 * have nothing but a comment, lines end in LF or CR LF, and the text is UTF-8 with or without a
 * byte order mark. The first word of a line says what it is:
 *
 *     benches 6                        six benches, 0 to 5
 *     benches North, South, "Rig #3"   three benches with names, which are numbers 0, 1 and 2
 *     share 4/7                        the share p/q
 *     target 480                       the target in minutes
 *     booked North 60                  minutes booked on a bench before the day begins
 *     job "Axle 12, front" 45 0,2,5-7  a job: name, minutes, benches
 *     jobs monday.csv                  the jobs of a CSV file, beside the day's own file
 *
 * `benches` stands before all bookings and jobs. `benches`, `share` and `target` stand once each, a
 * bench is booked once at most, names of benches differ from each other and so do those of jobs.
 * Jobs are numbered in the order in which they stand. A bench's name is no number, no range of
 * numbers and not `all`. A name with a blank, a comma, a quote or a # is in double quotes, and a
 * quote in it is doubled; in a list of benches blanks inside a name need no quotes. An only bench
 * whose name begins like a number has it in quotes, so that `benches 1e3` is no name. All of the
 * text, comments too, has nothing but characters that can be printed, blanks and tabs.
 *
 * A CSV file of jobs has a header row with the columns name (or job), minutes and benches in any
 * order, in ASCII letters of either case; other columns are passed over. Its separator is the one
 * of ; , and tab with which the header row has these columns. Cells may be in double quotes, where
 * separators, doubled quotes and line ends stand for themselves; rows end in LF, CR LF or CR; a row
 * without anything in its cells is passed over; a byte order mark may stand in front. Blanks around
 * a cell do not count. A row has nothing behind the columns of the header row: that is where a list
 * of benches goes whose commas were taken for separators.
 */

#ifndef DESK_READ_H
#define DESK_READ_H

#include "day/day.h"

enum day_read {
    DAY_READ,  /* the day is whole, and the library has written or accepted its sheet */
    DAY_FAULT, /* the library refused it; each message has a fault, the first of them first */
    DAY_BAD    /* the text is wrong, or a file could not be read; no message has a fault */
};

/* What of a day need not be there: a target, for the best target is found without one. A day
 * without one has the target 0. */
enum day_parts { DAY_WHOLE, DAY_WITHOUT_TARGET };

/* Reads the day of a file, "-" for standard input. All that is wrong is added to the messages; with
 * anything else than DAY_READ the day is fit for day_free() and for its file names only. */
enum day_read day_read(const char *path, enum day_parts parts, struct day *day,
                       struct messages *messages);

/* The same of bytes that were read already; `path` tells which file they are, and where the files
 * of jobs are. For tests of the readers. */
enum day_read day_read_bytes(const char *path, const char *bytes, size_t len, enum day_parts parts,
                             struct day *day, struct messages *messages);

#endif
