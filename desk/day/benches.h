/*
 * benches.h - lists of benches in text
 *
 * A list of benches is `all` (in letters of either case, as spreadsheets like to change them), or
 * items with commas between them: a number, a range of numbers such as 5-7, or a bench's name, in
 * double quotes if it has a comma, a quote or a #. Blanks around an item do not count, nor do those
 * around the - of a range. A bench may stand in a list twice.
 */

#ifndef DESK_BENCHES_H
#define DESK_BENCHES_H

#include "day/day.h"

/* Where some text stands, so that messages can tell: `column` is that of its first character. */
struct spot {
    const char *file;
    size_t line, column;
};

/* Reads all of the bytes as a list of benches of the day. Adds a message for each item that is no
 * bench and returns 0 if there was one, or if the list is empty. */
uint64_t benches_read(const struct day *day, const char *bytes, size_t len, struct spot spot,
                      struct messages *messages);

/* Reads all of the bytes as one bench, by number or name; a name needs no quotes here. A number may
 * be that of a bench that the day lacks if `foreign` is true, as in a list of places that somebody
 * else made. False with a message where it is none. */
bool bench_read(const struct day *day, const char *bytes, size_t len, bool foreign,
                struct spot spot, uint64_t *bench, struct messages *messages);

/* Whether an item without quotes is a number, a range of numbers or `all`, and so no name. */
bool benches_reserved(const char *bytes, size_t len);

/* A set as a list by number, such as 0,2,5-7; `all` if it has every bench of the day and the day
 * has more than one. Two neighbours are 0,1 and three are 0-2. */
void benches_render(const struct day *day, uint64_t set, struct text *text);

/* A set as words: "North, South and Rig 3" where the benches have names (one with a comma in it is
 * in quotes), otherwise "bench 7" or "benches 0, 2 and 5-7". */
void benches_words(const struct day *day, uint64_t set, struct text *text);

/* A name in quotes if it needs them to be read back as one item of a list, a job's name or a
 * booked bench; a quote inside is doubled. */
void name_render(const char *name, struct text *text);

/* Whether bytes are a name: valid UTF-8 of 1 to DAY_MOST_NAME bytes without a character that
 * utf8_printable() refuses, no blank at either end. Adds a message that names the first bad
 * character otherwise. `what` is "bench" or "job". */
bool name_check(const char *bytes, size_t len, const char *what, struct spot spot,
                struct messages *messages);

#endif
