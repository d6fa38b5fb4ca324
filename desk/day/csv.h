/*
 * csv.h - tables as spreadsheets save them
 *
 * Cells one after another, each with the place in the file where it begins. RFC 4180, with ; or a
 * tab for the comma, and CR alone for a line end.
 */

#ifndef DESK_CSV_H
#define DESK_CSV_H

#include "base/messages.h"
#include "base/text.h"

#include <stdbool.h>
#include <stddef.h>

struct csv {
    const char *bytes, *file;
    size_t len, at;
    size_t line, column;
    char separator;
};

/* A cell without its quotes, and the place of its first character inside of them. `blank` is true
 * if it has nothing but blanks and had no quotes. */
struct cell {
    struct text value;
    size_t line, column;
    bool blank;
};

/* The cells of a row; `bad` if a quote was out of place or not closed, which has a message. */
struct row {
    struct cell *cells;
    size_t count, room;
    bool bad;
};

#define ROW_EMPTY { NULL, 0, 0, false }

/* The table in some bytes; a byte order mark in front is passed over. */
struct csv csv_of(const char *file, const char *bytes, size_t len, char separator);

/* The next row in place of the one before; false behind the last. */
bool csv_next(struct csv *csv, struct row *row, struct messages *messages);

void row_free(struct row *row);

/* The number of the column whose header is one of the two names, in ASCII letters of either case
 * and without blanks around; the number of columns if there is none. `other` may be NULL. */
size_t row_column(const struct row *row, const char *name, const char *other);

/* Columns that a table has, each by one of two names, the other of which may be NULL. */
struct wanted {
    const char *name, *other;
};

/* The separator, of ; , and tab, with which the first row that is not blank has the most of some
 * columns; how many it has. */
char csv_separator(const char *bytes, size_t len, const struct wanted *wanted, size_t count,
                   size_t *found);

/* The column of a header row by one name, as row_column() has it, and a message if it stands there
 * twice. */
size_t csv_column(const char *file, const struct row *header, const char *name,
                  struct messages *messages);

/* Whether a row has nothing but blanks in its cells. */
bool row_blank(const struct row *row);

/* A cell's value without blanks around it, and its place; empty where the row has no such cell. */
const char *cell_value(const struct row *row, size_t column, size_t *len, size_t *at_column);

/* Adds a value as a cell: in quotes if it has the separator, a quote, a line end, or a blank at
 * either end. */
void csv_render(const char *value, size_t len, char separator, struct text *text);

#endif
