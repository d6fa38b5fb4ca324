#include "day/csv.h"

#include "base/utf8.h"
#include "day/scan.h"

#include <stdlib.h>
#include <string.h>

/* More cells than any spreadsheet has columns. */
#define MOST_CELLS 16384

struct csv csv_of(const char *file, const char *bytes, size_t len, char separator)
{
    return (struct csv){ bytes, file, len, byte_order_mark(bytes, len), 1, 1, separator };
}

void row_free(struct row *row)
{
    for (size_t n = 0; n < row->room; n++)
        text_free(&row->cells[n].value);
    free(row->cells);
    *row = (struct row)ROW_EMPTY;
}

static bool is_line_end(char byte)
{
    return byte == '\n' || byte == '\r';
}

/* Whether the cell ends here. */
static bool at_end(const struct csv *csv)
{
    return csv->at == csv->len || csv->bytes[csv->at] == csv->separator
           || is_line_end(csv->bytes[csv->at]);
}

/* Passes over a line end: LF, CR LF or CR. */
static void pass_line_end(struct csv *csv)
{
    bool both = csv->bytes[csv->at] == '\r' && csv->at + 1 < csv->len
                && csv->bytes[csv->at + 1] == '\n';
    csv->at += both ? 2 : 1;
    csv->line++;
    csv->column = 1;
}

/* Goes on to a later byte of the same line. */
static void pass_to(struct csv *csv, size_t at)
{
    csv->column += utf8_count(csv->bytes + csv->at, at - csv->at);
    csv->at = at;
}

/* Goes on to the end of a cell that has no quotes. */
static void pass_cell(struct csv *csv)
{
    size_t at = csv->at;
    while (at < csv->len && csv->bytes[at] != csv->separator && !is_line_end(csv->bytes[at]))
        at++;
    pass_to(csv, at);
}

static void pass_blanks(struct csv *csv)
{
    while (!at_end(csv) && is_blank(csv->bytes[csv->at]))
        pass_to(csv, csv->at + 1);
}

/* The bytes up to the next quote, line ends and all; false at the end of all. */
static bool quoted_part(struct csv *csv, struct cell *cell)
{
    while (csv->at < csv->len && csv->bytes[csv->at] != '"') {
        size_t from = csv->at, at = from;
        while (at < csv->len && csv->bytes[at] != '"' && !is_line_end(csv->bytes[at]))
            at++;
        pass_to(csv, at);
        if (at < csv->len && is_line_end(csv->bytes[at]))
            pass_line_end(csv);
        text_add(&cell->value, csv->bytes + from, csv->at - from);
    }
    return csv->at < csv->len;
}

/* A cell in quotes; the first is the next byte. False with a message if they are out of place. */
static bool quoted_cell(struct csv *csv, struct cell *cell, struct messages *messages)
{
    size_t line = csv->line, column = csv->column;
    pass_to(csv, csv->at + 1);
    cell->blank = false;
    cell->column = csv->column;
    for (;;) {
        if (!quoted_part(csv, cell)) {
            message_add(messages, csv->file, line, column,
                        "the quote that begins here is not closed: expected another \" at the end "
                        "of the cell");
            return false;
        }
        pass_to(csv, csv->at + 1);
        if (csv->at == csv->len || csv->bytes[csv->at] != '"')
            break;
        text_byte(&cell->value, '"');
        pass_to(csv, csv->at + 1);
    }
    pass_blanks(csv);
    if (at_end(csv))
        return true;
    message_add(messages, csv->file, csv->line, csv->column,
                "expected the end of the cell behind its closing quote (a quote inside of quotes "
                "is doubled)");
    pass_cell(csv);
    return false;
}

/* A cell without quotes. */
static bool plain_cell(struct csv *csv, struct cell *cell, struct messages *messages)
{
    const char *bytes = csv->bytes + csv->at;
    pass_cell(csv);
    size_t len = (size_t)(csv->bytes + csv->at - bytes);
    text_add(&cell->value, bytes, len);
    for (size_t at = 0; at < len; at++)
        cell->blank = cell->blank && is_blank(bytes[at]);
    if (len == 0 || memchr(bytes, '"', len) == NULL)
        return true;
    complain(messages, (struct spot){ csv->file, cell->line, cell->column }, bytes, len,
             " has a quote inside: a cell with a quote stands in quotes, with its own doubled");
    return false;
}

/* The next cell, of which nothing is kept from before but its memory. */
static bool cell_next(struct csv *csv, struct cell *cell, struct messages *messages)
{
    cell->value.len = 0;
    text_add(&cell->value, "", 0);
    cell->line = csv->line;
    cell->column = csv->column;
    cell->blank = true;
    struct csv behind = *csv;
    pass_blanks(&behind);
    if (behind.at == csv->len || csv->bytes[behind.at] != '"')
        return plain_cell(csv, cell, messages);
    *csv = behind;
    return quoted_cell(csv, cell, messages);
}

/* Room for one more cell, or NULL. */
static struct cell *row_room(struct row *row)
{
    if (row->count == MOST_CELLS)
        return NULL;
    if (row->count == row->room) {
        size_t room = row->room > 0 ? 2 * row->room : 8;
        row->cells = memory_resize(row->cells, room, sizeof *row->cells);
        memset(row->cells + row->room, 0, (room - row->room) * sizeof *row->cells);
        row->room = room;
    }
    return &row->cells[row->count++];
}

bool csv_next(struct csv *csv, struct row *row, struct messages *messages)
{
    row->count = 0;
    row->bad = false;
    if (csv->at == csv->len)
        return false;
    struct cell left = { TEXT_EMPTY, 0, 0, false };
    for (;;) {
        struct cell *cell = row_room(row);
        if (cell == NULL && !row->bad) {
            message_add(messages, csv->file, csv->line, csv->column,
                        "the row has more than %d cells", MOST_CELLS);
            row->bad = true;
        }
        if (!cell_next(csv, cell != NULL ? cell : &left, messages))
            row->bad = true;
        if (csv->at == csv->len || csv->bytes[csv->at] != csv->separator)
            break;
        pass_to(csv, csv->at + 1);
    }
    text_free(&left.value);
    if (csv->at < csv->len)
        pass_line_end(csv);
    return true;
}

size_t row_column(const struct row *row, const char *name, const char *other)
{
    size_t n = 0;
    for (; n < row->count; n++) {
        struct spot spot = { NULL, 0, 0 };
        const char *bytes = text_string(&row->cells[n].value);
        size_t len = row->cells[n].value.len;
        trim_blanks(&bytes, &len, &spot);
        if (same_letters(bytes, len, name) || (other != NULL && same_letters(bytes, len, other)))
            break;
    }
    return n;
}

bool row_blank(const struct row *row)
{
    for (size_t n = 0; n < row->count; n++) {
        const struct text *value = &row->cells[n].value;
        for (size_t at = 0; at < value->len; at++)
            if (!is_blank(value->bytes[at]))
                return false;
    }
    return true;
}

char csv_separator(const char *bytes, size_t len, const struct wanted *wanted, size_t count,
                   size_t *found)
{
    char separators[] = { ';', ',', '\t' }, best = ';';
    *found = 0;
    for (size_t s = 0; s < sizeof separators; s++) {
        struct messages unheard = MESSAGES_NONE;
        struct row row = ROW_EMPTY;
        struct csv csv = csv_of("", bytes, len, separators[s]);
        while (csv_next(&csv, &row, &unheard) && row_blank(&row))
            continue;
        size_t here = 0;
        for (size_t n = 0; n < count; n++)
            here += row_column(&row, wanted[n].name, wanted[n].other) < row.count ? 1 : 0;
        if (here > *found) {
            *found = here;
            best = separators[s];
        }
        row_free(&row);
        messages_free(&unheard);
    }
    return best;
}

size_t csv_column(const char *file, const struct row *header, const char *name,
                  struct messages *messages)
{
    size_t first = row_column(header, name, NULL);
    if (first == header->count)
        return first;
    struct row behind = { header->cells + first + 1, header->count - first - 1, 0, false };
    size_t again = row_column(&behind, name, NULL);
    if (again < behind.count)
        message_add(messages, file, behind.cells[again].line, behind.cells[again].column,
                    "the column \"%s\" stands here a second time: expected it once", name);
    return first;
}

const char *cell_value(const struct row *row, size_t column, size_t *len, size_t *at_column)
{
    struct spot spot = { NULL, 0, 0 };
    const char *bytes = "";
    *len = 0;
    if (column < row->count) {
        bytes = text_string(&row->cells[column].value);
        *len = row->cells[column].value.len;
        spot.column = row->cells[column].column;
        trim_blanks(&bytes, len, &spot);
    }
    *at_column = spot.column;
    return bytes;
}

void csv_render(const char *value, size_t len, char separator, struct text *text)
{
    bool quotes = len > 0 && (is_blank(value[0]) || is_blank(value[len - 1]));
    for (size_t at = 0; at < len; at++)
        quotes = quotes || value[at] == separator || value[at] == '"' || is_line_end(value[at]);
    if (!quotes) {
        text_add(text, value, len);
        return;
    }
    text_byte(text, '"');
    for (size_t at = 0; at < len; at++) {
        if (value[at] == '"')
            text_byte(text, '"');
        text_byte(text, value[at]);
    }
    text_byte(text, '"');
}
