/* The jobs of a CSV file. */

#include "day/csv.h"
#include "day/parts.h"
#include "day/scan.h"


static const struct wanted columns_of_jobs[] = {
    { "name", "job" }, { "minutes", NULL }, { "benches", NULL }
};

#define COLUMNS (sizeof columns_of_jobs / sizeof *columns_of_jobs)

/* A table of jobs that is read: the row at hand, and which columns of it are meant. */
struct table_of_jobs {
    struct day *day;
    struct messages *messages;
    size_t file;
    struct row row;
    size_t columns; /* of the header row, up to its last that is not blank */
    size_t name, minutes, benches;
};

bool csv_of_jobs(const char *bytes, size_t len)
{
    size_t found;
    if (begins_with_comment(bytes, len))
        return false;
    csv_separator(bytes, len, columns_of_jobs, COLUMNS, &found);
    return found == COLUMNS;
}

/* Finds the columns; false with a message if one is missing. */
static bool read_header(struct table_of_jobs *table)
{
    const char *file = table->day->file_names[table->file];
    const struct row *row = &table->row;
    table->columns = row->count;
    while (table->columns > 0 && row->cells[table->columns - 1].blank)
        table->columns--;
    table->name = csv_column(file, row, "name", table->messages);
    if (table->name == row->count)
        table->name = csv_column(file, row, "job", table->messages);
    table->minutes = csv_column(file, row, "minutes", table->messages);
    table->benches = csv_column(file, row, "benches", table->messages);
    if (table->name < row->count && table->minutes < row->count && table->benches < row->count)
        return true;
    struct text missing = TEXT_EMPTY;
    const size_t found[COLUMNS] = { table->name, table->minutes, table->benches };
    for (size_t n = 0; n < COLUMNS; n++)
        if (found[n] == row->count)
            text_format(&missing, "%s%s", missing.len > 0 ? ", " : "", columns_of_jobs[n].name);
    message_add(table->messages, file, row->cells[0].line, 0,
                "the header row lacks %s: expected the columns name (or job), minutes and benches, "
                "with ; or , or tabs between them",
                text_string(&missing));
    text_free(&missing);
    return false;
}

/* The lowest of the columns that the row is too short for. */
static size_t first_missing(const struct table_of_jobs *table)
{
    size_t columns[] = { table->name, table->minutes, table->benches }, first = SIZE_MAX;
    for (size_t n = 0; n < COLUMNS; n++)
        if (columns[n] >= table->row.count && columns[n] < first)
            first = columns[n];
    return first;
}

/* A cell of the row and its place; false if the row is too short for it, which is told once. */
static bool cell_of(const struct table_of_jobs *table, size_t column, const char *header,
                    const char **bytes, size_t *len, struct spot *spot)
{
    const struct row *row = &table->row;
    spot->file = table->day->file_names[table->file];
    if (column >= row->count) {
        if (column == first_missing(table))
            message_add(table->messages, spot->file, row->cells[row->count - 1].line, 0,
                        "the row ends before its column %s", header);
        return false;
    }
    spot->line = row->cells[column].line;
    *bytes = cell_value(row, column, len, &spot->column);
    return true;
}

/* Whether nothing stands behind the columns of the header row, which is how a list of benches looks
 * whose commas were taken for separators. */
static bool check_width(const struct table_of_jobs *table)
{
    const struct row *row = &table->row;
    for (size_t n = table->columns; n < row->count; n++)
        if (!row->cells[n].blank) {
            message_add(table->messages, table->day->file_names[table->file], row->cells[n].line,
                        row->cells[n].column,
                        "the row has more cells than the header row, which has %zu: a list of "
                        "benches with the separator in it stands in quotes",
                        table->columns);
            return false;
        }
    return true;
}

static struct origin origin_of(const struct table_of_jobs *table, struct spot spot)
{
    return (struct origin){ table->file, spot.line, spot.column };
}

static void read_row(const struct table_of_jobs *table)
{
    struct messages *messages = table->messages;
    struct spot name_spot, minutes_spot, benches_spot;
    const char *name, *bytes;
    size_t name_len, len;
    uint64_t minutes = 0, allowed = 0;
    if (!check_width(table))
        return;
    bool named = cell_of(table, table->name, "name", &name, &name_len, &name_spot)
                 && name_check(name, name_len, "job", name_spot, messages);
    if (cell_of(table, table->minutes, "minutes", &bytes, &len, &minutes_spot)) {
        if (len == 0)
            message_add(messages, minutes_spot.file, minutes_spot.line, minutes_spot.column,
                        "the minutes are missing: expected a whole number from 0 to %u",
                        YINQOCHA_MAX_MINUTES);
        else
            number_scan(bytes, len, "minutes", YINQOCHA_MAX_MINUTES, minutes_spot, &minutes,
                        messages);
    }
    bool placed = cell_of(table, table->benches, "benches", &bytes, &len, &benches_spot);
    if (placed && table->day->contents.benches > 0)
        allowed = benches_read(table->day, bytes, len, benches_spot, messages);
    if (named && placed)
        day_add_job(table->day, name, name_len, minutes, allowed, origin_of(table, name_spot),
                    origin_of(table, benches_spot), messages);
}

void day_read_csv(const char *bytes, size_t len, size_t file, struct day *day,
                  struct messages *messages)
{
    struct table_of_jobs table = { day, messages, file, ROW_EMPTY, 0, 0, 0, 0 };
    size_t found;
    if (!no_zero_check(day->file_names[file], bytes, len, "a table that was saved as CSV in UTF-8",
                       messages))
        return;
    struct csv csv = csv_of(day->file_names[file], bytes, len,
                            csv_separator(bytes, len, columns_of_jobs, COLUMNS, &found));
    bool more;
    while ((more = csv_next(&csv, &table.row, messages)) && row_blank(&table.row))
        continue;
    if (!more)
        message_add(messages, day->file_names[file], 0, 0,
                    "the file is empty: expected a header row with the columns name, minutes and "
                    "benches");
    else if (!table.row.bad && read_header(&table))
        while (csv_next(&csv, &table.row, messages))
            if (!table.row.bad && !row_blank(&table.row))
                read_row(&table);
    row_free(&table.row);
}
