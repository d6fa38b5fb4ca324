/* Lists of places. */

#include "day/csv.h"
#include "day/papers.h"
#include "day/scan.h"

#include <stdlib.h>
#include <string.h>

/* A list of places that is read: for each job where its place was found, and the bench. */
struct places {
    const struct day *day;
    const char *file;
    struct messages *messages;
    struct piece piece;
    size_t line[YINQOCHA_MAX_JOBS];
    uint64_t bench[YINQOCHA_MAX_JOBS];
    size_t count; /* one more than the highest job */
};

static void place(struct places *places, uint64_t job, uint64_t bench, struct spot spot)
{
    if (places->line[job] > 0) {
        message_add(places->messages, spot.file, spot.line, spot.column,
                    "job %u has a place already: the first is on line %zu", (unsigned)job,
                    places->line[job]);
        return;
    }
    places->line[job] = spot.line;
    places->bench[job] = bench;
    if (job >= places->count)
        places->count = (size_t)job + 1;
}

/* A line of a job's number and a bench. */
static void read_place(struct places *places, struct scan *scan)
{
    uint64_t job, bench;
    enum scanned scanned = scan_word(scan, &places->piece, places->messages);
    struct spot spot = places->piece.spot;
    if (scanned != SCANNED_PIECE
        || !number_piece(&places->piece, "a job", YINQOCHA_MAX_JOBS - 1, &job, places->messages))
        return;
    scan_done(scan);
    if (bench_read(places->day, scan->bytes + scan->at, scan->len - scan->at, true, scan->spot,
                   &bench, places->messages))
        place(places, job, bench, spot);
}

/* The lines of a list, behind those of `best` and `plan` if there are such. */
static void read_lines(struct places *places, const char *bytes, size_t len)
{
    struct lines lines = lines_of(places->file, bytes, len);
    struct scan scan;
    bool clean, more = lines_next(&lines, &scan, &clean, places->messages);
    if (more && scan_begins(&scan, "best"))
        more = lines_next(&lines, &scan, &clean, places->messages);
    if (more && scan_begins(&scan, "plan"))
        more = lines_next(&lines, &scan, &clean, places->messages);
    for (; more; more = lines_next(&lines, &scan, &clean, places->messages))
        if (clean)
            read_place(places, &scan);
}

/* The columns of a table of places; jobs are given by name where there is no column `job`. */
struct columns {
    size_t job, name, bench;
    bool by_name;
};

/* The job of a row by its number or its name; false with a message where it is none. */
static bool read_job(struct places *places, bool by_name, const char *bytes, size_t len,
                     struct spot spot, uint64_t *job)
{
    if (len == 0)
        message_add(places->messages, spot.file, spot.line, spot.column,
                    "the row has a bench and no job: expected a job's %s",
                    by_name ? "name" : "number");
    else if (!by_name)
        return number_scan(bytes, len, "a job", YINQOCHA_MAX_JOBS - 1, spot, job, places->messages);
    else if ((*job = day_find_job(places->day, bytes, len)) < places->day->jobs)
        return true;
    else
        complain(places->messages, spot, bytes, len,
                 " is no job of this day: expected the name of one");
    return false;
}

/* A cell of a row and its place; empty where the row is too short for it. */
static const char *cell_of(const struct places *places, const struct row *row, size_t column,
                           size_t *len, struct spot *spot)
{
    spot->file = places->file;
    spot->line = row->cells[column < row->count ? column : row->count - 1].line;
    return cell_value(row, column, len, &spot->column);
}

/* A list that has a job's number and its name has the name that the job has on this day: otherwise
 * it belongs to another one. False with a message where it has not. */
static bool check_name(struct places *places, const struct row *row, size_t column, uint64_t job)
{
    struct spot spot;
    size_t len;
    const char *bytes = cell_of(places, row, column, &len, &spot);
    const char *name = job < places->day->jobs ? places->day->job[job].name : NULL;
    if (len == 0 || name == NULL || (strlen(name) == len && memcmp(name, bytes, len) == 0))
        return true;
    struct text own = TEXT_EMPTY;
    excerpt(name, strlen(name), &own);
    complain(places->messages, spot, bytes, len,
             " is not job %u of this day, which is %s: expected a list that was made for it",
             (unsigned)job, text_string(&own));
    text_free(&own);
    return false;
}

static void read_row(struct places *places, const struct row *row, const struct columns *columns)
{
    struct spot job_spot, bench_spot;
    size_t job_len, bench_len;
    uint64_t job, bench;
    const char *job_bytes = cell_of(places, row, columns->job, &job_len, &job_spot);
    const char *bench_bytes = cell_of(places, row, columns->bench, &bench_len, &bench_spot);
    if (job_len == 0 && bench_len == 0)
        return;
    bool known = read_job(places, columns->by_name, job_bytes, job_len, job_spot, &job);
    if (known && !columns->by_name)
        known = check_name(places, row, columns->name, job);
    if (bench_read(places->day, bench_bytes, bench_len, true, bench_spot, &bench, places->messages)
        && known)
        place(places, job, bench, job_spot);
}

/* The columns of the header row; false with a message where one is missing. */
static bool read_header(struct places *places, const struct row *row, struct columns *columns)
{
    columns->job = csv_column(places->file, row, "job", places->messages);
    columns->name = csv_column(places->file, row, "name", places->messages);
    columns->by_name = columns->job == row->count;
    if (columns->by_name)
        columns->job = columns->name;
    columns->bench = csv_column(places->file, row, "bench", places->messages);
    if (columns->job < row->count && columns->bench < row->count)
        return true;
    message_add(places->messages, places->file, row->cells[0].line, 0,
                "the header row has no column %s: expected bench, and job or name",
                columns->bench == row->count ? "bench" : "job or name");
    return false;
}

static void read_table(struct places *places, const char *bytes, size_t len, char separator)
{
    struct csv csv = csv_of(places->file, bytes, len, separator);
    struct row row = ROW_EMPTY;
    struct columns columns;
    while (csv_next(&csv, &row, places->messages) && row_blank(&row))
        continue;
    if (!row.bad && read_header(places, &row, &columns))
        while (csv_next(&csv, &row, places->messages))
            if (!row.bad && !row_blank(&row))
                read_row(places, &row, &columns);
    row_free(&row);
}

/* The list out of the places, if every job below the highest has one. */
static void gather(const struct places *places, struct table *list)
{
    size_t missing = 0, first = 0;
    for (size_t job = places->count; job-- > 0;)
        if (places->line[job] == 0) {
            missing++;
            first = job;
        }
    if (missing == 1)
        message_add(places->messages, places->file, 0, 0,
                    "job %zu has no place here, and job %zu has one: expected a place for each job",
                    first, places->count - 1);
    else if (missing > 1)
        message_add(places->messages, places->file, 0, 0,
                    "%zu jobs below job %zu have no place here, of which the first is job %zu: "
                    "expected a place for each job",
                    missing, places->count - 1, first);
    for (size_t job = 0; job < places->count; job++)
        table_add(list, places->bench[job]);
}

bool list_read_bytes(const struct day *day, const char *path, const char *bytes, size_t len,
                     struct table *list, struct messages *messages)
{
    static const struct wanted wanted[] = { { "bench", NULL }, { "job", "name" } };
    if (!no_zero_check(path, bytes, len, "text in UTF-8", messages))
        return false;
    struct places *places = memory_new(1, sizeof *places);
    size_t before = messages_told(messages), found;
    places->day = day;
    places->file = path;
    places->messages = messages;
    char separator = csv_separator(bytes, len, wanted, sizeof wanted / sizeof *wanted, &found);
    if (found > 0 && !begins_with_comment(bytes, len))
        read_table(places, bytes, len, separator);
    else
        read_lines(places, bytes, len);
    bool good = messages_told(messages) == before;
    if (good)
        gather(places, list);
    good = messages_told(messages) == before;
    text_free(&places->piece.value);
    free(places);
    return good;
}
