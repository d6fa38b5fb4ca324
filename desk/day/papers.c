#include "day/papers.h"

#include "base/file.h"
#include "day/scan.h"

#include <errno.h>
#include <stdlib.h>
#include <string.h>

void table_add(struct table *table, uint64_t entry)
{
    if (table->count == table->room) {
        table->room = table->room > 0 ? 2 * table->room : 64;
        table->entries = memory_resize(table->entries, table->room, sizeof *table->entries);
    }
    table->entries[table->count++] = entry;
}

void table_free(struct table *table)
{
    free(table->entries);
    *table = (struct table)TABLE_EMPTY;
}

/* A set that stands as `none` prints it: numbers with blanks between. */
static uint64_t read_none(const struct day *day, struct scan *scan, struct piece *piece,
                          struct messages *messages)
{
    uint64_t set = 0, bench;
    bool bad = false;
    if (scan_done(scan)) {
        message_add(messages, scan->spot.file, scan->spot.line, scan->spot.column,
                    "the benches are missing: expected their numbers behind those of the moves");
        return 0;
    }
    while (!scan_done(scan)) {
        if (scan_word(scan, piece, messages) == SCANNED_PIECE
            && bench_piece(day, piece, &bench, messages))
            set |= YINQOCHA_BENCH(bench);
        else
            bad = true;
    }
    return bad ? 0 : set;
}

/* Whether a line is one of `none`; if so, the scan is behind the number of its moves. */
static bool is_none(struct scan *scan)
{
    struct scan behind = *scan;
    if (!scan_begins(&behind, "none"))
        return false;
    scan_to(&behind, behind.at + strlen("none"));
    if (scan_done(&behind))
        return false;
    size_t at = behind.at;
    while (at < behind.len && behind.bytes[at] >= '0' && behind.bytes[at] <= '9')
        at++;
    if (at == behind.at || (at < behind.len && !is_blank(behind.bytes[at])))
        return false;
    scan_to(&behind, at);
    *scan = behind;
    return true;
}

bool page_read_bytes(const struct day *day, const char *path, const char *bytes, size_t len,
                     struct table *page, struct messages *messages)
{
    if (!no_zero_check(path, bytes, len, "text in UTF-8", messages))
        return false;
    size_t before = messages_told(messages);
    struct lines lines = lines_of(path, bytes, len);
    struct piece piece = PIECE_EMPTY;
    struct scan scan;
    bool clean;
    while (lines_next(&lines, &scan, &clean, messages)) {
        if (!clean)
            continue;
        if (is_none(&scan))
            table_add(page, read_none(day, &scan, &piece, messages));
        else
            table_add(page, benches_read(day, scan.bytes + scan.at, scan.len - scan.at, scan.spot,
                                         messages));
    }
    text_free(&piece.value);
    return messages_told(messages) == before;
}

/* Reads a whole file of text for one of the two above. */
static bool paper_file(const char *path, const char *shown, struct text *bytes,
                       struct messages *messages)
{
    switch (file_read(path, DESK_MOST_BYTES, bytes)) {
    case FILE_FAILED:
        message_add(messages, shown, 0, 0, "the file cannot be read: %s", strerror(errno));
        return false;
    case FILE_LARGE:
        message_add(messages, shown, 0, 0,
                    "the file has more than 4 MiB (%zu bytes), which is the most that is read",
                    DESK_MOST_BYTES);
        return false;
    default:
        return true;
    }
}

static const char *shown_as(const char *path)
{
    return strcmp(path, "-") == 0 ? "standard input" : path;
}

bool list_read(const struct day *day, const char *path, struct table *list,
               struct messages *messages)
{
    struct text bytes = TEXT_EMPTY;
    bool good = paper_file(path, shown_as(path), &bytes, messages)
                && list_read_bytes(day, shown_as(path), text_string(&bytes), bytes.len, list,
                                   messages);
    text_free(&bytes);
    return good;
}

bool page_read(const struct day *day, const char *path, struct table *page,
               struct messages *messages)
{
    struct text bytes = TEXT_EMPTY;
    bool good = paper_file(path, shown_as(path), &bytes, messages)
                && page_read_bytes(day, shown_as(path), text_string(&bytes), bytes.len, page,
                                   messages);
    text_free(&bytes);
    return good;
}
