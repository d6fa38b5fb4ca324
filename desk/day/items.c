#include "day/items.h"

#include "base/file.h"
#include "base/number.h"

#include <errno.h>
#include <string.h>

/* A message at the end of a line where something is missing. */
static void missing(struct reader *reader, const struct scan *scan, enum item_kind item,
                    const char *what)
{
    message_add(reader->messages, scan->spot.file, scan->spot.line, scan->spot.column,
                "%s missing: expected a line such as: %s", what, item_examples[item]);
}

/* The next word of a line; false with a message if there is none, or it has bad quotes. */
static bool next_word(struct reader *reader, struct scan *scan, enum item_kind item,
                      const char *what)
{
    enum scanned scanned = scan_word(scan, &reader->piece, reader->messages);
    if (scanned == SCANNED_NONE)
        missing(reader, scan, item, what);
    return scanned == SCANNED_PIECE;
}

/* Whether the line ends here; a message if it does not. */
static bool end_of_line(struct reader *reader, struct scan *scan, enum item_kind item)
{
    if (scan_done(scan))
        return true;
    complain(reader->messages, scan->spot, scan->bytes + scan->at, scan->len - scan->at,
             " is too much here: expected a line such as: %s (what has a blank in it stands in "
             "double quotes)",
             item_examples[item]);
    return false;
}

void read_target(struct reader *reader, struct scan *scan)
{
    if (next_word(reader, scan, ITEM_TARGET, "the target in minutes is")
        && number_piece(&reader->piece, "minutes", YINQOCHA_MAX_TARGET,
                        &reader->day->contents.target, reader->messages))
        end_of_line(reader, scan, ITEM_TARGET);
}

void read_share(struct reader *reader, struct scan *scan)
{
    if (scan_done(scan)) {
        missing(reader, scan, ITEM_SHARE, "the share is");
        return;
    }
    struct spot spot = scan->spot, behind = spot;
    const char *bytes = scan->bytes + scan->at, *slash;
    size_t len = scan->len - scan->at;
    trim_blanks(&bytes, &len, &spot);
    slash = memchr(bytes, '/', len);
    const char *p = bytes, *q = slash != NULL ? slash + 1 : bytes + len;
    size_t p_len = slash != NULL ? (size_t)(slash - bytes) : len;
    size_t q_len = (size_t)(bytes + len - q);
    trim_blanks(&p, &p_len, &behind);
    trim_blanks(&q, &q_len, &behind);
    struct yinqocha_contents *contents = &reader->day->contents;
    enum number_read p_read = number_read(p, p_len, YINQOCHA_MAX_SHARE, &contents->p);
    enum number_read q_read = number_read(q, q_len, YINQOCHA_MAX_SHARE, &contents->q);
    if (p_read == NUMBER_READ && q_read == NUMBER_READ) {
        reader->day->share_origin.column = spot.column;
        reader->day->share_read = true;
    } else if (p_read == NUMBER_NONE || q_read == NUMBER_NONE)
        complain(reader->messages, spot, bytes, len,
                 " is no share: expected two whole numbers with a / between them, such as 4/7");
    else
        complain(reader->messages, spot, bytes, len,
                 " has too large a number: each number of a share is at most %u",
                 YINQOCHA_MAX_SHARE);
}

/* Whether the benches are known. If they are not, that is told once: here if their line could not
 * be read, otherwise at their line or for the whole file. */
static bool benches_known(struct reader *reader, struct spot spot)
{
    const struct day *day = reader->day;
    if (day->contents.benches > 0)
        return true;
    if (day->benches_origin.line == 0) {
        if (reader->wanted_line == 0)
            reader->wanted_line = spot.line;
    } else if (!reader->told) {
        message_add(reader->messages, spot.file, spot.line, spot.column,
                    "from here on benches cannot be told, for line %zu has none that could be read",
                    day->benches_origin.line);
        reader->told = true;
    }
    return false;
}

void read_booked(struct reader *reader, struct scan *scan)
{
    struct day *day = reader->day;
    uint64_t bench = 0, minutes = 0;
    bool found = false;
    scan_done(scan);
    struct spot spot = scan->spot;
    enum scanned scanned = scan_word(scan, &reader->piece, reader->messages);
    if (scanned == SCANNED_NONE) {
        missing(reader, scan, ITEM_BOOKED, "the bench and its minutes are");
        return;
    }
    if (benches_known(reader, spot) && scanned == SCANNED_PIECE)
        found = bench_piece(day, &reader->piece, &bench, reader->messages);
    if (!next_word(reader, scan, ITEM_BOOKED, "the minutes are")
        || !number_piece(&reader->piece, "minutes", YINQOCHA_MAX_MINUTES, &minutes,
                         reader->messages))
        return;
    end_of_line(reader, scan, ITEM_BOOKED);
    if (!found)
        return;
    if (day->booked_origin[bench].line > 0) {
        message_add(reader->messages, spot.file, spot.line, spot.column,
                    "this bench is booked a second time: the first is on line %zu",
                    day->booked_origin[bench].line);
        return;
    }
    day->contents.booked[bench] = minutes;
    day->booked_origin[bench] = (struct origin){ 0, spot.line, spot.column };
}

void read_job(struct reader *reader, struct scan *scan)
{
    struct messages *messages = reader->messages;
    uint64_t minutes = 0, allowed = 0;
    enum scanned scanned = scan_word(scan, &reader->piece, messages);
    if (scanned == SCANNED_NONE) {
        missing(reader, scan, ITEM_JOB, "the name, minutes and benches of the job are");
        return;
    }
    struct text name = reader->piece.value;
    struct spot name_spot = reader->piece.spot;
    reader->piece.value = (struct text)TEXT_EMPTY;
    bool named = scanned == SCANNED_PIECE
                 && name_check(name.bytes, name.len, "job", name_spot, messages);
    scanned = scan_word(scan, &reader->piece, messages);
    if (scanned == SCANNED_NONE) {
        missing(reader, scan, ITEM_JOB, "the minutes and benches of the job are");
    } else {
        if (scanned == SCANNED_PIECE)
            number_piece(&reader->piece, "minutes", YINQOCHA_MAX_MINUTES, &minutes, messages);
        if (scan_done(scan))
            missing(reader, scan, ITEM_JOB, "the benches of the job are");
        else if (benches_known(reader, scan->spot))
            allowed = benches_read(reader->day, scan->bytes + scan->at, scan->len - scan->at,
                                   scan->spot, messages);
    }
    if (named)
        day_add_job(reader->day, name.bytes, name.len, minutes, allowed,
                    (struct origin){ 0, name_spot.line, name_spot.column },
                    (struct origin){ 0, scan->spot.line, scan->spot.column }, messages);
    text_free(&name);
}

/* The path of a file beside the day's own. */
static void path_beside(const char *day, const char *path, struct text *beside)
{
    const char *slash = strrchr(day, '/');
    if (path[0] != '/' && slash != NULL)
        text_add(beside, day, (size_t)(slash - day) + 1);
    else if (strcmp(path, "-") == 0)
        text_put(beside, "./");
    text_put(beside, path);
}

/* Reads a file of jobs; the message that it cannot be read is at its name in the day. */
static void read_file(struct reader *reader, const struct text *path, struct spot spot)
{
    struct day *day = reader->day;
    struct text bytes = TEXT_EMPTY;
    enum file_read read = file_read(text_string(path), DESK_MOST_BYTES, &bytes);
    if (read == FILE_FAILED) {
        complain(reader->messages, spot, path->bytes, path->len, " cannot be read: %s",
                 strerror(errno));
    } else if (read == FILE_LARGE) {
        complain(reader->messages, spot, path->bytes, path->len,
                 " has more than 4 MiB (%zu bytes), which is the most that is read",
                 DESK_MOST_BYTES);
    } else {
        size_t file = day->files++;
        day->file_names[file] = memory_string(path->bytes, path->len);
        day_read_csv(text_string(&bytes), bytes.len, file, day, reader->messages);
    }
    text_free(&bytes);
}

void read_jobs(struct reader *reader, struct scan *scan)
{
    struct text path = TEXT_EMPTY;
    if (!next_word(reader, scan, ITEM_JOBS, "the file of jobs is"))
        return;
    struct spot spot = reader->piece.spot;
    path_beside(reader->day->file_names[0], text_string(&reader->piece.value), &path);
    benches_known(reader, spot);
    if (end_of_line(reader, scan, ITEM_JOBS)) {
        if (reader->day->files == DAY_MOST_FILES)
            message_add(reader->messages, spot.file, spot.line, spot.column,
                        "this is one file of jobs too many: a day has at most %d",
                        DAY_MOST_FILES - 1);
        else
            read_file(reader, &path, spot);
    }
    text_free(&path);
}
