/* The parts of a day that have names: its benches and its jobs. */

#include "base/number.h"
#include "day/items.h"

#include <stdlib.h>
#include <string.h>

bool day_add_job(struct day *day, const char *name, size_t name_len, uint64_t minutes,
                 uint64_t allowed, struct origin name_origin, struct origin benches_origin,
                 struct messages *messages)
{
    struct spot spot = { day_file(day, name_origin), name_origin.line, name_origin.column };
    if (day->jobs == YINQOCHA_MAX_JOBS) {
        if (day->jobs_left_out++ == 0)
            message_add(messages, spot.file, spot.line, spot.column,
                        "this is job %u, one too many: a day has at most %u jobs",
                        YINQOCHA_MAX_JOBS + 1, YINQOCHA_MAX_JOBS);
        return false;
    }
    size_t other = day_find_job(day, name, name_len);
    if (other < day->jobs) {
        struct origin first = day->job[other].origin;
        bool here = first.file == name_origin.file;
        complain(messages, spot, name, name_len,
                 " is the name of another job: names differ, and the first is on line %zu%s%s",
                 first.line, here ? "" : " of ", here ? "" : day_file(day, first));
        return false;
    }
    day->contents.jobs[day->jobs] = (struct yinqocha_job){ minutes, allowed };
    day->job[day->jobs] = (struct job){ memory_string(name, name_len), name_origin, benches_origin,
                                        name_hash(name, name_len) };
    day->jobs++;
    return true;
}

/* Whether an only item is meant as a number of benches, well or badly: it begins like one. */
static bool begins_like_a_number(const char *bytes, size_t len)
{
    size_t at = len > 0 && (bytes[0] == '+' || bytes[0] == '-') ? 1 : 0;
    return at < len && is_digit(bytes[at]);
}

/* Reads the number of benches. */
static void count_benches(struct reader *reader, const char *bytes, size_t len, struct spot spot)
{
    uint64_t benches = 0;
    enum number_read read = number_read(bytes, len, YINQOCHA_MAX_BENCHES, &benches);
    if (read == NUMBER_READ && benches > 0)
        reader->day->contents.benches = benches;
    else
        complain(reader->messages, spot, bytes, len,
                 " is no number of benches: expected a whole number from 1 to %u, or names with "
                 "commas between them (one that begins like a number in quotes)",
                 YINQOCHA_MAX_BENCHES);
}

/* One more name of a bench, which is number `bench`. */
static bool name_bench(struct reader *reader, const struct piece *piece, size_t bench)
{
    struct day *day = reader->day;
    const char *name = piece->value.bytes;
    size_t len = piece->value.len;
    if (!name_check(name, len, "bench", piece->spot, reader->messages))
        return false;
    if (benches_reserved(name, len)) {
        complain(reader->messages, piece->spot, name, len,
                 " is no name for a bench: a number, a range of numbers or all means benches in a "
                 "list");
        return false;
    }
    for (size_t b = 0; b < bench; b++)
        if (strncmp(day->bench_names[b], name, len) == 0 && day->bench_names[b][len] == '\0') {
            complain(reader->messages, piece->spot, name, len,
                     " is the name of another bench: names differ, and bench %zu on this line has "
                     "it", b);
            return false;
        }
    day->bench_names[bench] = memory_string(name, len);
    return true;
}

/* Takes all names back. */
static void unname_benches(struct day *day)
{
    for (size_t b = 0; b < YINQOCHA_MAX_BENCHES; b++) {
        free(day->bench_names[b]);
        day->bench_names[b] = NULL;
    }
}

/* One more item of the line: a name, of which there are so many already. */
static bool read_name(struct reader *reader, enum scanned scanned, size_t named)
{
    const struct piece *piece = &reader->piece;
    if (scanned == SCANNED_NONE)
        message_add(reader->messages, piece->spot.file, piece->spot.line, piece->spot.column,
                    "the name of a bench is missing here: expected one between commas, and none "
                    "at the end");
    return scanned == SCANNED_PIECE && name_bench(reader, piece, named);
}

/* Reads the names of all benches; how many there are, or 0 if one was bad. */
static size_t read_names(struct reader *reader, struct scan *scan)
{
    size_t named = 0;
    for (bool bad = false;;) {
        if (named == YINQOCHA_MAX_BENCHES) {
            scan_done(scan);
            message_add(reader->messages, scan->spot.file, scan->spot.line, scan->spot.column,
                        "this is one bench too many: a day has at most %u", YINQOCHA_MAX_BENCHES);
            return 0;
        }
        enum scanned scanned = scan_item(scan, &reader->piece, reader->messages);
        if (read_name(reader, scanned, named))
            named++;
        else
            bad = true;
        if (scan->at == scan->len)
            return bad ? 0 : named;
        scan_to(scan, scan->at + 1);
    }
}

void read_benches(struct reader *reader, struct scan *scan)
{
    struct origin origin = reader->day->benches_origin;
    if (reader->wanted_line > 0)
        message_add(reader->messages, scan->spot.file, origin.line, origin.column,
                    "\"benches\" stands before all bookings and jobs, of which the first is on "
                    "line %zu: benches above this line were not looked at",
                    reader->wanted_line);
    if (scan_done(scan)) {
        message_add(reader->messages, scan->spot.file, scan->spot.line, scan->spot.column,
                    "the benches are missing: expected their number, such as: %s, or names with "
                    "commas between them", item_examples[ITEM_BENCHES]);
        return;
    }
    const char *bytes = scan->bytes + scan->at;
    size_t len = scan->len - scan->at;
    struct spot spot = scan->spot;
    trim_blanks(&bytes, &len, &spot);
    if (memchr(bytes, ',', len) == NULL && begins_like_a_number(bytes, len)) {
        count_benches(reader, bytes, len, spot);
        return;
    }
    reader->day->contents.benches = read_names(reader, scan);
    if (reader->day->contents.benches == 0)
        unname_benches(reader->day);
}
