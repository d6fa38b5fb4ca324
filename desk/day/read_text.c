/* The lines of a day of text: what each begins with, and which must be there. */

#include "day/items.h"

#include <string.h>

const char *const item_words[] = { "benches", "share", "target", "booked", "job", "jobs" };

const char *const item_examples[] = {
    "benches 6", "share 4/7", "target 480", "booked 0 60", "job \"Axle 12\" 45 0,2,5-7",
    "jobs monday.csv"
};

/* The item that a word begins; ITEMS if none. */
static enum item_kind item_of(const char *bytes, size_t len)
{
    size_t item = 0;
    while (item < ITEMS
           && (strlen(item_words[item]) != len || memcmp(item_words[item], bytes, len) != 0))
        item++;
    return (enum item_kind)item;
}

/* Where an item stands that stands once; NULL for those that may stand often. */
static struct origin *origin_of(struct day *day, enum item_kind item)
{
    switch (item) {
    case ITEM_BENCHES:
        return &day->benches_origin;
    case ITEM_SHARE:
        return &day->share_origin;
    case ITEM_TARGET:
        return &day->target_origin;
    default:
        return NULL;
    }
}

/* Notes where an item stands; false with a message if it stands there already. */
static bool first_time(struct reader *reader, enum item_kind item, struct spot spot)
{
    struct origin *origin = origin_of(reader->day, item);
    if (origin == NULL)
        return true;
    if (origin->line > 0) {
        message_add(reader->messages, spot.file, spot.line, spot.column,
                    "\"%s\" stands here a second time: the first is on line %zu", item_words[item],
                    origin->line);
        return false;
    }
    *origin = (struct origin){ 0, spot.line, spot.column };
    return true;
}

static void read_item(struct reader *reader, enum item_kind item, struct scan *scan)
{
    switch (item) {
    case ITEM_BENCHES:
        read_benches(reader, scan);
        break;
    case ITEM_SHARE:
        read_share(reader, scan);
        break;
    case ITEM_TARGET:
        read_target(reader, scan);
        break;
    case ITEM_BOOKED:
        read_booked(reader, scan);
        break;
    case ITEM_JOB:
        read_job(reader, scan);
        break;
    default:
        read_jobs(reader, scan);
        break;
    }
}

/* Reads a line; of one that is not clean it is only noted what it is. */
static void read_line(struct reader *reader, struct scan *scan, bool clean)
{
    struct spot spot = scan->spot;
    const char *word = scan->bytes + scan->at;
    size_t len = 0;
    while (scan->at + len < scan->len && !is_blank(word[len]))
        len++;
    enum item_kind item = item_of(word, len);
    scan_to(scan, scan->at + len);
    if (item == ITEMS) {
        if (clean)
            complain(reader->messages, spot, word, len,
                     " is not known here: expected a line that begins with benches, share, target, "
                     "booked, job or jobs");
        return;
    }
    if (first_time(reader, item, spot) && clean)
        read_item(reader, item, scan);
}

/* A message for each item that must be there and is not. */
static void check_all_there(struct reader *reader, enum day_parts parts)
{
    for (enum item_kind item = ITEM_BENCHES; item <= ITEM_TARGET; item++) {
        if (origin_of(reader->day, item)->line > 0
            || (item == ITEM_TARGET && parts == DAY_WITHOUT_TARGET))
            continue;
        bool unread = item == ITEM_BENCHES && reader->wanted_line > 0;
        message_add(reader->messages, reader->day->file_names[0], 0, 0,
                    "the day has no line \"%s\": expected one such as: %s%s", item_words[item],
                    item_examples[item],
                    unread ? " (without it the benches of bookings and jobs cannot be told)" : "");
    }
}

void day_read_text(const char *bytes, size_t len, enum day_parts parts, struct day *day,
                   struct messages *messages)
{
    struct reader reader = { day, messages, PIECE_EMPTY, 0, false };
    if (csv_of_jobs(bytes, len)) {
        message_add(messages, day->file_names[0], 0, 0,
                    "this is a table of jobs and not a day: a day is a file of its own, which has "
                    "the benches, share and target and names this one in a line such as: %s",
                    item_examples[ITEM_JOBS]);
        return;
    }
    struct lines lines = lines_of(day->file_names[0], bytes, len);
    struct scan scan;
    bool clean;
    while (lines_next(&lines, &scan, &clean, messages))
        read_line(&reader, &scan, clean);
    check_all_there(&reader, parts);
    text_free(&reader.piece.value);
}
