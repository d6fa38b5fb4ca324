#include "day/benches.h"

#include "base/number.h"
#include "day/scan.h"

#include <string.h>

/* An item of a list without quotes: one number or the two of a range, `all`, or a name. */
struct item {
    enum { ITEM_NUMBER, ITEM_RANGE, ITEM_ALL, ITEM_NAME } kind;
    const char *first, *last;
    size_t first_len, last_len;
};

static size_t digits_of(const char *bytes, size_t len)
{
    size_t at = 0;
    while (at < len && is_digit(bytes[at]))
        at++;
    return at;
}

static size_t blanks_of(const char *bytes, size_t len)
{
    size_t at = 0;
    while (at < len && is_blank(bytes[at]))
        at++;
    return at;
}

static struct item item_of(const char *bytes, size_t len)
{
    struct item item = { ITEM_NAME, bytes, bytes, 0, 0 };
    if (same_letters(bytes, len, "all")) {
        item.kind = ITEM_ALL;
        return item;
    }
    size_t at = digits_of(bytes, len);
    item.first_len = at;
    if (at == 0)
        return item;
    if (at == len) {
        item.kind = ITEM_NUMBER;
        return item;
    }
    at += blanks_of(bytes + at, len - at);
    if (at == len || bytes[at] != '-')
        return item;
    at++;
    at += blanks_of(bytes + at, len - at);
    item.last = bytes + at;
    item.last_len = len - at;
    if (item.last_len > 0 && digits_of(item.last, item.last_len) == item.last_len)
        item.kind = ITEM_RANGE;
    return item;
}

bool benches_reserved(const char *bytes, size_t len)
{
    return item_of(bytes, len).kind != ITEM_NAME;
}

/* Which benches the day has, for a message: "the benches are North, South and 3 more", or 0 to 4 by
 * number. */
static void which_benches(const struct day *day, bool by_name, struct text *text)
{
    size_t benches = (size_t)day->contents.benches, shown = 0;
    text_put(text, benches == 1 ? "the only bench is " : "the benches are ");
    if (!by_name) {
        text_put(text, "0");
        if (benches > 1)
            text_format(text, " to %zu", benches - 1);
        return;
    }
    for (size_t begun = text->len; shown < benches && text->len - begun < 160; shown++) {
        text_put(text, shown == 0 ? "" : ", ");
        name_render(day->bench_names[shown], text);
    }
    if (shown < benches)
        text_format(text, " and %zu more", benches - shown);
}

/* A message about a bench that the day lacks: a number if it has no quotes, otherwise a name. */
static void no_bench(const struct day *day, const char *bytes, size_t len, bool quoted,
                     struct spot spot, struct messages *messages)
{
    if (messages_full(messages))
        return;
    struct text words = TEXT_EMPTY;
    bool named = day->bench_names[0] != NULL, number = benches_reserved(bytes, len);
    if (number && !quoted) {
        text_put(&words, "there is no bench ");
        front_of(bytes, len, &words);
    } else if (named || quoted) {
        text_put(&words, "no bench is called ");
        excerpt(bytes, len, &words);
        text_put(&words, number ? " (what is no name stands without quotes)" : "");
    } else {
        excerpt(bytes, len, &words);
        text_put(&words, " is no bench");
    }
    text_put(&words, ": ");
    which_benches(day, named && !number, &words);
    message_add(messages, spot.file, spot.line, spot.column, "%s", text_string(&words));
    text_free(&words);
}

/* The number of a bench of the day. */
static bool bench_number(const struct day *day, const char *bytes, size_t len, struct spot spot,
                         uint64_t *bench, struct messages *messages)
{
    if (day->contents.benches > 0
        && number_read(bytes, len, day->contents.benches - 1, bench) == NUMBER_READ)
        return true;
    no_bench(day, bytes, len, false, spot, messages);
    return false;
}

static uint64_t range_read(const struct day *day, const struct item *item, const char *bytes,
                           size_t len, struct spot spot, struct messages *messages)
{
    uint64_t first, last, set = 0;
    if (!bench_number(day, item->first, item->first_len, spot, &first, messages))
        return 0;
    struct spot behind = spot;
    behind.column += (size_t)(item->last - bytes);
    if (!bench_number(day, item->last, item->last_len, behind, &last, messages))
        return 0;
    if (first > last)
        complain(messages, spot, bytes, len,
                 " is no range: the lower bench stands first, such as %u-%u", (unsigned)last,
                 (unsigned)first);
    for (uint64_t bench = first; bench <= last; bench++)
        set |= YINQOCHA_BENCH(bench);
    return set;
}

static uint64_t named_bench(const struct day *day, const struct piece *piece,
                            struct messages *messages)
{
    size_t bench = day_find_bench(day, piece->value.bytes, piece->value.len);
    if (bench < day->contents.benches)
        return YINQOCHA_BENCH(bench);
    no_bench(day, piece->value.bytes, piece->value.len, piece->quoted, piece->spot, messages);
    return 0;
}

/* The benches of an item; 0 with a message where it is none. `alone` if nothing else is in the
 * list. */
static uint64_t item_read(const struct day *day, const struct piece *piece, bool alone,
                          struct messages *messages)
{
    const char *bytes = piece->value.bytes;
    size_t len = piece->value.len;
    if (piece->quoted)
        return named_bench(day, piece, messages);
    struct item item = item_of(bytes, len);
    uint64_t bench;
    switch (item.kind) {
    case ITEM_ALL:
        if (alone)
            return day_all_benches(day);
        complain(messages, piece->spot, bytes, len,
                 " stands among other benches: expected it alone, or the others without it");
        return 0;
    case ITEM_NUMBER:
        if (!bench_number(day, bytes, len, piece->spot, &bench, messages))
            return 0;
        return YINQOCHA_BENCH(bench);
    case ITEM_RANGE:
        return range_read(day, &item, bytes, len, piece->spot, messages);
    default:
        return named_bench(day, piece, messages);
    }
}

uint64_t benches_read(const struct day *day, const char *bytes, size_t len, struct spot spot,
                      struct messages *messages)
{
    struct scan scan = scan_of(bytes, len, spot);
    if (scan_done(&scan)) {
        message_add(messages, scan.spot.file, scan.spot.line, scan.spot.column,
                    "the benches are missing: expected a list such as 0,2,5-7, or all");
        return 0;
    }
    struct piece piece = PIECE_EMPTY;
    uint64_t set = 0;
    bool bad = false, alone = true;
    for (;; alone = false) {
        uint64_t benches = 0;
        enum scanned scanned = scan_item(&scan, &piece, messages);
        bool last = scan.at == scan.len;
        if (scanned == SCANNED_PIECE)
            benches = item_read(day, &piece, alone && last, messages);
        else if (scanned == SCANNED_NONE)
            message_add(messages, scan.spot.file, scan.spot.line, scan.spot.column,
                        "a bench is missing here: expected one between commas, and none at the "
                        "end");
        set |= benches;
        bad = bad || benches == 0;
        if (last)
            break;
        scan_to(&scan, scan.at + 1);
    }
    text_free(&piece.value);
    return bad ? 0 : set;
}

bool bench_piece(const struct day *day, const struct piece *piece, uint64_t *bench,
                 struct messages *messages)
{
    const char *bytes = piece->value.bytes;
    size_t len = piece->value.len;
    struct item item = item_of(bytes, len);
    if (!piece->quoted && item.kind == ITEM_NUMBER)
        return bench_number(day, bytes, len, piece->spot, bench, messages);
    if (!piece->quoted && item.kind != ITEM_NAME) {
        complain(messages, piece->spot, bytes, len,
                 " is more than one bench: expected one by its number or name");
        return false;
    }
    *bench = day_find_bench(day, bytes, len);
    return named_bench(day, piece, messages) != 0;
}

bool bench_read(const struct day *day, const char *bytes, size_t len, bool foreign,
                struct spot spot, uint64_t *bench, struct messages *messages)
{
    trim_blanks(&bytes, &len, &spot);
    if (foreign && number_read(bytes, len, UINT64_MAX, bench) == NUMBER_READ)
        return true;
    *bench = day_find_bench(day, bytes, len);
    if (*bench < day->contents.benches)
        return true;
    struct scan scan = scan_of(bytes, len, spot);
    struct piece piece = PIECE_EMPTY;
    bool read = false;
    enum scanned scanned = scan_item(&scan, &piece, messages);
    if (scanned == SCANNED_NONE)
        message_add(messages, spot.file, spot.line, spot.column,
                    "the bench is missing: expected its number or its name");
    else if (scanned == SCANNED_PIECE && scan.at < len)
        complain(messages, spot, bytes, len,
                 " is more than one bench: expected one by its number or name");
    else if (scanned == SCANNED_PIECE)
        read = bench_piece(day, &piece, bench, messages);
    text_free(&piece.value);
    return read;
}
