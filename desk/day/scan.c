#include "day/scan.h"

#include "base/number.h"
#include "base/utf8.h"

#include <stdarg.h>
#include <string.h>

bool is_blank(char byte)
{
    return byte == ' ' || byte == '\t';
}

struct scan scan_of(const char *bytes, size_t len, struct spot spot)
{
    return (struct scan){ bytes, len, 0, spot };
}

void scan_to(struct scan *scan, size_t at)
{
    scan->spot.column += utf8_count(scan->bytes + scan->at, at - scan->at);
    scan->at = at;
}

bool scan_done(struct scan *scan)
{
    size_t at = scan->at;
    while (at < scan->len && is_blank(scan->bytes[at]))
        at++;
    scan_to(scan, at);
    return at == scan->len;
}

/* What ends a piece: a comma, or a blank. */
enum end { END_ITEM, END_WORD };

static bool ends(enum end end, char byte)
{
    return end == END_ITEM ? byte == ',' : is_blank(byte);
}

/* The end of a piece from `at` on; what stands in quotes does not end it. */
static size_t piece_end(const struct scan *scan, size_t at, enum end end)
{
    bool quoted = false;
    for (; at < scan->len && (quoted || !ends(end, scan->bytes[at])); at++)
        if (scan->bytes[at] == '"')
            quoted = !quoted;
    return at;
}

/* A piece in quotes; the scan is at the first. */
static enum scanned quoted_piece(struct scan *scan, enum end end, struct piece *piece,
                                 struct messages *messages)
{
    struct spot opened = scan->spot;
    size_t at = scan->at + 1;
    piece->quoted = true;
    piece->spot.column++;
    for (;;) {
        const char *quote = memchr(scan->bytes + at, '"', scan->len - at);
        if (quote == NULL) {
            message_add(messages, opened.file, opened.line, opened.column,
                        "the quote that begins here is not closed: expected another \"");
            scan_to(scan, scan->len);
            return SCANNED_BAD;
        }
        size_t to = (size_t)(quote - scan->bytes);
        bool doubled = to + 1 < scan->len && scan->bytes[to + 1] == '"';
        text_add(&piece->value, scan->bytes + at, to - at + (doubled ? 1 : 0));
        at = to + (doubled ? 2 : 1);
        if (!doubled)
            break;
    }
    scan_to(scan, at);
    if (end == END_ITEM)
        scan_done(scan);
    if (scan->at == scan->len || ends(end, scan->bytes[scan->at]))
        return SCANNED_PIECE;
    message_add(messages, scan->spot.file, scan->spot.line, scan->spot.column,
                "expected %s behind the closing quote (a quote inside of quotes is doubled)",
                end == END_ITEM ? "a comma" : "a blank");
    scan_to(scan, piece_end(scan, scan->at, end));
    return SCANNED_BAD;
}

/* A piece without quotes, and where it ends. */
static enum scanned plain_piece(struct scan *scan, enum end end, struct piece *piece,
                                struct messages *messages)
{
    const char *bytes = scan->bytes + scan->at;
    size_t to = piece_end(scan, scan->at, end), len = to - scan->at;
    while (len > 0 && is_blank(bytes[len - 1]))
        len--;
    bool has_quote = memchr(bytes, '"', len) != NULL;
    scan_to(scan, to);
    if (has_quote) {
        complain(messages, piece->spot, bytes, len,
                 " has a quote inside: a name with a quote stands in quotes, with its own doubled");
        return SCANNED_BAD;
    }
    text_add(&piece->value, bytes, len);
    return SCANNED_PIECE;
}

static enum scanned scan_piece(struct scan *scan, enum end end, struct piece *piece,
                               struct messages *messages)
{
    bool done = scan_done(scan);
    piece->value.len = 0;
    text_add(&piece->value, "", 0);
    piece->spot = scan->spot;
    piece->quoted = false;
    if (done || ends(end, scan->bytes[scan->at]))
        return SCANNED_NONE;
    if (scan->bytes[scan->at] == '"')
        return quoted_piece(scan, end, piece, messages);
    return plain_piece(scan, end, piece, messages);
}

enum scanned scan_word(struct scan *scan, struct piece *piece, struct messages *messages)
{
    return scan_piece(scan, END_WORD, piece, messages);
}

enum scanned scan_item(struct scan *scan, struct piece *piece, struct messages *messages)
{
    return scan_piece(scan, END_ITEM, piece, messages);
}

bool scan_begins(const struct scan *scan, const char *word)
{
    size_t len = strlen(word), left = scan->len - scan->at;
    return left >= len && memcmp(scan->bytes + scan->at, word, len) == 0
           && (left == len || is_blank(scan->bytes[scan->at + len]));
}

void trim_blanks(const char **bytes, size_t *len, struct spot *spot)
{
    while (*len > 0 && is_blank(**bytes)) {
        (*bytes)++;
        (*len)--;
        spot->column++;
    }
    while (*len > 0 && is_blank((*bytes)[*len - 1]))
        (*len)--;
}

bool same_letters(const char *bytes, size_t len, const char *string)
{
    if (strlen(string) != len)
        return false;
    for (size_t at = 0; at < len; at++) {
        char byte = bytes[at];
        if (byte >= 'A' && byte <= 'Z')
            byte = (char)(byte - 'A' + 'a');
        if (byte != string[at])
            return false;
    }
    return true;
}

void front_of(const char *bytes, size_t len, struct text *text)
{
    size_t at = 0;
    for (unsigned shown = 0; at < len && shown < 40; shown++)
        at += utf8_put(bytes + at, len - at, text);
    text_put(text, at < len ? "..." : "");
}

void excerpt(const char *bytes, size_t len, struct text *text)
{
    text_byte(text, '"');
    front_of(bytes, len, text);
    text_byte(text, '"');
}

void complain(struct messages *messages, struct spot spot, const char *bytes, size_t len,
              const char *format, ...)
{
    if (messages_full(messages))
        return;
    struct text words = TEXT_EMPTY;
    excerpt(bytes, len, &words);
    va_list arguments;
    va_start(arguments, format);
    text_arguments(&words, format, arguments);
    va_end(arguments);
    message_add(messages, spot.file, spot.line, spot.column, "%s", text_string(&words));
    text_free(&words);
}

bool number_scan(const char *bytes, size_t len, const char *what, uint64_t most, struct spot spot,
                 uint64_t *value, struct messages *messages)
{
    enum number_read read = number_read(bytes, len, most, value);
    if (read == NUMBER_READ)
        return true;
    complain(messages, spot, bytes, len,
             read == NUMBER_LARGE ? " is too large for %s: expected a whole number from 0 to %llu"
                                  : " is no number of %s: expected a whole number from 0 to %llu",
             what, (unsigned long long)most);
    return false;
}

bool number_piece(const struct piece *piece, const char *what, uint64_t most, uint64_t *value,
                  struct messages *messages)
{
    if (!piece->quoted)
        return number_scan(piece->value.bytes, piece->value.len, what, most, piece->spot, value,
                           messages);
    complain(messages, piece->spot, piece->value.bytes, piece->value.len,
             " is in quotes and so no number of %s: expected a whole number from 0 to %llu", what,
             (unsigned long long)most);
    return false;
}
