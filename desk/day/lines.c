/* The lines of files of text, and what may stand in them. */

#include "base/utf8.h"
#include "day/scan.h"

#include <string.h>

size_t byte_order_mark(const char *bytes, size_t len)
{
    return len >= 3 && memcmp(bytes, "\xEF\xBB\xBF", 3) == 0 ? 3 : 0;
}

bool begins_with_comment(const char *bytes, size_t len)
{
    size_t at = byte_order_mark(bytes, len);
    while (at < len && (is_blank(bytes[at]) || bytes[at] == '\n' || bytes[at] == '\r'))
        at++;
    bool column = at + 1 < len && memchr(",;\t", bytes[at + 1], 3) != NULL;
    return at < len && bytes[at] == '#' && !column;
}

void bad_character(struct messages *messages, struct spot spot, const char *bytes, size_t len,
                   const char *where)
{
    uint32_t point = 0;
    if (utf8_next(bytes, len, &point) == 0)
        message_add(messages, spot.file, spot.line, spot.column,
                    "the byte 0x%02X is no UTF-8: expected text that was saved as UTF-8",
                    (unsigned)(unsigned char)bytes[0]);
    else if (point == '\r')
        message_add(messages, spot.file, spot.line, spot.column,
                    "a carriage return by itself cannot stand %s: lines end in LF or CR LF", where);
    else if (point == '\n' || point == '\t')
        message_add(messages, spot.file, spot.line, spot.column,
                    "a %s cannot stand %s: expected a blank", point == '\n' ? "line end" : "tab",
                    where);
    else
        message_add(messages, spot.file, spot.line, spot.column,
                    "the character U+%04X cannot stand %s: expected one that can be printed",
                    (unsigned)point, where);
}

bool is_wide(const char *bytes, size_t len)
{
    return len >= 2
           && (memcmp(bytes, "\xFF\xFE", 2) == 0 || memcmp(bytes, "\xFE\xFF", 2) == 0);
}

bool no_zero_check(const char *file, const char *bytes, size_t len, const char *hint,
                struct messages *messages)
{
    if (len == 0 || memchr(bytes, '\0', len) == NULL)
        return true;
    message_add(messages, file, 0, 0, "the file is %s: expected %s",
                is_wide(bytes, len) ? "text in UTF-16" : "no text, for it has a byte of 0 in it",
                hint);
    return false;
}

struct lines lines_of(const char *file, const char *bytes, size_t len)
{
    return (struct lines){ file, bytes, len, byte_order_mark(bytes, len), 0 };
}

/* Whether a line has nothing but characters that may stand in text; the first that may not has a
 * message. */
static bool characters_check(const char *bytes, size_t len, struct spot spot,
                             struct messages *messages)
{
    for (size_t at = 0; at < len; spot.column++) {
        if ((bytes[at] >= ' ' && bytes[at] <= '~') || bytes[at] == '\t') {
            at++;
            continue;
        }
        uint32_t point = 0;
        size_t step = utf8_next(bytes + at, len - at, &point);
        if (step == 0 || !utf8_printable(point)) {
            bad_character(messages, spot, bytes + at, len - at, "here");
            return false;
        }
        at += step;
    }
    return true;
}

/* Where the comment of a line begins, or its end; *opened is the last quote if that is not closed
 * before, otherwise the length. */
static size_t comment_of(const char *bytes, size_t len, size_t *opened)
{
    bool quoted = false;
    *opened = len;
    size_t at = 0;
    for (; at < len && (quoted || bytes[at] != '#'); at++)
        if (bytes[at] == '"') {
            quoted = !quoted;
            *opened = quoted ? at : len;
        }
    return at;
}

bool lines_next(struct lines *lines, struct scan *scan, bool *clean, struct messages *messages)
{
    while (lines->at < lines->len) {
        const char *bytes = lines->bytes + lines->at;
        const char *feed = memchr(bytes, '\n', lines->len - lines->at);
        size_t len = feed != NULL ? (size_t)(feed - bytes) : lines->len - lines->at;
        lines->at += feed != NULL ? len + 1 : len;
        lines->line++;
        if (len > 0 && bytes[len - 1] == '\r')
            len--;
        struct spot spot = { lines->file, lines->line, 1 };
        size_t opened, end = comment_of(bytes, len, &opened);
        *clean = characters_check(bytes, len, spot, messages);
        if (*clean && opened < len) {
            message_add(messages, spot.file, spot.line, 1 + utf8_count(bytes, opened),
                        "the quote that begins here is not closed: expected another \" "
                        "before the end of the line");
            *clean = false;
        }
        *scan = scan_of(bytes, end, spot);
        if (!scan_done(scan))
            return true;
    }
    return false;
}
