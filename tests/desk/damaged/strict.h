/*
 * strict.h - whether some bytes are what a form says; of JSON, strict_json.h
 *
 *     utf8_strict      valid UTF-8 without control characters but line ends
 *     text_strict      the same with no line wider than so many columns
 *     html_strict      tags that close each other in order, no & or < that is not of a tag or an
 *                      entity, no script
 *     csv_strict       rows with as many cells as the header, read by the desk's own reader
 */

#ifndef DAMAGED_STRICT_H
#define DAMAGED_STRICT_H

#include "base/number.h"
#include "base/utf8.h"
#include "day/csv.h"

#include <string.h>

static inline bool utf8_strict(const char *bytes, size_t len)
{
    for (size_t at = 0; at < len;) {
        uint32_t point = (unsigned char)bytes[at];
        size_t step = 1;
        if (point >= 0x80)
            step = utf8_next(bytes + at, len - at, &point);
        if (step == 0 || ((point < ' ' || point > '~') && point != '\n' && !utf8_printable(point)))
            return false;
        at += step;
    }
    return true;
}

static inline bool text_strict(const struct text *text, size_t columns)
{
    const char *line = text_string(text), *end = line + text->len;
    while (line < end) {
        const char *feed = memchr(line, '\n', (size_t)(end - line));
        size_t len = (size_t)((feed != NULL ? feed : end) - line);
        if (feed == NULL || utf8_columns(line, len) > columns)
            return false;
        line = feed + 1;
    }
    return text->len > 0 && utf8_strict(text->bytes, text->len);
}

/* The name of a tag at a place behind its < or </. */
static inline size_t tag_name(const char *at)
{
    return strspn(at, "abcdefghijklmnopqrstuvwxyzABCDEFGHIJKLMNOPQRSTUVWXYZ0123456789-");
}

static inline bool one_of(const char *bytes, size_t len, const char *const *words)
{
    for (; *words != NULL; words++)
        if (strlen(*words) == len && memcmp(*words, bytes, len) == 0)
            return true;
    return false;
}

/* The end of a tag, behind its >, with attributes whose values are all in quotes; NULL if it has
 * none. `closed` is whether it ends in />. */
static inline const char *tag_end(const char *at, bool *closed)
{
    char quote = '\0';
    for (*closed = false; *at != '\0'; at++) {
        if (quote != '\0') {
            if (*at == '<')
                return NULL;
            quote = *at == quote ? '\0' : quote;
        } else if (*at == '"' || *at == '\'') {
            quote = *at;
        } else if (*at == '<') {
            return NULL;
        } else if (*at == '>') {
            *closed = at[-1] == '/';
            return at + 1;
        }
    }
    return NULL;
}

static inline bool entity(const char *at)
{
    const char *end = strchr(at, ';');
    if (end == NULL || end - at > 10)
        return false;
    for (at++; at < end; at++)
        if (!is_digit(*at) && (*at < 'a' || *at > 'z') && *at != '#')
            return false;
    return true;
}

/* Opens or closes a tag; `open` has the names of those that are open, a blank before each. */
static inline const char *html_tag(const char *at, struct text *open)
{
    static const char *const alone[] = { "meta", "br", "hr", "link", "img", NULL };
    static const char *const foreign[] = { "script", "iframe", "object", "link", "img", NULL };
    bool closing = at[1] == '/', closed;
    const char *name = at + (closing ? 2 : 1);
    size_t len = tag_name(name);
    const char *end = tag_end(name, &closed);
    if (len == 0 || end == NULL || one_of(name, len, foreign))
        return NULL;
    if (!closing) {
        if (!closed && !one_of(name, len, alone)) {
            text_byte(open, ' ');
            text_add(open, name, len);
        }
        return end;
    }
    if (open->len <= len || open->bytes[open->len - len - 1] != ' ' ||
        memcmp(open->bytes + open->len - len, name, len) != 0)
        return NULL;
    open->len -= len + 1;
    return end;
}

static inline bool html_strict(const struct text *text)
{
    static const char doctype[] = "<!doctype html>";
    struct text open = TEXT_EMPTY;
    const char *at = text_string(text);
    bool good = strlen(at) == text->len && strncmp(at, doctype, sizeof doctype - 1) == 0;
    for (at += good ? sizeof doctype - 1 : 0; good && *at != '\0';) {
        bool style = open.len >= 6 && memcmp(open.bytes + open.len - 6, " style", 6) == 0;
        if (strncmp(at, "<!--", 4) == 0) {
            at = strstr(at, "-->");
            good = at != NULL;
        } else if (*at == '<' && (!style || at[1] == '/')) {
            at = html_tag(at, &open);
            good = at != NULL;
        } else {
            good = *at != '&' || entity(at);
            at++;
        }
    }
    good = good && open.len == 0;
    text_free(&open);
    return good;
}

static inline bool csv_strict(const struct text *text, size_t *rows)
{
    struct csv csv = csv_of("rendered", text->bytes, text->len, ',');
    struct row row = ROW_EMPTY;
    struct messages messages = MESSAGES_NONE;
    size_t columns = 0;
    bool good = true;
    for (*rows = 0; good && csv_next(&csv, &row, &messages); ++*rows) {
        if (*rows == 0)
            columns = row.count;
        good = !row.bad && row.count == columns && messages.count == 0;
    }
    row_free(&row);
    messages_free(&messages);
    return good && *rows > 0;
}

#endif
