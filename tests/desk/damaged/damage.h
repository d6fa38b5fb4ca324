/*
 * damage.h - days, tables and sheets, damaged
 *
 *     struct draws        a generator of random numbers; the same seed gives the same numbers
 *     draw(d, n)          a number from 0 to n - 1
 *     damage(text, d)     damages some bytes in a few places
 *     damage_frame(s, d)  changes a frame of a sheet, or takes it away, or puts it in twice
 */

#ifndef DAMAGED_DAMAGE_H
#define DAMAGED_DAMAGE_H

#include "base/number.h"
#include "base/text.h"

#include <stdint.h>
#include <stdlib.h>
#include <string.h>

struct draws {
    uint64_t state;
};

/* SplitMix64, of Steele, Lea and Flood. */
static uint64_t draw(struct draws *draws, uint64_t n)
{
    draws->state += UINT64_C(0x9E3779B97F4A7C15);
    uint64_t z = draws->state;
    z = (z ^ z >> 30) * UINT64_C(0xBF58476D1CE4E5B9);
    z = (z ^ z >> 27) * UINT64_C(0x94D049BB133111EB);
    return (z ^ z >> 31) % n;
}

/* Puts some bytes in place of those from `at` on. */
static void replace(struct text *text, size_t at, size_t len, const char *bytes, size_t count)
{
    struct text changed = TEXT_EMPTY;
    text_add(&changed, text->bytes, at);
    text_add(&changed, bytes, count);
    text_add(&changed, text->bytes + at + len, text->len - at - len);
    text_free(text);
    *text = changed;
}

/* What people and programs put into files by mistake, and what breaks careless readers. */
static const struct {
    const char *bytes;
    size_t len;
} odd[] = {
#define ODD(string) { string, sizeof string - 1 }
    ODD("1e3"), ODD("-5"), ODD("18446744073709551616"), ODD("18446744073709551615"),
    ODD("1048576"), ODD("1073741824"), ODD("4294967296"), ODD("00000000000000000000000000001"),
    ODD("999999999999999999999999999999999999999"), ODD("0x10"), ODD("+1"), ODD("1.5"), ODD("\""),
    ODD("\"\""), ODD("\"\"\""), ODD("\" \""), ODD("#"), ODD(","), ODD(",,"), ODD(";"), ODD("\t"),
    ODD("\r"), ODD("\r\n"), ODD("\n"), ODD("\n\n"), ODD("\0"), ODD("\x01"), ODD("\x1B[31m"),
    ODD("\x7F"), ODD("\xEF\xBB\xBF"), ODD("\xC0\xAF"), ODD("\xED\xA0\x80"), ODD("\xF4\x90\x80\x80"),
    ODD("\xE2\x80\xAE"), ODD("\xE2\x80\xA8"), ODD("\xC2\x85"), ODD("\xFF"), ODD("\xC3"),
    ODD("\xE6\x97\xA5\xE6\x9C\xAC"), ODD("e\xCC\x81"), ODD("\xF0\x9F\x9A\x8C"), ODD("<script>"),
    ODD("&amp;"), ODD("]]>"), ODD("\\"), ODD("\\u0000"), ODD("</svg>"), ODD("'"), ODD("%s%n"),
    ODD("all"), ODD("0-63"), ODD("7-3"), ODD("0-18446744073709551615"), ODD("64"), ODD("63"),
    ODD("0"), ODD("benches "), ODD("share "), ODD("target "), ODD("booked "), ODD("job "),
    ODD("jobs "), ODD("jobs damaged.csv\n"), ODD("none 1 "), ODD("plan "), ODD("best "),
    ODD("name;minutes;benches\n"), ODD("job \"<&>\"\"'\" 5 all\n"), ODD("4/7"), ODD("7/7"),
};

#define ODDS (sizeof odd / sizeof odd[0])

static void flip_bit(struct text *text, struct draws *draws)
{
    char *byte = &text->bytes[draw(draws, text->len)];
    *byte = (char)(*byte ^ 1 << draw(draws, 8));
}

static void insert_odd(struct text *text, struct draws *draws)
{
    size_t which = draw(draws, ODDS);
    replace(text, draw(draws, text->len + 1), 0, odd[which].bytes, odd[which].len);
}

static void remove_bytes(struct text *text, struct draws *draws)
{
    size_t at = draw(draws, text->len);
    size_t most = text->len - at < 8 ? text->len - at : 8;
    replace(text, at, 1 + draw(draws, most), "", 0);
}

static void cut(struct text *text, struct draws *draws)
{
    size_t at = draw(draws, text->len);
    replace(text, at, text->len - at, "", 0);
}

/* A line anywhere: where it begins, and its length with the line end. */
static size_t any_line(const struct text *text, struct draws *draws, size_t *len)
{
    size_t from = draw(draws, text->len), to = from;
    while (from > 0 && text->bytes[from - 1] != '\n')
        from--;
    while (to < text->len && text->bytes[to] != '\n')
        to++;
    *len = to - from + (to < text->len ? 1 : 0);
    return from;
}

static void copy_line(struct text *text, struct draws *draws)
{
    size_t len, other_len;
    size_t from = any_line(text, draws, &len), to = any_line(text, draws, &other_len);
    char *line = memory_string(text->bytes + from, len);
    replace(text, to, 0, line, len);
    free(line);
}

static void remove_line(struct text *text, struct draws *draws)
{
    size_t len, from = any_line(text, draws, &len);
    replace(text, from, len, "", 0);
}

static void swap_lines(struct text *text, struct draws *draws)
{
    size_t len, from = any_line(text, draws, &len);
    char *line = memory_string(text->bytes + from, len);
    replace(text, from, len, "", 0);
    size_t other_len = 0, to = text->len > 0 ? any_line(text, draws, &other_len) : 0;
    replace(text, to, 0, line, len);
    free(line);
}

/* Another number in place of one, small more often than not, so that a day may stay a day. */
static void other_number(struct text *text, struct draws *draws)
{
    size_t from = draw(draws, text->len);
    while (from < text->len && !is_digit(text->bytes[from]))
        from++;
    size_t len = 0;
    while (from + len < text->len && is_digit(text->bytes[from + len]))
        len++;
    static const uint64_t most[] = { 8, 65, 500, 2000, 1048577, UINT64_C(1) << 40 };
    struct text number = TEXT_EMPTY;
    text_format(&number, "%llu", (unsigned long long)draw(draws, most[draw(draws, 6)]));
    replace(text, from, len, number.bytes, number.len);
    text_free(&number);
}

/* One byte or one character, many times. */
static void repeat(struct text *text, struct draws *draws)
{
    static const char *const strings[] = {
        "x", " ", "\"", "0", ",", "\xC3\xA9", "#", ";", "1,", "\n",
    };
    struct text run = TEXT_EMPTY;
    uint64_t most = draw(draws, 8) > 0 ? 400 : 20000;
    text_repeat(&run, strings[draw(draws, 10)], 1 + draw(draws, most));
    replace(text, draw(draws, text->len + 1), 0, run.bytes, run.len);
    text_free(&run);
}

static void damage_once(struct text *text, struct draws *draws)
{
    static void (*const ways[])(struct text *, struct draws *) = {
        flip_bit,    insert_odd,  insert_odd,   insert_odd,   remove_bytes, cut,    copy_line,
        remove_line, swap_lines,  other_number, other_number, other_number, repeat, swap_lines,
    };
    if (text->len > 0)
        ways[draw(draws, sizeof ways / sizeof ways[0])](text, draws);
}

/* Once more often than not; one in sixteen stays as it is. */
static void damage(struct text *text, struct draws *draws)
{
    static const unsigned times[] = { 0, 1, 1, 1, 1, 1, 1, 1, 2, 2, 2, 3, 3, 4, 6, 12 };
    for (unsigned n = times[draw(draws, 16)]; n > 0; n--)
        damage_once(text, draws);
}

/* A frame of a sheet anywhere, by its first byte, and its length; 0 bytes where there is none. Its
 * header is a byte of kind and version and two of the body's length. */
static size_t any_frame(const struct text *sheet, struct draws *draws, size_t *len)
{
    size_t frames = 0, at = 0, chosen = 0;
    for (*len = 0; at + 3 <= sheet->len; frames++) {
        size_t body = (size_t)(uint8_t)sheet->bytes[at + 1] << 8 | (uint8_t)sheet->bytes[at + 2];
        size_t all = body + 3 < sheet->len - at ? body + 3 : sheet->len - at;
        if (draw(draws, frames + 1) == 0) {
            chosen = at;
            *len = all;
        }
        at += all;
    }
    return chosen;
}

static void damage_frame(struct text *sheet, struct draws *draws)
{
    size_t len, at = any_frame(sheet, draws, &len);
    if (len == 0)
        return;
    char *frame = memory_string(sheet->bytes + at, len);
    switch (draw(draws, 4)) {
    case 0:
        replace(sheet, at, 0, frame, len);
        break;
    case 1:
        replace(sheet, at, len, "", 0);
        break;
    default:
        if (len > 3) /* the front of the body: the minutes of a job or of a booking */
            sheet->bytes[at + 3 + draw(draws, 2)] ^= (char)(1 << draw(draws, 7));
    }
    free(frame);
}

#endif
