#include "render/layout.h"

#include "base/number.h"
#include "base/utf8.h"
#include "day/benches.h"

#include <inttypes.h>
#include <string.h>

#define ELLIPSIS "\xE2\x80\xA6"

void colour_begin(struct screen screen, enum colour colour, struct text *text)
{
    static const char *const codes[] = {
        [COLOUR_BOLD] = "\033[1m", [COLOUR_RED] = "\033[31m", [COLOUR_GREEN] = "\033[32m",
        [COLOUR_YELLOW] = "\033[33m",
    };
    if (screen.colour)
        text_put(text, codes[colour]);
}

void colour_end(struct screen screen, struct text *text)
{
    if (screen.colour)
        text_put(text, "\033[0m");
}

/* The bytes as valid text, with a question mark for what may not stand in a name. */
static void clean(const char *bytes, size_t len, struct text *text)
{
    for (size_t at = 0; at < len;)
        at += utf8_put(bytes + at, len - at, text);
}

size_t put_front(const char *bytes, size_t len, size_t columns, struct text *text)
{
    struct text cleaned = TEXT_EMPTY;
    clean(bytes, len, &cleaned);
    size_t taken = utf8_columns(text_string(&cleaned), cleaned.len);
    if (taken <= columns) {
        text_add(text, text_string(&cleaned), cleaned.len);
    } else if (columns > 0) {
        size_t front = utf8_fit(text_string(&cleaned), cleaned.len, columns - 1);
        text_add(text, text_string(&cleaned), front);
        text_put(text, ELLIPSIS);
        taken = utf8_columns(text_string(&cleaned), front) + 1;
    } else {
        taken = 0;
    }
    text_free(&cleaned);
    return taken;
}

size_t put_end(const char *bytes, size_t len, size_t columns, struct text *text)
{
    struct text cleaned = TEXT_EMPTY;
    clean(bytes, len, &cleaned);
    const char *end = text_string(&cleaned);
    size_t left = cleaned.len, taken = utf8_columns(end, left);
    bool cut = taken > columns;
    while (cut && left > 0) {
        uint32_t point;
        size_t step = utf8_next(end, left, &point);
        unsigned wide = utf8_columns_of(point);
        /* A combining mark does not stand without its character. */
        if (taken + 1 <= columns && wide > 0)
            break;
        taken -= wide;
        end += step;
        left -= step;
    }
    if (cut && columns > 0) {
        text_put(text, ELLIPSIS);
        taken++;
    }
    text_add(text, end, left);
    text_free(&cleaned);
    return taken;
}

void put_padded(const char *bytes, size_t len, size_t columns, struct text *text)
{
    size_t taken = put_front(bytes, len, columns, text);
    text_repeat(text, " ", columns - taken);
}

/* Whether a word stays on the line of the one before it, as in "job 3 (45)" and "2 x 480 = 960". */
static bool clings(const char *word, size_t len)
{
    return len > 0 && (is_digit(word[0]) || word[0] == '(' || word[0] == '='
                       || (len > 1 && word[0] == '\xC3' && word[1] == '\x97'));
}

/* The bytes of the words at the front that stay on one line, if they take at most so many
 * columns. */
static size_t unbroken(const char *words, size_t len, size_t columns)
{
    size_t taken = 0;
    for (size_t at = 0; at <= len; at++) {
        if (at < len && words[at] != ' ')
            continue;
        if (taken > 0 && utf8_columns(words, at) > columns)
            break;
        taken = at;
        if (at + 1 >= len || !clings(words + at + 1, len - at - 1))
            break;
    }
    return taken;
}

void put_wrapped(const char *words, size_t len, size_t indent, struct screen screen,
                 struct text *text)
{
    size_t room = screen.columns - indent, taken = 0;
    text_repeat(text, " ", indent);
    for (size_t at = 0; at < len;) {
        size_t word = unbroken(words + at, len - at, room);
        size_t wide = utf8_columns(words + at, word);
        if (wide > room) {
            word = utf8_fit(words + at, word, room);
            wide = utf8_columns(words + at, word);
        }
        if (taken > 0 && taken + 1 + wide > room) {
            text_byte(text, '\n');
            text_repeat(text, " ", indent);
            taken = 0;
        } else if (taken > 0) {
            text_byte(text, ' ');
            taken++;
        }
        text_add(text, words + at, word);
        taken += wide;
        at += word;
        while (at < len && words[at] == ' ')
            at++;
    }
    text_byte(text, '\n');
}

void put_paragraphs(const struct text *words, size_t first, bool list, struct screen screen,
                    struct text *text)
{
    const char *at = text_string(words), *end = at + words->len;
    for (size_t line = 0; at < end; line++) {
        const char *line_end = memchr(at, '\n', (size_t)(end - at));
        size_t len = (size_t)((line_end != NULL ? line_end : end) - at);
        size_t begun = text->len;
        if (line >= first)
            put_wrapped(at, len, list ? 2 : 0, screen, text);
        if (line >= first && list)
            text->bytes[begun] = '-';
        at += len + 1;
    }
}

void trim_end(struct text *text)
{
    while (text->len > 0 && text->bytes[text->len - 1] == ' ')
        text->bytes[--text->len] = '\0';
}

size_t digits_of(uint64_t number)
{
    size_t digits = 1;
    while (number >= 10) {
        number /= 10;
        digits++;
    }
    return digits;
}

void put_count(uint64_t count, const char *noun, const char *ending, struct text *text)
{
    text_format(text, "%" PRIu64 " %s%s", count, noun, count == 1 ? "" : ending);
}

void put_minutes(uint64_t minutes, struct text *text)
{
    put_count(minutes, "minute", "s", text);
}

/* Whether a bench of the set has a name. */
static bool has_name(const struct day *day, uint64_t set)
{
    for (unsigned b = 0; b < day->contents.benches; b++)
        if (YINQOCHA_HAS_BENCH(set, b) && day->bench_names[b] != NULL)
            return true;
    return false;
}

void put_set(const struct day *day, uint64_t set, struct text *text)
{
    unsigned count = benches_count(set);
    if (count > 2 && set == day_all_benches(day)) {
        text_format(text, "all %u benches", count);
        return;
    }
    if (count < 2 || has_name(day, set)) {
        benches_words(day, set, text);
        return;
    }
    struct text numbers = TEXT_EMPTY;
    text_put(text, "benches ");
    if (set == day_all_benches(day)) /* these would be `all` */
        text_put(&numbers, "0,1");
    else
        benches_render(day, set, &numbers);
    const char *last = strrchr(text_string(&numbers), ',');
    for (const char *at = text_string(&numbers); *at != '\0'; at++) {
        if (*at == ',')
            text_put(text, at == last ? " and " : ", ");
        else
            text_byte(text, *at);
    }
    text_free(&numbers);
}

void put_set_first(const struct day *day, uint64_t set, struct text *text)
{
    size_t begun = text->len, lowest = 0;
    put_set(day, set, text);
    while (lowest + 1 < day->contents.benches && !YINQOCHA_HAS_BENCH(set, lowest))
        lowest++;
    bool all = benches_count(set) > 2 && set == day_all_benches(day);
    if (all || day->bench_names[lowest] == NULL)
        text->bytes[begun] = all ? 'A' : 'B';
}

void put_heading(const struct day *day, const char *answer, enum colour colour,
                 struct screen screen, struct text *text)
{
    size_t room = screen.columns - strlen(answer) - 2;
    put_end(day->file_names[0], strlen(day->file_names[0]), room, text);
    text_put(text, ": ");
    colour_begin(screen, colour, text);
    text_put(text, answer);
    colour_end(screen, text);
    text_byte(text, '\n');
}

void put_facts(const struct day *day, uint64_t target, bool bound, struct screen screen,
               struct text *text)
{
    struct text facts = TEXT_EMPTY;
    put_count(day->contents.benches, "bench", "es", &facts);
    text_put(&facts, ", ");
    put_count(day->jobs, "job", "s", &facts);
    text_format(&facts, ", share %" PRIu64 "/%" PRIu64 ", target ", day->contents.p,
                day->contents.q);
    if (bound)
        text_format(&facts, "%" PRIu64 ", bound ", target);
    put_minutes(bound ? day_bound(day, target) : target, &facts);
    put_wrapped(text_string(&facts), facts.len, 0, screen, text);
    text_free(&facts);
}
