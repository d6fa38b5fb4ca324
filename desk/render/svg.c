#include "render/svg.h"

#include "base/utf8.h"

#include <inttypes.h>
#include <string.h>

int shape_width(enum shape shape)
{
    return shape == SHAPE_WIDE ? 8000 : 4200;
}

int shape_size(enum shape shape)
{
    return shape == SHAPE_WIDE ? 100 : 120;
}

static void length(const char *key, int tenths, struct text *text)
{
    text_format(text, " %s=\"%d", key, tenths / 10);
    if (tenths % 10 != 0)
        text_format(text, ".%d", tenths % 10);
    text_byte(text, '"');
}

void svg_picture(enum shape shape, int height, const char *label, const struct text *body,
                 struct text *text)
{
    text_format(text, "<svg class=\"%s\" viewBox=\"0 0 %d %d\" role=\"group\" aria-label=\"",
                shape == SHAPE_WIDE ? "wide" : "narrow", shape_width(shape) / 10,
                (height + 9) / 10);
    html_escape(label, strlen(label), text);
    text_put(text, "\">\n");
    text_add(text, text_string(body), body->len);
    text_put(text, "</svg>\n");
}

void svg_rect(const char *class, struct box box, struct text *text)
{
    text_format(text, "<rect class=\"%s\"", class);
    length("x", box.x, text);
    length("y", box.y, text);
    length("width", box.width, text);
    length("height", box.height, text);
    text_put(text, "/>\n");
}

void svg_part(struct box box, struct text *text)
{
    svg_rect(box.width < 12 ? "part bare" : box.width < 30 ? "part thin" : "part", box, text);
}

void svg_line(const char *class, int x1, int y1, int x2, int y2, struct text *text)
{
    text_format(text, "<line class=\"%s\"", class);
    length("x1", x1, text);
    length("y1", y1, text);
    length("x2", x2, text);
    length("y2", y2, text);
    text_put(text, "/>\n");
}

void svg_tagged_words(const char *class, int x, int y, int size, int width,
                      const struct text *words, struct text *text)
{
    text_format(text, "<text class=\"%s\"", class);
    length("x", x, text);
    length("y", y, text);
    length("font-size", size, text);
    if (width > 0) {
        length("textLength", width, text);
        text_put(text, " lengthAdjust=\"spacingAndGlyphs\"");
    }
    text_byte(text, '>');
    text_add(text, text_string(words), words->len);
    text_put(text, "</text>\n");
}

void svg_words(const char *class, int x, int y, int size, const char *words, struct text *text)
{
    struct text escaped = TEXT_EMPTY;
    html_escape(words, strlen(words), &escaped);
    svg_tagged_words(class, x, y, size, 0, &escaped, text);
    text_free(&escaped);
}

void svg_label(enum shape shape, int x, int y, int size, const char *words, struct text *text)
{
    int half = words_width(words, strlen(words), size * 106 / 100) / 2;
    int most = shape_width(shape) - half;
    svg_words("label middle", x < half ? half : x > most ? most : x, y, size, words, text);
}

void svg_open(const char *class, const char *name, uint64_t minutes, const char *words,
              struct text *text)
{
    text_format(text, "<g class=\"%s\"><title>", class);
    html_escape(name, strlen(name), text);
    text_format(text, ", %" PRIu64 " minute%s%s</title>", minutes, minutes == 1 ? "" : "s", words);
}

void svg_close(struct text *text)
{
    text_put(text, "</g>\n");
}

int scale_at(const struct scale *scale, uint64_t minutes)
{
    uint64_t within = minutes < scale->most ? minutes : scale->most;
    return scale->left + (int)(within * (uint64_t)scale->width / scale->most);
}

/* Hundredths of the letter size that a character takes in the letters of a page: Helvetica's width,
 * rounded up, which Arial and Liberation Sans have too. Of other characters the usual width. */
static int glyph_width(uint32_t point)
{
    static const unsigned char ascii[] = {
        28, 28, 36, 56, 56, 89, 67, 20, 34, 34, 39, 59, 28, 34, 28, 28, 56, 56, 56, 56, 56, 56, 56,
        56, 56, 56, 28, 28, 59, 59, 59, 56, 102, 67, 67, 73, 73, 67, 62, 78, 73, 28, 50, 67, 56,
        84, 73, 78, 67, 78, 73, 67, 62, 73, 67, 95, 67, 67, 62, 28, 28, 28, 47, 56, 34, 56, 56, 50,
        56, 56, 28, 56, 56, 23, 23, 50, 23, 84, 56, 56, 56, 56, 34, 50, 28, 56, 50, 73, 50, 50, 50,
        34, 26, 34, 59,
    };
    unsigned columns = utf8_columns_of(point);
    if (columns != 1)
        return columns == 0 ? 0 : 115;
    if (point >= ' ' && point <= '~')
        return ascii[point - ' '];
    return point == 0xB7 ? 34 : point >= 0xDF && point <= 0xFF ? 60 : 72;
}

/* The bytes of the longest front of some words that takes at most so many hundredths; marks stay
 * with the character before them. `taken` is what it takes. */
static size_t fit(const char *words, size_t len, int most, int *taken)
{
    size_t at = 0;
    *taken = 0;
    while (at < len) {
        uint32_t point = 'm';
        size_t step = utf8_next(words + at, len - at, &point);
        int width = glyph_width(point);
        if (*taken + width > most)
            break;
        *taken += width;
        at += step > 0 ? step : 1;
    }
    return at;
}

int words_width(const char *words, size_t len, int size)
{
    int taken;
    fit(words, len, 1 << 24, &taken);
    return taken * size / 100;
}

void words_cut(const char *words, int width, int size, struct text *cut)
{
    const int ellipsis = 100;
    size_t len = strlen(words);
    int most = width > 0 ? width * 100 / size : 0, taken;
    if (words_width(words, len, size) <= width) {
        text_add(cut, words, len);
        return;
    }
    if (most < ellipsis)
        return;
    size_t front = fit(words, len, most - ellipsis, &taken);
    while (front > 0 && words[front - 1] == ' ')
        front--;
    text_add(cut, words, front);
    text_put(cut, "\xE2\x80\xA6");
}

int words_foot(int size)
{
    return size * 35 / 100;
}

int widest_bench_name(const struct day *day, int size, int most)
{
    int widest = 0;
    for (size_t bench = 0; bench < day->contents.benches && widest < most; bench++) {
        struct text name = TEXT_EMPTY;
        day_bench_name(day, bench, &name);
        int width = words_width(text_string(&name), name.len, size * 115 / 100);
        widest = width > widest ? width : widest;
        text_free(&name);
    }
    return widest < most ? widest : most;
}
