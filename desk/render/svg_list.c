#include "render/svg.h"

#include <inttypes.h>
#include <stdio.h>
#include <string.h>

int list_line_height(const struct drawing *drawing)
{
    return drawing->size * 12 / 10;
}

/* An item: a name, cut to so many hundredths of the letter size, and minutes. Returns its width. */
static int item(const struct drawing *drawing, size_t job, int most, struct text *text)
{
    const struct day *day = drawing->report->day;
    struct text name = TEXT_EMPTY, cut = TEXT_EMPTY;
    char minutes[24];
    day_job_name(day, job, &name);
    words_cut(text_string(&name), most * drawing->size / 100, drawing->size, &cut);
    snprintf(minutes, sizeof minutes, " %" PRIu64, day->contents.jobs[job].minutes);
    int width = words_width(text_string(&cut), cut.len, drawing->size)
                + words_width(minutes, strlen(minutes), drawing->size);
    text_put(text, "<tspan>");
    html_escape(text_string(&cut), cut.len, text);
    text_format(text, "</tspan>%s", minutes);
    text_free(&name);
    text_free(&cut);
    return width;
}

/* Lines that are put together one after another. */
struct lines {
    const struct drawing *drawing;
    int y, count;
    int taken; /* of the line that is not put down yet */
    struct text words;
    struct text *text;
};

static int room_of(const struct drawing *drawing)
{
    return shape_width(drawing->shape) - drawing->scale.left;
}

/* Puts a line down. One that is nearly full is drawn as wide as it was taken to be, so that wider
 * letters do not end beyond the picture. */
static void end_line(struct lines *lines)
{
    const struct drawing *drawing = lines->drawing;
    int room = room_of(drawing), y = lines->y + lines->count * list_line_height(drawing);
    if (lines->words.len == 0)
        return;
    svg_tagged_words("list", drawing->scale.left, y + drawing->size, drawing->size,
                     lines->taken > room * 8 / 10 ? lines->taken : 0, &lines->words, lines->text);
    text_free(&lines->words);
    lines->count++;
    lines->taken = 0;
}

/* The list with names cut to so many hundredths. Returns how many lines it takes. */
static int list(const struct drawing *drawing, size_t bench, int most, int y, struct text *text)
{
    static const char between[] = " \xC2\xB7 ";
    const struct report *report = drawing->report;
    const int gap = words_width(between, strlen(between), drawing->size);
    struct lines lines = { .drawing = drawing, .y = y, .text = text };
    for (size_t job = 0; job < report->day->jobs; job++) {
        if (report->outcome->places[job] != bench)
            continue;
        struct text words = TEXT_EMPTY;
        int width = item(drawing, job, most, &words);
        if (lines.taken + gap + width > room_of(drawing))
            end_line(&lines);
        if (lines.words.len > 0) {
            text_put(&lines.words, between);
            lines.taken += gap;
        }
        text_add(&lines.words, text_string(&words), words.len);
        lines.taken += width;
        text_free(&words);
    }
    end_line(&lines);
    return lines.count;
}

int list_lines(const struct drawing *drawing, size_t bench, int most)
{
    struct text tried = TEXT_EMPTY;
    int lines = list(drawing, bench, most, 0, &tried);
    text_free(&tried);
    return lines;
}

void svg_list(const struct drawing *drawing, size_t bench, int y, struct text *text)
{
    static const int widths[] = { LIST_WHOLE_NAMES, 12000, 8000, 6000, 5000, 4000, 3500, 3000,
                                  2500, 2200, 2000, 1800, 1600, 1400, 1200, 1100, 1000, 900, 800,
                                  700, 550 };
    size_t n = 0, last = sizeof widths / sizeof *widths - 1;
    while (n < last && list_lines(drawing, bench, widths[n]) > drawing->lines[bench])
        n++;
    list(drawing, bench, widths[n], y, text);
}
