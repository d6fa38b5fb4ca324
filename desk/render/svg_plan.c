#include "render/svg.h"

#include <inttypes.h>
#include <stdio.h>
#include <string.h>

/* The most height of a wide picture, for which a sheet of paper has room. */
#define SHEET_HEIGHT 10000

#define PAD 25 /* beside words in a segment */

static int inside_size(const struct drawing *drawing)
{
    return drawing->size * 9 / 10;
}

/* The words for a segment of a width: name and minutes, or the name alone, as far as they fit. True
 * if both do. */
static bool inside_words(const struct drawing *drawing, size_t job, int width, struct text *words)
{
    const struct day *day = drawing->report->day;
    struct text name = TEXT_EMPTY, both = TEXT_EMPTY;
    day_job_name(day, job, &name);
    text_format(&both, "%s %" PRIu64, text_string(&name), day->contents.jobs[job].minutes);
    int size = inside_size(drawing), room = width - 2 * PAD;
    bool whole = words_width(text_string(&both), both.len, size) <= room;
    if (whole)
        text_add(words, text_string(&both), both.len);
    else if (words_width(text_string(&name), name.len, size) <= room)
        text_add(words, text_string(&name), name.len);
    text_free(&name);
    text_free(&both);
    return whole;
}

/* Whether every job of a bench has its name and minutes inside the bar. A segment may be narrower
 * than its minutes alone would be, by a tenth. */
static bool all_inside(const struct drawing *drawing, size_t bench)
{
    const struct report *report = drawing->report;
    bool whole = drawing->bar >= inside_size(drawing);
    for (size_t job = 0; whole && job < report->day->jobs; job++) {
        if (report->outcome->places[job] != bench)
            continue;
        struct text words = TEXT_EMPTY;
        int end = scale_at(&drawing->scale, report->day->contents.jobs[job].minutes);
        whole = inside_words(drawing, job, end - drawing->scale.left - 1, &words);
        text_free(&words);
    }
    return whole;
}

static void segment(const struct drawing *drawing, size_t job, struct box box, struct text *text)
{
    const struct day *day = drawing->report->day;
    bool heavy = day_is_heavy(day, job, drawing->report->outcome->target);
    int size = inside_size(drawing);
    struct text name = TEXT_EMPTY, words = TEXT_EMPTY;
    day_job_name(day, job, &name);
    svg_open(heavy ? "heavy" : "light", text_string(&name), day->contents.jobs[job].minutes,
             heavy ? ", heavy" : "", text);
    svg_part(box, text);
    inside_words(drawing, job, box.width, &words);
    if (words.len > 0 && box.height >= size)
        svg_words("inside", box.x + PAD, box.y + box.height / 2 + words_foot(size), size,
                  text_string(&words), text);
    svg_close(text);
    text_free(&name);
    text_free(&words);
}

/* The bar of a bench: what is booked, then its jobs by rising number. */
static void bar(const struct drawing *drawing, size_t bench, int y, struct text *text)
{
    const struct report *report = drawing->report;
    const struct day *day = report->day;
    const struct scale *scale = &drawing->scale;
    uint64_t load = day->contents.booked[bench];
    int x = scale->left, end = scale_at(scale, load);
    if (load > 0) {
        svg_open("booked", "booked", load, "", text);
        svg_part((struct box){ x, y, end - x, drawing->bar }, text);
        svg_close(text);
    }
    for (size_t job = 0; job < day->jobs; job++) {
        if (report->outcome->places[job] != bench || day->contents.jobs[job].minutes == 0)
            continue;
        x = end;
        load += day->contents.jobs[job].minutes;
        end = scale_at(scale, load);
        segment(drawing, job, (struct box){ x, y, end - x, drawing->bar }, text);
    }
    svg_rect(bench == report->outcome->fullest && drawing->bar >= 100 ? "whole fullest" : "whole",
             (struct box){ scale->left, y, end - scale->left, drawing->bar }, text);
}

/* The name of a bench and its load, with the fullest marked. */
static void head(const struct drawing *drawing, size_t bench, int y, struct text *text)
{
    static const char *const name_classes[2][2] = { { "name end", "name" },
                                                    { "strong end", "strong" } };
    static const char *const figure_classes[2][2] = { { "figure", "figure end" },
                                                      { "strong", "strong end" } };
    const struct report *report = drawing->report;
    bool fullest = bench == report->outcome->fullest, narrow = drawing->shape == SHAPE_NARROW;
    uint64_t load = report->outcome->loads[bench];
    struct text name = TEXT_EMPTY, cut = TEXT_EMPTY, figure = TEXT_EMPTY;
    int size = drawing->size, width = shape_width(drawing->shape);
    int left = narrow ? 0 : drawing->scale.left - 60;
    int right = narrow ? width - 30 : scale_at(&drawing->scale, load) + 40;
    int foot = y + (narrow ? size : drawing->bar / 2 + words_foot(size));
    text_format(&figure, "%" PRIu64 "%s", load, fullest ? " fullest" : "");
    day_bench_name(report->day, bench, &name);
    int room = narrow ? width - words_width(text_string(&figure), figure.len, size) - 2 * size
                      : left;
    words_cut(text_string(&name), room, size * 106 / 100, &cut);
    text_put(text, "<g><title>");
    html_escape(text_string(&name), name.len, text);
    text_put(text, "</title>");
    svg_words(name_classes[fullest][narrow], left, foot, size, text_string(&cut), text);
    svg_words(figure_classes[fullest][narrow], right, foot, size, text_string(&figure), text);
    text_put(text, "</g>\n");
    text_free(&name);
    text_free(&cut);
    text_free(&figure);
}

/* Above the bar of a narrow picture stands the head. */
static int head_height(const struct drawing *drawing)
{
    return drawing->shape == SHAPE_NARROW ? drawing->size * 13 / 10 : 0;
}

static int row_height(const struct drawing *drawing, size_t bench)
{
    int height = head_height(drawing) + drawing->bar;
    if (drawing->lines[bench] > 0)
        height += drawing->lines[bench] * list_line_height(drawing) + drawing->size / 5;
    int least = list_line_height(drawing);
    return (height > least ? height : least) + drawing->gap;
}

static void row(const struct drawing *drawing, size_t bench, int y, struct text *text)
{
    int top = y + head_height(drawing), bottom = top + drawing->bar;
    const struct outcome *outcome = drawing->report->outcome;
    int target = scale_at(&drawing->scale, outcome->target);
    bar(drawing, bench, top, text);
    if (outcome->loads[bench] > outcome->target)
        svg_line("target", target, top, target, bottom, text);
    head(drawing, bench, y, text);
    if (drawing->lines[bench] > 0)
        svg_list(drawing, bench, bottom + drawing->size / 10, text);
}

/* Rows begin below the labels of target and bound. */
static int rows_top(const struct drawing *drawing)
{
    return drawing->size * 13 / 10 + drawing->gap;
}

static int picture_height(const struct drawing *drawing)
{
    int height = rows_top(drawing);
    for (size_t bench = 0; bench < drawing->report->day->contents.benches; bench++)
        height += row_height(drawing, bench);
    return height;
}

/* The ground of every second row, so that the eye keeps to a row. */
static void bands(const struct drawing *drawing, struct text *text)
{
    int y = rows_top(drawing);
    for (size_t bench = 0; bench < drawing->report->day->contents.benches; bench++) {
        int height = row_height(drawing, bench);
        if (bench % 2 == 0)
            svg_rect("band", (struct box){ 0, y - drawing->gap / 2, shape_width(drawing->shape),
                                           height }, text);
        y += height;
    }
}

/* Target and bound: their lines and labels. */
static void axis(const struct drawing *drawing, int bottom, struct text *text)
{
    const struct scale *scale = &drawing->scale;
    uint64_t target = drawing->report->outcome->target;
    uint64_t bound = day_bound(drawing->report->day, target);
    int at = scale_at(scale, target), end = scale_at(scale, bound);
    int size = drawing->size, top = size * 13 / 10;
    char words[64];
    svg_line("zero", scale->left, top, scale->left, bottom, text);
    svg_line("target far", at, top, at, bottom, text);
    svg_line("bound", end, top, end, bottom, text);
    snprintf(words, sizeof words, end > at ? "target %" PRIu64 : "target and bound %" PRIu64,
             target);
    svg_label(drawing->shape, at, size, size, words, text);
    if (end == at)
        return;
    snprintf(words, sizeof words, "bound %" PRIu64, bound);
    svg_label(drawing->shape, end, size, size, words, text);
}

/* The scale: names of benches to its left in a wide picture, room for a load to its right. */
static struct scale scale_of(const struct report *report, enum shape shape, int size)
{
    uint64_t bound = day_bound(report->day, report->outcome->target);
    struct scale scale = { 10, shape_width(shape) - 20, bound > 0 ? bound : 1 };
    char figure[40];
    if (shape == SHAPE_NARROW)
        return scale;
    snprintf(figure, sizeof figure, "%" PRIu64 " fullest", report->outcome->largest);
    int right = 60 + words_width(figure, strlen(figure), size * 115 / 100);
    scale.left = 60 + widest_bench_name(report->day, size, 1600);
    scale.width = shape_width(shape) - scale.left - right;
    return scale;
}

/* Gives each bench the lines of its list, with names that are cut to so many hundredths of the
 * letter size. */
static void set_lines(struct drawing *drawing, int most)
{
    for (size_t bench = 0; bench < drawing->report->day->contents.benches; bench++)
        drawing->lines[bench] = all_inside(drawing, bench) ? 0
                                                           : list_lines(drawing, bench, most);
}

/* Gives what is left of a height to the lists with names that are cut, a line each. */
static void spread(struct drawing *drawing, int left)
{
    int more = left / list_line_height(drawing);
    for (size_t bench = 0; bench < drawing->report->day->contents.benches && more > 0; bench++)
        if (drawing->lines[bench] > 0
            && list_lines(drawing, bench, LIST_WHOLE_NAMES) > drawing->lines[bench]) {
            drawing->lines[bench]++;
            more--;
        }
}

/* The largest letters with which a wide picture is at most as high as a sheet of paper has room,
 * and names in lists as long as that allows. */
static struct drawing drawing_of(const struct report *report, enum shape shape)
{
    static const struct {
        int size, bar, gap, name_most;
    } steps[] = {
        { 130, 260, 160, 4000 }, { 120, 230, 130, 4000 }, { 110, 200, 110, 3000 },
        { 100, 170, 90, 3000 },  { 95, 140, 75, 2500 },   { 90, 110, 60, 2500 },
        { 85, 90, 50, 2000 },    { 80, 75, 45, 2000 },    { 75, 65, 35, 2000 },
        { 70, 55, 30, 1600 },    { 70, 50, 20, 1600 },    { 65, 45, 20, 1600 },
        { 65, 40, 15, 1300 },    { 65, 40, 12, 1000 },    { 65, 40, 10, 800 },
        { 65, 40, 10, 550 },
    };
    struct drawing drawing = { .report = report, .shape = shape };
    for (size_t n = 0; n < sizeof steps / sizeof *steps; n++) {
        drawing.size = shape == SHAPE_NARROW ? shape_size(shape) : steps[n].size;
        drawing.bar = steps[n].bar;
        drawing.gap = steps[n].gap;
        drawing.scale = scale_of(report, shape, drawing.size);
        set_lines(&drawing, steps[n].name_most);
        if (shape == SHAPE_NARROW || picture_height(&drawing) <= SHEET_HEIGHT)
            break;
    }
    if (shape == SHAPE_WIDE)
        spread(&drawing, SHEET_HEIGHT - picture_height(&drawing));
    return drawing;
}

void svg_plan(const struct report *report, enum shape shape, struct text *text)
{
    struct drawing drawing = drawing_of(report, shape);
    int height = picture_height(&drawing), y = rows_top(&drawing);
    struct text body = TEXT_EMPTY;
    bands(&drawing, &body);
    axis(&drawing, height - drawing.gap / 2, &body);
    for (size_t bench = 0; bench < report->day->contents.benches; bench++) {
        row(&drawing, bench, y, &body);
        y += row_height(&drawing, bench);
    }
    svg_picture(shape, height, "A bar for each bench: what is booked there, then its jobs", &body,
                text);
    text_free(&body);
}
