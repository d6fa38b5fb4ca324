/*
 * svg.h - the pictures of a page: bars by bench, and why a day has no plan
 *
 * Each picture is drawn in two shapes, a wide one for screens and paper and a narrow one for
 * phones; the page shows the one that fits. Lengths are in tenths of a picture's unit. Colours and
 * patterns are those of the page's style, by class.
 */

#ifndef DESK_SVG_H
#define DESK_SVG_H

#include "render/render.h"

enum shape { SHAPE_WIDE, SHAPE_NARROW };

/* The width of a picture, and its letters where their size does not depend on what it shows. */
int shape_width(enum shape shape);
int shape_size(enum shape shape);

/* The pictures. */
void svg_plan(const struct report *report, enum shape shape, struct text *text);
void svg_none(const struct report *report, enum shape shape, struct text *text);
void svg_long(const struct report *report, enum shape shape, struct text *text);

/* What they are made of. The body of a picture is drawn into a text of its own, for its height is
 * known last; svg_picture() puts it into the page. The label is for those who cannot see it. */
void svg_picture(enum shape shape, int height, const char *label, const struct text *body,
                 struct text *text);

struct box {
    int x, y, width, height;
};

void svg_rect(const char *class, struct box box, struct text *text);
void svg_line(const char *class, int x1, int y1, int x2, int y2, struct text *text);

/* A part of a bar; a narrow one has a thin outline or none, so that its colour is seen. */
void svg_part(struct box box, struct text *text);

/* Words from a point on, or with the classes `middle` and `end` around it or up to it. */
void svg_words(const char *class, int x, int y, int size, const char *words, struct text *text);

/* The same of words that have tags in them. Where a width above 0 is given, they are drawn just as
 * wide, whichever letters a browser has. */
void svg_tagged_words(const char *class, int x, int y, int size, int width,
                      const struct text *words, struct text *text);

/* The label of a line at the top of a picture: above the line as far as the picture has room. */
void svg_label(enum shape shape, int x, int y, int size, const char *words, struct text *text);

/* A group with a tooltip: a name, and minutes with words behind them. */
void svg_open(const char *class, const char *name, uint64_t minutes, const char *words,
              struct text *text);
void svg_close(struct text *text);

/* Minutes on a line: `most` are `width` to the right of `left`. `most` is above 0. */
struct scale {
    int left, width;
    uint64_t most;
};

int scale_at(const struct scale *scale, uint64_t minutes);

/* About how wide words are in a letter size; rather too wide than too narrow. */
int words_width(const char *words, size_t len, int size);

/* Words cut to a width, with an ellipsis where something is missing. */
void words_cut(const char *words, int width, int size, struct text *cut);

/* How wide the widest name of a bench is, within a limit, with room to spare for bold or wider
 * letters. */
int widest_bench_name(const struct day *day, int size, int most);

/* How much lower than the middle of a bar the foot of letters is that stand in its middle. */
int words_foot(int size);

/* How a plan is drawn. A row has the bench's name, the bar with its load, and below it the list of
 * its jobs, unless every job has its name and minutes inside the bar. A narrow picture has the
 * bench's name above the bar. */
struct drawing {
    const struct report *report;
    enum shape shape;
    int size;     /* of letters */
    int bar, gap; /* a bar's height, and the space below a row */
    struct scale scale;
    int lines[YINQOCHA_MAX_BENCHES]; /* of the list below a bench's bar */
};

/* The list of a bench's jobs: the lines that it takes with names that are cut to so many hundredths
 * of the letter size, their height, and the list from a height on, with names as long as the
 * bench's lines allow. */
#define LIST_WHOLE_NAMES 30000
int list_lines(const struct drawing *drawing, size_t bench, int most);
int list_line_height(const struct drawing *drawing);
void svg_list(const struct drawing *drawing, size_t bench, int y, struct text *text);

/* The rows of a day without a plan: a box a bench as long as the target, with the booked minutes in
 * it; those of a set are marked. */
struct bench_rows {
    const struct day *day;
    enum shape shape;
    uint64_t target, marked;
    uint64_t most; /* the minutes at the right end of a row */
};

/* How many columns of rows there are, the scale of one, and the rows from a height on. Returns
 * where they end. */
int bench_columns(const struct bench_rows *rows);
struct scale bench_scale(const struct bench_rows *rows, int column);
int svg_bench_rows(const struct bench_rows *rows, int top, struct text *text);

/* Heavy jobs that no placement has, and the benches that they have between them. Returns where the
 * drawing ends. */
int svg_crowd(const struct report *report, enum shape shape, struct text *text);

#endif
