#include "render/svg.h"

#include <inttypes.h>
#include <stdio.h>

static int bar_height(const struct bench_rows *rows)
{
    return shape_size(rows->shape) * 11 / 10;
}

static int row_height(const struct bench_rows *rows)
{
    return shape_size(rows->shape) * 16 / 10;
}

/* A row: the box to the target, what is booked in it, and how much that is. */
static void bench_row(const struct bench_rows *rows, size_t bench, const struct scale *scale,
                      int name_room, int y, struct text *text)
{
    int bar = bar_height(rows), size = shape_size(rows->shape);
    int target = scale_at(scale, rows->target), foot = y + bar / 2 + words_foot(size);
    bool marked = YINQOCHA_HAS_BENCH(rows->marked, bench);
    uint64_t booked = rows->day->contents.booked[bench];
    int end = scale_at(scale, booked);
    struct text name = TEXT_EMPTY, cut = TEXT_EMPTY;
    char figure[24];
    day_bench_name(rows->day, bench, &name);
    words_cut(text_string(&name), name_room, size * 106 / 100, &cut);
    svg_open(marked ? "marked" : "free", text_string(&name), booked, " booked", text);
    svg_rect("room", (struct box){ scale->left, y, target - scale->left, bar }, text);
    if (booked > 0) {
        svg_rect("taken", (struct box){ scale->left, y, end - scale->left, bar }, text);
        snprintf(figure, sizeof figure, "%" PRIu64, booked);
        svg_words("figure", (end > target ? end : target) + 40, foot, size, figure, text);
    }
    svg_line("target", target, y, target, y + bar, text);
    svg_words(marked ? "strong end" : "name end", scale->left - 60, foot, size, text_string(&cut),
              text);
    svg_close(text);
    text_free(&name);
    text_free(&cut);
}

/* Rows stand in two columns where there are many and the picture is wide. */
int bench_columns(const struct bench_rows *rows)
{
    return rows->shape == SHAPE_WIDE && rows->day->contents.benches > 12 ? 2 : 1;
}

static int column_width(const struct bench_rows *rows)
{
    const int gap = 300, columns = bench_columns(rows);
    return (shape_width(rows->shape) + gap) / columns - gap;
}

static int name_width(const struct bench_rows *rows)
{
    return widest_bench_name(rows->day, shape_size(rows->shape), column_width(rows) / 3);
}

struct scale bench_scale(const struct bench_rows *rows, int column)
{
    const int left = column * shape_width(rows->shape) - column * column_width(rows);
    const int name = name_width(rows) + 60, figure = 6 * shape_size(rows->shape);
    return (struct scale){ left + name, column_width(rows) - name - figure, rows->most };
}

int svg_bench_rows(const struct bench_rows *rows, int top, struct text *text)
{
    const size_t benches = rows->day->contents.benches, columns = (size_t)bench_columns(rows);
    const size_t each = (benches + columns - 1) / columns;
    const int size = shape_size(rows->shape), first = top + 2 * size, height = row_height(rows);
    char words[40];
    snprintf(words, sizeof words, "target %" PRIu64, rows->target);
    for (size_t column = 0; column < columns; column++) {
        struct scale scale = bench_scale(rows, (int)column);
        int target = scale_at(&scale, rows->target);
        size_t bench = column * each;
        size_t last = bench + each < benches ? bench + each : benches;
        svg_label(rows->shape, target, top + size, size, words, text);
        svg_line("target far", target, top + size * 13 / 10, target,
                 first + (int)(last - bench) * height - height + bar_height(rows), text);
        for (int y = first; bench < last; bench++, y += height)
            bench_row(rows, bench, &scale, name_width(rows), y, text);
    }
    return first + (int)each * height;
}
