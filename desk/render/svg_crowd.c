#include "render/svg.h"

#include <inttypes.h>
#include <stdio.h>
#include <string.h>

/* The jobs and benches of a crowd in an order in which those that belong together stand near each
 * other: from a bench to the jobs that may use it, and on to their other benches. */
struct order {
    size_t jobs[YINQOCHA_MAX_JOBS], benches[YINQOCHA_MAX_BENCHES];
    size_t job_count, bench_count;
    uint64_t seen; /* benches */
    bool placed[YINQOCHA_MAX_JOBS];
};

static void add_benches(struct order *order, uint64_t set)
{
    for (size_t bench = 0; bench < YINQOCHA_MAX_BENCHES; bench++)
        if (YINQOCHA_HAS_BENCH(set & ~order->seen, bench))
            order->benches[order->bench_count++] = bench;
    order->seen |= set;
}

static void order_of(const struct report *report, struct order *order)
{
    const struct reason *reason = report->reason;
    *order = (struct order){ .job_count = 0 };
    for (size_t bench = 0; bench < YINQOCHA_MAX_BENCHES; bench++) {
        if (!YINQOCHA_HAS_BENCH(reason->crowd_benches & ~order->seen, bench))
            continue;
        size_t next = order->bench_count;
        add_benches(order, YINQOCHA_BENCH(bench));
        for (; next < order->bench_count; next++)
            for (size_t n = 0; n < reason->crowd.count; n++) {
                size_t job = reason->crowd.job[n];
                uint64_t allowed = report->day->contents.jobs[job].allowed;
                if (order->placed[job] || !YINQOCHA_HAS_BENCH(allowed, order->benches[next]))
                    continue;
                order->placed[job] = true;
                order->jobs[order->job_count++] = job;
                add_benches(order, allowed & reason->crowd_benches);
            }
    }
}

/* Two columns of boxes, jobs and benches, with lines between them. */
struct columns {
    const struct report *report;
    enum shape shape;
    struct order order;
    int size, pitch; /* of letters, and from one box to the next */
};

static int column_width(const struct columns *columns)
{
    return shape_width(columns->shape) * 38 / 100;
}

static int height_of(const struct columns *columns)
{
    const struct order *order = &columns->order;
    size_t most = order->job_count > order->bench_count ? order->job_count : order->bench_count;
    return (int)most * columns->pitch;
}

/* The height around which number n of so many in a column stands. */
static int middle_of(const struct columns *columns, size_t n, size_t count)
{
    return 2 * columns->size + (int)((2 * n + 1) * (size_t)height_of(columns) / (2 * count));
}

/* A box with a name and minutes in it. */
static void node(const struct columns *columns, const char *class, int x, int middle,
                 const char *name, const char *minutes, struct text *text)
{
    const int size = columns->size, high = columns->pitch * 3 / 4, width = column_width(columns);
    const int figure = words_width(minutes, strlen(minutes), size);
    struct text cut = TEXT_EMPTY;
    words_cut(name, width - figure - size * 2, size, &cut);
    svg_rect(class, (struct box){ x, middle - high / 2, width, high }, text);
    svg_words("inside", x + size / 2, middle + words_foot(size), size, text_string(&cut), text);
    svg_words("inside end", x + width - size / 2, middle + words_foot(size), size, minutes, text);
    text_free(&cut);
}

static void job_node(const struct columns *columns, size_t n, struct text *text)
{
    const struct day *day = columns->report->day;
    size_t job = columns->order.jobs[n];
    uint64_t minutes = day->contents.jobs[job].minutes;
    struct text name = TEXT_EMPTY;
    char figure[24];
    day_job_name(day, job, &name);
    snprintf(figure, sizeof figure, "%" PRIu64, minutes);
    svg_open("heavy", text_string(&name), minutes, ", heavy", text);
    node(columns, "part", 10, middle_of(columns, n, columns->order.job_count), text_string(&name),
         figure, text);
    svg_close(text);
    text_free(&name);
}

static void bench_node(const struct columns *columns, size_t n, struct text *text)
{
    const struct day *day = columns->report->day;
    size_t bench = columns->order.benches[n];
    uint64_t booked = day->contents.booked[bench];
    bool marked = YINQOCHA_HAS_BENCH(columns->report->reason->set, bench);
    int x = shape_width(columns->shape) - column_width(columns) - 10;
    struct text name = TEXT_EMPTY;
    char figure[32] = "";
    day_bench_name(day, bench, &name);
    if (booked > 0)
        snprintf(figure, sizeof figure, "booked %" PRIu64, booked);
    svg_open(marked ? "marked" : "free", text_string(&name), booked, " booked", text);
    node(columns, "room", x, middle_of(columns, n, columns->order.bench_count),
         text_string(&name), figure, text);
    svg_close(text);
    text_free(&name);
}

static void edges(const struct columns *columns, struct text *text)
{
    const struct order *order = &columns->order;
    const int left = 10 + column_width(columns), right = shape_width(columns->shape) - left;
    for (size_t n = 0; n < order->job_count; n++) {
        uint64_t allowed = columns->report->day->contents.jobs[order->jobs[n]].allowed;
        for (size_t b = 0; b < order->bench_count; b++)
            if (YINQOCHA_HAS_BENCH(allowed, order->benches[b]))
                svg_line("edge", left, middle_of(columns, n, order->job_count), right,
                         middle_of(columns, b, order->bench_count), text);
    }
}

int svg_crowd(const struct report *report, enum shape shape, struct text *text)
{
    struct columns columns = { .report = report, .shape = shape };
    order_of(report, &columns.order);
    bool many = shape == SHAPE_WIDE && columns.order.job_count > 24;
    columns.size = many ? 90 : shape_size(shape);
    columns.pitch = many ? 135 : 2 * columns.size;
    char words[64];
    snprintf(words, sizeof words, "%zu heavy jobs", columns.order.job_count);
    svg_words("label", 10, columns.size, columns.size, words, text);
    snprintf(words, sizeof words, "%zu %s between them", columns.order.bench_count,
             columns.order.bench_count == 1 ? "bench" : "benches");
    svg_words("label end", shape_width(shape) - 10, columns.size, columns.size, words, text);
    edges(&columns, text);
    for (size_t n = 0; n < columns.order.job_count; n++)
        job_node(&columns, n, text);
    for (size_t n = 0; n < columns.order.bench_count; n++)
        bench_node(&columns, n, text);
    return 2 * columns.size + height_of(&columns) + columns.size / 2;
}
