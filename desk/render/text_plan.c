#include "render/layout.h"

#include "base/utf8.h"

#include <inttypes.h>
#include <string.h>

#define BOOKED "\xE2\x96\x92"  /* medium shade */
#define JOBS "\xE2\x96\x88"    /* full block */
#define ROOM "\xC2\xB7"        /* middle dot */
#define TARGET "\xE2\x94\x82"  /* a line */
#define BOUND "\xE2\x95\x91"   /* a double line */
#define FULLEST "\xE2\x97\x80" /* a triangle that points at the load */

#define JOBS_INDENT 4
#define MOST_CELLS 100

/* How the lines of benches are divided. */
struct columns {
    size_t name, cells, load;
    size_t above; /* what is above the target, with its sign; 0 if that is not shown */
    bool fullest; /* there is room for the word */
    uint64_t target, bound;
};

static size_t widest_name(const struct day *day)
{
    size_t widest = 0;
    for (size_t b = 0; b < day->contents.benches; b++) {
        struct text name = TEXT_EMPTY;
        day_bench_name(day, b, &name);
        size_t columns = utf8_columns(text_string(&name), name.len);
        widest = columns > widest ? columns : widest;
        text_free(&name);
    }
    return widest;
}

/* The columns that are left for the cells of the bars. */
static size_t cells_left(const struct columns *columns, struct screen screen)
{
    size_t taken = columns->name + 1 + 2 + 1 + columns->load + 1 + (columns->fullest ? 9 : 1)
                   + (columns->above > 0 ? columns->above + 1 : 0);
    size_t left = taken < screen.columns ? screen.columns - taken : 0;
    return left < MOST_CELLS ? left : MOST_CELLS;
}

static struct columns columns_of(const struct report *report, struct screen screen)
{
    const struct outcome *outcome = report->outcome;
    struct columns columns = { .name = widest_name(report->day), .fullest = true };
    columns.target = outcome->target;
    columns.bound = day_bound(report->day, outcome->target);
    columns.load = digits_of(outcome->largest);
    if (columns.name > screen.columns / 4)
        columns.name = screen.columns / 4;
    if (outcome->largest > outcome->target)
        columns.above = 1 + digits_of(outcome->largest - outcome->target);
    columns.fullest = cells_left(&columns, screen) >= 12;
    if (cells_left(&columns, screen) < 8)
        columns.above = 0;
    columns.cells = cells_left(&columns, screen);
    return columns;
}

/* The cells of so many minutes, rounded to the nearest; but any minute has a cell, and minutes
 * above the target have one behind its mark. */
static size_t cells_of(const struct columns *columns, uint64_t minutes)
{
    if (columns->bound == 0 || minutes == 0)
        return 0;
    if (minutes >= columns->bound)
        return columns->cells;
    size_t cells = (size_t)((minutes * columns->cells + columns->bound / 2) / columns->bound);
    size_t least = minutes > columns->target ? cells_of(columns, columns->target) + 1 : 1;
    cells = cells < least ? least : cells;
    return cells < columns->cells ? cells : columns->cells;
}

/* A bar from one cell to another: booked up to the first, jobs up to the last, then room. */
static void put_cells(size_t from, size_t to, size_t first, size_t last, struct text *text)
{
    for (size_t cell = from; cell < to; cell++)
        text_put(text, cell < first ? BOOKED : cell < last ? JOBS : ROOM);
}

static void put_bar(const struct columns *columns, uint64_t booked, uint64_t load,
                    struct screen screen, struct text *text)
{
    size_t target = cells_of(columns, columns->target);
    size_t first = cells_of(columns, booked), last = cells_of(columns, load);
    put_cells(0, target, first, last, text);
    text_put(text, TARGET);
    if (last > target) {
        colour_begin(screen, COLOUR_YELLOW, text);
        put_cells(target, last, first, last, text);
        colour_end(screen, text);
    }
    put_cells(last > target ? last : target, columns->cells, first, last, text);
    text_put(text, BOUND);
}

/* The name, the bar and the load of a bench. */
static void put_bench(const struct report *report, const struct columns *columns, size_t bench,
                      struct screen screen, struct text *text)
{
    const struct outcome *outcome = report->outcome;
    uint64_t load = outcome->loads[bench];
    bool fullest = bench == outcome->fullest;
    struct text name = TEXT_EMPTY;
    day_bench_name(report->day, bench, &name);
    if (fullest)
        colour_begin(screen, COLOUR_BOLD, text);
    put_padded(text_string(&name), name.len, columns->name, text);
    if (fullest)
        colour_end(screen, text);
    text_free(&name);
    text_byte(text, ' ');
    put_bar(columns, report->day->contents.booked[bench], load, screen, text);
    if (load > outcome->target)
        colour_begin(screen, COLOUR_YELLOW, text);
    text_format(text, " %*" PRIu64, (int)columns->load, load);
    if (columns->above > 0 && load > outcome->target)
        text_format(text, " %+*" PRId64, (int)columns->above, (int64_t)(load - outcome->target));
    else if (columns->above > 0 && fullest)
        text_repeat(text, " ", columns->above + 1);
    if (load > outcome->target)
        colour_end(screen, text);
    if (fullest)
        text_put(text, columns->fullest ? " " FULLEST " fullest" : " " FULLEST);
    text_byte(text, '\n');
}

/* The line of a bench's jobs that is being filled. */
struct items {
    struct screen screen;
    struct text *text;
    size_t taken; /* columns of the line that are taken, 0 before the first item */
};

/* Adds an item: a name, cut if it must be, and what stands behind it. */
static void put_item(struct items *items, const struct text *name, const struct text *behind)
{
    size_t room = items->screen.columns - JOBS_INDENT - 1;
    size_t behind_columns = utf8_columns(text_string(behind), behind->len);
    size_t columns = utf8_columns(text_string(name), name->len) + behind_columns;
    columns = columns < room ? columns : room;
    if (items->taken > 0 && items->taken + 2 + columns <= room) {
        text_put(items->text, "; ");
        items->taken += 2;
    } else {
        text_put(items->text, items->taken > 0 ? ";\n" : "");
        text_repeat(items->text, " ", JOBS_INDENT);
        items->taken = 0;
    }
    items->taken += put_front(text_string(name), name->len, columns - behind_columns, items->text);
    text_add(items->text, text_string(behind), behind->len);
    items->taken += behind_columns;
}

static void put_booked(struct items *items, uint64_t minutes)
{
    struct text name = TEXT_EMPTY, behind = TEXT_EMPTY;
    text_format(&behind, "%" PRIu64 " booked", minutes);
    put_item(items, &name, &behind);
    text_free(&behind);
}

/* What lies on a bench: what is booked, then its jobs in the order of the sheet. */
static void put_contents(const struct report *report, size_t bench, struct screen screen,
                         struct text *text)
{
    const struct day *day = report->day;
    struct items items = { screen, text, 0 };
    if (day->contents.booked[bench] > 0)
        put_booked(&items, day->contents.booked[bench]);
    for (size_t j = 0; j < day->jobs; j++) {
        if (report->outcome->places[j] != bench)
            continue;
        struct text name = TEXT_EMPTY, behind = TEXT_EMPTY;
        day_job_name(day, j, &name);
        text_format(&behind, " (%" PRIu64 ")", day->contents.jobs[j].minutes);
        put_item(&items, &name, &behind);
        text_free(&name);
        text_free(&behind);
    }
    if (items.taken == 0) {
        text_repeat(text, " ", JOBS_INDENT);
        text_put(text, "no jobs");
    }
    text_byte(text, '\n');
}

/* What the signs of a bar mean. */
static void put_legend(const struct columns *columns, struct screen screen, struct text *text)
{
    struct text legend = TEXT_EMPTY;
    text_format(&legend, BOOKED " booked, " JOBS " jobs, " ROOM " room; " TARGET " the target %"
                PRIu64 ", " BOUND " the bound %" PRIu64, columns->target, columns->bound);
    if (columns->above > 0)
        text_put(&legend, "; + above the target");
    put_wrapped(text_string(&legend), legend.len, 0, screen, text);
    text_free(&legend);
}

void text_plan(const struct report *report, struct screen screen, struct text *text)
{
    struct columns columns = columns_of(report, screen);
    put_legend(&columns, screen, text);
    text_byte(text, '\n');
    for (size_t b = 0; b < report->day->contents.benches; b++) {
        put_bench(report, &columns, b, screen, text);
        put_contents(report, b, screen, text);
    }
}
