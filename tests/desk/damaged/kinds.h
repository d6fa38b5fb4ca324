/*
 * kinds.h - the samples that are damaged, and how often each kind was met
 */

#ifndef DAMAGED_KINDS_H
#define DAMAGED_KINDS_H

#include "damaged/holds.h"

struct sample {
    const char *path;
    struct text bytes;
};

struct samples {
    struct sample *all;
    size_t count;
};

static struct samples days, sheets, tables;

/* How often each was met, and the least share of all files, one in so many. */
enum kind {
    DAYS_READ, DAYS_FAULT, DAYS_BAD,
    TABLES_READ, TABLES_FAULT, TABLES_BAD,
    SHEETS_READ, SHEETS_FAULT, SHEETS_BAD,
    PLANS, LONGS, NONES_BY_WEIGHT, NONES_BY_CROWD,
    LISTS_PASSED, LISTS_NOT_PASSED, LISTS_FAULT, LISTS_BAD,
    PAGES_PASSED, PAGES_NOT_PASSED, PAGES_LONG, PAGES_FAULT, PAGES_BAD,
    LISTS_SAME, LISTS_DIFFERENT, LISTS_INCOMPARABLE,
    COMMANDS_GOOD, COMMANDS_REFUSED, COMMANDS_BAD,
    KINDS
};

static const struct {
    const char *name;
    uint64_t least;
} kinds[KINDS] = {
    [DAYS_READ] = { "days read", 25 },
    [DAYS_FAULT] = { "days at fault", 100 },
    [DAYS_BAD] = { "days not read", 10 },
    [TABLES_READ] = { "tables of jobs read", 50 },
    [TABLES_FAULT] = { "tables of jobs at fault", 5000 },
    [TABLES_BAD] = { "tables of jobs not read", 50 },
    [SHEETS_READ] = { "sheets read", 50 },
    [SHEETS_FAULT] = { "sheets at fault", 20 },
    [SHEETS_BAD] = { "sheets not read", 0 },
    [PLANS] = { "plans", 20 },
    [LONGS] = { "long", 100 },
    [NONES_BY_WEIGHT] = { "none by weight", 100 },
    [NONES_BY_CROWD] = { "none by a crowd", 200 },
    [LISTS_PASSED] = { "lists passed", 100 },
    [LISTS_NOT_PASSED] = { "lists not passed", 200 },
    [LISTS_FAULT] = { "lists at fault", 250 },
    [LISTS_BAD] = { "lists not read", 200 },
    [PAGES_PASSED] = { "pages passed", 100 },
    [PAGES_NOT_PASSED] = { "pages not passed", 500 },
    [PAGES_LONG] = { "pages of a long day", 500 },
    [PAGES_FAULT] = { "pages at fault", 5000 },
    [PAGES_BAD] = { "pages not read", 200 },
    [LISTS_SAME] = { "lists that are the same", 100 },
    [LISTS_DIFFERENT] = { "lists that differ", 500 },
    [LISTS_INCOMPARABLE] = { "lists that are no assignments", 1000 },
    [COMMANDS_GOOD] = { "commands with status 0", 500 },
    [COMMANDS_REFUSED] = { "commands with status 1", 500 },
    [COMMANDS_BAD] = { "commands with status 2", 100 },
};

static uint64_t met[KINDS];

static const struct sample *any_sample(const struct samples *samples, struct draws *draws)
{
    return &samples->all[draw(draws, samples->count)];
}

/* A full day takes long to show in every form, so it is drawn seldom. */
static const struct sample *any_day(const struct samples *samples, struct draws *draws)
{
    const struct sample *sample = any_sample(samples, draws);
    while (sample->bytes.len > 5000 && draw(draws, 8) > 0)
        sample = any_sample(samples, draws);
    return sample;
}

/* The bytes that are tried, before they are damaged. */
static void start(const char *kind, const struct text *bytes)
{
    tried.kind = kind;
    text_free(&tried.bytes);
    text_add(&tried.bytes, bytes->bytes, bytes->len);
}

/* A path in the scratch folder. */
static char *scratch(const char *name)
{
    struct text path = TEXT_EMPTY;
    text_format(&path, "%s/%s", tried.folder, name);
    return path.bytes;
}

#endif
