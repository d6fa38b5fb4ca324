/*
 * days.h - days, tables of jobs and sheets, damaged and read
 */

#ifndef DAMAGED_DAYS_H
#define DAMAGED_DAYS_H

#include "damaged/answers.h"
#include "damaged/kinds.h"

/* Goes on with a day that was read or not. */
static void day_was_read(enum day_read result, const struct day *day,
                         const struct messages *messages, struct draws *draws, enum kind read)
{
    messages_hold(messages, result == DAY_READ);
    if (result != DAY_READ) {
        bool fault = result == DAY_FAULT;
        require((messages->all[messages->count - 1].fault > 0) == fault || messages->left_out > 0,
                "the last message of a fault has its number");
        met[fault ? read + 1 : read + 2]++;
        refusal_holds(day, messages, fault, draws);
        return;
    }
    met[read]++;
    day_holds(day);
    bool placement = false;
    switch (answers_hold(day, draws, &placement)) {
    case ANSWER_PLAN:
        met[PLANS]++;
        break;
    case ANSWER_LONG:
        met[LONGS]++;
        break;
    case ANSWER_NONE:
        met[placement ? NONES_BY_WEIGHT : NONES_BY_CROWD]++;
        break;
    case ANSWER_FAULT:
        break;
    }
}

static void try_bytes(const char *path, const struct text *bytes, struct draws *draws,
                      enum kind read)
{
    struct day *day = day_new();
    struct messages messages = MESSAGES_NONE;
    enum day_parts parts = draw(draws, 8) > 0 ? DAY_WHOLE : DAY_WITHOUT_TARGET;
    enum day_read result = day_read_bytes(path, bytes->bytes, bytes->len, parts, day, &messages);
    day_was_read(result, day, &messages, draws, read);
    messages_free(&messages);
    day_free(day);
}

static void try_day(struct draws *draws)
{
    const struct sample *sample = any_day(&days, draws);
    start("a day", &sample->bytes);
    damage(&tried.bytes, draws);
    try_bytes(sample->path, &tried.bytes, draws, DAYS_READ);
}

/* Half of the sheets have their frames damaged, which leaves many of them sheets. */
static void damage_sheet(struct draws *draws)
{
    if (draw(draws, 2) > 0)
        damage(&tried.bytes, draws);
    else
        for (uint64_t n = draw(draws, 5); n > 0; n--)
            damage_frame(&tried.bytes, draws);
}

static void try_sheet(struct draws *draws)
{
    start("a sheet", &any_day(&sheets, draws)->bytes);
    damage_sheet(draws);
    try_bytes("damaged.sheet", &tried.bytes, draws, SHEETS_READ);
    require(met[SHEETS_BAD] == 0, "a sheet is read or has a fault");
}

/* The table is read from a file by a day that stands beside it. */
static void try_table(struct draws *draws)
{
    static const char day[] = "benches Halle 1, Halle 2, Rampe S\xC3\xBC" "d, Ger\xC3\xA4tewagen\n"
                              "share 4/7\ntarget 360\njobs damaged.csv\n";
    start("a table of jobs", &any_sample(&tables, draws)->bytes);
    damage(&tried.bytes, draws);
    char *table = scratch("damaged.csv"), *path = scratch("table.day");
    require(file_write(table, tried.bytes.bytes, tried.bytes.len), "a scratch file is written");
    struct text bytes = TEXT_EMPTY;
    text_add(&bytes, day, sizeof day - 1);
    try_bytes(path, &bytes, draws, TABLES_READ);
    text_free(&bytes);
    free(table);
    free(path);
}

#endif
