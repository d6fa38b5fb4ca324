/*
 * holds.h - what holds of every day that was read
 *
 *     require             ends the program with what does not hold
 *     messages_hold       messages are there exactly if something was not read
 *     day_holds           the day is its sheet, and reads back from its own text
 *     json_names_hold     JSON is strict and has the names of benches and jobs
 */

#ifndef DAMAGED_HOLDS_H
#define DAMAGED_HOLDS_H

#include "base/file.h"
#include "damaged/damage.h"
#include "day/read.h"
#include "day/write.h"
#include "render/render.h"
#include "damaged/strict.h"
#include "damaged/strict_json.h"

#include <stdio.h>
#include <stdlib.h>

/* What is being tried, for the line of a failure and for the file with the bytes that failed. */
static struct {
    const char *kind, *folder;
    uint64_t seed, number;
    struct text bytes;
} tried;

static void require(bool holds, const char *what)
{
    if (holds)
        return;
    struct text path = TEXT_EMPTY;
    text_format(&path, "%s/failed", tried.folder);
    printf("damaged: FAILED, %s; %s, number %llu of seed %llu", what, tried.kind,
           (unsigned long long)tried.number, (unsigned long long)tried.seed);
    if (file_write(path.bytes, tried.bytes.bytes, tried.bytes.len))
        printf(", kept in %s", path.bytes);
    printf("\n");
    exit(EXIT_FAILURE);
}

/* Messages are there exactly if something was not read, and are fit for a terminal. */
static void messages_hold(const struct messages *messages, bool read)
{
    require((messages->count == 0) == read, "messages are there exactly if it was not read");
    struct text text = TEXT_EMPTY;
    messages_render(messages, &text);
    require(utf8_strict(text.bytes, text.len), "messages are UTF-8 without control characters");
    text_free(&text);
    for (size_t n = 0; n < messages->count; n++)
        require(messages->all[n].file[0] != '\0' && messages->all[n].words[0] != '\0',
                "a message has a file and words");
}

static bool same_name(const char *a, const char *b)
{
    return (a == NULL) == (b == NULL) && (a == NULL || strcmp(a, b) == 0);
}

static bool same_contents(const struct day *a, const struct day *b)
{
    return a->jobs == b->jobs &&
           memcmp(&a->contents, &b->contents, YINQOCHA_CONTENTS_BYTES(a->jobs)) == 0;
}

/* The text of a day reads back as the day, and is then the same text again. */
static void text_reads_back(const struct day *day)
{
    struct text text = TEXT_EMPTY, again = TEXT_EMPTY;
    struct messages messages = MESSAGES_NONE;
    struct day *read = day_new();
    day_render(day, &text);
    require(utf8_strict(text.bytes, text.len), "a day's text is UTF-8");
    enum day_read result = day_read_bytes("back", text.bytes, text.len, DAY_WHOLE, read, &messages);
    require(result == DAY_READ && messages.count == 0, "a day's text reads back");
    require(same_contents(day, read), "a day's text has its contents");
    require(day->from_sheet || (read->sheet_len == day->sheet_len &&
                                memcmp(read->sheet, day->sheet, day->sheet_len) == 0),
            "a day's text has its sheet");
    for (size_t b = 0; b < day->contents.benches; b++)
        require(same_name(day->bench_names[b], read->bench_names[b]), "the names of benches");
    for (size_t j = 0; j < day->jobs; j++)
        require(day->job[j].name == NULL || same_name(day->job[j].name, read->job[j].name),
                "the names of jobs");
    day_render(read, &again);
    require(again.len == text.len && memcmp(again.bytes, text.bytes, text.len) == 0,
            "a day's text that was read back is the same text");
    text_free(&text);
    text_free(&again);
    messages_free(&messages);
    day_free(read);
}

/* JSON is strict, and the strings of its members `name` are those of the day's benches and jobs. */
static void json_names_hold(const struct text *text, const struct day *day, bool benches, bool jobs)
{
    struct text names = TEXT_EMPTY, expected = TEXT_EMPTY;
    require(json_strict(text, &names), "JSON on one line");
    for (size_t b = 0; benches && b < day->contents.benches; b++)
        if (day->bench_names[b] != NULL)
            text_add(&expected, day->bench_names[b], strlen(day->bench_names[b]) + 1);
    for (size_t j = 0; jobs && j < day->jobs; j++)
        if (day->job[j].name != NULL)
            text_add(&expected, day->job[j].name, strlen(day->job[j].name) + 1);
    if (benches || jobs)
        require(names.len == expected.len &&
                    (names.len == 0 || memcmp(names.bytes, expected.bytes, names.len) == 0),
                "JSON has the names of benches and jobs");
    text_free(&names);
    text_free(&expected);
}

static void day_holds(const struct day *day)
{
    struct yinqocha_contents contents;
    uint64_t word = yinqocha_read(day->sheet, day->sheet_len, &contents, sizeof contents);
    require(word == day->jobs, "the sheet of a day has its jobs");
    require(memcmp(&contents, &day->contents, YINQOCHA_CONTENTS_BYTES(day->jobs)) == 0,
            "the sheet of a day has its contents");
    text_reads_back(day);
    struct text json = TEXT_EMPTY, csv = TEXT_EMPTY, lines = TEXT_EMPTY;
    size_t rows;
    json_day(day, &json);
    json_names_hold(&json, day, false, true);
    csv_day(day, &csv);
    require(csv_strict(&csv, &rows) && rows == day->jobs + 1, "the CSV of a day has a row a job");
    lines_day(day, &lines);
    require(utf8_strict(lines.bytes, lines.len), "the lines of a day");
    text_free(&json);
    text_free(&csv);
    text_free(&lines);
}

#endif
