/*
 * made.h - a day and answers made by hand, and what holds texts against what they must be
 *
 *     hostile_day    a day whose file, benches and jobs have names that are meant to break out of
 *                    quotes, cells and tags
 *     planned ...    outcomes and reasons of it
 *     expect ...     end the program with what differs
 */

#ifndef MADE_H
#define MADE_H

#include "damaged/strict.h"
#include "damaged/strict_json.h"
#include "render/render.h"

#include <stdio.h>
#include <stdlib.h>

/* A file's name may have any bytes: here a quote, a backslash, line ends, a control character, a
 * tag, a byte that is no UTF-8, and U+2028. */
#define FILE_NAME "x\"\\\n\x01</script>\xFF\xE2\x80\xA8.day"
#define FILE_JSON "\"x\\\"\\\\\\n\\u0001</script>\xEF\xBF\xBD\\u2028.day\""
#define FILE_CSV "\"x\"\"\\\n\x01</script>\xFF\xE2\x80\xA8.day\""
#define FILE_HTML "x&quot;\\\xEF\xBF\xBD\xEF\xBF\xBD&lt;/script&gt;\xEF\xBF\xBD\xEF\xBF\xBD.day"

#define RIG "Rig \"3\" <b>&</b>"
#define RIG_JSON "\"Rig \\\"3\\\" <b>&</b>\""
#define RIG_CSV "\"Rig \"\"3\"\" <b>&</b>\""
#define RIG_HTML "Rig &quot;3&quot; &lt;b&gt;&amp;&lt;/b&gt;"

static const char *const job_names[] = { "=1+1", "a,b \\ 'c'", "</script>\xC3\xA9" };

#define FIRST_TWO (YINQOCHA_BENCH(0) | YINQOCHA_BENCH(1))

static unsigned checks;

static void fail(const char *what, const char *got, const char *wanted)
{
    printf("forms: FAILED, %s\n  got    %s\n  wanted %s\n", what, got, wanted);
    exit(EXIT_FAILURE);
}

/* Holds a text against what it must be, and empties it. */
static void expect(const char *what, struct text *text, const char *wanted)
{
    checks++;
    if (text->len != strlen(wanted) || memcmp(text_string(text), wanted, text->len) != 0)
        fail(what, text_string(text), wanted);
    text_free(text);
}

/* The same of an object in JSON, which must be strict too. */
static void expect_json(const char *what, struct text *text, const char *wanted)
{
    struct text names = TEXT_EMPTY;
    if (!json_strict(text, &names))
        fail(what, text_string(text), "strict JSON");
    text_free(&names);
    expect(what, text, wanted);
}

static void expect_has(const char *what, const struct text *text, const char *part)
{
    checks++;
    if (strstr(text_string(text), part) == NULL)
        fail(what, "not a trace of it", part);
}

static void expect_lacks(const char *what, const struct text *text, const char *part)
{
    checks++;
    if (strstr(text_string(text), part) != NULL)
        fail(what, strstr(text_string(text), part), "not a trace of it");
}

static char *copy(const char *string)
{
    return memory_string(string, strlen(string));
}

/* Three benches and three jobs, one of them a check of 0 minutes. */
static struct day *hostile_day(void)
{
    struct day *day = day_new();
    day->file_names[0] = copy(FILE_NAME);
    day->files = 1;
    day->contents = (struct yinqocha_contents){
        .benches = 3, .p = 4, .q = 7, .target = 480, .booked = { 0, 60 },
        .jobs = { { 300, FIRST_TWO }, { 95, FIRST_TWO | YINQOCHA_BENCH(2) },
                  { 0, YINQOCHA_BENCH(2) } },
    };
    day->jobs = 3;
    day->bench_names[0] = copy("North");
    day->bench_names[1] = copy(RIG);
    for (size_t job = 0; job < day->jobs; job++)
        day->job[job].name = copy(job_names[job]);
    return day;
}

static const struct outcome planned = {
    .answer = ANSWER_PLAN, .target = 480, .largest = 300, .moves = 2, .fullest = 0,
    .places = { 0, 1, 2 }, .loads = { 300, 155, 0 },
};

static const struct outcome too_long = { .answer = ANSWER_LONG, .target = 200, .job = 0 };

static const struct outcome refused = {
    .answer = ANSWER_NONE, .target = 480, .moves = 37, .set = FIRST_TWO,
};

static const struct outcome faulty = { .answer = ANSWER_FAULT, .fault = 6, .place = 24 };

static const struct reason weighed = {
    .set = FIRST_TWO, .count = 2, .capacity = 960, .booked = 60,
    .light = { { 1 }, 1, 95 }, .shared = { { 0 }, 1, 300 },
    .placement = true, .heavy = 900, .weight = 1055,
};

static const struct reason crowded = {
    .set = FIRST_TWO, .count = 2, .capacity = 960, .booked = 60, .inside = { { 0, 1 }, 2, 395 },
    .crowd = { { 0, 1 }, 2, 395 }, .crowd_benches = YINQOCHA_BENCH(0),
};

#endif
