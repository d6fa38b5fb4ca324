/*
 * The readers of the desk: days of text, CSV files of jobs, sheets, lists of places, pages of sets,
 * and days as text. readers.h has the cases that are text: what an input stands for, in the plain
 * words of describe(), or all that is said of it. Here are those that need more: sheets, limits,
 * files, and random days. Prints one line; what differed, and exit status 1, where a case does not
 * hold. tests/desk/run builds it with the objects of the desk; by hand, from the repository root:
 *
 *     gcc -std=c11 -D_POSIX_C_SOURCE=200809L -Wall -Wextra -Wconversion -Werror -Idesk -Iinclude \
 *         tests/desk/readers.c desk/day/?*.c desk/base/?*.c \
 *         crates/yinqocha/out/libyinqocha.a -o readers
 */

#include "readers.h"

#include "base/file.h"
#include "day/benches.h"
#include "day/csv.h"
#include "day/papers.h"
#include "day/parts.h"
#include "day/read.h"
#include "day/write.h"

#include <inttypes.h>
#include <stdio.h>
#include <stdlib.h>
#include <string.h>
#include <unistd.h>

#define COUNT(array) (sizeof array / sizeof *array)

static size_t cases;

/* The folder of the files that the cases write, which is the current one. */
static char folder[4096];

static void leave(int status)
{
    if (chdir(folder) == 0) {
        unlink("monday.csv");
        unlink("friday.day");
        rmdir(folder);
    }
    exit(status);
}

static void require(bool holds, const char *what)
{
    cases++;
    if (holds)
        return;
    printf("readers: FAILED, %s\n", what);
    leave(1);
}

/* Holds what came of a case against what must come of it. */
static void hold(const char *what, const struct text *found, const char *expected)
{
    cases++;
    if (strcmp(text_string(found), expected) == 0)
        return;
    printf("readers: FAILED, %s\nexpected:\n%s\nfound:\n%s\n", what, expected, text_string(found));
    leave(1);
}

/* A day by its numbers: the head, each bench that has a name or a booking, each job with its
 * minutes and its benches. */
static void describe(const struct day *day, struct text *text)
{
    const struct yinqocha_contents *contents = &day->contents;
    text_format(text, "%" PRIu64 " benches, %" PRIu64 "/%" PRIu64 ", %" PRIu64 "\n",
                contents->benches, contents->p, contents->q, contents->target);
    for (size_t b = 0; b < YINQOCHA_MAX_BENCHES; b++)
        if (day->bench_names[b] != NULL || contents->booked[b] > 0)
            text_format(text, "%zu [%s] %" PRIu64 "\n", b,
                        day->bench_names[b] != NULL ? day->bench_names[b] : "",
                        contents->booked[b]);
    for (size_t j = 0; j < day->jobs; j++) {
        text_format(text, "[%s] %" PRIu64 " on", day->job[j].name != NULL ? day->job[j].name : "",
                    contents->jobs[j].minutes);
        for (unsigned b = 0; b < YINQOCHA_MAX_BENCHES; b++)
            if (YINQOCHA_HAS_BENCH(contents->jobs[j].allowed, b))
                text_format(text, " %u", b);
        text_byte(text, '\n');
    }
}

/* Whether the library reads the day's sheet as the day's contents. */
static bool sheet_holds(const struct day *day)
{
    struct yinqocha_contents read;
    memset(&read, 0, sizeof read);
    uint64_t word = yinqocha_read(day->sheet, day->sheet_len, &read, sizeof read);
    return YINQOCHA_FAULT(word) == YINQOCHA_OK && YINQOCHA_VALUE(word) == day->jobs
           && memcmp(&read, &day->contents, YINQOCHA_CONTENTS_BYTES(day->jobs)) == 0;
}

/* Whether the text of a day is read back as the same day, and its text is the same then. */
static bool text_holds(const struct day *day)
{
    struct messages messages = MESSAGES_NONE;
    struct text text = TEXT_EMPTY, again = TEXT_EMPTY, first = TEXT_EMPTY, second = TEXT_EMPTY;
    struct day *read = day_new();
    day_render(day, &text);
    bool same = day_read_bytes("again.day", text.bytes, text.len, DAY_WHOLE, read, &messages)
                    == DAY_READ
                && sheet_holds(read)
                && memcmp(&read->contents, &day->contents, sizeof day->contents) == 0;
    day_render(read, &again);
    describe(day, &first);
    describe(read, &second);
    same = same && strcmp(text.bytes, again.bytes) == 0
           && (day->from_sheet || strcmp(first.bytes, second.bytes) == 0);
    text_free(&text);
    text_free(&again);
    text_free(&first);
    text_free(&second);
    messages_free(&messages);
    day_free(read);
    return same;
}

/* Holds what comes of a day, which is the day if it is read and otherwise its messages. */
static void try_day(const char *what, const char *path, const char *bytes, size_t len,
                    enum day_parts parts, enum day_read answer, const char *expected)
{
    struct messages messages = MESSAGES_NONE;
    struct text found = TEXT_EMPTY;
    struct day *day = day_new();
    enum day_read read = day_read_bytes(path, bytes, len, parts, day, &messages);
    if (read == DAY_READ) {
        describe(day, &found);
        require(messages.count == 0, "a day that is read has no messages");
        require(sheet_holds(day), "the sheet of a day has its contents");
        require(text_holds(day), "the text of a day is read back as the same day");
    } else {
        messages_render(&messages, &found);
    }
    for (size_t n = 0; n < messages.count; n++)
        require((read == DAY_FAULT) == (messages.all[n].fault > 0),
                "messages have fault numbers where the library refused the day, and only there");
    hold(what, &found, expected);
    require(read == answer, what);
    text_free(&found);
    messages_free(&messages);
    day_free(day);
}

static void days(void)
{
    for (size_t n = 0; n < COUNT(good_days); n++)
        try_day(good_days[n].what, "friday.day", good_days[n].input, strlen(good_days[n].input),
                DAY_WHOLE, DAY_READ, good_days[n].expected);
    for (size_t n = 0; n < COUNT(bad_days); n++)
        try_day(bad_days[n].what, "friday.day", bad_days[n].input, strlen(bad_days[n].input),
                DAY_WHOLE, DAY_BAD, bad_days[n].expected);
    for (size_t n = 0; n < COUNT(fault_days); n++)
        try_day(fault_days[n].what, "friday.day", fault_days[n].input, strlen(fault_days[n].input),
                DAY_WHOLE, DAY_FAULT, fault_days[n].expected);
    static const char without[] = "benches 3\nshare 4/7\n";
    static const char bad[] = "benches 3\nshare 4/7\ntarget x\n";
    try_day("a day without its target", "friday.day", without, strlen(without), DAY_WITHOUT_TARGET,
            DAY_READ, "3 benches, 4/7, 0\n");
    try_day("a target that need not be there is read all the same", "friday.day", HEAD,
            strlen(HEAD), DAY_WITHOUT_TARGET, DAY_READ, HEAD_IS);
    try_day("a bad target that need not be there", "-", bad, strlen(bad), DAY_WITHOUT_TARGET,
            DAY_BAD,
            "standard input:3:8: \"x\" is no number of minutes: expected a whole number from 0 to "
            "1073741823\n");
}

static void write_file(const char *path, const char *bytes, size_t len)
{
    require(file_write(path, bytes, len), path);
}

/* A day of a file with jobs of another. */
static void try_table(const char *what, const char *table, size_t len, enum day_read answer,
                      const char *expected)
{
    static const char day[] = BAY "jobs monday.csv # all of Monday's\n";
    write_file("monday.csv", table, len);
    try_day(what, "friday.day", day, strlen(day), DAY_WHOLE, answer, expected);
}

static void tables(void)
{
    struct text expected = TEXT_EMPTY;
    for (size_t n = 0; n < COUNT(good_tables); n++) {
        expected.len = 0;
        text_format(&expected, "%s%s", BAY_IS, good_tables[n].expected);
        try_table(good_tables[n].what, good_tables[n].input, strlen(good_tables[n].input), DAY_READ,
                  expected.bytes);
    }
    text_free(&expected);
    for (size_t n = 0; n < COUNT(bad_tables); n++)
        try_table(bad_tables[n].what, bad_tables[n].input, strlen(bad_tables[n].input), DAY_BAD,
                  bad_tables[n].expected);
    static const char zero[] = "name;minutes;benches\na\0;5;0\n", wide[] = "\xFF\xFEn\0;\0";
    try_table("a table with a byte of 0", zero, sizeof zero - 1, DAY_BAD,
              "monday.csv: the file is no text, for it has a byte of 0 in it: expected a table "
              "that was saved as CSV in UTF-8\n");
    try_table("a table in UTF-16", wide, sizeof wide - 1, DAY_BAD,
              "monday.csv: the file is text in UTF-16: expected a table that was saved as CSV in "
              "UTF-8\n");
    static const char table[] = "name;minutes;benches\na;400;0\nb;300;all\n";
    try_table("a fault of a job in a table is at its place there", table, strlen(table), DAY_FAULT,
              "monday.csv:3:7: \"b\" has 300 minutes and may go to 3 benches: a job with three or "
              "more has at most 4/7 of the longest job's 400 minutes, that is 228; two benches at "
              "most or a larger share would do (fault 12, place 2)\n");
    static const char bad[] = "name;minutes;benches\na;x;9\na;1;9\n";
    static const char no_benches[] = "share 4/7\ntarget 480\njobs monday.csv\n";
    write_file("monday.csv", bad, strlen(bad));
    try_day("a table whose benches cannot be told", "friday.day", no_benches, strlen(no_benches),
            DAY_WHOLE, DAY_BAD,
            "friday.day: the day has no line \"benches\": expected one such as: benches 6 (without "
            "it the benches of bookings and jobs cannot be told)\n"
            "monday.csv:2:3: \"x\" is no number of minutes: expected a whole number from 0 to "
            "1048575\n"
            "monday.csv:3:1: \"a\" is the name of another job: names differ, and the first is on "
            "line 2\n");
}

/* Files beside the day, by an absolute path, and from the day's own file. */
static void files(void)
{
    static const char table[] = "name;minutes;benches\na;x;0\n", day[] = HEAD "jobs monday.csv\n";
    struct text absolute = TEXT_EMPTY, expected = TEXT_EMPTY, found = TEXT_EMPTY;
    struct messages messages = MESSAGES_NONE;
    write_file("monday.csv", table, strlen(table));
    write_file("friday.day", day, strlen(day));
    text_format(&absolute, HEAD "jobs \"%s/monday.csv\"\n", folder);
    text_format(&expected,
                "%s/monday.csv:2:3: \"x\" is no number of minutes: expected a whole number from 0 "
                "to 1048575\n",
                folder);
    try_day("an absolute path", "./friday.day", absolute.bytes, absolute.len, DAY_WHOLE, DAY_BAD,
            expected.bytes);
    absolute.len = 0;
    text_format(&absolute, "%s/friday.day", folder);
    require(chdir("/") == 0, "the root is a folder");
    struct day *read = day_new();
    require(day_read(absolute.bytes, DAY_WHOLE, read, &messages) == DAY_BAD, "a file of a day");
    messages_render(&messages, &found);
    hold("a file of jobs beside the day", &found, expected.bytes);
    day_free(read);
    messages_free(&messages);
    require(chdir(folder) == 0, "the scratch folder is there");
    found.len = 0;
    read = day_new();
    require(day_read("saturday.day", DAY_WHOLE, read, &messages) == DAY_BAD, "no file of a day");
    messages_render(&messages, &found);
    hold("a day that is not there", &found,
         "saturday.day: the file cannot be read: No such file or directory\n");
    day_free(read);
    messages_free(&messages);
    text_free(&absolute);
    text_free(&expected);
    text_free(&found);
}

/* Numbers of things at their limits and beyond. */
static void limits(void)
{
    struct text text = TEXT_EMPTY;
    text_put(&text, HEAD);
    for (unsigned n = 0; n < YINQOCHA_MAX_JOBS; n++)
        text_format(&text, "job j%u 5 0\n", n);
    struct messages messages = MESSAGES_NONE;
    struct day *day = day_new();
    require(day_read_bytes("friday.day", text.bytes, text.len, DAY_WHOLE, day, &messages)
                == DAY_READ && day->jobs == YINQOCHA_MAX_JOBS && text_holds(day),
            "512 jobs");
    day_free(day);
    text_put(&text, "job k 5 0\njob l 5 0\njob j1 5 0\njob m 1e3 0\n");
    try_day("more than 512 jobs are told once", "friday.day", text.bytes, text.len, DAY_WHOLE,
            DAY_BAD,
            "friday.day:516:5: this is job 513, one too many: a day has at most 512 jobs\n"
            "friday.day:519:7: \"1e3\" is no number of minutes: expected a whole number from 0 to "
            "1048575\n");
    text.len = 0;
    text_put(&text, "share 4/7\ntarget 480\nbenches b0");
    for (unsigned n = 1; n < YINQOCHA_MAX_BENCHES; n++)
        text_format(&text, ", b%u", n);
    day = day_new();
    require(day_read_bytes("friday.day", text.bytes, text.len, DAY_WHOLE, day, &messages)
                == DAY_READ && day->contents.benches == YINQOCHA_MAX_BENCHES && text_holds(day),
            "64 names of benches");
    day_free(day);
    text_put(&text, ", b64, b65\n");
    try_day("more than 64 names of benches", "friday.day", text.bytes, text.len, DAY_WHOLE, DAY_BAD,
            "friday.day:3:319: this is one bench too many: a day has at most 64\n");
    text_free(&text);
}

/* More benches than a message names, more cells than a row may have, more files than a day has. */
static void crowds(void)
{
    struct text text = TEXT_EMPTY, expected = TEXT_EMPTY;
    text_put(&text, "share 4/7\ntarget 480\nbenches b0");
    for (unsigned n = 1; n < YINQOCHA_MAX_BENCHES; n++)
        text_format(&text, ", b%u", n);
    text_put(&text, "\njob a 5 c\n");
    text_put(&expected, "friday.day:4:9: no bench is called \"c\": the benches are b0");
    for (unsigned n = 1; n < 35; n++)
        text_format(&expected, ", b%u", n);
    text_put(&expected, " and 29 more\n");
    try_day("a bench of very many", "friday.day", text.bytes, text.len, DAY_WHOLE, DAY_BAD,
            expected.bytes);
    text.len = 0;
    text_put(&text, "name;minutes;benches\na;5;0");
    text_repeat(&text, ";", 16384);
    text_put(&text, "\nb;x;0\n");
    try_table("a row of very many cells", text.bytes, text.len, DAY_BAD,
              "monday.csv:2:16388: the row has more than 16384 cells\n"
              "monday.csv:3:3: \"x\" is no number of minutes: expected a whole number from 0 to "
              "1048575\n");
    write_file("monday.csv", "name;minutes;benches\n", 21);
    text.len = 0;
    text_put(&text, HEAD);
    text_repeat(&text, "jobs monday.csv\n", DAY_MOST_FILES - 1);
    try_day("64 files of jobs", "friday.day", text.bytes, text.len, DAY_WHOLE, DAY_READ, HEAD_IS);
    text_put(&text, "jobs monday.csv\njobs -\n");
    try_day("65 files of jobs and one that is not standard input", "friday.day", text.bytes,
            text.len, DAY_WHOLE, DAY_BAD,
            "friday.day:68:6: this is one file of jobs too many: a day has at most 64\n"
            "friday.day:69:6: this is one file of jobs too many: a day has at most 64\n");
    try_day("a file of jobs called -", "friday.day", HEAD "jobs -\n", strlen(HEAD "jobs -\n"),
            DAY_WHOLE, DAY_BAD,
            "friday.day:4:6: \"./-\" cannot be read: No such file or directory\n");
    text_free(&text);
    text_free(&expected);
}

/* The longest names, and jobs on nearly all benches: by name the text would be too large. */
static void wide_day(void)
{
    struct messages messages = MESSAGES_NONE;
    struct text text = TEXT_EMPTY, written = TEXT_EMPTY;
    struct day *day = day_new();
    text_put(&text, "share 4/7\ntarget 480\nbenches ");
    for (unsigned n = 0; n < YINQOCHA_MAX_BENCHES; n++) {
        text_repeat(&text, "n", DAY_MOST_NAME - 2);
        text_format(&text, "%02u%s", n, n + 1 < YINQOCHA_MAX_BENCHES ? "," : "\n");
    }
    for (unsigned n = 0; n < YINQOCHA_MAX_JOBS; n++)
        text_format(&text, "job %u 0 0-62\n", n);
    require(day_read_bytes("friday.day", text.bytes, text.len, DAY_WHOLE, day, &messages)
                == DAY_READ && text_holds(day),
            "a day with the longest names");
    day_render(day, &written);
    require(strstr(written.bytes, "\njob 511 0 0-62\n") != NULL, "a list that is long by name");
    text_free(&text);
    text_free(&written);
    day_free(day);
}

static void long_names(void)
{
    struct messages messages = MESSAGES_NONE;
    struct text text = TEXT_EMPTY;
    struct day *day = day_new();
    text_put(&text, HEAD "job ");
    text_repeat(&text, "n", DAY_MOST_NAME);
    text_put(&text, " 5 0\n");
    require(day_read_bytes("friday.day", text.bytes, text.len, DAY_WHOLE, day, &messages)
                == DAY_READ && text_holds(day),
            "a name of 255 bytes");
    day_free(day);
    text.len = 0;
    text_put(&text, HEAD "job ");
    text_repeat(&text, "n", DAY_MOST_NAME + 1);
    text_put(&text, " 5 0\n");
    try_day("a name of 256 bytes", "friday.day", text.bytes, text.len, DAY_WHOLE, DAY_BAD,
            "friday.day:4:5: \"nnnnnnnnnnnnnnnnnnnnnnnnnnnnnnnnnnnnnnnn...\" is too long for the "
            "name of a job: it has 256 bytes, and a name at most 255\n");
    text_free(&text);
}

/* Files that are too large, and messages of which too many are not kept. */
static void large_files(void)
{
    struct messages messages = MESSAGES_NONE;
    struct text text = TEXT_EMPTY, found = TEXT_EMPTY;
    text_put(&text, HEAD "jobs monday.csv\n#");
    text_repeat(&text, " ", DESK_MOST_BYTES - text.len);
    write_file("monday.csv", "name;minutes;benches\n", 21);
    try_day("a day of 4 MiB", "friday.day", text.bytes, text.len, DAY_WHOLE, DAY_READ, HEAD_IS);
    text_put(&text, " ");
    try_day("a day of 4 MiB and a byte", "friday.day", text.bytes, text.len, DAY_WHOLE, DAY_BAD,
            "friday.day: the file has more than 4 MiB (4194304 bytes), which is the most that is "
            "read\n");
    write_file("friday.day", text.bytes, text.len);
    struct day *day = day_new();
    require(day_read("friday.day", DAY_WHOLE, day, &messages) == DAY_BAD, "a file too large");
    messages_render(&messages, &found);
    hold("a file of 4 MiB and a byte", &found,
         "friday.day: the file has more than 4 MiB (4194304 bytes), which is the most that is "
         "read\n");
    day_free(day);
    messages_free(&messages);
    write_file("monday.csv", text.bytes, text.len);
    try_day("a table of 4 MiB and a byte", "friday.day", HEAD "jobs monday.csv\n",
            strlen(HEAD "jobs monday.csv\n"), DAY_WHOLE, DAY_BAD,
            "friday.day:4:6: \"monday.csv\" has more than 4 MiB (4194304 bytes), which is the most "
            "that is read\n");
    text.len = 0;
    text_put(&text, HEAD);
    for (unsigned n = 0; n < 1000; n++)
        text_put(&text, "x\n");
    day = day_new();
    require(day_read_bytes("friday.day", text.bytes, text.len, DAY_WHOLE, day, &messages) == DAY_BAD
                && messages.count == MESSAGES_MOST && messages.left_out == 900,
            "100 messages are kept and the others are counted");
    messages_render(&messages, &found);
    require(strstr(found.bytes, "\nand 900 more of these\n") != NULL, "the others are told");
    day_free(day);
    messages_free(&messages);
    text_free(&text);
    text_free(&found);
}

/* The sheet of two benches, share 4/7, target 9, bench 1 booked for 4, three jobs of 5 minutes. Its
 * head is at byte 0, the booking at 10, the jobs at 17, 31 and 45, the end at 59. */
static size_t some_sheet(uint8_t *out)
{
    const uint64_t both = YINQOCHA_BENCH(0) | YINQOCHA_BENCH(1);
    const uint64_t booked[] = { 0, 4 }, minutes[] = { 5, 5, 5 }, allowed[] = { both, both, both };
    uint64_t word = yinqocha_write(2, 4, 7, 9, booked, sizeof booked, minutes, sizeof minutes,
                                   allowed, sizeof allowed, out, YINQOCHA_SHEET_BYTES(1, 3));
    require(YINQOCHA_FAULT(word) == YINQOCHA_OK && YINQOCHA_VALUE(word) == 62, "a sheet to damage");
    return YINQOCHA_VALUE(word);
}

/* A byte of the sheet that is another, or a length that is another. */
struct damage {
    size_t at;
    uint8_t byte;
    size_t len;
    const char *said;
};

static const struct damage damages[] = {
    { 0, 0x11, 20, "at byte 17: the sheet ends inside of this frame (fault 2, place 17)" },
    { 0, 0x11, 59, "the sheet is over, and no end frame was in it (fault 2, place 59)" },
    { 0, 0x11, 0, "the sheet is over, and no end frame was in it (fault 2, place 0)" },
    { 17, 0x15, 62,
      "at byte 17: the frame has a kind other than 1 (head), 2 (job), 3 (end) and 4 (booking) "
      "(fault 3, place 17)" },
    { 31, 0x11, 62,
      "at byte 31: the frame is out of its place: the head comes first and once, then bookings, "
      "then jobs, then the end (fault 4, place 31)" },
    { 19, 0x0C, 62,
      "at byte 17: the length of the frame is not that of its kind (fault 5, place 17)" },
    { 9, 0x21, 62, "at byte 0: a spare bit is 1 (fault 6, place 0)" },
    { 3, 0x00, 62, "at byte 0: the head has 0 benches or more than 64 (fault 7, place 0)" },
    { 5, 0x00, 62,
      "at byte 0: the head's share is bad: expected at least 4/7 and less than 1 (fault 8, place "
      "0)" },
    { 3, 0x02, 62, "at byte 10: a bench is booked that the day lacks (fault 14, place 10)" },
    { 22, 0x50, 62,
      "at byte 17: the job allows no bench, or one that the day lacks (fault 11, place 17)" },
};

static void sheets(void)
{
    static uint8_t sheet[YINQOCHA_MAX_SHEET_BYTES + 2];
    char said[256];
    size_t len = some_sheet(sheet);
    const char *is = "2 benches, 4/7, 9\n1 [] 4\n[] 5 on 0 1\n[] 5 on 0 1\n[] 5 on 0 1\n";
    try_day("a sheet", "friday.sheet", (const char *)sheet, len, DAY_WHOLE, DAY_READ, is);
    try_day("a sheet by its bytes", "friday", (const char *)sheet, len, DAY_WHOLE, DAY_READ, is);
    for (size_t n = 0; n < COUNT(damages); n++) {
        some_sheet(sheet);
        sheet[damages[n].at] = damages[n].byte;
        snprintf(said, sizeof said, "friday.sheet: %s\n", damages[n].said);
        try_day(damages[n].said, "friday.sheet", (const char *)sheet, damages[n].len, DAY_WHOLE,
                DAY_FAULT, said);
    }
    /* Three benches, and job 0 on all of them: 7 * 5 > 4 * 5. */
    some_sheet(sheet);
    sheet[3] = 0x06;
    sheet[22] = 0x5E;
    try_day("fault 12 of a sheet", "friday.sheet", (const char *)sheet, len, DAY_WHOLE, DAY_FAULT,
            "friday.sheet: job 0: the job has three or more benches and more minutes than the "
            "share of the longest job's (fault 12, place 0)\n");
    some_sheet(sheet);
    memmove(sheet + 17, sheet + 10, len - 10);
    try_day("fault 15 of a sheet", "friday.sheet", (const char *)sheet, len + 7, DAY_WHOLE,
            DAY_FAULT,
            "friday.sheet: at byte 17: the bench is booked a second time (fault 15, place 17)\n");
    some_sheet(sheet);
    for (size_t job = 3; job < YINQOCHA_MAX_JOBS + 1; job++)
        memcpy(sheet + 17 + 14 * job, sheet + 17, 14);
    try_day("fault 9 of a sheet", "friday.sheet", (const char *)sheet, 17 + 14 * 513 + 3, DAY_WHOLE,
            DAY_FAULT,
            "friday.sheet: at byte 7185: this is job 513, one too many: a day has at most 512 jobs "
            "(fault 9, place 7185)\n");
}

/* Sheets that are as long as they may be and longer, and text that is taken for one. */
static void long_sheets(void)
{
    static uint8_t sheet[YINQOCHA_MAX_SHEET_BYTES + 2];
    size_t len = some_sheet(sheet);
    /* A frame of version 2 whose body fills the sheet: 62 + 3 + 0xFFBF bytes are 65,536. */
    static const uint8_t filler[] = { 0x2F, 0xFF, 0xBF };
    memcpy(sheet + len, filler, sizeof filler);
    try_day("a sheet of 65,536 bytes", "friday.sheet", (const char *)sheet,
            YINQOCHA_MAX_SHEET_BYTES, DAY_WHOLE, DAY_READ,
            "2 benches, 4/7, 9\n1 [] 4\n[] 5 on 0 1\n[] 5 on 0 1\n[] 5 on 0 1\n");
    try_day("a sheet of 65,537 bytes", "friday.sheet", (const char *)sheet,
            YINQOCHA_MAX_SHEET_BYTES + 1, DAY_WHOLE, DAY_FAULT,
            "friday.sheet: the sheet has more than 65,536 bytes (fault 1, place 0)\n");
    static const char wide[] = "\xFF\xFE" "b\0e\0n\0";
    try_day("a day in UTF-16", "friday.day", wide, sizeof wide - 1, DAY_WHOLE, DAY_FAULT,
            "friday.day: at byte 0: the sheet ends inside of this frame (or is this text in "
            "UTF-16? a day is saved as UTF-8) (fault 2, place 0)\n");
}

/* Faults that no text leads to are said at the part of the day that they are about. */
static void other_faults(void)
{
    static const char text[] = HEAD "booked 1 60\njob a 5 0\n";
    struct text found = TEXT_EMPTY;
    for (unsigned n = 0; n < 4; n++) {
        struct messages messages = MESSAGES_NONE;
        struct day *day = day_new();
        require(day_read_bytes("friday.day", text, strlen(text), DAY_WHOLE, day, &messages)
                    == DAY_READ,
                "a day to spoil");
        free(day->sheet);
        if (n == 0)
            day->contents.benches = YINQOCHA_MAX_BENCHES + 1;
        else if (n == 1)
            day->contents.booked[1] = YINQOCHA_MAX_MINUTES + 1;
        else if (n == 2)
            day->contents.jobs[0].minutes = YINQOCHA_MAX_MINUTES + 1;
        else
            day->contents.jobs[0].allowed = 0;
        require(day_write_sheet(day, &messages) == DAY_FAULT, "a day that was spoilt");
        messages_render(&messages, &found);
        messages_free(&messages);
        day_free(day);
    }
    hold("faults that no text leads to", &found,
         "friday.day:1:1: the number of benches or the target is bad (fault 7, place 0)\n"
         "friday.day:4:8: the booking is bad (fault 14, place 1)\n"
         "friday.day:5:5: the job is bad (fault 10, place 0)\n"
         "friday.day:5:5: the job is bad (fault 11, place 0)\n");
    text_free(&found);
}

/* Holds the entries of a list or a page, or its messages. */
static void try_paper(const struct day *day, bool list, const struct day_case *paper, bool good)
{
    struct messages messages = MESSAGES_NONE;
    struct table table = TABLE_EMPTY;
    struct text found = TEXT_EMPTY;
    size_t len = strlen(paper->input);
    bool read = list ? list_read_bytes(day, "paper", paper->input, len, &table, &messages)
                     : page_read_bytes(day, "paper", paper->input, len, &table, &messages);
    for (size_t n = 0; read && n < table.count; n++)
        text_format(&found, "%s%" PRIu64, n == 0 ? "" : " ", table.entries[n]);
    messages_render(&messages, &found);
    hold(paper->what, &found, paper->expected);
    require(read == good && (messages.count == 0) == good, paper->what);
    text_free(&found);
    table_free(&table);
    messages_free(&messages);
}

/* Lists and pages of files. */
static void paper_files(const struct day *day)
{
    struct messages messages = MESSAGES_NONE;
    struct table table = TABLE_EMPTY;
    struct text found = TEXT_EMPTY, large = TEXT_EMPTY;
    write_file("monday.csv", "1 0\n0 1\n", 8);
    require(list_read(day, "monday.csv", &table, &messages) && table.count == 2
                && table.entries[0] == 1 && table.entries[1] == 0,
            "a list of a file");
    table_free(&table);
    write_file("monday.csv", "1,2\n", 4);
    require(page_read(day, "monday.csv", &table, &messages) && table.count == 1
                && table.entries[0] == (YINQOCHA_BENCH(1) | YINQOCHA_BENCH(2)),
            "a page of a file");
    table_free(&table);
    text_repeat(&large, "#", DESK_MOST_BYTES + 1);
    write_file("monday.csv", large.bytes, large.len);
    require(!list_read(day, "nothing.txt", &table, &messages), "a list that is not there");
    require(!page_read(day, "monday.csv", &table, &messages), "a page that is too large");
    require(!page_read_bytes(day, "paper", "0\n\0", 3, &table, &messages), "a page of no text");
    require(!list_read_bytes(day, "paper", "\0", 1, &table, &messages), "a list of no text");
    uint64_t set = benches_read(day, "0,\"Rig, 3", 9, (struct spot){ "--set", 1, 1 }, &messages);
    require(set == 0 && table.count == 0, "a set whose quote is not closed");
    messages_render(&messages, &found);
    hold("what is said of papers", &found,
         "nothing.txt: the file cannot be read: No such file or directory\n"
         "monday.csv: the file has more than 4 MiB (4194304 bytes), which is the most that is "
         "read\n"
         "paper: the file is no text, for it has a byte of 0 in it: expected text in UTF-8\n"
         "paper: the file is no text, for it has a byte of 0 in it: expected text in UTF-8\n"
         "--set:1:3: the quote that begins here is not closed: expected another \"\n");
    messages_free(&messages);
    text_free(&found);
    text_free(&large);
}

static void papers(void)
{
    static const char text[] = BAY "job \"a, b\" 5 all\n";
    struct messages messages = MESSAGES_NONE;
    struct day *day = day_new();
    require(day_read_bytes("friday.day", text, strlen(text), DAY_WHOLE, day, &messages) == DAY_READ,
            "the day of the lists");
    for (size_t n = 0; n < COUNT(good_lists); n++)
        try_paper(day, true, &good_lists[n], true);
    for (size_t n = 0; n < COUNT(bad_lists); n++)
        try_paper(day, true, &bad_lists[n], false);
    for (size_t n = 0; n < COUNT(good_pages); n++)
        try_paper(day, false, &good_pages[n], true);
    for (size_t n = 0; n < COUNT(bad_pages); n++)
        try_paper(day, false, &bad_pages[n], false);
    paper_files(day);
    day_free(day);
}

/* Days, names and what is reckoned of a day. */
static void written_days(void)
{
    static const char text[] = "benches North, \"Rig, 3\", South rig\nshare 4/7\ntarget 480\n"
                               "booked 1 60\njob \"a b\" 400 0,1\njob c 5 all\n"
                               "job \xE6\xB8\xAC 10 \"Rig, 3\",2\n";
    struct messages messages = MESSAGES_NONE;
    struct text found = TEXT_EMPTY;
    struct day *day = day_new(), *plain = day_new();
    require(day_read_bytes("friday.day", text, strlen(text), DAY_WHOLE, day, &messages) == DAY_READ,
            "a day to write");
    day_render(day, &found);
    hold("a day as text", &found,
         "benches North, \"Rig, 3\", \"South rig\"\nshare 4/7\ntarget 480\nbooked \"Rig, 3\" 60\n"
         "job \"a b\" 400 North,\"Rig, 3\"\njob c       5 all\n"
         "job \xE6\xB8\xAC     10 \"Rig, 3\",\"South rig\"\n");
    found.len = 0;
    day_job_name(day, 0, &found);
    day_job_name(plain, 7, &found);
    day_bench_name(day, 2, &found);
    day_bench_name(plain, 7, &found);
    hold("what benches and jobs are called", &found, "a bjob 7South rigbench 7");
    require(day_bound(day, 480) == 891 && day_bound(day, 7) == 13 && day_bound(day, 0) == 0,
            "the bound is rounded down");
    require(!day_is_heavy(day, 0, 700) && day_is_heavy(day, 0, 699), "heavy is above the share");
    text_free(&found);
    messages_free(&messages);
    day_free(day);
    day_free(plain);
}

/* Sets of benches and cells as they are written. */
static void written_sets(void)
{
    static const char text[] = "benches North, \"Rig, 3\", South rig\nshare 4/7\ntarget 480\n";
    struct messages messages = MESSAGES_NONE;
    struct text found = TEXT_EMPTY;
    struct day *day = day_new(), *plain = day_new();
    require(day_read_bytes("friday.day", text, strlen(text), DAY_WHOLE, day, &messages) == DAY_READ,
            "a day with names");
    plain->contents.benches = 10;
    const uint64_t sets[] = { 0xA700000000000000u, 0xC000000000000000u, 0xE040000000000000u,
                              0xFFC0000000000000u, 0x0040000000000000u, 0 };
    for (size_t n = 0; n < COUNT(sets); n++) {
        benches_render(plain, sets[n], &found);
        text_put(&found, ": ");
        benches_words(plain, sets[n], &found);
        text_byte(&found, '\n');
    }
    hold("sets of benches without names", &found,
         "0,2,5-7: benches 0, 2 and 5-7\n0,1: benches 0 and 1\n0-2,9: benches 0-2 and 9\n"
         "all: benches 0-9\n9: bench 9\n: no bench\n");
    found.len = 0;
    for (size_t n = 0; n < 8; n++) {
        benches_words(day, (uint64_t)n << 61, &found);
        text_byte(&found, '\n');
    }
    hold("sets of benches with names", &found,
         "no bench\nSouth rig\n\"Rig, 3\"\n\"Rig, 3\" and South rig\nNorth\nNorth and South rig\n"
         "North and \"Rig, 3\"\nNorth, \"Rig, 3\" and South rig\n");
    found.len = 0;
    const char *cells[] = { "a", "a;b", "a,b", "\"", " a", "a ", "a b", "a\nb", "a\rb", "" };
    for (size_t n = 0; n < COUNT(cells); n++) {
        csv_render(cells[n], strlen(cells[n]), ';', &found);
        text_put(&found, "|");
    }
    hold("cells", &found, "a|\"a;b\"|a,b|\"\"\"\"|\" a\"|\"a \"|a b|\"a\nb\"|\"a\rb\"||");
    text_free(&found);
    messages_free(&messages);
    day_free(day);
    day_free(plain);
}

static uint64_t state = 88172645463325252u;

static uint64_t below(uint64_t limit)
{
    state ^= state << 13;
    state ^= state >> 7;
    state ^= state << 17;
    return state % limit;
}

/* A name that no other has, of characters that need care. */
static char *random_name(size_t number)
{
    static const char *const pieces[] = { "a", "Z", "#", "\"", ",", " ", "-", "5", ";", "\xC3\xBC",
                                          "e\xCC\x81", "\xE6\xB8\xAC", "all", "/", "'", "\\" };
    struct text name = TEXT_EMPTY;
    text_put(&name, pieces[below(5)]);
    for (uint64_t left = below(6); left > 0; left--)
        text_put(&name, pieces[below(COUNT(pieces))]);
    text_format(&name, "~%zu", number);
    return name.bytes;
}

/* A day of random contents, of which the library has written the sheet; NULL if it refused. */
static struct day *random_day(void)
{
    struct day *day = day_new();
    struct yinqocha_contents *contents = &day->contents;
    uint64_t minutes[YINQOCHA_MAX_JOBS], allowed[YINQOCHA_MAX_JOBS];
    bool named = below(2) == 0;
    contents->benches = below(4) == 0 ? YINQOCHA_MAX_BENCHES : 1 + below(9);
    contents->q = 7 + below(121);
    contents->p = (4 * contents->q + 6) / 7;
    contents->target = below(YINQOCHA_MAX_TARGET + 1);
    for (size_t b = 0; b < contents->benches; b++) {
        contents->booked[b] = below(3) == 0 ? below(YINQOCHA_MAX_MINUTES + 1) : 0;
        day->bench_names[b] = named ? random_name(b) : NULL;
    }
    day->jobs = (size_t)below(below(8) == 0 ? YINQOCHA_MAX_JOBS + 1 : 20);
    for (size_t j = 0; j < day->jobs; j++) {
        uint64_t set = YINQOCHA_BENCH(below(contents->benches));
        if (below(2) == 0)
            set |= YINQOCHA_BENCH(below(contents->benches));
        bool any = below(3) == 0;
        if (any)
            set |= (below(UINT64_MAX) | below(UINT64_MAX)) & day_all_benches(day);
        minutes[j] = any ? below(1000) : below(YINQOCHA_MAX_MINUTES + 1);
        allowed[j] = set;
        contents->jobs[j] = (struct yinqocha_job){ minutes[j], set };
        day->job[j].name = random_name(j);
    }
    day->sheet = memory_new(YINQOCHA_MAX_WRITTEN_BYTES, 1);
    uint64_t word = yinqocha_write(contents->benches, contents->p, contents->q, contents->target,
                                   contents->booked, sizeof contents->booked,
                                   minutes, 8 * day->jobs, allowed, 8 * day->jobs,
                                   day->sheet, YINQOCHA_MAX_WRITTEN_BYTES);
    day->sheet_len = YINQOCHA_VALUE(word);
    if (YINQOCHA_FAULT(word) == YINQOCHA_OK)
        return day;
    day_free(day);
    return NULL;
}

/* Days that are written as text and read again: the same names and numbers, and the same sheet. */
static size_t random_days(void)
{
    size_t written = 0;
    for (unsigned n = 0; n < 1500; n++) {
        struct day *day = random_day();
        if (day == NULL)
            continue;
        struct messages messages = MESSAGES_NONE;
        struct text text = TEXT_EMPTY, first = TEXT_EMPTY, second = TEXT_EMPTY;
        struct day *read = day_new();
        day_render(day, &text);
        enum day_read answer = day_read_bytes("random.day", text.bytes, text.len, DAY_WHOLE, read,
                                              &messages);
        describe(day, &first);
        describe(read, &second);
        messages_render(&messages, &second);
        hold("a random day, written and read", &second, first.bytes);
        require(answer == DAY_READ && read->sheet_len == day->sheet_len
                    && memcmp(read->sheet, day->sheet, day->sheet_len) == 0,
                "a random day has its sheet");
        written++;
        text_free(&text);
        text_free(&first);
        text_free(&second);
        messages_free(&messages);
        day_free(read);
        day_free(day);
    }
    require(written > 500, "more than 500 random days are without a fault");
    return written;
}

/* A new folder in the one for scratch files or, where none is named, in target. */
static bool enter_folder(void)
{
    const char *scratch = getenv("TMPDIR");
    snprintf(folder, sizeof folder, "%s/readers-XXXXXX", scratch != NULL ? scratch : "target");
    return mkdtemp(folder) != NULL && chdir(folder) == 0
           && getcwd(folder, sizeof folder) != NULL;
}

int main(void)
{
    if (!enter_folder()) {
        perror(folder);
        return 1;
    }
    days();
    tables();
    files();
    limits();
    long_names();
    crowds();
    wide_day();
    large_files();
    sheets();
    long_sheets();
    other_faults();
    papers();
    written_days();
    written_sets();
    size_t written = random_days();
    printf("readers: %zu requirements hold, %zu random days are written and read\n", cases,
           written);
    leave(0);
}
