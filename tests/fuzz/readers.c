/*
 * A fuzz target for the desk's readers: days of text, CSV files of jobs, lists, pages and sheets.
 * README.md beside it says how it is built and run.
 *
 * The first byte of an input says what the rest is:
 *
 *     d   a day of text; behind a byte 0xFF, if there is one, the file that its `jobs` lines read
 *     c   a CSV file of jobs, of a day with named benches
 *     l   a list of places for a day with named benches
 *     p   a page of sets for it
 *     s   a sheet
 *
 * Any other byte counts as d. What must hold, whatever the input:
 *
 *   - what is refused has messages and what is accepted has none; there are at most 100, each of
 *     characters that can be printed, at a place that is there;
 *   - a day that is accepted has a sheet that the library reads back to the same contents, and its
 *     text is read back to the same contents, names and sheet;
 *   - a list or a page that is accepted has entries that the library can be given.
 */

#include "base/file.h"
#include "base/utf8.h"
#include "day/papers.h"
#include "day/read.h"
#include "day/write.h"

#include <stdio.h>
#include <stdlib.h>
#include <string.h>

int LLVMFuzzerTestOneInput(const uint8_t *data, size_t size);

/* What every `jobs` line reads: nothing here opens a file. */
static const char *jobs_bytes;
static size_t jobs_len;

enum file_read file_read(const char *path, size_t most, struct text *bytes)
{
    (void)path;
    if (jobs_bytes == NULL)
        return FILE_FAILED;
    text_add(bytes, jobs_bytes, jobs_len <= most ? jobs_len : most + 1);
    return jobs_len <= most ? FILE_READ : FILE_LARGE;
}

static void require(bool holds, const char *what)
{
    if (holds)
        return;
    fprintf(stderr, "readers: %s\n", what);
    abort();
}

/* Nothing in a message may be something else than text on one line. */
static void require_printable(const char *words)
{
    size_t len = strlen(words);
    require(len > 0, "a message has no words");
    for (size_t at = 0; at < len;) {
        uint32_t point;
        size_t step = utf8_next(words + at, len - at, &point);
        require(step > 0 && utf8_printable(point), "a message cannot be shown as it is");
        at += step;
    }
}

/* The characters of a line of the input, and one behind them; 0 if there is no such line. */
static size_t line_end(const char *bytes, size_t len, size_t line, bool returns)
{
    size_t at = 0;
    for (size_t n = 1; n < line; n++) {
        while (at < len && bytes[at] != '\n' && !(returns && bytes[at] == '\r'))
            at++;
        if (at == len)
            return 0;
        at += returns && bytes[at] == '\r' && at + 1 < len && bytes[at + 1] == '\n' ? 2 : 1;
    }
    size_t from = at;
    while (at < len && bytes[at] != '\n' && !(returns && bytes[at] == '\r'))
        at++;
    return utf8_count(bytes + from, at - from) + 1;
}

/* The messages of a reading; `bytes` are those of a file that has the name, or NULL. */
static void check_messages(const struct messages *messages, const char *file, const char *bytes,
                           size_t len, bool returns)
{
    require(messages->count <= MESSAGES_MOST, "more messages than there may be");
    for (size_t n = 0; n < messages->count; n++) {
        const struct message *message = &messages->all[n];
        require_printable(message->words);
        require(message->line > 0 || message->column == 0, "a column without a line");
        if (bytes == NULL || message->line == 0 || strcmp(message->file, file) != 0)
            continue;
        size_t end = line_end(bytes, len, message->line, returns);
        require(end > 0, "a message at a line that is not there");
        require(returns || message->column <= end, "a message behind the end of its line");
    }
}

static bool same_name(const char *a, const char *b)
{
    return (a == NULL) == (b == NULL) && (a == NULL || strcmp(a, b) == 0);
}

static bool same_contents(const struct yinqocha_contents *a, const struct yinqocha_contents *b,
                          size_t jobs)
{
    return a->benches == b->benches && a->p == b->p && a->q == b->q && a->target == b->target
           && memcmp(a->booked, b->booked, sizeof a->booked) == 0
           && memcmp(a->jobs, b->jobs, jobs * sizeof a->jobs[0]) == 0;
}

static void check_sheet(const struct day *day)
{
    struct yinqocha_contents contents;
    uint64_t word = yinqocha_read(day->sheet, day->sheet_len, &contents, sizeof contents);
    require(YINQOCHA_FAULT(word) == YINQOCHA_OK, "the sheet of a day has a fault");
    require(YINQOCHA_VALUE(word) == day->jobs, "the sheet of a day has other jobs");
    require(same_contents(&contents, &day->contents, day->jobs), "the sheet has other contents");
}

/* The day that is read from the text of another. */
static void check_text(const struct day *day)
{
    struct text text = TEXT_EMPTY, again = TEXT_EMPTY;
    struct messages messages = MESSAGES_NONE;
    struct day *read = day_new();
    day_render(day, &text);
    require(day_read_bytes("again.day", text.bytes, text.len, DAY_WHOLE, read, &messages)
                == DAY_READ && messages.count == 0,
            "the text of a day is not read back");
    require(read->jobs == day->jobs && same_contents(&read->contents, &day->contents, day->jobs),
            "the text of a day is read back as another day");
    for (size_t b = 0; b < YINQOCHA_MAX_BENCHES; b++)
        require(same_name(read->bench_names[b], day->bench_names[b]), "a bench has another name");
    for (size_t j = 0; j < day->jobs && !day->from_sheet; j++)
        require(same_name(read->job[j].name, day->job[j].name), "a job has another name");
    check_sheet(read);
    require(day->from_sheet
                || (read->sheet_len == day->sheet_len
                    && memcmp(read->sheet, day->sheet, day->sheet_len) == 0),
            "the text of a day has another sheet");
    day_render(read, &again);
    require(again.len == text.len && memcmp(again.bytes, text.bytes, text.len) == 0,
            "the text of a day changes when it is read and written");
    text_free(&text);
    text_free(&again);
    day_free(read);
}

static void check_answer(enum day_read answer, const struct day *day,
                         const struct messages *messages)
{
    require((answer == DAY_READ) == (messages->count == 0), "an answer and its messages differ");
    for (size_t n = 0; n < messages->count; n++)
        require((answer == DAY_FAULT) == (messages->all[n].fault > 0),
                "a fault number with bad text, or none with a fault");
    if (answer != DAY_READ)
        return;
    require(day->contents.benches >= 1 && day->contents.benches <= YINQOCHA_MAX_BENCHES
                && day->jobs <= YINQOCHA_MAX_JOBS,
            "a day beyond its limits");
    check_sheet(day);
    check_text(day);
}

static void try_day(const char *path, const char *bytes, size_t len, bool messages_here)
{
    struct messages messages = MESSAGES_NONE;
    struct day *day = day_new();
    enum day_read answer = day_read_bytes(path, bytes, len, DAY_WHOLE, day, &messages);
    check_answer(answer, day, &messages);
    /* A `jobs` line may name the day's own file, which has other bytes here when it is opened. */
    for (size_t n = 1; n < day->files; n++)
        messages_here = messages_here && strcmp(day->file_names[n], path) != 0;
    check_messages(&messages, path, messages_here ? bytes : NULL, len, false);
    check_messages(&messages, "jobs.csv", jobs_bytes, jobs_len, true);
    messages_free(&messages);
    day_free(day);
}

static const char bay[] = "benches North, \"Rig #3\", \"Rig, \"\"4\"\"\", 5x\n"
                          "share 4/7\ntarget 480\n"
                          "job axle 45 all\njob \"wheel, left\" 300 0\njob w\xC3\xB6lle 5 1-3\n";

static void try_paper(bool list, const char *bytes, size_t len)
{
    struct messages messages = MESSAGES_NONE;
    struct table table = TABLE_EMPTY;
    struct day *day = day_new();
    require(day_read_bytes("bay.day", bay, sizeof bay - 1, DAY_WHOLE, day, &messages) == DAY_READ,
            "the day of the lists is not read");
    bool good = list ? list_read_bytes(day, "paper", bytes, len, &table, &messages)
                     : page_read_bytes(day, "paper", bytes, len, &table, &messages);
    require(good == (messages.count == 0), "a paper and its messages differ");
    check_messages(&messages, "paper", bytes, len, list);
    require(!list || table.count <= YINQOCHA_MAX_JOBS, "a list is longer than a day");
    for (size_t n = 0; good && !list && n < table.count; n++)
        require(table.entries[n] != 0 && (table.entries[n] & ~day_all_benches(day)) == 0,
                "a set of a page is empty or has benches that the day lacks");
    table_free(&table);
    messages_free(&messages);
    day_free(day);
}

int LLVMFuzzerTestOneInput(const uint8_t *data, size_t size)
{
    if (size == 0)
        return 0;
    const char *bytes = (const char *)data + 1;
    size_t len = size - 1;
    jobs_bytes = NULL;
    jobs_len = 0;
    if (data[0] == 'c') {
        static const char day[] = "benches North, \"Rig #3\", \"Rig, 4\"\nshare 4/7\ntarget 480\n"
                                  "job first 7 0\njobs jobs.csv\n";
        jobs_bytes = bytes;
        jobs_len = len;
        try_day("friday.day", day, sizeof day - 1, false);
    } else if (data[0] == 'l' || data[0] == 'p') {
        try_paper(data[0] == 'l', bytes, len);
    } else if (data[0] == 's') {
        try_day("friday.sheet", bytes, len, false);
    } else {
        const char *end = len > 0 ? memchr(bytes, 0xFF, len) : NULL;
        if (end != NULL) {
            jobs_bytes = end + 1;
            jobs_len = (size_t)(bytes + len - jobs_bytes);
            len = (size_t)(end - bytes);
        }
        try_day("friday.day", bytes, len, true);
    }
    return 0;
}

#ifdef READERS_MAIN
/* Runs the inputs of the files on the command line once each, without libFuzzer. */
int main(int argc, char **argv)
{
    for (int n = 1; n < argc; n++) {
        struct text input = TEXT_EMPTY;
        char part[4096];
        FILE *file = fopen(argv[n], "rb");
        if (file == NULL) {
            perror(argv[n]);
            return 2;
        }
        for (size_t got; (got = fread(part, 1, sizeof part, file)) > 0;)
            text_add(&input, part, got);
        bool failed = ferror(file) != 0;
        if (fclose(file) != 0 || failed) {
            perror(argv[n]);
            return 2;
        }
        LLVMFuzzerTestOneInput((const uint8_t *)text_string(&input), input.len);
        text_free(&input);
    }
    printf("readers: %d inputs, nothing found\n", argc - 1);
    return 0;
}
#endif
