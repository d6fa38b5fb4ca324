/* The sheet of a day: the library writes it, reads it and judges it; here its faults have words. */

#include "day/parts.h"
#include "day/scan.h"

#include <string.h>

/* The tables that the library writes a sheet from. */
struct fields {
    uint64_t minutes[YINQOCHA_MAX_JOBS], allowed[YINQOCHA_MAX_JOBS];
};

static uint64_t write_fields(const struct day *day, const struct fields *fields, uint8_t *out)
{
    const struct yinqocha_contents *contents = &day->contents;
    size_t bytes = day->jobs * sizeof fields->minutes[0];
    return yinqocha_write(contents->benches, contents->p, contents->q, contents->target,
                          contents->booked, sizeof contents->booked, fields->minutes, bytes,
                          fields->allowed, bytes, out, YINQOCHA_MAX_WRITTEN_BYTES);
}

static uint64_t longest_job(const struct day *day)
{
    uint64_t longest = 0;
    for (size_t j = 0; j < day->jobs; j++)
        if (day->contents.jobs[j].minutes > longest)
            longest = day->contents.jobs[j].minutes;
    return longest;
}

/* A fault of writing at the part of the day's text that it is about. */
static void say(const struct day *day, struct origin origin, uint64_t word, const char *words,
                struct messages *messages)
{
    message_fault(messages, day_file(day, origin), origin.line, origin.column, YINQOCHA_FAULT(word),
                  YINQOCHA_VALUE(word), "%s", words);
}

static void bad_share_words(const struct day *day, struct text *words)
{
    text_format(words, "%u/%u is no good share: expected at least 4/7 and less than 1",
                (unsigned)day->contents.p, (unsigned)day->contents.q);
}

static void say_bad_share(const struct day *day, uint64_t word, struct messages *messages)
{
    struct text words = TEXT_EMPTY;
    bad_share_words(day, &words);
    say(day, day->share_origin, word, text_string(&words), messages);
    text_free(&words);
}

static void say_long_job(const struct day *day, uint64_t word, struct messages *messages)
{
    const struct yinqocha_contents *contents = &day->contents;
    size_t job = YINQOCHA_VALUE(word);
    unsigned long long longest = longest_job(day), p = contents->p, q = contents->q;
    struct text words = TEXT_EMPTY, name = TEXT_EMPTY;
    day_job_name(day, job, &name);
    excerpt(text_string(&name), name.len, &words);
    text_format(&words,
                " has %llu minutes and may go to %u benches: a job with three or more has at most "
                "%llu/%llu of the longest job's %llu minutes, that is %llu; two benches at most or "
                "a larger share would do",
                (unsigned long long)contents->jobs[job].minutes,
                benches_count(contents->jobs[job].allowed), p, q, longest, p * longest / q);
    say(day, day->job[job].benches_origin, word, text_string(&words), messages);
    text_free(&words);
    text_free(&name);
}

/* Faults that the reader of text leaves none of: it is said all the same where one stands. */
static void say_other(const struct day *day, uint64_t word, struct messages *messages)
{
    size_t place = YINQOCHA_VALUE(word);
    switch (YINQOCHA_FAULT(word)) {
    case YINQOCHA_BAD_BENCHES:
        say(day, day->benches_origin, word, "the number of benches or the target is bad", messages);
        break;
    case YINQOCHA_BAD_BOOKING:
        say(day, day->booked_origin[place % YINQOCHA_MAX_BENCHES], word, "the booking is bad",
            messages);
        break;
    case YINQOCHA_BAD_MINUTES:
    case YINQOCHA_BAD_ALLOWED:
        say(day, day->job[place % YINQOCHA_MAX_JOBS].origin, word, "the job is bad", messages);
        break;
    default:
        say(day, (struct origin){ 0, 0, 0 }, word, "the library refuses the day", messages);
    }
}

/* The bit of the lowest bench of a set. */
static uint64_t lowest_bench(uint64_t set)
{
    for (unsigned b = 0; b < YINQOCHA_MAX_BENCHES; b++)
        if (YINQOCHA_HAS_BENCH(set, b))
            return YINQOCHA_BENCH(b);
    return 0;
}

void day_judge_share(const struct day *day, struct messages *messages)
{
    uint8_t out[YINQOCHA_SHEET_BYTES(0, 0)];
    if (!day->share_read)
        return;
    uint64_t word = yinqocha_write(1, day->contents.p, day->contents.q, 0, NULL, 0, NULL, 0, NULL,
                                   0, out, sizeof out);
    if (YINQOCHA_FAULT(word) != YINQOCHA_BAD_SHARE)
        return;
    struct text words = TEXT_EMPTY;
    bad_share_words(day, &words);
    message_add(messages, day_file(day, day->share_origin), day->share_origin.line,
                day->share_origin.column, "%s", text_string(&words));
    text_free(&words);
}

enum day_read day_write_sheet(struct day *day, struct messages *messages)
{
    struct fields fields;
    for (size_t j = 0; j < day->jobs; j++) {
        fields.minutes[j] = day->contents.jobs[j].minutes;
        fields.allowed[j] = day->contents.jobs[j].allowed;
    }
    day->sheet = memory_new(YINQOCHA_MAX_WRITTEN_BYTES, 1);
    uint64_t word = write_fields(day, &fields, day->sheet);
    if (YINQOCHA_FAULT(word) == YINQOCHA_OK) {
        day->sheet_len = YINQOCHA_VALUE(word);
        return DAY_READ;
    }
    if (YINQOCHA_FAULT(word) == YINQOCHA_BAD_SHARE)
        say_bad_share(day, word, messages);
    else if (YINQOCHA_FAULT(word) != YINQOCHA_LONG_JOB_WITH_CHOICE)
        say_other(day, word, messages);
    /* A job with one bench is never such a fault, and the longest job's minutes stay: so the
     * library finds the next one. */
    while (YINQOCHA_FAULT(word) == YINQOCHA_LONG_JOB_WITH_CHOICE) {
        say_long_job(day, word, messages);
        uint64_t *allowed = &fields.allowed[YINQOCHA_VALUE(word)];
        *allowed = lowest_bench(*allowed);
        word = write_fields(day, &fields, day->sheet);
    }
    return DAY_FAULT;
}

/* What a fault of a sheet that is read means. `len` is the sheet's length. */
static const char *fault_of_sheet(uint32_t fault, bool at_end)
{
    switch (fault) {
    case YINQOCHA_SHEET_TOO_LONG:
        return "the sheet has more than 65,536 bytes";
    case YINQOCHA_SHEET_CUT:
        return at_end ? "the sheet is over, and no end frame was in it"
                      : "the sheet ends inside of this frame";
    case YINQOCHA_UNKNOWN_KIND:
        return "the frame has a kind other than 1 (head), 2 (job), 3 (end) and 4 (booking)";
    case YINQOCHA_OUT_OF_PLACE:
        return "the frame is out of its place: the head comes first and once, then bookings, then "
               "jobs, then the end";
    case YINQOCHA_BODY_LENGTH:
        return "the length of the frame is not that of its kind";
    case YINQOCHA_SPARE_BIT:
        return "a spare bit is 1";
    case YINQOCHA_BAD_BENCHES:
        return "the head has 0 benches or more than 64";
    case YINQOCHA_BAD_SHARE:
        return "the head's share is bad: expected at least 4/7 and less than 1";
    case YINQOCHA_BAD_BOOKING:
        return "a bench is booked that the day lacks";
    case YINQOCHA_BOOKED_TWICE:
        return "the bench is booked a second time";
    case YINQOCHA_TOO_MANY_JOBS:
        return "this is job 513, one too many: a day has at most 512 jobs";
    case YINQOCHA_BAD_ALLOWED:
        return "the job allows no bench, or one that the day lacks";
    case YINQOCHA_LONG_JOB_WITH_CHOICE:
        return "the job has three or more benches and more minutes than the share of the longest "
               "job's";
    default:
        return "the library refuses the sheet";
    }
}

enum day_read day_read_sheet(const char *bytes, size_t len, struct day *day,
                             struct messages *messages)
{
    if (len > YINQOCHA_MAX_SHEET_BYTES + 1)
        len = YINQOCHA_MAX_SHEET_BYTES + 1;
    day->from_sheet = true;
    day->sheet = (uint8_t *)memory_string(bytes, len);
    day->sheet_len = len;
    uint64_t word = yinqocha_read(day->sheet, len, &day->contents, sizeof day->contents);
    uint32_t fault = YINQOCHA_FAULT(word), place = YINQOCHA_VALUE(word);
    if (fault == YINQOCHA_OK) {
        day->jobs = place;
        return DAY_READ;
    }
    const char *words = fault_of_sheet(fault, place == len), *hint = "";
    if (is_wide(bytes, len))
        hint = " (or is this text in UTF-16? a day is saved as UTF-8)";
    if (fault == YINQOCHA_SHEET_TOO_LONG || (fault == YINQOCHA_SHEET_CUT && place == len))
        message_fault(messages, day->file_names[0], 0, 0, fault, place, "%s%s", words, hint);
    else if (fault == YINQOCHA_LONG_JOB_WITH_CHOICE)
        message_fault(messages, day->file_names[0], 0, 0, fault, place, "job %u: %s%s",
                      (unsigned)place, words, hint);
    else
        message_fault(messages, day->file_names[0], 0, 0, fault, place, "at byte %u: %s%s",
                      (unsigned)place, words, hint);
    return DAY_FAULT;
}
