/*
 * render.h - answers as people and other programs read them
 *
 * Everything is added to a text; nothing here reads a file, asks the library or writes anything.
 * Names of files, benches and jobs are escaped as each form needs it.
 */

#ifndef DESK_RENDER_H
#define DESK_RENDER_H

#include "ask/ask.h"
#include "ask/reason.h"

/* The terminal or the paper that text is laid out for. */
struct screen {
    unsigned columns; /* at least 40 */
    bool colour;
};

/* An answer with all that is told of it. `reason` is there for a none, `messages` for a day that
 * was not read (then outcome is NULL). */
struct report {
    const struct day *day;
    const struct outcome *outcome;
    const struct reason *reason;
    const struct messages *messages;
};

/* plan and best. The lines are those of document 01, as the programs bay and best print them. */
void text_report(const struct report *report, struct screen screen, struct text *text);
void json_report(const struct report *report, struct text *text);
void csv_report_header(struct text *text);
void csv_report(const struct report *report, struct text *text);
void lines_report(const struct report *report, struct text *text);

/* The table at the end where several days were planned: a line a day. Its rows are taken from what
 * is left of each report, so that a day can be freed before the next is read. */
struct summary {
    char *file;
    enum answer answer; /* ANSWER_FAULT for a day that was not read too */
    bool best;          /* the plan is that of the best target */
    uint64_t benches, jobs, target, largest, bound;
    struct text words; /* the fullest bench, the long job, the blocking set or what was wrong */
};

void summary_of(const struct report *report, struct summary *summary);
void summary_free(struct summary *summary);
void text_summaries(const struct summary *summaries, size_t count, struct screen screen,
                    struct text *text);

/* A page of HTML by itself: a picture (SVG) and words for each report, each on one sheet of paper.
 * Begun, then a report at a time, then ended. */
void html_begin(const char *title, struct text *text);
void html_report(const struct report *report, struct text *text);
void html_end(struct text *text);

/* A check, with the list, set or page that was checked. */
struct check_report {
    const struct day *day;
    const struct checked *checked;
    const struct table *list, *page; /* the one that was checked, or NULL */
    uint64_t set;                    /* the set that was checked, or 0 */
    const char *file;                /* of the list or the page, or NULL */
    const struct reason *reason;     /* of a set that passed, or NULL; told as text only */
};

void text_check(const struct check_report *report, struct screen screen, struct text *text);
void json_check(const struct check_report *report, struct text *text);
void csv_check(const struct check_report *report, struct text *text);
void lines_check(const struct check_report *report, struct text *text);

/* A comparison of two lists. */
struct compare_report {
    const struct day *day;
    const struct compared *compared;
    const struct table *first, *second;
    const char *first_file, *second_file;
};

void text_compare(const struct compare_report *report, struct screen screen, struct text *text);
void json_compare(const struct compare_report *report, struct text *text);
void csv_compare(const struct compare_report *report, struct text *text);
void lines_compare(const struct compare_report *report, struct text *text);

/* What a day holds: for programs; as text it is day/write.h's. */
void json_day(const struct day *day, struct text *text);
void csv_day(const struct day *day, struct text *text);
void lines_day(const struct day *day, struct text *text);

/* What was wrong with the input of a command, for programs that asked for JSON or lines. */
void json_messages(const char *file, const struct messages *messages, struct text *text);
void lines_messages(const struct messages *messages, struct text *text);

/* The library's first fault among the messages of an input, the one with the lowest place; NULL
 * where the library was not asked. */
const struct message *first_fault(const struct messages *messages);

/* A string in JSON, with its quotes. */
void json_string(const char *bytes, size_t len, struct text *text);

/* Text in HTML and in attributes of SVG. */
void html_escape(const char *bytes, size_t len, struct text *text);

/* One sentence that says what an answer means, without a line end; used by text and HTML alike. */
void sentence_of(const struct report *report, struct text *text);

/* The paragraphs that say why there is none, a line each without line breaks inside; used by text
 * and HTML alike. */
void reason_words(const struct day *day, const struct reason *reason, struct text *text);

#endif
