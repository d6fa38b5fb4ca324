/*
 * layout.h - lines of text for people: columns, colours, wrapped words
 */

#ifndef DESK_LAYOUT_H
#define DESK_LAYOUT_H

#include "render/render.h"

/* A colour never says anything that the words do not. */
enum colour { COLOUR_BOLD, COLOUR_RED, COLOUR_GREEN, COLOUR_YELLOW };

/* What lies between these two has the colour, on a screen that shows colours. */
void colour_begin(struct screen screen, enum colour colour, struct text *text);
void colour_end(struct screen screen, struct text *text);

/* Some bytes as far as they fit the columns, cut with an ellipsis otherwise: behind the front, or
 * (put_end) before the end. What no terminal should be sent, such as a control character in the
 * name of a file, is a question mark. Returns the columns taken. */
size_t put_front(const char *bytes, size_t len, size_t columns, struct text *text);
size_t put_end(const char *bytes, size_t len, size_t columns, struct text *text);

/* The same, with blanks behind it up to so many columns. */
void put_padded(const char *bytes, size_t len, size_t columns, struct text *text);

/* Words wrapped at their blanks, every line behind an indent, with a line end. Numbers stay with
 * the word before them, as in "job 3 (45)". */
void put_wrapped(const char *words, size_t len, size_t indent, struct screen screen,
                 struct text *text);

/* Each line of the words as a paragraph of its own, from the line with this number on, with a dash
 * before it if they are a list. */
void put_paragraphs(const struct text *words, size_t first, bool list, struct screen screen,
                    struct text *text);

/* Drops blanks at the end of a text. */
void trim_end(struct text *text);

/* The digits of a number. */
size_t digits_of(uint64_t number);

/* "1 bench", "3 benches" and so on; `ending` is put behind the noun where there is not one. The
 * same with minutes. */
void put_count(uint64_t count, const char *noun, const char *ending, struct text *text);
void put_minutes(uint64_t minutes, struct text *text);

/* A set of benches in a sentence: "all 6 benches", "benches 0, 2 and 5-7", "North and South"; and
 * at its beginning: "All 6 benches", "Benches 0 and 1". */
void put_set(const struct day *day, uint64_t set, struct text *text);
void put_set_first(const struct day *day, uint64_t set, struct text *text);

/* The file, with the answer in a colour: the line above everything else. */
void put_heading(const struct day *day, const char *answer, enum colour colour,
                 struct screen screen, struct text *text);

/* What the day has: benches, jobs, share; a target, and a bound where there is a plan. */
void put_facts(const struct day *day, uint64_t target, bool bound, struct screen screen,
               struct text *text);

/* reason_words() without its last paragraph, the sum. */
void reason_parts(const struct day *day, const struct reason *reason, struct text *text);

/* What text_report() is made of. */
void text_plan(const struct report *report, struct screen screen, struct text *text);
void text_reason(const struct day *day, const struct reason *reason, struct screen screen,
                 struct text *text);

#endif
