/*
 * ask.h - what the library says of a day
 *
 * Each function is one call of the library on the day's sheet. Nothing is planned, searched,
 * checked or compared anywhere else.
 */

#ifndef DESK_ASK_H
#define DESK_ASK_H

#include "day/day.h"
#include "day/papers.h"

enum answer { ANSWER_PLAN, ANSWER_LONG, ANSWER_NONE, ANSWER_FAULT };

/* What planning or the search for the best target came to. Fields that an answer does not have
 * are 0. */
struct outcome {
    enum answer answer;
    bool best;       /* the search was asked: the plan is that of the best target */
    uint64_t target; /* the target that was tried: the day's own, or the best one */
    uint64_t runs;   /* best: how many targets were run */

    uint64_t largest, moves, fullest;
    uint64_t places[YINQOCHA_MAX_JOBS], loads[YINQOCHA_MAX_BENCHES];

    uint64_t job; /* long: the lowest job above the target */
    uint64_t set; /* none: the blocking set */

    uint32_t fault, place;
};

void ask_plan(const struct day *day, struct outcome *outcome);
void ask_best(const struct day *day, struct outcome *outcome);

enum verdict { VERDICT_PASSED, VERDICT_NOT_PASSED, VERDICT_LONG, VERDICT_FAULT };

enum paper { PAPER_LIST, PAPER_SET, PAPER_PAGE };

/* What a check came to. */
struct checked {
    enum paper paper;
    enum verdict verdict;
    uint64_t largest, fullest; /* a passed list */
    uint64_t set;              /* a page that is not passed: its first set that is not blocking */
    uint64_t job;              /* long */
    uint32_t fault, place;
};

void ask_list(const struct day *day, const struct table *list, struct checked *checked);
void ask_set(const struct day *day, uint64_t set, struct checked *checked);
void ask_page(const struct day *day, const struct table *page, struct checked *checked);

enum comparison { COMPARISON_SAME, COMPARISON_DIFFERENT, COMPARISON_FAULT };

struct compared {
    enum comparison comparison;
    uint32_t fault, place;
};

void ask_compare(const struct day *day, const struct table *first, const struct table *second,
                 struct compared *compared);

/* What a fault of a call on a day means, in words: those of the tables that the desk hands over,
 * 13, 16, 17 and 18. (Those of the sheet were told when the day was read.) `list` and `page` are
 * what was handed over, or NULL. */
void fault_words(const struct day *day, uint32_t fault, uint32_t place, const struct table *list,
                 const struct table *page, struct text *text);

/* How many jobs of a list are on a bench that they do not allow, and the first of them; and what is
 * wrong with the place of such a job, in words. Explanations only: whether a list passes is for the
 * library to say. */
size_t list_misplaced(const struct day *day, const struct table *list, size_t *first);
void misplaced_words(const struct day *day, const struct table *list, size_t job,
                     struct text *text);

#endif
