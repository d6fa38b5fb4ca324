/*
 * items.h - the items of a day of text, a line each
 */

#ifndef DESK_ITEMS_H
#define DESK_ITEMS_H

#include "day/parts.h"
#include "day/scan.h"

enum item_kind {
    ITEM_BENCHES, ITEM_SHARE, ITEM_TARGET, ITEM_BOOKED, ITEM_JOB, ITEM_JOBS,
    ITEMS
};

/* The word that a line of an item begins with, and such a line. */
extern const char *const item_words[ITEMS];
extern const char *const item_examples[ITEMS];

/* A day of text that is read. */
struct reader {
    struct day *day;
    struct messages *messages;
    struct piece piece;
    size_t wanted_line; /* the first line that had to do with benches before there were any */
    bool told;          /* it was said that there are no benches that could be read */
};

/* Each reads the rest of a line behind its first word. */
void read_benches(struct reader *reader, struct scan *scan);
void read_share(struct reader *reader, struct scan *scan);
void read_target(struct reader *reader, struct scan *scan);
void read_booked(struct reader *reader, struct scan *scan);
void read_job(struct reader *reader, struct scan *scan);
void read_jobs(struct reader *reader, struct scan *scan);

#endif
