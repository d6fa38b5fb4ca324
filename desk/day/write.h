/*
 * write.h - days as text
 */

#ifndef DESK_WRITE_H
#define DESK_WRITE_H

#include "day/day.h"

/* The day as text that read.h reads back as the same day: benches with their names if they have
 * such, share, target, bookings above 0, a line a job in columns. A job without a name has its
 * number for one. A job's benches are by name if they have names and the list stays within 60
 * columns, otherwise by number. */
void day_render(const struct day *day, struct text *text);

#endif
