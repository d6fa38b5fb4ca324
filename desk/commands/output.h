/*
 * output.h - where a command writes
 */

#ifndef DESK_OUTPUT_H
#define DESK_OUTPUT_H

#include "commands/commands.h"

/* Standard output: its width, and colour if it is a terminal that shows it. */
struct screen output_screen(void);

/* Writes a text to standard output and empties it. False with a message where that fails. */
bool output_write(struct text *text);

/* Writes a whole file, in place of what was there. False with a message where that fails. */
bool output_file(const char *path, const char *bytes, size_t len);

/* Writes the messages to standard error. */
void output_messages(const struct messages *messages);

/* The exit status of what was wrong with the input, told in the form that was asked for. `file` is
 * the day's, as shown to people. */
int output_bad_input(const struct options *options, const char *file,
                     const struct messages *messages);

/* What the desk writes to files. */
enum product { PRODUCT_PAGE, PRODUCT_SHEET };

/* Whether a file may be written: there is none yet, or it is empty, no regular file, or of the same
 * kind and not one of those that are read. So `--html *.day` writes over no day. Says so where it
 * may not. */
bool output_allowed(const char *path, enum product product, const struct options *options);

/* What goes on, on standard error where that is a terminal: shown from begin to end. The name of
 * the file stands between the words, of which the second are left out where the line is too short.
 * A sign of life is added once the line has stood for half a second. */
void progress_begin(const char *before, const char *file, const char *behind);
void progress_end(void);

#endif
