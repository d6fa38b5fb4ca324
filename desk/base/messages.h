/*
 * messages.h - what is wrong with the input, and where
 *
 * Readers add a message for each thing that is wrong and go on, so that a person sees all of them
 * at once. A message without a line is about the whole file, one without a column about the line.
 */

#ifndef DESK_MESSAGES_H
#define DESK_MESSAGES_H

#include "base/text.h"

#include <stdbool.h>
#include <stddef.h>

/* `line` and `column` count from 1, columns in characters; 0 where there is none. `fault` is the
 * library's fault number with its `place`, 0 for what the reader itself found. */
struct message {
    char *file;
    size_t line, column;
    unsigned fault, place;
    char *words;
};

/* `left_out` counts those that were added after the first MESSAGES_MOST. */
struct messages {
    struct message *all;
    size_t count, room, left_out;
};

#define MESSAGES_MOST 100
#define MESSAGES_NONE { NULL, 0, 0, 0 }

/* The words are one sentence without a full stop: what is wrong, and what was expected. */
#if defined(__GNUC__)
__attribute__((format(printf, 5, 6), nonnull(5)))
#endif
void message_add(struct messages *messages, const char *file, size_t line, size_t column,
                 const char *format, ...);

/* The same for a fault of the library; its number and place are put behind the words. */
#if defined(__GNUC__)
__attribute__((format(printf, 7, 8), nonnull(7)))
#endif
void message_fault(struct messages *messages, const char *file, size_t line, size_t column,
                   unsigned fault, unsigned place, const char *format, ...);

/* Whether no more are kept; one more is counted as left out then. For messages whose words take
 * some work: a hostile file has millions of them. */
bool messages_full(struct messages *messages);

/* How many there were, those that were left out included. */
size_t messages_told(const struct messages *messages);

/* FILE:LINE:COLUMN: WORDS, a line each, and how many were left out. */
void messages_render(const struct messages *messages, struct text *text);

void messages_free(struct messages *messages);

#endif
