/*
 * text.h - text that grows
 *
 * What the desk prints is put together in a text first, and written out once it is whole. A text
 * may hold any bytes. The program ends with a message and exit status 2 where memory runs out.
 */

#ifndef DESK_TEXT_H
#define DESK_TEXT_H

#include <stdarg.h>
#include <stddef.h>

/* `bytes` has `len` bytes and a 0 behind them once something was added, and is NULL before. */
struct text {
    char *bytes;
    size_t len, room;
};

/* An empty text; it takes no memory. */
#define TEXT_EMPTY { NULL, 0, 0 }

void text_add(struct text *text, const char *bytes, size_t len);
void text_put(struct text *text, const char *string);
void text_byte(struct text *text, char byte);
void text_repeat(struct text *text, const char *string, size_t times);
#if defined(__GNUC__)
__attribute__((format(printf, 2, 3), nonnull(2)))
#endif
void text_format(struct text *text, const char *format, ...);
#if defined(__GNUC__)
__attribute__((format(printf, 2, 0), nonnull(2)))
#endif
void text_arguments(struct text *text, const char *format, va_list arguments);

/* The bytes as a string, "" for an empty text. */
const char *text_string(const struct text *text);

/* Empties a text and gives its memory back. */
void text_free(struct text *text);

/* Memory that is there: these end the program where there is none. A size of 0 is fine. */
void *memory_new(size_t count, size_t size);
void *memory_resize(void *memory, size_t count, size_t size);
char *memory_string(const char *bytes, size_t len);

#endif
