/*
 * utf8.h - characters in UTF-8, whatever the locale
 */

#ifndef DESK_UTF8_H
#define DESK_UTF8_H

#include "base/text.h"

#include <stdbool.h>
#include <stddef.h>
#include <stdint.h>

/* The bytes of the character at the front, and its code point; 0 where no whole character of valid
 * UTF-8 stands there: overlong forms, surrogates and points above U+10FFFF are not valid. */
size_t utf8_next(const char *bytes, size_t len, uint32_t *point);

/* Whether the character may stand in a name: no control character (C0, DEL, C1), no line or
 * paragraph separator, nothing that turns the direction of the text around it, no byte order mark,
 * no noncharacter. */
bool utf8_printable(uint32_t point);

/* Adds the first character of some bytes, or a question mark where it is none or may not stand in a
 * name; at least one byte is there. Returns the bytes that it has. */
size_t utf8_put(const char *bytes, size_t len, struct text *text);

/* The characters of some bytes; a byte that begins no valid character counts as one. */
size_t utf8_count(const char *bytes, size_t len);

/* The columns of a terminal that a character takes: 0 for combining marks, 2 for wide ones of East
 * Asia and most emoji, otherwise 1. */
unsigned utf8_columns_of(uint32_t point);

/* The columns that valid text takes. */
size_t utf8_columns(const char *bytes, size_t len);

/* The bytes of the longest front of valid text that takes at most so many columns; combining marks
 * stay with the character before them. */
size_t utf8_fit(const char *bytes, size_t len, size_t columns);

#endif
