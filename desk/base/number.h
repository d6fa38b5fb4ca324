/*
 * number.h - whole numbers in text
 */

#ifndef DESK_NUMBER_H
#define DESK_NUMBER_H

#include <stdbool.h>
#include <stddef.h>
#include <stdint.h>

enum number_read {
    NUMBER_READ,
    NUMBER_NONE, /* these bytes are not decimal digits alone, or there are none */
    NUMBER_LARGE /* a number, but above `most` */
};

/* Reads all of the bytes as one number in decimal digits: no sign, no blank, no point, no exponent.
 * `value` is written for NUMBER_READ only. */
enum number_read number_read(const char *bytes, size_t len, uint64_t most, uint64_t *value);

bool is_digit(char byte);

#endif
