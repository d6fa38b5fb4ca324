#include "base/number.h"

bool is_digit(char byte)
{
    return byte >= '0' && byte <= '9';
}

enum number_read number_read(const char *bytes, size_t len, uint64_t most, uint64_t *value)
{
    if (len == 0)
        return NUMBER_NONE;
    for (size_t at = 0; at < len; at++)
        if (!is_digit(bytes[at]))
            return NUMBER_NONE;
    uint64_t number = 0;
    for (size_t at = 0; at < len; at++) {
        uint64_t digit = (uint64_t)(bytes[at] - '0');
        if (digit > most || number > (most - digit) / 10)
            return NUMBER_LARGE;
        number = 10 * number + digit;
    }
    *value = number;
    return NUMBER_READ;
}
