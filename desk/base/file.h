/*
 * file.h - whole files
 */

#ifndef DESK_FILE_H
#define DESK_FILE_H

#include "base/text.h"

#include <stdbool.h>
#include <stdio.h>

enum file_read {
    FILE_READ,
    FILE_LARGE, /* it has more than `most` bytes */
    FILE_FAILED /* it could not be opened or read; errno says why */
};

/* Reads a whole file, or standard input if the path is "-". At most `most` + 1 bytes are kept, also
 * of an endless one; with FILE_LARGE the text has the first of them. */
enum file_read file_read(const char *path, size_t most, struct text *bytes);

/* Writes a whole file, in place of what was there. False with errno set where that fails. */
bool file_write(const char *path, const char *bytes, size_t len);

/* Writes to a stream and flushes it. False with errno set where that fails. */
bool stream_write(FILE *stream, const char *bytes, size_t len);

#endif
