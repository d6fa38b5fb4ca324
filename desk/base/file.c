#include "base/file.h"

#include <errno.h>
#include <string.h>

static enum file_read read_stream(FILE *stream, size_t most, struct text *bytes)
{
    char part[16384];
    errno = 0;
    while (bytes->len <= most) {
        size_t wanted = most + 1 - bytes->len;
        size_t got = fread(part, 1, wanted < sizeof part ? wanted : sizeof part, stream);
        text_add(bytes, part, got);
        if (ferror(stream))
            return FILE_FAILED;
        if (got == 0)
            return FILE_READ;
    }
    return FILE_LARGE;
}

enum file_read file_read(const char *path, size_t most, struct text *bytes)
{
    if (strcmp(path, "-") == 0)
        return read_stream(stdin, most, bytes);
    FILE *stream = fopen(path, "rb");
    if (stream == NULL)
        return FILE_FAILED;
    enum file_read read = read_stream(stream, most, bytes);
    int why = errno;
    fclose(stream);
    errno = why;
    return read;
}

bool stream_write(FILE *stream, const char *bytes, size_t len)
{
    return (len == 0 || fwrite(bytes, 1, len, stream) == len) && fflush(stream) == 0;
}

bool file_write(const char *path, const char *bytes, size_t len)
{
    FILE *stream = fopen(path, "wb");
    if (stream == NULL)
        return false;
    bool written = stream_write(stream, bytes, len);
    int why = errno;
    bool closed = fclose(stream) == 0;
    if (!written)
        errno = why;
    return written && closed;
}
