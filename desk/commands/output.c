#include "commands/output.h"

#include "base/file.h"
#include "day/read.h"

#include <errno.h>
#include <stdio.h>
#include <string.h>
#include <sys/stat.h>

/* Says what could not be written, by the last error. */
static void complain(const char *what)
{
    fprintf(stderr, "yinqocha: %s cannot be written: %s\n", what, strerror(errno));
}

bool output_write(struct text *text)
{
    bool written = stream_write(stdout, text_string(text), text->len);
    text_free(text);
    if (!written)
        complain("standard output");
    return written;
}

bool output_file(const char *path, const char *bytes, size_t len)
{
    bool written = file_write(path, bytes, len);
    if (!written)
        complain(path);
    return written;
}

void output_messages(const struct messages *messages)
{
    struct text text = TEXT_EMPTY;
    messages_render(messages, &text);
    stream_write(stderr, text_string(&text), text.len);
    text_free(&text);
}

int output_bad_input(const struct options *options, const char *file,
                     const struct messages *messages)
{
    struct text text = TEXT_EMPTY;
    if (options->form == FORM_JSON)
        json_messages(file, messages, &text);
    else if (options->form == FORM_LINES)
        lines_messages(messages, &text);
    output_write(&text);
    output_messages(messages);
    return STATUS_BAD;
}

/* Whether the library reads the bytes as a sheet. */
static bool is_sheet(const struct text *bytes)
{
    struct messages messages = MESSAGES_NONE;
    struct day *day = day_new();
    enum day_read read =
        day_read_bytes(".sheet", bytes->bytes, bytes->len, DAY_WHOLE, day, &messages);
    day_free(day);
    messages_free(&messages);
    return read == DAY_READ;
}

/* Whether the bytes at the front of a file are those of a product. */
static bool is_product(const char *path, enum product product)
{
    struct text bytes = TEXT_EMPTY, page = TEXT_EMPTY;
    enum file_read read = file_read(path, YINQOCHA_MAX_SHEET_BYTES, &bytes);
    bool same = read != FILE_FAILED;
    if (same && bytes.len > 0 && product == PRODUCT_SHEET)
        same = is_sheet(&bytes);
    if (same && bytes.len > 0 && product == PRODUCT_PAGE) {
        html_begin("", &page);
        size_t front = strcspn(text_string(&page), "\n");
        same = bytes.len >= front && memcmp(bytes.bytes, text_string(&page), front) == 0;
    }
    text_free(&page);
    text_free(&bytes);
    return same;
}

static bool is_read(const struct stat *to, const struct options *options)
{
    struct stat from;
    for (size_t n = 0; n < options->count; n++)
        if (strcmp(options->files[n], "-") != 0 && stat(options->files[n], &from) == 0
            && from.st_dev == to->st_dev && from.st_ino == to->st_ino)
            return true;
    return false;
}

bool output_allowed(const char *path, enum product product, const struct options *options)
{
    struct stat to;
    if (stat(path, &to) != 0 || !S_ISREG(to.st_mode))
        return true;
    if (is_read(&to, options)) {
        fprintf(stderr, "yinqocha: %s is read, and is not written over\n", path);
        return false;
    }
    if (!is_product(path, product)) {
        fprintf(stderr, "yinqocha: %s is there already, is no %s, and is not written over\n", path,
                product == PRODUCT_PAGE ? "page of HTML" : "sheet");
        return false;
    }
    return true;
}
