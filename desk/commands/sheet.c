#include "commands/output.h"

#include "day/read.h"

#include <stdio.h>
#include <string.h>
#include <unistd.h>

/* Writes the bytes of the sheet to the file that was asked for, or to standard output. */
static bool write_sheet(const struct day *day, const char *path)
{
    if (path != NULL)
        return output_file(path, (const char *)day->sheet, day->sheet_len);
    struct text bytes = TEXT_EMPTY;
    text_add(&bytes, (const char *)day->sheet, day->sheet_len);
    return output_write(&bytes);
}

int command_sheet(const struct options *options)
{
    const char *path = options->output;
    if (path != NULL && strcmp(path, "-") == 0)
        path = NULL;
    if (path == NULL && isatty(STDOUT_FILENO)) {
        fputs("yinqocha sheet: a sheet is bytes, not text, and is not written to a terminal: give "
              "a file with -o\n", stderr);
        return STATUS_USAGE;
    }
    if (path != NULL && !output_allowed(path, PRODUCT_SHEET, options))
        return STATUS_USAGE;
    struct day *day = day_new();
    struct messages messages = MESSAGES_NONE;
    int status = STATUS_GOOD;
    if (day_read(options->files[0], DAY_WHOLE, day, &messages) != DAY_READ)
        status = output_bad_input(options, day->file_names[0], &messages);
    else if (!write_sheet(day, path))
        status = STATUS_BAD;
    messages_free(&messages);
    day_free(day);
    return status;
}
