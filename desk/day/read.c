#include "day/read.h"

#include "base/file.h"
#include "day/parts.h"
#include "day/scan.h"

#include <errno.h>
#include <string.h>

/* Whether a file is a sheet: by its name or by a byte of 0. */
static bool is_sheet(const char *path, const char *bytes, size_t len)
{
    static const char ending[] = ".sheet";
    size_t path_len = strlen(path), ending_len = sizeof ending - 1;
    if (path_len >= ending_len && strcmp(path + path_len - ending_len, ending) == 0)
        return true;
    return len > 0 && memchr(bytes, '\0', len) != NULL;
}

static void name_day(const char *path, struct day *day)
{
    const char *shown = strcmp(path, "-") == 0 ? "standard input" : path;
    day->file_names[0] = memory_string(shown, strlen(shown));
    day->files = 1;
}

static enum day_read too_large(struct day *day, struct messages *messages)
{
    message_add(messages, day->file_names[0], 0, 0,
                "the file has more than 4 MiB (%zu bytes), which is the most that is read",
                DESK_MOST_BYTES);
    return DAY_BAD;
}

/* Whether a message stands before another in the order of the text: files in their order, then
 * lines and columns; what is about a whole file comes behind its lines. */
static bool stands_before(const struct day *day, const struct message *a, const struct message *b)
{
    size_t files[2] = { 0, 0 };
    while (files[0] < day->files && strcmp(day->file_names[files[0]], a->file) != 0)
        files[0]++;
    while (files[1] < day->files && strcmp(day->file_names[files[1]], b->file) != 0)
        files[1]++;
    if (files[0] != files[1])
        return files[0] < files[1];
    if (a->line != b->line)
        return b->line == 0 || (a->line > 0 && a->line < b->line);
    return a->column < b->column;
}

/* Puts the messages from one on in the order of the text. There are at most MESSAGES_MOST. */
static void sort_messages(const struct day *day, struct messages *messages, size_t from)
{
    for (size_t n = from; n < messages->count; n++) {
        struct message message = messages->all[n];
        size_t to = n;
        for (; to > from && stands_before(day, &message, &messages->all[to - 1]); to--)
            messages->all[to] = messages->all[to - 1];
        messages->all[to] = message;
    }
}

/* Reads bytes whose day has its file's name. */
static enum day_read read_named(const char *path, const char *bytes, size_t len,
                                enum day_parts parts, struct day *day, struct messages *messages)
{
    if (is_sheet(path, bytes, len))
        return day_read_sheet(bytes, len, day, messages);
    if (len > DESK_MOST_BYTES)
        return too_large(day, messages);
    size_t before = messages_told(messages), kept = messages->count;
    day_read_text(bytes, len, parts, day, messages);
    if (messages_told(messages) == before)
        return day_write_sheet(day, messages);
    day_judge_share(day, messages);
    sort_messages(day, messages, kept);
    return DAY_BAD;
}

enum day_read day_read_bytes(const char *path, const char *bytes, size_t len, enum day_parts parts,
                             struct day *day, struct messages *messages)
{
    name_day(path, day);
    return read_named(path, bytes, len, parts, day, messages);
}

enum day_read day_read(const char *path, enum day_parts parts, struct day *day,
                       struct messages *messages)
{
    struct text bytes = TEXT_EMPTY;
    enum day_read read = DAY_BAD;
    name_day(path, day);
    if (file_read(path, DESK_MOST_BYTES, &bytes) == FILE_FAILED)
        message_add(messages, day->file_names[0], 0, 0, "the file cannot be read: %s",
                    strerror(errno));
    else
        read = read_named(path, text_string(&bytes), bytes.len, parts, day, messages);
    text_free(&bytes);
    return read;
}
