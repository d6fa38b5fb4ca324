#include "base/messages.h"

#include "base/utf8.h"

#include <stdlib.h>
#include <string.h>

bool messages_full(struct messages *messages)
{
    if (messages->count < MESSAGES_MOST)
        return false;
    messages->left_out++;
    return true;
}

size_t messages_told(const struct messages *messages)
{
    return messages->count + messages->left_out;
}

/* Adds a message that lacks its words and the file's name. */
static void add(struct messages *messages, const char *file, struct message message,
                const char *format, va_list arguments)
{
    struct text words = TEXT_EMPTY;
    text_arguments(&words, format, arguments);
    message.words = words.bytes;
    if (messages->count == messages->room) {
        messages->room = messages->room > 0 ? 2 * messages->room : 8;
        messages->all = memory_resize(messages->all, messages->room, sizeof *messages->all);
    }
    message.file = memory_string(file, strlen(file));
    messages->all[messages->count++] = message;
}

void message_add(struct messages *messages, const char *file, size_t line, size_t column,
                 const char *format, ...)
{
    if (messages_full(messages))
        return;
    va_list arguments;
    va_start(arguments, format);
    add(messages, file, (struct message){ NULL, line, column, 0, 0, NULL }, format, arguments);
    va_end(arguments);
}

void message_fault(struct messages *messages, const char *file, size_t line, size_t column,
                   unsigned fault, unsigned place, const char *format, ...)
{
    if (messages_full(messages))
        return;
    va_list arguments;
    va_start(arguments, format);
    add(messages, file, (struct message){ NULL, line, column, fault, place, NULL }, format,
        arguments);
    va_end(arguments);
}

/* A string with a question mark for each character that is not for printing, for the name of a file
 * may have any. */
static void put_printable(const char *string, struct text *text)
{
    for (size_t at = 0, len = strlen(string); at < len;)
        at += utf8_put(string + at, len - at, text);
}

static void render(const struct message *message, struct text *text)
{
    put_printable(message->file, text);
    if (message->line > 0)
        text_format(text, ":%zu", message->line);
    if (message->line > 0 && message->column > 0)
        text_format(text, ":%zu", message->column);
    text_put(text, ": ");
    put_printable(message->words, text);
    if (message->fault > 0)
        text_format(text, " (fault %u, place %u)", message->fault, message->place);
    text_byte(text, '\n');
}

void messages_render(const struct messages *messages, struct text *text)
{
    for (size_t n = 0; n < messages->count; n++)
        render(&messages->all[n], text);
    if (messages->left_out > 0)
        text_format(text, "and %zu more of these\n", messages->left_out);
}

void messages_free(struct messages *messages)
{
    for (size_t n = 0; n < messages->count; n++) {
        free(messages->all[n].file);
        free(messages->all[n].words);
    }
    free(messages->all);
    *messages = (struct messages)MESSAGES_NONE;
}
