#include "base/text.h"

#include <stdint.h>
#include <stdio.h>
#include <stdlib.h>
#include <string.h>

static void no_memory(void)
{
    fputs("yinqocha: there is not enough memory\n", stderr);
    exit(2);
}

void *memory_new(size_t count, size_t size)
{
    void *memory = calloc(count > 0 ? count : 1, size > 0 ? size : 1);
    if (memory == NULL)
        no_memory();
    return memory;
}

void *memory_resize(void *memory, size_t count, size_t size)
{
    if (size > 0 && count > SIZE_MAX / size)
        no_memory();
    size_t bytes = count * size;
    void *resized = realloc(memory, bytes > 0 ? bytes : 1);
    if (resized == NULL)
        no_memory();
    return resized;
}

char *memory_string(const char *bytes, size_t len)
{
    char *string = memory_new(len + 1, 1);
    if (len > 0)
        memcpy(string, bytes, len);
    return string;
}

/* Makes room for `more` bytes and the 0 behind them. */
static void make_room(struct text *text, size_t more)
{
    if (more > SIZE_MAX / 4 - text->len)
        no_memory();
    size_t needed = text->len + more + 1;
    if (needed <= text->room)
        return;
    size_t room = text->room > 64 ? text->room : 64;
    while (room < needed)
        room *= 2;
    text->bytes = memory_resize(text->bytes, room, 1);
    text->room = room;
}

void text_add(struct text *text, const char *bytes, size_t len)
{
    make_room(text, len);
    if (len > 0)
        memcpy(text->bytes + text->len, bytes, len);
    text->len += len;
    text->bytes[text->len] = '\0';
}

void text_put(struct text *text, const char *string)
{
    text_add(text, string, strlen(string));
}

void text_byte(struct text *text, char byte)
{
    text_add(text, &byte, 1);
}

void text_repeat(struct text *text, const char *string, size_t times)
{
    for (size_t n = 0; n < times; n++)
        text_put(text, string);
}

void text_arguments(struct text *text, const char *format, va_list arguments)
{
    va_list again;
    va_copy(again, arguments);
    int len = vsnprintf(NULL, 0, format, again);
    va_end(again);
    if (len < 0)
        no_memory();
    make_room(text, (size_t)len);
    vsnprintf(text->bytes + text->len, (size_t)len + 1, format, arguments);
    text->len += (size_t)len;
}

void text_format(struct text *text, const char *format, ...)
{
    va_list arguments;
    va_start(arguments, format);
    text_arguments(text, format, arguments);
    va_end(arguments);
}

const char *text_string(const struct text *text)
{
    return text->bytes != NULL ? text->bytes : "";
}

void text_free(struct text *text)
{
    free(text->bytes);
    *text = (struct text)TEXT_EMPTY;
}
