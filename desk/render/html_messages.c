#include "base/utf8.h"
#include "render/html.h"
#include "render/svg.h"

#include <string.h>

/* The most columns of a message's file and words on paper. */
#define MESSAGE_FILE 100
#define MESSAGE_WORDS 300

static void message(const struct message *message, const char *class, struct text *text)
{
    struct text said = TEXT_EMPTY;
    text_put(&said, message->words);
    if (message->fault > 0)
        text_format(&said, " (fault %u, place %u)", message->fault, message->place);
    text_format(text, "<li%s><b>", class);
    html_words(message->file, strlen(message->file), MESSAGE_FILE, text);
    if (message->line > 0)
        text_format(text, ":%zu", message->line);
    if (message->line > 0 && message->column > 0)
        text_format(text, ":%zu", message->column);
    text_put(text, "</b> ");
    html_words(text_string(&said), said.len, MESSAGE_WORDS, text);
    text_put(text, "</li>\n");
    text_free(&said);
}

/* The lines that a message takes on paper, about, in letters of so many tenths of a point. */
static size_t message_lines(const struct message *message, int size)
{
    const int line = 5050; /* tenths of a point */
    const char place[] = "1000:1000 (fault 10, place 1000)";
    size_t file = utf8_fit(message->file, strlen(message->file), MESSAGE_FILE);
    size_t said = utf8_fit(message->words, strlen(message->words), MESSAGE_WORDS);
    int width = words_width(message->file, file, size) + words_width(message->words, said, size)
                + words_width(place, strlen(place), size);
    return (size_t)(width * 9 / 10 / line) + 1;
}

/* How many messages fit so many lines. */
static size_t messages_fit(const struct messages *messages, int size, size_t lines)
{
    size_t count = 0, taken = 0;
    while (count < messages->count) {
        taken += message_lines(&messages->all[count], size);
        if (taken > lines)
            break;
        count++;
    }
    return count;
}

void html_messages(const struct messages *messages, struct text *text)
{
    bool many = messages_fit(messages, 90, 44) < messages->count;
    size_t shown = many ? messages_fit(messages, 70, 74) : messages->count;
    text_format(text, "<ul class=\"%s\">\n", many ? "wrong many" : "wrong");
    for (size_t n = 0; n < messages->count; n++)
        message(&messages->all[n], n < shown ? "" : " class=\"rest\"", text);
    text_put(text, "</ul>\n");
    if (messages->left_out > 0)
        text_format(text, "<p%s>and %zu more of these</p>\n",
                    shown < messages->count ? " class=\"rest\"" : "", messages->left_out);
    if (shown < messages->count)
        text_format(text, "<p class=\"cut\">and %zu more of these</p>\n",
                    messages->count - shown + messages->left_out);
}
