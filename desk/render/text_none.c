#include "render/layout.h"

#include <inttypes.h>
#include <string.h>

#define INDENT 4
#define TIMES "\xC3\x97"
#define LINE "\xE2\x94\x80"

/* A column of figures: words of one width, numbers of another. */
struct figures {
    size_t words, digits;
    struct text *text;
};

static void put_figure(const struct figures *figures, const char *words, uint64_t number)
{
    text_repeat(figures->text, " ", INDENT);
    put_padded(words, strlen(words), figures->words, figures->text);
    text_format(figures->text, "  %*" PRIu64 "\n", (int)figures->digits, number);
}

/* What must lie on the set against k * T. */
static void put_figures(const struct day *day, const struct reason *reason, struct screen screen,
                        struct text *text)
{
    static const char light[] = "light jobs with no bench elsewhere";
    struct figures figures = { strlen(light), digits_of(reason->weight), text };
    if (INDENT + figures.words + 2 + figures.digits > screen.columns)
        figures.words = screen.columns - INDENT - 2 - figures.digits;
    struct text capacity = TEXT_EMPTY;
    text_format(&capacity, "%u " TIMES " %" PRIu64, reason->count, day->contents.target);
    put_figure(&figures, "booked", reason->booked);
    put_figure(&figures, light, reason->light.minutes);
    put_figure(&figures, "heavy jobs, at least", reason->heavy);
    text_repeat(text, " ", INDENT + figures.words + 2);
    text_repeat(text, LINE, figures.digits);
    text_byte(text, '\n');
    put_figure(&figures, "together, at least", reason->weight);
    put_figure(&figures, text_string(&capacity), reason->capacity);
    put_figure(&figures, "too much by", reason->weight - reason->capacity);
    text_free(&capacity);
}

/* Wrapped words in red, each line by itself. */
static void put_red(const char *words, size_t len, struct screen screen, struct text *text)
{
    struct text lines = TEXT_EMPTY;
    put_wrapped(words, len, 0, screen, &lines);
    for (const char *at = text_string(&lines); *at != '\0';) {
        size_t line = strcspn(at, "\n");
        colour_begin(screen, COLOUR_RED, text);
        text_add(text, at, line);
        colour_end(screen, text);
        text_byte(text, '\n');
        at += line + (at[line] == '\n');
    }
    text_free(&lines);
}

/* The first of the paragraphs names the benches of the set, or the jobs that cannot be placed. */
void text_reason(const struct day *day, const struct reason *reason, struct screen screen,
                 struct text *text)
{
    struct text words = TEXT_EMPTY;
    reason_parts(day, reason, &words);
    if (reason->placement)
        put_red(text_string(&words), strcspn(text_string(&words), "\n"), screen, text);
    put_paragraphs(&words, reason->placement ? 1 : 0, reason->placement, screen, text);
    text_free(&words);
    if (reason->placement) {
        text_byte(text, '\n');
        put_figures(day, reason, screen, text);
    }
}
