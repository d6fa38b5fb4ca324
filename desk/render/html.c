#include "render/html.h"
#include "base/utf8.h"

#include <string.h>

void html_escape(const char *bytes, size_t len, struct text *text)
{
    for (size_t at = 0; at < len;) {
        uint32_t point;
        size_t step = utf8_next(bytes + at, len - at, &point);
        if (step == 0 || !utf8_printable(point))
            text_put(text, "\xEF\xBF\xBD");
        else if (point == '&')
            text_put(text, "&amp;");
        else if (point == '<')
            text_put(text, "&lt;");
        else if (point == '>')
            text_put(text, "&gt;");
        else if (point == '"')
            text_put(text, "&quot;");
        else if (point == '\'')
            text_put(text, "&#39;");
        else
            text_add(text, bytes + at, step);
        at += step > 0 ? step : 1;
    }
}

static void escape(const char *string, struct text *text)
{
    html_escape(string, strlen(string), text);
}

void html_begin(const char *title, struct text *text)
{
    text_put(text, "<!doctype html>\n"
                   "<html lang=\"en\">\n"
                   "<head>\n"
                   "<meta charset=\"utf-8\">\n"
                   "<meta name=\"viewport\" content=\"width=device-width, initial-scale=1\">\n"
                   "<meta http-equiv=\"Content-Security-Policy\" "
                   "content=\"default-src 'none'; style-src 'unsafe-inline'\">\n"
                   "<title>");
    escape(title, text);
    text_put(text, "</title>\n");
    html_style(text);
    text_put(text, "</head>\n<body>\n");
    html_patterns(text);
    text_put(text, "<main>\n");
}

void html_end(struct text *text)
{
    text_put(text, "</main>\n</body>\n</html>\n");
}

void html_words(const char *bytes, size_t len, size_t columns, struct text *text)
{
    size_t front = utf8_fit(bytes, len, columns);
    html_escape(bytes, front, text);
    if (front == len)
        return;
    text_put(text, "<span class=\"rest\">");
    html_escape(bytes + front, len - front, text);
    text_put(text, "</span><span class=\"cut\">\xE2\x80\xA6</span>");
}
