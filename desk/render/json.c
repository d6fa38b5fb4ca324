#include "render/json.h"
#include "base/utf8.h"

#include <inttypes.h>
#include <string.h>

static void escape(uint32_t point, const char *bytes, size_t len, struct text *text)
{
    static const char short_forms[] = "\"\"\\\\\bb\ff\nn\rr\tt";
    for (size_t at = 0; at + 1 < sizeof short_forms; at += 2)
        if (point == (unsigned char)short_forms[at]) {
            text_format(text, "\\%c", short_forms[at + 1]);
            return;
        }
    if (point < 0x20 || point == 0x7F || point == 0x2028 || point == 0x2029)
        text_format(text, "\\u%04" PRIx32, point);
    else
        text_add(text, bytes, len);
}

void json_string(const char *bytes, size_t len, struct text *text)
{
    text_byte(text, '"');
    for (size_t at = 0; at < len;) {
        uint32_t point;
        size_t step = utf8_next(bytes + at, len - at, &point);
        if (step > 0)
            escape(point, bytes + at, step, text);
        else
            text_put(text, "\xEF\xBF\xBD");
        at += step > 0 ? step : 1;
    }
    text_byte(text, '"');
}

void json_begin(const char *file, struct text *text)
{
    text_put(text, "{\"day\":");
    json_string(file, strlen(file), text);
}

void json_end(struct text *text)
{
    text_put(text, "}\n");
}

void json_key(const char *key, struct text *text)
{
    text_format(text, ",\"%s\":", key);
}

void json_number(const char *key, uint64_t value, struct text *text)
{
    text_format(text, ",\"%s\":%" PRIu64, key, value);
}

void json_word(const char *key, const char *value, struct text *text)
{
    json_key(key, text);
    json_string(value, strlen(value), text);
}

void json_benches(const char *key, uint64_t set, struct text *text)
{
    json_key(key, text);
    text_byte(text, '[');
    size_t count = 0;
    for (unsigned bench = 0; bench < YINQOCHA_MAX_BENCHES; bench++)
        if (YINQOCHA_HAS_BENCH(set, bench)) {
            json_comma(count++, text);
            text_format(text, "%u", bench);
        }
    text_byte(text, ']');
}

void json_name(const char *name, struct text *text)
{
    if (name != NULL)
        json_string(name, strlen(name), text);
    else
        text_put(text, "null");
}

void json_comma(size_t before, struct text *text)
{
    if (before > 0)
        text_byte(text, ',');
}

void json_share(const struct day *day, struct text *text)
{
    text_format(text, ",\"share\":{\"p\":%" PRIu64 ",\"q\":%" PRIu64 "}", day->contents.p,
                day->contents.q);
}

void json_fault(uint32_t fault, uint32_t place, struct text *text)
{
    json_word("answer", "fault", text);
    json_number("fault", fault, text);
    json_number("place", place, text);
}

void json_job(const struct day *day, size_t job, struct text *text)
{
    text_format(text, "{\"job\":%zu,\"name\":", job);
    json_name(day->job[job].name, text);
    json_number("minutes", day->contents.jobs[job].minutes, text);
    json_benches("allowed", day->contents.jobs[job].allowed, text);
}
