/*
 * strict_json.h - whether some bytes are JSON
 *
 *     json_strict      one value (RFC 8259) on one line, no member twice in an object; the strings
 *                      of all members `name` are collected in order
 */

#ifndef DAMAGED_STRICT_JSON_H
#define DAMAGED_STRICT_JSON_H

#include "base/number.h"
#include "base/text.h"
#include "base/utf8.h"

#include <string.h>

/* A place in JSON; `names` has the strings of the members `name`, a 0 behind each. */
struct json {
    const char *at, *end;
    struct text *names;
    unsigned depth;
};

static inline bool json_value(struct json *json);

static inline bool json_byte(struct json *json, char byte)
{
    if (json->at == json->end || *json->at != byte)
        return false;
    json->at++;
    return true;
}

static inline bool json_word(struct json *json, const char *word)
{
    size_t len = strlen(word);
    if ((size_t)(json->end - json->at) < len || memcmp(json->at, word, len) != 0)
        return false;
    json->at += len;
    return true;
}

/* A number without a sign, a fraction or an exponent: the desk has no others. */
static inline bool json_number(struct json *json)
{
    const char *from = json->at;
    while (json->at < json->end && is_digit(*json->at))
        json->at++;
    return json->at > from && (*from != '0' || json->at == from + 1);
}

/* Adds a character below U+10000 that is no half of a pair. */
static inline bool add_point(unsigned point, struct text *value)
{
    if (point >= 0xD800 && point < 0xE000)
        return false;
    if (point >= 0x800)
        text_byte(value, (char)(0xE0 | point >> 12));
    if (point >= 0x80)
        text_byte(value, (char)(point >= 0x800 ? 0x80 | (point >> 6 & 0x3F) : 0xC0 | point >> 6));
    text_byte(value, (char)(point >= 0x80 ? 0x80 | (point & 0x3F) : point));
    return true;
}

/* The four digits behind \u. */
static inline bool json_hex(struct json *json, struct text *value)
{
    if (json->end - json->at < 4)
        return false;
    unsigned point = 0;
    for (int n = 0; n < 4; n++, json->at++) {
        const char *digits = "0123456789abcdef", *found = strchr(digits, *json->at);
        if (*json->at == '\0' || found == NULL)
            return false;
        point = 16 * point + (unsigned)(found - digits);
    }
    return add_point(point, value);
}

static inline bool json_escape(struct json *json, struct text *value)
{
    static const char letters[] = "\"\\/bfnrt", meant[] = "\"\\/\b\f\n\r\t";
    if (json->at == json->end || *json->at == '\0')
        return false;
    char letter = *json->at++;
    if (letter == 'u')
        return json_hex(json, value);
    const char *found = strchr(letters, letter);
    if (found == NULL)
        return false;
    text_byte(value, meant[found - letters]);
    return true;
}

static inline bool json_string_value(struct json *json, struct text *value)
{
    if (!json_byte(json, '"'))
        return false;
    while (json->at < json->end && *json->at != '"') {
        uint32_t point;
        size_t step = utf8_next(json->at, (size_t)(json->end - json->at), &point);
        if (step == 0 || point < 0x20)
            return false;
        if (point == '\\') {
            json->at++;
            if (!json_escape(json, value))
                return false;
        } else {
            text_add(value, json->at, step);
            json->at += step;
        }
    }
    return json_byte(json, '"');
}

/* A member; its key is added to `keys`, where it must not stand already. */
static inline bool json_member(struct json *json, struct text *keys)
{
    struct text key = TEXT_EMPTY;
    text_byte(&key, '\1');
    bool good = json_string_value(json, &key) && json_byte(json, ':');
    bool name = good && strcmp(key.bytes, "\1name") == 0;
    text_byte(&key, '\1');
    good = good && strstr(text_string(keys), key.bytes) == NULL;
    text_add(keys, key.bytes, key.len);
    text_free(&key);
    if (good && name && json->at < json->end && *json->at == '"') {
        good = json_string_value(json, json->names);
        text_byte(json->names, '\0');
        return good;
    }
    return good && json_value(json);
}

static inline bool json_object(struct json *json)
{
    struct text keys = TEXT_EMPTY;
    bool good = json_byte(json, '{');
    if (good && !json_byte(json, '}')) {
        do
            good = json_member(json, &keys);
        while (good && json_byte(json, ','));
        good = good && json_byte(json, '}');
    }
    text_free(&keys);
    return good;
}

static inline bool json_array(struct json *json)
{
    if (!json_byte(json, '['))
        return false;
    if (json_byte(json, ']'))
        return true;
    do {
        if (!json_value(json))
            return false;
    } while (json_byte(json, ','));
    return json_byte(json, ']');
}

static inline bool json_value(struct json *json)
{
    if (json->at == json->end || json->depth == 16)
        return false;
    json->depth++;
    bool good;
    struct text value = TEXT_EMPTY;
    switch (*json->at) {
    case '{':
        good = json_object(json);
        break;
    case '[':
        good = json_array(json);
        break;
    case '"':
        good = json_string_value(json, &value);
        break;
    default:
        good = json_word(json, "null") || json_word(json, "true") || json_word(json, "false") ||
               json_number(json);
    }
    text_free(&value);
    json->depth--;
    return good;
}

static inline bool json_strict(const struct text *text, struct text *names)
{
    struct json json = { text->bytes, text->bytes + text->len, names, 0 };
    return text->len > 0 && json_value(&json) && json_byte(&json, '\n') && json.at == json.end;
}

#endif
