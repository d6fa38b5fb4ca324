/*
 * json.h - the parts of which objects in JSON are made
 *
 * An object begins with its day, and each other field stands behind a comma; the functions below
 * put that comma in front of a field.
 */

#ifndef DESK_JSON_H
#define DESK_JSON_H

#include "render/render.h"

/* An object on a line of its own. */
void json_begin(const char *file, struct text *text);
void json_end(struct text *text);

/* A field whose value follows, and fields with a value. */
void json_key(const char *key, struct text *text);
void json_number(const char *key, uint64_t value, struct text *text);
void json_word(const char *key, const char *value, struct text *text);
void json_benches(const char *key, uint64_t set, struct text *text);

/* A string, or null for NULL. */
void json_name(const char *name, struct text *text);

/* The comma in front of an element of an array that has so many before it. */
void json_comma(size_t before, struct text *text);

void json_share(const struct day *day, struct text *text);

/* The answer "fault" with number and place. */
void json_fault(uint32_t fault, uint32_t place, struct text *text);

/* What a day says of a job, without the closing brace. */
void json_job(const struct day *day, size_t job, struct text *text);

#endif
