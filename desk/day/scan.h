/*
 * scan.h - lines of text and what stands in them, each with its place
 *
 * A blank is a space or a tab. A piece is a word, which ends at a blank, or an item of a list,
 * which ends at a comma and may have blanks inside. A piece may be in double quotes, where blanks,
 * commas and # stand for themselves and a quote is doubled.
 */

#ifndef DESK_SCAN_H
#define DESK_SCAN_H

#include "day/benches.h"

/* Bytes that are read from front to back; `spot` is the place of the next one. */
struct scan {
    const char *bytes;
    size_t len, at;
    struct spot spot;
};

struct scan scan_of(const char *bytes, size_t len, struct spot spot);

/* Goes on to a later byte. */
void scan_to(struct scan *scan, size_t at);

/* Passes over blanks; true if nothing is left then. */
bool scan_done(struct scan *scan);

/* Whether a word stands next, without quotes. */
bool scan_begins(const struct scan *scan, const char *word);

/* A piece without its quotes. `spot` is that of its first character inside of the quotes. */
struct piece {
    struct text value;
    struct spot spot;
    bool quoted;
};

#define PIECE_EMPTY { TEXT_EMPTY, { NULL, 0, 0 }, false }

enum scanned {
    SCANNED_PIECE,
    SCANNED_NONE, /* there is nothing before the next comma or the end */
    SCANNED_BAD   /* a quote is out of place, which has a message */
};

/* The next piece in place of the one before. The scan is behind it then: at a blank or the end of
 * all after a word, at a comma or the end of all after an item. */
enum scanned scan_word(struct scan *scan, struct piece *piece, struct messages *messages);
enum scanned scan_item(struct scan *scan, struct piece *piece, struct messages *messages);

/* The lines of a file. */
struct lines {
    const char *file, *bytes;
    size_t len, at, line;
};

/* The lines of some bytes; a byte order mark in front is passed over. */
struct lines lines_of(const char *file, const char *bytes, size_t len);

/* The next line that has anything in it, without its comment and its line end. `clean` is false if
 * it has a character that no text has, or a quote that is not closed; either has a message. False
 * behind the last line. */
bool lines_next(struct lines *lines, struct scan *scan, bool *clean, struct messages *messages);

/* How many bytes of a byte order mark stand in front: 3 or 0. */
size_t byte_order_mark(const char *bytes, size_t len);

/* Whether the first thing in a file of text is a comment, so that it is no table; a # with a
 * separator behind it is a column of one. */
bool begins_with_comment(const char *bytes, size_t len);

/* Whether bytes begin as text in UTF-16 does. Such a file has bytes of 0 and is taken for a sheet,
 * which may begin so too. */
bool is_wide(const char *bytes, size_t len);

/* Where bytes that have something else than text in them were to be a file of text, a message for
 * the whole of it: a byte of 0 is in no text. `hint` is what to save it as. */
bool no_zero_check(const char *file, const char *bytes, size_t len, const char *hint,
                struct messages *messages);

/* Takes the blanks at both ends off. */
void trim_blanks(const char **bytes, size_t *len, struct spot *spot);

bool is_blank(char byte);

/* Whether bytes are a string of ASCII, in letters of either case. */
bool same_letters(const char *bytes, size_t len, const char *string);

/* The front of some bytes, fit to be shown: at most 40 characters, with a ? for each that cannot be
 * printed. And the same in quotes. */
void front_of(const char *bytes, size_t len, struct text *text);
void excerpt(const char *bytes, size_t len, struct text *text);

/* Adds a message: an excerpt of the bytes, and the words right behind it. */
#if defined(__GNUC__)
__attribute__((format(printf, 5, 6), nonnull(5)))
#endif
void complain(struct messages *messages, struct spot spot, const char *bytes, size_t len,
              const char *format, ...);

/* Reads all of the bytes as a number up to `most`; false with a message that says of what it is a
 * number, such as "minutes". */
bool number_scan(const char *bytes, size_t len, const char *what, uint64_t most, struct spot spot,
                 uint64_t *value, struct messages *messages);

/* The same for a piece; one in quotes is no number. */
bool number_piece(const struct piece *piece, const char *what, uint64_t most, uint64_t *value,
                  struct messages *messages);

/* One bench out of a word; one in quotes is a name. False with a message where it is none. */
bool bench_piece(const struct day *day, const struct piece *piece, uint64_t *bench,
                 struct messages *messages);

/* Adds a message about the first character of some bytes, which may not stand "here" or where. */
void bad_character(struct messages *messages, struct spot spot, const char *bytes, size_t len,
                   const char *where);

#endif
