/*
 * html.h - what pages are made of
 */

#ifndef DESK_HTML_H
#define DESK_HTML_H

#include "render/render.h"

/* The style, for the head of a page. */
void html_style(struct text *text);

/* The patterns with which its pictures are filled, for the front of its body. */
void html_patterns(struct text *text);

/* Words of which paper shows so many columns at most; the screen shows all. */
void html_words(const char *bytes, size_t len, size_t columns, struct text *text);

/* All that is wrong with a day. On paper a long list is in smaller letters, and the end of one that
 * is longer than a sheet is counted only. */
void html_messages(const struct messages *messages, struct text *text);

#endif
