/*
 * pages.h - pages by what must and must not stand in them
 */

#ifndef PAGES_H
#define PAGES_H

#include "forms/made.h"

/* A page that is well-formed, has all names escaped and nothing from elsewhere. */
static void page_of(const struct report *report, struct text *text)
{
    html_begin("A <title> & \"more\"", text);
    html_report(report, text);
    html_end(text);
    checks++;
    if (!utf8_strict(text->bytes, text->len) || !html_strict(text))
        fail("a page", text_string(text), "strict HTML in UTF-8");
    expect_has("the title", text, "<title>A &lt;title&gt; &amp; &quot;more&quot;</title>");
    expect_has("the file on a page", text, "<h1>" FILE_HTML " <b>");
    expect_lacks("a name on a page", text, "</script>");
    expect_lacks("a name on a page", text, "Rig \"3");
    expect_lacks("a name on a page", text, "<b>&");
    expect_lacks("something from elsewhere on a page", text, "://");
    expect_lacks("something from elsewhere on a page", text, "src=");
    expect_lacks("something from elsewhere on a page", text, "@import");
    for (const char *at = text->bytes; (at = strstr(at, "url(")) != NULL; at += 4)
        if (at[4] != '#')
            fail("something from elsewhere on a page", at, "url(#");
}

static size_t count_of(const char *part, const struct text *text)
{
    size_t count = 0;
    for (const char *at = text_string(text); (at = strstr(at, part)) != NULL; at++)
        count++;
    return count;
}

static void pages(const struct day *day)
{
    struct text text = TEXT_EMPTY;
    struct messages messages = MESSAGES_NONE;
    page_of(&(struct report){ day, &planned, NULL, NULL }, &text);
    expect_has("a plan's page", &text, "<title>=1+1, 300 minutes, heavy</title>");
    expect_has("a plan's page", &text, "<title>a,b \\ &#39;c&#39;, 95 minutes</title>");
    expect_has("a plan's page", &text, "<tspan>&lt;/script&gt;\xC3\xA9</tspan> 0");
    expect_has("a plan's page", &text, "<title>" RIG_HTML "</title>");
    expect_has("a plan's page", &text, "300 fullest");
    expect_has("a plan's page", &text, ">target 480<");
    expect_has("a plan's page", &text, ">bound 891<");
    text_free(&text);
    page_of(&(struct report){ day, &refused, &weighed, NULL }, &text);
    expect_has("the page of none", &text, "2 \xC3\x97 480 = 960");
    expect_has("the page of none", &text, "95 too many");
    expect_has("the page of none", &text,
               "<g class=\"marked\"><title>" RIG_HTML ", 60 minutes booked</title>");
    expect_has("the page of none", &text,
               "<g class=\"free\"><title>bench 2, 0 minutes booked</title>");
    text_free(&text);
    page_of(&(struct report){ day, &refused, &crowded, NULL }, &text);
    expect_has("the page of a crowd", &text, ">2 heavy jobs<");
    expect_has("the page of a crowd", &text, ">1 bench between them<");
    text_free(&text);
    page_of(&(struct report){ day, &too_long, NULL, NULL }, &text);
    expect_has("the page of long", &text, "100 too long");
    text_free(&text);
    message_add(&messages, FILE_NAME, 7, 2, "no <b>& such");
    page_of(&(struct report){ day, NULL, NULL, &messages }, &text);
    expect_has("the page of an error", &text,
               "<li><b>" FILE_HTML ":7:2</b> no &lt;b&gt;&amp; such</li>");
    messages_free(&messages);
    text_free(&text);
}

/* The height of the picture for paper, in its units, of which a sheet has room for a thousand. */
static unsigned long paper_height(const struct text *text)
{
    static const char front[] = "<svg class=\"wide\" viewBox=\"0 0 800 ";
    const char *at = strstr(text_string(text), front);
    unsigned long height = 0;
    for (at += at != NULL ? sizeof front - 1 : 0; at != NULL && is_digit(*at); at++)
        height = 10 * height + (unsigned long)(*at - '0');
    return height;
}

/* A full day, with names as long as they may be: every job is there in both pictures, and the one
 * for paper fits a sheet. */
static void full_page(void)
{
    static struct outcome outcome = { .answer = ANSWER_PLAN, .target = 480 };
    struct day *day = day_new();
    struct text text = TEXT_EMPTY;
    char name[DAY_MOST_NAME + 1];
    day->file_names[0] = copy(FILE_NAME);
    day->files = 1;
    day->contents = (struct yinqocha_contents){ .benches = 64, .p = 4, .q = 7, .target = 480 };
    for (size_t job = 0; job < YINQOCHA_MAX_JOBS; job++) {
        snprintf(name, sizeof name, "%03zu%0252d", job, 0);
        for (size_t at = 3; at < DAY_MOST_NAME; at++)
            name[at] = job % 2 == 0 ? 'W' : "\xC3\xA9"[(at - 3) % 2];
        day->job[job].name = copy(name);
        day->contents.jobs[job] = (struct yinqocha_job){ 100, YINQOCHA_BENCH(job / 8) };
        outcome.places[job] = job / 8;
        outcome.loads[job / 8] = 800;
        if (job % 8 == 0)
            day->bench_names[job / 8] = copy(name);
    }
    day->jobs = YINQOCHA_MAX_JOBS;
    outcome.largest = 800;
    page_of(&(struct report){ day, &outcome, NULL, NULL }, &text);
    if (count_of("<tspan>", &text) != 2 * YINQOCHA_MAX_JOBS)
        fail("a full day's page", "lists without some job", "every job in both lists");
    if (paper_height(&text) == 0 || paper_height(&text) > 1000)
        fail("a full day's page", "a picture that is higher than a sheet", "one that fits it");
    checks += 2;
    text_free(&text);
    day_free(day);
}

#endif
