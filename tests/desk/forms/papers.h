/*
 * papers.h - checks and comparisons in the forms for programs
 */

#ifndef PAPERS_H
#define PAPERS_H

#include "forms/made.h"

/* A check in all three forms. */
static void check(const struct day *day, struct checked checked, const char *json, const char *csv,
                  const char *line)
{
    struct check_report report = { .day = day, .checked = &checked };
    struct text text = TEXT_EMPTY, wanted = TEXT_EMPTY;
    json_check(&report, &text);
    text_format(&wanted, "{\"day\":" FILE_JSON ",%s}\n", json);
    expect_json("a check in JSON", &text, wanted.bytes);
    text_free(&wanted);
    csv_check(&report, &text);
    text_format(&wanted, "day,check,answer,largest,fullest,set,job,fault,place\n" FILE_CSV ",%s\n",
                csv);
    expect("a check in CSV", &text, wanted.bytes);
    text_free(&wanted);
    lines_check(&report, &text);
    expect("the line of a check", &text, line);
}

static void all_checks(const struct day *day)
{
    check(day, (struct checked){ .paper = PAPER_LIST, .verdict = VERDICT_PASSED, .largest = 450,
                                 .fullest = 2 },
          "\"check\":\"list\",\"answer\":\"passed\",\"largest\":450,\"fullest\":2",
          "list,passed,450,2,,,,", "passed 450 2\n");
    check(day, (struct checked){ .paper = PAPER_LIST, .verdict = VERDICT_NOT_PASSED },
          "\"check\":\"list\",\"answer\":\"not passed\"", "list,not passed,,,,,,",
          "not passed\n");
    check(day, (struct checked){ .paper = PAPER_SET, .verdict = VERDICT_PASSED },
          "\"check\":\"set\",\"answer\":\"passed\"", "set,passed,,,,,,", "passed\n");
    check(day, (struct checked){ .paper = PAPER_SET, .verdict = VERDICT_LONG, .job = 1 },
          "\"check\":\"set\",\"answer\":\"long\",\"job\":1", "set,long,,,,1,,", "long 1\n");
    check(day, (struct checked){ .paper = PAPER_PAGE, .verdict = VERDICT_PASSED },
          "\"check\":\"page\",\"answer\":\"passed\"", "page,passed,,,,,,", "passed\n");
    check(day, (struct checked){ .paper = PAPER_PAGE, .verdict = VERDICT_NOT_PASSED, .set = 3 },
          "\"check\":\"page\",\"answer\":\"not passed\",\"set\":3", "page,not passed,,,3,,,",
          "not passed 3\n");
}

/* A list that has too few places: the words of its fault are those of desk/ask. */
static void check_fault(const struct day *day)
{
    uint64_t places[] = { 0 };
    struct table list = { places, 1, 1 };
    struct checked checked = { .paper = PAPER_LIST, .verdict = VERDICT_FAULT, .fault = 16 };
    struct check_report report = { .day = day, .checked = &checked, .list = &list };
    struct text text = TEXT_EMPTY, message = TEXT_EMPTY, wanted = TEXT_EMPTY;
    fault_words(day, 16, 0, &list, NULL, &message);
    text_put(&wanted, "{\"day\":" FILE_JSON ",\"check\":\"list\",\"answer\":\"fault\","
                      "\"fault\":16,\"place\":0,\"message\":");
    json_string(text_string(&message), message.len, &wanted);
    text_put(&wanted, "}\n");
    json_check(&report, &text);
    expect_json("the fault of a check in JSON", &text, wanted.bytes);
    csv_check(&report, &text);
    expect_has("the fault of a check in CSV", &text, ",list,fault,,,,,16,0\n");
    text_free(&text);
    lines_check(&report, &text);
    expect("the line of a check's fault", &text, "fault 16 0\n");
    text_free(&message);
    text_free(&wanted);
}

static void compare(const struct day *day, struct compared compared, const uint64_t *second,
                    const char *json, const char *csv, const char *line)
{
    uint64_t first[] = { 0, 1, 2 }, other[] = { second[0], second[1], second[2] };
    struct table lists[] = { { first, 3, 3 }, { other, 3, 3 } };
    struct compare_report report = { day, &compared, &lists[0], &lists[1], "one", "two" };
    struct text text = TEXT_EMPTY;
    json_compare(&report, &text);
    expect_has("a comparison in JSON", &text, json);
    text_free(&text);
    csv_compare(&report, &text);
    expect("a comparison in CSV", &text, csv);
    lines_compare(&report, &text);
    expect("the line of a comparison", &text, line);
}

static void all_comparisons(const struct day *day)
{
    static const uint64_t same[] = { 0, 1, 2 }, other[] = { 1, 1, 0 };
    compare(day, (struct compared){ .comparison = COMPARISON_SAME }, same,
            "{\"day\":" FILE_JSON ",\"answer\":\"same\",\"jobs\":[]}\n",
            "day,answer,job,name,first,second\n" FILE_CSV ",same,,,,\n", "same\n");
    compare(day, (struct compared){ .comparison = COMPARISON_DIFFERENT }, other,
            "{\"day\":" FILE_JSON ",\"answer\":\"different\",\"jobs\":[0,2]}\n",
            "day,answer,job,name,first,second\n" FILE_CSV ",different,0,=1+1,0,1\n" FILE_CSV
            ",different,2,</script>\xC3\xA9,2,0\n", "different\n");
    compare(day, (struct compared){ COMPARISON_FAULT, 13, 1 }, other,
            "{\"day\":" FILE_JSON ",\"answer\":\"fault\",\"fault\":13,\"place\":1,\"message\":\"",
            "day,answer,job,name,first,second\n" FILE_CSV ",fault,,,,\n", "fault 13 1\n");
}

#endif
