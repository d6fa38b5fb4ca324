/*
 * The forms for programs and the page (desk/render) on answers made by hand, with names that are
 * meant to break out of quotes, cells and tags: JSON, CSV and lines against what they must be to
 * the byte, pages by what must and must not stand in them. Prints one line; exits 1 at the first
 * difference.
 */

#include "forms/made.h"
#include "forms/pages.h"
#include "forms/papers.h"

static void strings(void)
{
    static const struct {
        const char *bytes, *json, *html;
    } all[] = {
        { "", "\"\"", "" },
        { "a\"b\\c/d", "\"a\\\"b\\\\c/d\"", "a&quot;b\\c/d" },
        { "\b\f\n\r\t\x1F\x7F", "\"\\b\\f\\n\\r\\t\\u001f\\u007f\"", NULL },
        { "<b>&amp;'\"", "\"<b>&amp;'\\\"\"", "&lt;b&gt;&amp;amp;&#39;&quot;" },
        { "\xC3\xA9\xE6\xB0\xB4\xF0\x9F\x94\xA7", "\"\xC3\xA9\xE6\xB0\xB4\xF0\x9F\x94\xA7\"",
          "\xC3\xA9\xE6\xB0\xB4\xF0\x9F\x94\xA7" },
        { "\xE2\x80\xA8\xE2\x80\xA9", "\"\\u2028\\u2029\"", "\xEF\xBF\xBD\xEF\xBF\xBD" },
        { "a\xC3", "\"a\xEF\xBF\xBD\"", "a\xEF\xBF\xBD" },
        { "\xC0\xAF", "\"\xEF\xBF\xBD\xEF\xBF\xBD\"", "\xEF\xBF\xBD\xEF\xBF\xBD" },
        { "a\xE2\x80\xAE" "b", "\"a\xE2\x80\xAE" "b\"", "a\xEF\xBF\xBD" "b" },
    };
    for (size_t n = 0; n < sizeof all / sizeof *all; n++) {
        struct text text = TEXT_EMPTY;
        json_string(all[n].bytes, strlen(all[n].bytes), &text);
        expect("a string in JSON", &text, all[n].json);
        html_escape(all[n].bytes, strlen(all[n].bytes), &text);
        if (all[n].html != NULL)
            expect("text in HTML", &text, all[n].html);
        text_free(&text);
    }
}

/* What every answer of JSON has in front. */
#define HEAD(answer, target, bound) \
    "{\"day\":" FILE_JSON ",\"answer\":\"" answer "\",\"benches\":3,\"jobs\":3," \
    "\"share\":{\"p\":4,\"q\":7},\"target\":" target ",\"bound\":" bound

#define PLAN_TAIL \
    ",\"largest\":300,\"moves\":2,\"fullest\":0,\"loads\":[" \
    "{\"bench\":0,\"name\":\"North\",\"booked\":0,\"load\":300,\"jobs\":[0]}," \
    "{\"bench\":1,\"name\":" RIG_JSON ",\"booked\":60,\"load\":155,\"jobs\":[1]}," \
    "{\"bench\":2,\"name\":null,\"booked\":0,\"load\":0,\"jobs\":[2]}],\"places\":[" \
    "{\"job\":0,\"name\":\"=1+1\",\"minutes\":300,\"allowed\":[0,1],\"bench\":0}," \
    "{\"job\":1,\"name\":\"a,b \\\\ 'c'\",\"minutes\":95,\"allowed\":[0,1,2],\"bench\":1}," \
    "{\"job\":2,\"name\":\"</script>\xC3\xA9\",\"minutes\":0,\"allowed\":[2],\"bench\":2}]}\n"

static void plans(const struct day *day)
{
    struct text text = TEXT_EMPTY;
    struct report report = { day, &planned, NULL, NULL };
    json_report(&report, &text);
    expect_json("a plan in JSON", &text, HEAD("plan", "480", "891") PLAN_TAIL);
    lines_report(&report, &text);
    expect("the lines of a plan", &text, "plan 300 2 0\n0 0\n1 1\n2 2\n");
    csv_report_header(&text);
    csv_report(&report, &text);
    expect("a plan in CSV", &text,
           "day,answer,target,job,name,minutes,bench,bench_name\n"
           FILE_CSV ",plan,480,0,=1+1,300,0,North\n"
           FILE_CSV ",plan,480,1,\"a,b \\ 'c'\",95,1," RIG_CSV "\n"
           FILE_CSV ",plan,480,2,</script>\xC3\xA9,0,2,\n");
    struct outcome best = planned;
    best.best = true;
    best.target = 323;
    best.runs = 13;
    report.outcome = &best;
    json_report(&report, &text);
    expect_json("a best target in JSON", &text,
                "{\"day\":" FILE_JSON ",\"answer\":\"best\",\"benches\":3,\"jobs\":3,"
                "\"share\":{\"p\":4,\"q\":7},\"target\":323,\"runs\":13,\"bound\":599" PLAN_TAIL);
    lines_report(&report, &text);
    expect("the lines of a best target", &text, "best 323 13\nplan 300 2 0\n0 0\n1 1\n2 2\n");
    csv_report(&report, &text);
    expect_has("a best target in CSV", &text, ",best,323,2,</script>\xC3\xA9,0,2,\n");
    text_free(&text);
}

static void refusals(const struct day *day)
{
    struct text text = TEXT_EMPTY;
    struct report report = { day, &too_long, NULL, NULL };
    json_report(&report, &text);
    expect_json("long in JSON", &text,
                HEAD("long", "200", "371") ",\"job\":0,\"name\":\"=1+1\",\"minutes\":300}\n");
    csv_report(&report, &text);
    expect("long in CSV", &text, FILE_CSV ",long,200,0,=1+1,300,,\n");
    lines_report(&report, &text);
    expect("the line of long", &text, "long 0\n");
    report.outcome = &refused;
    report.reason = &weighed;
    json_report(&report, &text);
    expect_json("none in JSON", &text,
                HEAD("none", "480", "891") ",\"moves\":37,\"set\":[0,1],\"capacity\":960,"
                "\"booked\":60,\"light\":{\"minutes\":95,\"jobs\":[1]},\"heavy\":{\"inside\":[],"
                "\"shared\":[0],\"outside\":[],\"placement\":true,\"least\":900},"
                "\"weight\":1055}\n");
    csv_report(&report, &text);
    expect("none in CSV", &text,
           FILE_CSV ",none,480,,,,0,North\n" FILE_CSV ",none,480,,,,1," RIG_CSV "\n");
    lines_report(&report, &text);
    expect("the line of none", &text, "none 37 0 1\n");
    report.reason = &crowded;
    json_report(&report, &text);
    expect_json("none without a placement in JSON", &text,
                HEAD("none", "480", "891") ",\"moves\":37,\"set\":[0,1],\"capacity\":960,"
                "\"booked\":60,\"light\":{\"minutes\":0,\"jobs\":[]},\"heavy\":{\"inside\":[0,1],"
                "\"shared\":[],\"outside\":[],\"placement\":false,\"crowd\":[0,1],"
                "\"crowd_benches\":[0]},"
                "\"weight\":null}\n");
    report.outcome = &faulty;
    json_report(&report, &text);
    expect_json("a fault in JSON", &text,
                "{\"day\":" FILE_JSON ",\"answer\":\"fault\",\"fault\":6,\"place\":24,"
                "\"errors\":[],\"left_out\":0}\n");
    csv_report(&report, &text);
    expect("a fault in CSV", &text, FILE_CSV ",fault,,,,,,\n");
    lines_report(&report, &text);
    expect("the line of a fault", &text, "fault 6 24\n");
}

/* A day that was not read: the reader's own messages, then faults of the library, of which the
 * first is that of the lowest job. */
static void wrong_days(const struct day *day)
{
    struct text text = TEXT_EMPTY;
    struct messages messages = MESSAGES_NONE;
    struct report report = { day, NULL, NULL, &messages };
    message_add(&messages, FILE_NAME, 7, 0, "no \"%s\" & such", "<b>\xFF");
    json_report(&report, &text);
    expect_json("an error in JSON", &text,
                "{\"day\":" FILE_JSON ",\"answer\":\"error\",\"errors\":[{\"file\":" FILE_JSON
                ",\"line\":7,\"column\":null,\"message\":\"no \\\"<b>\xEF\xBF\xBD\\\" & such\"}],"
                "\"left_out\":0}\n");
    csv_report(&report, &text);
    expect("an error in CSV", &text, FILE_CSV ",error,,,,,,\n");
    lines_report(&report, &text);
    expect("the line of an error", &text, "error\n");
    messages_free(&messages);
    message_fault(&messages, "a.csv", 9, 3, 12, 5, "later");
    message_fault(&messages, "a.csv", 0, 0, 12, 2, "earlier");
    json_messages("a.day", &messages, &text);
    expect_json("faults in JSON", &text,
                "{\"day\":\"a.day\",\"answer\":\"fault\",\"fault\":12,\"place\":2,\"errors\":["
                "{\"file\":\"a.csv\",\"line\":9,\"column\":3,\"message\":\"later\",\"fault\":12,"
                "\"place\":5},{\"file\":\"a.csv\",\"line\":null,\"column\":null,"
                "\"message\":\"earlier\",\"fault\":12,\"place\":2}],\"left_out\":0}\n");
    csv_report(&report, &text);
    expect("faults in CSV", &text, FILE_CSV ",fault,,,,,,\n");
    lines_messages(&messages, &text);
    expect("the line of faults", &text, "fault 12 2\n");
    for (unsigned n = 0; n < MESSAGES_MOST; n++)
        message_add(&messages, "a.day", 1, 1, "another");
    json_messages("a.day", &messages, &text);
    expect_has("messages that were left out", &text,
               "\"message\":\"another\",\"fault\":null,\"place\":null}],\"left_out\":2}\n");
    text_free(&text);
    messages_free(&messages);
}

static void days(const struct day *day)
{
    struct text text = TEXT_EMPTY;
    json_day(day, &text);
    expect_json("a day in JSON", &text,
                "{\"day\":" FILE_JSON ",\"benches\":3,\"share\":{\"p\":4,\"q\":7},\"target\":480,"
                "\"names\":[\"North\"," RIG_JSON ",null],\"booked\":[0,60,0],\"jobs\":["
                "{\"job\":0,\"name\":\"=1+1\",\"minutes\":300,\"allowed\":[0,1]},"
                "{\"job\":1,\"name\":\"a,b \\\\ 'c'\",\"minutes\":95,\"allowed\":[0,1,2]},"
                "{\"job\":2,\"name\":\"</script>\xC3\xA9\",\"minutes\":0,\"allowed\":[2]}]}\n");
    csv_day(day, &text);
    expect("a day in CSV", &text,
           "name,minutes,benches\n=1+1,300,\"0,1\"\n\"a,b \\ 'c'\",95,all\n"
           "</script>\xC3\xA9,0,2\n");
    lines_day(day, &text);
    expect("the lines of a day", &text,
           "3 benches, share 4/7, target 480 minutes, 3 jobs\nbench 1: 60 minutes booked\n"
           "job 0: 300 minutes, benches 0 1\njob 1: 95 minutes, benches 0 1 2\n"
           "job 2: 0 minutes, benches 2\n");
}

/* Days of sheets, which have no names; one of them has no job, no minutes and the target 0. */
static void nameless_days(void)
{
    static const struct outcome nothing = { .answer = ANSWER_PLAN };
    struct day *day = day_new();
    struct text text = TEXT_EMPTY;
    struct report report = { day, &nothing, NULL, NULL };
    day->file_names[0] = copy(FILE_NAME);
    day->files = 1;
    day->contents.benches = 1;
    day->contents.p = 4;
    day->contents.q = 7;
    json_report(&report, &text);
    expect_json("a plan of no job in JSON", &text,
                "{\"day\":" FILE_JSON ",\"answer\":\"plan\",\"benches\":1,\"jobs\":0,"
                "\"share\":{\"p\":4,\"q\":7},\"target\":0,\"bound\":0,\"largest\":0,\"moves\":0,"
                "\"fullest\":0,\"loads\":[{\"bench\":0,\"name\":null,\"booked\":0,\"load\":0,"
                "\"jobs\":[]}],\"places\":[]}\n");
    csv_report(&report, &text);
    expect("a plan of no job in CSV", &text, FILE_CSV ",plan,0,,,,,\n");
    lines_report(&report, &text);
    expect("the lines of a plan of no job", &text, "plan 0 0 0\n");
    page_of(&report, &text);
    expect_has("the page of a plan of no job", &text, ">target and bound 0<");
    text_free(&text);
    day->jobs = 1;
    day->contents.jobs[0].allowed = YINQOCHA_BENCH(0);
    csv_report(&report, &text);
    expect("a plan of a sheet in CSV", &text, FILE_CSV ",plan,0,0,,0,0,\n");
    csv_day(day, &text);
    expect("a sheet in CSV", &text, "name,minutes,benches\n0,0,0\n");
    json_day(day, &text);
    expect_has("a sheet in JSON", &text,
               "\"names\":[null],\"booked\":[0],\"jobs\":[{\"job\":0,\"name\":null,");
    text_free(&text);
    day_free(day);
}

/* The cells of a plan's table, read back. */
static void csv_reads_back(const struct day *day)
{
    struct text text = TEXT_EMPTY;
    struct report report = { day, &planned, NULL, NULL };
    struct row row = ROW_EMPTY;
    struct messages messages = MESSAGES_NONE;
    size_t rows;
    csv_report_header(&text);
    csv_report(&report, &text);
    if (!csv_strict(&text, &rows) || rows != 4)
        fail("the table of a plan", text_string(&text), "a header and three rows");
    struct csv csv = csv_of("plan", text.bytes, text.len, ',');
    csv_next(&csv, &row, &messages);
    size_t name = row_column(&row, "name", NULL), file = row_column(&row, "day", NULL);
    size_t bench = row_column(&row, "bench_name", NULL);
    for (size_t job = 0; csv_next(&csv, &row, &messages); job++) {
        const char *bench_name = day->bench_names[planned.places[job]];
        expect("a job's name that was read back", &row.cells[name].value, job_names[job]);
        expect("a file that was read back", &row.cells[file].value, FILE_NAME);
        expect("a bench that was read back", &row.cells[bench].value,
               bench_name != NULL ? bench_name : "");
    }
    row_free(&row);
    messages_free(&messages);
    text_free(&text);
}

int main(void)
{
    struct day *day = hostile_day();
    strings();
    plans(day);
    refusals(day);
    wrong_days(day);
    all_checks(day);
    check_fault(day);
    all_comparisons(day);
    days(day);
    csv_reads_back(day);
    nameless_days();
    pages(day);
    full_page();
    day_free(day);
    printf("forms: %u things hold of JSON, CSV, lines and pages\n", checks);
    return 0;
}
