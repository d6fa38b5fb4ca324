/*
 * The C door's checks of pages of sets: what passes, which set is named, the faults and their
 * order, pages of other lengths, and what the answer table keeps.
 */

#ifndef PAGES_H
#define PAGES_H

#include "answers.h"
#include "checks.h"
#include "door.h"

#define B YINQOCHA_BENCH

static uint64_t check_page(const struct fields *fields, const void *page, size_t page_len,
                           size_t answer_len)
{
    return check_table(yinqocha_check_page, fields, page, page_len, answer_len);
}

/* So many sets, in an answer table that fits and in longer ones. */
static void require_page(const struct fields *fields, const uint64_t *page, size_t sets,
                         uint64_t word, uint64_t entry, const char *what)
{
    for (size_t more = 0; more <= 20; more += 5) {
        require(check_page(fields, page, 8 * sets, 8 + more) == word, what);
        require(table_entry(&answer, 0) == entry, what);
        require_entries(&answer, YINQOCHA_CHECK_PAGE_ENTRIES, what);
    }
}

static void require_page_passed(const struct fields *fields, const uint64_t *page, size_t sets,
                                const char *what)
{
    require_page(fields, page, sets, YINQOCHA_PASSED, 0, what);
}

static void require_named(const struct fields *fields, const uint64_t *page, size_t sets,
                          uint64_t set, const char *what)
{
    require_page(fields, page, sets, YINQOCHA_NOT_PASSED, set, what);
}

static void require_page_fault(const struct fields *fields, const uint64_t *page, size_t sets,
                               uint32_t number, uint32_t place, const char *what)
{
    require_check_fault(check_page(fields, page, 8 * sets, 8), number, place, what);
}

/* T = 8. Benches 0 and 2 are blocking; benches 1, with 8 minutes, and 3 are not. */
static struct fields page_fields(void)
{
    struct fields fields = { .benches = 4, .p = 4, .q = 7, .target = 8, .booked_len = 32 };
    fields.booked[0] = fields.booked[2] = 9;
    add_job(&fields, 8, B(1));
    return fields;
}

/* 64 benches, each of them blocking by itself, and its own set on a page. */
static struct fields all_blocking(uint64_t *page)
{
    struct fields fields = { .benches = 64, .p = 4, .q = 7, .target = 8, .booked_len = 512 };
    for (size_t b = 0; b < 64; b++) {
        fields.booked[b] = 9;
        page[b] = B(b);
    }
    return fields;
}

static void pages_that_are_judged(void)
{
    const struct fields fields = page_fields();
    require_page_passed(&fields, NULL, 0, "an empty page");
    require_page_passed(&fields, (uint64_t[]){ B(2) }, 1, "one set");
    require_page_passed(&fields, (uint64_t[]){ B(0), B(2) }, 2, "two sets");
    require_page_passed(&fields, (uint64_t[]){ B(2), B(0) }, 2, "in the other order");
    require_page_passed(&fields, (uint64_t[]){ B(0) | B(2) }, 1, "their union");
    require_set(&fields, B(0) | B(2), YINQOCHA_PASSED, 0, "their union as a set");
    require_named(&fields, (uint64_t[]){ B(1) }, 1, 0, "8 is not more than 8");
    require_named(&fields, (uint64_t[]){ BOTH | B(2) | B(3) }, 1, 0, "26 on four benches");
    require_named(&fields, (uint64_t[]){ B(0), B(1) }, 2, 1, "the second set");
    require_named(&fields, (uint64_t[]){ B(1), B(0) }, 2, 0, "the first set");
    require_set(&fields, BOTH, YINQOCHA_PASSED, 0, "the union of these is blocking");
    require_named(&fields, (uint64_t[]){ B(2), B(3), B(0), B(1) }, 4, 1, "the first of two");
    require_named(&fields, (uint64_t[]){ B(3), B(0), B(1) }, 3, 0, "not that of the lowest bench");
    require_named(&fields, (uint64_t[]){ B(2), B(0), B(1) | B(3) }, 3, 2, "the last set");
    printf("door: a page passes if each set is blocking, and the first that is not is named\n");
}

static void pages_and_placements(void)
{
    struct fields fields = { .benches = 4, .p = 4, .q = 7, .target = 8, .booked_len = 32 };
    add_job(&fields, 4, BOTH);
    fields.booked[0] = fields.booked[1] = 7;
    require_named(&fields, (uint64_t[]){ B(0), B(1) }, 2, 0, "a light job between two sets");
    require_page_passed(&fields, (uint64_t[]){ BOTH }, 1, "18 on two benches");
    fields.jobs = 0;
    fields.booked[0] = fields.booked[1] = 8;
    add_job(&fields, 8, BOTH);
    require_named(&fields, (uint64_t[]){ B(1), B(0) }, 2, 0, "a heavy job between two sets");
    fields.booked[0] = fields.booked[1] = 3;
    add_job(&fields, 6, BOTH);
    require_page_passed(&fields, (uint64_t[]){ B(1), B(0) }, 2, "each has its lightest placement");
    add_job(&fields, 8, B(3));
    require_named(&fields, (uint64_t[]){ B(1), B(0), B(3) }, 3, 2, "8 on bench 3");
    add_job(&fields, 8, B(3));
    require_page_passed(&fields, (uint64_t[]){ B(1), B(2), B(0) }, 3, "no placement on bench 3");
    printf("door: each set of a page is held against every placement\n");
}

/* Set `later` of 64 has the bench of set `earlier` besides its own, or instead of it. */
static void shared_benches(void)
{
    uint64_t page[64];
    struct fields fields = all_blocking(page);
    require_page_passed(&fields, page, 64, "64 sets");
    for (uint32_t later = 1; later < 64; later++)
        for (uint32_t earlier = 0; earlier < later; earlier++) {
            const uint64_t own = page[later];
            page[later] = later % 2 == 0 ? B(earlier) : own | B(earlier);
            require_page_fault(&fields, page, 64, YINQOCHA_SHARED_BENCH, later, "a shared bench");
            page[later] = own;
        }
    for (uint32_t set = 0; set < 64; set++) {
        fields.booked[set] = 8;
        require_named(&fields, page, 64, set, "one of 64 sets is not blocking");
        page[63] = page[0];
        require_page_fault(&fields, page, 64, YINQOCHA_SHARED_BENCH, 63, "behind it");
        page[63] = B(63);
        fields.booked[set] = 9;
    }
    printf("door: a set that shares a bench with any earlier one is fault 18\n");
}

static void page_faults_in_order(void)
{
    struct fields fields = page_fields();
    for (uint64_t target = 7; target <= 8; target++) {
        fields.target = target;
        require_page_fault(&fields, (uint64_t[]){ 0 }, 1, 17, 0, "an empty set");
        require_page_fault(&fields, (uint64_t[]){ B(0), 0, B(2) }, 3, 17, 1, "an empty second set");
        for (uint32_t b = 4; b < 64; b++) {
            const uint64_t page[] = { B(0), B(2), B(1) | B(b), B(3) };
            require_page_fault(&fields, page, 4, 17, 2, "a bench that the head lacks");
            require_page_fault(&fields, (uint64_t[]){ B(0), B(0) | B(b) }, 2, 17, 1, "both faults");
            require_page_fault(&fields, (uint64_t[]){ B(0), B(b), B(b) }, 3, 17, 1, "shared, too");
        }
        require_page_fault(&fields, (uint64_t[]){ B(0), B(2), B(0), 0 }, 4, 18, 2, "18 first");
        require_page_fault(&fields, (uint64_t[]){ B(0), 0, B(0) }, 3, 17, 1, "17 first");
        require_page_fault(&fields, (uint64_t[]){ B(3), B(1), B(1) }, 3, 18, 2, "not blocking");
        require_page_fault(&fields, (uint64_t[]){ B(3), 0 }, 2, 17, 1, "not blocking, then empty");
        require_page_fault(&fields, (uint64_t[]){ B(0), B(2), B(2), B(0) }, 4, 18, 2, "two of 18");
    }
    fields.target = 7;
    add_job(&fields, 9, B(3));
    require_page(&fields, NULL, 0, YINQOCHA_LONG, 0, "long, an empty page");
    require_page(&fields, (uint64_t[]){ B(0), B(2) }, 2, YINQOCHA_LONG, 0, "long, two sets");
    fields.minutes[0] = 7;
    require_page(&fields, (uint64_t[]){ B(0), B(1) }, 2, YINQOCHA_LONG, 1, "the lowest long job");
    printf("door: sets are tried in page order, each for 17 and then for 18, before long\n");
}

/* More than 64 sets. */
static void wide_pages(void)
{
    static uint64_t page[100000];
    static const size_t counts[] = { 65, 66, 1000, sizeof page / sizeof *page };
    struct fields fields = all_blocking(page);
    require_page_passed(&fields, page, 63, "63 sets");
    require_page_passed(&fields, page, 64, "64 sets");
    for (size_t n = 0; n < sizeof counts / sizeof *counts; n++) {
        for (size_t i = 64; i < counts[n]; i++)
            page[i] = B(63 - i % 64);
        require_page_fault(&fields, page, counts[n], 18, 64, "a bench again");
        page[64] = 0;
        require_page_fault(&fields, page, counts[n], 17, 64, "an empty set");
        page[40] = B(39);
        require_page_fault(&fields, page, counts[n], 18, 40, "an earlier fault");
        page[40] = B(40);
        fields.booked[7] = 8;
        require_page_fault(&fields, page, counts[n], 17, 64, "set 7 is not blocking");
        fields.booked[7] = 9;
    }
    printf("door: a page of more than 64 sets has a fault, at set 64 or before\n");
}

/* Bench 8 has its bit in the seventh byte of an entry, benches 0 to 7 theirs in the eighth. */
static void begun_sets(void)
{
    uint64_t page[64];
    struct fields fields = all_blocking(page);
    const uint64_t sets[] = { B(0), B(8) };
    uint8_t bytes[17];
    memcpy(bytes + 1, sets, 16);
    for (size_t length = 0; length <= 16; length++) {
        uint64_t word = check_page(&fields, bytes + 1, length, 8);
        if (length == 0 || length == 8 || length >= 15)
            require(word == YINQOCHA_PASSED && table_entry(&answer, 0) == 0, "a begun set counts");
        else
            require_check_fault(word, YINQOCHA_BAD_SET, length > 8, "a begun set without a bench");
    }
    require(memcmp(bytes + 1, sets, 16) == 0, "the page is as it was");
    fields.booked[8] = 8;
    require(check_page(&fields, bytes + 1, 15, 8) == YINQOCHA_NOT_PASSED, "a begun set is judged");
    require(table_entry(&answer, 0) == 1, "a begun set is named");
    printf("door: a begun set counts, the bytes that it lacks are 0\n");
}

static void page_call_faults(void)
{
    const struct fields fields = page_fields();
    const uint64_t page[] = { B(0), B(0) };
    for (size_t bytes = 0; bytes < 8; bytes++)
        for (size_t sets = 0; sets <= 2; sets++)
            require_check_fault(check_page(&fields, page, 8 * sets, bytes), YINQOCHA_NO_ROOM, 0,
                                "no whole entry, before the page's faults");
    memset(&answer, FILL, sizeof answer);
    uint8_t *const table = table_start(&answer);
    for (size_t cut = 0; cut < sizeof example_12; cut++) {
        uint64_t plan = yinqocha_plan(example_12, cut, NULL, 0, NULL, 0, NULL, 0);
        require(yinqocha_check_page(example_12, cut, page, 16, table, 8) == plan, "a cut sheet");
        require(yinqocha_check_page(example_12, cut, NULL, 0, table, 8) == plan, "no page of it");
        require(yinqocha_check_page(example_12, cut, page, 16, NULL, 0) == plan, "no answer to it");
        require_entries(&answer, 0, "a page of a sheet cut off");
    }
    static const uint8_t zeros[YINQOCHA_MAX_SHEET_BYTES + 1];
    require_check_fault(yinqocha_check_page(zeros, sizeof zeros, page, 16, table, 8),
                        YINQOCHA_SHEET_TOO_LONG, 0, "a page, 65,537 bytes");
    require_check_fault(yinqocha_check_page(NULL, 0, NULL, 0, NULL, 0), YINQOCHA_SHEET_CUT, 0,
                        "a page of no sheet");
    uint64_t word = yinqocha_check_page(example_12, sizeof example_12, page, 16, NULL, 0);
    require_check_fault(word, YINQOCHA_NO_ROOM, 0, "NULL for a page's answer");
    printf("door: a page has the sheet's faults, then 13, then 17 and 18; the table is kept\n");
}

/* What the request says of a page of two sets of four benches and one more, by the answers to its
 * sets. */
static uint64_t two_sets(const uint64_t *words, const uint64_t *page)
{
    for (uint64_t n = 0; n < 2; n++) {
        if (YINQOCHA_FAULT(words[n]) == YINQOCHA_BAD_SET)
            return (uint64_t)YINQOCHA_BAD_SET << 32 | n;
        if (n == 1 && (page[0] & page[1]) != 0)
            return (uint64_t)YINQOCHA_SHARED_BENCH << 32 | n;
    }
    return words[0] == YINQOCHA_PASSED ? words[1] : words[0];
}

static void all_pages_of_two_sets(void)
{
    const struct fields fields = page_fields();
    for (uint64_t first = 0; first < 32; first++)
        for (uint64_t second = 0; second < 32; second++) {
            const uint64_t page[] = { first << 59, second << 59 };
            const uint64_t words[] = { check_set(&fields, page[0], 8),
                                       check_set(&fields, page[1], 8) };
            uint64_t word = check_page(&fields, page, 16, 8);
            require(word == two_sets(words, page), "a page as its two sets");
            if (word == YINQOCHA_NOT_PASSED)
                require(table_entry(&answer, 0) == (words[0] == YINQOCHA_PASSED), "its first set");
            if (word == YINQOCHA_PASSED)
                require_set(&fields, page[0] | page[1], YINQOCHA_PASSED, 0, "its union");
        }
    printf("door: a page of two sets says what its sets say, and a passed union is blocking\n");
}

static void own_sets_as_pages(void)
{
    size_t pages = 0;
    for (uint64_t turn = 1; turn <= 80; turn++) {
        struct fields fields = mixed_jobs(turn);
        for (fields.target = 4; fields.target < 24; fields.target++) {
            uint64_t word = plan_fields(&fields, 8 * fields.jobs, 32, ANSWER_BYTES);
            uint64_t set = table_entry(&answer, 0);
            if (word == YINQOCHA_NONE) {
                require_page_passed(&fields, &set, 1, "our own set as a page");
                pages++;
            }
        }
    }
    require(pages >= 100, "enough pages");
    printf("door: our own sets pass as pages\n");
}

static void pages_of_sets(void)
{
    pages_that_are_judged();
    pages_and_placements();
    shared_benches();
    page_faults_in_order();
    wide_pages();
    begun_sets();
    page_call_faults();
    all_pages_of_two_sets();
    own_sets_as_pages();
}

#endif /* PAGES_H */
