/*
 * Damaged days, tables of jobs, sheets, lists and pages: each is the text or the sheet of a sample,
 * damaged in a few places by random numbers of a fixed seed (damaged/damage.h). Each is read; what
 * is read is planned and shown in every form, and what must hold of it is checked (damaged/holds.h,
 * answers.h). Some days go through the whole command as well, whose exit status is checked. At the
 * end each kind must have been met often enough (damaged/kinds.h).
 *
 *     damaged SEED COUNT FOLDER FILE...
 *
 * COUNT is that of days, tables and sheets. FOLDER is for scratch files; the FILEs are samples:
 * days, tables of jobs and sheets by the ends of their names. tests/desk/run compiles it with
 * address and undefined-behaviour sanitizers.
 */

#include "damaged/command.h"
#include "damaged/days.h"
#include "damaged/papers.h"

#include <inttypes.h>

static void add_sample(struct samples *samples, const char *path)
{
    samples->all = memory_resize(samples->all, samples->count + 1, sizeof *samples->all);
    struct sample *sample = &samples->all[samples->count++];
    *sample = (struct sample){ path, TEXT_EMPTY };
    require(file_read(path, DESK_MOST_BYTES, &sample->bytes) == FILE_READ, "a sample is read");
}

static void read_samples(char **paths)
{
    for (; *paths != NULL; paths++) {
        const char *end = strrchr(*paths, '.');
        require(end != NULL, "a sample's name has an end");
        add_sample(strcmp(end, ".day") == 0 ? &days : strcmp(end, ".csv") == 0 ? &tables : &sheets,
                   *paths);
    }
    require(days.count > 0 && sheets.count > 0 && tables.count > 0, "samples of each kind");
}

static void free_samples(struct samples *samples)
{
    for (size_t n = 0; n < samples->count; n++)
        text_free(&samples->all[n].bytes);
    free(samples->all);
}

/* Half of all are days; besides, a list or a page of sets is tried with one in four. */
static void try_one(struct draws *draws)
{
    static void (*const trials[])(struct draws *) = {
        try_day,   try_day,   try_day,   try_day,   try_day,   try_day,   try_day,   try_day,
        try_table, try_table, try_table, try_sheet, try_sheet, try_sheet, try_sheet, try_command,
    };
    trials[draw(draws, sizeof trials / sizeof trials[0])](draws);
    switch (draw(draws, 8)) {
    case 0:
        try_list(draws);
        break;
    case 1:
        try_page(draws);
        break;
    default:
        break;
    }
}

int main(int argc, char **argv)
{
    uint64_t count;
    if (argc < 5 || number_read(argv[1], strlen(argv[1]), UINT64_MAX, &tried.seed) != NUMBER_READ ||
        number_read(argv[2], strlen(argv[2]), UINT64_MAX, &count) != NUMBER_READ) {
        fputs("usage: damaged SEED COUNT FOLDER FILE...\n", stderr);
        return 3;
    }
    tried.folder = argv[3];
    tried.kind = "the samples";
    read_samples(argv + 4);
    for (tried.number = 0; tried.number < count; tried.number++) {
        struct draws draws = { tried.seed * UINT64_C(1000003) + tried.number };
        try_one(&draws);
    }
    for (int kind = 0; kind < KINDS; kind++) {
        if (kinds[kind].least > 0 && met[kind] < count / kinds[kind].least) {
            printf("damaged: FAILED, met too seldom: %s, %" PRIu64 " of %" PRIu64 "\n",
                   kinds[kind].name, met[kind], count);
            return EXIT_FAILURE;
        }
    }
    printf("damaged: %" PRIu64 " files of seed %" PRIu64 " hold:", count, tried.seed);
    for (int kind = 0; kind < KINDS; kind++)
        printf(" %s %" PRIu64 "%s", kinds[kind].name, met[kind], kind + 1 < KINDS ? "," : "\n");
    text_free(&tried.bytes);
    free_samples(&days);
    free_samples(&sheets);
    free_samples(&tables);
    return EXIT_SUCCESS;
}
