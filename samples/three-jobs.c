/* Three jobs on benches 0 and 1, bench 1 booked for 20 minutes, planned with the target 120. */
#include <inttypes.h>
#include <stdio.h>
#include <yinqocha.h>

int main(void)
{
    const uint64_t both = YINQOCHA_BENCH(0) | YINQOCHA_BENCH(1);
    const uint64_t booked[] = { 0, 20 }, minutes[] = { 95, 60, 45 };
    const uint64_t allowed[] = { both, both, YINQOCHA_BENCH(0) };
    uint8_t sheet[YINQOCHA_MAX_WRITTEN_BYTES];
    uint64_t places[3], loads[2], answer[YINQOCHA_ANSWER_ENTRIES];
    uint64_t word = yinqocha_write(2, 4, 7, 120, booked, sizeof booked,
                                   minutes, sizeof minutes,
                                   allowed, sizeof allowed, sheet, sizeof sheet);
    if (YINQOCHA_FAULT(word) == YINQOCHA_OK)
        word = yinqocha_plan(sheet, YINQOCHA_VALUE(word), places, sizeof places,
                             loads, sizeof loads, answer, sizeof answer);
    if (word != YINQOCHA_PLAN)
        return 1;
    for (unsigned job = 0; job < 3; job++)
        printf("job %u on bench %" PRIu64 "\n", job, places[job]);
    printf("largest load %" PRIu64 "\n", answer[0]);
    return 0;
}
