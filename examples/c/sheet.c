/*
 * A lead's sheet: a correction is added to each reading, and the readings of each stop are summed.
 * Then the same sheet with a reading that is too large, to show a refusal, and its listing.
 *
 * Build and run, after `tools/library`: make -C examples/c
 */
#include "hailspindle.h"

#include <inttypes.h>
#include <stdio.h>
#include <string.h>

/* IN 0 2, IN 1 0, EA 2 0 1 1, LT 3, EA 4 2 1 1, PL 4 1, SM 3 */
static const uint8_t formula[] = {
    'I', 'N', 0, 2,       /* input 0: a list of stops, each a list of readings */
    'I', 'N', 1, 0,       /* input 1: the correction */
    'E', 'A', 2, 0, 1, 1, /* for each stop 2 in 0, using 1 */
    'L', 'T', 3,          /* let 3 be */
    'E', 'A', 4, 2, 1, 1, /* for each reading 4 in 2, using 1 */
    'P', 'L', 4, 1,       /* the reading and the correction */
    'S', 'M', 3           /* in the sum of 3 */
};

static uint8_t job[HAILSPINDLE_JOB_BYTES];
static int32_t streams[HAILSPINDLE_STREAM_ELEMENTS];
static uint8_t answer[HAILSPINDLE_ANSWER_BYTES];

/*
 * Puts a VA record behind the bytes that the job has, and answers how many it has then, or 0 where
 * the text is too long for the record's two bytes or the job has no room for it. A job that is 0
 * already stays so, and the caller asks once at the end.
 */
static size_t add_value(size_t length, const char *text)
{
    return length == 0 ? 0 : hailspindle_append_value(job, length, sizeof job, text, strlen(text));
}

static void run_sheet(const char *stops, const char *correction)
{
    uint64_t figures[HAILSPINDLE_RUN_FIGURES];
    size_t length = sizeof formula;
    memcpy(job, formula, length);
    length = add_value(length, stops);
    length = add_value(length, correction);

    printf("stops %s, correction %s\n", stops, correction);
    if (length == 0) {
        printf("  the texts don't fit a job\n");
        return;
    }
    uint64_t number = hailspindle_run(job, length, streams, HAILSPINDLE_STREAM_ELEMENTS, answer,
                                      sizeof answer, figures, HAILSPINDLE_RUN_FIGURES);
    if (number != HAILSPINDLE_ACCEPTED) {
        printf("  refused %" PRIu64 " at %" PRIu64 ": %s\n", number, figures[HAILSPINDLE_PLACE],
               hailspindle_refusal_text(number));
        return;
    }
    printf("  totals %.*s\n", (int)figures[HAILSPINDLE_RUN_BYTES], (const char *)answer);
    printf("  work %" PRIu64 ", steps %" PRIu64 ", room %" PRIu64 "\n",
           figures[HAILSPINDLE_RUN_WORK], figures[HAILSPINDLE_RUN_STEPS],
           figures[HAILSPINDLE_RUN_ROOM]);
}

/* Asks how long the formula's listing is by lending nothing for it, and then has it written. */
static void list_sheet(void)
{
    uint64_t figures[HAILSPINDLE_LIST_FIGURES];
    uint64_t number = hailspindle_list(formula, sizeof formula, NULL, 0, figures, 1);
    if (number == HAILSPINDLE_NO_ANSWER_ROOM)
        printf("a listing of %" PRIu64 " bytes\n", figures[HAILSPINDLE_PLACE]);
    number = hailspindle_list(formula, sizeof formula, answer, sizeof answer, figures, 1);
    if (number == HAILSPINDLE_ACCEPTED)
        printf("%.*s", (int)figures[HAILSPINDLE_LIST_BYTES], (const char *)answer);
}

int main(void)
{
    run_sheet("{{3,1},{},{4}}", "2");
    run_sheet("{{2147483647},{1}}", "2");
    list_sheet();
    return 0;
}
