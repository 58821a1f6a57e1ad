/*
 * What the header promises beside the calls' figures: NULL for a buffer of 0 elements, an append that
 * stays within its bounds, and a text for each number. Prints one line, or fails.
 *
 * Build and run, after `tools/library`: make -C examples/c check
 */
#include "hailspindle.h"

#include <stdio.h>
#include <stdlib.h>

static uint8_t job[HAILSPINDLE_JOB_BYTES + 8];
static char text[HAILSPINDLE_JOB_BYTES + 8];

static void expect(int line, int holds)
{
    if (holds)
        return;
    printf("bounds.c: line %d does not hold\n", line);
    exit(1);
}

#define EXPECT(...) expect(__LINE__, (__VA_ARGS__))

static void appends(void)
{
    memset(text, '1', sizeof text);
    /* the job's limit, the record's, and the buffer's, each met and passed by one */
    EXPECT(hailspindle_append_value(job, 0, sizeof job, text, 65532) == HAILSPINDLE_JOB_BYTES);
    EXPECT(hailspindle_append_value(job, 0, sizeof job, text, 65533) == 0);
    EXPECT(hailspindle_append_value(job, 0, sizeof job, text, HAILSPINDLE_VALUE_BYTES + 1) == 0);
    EXPECT(hailspindle_append_value(job, 0, 10, text, 6) == 10);
    EXPECT(hailspindle_append_value(job, 0, 10, text, 7) == 0);
    EXPECT(hailspindle_append_value(job, 7, 10, text, 0) == 0);
    EXPECT(hailspindle_append_value(job, 11, 10, text, 0) == 0);
    EXPECT(hailspindle_append_value(job, SIZE_MAX, SIZE_MAX, text, SIZE_MAX) == 0);
    /* what is written: the mark, the length lowest byte first, the text */
    EXPECT(hailspindle_append_value(job, 3, 700, text, 0x123) == 3 + 4 + 0x123);
    EXPECT(memcmp(job + 3, "VA\x23\x01", 4) == 0 && memcmp(job + 7, text, 0x123) == 0);
    EXPECT(hailspindle_append_value(job, 6, 10, NULL, 0) == 10);
    EXPECT(memcmp(job + 6, "VA\0\0", 4) == 0);
}

static void empty_buffers(void)
{
    static const uint8_t constant[] = {'K', 'N', 1, 0, 0, 0};
    uint64_t figures[HAILSPINDLE_RUN_FIGURES];
    int32_t streams[2] = {7, 7};
    EXPECT(hailspindle_check(NULL, 0, NULL, 0) == HAILSPINDLE_NO_RECORD);
    EXPECT(hailspindle_list(NULL, 0, NULL, 0, NULL, 0) == HAILSPINDLE_NO_RECORD);
    EXPECT(hailspindle_run(NULL, 0, NULL, 0, NULL, 0, NULL, 0) == HAILSPINDLE_NO_RECORD);
    EXPECT(hailspindle_find(NULL, 0, 0, NULL, 0) == HAILSPINDLE_ACCEPTED);
    EXPECT(hailspindle_text_to_streams(NULL, 0, HAILSPINDLE_INT, 0, NULL, 0, NULL, 0, NULL, 0) ==
           HAILSPINDLE_NO_VALUE_TEXT);
    EXPECT(hailspindle_streams_to_text(NULL, 0, NULL, 0, HAILSPINDLE_INT, 0, NULL, 0, NULL, 0) ==
           HAILSPINDLE_NO_REPRESENTATION);
    EXPECT(hailspindle_run(constant, sizeof constant, NULL, 0, NULL, 0, figures, 4) ==
           HAILSPINDLE_NO_ROOM);
    EXPECT(hailspindle_run(constant, sizeof constant, streams, 2, NULL, 0, figures, 4) ==
           HAILSPINDLE_NO_ANSWER_ROOM);
    EXPECT(figures[HAILSPINDLE_PLACE] == 1 && streams[0] == 0 && streams[1] == 0);
}

static void texts(void)
{
    for (uint64_t number = 0; number <= HAILSPINDLE_NO_REPRESENTATION; number++)
        EXPECT(strcmp(hailspindle_refusal_text(number), "unknown") != 0);
    EXPECT(strcmp(hailspindle_refusal_text(HAILSPINDLE_NO_REPRESENTATION + 1), "unknown") == 0);
    EXPECT(strcmp(hailspindle_refusal_text(UINT64_MAX), "unknown") == 0);
}

int main(void)
{
    appends();
    empty_buffers();
    texts();
    printf("header %s: as promised\n", HAILSPINDLE_VERSION);
    return 0;
}
