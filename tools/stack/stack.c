/*
 * How much stack the library's calls take with every limit at its maximum.
 *
 * Each call runs on a thread whose stack is a painted buffer: what it takes is what lost the paint,
 * less what a thread takes that calls nothing. tools/measure-stack builds and runs this.
 */
#define _POSIX_C_SOURCE 200809L

#include "hailspindle.h"

#include <inttypes.h>
#include <pthread.h>
#include <stdio.h>
#include <stdlib.h>
#include <string.h>

enum { STACK_BYTES = 1 << 20, PAINT = 0xA5, INPUTS = 16, NESTING = 64 };

static uint8_t job[HAILSPINDLE_JOB_BYTES];
static size_t formula_length;
static size_t job_length;
static int32_t streams[HAILSPINDLE_STREAM_ELEMENTS];
static uint8_t answer[HAILSPINDLE_ANSWER_BYTES];
static uint64_t figures[HAILSPINDLE_RUN_FIGURES];
static uint64_t number;

static void put(const char *mark, size_t fields, const uint8_t *bytes)
{
    memcpy(job + job_length, mark, 2);
    memcpy(job + job_length + 2, bytes, fields);
    job_length += 2 + fields;
}

#define PUT(mark, ...) put(mark, sizeof(uint8_t[]){__VA_ARGS__}, (uint8_t[]){__VA_ARGS__})

/* Sixteen inputs, eight of the greatest depth and then eight ints, which a body can list. */
static void put_inputs(void)
{
    job_length = 0;
    for (uint8_t x = 0; x < INPUTS; x++)
        PUT("IN", x, x < INPUTS / 2 ? 8 : 0);
}

static void put_text(const char *text)
{
    size_t length = strlen(text);
    PUT("VA", (uint8_t)length, 0);
    memcpy(job + job_length, text, length);
    job_length += length;
}

static void put_texts(void)
{
    formula_length = job_length;
    for (int x = 0; x < INPUTS; x++)
        put_text(x < INPUTS / 2 ? "{{{{{{{{1}}}}}}}}" : "1");
}

/* LT in the second part of LT, down to the limit; the input of depth 8 is the value. */
static void lets_in_bodies(void)
{
    put_inputs();
    for (int i = 0; i < NESTING; i++) {
        PUT("LT", 20);
        PUT("KN", 1, 0, 0, 0);
    }
    PUT("VR", 0);
    put_texts();
}

/* LT in the first part of LT. */
static void lets_in_lets(void)
{
    put_inputs();
    for (int i = 0; i < NESTING; i++)
        PUT("LT", 20);
    PUT("VR", 0);
    for (int i = 0; i < NESTING; i++)
        PUT("VR", 0);
    put_texts();
}

/* Eight loops in one another over lists that iota makes, each listing eight names; then lets. */
static void loops_in_loops(void)
{
    put_inputs();
    PUT("LT", 20);
    PUT("IO", 8);
    for (uint8_t i = 0; i < 8; i++) {
        PUT("EA", 21, 20, 8, 8, 9, 10, 11, 12, 13, 14, 15);
        if (i < 7) {
            PUT("LT", 20);
            PUT("IO", 8);
        }
    }
    for (int i = 0; i < NESTING - 16; i++) {
        PUT("LT", 22);
        PUT("IO", 21);
    }
    PUT("PL", 21, 8);
    put_texts();
}

/* A loop in a let, whose sum its second part is, and a list for the next loop in a let: three nestings for each loop. */
static void loops_and_sums(void)
{
    const int loops = NESTING / 3;
    put_inputs();
    PUT("LT", 20);
    PUT("IO", 8);
    for (int i = 0; i < loops; i++) {
        PUT("LT", 23);
        PUT("EA", 21, 20, 8, 8, 9, 10, 11, 12, 13, 14, 15);
        PUT("LT", 20);
        PUT("IO", 8);
    }
    PUT("VR", 21);
    for (int i = 0; i < loops; i++)
        PUT("SM", 23);
    put_texts();
}

/* LT in the second part of LT, one nesting left, and there a loop that lists eight names. */
static void lets_and_a_loop(void)
{
    put_inputs();
    for (int i = 0; i < NESTING - 1; i++) {
        PUT("LT", 20);
        PUT("IO", 8);
    }
    PUT("EA", 21, 20, 8, 8, 9, 10, 11, 12, 13, 14, 15);
    PUT("PL", 21, 8);
    put_texts();
}

/*
 * A guard in the first part of a let, its body the next such let: 32 guards, each of which lists its bool and seven values of
 * the greatest depth. Its inputs are those, and ints.
 */
static void guards_in_lets(void)
{
    job_length = 0;
    for (uint8_t x = 0; x < INPUTS; x++) {
        if (x == 7)
            PUT("IB", x, 0);
        else
            PUT("IN", x, x < 7 ? 8 : 0);
    }
    for (int i = 0; i < NESTING / 2; i++) {
        PUT("LT", 23);
        PUT("GU", 7, 8, 7, 0, 1, 2, 3, 4, 5, 6);
    }
    for (int i = 0; i <= NESTING / 2; i++)
        PUT("KN", 1, 0, 0, 0);
    formula_length = job_length;
    for (int x = 0; x < INPUTS; x++) {
        const char *text = x < 7 ? "{{{{{{{{1}}}}}}}}" : x == 7 ? "T" : "1";
        put_text(text);
    }
}

static void *nothing(void *unused)
{
    return unused;
}

static void *run(void *unused)
{
    number = hailspindle_run(job, job_length, streams, HAILSPINDLE_STREAM_ELEMENTS, answer, sizeof answer, figures, 4);
    return unused;
}

static void *list(void *unused)
{
    number = hailspindle_list(job, formula_length, answer, sizeof answer, figures, 4);
    return unused;
}

static size_t stack_of(void *(*call)(void *))
{
    pthread_t thread;
    pthread_attr_t attributes;
    uint8_t *stack = aligned_alloc(4096, STACK_BYTES);
    size_t unused = 0;
    memset(stack, PAINT, STACK_BYTES);
    if (pthread_attr_init(&attributes) || pthread_attr_setstack(&attributes, stack, STACK_BYTES) ||
        pthread_create(&thread, &attributes, call, NULL) || pthread_join(thread, NULL)) {
        fprintf(stderr, "no thread on a stack of its own\n");
        exit(1);
    }
    while (unused < STACK_BYTES && stack[unused] == PAINT)
        unused++;
    free(stack);
    return STACK_BYTES - unused;
}

static void report(const char *job_name, const char *call_name, void *(*call)(void *), size_t base)
{
    size_t taken = stack_of(call) - base;
    printf("%-46s %-5s %6zu bytes", job_name, call_name, taken);
    printf(number ? ", refused %" PRIu64 " at %" PRIu64 "\n" : "\n", number, figures[0]);
}

int main(void)
{
    static const struct {
        const char *name;
        void (*make)(void);
    } jobs[] = {
        {"64 lets, each in the last one's second part", lets_in_bodies},
        {"64 lets, each in the last one's first part", lets_in_lets},
        {"8 loops in one another, 56 lets", loops_in_loops},
        {"21 loops in one another with sums, 43 lets", loops_and_sums},
        {"63 lets, then a loop that lists 8", lets_and_a_loop},
        {"32 guards in 32 lets, each listing 8", guards_in_lets},
    };
    size_t base = stack_of(nothing);
    for (size_t i = 0; i < sizeof jobs / sizeof *jobs; i++) {
        jobs[i].make();
        report(jobs[i].name, "run", run, base);
        report(jobs[i].name, "list", list, base);
    }
    return 0;
}
