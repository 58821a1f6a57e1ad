/*
 * Hailspindle: formulas over nested lists, checked, listed and run by flat stream instructions.
 *
 * For C11 and C++ on x86-64: the compiler that makes the library makes code for no other processor.
 * Link with libhailspindle.a, which `tools/library` writes to target/staticlib. Of the C
 * library it wants memcpy and memset at link time, and nothing else. It takes no memory of its own
 * beside the stack, keeps nothing between calls, and may be called from several threads at once.
 * The most stack that a call was found to take is 124,432 bytes, 69,664 without guards (measured at
 * the limits, not proved: docs/MEASUREMENTS.md), so leave a call 128 KiB.
 *
 * docs/LANGUAGE.md says what a formula and a job are, byte by byte, and what each of them means.
 *
 * EVERY CALL
 *
 * answers 0 where it is accepted, and else the number of its refusal (below).
 *
 * A buffer is a pointer and the number of its elements, counted in elements and not in bytes. Where
 * the number is 0 the pointer may be NULL. A buffer that is written overlaps no other buffer of the
 * call. Any bytes and any numbers may be handed in: what makes no sense is refused.
 *
 * The last buffer takes the call's figures, in the order in which each call lists them. A shorter
 * buffer gets the first ones, a longer one keeps its content behind them, and a caller who wants none
 * lends 0 elements. Where a call is refused, its first figure is the place and its others are 0.
 *
 * To ask how many bytes a listing or an answer has, lend 0 bytes for it: where all else is well the
 * call is refused by 10, and the place is the bytes that it needs. For a run that is a whole run.
 *
 * THE REFUSALS
 *
 *   1  HAILSPINDLE_TOO_LONG           The job or formula has over 65,536 bytes.
 *                                     Place: 0.
 *   2  HAILSPINDLE_NO_RECORD          A record is unknown, misplaced, cut off or missing, or bytes are
 *                                     left over behind the last.
 *                                     Place: the record's offset, or the length where no byte is left.
 *   3  HAILSPINDLE_OVER_LIMIT         A variable is over 63, a depth over 8, a using list over 8, or in
 *                                     the two conversions a base over 1.
 *                                     Place: the record's offset; 0 in the two conversions.
 *   4  HAILSPINDLE_TOO_MANY           The 17th input, the 257th expression record, or one that stands
 *                                     in 65 others.
 *                                     Place: the record's offset.
 *   5  HAILSPINDLE_UNBOUND            A variable is not bound, an input is declared twice, or a using
 *                                     list repeats a name or holds the loop's own.
 *                                     Place: the record's offset.
 *   6  HAILSPINDLE_WRONG_TYPE         The types don't fit (a guard that is no bool, a sum of bools), or a
 *                                     type would be deeper than 8.
 *                                     Place: the record's offset.
 *   7  HAILSPINDLE_NO_VALUE_TEXT      A value text is not well formed, has a number out of range, or is
 *                                     of another type.
 *                                     Place: the VA record's offset; 0 in text to streams.
 *   8  HAILSPINDLE_NO_VALUE           Iota of a negative number, or a result that 32 bits can't hold.
 *                                     Place: the id of the stream that was to be defined.
 *   9  HAILSPINDLE_NO_ROOM            The stream buffer is too short; in text to streams either buffer.
 *                                     Place: the id of the stream that did not fit, for an input its
 *                                     first id; 0 in text to streams.
 *  10  HAILSPINDLE_NO_ANSWER_ROOM     The text is longer than its buffer.
 *                                     Place: the bytes that it needs.
 *  11  HAILSPINDLE_NO_REPRESENTATION  The streams represent no value.
 *                                     Place: the tree number of the first misfit, outermost first (data
 *                                     is 0, the outermost flags are the depth); or depth + 1 where the
 *                                     lengths don't number that, don't add up to the elements lent, or
 *                                     pass 16,384.
 */
#ifndef HAILSPINDLE_H
#define HAILSPINDLE_H

#include <stddef.h>
#include <stdint.h>
#include <string.h>

/* The version of this header and of the library that goes with it, also as one number that grows. */
#define HAILSPINDLE_VERSION "0.1.0"
#define HAILSPINDLE_VERSION_NUMBER 100 /* 10,000 for each major, 100 for each minor, 1 for each patch */

#ifdef __cplusplus
extern "C" {
#endif

enum {
    HAILSPINDLE_ACCEPTED = 0,
    HAILSPINDLE_TOO_LONG = 1,
    HAILSPINDLE_NO_RECORD = 2,
    HAILSPINDLE_OVER_LIMIT = 3,
    HAILSPINDLE_TOO_MANY = 4,
    HAILSPINDLE_UNBOUND = 5,
    HAILSPINDLE_WRONG_TYPE = 6,
    HAILSPINDLE_NO_VALUE_TEXT = 7,
    HAILSPINDLE_NO_VALUE = 8,
    HAILSPINDLE_NO_ROOM = 9,
    HAILSPINDLE_NO_ANSWER_ROOM = 10,
    HAILSPINDLE_NO_REPRESENTATION = 11
};

/* Limits and sizes. */
enum {
    /* the most bytes of a job or a formula */
    HAILSPINDLE_JOB_BYTES = 65536,
    /* the most bytes of a value text in its VA record */
    HAILSPINDLE_VALUE_BYTES = 65535,
    /* the most elements of a stream buffer that are used; more may be lent and are left alone */
    HAILSPINDLE_STREAM_ELEMENTS = 16384,
    /* what the run program lends for an answer and the list program for a listing. No job is known
     * that needs more; guards in one another that list deep values can have a longer listing (seven
     * that list eight of depth 8 each: 71,160 bytes), and 10 tells how much it needs */
    HAILSPINDLE_ANSWER_BYTES = 65536,
    HAILSPINDLE_LISTING_BYTES = 65536,
    /* the deepest value, and one more than that: the most lengths of a value's streams */
    HAILSPINDLE_DEPTH = 8,
    HAILSPINDLE_LENGTHS = 9
};

/* What the scalars of a value are. */
enum {
    HAILSPINDLE_INT = 0,
    HAILSPINDLE_BOOL = 1
};

/* Where each figure stands among those of its call, and how many the call has. */
enum {
    /* of every refused call: the place */
    HAILSPINDLE_PLACE = 0,

    HAILSPINDLE_CHECK_DEPTH = 0,
    HAILSPINDLE_CHECK_BASE = 1,
    HAILSPINDLE_CHECK_FIGURES = 2,

    HAILSPINDLE_LIST_BYTES = 0,
    HAILSPINDLE_LIST_FIGURES = 1,

    HAILSPINDLE_RUN_BYTES = 0,
    HAILSPINDLE_RUN_WORK = 1,
    HAILSPINDLE_RUN_STEPS = 2,
    HAILSPINDLE_RUN_ROOM = 3,
    HAILSPINDLE_RUN_FIGURES = 4,

    HAILSPINDLE_FIND_START = 0,
    HAILSPINDLE_FIND_BYTES = 1,
    HAILSPINDLE_FIND_FIGURES = 2,

    HAILSPINDLE_TO_STREAMS_ELEMENTS = 0,
    HAILSPINDLE_TO_STREAMS_FIGURES = 1,

    HAILSPINDLE_TO_TEXT_BYTES = 0,
    HAILSPINDLE_TO_TEXT_FIGURES = 1
};

/*
 * Checks a formula: IN and IB records and one expression.
 *
 * formula   read
 * figures   2: the depth of the formula's type, how many braces stand round its base; and its base
 *
 * Refused by 1 to 6.
 */
uint64_t hailspindle_check(const uint8_t *formula, size_t formula_length, uint64_t *figures,
                           size_t figures_length);

/*
 * Lists the instructions that a formula becomes, a line each.
 *
 * formula   read
 * text      gets the listing from its start on and keeps its content behind it
 * figures   1: the bytes of the listing
 *
 * Refused by 1 to 6, or by 10; then text is untouched.
 */
uint64_t hailspindle_list(const uint8_t *formula, size_t formula_length, uint8_t *text,
                          size_t text_length, uint64_t *figures, size_t figures_length);

/*
 * Runs a job: a formula and a VA record with a value text for each of its inputs.
 *
 * job       read
 * streams   gets the run's streams one after another from its start on, in the order of their ids,
 *           and keeps its content behind them; its first 16,384 elements are used, or all of it
 *           where it has fewer
 * answer    gets the text of the formula's value from its start on and keeps its content behind it
 * figures   4: the bytes of the answer, the work, the steps and the room that the run took
 *
 * Refused by 1 to 10. After 1 to 7 nothing is written but the figures; after 8, 9 and 10 the used
 * elements of streams are all 0 and answer is untouched.
 */
uint64_t hailspindle_run(const uint8_t *job, size_t job_length, int32_t *streams,
                         size_t streams_length, uint8_t *answer, size_t answer_length,
                         uint64_t *figures, size_t figures_length);

/*
 * Finds the text of an input in a job. The text of input number `input`, counted from 0, is the part
 * of the job's own bytes that the figures tell.
 *
 * job       read
 * figures   2: the part's first byte and its number of bytes; both 0 where there is no such input or
 *           the job is refused by 1 to 4
 *
 * Never refused.
 */
uint64_t hailspindle_find(const uint8_t *job, size_t job_length, size_t input, uint64_t *figures,
                          size_t figures_length);

/*
 * Turns the text of a value, of a base and a depth, to its streams: the ints or bools, then the
 * flags, innermost first. Flags are 0 for each item and 1 for each end of a list. A bool is 0 for F
 * and 1 for T.
 *
 * text      read
 * elements  gets the streams one after another from its start on and keeps its content behind them;
 *           its first 16,384 elements are used
 * lengths   gets the depth + 1 lengths of the streams and keeps its content behind them
 * figures   1: the elements of all streams
 *
 * Refused by 3, 7 or 9 (either buffer is too short); then nothing is written but the figure.
 */
uint64_t hailspindle_text_to_streams(const uint8_t *text, size_t text_length, uint8_t base,
                                     uint8_t depth, int32_t *elements, size_t elements_length,
                                     size_t *lengths, size_t lengths_length, uint64_t *figures,
                                     size_t figures_length);

/*
 * Turns streams back to the text of their value. A bool that is neither 0 nor 1 is a misfit (11).
 *
 * elements  read: the streams one after another and nothing else
 * lengths   read: their depth + 1 lengths and nothing else
 * answer    gets the text from its start on and keeps its content behind it
 * figures   1: the bytes of the text
 *
 * Refused by 3, 11 or 10; then answer is untouched.
 */
uint64_t hailspindle_streams_to_text(const int32_t *elements, size_t elements_length,
                                     const size_t *lengths, size_t lengths_length, uint8_t base,
                                     uint8_t depth, uint8_t *answer, size_t answer_length,
                                     uint64_t *figures, size_t figures_length);

/*
 * The two functions below are of this header alone, for convenience: they are not part of the
 * library, and nothing is proved of them.
 */

/* What a call's answer means, in a few words. For a number that is none of 0 to 11, "unknown". */
static inline const char *hailspindle_refusal_text(uint64_t number)
{
    switch (number) {
    case HAILSPINDLE_ACCEPTED: return "accepted";
    case HAILSPINDLE_TOO_LONG: return "too many bytes";
    case HAILSPINDLE_NO_RECORD: return "no record that may stand there";
    case HAILSPINDLE_OVER_LIMIT: return "a variable, a depth or a using list is over its limit";
    case HAILSPINDLE_TOO_MANY: return "one input, record or nesting too many";
    case HAILSPINDLE_UNBOUND: return "a name is unbound or stands twice";
    case HAILSPINDLE_WRONG_TYPE: return "the types don't fit";
    case HAILSPINDLE_NO_VALUE_TEXT: return "a value text is no value of its input's depth";
    case HAILSPINDLE_NO_VALUE: return "a number is out of range, or iota of a negative number";
    case HAILSPINDLE_NO_ROOM: return "the stream buffer is too short";
    case HAILSPINDLE_NO_ANSWER_ROOM: return "the buffer for the text is too short";
    case HAILSPINDLE_NO_REPRESENTATION: return "the streams represent no value";
    default: return "unknown";
    }
}

/*
 * Appends a VA record with a value text to a job that has job_length bytes in a buffer of job_room,
 * and answers how many bytes it has then. Answers 0, and writes nothing, where the text has more than
 * HAILSPINDLE_VALUE_BYTES or the record does not fit the buffer or HAILSPINDLE_JOB_BYTES.
 */
static inline size_t hailspindle_append_value(uint8_t *job, size_t job_length, size_t job_room,
                                              const char *text, size_t text_length)
{
    size_t room = HAILSPINDLE_JOB_BYTES;
    if (job_room < room)
        room = job_room;
    if (text_length > HAILSPINDLE_VALUE_BYTES || job_length > room || room - job_length < 4 ||
        room - job_length - 4 < text_length)
        return 0;
    job[job_length] = 'V';
    job[job_length + 1] = 'A';
    job[job_length + 2] = (uint8_t)(text_length & 255);
    job[job_length + 3] = (uint8_t)(text_length >> 8);
    if (text_length > 0)
        memcpy(job + job_length + 4, text, text_length);
    return job_length + 4 + text_length;
}

#ifdef __cplusplus
}
#endif

#endif
