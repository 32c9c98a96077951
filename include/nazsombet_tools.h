/*
 * Nazsombet: tools beside the kernel core, for C.
 *
 * The library is target/staticlib/libtools_c.a, built by `./build.sh tools_c` for x86-64 Linux. It is not the core,
 * and the box links none of it. A host that has the core too links both archives, in any order:
 *
 *     cc -std=c99 -Iinclude -o host host.c libcore_c.a libtools_c.a
 *
 * Of the C library it uses memcpy and memset alone. What each function answers and leaves, for all lengths and contents,
 * is proved of its source, crates/tools_c/src/lib.rt. That these declarations fit it is tested only.
 *
 * They ask neither tables nor grants. They keep no pointer and no state between two calls, allocate nothing and do no
 * input or output. What nazsombet.h says of pointers and threads holds here too. What it says of a kernel was tried of
 * the core alone, but for the stack that they take.
 */
#ifndef NAZSOMBET_TOOLS_H
#define NAZSOMBET_TOOLS_H

#include "nazsombet.h"

#ifdef __cplusplus
extern "C" {
#endif

/* The bytes that a buffer for a sentence has at least: room for every line. */
#define NAZSOMBET_SENTENCE_ROOM 160

/* Answered besides the numbers of nazsombet.h. */
#define NAZSOMBET_SHORT 28  /* the buffer is too short, also where this line would fit */
#define NAZSOMBET_LIMITS 30 /* journal, rate or counts beyond what is billed */

/*
 * Writes a call and its answer as one line of English to the front of a buffer, such as
 *
 *     Abort badge 7 at endpoint 0 with allowance 1: broken off, count 1.
 *
 * The answer is any four numbers, also ones that the core never gives; no two pairs of call and answer have the same
 * line. docs/SENTENCES.md has the wording. The line is printable ASCII and ends with a newline, and no byte 0 follows.
 * 0: *used is its length in bytes, newline included, and the bytes behind it are as they were. Refused, in this order:
 * 28, out_length is below 160; 18, the numbers name no call; 19, a number of the call is out of its range. With these
 * three *used is 0, and the buffer is as it was.
 */
uint32_t nazsombet_sentence(const struct nazsombet_numbers *call, const struct nazsombet_answer *answer, uint8_t *out,
                            size_t out_length, size_t *used);

/* What is billed: so many counts, a journal of so many words at most, and so many cents for 1,000 ticks at most. */
#define NAZSOMBET_COUNTS 257 /* threads 0 to 255, then idle */
#define NAZSOMBET_BILLED_WORDS 16000
#define NAZSOMBET_HIGHEST_RATE 10000

/*
 * Makes the calls of a journal in turn, on fresh tables and grants of its own, and counts for each thread number the
 * ticks that were accepted while it ran, that is, at which it was running just before; counts[256] has those that found
 * nobody running. The counts together are the journal's ticks. docs/MANUAL.md has what they cost; the rate is only
 * tried.
 * 0: all 257 counts are written over. Refused, in this order: 30, journal_length is above 16,000, rate is above 10,000
 * or counts_length is not 257; 18, a word of the journal does not read as a call; 19, a number of a call is out of its
 * range. With these three every count is as it was.
 * By the watermark, as nazsombet.h has it, nazsombet_count_ticks takes 84544 bytes of stack, the tables and grants among
 * them: it is for an office, and not for the box.
 */
uint32_t nazsombet_count_ticks(const uint32_t *journal, size_t journal_length, uint32_t rate, uint32_t *counts,
                               size_t counts_length);

#ifdef __cplusplus
}
#endif

#endif
