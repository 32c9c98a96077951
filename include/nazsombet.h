/*
 * Nazsombet: the kernel core of the realtime box, for C.
 *
 * The library is target/staticlib/libcore_c.a, built by `./build.sh core_c` for x86-64 Linux. Of the C library it
 * uses memset alone. What each function answers and leaves, for all lengths and contents, is proved of its source,
 * crates/core_c/src/lib.rt. That these declarations fit it is tested only.
 *
 * In a kernel. Read this first: as compiled, the functions
 *   - write up to 128 bytes below the stack pointer (the red zone of the x86-64 ABI). An interrupt that is taken on the
 *     same stack meanwhile overwrites them. Take interrupts on another stack (an IST entry), or mask them around every
 *     call; software that pushes onto this stack by itself, as signal delivery does, has to leave 128 bytes free.
 *   - rely on that ABI where they are called: the stack pointer is a multiple of 16 before the call instruction, and
 *     the direction flag is clear. On a stack that is 8 bytes off the processor traps, in some calls and not in others.
 *   - use the SSE registers xmm0 to xmm9, and no wider, x87 or MMX ones. They are the caller's to save in C, but a
 *     kernel that does not save them for its user threads has to save them around a call, and SSE has to be enabled.
 *     SSE2 is enough, and so is an alignment of 4 bytes for tables, grants and scratch.
 *   - take less than 1 KiB of stack, memset's own apart, call nothing but memset, make no system call and no trap. By
 *     the watermark on a painted stack, with the return address and what is written below the stack pointer,
 *     nazsombet_call takes 512 bytes at most, nazsombet_check takes 192, nazsombet_read takes 96,
 *     nazsombet_fresh takes 64, nazsombet_write takes 32, nazsombet_running takes 16,
 *     nazsombet_woken takes 16, and of the tools nazsombet_sentence takes 288.
 *   - have no unwind tables: nothing can be thrown through them, and a debugger sees no frames.
 *   - stand in a section each: linked with -Wl,--gc-sections a host keeps those that it uses and what they call, some
 *     10.3 of 12.5 KB of code for nazsombet_fresh, nazsombet_call and nazsombet_running.
 * tests/archive.sh and tests/stack.sh try these on the compiled library, but for the direction flag and the sizes.
 *
 * An interrupt during a call. One caller at a time lends the memory: a handler that makes a call while another call is
 * under way on it can leave tables that are not sound. A handler notes the interrupt, and the host makes call 5 or 6
 * when the call under way has returned. Calls of the host may follow each other without a thread between them.
 *
 * A thread's call. Copy its numbers out of the thread's memory before the call and the answer into it afterwards: what
 * is lent is the kernel's own, and nobody else writes it meanwhile.
 *
 * A kernel. examples/box is one that keeps to all of this; its README lists what else a kernel has to do.
 *
 * Memory. The host owns all of it. It lends the tables (4,096 words), the grants (16,384 words) and a scratch (256
 * words); the library keeps no pointer and no state between two calls, allocates nothing and does no input or output.
 * All that the core knows stands in the tables and the grants: they may be copied, stored and lent again elsewhere, the
 * two together. What the scratch holds does not matter. Nobody but the library is to write tables or grants: a change
 * by hand is found out, by 17, unless it happens to leave them sound. A host need not read their words either: what it
 * has to know of them it asks by nazsombet_running and nazsombet_woken.
 *
 * Releases. Tables and grants that are stored are of one release, NAZSOMBET_RELEASE below: another may have other words
 * in other places. Nothing in the memory says of which release it is, and that of one may read as a sound memory of
 * another, with another meaning. Store the release beside them, and lend them to the same release only.
 *
 * Making calls. A call is six numbers; the functions nazsombet_send_call, nazsombet_grant_call and so on, one for each
 * of the thirteen, put each number in its place. struct nazsombet_lent is all the memory that is lent, and
 * nazsombet_lent_call and so on lend it with its lengths. examples/writers.c makes calls so:
 *
 *     static struct nazsombet_lent lent;
 *     struct nazsombet_answer answer;
 *     nazsombet_lent_fresh(&lent);
 *     nazsombet_lent_call(&lent, nazsombet_create_thread_call(3, 100), &answer);
 *
 * Grants. Word 64 * thread + endpoint says what that thread may do at that endpoint: its top four bits are the rights
 * (1 send, 2 receive, 4 delete, 8 abort), its low 28 bits the badge under which it may send. 0 is no grant; a badge
 * without any right is unsound, and every other word is sound. The host grants by call 13: it replaces the word, by 0
 * where it grants no right, whatever the badge. Creating a thread clears its 64 words and creating an endpoint its 256;
 * destroying and deleting clear none.
 *
 * Pointers. No pointer is null, not even with length 0. Each points to as many words as its length says, aligned as its
 * type asks. What a function writes overlaps nothing else that it is lent. This is all that the library relies on: any
 * length and any content is answered.
 *
 * Threads. The functions may run at the same time on different memory. While one runs nobody else writes what it was
 * lent, nor reads what it writes: one caller at a time for tables, grants and scratch that are lent together.
 *
 * Numbers. Every function but nazsombet_running and nazsombet_woken answers one of the numbers below. Those of 16 to 29
 * are refusals: they are tried in the order of the numbers, but 29 right after 20, and they leave the tables and the
 * grants as they were.
 */
#ifndef NAZSOMBET_H
#define NAZSOMBET_H

#include <stddef.h>
#include <stdint.h>

#ifdef __cplusplus
extern "C" {
#endif

/* Release 7, with the first five of its change requests: a request more, or another release, is another text here. */
#define NAZSOMBET_RELEASE "7.6"

/* The words of the tables, of the grants and of the scratch. */
#define NAZSOMBET_TABLES 4096
#define NAZSOMBET_GRANTS 16384
#define NAZSOMBET_SCRATCH 256

/* What is answered. */
#define NAZSOMBET_DONE 0
#define NAZSOMBET_BLOCKED 1           /* the thread that called waits now */
#define NAZSOMBET_BROKEN_OFF 2        /* delete, abort: the allowance is used up and work is left; call again */
#define NAZSOMBET_LENGTH 16           /* not 4,096 words of tables, 16,384 of grants, 256 of scratch: none is written */
#define NAZSOMBET_UNSOUND 17          /* tables or grants are not sound: the scratch is zeroed, as by all that follow */
#define NAZSOMBET_NO_CALL 18          /* numbers or words that are no call: number, unused part not 0, word missing */
#define NAZSOMBET_RANGE 19            /* a number of the call is out of its range */
#define NAZSOMBET_NOBODY_RUNS 20      /* a thread's call, 7 to 12, and none runs */
#define NAZSOMBET_THREAD_ABSENT 21
#define NAZSOMBET_THREAD_PRESENT 22
#define NAZSOMBET_ENDPOINT_ABSENT 23
#define NAZSOMBET_ENDPOINT_PRESENT 24 /* also where it is being deleted */
#define NAZSOMBET_ENDPOINT_CLOSING 25 /* it is being deleted */
#define NAZSOMBET_BADGE_ABORTED 26    /* send: that badge is under abort there */
#define NAZSOMBET_LINE_TAKEN 27       /* wait: the line has a waiter */
#define NAZSOMBET_NO_RIGHT 29         /* send, receive, delete, abort: the thread lacks the right, or a send's badge */
#define NAZSOMBET_ENDED 255           /* nazsombet_read alone: no word is left */

/* The thirteen calls. The host makes 1 to 6 and 13; 7 to 12 are those of the thread that runs. */
#define NAZSOMBET_CREATE_THREAD 1   /* subject: thread 0..255; argument: priority 0..255, higher is more urgent */
#define NAZSOMBET_DESTROY_THREAD 2  /* subject: thread */
#define NAZSOMBET_SET_PRIORITY 3    /* subject: thread; argument: priority */
#define NAZSOMBET_CREATE_ENDPOINT 4 /* subject: endpoint 0..63 */
#define NAZSOMBET_INTERRUPT 5       /* subject: line 0..31 */
#define NAZSOMBET_TICK 6            /* a tick of the clock, also where nobody runs */
#define NAZSOMBET_SEND 7            /* subject: endpoint; badge and message, each below 2^28 */
#define NAZSOMBET_RECEIVE 8         /* subject: endpoint */
#define NAZSOMBET_YIELD 9
#define NAZSOMBET_WAIT 10           /* subject: line */
#define NAZSOMBET_DELETE 11         /* subject: endpoint; argument: allowance 1..65535, the waiters it may remove */
#define NAZSOMBET_ABORT 12          /* subject: endpoint; argument: allowance, the waiters it may look at; badge */
#define NAZSOMBET_GRANT 13          /* subject: thread; argument: endpoint; badge; rights 0..15 */

/* Rights, to be added up. A send needs its right and the badge that was granted, the other three their right alone. */
#define NAZSOMBET_RIGHT_SEND 1
#define NAZSOMBET_RIGHT_RECEIVE 2
#define NAZSOMBET_RIGHT_DELETE 4
#define NAZSOMBET_RIGHT_ABORT 8 /* of any badge there */

/* A call as plain numbers. What the call does not have is 0, or it is refused by 18. */
struct nazsombet_numbers {
    uint32_t number; /* 1 to 13 */
    uint32_t subject;
    uint32_t argument;
    uint32_t badge;
    uint32_t message;
    uint32_t rights;
};

/* An answer. A refusal is its number and three zeros. */
struct nazsombet_answer {
    uint32_t code;
    uint32_t count;   /* delete, abort: the waiters removed or looked at; else 0 */
    uint32_t badge;   /* of the message that a receive answered 0 took; else 0 */
    uint32_t message; /* the same */
};

/* The library sees six words, and four: no compiler may lay them out in another way. */
typedef char nazsombet_six_words[sizeof(struct nazsombet_numbers) == 24 ? 1 : -1];
typedef char nazsombet_four_words[sizeof(struct nazsombet_answer) == 16 ? 1 : -1];

/* The answer of nazsombet_running where no thread runs. */
#define NAZSOMBET_NOBODY 256

/* Outcomes: how a thread's last waiting ended. They stay until the thread blocks again, or is destroyed. */
#define NAZSOMBET_NO_OUTCOME 0       /* it has not waited since it was created, it waits now, or it is absent */
#define NAZSOMBET_MESSAGE_TAKEN 1    /* send: a receiver took the message */
#define NAZSOMBET_MESSAGE_RECEIVED 2 /* receive: a sender came; its badge and message are told too */
#define NAZSOMBET_MESSAGE_ABORTED 3  /* send: an abort removed the message */
#define NAZSOMBET_ENDPOINT_GONE 4    /* send, receive: a delete of the endpoint removed the thread from it */
#define NAZSOMBET_LINE_FIRED 5       /* wait: the line fired */

/*
 * Makes tables and grants fresh, whatever they held: no thread, no endpoint, no pending line, no grant. 0; or 16, if
 * either has another length, and both stay.
 */
uint32_t nazsombet_fresh(uint32_t *tables, size_t tables_length, uint32_t *grants, size_t grants_length);

/*
 * Checks tables and grants, which are only read: 0 if both are sound, else 17; or 16. With 0 and 17 the scratch is
 * zeroed.
 */
uint32_t nazsombet_check(const uint32_t *tables, size_t tables_length, const uint32_t *grants, size_t grants_length,
                         uint32_t *scratch, size_t scratch_length);

/*
 * Takes a call. The answer is written whole, and its code is returned too. Tables and grants are checked first, every
 * time. With code 0, 1 or 2 the call is made, and they hold what came of it; with 16 and more they are as they were.
 * The scratch is zeroed, but with 16. Afterwards another thread may run: ask nazsombet_running.
 */
uint32_t nazsombet_call(uint32_t *tables, size_t tables_length, uint32_t *grants, size_t grants_length,
                        uint32_t *scratch, size_t scratch_length, const struct nazsombet_numbers *call,
                        struct nazsombet_answer *answer);

/*
 * Reads the call that begins at word *at of a journal. 0: the call is written, and *at goes to the first word behind
 * it. 18 or 19: the words there are no call, or one that is out of range; 255: *at is at or past the last word. With
 * these three *at stays, and the call is written as zeros. A call that was read is never refused by 18 or 19.
 */
uint32_t nazsombet_read(const uint32_t *journal, size_t journal_length, size_t *at, struct nazsombet_numbers *call);

/*
 * Writes a call as its journal words. 0: *count words, 1 to 3, and zeros behind them; 18 or 19: zeros and *count 0.
 */
uint32_t nazsombet_write(const struct nazsombet_numbers *call, uint32_t words[3], size_t *count);

/*
 * The thread that runs, 0 to 255, or 256 if none does, and no other number, whatever the words are. The tables are not
 * checked: of unsound ones it answers one of these, of tables that are not 4,096 words 256.
 */
uint32_t nazsombet_running(const uint32_t *tables, size_t tables_length);

/*
 * How the last waiting of a thread ended: woken is its outcome, 0 to 5, and with outcome 2 the badge and the message
 * that it received, else 0 and 0. A host tells them to the thread when it runs again after a call that was answered 1.
 * The tables are not checked: of unsound ones the outcome is any word, and badge and message too, or 0 and 0 where the
 * outcome is not 2. Of tables that are not 4,096 words, and of a number above 255, all three are 0.
 */
void nazsombet_woken(const uint32_t *tables, size_t tables_length, uint32_t thread, uint32_t woken[3]);

/* How a thread was woken, by name. */
struct nazsombet_waking {
    uint32_t outcome;
    uint32_t badge;   /* with outcome 2; else 0 */
    uint32_t message; /* the same */
};

/* All that is lent. Its first words are the tables', so it may be stored up to the scratch. */
struct nazsombet_lent {
    uint32_t tables[NAZSOMBET_TABLES];
    uint32_t grants[NAZSOMBET_GRANTS];
    uint32_t scratch[NAZSOMBET_SCRATCH];
};

/* What follows is compiled with the host: its own code, and none of it is proved. C89 has no inline. */
#if defined(__cplusplus) || (defined(__STDC_VERSION__) && __STDC_VERSION__ >= 199901L)
#define NAZSOMBET_INLINE static inline
#elif defined(__GNUC__)
#define NAZSOMBET_INLINE static __inline__
#else
#define NAZSOMBET_INLINE static
#endif

/* A call by all of its numbers. */
NAZSOMBET_INLINE struct nazsombet_numbers nazsombet_any_call(uint32_t number, uint32_t subject, uint32_t argument,
                                                             uint32_t badge, uint32_t message, uint32_t rights)
{
    struct nazsombet_numbers call;
    call.number = number;
    call.subject = subject;
    call.argument = argument;
    call.badge = badge;
    call.message = message;
    call.rights = rights;
    return call;
}

/* The thirteen calls, to be taken by nazsombet_call: none of these functions makes its call. */
NAZSOMBET_INLINE struct nazsombet_numbers nazsombet_create_thread_call(uint32_t thread, uint32_t priority)
{
    return nazsombet_any_call(NAZSOMBET_CREATE_THREAD, thread, priority, 0, 0, 0);
}

NAZSOMBET_INLINE struct nazsombet_numbers nazsombet_destroy_thread_call(uint32_t thread)
{
    return nazsombet_any_call(NAZSOMBET_DESTROY_THREAD, thread, 0, 0, 0, 0);
}

NAZSOMBET_INLINE struct nazsombet_numbers nazsombet_set_priority_call(uint32_t thread, uint32_t priority)
{
    return nazsombet_any_call(NAZSOMBET_SET_PRIORITY, thread, priority, 0, 0, 0);
}

NAZSOMBET_INLINE struct nazsombet_numbers nazsombet_create_endpoint_call(uint32_t endpoint)
{
    return nazsombet_any_call(NAZSOMBET_CREATE_ENDPOINT, endpoint, 0, 0, 0, 0);
}

NAZSOMBET_INLINE struct nazsombet_numbers nazsombet_interrupt_call(uint32_t line)
{
    return nazsombet_any_call(NAZSOMBET_INTERRUPT, line, 0, 0, 0, 0);
}

NAZSOMBET_INLINE struct nazsombet_numbers nazsombet_tick_call(void)
{
    return nazsombet_any_call(NAZSOMBET_TICK, 0, 0, 0, 0, 0);
}

NAZSOMBET_INLINE struct nazsombet_numbers nazsombet_send_call(uint32_t endpoint, uint32_t badge, uint32_t message)
{
    return nazsombet_any_call(NAZSOMBET_SEND, endpoint, 0, badge, message, 0);
}

NAZSOMBET_INLINE struct nazsombet_numbers nazsombet_receive_call(uint32_t endpoint)
{
    return nazsombet_any_call(NAZSOMBET_RECEIVE, endpoint, 0, 0, 0, 0);
}

NAZSOMBET_INLINE struct nazsombet_numbers nazsombet_yield_call(void)
{
    return nazsombet_any_call(NAZSOMBET_YIELD, 0, 0, 0, 0, 0);
}

NAZSOMBET_INLINE struct nazsombet_numbers nazsombet_wait_call(uint32_t line)
{
    return nazsombet_any_call(NAZSOMBET_WAIT, line, 0, 0, 0, 0);
}

NAZSOMBET_INLINE struct nazsombet_numbers nazsombet_delete_call(uint32_t endpoint, uint32_t allowance)
{
    return nazsombet_any_call(NAZSOMBET_DELETE, endpoint, allowance, 0, 0, 0);
}

NAZSOMBET_INLINE struct nazsombet_numbers nazsombet_abort_call(uint32_t endpoint, uint32_t allowance, uint32_t badge)
{
    return nazsombet_any_call(NAZSOMBET_ABORT, endpoint, allowance, badge, 0, 0);
}

NAZSOMBET_INLINE struct nazsombet_numbers nazsombet_grant_call(uint32_t thread, uint32_t endpoint, uint32_t rights,
                                                               uint32_t badge)
{
    return nazsombet_any_call(NAZSOMBET_GRANT, thread, endpoint, badge, 0, rights);
}

/* The entries on memory lent as a whole: none of them answers 16. */
NAZSOMBET_INLINE uint32_t nazsombet_lent_fresh(struct nazsombet_lent *lent)
{
    return nazsombet_fresh(lent->tables, NAZSOMBET_TABLES, lent->grants, NAZSOMBET_GRANTS);
}

NAZSOMBET_INLINE uint32_t nazsombet_lent_check(struct nazsombet_lent *lent)
{
    return nazsombet_check(lent->tables, NAZSOMBET_TABLES, lent->grants, NAZSOMBET_GRANTS, lent->scratch,
                           NAZSOMBET_SCRATCH);
}

NAZSOMBET_INLINE uint32_t nazsombet_lent_call(struct nazsombet_lent *lent, struct nazsombet_numbers call,
                                              struct nazsombet_answer *answer)
{
    return nazsombet_call(lent->tables, NAZSOMBET_TABLES, lent->grants, NAZSOMBET_GRANTS, lent->scratch,
                          NAZSOMBET_SCRATCH, &call, answer);
}

NAZSOMBET_INLINE uint32_t nazsombet_lent_running(const struct nazsombet_lent *lent)
{
    return nazsombet_running(lent->tables, NAZSOMBET_TABLES);
}

NAZSOMBET_INLINE struct nazsombet_waking nazsombet_lent_woken(const struct nazsombet_lent *lent, uint32_t thread)
{
    struct nazsombet_waking waking;
    uint32_t words[3];
    nazsombet_woken(lent->tables, NAZSOMBET_TABLES, thread, words);
    waking.outcome = words[0];
    waking.badge = words[1];
    waking.message = words[2];
    return waking;
}

#ifdef __cplusplus
}
#endif

#endif
