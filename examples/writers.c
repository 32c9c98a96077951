/*
 * A host that makes calls: a page store, twelve writers under two badges, and a keeper that aborts. A badge is moved
 * from six writers to a newcomer, by an abort that is broken off twice and taken up.
 *
 *     ./build.sh core_c
 *     cc -std=c99 -Wall -Wextra -Iinclude -o target/writers examples/writers.c target/staticlib/libcore_c.a
 *     target/writers
 *
 * It writes what examples/writers.txt has. What a thread would do by itself stands in a function for each kind of
 * thread. The host asks who runs, tells that thread how it was woken, makes the one call that it wants, and asks again:
 * after every call another thread may run.
 */
#include <inttypes.h>
#include <stdio.h>
#include <stdlib.h>

#include "nazsombet.h"

enum { KEEPER = 0, WRITERS = 12, STORE = 13, NEWCOMER = 14, THREADS = 15 };
enum { PAGES = 0 };            /* the endpoint at which the store receives pages */
enum { DISK = 0 };             /* the line of the store's disk; a writer rests on the line of its own number */
enum { MOVED = 7, OTHER = 8 }; /* the badges of odd and of even writers */
enum { LOWEST = 0, LOW = 5, MIDDLE = 10, HIGH = 20 };
enum { ALLOWANCE = 5 };        /* the waiters that one abort call may look at */

static struct nazsombet_lent lent;
static struct nazsombet_answer answer;

/* Of each thread whether its last call was answered 1: it is to be told how it was woken. And its pages so far. */
static int waits[THREADS];
static uint32_t pages[THREADS];

/* Whether the keeper has an abort to make or to take up. */
static int aborting;

/* The page that the store has received and not yet written; 0 is none. */
static uint32_t page, page_badge;

static void complain(const char *what, uint32_t number)
{
    fprintf(stderr, "writers: %s %" PRIu32 "\n", what, number);
    exit(1);
}

/* Makes a call of the host, which must be done. */
static void host(struct nazsombet_numbers call)
{
    if (nazsombet_lent_call(&lent, call, &answer) != NAZSOMBET_DONE)
        complain("a call of the host is answered", answer.code);
}

/* Makes a call of the thread that runs. */
static uint32_t by(uint32_t thread, struct nazsombet_numbers call)
{
    if (nazsombet_lent_running(&lent) != thread)
        complain("there runs another than thread", thread);
    uint32_t code = nazsombet_lent_call(&lent, call, &answer);
    waits[thread] = code == NAZSOMBET_BLOCKED;
    return code;
}

/* The store has a page and waits for its disk. */
static void store_page(uint32_t badge, uint32_t message)
{
    printf("store: page %" PRIu32 " of badge %" PRIu32 ", waits for the disk\n", message, badge);
    page = message;
    page_badge = badge;
    by(STORE, nazsombet_wait_call(DISK));
}

static void run_store(const struct nazsombet_waking *woken)
{
    if (woken->outcome == NAZSOMBET_MESSAGE_RECEIVED) {
        store_page(woken->badge, woken->message);
        return;
    }
    if (woken->outcome == NAZSOMBET_LINE_FIRED) {
        printf("store: wrote page %" PRIu32 " of badge %" PRIu32 "\n", page, page_badge);
        page = 0;
    }
    if (by(STORE, nazsombet_receive_call(PAGES)) == NAZSOMBET_DONE)
        store_page(answer.badge, answer.message);
    else
        printf("store: waits for a page\n");
}

/* Sends a page; what came of it. */
static uint32_t sends(uint32_t thread, uint32_t badge, uint32_t message)
{
    uint32_t code = by(thread, nazsombet_send_call(PAGES, badge, message));
    printf("thread %" PRIu32 ": sends page %" PRIu32 " under badge %" PRIu32 ": %" PRIu32 "\n", thread, message, badge,
           code);
    return code;
}

static void run_writer(uint32_t thread, const struct nazsombet_waking *woken)
{
    uint32_t badge = thread == NEWCOMER || thread % 2 == 1 ? MOVED : OTHER;
    if (woken->outcome == NAZSOMBET_MESSAGE_TAKEN || woken->outcome == NAZSOMBET_MESSAGE_ABORTED) {
        printf("thread %" PRIu32 ": its page is %s\n", thread,
               woken->outcome == NAZSOMBET_MESSAGE_TAKEN ? "taken" : "aborted");
        by(thread, nazsombet_wait_call(thread));
        return;
    }
    /* It begins, or its last page was taken at once, or its line has fired. Refused, it runs still. */
    if (sends(thread, badge, 100 * ++pages[thread] + thread) >= NAZSOMBET_LENGTH)
        by(thread, nazsombet_wait_call(thread));
}

/* Aborts the badge, or takes the abort up. Any other call of the keeper's would end its part in it. */
static void run_keeper(void)
{
    uint32_t code = by(KEEPER, nazsombet_abort_call(PAGES, ALLOWANCE, MOVED));
    printf("keeper: aborts badge %d: %" PRIu32 ", looked at %" PRIu32 "\n", MOVED, code, answer.count);
    aborting = code == NAZSOMBET_BROKEN_OFF;
}

/* Lets threads run until the keeper does, the lowest of them, and has nothing to do. */
static void run(void)
{
    uint32_t thread;
    while ((thread = nazsombet_lent_running(&lent)) != KEEPER || aborting) {
        struct nazsombet_waking woken = {NAZSOMBET_NO_OUTCOME, 0, 0};
        if (thread >= THREADS)
            complain("there is no thread", thread);
        if (waits[thread])
            woken = nazsombet_lent_woken(&lent, thread);
        if (thread == KEEPER)
            run_keeper();
        else if (thread == STORE)
            run_store(&woken);
        else
            run_writer(thread, &woken);
    }
}

/* A new thread is ready before it has its grant: it is created low and raised afterwards. */
static void create(uint32_t thread, uint32_t priority, uint32_t rights, uint32_t badge)
{
    host(nazsombet_create_thread_call(thread, LOWEST));
    host(nazsombet_grant_call(thread, PAGES, rights, badge));
    host(nazsombet_set_priority_call(thread, priority));
}

int main(void)
{
    nazsombet_lent_fresh(&lent);
    host(nazsombet_create_endpoint_call(PAGES));
    create(KEEPER, LOW, NAZSOMBET_RIGHT_ABORT, 0);
    create(STORE, HIGH, NAZSOMBET_RIGHT_RECEIVE, 0);
    for (uint32_t thread = 1; thread <= WRITERS; thread++)
        create(thread, MIDDLE, NAZSOMBET_RIGHT_SEND, thread % 2 == 1 ? MOVED : OTHER);
    run();

    printf("host: takes badge %d from the odd threads\n", MOVED);
    for (uint32_t thread = 1; thread <= WRITERS; thread += 2)
        host(nazsombet_grant_call(thread, PAGES, 0, 0));
    aborting = 1;
    run();

    printf("host: lets the store write what it has received\n");
    host(nazsombet_interrupt_call(DISK));
    run();

    printf("host: gives badge %d to thread %d\n", MOVED, NEWCOMER);
    create(NEWCOMER, MIDDLE, NAZSOMBET_RIGHT_SEND, MOVED);
    run();
    while (page != 0) {
        host(nazsombet_interrupt_call(DISK));
        run();
    }

    printf("host: thread 1 tries again\n");
    host(nazsombet_interrupt_call(1));
    run();
    return 0;
}
