/*
 * The box's threads. Writers' threads look chords up under their writer's badge, and the chord server answers; the
 * line-out thread prints the answers, a byte whenever the serial port is ready. The page store takes a badge from one
 * writer and gives it to the next, over and over, and a second store works on the same abort: no lookup of the old
 * writer may be answered to the new one, and no lookup of the new one may be removed.
 */
#include "box.h"

volatile uint32_t answered, wrong, moves;

/* Whose a badge is: its writers are counted, from 1. And what a writer's thread was told, and has still. */
static volatile uint32_t holder[BADGES + 1];
static volatile struct { uint32_t badge, holder, plugged; } plug[THREADS];
static volatile uint32_t aside; /* the first store has stepped aside */

/* ---- Calls ---- */

static struct request ask(struct nazsombet_numbers call)
{
    struct request request = {call, {0, 0, 0, 0}, 0};
    __asm__ volatile("int %0" : : "i"(CALL), "D"(&request) : "memory");
    return request;
}

static struct request send(uint32_t endpoint, uint32_t badge, uint32_t message)
{
    return ask(nazsombet_send_call(endpoint, badge, message));
}

static struct request receive(uint32_t endpoint)
{
    return ask(nazsombet_receive_call(endpoint));
}

static void wait(uint32_t line)
{
    ask(nazsombet_wait_call(line));
}

static uint32_t abort_lookups(uint32_t badge, uint32_t allowance)
{
    return ask(nazsombet_abort_call(LOOKUPS, allowance, badge)).answer.code;
}

/* The stores alone make this, and other calls of the host. */
static void set_priority(uint32_t thread, uint32_t priority)
{
    ask(nazsombet_set_priority_call(thread, priority));
}

/* ---- Writers, server, line-out ---- */

static void line_out(void)
{
    for (;;) {
        uint32_t badge = receive(PRINT).answer.message;
        out(TEXT, 'a' + badge);
        wait(SERIAL_LINE);
    }
}

static void server(void)
{
    for (uint32_t n = 0;; n++) {
        struct nazsombet_answer lookup = receive(LOOKUPS).answer;
        if (lookup.badge == STORES_BADGE)
            continue; /* the store now knows that all before it is answered */
        if (n % 4 == 0)
            wait(PAGE_LINE); /* the chord is on another page of the dictionary */
        answered++;
        wrong += lookup.message >> 16 != holder[lookup.badge];
        send(PRINT, 0, lookup.badge);
    }
}

/* The sum of i / 2 for i below n, in an SSE register. */
static double think(uint32_t n)
{
    double sum = 0;
    for (uint32_t i = 0; i < n; i++)
        sum += i * 0.5;
    return sum;
}

static void writer(uint32_t number)
{
    uint32_t badge = plug[number].badge;
    for (uint32_t n = 0;; n++) {
        uint32_t turns = 200 + 100 * (n % 8);
        wrong += think(turns) != turns * (turns - 1) / 2 * 0.5;
        struct request lookup = send(LOOKUPS, badge, plug[number].holder << 16 | (n & 0xFFFF));
        if (lookup.answer.code == NAZSOMBET_NO_RIGHT)
            break;
        wrong += lookup.answer.code > NAZSOMBET_BLOCKED;
        if (lookup.answer.code == NAZSOMBET_BLOCKED && lookup.outcome != NAZSOMBET_MESSAGE_TAKEN)
            wrong += lookup.outcome != NAZSOMBET_MESSAGE_ABORTED || plug[number].plugged;
        if (n % 4 == 3)
            ask(nazsombet_yield_call());
        if (n % 8 == 5)
            wrong += send(64, badge, 0).answer.code != NAZSOMBET_RANGE; /* no such endpoint: it is in no journal */
    }
    wrong += plug[number].plugged;
    receive(DRAWER);
    for (;;)
        wait(number); /* which never fires: the thread is destroyed there */
}

/* ---- The page stores ---- */

/*
 * Waits for interrupts without a call: any call 7 to 12 of its own would lead the thread out of the abort that it works
 * on. Those above run meanwhile.
 */
static void doze(uint32_t interrupts)
{
    while (interrupts-- > 0)
        __asm__ volatile("hlt");
}

/* Takes part in every abort: begins it, steps aside, and hears of its end later, mostly by a note. */
static void second_store(void)
{
    for (;;) {
        uint32_t badge = receive(TOGETHER).answer.message, before = moves;
        if (badge == 0)
            continue; /* the first store now knows that this one has heard of the last abort's end */
        while (abort_lookups(badge, 2) == NAZSOMBET_BROKEN_OFF) {
            set_priority(SECOND_STORE, SECOND_ASIDE);
            while (moves == before && !aside)
                doze(1);
            doze(4);
        }
        set_priority(SECOND_STORE, SECOND);
    }
}

/* A writer gets a badge that nobody has. Its threads are created low, and raised when all is granted. */
static void plug_in(uint32_t writer, uint32_t badge)
{
    uint32_t first = FIRST_WRITER + EACH * writer;
    holder[badge]++;
    for (uint32_t t = first; t < first + EACH; t++) {
        plug[t].badge = badge;
        plug[t].holder = holder[badge];
        plug[t].plugged = 1;
        ask(nazsombet_create_thread_call(t, LOW));
        ask(nazsombet_grant_call(t, LOOKUPS, NAZSOMBET_RIGHT_SEND, badge));
    }
    for (uint32_t t = first; t < first + EACH; t++)
        set_priority(t, WRITING);
}

/* Revokes a writer's badge, and aborts it, together with the second store. */
static void unplug(uint32_t writer, uint32_t badge)
{
    uint32_t first = FIRST_WRITER + EACH * writer, next = first;
    for (uint32_t t = first; t < first + EACH; t++) {
        plug[t].plugged = 0;
        ask(nazsombet_grant_call(t, LOOKUPS, 0, 0));
        ask(nazsombet_grant_call(t, DRAWER, NAZSOMBET_RIGHT_RECEIVE, 0));
    }
    send(TOGETHER, 0, badge); /* the second store is above: it has called before this one goes on */
    while (abort_lookups(badge, 1) == NAZSOMBET_BROKEN_OFF) {
        if (moves % 4 == 0 && next < first + EACH)
            ask(nazsombet_destroy_thread_call(next++)); /* perhaps the one that is to be looked at next */
        if (moves % 4 == 3) {
            aside = 1;
            set_priority(STORE, ASIDE); /* the second store ends the abort, and this one has the note */
        }
    }
    aside = 0;
    set_priority(STORE, STORES);
}

/* The unplugged threads are destroyed, and those in the drawer woken before. */
static void clear(uint32_t writer)
{
    uint32_t first = FIRST_WRITER + EACH * writer;
    ask(nazsombet_grant_call(STORE, DRAWER, NAZSOMBET_RIGHT_DELETE, 0));
    while (ask(nazsombet_delete_call(DRAWER, 1)).answer.code == NAZSOMBET_BROKEN_OFF)
        ;
    ask(nazsombet_create_endpoint_call(DRAWER)); /* which takes all grants there */
    for (uint32_t t = first; t < first + EACH; t++)
        ask(nazsombet_destroy_thread_call(t));
}

static void store(void)
{
    uint32_t has[BADGES + 1] = {3, 0, 1, 2}; /* which writer has the badge; 0: which has none */
    for (uint32_t badge = 1; badge <= BADGES; badge++)
        plug_in(has[badge], badge);
    for (;; moves++) {
        uint32_t badge = 1 + moves % BADGES, old = has[badge];
        send(TOGETHER, 0, 0);
        unplug(old, badge);
#ifndef FAULT_SERVER_NOT_WAITED_FOR
        send(LOOKUPS, STORES_BADGE, 0); /* taken when the server has answered what it had received before */
#endif
        clear(old);
        plug_in(has[0], badge);
        has[badge] = has[0];
        has[0] = old;
    }
}

void thread(uint32_t number)
{
    if (number == LINE_OUT)
        line_out();
    else if (number == SERVER)
        server();
    else if (number == STORE)
        store();
    else if (number == SECOND_STORE)
        second_store();
    else
        writer(number);
}
