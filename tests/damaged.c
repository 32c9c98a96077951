/*
 * damaged JOURNAL...: damaged tables and grants are refused by 17 and left as they are, or they are sound and stay so.
 *
 * The journals' calls lead to full tables, of which some are kept with their grants; these are then damaged in every
 * kind of way, checked and called on. All that the library is lent lies between pages that nobody may touch: it is not
 * compiled with a sanitizer itself, and a step out of the lent words must end the program.
 *
 *     sh tests/damaged.sh
 *
 * Prints how many cases of each kind were refused and how many were sound; the last line is 'damaged: N passed, M
 * failed', by kinds, and the exit status is 0 only where none failed.
 */
#define _DEFAULT_SOURCE
#include <inttypes.h>
#include <stdio.h>
#include <stdlib.h>
#include <string.h>
#include <sys/mman.h>
#include <unistd.h>

#include "nazsombet.h"

enum {
    TABLES = NAZSOMBET_TABLES,
    GRANTS = NAZSOMBET_GRANTS,
    SCRATCH = NAZSOMBET_SCRATCH,
    THREADS = 256,
    QUEUES = 320,
    ENDPOINTS = 64,
    PARTS = 3,      /* of a journal: tables are kept of each */
    CROWD = 20000,  /* calls by chance after a journal: tables are kept of these too */
    PLACED = 8000,  /* cases of random words in random places, for each seed */
    RANDOM = 1000,  /* cases of random words everywhere, for each seed */
    GRANTED = 1000, /* cases of random grants, for each seed */
    CASTS = 8,      /* of each thread into a set, for each seed */
    COMPLAINTS = 20 /* printed in all */
};

static void complain(const char *what)
{
    fprintf(stderr, "damaged: %s\n", what);
    exit(1);
}

/* Chance, the same in every run (splitmix64). */
static uint32_t chance(void)
{
    static uint64_t state;
    uint64_t z = state += UINT64_C(0x9E3779B97F4A7C15);
    z = (z ^ z >> 30) * UINT64_C(0xBF58476D1CE4E5B9);
    z = (z ^ z >> 27) * UINT64_C(0x94D049BB133111EB);
    return (uint32_t)(z >> 32);
}

static uint32_t below(uint32_t limit)
{
    return (uint32_t)((uint64_t)chance() * limit >> 32);
}

/* Lent memory. */

/* Words between two pages that nobody may touch. */
struct room {
    uint32_t *start;
    uint32_t *end;
};

static struct room room(size_t words)
{
    size_t page = (size_t)sysconf(_SC_PAGESIZE);
    size_t bytes = (words * sizeof(uint32_t) + page - 1) / page * page;
    char *all = mmap(NULL, bytes + 2 * page, PROT_NONE, MAP_PRIVATE | MAP_ANONYMOUS, -1, 0);
    if (all == MAP_FAILED || mprotect(all + page, bytes, PROT_READ | PROT_WRITE) != 0)
        complain("there is no memory between guard pages");
    struct room made = {(void *)(all + page), (void *)(all + page + bytes)};
    return made;
}

static struct room tables_room, grants_room, scratch_room;
static struct room wrong_tables_room, wrong_grants_room, wrong_scratch_room;
static struct nazsombet_numbers *call;
static struct nazsombet_answer *answer;
static uint32_t *woken;

/* Calls and answers end at a guard page too. */
static void make_rooms(void)
{
    tables_room = room(TABLES);
    grants_room = room(GRANTS);
    scratch_room = room(SCRATCH);
    wrong_tables_room = room(TABLES + 1);
    wrong_grants_room = room(GRANTS + 1);
    wrong_scratch_room = room(SCRATCH + 1);
    call = (void *)(room(1).end - sizeof *call / sizeof(uint32_t));
    answer = (void *)(room(1).end - sizeof *answer / sizeof(uint32_t));
    woken = room(1).end - 3;
}

/* So many words behind a room's first guard page or before its last. */
static uint32_t *lent(struct room room, size_t count)
{
    return below(2) == 0 ? room.start : room.end - count;
}

/* The tables and the grants of the case. */
static uint32_t words[TABLES], granted[GRANTS];

static uint32_t *lent_tables(void)
{
    uint32_t *tables = lent(tables_room, TABLES);
    memcpy(tables, words, sizeof words);
    return tables;
}

static uint32_t *lent_grants(void)
{
    uint32_t *grants = lent(grants_room, GRANTS);
    memcpy(grants, granted, sizeof granted);
    return grants;
}

static uint32_t *lent_scratch(void)
{
    uint32_t *scratch = lent(scratch_room, SCRATCH);
    memset(scratch, 1 + (int)below(255), SCRATCH * sizeof *scratch);
    return scratch;
}

static int unchanged(const uint32_t *tables, const uint32_t *grants)
{
    return memcmp(tables, words, sizeof words) == 0 && memcmp(grants, granted, sizeof granted) == 0;
}

static int zeroed(const uint32_t *scratch)
{
    static const uint32_t zeros[SCRATCH];
    return memcmp(scratch, zeros, sizeof zeros) == 0;
}

/* What came of the cases. */

struct kind {
    const char *name;
    int may_be_sound; /* and then some must be */
    unsigned long refused;
    unsigned long sound;
    unsigned long wrong;
};

enum { KINDS = 9 };

static struct kind kinds[KINDS] = {
    {"every single word", 1, 0, 0, 0},
    {"random words in random places", 1, 0, 0, 0},
    {"cycles and crossed links", 0, 0, 0, 0},
    {"threads put into sets", 1, 0, 0, 0},
    {"random words everywhere", 0, 0, 0, 0},
    {"every single grant", 1, 0, 0, 0},
    {"random grants in random places", 1, 0, 0, 0},
    {"lengths", 0, 0, 0, 0},
    {"254 members of one abort", 1, 0, 0, 0},
};

/* The kind of the case. */
static struct kind *kind;

static void expect(int holds, const char *what)
{
    static int complaints;
    if (holds)
        return;
    kind->wrong++;
    if (complaints++ < COMPLAINTS)
        printf("failed: %s, case %lu: %s\n", kind->name, kind->refused + kind->sound, what);
}

/* Calls. */

static const struct nazsombet_numbers out_of_range = {NAZSOMBET_WAIT, 32, 0, 0, 0, 0};

/* Any call that is in range. */
static struct nazsombet_numbers any_call(void)
{
    static const uint16_t subjects[] = {1, 256, 256, 256, 64, 32, 1, 64, 64, 1, 32, 64, 64, 256};
    uint32_t number = 1 + below(13);
    struct nazsombet_numbers any = {number, below(subjects[number]), 0, 0, 0, 0};
    if (number == NAZSOMBET_CREATE_THREAD || number == NAZSOMBET_SET_PRIORITY)
        any.argument = below(256);
    if (number == NAZSOMBET_DELETE || number == NAZSOMBET_ABORT)
        any.argument = 1 + below(below(2) ? 3 : 65535);
    if (number == NAZSOMBET_SEND || number == NAZSOMBET_ABORT || number == NAZSOMBET_GRANT)
        any.badge = below(4);
    if (number == NAZSOMBET_SEND)
        any.message = below(1 << 28);
    if (number == NAZSOMBET_GRANT) {
        any.argument = below(ENDPOINTS);
        any.rights = below(16);
    }
    return any;
}

/* The right that a call needs, or 0. */
static uint32_t right_for(uint32_t number)
{
    switch (number) {
    case NAZSOMBET_SEND:
        return NAZSOMBET_RIGHT_SEND;
    case NAZSOMBET_RECEIVE:
        return NAZSOMBET_RIGHT_RECEIVE;
    case NAZSOMBET_DELETE:
        return NAZSOMBET_RIGHT_DELETE;
    case NAZSOMBET_ABORT:
        return NAZSOMBET_RIGHT_ABORT;
    default:
        return 0;
    }
}

static uint32_t *grant_of(uint32_t *grants, uint32_t thread, uint32_t endpoint)
{
    return grants + ENDPOINTS * thread + endpoint;
}

/* Whether the call, which is in range, must be refused by 29 on the case's tables and grants, which are sound. */
static int lacks(uint32_t running)
{
    uint32_t right = right_for(call->number);
    if (right == 0 || running == NAZSOMBET_NOBODY)
        return 0;
    uint32_t grant = *grant_of(granted, running, call->subject);
    int other = call->number == NAZSOMBET_SEND && grant % (1 << 28) != call->badge;
    return (grant >> 28 & right) == 0 || other;
}

/* Whether a call on tables and grants that were checked so may be answered so. */
static int may_answer(uint32_t checked, uint32_t running, uint32_t code)
{
    if (checked == NAZSOMBET_UNSOUND)
        return code == NAZSOMBET_UNSOUND;
    if (memcmp(call, &out_of_range, sizeof *call) == 0)
        return code == NAZSOMBET_RANGE;
    if (lacks(running))
        return code == NAZSOMBET_NO_RIGHT;
    return code <= NAZSOMBET_BROKEN_OFF || (code >= NAZSOMBET_NOBODY_RUNS && code <= NAZSOMBET_LINE_TAKEN);
}

/* The grants after the call was made on those of the case. */
static const uint32_t *grants_left(void)
{
    static uint32_t left[GRANTS];
    memcpy(left, granted, sizeof left);
    if (call->number == NAZSOMBET_CREATE_THREAD)
        memset(grant_of(left, call->subject, 0), 0, ENDPOINTS * sizeof *left);
    if (call->number == NAZSOMBET_CREATE_ENDPOINT)
        for (uint32_t thread = 0; thread < THREADS; thread++)
            *grant_of(left, thread, call->subject) = 0;
    if (call->number == NAZSOMBET_GRANT)
        *grant_of(left, call->subject, call->argument) = call->rights == 0 ? 0 : call->rights << 28 | call->badge;
    return left;
}

/* Cases. */

static void expect_refusal(uint32_t code)
{
    expect(answer->code == code && answer->count == 0 && answer->badge == 0 && answer->message == 0,
           "a refusal is its number and three zeros");
}

/* What an accepted call has left. */
static void expect_sound(const uint32_t *tables, const uint32_t *grants)
{
    uint32_t *scratch = lent_scratch();
    uint32_t code = nazsombet_check(tables, TABLES, grants, GRANTS, scratch, SCRATCH);
    expect(code == NAZSOMBET_DONE, "tables and grants after a call");
    expect(zeroed(scratch), "the scratch after the second check");
    expect(memcmp(grants, grants_left(), sizeof granted) == 0, "the grants after a call");
}

/* One call on the case's tables and grants. */
static void try_call(uint32_t checked, struct nazsombet_numbers numbers)
{
    uint32_t *tables = lent_tables();
    uint32_t *grants = lent_grants();
    uint32_t *scratch = lent_scratch();
    uint32_t running = nazsombet_running(tables, TABLES);
    *call = numbers;
    memset(answer, 0xA5, sizeof *answer);
    uint32_t code = nazsombet_call(tables, TABLES, grants, GRANTS, scratch, SCRATCH, call, answer);
    expect(may_answer(checked, running, code), "the answer");
    expect(answer->code == code, "the answer that is written");
    expect(memcmp(call, &numbers, sizeof *call) == 0, "the call is left as it was");
    expect(zeroed(scratch), "the scratch after the call");
    if (code >= NAZSOMBET_LENGTH) {
        expect_refusal(code);
        expect(unchanged(tables, grants), "tables and grants after a refusal");
    } else {
        expect_sound(tables, grants);
    }
}

/* How a thread was woken, each in its turn, is what its words say; all is 0 of two numbers that are no thread's. */
static void expect_woken(const uint32_t *tables, size_t length)
{
    static uint32_t turn;
    uint32_t thread = turn++ % (THREADS + 2);
    uint32_t told[3] = {0, 0, 0};
    if (length == TABLES && thread < THREADS) {
        const uint32_t *outcome = tables + 10 * thread + 3;
        memcpy(told, outcome, *outcome == NAZSOMBET_MESSAGE_RECEIVED ? sizeof told : sizeof *told);
    }
    memset(woken, 0xA5, sizeof told);
    nazsombet_woken(tables, length, thread > THREADS ? UINT32_MAX : thread, woken);
    expect(memcmp(woken, told, sizeof told) == 0, "how a thread was woken");
}

static uint32_t try_check(void)
{
    uint32_t *tables = lent_tables();
    uint32_t *grants = lent_grants();
    uint32_t *scratch = lent_scratch();
    uint32_t code = nazsombet_check(tables, TABLES, grants, GRANTS, scratch, SCRATCH);
    expect(code == NAZSOMBET_DONE || code == NAZSOMBET_UNSOUND, "the check");
    expect(unchanged(tables, grants), "tables and grants after the check");
    expect(zeroed(scratch), "the scratch after the check");
    uint32_t running = nazsombet_running(tables, TABLES);
    expect(running <= NAZSOMBET_NOBODY, "the thread that runs");
    expect_woken(tables, TABLES);
    return code;
}

/* Checks the case's tables and grants and calls on them; the check's answer. */
static uint32_t try(void)
{
    static const struct nazsombet_numbers tick = {NAZSOMBET_TICK, 0, 0, 0, 0, 0};
    static const struct nazsombet_numbers yield = {NAZSOMBET_YIELD, 0, 0, 0, 0, 0};
    struct nazsombet_numbers an_abort = {NAZSOMBET_ABORT, below(ENDPOINTS), 2, 0, 0, 0};
    an_abort.badge = below(4);
    uint32_t checked = try_check();
    try_call(checked, tick);
    try_call(checked, yield);
    try_call(checked, an_abort);
    try_call(checked, out_of_range);
    try_call(checked, any_call());
    if (checked == NAZSOMBET_DONE)
        kind->sound++;
    else
        kind->refused++;
    return checked;
}

/* Every single word. */

/* Four other words; one of the first two has the lowest bit alone flipped. */
static uint32_t other_word(uint32_t word, int way)
{
    switch (way) {
    case 0:
        return word + 1;
    case 1:
        return word - 1;
    case 2:
        return word == 0 ? 2 + below(300) : 0;
    default:
        return word ^ (1 + below(UINT32_MAX));
    }
}

static void single_words(const uint32_t *seed)
{
    for (int at = 0; at < TABLES; at++) {
        for (int way = 0; way < 4; way++) {
            words[at] = other_word(seed[at], way);
            try();
        }
        words[at] = seed[at];
    }
}

/* Random words. */

/* A word of any size, a small one, or one that stands elsewhere in the tables. */
static uint32_t some_word(void)
{
    switch (below(3)) {
    case 0:
        return chance();
    case 1:
        return below(331);
    default:
        return words[below(TABLES)];
    }
}

static void random_places(const uint32_t *seed)
{
    for (int n = 0; n < PLACED; n++) {
        for (uint32_t changes = 1 + below(6); changes > 0; changes--) {
            uint32_t at = below(TABLES);
            words[at] = some_word();
        }
        try();
        memcpy(words, seed, sizeof words);
    }
}

static void random_everywhere(const uint32_t *seed)
{
    static const uint32_t limits[] = {UINT32_MAX, 1 << 28, 331, 257, 6, 2};
    for (int n = 0; n < RANDOM; n++) {
        for (int at = 0; at < TABLES; at++)
            words[at] = below(limits[n % 6]);
        try();
    }
    memcpy(words, seed, sizeof words);
}

/* The tables, by docs/LAYOUT.md. */

enum { PLACE = 0, PRIORITY = 1, NEXT = 6, PREV = 7, OWES = 8, NOTE = 9 }; /* of a thread */
enum { HEAD = 0, TAIL = 1 };                                             /* of a queue */
enum { STATUS = 0, ABORTING = 1, ABORTED = 2, CURSOR = 3, END = 4 };      /* of an endpoint */

static int thread_word(int thread, int word)
{
    return 10 * thread + word;
}

static int queue_word(int queue, int word)
{
    return 2560 + 2 * queue + word;
}

static int endpoint_word(int endpoint, int word)
{
    return 3200 + 5 * endpoint + word;
}

/* Cycles and crossed links. */

/* The queue that a thread's place and priority name, or -1. */
static int queue_of(const uint32_t *seed, int thread)
{
    uint32_t place = seed[thread_word(thread, PLACE)];
    if (place == 1)
        return (int)seed[thread_word(thread, PRIORITY)];
    if (place >= 2 && place < 130)
        return 256 + (int)((place - 2) % 64);
    return -1;
}

static void put(int at, uint32_t word)
{
    words[at] = word;
}

static void exchange(int at, int with)
{
    uint32_t word = words[at];
    words[at] = words[with];
    words[with] = word;
}

/* Tries what was made of the seed, unless that is the seed itself, and goes back to it. */
static void try_made(const uint32_t *seed)
{
    if (memcmp(words, seed, sizeof words) != 0)
        try();
    memcpy(words, seed, sizeof words);
}

/* A thread's next or prev is itself, the one on its other side, an end of its queue, or any thread. */
static void bent_link(const uint32_t *seed, int thread, int link, int back, int queue)
{
    uint32_t targets[] = {(uint32_t)thread + 1, seed[thread_word(thread, back)], seed[queue_word(queue, HEAD)],
                          seed[queue_word(queue, TAIL)], 1 + below(THREADS)};
    for (size_t n = 0; n < sizeof targets / sizeof *targets; n++) {
        put(thread_word(thread, link), targets[n]);
        try_made(seed);
    }
}

/* The thread is passed over by its neighbours, and is left as it is or as a ring of its own. */
static void passed_over(const uint32_t *seed, int thread, int queue)
{
    uint32_t next = seed[thread_word(thread, NEXT)];
    uint32_t prev = seed[thread_word(thread, PREV)];
    for (int ring = 0; ring < 2; ring++) {
        put(prev == 0 ? queue_word(queue, HEAD) : thread_word((int)prev - 1, NEXT), next);
        put(next == 0 ? queue_word(queue, TAIL) : thread_word((int)next - 1, PREV), prev);
        put(thread_word(thread, NEXT), ring ? (uint32_t)thread + 1 : next);
        put(thread_word(thread, PREV), ring ? (uint32_t)thread + 1 : prev);
        try_made(seed);
    }
}

/* The last in a queue and the first are joined: links that agree and never come to an end. */
static void closed_ring(const uint32_t *seed, int queue)
{
    uint32_t head = seed[queue_word(queue, HEAD)];
    uint32_t tail = seed[queue_word(queue, TAIL)];
    put(thread_word((int)tail - 1, NEXT), head);
    put(thread_word((int)head - 1, PREV), tail);
    try_made(seed);
}

/* Two words of one thing exchanged with those of another: the first, the second, both. */
static void crossed(const uint32_t *seed, int at, int with)
{
    for (int which = 1; which < 4; which++) {
        if (which & 1)
            exchange(at, with);
        if (which & 2)
            exchange(at + 1, with + 1);
        try_made(seed);
    }
}

static void thread_links(const uint32_t *seed, int thread)
{
    int queue = queue_of(seed, thread);
    if (queue < 0)
        return;
    bent_link(seed, thread, NEXT, PREV, queue);
    bent_link(seed, thread, PREV, NEXT, queue);
    int listed = seed[thread_word(thread, PREV)] != 0 || seed[queue_word(queue, HEAD)] == (uint32_t)thread + 1;
    if (listed)
        passed_over(seed, thread, queue);
    for (int n = 0; n < 8; n++)
        crossed(seed, thread_word(thread, NEXT), thread_word((int)below(THREADS), NEXT));
}

static void queue_links(const uint32_t *seed, int queue)
{
    if (seed[queue_word(queue, HEAD)] == 0)
        return;
    closed_ring(seed, queue);
    exchange(queue_word(queue, HEAD), queue_word(queue, TAIL));
    try_made(seed);
    for (int with = 0; with < QUEUES; with++)
        if (seed[queue_word(with, HEAD)] != 0 || with % 32 == 0)
            crossed(seed, queue_word(queue, HEAD), queue_word(with, HEAD));
}

static void abort_marks(const uint32_t *seed, int endpoint)
{
    if (seed[endpoint_word(endpoint, CURSOR)] == 0)
        return;
    exchange(endpoint_word(endpoint, CURSOR), endpoint_word(endpoint, END));
    try_made(seed);
    for (int with = 0; with < ENDPOINTS; with++)
        crossed(seed, endpoint_word(endpoint, CURSOR), endpoint_word(with, CURSOR));
}

static void links(const uint32_t *seed)
{
    for (int thread = 0; thread < THREADS; thread++)
        thread_links(seed, thread);
    for (int queue = 0; queue < QUEUES; queue++)
        queue_links(seed, queue);
    for (int endpoint = 0; endpoint < ENDPOINTS; endpoint++)
        abort_marks(seed, endpoint);
}

/* Members of sets. */

/* A note that the thread had is gone. */
static void put_member(int thread, int endpoint)
{
    put(thread_word(thread, OWES), 1 + (uint32_t)endpoint);
    put(thread_word(thread, NOTE), 0);
}

/* A member must be there, and an abort must stand; it may be blocked. */
static void try_member(const uint32_t *seed, int thread, int endpoint)
{
    put_member(thread, endpoint);
    int sound = seed[thread_word(thread, PLACE)] != 0 && seed[endpoint_word(endpoint, ABORTING)] == 1;
    expect((try() == NAZSOMBET_DONE) == sound, "whether the member is sound");
    memcpy(words, seed, sizeof words);
}

/* Each thread into the sets of some endpoints, and of all where an abort stands. */
static void single_members(const uint32_t *seed)
{
    for (int thread = 0; thread < THREADS; thread++)
        for (int endpoint = 0; endpoint < ENDPOINTS; endpoint++)
            if ((endpoint + thread) % (ENDPOINTS / CASTS) == 0 || seed[endpoint_word(endpoint, ABORTING)] == 1)
                try_member(seed, thread, endpoint);
}

/* Grants, beside sound tables. */

static int sound_grant(uint32_t word)
{
    return word == 0 || word >= 1 << 28;
}

/* The seed's number from 0, and how many there are: together they go through every single grant. */
static int seed_number, seeds_number;

static void single_grants(const uint32_t *seed)
{
    static const uint32_t others[] = {0, 1, (1 << 28) - 1, 1 << 28, UINT32_MAX};
    (void)seed;
    for (int at = seed_number; at < GRANTS; at += seeds_number) {
        uint32_t kept = granted[at];
        for (size_t n = 0; n < sizeof others / sizeof *others; n++) {
            granted[at] = others[n];
            expect((try() == NAZSOMBET_DONE) == sound_grant(others[n]), "whether the grant is sound");
        }
        granted[at] = kept;
    }
}

/* A word of any size, one that grants nothing, or one that stands elsewhere in the grants. */
static uint32_t some_grant(void)
{
    switch (below(8)) {
    case 0:
        return below(1 << 28);
    case 1:
        return granted[below(GRANTS)];
    default:
        return chance();
    }
}

static void random_grants(const uint32_t *seed)
{
    static uint32_t kept[GRANTS];
    (void)seed;
    memcpy(kept, granted, sizeof kept);
    for (int n = 0; n < GRANTED; n++) {
        int sound = 1;
        for (uint32_t changes = 1 + below(6); changes > 0; changes--) {
            uint32_t word = some_grant();
            sound &= sound_grant(word);
            /* Never twice into the same word. */
            granted[8 * below(GRANTS / 8) + changes] = word;
        }
        expect((try() == NAZSOMBET_DONE) == sound, "whether the grants are sound");
        memcpy(granted, kept, sizeof kept);
    }
}

/* Lengths. */

/* What is lent, as far as it goes: the case's tables and grants and a word more of each, and junk. */
static uint32_t tables_copy[TABLES + 1], grants_copy[GRANTS + 1], scratch_copy[SCRATCH + 1];

static void make_copies(void)
{
    memcpy(tables_copy, words, sizeof words);
    tables_copy[TABLES] = chance();
    memcpy(grants_copy, granted, sizeof granted);
    grants_copy[GRANTS] = chance();
    for (int at = 0; at <= SCRATCH; at++)
        scratch_copy[at] = chance();
}

static uint32_t *lent_copy(struct room room, const uint32_t *copy, size_t count)
{
    uint32_t *to = lent(room, count);
    memcpy(to, copy, count * sizeof *to);
    return to;
}

/* Memory that is lent, between guard pages, and what it holds. */
struct memory {
    struct room room;
    const uint32_t *copy;
    size_t length;
    uint32_t *lent;
};

static void try_lengths(struct memory t, struct memory g, struct memory s)
{
    struct memory *all[] = {&t, &g, &s};
    for (int n = 0; n < 3; n++)
        all[n]->lent = lent_copy(all[n]->room, all[n]->copy, all[n]->length);
    *call = any_call();
    memset(answer, 0xA5, sizeof *answer);
    uint32_t code = nazsombet_check(t.lent, t.length, g.lent, g.length, s.lent, s.length);
    expect(code == NAZSOMBET_LENGTH, "the check");
    code = nazsombet_call(t.lent, t.length, g.lent, g.length, s.lent, s.length, call, answer);
    expect(code == NAZSOMBET_LENGTH, "the call");
    expect_refusal(NAZSOMBET_LENGTH);
    if (t.length != TABLES || g.length != GRANTS)
        expect(nazsombet_fresh(t.lent, t.length, g.lent, g.length) == NAZSOMBET_LENGTH, "make fresh");
    if (t.length != TABLES)
        expect(nazsombet_running(t.lent, t.length) == NAZSOMBET_NOBODY, "the thread that runs");
    expect_woken(t.lent, t.length);
    for (int n = 0; n < 3; n++)
        expect(memcmp(all[n]->lent, all[n]->copy, all[n]->length * sizeof(uint32_t)) == 0, "what was lent");
    kind->refused++;
}

/* Each of the three of every length, but for all of the right one. */
static void all_lengths(void)
{
    static const size_t tables[] = {0, 1, TABLES - 1, TABLES, TABLES + 1};
    static const size_t grants[] = {0, 1, GRANTS - 1, GRANTS, GRANTS + 1};
    static const size_t scratches[] = {0, 1, SCRATCH - 1, SCRATCH, SCRATCH + 1};
    for (int n = 0; n < 125; n++) {
        struct memory t = {wrong_tables_room, tables_copy, tables[n / 25], NULL};
        struct memory g = {wrong_grants_room, grants_copy, grants[n / 5 % 5], NULL};
        struct memory s = {wrong_scratch_room, scratch_copy, scratches[n % 5], NULL};
        if (t.length != TABLES || g.length != GRANTS || s.length != SCRATCH)
            try_lengths(t, g, s);
    }
}

/* On sound tables and on unsound ones: 16 comes before 17. */
static void lengths(const uint32_t *seed)
{
    for (int sound = 0; sound < 2; sound++) {
        words[0] = sound ? seed[0] : UINT32_MAX;
        make_copies();
        all_lengths();
    }
}

/* 254 members of one abort: as many as calls can lead to. */

/* Makes a call on the tables that the others were made on; it is answered so. */
static void make(struct nazsombet_numbers numbers, uint32_t code)
{
    *call = numbers;
    uint32_t *tables = tables_room.start;
    uint32_t *grants = grants_room.start;
    uint32_t got = nazsombet_call(tables, TABLES, grants, GRANTS, scratch_room.start, SCRATCH, call, answer);
    expect(got == code, "a call on the way to the members");
}

/* All threads but one wait at endpoint 0 under badge 1, then one after the other removes one and is broken off. */
static void make_members(int members)
{
    static const struct nazsombet_numbers endpoint = {NAZSOMBET_CREATE_ENDPOINT, 0, 0, 0, 0, 0};
    static const struct nazsombet_numbers send = {NAZSOMBET_SEND, 0, 0, 1, 0, 0};
    static const struct nazsombet_numbers abort_one = {NAZSOMBET_ABORT, 0, 1, 1, 0, 0};
    nazsombet_fresh(tables_room.start, TABLES, grants_room.start, GRANTS);
    make(endpoint, NAZSOMBET_DONE);
    for (uint32_t thread = 0; thread < THREADS; thread++) {
        struct nazsombet_numbers create = {NAZSOMBET_CREATE_THREAD, thread, 1, 0, 0, 0};
        struct nazsombet_numbers grant = {NAZSOMBET_GRANT, thread, 0, 1, 0, 15};
        make(create, NAZSOMBET_DONE);
        make(grant, NAZSOMBET_DONE);
    }
    for (int n = 1; n < THREADS; n++)
        make(send, NAZSOMBET_BLOCKED);
    for (int n = 0; n < members; n++) {
        struct nazsombet_numbers lower = {NAZSOMBET_SET_PRIORITY, 0, 0, 0, 0, 0};
        lower.subject = nazsombet_running(tables_room.start, TABLES);
        make(abort_one, NAZSOMBET_BROKEN_OFF);
        make(lower, NAZSOMBET_DONE);
    }
    memcpy(words, tables_room.start, sizeof words);
    memcpy(granted, grants_room.start, sizeof granted);
}

/* The call ends their abort, by a thread that is none of them: all of them are noted, and nobody else. */
static void try_ending(int members, struct nazsombet_numbers ending, uint32_t code)
{
    make_members(members);
    uint32_t *tables = lent_tables();
    uint32_t *grants = lent_grants();
    uint32_t *scratch = lent_scratch();
    *call = ending;
    uint32_t got = nazsombet_call(tables, TABLES, grants, GRANTS, scratch, SCRATCH, call, answer);
    expect(got == code, "the call that ends the abort");
    for (int thread = 0; thread < THREADS; thread++) {
        int noted = tables[thread_word(thread, OWES)] == 65 && tables[thread_word(thread, NOTE)] == 1;
        int nothing = tables[thread_word(thread, OWES)] == 0 && tables[thread_word(thread, NOTE)] == 0;
        expect(words[thread_word(thread, OWES)] == 1 ? noted : nothing, "who is noted");
    }
    expect(tables[endpoint_word(0, ABORTING)] == 0, "that the abort has ended");
    expect_sound(tables, grants);
    kind->sound++;
}

/* All members at another endpoint, where no abort stands. */
static void try_elsewhere(int endpoint, uint32_t status)
{
    make_members(254);
    put(endpoint_word(endpoint, STATUS), status);
    for (int thread = 0; thread < THREADS; thread++)
        if (words[thread_word(thread, OWES)] == 1)
            put_member(thread, endpoint);
    expect(try() == NAZSOMBET_UNSOUND, "members without an abort");
}

static void many_members(const uint32_t *seed)
{
    static const struct nazsombet_numbers same = {NAZSOMBET_ABORT, 0, 1, 1, 0, 0};
    static const struct nazsombet_numbers other = {NAZSOMBET_ABORT, 0, 1, 2, 0, 0};
    static const struct nazsombet_numbers delete = {NAZSOMBET_DELETE, 0, 1, 0, 0, 0};
    (void)seed;
    make_members(254);
    int members = 0;
    for (int thread = 0; thread < THREADS; thread++)
        members += words[thread_word(thread, OWES)] == 1;
    expect(members == 254 && try() == NAZSOMBET_DONE, "254 members");
    for (int thread = 0; thread < THREADS; thread++)
        put_member(thread, 0);
    expect(try() == NAZSOMBET_DONE, "all threads members");
    try_elsewhere(63, 0);
    try_elsewhere(63, 1);
    try_elsewhere(63, 2);
    try_ending(254, same, NAZSOMBET_DONE);
    try_ending(254, other, NAZSOMBET_BROKEN_OFF);
    try_ending(254, delete, NAZSOMBET_DONE);
    try_ending(253, delete, NAZSOMBET_BROKEN_OFF);
}

/* Seeds. */

static struct room journal_room;

/* The words of a journal, at the end of a room. */
static size_t read_journal(const char *name)
{
    FILE *file = fopen(name, "rb");
    if (file == NULL || fseek(file, 0, SEEK_END) != 0)
        complain("a journal could not be opened");
    size_t count = (size_t)ftell(file) / 4;
    rewind(file);
    journal_room = room(count + 1);
    for (uint32_t *word = journal_room.end - count; word < journal_room.end; word++) {
        unsigned char b[4];
        if (fread(b, 1, sizeof b, file) != sizeof b)
            complain("a journal could not be read");
        *word = b[0] | (uint32_t)b[1] << 8 | (uint32_t)b[2] << 16 | (uint32_t)b[3] << 24;
    }
    fclose(file);
    return count;
}

/* Sound tables and grants that calls have led to. */
struct seed {
    unsigned depth;
    uint32_t words[TABLES];
    uint32_t grants[GRANTS];
};

/* How much is going on in the tables: the words in use, and an abort under way for many. */
static unsigned depth(const uint32_t *tables)
{
    unsigned sum = 0;
    for (int at = 0; at < TABLES; at++)
        sum += tables[at] != 0;
    for (int endpoint = 0; endpoint < ENDPOINTS; endpoint++)
        sum += 100 * (tables[endpoint_word(endpoint, CURSOR)] != 0);
    return sum;
}

/* Makes the call; tables and grants that it leaves are kept if more is going on in the tables. */
static void make_call(struct seed *seed)
{
    uint32_t *tables = tables_room.start;
    uint32_t *grants = grants_room.start;
    nazsombet_call(tables, TABLES, grants, GRANTS, scratch_room.start, SCRATCH, call, answer);
    unsigned found = depth(tables);
    if (found > seed->depth) {
        seed->depth = found;
        memcpy(seed->words, tables, sizeof seed->words);
        memcpy(seed->grants, grants, sizeof seed->grants);
    }
}

/* A call by chance. Whoever runs is granted first what it needs: else hardly any thread would come to wait. */
static void make_any_call(struct seed *seed)
{
    struct nazsombet_numbers any = any_call();
    uint32_t running = nazsombet_running(tables_room.start, TABLES);
    if (right_for(any.number) != 0 && running != NAZSOMBET_NOBODY) {
        struct nazsombet_numbers grant = {NAZSOMBET_GRANT, running, any.subject, any.badge, 0, 15};
        *call = grant;
        make_call(seed);
    }
    *call = any;
    make_call(seed);
}

/* Makes a journal's calls from fresh tables, then calls by chance: a seed of each part, and one of the crowd. */
static void run_journal(const char *name, struct seed seeds[PARTS + 1])
{
    size_t count = read_journal(name);
    const uint32_t *journal = journal_room.end - count;
    nazsombet_fresh(tables_room.start, TABLES, grants_room.start, GRANTS);
    for (size_t at = 0; nazsombet_read(journal, count, &at, call) == NAZSOMBET_DONE;)
        make_call(&seeds[(at - 1) * PARTS / count]);
    for (int n = 0; n < CROWD; n++)
        make_any_call(&seeds[PARTS]);
}

static void print_seed(const char *name, const struct seed *seed)
{
    int threads = 0;
    int aborts = 0;
    int grants = 0;
    for (int thread = 0; thread < THREADS; thread++)
        threads += seed->words[thread_word(thread, PLACE)] != 0;
    for (int endpoint = 0; endpoint < ENDPOINTS; endpoint++)
        aborts += seed->words[endpoint_word(endpoint, CURSOR)] != 0;
    for (int at = 0; at < GRANTS; at++)
        grants += seed->grants[at] != 0;
    printf("%s: threads %d, aborts under way %d, grants %d\n", name, threads, aborts, grants);
}

/* The seed's grants; where there is none, every right under a badge by chance, so that calls are made. */
static void make_grants(const uint32_t *grants)
{
    for (int at = 0; at < GRANTS; at++)
        granted[at] = grants[at] != 0 ? grants[at] : 0xF0000000 | below(4);
}

static void damage(const struct seed *seed)
{
    static void (*const ways[KINDS])(const uint32_t *) = {
        single_words,  random_places, links,   single_members, random_everywhere,
        single_grants, random_grants, lengths, many_members,
    };
    make_grants(seed->grants);
    for (int n = 0; n < KINDS; n++) {
        kind = &kinds[n];
        memcpy(words, seed->words, sizeof words);
        ways[n](seed->words);
    }
}

/* Whether all cases of a kind came out right, and some of each sort came up. */
static int passed(const struct kind *of)
{
    printf("%s: %lu refused, %lu sound, %lu wrong\n", of->name, of->refused, of->sound, of->wrong);
    return of->wrong == 0 && of->refused > 0 && (of->sound > 0) == of->may_be_sound;
}

static void damage_all(const char *name)
{
    static struct seed seeds[PARTS + 1];
    memset(seeds, 0, sizeof seeds);
    run_journal(name, seeds);
    for (int n = 0; n <= PARTS; n++) {
        print_seed(name, &seeds[n]);
        damage(&seeds[n]);
        seed_number++;
    }
}

int main(int argc, char **argv)
{
    if (argc < 2)
        complain("usage: damaged JOURNAL...");
    make_rooms();
    seeds_number = (argc - 1) * (PARTS + 1);
    for (int n = 1; n < argc; n++)
        damage_all(argv[n]);
    int right = 0;
    for (int n = 0; n < KINDS; n++)
        right += passed(&kinds[n]);
    printf("damaged: %d passed, %d failed\n", right, KINDS - right);
    return right == KINDS ? 0 : 1;
}
