/*
 * ticks: what include/nazsombet_tools.h says of nazsombet_count_ticks, tried on the compiled library.
 *
 * Journals of no word up to 16,001 words, rates and numbers of counts at their limits, all with each other: what is
 * accepted has the counts that the core's own calls give, made one by one here; what is refused has its number and
 * leaves every word. The counts lie between known words, and their own words are known before, none of them a count.
 *
 *     sh tests/bills.sh
 *
 * Prints how often each thing was judged; the last line is 'ticks: N passed, M failed', by kinds of judgement, and the
 * exit status is 0 only where none failed.
 */
#include <stdio.h>
#include <stdlib.h>
#include <string.h>

#include "nazsombet_tools.h"

enum {
    COUNTS = 257,     /* 256 threads, and idle last */
    WORDS = 16000,    /* the longest journal */
    RATE = 10000,     /* the highest rate */
    MARGIN = 64,      /* known words before the counts and behind them */
    COMPLAINTS = 20   /* printed in all */
};

/* What is judged. */

enum judgement { ANSWERED, CORE, BY_HAND, AGAIN, AROUND, LENT, LIMITS, READER, UNTOUCHED, JUDGEMENTS };

static struct {
    const char *name;
    unsigned long made;
    unsigned long wrong;
} judged[JUDGEMENTS] = {
    {"a journal that reads is answered 0", 0, 0},
    {"its counts are those of the core's own calls", 0, 0},
    {"counts worked out by hand", 0, 0},
    {"counted again, nothing is added", 0, 0},
    {"the words around the counts stay", 0, 0},
    {"the journal stays", 0, 0},
    {"what is beyond a limit is refused by 30, before all else", 0, 0},
    {"a journal that does not read is refused by the reader's number", 0, 0},
    {"a refusal leaves every count", 0, 0},
};

/* The case. */
static const char *name;
static uint32_t journal[WORDS + 1];
static size_t words;
static uint32_t rate;
static size_t lent;

static void judge(enum judgement kind, int holds)
{
    static int complaints;
    judged[kind].made++;
    if (holds)
        return;
    judged[kind].wrong++;
    if (complaints++ < COMPLAINTS)
        printf("failed: %s: %s, rate %lu, %lu counts\n", judged[kind].name, name, (unsigned long)rate,
               (unsigned long)lent);
}

/* The counts and what is around them. */

static uint32_t frame[MARGIN + COUNTS + 1 + MARGIN];
static uint32_t *const counts = frame + MARGIN;

static uint32_t known(size_t at)
{
    return 0x80000000 | (uint32_t)(at * 2654435761u);
}

static void fill_frame(void)
{
    for (size_t at = 0; at < sizeof frame / sizeof *frame; at++)
        frame[at] = known(at);
}

/* Whether the words from one place of the frame up to another are as they were. */
static int stays(size_t from, size_t to)
{
    for (size_t at = from; at < to; at++)
        if (frame[at] != known(at))
            return 0;
    return 1;
}

/* Counts, and judges what holds with every answer. The journal is lent as a copy of its own length. */
static uint32_t ask(void)
{
    size_t size = words * sizeof *journal;
    uint32_t *copy = malloc(size + (size == 0));
    if (copy == NULL) {
        perror("ticks");
        exit(2);
    }
    memcpy(copy, journal, size);
    uint32_t code = nazsombet_count_ticks(copy, words, rate, counts, lent);
    judge(LENT, memcmp(copy, journal, size) == 0);
    judge(AROUND, stays(0, MARGIN) && stays(MARGIN + lent, sizeof frame / sizeof *frame));
    free(copy);
    return code;
}

/* The core's own calls. */

static uint32_t own[COUNTS];

/* Makes the journal's calls and counts the ticks; 0, or the reader's number. */
static uint32_t count_calls(void)
{
    static struct nazsombet_lent memory;
    struct nazsombet_numbers call;
    struct nazsombet_answer answer;
    size_t at = 0;
    uint32_t code;
    memset(own, 0, sizeof own);
    nazsombet_lent_fresh(&memory);
    while ((code = nazsombet_read(journal, words, &at, &call)) == NAZSOMBET_DONE) {
        uint32_t before = nazsombet_lent_running(&memory);
        nazsombet_lent_call(&memory, call, &answer);
        if (call.number == NAZSOMBET_TICK && answer.code == NAZSOMBET_DONE)
            own[before]++;
    }
    return code == NAZSOMBET_ENDED ? NAZSOMBET_DONE : code;
}

/* Journals. */

static void begin(const char *its_name)
{
    name = its_name;
    words = 0;
}

static void put(uint32_t word, size_t times)
{
    while (times-- > 0)
        journal[words++] = word;
}

static void put_call(struct nazsombet_numbers call)
{
    uint32_t written[3];
    size_t count;
    nazsombet_write(&call, written, &count);
    for (size_t n = 0; n < count; n++)
        put(written[n], 1);
}

static void put_ticks(size_t times)
{
    while (times-- > 0)
        put_call(nazsombet_tick_call());
}

/* Tries. */

/* Where the case is within the limits: the counts, or the reader's number. */
static void try_within(uint32_t number)
{
    fill_frame();
    uint32_t code = ask();
    if (number != NAZSOMBET_DONE) {
        judge(READER, code == number);
        judge(UNTOUCHED, stays(MARGIN, MARGIN + lent));
        return;
    }
    judge(ANSWERED, code == NAZSOMBET_DONE);
    judge(CORE, memcmp(counts, own, sizeof own) == 0);
    code = ask();
    judge(AGAIN, code == NAZSOMBET_DONE && memcmp(counts, own, sizeof own) == 0);
}

/* The journal at every rate and with every number of counts. */
static void try_journal(void)
{
    static const uint32_t rates[] = {0, RATE, RATE + 1, UINT32_MAX};
    static const size_t lengths[] = {COUNTS, 0, COUNTS - 1, COUNTS + 1};
    uint32_t number = words > WORDS ? NAZSOMBET_LIMITS : count_calls();
    for (int r = 0; r < 4; r++)
        for (int n = 0; n < 4; n++) {
            rate = rates[r];
            lent = lengths[n];
            if (words <= WORDS && rate <= RATE && lent == COUNTS) {
                try_within(number);
                continue;
            }
            fill_frame();
            judge(LIMITS, ask() == NAZSOMBET_LIMITS);
            judge(UNTOUCHED, stays(MARGIN, MARGIN + lent));
        }
}

/* Thread 0 has five ticks, which spend its turn, thread 1 two in two lives, nobody two. */
static void put_example(void)
{
    put_ticks(1);
    put_call(nazsombet_create_thread_call(0, 5));
    put_call(nazsombet_create_thread_call(1, 5));
    put_ticks(6);
    put_call(nazsombet_destroy_thread_call(1));
    put_call(nazsombet_create_thread_call(1, 5));
    put_call(nazsombet_yield_call());
    put_ticks(1);
    put_call(nazsombet_destroy_thread_call(7));
    put_call(nazsombet_destroy_thread_call(0));
    put_call(nazsombet_destroy_thread_call(1));
    put_ticks(1);
}

static void try_example(void)
{
    begin("the example");
    put_example();
    try_journal();
    uint32_t expected[COUNTS] = {5, 2};
    expected[COUNTS - 1] = 2;
    rate = RATE;
    lent = COUNTS;
    fill_frame();
    judge(BY_HAND, ask() == NAZSOMBET_DONE && memcmp(counts, expected, sizeof expected) == 0);
}

/* Thread 3 has rights at endpoint 5, receives there and waits; 255 displaces it, waits on a line and is woken. */
static void put_waits(void)
{
    put_call(nazsombet_create_thread_call(3, 100));
    put_call(nazsombet_create_endpoint_call(5));
    put_ticks(2);
    put_call(nazsombet_receive_call(5));
    put_call(nazsombet_grant_call(3, 5, NAZSOMBET_RIGHT_RECEIVE | NAZSOMBET_RIGHT_SEND, 7));
    put_call(nazsombet_create_thread_call(255, 101));
    put_ticks(9);
    put_call(nazsombet_wait_call(0));
    put_ticks(1);
    put_call(nazsombet_receive_call(5));
    put_ticks(3);
    put_call(nazsombet_interrupt_call(0));
    put_ticks(1);
}

/* All threads at one level, and then ticks up to so many words. */
static void put_full(size_t length)
{
    for (uint32_t thread = 0; thread < 256; thread++)
        put_call(nazsombet_create_thread_call(thread, 200));
    put_ticks(length - words);
}

static void try_journals(void)
{
    begin("no word");
    try_journal();
    begin("waits");
    put_waits();
    try_journal();
    begin("a word that is no call");
    put_example();
    put(0, 1);
    put_ticks(1);
    try_journal();
    begin("a send without its message");
    put_example();
    put(0x17000000, 1);
    put(0x20000007, 1);
    try_journal();
    begin("a priority out of range");
    put_example();
    put(0x11000100, 1);
    put(0, 1);
    try_journal();
}

static void try_long_journals(void)
{
    begin("16,000 words");
    put_full(WORDS);
    try_journal();
    begin("16,000 words, the last no call");
    put_full(WORDS - 1);
    put(0, 1);
    try_journal();
    begin("16,001 words");
    put_full(WORDS + 1);
    try_journal();
    begin("16,001 words, none a call");
    put(0, WORDS + 1);
    try_journal();
    begin("16,001 words, the first out of range");
    put(0x11000100, 1);
    put_ticks(WORDS);
    try_journal();
}

/* Whether all judgements of a kind came out right, and some were made. */
static int passed(enum judgement kind)
{
    printf("%s: %lu judged, %lu wrong\n", judged[kind].name, judged[kind].made, judged[kind].wrong);
    return judged[kind].made > 0 && judged[kind].wrong == 0;
}

int main(void)
{
    try_example();
    try_journals();
    try_long_journals();
    int right = 0;
    for (int kind = 0; kind < JUDGEMENTS; kind++)
        right += passed((enum judgement)kind);
    printf("ticks: %d passed, %d failed\n", right, JUDGEMENTS - right);
    return right == JUDGEMENTS ? 0 : 1;
}
