/*
 * stack JOURNAL...: how much stack each entry takes, by the watermark that it leaves on a painted one.
 *
 * The journals' calls are made from fresh tables, each by all entries; then calls on full tables, with as many looks as
 * an abort can have, and calls that are refused. Every entry runs on a stack of its own that was painted before, is
 * aligned as the ABI asks, and has nothing below it that may be touched. Tables, grants and scratch are lent at
 * addresses that are multiples of 4 and not of 8.
 *
 *     sh tests/stack.sh
 *
 * Prints a line for each entry: its name and the bytes from the stack pointer before the call instruction down to the
 * deepest byte that was written, the return address and memset's own among them.
 */
#define _DEFAULT_SOURCE
#include <inttypes.h>
#include <stdio.h>
#include <stdlib.h>
#include <string.h>
#include <sys/mman.h>
#include <unistd.h>

#include "nazsombet_tools.h"

enum {
    TABLES = NAZSOMBET_TABLES,
    GRANTS = NAZSOMBET_GRANTS,
    SCRATCH = NAZSOMBET_SCRATCH,
    ROOM = NAZSOMBET_SENTENCE_ROOM,
    STACK = 1 << 17,
    ARGUMENTS = 8, /* six in registers, two on the stack */
    LAST = 255,    /* thread */
    ALL = 65535    /* allowance */
};

enum entry { FRESH, CHECK, CALL, READ, WRITE, RUNNING, WOKEN, SENTENCE, COUNT_TICKS, ENTRIES };

static const char *const names[ENTRIES] = {
    "nazsombet_fresh", "nazsombet_check",   "nazsombet_call",  "nazsombet_read",
    "nazsombet_write", "nazsombet_running", "nazsombet_woken", "nazsombet_sentence",
    "nazsombet_count_ticks",
};

static void complain(const char *what)
{
    fprintf(stderr, "stack: %s\n", what);
    exit(1);
}

/* The stack. */

/*
 * Calls the function with eight arguments, on another stack, whose top is a multiple of 16. The registers that the
 * function may save there hold no paint.
 */
uint32_t on_stack(void (*function)(void), const uint64_t arguments[ARGUMENTS], unsigned char *top);

__asm__(".text\n"
        ".type on_stack, @function\n"
        "on_stack:\n"
        "    push %rbx\n"
        "    push %r12\n"
        "    push %r13\n"
        "    push %r14\n"
        "    push %r15\n"
        "    push %rbp\n"
        "    mov %rsp, %rbp\n"
        "    mov %rdi, %rax\n"
        "    mov %rsi, %r10\n"
        "    mov %rdx, %rsp\n"
        "    push 56(%r10)\n"
        "    push 48(%r10)\n"
        "    mov (%r10), %rdi\n"
        "    mov 8(%r10), %rsi\n"
        "    mov 16(%r10), %rdx\n"
        "    mov 24(%r10), %rcx\n"
        "    mov 32(%r10), %r8\n"
        "    mov 40(%r10), %r9\n"
        "    xor %ebx, %ebx\n"
        "    mov %rbx, %r12\n"
        "    mov %rbx, %r13\n"
        "    mov %rbx, %r14\n"
        "    mov %rbx, %r15\n"
        "    call *%rax\n"
        "    mov %rbp, %rsp\n"
        "    pop %rbp\n"
        "    pop %r15\n"
        "    pop %r14\n"
        "    pop %r13\n"
        "    pop %r12\n"
        "    pop %rbx\n"
        "    ret\n"
        ".size on_stack, .-on_stack\n");

static unsigned char *bottom;
static size_t deepest[ENTRIES];

/* The stack lies right above a page that nobody may touch. */
static void make_stack(void)
{
    size_t page = (size_t)sysconf(_SC_PAGESIZE);
    unsigned char *all = mmap(NULL, page + STACK, PROT_NONE, MAP_PRIVATE | MAP_ANONYMOUS, -1, 0);
    if (all == MAP_FAILED || mprotect(all + page, STACK, PROT_READ | PROT_WRITE) != 0)
        complain("there is no memory for a stack");
    bottom = all + page;
}

/* Another paint each time, so that no byte that is written looks like it in every run. */
static unsigned char paint(void)
{
    static unsigned char last;
    return last = (unsigned char)(last + 101);
}

static uint32_t measured(enum entry entry, void (*function)(void), const uint64_t arguments[ARGUMENTS])
{
    unsigned char colour = paint();
    size_t called = STACK - 2 * sizeof(uint64_t); /* where the stack pointer is before the call */
    memset(bottom, colour, STACK);
    uint32_t answer = on_stack(function, arguments, bottom + STACK);
    size_t clean = 0;
    while (clean < called && bottom[clean] == colour)
        clean++;
    if (called - clean > deepest[entry])
        deepest[entry] = called - clean;
    return answer;
}

#define ON_STACK(entry, function, ...) \
    measured(entry, (void (*)(void))(function), (const uint64_t[ARGUMENTS]){__VA_ARGS__})
#define AT(pointer) ((uint64_t)(uintptr_t)(pointer))

/* Lent memory: the words begin behind the first. */

union lent {
    uint64_t aligned;
    uint32_t words[1 + GRANTS];
};

static union lent lent_tables, lent_grants, lent_scratch;
static uint32_t *const tables = lent_tables.words + 1;
static uint32_t *const grants = lent_grants.words + 1;
static uint32_t *const scratch = lent_scratch.words + 1;

static void fresh(void)
{
    if (ON_STACK(FRESH, nazsombet_fresh, AT(tables), TABLES, AT(grants), GRANTS) != NAZSOMBET_DONE)
        complain("fresh is refused");
}

static uint32_t check(void)
{
    return ON_STACK(CHECK, nazsombet_check, AT(tables), TABLES, AT(grants), GRANTS, AT(scratch), SCRATCH);
}

/* A call and all that a host does with it: written, made, told, who runs, who woke. */
static struct nazsombet_answer make(struct nazsombet_numbers call)
{
    struct nazsombet_answer answer;
    uint32_t words[3], woken[3];
    uint8_t line[ROOM];
    size_t count;
    ON_STACK(WRITE, nazsombet_write, AT(&call), AT(words), AT(&count));
    ON_STACK(CALL, nazsombet_call, AT(tables), TABLES, AT(grants), GRANTS, AT(scratch), SCRATCH, AT(&call),
             AT(&answer));
    ON_STACK(SENTENCE, nazsombet_sentence, AT(&call), AT(&answer), AT(line), ROOM, AT(&count));
    ON_STACK(RUNNING, nazsombet_running, AT(tables), TABLES);
    ON_STACK(WOKEN, nazsombet_woken, AT(tables), TABLES, call.subject, AT(woken));
    return answer;
}

static void must(struct nazsombet_numbers call, uint32_t code)
{
    if (make(call).code != code)
        complain("a call on full tables has another answer");
}

/* The calls of a journal. */
static void play(const char *name)
{
    static uint32_t journal[1 << 16];
    FILE *file = fopen(name, "rb");
    if (!file)
        complain(name);
    size_t length = fread(journal, sizeof *journal, sizeof journal / sizeof *journal, file);
    fclose(file);
    fresh();
    size_t at = 0;
    struct nazsombet_numbers call;
    while (ON_STACK(READ, nazsombet_read, AT(journal), length, AT(&at), AT(&call)) == NAZSOMBET_DONE)
        make(call);
    if (check() != NAZSOMBET_DONE)
        complain("a journal leaves tables that are not sound");
    static uint32_t counts[NAZSOMBET_COUNTS];
    ON_STACK(COUNT_TICKS, nazsombet_count_ticks, AT(journal), length, 1, AT(counts), NAZSOMBET_COUNTS);
}

static struct nazsombet_numbers grant(uint32_t thread, uint32_t badge)
{
    struct nazsombet_numbers all = {NAZSOMBET_GRANT, thread, 0, badge, 0, 15};
    return all;
}

/* Threads 1 to 255 queued under badge 7, and 0 runs, with all rights. */
static void crowd(void)
{
    fresh();
    must((struct nazsombet_numbers){NAZSOMBET_CREATE_ENDPOINT, 0, 0, 0, 0, 0}, NAZSOMBET_DONE);
    for (uint32_t thread = 1; thread <= LAST; thread++) {
        must((struct nazsombet_numbers){NAZSOMBET_CREATE_THREAD, thread, LAST, 0, 0, 0}, NAZSOMBET_DONE);
        must(grant(thread, 7), NAZSOMBET_DONE);
        must((struct nazsombet_numbers){NAZSOMBET_SEND, 0, 0, 7, thread, 0}, NAZSOMBET_BLOCKED);
    }
    must((struct nazsombet_numbers){NAZSOMBET_CREATE_THREAD, 0, LAST, 0, 0, 0}, NAZSOMBET_DONE);
    must(grant(0, 7), NAZSOMBET_DONE);
}

/* As many looks, and as many removals, as a call can have; and what is refused on full tables. */
static void full(void)
{
    struct nazsombet_numbers one = {NAZSOMBET_ABORT, 0, 1, 8, 0, 0};
    struct nazsombet_numbers all = {NAZSOMBET_ABORT, 0, ALL, 7, 0, 0};
    struct nazsombet_numbers delete = {NAZSOMBET_DELETE, 0, ALL, 0, 0, 0};
    crowd();
    must(one, NAZSOMBET_BROKEN_OFF);
    if (make(all).count != 2 * LAST - 1) /* the 254 that are left of badge 8's abort, and the 255 of its own */
        complain("an abort of 255 senders after another badge's has not 509 looks");
    crowd();
    if (make(delete).count != LAST)
        complain("a delete has not removed 255");
    crowd();
    make((struct nazsombet_numbers){NAZSOMBET_WAIT, 32, 0, 0, 0, 0});
    make((struct nazsombet_numbers){14, 0, 0, 0, 0, 0});
    tables[TABLES - 1] = 1;
    if (make(all).code != NAZSOMBET_UNSOUND || check() != NAZSOMBET_UNSOUND)
        complain("unsound tables are taken");
}

int main(int count, char **journals)
{
    make_stack();
    for (int n = 1; n < count; n++)
        play(journals[n]);
    full();
    for (int entry = 0; entry < ENTRIES; entry++)
        printf("%s %zu\n", names[entry], deepest[entry]);
    return 0;
}
