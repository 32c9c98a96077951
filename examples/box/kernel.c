/*
 * The box's kernel: it lets the proved core decide who runs, and does the rest: the processor, the interrupts, the
 * threads' registers and stacks. It writes every call that it makes to the journal's serial port, and what was answered
 * to the listing's.
 *
 * The core is called with interrupts open, on the kernel's own stack. An interrupt that comes meanwhile is taken on the
 * entry stack and only noted; it becomes a call when the one under way is over: one caller at a time lends the memory.
 */
#include "box.h"

#ifndef CALLS
#define CALLS 6000 /* after so many the box ends */
#endif
#define STEPPED 100 /* of so many calls one is interrupted after every instruction of the core */

/* What start.S pushes, and before it the processor. */
struct frame {
    uint64_t r15, r14, r13, r12, r11, r10, r9, r8, rbp, rdi, rsi, rdx, rcx, rbx, rax;
    uint64_t vector, rip, cs, flags, rsp, ss;
};

struct context {
    uint8_t sse[512] __attribute__((aligned(16)));
    struct frame frame;
    struct request *waits; /* the request that blocked it, until it runs again */
};

static struct context contexts[THREADS];
static uint8_t stacks[THREADS][4096] __attribute__((aligned(16)));
static struct nazsombet_lent lent;
static uint32_t current; /* the thread that was left last */

volatile uint32_t inside = 1;          /* the kernel works, not a thread */
static volatile uint32_t ticks, lines; /* noted, but not yet called: how many, and which */
static volatile uint32_t interrupts, in_core;
static uint32_t calls, idle;
uint64_t steps;

extern uint8_t stubs[][16], stepped[], entry_stack_end[], core_begin[], core_end[];
extern uint64_t gdt[];
void boot(void);
void note(const struct frame *frame);
struct frame *enter(struct frame *frame);
void leave(struct frame *frame) __attribute__((noreturn));

/* The one function of the C library that the core needs, and another that a compiler may use for structs. */
void *memset(void *to, int byte, size_t length)
{
    void *start = to;
    __asm__ volatile("rep stosb" : "+D"(to), "+c"(length) : "a"(byte) : "memory");
    return start;
}

void *memcpy(void *to, const void *from, size_t length)
{
    void *start = to;
    __asm__ volatile("rep movsb" : "+D"(to), "+S"(from), "+c"(length) : : "memory");
    return start;
}

/* ---- Writing ---- */

static void put(uint16_t port, uint8_t byte)
{
    while (!(in(port + 5) & 0x20))
        ;
    out(port, byte);
}

static void say(uint16_t port, const char *text)
{
    while (*text)
        put(port, *text++);
}

static void say_number(uint16_t port, uint64_t number, const char *after)
{
    if (number >= 10)
        say_number(port, number / 10, "");
    put(port, '0' + number % 10);
    say(port, after);
}

/* Ends the emulator, with status 1, or 3 where something was wrong. */
static void finish(uint32_t bad, const char *why) __attribute__((noreturn));
static void finish(uint32_t bad, const char *why)
{
    say(TEXT, "\n");
    say_number(TEXT, calls, " calls, ");
    say_number(TEXT, interrupts, " interrupts, ");
    say_number(TEXT, in_core, " of them in the core, ");
    say_number(TEXT, steps, " steps, ");
    say_number(TEXT, idle, " times idle, ");
    say_number(TEXT, moves, " badges moved, ");
    say_number(TEXT, answered, " lookups answered, ");
    say_number(TEXT, wrong, " wrong, ");
    say(TEXT, why);
    out(0xF4, bad || wrong);
    for (;;)
        __asm__ volatile("cli; hlt");
}

static void say_row(const struct nazsombet_numbers *call, const struct nazsombet_answer *answer, uint32_t runs)
{
    say_number(LISTING, calls, " ");
    say_number(LISTING, call->number, " ");
    say_number(LISTING, answer->code, " ");
    say_number(LISTING, answer->count, " ");
    say_number(LISTING, answer->badge, " ");
    say_number(LISTING, answer->message, " ");
    if (runs == NAZSOMBET_NOBODY)
        say(LISTING, "-\n");
    else
        say_number(LISTING, runs, "\n");
}

/* ---- The core ---- */

/* Sets or clears the trap flag: while it is set the processor interrupts, by 1, after every instruction. */
static void step(uint64_t on)
{
    __asm__ volatile("pushfq; andq $~0x100, (%%rsp); orq %0, (%%rsp); popfq" : : "r"(on << 8) : "memory", "cc");
}

/*
 * Makes a call, and writes it and its answer down. Interrupts are open, and shut again afterwards. What has no journal
 * words is no call, and would be refused: it is not made, so that the journal has all that were.
 */
static uint32_t make(const struct nazsombet_numbers *call, struct nazsombet_answer *answer)
{
    uint32_t words[3];
    size_t count;
    *answer = (struct nazsombet_answer){nazsombet_write(call, words, &count), 0, 0, 0};
    if (answer->code != NAZSOMBET_DONE)
        return answer->code;
    __asm__ volatile("sti");
    for (size_t i = 0; i < 4 * count; i++)
        put(JOURNAL, words[i / 4] >> 8 * (i % 4));
    step(calls % STEPPED == 0);
    nazsombet_lent_call(&lent, *call, answer);
    step(0);
    say_row(call, answer, nazsombet_lent_running(&lent));
    __asm__ volatile("cli");
    if (answer->code == NAZSOMBET_UNSOUND)
        finish(1, "tables or grants are not sound\n");
    if (++calls == CALLS)
        finish(0, "done\n");
    return answer->code;
}

static void host(struct nazsombet_numbers call)
{
    struct nazsombet_answer answer;
    if (make(&call, &answer) != NAZSOMBET_DONE)
        finish(1, "a call of the host's was refused\n");
}

/* The registers of a thread that begins: its number in rdi, and a stack as a call leaves it. */
static void begin(uint32_t number)
{
    struct context *t = &contexts[number];
    memset(t, 0, sizeof *t);
    t->sse[0] = 0x7F; /* the x87 control word 037F and MXCSR 1F80, as after a reset */
    t->sse[1] = 0x03;
    t->sse[24] = 0x80;
    t->sse[25] = 0x1F;
    t->frame.rip = (uint64_t)thread;
    t->frame.rdi = number;
    t->frame.cs = 8;
    t->frame.ss = 16;
    t->frame.flags = 0x202; /* interrupts open, direction flag clear */
    t->frame.rsp = (uint64_t)(stacks[number] + sizeof stacks[number] - 8);
}

/* Makes a thread's call. Those of the host are for the page stores alone. */
static void serve(struct request *request)
{
    struct nazsombet_numbers call = request->call;
    struct nazsombet_answer answer;
    uint32_t number = call.number, stores = current == STORE || current == SECOND_STORE;
    uint32_t hosts = number < NAZSOMBET_SEND || number > NAZSOMBET_ABORT;
    if (hosts && (!stores || number == NAZSOMBET_INTERRUPT || number == NAZSOMBET_TICK))
        finish(1, "a thread asked for what is the host's\n");
    if (number == NAZSOMBET_CREATE_THREAD && call.subject >= THREADS)
        finish(1, "there is no stack for such a thread\n");
    uint32_t code = make(&call, &answer);
    request->answer = answer;
    request->outcome = NAZSOMBET_NO_OUTCOME;
    if (code == NAZSOMBET_BLOCKED)
        contexts[current].waits = request;
    if (code == NAZSOMBET_DONE && number == NAZSOMBET_CREATE_THREAD)
        begin(call.subject);
}

/* ---- Interrupts ---- */

/* Notes an interrupt: the clock's is a tick, any other the line of its number. */
static void interrupt(uint64_t vector)
{
    if (vector < 32 || vector >= 48)
        finish(1, "a trap\n");
    interrupts++;
    if (vector == 32 + CLOCK)
        ticks++;
    else
        lines |= 1u << (vector - 32);
    if (vector == 32 + SERIAL_LINE)
        in(TEXT + 2);
    if (vector == 32 + PAGE_LINE) { /* the real-time clock wants its register 12 read */
        out(0x70, 12);
        in(0x71);
    }
    if (vector >= 40)
        out(0xA0, 0x20);
    out(0x20, 0x20);
}

/* An interrupt has come while the kernel worked. */
void note(const struct frame *frame)
{
    in_core += frame->rip >= (uint64_t)core_begin && frame->rip < (uint64_t)core_end;
    interrupt(frame->vector);
}

/* Makes the calls for what was noted, with interrupts shut in between, until a thread runs. */
static void settle(void)
{
    for (;;) {
        uint32_t runs = nazsombet_lent_running(&lent);
        if (ticks > 0) {
            ticks--;
            host(nazsombet_tick_call());
        } else if (lines != 0) {
            uint32_t line = __builtin_ctz(lines);
            lines &= lines - 1;
            host(nazsombet_interrupt_call(line));
        } else if (runs == NAZSOMBET_NOBODY) {
            idle++;
            __asm__ volatile("sti; hlt; cli" : : : "memory");
        } else {
            current = runs;
            return;
        }
    }
}

/* Goes on with the thread that runs. If it had blocked it is told how it was woken. */
static struct frame *go_on(struct frame *frame)
{
    settle();
    struct context *t = &contexts[current];
    if (t->waits) {
        struct nazsombet_waking woken = nazsombet_lent_woken(&lent, current);
        t->waits->outcome = woken.outcome;
        t->waits->answer.badge = woken.badge;
        t->waits->answer.message = woken.message;
        t->waits = 0;
    }
    *frame = t->frame;
#ifndef FAULT_SSE_NOT_GIVEN_BACK
    __asm__ volatile("fxrstor64 %0" : : "m"(t->sse));
#endif
    inside = 0;
    return frame;
}

/* A thread was interrupted, or calls. */
struct frame *enter(struct frame *frame)
{
    inside = 1;
    __asm__ volatile("fxsave64 %0" : "=m"(contexts[current].sse));
    contexts[current].frame = *frame;
    if (frame->vector == CALL)
        serve((struct request *)frame->rdi);
    else
        interrupt(frame->vector);
    return go_on(frame);
}

/* ---- The beginning ---- */

static uint32_t task[26]; /* the task state: words 9 and 10 are the entry stack, IST 1 */
static struct gate { uint16_t low, code, kind, middle; uint32_t high, none; } gates[256];

#ifdef FAULT_ON_THE_CORES_STACK
#define KIND 0x8E00 /* interrupts come in on the stack of what they interrupt */
#else
#define KIND 0x8E01 /* interrupts come in on IST 1, with interrupts shut */
#endif

static void set_gates(void)
{
    static struct { uint16_t limit; uint64_t at; } __attribute__((packed)) pointer = {sizeof gates - 1, 0};
    uint64_t at = (uint64_t)task, end = (uint64_t)entry_stack_end;
    task[9] = end;
    task[10] = end >> 32;
    gdt[3] = (sizeof task - 1) | (at & 0xFFFFFF) << 16 | 0x89ull << 40 | (at >> 24 & 0xFF) << 56;
    for (uint32_t i = 0; i < 256; i++) {
        uint64_t to = (uint64_t)(i == 1 ? stepped : stubs[i]);
        gates[i] = (struct gate){to, 8, KIND, to >> 16, to >> 32, 0};
    }
    pointer.at = (uint64_t)gates;
    __asm__ volatile("lidt %0; ltr %w1" : : "m"(pointer), "r"(24));
}

static void set_devices(void)
{
    static const uint8_t pairs[][2] = {
        {0x20, 0x11}, {0xA0, 0x11}, {0x21, 32}, {0xA1, 40}, {0x21, 4}, {0xA1, 2}, {0x21, 1}, {0xA1, 1},
        {0x21, 0xEA}, {0xA1, 0xFE}, /* interrupts 0 to 15 are vectors 32 to 47; 0, 4 and 8 are open */
        {0x43, 0x34}, {0x40, 2386 & 255}, {0x40, 2386 >> 8}, /* the clock, 500 times a second */
        {0x70, 0x8A}, {0x71, 0x2A}, {0x70, 0x8B}, {0x71, 0x42}, {0x70, 12}}; /* the real-time clock, 64 times */
    for (uint32_t i = 0; i < sizeof pairs / sizeof *pairs; i++)
        out(pairs[i][0], pairs[i][1]);
    in(0x71);
    out(TEXT + 4, 8); /* the serial port says when a byte is sent */
    out(TEXT + 1, 2);
}

/* The threads that are always there. Nobody runs before the calls are made, so that no grant comes too late. */
static void set_threads(void)
{
    for (uint32_t endpoint = LOOKUPS; endpoint <= DRAWER; endpoint++)
        host(nazsombet_create_endpoint_call(endpoint));
    host(nazsombet_create_thread_call(LINE_OUT, PRINTING));
    host(nazsombet_create_thread_call(SERVER, SERVING));
    host(nazsombet_create_thread_call(STORE, STORES));
    host(nazsombet_create_thread_call(SECOND_STORE, SECOND));
    host(nazsombet_grant_call(LINE_OUT, PRINT, NAZSOMBET_RIGHT_RECEIVE, 0));
    host(nazsombet_grant_call(SERVER, LOOKUPS, NAZSOMBET_RIGHT_RECEIVE, 0));
    host(nazsombet_grant_call(SERVER, PRINT, NAZSOMBET_RIGHT_SEND, 0));
    host(nazsombet_grant_call(STORE, LOOKUPS, NAZSOMBET_RIGHT_SEND + NAZSOMBET_RIGHT_ABORT, STORES_BADGE));
    host(nazsombet_grant_call(STORE, TOGETHER, NAZSOMBET_RIGHT_SEND, 0));
    host(nazsombet_grant_call(SECOND_STORE, LOOKUPS, NAZSOMBET_RIGHT_ABORT, 0));
    host(nazsombet_grant_call(SECOND_STORE, TOGETHER, NAZSOMBET_RIGHT_RECEIVE, 0));
    for (uint32_t t = LINE_OUT; t <= SECOND_STORE; t++)
        begin(t);
}

void boot(void)
{
    static struct frame first;
    set_gates();
    set_devices();
    say(LISTING, "n call code count badge message running\n");
    nazsombet_lent_fresh(&lent);
    set_threads();
    leave(go_on(&first));
}
