/* What the box's kernel and its threads share. */
#ifndef BOX_H
#define BOX_H

#include "nazsombet.h"

/* A call that a thread makes, by interrupt CALL with its address in rdi, and what came of it. */
#define CALL 0x80
struct request {
    struct nazsombet_numbers call;
    struct nazsombet_answer answer; /* of a receive that blocked: code 1, with the badge and message that came later */
    uint32_t outcome;               /* where the thread blocked: how that ended; else 0 */
};

/* Threads. Writers' are 12 to 23, three for each of four writers. */
enum { LINE_OUT = 1, SERVER = 2, STORE = 3, SECOND_STORE = 4, FIRST_WRITER = 12, EACH = 3, WRITERS = 4, THREADS = 24 };

/* Endpoints: lookups of chords; what is printed; a store's word to the second; where unplugged writers' threads wait */
enum { LOOKUPS = 0, PRINT = 1, TOGETHER = 2, DRAWER = 3 };

/* Badges at LOOKUPS: writers' are 1 to 3, one fewer than writers; the page store has its own. */
enum { BADGES = 3, STORES_BADGE = 9 };

/* Lines, by the PC's numbers: the serial port has sent a byte, a page of the dictionary is there. 0 is the clock. */
enum { CLOCK = 0, SERIAL_LINE = 4, PAGE_LINE = 8 };

/* Priorities. The second store begins above the first, and steps aside below it. */
enum { LOW = 0, ASIDE = 8, SECOND_ASIDE = 9, STORES = 10, SECOND = 11, WRITING = 20, SERVING = 30, PRINTING = 40 };

/* What each thread does, in threads.c, and what the threads have counted. */
void thread(uint32_t number);
extern volatile uint32_t answered, wrong, moves;

enum { TEXT = 0x3F8, JOURNAL = 0x2F8, LISTING = 0x3E8 }; /* the serial ports */

static inline void out(uint16_t port, uint8_t value)
{
    __asm__ volatile("outb %0, %1" : : "a"(value), "Nd"(port));
}

static inline uint8_t in(uint16_t port)
{
    uint8_t value;
    __asm__ volatile("inb %1, %0" : "=a"(value) : "Nd"(port));
    return value;
}

#endif
