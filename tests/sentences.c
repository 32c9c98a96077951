/*
 * sentences: what include/nazsombet_tools.h says of nazsombet_sentence, tried on the compiled library.
 *
 * Every call with its numbers at the edges of their ranges and many answers, also ones that the core never gives: each
 * pair has its line, and no two share one. Then what is refused. The buffer lies between known bytes, and its own bytes
 * are known before: none of them is ASCII, so whatever is written is seen.
 *
 *     sh tests/sentences.sh
 *
 * Given a file's name, it writes each case there with its line: the six numbers and the four, a tab and the line.
 * Prints how often each thing was judged; the last line is 'sentences: N passed, M failed', by kinds of judgement, and
 * the exit status is 0 only where none failed.
 */
#include <inttypes.h>
#include <stdio.h>
#include <stdlib.h>
#include <string.h>

#include "nazsombet_tools.h"

enum {
    ROOM = NAZSOMBET_SENTENCE_ROOM,
    LARGE = 300,     /* a buffer with more room than is asked for */
    MARGIN = 64,     /* known bytes before the buffer and behind it */
    LINES = 51408,   /* 56 calls, 34 codes, 27 triples of count, badge and message */
    COMPLAINTS = 20  /* printed in all */
};

/* What is judged. */

enum judgement {
    ANSWERED,
    LENGTH,
    ENDED,
    PRINTABLE,
    BEHIND,
    AROUND,
    LENT,
    ROOMY,
    APART,
    WORDED,
    CORE,
    SHORT,
    NO_CALL,
    RANGE,
    UNTOUCHED,
    NOUGHT,
    JUDGEMENTS
};

static struct {
    const char *name;
    unsigned long made;
    unsigned long wrong;
} judged[JUDGEMENTS] = {
    {"a call in range is answered 0", 0, 0},
    {"its line has at most 160 bytes", 0, 0},
    {"its line ends with a full stop and a newline", 0, 0},
    {"its line is printable ASCII", 0, 0},
    {"the bytes behind the line stay", 0, 0},
    {"the bytes around the buffer stay", 0, 0},
    {"the call and the answer stay", 0, 0},
    {"a larger buffer gets the same line", 0, 0},
    {"no two lines are the same", 0, 0},
    {"lines known letter by letter", 0, 0},
    {"the line of what the core answers", 0, 0},
    {"a short buffer is refused by 28, before all else", 0, 0},
    {"numbers that name no call are refused by 18", 0, 0},
    {"a number out of range is refused by 19", 0, 0},
    {"a refusal leaves the buffer", 0, 0},
    {"a refusal sets the length to 0", 0, 0},
};

/* The case. */
static struct nazsombet_numbers call;
static struct nazsombet_answer answer;

/* The six numbers of the call and the four of the answer. */
static void write_numbers(FILE *file)
{
    fprintf(file, "%" PRIu32 " %" PRIu32 " %" PRIu32 " %" PRIu32 " %" PRIu32 " %" PRIu32, call.number, call.subject,
            call.argument, call.badge, call.message, call.rights);
    fprintf(file, " %" PRIu32 " %" PRIu32 " %" PRIu32 " %" PRIu32, answer.code, answer.count, answer.badge,
            answer.message);
}

static void judge(enum judgement kind, int holds)
{
    static int complaints;
    judged[kind].made++;
    if (holds)
        return;
    judged[kind].wrong++;
    if (complaints++ < COMPLAINTS) {
        printf("failed: %s: ", judged[kind].name);
        write_numbers(stdout);
        printf("\n");
    }
}

/* The buffer and what is around it; it begins at each of eight alignments in turn. */

static uint8_t frame[MARGIN + 8 + LARGE + MARGIN];
static uint8_t *out;
static size_t used;

static uint8_t known(size_t at)
{
    return (uint8_t)(0x80 | (at * 37 + 11));
}

/* Whether the bytes from one place of the frame up to another are as they were. */
static int stays(size_t from, size_t to)
{
    for (size_t at = from; at < to; at++)
        if (frame[at] != known(at))
            return 0;
    return 1;
}

/* Asks for the sentence of the case in a buffer of this length, and judges what holds with every answer. */
static uint32_t ask(size_t length)
{
    static unsigned turn;
    struct nazsombet_numbers call_before = call;
    struct nazsombet_answer answer_before = answer;
    for (size_t at = 0; at < sizeof frame; at++)
        frame[at] = known(at);
    out = frame + MARGIN + turn++ % 8;
    used = SIZE_MAX;
    uint32_t code = nazsombet_sentence(&call, &answer, out, length, &used);
    size_t start = (size_t)(out - frame);
    judge(AROUND, stays(0, start) && stays(start + length, sizeof frame));
    judge(LENT, memcmp(&call, &call_before, sizeof call) == 0 && memcmp(&answer, &answer_before, sizeof answer) == 0);
    return code;
}

/* The thirteen calls, by nazsombet.h. */

enum part { NONE, THREAD, PRIORITY, ENDPOINT, LINE, ALLOWANCE, BADGE, MESSAGE, RIGHTS };

/* Both are inside. */
static const struct {
    uint32_t lowest;
    uint32_t largest;
} ranges[] = {
    {0, 0}, {0, 255}, {0, 255}, {0, 63}, {0, 31}, {1, 65535}, {0, (1 << 28) - 1}, {0, (1 << 28) - 1}, {0, 15},
};

enum { CALLS = 13, PARTS = 5 };

/* Of each call subject, argument, badge, message and rights. */
static const enum part shapes[CALLS + 1][PARTS] = {
    {NONE, NONE, NONE, NONE, NONE},
    {THREAD, PRIORITY, NONE, NONE, NONE},
    {THREAD, NONE, NONE, NONE, NONE},
    {THREAD, PRIORITY, NONE, NONE, NONE},
    {ENDPOINT, NONE, NONE, NONE, NONE},
    {LINE, NONE, NONE, NONE, NONE},
    {NONE, NONE, NONE, NONE, NONE},
    {ENDPOINT, NONE, BADGE, MESSAGE, NONE},
    {ENDPOINT, NONE, NONE, NONE, NONE},
    {NONE, NONE, NONE, NONE, NONE},
    {LINE, NONE, NONE, NONE, NONE},
    {ENDPOINT, ALLOWANCE, NONE, NONE, NONE},
    {ENDPOINT, ALLOWANCE, BADGE, NONE, NONE},
    {THREAD, ENDPOINT, BADGE, NONE, RIGHTS},
};

static uint32_t *part_of(struct nazsombet_numbers *numbers, int part)
{
    uint32_t *parts[PARTS] = {&numbers->subject, &numbers->argument, &numbers->badge, &numbers->message,
                              &numbers->rights};
    return parts[part];
}

/* A call with each part at an edge: the largest where its bit is set, else the lowest. */
static struct nazsombet_numbers at_edges(uint32_t number, unsigned bits)
{
    struct nazsombet_numbers made = {number, 0, 0, 0, 0, 0};
    for (int part = 0; part < PARTS; part++) {
        enum part shape = shapes[number][part];
        *part_of(&made, part) = bits >> part & 1 ? ranges[shape].largest : ranges[shape].lowest;
    }
    return made;
}

/* Whether a bit stands for a part that the call does not have: then the call came up without it. */
static int repeats(uint32_t number, unsigned bits)
{
    for (int part = 0; part < PARTS; part++)
        if (shapes[number][part] == NONE && bits >> part & 1)
            return 1;
    return 0;
}

/* Lines. */

/* Padded with zeros, so that two are compared as a whole. */
struct line {
    char text[ROOM];
};

static struct line lines[LINES];
static size_t made, longest;
static FILE *cases;

static int printable(const uint8_t *text, size_t length)
{
    for (size_t at = 0; at < length; at++)
        if (text[at] < ' ' || text[at] > '~')
            return 0;
    return 1;
}

static void write_case(const struct line *line)
{
    if (cases == NULL)
        return;
    write_numbers(cases);
    fprintf(cases, "\t%.*s", ROOM, line->text);
}

static void try_line(void)
{
    uint32_t code = ask(ROOM);
    judge(ANSWERED, code == NAZSOMBET_DONE);
    int fits = used >= 2 && used <= ROOM;
    judge(LENGTH, fits);
    if (code != NAZSOMBET_DONE || !fits || made == LINES)
        return;
    struct line *line = &lines[made++];
    memcpy(line->text, out, used);
    write_case(line);
    longest = used > longest ? used : longest;
    size_t length = used;
    size_t start = (size_t)(out - frame);
    judge(ENDED, out[length - 2] == '.' && out[length - 1] == '\n');
    judge(PRINTABLE, printable(out, length - 1));
    judge(BEHIND, stays(start + length, start + ROOM));
    code = ask(LARGE);
    start = (size_t)(out - frame);
    judge(ROOMY, code == NAZSOMBET_DONE && used == length && memcmp(out, line->text, length) == 0);
    judge(BEHIND, stays(start + length, start + LARGE));
}

/* The call with every answer. */
static void try_answers(void)
{
    static const uint32_t further[] = {77, 255, UINT32_MAX};
    static const uint32_t values[] = {0, 1, UINT32_MAX};
    for (uint32_t n = 0; n < 34; n++)
        for (int which = 0; which < 27; which++) {
            answer.code = n < 31 ? n : further[n - 31];
            answer.count = values[which / 9];
            answer.badge = values[which / 3 % 3];
            answer.message = values[which % 3];
            try_line();
        }
}

static int compare(const void *one, const void *other)
{
    return memcmp(one, other, sizeof(struct line));
}

/* After sorting, equal lines are neighbours. The count is right only where every case had its line. */
static void try_apart(void)
{
    qsort(lines, made, sizeof *lines, compare);
    judge(APART, made == LINES);
    for (size_t at = 1; at < made; at++)
        judge(APART, compare(&lines[at - 1], &lines[at]) != 0);
}

/* The sentence of the case is this one. */
static void try_text(enum judgement kind, const char *text)
{
    size_t length = strlen(text);
    uint32_t code = ask(ROOM);
    judge(kind, code == NAZSOMBET_DONE && used == length && memcmp(out, text, length) == 0);
}

static void try_known(void)
{
    static const struct {
        struct nazsombet_numbers call;
        struct nazsombet_answer answer;
        const char *text;
    } cases[] = {
        {{1, 3, 100, 0, 0, 0}, {0, 0, 0, 0}, "Create thread 3 with priority 100: done.\n"},
        {{7, 0, 0, 7, 100, 0}, {1, 0, 0, 0}, "Send message 100 under badge 7 to endpoint 0: blocked.\n"},
        {{12, 0, 1, 7, 0, 0}, {2, 1, 0, 0}, "Abort badge 7 at endpoint 0 with allowance 1: broken off, count 1.\n"},
        {{8, 0, 0, 0, 0, 0}, {0, 0, 8, 200}, "Receive at endpoint 0: done, badge 8, message 200.\n"},
        {{7, 0, 0, 7, 101, 0},
         {26, 0, 0, 0},
         "Send message 101 under badge 7 to endpoint 0: refused by 26, badge is under abort.\n"},
        {{6, 0, 0, 0, 0, 0}, {77, 5, UINT32_MAX, 0}, "Tick: refused by 77, count 5, badge 4294967295.\n"},
        {{13, 3, 0, 7, 0, 11}, {0, 0, 0, 0}, "Grant thread 3 rights 11 at endpoint 0 under badge 7: done.\n"},
        {{13, 0, 63, 7, 0, 0}, {0, 0, 0, 0}, "Grant thread 0 rights 0 at endpoint 63 under badge 7: done.\n"},
        {{11, 5, 9, 0, 0, 0},
         {29, 0, 0, 0},
         "Delete endpoint 5 with allowance 9: refused by 29, lacks right or badge.\n"},
    };
    for (size_t n = 0; n < sizeof cases / sizeof *cases; n++) {
        call = cases[n].call;
        answer = cases[n].answer;
        try_text(WORDED, cases[n].text);
    }
}

/* Calls taken by the core, which is linked too. */
static void try_core(void)
{
    static uint32_t tables[NAZSOMBET_TABLES], grants[NAZSOMBET_GRANTS], scratch[NAZSOMBET_SCRATCH];
    static const struct {
        struct nazsombet_numbers call;
        const char *text;
    } cases[] = {
        {{NAZSOMBET_CREATE_THREAD, 3, 100, 0, 0, 0}, "Create thread 3 with priority 100: done.\n"},
        {{NAZSOMBET_CREATE_ENDPOINT, 0, 0, 0, 0, 0}, "Create endpoint 0: done.\n"},
        {{NAZSOMBET_RECEIVE, 0, 0, 0, 0, 0}, "Receive at endpoint 0: refused by 29, lacks right or badge.\n"},
        {{NAZSOMBET_GRANT, 3, 0, 8, 0, NAZSOMBET_RIGHT_RECEIVE | NAZSOMBET_RIGHT_ABORT},
         "Grant thread 3 rights 10 at endpoint 0 under badge 8: done.\n"},
        {{NAZSOMBET_ABORT, 0, 1, 7, 0, 0}, "Abort badge 7 at endpoint 0 with allowance 1: done, count 0.\n"},
        {{NAZSOMBET_RECEIVE, 0, 0, 0, 0, 0}, "Receive at endpoint 0: blocked.\n"},
        {{NAZSOMBET_YIELD, 0, 0, 0, 0, 0}, "Yield: refused by 20, no thread runs.\n"},
    };
    judge(CORE, nazsombet_fresh(tables, NAZSOMBET_TABLES, grants, NAZSOMBET_GRANTS) == NAZSOMBET_DONE);
    for (size_t n = 0; n < sizeof cases / sizeof *cases; n++) {
        call = cases[n].call;
        nazsombet_call(tables, NAZSOMBET_TABLES, grants, NAZSOMBET_GRANTS, scratch, NAZSOMBET_SCRATCH, &call, &answer);
        try_text(CORE, cases[n].text);
    }
}

/* Refusals. */

static void try_refusal(size_t length, enum judgement kind, uint32_t number)
{
    uint32_t code = ask(length);
    size_t start = (size_t)(out - frame);
    judge(kind, code == number);
    judge(UNTOUCHED, stays(start, start + length));
    judge(NOUGHT, used == 0);
}

/* Every buffer that is too short, whatever the call is. */
static void try_short(void)
{
    for (size_t length = 0; length < ROOM; length++)
        try_refusal(length, SHORT, NAZSOMBET_SHORT);
}

/* A call that is refused where the buffer has room, with two answers. */
static void try_refused(struct nazsombet_numbers numbers, enum judgement kind, uint32_t number)
{
    static const struct nazsombet_answer answers[] = {{0, 0, 0, 0}, {UINT32_MAX, UINT32_MAX, UINT32_MAX, UINT32_MAX}};
    call = numbers;
    for (int n = 0; n < 2; n++) {
        answer = answers[n];
        try_short();
        try_refusal(ROOM, kind, number);
        try_refusal(LARGE, kind, number);
    }
}

/* Call numbers that there are not, alone and with each part. */
static void try_no_number(uint32_t number)
{
    struct nazsombet_numbers numbers = {number, 0, 0, 0, 0, 0};
    try_refused(numbers, NO_CALL, NAZSOMBET_NO_CALL);
    for (int part = 0; part < PARTS; part++) {
        struct nazsombet_numbers with = numbers;
        *part_of(&with, part) = 1;
        try_refused(with, NO_CALL, NAZSOMBET_NO_CALL);
    }
}

/* A part that the call does not have is not 0: 18, also where another is out of range. */
static void try_unused(uint32_t number, int part)
{
    static const uint32_t values[] = {1, 1 << 28, UINT32_MAX};
    for (int n = 0; n < 3; n++) {
        struct nazsombet_numbers with = at_edges(number, 0);
        *part_of(&with, part) = values[n];
        try_refused(with, NO_CALL, NAZSOMBET_NO_CALL);
        for (int other = 0; other < PARTS; other++)
            if (shapes[number][other] != NONE)
                *part_of(&with, other) = UINT32_MAX;
        try_refused(with, NO_CALL, NAZSOMBET_NO_CALL);
    }
}

/* A part is just out of its range, or far; the others are inside. */
static void try_out_of_range(uint32_t number, int part)
{
    enum part shape = shapes[number][part];
    uint32_t outside[] = {ranges[shape].largest + 1, UINT32_MAX, ranges[shape].lowest - 1};
    for (int n = 0; n < 3; n++) {
        struct nazsombet_numbers with = at_edges(number, n == 0 ? (1 << PARTS) - 1 : 0);
        *part_of(&with, part) = outside[n];
        try_refused(with, RANGE, NAZSOMBET_RANGE);
    }
}

static void try_call(uint32_t number)
{
    for (unsigned bits = 0; bits < 1 << PARTS; bits++) {
        if (repeats(number, bits))
            continue;
        call = at_edges(number, bits);
        try_answers();
        try_short();
    }
    for (int part = 0; part < PARTS; part++) {
        if (shapes[number][part] == NONE)
            try_unused(number, part);
        else
            try_out_of_range(number, part);
    }
}

/* Whether all judgements of a kind came out right, and some were made. */
static int passed(enum judgement kind)
{
    printf("%s: %lu judged, %lu wrong\n", judged[kind].name, judged[kind].made, judged[kind].wrong);
    return judged[kind].made > 0 && judged[kind].wrong == 0;
}

int main(int count, char **words)
{
    if (count > 1 && (cases = fopen(words[1], "w")) == NULL) {
        perror(words[1]);
        return 2;
    }
    for (uint32_t number = 1; number <= CALLS; number++)
        try_call(number);
    try_no_number(0);
    try_no_number(CALLS + 1);
    try_no_number(UINT32_MAX);
    try_known();
    try_core();
    try_apart();
    if (cases != NULL && fclose(cases) != 0) {
        perror(words[1]);
        return 2;
    }
    printf("%zu lines, the longest of %zu bytes\n", made, longest);
    int right = 0;
    for (int kind = 0; kind < JUDGEMENTS; kind++)
        right += passed((enum judgement)kind);
    printf("sentences: %d passed, %d failed\n", right, JUDGEMENTS - right);
    return right == JUDGEMENTS ? 0 : 1;
}
