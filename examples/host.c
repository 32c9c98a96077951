/*
 * Lists a journal, as the program trace does: host [FILE], or host < FILE. The words of the journal are little-endian.
 *
 *     ./build.sh core_c
 *     cc -std=c99 -Wall -Wextra -Iinclude -o target/host examples/host.c target/staticlib/libcore_c.a
 *     target/host tests/journals/example.words
 */
#include <inttypes.h>
#include <stdio.h>
#include <stdlib.h>

#include "nazsombet.h"

static void complain(const char *what)
{
    fprintf(stderr, "host: %s\n", what);
    exit(1);
}

/* All bytes of a file; how many. */
static unsigned char *all_bytes(FILE *file, size_t *length)
{
    size_t room = 4096;
    unsigned char *bytes = malloc(room);
    *length = 0;
    while (bytes != NULL) {
        *length += fread(bytes + *length, 1, room - *length, file);
        if (*length < room)
            break;
        unsigned char *more = room > SIZE_MAX / 2 ? NULL : realloc(bytes, room * 2);
        if (more == NULL)
            free(bytes);
        bytes = more;
        room *= 2;
    }
    if (bytes == NULL)
        complain("there is not enough memory for the journal");
    if (ferror(file))
        complain("the journal could not be read");
    return bytes;
}

/* The whole words among the bytes. */
static uint32_t *all_words(const unsigned char *bytes, size_t count)
{
    /* One word more than needed: the library asks for a pointer that is not null. */
    uint32_t *words = calloc(count + 1, sizeof *words);
    if (words == NULL)
        complain("there is not enough memory for the journal");
    for (size_t i = 0; i < count; i++) {
        const unsigned char *b = bytes + 4 * i;
        words[i] = b[0] | (uint32_t)b[1] << 8 | (uint32_t)b[2] << 16 | (uint32_t)b[3] << 24;
    }
    return words;
}

static void line(size_t index, uint32_t number, const struct nazsombet_answer *a, uint32_t running)
{
    printf("%zu %" PRIu32 " %" PRIu32 " %" PRIu32 " %" PRIu32 " %" PRIu32 " ", index, number, a->code, a->count,
           a->badge, a->message);
    if (running == NAZSOMBET_NOBODY)
        printf("-\n");
    else
        printf("%" PRIu32 "\n", running);
}

int main(int argc, char **argv)
{
    static struct nazsombet_lent lent;
    FILE *file = argc < 2 ? stdin : fopen(argv[1], "rb");
    if (file == NULL)
        complain("the journal could not be opened");
    size_t length;
    unsigned char *bytes = all_bytes(file, &length);
    uint32_t *journal = all_words(bytes, length / 4);

    nazsombet_lent_fresh(&lent);
    printf("n call code count badge message running\n");
    struct nazsombet_numbers call;
    size_t at = 0;
    size_t index = 0;
    uint32_t code;
    while ((code = nazsombet_read(journal, length / 4, &at, &call)) == NAZSOMBET_DONE) {
        struct nazsombet_answer answer;
        nazsombet_lent_call(&lent, call, &answer);
        line(index, call.number, &answer, nazsombet_lent_running(&lent));
        index++;
    }
    if (code == NAZSOMBET_ENDED && length % 4 != 0)
        code = NAZSOMBET_NO_CALL;
    if (code != NAZSOMBET_ENDED) {
        struct nazsombet_answer last = {code, 0, 0, 0};
        line(index, 0, &last, nazsombet_lent_running(&lent));
    }
    if (fflush(stdout) != 0)
        complain("the listing could not be written");
    free(journal);
    free(bytes);
    return 0;
}
