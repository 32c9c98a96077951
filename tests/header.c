/*
 * header: what the functions of include/nazsombet.h do that are compiled with a host, in every C and C++ that the
 * header is for: C89 as well, so declarations stand first. Each call by name has the journal words of that call,
 * written here by hand; and the memory lent as a whole is lent with its lengths.
 *
 *     sh tests/c.sh
 *
 * Complains and exits with 1 where something is wrong.
 */
#include <stdio.h>
#include <string.h>

#include "nazsombet.h"
#include "nazsombet_tools.h"

static int wrong;

static void holds(const char *what, int right)
{
    if (!right) {
        printf("failed: %s\n", what);
        wrong = 1;
    }
}

/* The call is written as these words; those that it has not are 0. */
static void written(const char *name, struct nazsombet_numbers call, uint32_t first, uint32_t second, uint32_t third)
{
    uint32_t words[3];
    size_t count = 0;
    holds(name, nazsombet_write(&call, words, &count) == NAZSOMBET_DONE);
    holds(name, count == (third != 0 ? 3u : second != 0 ? 2u : 1u));
    holds(name, words[0] == first && words[1] == second && words[2] == third);
}

static void calls(void)
{
    written("create thread", nazsombet_create_thread_call(3, 100), 0x11030064u, 0, 0);
    written("destroy thread", nazsombet_destroy_thread_call(3), 0x12030000u, 0, 0);
    written("set priority", nazsombet_set_priority_call(3, 100), 0x13030064u, 0, 0);
    written("create endpoint", nazsombet_create_endpoint_call(5), 0x14050000u, 0, 0);
    written("interrupt", nazsombet_interrupt_call(9), 0x15090000u, 0, 0);
    written("tick", nazsombet_tick_call(), 0x16000000u, 0, 0);
    written("send", nazsombet_send_call(5, 7, 100), 0x17050000u, 0x20000007u, 0x30000064u);
    written("receive", nazsombet_receive_call(5), 0x18050000u, 0, 0);
    written("yield", nazsombet_yield_call(), 0x19000000u, 0, 0);
    written("wait", nazsombet_wait_call(9), 0x1A090000u, 0, 0);
    written("delete", nazsombet_delete_call(5, 1000), 0x1B0503E8u, 0, 0);
    written("abort", nazsombet_abort_call(5, 1000, 7), 0x1C0503E8u, 0x20000007u, 0);
    written("grant", nazsombet_grant_call(3, 5, 11, 7), 0x1D030B05u, 0x20000007u, 0);
}

static void memory(void)
{
    static struct nazsombet_lent lent;
    struct nazsombet_answer answer;
    struct nazsombet_waking woken;
    memset(&lent, 1, sizeof lent);
    holds("unsound before", nazsombet_lent_check(&lent) == NAZSOMBET_UNSOUND);
    holds("fresh", nazsombet_lent_fresh(&lent) == NAZSOMBET_DONE);
    holds("sound", nazsombet_lent_check(&lent) == NAZSOMBET_DONE);
    holds("nobody", nazsombet_lent_running(&lent) == NAZSOMBET_NOBODY);
    nazsombet_lent_call(&lent, nazsombet_create_endpoint_call(5), &answer);
    nazsombet_lent_call(&lent, nazsombet_create_thread_call(3, 100), &answer);
    nazsombet_lent_call(&lent, nazsombet_grant_call(3, 5, NAZSOMBET_RIGHT_RECEIVE, 0), &answer);
    nazsombet_lent_call(&lent, nazsombet_create_thread_call(4, 50), &answer);
    nazsombet_lent_call(&lent, nazsombet_grant_call(4, 5, NAZSOMBET_RIGHT_SEND, 7), &answer);
    holds("runs", nazsombet_lent_running(&lent) == 3);
    holds("blocks", nazsombet_lent_call(&lent, nazsombet_receive_call(5), &answer) == NAZSOMBET_BLOCKED);
    holds("sends", nazsombet_lent_call(&lent, nazsombet_send_call(5, 7, 100), &answer) == NAZSOMBET_DONE);
    holds("runs again", nazsombet_lent_running(&lent) == 3);
    woken = nazsombet_lent_woken(&lent, 3);
    holds("received", woken.outcome == NAZSOMBET_MESSAGE_RECEIVED && woken.badge == 7 && woken.message == 100);
    woken = nazsombet_lent_woken(&lent, 4);
    holds("not woken", woken.outcome == NAZSOMBET_NO_OUTCOME && woken.badge == 0 && woken.message == 0);
}

int main(void)
{
    calls();
    memory();
    return wrong;
}
