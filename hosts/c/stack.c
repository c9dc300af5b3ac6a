/* Tells how much stack the calls need: stack-c SEED ROUNDS.
 *
 * Each call is made on a stack of its own that was painted before: what has lost its paint was used. What a call that does nothing uses there is
 * not counted. Fails where a call needs more than docs/BOUNDARY.md says. */
#define _XOPEN_SOURCE 700
#include "garbage.h"

#include <stdio.h>
#include <stdlib.h>
#include <ucontext.h>

enum { STACK = 1 << 16, MOST = 4096, CALLS_A_ROUND = 20, SLICE = 64, PAINT = 0x5a };

static unsigned char stack[STACK];
static Desk desk;
static struct made made;
static uint64_t slice[SLICE];
static ucontext_t host, guest;

static void nothing(void)
{
}

static void one_call(void)
{
    perform(made.call, &desk, made.numbers, slice, SLICE);
}

static void begin(void)
{
    desk = desk_fresh();
}

/* How many bytes of the stack are used. */
static size_t used(void (*work)(void))
{
    memset(stack, PAINT, STACK);
    getcontext(&guest);
    guest.uc_stack.ss_sp = stack;
    guest.uc_stack.ss_size = STACK;
    guest.uc_link = &host;
    makecontext(&guest, work, 0);
    swapcontext(&host, &guest);
    size_t kept = 0;
    while (kept < STACK && stack[kept] == PAINT)
        kept++;
    return STACK - kept;
}

int main(int words, char **word)
{
    if (words != 3 || strtoul(word[2], NULL, 10) == 0) {
        fprintf(stderr, "usage: stack-c SEED ROUNDS, at least 1\n");
        return 2;
    }
    state = strtoull(word[1], NULL, 10);
    unsigned long rounds = strtoul(word[2], NULL, 10);
    /* What the calls need of the C library is looked up at its first use, which is not to be counted. */
    begin();
    for (made.call = 0; made.call < CALLS; made.call++)
        one_call();
    size_t most[CALLS] = {0}, without = used(nothing), beginning = used(begin) - without;
    for (unsigned long round = 0; round < rounds; round++) {
        fill(&desk);
        for (int each = 0; each < CALLS_A_ROUND; each++) {
            random_call(&desk, &made);
            size_t needed = used(one_call) - without;
            if (needed > most[made.call])
                most[made.call] = needed;
        }
    }
    size_t hungriest = 0;
    for (size_t call = 0; call < CALLS; call++)
        if (most[call] > most[hungriest])
            hungriest = call;
    printf("stack: a call needs at most %zu bytes (%s)\n", most[hungriest], calls[hungriest].name);
    printf("stack: a fresh desk needs %zu bytes\n", beginning);
    return most[hungriest] > MOST || beginning > MOST;
}
