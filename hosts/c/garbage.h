/* Desks of garbage, and calls on them: nothing that calls could have made. */
#ifndef GARBAGE_H
#define GARBAGE_H

#include "calls.h"

#include <string.h>

static const uint64_t edges[] = {
    0, 1, 2, 3, 7, 8, 15, 16, 31, 32, 63, 64, 255, UINT64_C(1) << 31, UINT32_MAX - 1, UINT32_MAX, UINT64_MAX,
};

/* A call by its number in the table, with its numbers. */
struct made {
    size_t call;
    uint64_t numbers[MOST_NUMBERS];
};

static uint64_t state;

/* The generator known as splitmix64. */
static uint64_t random_word(void)
{
    uint64_t bits = state += UINT64_C(0x9e3779b97f4a7c15);
    bits = (bits ^ (bits >> 30)) * UINT64_C(0xbf58476d1ce4e5b9);
    bits = (bits ^ (bits >> 27)) * UINT64_C(0x94d049bb133111eb);
    return bits ^ (bits >> 31);
}

static uint64_t below(uint64_t limit)
{
    return random_word() % limit;
}

static uint64_t edge(void)
{
    return edges[below(sizeof edges / sizeof edges[0])];
}

/* Small numbers for the most part, so that calls get far. */
static void fill_numbers(uint32_t *column, size_t places, uint64_t limit)
{
    for (size_t place = 0; place < places; place++)
        column[place] = (uint32_t)(below(8) ? below(limit) : edge());
}

/* Words with about a half, a quarter or an eighth of the places. */
static void fill_words(uint64_t *column, size_t places, int thinned)
{
    for (size_t place = 0; place < places; place++) {
        column[place] = random_word();
        for (int each = 0; each < thinned; each++)
            column[place] &= random_word();
    }
}

/* Columns and words as they could be, but in no order that calls could have made: connections of several threads or of none, items of several
 * channels or of none, facts where no item lies. */
static void fill_by_column(Desk *desk)
{
    desk->living = random_word() | random_word();
    desk->outputs = random_word();
    desk->inputs = random_word();
    desk->channels = random_word();
    desk->present = random_word();
    fill_numbers(desk->times, DESK_THREADS, 12);
    fill_words(desk->owned, DESK_THREADS, 1);
    fill_numbers(desk->leads, DESK_CONNECTIONS, DESK_CHANNELS + 2);
    fill_numbers(desk->marks, DESK_CONNECTIONS, 12);
    fill_words(desk->opened, DESK_CONNECTIONS, 2);
    fill_words(desk->consumed, DESK_CONNECTIONS, 2);
    fill_words(desk->held, DESK_CHANNELS, 1);
    fill_numbers(desk->timestamps, DESK_ITEMS, 12);
    fill_words(desk->tickets, DESK_ITEMS, 0);
}

static void fill(Desk *desk)
{
    uint32_t words[sizeof *desk / sizeof(uint32_t)];
    switch (below(5)) {
    case 0: memset(desk, below(2) ? 0xff : 0, sizeof *desk); return;
    case 1:
        for (size_t word = 0; word < sizeof words / sizeof words[0]; word++)
            words[word] = (uint32_t)(below(3) ? random_word() : edge());
        memcpy(desk, words, sizeof *desk);
        return;
    default: fill_by_column(desk);
    }
}

/* Half of the calls that take a connection and its thread name one that has it. */
static void random_call(const Desk *desk, struct made *made)
{
    made->call = below(CALLS);
    for (size_t each = 0; each < MOST_NUMBERS; each++)
        made->numbers[each] = below(3) ? below(12) : below(4) ? edge() : random_word();
    if (calls[made->call].of_connection && below(2)) {
        made->numbers[1] = below(DESK_CONNECTIONS);
        for (uint64_t thread = 0; thread < DESK_THREADS; thread++)
            if (desk->owned[thread] >> made->numbers[1] & 1)
                made->numbers[0] = thread;
    }
}

#endif
