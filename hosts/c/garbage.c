/* Lends desks of garbage to every call and question: garbage-c SEED ROUNDS.
 *
 * A host may have corrupted its desk. Whatever its bytes are, each call must come back, touch nothing but the desk and
 * the slice, and change neither when it refuses; and a question must write nothing. Desk and slice each stand at an end
 * of a page of their own between two pages that may not be touched at all. */
#define _DEFAULT_SOURCE
#include "garbage.h"
#include "refusals.h"

#include <inttypes.h>
#include <stdio.h>
#include <stdlib.h>
#include <sys/mman.h>

enum { PAGE = 4096, CALLS_A_ROUND = 20, LONGEST_SLICE = 70, BETWEEN_READ_ONLY = 64 };

/* A page, what it was before a call, and the part of it that is lent. */
struct room {
    unsigned char *page;
    unsigned char before[PAGE];
    size_t start;
    size_t length;
};

static void permit(unsigned char *page, int access)
{
    if (mprotect(page, PAGE, access) != 0) {
        perror("garbage: a page could not be permitted");
        exit(2);
    }
}

static void open_room(struct room *room)
{
    unsigned char *pages = mmap(NULL, 3 * PAGE, PROT_NONE, MAP_PRIVATE | MAP_ANONYMOUS, -1, 0);
    if (pages == MAP_FAILED) {
        perror("garbage: no memory");
        exit(2);
    }
    room->page = pages + PAGE;
    permit(room->page, PROT_READ | PROT_WRITE);
}

/* Lends a part of the page, at its start or at its end. */
static void lend(struct room *room, size_t length, bool at_end)
{
    memset(room->page, 0xa5, PAGE);
    room->start = at_end ? PAGE - length : 0;
    room->length = length;
}

static bool same(const struct room *room, size_t from, size_t to)
{
    return memcmp(room->page + from, room->before + from, to - from) == 0;
}

/* Whether nothing has changed but, at most, so many bytes of the lent part. */
static bool unchanged_but(const struct room *room, size_t bytes)
{
    return same(room, 0, room->start) && same(room, room->start + bytes, PAGE);
}

/* What is wrong with an answer, or NULL. */
static const char *fault(size_t call, DeskAnswer answer, const struct room *desk, const struct room *slice)
{
    bool refused = answer.code != DESK_ACCEPTED;
    size_t handed_back = calls[call].of_slice && !refused ? (size_t)answer.value : 0;
    if (refused && refusal(answer.code)[0] == '\0')
        return "there is no such code";
    if (answer.code == DESK_SLICE_TOO_SHORT && answer.value * sizeof(uint64_t) <= slice->length)
        return "the slice was long enough";
    if (refused && ((answer.value != 0 && answer.code != DESK_SLICE_TOO_SHORT) || answer.time != 0))
        return "a refusal has value 0 and time 0";
    if (handed_back * sizeof(uint64_t) > slice->length)
        return "more was handed back than the slice has places";
    if (!unchanged_but(slice, handed_back * sizeof(uint64_t)))
        return "the slice was written beyond what was handed back";
    if (!unchanged_but(desk, refused || calls[call].is_question ? 0 : sizeof(Desk)))
        return "something was written that may not be";
    return NULL;
}

static const char *lend_and_call(struct room *desk, struct room *slice, const struct made *made, DeskAnswer *answer)
{
    lend(slice, sizeof(uint64_t) * below(LONGEST_SLICE + 1), below(2));
    memcpy(desk->before, desk->page, PAGE);
    memcpy(slice->before, slice->page, PAGE);
    /* The pointer of an empty slice is not followed. */
    void *lent = slice->length == 0 && below(2) ? NULL : slice->page + slice->start;
    Desk *lent_desk = (Desk *)(void *)(desk->page + desk->start);
    /* A question only reads, so that now and then its desk may not be written. */
    bool read_only = calls[made->call].is_question && below(BETWEEN_READ_ONLY) == 0;
    if (read_only)
        permit(desk->page, PROT_READ);
    *answer = perform(made->call, lent_desk, made->numbers, lent, slice->length / sizeof(uint64_t));
    if (read_only)
        permit(desk->page, PROT_READ | PROT_WRITE);
    return fault(made->call, *answer, desk, slice);
}

static void tell(const struct made *made, DeskAnswer answer, const char *wrong)
{
    fprintf(stderr, "garbage: %s", calls[made->call].name);
    for (size_t each = 0; each < calls[made->call].numbers; each++)
        fprintf(stderr, " %" PRIu64, made->numbers[each]);
    fprintf(stderr, " answered %" PRIu32 " %" PRIu64 " %" PRIu32 ": %s\n", answer.code, answer.value, answer.time, wrong);
}

int main(int words, char **word)
{
    if (words != 3 || strtoul(word[2], NULL, 10) == 0) {
        fprintf(stderr, "usage: garbage-c SEED ROUNDS, at least 1\n");
        return 2;
    }
    state = strtoull(word[1], NULL, 10);
    unsigned long rounds = strtoul(word[2], NULL, 10);
    unsigned long accepted = 0;
    static struct room room, slice;
    open_room(&room);
    open_room(&slice);
    for (unsigned long round = 0; round < rounds; round++) {
        lend(&room, sizeof(Desk), round % 2);
        Desk *desk = (Desk *)(void *)(room.page + room.start);
        fill(desk);
        for (int each = 0; each < CALLS_A_ROUND; each++) {
            struct made made;
            DeskAnswer answer;
            random_call(desk, &made);
            const char *wrong = lend_and_call(&room, &slice, &made, &answer);
            if (wrong != NULL) {
                tell(&made, answer, wrong);
                return 1;
            }
            accepted += answer.code == DESK_ACCEPTED;
        }
    }
    printf("%lu calls on %lu desks of garbage, %lu of them accepted\n", rounds * CALLS_A_ROUND, rounds, accepted);
    return 0;
}
