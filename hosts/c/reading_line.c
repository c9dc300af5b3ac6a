/* The reading line: a cutter, a sign finder, an expander, and a second reader who comes late. */
#include "desk.h"
#include "refusals.h"

#include <inttypes.h>
#include <stdio.h>
#include <stdlib.h>

enum { CUTTER = 0 };

/* Who is at work, and through which connections. */
struct line {
    Desk desk;
    uint32_t photographs;
    uint32_t finder, expander;
    uint32_t cut, look, write, read;
};

/* The day goes on only while the desk accepts. */
static DeskAnswer accepted(DeskAnswer answer)
{
    if (answer.code != DESK_ACCEPTED) {
        fprintf(stderr, "refused (%" PRIu32 "): %s\n", answer.code, refusal(answer.code));
        exit(1);
    }
    return answer;
}

/* The number of what was created. */
static uint32_t number(DeskAnswer answer)
{
    return (uint32_t)accepted(answer).value;
}

static void begin(struct line *line)
{
    Desk *desk = &line->desk;
    *desk = desk_fresh();
    line->photographs = number(desk_channel(desk, CUTTER));
    uint32_t signs = number(desk_channel(desk, CUTTER));
    line->finder = number(desk_new_thread(desk, CUTTER, 1));
    line->expander = number(desk_new_thread(desk, CUTTER, 1));
    line->cut = number(desk_attach_output(desk, CUTTER, line->photographs));
    line->look = number(desk_attach_input(desk, line->finder, line->photographs));
    line->write = number(desk_attach_output(desk, line->finder, signs));
    line->read = number(desk_attach_input(desk, line->expander, signs));
    /* An input begins at the time of its thread, so the readers have attached at line 1. Now they give up a time of
     * their own, and go by the lines that they hold open. */
    accepted(desk_set(desk, line->finder, DESK_NEVER));
    accepted(desk_set(desk, line->expander, DESK_NEVER));
}

static void cut(struct line *line)
{
    for (uint32_t at = 1; at <= 3; at++) {
        accepted(desk_put(&line->desk, CUTTER, line->cut, at, 100 + at));
        printf("The cutter puts photograph %" PRIu32 " of line %" PRIu32 ".\n", 100 + at, at);
    }
    accepted(desk_end(&line->desk, CUTTER));
    printf("The cutter ends.\n\n");
}

static void find_signs(struct line *line)
{
    Desk *desk = &line->desk;
    for (int left = 3; left > 0; left--) {
        DeskAnswer photograph = accepted(desk_get_earliest(desk, line->finder, line->look));
        uint32_t at = photograph.time;
        accepted(desk_put(desk, line->finder, line->write, at, 200 + at));
        accepted(desk_consume(desk, line->finder, line->look, at));
        printf("The sign finder gets photograph %" PRIu64 " of line %" PRIu32, photograph.value, at);
        printf(", puts signs %" PRIu32 ", and is done with it.\n", 200 + at);
    }
    accepted(desk_end(desk, line->finder));
    printf("The sign finder ends. Nobody at work reads photographs now; ");
    printf("%" PRIu64 " items lie on the desk.\n\n", desk_items_present(desk).value);
}

static void sweep(Desk *desk)
{
    uint64_t tickets[DESK_ITEMS];
    DeskAnswer swept = accepted(desk_strong_sweep(desk, tickets, DESK_ITEMS));
    printf("A strong sweep hands back all below ");
    if (swept.time == DESK_NEVER)
        printf("never:");
    else
        printf("%" PRIu32 ":", swept.time);
    for (uint64_t each = 0; each < swept.value; each++)
        printf("%s %" PRIu64, each == 0 ? "" : " and", tickets[each]);
    printf(". %" PRIu64 " items stay.\n", desk_items_present(desk).value);
}

static void expand(struct line *line)
{
    Desk *desk = &line->desk;
    DeskAnswer first = accepted(desk_get_earliest(desk, line->expander, line->read));
    accepted(desk_consume(desk, line->expander, line->read, first.time));
    printf("The expander gets signs %" PRIu64 " of line %" PRIu32 " and expands them.\n", first.value, first.time);
    DeskAnswer doubtful = accepted(desk_get_earliest(desk, line->expander, line->read));
    printf("The expander gets signs %" PRIu64 " of line %" PRIu32 " and is in doubt.\n", doubtful.value, doubtful.time);
    uint32_t visible = accepted(desk_visible_time(desk, line->expander)).time;
    printf("While it holds them open, its visible time is %" PRIu32, visible);
    printf(": from there on it may call up readers.\n");
    sweep(desk);
    printf("\n");
}

static void read_again(struct line *line)
{
    Desk *desk = &line->desk;
    uint32_t reader = number(desk_new_thread(desk, line->expander, 2));
    DeskAnswer late = accepted(desk_attach_input(desk, reader, line->photographs));
    printf("The expander calls up a second reader for line 2. It attaches late, with mark %" PRIu32 ".\n", late.time);
    DeskAnswer photograph = accepted(desk_get_earliest(desk, reader, (uint32_t)late.value));
    printf("The second reader finds photograph %" PRIu64 " of line %" PRIu32, photograph.value, photograph.time);
    printf(": the desk has kept it.\n");
    accepted(desk_end(desk, reader));
    printf("The second reader ends.\n\n");
}

static void move_on(struct line *line)
{
    Desk *desk = &line->desk;
    accepted(desk_consume(desk, line->expander, line->read, 2));
    DeskAnswer next = accepted(desk_get_earliest(desk, line->expander, line->read));
    uint32_t visible = accepted(desk_visible_time(desk, line->expander)).time;
    printf("The expander moves on and gets signs %" PRIu64 " of line %" PRIu32, next.value, next.time);
    printf(". Its visible time is %" PRIu32 ".\n", visible);
    sweep(desk);
    printf("The expander asks for another reader for line 2:\n");
    uint32_t code = desk_new_thread(desk, line->expander, 2).code;
    printf("  refused (%" PRIu32 "): %s.\n\n", code, refusal(code));
}

static void go_home(struct line *line)
{
    accepted(desk_consume(&line->desk, line->expander, line->read, 3));
    accepted(desk_end(&line->desk, line->expander));
    printf("The expander ends.\n");
    sweep(&line->desk);
}

int main(void)
{
    struct line line;
    begin(&line);
    cut(&line);
    find_signs(&line);
    expand(&line);
    read_again(&line);
    move_on(&line);
    go_home(&line);
    if (fflush(stdout) != 0 || ferror(stdout)) {
        fprintf(stderr, "the story could not be written\n");
        return 1;
    }
    return 0;
}
