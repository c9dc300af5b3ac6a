/* The door of a host in C: reads a door script from standard input (hosts/README.md has its lines), and prints the
 * answer to each line. */
#include "calls.h"

#include <inttypes.h>
#include <stdio.h>
#include <stdlib.h>
#include <string.h>

enum { DESKS = 8, LONGEST_SLICE = 70, LONGEST_LINE = 250 };

/* What a slice holds before a sweep: this and the number of the place. */
#define UNTOUCHED UINT64_C(7000000000000000000)

/* A name and its numbers, the length of a slice among them. */
struct line {
    char text[LONGEST_LINE];
    size_t count;
    uint64_t numbers[MOST_NUMBERS + 1];
};

/* A script is written by a program, and a wrong line is an error of that program. */
static void wrong(const struct line *line, const char *why)
{
    fprintf(stderr, "door-c: %s: %s\n", line->text, why);
    exit(2);
}

static bool next_line(struct line *line)
{
    if (fgets(line->text, sizeof line->text, stdin) == NULL)
        return false;
    char *rest = line->text + strcspn(line->text, " \n");
    if (*rest != '\0')
        *rest++ = '\0';
    for (line->count = 0; *rest != '\0' && *rest != '\n'; line->count++) {
        char *number = rest;
        if (line->count > MOST_NUMBERS)
            wrong(line, "no call takes so many numbers");
        line->numbers[line->count] = strtoull(number, &rest, 10);
        if (rest == number)
            wrong(line, "it has something else where a number belongs");
    }
    return true;
}

static void needs_numbers(const struct line *line, size_t count)
{
    if (line->count == count)
        return;
    fprintf(stderr, "door-c: %s takes %zu numbers and has %zu\n", line->text, count, line->count);
    exit(2);
}

static size_t call_of(const char *name)
{
    for (size_t call = 0; call < CALLS; call++)
        if (strcmp(calls[call].name, name) == 0)
            return call;
    fprintf(stderr, "door-c: there is no call %s\n", name);
    exit(2);
}

static void print_answer(DeskAnswer answer)
{
    printf("%" PRIu32 " %" PRIu64 " %" PRIu32, answer.code, answer.value, answer.time);
}

static void print_places(const uint64_t *places, size_t length)
{
    for (size_t place = 0; place < length; place++)
        printf(" %" PRIu64, places[place]);
}

/* Into a slice of the line's length the whole slice is told, and the place after its end; else the tickets. */
static void sweep(Desk *desk, size_t call, const struct line *line, bool into)
{
    uint64_t places[LONGEST_SLICE + 1];
    size_t length = into ? (size_t)line->numbers[calls[call].numbers] : DESK_ITEMS;
    if (length > LONGEST_SLICE)
        wrong(line, "the slice is longer than the longest of a script");
    for (size_t place = 0; place <= length; place++)
        places[place] = UNTOUCHED + place;
    DeskAnswer answer = perform(call, desk, line->numbers, places, length);
    print_answer(answer);
    if (into)
        print_places(places, length + 1);
    else if (answer.code == DESK_ACCEPTED)
        print_places(places, (size_t)answer.value);
}

static void make_call(Desk *desk, struct line *line)
{
    char *into = strstr(line->text, "_into");
    if (into != NULL)
        *into = '\0';
    size_t call = call_of(line->text);
    needs_numbers(line, calls[call].numbers + (into != NULL ? 1 : 0));
    if (calls[call].of_slice)
        sweep(desk, call, line, into != NULL);
    else
        print_answer(perform(call, desk, line->numbers, NULL, 0));
}

static void print_bytes(const Desk *desk)
{
    const unsigned char *bytes = (const unsigned char *)desk;
    for (size_t each = 0; each < sizeof *desk; each++)
        printf("%02x", bytes[each]);
}

/* Whether the whole script was read and every answer written. */
static bool finish(void)
{
    if (ferror(stdin))
        fprintf(stderr, "door-c: the script could not be read to its end\n");
    bool written = fflush(stdout) == 0 && !ferror(stdout);
    if (!written)
        fprintf(stderr, "door-c: the answers could not be written\n");
    return written && !ferror(stdin);
}

int main(void)
{
    Desk desks[DESKS];
    for (size_t each = 0; each < DESKS; each++)
        desks[each] = desk_fresh();
    Desk *desk = &desks[0];
    struct line line;
    while (next_line(&line)) {
        if (strcmp(line.text, "desk") == 0) {
            needs_numbers(&line, 1);
            if (line.numbers[0] >= DESKS)
                wrong(&line, "there is no such desk");
            desk = &desks[line.numbers[0]];
            printf("0 0 0");
        } else if (strcmp(line.text, "fresh") == 0) {
            needs_numbers(&line, 0);
            *desk = desk_fresh();
            printf("0 0 0");
        } else if (strcmp(line.text, "bytes") == 0) {
            needs_numbers(&line, 0);
            print_bytes(desk);
        } else {
            make_call(desk, &line);
        }
        putchar('\n');
    }
    return finish() ? 0 : 1;
}
