/* What the two lists of a queue cost: calls with a line of one entry and of 32, and with 30 entries that move or none.
 *
 *     cc -O2 -Ibindings/c bench/entries.c target/staticlib/libsotjarn.a -o entries && ./entries
 *
 * Prints the median of 2,000 calls each, in nanoseconds. The tables have one row, so that nearly all of a call is its lists.
 */
#define _POSIX_C_SOURCE 199309L
#include "sotjarn.h"
#include "sotjarn_words.h"
#include <stdio.h>
#include <stdlib.h>
#include <string.h>
#include <time.h>

enum { CALLS = 2000, ROOM = SOTJARN_MOST_ENTRIES };

static struct sotjarn_entry line[ROOM], aside[ROOM];
static const uint32_t rows[SOTJARN_ROW_WORDS] = {SOTJARN_NUMBER(2026), 1, 10, 100}, numbers[1] = {0};
static const uint32_t plan[] = {
    SOTJARN_HEAD(1), SOTJARN_BRANCH(1), SOTJARN_VARIABLE(0), 10, 100, SOTJARN_TRUE, SOTJARN_ROWS(1), SOTJARN_VARIABLE(0)};
static uint32_t output[1];

static void put(struct sotjarn_entry *entries, int count, uint32_t first, uint64_t allowance)
{
    memset(entries, 0, ROOM * sizeof *entries);
    for (int i = 0; i < count; i++) {
        entries[i].allowance = allowance;
        entries[i].owner = first + (uint32_t)i;
        entries[i].plan_words = sizeof plan / sizeof *plan;
        entries[i].state_words = 4;
        memcpy(entries[i].plan, plan, sizeof plan);
        entries[i].state[0] = SOTJARN_SURVEY(0);
        entries[i].state[1] = SOTJARN_YEAR(2026);
        entries[i].state[2] = SOTJARN_POSITION(0, 1);
        entries[i].state[3] = SOTJARN_PLACE(0);
    }
}

/* The calls: each answers whether it was served. */
static int serve(int waiting, int resting)
{
    return sotjarn_serve(rows, SOTJARN_ROW_WORDS, numbers, 1, numbers, 1, 0, line, ROOM, (size_t)waiting, aside, ROOM, (size_t)resting, 1, numbers, 0,
                         output, 1)
               .ending == SOTJARN_SPENT;
}

static int top_up_first(int waiting, int resting)
{
    return sotjarn_top_up(line, ROOM, (size_t)waiting, aside, ROOM, (size_t)resting, aside[0].owner, 5).refused == 0;
}

static int top_up_last(int waiting, int resting)
{
    return sotjarn_top_up(line, ROOM, (size_t)waiting, aside, ROOM, (size_t)resting, aside[resting - 1].owner, 5).refused == 0;
}

static int turn(int waiting, int resting)
{
    uint32_t state[SOTJARN_STATE_WORDS] = {SOTJARN_SURVEY(0), SOTJARN_YEAR(2026), SOTJARN_POSITION(0, 1), SOTJARN_PLACE(0)};
    (void)waiting, (void)resting;
    return sotjarn_turn(rows, SOTJARN_ROW_WORDS, numbers, 1, numbers, 1, 0, plan, sizeof plan / sizeof *plan, state, SOTJARN_STATE_WORDS, 4, 1, numbers, 0,
                        output, 1).ending == SOTJARN_SPENT;
}

static double seconds(void)
{
    struct timespec now;
    clock_gettime(CLOCK_MONOTONIC, &now);
    return (double)now.tv_sec + 1e-9 * (double)now.tv_nsec;
}

static int in_order(const void *a, const void *b)
{
    double x = *(const double *)a, y = *(const double *)b;
    return (x > y) - (x < y);
}

static void measure(const char *what, int (*call)(int, int), int waiting, int resting)
{
    static double taken[CALLS];
    for (int i = 0; i < CALLS; i++) {
        double start;
        put(line, waiting, 1, 1000000);
        put(aside, resting, 100, 0);
        start = seconds();
        if (!call(waiting, resting)) {
            printf("%s: refused\n", what);
            exit(1);
        }
        taken[i] = seconds() - start;
    }
    qsort(taken, CALLS, sizeof *taken, in_order);
    printf("%5.0f ns  %s\n", 1e9 * taken[CALLS / 2], what);
}

int main(void)
{
    measure("a turn of one step, without a queue", turn, 0, 0);
    measure("a serve of one step in a line of 1", serve, 1, 0);
    measure("a serve of one step in a line of 32: 31 entries move up", serve, 32, 0);
    measure("a top-up of the last of 31 set aside: none moves up", top_up_last, 1, 31);
    measure("a top-up of the first of 31 set aside: 30 entries move up", top_up_first, 1, 31);
    return 0;
}
