/* A service that serves a line of owners over one wood, until every query is done: three owners with an allowance of steps each, turns of six
 * steps, and a top-up for whoever is set aside. What the service sends to a phone is printed: whose turn it was, its steps, how it ended, what is
 * left, and the rows or the total so far. An owner's answer is the one that it would get alone.
 *
 *     make library
 *     cc -Ibindings/c examples/line_of_owners.c target/staticlib/libsotjarn.a -o line_of_owners && ./line_of_owners
 *
 * or without Rattle, by cargo alone:
 *
 *     make portable
 *     cc -Ibindings/c examples/line_of_owners.c portable/target/release/libsotjarn_portable.a -o line_of_owners && ./line_of_owners
 *
 * examples/line_of_owners.expected has what it prints.
 */
#include "sotjarn.h"
#include "sotjarn_words.h"
#include <inttypes.h>
#include <stdio.h>

#define COUNT(array) (sizeof(array) / sizeof *(array))
#define STEM SOTJARN_VARIABLE(0)
#define SIZE SOTJARN_VARIABLE(1)
#define MEASURED SOTJARN_NUMBER(2026) /* the year of a row */

enum { SURVEY = 7, ROOM = SOTJARN_MOST_ENTRIES, QUANTUM = 6, TOP_UP = 20, OUTPUT = 64, OWNERS = 3 };

/* The three-stem wood: stands (n10) and diameters (n12). It is one survey, and every query of the line runs over it. */
static const uint32_t rows[] = {
    MEASURED, 1, 10, 100, MEASURED, 1, 12, SOTJARN_NUMBER(45), MEASURED, 2, 10, 100, MEASURED, 2, 12, SOTJARN_NUMBER(310),
    MEASURED, 3, 10, 100, MEASURED, 3, 12, SOTJARN_NUMBER(310)};
static const uint32_t list[] = {0, 2, 4, 1, 3, 5};

/* The stems of at least 70; the total of all diameters; the largest stem. */
static const uint32_t large[] = {
    SOTJARN_HEAD(1), SOTJARN_BRANCH(2), STEM, 10, 100, STEM, 12, SIZE, SOTJARN_COMPARISON(SOTJARN_AT_LEAST), SIZE, SOTJARN_NUMBER(70),
    SOTJARN_ROWS(2), STEM, SIZE};
static const uint32_t total[] = {SOTJARN_HEAD(1), SOTJARN_BRANCH(1), STEM, 12, SIZE, SOTJARN_TRUE, SOTJARN_GROUP(0), SIZE};
static const uint32_t largest[] = {
    SOTJARN_HEAD(1), SOTJARN_BRANCH(1), STEM, 12, SIZE, SOTJARN_TRUE, SOTJARN_TOP(1), SOTJARN_ROWS(2), STEM, SIZE, SOTJARN_FALLING(1)};

/* What a phone keeps: its plan, and the list merged so far, or for rows the list of the last turn. */
static struct phone {
    uint32_t owner;
    uint64_t allowance;
    const uint32_t *plan;
    size_t plan_len, kept_words;
    uint32_t kept[OUTPUT];
} phones[OWNERS] = {
    {7, 8, large, COUNT(large), 0, {0}},
    {8, 2, total, COUNT(total), 0, {0}},
    {9, 1000, largest, COUNT(largest), 0, {0}},
};

/* The queue, which the service holds between calls. */
static struct sotjarn_entry line[ROOM], aside[ROOM];
static size_t line_entries, aside_entries;

static int refused(const char *call, uint32_t number)
{
    printf("%s refused by %" PRIu32 ": %s\n", call, number, sotjarn_refusal_text(number));
    return 1;
}

static struct phone *phone_of(uint32_t owner)
{
    for (int i = 0; i < OWNERS; i++)
        if (phones[i].owner == owner)
            return &phones[i];
    return NULL;
}

static int is_rows(const struct phone *phone)
{
    return phone->plan == large;
}

/* A query comes in: it is opened, and joins with its allowance. */
static uint32_t join(const struct phone *phone)
{
    uint32_t state[SOTJARN_STATE_WORDS];
    struct sotjarn_written opened = sotjarn_open(rows, COUNT(rows), list, COUNT(list), list, COUNT(list), SURVEY, phone->plan,
                                                 phone->plan_len, state, SOTJARN_STATE_WORDS);
    struct sotjarn_queued queued;
    if (opened.refused)
        return opened.refused;
    queued = sotjarn_join(rows, COUNT(rows), list, COUNT(list), list, COUNT(list), SURVEY, line, ROOM, line_entries, aside, ROOM, aside_entries,
                          phone->owner, phone->allowance, phone->plan, phone->plan_len, state, opened.words);
    if (!queued.refused) {
        line_entries = queued.line_entries;
        aside_entries = queued.aside_entries;
    }
    return queued.refused;
}

/* The owner pays for more steps, and comes back to the end of the line. */
static uint32_t top_up(uint32_t owner)
{
    struct sotjarn_queued queued = sotjarn_top_up(line, ROOM, line_entries, aside, ROOM, aside_entries, owner, TOP_UP);
    if (!queued.refused) {
        line_entries = queued.line_entries;
        aside_entries = queued.aside_entries;
        printf("owner %" PRIu32 " is topped up by %d steps\n", owner, TOP_UP);
    }
    return queued.refused;
}

/* The phone takes the list of a turn: rows are shown as they come, a best-of list or a total is merged. */
static uint32_t take(struct phone *phone, const uint32_t *words, size_t count)
{
    struct sotjarn_written merged;
    if (is_rows(phone)) {
        for (size_t at = 0; at < count; at += 2)
            printf("  stem n%" PRIu32 " %" PRId32 "\n", SOTJARN_TERM_VALUE(words[at]), SOTJARN_NUMBER_VALUE(words[at + 1]));
        return 0;
    }
    merged = sotjarn_merge(phone->plan, phone->plan_len, phone->kept, OUTPUT, phone->kept_words, words, count);
    if (!merged.refused)
        phone->kept_words = merged.words;
    return merged.refused;
}

/* What a finished query of that phone has. */
static void show(const struct phone *phone)
{
    if (phone->plan == total)
        printf("  in all %" PRIu64 " stems, %" PRId64 "\n", sotjarn_wide(phone->kept), sotjarn_sum(phone->kept + 4));
    if (phone->plan == largest)
        printf("  the largest is n%" PRIu32 "\n", SOTJARN_TERM_VALUE(phone->kept[0]));
}

int main(void)
{
    static const char *const endings[] = {"done", "spent", "full"};
    uint32_t output[OUTPUT], number;
    for (int i = 0; i < OWNERS; i++)
        if ((number = join(&phones[i])) != 0)
            return refused("a join", number);
    while (line_entries > 0) {
        /* the threshold belongs to the query at the front: the largest stem that its phone has so far */
        const struct phone *front = phone_of(line[0].owner);
        size_t threshold_words = front->plan == largest ? front->kept_words : 0;
        struct sotjarn_service served =
            sotjarn_serve(rows, COUNT(rows), list, COUNT(list), list, COUNT(list), SURVEY, line, ROOM, line_entries, aside, ROOM,
                          aside_entries, QUANTUM, front->kept, threshold_words, output, OUTPUT);
        if (served.ending == SOTJARN_REFUSED)
            return refused("a serve", served.refused);
        line_entries = served.line_entries;
        aside_entries = served.aside_entries;
        printf("owner %" PRIu32 ": %" PRIu32 " steps, %s, %" PRIu64 " left\n", served.owner, served.steps, endings[served.ending], served.left);
        if ((number = take(phone_of(served.owner), output, served.list_words)) != 0)
            return refused("a merge", number);
        if (served.ending == SOTJARN_DONE)
            show(phone_of(served.owner));
        if (aside_entries > 0 && (number = top_up(aside[0].owner)) != 0)
            return refused("a top-up", number);
    }
    return 0;
}
