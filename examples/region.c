/* A region: eight properties, each in tables of its own, asked by two threads in turns of 500 steps; the lists are merged as they come.
 *
 *     make library
 *     cc -pthread -Ibindings/c examples/region.c target/staticlib/libsotjarn.a -o region && ./region
 *
 * or without Rattle, by cargo alone:
 *
 *     make portable
 *     cc -pthread -Ibindings/c examples/region.c portable/target/release/libsotjarn_portable.a -o region && ./region
 *
 * It prints for each stand of all properties together how many stems it has, and the sum of their diameters: the same lines whichever thread is
 * quicker, since lists of groups may be merged in any order.
 */
#include "sotjarn.h"
#include "sotjarn_words.h"
#include <inttypes.h>
#include <pthread.h>
#include <stdio.h>

#define STEM SOTJARN_VARIABLE(0)
#define STAND SOTJARN_VARIABLE(1)
#define SIZE SOTJARN_VARIABLE(2)

/* a record has one key and eight words of totals; there are at most 20 stands */
enum { TABLES = 8, STEMS = 1000, YEAR = 2026, PLAN = 12, QUANTUM = 500, RECORD = 9, KEPT = 20 * RECORD, THREADS = 2 };

/* ?0 n10 ?1, ?0 n12 ?2, condition true; groups by ?1, measuring ?2 */
static const uint32_t plan[PLAN] = {SOTJARN_HEAD(1), SOTJARN_BRANCH(2), STEM, SOTJARN_NAME(10), STAND, STEM,
                                    SOTJARN_NAME(12), SIZE, SOTJARN_TRUE, SOTJARN_GROUP(1), STAND, SIZE};

/* a property's tables, under a number of their own */
struct property {
    uint32_t rows[8 * STEMS], pos[2 * STEMS], osp[2 * STEMS];
    struct sotjarn_tables words;
};

static struct property properties[TABLES];

/* what the threads share: the next table to ask, the merged list, the steps, and a refusal */
static pthread_mutex_t lock = PTHREAD_MUTEX_INITIALIZER;
static unsigned next;
static uint32_t kept[KEPT], refused;
static size_t kept_words;
static uint64_t steps;

static int next_table(void) {
    pthread_mutex_lock(&lock);
    unsigned table = next < TABLES && !refused ? next++ : TABLES;
    pthread_mutex_unlock(&lock);
    return (int)table;
}

static void refuse(uint32_t number) {
    pthread_mutex_lock(&lock);
    refused = number;
    pthread_mutex_unlock(&lock);
}

static void take(const struct sotjarn_turned *turned, const uint32_t *list) {
    pthread_mutex_lock(&lock);
    struct sotjarn_written merged = sotjarn_merge(plan, PLAN, kept, KEPT, kept_words, list, turned->list_words);
    if (merged.refused) refused = merged.refused;
    else kept_words = merged.words;
    steps += turned->steps;
    pthread_mutex_unlock(&lock);
}

/* asks one table to its end */
static void ask(int table) {
    const struct property *p = &properties[table];
    uint32_t state[SOTJARN_STATE_WORDS], output[KEPT];
    struct sotjarn_written opened = sotjarn_open(p->rows, p->words.rows_words, p->pos, p->words.pos_words, p->osp, p->words.osp_words,
                                                 (uint32_t)table, plan, PLAN, state, SOTJARN_STATE_WORDS);
    if (opened.refused) {
        refuse(opened.refused);
        return;
    }
    size_t state_words = opened.words;
    uint32_t ending;
    do {
        struct sotjarn_turned turned =
            sotjarn_turn(p->rows, p->words.rows_words, p->pos, p->words.pos_words, p->osp, p->words.osp_words, (uint32_t)table, plan, PLAN,
                         state, SOTJARN_STATE_WORDS, state_words, QUANTUM, plan, 0, output, KEPT);
        ending = turned.ending;
        if (ending == SOTJARN_REFUSED) refuse(turned.refused);
        else take(&turned, output);
        state_words = turned.state_words;
    } while (ending != SOTJARN_DONE && ending != SOTJARN_REFUSED);
}

static void *work(void *unused) {
    (void)unused;
    for (int table = next_table(); table < TABLES; table = next_table()) ask(table);
    return NULL;
}

int main(void) {
    for (uint32_t table = 0; table < TABLES; table++) {
        struct property *p = &properties[table];
        p->words = sotjarn_grow(table + 1, STEMS, YEAR, p->rows, 8 * STEMS, p->pos, 2 * STEMS, p->osp, 2 * STEMS);
        if (p->words.refused) refused = p->words.refused;
    }
    pthread_t threads[THREADS];
    for (int i = 0; i < THREADS; i++)
        if (pthread_create(&threads[i], NULL, work, NULL)) return 1;
    for (int i = 0; i < THREADS; i++) pthread_join(threads[i], NULL);
    if (refused) {
        printf("refused %" PRIu32 "\n", refused);
        return 1;
    }
    for (size_t at = 0; at < kept_words; at += RECORD) {
        const uint32_t *totals = kept + at + 1;
        printf("stand n%" PRIu32 ": %" PRIu32 " stems, %" PRIu32 " mm\n", SOTJARN_TERM_VALUE(kept[at]), totals[0], totals[4]);
    }
    printf("%d tables, %" PRIu64 " steps\n", TABLES, steps);
    return 0;
}
