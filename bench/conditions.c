/* Times rows that are tested by a long condition: a tree of 15 comparisons joined by "and" to one comparison of the diameter, which is
 * false on nine rows of ten. On the right that comparison is the short side, read first; on the left it is none, and every row's tree is read.
 * Where all comparisons are true nothing is skipped at any "and". One pattern over the 32,768 diameters of a grown wood, so that hardly
 * more is timed than the tests. A line a condition: its name, rows tested, rows kept, and nanoseconds a row, the best of many.
 *
 *     conditions [SECONDS]             every condition, for so long (default 1)
 *     conditions --once NUMBER STEPS   one turn of so many steps by the condition with a number, from 0: for counting instructions */
#include "sotjarn.h"

#include <stdio.h>
#include <stdlib.h>
#include <string.h>
#include <time.h>

enum { STEMS = 32768, ROWS = 2 * STEMS, LEAVES = 15, WORDS = 80 };

#define N(v) ((uint32_t)(v))
#define I(v) (1u << 30 | (uint32_t)(v))
#define V(v) (3u << 30 | (uint32_t)(v))
#define W(kind, low) ((uint32_t)(kind) << 28 | (uint32_t)(low))

static uint32_t rows[SOTJARN_ROW_WORDS * ROWS], pos[ROWS], osp[ROWS], output[2 * STEMS];

#define TABLES rows, SOTJARN_ROW_WORDS * ROWS, pos, ROWS, osp, ROWS

static double taken; /* by the last turn */

static double now(void)
{
    struct timespec t;
    clock_gettime(CLOCK_PROCESS_CPUTIME_ID, &t);
    return (double)t.tv_sec * 1e9 + (double)t.tv_nsec;
}

/* 32,768 stems, as the call grows them: the rows of n12 are their diameters */
static void grow(void)
{
    if (sotjarn_grow(1, STEMS, 2026, TABLES).refused) {
        fprintf(stderr, "bench/conditions: the wood is not grown\n");
        exit(1);
    }
}

/* the trees: "or" of 15 diameters; "or" over "and" over "or" of the six comparisons in turn; "and" of 15 comparisons that are all true; and seven
 * that are, each on the right of an "and" over the ones before it */
enum tree { ORS, MIXED, ANDS, CHAIN };

static uint32_t *put_comparison(uint32_t *w, uint32_t operator, uint32_t diameter)
{
    *w++ = W(7, operator);
    *w++ = V(1);
    *w++ = I(diameter);
    return w;
}

/* a tree of so many comparisons, as even as can be, or a chain */
static uint32_t *put_tree(uint32_t *w, enum tree tree, uint32_t first, uint32_t leaves, uint32_t kind)
{
    uint32_t under = tree == MIXED ? 9 - kind : kind, left = tree == CHAIN ? leaves - 1 : leaves - leaves / 2;
    if (leaves == 1)
        return tree == ORS     ? put_comparison(w, 0, 20 + 41 * first)
               : tree == MIXED ? put_comparison(w, first % 6, 20 + 40 * first)
                               : put_comparison(w, 5, first);
    *w++ = W(kind, 0);
    w = put_tree(w, tree, first, left, under);
    return put_tree(w, tree, first + left, leaves - left, under);
}

enum side { NONE, RIGHT, LEFT };

struct condition {
    const char *name;
    enum side side; /* where the short side stands */
    enum tree tree;
    uint32_t least; /* the short side: a diameter of at least so much */
};

static const struct condition conditions[] = {
    {"no condition", NONE, ORS, 0},
    {"one of 15 diameters, and the short side on the right, false on nine rows of ten", RIGHT, ORS, 560},
    {"the same with the short side on the left", LEFT, ORS, 560},
    {"one of 15 diameters, and the short side on the right, always true", RIGHT, ORS, 0},
    {"or, and, or over 15 comparisons, and the short side on the right, false on nine rows of ten", RIGHT, MIXED, 560},
    {"the same with the short side on the left", LEFT, MIXED, 560},
    {"and of 15 comparisons, and the short side on the right, all true", RIGHT, ANDS, 0},
    {"and of 15 comparisons, and the short side on the left, all true", LEFT, ANDS, 0},
    {"a chain of 7 comparisons, each on the right of an and, and the short side, all true", RIGHT, CHAIN, 0},
};

enum { CONDITIONS = sizeof conditions / sizeof *conditions };

/* one branch of one pattern, ?0 n12 ?1, with the condition; rows ?0 ?1 */
static size_t put_plan(uint32_t *plan, const struct condition *c)
{
    uint32_t *w = plan, start[] = {W(1, 1), W(2, 1), V(0), N(12), V(1)}, end[] = {W(8, 2), V(0), V(1)};
    memcpy(w, start, sizeof start);
    w += 5;
    *w++ = c->side == NONE ? W(3, 0) : W(4, 0);
    if (c->side == LEFT)
        w = put_comparison(w, 5, c->least);
    if (c->side != NONE)
        w = put_tree(w, c->tree, 0, c->tree == CHAIN ? 7 : LEAVES, c->tree == ANDS || c->tree == CHAIN ? 4 : 5);
    if (c->side == RIGHT)
        w = put_comparison(w, 5, c->least);
    memcpy(w, end, sizeof end);
    return (size_t)(w + 3 - plan);
}

static struct sotjarn_turned turn(const uint32_t *plan, size_t words, uint32_t steps)
{
    uint32_t state[SOTJARN_STATE_WORDS];
    size_t used = sotjarn_open(TABLES, 1, plan, words, state, SOTJARN_STATE_WORDS).words;
    struct sotjarn_turned r;
    double t = now();
    r = sotjarn_turn(TABLES, 1, plan, words, state, SOTJARN_STATE_WORDS, used, steps, state, 0, output, 2 * STEMS);
    taken = now() - t;
    if (r.ending == SOTJARN_REFUSED) {
        fprintf(stderr, "bench/conditions: a turn is refused by %u\n", (unsigned)r.refused);
        exit(1);
    }
    return r;
}

static void measure(const struct condition *c, double seconds)
{
    uint32_t plan[WORDS];
    size_t words = put_plan(plan, c);
    double best = 1e18, start = now(), checked;
    struct sotjarn_turned r;
    for (int round = 0; round < 3 || now() - start < seconds * 1e9; round++) {
        turn(plan, words, 1);
        checked = taken;
        r = turn(plan, words, 1000000);
        if (taken - checked < best) /* without the check of the tables */
            best = taken - checked;
    }
    printf("%s\t%d\t%u\t%.1f\n", c->name, STEMS, (unsigned)(r.list_words / 2), best / STEMS);
}

int main(int count, char **words)
{
    double seconds = count > 1 ? atof(words[1]) : 1;
    grow();
    if (count == 4 && strcmp(words[1], "--once") == 0) {
        uint32_t plan[WORDS];
        size_t used = put_plan(plan, &conditions[atoi(words[2]) % CONDITIONS]);
        printf("%u rows\n", (unsigned)(turn(plan, used, (uint32_t)atoi(words[3])).list_words / 2));
        return 0;
    }
    for (size_t i = 0; i < CONDITIONS; i++)
        measure(&conditions[i], seconds);
    return 0;
}
