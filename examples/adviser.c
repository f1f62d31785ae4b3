/* An adviser who is let in to one stand of a wood: the service makes tables of the survey, writes the adviser's view of them, and runs the adviser's
 * query on the view. Between two turns a stand that the adviser does not see is measured anew: one stem of it is gone, one has grown, and one is new.
 * The view is the same word for word, so it keeps its number, and the query goes on from its saved state. Then a stem of the adviser's own stand is
 * remeasured, and the view is another one.
 *
 *     make library
 *     cc -Ibindings/c examples/adviser.c target/staticlib/libsotjarn.a -o adviser && ./adviser
 *
 * or without Rattle, by cargo alone:
 *
 *     make portable
 *     cc -Ibindings/c examples/adviser.c portable/target/release/libsotjarn_portable.a -o adviser && ./adviser
 *
 * examples/adviser.expected has what it prints.
 */
#include "sotjarn.h"
#include "sotjarn_words.h"
#include <inttypes.h>
#include <stdio.h>
#include <string.h>

#define COUNT(array) (sizeof(array) / sizeof *(array))
#define STEM SOTJARN_VARIABLE(0)
#define SIZE SOTJARN_VARIABLE(1)
#define GROWS_IN SOTJARN_NAME(10)
#define MEASURES SOTJARN_NAME(12)
#define STOOD(stem, stand, size) \
    SOTJARN_NUMBER(2026), SOTJARN_NAME(stem), GROWS_IN, SOTJARN_NAME(stand), SOTJARN_NUMBER(2026), SOTJARN_NAME(stem), MEASURES, SOTJARN_NUMBER(size)

/* The adviser's tables have a number of their own, and keep it while the view is the same. */
enum { SEEN = 40, ROWS = 12, WORDS = SOTJARN_ROW_WORDS * ROWS, QUANTUM = 2, OUTPUT = 16 };

/* The first survey: stems n1, n3 and n5 in stand n100, the others in n101. Then n2 is felled, n4 has grown, and n7 is new; last, n3 has grown. */
static const uint32_t first[] = {STOOD(1, 100, 45), STOOD(2, 101, 310), STOOD(3, 100, 310), STOOD(4, 101, 88), STOOD(5, 100, 120)};
static const uint32_t second[] = {STOOD(1, 100, 45), STOOD(3, 100, 310), STOOD(4, 101, 91), STOOD(5, 100, 120), STOOD(7, 101, 20)};
static const uint32_t third[] = {STOOD(1, 100, 45), STOOD(3, 100, 318), STOOD(4, 101, 91), STOOD(5, 100, 120), STOOD(7, 101, 20)};

/* What the adviser may see: whatever grows in stand n100. And what is asked: all stems with their diameters. */
static const uint32_t grant[] = {SOTJARN_NAME(100)};
static const uint32_t plan[] = {SOTJARN_HEAD(1), SOTJARN_BRANCH(1), STEM, MEASURES, SIZE, SOTJARN_TRUE, SOTJARN_ROWS(2), STEM, SIZE};

/* Tables of at most so many rows, and how many they have. */
struct tables {
    uint32_t rows[WORDS], pos[ROWS], osp[ROWS];
    size_t count;
};

static uint32_t make(const uint32_t *survey, size_t words, struct tables *made)
{
    uint32_t report[2 * ROWS];
    struct sotjarn_made answer = sotjarn_make(survey, words, made->rows, WORDS, made->pos, ROWS, made->osp, ROWS, report, 2 * ROWS);
    made->count = answer.pos_words;
    return answer.refused;
}

static uint32_t view(const struct tables *whole, struct tables *seen)
{
    struct sotjarn_tables answer =
        sotjarn_view(whole->rows, SOTJARN_ROW_WORDS * whole->count, whole->pos, whole->count, whole->osp, whole->count, grant, COUNT(grant), GROWS_IN,
                     seen->rows, WORDS, seen->pos, ROWS, seen->osp, ROWS);
    seen->count = answer.pos_words;
    return answer.refused;
}

static int same(const struct tables *one, const struct tables *other)
{
    return one->count == other->count && memcmp(one->rows, other->rows, 12 * one->count) == 0 &&
           memcmp(one->pos, other->pos, 4 * one->count) == 0 && memcmp(one->osp, other->osp, 4 * one->count) == 0;
}

static int refused(const char *call, uint32_t number)
{
    printf("%s refused by %" PRIu32 ": %s\n", call, number, sotjarn_refusal_text(number));
    return 1;
}

/* One turn of the adviser's query over a view; the state goes on from turn to turn. */
static struct sotjarn_turned turn(const struct tables *seen, uint32_t *state, size_t state_words)
{
    static const char *const endings[] = {"done", "spent", "full", "refused"};
    uint32_t output[OUTPUT];
    struct sotjarn_turned turned =
        sotjarn_turn(seen->rows, SOTJARN_ROW_WORDS * seen->count, seen->pos, seen->count, seen->osp, seen->count, SEEN, plan, COUNT(plan), state,
                     SOTJARN_STATE_WORDS, state_words, QUANTUM, grant, 0, output, OUTPUT);
    printf("a turn: %" PRIu32 " steps, %s\n", turned.steps, endings[turned.ending]);
    for (size_t at = 0; at < turned.list_words; at += 2)
        printf("  stem n%" PRIu32 " %" PRId32 "\n", SOTJARN_TERM_VALUE(output[at]), SOTJARN_NUMBER_VALUE(output[at + 1]));
    return turned;
}

int main(void)
{
    struct tables whole, seen, again;
    uint32_t state[SOTJARN_STATE_WORDS], number;
    struct sotjarn_written opened;
    struct sotjarn_turned turned;

    if ((number = make(first, COUNT(first), &whole)) || (number = view(&whole, &seen)))
        return refused("the first survey", number);
    printf("the service has %zu rows, the adviser sees %zu\n", whole.count, seen.count);
    opened = sotjarn_open(seen.rows, SOTJARN_ROW_WORDS * seen.count, seen.pos, seen.count, seen.osp, seen.count, SEEN, plan, COUNT(plan), state, COUNT(state));
    if (opened.refused)
        return refused("the query", opened.refused);
    turned = turn(&seen, state, opened.words);

    if ((number = make(second, COUNT(second), &whole)) || (number = view(&whole, &again)))
        return refused("the second survey", number);
    printf("another stand is measured anew: the view is %s\n", same(&seen, &again) ? "the same" : "another");
    while (turned.ending != SOTJARN_DONE) {
        turned = turn(&again, state, turned.state_words);
        if (turned.ending == SOTJARN_REFUSED)
            return refused("a turn", turned.refused);
    }

    if ((number = make(third, COUNT(third), &whole)) || (number = view(&whole, &again)))
        return refused("the third survey", number);
    printf("stem n3 is measured anew: the view is %s\n", same(&seen, &again) ? "the same" : "another");
    return 0;
}
