/* The best stem of the three-stem wood: its tables are made of an upload, in the order in which it was measured; then turns of four steps,
 * with the threshold sent once the kept list is full.
 *
 *     make library
 *     cc -Ibindings/c examples/best_of.c target/staticlib/libsotjarn.a -o best_of && ./best_of
 *
 * or without Rattle, by cargo alone:
 *
 *     make portable
 *     cc -Ibindings/c examples/best_of.c portable/target/release/libsotjarn_portable.a -o best_of && ./best_of
 *
 * It prints the row that was dropped, "row 2 of the upload: repeat", and the best stem, "stem n2 310".
 */
#include "sotjarn.h"
#include "sotjarn_words.h"
#include <inttypes.h>
#include <stdio.h>

#define STEM SOTJARN_VARIABLE(0)
#define SIZE SOTJARN_VARIABLE(1)
#define ROW(stem, predicate, object) SOTJARN_NUMBER(2026), SOTJARN_NAME(stem), SOTJARN_NAME(predicate), object

/* SURVEY is the number that the upload got: another one goes with every upload */
enum { SURVEY = 7, COUNT = 7, PLAN = 16, STATE = SOTJARN_STATE_WORDS, BEST = 1, WIDTH = 2, QUANTUM = 4 };

/* rows of 2026; the third is the second again */
static const uint32_t upload[4 * COUNT] = {
    ROW(3, 12, SOTJARN_NUMBER(310)), ROW(2, 12, SOTJARN_NUMBER(310)), ROW(2, 12, SOTJARN_NUMBER(310)), ROW(2, 10, SOTJARN_NAME(100)),
    ROW(3, 10, SOTJARN_NAME(100)), ROW(1, 10, SOTJARN_NAME(100)), ROW(1, 12, SOTJARN_NUMBER(45))};

/* room for all that an upload of so many rows can make */
static uint32_t rows[4 * COUNT], pos[COUNT], osp[COUNT], report[2 * COUNT];

/* ?0 n10 n100, ?0 n12 ?1, condition ?1 >= i70; the best 1 of rows ?0 ?1 by ?1 falling */
static const uint32_t plan[PLAN] = {
    SOTJARN_HEAD(1), SOTJARN_BRANCH(2), STEM, SOTJARN_NAME(10), SOTJARN_NAME(100), STEM, SOTJARN_NAME(12), SIZE,
    SOTJARN_COMPARISON(SOTJARN_AT_LEAST), SIZE, SOTJARN_NUMBER(70), SOTJARN_TOP(BEST), SOTJARN_ROWS(WIDTH), STEM, SIZE, SOTJARN_FALLING(1)};

static int refused(uint32_t number) {
    printf("refused %u\n", (unsigned)number);
    return 1;
}

int main(void) {
    uint32_t state[STATE], output[BEST * WIDTH], kept[BEST * WIDTH];
    size_t state_words, kept_words = 0;
    uint32_t ending;

    struct sotjarn_made made = sotjarn_make(upload, 4 * COUNT, rows, 4 * COUNT, pos, COUNT, osp, COUNT, report, 2 * COUNT);
    if (made.refused) return refused(made.refused);
    for (size_t at = 0; at < made.report_words; at += 2)
        printf("row %u of the upload: %s\n", (unsigned)report[at], sotjarn_dropped_text(report[at + 1]));

    struct sotjarn_written opened =
        sotjarn_open(rows, made.rows_words, pos, made.pos_words, osp, made.osp_words, SURVEY, plan, PLAN, state, STATE);
    if (opened.refused) return refused(opened.refused);
    state_words = opened.words;

    do {
        /* the last row of the kept list, once that is full; before, none */
        const uint32_t *threshold = kept + (BEST - 1) * WIDTH;
        size_t threshold_words = kept_words == BEST * WIDTH ? WIDTH : 0;

        struct sotjarn_turned turned =
            sotjarn_turn(rows, made.rows_words, pos, made.pos_words, osp, made.osp_words, SURVEY, plan, PLAN, state, STATE,
                         state_words, QUANTUM, threshold, threshold_words, output, BEST * WIDTH);
        if (turned.ending == SOTJARN_REFUSED) return refused(turned.refused);

        struct sotjarn_written merged =
            sotjarn_merge(plan, PLAN, kept, BEST * WIDTH, kept_words, output, turned.list_words);
        if (merged.refused) return refused(merged.refused);

        ending = turned.ending;
        state_words = turned.state_words;
        kept_words = merged.words;
    } while (ending != SOTJARN_DONE);

    for (size_t at = 0; at < kept_words; at += WIDTH)
        printf("stem n%" PRIu32 " %" PRId32 "\n", SOTJARN_TERM_VALUE(kept[at]), SOTJARN_NUMBER_VALUE(kept[at + 1]));
    return 0;
}
