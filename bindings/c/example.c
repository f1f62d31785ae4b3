/* The three-stem wood from C: tables made from an upload and the report of what was dropped, a row query in turns of four steps, a best-of
 * list with a threshold, totals merged turn by turn, the total of nothing, registers and a report on them, two owners on the line, an adviser's view, a
 * state after the next upload, two years, a wood grown from a seed, a dictionary of names made, searched and shown, and refused calls. Each buffer
 * comes from malloc with exactly the words it needs, so that a memory checker sees every word beside it.
 * Compiles as C99 and as C++, with the proved library or the portable one (README.md). Prints what it does; exits with 1 where something is
 * not as the rules say. */
#include "sotjarn.h"
#include "sotjarn_words.h"

#include <inttypes.h>
#include <stdio.h>
#include <stdlib.h>
#include <string.h>

/* Terms and plan words, by shorter names. */
#define NAME SOTJARN_NAME
#define NUMBER SOTJARN_NUMBER
#define VARIABLE SOTJARN_VARIABLE

/* A row of the year in which the wood was measured. */
enum { MEASURED = 2026 };
#define ROW(subject, predicate, object) NUMBER(MEASURED), subject, predicate, object

/* The branch that the plans share: ?0 n10 n100, ?0 n12 ?1. */
#define PATTERNS \
    SOTJARN_HEAD(1), SOTJARN_BRANCH(2), VARIABLE(0), NAME(10), NAME(100), VARIABLE(0), NAME(12), VARIABLE(1)

static const uint32_t plan_rows[] = {PATTERNS, SOTJARN_COMPARISON(SOTJARN_AT_LEAST), VARIABLE(1), NUMBER(70),
                                     SOTJARN_ROWS(2), VARIABLE(0), VARIABLE(1)};
static const uint32_t plan_top[] = {PATTERNS, SOTJARN_TRUE,
                                    SOTJARN_TOP(1), SOTJARN_ROWS(2), VARIABLE(0), VARIABLE(1), SOTJARN_FALLING(1)};
static const uint32_t plan_group[] = {PATTERNS, SOTJARN_TRUE, SOTJARN_GROUP(0), VARIABLE(1)};
static const uint32_t plan_registers[] = {PATTERNS, SOTJARN_TRUE, SOTJARN_IN_REGISTERS, VARIABLE(1)};
static const uint32_t plan_felled[] = {PATTERNS, SOTJARN_COMPARISON(SOTJARN_GREATER), VARIABLE(1), NUMBER(310),
                                       SOTJARN_GROUP(0), VARIABLE(1)};

/* The wood as it was measured: the last stem first, the diameter of stem n2 taken twice, and a row whose subject is a text. */
enum { UPLOADED = 8, KEPT = 6, DROPPED = UPLOADED - KEPT };
static const uint32_t uploaded[UPLOADED * SOTJARN_ROW_WORDS] = {
    ROW(NAME(3), NAME(12), NUMBER(310)), ROW(NAME(3), NAME(10), NAME(100)), ROW(NAME(2), NAME(12), NUMBER(310)),
    ROW(SOTJARN_TEXT(7), NAME(12), NUMBER(88)), ROW(NAME(2), NAME(12), NUMBER(310)), ROW(NAME(2), NAME(10), NAME(100)),
    ROW(NAME(1), NAME(12), NUMBER(45)), ROW(NAME(1), NAME(10), NAME(100))};

/* The tables that are made of it. */
static const uint32_t wood_rows[KEPT * SOTJARN_ROW_WORDS] = {
    ROW(NAME(1), NAME(10), NAME(100)), ROW(NAME(1), NAME(12), NUMBER(45)),
    ROW(NAME(2), NAME(10), NAME(100)), ROW(NAME(2), NAME(12), NUMBER(310)),
    ROW(NAME(3), NAME(10), NAME(100)), ROW(NAME(3), NAME(12), NUMBER(310))};
static const uint32_t wood_list[KEPT] = {0, 2, 4, 1, 3, 5};

/* An address for a buffer without words: none may be null. */
static const uint32_t no_words[1] = {0};

/* A buffer of its own: an address and a length in words. */
struct buffer {
    uint32_t *words;
    size_t len;
};

/* The tables, their survey's number and the plan, which go with every turn of a query. */
struct query {
    struct buffer rows, pos, osp;
    uint32_t survey;
    struct buffer plan;
};

/* The numbers that the uploads get here, and the adviser's tables. */
enum { YESTERDAY = 7, TODAY = 8, ADVISED = 9 };

static void expect(int right, const char *what)
{
    if (!right) {
        fprintf(stderr, "not as the rules say: %s\n", what);
        exit(1);
    }
}

static struct buffer make_buffer(size_t len)
{
    struct buffer made;
    made.words = (uint32_t *)malloc((len == 0 ? 1 : len) * sizeof(uint32_t));
    made.len = len;
    expect(made.words != NULL, "there is memory");
    return made;
}

static struct buffer copied(const uint32_t *words, size_t len)
{
    struct buffer made = make_buffer(len);
    memcpy(made.words, words, len * sizeof(uint32_t));
    return made;
}

static struct sotjarn_made make_tables(struct buffer upload, const struct query *q, struct buffer report)
{
    return sotjarn_make(upload.words, upload.len, q->rows.words, q->rows.len, q->pos.words, q->pos.len, q->osp.words, q->osp.len,
                        report.words, report.len);
}

/* A query over the tables that are made of the upload; the report goes into `report`. */
static struct query make_query_telling(const uint32_t *plan, size_t plan_len, struct buffer report)
{
    struct query made;
    struct buffer upload = copied(uploaded, UPLOADED * SOTJARN_ROW_WORDS);
    struct sotjarn_made answer;
    made.rows = make_buffer(KEPT * SOTJARN_ROW_WORDS);
    made.pos = make_buffer(KEPT);
    made.osp = make_buffer(KEPT);
    made.survey = YESTERDAY;
    made.plan = copied(plan, plan_len);
    answer = make_tables(upload, &made, report);
    expect(answer.refused == 0 && answer.rows_words == made.rows.len && answer.pos_words == KEPT && answer.osp_words == KEPT &&
               answer.report_words == report.len, "six rows are kept and two dropped");
    free(upload.words);
    return made;
}

static struct query make_query(const uint32_t *plan, size_t plan_len)
{
    struct buffer report = make_buffer(DROPPED * SOTJARN_DROPPED_WORDS);
    struct query made = make_query_telling(plan, plan_len, report);
    free(report.words);
    return made;
}

static void free_query(struct query *query)
{
    free(query->rows.words);
    free(query->pos.words);
    free(query->osp.words);
    free(query->plan.words);
}

static struct sotjarn_written open_query(const struct query *q, struct buffer state)
{
    return sotjarn_open(q->rows.words, q->rows.len, q->pos.words, q->pos.len, q->osp.words, q->osp.len, q->survey,
                        q->plan.words, q->plan.len, state.words, state.len);
}

static struct sotjarn_turned run_turn(const struct query *q, struct buffer state, size_t state_words, uint32_t quantum,
                                      const uint32_t *threshold, size_t threshold_len, struct buffer output)
{
    return sotjarn_turn(q->rows.words, q->rows.len, q->pos.words, q->pos.len, q->osp.words, q->osp.len, q->survey,
                        q->plan.words, q->plan.len, state.words, state.len, state_words, quantum,
                        threshold, threshold_len, output.words, output.len);
}

static const char *ending_name(uint32_t ending)
{
    static const char *const names[] = {"done", "spent", "full", "refused"};
    return names[ending];
}

/* A term as n5, i5, i-5 or t5; - is unbound. */
static void print_term(uint32_t word)
{
    if (word == SOTJARN_UNBOUND)
        printf(" -");
    else if (SOTJARN_TERM_KIND(word) == SOTJARN_KIND_NUMBER)
        printf(" i%" PRId32, SOTJARN_NUMBER_VALUE(word));
    else
        printf(" %c%" PRIu32, "nit?"[SOTJARN_TERM_KIND(word)], SOTJARN_TERM_VALUE(word));
}

static void print_rows(const uint32_t *list, size_t words, size_t width)
{
    for (size_t at = 0; at < words; at += width) {
        printf("row");
        for (size_t column = 0; column < width; column++)
            print_term(list[at + column]);
        printf("\n");
    }
}

/* The words that a plan asks of an output. */
static size_t least_output(const struct query *query)
{
    struct sotjarn_written asked = sotjarn_least_output(query->plan.words, query->plan.len);
    expect(asked.refused == 0, "the plan is accepted");
    return asked.words;
}

/* Tables from the upload: they are the wood's, and the report tells the two rows that were dropped. Then refused uploads. */
static void tables_from_upload(void)
{
    struct buffer report = make_buffer(DROPPED * SOTJARN_DROPPED_WORDS), upload = copied(uploaded, UPLOADED * SOTJARN_ROW_WORDS);
    struct query made = make_query_telling(plan_rows, sizeof plan_rows / sizeof *plan_rows, report);
    struct buffer short_report = make_buffer(report.len - 1), short_upload = copied(uploaded, 5);
    struct sotjarn_made refused;
    expect(memcmp(made.rows.words, wood_rows, sizeof wood_rows) == 0, "the rows are the wood's, in ascending order");
    expect(memcmp(made.pos.words, wood_list, sizeof wood_list) == 0, "POS has its row numbers");
    expect(memcmp(made.osp.words, wood_list, sizeof wood_list) == 0, "OSP has its row numbers");
    for (size_t at = 0; at < report.len; at += SOTJARN_DROPPED_WORDS)
        printf("dropped row %" PRIu32 ": %s\n", report.words[at], sotjarn_dropped_text(report.words[at + 1]));
    expect(report.words[0] == 3 && report.words[1] == SOTJARN_DROPPED_WRONG_KIND, "a text as subject is a wrong kind");
    expect(report.words[2] == 4 && report.words[3] == SOTJARN_DROPPED_REPEAT, "the second of two equal rows is a repeat");

    memset(made.rows.words, 0, made.rows.len * sizeof(uint32_t));
    refused = make_tables(short_upload, &made, report);
    printf("an upload of 5 words: refused by %" PRIu32 ": %s\n", refused.refused, sotjarn_refusal_text(refused.refused));
    expect(refused.refused == SOTJARN_REFUSED_UPLOAD_LENGTH && refused.rows_words == 0, "five words are no rows");
    refused = make_tables(upload, &made, short_report);
    printf("a report of one word too few: refused by %" PRIu32 "\n", refused.refused);
    expect(refused.refused == SOTJARN_REFUSED_MADE_LENGTHS && refused.report_words == 0, "the report has no room");
    for (size_t at = 0; at < made.rows.len; at++)
        expect(made.rows.words[at] == 0, "a refused making writes nothing");
    free(report.words);
    free(upload.words);
    free(short_report.words);
    free(short_upload.words);
    free_query(&made);
}

/* Rows, in turns of four steps: the lists are joined end to end. */
static void rows_in_turns(void)
{
    struct query query = make_query(plan_rows, sizeof plan_rows / sizeof *plan_rows);
    struct buffer state = make_buffer(SOTJARN_STATE_WORDS), output = make_buffer(64 * least_output(&query));
    struct sotjarn_written opened = open_query(&query, state);
    size_t state_words = opened.words, delivered = 0;
    uint32_t steps = 0, turns = 0;
    struct sotjarn_turned turned;
    expect(opened.refused == 0, "the opening is accepted");
    do {
        turned = run_turn(&query, state, state_words, 4, no_words, 0, output);
        expect(turned.ending != SOTJARN_REFUSED, "the turn is served");
        printf("turn %" PRIu32 " steps %" PRIu32 " %s\n", ++turns, turned.steps, ending_name(turned.ending));
        print_rows(output.words, turned.list_words, 2);
        state_words = turned.state_words;
        delivered += turned.list_words / 2;
        steps += turned.steps;
    } while (turned.ending != SOTJARN_DONE);
    expect(turns == 3 && steps == 10 && delivered == 2 && state_words == 0, "3 turns, 10 steps, 2 rows");
    free(state.words);
    free(output.words);
    free_query(&query);
}

/* Runs a query to its end in turns, merging each list into the kept one as it comes, and gives the words kept. Once the kept list is
 * full, its last `row_words` words go with the next turn as threshold; 0 for groups, which have none. */
static size_t merge_in_turns(const struct query *query, uint32_t quantum, struct buffer kept, size_t row_words)
{
    struct buffer state = make_buffer(SOTJARN_STATE_WORDS), output = make_buffer(kept.len);
    struct sotjarn_written opened = open_query(query, state), merged;
    size_t state_words = opened.words, kept_words = 0;
    struct sotjarn_turned turned;
    expect(opened.refused == 0, "the opening is accepted");
    do {
        int full = row_words > 0 && kept_words == kept.len;
        const uint32_t *threshold = full ? kept.words + kept_words - row_words : no_words;
        turned = run_turn(query, state, state_words, quantum, threshold, full ? row_words : 0, output);
        expect(turned.ending != SOTJARN_REFUSED, "the turn is served");
        merged = sotjarn_merge(query->plan.words, query->plan.len, kept.words, kept.len, kept_words, output.words, turned.list_words);
        expect(merged.refused == 0, "the merge is accepted");
        state_words = turned.state_words;
        kept_words = merged.words;
    } while (turned.ending != SOTJARN_DONE);
    free(state.words);
    free(output.words);
    return kept_words;
}

/* The largest stem. */
static void best_of(void)
{
    struct query query = make_query(plan_top, sizeof plan_top / sizeof *plan_top);
    struct buffer kept = make_buffer(least_output(&query));
    size_t words = merge_in_turns(&query, 1, kept, 2);
    expect(words == 2 && kept.words[0] == NAME(2) && kept.words[1] == NUMBER(310), "the first of the largest stems");
    printf("largest:\n");
    print_rows(kept.words, words, 2);
    free(kept.words);
    free_query(&query);
}

static void print_total(const uint32_t *record)
{
    printf("group %" PRIu64 " %" PRIu64 " %" PRId64, sotjarn_wide(record), sotjarn_wide(record + 2), sotjarn_sum(record + 4));
    print_term(record[6]);
    print_term(record[7]);
    printf("\n");
}

/* The totals of all stems. */
static void totals(void)
{
    struct query query = make_query(plan_group, sizeof plan_group / sizeof *plan_group);
    struct buffer kept = make_buffer(least_output(&query));
    size_t words = merge_in_turns(&query, 3, kept, 0);
    expect(words == 8 && sotjarn_wide(kept.words) == 3 && sotjarn_wide(kept.words + 4) == 665, "one group of 3 rows, and their sum");
    print_total(kept.words);
    free(kept.words);
    free_query(&query);
}

/* The total of a stand without such stems: one record all the same, of nothing. */
static void felled(void)
{
    struct query query = make_query(plan_felled, sizeof plan_felled / sizeof *plan_felled);
    struct buffer kept = make_buffer(least_output(&query));
    size_t words = merge_in_turns(&query, 3, kept, 0);
    expect(words == 8 && sotjarn_wide(kept.words) == 0 && sotjarn_wide(kept.words + 4) == 0, "one group of no rows");
    expect(kept.words[6] == SOTJARN_UNBOUND && kept.words[7] == SOTJARN_UNBOUND, "nothing has no least and no greatest");
    print_total(kept.words);
    free(kept.words);
    free_query(&query);
}

/* Roughly how many diameters: registers of two distinct ones, and a report on them; before anything is merged all 16 have 0. */
static void roughly(void)
{
    struct query query = make_query(plan_registers, sizeof plan_registers / sizeof *plan_registers);
    struct buffer kept = make_buffer(least_output(&query)), report = make_buffer(SOTJARN_REPORT_WORDS);
    struct sotjarn_written reported = sotjarn_report(kept.words, kept.len, 0, report.words, report.len);
    uint32_t touched = 0;
    expect(kept.len == SOTJARN_REGISTERS, "a list of registers has all 16");
    expect(reported.words == SOTJARN_REPORT_WORDS && report.words[0] == SOTJARN_REGISTERS, "nothing is merged yet");
    reported = sotjarn_report(kept.words, kept.len, merge_in_turns(&query, 3, kept, 0), report.words, report.len);
    expect(reported.refused == 0, "the report is made");
    for (size_t value = 1; value < report.len; value++)
        touched += report.words[value];
    printf("registers:");
    for (size_t at = 0; at < kept.len; at++)
        printf(" %" PRIu32, kept.words[at]);
    printf(", %" PRIu32 " touched\n", touched);
    expect(touched == 2 && report.words[0] + touched == SOTJARN_REGISTERS, "two diameters touch two registers");
    reported = sotjarn_report(kept.words, kept.len, kept.len, report.words, report.len - 1);
    expect(reported.refused == SOTJARN_REFUSED_BUFFER_LENGTHS && reported.words == 0, "the report has no room");
    kept.words[0] = SOTJARN_REPORT_WORDS;
    reported = sotjarn_report(kept.words, kept.len, kept.len, report.words, report.len);
    expect(reported.refused == SOTJARN_REFUSED_MERGED_LISTS && reported.words == 0, "no register has 62");
    free(kept.words);
    free(report.words);
    free_query(&query);
}

/* Both lists of a queue, and how many entries each has. */
struct queue {
    struct sotjarn_entry *line, *aside;
    size_t line_entries, aside_entries;
};

static struct sotjarn_entry *make_entries(void)
{
    struct sotjarn_entry *made = (struct sotjarn_entry *)malloc(SOTJARN_MOST_ENTRIES * sizeof(struct sotjarn_entry));
    expect(made != NULL, "there is memory");
    memset(made, 0, SOTJARN_MOST_ENTRIES * sizeof(struct sotjarn_entry));
    return made;
}

static struct sotjarn_queued join_queue(struct queue *q, const struct query *query, uint32_t owner, uint64_t allowance)
{
    struct buffer state = make_buffer(SOTJARN_STATE_WORDS);
    struct sotjarn_written opened = open_query(query, state);
    struct sotjarn_queued queued = sotjarn_join(
        query->rows.words, query->rows.len, query->pos.words, query->pos.len, query->osp.words, query->osp.len, query->survey,
        q->line, SOTJARN_MOST_ENTRIES, q->line_entries, q->aside, SOTJARN_MOST_ENTRIES, q->aside_entries, owner, allowance,
        query->plan.words, query->plan.len, state.words, opened.words);
    expect(opened.refused == 0, "the opening is accepted");
    if (queued.refused == 0) {
        q->line_entries = queued.line_entries;
        q->aside_entries = queued.aside_entries;
    }
    free(state.words);
    return queued;
}

static struct sotjarn_service serve_queue(struct queue *q, const struct query *tables, uint32_t quantum, struct buffer output)
{
    struct sotjarn_service served = sotjarn_serve(
        tables->rows.words, tables->rows.len, tables->pos.words, tables->pos.len, tables->osp.words, tables->osp.len, tables->survey,
        q->line, SOTJARN_MOST_ENTRIES, q->line_entries, q->aside, SOTJARN_MOST_ENTRIES, q->aside_entries, quantum,
        no_words, 0, output.words, output.len);
    if (served.ending != SOTJARN_REFUSED) {
        q->line_entries = served.line_entries;
        q->aside_entries = served.aside_entries;
        printf("owner %" PRIu32 " steps %" PRIu32 " %s, left %" PRIu64 "\n", served.owner, served.steps, ending_name(served.ending),
               served.left);
        print_rows(output.words, served.list_words, 2);
    }
    return served;
}

/* The state of a waiting entry is one like any other: a turn takes it, and delivers what is still to come. */
static void take_waiting(const struct query *query, const struct sotjarn_entry *entry)
{
    struct buffer state = make_buffer(SOTJARN_STATE_ROOM), output = make_buffer(2);
    struct sotjarn_turned turned;
    memcpy(state.words, entry->state, SOTJARN_STATE_ROOM * sizeof(uint32_t));
    turned = run_turn(query, state, entry->state_words, 10, no_words, 0, output);
    expect(turned.ending == SOTJARN_DONE && turned.steps == 5 && turned.list_words == 2 && output.words[0] == NAME(3), "the rest of the rows");
    free(state.words);
    free(output.words);
}

/* Two owners ask for the same rows: the first has five steps and is topped up by ten, the second has a hundred. */
static void two_owners(void)
{
    struct query query = make_query(plan_rows, sizeof plan_rows / sizeof *plan_rows);
    struct queue q = {make_entries(), make_entries(), 0, 0};
    struct buffer output = make_buffer(64 * least_output(&query));
    struct sotjarn_queued queued;
    struct sotjarn_service served;
    expect(join_queue(&q, &query, 7, 5).refused == 0 && join_queue(&q, &query, 8, 100).line_entries == 2, "both join the line");
    expect(join_queue(&q, &query, 7, 5).refused == SOTJARN_REFUSED_ENTRIES, "an owner has one entry");

    served = serve_queue(&q, &query, 8, output);
    expect(served.owner == 7 && served.ending == SOTJARN_SPENT && served.steps == 5 && served.left == 0, "owner 7 has five steps");
    expect(served.list_words == 2 && output.words[0] == NAME(2), "its first row");
    expect(q.aside_entries == 1 && q.aside[0].owner == 7 && q.aside[0].state_words == served.state_words, "it is set aside with its state");
    take_waiting(&query, &q.aside[0]);
    served = serve_queue(&q, &query, 8, output);
    expect(served.owner == 8 && served.ending == SOTJARN_SPENT && served.left == 92, "owner 8 goes to the back");

    queued = sotjarn_top_up(q.line, SOTJARN_MOST_ENTRIES, q.line_entries, q.aside, SOTJARN_MOST_ENTRIES, q.aside_entries, 7, 10);
    expect(queued.refused == 0 && queued.line_entries == 2 && queued.aside_entries == 0, "owner 7 comes back behind owner 8");
    q.line_entries = queued.line_entries;
    q.aside_entries = queued.aside_entries;
    served = serve_queue(&q, &query, 8, output);
    expect(served.owner == 8 && served.ending == SOTJARN_DONE && served.steps == 2 && served.left == 90, "owner 8 leaves");
    served = serve_queue(&q, &query, 8, output);
    expect(served.owner == 7 && served.ending == SOTJARN_DONE && served.steps == 5 && served.left == 5, "5 and 10 granted, 10 taken");
    expect(served.list_words == 2 && output.words[0] == NAME(3), "its second row, as if it had been alone");
    served = serve_queue(&q, &query, 8, output);
    printf("an empty line: %s by %" PRIu32 ": %s\n", ending_name(served.ending), served.refused, sotjarn_refusal_text(served.refused));
    expect(served.refused == SOTJARN_REFUSED_EMPTY_LINE && q.line_entries == 0 && q.aside_entries == 0, "nobody waits");
    free(q.line);
    free(q.aside);
    free(output.words);
    free_query(&query);
}

static struct sotjarn_tables view_tables(const struct query *q, struct buffer grant, uint32_t membership, const struct query *view)
{
    return sotjarn_view(q->rows.words, q->rows.len, q->pos.words, q->pos.len, q->osp.words, q->osp.len, grant.words, grant.len, membership,
                        view->rows.words, view->rows.len, view->pos.words, view->pos.len, view->osp.words, view->osp.len);
}

/* What an adviser gets who is let in to stem n2, and to the whole stand: the query runs on the view, and counts its steps. */
static void adviser(void)
{
    struct query query = make_query(plan_rows, sizeof plan_rows / sizeof *plan_rows), view;
    uint32_t stem[] = {NAME(2)}, stand[] = {NAME(100)}, falling[] = {NAME(3), NAME(2)};
    struct buffer grant = copied(stem, 1), wide = copied(stand, 1), wrong = copied(falling, 2);
    struct buffer state = make_buffer(SOTJARN_STATE_WORDS), output = make_buffer(2);
    struct sotjarn_tables viewed;
    struct sotjarn_written opened;
    struct sotjarn_turned turned;
    view.rows = make_buffer(2 * SOTJARN_ROW_WORDS);
    view.pos = make_buffer(2);
    view.osp = make_buffer(2);
    view.survey = ADVISED;
    view.plan = copied(plan_rows, sizeof plan_rows / sizeof *plan_rows);
    viewed = view_tables(&query, grant, NAME(10), &view);
    expect(viewed.refused == 0 && viewed.rows_words == 2 * SOTJARN_ROW_WORDS && viewed.pos_words == 2 && viewed.osp_words == 2, "stem n2 has two rows");
    expect(memcmp(view.rows.words, wood_rows + 2 * SOTJARN_ROW_WORDS, 2 * SOTJARN_ROW_WORDS * sizeof(uint32_t)) == 0, "they are rows 2 and 3");
    expect(view.pos.words[0] == 0 && view.pos.words[1] == 1 && view.osp.words[0] == 0 && view.osp.words[1] == 1, "numbered from 0");
    opened = open_query(&view, state);
    turned = run_turn(&view, state, opened.words, 10, no_words, 0, output);
    printf("the adviser of stem n2: steps %" PRIu32 " %s\n", turned.steps, ending_name(turned.ending));
    print_rows(output.words, turned.list_words, 2);
    expect(turned.ending == SOTJARN_DONE && turned.list_words == 2 && output.words[0] == NAME(2), "one stem is seen");
    viewed = view_tables(&query, wrong, NAME(10), &view);
    printf("a grant of n3 and n2: refused by %" PRIu32 ": %s\n", viewed.refused, sotjarn_refusal_text(viewed.refused));
    expect(viewed.refused == SOTJARN_REFUSED_GRANT && viewed.rows_words == 0, "a grant ascends");
    viewed = view_tables(&query, wide, NAME(10), &view);
    printf("a view of all rows in so short buffers: refused by %" PRIu32 "\n", viewed.refused);
    expect(viewed.refused == SOTJARN_REFUSED_VIEW_LENGTHS && view.rows.words[1] == NAME(2), "six rows have no room, and the view stays");
    free(grant.words);
    free(wide.words);
    free(wrong.words);
    free(state.words);
    free(output.words);
    free_query(&query);
    free_query(&view);
}

/* A phone goes on with yesterday's query after an upload: its state is of the survey before, so it lets go what it kept and begins anew. */
static void next_upload(void)
{
    struct query query = make_query(plan_rows, sizeof plan_rows / sizeof *plan_rows);
    struct buffer state = make_buffer(SOTJARN_STATE_WORDS), output = make_buffer(64 * least_output(&query));
    struct sotjarn_written opened = open_query(&query, state);
    struct sotjarn_turned turned = run_turn(&query, state, opened.words, 4, no_words, 0, output);
    expect(turned.ending == SOTJARN_SPENT && state.words[0] == SOTJARN_SURVEY(YESTERDAY), "a state begins with its survey's word");
    expect(state.words[1] == SOTJARN_YEAR(MEASURED), "then comes the year that it reads");

    query.survey = TODAY; /* and a diameter that was measured anew: n2 n12 i312 */
    query.rows.words[3 * SOTJARN_ROW_WORDS + 3] = NUMBER(312);
    query.pos.words[4] = query.osp.words[4] = 5; /* i310 of n3 comes before it now */
    query.pos.words[5] = query.osp.words[5] = 3;
    turned = run_turn(&query, state, turned.state_words, 4, no_words, 0, output);
    printf("a state of the survey before: %s by %" PRIu32 ": %s\n", ending_name(turned.ending), turned.refused, sotjarn_refusal_text(turned.refused));
    expect(turned.refused == SOTJARN_REFUSED_SURVEY, "a state of another survey is refused by 22");
    opened = open_query(&query, state);
    expect(opened.refused == 0 && state.words[0] == SOTJARN_SURVEY(TODAY), "the query is opened anew");
    turned = run_turn(&query, state, opened.words, 10, no_words, 0, output);
    expect(turned.ending == SOTJARN_DONE && output.words[1] == NUMBER(312), "its rows are those of today");
    query.survey = SOTJARN_SURVEYS;
    expect(open_query(&query, state).refused == SOTJARN_REFUSED_SURVEY, "a survey's number has 28 bits");
    free(state.words);
    free(output.words);
    free_query(&query);
}

/* The wood of two years: the latest is read, a year that is named, or every year, one after the other. */
static void years(void)
{
    static const uint32_t every[] = {SOTJARN_YEAR(0), PATTERNS, SOTJARN_TRUE, SOTJARN_GROUP(0), VARIABLE(1)};
    uint32_t of_both[2 * KEPT * SOTJARN_ROW_WORDS];
    struct query query;
    struct buffer upload, report = make_buffer(0), state = make_buffer(SOTJARN_STATE_WORDS), output = make_buffer(SOTJARN_TOTALS_WORDS);
    struct sotjarn_made made;
    struct sotjarn_turned turned;
    memcpy(of_both, wood_rows, sizeof wood_rows);
    memcpy(of_both + KEPT * SOTJARN_ROW_WORDS, wood_rows, sizeof wood_rows);
    for (size_t row = 0; row < KEPT; row++) /* the second copy is of the year before, and each stem was thinner by 5 */
        of_both[(KEPT + row) * SOTJARN_ROW_WORDS] = NUMBER(MEASURED - 1);
    for (size_t row = 1; row < KEPT; row += 2)
        of_both[(KEPT + row) * SOTJARN_ROW_WORDS + 3] -= 5;
    upload = copied(of_both, sizeof of_both / sizeof *of_both);
    query.rows = make_buffer(upload.len);
    query.pos = make_buffer(2 * KEPT);
    query.osp = make_buffer(2 * KEPT);
    query.survey = TODAY;
    query.plan = copied(every, sizeof every / sizeof *every);
    made = make_tables(upload, &query, report);
    expect(made.refused == 0 && made.pos_words == 2 * KEPT && query.rows.words[0] == NUMBER(MEASURED - 1), "the earlier year stands first");
    for (uint32_t year = MEASURED - 2; year <= MEASURED; year++) {
        query.plan.words[0] = SOTJARN_YEAR(year);
        turned = run_turn(&query, state, open_query(&query, state).words, 100, no_words, 0, output);
        printf("%" PRIu32 ": steps %" PRIu32 ", stems %" PRIu32 ", sum %" PRId64 "\n", year, turned.steps, output.words[0], sotjarn_sum(output.words + 4));
        expect(turned.ending == SOTJARN_DONE && output.words[4] == (year == MEASURED ? 665u : year == MEASURED - 1 ? 650u : 0u), "each year has its sum");
    }
    query.plan.words[0] = SOTJARN_YEAR(0);
    turned = run_turn(&query, state, open_query(&query, state).words, 100, no_words, 0, output);
    printf("every year: steps %" PRIu32 ", stems %" PRIu32 ", sum %" PRId64 "\n", turned.steps, output.words[0], sotjarn_sum(output.words + 4));
    expect(turned.ending == SOTJARN_DONE && turned.steps == 20 && output.words[0] == 6 && output.words[4] == 1315, "both years have one total");
    query.plan.words[0] = SOTJARN_YEAR(SOTJARN_MOST_YEAR + 1);
    expect(open_query(&query, state).refused == SOTJARN_REFUSED_YEAR, "a year above 9,999 is refused by 23");
    free(upload.words);
    free(report.words);
    free(state.words);
    free(output.words);
    free_query(&query);
}

/* A wood of seed 1, which anyone grows again: its first stem, and how many stems stand in n116. Then a year and a buffer that are refused. */
static void grown(void)
{
    enum { STEMS = 1000 };
    static const uint32_t first[2 * SOTJARN_ROW_WORDS] = {ROW(NAME(1000000), NAME(10), NAME(116)), ROW(NAME(1000000), NAME(12), NUMBER(220))};
    static const uint32_t in_stand[] = {SOTJARN_HEAD(1), SOTJARN_BRANCH(2), VARIABLE(0), NAME(10), NAME(116), VARIABLE(0), NAME(12), VARIABLE(1),
                                        SOTJARN_TRUE, SOTJARN_GROUP(0), VARIABLE(1)};
    struct query query;
    struct sotjarn_tables answer;
    struct buffer kept;
    query.rows = make_buffer(2 * STEMS * SOTJARN_ROW_WORDS);
    query.pos = make_buffer(2 * STEMS);
    query.osp = make_buffer(2 * STEMS);
    query.survey = TODAY;
    query.plan = copied(in_stand, sizeof in_stand / sizeof *in_stand);
    answer = sotjarn_grow(1, STEMS, MEASURED, query.rows.words, query.rows.len, query.pos.words, query.pos.len, query.osp.words, query.osp.len);
    expect(answer.refused == 0 && answer.rows_words == query.rows.len && answer.pos_words == query.pos.len && answer.osp_words == query.osp.len,
           "buffers of exact lengths are enough");
    expect(memcmp(query.rows.words, first, sizeof first) == 0, "the first stem of seed 1 stands in n116 and has a diameter of 220");
    kept = make_buffer(least_output(&query));
    merge_in_turns(&query, 100, kept, 0);
    printf("grown, stand n116: ");
    print_total(kept.words);
    answer = sotjarn_grow(1, STEMS, NUMBER(MEASURED), query.rows.words, query.rows.len, query.pos.words, query.pos.len, query.osp.words, query.osp.len);
    printf("a year as a number's word: refused by %" PRIu32 ": %s\n", answer.refused, sotjarn_refusal_text(answer.refused));
    expect(answer.refused == SOTJARN_REFUSED_STEMS && answer.rows_words == 0, "the year is a plain number");
    answer = sotjarn_grow(1, STEMS, MEASURED, query.rows.words, query.rows.len, query.pos.words, query.pos.len, query.osp.words, query.osp.len - 1);
    expect(answer.refused == SOTJARN_REFUSED_GROWN_LENGTHS && answer.osp_words == 0, "a buffer of one word less is refused by 25");
    free(kept.words);
    free_query(&query);
}

/* A dictionary of its own: bytes from malloc, and a word for the end of each string. */
struct dictionary {
    uint8_t *bytes;
    size_t len;
    struct buffer ends;
};

/* Strings as a caller has them, put one behind the other with their ends. */
static struct dictionary joined(const char *const *strings, size_t count)
{
    struct dictionary made;
    made.len = 0;
    made.ends = make_buffer(count);
    for (size_t i = 0; i < count; i++) {
        made.len += strlen(strings[i]);
        made.ends.words[i] = (uint32_t)made.len;
    }
    made.bytes = (uint8_t *)malloc(made.len == 0 ? 1 : made.len);
    expect(made.bytes != NULL, "there is memory");
    for (size_t i = 0; i < count; i++)
        memcpy(made.bytes + (i == 0 ? 0 : made.ends.words[i - 1]), strings[i], strlen(strings[i]));
    return made;
}

static struct sotjarn_numbered number_strings(const struct dictionary *given, const struct dictionary *made, struct buffer numbers, struct buffer places)
{
    return sotjarn_number(SOTJARN_NAMES, given->bytes, given->len, given->ends.words, given->ends.len, made->bytes, made->len, made->ends.words,
                          made->ends.len, numbers.words, numbers.len, places.words, places.len);
}

static struct sotjarn_found find_string(const struct dictionary *lent, const char *sought)
{
    return sotjarn_find(SOTJARN_NAMES, lent->bytes, lent->len, lent->ends.words, lent->ends.len, (const uint8_t *)sought, strlen(sought));
}

/* Names as they come in, one of them twice: the dictionary of them, each one's number, a search, and the names again by their numbers. */
static void dictionary(void)
{
    static const char *const names[] = {"https://wood.example/stem/2", "https://wood.example/stem/10", "https://wood.example/stem/2"};
    struct dictionary given = joined(names, 3), made = joined(names, 3);
    struct buffer numbers = make_buffer(3), places = make_buffer(3);
    struct sotjarn_numbered numbered = number_strings(&given, &made, numbers, places);
    struct sotjarn_found found;
    struct sotjarn_bounds bounds;
    expect(numbered.refused == 0 && numbered.strings == 2 && numbered.bytes == strlen(names[0]) + strlen(names[1]), "each name stands once");
    expect(numbers.words[0] == 1 && numbers.words[1] == 0 && numbers.words[2] == 1, "10 comes before 2: names go by their characters");
    made.len = numbered.bytes;
    made.ends.len = numbered.strings;
    for (size_t i = 0; i < made.ends.len; i++) {
        bounds = sotjarn_string(SOTJARN_NAMES, made.bytes, made.len, made.ends.words, made.ends.len, i);
        expect(bounds.refused == 0 && bounds.present, "each number has its name");
        printf("n%u is %.*s\n", (unsigned)i, (int)(bounds.end - bounds.start), (const char *)made.bytes + bounds.start);
    }
    bounds = sotjarn_string(SOTJARN_NAMES, made.bytes, made.len, made.ends.words, made.ends.len, 2);
    expect(bounds.refused == 0 && bounds.present == SOTJARN_ABSENT, "there is no n2");
    found = find_string(&made, names[0]);
    expect(found.refused == 0 && found.present && SOTJARN_NAME((uint32_t)found.number) == NAME(1), "the stem is n1");
    found = find_string(&made, "https://wood.example/stem/11");
    expect(found.refused == 0 && found.present == SOTJARN_ABSENT && found.number == 1, "one name comes before it");

    given.bytes[5] = ' ';
    numbered = number_strings(&given, &made, numbers, places);
    printf("a name with a blank: refused by %" PRIu32 ": %s\n", numbered.refused, sotjarn_refusal_text(numbered.refused));
    expect(numbered.refused == SOTJARN_REFUSED_STRINGS && numbered.strings == 0, "no name has a blank");
    given.bytes[5] = ':';
    numbered = number_strings(&given, &made, numbers, places);
    expect(numbered.refused == SOTJARN_REFUSED_NUMBERED_LENGTHS && numbered.bytes == 0, "two ends are too few for three strings, equal or not");
    made.bytes[made.len - 1] = '0';
    found = find_string(&made, names[0]);
    printf("stem/0 behind stem/10: refused by %" PRIu32 ": %s\n", found.refused, sotjarn_refusal_text(found.refused));
    expect(found.refused == SOTJARN_REFUSED_DICTIONARY && found.number == 0, "names that do not ascend are refused by 28");
    free(given.bytes);
    free(given.ends.words);
    free(made.bytes);
    free(made.ends.words);
    free(numbers.words);
    free(places.words);
}

/* Calls that are refused by number and change nothing: short buffers, tables out of order, a quantum of 0, merged rows, part of a plan. */
static void refusals(void)
{
    struct query query = make_query(plan_rows, sizeof plan_rows / sizeof *plan_rows);
    struct buffer state = make_buffer(SOTJARN_STATE_WORDS), output = make_buffer(2), short_state = make_buffer(10);
    struct sotjarn_turned turned;
    struct sotjarn_written merged;
    memset(short_state.words, 0, short_state.len * sizeof(uint32_t));
    expect(open_query(&query, short_state).refused == SOTJARN_REFUSED_BUFFER_LENGTHS, "a state buffer of 10 words is refused by 7");
    expect(open_query(&query, state).words == 4, "a start state has four words");
    output.words[0] = output.words[1] = 12345;
    turned = run_turn(&query, state, 4, 0, no_words, 0, output);
    printf("quantum 0: %s by %" PRIu32 ": %s\n", ending_name(turned.ending), turned.refused, sotjarn_refusal_text(turned.refused));
    expect(turned.refused == SOTJARN_REFUSED_QUANTUM && turned.steps == 0 && turned.list_words == 0, "a quantum of 0 is refused by 8");
    expect(output.words[0] == 12345 && output.words[1] == 12345, "a refused turn writes nothing");
    merged = sotjarn_merge(query.plan.words, query.plan.len, output.words, output.len, 0, no_words, 0);
    expect(merged.refused == SOTJARN_REFUSED_MERGED_LISTS, "the lists of a row query are not merged");
    query.pos.words[5] = 3;
    turned = run_turn(&query, state, 4, 10, no_words, 0, output);
    printf("a list ending 3 3: %s by %" PRIu32 "\n", ending_name(turned.ending), turned.refused);
    expect(turned.refused == SOTJARN_REFUSED_ROW_NUMBERS, "a list ending 3 3 is refused by 4");
    merged = sotjarn_least_output(query.plan.words, query.plan.len - 1);
    expect(merged.refused == SOTJARN_REFUSED_PLAN_FORM && merged.words == 0, "a plan cut short asks for no output");
    free(state.words);
    free(output.words);
    free(short_state.words);
    free_query(&query);
}

int main(void)
{
    tables_from_upload();
    rows_in_turns();
    best_of();
    totals();
    felled();
    roughly();
    two_owners();
    adviser();
    next_upload();
    years();
    grown();
    dictionary();
    refusals();
    return 0;
}
