/* Times the proved engine, two step machines in C, the portable engine and SQLite on three woods, in turns, and prints the best time of each in
 * nanoseconds, a line a measure: wood, name, steps, engine, C floor, C plain, SQLite, portable ('-': it has nothing like it, or is not there).
 * The engines' and the C machines' steps and lists are compared word by word; SQLite's rows by their number, and but for ties in a best-of
 * list by the sum of their fields. Where tables are made of an upload, C++ by std::stable_sort stands in the plain machine's place (tables.cpp),
 * and what is made is compared word by word. Compiled with -DPORTABLE_THERE it takes the portable engine's calls by names of their own. */
#include "machines.h"
#include "sotjarn.h"
#include "tables.h"

#include <sqlite3.h>
#include <stdio.h>
#include <stdlib.h>
#include <string.h>
#include <sys/resource.h>
#include <time.h>

enum { COLUMNS = SOTJARN_ROW_WORDS, YEAR = 2026 };
enum { STEMS = 32768, COUNT = 2 * STEMS, GROUPS = 10000, BEST = 64, OUTPUT = 400000 };

#define N(v) ((uint32_t)(v))
#define I(v) (1u << 30 | (uint32_t)(v))
#define V(v) (3u << 30 | (uint32_t)(v))
#define W(kind, low) ((uint32_t)(kind) << 28 | (uint32_t)(low))

static uint32_t rows[COLUMNS * COUNT], pos[COUNT], osp[COUNT];
static size_t count; /* of the rows that are there */
static sqlite3 *db;
static double seconds = 2; /* for each measure; with 0, one round of each */

static void fail(const char *what)
{
    fprintf(stderr, "bench: %s\n", what);
    exit(1);
}

static double now(void)
{
    struct timespec t;
    clock_gettime(CLOCK_PROCESS_CPUTIME_ID, &t);
    return (double)t.tv_sec * 1e9 + (double)t.tv_nsec;
}

/* how often this process had to wait for its processor */
static long interruptions(void)
{
    struct rusage used;
    getrusage(RUSAGE_SELF, &used);
    return used.ru_nivcsw + used.ru_nvcsw;
}

/* ---- the woods: 32,768 stems of one year with a stand and a diameter, as the call grows them. They differ in the stems' names alone, and not in the names'
 * order, so that steps and answers are alike: without gaps; with a gap of up to 1,000 before each; or the last eighth of them far off. */

enum wood { DENSE, GAPS, FAR, WOODS };

static const char *const WOOD[WOODS] = {"dense", "gaps", "far cluster"};

static uint32_t seed, gap_seed;

static uint32_t draw_from(uint32_t *s)
{
    *s = 1664525u * *s + 1013904223u;
    return *s / 65536;
}

static uint32_t draw(void)
{
    return draw_from(&seed);
}

static uint32_t next_name(enum wood wood, uint32_t last, uint32_t j)
{
    if (wood == GAPS)
        return last + 1 + draw_from(&gap_seed) % 1000;
    return last + (wood == FAR && j == STEMS / 8 * 7 ? 900000000 : 1);
}

/* The call's wood of seed 1, of so many stems. */
static void grow_stems(uint32_t stems)
{
    struct sotjarn_tables grown = sotjarn_grow(1, stems, YEAR, rows, COLUMNS * COUNT, pos, COUNT, osp, COUNT);
    if (grown.refused || grown.pos_words != 2 * stems)
        fail("the wood is not grown");
    count = grown.pos_words;
}

/* The wood of all stems, with other names in the same order, which leave both lists of row numbers as they are. */
static void grow(enum wood wood)
{
    uint32_t name = 999999;
    grow_stems(STEMS);
    seed = gap_seed = 1;
    for (uint32_t j = 0; j < STEMS; j++) {
        name = next_name(wood, name, j);
        rows[2 * COLUMNS * j + 1] = rows[2 * COLUMNS * j + COLUMNS + 1] = N(name);
    }
}

/* ---- SQLite: one table in memory, three covering indexes */

static void sql(const char *text)
{
    if (sqlite3_exec(db, text, 0, 0, 0) != SQLITE_OK)
        fail(sqlite3_errmsg(db));
}

static sqlite3_stmt *prepare(const char *text)
{
    sqlite3_stmt *s;
    if (sqlite3_prepare_v2(db, text, -1, &s, 0) != SQLITE_OK)
        fail(sqlite3_errmsg(db));
    return s;
}

static void fill(void)
{
    if (!db && sqlite3_open(":memory:", &db) != SQLITE_OK)
        fail("no database");
    sql("drop table if exists t; create table t(y integer, s integer, p integer, o integer); begin");
    sqlite3_stmt *s = prepare("insert into t values (?, ?, ?, ?)");
    for (uint32_t i = 0; i < COUNT; i++) {
        for (int c = 0; c < COLUMNS; c++)
            sqlite3_bind_int64(s, c + 1, rows[COLUMNS * i + c]);
        sqlite3_step(s);
        sqlite3_reset(s);
    }
    sqlite3_finalize(s);
    sql("commit; create index spo on t(y, s, p, o); create index pos on t(y, p, o, s); create index osp on t(y, o, s, p); analyze");
}

/* runs a text from its preparing on, for at most so many rows; answers how many there were, and adds up all fields */
static uint64_t run_sql(const char *text, uint64_t most, uint64_t *sum)
{
    sqlite3_stmt *s = prepare(text);
    uint64_t found = 0;
    int columns = sqlite3_column_count(s);
    while (found < most && sqlite3_step(s) == SQLITE_ROW) {
        for (int i = 0; i < columns; i++)
            *sum += (uint64_t)sqlite3_column_int64(s, i);
        found++;
    }
    sqlite3_finalize(s);
    return found;
}

/* ---- queries */

struct query {
    const char *name, *sql;
    uint32_t plan[32];
    size_t words;
};

#define PAIR W(1, 1), W(2, 2), V(0), N(10), V(1), V(0), N(12), V(2)

static struct query one_stand = {
    "one stand, diameter from 310",
    "select a.s, b.o from t a join t b on b.y = a.y and b.s = a.s where a.y = 1073743850 and a.p = 10 and a.o = 105 and b.p = 12 and b.o >= 1073742134",
    {W(1, 1), W(2, 2), V(0), N(10), N(105), V(0), N(12), V(1), W(7, 5), V(1), I(310), W(8, 2), V(0), V(1)}, 14};

static struct query whole = {
    "whole two-pattern join",
    "select a.s, a.o, b.o from t a join t b on b.y = a.y and b.s = a.s where a.y = 1073743850 and a.p = 10 and b.p = 12",
    {PAIR, W(3, 0), W(8, 3), V(0), V(1), V(2)}, 13};

static struct query top = {
    "top 10 by diameter",
    "select a.s, a.o, b.o from t a join t b on b.y = a.y and b.s = a.s where a.y = 1073743850 and a.p = 10 and b.p = 12 order by +b.o desc limit 10",
    {PAIR, W(3, 0), W(9, 10), W(8, 3), V(0), V(1), V(2), W(11, 2)}, 15};

static const char *top_early =
    "select a.s, a.o, b.o from t a join t b on b.y = a.y and b.s = a.s where a.y = 1073743850 and a.p = 10 and b.p = 12 order by b.o desc limit 10";

/* the diameter's pattern first: its places ascend by diameter, so that ten of the least keep out all that follow, and of the greatest none */
#define BY_DIAMETER W(1, 1), W(2, 2), V(0), N(12), V(2), V(0), N(10), V(1)

static struct query least = {
    "least 10 by diameter",
    "select a.s, a.o, b.o from t a join t b on b.y = a.y and b.s = a.s where a.y = 1073743850 and a.p = 10 and b.p = 12 order by +b.o, b.s limit 10",
    {BY_DIAMETER, W(3, 0), W(9, 10), W(8, 3), V(0), V(1), V(2), W(10, 2), W(10, 0)}, 16};

static struct query greatest = {
    "greatest 10 by diameter",
    "select a.s, a.o, b.o from t a join t b on b.y = a.y and b.s = a.s where a.y = 1073743850 and a.p = 10 and b.p = 12 order by +b.o desc, b.s limit 10",
    {BY_DIAMETER, W(3, 0), W(9, 10), W(8, 3), V(0), V(1), V(2), W(11, 2), W(10, 0)}, 16};

/* the stand's pattern first, and its stems in their order: what is pruned is only the third pattern */
static struct query third = {
    "10 by diameter, three patterns",
    "select a.s, a.o, b.o from t a join t b on b.y = a.y and b.s = a.s join t c on c.y = a.y and c.s = a.s and c.o = b.o where a.y = 1073743850 and a.p = 10 "
    "and b.p = 12 and c.p = 12 order by +b.o desc, b.s limit 10",
    {W(1, 1), W(2, 3), V(0), N(10), V(1), V(0), N(12), V(2), V(0), N(12), V(2), W(3, 0), W(9, 10), W(8, 3), V(0), V(1), V(2), W(11, 2), W(10, 0)}, 19};

static struct query groups = {
    "groups by stand",
    "select a.o, count(*), count(b.o), sum(b.o), min(b.o), max(b.o) from t a join t b on b.y = a.y and b.s = a.s "
    "where a.y = 1073743850 and a.p = 10 and b.p = 12 group by a.o",
    {PAIR, W(3, 0), W(12, 1), V(1), V(2)}, 12};

/* SQLite counts exactly; the list of the engines has 16 words */
static struct query registers = {
    "registers of the stems' names",
    "select count(distinct a.s) from t a join t b on b.y = a.y and b.s = a.s where a.y = 1073743850 and a.p = 10 and b.p = 12",
    {PAIR, W(3, 0), W(13, 0), V(0)}, 11};

/* pairs of stems of one diameter, by the stand of the second: more than five million steps */
static struct query pairs = {
    "1,000,000 steps",
    "",
    {W(1, 1), W(2, 3), V(0), N(12), V(1), V(2), N(12), V(1), V(2), N(10), V(3), W(3, 0), W(12, 1), V(3), V(1)}, 15};

/* ---- measures: each is one piece of work by one of five, and answers its time */

enum who { ENGINE, FLOOR, PLAIN, PORTABLE, SQLITE, ALL };

#ifdef PORTABLE_THERE
enum { WITH_PORTABLE = 1 };
__typeof__(sotjarn_open) portable_open;
__typeof__(sotjarn_turn) portable_turn;
__typeof__(sotjarn_merge) portable_merge;
__typeof__(sotjarn_make) portable_make;
__typeof__(sotjarn_grow) portable_grow;
#else
enum { WITH_PORTABLE = 0 };
#define portable_open 0
#define portable_turn 0
#define portable_merge 0
#define portable_make 0
#define portable_grow 0
#endif

/* The calls of those that have them; C++ makes tables in the plain machine's place. */
static const struct {
    __typeof__(sotjarn_open) *open;
    __typeof__(sotjarn_turn) *turn;
    __typeof__(sotjarn_merge) *merge;
    __typeof__(sotjarn_make) *make;
    __typeof__(sotjarn_grow) *grow;
} calls[SQLITE] = {{sotjarn_open, sotjarn_turn, sotjarn_merge, sotjarn_make, sotjarn_grow},
                   {c_open, c_turn, c_merge, 0, 0},
                   {plain_open, plain_turn, plain_merge, cpp_make, cpp_grow},
                   {portable_open, portable_turn, portable_merge, portable_make, portable_grow}};

#define TABLES rows, COLUMNS * count, pos, count, osp, count

struct result {
    struct sotjarn_turned turned;
    uint32_t output[OUTPUT];
};

static struct result results[SQLITE];
static uint64_t found, sum; /* by SQLite */

static struct sotjarn_written open_by(enum who w, const struct query *q, uint32_t *state)
{
    return calls[w].open(TABLES, 0, q->plan, q->words, state, SOTJARN_STATE_WORDS);
}

/* the check alone: a plan of one word 0 is refused after the tables were checked */
static double time_check(enum who w, const struct query *q, uint32_t quantum)
{
    static const uint32_t none[1] = {0};
    uint32_t state[SOTJARN_STATE_WORDS] = {0}, refused;
    double t = now();
    (void)q, (void)quantum;
    if (w == SQLITE) {
        found = run_sql("pragma integrity_check", 1, &sum);
        return now() - t;
    }
    refused = calls[w].open(TABLES, 0, none, 1, state, SOTJARN_STATE_WORDS).refused;
    t = now() - t;
    if (refused != 5)
        fail("the tables are not accepted");
    return t;
}

static double time_open(enum who w, const struct query *q, uint32_t quantum)
{
    uint32_t state[SOTJARN_STATE_WORDS];
    struct sotjarn_written r;
    double t = now();
    (void)quantum;
    if (w == SQLITE) {
        sqlite3_finalize(prepare(q->sql));
        return now() - t;
    }
    r = open_by(w, q, state);
    t = now() - t;
    if (r.refused)
        fail("an opening is refused");
    return t;
}

static double time_turn(enum who w, const struct query *q, uint32_t quantum)
{
    uint32_t state[SOTJARN_STATE_WORDS];
    struct result *r = &results[w == SQLITE ? ENGINE : w];
    size_t words;
    double t;
    if (w == SQLITE) {
        size_t width = q->plan[q->words - 4] == W(8, 3) ? 3 : 2; /* of a row query */
        uint64_t most = quantum == 1000000 ? (uint64_t)-1 : results[0].turned.list_words / width;
        t = now();
        sum = 0;
        found = run_sql(q->sql, most ? most : 1, &sum);
        return now() - t;
    }
    words = open_by(w, q, state).words;
    t = now();
    r->turned = calls[w].turn(TABLES, 0, q->plan, q->words, state, SOTJARN_STATE_WORDS, words, quantum, state, 0, r->output, OUTPUT);
    t = now() - t;
    if (r->turned.ending == SOTJARN_REFUSED)
        fail("a turn is refused");
    return t;
}

enum { CALLS = 1000 };

/* one of many short calls: a turn from the same state again and again, which is put back before each */
static double time_short_turn(enum who w, const struct query *q, uint32_t quantum)
{
    uint32_t start[SOTJARN_STATE_WORDS] = {0}, state[SOTJARN_STATE_WORDS];
    size_t words = open_by(w, q, start).words;
    struct result *r = &results[w];
    double t = now();
    for (int i = 0; i < CALLS; i++) {
        memcpy(state, start, sizeof state);
        r->turned = calls[w].turn(TABLES, 0, q->plan, q->words, state, SOTJARN_STATE_WORDS, words, quantum, state, 0, r->output, OUTPUT);
    }
    t = (now() - t) / CALLS;
    if (r->turned.ending == SOTJARN_REFUSED)
        fail("a turn is refused");
    return t;
}

static double time_short_open(enum who w, const struct query *q, uint32_t quantum)
{
    uint32_t state[SOTJARN_STATE_WORDS];
    struct sotjarn_written r = {0, 0};
    double t = now();
    (void)quantum;
    for (int i = 0; i < CALLS; i++)
        r = open_by(w, q, state);
    t = (now() - t) / CALLS;
    if (r.refused)
        fail("an opening is refused");
    return t;
}

/* the same number of pairs, gathered by SQLite */
static double time_pairs(enum who w, const struct query *q, uint32_t quantum)
{
    char text[400];
    uint64_t delivered = 0;
    double t;
    if (w != SQLITE)
        return time_turn(w, q, quantum);
    for (size_t i = 0; i < results[0].turned.list_words; i += 9)
        delivered += results[0].output[i + 1];
    snprintf(text, sizeof text,
             "select x, count(*), count(d), sum(d), min(d), max(d) from (select c.o x, a.o d from t a cross join t b on b.y = a.y and b.o = a.o cross "
             "join t c on c.y = b.y and c.s = b.s where a.y = 1073743850 and a.p = 12 and b.p = 12 and c.p = 10 limit %llu) group by x",
             (unsigned long long)delivered);
    t = now();
    sum = 0;
    found = run_sql(text, (uint64_t)-1, &sum);
    return now() - t;
}

/* ---- merging: a kept list and a turn's list */

static uint32_t best_a[3 * BEST], best_b[3 * BEST], groups_a[9 * GROUPS], groups_b[9 * GROUPS], kept[SQLITE][18 * GROUPS];

static struct query best_merge = {"", "", {PAIR, W(3, 0), W(9, BEST), W(8, 3), V(0), V(1), V(2), W(11, 2)}, 15};

static void make_lists(void)
{
    for (uint32_t i = 0; i < BEST; i++) {
        uint32_t a[3] = {N(1000000 + 2 * i), N(100), I(600 - 3 * i)}, b[3] = {N(1000001 + 2 * i), N(101), I(599 - 3 * i)};
        memcpy(best_a + 3 * i, a, sizeof a);
        memcpy(best_b + 3 * i, b, sizeof b);
    }
    for (uint32_t i = 0; i < GROUPS; i++) { /* every second key is in both */
        uint32_t a[9] = {N(100 + 2 * i), 7, 0, 5, 0, 900, 0, I(20), I(400)};
        uint32_t b[9] = {N(100 + 2 * i + i % 2), 3, 0, 2, 0, 800, 0, I(30), I(500)};
        memcpy(groups_a + 9 * i, a, sizeof a);
        memcpy(groups_b + 9 * i, b, sizeof b);
    }
}

/* ---- a best-of query in turns, each list merged into the kept one, whose last row is sent as the threshold or not */

enum { FEW_BEST = 10, FEW_WIDTH = 3 };
static int sends;

static double time_in_turns(enum who w, const struct query *q, uint32_t quantum)
{
    struct result *r = &results[w == SQLITE ? ENGINE : w];
    uint32_t state[SOTJARN_STATE_WORDS], list[FEW_BEST * FEW_WIDTH], steps = 0;
    size_t held = 0, words;
    double t = now();
    if (w == SQLITE) {
        sum = 0;
        found = run_sql(q->sql, (uint64_t)-1, &sum);
        return now() - t;
    }
    words = open_by(w, q, state).words;
    do {
        size_t limit = sends && held == FEW_BEST * FEW_WIDTH ? FEW_WIDTH : 0;
        r->turned = calls[w].turn(TABLES, 0, q->plan, q->words, state, SOTJARN_STATE_WORDS, words, quantum, r->output + held - limit, limit, list,
                                  FEW_BEST * FEW_WIDTH);
        steps += r->turned.steps;
        words = r->turned.state_words;
        held = calls[w].merge(q->plan, q->words, r->output, FEW_BEST * FEW_WIDTH, held, list, r->turned.list_words).words;
    } while (r->turned.ending == SOTJARN_SPENT);
    t = now() - t;
    r->turned.steps = steps;
    r->turned.list_words = held;
    return t;
}

static void load_list(const char *name, const char *columns, const uint32_t *list, int width, int count)
{
    char text[300];
    snprintf(text, sizeof text, "create table %s(%s)", name, columns);
    sql(text);
    snprintf(text, sizeof text, "insert into %s values (?, ?, ?, ?%s)", name, width == 9 ? ", ?, ?" : "");
    sqlite3_stmt *s = prepare(text);
    for (int i = 0; i < count; i++) {
        static const int RECORD[6] = {0, 1, 3, 5, 7, 8}; /* the low words of a group's numbers: the high ones are 0 here */
        const uint32_t *w = list + width * i;
        for (int c = 0; c < (width == 9 ? 6 : 4); c++)
            sqlite3_bind_int64(s, c + 1, width == 9 ? w[RECORD[c]] : c == 0 ? (uint32_t)i : w[c - 1]);
        sqlite3_step(s);
        sqlite3_reset(s);
    }
    sqlite3_finalize(s);
}

static void fill_lists(void)
{
    sql("begin");
    load_list("best_a", "n integer primary key, s, x, d", best_a, 3, BEST);
    load_list("best_b", "n integer primary key, s, x, d", best_b, 3, BEST);
    load_list("groups_a", "k integer primary key, r, n, t, lo, hi", groups_a, 9, GROUPS);
    load_list("groups_b", "k integer primary key, r, n, t, lo, hi", groups_b, 9, GROUPS);
    sql("commit");
}

static double time_merge_best(enum who w, const struct query *q, uint32_t quantum)
{
    enum { REPEATS = 200 };
    struct sotjarn_written r = {0, 0};
    double t = now();
    (void)quantum;
    if (w == SQLITE) {
        sum = 0;
        found = run_sql("select s, x, d from (select 0 l, n, s, x, d from best_a union all select 1, n, s, x, d from best_b) "
                        "order by d desc, l, n limit 64", (uint64_t)-1, &sum);
        return now() - t;
    }
    for (int i = 0; i < REPEATS; i++) {
        memcpy(kept[w], best_a, sizeof best_a);
        r = calls[w].merge(q->plan, q->words, kept[w], 18 * GROUPS, 3 * BEST, best_b, 3 * BEST);
    }
    t = (now() - t) / REPEATS;
    if (r.refused || r.words != 3 * BEST)
        fail("a merge of best-of lists is refused");
    return t;
}

static double time_merge_groups(enum who w, const struct query *q, uint32_t quantum)
{
    struct sotjarn_written r;
    double t;
    (void)quantum;
    if (w == SQLITE) {
        sql("begin");
        t = now();
        sql("insert into groups_a select * from groups_b where true on conflict(k) do update set r = r + excluded.r, n = n + "
            "excluded.n, t = t + excluded.t, lo = min(lo, excluded.lo), hi = max(hi, excluded.hi)");
        t = now() - t;
        sum = 0;
        found = run_sql("select * from groups_a", (uint64_t)-1, &sum);
        sql("rollback");
        return t;
    }
    memcpy(kept[w], groups_a, sizeof groups_a);
    t = now();
    r = calls[w].merge(q->plan, q->words, kept[w], 18 * GROUPS, 9 * GROUPS, groups_b, 9 * GROUPS);
    t = now() - t;
    if (r.refused || r.words != 9 * (GROUPS + GROUPS / 2))
        fail("a merge of groups is refused");
    return t;
}

/* ---- making tables: of the wood's rows, shuffled or in their order, and of a walk with repeats and wrong kinds */

static uint32_t upload[COLUMNS * COUNT];
static struct made_tables {
    struct sotjarn_made answer;
    uint32_t rows[COLUMNS * COUNT], pos[COUNT], osp[COUNT], report[2 * COUNT];
} made[SQLITE];

static void swap_rows(uint32_t i, uint32_t j)
{
    for (int c = 0; c < COLUMNS; c++) {
        uint32_t word = upload[COLUMNS * i + c];
        upload[COLUMNS * i + c] = upload[COLUMNS * j + c];
        upload[COLUMNS * j + c] = word;
    }
}

static void shuffle(void)
{
    for (uint32_t i = COUNT - 1; i > 0; i--) /* two draws: one has 16 bits */
        swap_rows(i, (draw() << 16 | draw()) % (i + 1));
}

static void upload_sorted(void)
{
    memcpy(upload, rows, sizeof rows);
}

static void upload_shuffled(void)
{
    upload_sorted();
    shuffle();
}

/* one row in eight is an earlier one again, one in eight has a number as subject */
static void upload_walk(void)
{
    upload_sorted();
    for (uint32_t i = 0; i < COUNT; i += 8) {
        memcpy(upload + COLUMNS * i, upload + COLUMNS * (i + 1), COLUMNS * sizeof *upload);
        upload[COLUMNS * (i + 4) + 1] |= 1u << 30;
    }
    shuffle();
}

static double time_make(enum who w, const struct query *q, uint32_t quantum)
{
    struct made_tables *m = &made[w];
    double t;
    (void)q, (void)quantum;
    t = now();
    m->answer = calls[w].make(upload, COLUMNS * COUNT, m->rows, COLUMNS * COUNT, m->pos, COUNT, m->osp, COUNT, m->report, 2 * COUNT);
    t = now() - t;
    if (m->answer.refused)
        fail("an upload is refused");
    return t;
}

/* the same tables as of the wood's rows in their order, and no report */
static double time_grow(enum who w, const struct query *q, uint32_t quantum)
{
    struct made_tables *m = &made[w];
    struct sotjarn_tables grown;
    double t;
    (void)q, (void)quantum;
    t = now();
    grown = calls[w].grow(1, STEMS, YEAR, m->rows, COLUMNS * COUNT, m->pos, COUNT, m->osp, COUNT);
    t = now() - t;
    if (grown.refused)
        fail("a wood is not grown");
    m->answer.rows_words = grown.rows_words;
    m->answer.pos_words = grown.pos_words;
    m->answer.osp_words = grown.osp_words;
    return t;
}

static void same_made(enum who w, const char *what)
{
    const struct made_tables *a = &made[ENGINE], *b = &made[w];
    if (a->answer.rows_words != b->answer.rows_words || a->answer.pos_words != b->answer.pos_words ||
        a->answer.osp_words != b->answer.osp_words || a->answer.report_words != b->answer.report_words)
        fail(what);
    if (memcmp(a->rows, b->rows, sizeof a->rows) || memcmp(a->pos, b->pos, sizeof a->pos) || memcmp(a->osp, b->osp, sizeof a->osp) ||
        memcmp(a->report, b->report, sizeof a->report))
        fail(what);
}

/* ---- one measure, in turns; the best of each */

static const char *of = "-"; /* the wood that is measured */

typedef double (*timer)(enum who, const struct query *, uint32_t);

static void same_as(const struct result *a, const struct result *b, const char *what)
{
    if (a->turned.steps != b->turned.steps || a->turned.ending != b->turned.ending || a->turned.list_words != b->turned.list_words ||
        memcmp(a->output, b->output, a->turned.list_words * sizeof *a->output))
        fail(what);
}

static void same(void)
{
    same_as(&results[ENGINE], &results[FLOOR], "the engine and the C floor differ");
    same_as(&results[ENGINE], &results[PLAIN], "the engine and the plain C machine differ");
    if (WITH_PORTABLE)
        same_as(&results[ENGINE], &results[PORTABLE], "the proved and the portable engine differ");
}

/* the sum of the fields of a turn's list, as SQLite has them: there a number has its kind, in sums too */
static uint64_t fields(const struct result *r, size_t g)
{
    uint64_t all = 0;
    for (size_t i = 0; i < r->turned.list_words; i++)
        all += g && i % (g + 8) >= g && i % (g + 8) < g + 6 && (i % (g + 8) - g) % 2 ? (uint64_t)r->output[i] << 32 : r->output[i];
    for (size_t i = 0; g && i < r->turned.list_words; i += g + 8)
        all += (uint64_t)r->output[i + g + 2] << 30;
    return all;
}

static void same_merged(size_t words)
{
    uint64_t all = 0;
    if (memcmp(kept[ENGINE], kept[FLOOR], words * sizeof **kept) || memcmp(kept[ENGINE], kept[PLAIN], words * sizeof **kept))
        fail("the engine and a C machine merge differently");
    if (WITH_PORTABLE && memcmp(kept[ENGINE], kept[PORTABLE], words * sizeof **kept))
        fail("the proved and the portable engine merge differently");
    for (size_t i = 0; i < words; i++)
        all += kept[0][i];
    if (all != sum)
        fail("SQLite merges to other rows");
}

/* whether one has what is measured */
static int takes_part(enum who w, timer f)
{
    if (w == PORTABLE)
        return WITH_PORTABLE;
    if (f == time_make || f == time_grow)
        return w != FLOOR && w != SQLITE;
    return w != SQLITE || (f != time_short_turn && f != time_short_open);
}

static void print_times(const char *name, uint32_t steps, timer f, const double *best)
{
    static const enum who COLUMN[ALL] = {ENGINE, FLOOR, PLAIN, SQLITE, PORTABLE};
    printf("%s\t%s\t%u", of, name, steps);
    for (int i = 0; i < ALL; i++)
        if (takes_part(COLUMN[i], f))
            printf("\t%.1f", best[COLUMN[i]]);
        else
            printf("\t-");
    printf("\n");
    fflush(stdout);
}

/* The best times of one, and the best of interrupted pieces of work. Those have too little processor time, by up to some 20 microseconds: a short one counts
 * only where all were interrupted. */
struct best {
    double sound, cut;
};

static void time_one(struct best *best, enum who w, timer f, const struct query *q, uint32_t quantum)
{
    enum { LONG = 1000000 }; /* nanoseconds, of which so little does not tell */
    long before = interruptions();
    double start = now(), t = f(w, q, quantum), *least = now() - start > LONG || interruptions() == before ? &best->sound : &best->cut;
    if (t < *least)
        *least = t;
}

static void measure(const char *name, timer f, const struct query *q, uint32_t quantum)
{
    struct best best[ALL];
    double times[ALL], start = now();
    int least = seconds > 0 ? 12 : 1, in_steps = f == time_turn || f == time_pairs || f == time_in_turns || f == time_short_turn;
    for (int w = 0; w < ALL; w++)
        best[w].sound = best[w].cut = 1e18;
    for (int round = 0; round < least || (now() - start < seconds * 1e9 && round < 2000); round++)
        for (int i = 0; i < 2 * ALL; i++) /* each twice, so that the second finds its own words in the caches */
            if (takes_part((enum who)(i / 2), f))
                time_one(&best[i / 2], (enum who)(i / 2), f, q, quantum);
    for (int w = 0; w < ALL; w++)
        times[w] = best[w].sound < 1e18 ? best[w].sound : best[w].cut;
    print_times(name, in_steps ? results[0].turned.steps : 0, f, times);
}

static void measure_turn(const char *name, const struct query *q, uint32_t quantum, uint64_t expected)
{
    timer f = q == &pairs ? time_pairs : time_turn;
    measure(name, f, q, quantum);
    same();
    if (found != expected)
        fail("SQLite finds another number of rows");
    if (q != &top && quantum != 1 && sum != fields(&results[0], q == &groups || q == &pairs ? 1 : 0))
        fail("SQLite finds other rows");
}

/* SQLite's count is exact, and is that of all stems */
static void measure_registers(void)
{
    measure(registers.name, time_turn, &registers, 1000000);
    same();
    if (found != 1 || sum != STEMS)
        fail("SQLite counts another number of stems");
}

/* without a threshold, and with one: the same list, that of SQLite too */
static void measure_in_turns(const char *with, const char *without, const struct query *q)
{
    for (sends = 0; sends < 2; sends++) {
        measure(sends ? with : without, time_in_turns, q, 5000);
        same();
        if (found != FEW_BEST || sum != fields(&results[0], 0))
            fail("SQLite finds other rows");
    }
}

static void measure_make(const char *name, timer f, void (*put)(void), size_t kept_rows)
{
    memset(made, 0, sizeof made);
    put();
    measure(name, f, 0, 0);
    same_made(PLAIN, "the engine and C++ make different tables");
    if (WITH_PORTABLE)
        same_made(PORTABLE, "the proved and the portable engine make different tables");
    if (made[ENGINE].answer.pos_words != kept_rows || made[ENGINE].answer.report_words != 2 * (COUNT - kept_rows))
        fail("another number of rows is kept");
}

/* SQLite's time where the index order lets it stop after ten rows; the others have nothing like it */
static void measure_early(void)
{
    double best = 1e18;
    for (int i = 0; i < 50; i++) {
        double t = now();
        found = run_sql(top_early, 10, &sum);
        t = now() - t;
        if (t < best)
            best = t;
    }
    printf("%s\ttop 10, SQLite by its index\t0\t-\t-\t-\t%.1f\t-\n", of, best);
}

/* over few rows, where the check of the tables does not hide what a call takes besides */
static void measure_small(uint32_t stems, const char *turn, const char *opening)
{
    grow_stems(stems);
    measure(turn, time_short_turn, &whole, 1);
    same();
    measure(opening, time_short_open, &whole, 0);
}

static void measure_wood(enum wood wood)
{
    of = WOOD[wood];
    grow(wood);
    fill();
    measure("check of 65,536 rows", time_check, 0, 0);
    measure("opening", time_open, &whole, 0);
    measure_turn(one_stand.name, &one_stand, 1000000, 831);
    measure_turn(whole.name, &whole, 1000000, STEMS);
    measure_turn(top.name, &top, 1000000, 10);
    if (wood == DENSE)
        measure_early();
    if (wood == DENSE) {
        measure_in_turns("least 10, pruned", "least 10 by diameter, in turns of 5,000", &least);
        measure_in_turns("greatest 10, pruned", "greatest 10 by diameter, in turns of 5,000", &greatest);
        measure_in_turns("greatest 10 of three patterns, pruned", "greatest 10 of three patterns, in turns of 5,000", &third);
    }
    measure_turn(groups.name, &groups, 1000000, 20);
    measure_registers();
    measure_turn("turn of 1 step", &whole, 1, 1);
    measure_turn("turn of 1,000 steps", &whole, 1000, 333);
    measure_turn("turn of 1,000,000 steps", &pairs, 1000000, 20);
    of = "-";
}

int main(int words, char **word)
{
    if (words > 1)
        seconds = atof(word[1]);
    measure_wood(DENSE);
    make_lists();
    fill_lists();
    measure("merge of two lists of the best 64", time_merge_best, &best_merge, 0);
    same_merged(3 * BEST);
    measure("merge of 10,000 groups into 10,000", time_merge_groups, &groups, 0);
    same_merged(9 * (GROUPS + GROUPS / 2));
    measure_make("tables of 65,536 rows, shuffled", time_make, upload_shuffled, COUNT);
    measure_make("tables of 65,536 rows, sorted before", time_make, upload_sorted, COUNT);
    measure_make("tables of 65,536 rows, a fourth dropped", time_make, upload_walk, COUNT - COUNT / 4);
    measure_make("tables of 32,768 stems, grown", time_grow, upload_sorted, COUNT);
    measure_small(0, "turn of 1 step over 0 rows", "opening over 0 rows");
    measure_small(50, "turn of 1 step over 100 rows", "opening over 100 rows");
    measure_small(500, "turn of 1 step over 1,000 rows", "opening over 1,000 rows");
    measure_wood(GAPS);
    measure_wood(FAR);
    return 0;
}
