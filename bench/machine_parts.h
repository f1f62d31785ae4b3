/* What both C machines have alike: the words, the tests of tables in the order of their numbers, a plan's outline and its tests, which are one pass over
 * its words, comparisons of terms, lists, and merging. It is included, not linked, so that each machine is compiled whole. */
#ifndef MACHINE_PARTS_H
#define MACHINE_PARTS_H

#include "sotjarn.h"

#include <string.h>

enum { SPO, POS, OSP };
enum { HEAD = 1, BRANCH, TRUE_, AND, OR, NOT, COMPARISON, ROWS, TOP, RISING, FALLING, GROUP, REGISTERS };
#define SURVEY UINT32_C(13) /* the kind of a survey's word, before a state */
#define YEAR 0 /* the kind of a year's word, before a plan's head and behind a survey's word */
enum { DEFAULT_BEST = 10 }; /* rows of a best-of list whose k is 0 */
enum truth { NO, YES, ERROR };

#define UNBOUND 0xC0000000u
#define NUMBER_WORD 0x40000000u
#define SIGN 0x20000000u /* of a number's 30 bits */
#define WORD(kind, low) ((uint32_t)(kind) << 28 | (low))
#define LOW(w) ((w) & 0x0FFFFFFFu)
#define KIND(w) ((w) >> 28)
#define TERM_KIND(w) ((w) >> 30)
#define IS_VARIABLE(w) (TERM_KIND(w) == 3)

enum { COLUMNS = 4, MOST_YEAR = 9999, MOST_PLAN_WORDS = 256, MOST_BRANCHES = 4, MOST_PATTERNS = 8, VARIABLES = 16, MOST_NODES = 31, MOST_DEPTH = 8 };
enum { COMPARISONS = 6, MOST_BEST = 64, MOST_KEYS = 4, MOST_GROUPED = 4 };

/* ---- tables */

/* whether the rows that a list names ascend strictly by the year and the columns a, b, c; with no list, the rows as they stand */
static inline int ascends(const uint32_t *rows, const uint32_t *list, size_t count, int a, int b, int c)
{
    uint32_t year = 0, x = 0, y = 0, z = 0;
    for (size_t i = 0; i < count; i++) {
        size_t number = list ? list[i] : i;
        if (number >= count)
            return 0;
        const uint32_t *row = rows + COLUMNS * number;
        uint32_t t = row[0], u = row[a], v = row[b], w = row[c];
        if (i && !(year < t || (year == t && (x < u || (x == u && (y < v || (y == v && z < w)))))))
            return 0;
        year = t;
        x = u;
        y = v;
        z = w;
    }
    return 1;
}

/* the number of the first test that fails of those on the rows' and the lists' words, or 0; their lengths are right */
static inline uint32_t first_fault(const uint32_t *rows, const uint32_t *pos, const uint32_t *osp, size_t count)
{
    for (size_t i = 0; i < COLUMNS * count; i += COLUMNS)
        if (TERM_KIND(rows[i]) != 1 || TERM_KIND(rows[i + 1]) || TERM_KIND(rows[i + 2]) || TERM_KIND(rows[i + 3]) == 3)
            return 2;
    for (size_t i = 0; i < COLUMNS * count; i += COLUMNS)
        if ((rows[i] & 0x3FFFFFFF) - 1 >= MOST_YEAR)
            return 23;
    if (!ascends(rows, 0, count, 1, 2, 3))
        return 3;
    return ascends(rows, pos, count, 2, 3, 1) && ascends(rows, osp, count, 3, 1, 2) ? 0 : 4;
}

/* whether the lengths of tables are wrong: test 1 */
static inline int lengths_wrong(size_t rows_len, size_t pos_len, size_t osp_len)
{
    size_t count = rows_len / COLUMNS;
    return rows_len % COLUMNS || pos_len != count || osp_len != count || count > SOTJARN_MOST_ROWS;
}

/* the order that has a range for these fixed columns: subject, predicate, object as bits 1, 2, 4 */
static inline uint8_t order_for(int mask)
{
    static const uint8_t ORDER[8] = {SPO, SPO, POS, SPO, OSP, OSP, POS, SPO};
    return ORDER[mask];
}

/* which fields of a pattern have to be equal, as one variable stands there: subject and predicate, subject and object, predicate and object */
static inline uint8_t repeats_in(const uint32_t *w)
{
    return (uint8_t)((IS_VARIABLE(w[0]) && w[0] == w[1] ? 1 : 0) | (IS_VARIABLE(w[0]) && w[0] == w[2] ? 2 : 0) |
                     (IS_VARIABLE(w[1]) && w[1] == w[2] ? 4 : 0));
}

static inline int agrees(uint8_t repeats, const uint32_t *row)
{
    return !((repeats & 1 && row[1] != row[2]) || (repeats & 2 && row[1] != row[3]) || (repeats & 4 && row[2] != row[3]));
}

/* ---- plans */

struct ending {
    uint32_t kind, k, width, key_count, measured;
    uint32_t variable[VARIABLES], key_column[MOST_KEYS];
    uint8_t falling[MOST_KEYS];
};

struct outline {
    int every;     /* every year, one after the other */
    uint32_t year; /* the year that is named; 0: the latest, or every one */
    uint32_t branches;
    const uint32_t *branch[MOST_BRANCHES]; /* where each branch's word stands */
    struct ending ending;
};

/* Plans are read and tested in one pass. A part without its form (test 5) ends the reading; that a variable is wrong (test 6) is remembered, since the form
 * of the whole plan comes first, and a year (test 23) is tested last. Sets of variables are bits; a variable's word is above those of all other terms. */

/* whether a variable is in a set, and so none above ?15 */
static inline int is_one_of(uint32_t set, uint32_t variable)
{
    return variable <= (UNBOUND | (VARIABLES - 1)) && set >> (variable & (VARIABLES - 1)) & 1;
}

/* the word behind a condition, of a branch that binds a set of variables, or 0 where it has not the form; `waiting` has a bit for each depth at which a
 * second operand is still to be read: there is one at most */
static inline const uint32_t *read_condition(const uint32_t *w, const uint32_t *end, uint32_t set, int *wrong)
{
    uint32_t depth = 1, waiting = 0;
    for (uint32_t nodes = 1; w < end && depth <= MOST_DEPTH && nodes <= MOST_NODES; nodes++) {
        uint32_t word = *w++;
        if (word == WORD(AND, 0) || word == WORD(OR, 0) || word == WORD(NOT, 0)) {
            depth++;
            waiting |= (uint32_t)(word != WORD(NOT, 0)) << depth;
            continue;
        }
        if (word - WORD(COMPARISON, 0) < COMPARISONS && end - w >= 2) {
            *wrong |= (IS_VARIABLE(w[0]) && !is_one_of(set, w[0])) || (IS_VARIABLE(w[1]) && !is_one_of(set, w[1]));
            w += 2;
        } else if (word != WORD(TRUE_, 0)) {
            return 0;
        }
        if (waiting == 0)
            return w;
        depth = 31 - (uint32_t)__builtin_clz(waiting);
        waiting ^= 1u << depth;
    }
    return 0;
}

/* the word behind a branch, whose variables join those of all, or 0 */
static inline const uint32_t *read_patterns(const uint32_t *w, const uint32_t *end, uint32_t *all, int *wrong)
{
    uint32_t count = *w - WORD(BRANCH, 0), set = 0, greatest = 0;
    if (count - 1 >= MOST_PATTERNS || (size_t)(end - w) <= 1 + 3 * count)
        return 0;
    const uint32_t *past = ++w + 3 * count;
    for (; w < past; w++) {
        set |= (uint32_t)IS_VARIABLE(*w) << (*w & (VARIABLES - 1));
        greatest = *w > greatest ? *w : greatest;
    }
    *wrong |= greatest > (UNBOUND | (VARIABLES - 1));
    *all |= set;
    return read_condition(w, end, set, wrong);
}

/* whether words are an ending and nothing more, after branches that bind a set of variables */
static inline int read_ending(struct ending *e, const uint32_t *w, const uint32_t *end, uint32_t all, int *wrong)
{
    uint32_t set = 0, least, most;
    if (w == end)
        return 0;
    e->kind = KIND(*w);
    e->k = 0;
    e->key_count = 0;
    if (e->kind == TOP) {
        e->k = LOW(*w) ? LOW(*w) : DEFAULT_BEST;
        if (e->k > MOST_BEST || ++w == end || KIND(*w) != ROWS)
            return 0;
    }
    e->width = LOW(*w++);
    least = most = e->width;
    switch (e->kind) {
    case ROWS:
    case TOP:
        if (e->width - 1 >= VARIABLES)
            return 0;
        least += e->kind == TOP;
        most += e->kind == TOP ? MOST_KEYS : 0;
        break;
    case GROUP:
        if (e->width > MOST_GROUPED)
            return 0;
        least = most = e->width + 1;
        break;
    case REGISTERS:
        if (e->width != 0)
            return 0;
        least = most = e->width = 1;
        break;
    default:
        return 0;
    }
    if ((size_t)(end - w) - least > most - least)
        return 0;
    for (uint32_t i = 0; i < e->width; i++, w++) {
        if (!IS_VARIABLE(*w))
            return 0;
        *wrong |= !is_one_of(all & ~set, *w);
        e->variable[i] = *w & (VARIABLES - 1);
        set |= 1u << e->variable[i];
    }
    if (e->kind == GROUP) {
        e->measured = *w & (VARIABLES - 1);
        *wrong |= !is_one_of(all, *w);
        return IS_VARIABLE(*w);
    }
    for (; w < end; w++) {
        uint32_t i = 0;
        if (KIND(*w) != RISING && KIND(*w) != FALLING)
            return 0;
        while (i < e->width && e->variable[i] != LOW(*w))
            i++;
        *wrong |= i == e->width;
        e->key_column[e->key_count] = i;
        e->falling[e->key_count++] = KIND(*w) == FALLING;
    }
    return 1;
}

/* 0, or the number of the first of tests 5, 6 and 23 that a plan fails; the outline is whole where none does */
static inline uint32_t read_outline(struct outline *q, const uint32_t *w, size_t words)
{
    const uint32_t *end = w + words;
    uint32_t all = 0;
    int wrong = 0, said = words > 0 && KIND(*w) == YEAR;
    if (words > MOST_PLAN_WORDS || words <= (size_t)said)
        return 5;
    q->year = said ? LOW(*w) : 0;
    q->every = said && q->year == 0;
    w += said;
    q->branches = *w++ - WORD(HEAD, 0);
    if (q->branches - 1 >= MOST_BRANCHES)
        return 5;
    for (uint32_t b = 0; b < q->branches; b++) {
        q->branch[b] = w;
        w = w < end ? read_patterns(w, end, &all, &wrong) : 0;
        if (!w)
            return 5;
    }
    return !read_ending(&q->ending, w, end, all, &wrong) ? 5 : wrong ? 6 : q->year > MOST_YEAR ? 23 : 0;
}

/* the words that an output has at least */
static inline size_t least_words(const struct ending *e)
{
    return e->kind == ROWS ? e->width : e->kind == TOP ? e->k * e->width : e->kind == REGISTERS ? SOTJARN_REGISTERS : e->width + 8;
}

/* ---- values */

/* a number's bits are two's complement: with the sign turned round they are in order */
static inline uint32_t in_order(uint32_t word)
{
    return TERM_KIND(word) == 1 ? word ^ SIGN : word;
}

static inline enum truth compare(uint32_t operator, uint32_t x, uint32_t y)
{
    uint32_t a = TERM_KIND(x), b = TERM_KIND(y);
    if (operator < 2) {
        if (x != y && ((a == 1 && b == 2) || (a == 2 && b == 1)))
            return ERROR;
        return (x == y) == (operator == 0) ? YES : NO;
    }
    if (a != b || (a != 1 && a != 2))
        return ERROR;
    x = in_order(x);
    y = in_order(y);
    switch (operator) {
    case 2:
        return x < y;
    case 3:
        return x <= y;
    case 4:
        return x > y;
    default:
        return x >= y;
    }
}

static inline uint32_t rank(uint32_t word)
{
    return word < UNBOUND ? in_order(word) + 1 : 0;
}

/* no word is a variable; unbound is a value */
static inline int values_right(const uint32_t *w, size_t n)
{
    for (size_t i = 0; i < n; i++)
        if (w[i] > UNBOUND)
            return 0;
    return 1;
}

/* whether test 11 refuses a threshold */
static inline int threshold_wrong(const struct ending *e, const uint32_t *threshold, size_t len)
{
    return len && (e->kind != TOP || len != e->width || !values_right(threshold, len));
}

static inline uint64_t read64(const uint32_t *w)
{
    return w[0] | (uint64_t)w[1] << 32;
}

static inline void write64(uint32_t *w, uint64_t x)
{
    w[0] = (uint32_t)x;
    w[1] = (uint32_t)(x >> 32);
}

/* ---- lists */

static inline int by_group(const uint32_t *a, const uint32_t *b, uint32_t g)
{
    for (uint32_t i = 0; i < g; i++) {
        uint32_t x = rank(a[i]), y = rank(b[i]);
        if (x != y)
            return x < y ? -1 : 1;
    }
    return 0;
}

static inline void count_in(uint32_t *t, uint32_t value)
{
    write64(t, read64(t) + 1);
    if (TERM_KIND(value) != 1)
        return;
    if (read64(t + 2) == 0)
        t[6] = t[7] = value;
    write64(t + 2, read64(t + 2) + 1);
    write64(t + 4, read64(t + 4) + (uint64_t)(int64_t)((int32_t)(value << 2) >> 2));
    if ((value ^ SIGN) < (t[6] ^ SIGN))
        t[6] = value;
    if ((value ^ SIGN) > (t[7] ^ SIGN))
        t[7] = value;
}

/* makes room for a record at a word of a list, and counts its first row in */
static inline void insert_group(uint32_t *list, size_t used, size_t at, size_t g, const uint32_t *row, uint32_t value)
{
    uint32_t *record = list + at;
    memmove(record + g + 8, record, (used - at) * sizeof *list);
    memcpy(record, row, g * sizeof *list);
    memset(record + g, 0, 6 * sizeof *list);
    record[g + 6] = record[g + 7] = UNBOUND;
    count_in(record + g, value);
}

/* the words of the list of a turn that is done: without a group variable it has a record always, of nothing where there is none */
static inline size_t close_list(const struct ending *e, uint32_t *list, size_t used)
{
    if (e->kind != GROUP || e->width > 0 || used > 0)
        return used;
    memset(list, 0, 6 * sizeof *list);
    list[6] = list[7] = UNBOUND;
    return 8;
}

/* the words of the list of no rows: all registers, each 0, and none of any other list */
static inline size_t begin_list(const struct ending *e, uint32_t *list)
{
    if (e->kind != REGISTERS)
        return 0;
    memset(list, 0, SOTJARN_REGISTERS * sizeof *list);
    return SOTJARN_REGISTERS;
}

/* raises the register that a value picks, by 64-bit FNV-1a of its four bytes */
static inline void raise_register(uint32_t *list, uint32_t value)
{
    uint64_t hash = UINT64_C(14695981039346656037);
    for (int i = 0; i < 4; i++)
        hash = (hash ^ (value >> 8 * i & 255)) * UINT64_C(1099511628211);
    uint64_t rest = hash << 4;
    uint32_t most = rest ? (uint32_t)__builtin_clzll(rest) + 1 : 61, *at = list + (hash >> 60);
    if (*at < most)
        *at = most;
}

/* ---- merging */

/* only a record without keys may have no rows */
static inline int record_right(uint32_t g, const uint32_t *t)
{
    uint64_t rows = read64(t), numbers = read64(t + 2);
    if ((rows == 0 && g > 0) || numbers > rows)
        return 0;
    if (numbers == 0)
        return read64(t + 4) == 0 && t[6] == UNBOUND && t[7] == UNBOUND;
    return TERM_KIND(t[6]) == 1 && TERM_KIND(t[7]) == 1 && (t[6] ^ SIGN) <= (t[7] ^ SIGN);
}

static inline int sums_fit(const uint32_t *a, const uint32_t *b)
{
    int64_t sum;
    for (int i = 0; i < 4; i += 2)
        if (read64(a + i) > UINT64_MAX - read64(b + i))
            return 0;
    return !__builtin_add_overflow((int64_t)read64(a + 4), (int64_t)read64(b + 4), &sum);
}

static inline void add_record(uint32_t *a, const uint32_t *b)
{
    uint64_t before = read64(a + 2), more = read64(b + 2);
    for (int i = 0; i < 6; i += 2)
        write64(a + i, read64(a + i) + read64(b + i));
    if (more && (!before || (b[6] ^ SIGN) < (a[6] ^ SIGN)))
        a[6] = b[6];
    if (more && (!before || (b[7] ^ SIGN) > (a[7] ^ SIGN)))
        a[7] = b[7];
}

static inline int registers_right(const uint32_t *list, size_t len)
{
    for (size_t i = 0; i < len; i++)
        if (list[i] >= SOTJARN_REPORT_WORDS)
            return 0;
    return len == SOTJARN_REGISTERS;
}

static inline struct sotjarn_written merge_registers(uint32_t *kept, size_t room, size_t used, const uint32_t *list, size_t len)
{
    struct sotjarn_written r = {12, 0};
    if ((used && !registers_right(kept, used)) || !registers_right(list, len))
        return r;
    r.refused = room < SOTJARN_REGISTERS ? 14 : 0;
    if (r.refused)
        return r;
    for (size_t i = 0; i < SOTJARN_REGISTERS; i++)
        kept[i] = used && kept[i] > list[i] ? kept[i] : list[i];
    r.words = SOTJARN_REGISTERS;
    return r;
}

#endif
