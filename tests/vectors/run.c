/* Runs the test vectors of calls.words, whose form README.md has:  run FILE
 * Prints how many calls were made, and exits with 1 at the first one that answers or writes anything else. */
#include "sotjarn.h"

#include <inttypes.h>
#include <stdio.h>
#include <stdlib.h>
#include <string.h>

enum {
    SET = 1, FILL, STEMS, OPEN, TURN, MERGE, MAKE, SHUFFLED, MAKE_STEMS, ENTRIES, JOIN, SERVE, TOP_UP, VIEW, VIEW_ALL, GROW, REPORT_ON, BYTES,
    FILL_BYTES, NUMBER, FIND, STRING
};
enum {
    ROWS, POS, OSP, PLAN, STATE, THRESHOLD, OUTPUT, KEPT, LIST, UPLOAD, REPORT, LINE, ASIDE, GRANT, SEEN_ROWS, SEEN_POS, SEEN_OSP, STRINGS, ENDS, OUT,
    CUTS, NUMBERED, PLACES, SOUGHT, BUFFERS
};
enum { GUARDS = 8, NUMBERS = 29, ENTRY_WORDS = sizeof(struct sotjarn_entry) / sizeof(uint32_t) };

#define GUARD UINT32_C(0xA5A5C3C3)
/* The year of the stems that are made by a rule. */
#define YEAR UINT32_C(0x400007EA)

/* A buffer: its words as they are lent, between guard words, and as they must be. One of bytes has so many in its words; those behind them are guards too. */
struct buffer {
    uint32_t *lent, *right;
    size_t len, bytes;
};

static struct buffer buffers[BUFFERS];
static const uint32_t *next, *end;
static uint32_t calls, refusals[NUMBERS];

static void fail(const char *what)
{
    fprintf(stderr, "call %" PRIu32 ": %s\n", calls, what);
    exit(1);
}

static uint32_t word(void)
{
    if (next == end)
        fail("the file ends within an instruction");
    return *next++;
}

static uint32_t *words_of(int number)
{
    return buffers[number].lent + GUARDS;
}

/* A buffer of so many words, with guard words; the caller sets `right` from the first guard word on. */
static uint32_t *resize(int number, size_t len)
{
    struct buffer *b = &buffers[number];
    size_t all = len + 2 * GUARDS;
    b->lent = (uint32_t *)realloc(b->lent, all * sizeof(uint32_t));
    b->right = (uint32_t *)realloc(b->right, all * sizeof(uint32_t));
    if (b->lent == NULL || b->right == NULL)
        fail("there is no memory");
    b->len = len;
    for (size_t i = 0; i < all; i++)
        b->right[i] = GUARD;
    return b->right + GUARDS;
}

/* Lends the words that a buffer must have. */
static void lend(int number)
{
    struct buffer *b = &buffers[number];
    memcpy(b->lent, b->right, (b->len + 2 * GUARDS) * sizeof(uint32_t));
}

static int buffer_number(void)
{
    uint32_t number = word();
    if (number >= BUFFERS)
        fail("there is no such buffer");
    return (int)number;
}

static void set(int filled)
{
    int number = buffer_number();
    uint32_t len = word();
    uint32_t *right = resize(number, len);
    for (uint32_t i = 0; i < len; i++)
        right[i] = filled ? (i + 1) * UINT32_C(0x9E3779B9) : word();
    lend(number);
}

/* Bytes of the file, four to a word, the low byte first. */
static void read_bytes(uint8_t *bytes, uint32_t count)
{
    uint32_t four = 0;
    for (uint32_t i = 0; i < count; i++) {
        four = i % 4 == 0 ? word() : four >> 8;
        bytes[i] = (uint8_t)four;
    }
}

static void set_bytes(int filled)
{
    int number = buffer_number();
    uint32_t count = word();
    uint8_t *right = (uint8_t *)resize(number, ((size_t)count + 3) / 4);
    buffers[number].bytes = count;
    if (filled)
        for (uint32_t i = 0; i < count; i++)
            right[i] = (uint8_t)((i + 1) * 0x9D);
    else
        read_bytes(right, count);
    lend(number);
}

static uint8_t *bytes_of(int number)
{
    return (uint8_t *)words_of(number);
}

/* The row of a stem: its year, its name, and that it grows in stand n100. */
static void put_stem(uint32_t *row, uint32_t stem)
{
    row[0] = YEAR;
    row[1] = stem;
    row[2] = 10;
    row[3] = 100;
}

static void stems(void)
{
    uint32_t count = word();
    uint32_t *rows = resize(ROWS, (size_t)SOTJARN_ROW_WORDS * count), *pos = resize(POS, count), *osp = resize(OSP, count);
    for (uint32_t i = 0; i < count; i++) {
        put_stem(rows + (size_t)SOTJARN_ROW_WORDS * i, i);
        pos[i] = osp[i] = i;
    }
    lend(ROWS);
    lend(POS);
    lend(OSP);
}

/* The stems as an upload, in an order that visits each once. */
static void shuffled(void)
{
    uint32_t count = word();
    uint32_t *rows = resize(UPLOAD, (size_t)SOTJARN_ROW_WORDS * count);
    for (uint32_t i = 0; i < count; i++)
        put_stem(rows + (size_t)SOTJARN_ROW_WORDS * i, (uint32_t)((uint64_t)i * 40507 % count));
    lend(UPLOAD);
}

/* The words that a call must have written over the front of a buffer. */
static void must_write(int number, uint32_t count)
{
    for (uint32_t i = 0; i < count; i++) {
        if (i == buffers[number].len)
            fail("the file has more words than the buffer");
        buffers[number].right[GUARDS + i] = word();
    }
}

/* Every word of every buffer, and beside it, must be right. */
static void compare(void)
{
    for (int i = 0; i < BUFFERS; i++)
        if (memcmp(buffers[i].lent, buffers[i].right, (buffers[i].len + 2 * GUARDS) * sizeof(uint32_t)))
            fail("a word in or beside a buffer is not as it must be");
}

static void count(uint32_t refused)
{
    if (refused >= NUMBERS)
        fail("there is no such refusal");
    refusals[refused]++;
}

static void written(struct sotjarn_written made, int number)
{
    uint32_t refused = word(), words = word();
    if (made.refused != refused || made.words != words)
        fail("the answer is another");
    count(refused);
    must_write(number, words);
}

static void run_open(void)
{
    uint32_t survey = word();
    written(sotjarn_open(words_of(ROWS), buffers[ROWS].len, words_of(POS), buffers[POS].len, words_of(OSP), buffers[OSP].len, survey,
                         words_of(PLAN), buffers[PLAN].len, words_of(STATE), buffers[STATE].len), STATE);
}

static void run_turn(void)
{
    uint32_t survey = word(), given = word(), quantum = word();
    struct sotjarn_turned made = sotjarn_turn(
        words_of(ROWS), buffers[ROWS].len, words_of(POS), buffers[POS].len, words_of(OSP), buffers[OSP].len, survey, words_of(PLAN),
        buffers[PLAN].len, words_of(STATE), buffers[STATE].len, given, quantum, words_of(THRESHOLD), buffers[THRESHOLD].len,
        words_of(OUTPUT), buffers[OUTPUT].len);
    uint32_t ending = word(), refused = word(), steps = word(), state_words = word(), list_words = word();
    if (made.ending != ending || made.refused != refused || made.steps != steps || made.state_words != state_words ||
        made.list_words != list_words)
        fail("the answer is another");
    count(refused);
    must_write(STATE, state_words);
    must_write(OUTPUT, list_words);
}

static void run_merge(void)
{
    uint32_t given = word();
    written(sotjarn_merge(words_of(PLAN), buffers[PLAN].len, words_of(KEPT), buffers[KEPT].len, given, words_of(LIST),
                          buffers[LIST].len), KEPT);
}

static void run_report(void)
{
    uint32_t given = word();
    written(sotjarn_report(words_of(KEPT), buffers[KEPT].len, given, words_of(REPORT), buffers[REPORT].len), REPORT);
}

static struct sotjarn_made make(void)
{
    return sotjarn_make(words_of(UPLOAD), buffers[UPLOAD].len, words_of(ROWS), buffers[ROWS].len, words_of(POS), buffers[POS].len,
                        words_of(OSP), buffers[OSP].len, words_of(REPORT), buffers[REPORT].len);
}

static void must_make(uint32_t refused, const uint32_t *words)
{
    struct sotjarn_made made = make();
    if (made.refused != refused || made.rows_words != words[0] || made.pos_words != words[1] || made.osp_words != words[2] ||
        made.report_words != words[3])
        fail("the answer is another");
    count(refused);
}

static void run_make(void)
{
    static const int written_to[4] = {ROWS, POS, OSP, REPORT};
    uint32_t refused = word(), words[4];
    for (int i = 0; i < 4; i++)
        words[i] = word();
    must_make(refused, words);
    for (int i = 0; i < 4; i++)
        must_write(written_to[i], words[i]);
}

/* Tables of so many stems must be made, by the rule of STEMS. */
static void run_make_stems(void)
{
    uint32_t many = word(), words[4] = {SOTJARN_ROW_WORDS * many, many, many, 0};
    if (buffers[ROWS].len < SOTJARN_ROW_WORDS * (size_t)many || buffers[POS].len < many || buffers[OSP].len < many)
        fail("the file asks for more words than the buffer");
    must_make(0, words);
    for (uint32_t i = 0; i < many; i++) {
        put_stem(buffers[ROWS].right + GUARDS + SOTJARN_ROW_WORDS * (size_t)i, i);
        buffers[POS].right[GUARDS + i] = buffers[OSP].right[GUARDS + i] = i;
    }
}

/* A number of two words, the low one first. */
static uint64_t wide(void)
{
    uint64_t low = word();
    return low | (uint64_t)word() << 32;
}

/* Words of an array, and zeros behind them. */
static void words_in(uint32_t *words, uint32_t room)
{
    uint32_t many = word();
    if (many > room)
        fail("the file has more words than an entry");
    for (uint32_t i = 0; i < room; i++)
        words[i] = i < many ? word() : 0;
}

/* The entry at a place must be the one that the file has. */
static void entry(int number, uint32_t place)
{
    struct sotjarn_entry made;
    if (((size_t)place + 1) * ENTRY_WORDS > buffers[number].len)
        fail("the file has more entries than the buffer");
    made.allowance = wide();
    made.owner = word();
    made.plan_words = word();
    made.state_words = word();
    words_in(made.plan, SOTJARN_PLAN_ROOM);
    words_in(made.state, SOTJARN_STATE_ROOM);
    memcpy(buffers[number].right + GUARDS + (size_t)place * ENTRY_WORDS, &made, sizeof made);
}

static int list_number(void)
{
    int number = buffer_number();
    if (number != LINE && number != ASIDE)
        fail("the buffer is none of entries");
    return number;
}

static void entries(void)
{
    int number = list_number();
    uint32_t len = word(), many = word();
    uint32_t *right = resize(number, (size_t)len * ENTRY_WORDS);
    memset(right, 0, (size_t)len * ENTRY_WORDS * sizeof(uint32_t));
    for (uint32_t i = 0; i < many; i++)
        entry(number, i);
    lend(number);
}

static struct sotjarn_entry *entries_of(int number)
{
    return (struct sotjarn_entry *)words_of(number);
}

static size_t count_of(int number)
{
    return buffers[number].len / ENTRY_WORDS;
}

/* The entries that a call must have changed. */
static void must_change(void)
{
    uint32_t many = word();
    for (uint32_t i = 0; i < many; i++) {
        int number = list_number();
        entry(number, word());
    }
}

static void queued(struct sotjarn_queued made)
{
    uint32_t refused = word(), line = word(), aside = word();
    if (made.refused != refused || made.line_entries != line || made.aside_entries != aside)
        fail("the answer is another");
    count(refused);
    must_change();
}

static void run_join(void)
{
    uint32_t survey = word(), line = word(), aside = word(), owner = word();
    uint64_t allowance = wide();
    queued(sotjarn_join(words_of(ROWS), buffers[ROWS].len, words_of(POS), buffers[POS].len, words_of(OSP), buffers[OSP].len, survey,
                        entries_of(LINE), count_of(LINE), line, entries_of(ASIDE), count_of(ASIDE), aside, owner, allowance,
                        words_of(PLAN), buffers[PLAN].len, words_of(STATE), buffers[STATE].len));
}

static void run_serve(void)
{
    uint32_t survey = word(), line = word(), aside = word(), quantum = word();
    struct sotjarn_service made = sotjarn_serve(
        words_of(ROWS), buffers[ROWS].len, words_of(POS), buffers[POS].len, words_of(OSP), buffers[OSP].len, survey, entries_of(LINE),
        count_of(LINE), line, entries_of(ASIDE), count_of(ASIDE), aside, quantum, words_of(THRESHOLD), buffers[THRESHOLD].len,
        words_of(OUTPUT), buffers[OUTPUT].len);
    uint32_t ending = word(), refused = word(), steps = word(), owner = word();
    uint64_t left = wide();
    uint32_t state_words = word(), list_words = word(), lined = word(), set_aside = word();
    if (made.ending != ending || made.refused != refused || made.steps != steps || made.owner != owner || made.left != left ||
        made.state_words != state_words || made.list_words != list_words || made.line_entries != lined ||
        made.aside_entries != set_aside)
        fail("the answer is another");
    count(refused);
    must_write(OUTPUT, list_words);
    must_change();
}

static void run_top_up(void)
{
    uint32_t line = word(), aside = word(), owner = word();
    uint64_t amount = wide();
    queued(sotjarn_top_up(entries_of(LINE), count_of(LINE), line, entries_of(ASIDE), count_of(ASIDE), aside, owner, amount));
}

/* The buffers that a view is written to, and those of the tables. */
static const int seen[3] = {SEEN_ROWS, SEEN_POS, SEEN_OSP}, lent[3] = {ROWS, POS, OSP};

static void must_view(uint32_t membership, uint32_t refused, const uint32_t *words)
{
    struct sotjarn_tables made = sotjarn_view(
        words_of(ROWS), buffers[ROWS].len, words_of(POS), buffers[POS].len, words_of(OSP), buffers[OSP].len, words_of(GRANT),
        buffers[GRANT].len, membership, words_of(SEEN_ROWS), buffers[SEEN_ROWS].len, words_of(SEEN_POS), buffers[SEEN_POS].len,
        words_of(SEEN_OSP), buffers[SEEN_OSP].len);
    if (made.refused != refused || made.rows_words != words[0] || made.pos_words != words[1] || made.osp_words != words[2])
        fail("the answer is another");
    count(refused);
}

static void run_view(void)
{
    uint32_t membership = word(), refused = word(), words[3];
    for (int i = 0; i < 3; i++)
        words[i] = word();
    must_view(membership, refused, words);
    for (int i = 0; i < 3; i++)
        must_write(seen[i], words[i]);
}

/* The view must be the tables themselves. */
static void run_view_all(void)
{
    uint32_t membership = word(), words[3];
    for (int i = 0; i < 3; i++) {
        words[i] = (uint32_t)buffers[lent[i]].len;
        if (buffers[seen[i]].len < words[i])
            fail("the file asks for more words than the buffer");
    }
    must_view(membership, 0, words);
    for (int i = 0; i < 3; i++)
        memcpy(buffers[seen[i]].right + GUARDS, words_of(lent[i]), words[i] * sizeof(uint32_t));
}

/* A wood, grown over the buffers of a view. */
static void run_grow(void)
{
    uint32_t seed = word(), many = word(), year = word(), refused = word(), words[3];
    struct sotjarn_tables made = sotjarn_grow(seed, many, year, words_of(SEEN_ROWS), buffers[SEEN_ROWS].len, words_of(SEEN_POS), buffers[SEEN_POS].len,
                                              words_of(SEEN_OSP), buffers[SEEN_OSP].len);
    for (int i = 0; i < 3; i++)
        words[i] = word();
    if (made.refused != refused || made.rows_words != words[0] || made.pos_words != words[1] || made.osp_words != words[2])
        fail("the answer is another");
    count(refused);
    for (int i = 0; i < 3; i++)
        must_write(seen[i], words[i]);
}

/* Strings, numbered: the bytes and the ends of their dictionary, and a number and a place of each. */
static void run_number(void)
{
    uint32_t kind = word(), refused = word(), bytes = word(), strings = word(), each = refused ? 0 : (uint32_t)buffers[ENDS].len;
    struct sotjarn_numbered made = sotjarn_number(
        kind, bytes_of(STRINGS), buffers[STRINGS].bytes, words_of(ENDS), buffers[ENDS].len, bytes_of(OUT), buffers[OUT].bytes, words_of(CUTS),
        buffers[CUTS].len, words_of(NUMBERED), buffers[NUMBERED].len, words_of(PLACES), buffers[PLACES].len);
    if (made.refused != refused || made.bytes != bytes || made.strings != strings)
        fail("the answer is another");
    if (bytes > buffers[OUT].bytes)
        fail("the file has more bytes than the buffer");
    count(refused);
    read_bytes((uint8_t *)(buffers[OUT].right + GUARDS), bytes);
    must_write(CUTS, strings);
    must_write(NUMBERED, each);
    must_write(PLACES, each);
}

static void run_find(void)
{
    uint32_t kind = word(), refused = word(), present = word(), number = word();
    struct sotjarn_found made = sotjarn_find(kind, bytes_of(STRINGS), buffers[STRINGS].bytes, words_of(ENDS), buffers[ENDS].len, bytes_of(SOUGHT),
                                             buffers[SOUGHT].bytes);
    if (made.refused != refused || made.present != present || made.number != number)
        fail("the answer is another");
    count(refused);
}

static void run_string(void)
{
    uint32_t kind = word(), number = word(), refused = word(), present = word(), from = word(), to = word();
    struct sotjarn_bounds made = sotjarn_string(kind, bytes_of(STRINGS), buffers[STRINGS].bytes, words_of(ENDS), buffers[ENDS].len, number);
    if (made.refused != refused || made.present != present || made.start != from || made.end != to)
        fail("the answer is another");
    count(refused);
}

static void run(void)
{
    uint32_t instruction = word();
    switch (instruction) {
    case SET: set(0); return;
    case FILL: set(1); return;
    case STEMS: stems(); return;
    case SHUFFLED: shuffled(); return;
    case ENTRIES: entries(); return;
    case BYTES: set_bytes(0); return;
    case FILL_BYTES: set_bytes(1); return;
    case OPEN: run_open(); break;
    case TURN: run_turn(); break;
    case MERGE: run_merge(); break;
    case MAKE: run_make(); break;
    case MAKE_STEMS: run_make_stems(); break;
    case JOIN: run_join(); break;
    case SERVE: run_serve(); break;
    case TOP_UP: run_top_up(); break;
    case VIEW: run_view(); break;
    case VIEW_ALL: run_view_all(); break;
    case GROW: run_grow(); break;
    case REPORT_ON: run_report(); break;
    case NUMBER: run_number(); break;
    case FIND: run_find(); break;
    case STRING: run_string(); break;
    default: fail("there is no such instruction");
    }
    compare();
    calls++;
}

/* The words of a file. */
static void read_words(const char *path)
{
    FILE *file = fopen(path, "rb");
    uint32_t *words = NULL;
    size_t len = 0, room = 0;
    unsigned char b[4];
    if (file == NULL)
        fail("the file cannot be read");
    while (fread(b, 1, 4, file) == 4) {
        if (len == room) {
            room = 2 * room + 1024;
            words = (uint32_t *)realloc(words, room * sizeof(uint32_t));
            if (words == NULL)
                fail("there is no memory");
        }
        words[len++] = (uint32_t)b[0] | (uint32_t)b[1] << 8 | (uint32_t)b[2] << 16 | (uint32_t)b[3] << 24;
    }
    fclose(file);
    next = words;
    end = words + len;
}

int main(int arguments, char **argument)
{
    if (arguments != 2) {
        fprintf(stderr, "usage: run FILE\n");
        return 2;
    }
    for (int i = 0; i < BUFFERS; i++) {
        resize(i, 0);
        lend(i);
    }
    read_words(argument[1]);
    while (next != end)
        run();
    for (int i = 1; i < NUMBERS; i++)
        if (refusals[i] == 0)
            fail("some refusal never came");
    printf("%" PRIu32 " calls, %" PRIu32 " served, as by the proved library\n", calls, refusals[0]);
    return 0;
}
