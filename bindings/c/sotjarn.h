/* Sotjarn's calls for C and C++: making tables from an upload, those that an adviser may see from tables, and a wood grown from a seed; opening
 * a query, one turn of it, and merging a turn's list into a kept one; a report on kept registers; how long an output has to be for a plan;
 * queries of several owners in a queue: joining, serving and topping up; and dictionaries of names and of texts: strings numbered, the number of
 * a string and the string of a number.
 *
 * Link with libsotjarn.a, the proved library, which `make library` writes to target/staticlib/; or with libsotjarn_portable.a,
 * the same source without its proofs, which cargo makes in portable/. `make install` installs either. No call allocates, keeps an
 * address, or has a state of its own: calls on different buffers may run at the same time. sotjarn_words.h has terms, words of plans
 * and refusals by name.
 *
 * A buffer is its address and its length in 32-bit words, and of strings in bytes. Whatever the words are, a call ends, reads and writes nothing
 * outside its buffers, and refuses faulty input by number; a refused call changes no word. The caller sees to the addresses:
 *   - none is null, even where its length is 0; one of words is aligned for uint32_t, and so many words or bytes may be read from it;
 *   - a buffer that is written (no `const`) may be written, and overlaps no other buffer of the same call;
 *   - nobody else writes a buffer of a call while it runs.
 * Buffers that are only read may overlap.
 *
 * The tables are three buffers: `rows` has a year and three terms a row, in ascending order; `pos` and `osp` have row numbers, in the order of
 * year, predicate, object, subject and of year, object, subject, predicate. `sotjarn_make` makes them of rows in any order. `survey` is the number that
 * these tables have, of 28 bits: tables under one number are the same, so each upload gets another, and so do the tables that an adviser
 * sees. `plan` is the query. The same five go with every turn of a query: a state that was saved under another number is refused by 22.
 */
#ifndef SOTJARN_H
#define SOTJARN_H

#include <stddef.h>
#include <stdint.h>

#ifdef __cplusplus
extern "C" {
#endif

/* The version of this header, which is that of the libraries made beside it. */
#define SOTJARN_VERSION "0.18.0"

/* How a turn ended. */
enum {
    SOTJARN_DONE = 0,   /* the query has ended; no state is left */
    SOTJARN_SPENT = 1,  /* it took exactly the quantum and is not done */
    SOTJARN_FULL = 2,   /* the next step delivers a row or a new group for which the output has no space */
    SOTJARN_REFUSED = 3 /* it was refused, and nothing changed */
};

/* The words that a state buffer has at least, and the most steps that a turn may take; the numbers of surveys are below SOTJARN_SURVEYS. */
enum { SOTJARN_STATE_WORDS = 11, SOTJARN_MOST_STEPS = 1000000, SOTJARN_SURVEYS = 268435456 };

/* The most rows that tables and an upload may have, the words of a row, and those that the report on an upload has for each dropped row; the
 * last year that rows and plans may have, the first being 1. */
enum { SOTJARN_MOST_ROWS = 65536, SOTJARN_ROW_WORDS = 4, SOTJARN_DROPPED_WORDS = 2, SOTJARN_MOST_YEAR = 9999 };

/* The words of a list of registers, and those of a report on one: a count for each value from 0 to 61 that a register may have. */
enum { SOTJARN_REGISTERS = 16, SOTJARN_REPORT_WORDS = 62 };

/* The most stems that a grown wood may have: each has two rows. */
enum { SOTJARN_MOST_STEMS = 32768 };

/* The bytes of stack to provide for sotjarn_make. It keeps what it sorts in 448 KiB of local arrays, whatever the upload's length, and
 * allocates nothing; with its frames, threads of 456 KiB were enough (tests/stack measures it). Some threads have less by default, as
 * musl's with 128 KiB. sotjarn_view keeps a mark and a flag for each row, in 320 KiB, and 328 KiB were
 * enough. sotjarn_grow sorts in 128 KiB, and 136 KiB were enough. The other calls have no such arrays. */
enum { SOTJARN_MAKE_STACK = 524288, SOTJARN_VIEW_STACK = 393216, SOTJARN_GROW_STACK = 196608 };

/* The most entries of a queue, in the line and set aside together: each of its two buffers has so many at least. The words that an entry has
 * for its plan, as many as the longest has, and for its state. */
enum { SOTJARN_MOST_ENTRIES = 32, SOTJARN_PLAN_ROOM = 256, SOTJARN_STATE_ROOM = 11 };

/* The kinds of strings: 0 is names, and every other number is texts. */
enum { SOTJARN_NAMES = 0, SOTJARN_TEXTS = 1 };

/* The most strings of a dictionary, and of one numbering: the number after the last is a term's value too. */
enum { SOTJARN_MOST_STRINGS = 1073741823 };

/* Whether a dictionary has a string, or a number. */
enum { SOTJARN_ABSENT = 0, SOTJARN_PRESENT = 1 };

/* A waiting query: its plan is the first `plan_words` words of `plan`, its state the first `state_words` words of `state`. */
struct sotjarn_entry {
    uint64_t allowance;   /* the steps left to it: some in the line, none set aside */
    uint32_t owner;       /* whose it is: no owner has two entries */
    uint32_t plan_words;
    uint32_t state_words;
    uint32_t plan[SOTJARN_PLAN_ROOM];
    uint32_t state[SOTJARN_STATE_ROOM];
};

/* What joining and topping up answer. */
struct sotjarn_queued {
    uint32_t refused;     /* the number of the first test that failed; 0: none */
    size_t line_entries;  /* the entries of the line; 0 if refused */
    size_t aside_entries; /* the entries set aside; 0 if refused */
};

/* What serving answers. */
struct sotjarn_service {
    uint32_t ending;      /* how the turn ended: SOTJARN_DONE, _SPENT, _FULL or _REFUSED */
    uint32_t refused;     /* the number of the first test that failed; 0 unless the ending is SOTJARN_REFUSED */
    uint32_t steps;       /* the steps taken */
    uint32_t owner;       /* whose turn it was */
    uint64_t left;        /* the steps left to the owner; where the query is done, what was left */
    size_t state_words;   /* the words of the new state, which stands in the entry; 0 when done */
    size_t list_words;    /* the words of the turn's list, written over the front of `output` */
    size_t line_entries;  /* the entries of the line; 0 if refused */
    size_t aside_entries; /* the entries set aside; 0 if refused */
};

/* What opening, merging and a report on registers answer, and what a plan asks of an output. */
struct sotjarn_written {
    uint32_t refused; /* the number of the first test that failed; 0: none */
    size_t words;     /* the words written to the buffer, from its front, or asked for; 0 if refused */
};

/* What a turn answers. */
struct sotjarn_turned {
    uint32_t ending;    /* SOTJARN_DONE, _SPENT, _FULL or _REFUSED */
    uint32_t refused;   /* the number of the first test that failed; 0 unless the ending is SOTJARN_REFUSED */
    uint32_t steps;     /* the steps taken */
    size_t state_words; /* the words of the new state, written over the front of `state`; 0 when done */
    size_t list_words;  /* the words of the turn's list, written over the front of `output`; in groups by no variable a turn that is
                         * done has one record always, which is that of nothing where it had no rows; registers are all there always */
};

/* What making tables answers: the words written to the front of each buffer; 0 of each if refused. */
struct sotjarn_made {
    uint32_t refused;    /* the number of the first test that failed; 0: none */
    size_t rows_words;   /* four words for each row that is kept */
    size_t pos_words;    /* as many as rows are kept */
    size_t osp_words;    /* the same */
    size_t report_words; /* two words for each row that is dropped */
};

/* What writing tables answers: the words written to the front of each buffer; 0 of each if refused. */
struct sotjarn_tables {
    uint32_t refused;  /* the number of the first test that failed; 0: none */
    size_t rows_words; /* four words for each row */
    size_t pos_words;  /* as many as there are rows */
    size_t osp_words;  /* the same */
};

/* Makes tables from an upload: rows of four words as they were measured, in any order. Rows of wrong kinds or years are dropped, and of equal
 * rows all but the first; the others are written to `rows` in ascending order, and both lists of row numbers to `pos` and `osp`. The tables
 * pass tests 1 to 4 and 23. The report names each dropped row in upload order, by its place from 0 and a code: 1 wrong kind, tested first, 2 repeat.
 * An upload of n rows makes at most 4 n, n, n and 2 n words; buffers of exactly the words written are enough, and what longer ones have
 * behind those stays. Refused by 15 (the length is no multiple of 4, or there are over 65,536 rows), then by 16 (a buffer is too short).
 * Needs a stack of SOTJARN_MAKE_STACK bytes. */
struct sotjarn_made sotjarn_make(const uint32_t *upload, size_t upload_len,
                                 uint32_t *rows, size_t rows_len,
                                 uint32_t *pos, size_t pos_len,
                                 uint32_t *osp, size_t osp_len,
                                 uint32_t *report, size_t report_len);

/* Writes the tables of the rows that an adviser may see. `grant` has names in strictly ascending order; none is a grant too. A row is visible if
 * its subject is granted, or if some row of the same year and subject has `membership` as predicate and a granted object; that row is one of them. The
 * visible rows keep their order and are numbered from 0; the tables pass tests 1 to 4 and 23, and the adviser's queries run on them. What is written
 * depends on visible rows alone: tables that differ only in rows that are hidden where they stand give the same view. `membership` is not
 * tested: if it is no name, no row has it. Of v visible rows 4 v, v and v words are written; buffers of exactly so many are enough, those of the
 * tables' own lengths always, and what longer ones have behind those words stays. Refused by 1, 2, 23, 3, 4, then by 20 (the grant has a word that is no
 * name, or does not ascend strictly), then by 21 (a buffer is too short). Needs a stack of SOTJARN_VIEW_STACK bytes. */
struct sotjarn_tables sotjarn_view(const uint32_t *rows, size_t rows_len,
                                   const uint32_t *pos, size_t pos_len,
                                   const uint32_t *osp, size_t osp_len,
                                   const uint32_t *grant, size_t grant_len, uint32_t membership,
                                   uint32_t *view_rows, size_t view_rows_len,
                                   uint32_t *view_pos, size_t view_pos_len,
                                   uint32_t *view_osp, size_t view_osp_len);

/* Writes a wood made to measure: so many stems of the year `year`, a plain number, drawn from `seed`. Stem j, from 0, is n(1000000 + j), with a
 * stand by n10, n100 to n119, and a diameter by n12, i20 to i619. The tables pass tests 1 to 4 and 23, and depend on these three numbers alone, so
 * that anyone grows the same wood again. Of n stems 8 n, 2 n and 2 n words are written, none of no stems; buffers of exactly so many are enough, and
 * what longer ones have behind those words stays. Refused by 24 (more than SOTJARN_MOST_STEMS stems, or a year outside 1 to SOTJARN_MOST_YEAR), then by
 * 25 (a buffer is too short). Needs a stack of SOTJARN_GROW_STACK bytes. */
struct sotjarn_tables sotjarn_grow(uint32_t seed, uint32_t stems, uint32_t year,
                                   uint32_t *rows, size_t rows_len,
                                   uint32_t *pos, size_t pos_len,
                                   uint32_t *osp, size_t osp_len);

/* Writes the start state of a query over the front of `state`. Refused by 1, 2, 23 (a year), 3, 4, 5,
 * 6, 23 (the plan's year), 7, then by 22 (the survey's number is above 28 bits). */
struct sotjarn_written sotjarn_open(const uint32_t *rows, size_t rows_len,
                                    const uint32_t *pos, size_t pos_len,
                                    const uint32_t *osp, size_t osp_len, uint32_t survey,
                                    const uint32_t *plan, size_t plan_len,
                                    uint32_t *state, size_t state_len);

/* Runs at most `quantum` steps from the saved state, which is the first `state_words` words of `state`: those that opening or the
 * turn before wrote. `threshold` is empty (length 0), or for a best-of query the last row of a full list merged from earlier turns;
 * matches that cannot come before it are not finished, which may save steps.
 * Refused by 1, 2, 23, 3, 4, 5, 6, 23, 7 to 9, then by 22 (the survey's number is above 28 bits, or the state is of another survey), then by 10
 * and 11. */
struct sotjarn_turned sotjarn_turn(const uint32_t *rows, size_t rows_len,
                                   const uint32_t *pos, size_t pos_len,
                                   const uint32_t *osp, size_t osp_len, uint32_t survey,
                                   const uint32_t *plan, size_t plan_len,
                                   uint32_t *state, size_t state_len, size_t state_words,
                                   uint32_t quantum,
                                   const uint32_t *threshold, size_t threshold_len,
                                   uint32_t *output, size_t output_len);

/* Merges a turn's whole list into the kept one, which is the first `kept_words` words of `kept`; none at first. The merged list is
 * written over the front of `kept`. For best-of queries, groups and registers; the lists of a row query are joined end to end instead.
 * Each turn's list is merged once: groups and registers in any order, best-of lists in the order of turns, or in any where no two rows are
 * equal in all keys. A merged list may be lent as `list` too. Refused by 5, 6, 23 and 12 to 14. */
struct sotjarn_written sotjarn_merge(const uint32_t *plan, size_t plan_len,
                                     uint32_t *kept, size_t kept_len, size_t kept_words,
                                     const uint32_t *list, size_t list_len);

/* Counts a kept list of registers, which is the first `kept_words` words of `kept`, as merges left it; none at first, and then all 16 registers
 * have 0. Word v of the report, for v from 0 to 61, is how many registers have the value v; they make 16. From it roughly is told how many
 * distinct values there were (docs/FORMATS.md, "Registers", also on what such an estimate is worth). Refused by 7 (the report is shorter than
 * SOTJARN_REPORT_WORDS), then by 12 (the list is neither empty nor of 16 words, has one above 61, or is longer than its buffer). */
struct sotjarn_written sotjarn_report(const uint32_t *kept, size_t kept_len, size_t kept_words,
                                      uint32_t *report, size_t report_len);

/* The words that test 7 asks of `output` for a plan: one row, k rows, one record or all registers. More makes fewer turns where the query ends in rows
 * or groups: a multiple of one row or record. Writes nothing. Refused by 5, 6 and 23. */
struct sotjarn_written sotjarn_least_output(const uint32_t *plan, size_t plan_len);

/* Queries of several owners over one survey wait in two lists: the line, in the order in which they come to their turns, and the list
 * set aside, of those to whom no steps are left. The line is the first `line_entries` entries of `line`, the other list the first
 * `aside_entries` of `aside`: as many as the last call answered, none at first. The lengths are counted in entries; each buffer has
 * SOTJARN_MOST_ENTRIES or more. An address of entries is aligned for uint64_t; all else that is said of buffers above holds of both lists. No
 * call reads what stands behind a list, and what stands behind the list that a call leaves keeps its words. */

/* An owner's query joins: with an allowance of steps at the end of the line, with none at the end of the list set aside. `plan` and `state` are
 * whole, and such that a turn over this survey accepts them: a state that opening or a turn wrote. The entry has copies of both.
 * Refused by 1, 2, 23, 3, 4, 5, 6, 23, 9, 22, 10, 17 and 18, tested in this order. */
struct sotjarn_queued sotjarn_join(const uint32_t *rows, size_t rows_len,
                                   const uint32_t *pos, size_t pos_len,
                                   const uint32_t *osp, size_t osp_len, uint32_t survey,
                                   struct sotjarn_entry *line, size_t line_len, size_t line_entries,
                                   struct sotjarn_entry *aside, size_t aside_len, size_t aside_entries,
                                   uint32_t owner, uint64_t allowance,
                                   const uint32_t *plan, size_t plan_len,
                                   const uint32_t *state, size_t state_len);

/* Runs one turn of the query at the front of the line, for at most `quantum` steps and at most those left to it. Done, it leaves; unfinished, it
 * goes to the back of the line, or to the end of the list set aside if no steps are left. `threshold` and `output` are those of the turn, for
 * the plan of the front entry. Refused as a turn is on the front entry and the call, then by 17, 18 and 19; with an empty line by 1, 2, 23, 3, 4,
 * 8, 22, 17, 18 and 19. */
struct sotjarn_service sotjarn_serve(const uint32_t *rows, size_t rows_len,
                                     const uint32_t *pos, size_t pos_len,
                                     const uint32_t *osp, size_t osp_len, uint32_t survey,
                                     struct sotjarn_entry *line, size_t line_len, size_t line_entries,
                                     struct sotjarn_entry *aside, size_t aside_len, size_t aside_entries,
                                     uint32_t quantum,
                                     const uint32_t *threshold, size_t threshold_len,
                                     uint32_t *output, size_t output_len);

/* Brings the query of an owner who is set aside back to the end of the line; `amount` steps are left to it then. Refused by 17 and 18. */
struct sotjarn_queued sotjarn_top_up(struct sotjarn_entry *line, size_t line_len, size_t line_entries,
                                     struct sotjarn_entry *aside, size_t aside_len, size_t aside_entries,
                                     uint32_t owner, uint64_t amount);

/* What numbering strings answers. */
struct sotjarn_numbered {
    uint32_t refused; /* the number of the first test that failed; 0: none */
    size_t bytes;     /* the bytes of the dictionary, written over the front of `out`; 0 if refused */
    size_t strings;   /* its strings, and so the words written over the front of `cuts`; 0 if refused */
};

/* What looking for a string answers. */
struct sotjarn_found {
    uint32_t refused; /* the number of the test that failed; 0: none */
    uint32_t present; /* SOTJARN_PRESENT, or SOTJARN_ABSENT where the dictionary does not have it or the call was refused */
    size_t number;    /* its number; of one that is absent its rank, how many strings come before it; 0 if refused */
};

/* What the string of a number is: the bytes from `start` up to `end`. */
struct sotjarn_bounds {
    uint32_t refused; /* the number of the test that failed; 0: none */
    uint32_t present; /* SOTJARN_PRESENT, or SOTJARN_ABSENT where the number is past the last or the call was refused */
    size_t start;     /* 0 where it is absent */
    size_t end;       /* the same */
};

/* A dictionary is two buffers, `bytes` and `ends`: string i is the bytes from ends[i - 1], 0 for the first, up to ends[i], and i is its number. It is
 * right if the ends do not fall and the last is the number of bytes, every string is well-formed UTF-8, the strings ascend strictly as unsigned bytes, which
 * is the order of their code points, and there are at most SOTJARN_MOST_STRINGS. There are two dictionaries, one of names and one of texts, and `kind` says
 * which is meant. A name is not empty and has none of the characters that an IRI in <> may not have: none up to U+0020, and none of " < > \ ^ ` { | }.
 *
 * Numbers strings of a kind, which come in any order and as often as they like, as bytes and the ends that cut these: writes a right dictionary of exactly
 * these strings, each once, to `out` and `cuts`, and to `numbers` the number of each string given. `places` is room to sort in; it is left with the places of
 * the strings, sorted by these. For b bytes and n strings lend b bytes and three times n words, whatever the strings are; what longer buffers have behind
 * what is written stays. Refused by 26 (the ends fall, or the last is not the number of bytes; a string is none of its kind; there are too many), then by 27
 * (a buffer is too short). */
struct sotjarn_numbered sotjarn_number(uint32_t kind,
                                       const uint8_t *bytes, size_t bytes_len,
                                       const uint32_t *ends, size_t ends_len,
                                       uint8_t *out, size_t out_len,
                                       uint32_t *cuts, size_t cuts_len,
                                       uint32_t *numbers, size_t numbers_len,
                                       uint32_t *places, size_t places_len);

/* Looks for a string, which may be any bytes, in a dictionary. Writes nothing. Refused by 28 (the dictionary is not right, or a string is none of its kind);
 * the whole of it is tested at each call. */
struct sotjarn_found sotjarn_find(uint32_t kind,
                                  const uint8_t *bytes, size_t bytes_len,
                                  const uint32_t *ends, size_t ends_len,
                                  const uint8_t *sought, size_t sought_len);

/* Says which of the lent bytes are the string of a number. Writes nothing. Refused by 28, as sotjarn_find is. */
struct sotjarn_bounds sotjarn_string(uint32_t kind,
                                     const uint8_t *bytes, size_t bytes_len,
                                     const uint32_t *ends, size_t ends_len,
                                     size_t number);

#ifdef __cplusplus
}
#endif

#endif
