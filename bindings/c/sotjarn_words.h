/* Words for C and C++: terms, the words of plans and states, and refusals by name and in a line of text; why a row was dropped.
 *
 * Each macro of a number gives a uint32_t and is a constant where its arguments are, so that a plan can be a static array. A value that
 * its bits cannot hold is cut to them: 30 bits of a term, 28 of a plan's or a state's word. docs/FORMATS.md says where each word stands;
 * tests/c_words compares all of this with the definitions.
 */
#ifndef SOTJARN_WORDS_H
#define SOTJARN_WORDS_H

#include <stdint.h>

#ifdef __cplusplus
extern "C" {
#endif

/* ---- Terms: two bits of kind and a value of 30. */
#define SOTJARN_TERM(kind, value) ((uint32_t)(kind) << 30 | ((uint32_t)(value) & UINT32_C(0x3FFFFFFF)))
#define SOTJARN_TERM_KIND(word) ((uint32_t)(word) >> 30)
#define SOTJARN_TERM_VALUE(word) ((uint32_t)(word) & UINT32_C(0x3FFFFFFF))

enum { SOTJARN_KIND_NAME = 0, SOTJARN_KIND_NUMBER = 1, SOTJARN_KIND_TEXT = 2, SOTJARN_KIND_VARIABLE = 3 };

#define SOTJARN_NAME(value) SOTJARN_TERM(SOTJARN_KIND_NAME, value)
#define SOTJARN_NUMBER(value) SOTJARN_TERM(SOTJARN_KIND_NUMBER, value)
#define SOTJARN_TEXT(value) SOTJARN_TERM(SOTJARN_KIND_TEXT, value)
#define SOTJARN_VARIABLE(number) SOTJARN_TERM(SOTJARN_KIND_VARIABLE, number)
#define SOTJARN_UNBOUND UINT32_C(0xC0000000) /* in a delivered row: the variable has no value */

/* A number's 30 bits are two's complement: SOTJARN_NUMBER takes one from -536870912 to 536870911, and this gives it back. */
#define SOTJARN_NUMBER_VALUE(word) ((int32_t)(SOTJARN_TERM_VALUE(word) ^ UINT32_C(0x20000000)) - INT32_C(0x20000000))

/* ---- Words of plans and states: four bits of kind, and a count or number of 28. */
#define SOTJARN_WORD(kind, low) ((uint32_t)(kind) << 28 | ((uint32_t)(low) & UINT32_C(0x0FFFFFFF)))
#define SOTJARN_WORD_KIND(word) ((uint32_t)(word) >> 28)
#define SOTJARN_WORD_LOW(word) ((uint32_t)(word) & UINT32_C(0x0FFFFFFF))

/* Before a plan's head may stand a year, or 0 for every year there is; without it the latest is read. */
#define SOTJARN_YEAR(year) SOTJARN_WORD(0, year)

/* A plan: a head, its branches, one ending. A branch: its patterns, three terms each, and one condition. */
#define SOTJARN_HEAD(branches) SOTJARN_WORD(1, branches)
#define SOTJARN_BRANCH(patterns) SOTJARN_WORD(2, patterns)

/* Conditions: "and" and "or" stand before two of them, "not" before one, a comparison before two terms. */
#define SOTJARN_TRUE SOTJARN_WORD(3, 0)
#define SOTJARN_AND SOTJARN_WORD(4, 0)
#define SOTJARN_OR SOTJARN_WORD(5, 0)
#define SOTJARN_NOT SOTJARN_WORD(6, 0)
#define SOTJARN_COMPARISON(comparison) SOTJARN_WORD(7, comparison)

enum {
    SOTJARN_EQUAL = 0,
    SOTJARN_UNEQUAL = 1,
    SOTJARN_LESS = 2,
    SOTJARN_AT_MOST = 3,
    SOTJARN_GREATER = 4,
    SOTJARN_AT_LEAST = 5
};

/* Endings: rows and their variables; top k, a rows part and its keys; a group, its variables and the measured one; registers and their
 * variable. A k of 0 means ten rows. */
enum { SOTJARN_DEFAULT_BEST = 10 };
#define SOTJARN_ROWS(variables) SOTJARN_WORD(8, variables)
#define SOTJARN_TOP(k) SOTJARN_WORD(9, k)
#define SOTJARN_RISING(variable) SOTJARN_WORD(10, variable)
#define SOTJARN_FALLING(variable) SOTJARN_WORD(11, variable)
#define SOTJARN_GROUP(variables) SOTJARN_WORD(12, variables)
#define SOTJARN_IN_REGISTERS SOTJARN_WORD(13, 0)

/* A state: the number of its survey, the year that it reads (SOTJARN_YEAR), its branch (from 0) and depth, and a place for each level. */
#define SOTJARN_SURVEY(number) SOTJARN_WORD(13, number)
#define SOTJARN_POSITION(branch, depth) SOTJARN_WORD(14, (uint32_t)(branch) * 16 + (uint32_t)(depth))
#define SOTJARN_PLACE(place) SOTJARN_WORD(15, place)
#define SOTJARN_STATE_BRANCH(word) (SOTJARN_WORD_LOW(word) / 16)
#define SOTJARN_STATE_DEPTH(word) (SOTJARN_WORD_LOW(word) % 16)

/* ---- Records of groups: the keys, then so many words: rows, numbers and sum of two words each, least, greatest. A query without group
 * variables has one record at its end, even of no rows: rows, numbers and sum 0, least and greatest SOTJARN_UNBOUND. */
enum { SOTJARN_TOTALS_WORDS = 8 };

/* Two words as one number, the low word first. */
static inline uint64_t sotjarn_wide(const uint32_t *words)
{
    return (uint64_t)words[1] << 32 | words[0];
}

/* Two words of a sum, which may be below zero: two's complement, the low word first. */
static inline int64_t sotjarn_sum(const uint32_t *words)
{
    uint64_t sum = sotjarn_wide(words);
    return sum >> 63 ? -(int64_t)~sum - 1 : (int64_t)sum;
}

/* ---- Reports of making tables: two words for each dropped row, its place in the upload from 0 and a code. */
enum {
    SOTJARN_DROPPED_WRONG_KIND = 1, /* its year is no number from 1 to 9,999, its subject or predicate no name, or its object a variable */
    SOTJARN_DROPPED_REPEAT = 2      /* its kinds are right, and an earlier row is the same */
};

/* Why a row was dropped, in a few words, by its code. */
static inline const char *sotjarn_dropped_text(uint32_t code)
{
    static const char *const texts[] = {"kept", "wrong kind", "repeat"};
    return code < sizeof texts / sizeof *texts ? texts[code] : "a code that this header does not know: the library is newer";
}

/* ---- Refusals. */
enum {
    SOTJARN_REFUSED_TABLE_LENGTHS = 1,
    SOTJARN_REFUSED_FIELD_KIND = 2,
    SOTJARN_REFUSED_ROW_ORDER = 3,
    SOTJARN_REFUSED_ROW_NUMBERS = 4,
    SOTJARN_REFUSED_PLAN_FORM = 5,
    SOTJARN_REFUSED_PLAN_VARIABLES = 6,
    SOTJARN_REFUSED_BUFFER_LENGTHS = 7,
    SOTJARN_REFUSED_QUANTUM = 8,
    SOTJARN_REFUSED_STATE_FORM = 9,
    SOTJARN_REFUSED_STATE_NOT_PASSED = 10,
    SOTJARN_REFUSED_THRESHOLD = 11,
    SOTJARN_REFUSED_MERGED_LISTS = 12,
    SOTJARN_REFUSED_TOTALS = 13,
    SOTJARN_REFUSED_KEPT_LENGTH = 14,
    SOTJARN_REFUSED_UPLOAD_LENGTH = 15,
    SOTJARN_REFUSED_MADE_LENGTHS = 16,
    SOTJARN_REFUSED_ENTRIES = 17,
    SOTJARN_REFUSED_QUEUE_ROOM = 18,
    SOTJARN_REFUSED_EMPTY_LINE = 19,
    SOTJARN_REFUSED_GRANT = 20,
    SOTJARN_REFUSED_VIEW_LENGTHS = 21,
    SOTJARN_REFUSED_SURVEY = 22,
    SOTJARN_REFUSED_YEAR = 23,
    SOTJARN_REFUSED_STEMS = 24,
    SOTJARN_REFUSED_GROWN_LENGTHS = 25,
    SOTJARN_REFUSED_STRINGS = 26,
    SOTJARN_REFUSED_NUMBERED_LENGTHS = 27,
    SOTJARN_REFUSED_DICTIONARY = 28
};

/* What is wrong and what to do, in a line, by the number that a call refused by. */
static inline const char *sotjarn_refusal_text(uint32_t refused)
{
    static const char *const texts[] = {
        "not refused",
        "the lengths of the tables do not fit together, or there are more than 65,536 rows; lend four words a row, "
        "and in each list one number a row",
        "a field of some row has the wrong kind; make every year a number, every subject and predicate a name, and "
        "every object a name, a number or a text",
        "the rows do not ascend strictly; sort the rows as unsigned words by year, subject, predicate, object, and "
        "leave out repeats",
        "a list of row numbers names a row that is not there, or its rows do not ascend strictly; write the lists "
        "anew from these rows: one by year, predicate, object, subject, one by year, object, subject, predicate",
        "the form of the plan is wrong: a kind, a count, its length or a condition's size, or words are left over; "
        "keep to 1 to 4 branches, 1 to 8 patterns, conditions of 31 nodes and 8 deep, 1 to 16 columns, k up to 64, 1 "
        "to 4 keys, 4 group variables, and 256 words in all",
        "a variable of the plan is above ?15, is not bound, or is repeated; use ?0 to ?15; bind a condition's "
        "variables in its own branch and the ending's in some branch; take keys from the columns; name no column or "
        "group variable twice",
        "the output, the state buffer or a report on registers is too short; lend a state buffer of 11 words, an "
        "output for one row, k rows, one group or 16 registers, as the plan ends, and 62 words for a report",
        "the quantum is outside its range; give 1 to 1,000,000 steps",
        "the state is empty, its kinds, branch, depth or length are wrong, or its year is not being read; give the "
        "words that opening or the last turn wrote, as many as it said; after done there are none",
        "the query never passes through this state; send the state with the plan and the tables that it came from, or"
        " open the query anew",
        "the threshold is not one row of a best-of query; send none, or the last row of a full list merged by the "
        "same plan",
        "a list is not one that this plan makes, or the plan delivers plain rows; merge whole lists of turns of the "
        "same plan; join the lists of a row query end to end instead; ask for reports on merged registers alone",
        "a count would pass 2^64 - 1, or a sum leave -2^63 to 2^63 - 1; merge each list once; such totals no survey "
        "reaches",
        "the kept buffer is too short for the merged list; lend a longer buffer: the words of both lists are always "
        "enough",
        "the length of the upload is no multiple of 4, or it has more than 65,536 rows; send four words a row, and at"
        " most 65,536 rows",
        "a buffer is too short for the tables or the report; for n uploaded rows lend 4 n words for rows, n for each "
        "list and 2 n for the report: that is always enough",
        "two entries have one owner, an entry is in the list that its steps do not belong to, or a top-up is 0 or for"
        " an owner who is not set aside; lend both lists as the last call left them; let an owner join once at a "
        "time, and top up, by at least one step, whoever is set aside",
        "a list has no room for 32 entries, or there would be more than 32 in all; lend 32 entries for each list, and"
        " let others join when somebody has left",
        "the line is empty; serve again when somebody has joined or was topped up",
        "the grant has a word that is no name, or its words do not ascend strictly; sort the granted names as "
        "unsigned words, each once",
        "a buffer is too short for the visible rows; for tables of n rows lend 4 n words for rows and n for each "
        "list: that is always enough",
        "the survey's number is above 28 bits, or the state is of another survey; number the surveys below "
        "268,435,456; open the query anew over this survey, and let go what was kept of the other",
        "a row's year is outside 1 to 9,999, or the plan's is above 9,999; give rows a year from 1 to 9,999; ask for "
        "such a year, or for every year with 0",
        "more than 32,768 stems are asked for, or a year outside 1 to 9,999; ask for at most 32,768 stems, and give the "
        "year as a plain number from 1 to 9,999",
        "a buffer is too short for the wood; for n stems lend 8 n words for rows and 2 n for each list: that is exactly "
        "enough",
        "the strings' ends fall or do not end with the bytes, a string is no UTF-8 or no name, or there are more than "
        "1,073,741,823; give each string's end, the last being the number of bytes, and names as IRIs in <> have them, none "
        "of them empty",
        "a buffer is too short for the dictionary or the numbers; for b bytes and n strings lend b bytes, and n words for the "
        "ends, the numbers and the places each: that is always enough",
        "the dictionary's ends, its UTF-8, its names or its order are wrong; lend bytes and ends as numbering left them, with "
        "the kind that they were numbered as",
    };
    return refused < sizeof texts / sizeof *texts ? texts[refused] : "a number that this header does not know: the library is newer";
}

#ifdef __cplusplus
}
#endif

#endif
