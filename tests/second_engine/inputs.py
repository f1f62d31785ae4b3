"""Tables, states and lists as words: what tests 1 to 4, 23, 9, 22 and 12 of the rules (docs/RULES.md, 10) look at."""
from collections import namedtuple

from plan_reader import width
from words import (MOST_YEAR, NAME, NUMBER, PLACE, STATE, SURVEY, UNBOUND, VARIABLE, YEAR, kind, low, number_value, plan_word, term_kind,
                   term_value)

MOST_ROWS = 65536
COLUMNS = 4                  # of a row: year, subject, predicate, object

Tables = namedtuple('Tables', 'rows pos osp')               # words of the rows, and two lists of row numbers
Totals = namedtuple('Totals', 'rows numbers sum least greatest')
NOTHING = Totals(0, 0, 0, UNBOUND, UNBOUND)                 # the totals of no rows


# Tables: tests 1, 2, 23, 3 and 4.

def rows_of(tables):
    return [tuple(tables.rows[i:i + COLUMNS]) for i in range(0, len(tables.rows), COLUMNS)]


def lengths_right(tables):
    count, over = divmod(len(tables.rows), COLUMNS)
    return over == 0 and len(tables.pos) == count and len(tables.osp) == count and count <= MOST_ROWS


def kinds_right(tables):
    return all(row_kinds_right(row) for row in rows_of(tables))


def row_kinds_right(row):
    year, subject, predicate, object_ = map(term_kind, row)
    return year == NUMBER and subject == NAME and predicate == NAME and object_ != VARIABLE


def year_right(word):
    """Whether a number is a year that rows may have, by its bits."""
    return 1 <= term_value(word) <= MOST_YEAR


def years_right(tables):
    return all(year_right(row[0]) for row in rows_of(tables))


def ascend(keys):
    return all(a < b for a, b in zip(keys, keys[1:]))


def pos_key(row):
    return row[0], row[2], row[3], row[1]


def osp_key(row):
    return row[0], row[3], row[1], row[2]


def order_right(rows, numbers, key):
    return all(n < len(rows) for n in numbers) and ascend([key(rows[n]) for n in numbers])


# States and terms.

def state_words(survey, state):
    year, branch, places = state
    return [plan_word(SURVEY, survey), plan_word(YEAR, year), plan_word(STATE, branch * 16 + len(places)), *(plan_word(PLACE, place) for place in places)]


def state_right(plan, words):
    """Test 9 on a state's words, but for the year: a survey's word, whatever its number, a year's, and the shape behind them."""
    if len(words) < 3 or list(map(kind, words[:3])) != [SURVEY, YEAR, STATE] or any(kind(w) != PLACE for w in words[3:]):
        return False
    branch, places = divmod(low(words[2]), 16)
    return branch < len(plan.branches) and 1 <= places <= len(plan.branches[branch].patterns) and len(words) == places + 3


def survey_of(words):
    """The number of the survey that a state was saved under."""
    return low(words[0])


def state_of(words):
    return low(words[1]), low(words[2]) // 16, tuple(map(low, words[3:]))


def delivered_term(word):
    return word == UNBOUND or term_kind(word) != VARIABLE


# Lists.

def in_parts(plan, words):
    """A list's rows or records."""
    return [tuple(words[i:i + width(plan)]) for i in range(0, len(words), width(plan))]


def split_record(record):
    """A record's keys and its totals."""
    *keys, r, r_high, n, n_high, s, s_high, least, greatest = record
    return tuple(keys), Totals(r | r_high << 32, n | n_high << 32, signed(s | s_high << 32), least, greatest)


def signed(total):
    """64 bits as a number that may be below zero."""
    return total - (1 << 64) if total >> 63 else total


def totals_right(totals, value=number_value):
    """Test 12 on a record's totals, but for what it asks of rows 0."""
    if totals.numbers > totals.rows:
        return False
    if totals.numbers == 0:
        return totals.sum == 0 and totals.least == totals.greatest == UNBOUND
    return term_kind(totals.least) == term_kind(totals.greatest) == NUMBER and value(totals.least) <= value(totals.greatest)
