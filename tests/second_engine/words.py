"""Words of terms, plans and states, and their readable form."""

NAME, NUMBER, TEXT, VARIABLE = range(4)
UNBOUND = 0xC0000000
MOST_VALUE = (1 << 30) - 1   # of a name or a text; a number's 30 bits are two's complement
NUMBERS = 1 << 29            # numbers lie from -NUMBERS to NUMBERS - 1
MOST_WORD = (1 << 32) - 1

YEAR = 0                     # before a plan's head, and in a state behind the survey
MOST_YEAR = 9999
HEAD, BRANCH, TRUE, AND, OR, NOT, COMPARISON, ROWS, TOP, RISING, FALLING, GROUP, REGISTERS = range(1, 14)
SURVEY, STATE, PLACE = 13, 14, 15
SURVEYS = 1 << 28            # the numbers that a survey may have are below
EQUAL, UNEQUAL, LESS, AT_MOST, MORE, AT_LEAST = range(6)
LAST_OPERATOR = AT_LEAST
OPERATORS = ['=', '!=', '<', '<=', '>', '>=']


def term(kind, value):
    return kind << 30 | value


def name(value):
    return term(NAME, value)


def number(value):
    return term(NUMBER, value & MOST_VALUE)


def text(value):
    return term(TEXT, value)


def variable(value):
    return term(VARIABLE, value)


def term_kind(word):
    return word >> 30


def term_value(word):
    return word & MOST_VALUE


def number_value(word):
    """What a number stands for, by its 30 bits."""
    bits = word & MOST_VALUE
    return bits if bits < NUMBERS else bits - (MOST_VALUE + 1)


def is_variable(word):
    return word >> 30 == VARIABLE


def plan_word(kind, low):
    return kind << 28 | low


def kind(word):
    return word >> 28


def low(word):
    return word & 0xfffffff


def shown(word):
    if word == UNBOUND:
        return '-'
    return 'nit?'[word >> 30] + str(number_value(word) if term_kind(word) == NUMBER else term_value(word))


def two_words(total):
    """A 64-bit total as two words, low word first; one below zero by two's complement."""
    return [total & MOST_WORD, total >> 32 & MOST_WORD]
