"""Random woods and plans, from a seed.

About half of the plans have solutions: their patterns are rows of the wood with some terms put into variables, the same
variable for the same term. The others are made of anything that the plan's words allow. Of every ten one has conditions that keep no
row, as a stand has that was clear-felled.
"""
from inputs import Tables, osp_key, pos_key, rows_of
from plan_reader import MOST_DEPTH, MOST_NODES, MOST_PLAN_WORDS
from running import TooLong
from words import (AND, BRANCH, COMPARISON, EQUAL, FALLING, GROUP, HEAD, LAST_OPERATOR, MOST_VALUE, MOST_YEAR, NOT, NUMBERS, OR, REGISTERS, RISING, ROWS, TOP,
                   TRUE, UNEQUAL, YEAR, is_variable, name, number, plan_word, term, term_kind, term_value, text, variable)


# Woods.

def tables_of(rows):
    """The tables of a set of rows."""
    rows = sorted(set(rows))
    numbers = range(len(rows))
    return Tables(tuple(word for row in rows for word in row), tuple(sorted(numbers, key=lambda n: pos_key(rows[n]))),
                  tuple(sorted(numbers, key=lambda n: osp_key(rows[n]))))


YEARS = [1, 2, 1999, 2025, 2026, MOST_YEAR - 1, MOST_YEAR]


def surveyed(rng, rows):
    """Rows of some years: each in one of them or in several, so that subjects come again from year to year."""
    years = sorted(rng.sample(YEARS, rng.choice([1, 1, 1, 2, 2, 3, 4])))
    again = rng.choice([0, .5, .9])
    for row in rows:
        for year in years if rng.random() < again else [rng.choice(years)]:
            yield (number(year), *row)


def stand_rows(rng, stems):
    """Stems with their stand, species, diameter, volume in litres and a remark; some are missing, many are equal."""
    for stem in range(1, stems + 1):
        yield name(stem), name(100), name(200 + rng.randrange(3))
        yield name(stem), name(101), rng.choice([name(300), name(301), text(7)])
        if rng.random() < .8:
            yield name(stem), name(102), number(rng.choice([45, 310, 310, 0, 70, -5]))
        if rng.random() < .6:
            yield name(stem), name(103), number(rng.choice([NUMBERS - 1, NUMBERS - 2, -NUMBERS, -3, 900]))
        if rng.random() < .5:
            yield name(stem), name(104), rng.choice([text(0), text(45), text(310), number(45), name(stem)])


def mixed_rows(rng, count):
    """Few names, numbers and texts of the same values, and numbers below zero, in every position they may have."""
    for _ in range(count):
        yield name(rng.randrange(4)), name(rng.randrange(3)), rng.choice([term(rng.randrange(3), rng.randrange(4)), number(rng.randrange(-3, 3))])


def graph_rows(rng, count):
    """Names alone, each as subject, predicate and object, with loops."""
    names = [name(n) for n in range(rng.randint(2, 4))]
    for _ in range(count):
        one = rng.choice(names)
        yield rng.choice([(one, one, one), (one, rng.choice(names), one), (one, one, rng.choice(names)),
                          tuple(rng.choice(names) for _ in range(3)), tuple(rng.choice(names) for _ in range(3))])


def extreme_rows(rng, count):
    """The least and the greatest value of each kind."""
    values = [0, 1, NUMBERS - 1, NUMBERS, MOST_VALUE - 1, MOST_VALUE]
    for _ in range(count):
        yield name(rng.choice(values)), name(rng.choice(values)), term(rng.choice([0, 1, 1, 2]), rng.choice(values))


def measure_rows(rng, count):
    """One predicate with many great numbers among texts and names, above zero or below it, so that sums need more than a word."""
    below = rng.choice([0, 0, 1, rng.random()])             # the share of numbers below zero
    great = lambda at: at - NUMBERS if rng.random() < below else NUMBERS - 1 - at
    for at in range(count):
        yield name(rng.randrange(count)), name(1), rng.choice([number(great(at))] * 4 + [text(at % 3), name(at % 3)])
        yield name(at), name(2), rng.choice([text(rng.randrange(3)), number(rng.randrange(3))])


def wood(rng):
    shape = rng.choice([stand_rows, stand_rows, mixed_rows, mixed_rows, graph_rows, extreme_rows, measure_rows, measure_rows])
    most = {stand_rows: 9, measure_rows: 18}.get(shape, 24)
    return tables_of(surveyed(rng, shape(rng, rng.choice([0, 1, 2] + [rng.randint(3, most)] * 12))))


def large_wood(count):
    """So many rows, one to a stem."""
    return tables_of((number(2025 + stem % 2), name(stem), name(1 + stem % 3), number(stem % 1000)) for stem in range(count))


def large_plan():
    """A plan of few steps over a large wood: stems of one diameter and species, three times over, by the three orders."""
    stem, kind, size = map(variable, range(3))
    branches = [[stem, name(2), number(7)], [stem, kind, number(999)], [name(65535), kind, size]]
    words = [plan_word(YEAR, 0), plan_word(HEAD, len(branches))]
    for pattern in branches:
        words += [plan_word(BRANCH, 1), *pattern, plan_word(TRUE, 0)]
    return (*words, plan_word(ROWS, 3), stem, kind, size)


# Patterns.

class Draft:
    """A plan in the making: the wood's rows and terms, and the numbers of the plan's variables. Short sides and registers have draws of their own, or
    there are none."""

    def __init__(self, rng, rows, sides=None):
        self.rng, self.sides = rng, sides
        self.years = sorted({term_value(row[0]) for row in rows})
        self.rows = rows = [row[1:] for row in rows]
        self.terms = sorted({word for row in rows for word in row}) or [name(1), number(1), text(1)]
        self.numbers = rng.sample(range(16), 16)
        self.pool = rng.randint(2, 6)
        self.objects = set()
        self.felled = rng.random() < .1

    def some_variable(self):
        return variable(self.numbers[self.rng.randrange(self.pool)])

    def some_constant(self):
        """A term of the wood, one beside it, one of another kind with its value, or an outer one."""
        word = self.rng.choice(self.terms)
        beside = min(term_value(word) + 1, MOST_VALUE)
        return self.rng.choice([word, word, word, term(term_kind(word), beside), term(self.rng.randrange(3), term_value(word)),
                                term(self.rng.randrange(3), self.rng.choice([0, NUMBERS - 1, NUMBERS, MOST_VALUE]))])

    def some_patterns(self, count):
        """Anything that the words allow."""
        field = lambda: self.some_variable() if self.rng.random() < .55 else self.some_constant()
        return [(field(), field(), field()) for _ in range(count)]

    def row_like(self, chosen):
        """A row that shares a term with the chosen ones, or any row."""
        near = {word for row in chosen for word in row}
        rows = [row for row in self.rows if near & set(row)] if self.rng.random() < .8 else []
        return self.rng.choice(rows or self.rows)

    def abstracted(self, count):
        """Rows of the wood, with some of their terms put into variables."""
        chosen = []
        for _ in range(count):
            chosen.append(self.row_like(chosen))
        shares = self.rng.choice([(.35, .35, .35), (.6, .6, .6), (.9, .1, .6), (.9, .1, .9)])
        numbers = iter(self.rng.sample(self.numbers, 16) if self.rng.random() < .4 else self.numbers)
        given = {}
        for row in chosen:
            for word, share in zip(row, shares):
                if word not in given:
                    free = next(numbers, None) if self.rng.random() < share else None
                    given[word] = word if free is None else variable(free)
        return [tuple(given[word] if self.rng.random() < .95 else word for word in row) for row in chosen]

    # Conditions.

    def comparison(self, variables):
        """Often a variable with a number or a text, so that kinds meet that cannot be compared."""
        def side():
            if variables and self.rng.random() < .6:
                return self.rng.choice(variables)
            if self.rng.random() < .6:
                return self.some_constant()
            return self.rng.choice([number, text])(term_value(self.rng.choice(self.terms)))
        return [plan_word(COMPARISON, self.rng.choice([EQUAL, UNEQUAL, *range(LAST_OPERATOR + 1)])), side(), side()]

    def condition(self, variables, deep):
        if deep == 0 or self.rng.random() < .3:
            return [plan_word(TRUE, 0)] if self.rng.random() < .12 else self.comparison(variables)
        if self.rng.random() < .35:
            return [plan_word(NOT, 0)] + self.condition(variables, deep - 1)
        kind = self.rng.choice([AND, OR, OR])
        return [plan_word(kind, 0)] + self.condition(variables, deep - 1) + self.condition(variables, deep - 1)

    def sized(self, variables, nodes, deep):
        """A condition of exactly so many nodes, at most so deep."""
        if nodes == 1:
            return self.comparison(variables) if self.rng.random() < .9 else [plan_word(TRUE, 0)]
        below = 2 ** (deep - 1) - 1
        if nodes == 2 or nodes - 1 <= below and self.rng.random() < .2:
            return [plan_word(NOT, 0)] + self.sized(variables, nodes - 1, deep - 1)
        left = self.rng.randint(max(1, nodes - 1 - below), min(nodes - 2, below))
        return [plan_word(self.rng.choice([AND, OR]), 0)] + self.sized(variables, left, deep - 1) \
            + self.sized(variables, nodes - 1 - left, deep - 1)

    def greatest_condition(self, variables):
        """31 nodes, or 8 deep."""
        if self.rng.random() < .5:
            return [plan_word(NOT, 0)] * 7 + self.comparison(variables)
        return self.sized(variables, MOST_NODES, MOST_DEPTH)

    def felled_condition(self, variables):
        """A condition that is true of no row."""
        same = self.rng.choice(variables) if variables else self.some_constant()
        never = [plan_word(COMPARISON, UNEQUAL), same, same]
        return self.rng.choice([never, [plan_word(AND, 0)] + self.condition(variables, 2) + never])

    def short_sided(self, variables):
        """A long tree joined by "and" to a lone comparison on the right; in some, under the tree's first word, once more."""
        rng, self.rng = self.rng, self.sides
        try:
            lone, nodes = self.comparison(variables), self.rng.choice([3, 9, 17, MOST_NODES - 2])
            if nodes > 3 and self.rng.random() < .4:
                left = [plan_word(AND, 0)] + self.sized(variables, nodes - 2, MOST_DEPTH - 2) + self.comparison(variables)
            else:
                left = self.sized(variables, nodes, MOST_DEPTH - 1)
            return [plan_word(AND, 0)] + left + lone
        finally:
            self.rng = rng

    def some_condition(self, variables):
        drawn = self.drawn_condition(variables)
        return self.short_sided(variables) if self.sides is not None and self.sides.random() < .15 else drawn

    def drawn_condition(self, variables):
        if self.felled:
            return self.felled_condition(variables)
        chance = self.rng.random()
        if chance < .3:
            return [plan_word(TRUE, 0)]
        return self.greatest_condition(variables) if chance < .33 else self.condition(variables, self.rng.randint(0, 4))

    # Endings.

    def rows_ending(self, variables):
        columns = self.rng.sample(variables, min(len(variables), self.rng.choice([1, 2, 2, 3, 4, 16])))
        return [plan_word(ROWS, len(columns))] + columns

    def top_ending(self, variables):
        rows = self.rows_ending(variables)
        keys = [plan_word(self.rng.choice([RISING, FALLING]), term_value(self.rng.choice(rows[1:])))
                for _ in range(self.rng.choice([1, 1, 2, 3, 4]))]
        return [plan_word(TOP, self.rng.choice([0, 1, 1, 2, 3, 5, 8, 64]))] + rows + keys

    def group_ending(self, variables):
        """The measured variable is mostly one that stands for objects."""
        keys = self.rng.sample(variables, min(len(variables), self.rng.choice([0, 0, 0, 1, 1, 2, 3, 4])))
        objects = [v for v in variables if v in self.objects]
        measured = self.rng.choice(objects if objects and self.rng.random() < .8 else variables)
        return [plan_word(GROUP, len(keys))] + keys + [measured]

    def registers_ending(self, variables):
        return [plan_word(REGISTERS, 0), self.sides.choice(variables)]

    def branch(self):
        count = self.rng.choice([1, 1, 2, 2, 2, 3, 3, 4, 5, 6, 7, 8])
        real = self.rows and self.rng.random() < .8
        patterns = self.abstracted(count) if real else self.some_patterns(count)
        variables = sorted({word for pattern in patterns for word in pattern if is_variable(word)})
        self.objects.update(pattern[2] for pattern in patterns)
        return [plan_word(BRANCH, count)] + [w for p in patterns for w in p] + self.some_condition(variables), variables

    def year_word(self):
        """The word before the head: none, every year, a year that rows have, or another."""
        there = self.years or [2026]
        return self.rng.choice([[], [], [0], [0], [0], [self.rng.choice(there)], [self.rng.choice(YEARS + [y + 1 for y in there if y < MOST_YEAR])]])

    def plan(self):
        """A plan's words, or None where this one did not come out well."""
        branches = [self.branch() for _ in range(self.rng.choice([1, 1, 1, 1, 2, 2, 3, 4]))]
        if len(branches) > 1 and self.rng.random() < .2:
            branches[-1] = branches[0]
        variables = sorted({v for _, bound in branches for v in bound})
        if not variables:
            return None
        ending = self.rng.choice([self.rows_ending, self.top_ending, self.group_ending])(variables)
        if self.sides is not None and self.sides.random() < .2:
            ending = self.registers_ending(variables)
        words = self.year_word() + [plan_word(HEAD, len(branches))] + [w for branch, _ in branches for w in branch] + ending
        return tuple(words) if len(words) <= MOST_PLAN_WORDS else None


def plan(rng, tables, evaluation, sides=None):
    """A plan's words whose uncut run the evaluation finds short enough."""
    while True:
        words = Draft(rng, rows_of(tables), sides).plan()
        try:
            if words is not None and evaluation.walk(tables, words):
                return words
        except TooLong:
            pass
