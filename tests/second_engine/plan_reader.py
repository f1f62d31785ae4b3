"""Plans read from their words: tests 5, 6 and 23 of the rules (docs/RULES.md, 10)."""
from collections import namedtuple
from functools import lru_cache

from words import (AND, BRANCH, COMPARISON, FALLING, GROUP, HEAD, LAST_OPERATOR, NOT, OR, REGISTERS, RISING, ROWS, TOP, TRUE, YEAR, is_variable,
                   kind, low, term_value)

MOST_PLAN_WORDS = 256
MOST_NODES, MOST_DEPTH = 31, 8
MOST_VARIABLES = 16

Branch = namedtuple('Branch', 'patterns condition')
Plan = namedtuple('Plan', 'branches kind columns k keys group measured year')     # year: None for the latest, 0 for every one
Node = namedtuple('Node', 'kind operator parts')            # a condition: parts are conditions, or two terms


class Wrong(Exception):
    """Test 5 on a plan."""


class Reader:
    """A plan's words, read from the first on."""

    def __init__(self, words):
        self.words, self.at = words, 0

    def next(self):
        if self.at == len(self.words):
            raise Wrong
        self.at += 1
        return self.words[self.at - 1]

    def part(self, wanted, least, most):
        word = self.next()
        if kind(word) != wanted or not least <= low(word) <= most:
            raise Wrong
        return low(word)

    def terms(self, count):
        return tuple(self.next() for _ in range(count))

    def variables(self, count):
        words = self.terms(count)
        if not all(map(is_variable, words)):
            raise Wrong
        return tuple(map(term_value, words))

    def plan(self):
        if not 1 <= len(self.words) <= MOST_PLAN_WORDS:
            raise Wrong
        self.year = self.year_word()
        branches = tuple(self.branch() for _ in range(self.part(HEAD, 1, 4)))
        plan = self.ending(branches)
        if self.at != len(self.words):
            raise Wrong
        return plan

    def year_word(self):
        """The number of a year's word, if the plan opens with one."""
        return low(self.next()) if kind(self.words[0]) == YEAR else None

    def branch(self):
        patterns = tuple(self.terms(3) for _ in range(self.part(BRANCH, 1, 8)))
        condition = self.condition()
        if nodes(condition) > MOST_NODES or depth(condition) > MOST_DEPTH:
            raise Wrong
        return Branch(patterns, condition)

    def condition(self):
        word = self.next()
        if kind(word) == COMPARISON and low(word) <= LAST_OPERATOR:
            return Node(COMPARISON, low(word), self.terms(2))
        parts = {TRUE: 0, NOT: 1, AND: 2, OR: 2}.get(kind(word))
        if parts is None or low(word) != 0:
            raise Wrong
        return Node(kind(word), None, tuple(self.condition() for _ in range(parts)))

    def ending(self, branches):
        word = self.next()
        self.at -= 1
        if kind(word) == ROWS:
            return Plan(branches, ROWS, self.row(), None, None, None, None, self.year)
        if kind(word) == TOP:
            k = self.part(TOP, 0, 64)
            return Plan(branches, TOP, self.row(), k, self.sort_keys(), None, None, self.year)
        if kind(word) == REGISTERS:
            self.part(REGISTERS, 0, 0)
            return Plan(branches, REGISTERS, self.variables(1), None, None, None, None, self.year)
        group = self.variables(self.part(GROUP, 0, 4))
        measured, = self.variables(1)
        return Plan(branches, GROUP, group + (measured,), None, None, group, measured, self.year)

    def row(self):
        return self.variables(self.part(ROWS, 1, 16))

    def sort_keys(self):
        """All the words left, 1 to 4: pairs of falling or not, and the variable."""
        words = self.words[self.at:]
        if not 1 <= len(words) <= 4 or any(kind(w) not in (RISING, FALLING) for w in words):
            raise Wrong
        self.at = len(self.words)
        return tuple((kind(w) == FALLING, low(w)) for w in words)


class Marked(Reader):
    """A reader that notes where the plan's own words stand, those that are no terms, and where its conditions lie."""

    def __init__(self, words):
        super().__init__(words)
        self.own, self.conditions = [], []
        self.plan()

    def year_word(self):
        self.own += [0] if kind(self.words[0]) == YEAR else []
        return super().year_word()

    def part(self, wanted, least, most):
        self.own.append(self.at)
        return super().part(wanted, least, most)

    def condition(self):
        start = self.at
        self.own.append(start)
        node = super().condition()
        self.conditions.append((start, self.at))
        return node

    def sort_keys(self):
        self.own += range(self.at, len(self.words))
        return super().sort_keys()


def nodes(condition):
    return 1 + sum(nodes(part) for part in condition_parts(condition))


def depth(condition):
    return 1 + max((depth(part) for part in condition_parts(condition)), default=0)


def condition_parts(condition):
    return () if condition.kind == COMPARISON else condition.parts


@lru_cache(maxsize=256)
def read_plan(words):
    """The plan, or None where test 5 refuses it."""
    try:
        return Reader(words).plan()
    except (Wrong, RecursionError):
        return None


# Plans: variables, test 6.

def variables_in(terms):
    return {term_value(word) for word in terms if is_variable(word)}


def pattern_variables(branch):
    return variables_in(word for pattern in branch.patterns for word in pattern)


def condition_variables(condition):
    if condition.kind == COMPARISON:
        return variables_in(condition.parts)
    return set().union(*map(condition_variables, condition.parts))


def variables_right(plan):
    bound = set().union(*map(pattern_variables, plan.branches))
    used = set(plan.columns) | {v for _, v in plan.keys or ()}
    chosen = plan.group if plan.kind == GROUP else plan.columns
    return (all(v < MOST_VARIABLES for v in bound | used)
            and all(condition_variables(b.condition) <= pattern_variables(b) for b in plan.branches)
            and set(plan.columns) <= bound
            and all(v in plan.columns for _, v in plan.keys or ())
            and len(set(chosen)) == len(chosen))


@lru_cache(maxsize=256)
def named_right(words):
    return variables_right(read_plan(words))


def width(plan):
    """Words of a delivered row, of a group's record, or of all registers."""
    if plan.kind == REGISTERS:
        return 16
    return len(plan.group) + 8 if plan.kind == GROUP else len(plan.columns)
