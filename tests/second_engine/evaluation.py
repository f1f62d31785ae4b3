"""What opening, a turn and merging answer, and every buffer at exit: an evaluation of the rules in Python.

It is written from the rules' text alone and shares no definition with the engine. The uncut run is worked out whole
(running.py), and a turn is a part of it; a state is accepted when it is among the run's. What the rules say is a method, so
that a misreading is a subclass with one other method (misreadings.py).
"""
from collections import namedtuple

from inputs import (ascend, delivered_term, kinds_right, lengths_right, order_right, osp_key, pos_key, rows_of, state_of,
                    state_right, state_words, survey_of, years_right)
from lists import Lists
from plan_reader import named_right, read_plan, width
from running import Running, remember
from words import GROUP, MOST_YEAR, REGISTERS, ROWS, SURVEYS, TOP, UNBOUND, variable as variable_word

LEAST_STATE_WORDS = 11
MOST_QUANTUM = 1000000
DONE, SPENT, FULL, REFUSED = range(4)

Written = namedtuple('Written', 'refused words')
Turned = namedtuple('Turned', 'ending refused steps state_words list_words')


def written(buffer, words):
    """A buffer after a call: the written words, then what it held past them."""
    return tuple(words) + tuple(buffer[len(words):])


def first_failing(tests):
    """The number of the first test that fails, or 0."""
    return next((number for number, passes in tests if not passes()), 0)


class Evaluation(Running, Lists):
    """The three calls of a query. A buffer is a tuple of words; a call gives its answer and its written buffers as they are at exit."""

    def __init__(self, most_steps=None):
        super().__init__(most_steps)
        self.checked = {}

    # Tests that a call makes.

    def table_tests(self, tables):
        rows = lambda: rows_of(tables)
        return [(1, lambda: lengths_right(tables)), (2, lambda: kinds_right(tables)), (23, lambda: years_right(tables)),
                (3, lambda: self.rows_ascend(rows())),
                (4, lambda: order_right(rows(), tables.pos, pos_key) and order_right(rows(), tables.osp, osp_key))]

    def rows_ascend(self, rows):
        return ascend(rows)

    def plan_tests(self, words, plan):
        return [(5, lambda: plan is not None), (6, lambda: named_right(words)), (23, lambda: (plan.year or 0) <= MOST_YEAR)]

    def least_output(self, plan):
        return width(plan) * (self.best_count(plan) if plan.kind == TOP else 1)

    def threshold_right(self, plan, threshold):
        return not threshold or plan.kind == TOP and len(threshold) == width(plan) and all(map(delivered_term, threshold))

    def tables_refused(self, tables):
        if tables not in self.checked:
            remember(self.checked, tables, first_failing(self.table_tests(tables)))
        return self.checked[tables]

    def accepts(self, tables, words, state):
        """Test 10: the uncut run passes through the state."""
        return state in self.walk(tables, words).number

    def year_read(self, tables, plan, state):
        """That a state's year is one that is being read."""
        return state_of(state)[0] in self.years(rows_of(tables), plan)

    # Surveys: test 22.

    def number_right(self, survey):
        return survey < SURVEYS

    def survey_right(self, survey, state):
        """That a state's words are of the survey of this number."""
        return self.number_right(survey) and survey_of(state) == survey

    def state_tests(self, tables, survey, words, plan, state):
        """Tests 9, 22 and 10 of a state's words; none stand for words that are not there."""
        return [(9, lambda: state is not None and state_right(plan, state) and self.year_read(tables, plan, state)),
                (22, lambda: self.survey_right(survey, state)),
                (10, lambda: self.accepts(tables, words, state_of(state)))]

    def room_right(self, state):
        return len(state) >= LEAST_STATE_WORDS

    def save(self, survey, state):
        return state_words(survey, state)

    # The calls.

    def open(self, tables, survey, words, state):
        plan = read_plan(words)
        refused = self.tables_refused(tables) or first_failing(
            self.plan_tests(words, plan) + [(7, lambda: self.room_right(state)), (22, lambda: self.number_right(survey))])
        if refused:
            return Written(refused, 0), state
        start = self.save(survey, self.walk(tables, words).states[0])
        return Written(0, len(start)), written(state, start)

    def turn(self, tables, survey, words, state, given, quantum, threshold, output):
        plan, saved = read_plan(words), state[:given] if given <= len(state) else None
        refused = self.tables_refused(tables) or first_failing(self.plan_tests(words, plan) + [
            (7, lambda: len(output) >= self.least_output(plan) and self.room_right(state)),
            (8, lambda: 1 <= quantum <= MOST_QUANTUM)] + self.state_tests(tables, survey, words, plan, saved) + [
            (11, lambda: self.threshold_right(plan, threshold))])
        if refused:
            return Turned(REFUSED, refused, 0, 0, 0), state, output
        walk, delivered = self.walk(tables, words), self.deliveries(tables, words)
        start = walk.number[state_of(state[:given])]
        if threshold:
            way, end = self.pruned_way(plan, walk, start, quantum, threshold)
            ending = SPENT if end < len(walk.states) else DONE
        else:
            ending, end = self.end_of_turn(plan, delivered, start, quantum, len(output) // width(plan))
            way = range(start, end)
        rows = [delivered[at] for at in way if delivered[at] is not None]
        made = self.list_words(plan, rows, threshold, ending == DONE, delivered[:start])
        left = [] if ending == DONE else self.save(survey, walk.states[self.saved(end)])
        return Turned(ending, 0, self.steps(way, end, ending), len(left), len(made)), written(state, left), written(output, made)

    def steps(self, way, end, ending):
        """The steps of a turn, by the states that they are made from."""
        return len(way)

    # Pruning: with a threshold, which is that of a best-of query, and so never full.

    def pruned_way(self, plan, walk, start, quantum, threshold):
        """The numbers of the states that a turn's steps are made from, and of the one that it ends at."""
        way, at = [], start
        while at < len(walk.states) and len(way) < quantum:
            way.append(at)
            at = self.place_on(walk, at) if self.pruned(plan, walk, at, threshold) else at + 1
        return way, at

    def place_on(self, walk, at):
        """The number of the state with its last place moved on by one."""
        year, branch, places = walk.states[at]
        return walk.number[year, branch, places[:-1] + (places[-1] + 1,)]

    def pruned(self, plan, walk, at, threshold):
        """Whether a step that would open a level moves on instead."""
        return at in walk.opened and self.left_out(plan, plan.branches[walk.states[at][1]], walk.opened[at], threshold)

    def known(self, branch, bound, variable):
        """Whether a key's variable has its value: a pattern matched so far has it, or none of the branch."""
        return variable in bound or all(word != variable_word(variable) for pattern in branch.patterns for word in pattern)

    def left_out(self, plan, branch, bound, threshold):
        """Whether the known keys, from the first on, put a match after the threshold, or all are known and equal."""
        for falling, variable in plan.keys:
            if not self.known(branch, bound, variable):
                return False
            own = self.compared_by(falling, bound.get(variable, UNBOUND))
            limit = self.compared_by(falling, threshold[plan.columns.index(variable)])
            if own != limit:
                return own > limit
        return self.equal_left_out()

    def compared_by(self, falling, word):
        return self.rank(falling, word)

    def equal_left_out(self):
        return True

    def saved(self, end):
        return end

    def end_of_turn(self, plan, delivered, start, quantum, space):
        """The turn's ending, and the number of the state it ends at."""
        held = set()
        for at in range(start, len(delivered)):
            wanted = self.wanted(plan, at, delivered[at])
            if at - start == quantum:
                return SPENT, at
            if at > start and wanted is not None and self.lacks_space(wanted, held, space):
                return FULL, at
            if wanted is not None:
                held.add(wanted)
        return DONE, len(delivered)

    def wanted(self, plan, at, row):
        """What a step needs space for: its row, or its row's group; a best-of list is never full, nor are registers."""
        if row is None or plan.kind in (TOP, REGISTERS):
            return None
        return at if plan.kind == ROWS else row[:-1]

    def lacks_space(self, wanted, held, space):
        return wanted not in held and len(held) >= space

    def merge(self, words, kept, given, made):
        plan = read_plan(words)
        refused = first_failing(self.plan_tests(words, plan) + [
            (12, lambda: given <= len(kept) and self.kept_right(plan, kept[:given]) and self.list_right(plan, made)),
            (13, lambda: plan.kind != GROUP or self.totals_fit(plan, kept[:given], made)),
            (14, lambda: len(self.merged(plan, kept[:given], made)) <= len(kept))])
        if refused:
            return Written(refused, 0), kept
        result = self.merged(plan, kept[:given], made)
        return Written(0, len(result)), written(kept, result)
