"""Calls of opening, turns and merging for a wood and a plan: cuts, turns from any state, wild lists, and damaged input."""
from collections import namedtuple

from evaluation import DONE, LEAST_STATE_WORDS, MOST_QUANTUM
from inputs import COLUMNS, state_words
from plan_reader import Marked, read_plan, width
from plans import Draft
from running import TooLong
from registers import MOST_RANK, REGISTERS_COUNT, REPORT_WORDS
from words import (FALLING, GROUP, MOST_VALUE, MOST_WORD, MOST_YEAR, NOT, NUMBERS, PLACE, REGISTERS, RISING, ROWS, STATE, SURVEY, SURVEYS, TOP, UNBOUND, YEAR,
                   is_variable, kind, low, name, number, plan_word, term, two_words, variable)

Open = namedtuple('Open', 'tables survey words state')
Turn = namedtuple('Turn', 'tables survey words state given quantum threshold output')
Merge = namedtuple('Merge', 'words kept given made')
Report = namedtuple('Report', 'kept given report')


def some_survey(rng):
    """The number of a survey."""
    return rng.choice([0, 1, 7, rng.randrange(SURVEYS), rng.randrange(SURVEYS), SURVEYS - 1])


class CutDiffers(Exception):
    """A cut that does not add up to the uncut run."""


def made_by(evaluation, call):
    """The answer of a call, and the buffers it may write, as they are at exit."""
    return getattr(evaluation, type(call).__name__.lower())(*call)


class Script:
    """The calls made for one plan over one survey, each with its right answer and buffers."""

    def __init__(self, rng, right, tables, survey, words):
        self.rng, self.right, self.tables, self.survey, self.words = rng, right, tables, survey, words
        self.plan = read_plan(words)
        self.states = right.walk(tables, words).states
        self.delivered = right.deliveries(tables, words)
        self.rows = [row for row in self.delivered if row is not None]
        self.calls = []

    def make(self, call):
        result = made_by(self.right, call)
        self.calls.append((call, result))
        return result

    def filler(self, length):
        return tuple(self.rng.getrandbits(32) for _ in range(length))

    def spare(self):
        return self.rng.choice([0, 0, 1, 2, 5])

    # Cuts.

    def output(self, share):
        """An output with space for a share of the rows or groups, and at least for what test 7 asks."""
        every = len(self.right.groups(self.rows)) if self.plan.kind == GROUP else len(self.rows)
        needed = self.right.least_output(self.plan)
        return self.filler(max(needed, needed if self.plan.kind == TOP else int(every * share) * width(self.plan)) + self.spare())

    def cut(self, quantum, share, with_threshold):
        """A query from its opening to its end, each list taken as it comes."""
        answer, state = self.make(Open(self.tables, self.survey, self.words, self.filler(LEAST_STATE_WORDS + self.spare())))
        whole = tuple(self.right.list_words(self.plan, self.rows, (), True))
        kept, held, given, threshold, steps, joined = self.filler(len(whole) + self.spare()), 0, answer.words, (), 0, ()
        sent = False
        while True:
            answer, state, output = self.make(Turn(self.tables, self.survey, self.words, state, given, quantum(), threshold,
                                                   self.output(share)))
            made, given, steps, sent = output[:answer.list_words], answer.state_words, steps + answer.steps, sent or threshold != ()
            if self.plan.kind == ROWS:
                joined += made
            else:
                merged, kept = self.make(Merge(self.words, kept, held, made))
                held = merged.words
            if with_threshold and self.plan.kind == TOP and held == width(self.plan) * self.right.best_count(self.plan):
                threshold = kept[held - width(self.plan):held]
            if answer.ending == DONE or answer.refused:
                break
        right = steps <= len(self.states) if sent else steps == len(self.states)
        if answer.refused or not right or (joined if self.plan.kind == ROWS else kept[:held]) != whole:
            raise CutDiffers

    def cuts(self):
        steps = len(self.states)
        even, most = max(1, -(-steps // self.rng.randint(1, 7))), max(2, steps // 2)
        self.cut(lambda: even, 1, True)
        self.cut(lambda: self.rng.randint(1, most), self.rng.choice([.1, .2, .4]), self.rng.random() < .5)
        if steps <= 20:
            self.cut(lambda: 1, 0, False)

    # Turns from any state, and lists that no run made.

    def some_term(self):
        terms = self.tables.rows or (number(1),)
        return self.rng.choice([UNBOUND, self.rng.choice(terms), self.rng.choice(terms),
                                term(self.rng.randrange(3), self.rng.randrange(3))])

    def some_threshold(self):
        if self.plan.kind != TOP or self.rng.random() < .3:
            return ()
        row = list(self.rng.choice(self.rows)) if self.rows else [self.some_term() for _ in self.plan.columns]
        if self.rng.random() < .5:
            row[self.rng.randrange(len(row))] = self.some_term()
        return tuple(row)

    def turn(self):
        words = state_words(self.survey, self.rng.choice(self.states))
        quantum = self.rng.choice([1, 2, self.rng.randint(1, len(self.states)), len(self.states), MOST_QUANTUM])
        return Turn(self.tables, self.survey, self.words, tuple(words) + self.filler(LEAST_STATE_WORDS + self.spare() - len(words)),
                    len(words), quantum, self.some_threshold(), self.output(self.rng.choice([0, .3, .6, 1])))

    def some_totals(self, keys):
        """Totals of one row or many; of none often where there are no keys, and else now and then, to be refused."""
        if self.rng.random() < (.05 if keys else .35):
            return two_words(0) + [0, 0, 0, 0, UNBOUND, UNBOUND]
        count = self.rng.choice([1, 2, 3, MOST_WORD, 1 << 32, 1 << 62, 1 << 63, (1 << 64) - 2])
        numbers = self.rng.choice([0, count, self.rng.randint(0, count)])
        if numbers == 0:
            return two_words(count) + [0, 0, 0, 0, UNBOUND, UNBOUND]
        bounds = sorted((number(self.rng.choice([0, 1, 45, -1, -5, NUMBERS - 1, -NUMBERS])) for _ in range(2)), key=self.right.value)
        total = self.rng.choice([0, 45, -1, -5, MOST_WORD, MOST_WORD - 1, 1 << 32, -1 << 32, -1 << 62, (1 << 63) - 1, (1 << 63) - 2, -1 << 63, 1 - (1 << 63)])
        return two_words(count) + two_words(numbers) + two_words(total) + bounds

    def wild_list(self, pool):
        """A list in order, of rows or records that no run need have made, or registers of any values."""
        if self.plan.kind == REGISTERS:
            return self.wild_registers()
        if self.plan.kind == GROUP:
            keys = {key for key in pool if self.rng.random() < .7}
            return tuple(w for key in sorted(keys, key=self.right.group_key) for w in [*key, *self.some_totals(key)])
        rows = [self.rng.choice(pool) for _ in range(self.rng.randint(0, min(self.right.best_count(self.plan), 12)))]
        return tuple(w for row in sorted(rows, key=lambda row: self.right.sort_key(self.plan, row)) for w in row)

    def wild_registers(self):
        if self.rng.random() < .4:
            return tuple(self.right.registers(self.some_term() for _ in range(self.rng.choice([0, 1, 3, 20]))))
        most = self.rng.choice([1, 4, MOST_RANK])
        return tuple(self.rng.randint(0, most) for _ in range(REGISTERS_COUNT))

    def wild_report(self):
        kept = self.wild_registers() if self.rng.random() < .8 else ()
        return Report(kept + self.filler(self.spare()), len(kept), self.filler(REPORT_WORDS + self.spare()))

    def wild_merge(self):
        fields = len(self.plan.group) if self.plan.kind == GROUP else len(self.plan.columns)
        pool = [tuple(self.some_term() for _ in range(fields)) for _ in range(4)] if self.plan.kind != ROWS else []
        kept, made = (self.wild_list(pool) if pool else () for _ in range(2))
        if self.plan.kind == REGISTERS and self.rng.random() < .3:
            kept = ()                   # nothing is merged yet
        return Merge(self.words, kept + self.filler(self.rng.choice([0, 1, len(made), len(made) + 3])), len(kept), made)

    # Damage.

    def nudged(self, words, word):
        """The words with one of them changed, left out or doubled, two exchanged, or one more."""
        words, at = list(words), self.rng.randrange(len(words)) if words else 0
        way = self.rng.randrange(6)
        if not words or way == 0:
            words.insert(at, word)
        elif way == 1:
            del words[at]
        elif way == 2:
            words.append(words[at])
        elif way == 3:
            other = self.rng.randrange(len(words))
            words[at], words[other] = words[other], words[at]
        elif way == 4:
            words[at] ^= 1 << self.rng.randrange(32)
        else:
            words[at] = word
        return tuple(words)

    def some_word(self):
        """A word that may stand in a plan, though perhaps nowhere."""
        return self.rng.choice([variable(self.rng.choice([0, 1, 3, 15, 16, 17, MOST_VALUE])),
                                plan_word(self.rng.randrange(16), self.rng.choice([0, 1, 2, 5, 6, 64, 65])),
                                plan_word(self.rng.choice([RISING, FALLING]), self.rng.choice([0, 3, 16, 0xfffffff])),
                                self.some_term()])

    def other_end(self, words):
        """The plan with its last words left out, or some more."""
        count = self.rng.choice([1, 1, 2, 3, len(words), self.rng.randrange(len(words) + 1)])
        more = (self.some_word(),) * self.rng.choice([1, 250])
        return self.rng.choice([words[:len(words) - count], words + words[-count:], words + more])

    def other_count(self, words):
        """One of the plan's own words with another kind or other low bits, mostly beside a limit."""
        own = Marked(words).own
        at = self.rng.choice(self.rng.choice([own, own[-4:]]))
        count = self.rng.choice([0, low(words[at]) + 1, max(0, low(words[at]) - 1), 5, 9, 17, 65, 0xfffffff])
        word = plan_word(kind(words[at]), count) if self.rng.random() < .7 else plan_word(self.rng.randrange(16), low(words[at]))
        return words[:at] + (word,) + words[at + 1:]

    def other_variable(self, words):
        """One variable in the place of another, in a pattern, a condition or the ending."""
        own = set(Marked(words).own)
        at = self.rng.choice([i for i, word in enumerate(words) if is_variable(word) and i not in own])
        return words[:at] + (variable(self.rng.choice([*range(18), MOST_VALUE])),) + words[at + 1:]

    def other_condition(self, words):
        """A condition of about as many nodes as there may be, or about as deep."""
        draft, (start, end) = Draft(self.rng, []), self.rng.choice(Marked(words).conditions)
        grown = draft.sized([], self.rng.randint(28, 33), 8) if self.rng.random() < .5 else \
            [plan_word(NOT, 0)] * self.rng.randint(1, 8) + list(words[start:end])
        return words[:start] + tuple(grown) + words[end:]

    def other_year(self, words):
        """The plan with another word of a year before its head, mostly beside a limit; now and then with another variable too."""
        year = self.rng.choice([0, 1, 2026, MOST_YEAR, MOST_YEAR + 1, MOST_YEAR + 1, 0xfffffff])
        words = (plan_word(YEAR, year), *(words[1:] if kind(words[0]) == YEAR else words))
        return self.other_variable(words) if read_plan(words) and self.rng.random() < .3 else words

    def plan_damage(self, call):
        if read_plan(call.words) is None:
            return call
        way = self.rng.choice([self.other_end, self.other_count, self.other_variable, self.other_condition, self.other_year,
                               lambda words: self.nudged(words, self.some_word())])
        return call._replace(words=way(call.words))

    def table_damage(self, call):
        tables, count = call.tables, len(call.tables.pos)
        way, held = self.rng.randrange(6), min(count, len(tables.rows) // COLUMNS)
        if way == 5 and held:
            at, rows = COLUMNS * self.rng.randrange(held), list(tables.rows)
            rows[at] = self.rng.choice([number(0), number(MOST_YEAR + 1), number(-1), name(2026), number(MOST_YEAR), number(1)])
            return call._replace(tables=tables._replace(rows=tuple(rows)))
        if way == 0 and count > 1:
            at, rows = COLUMNS * self.rng.randrange(count - 1), list(tables.rows)
            rows[at:at + COLUMNS] = rows[at + COLUMNS:at + 2 * COLUMNS]
            return call._replace(tables=tables._replace(rows=tuple(rows)))
        if way == 1 and count > 1:
            at, rows = COLUMNS * self.rng.randrange(count - 1), list(tables.rows)
            rows[at:at + 2 * COLUMNS] = rows[at + COLUMNS:at + 2 * COLUMNS] + rows[at:at + COLUMNS]
            return call._replace(tables=tables._replace(rows=tuple(rows)))
        if way == 2:
            word = self.rng.choice([UNBOUND, number(3), self.some_term()])
            return call._replace(tables=tables._replace(rows=self.nudged(tables.rows, word)))
        field, row = self.rng.choice(['pos', 'osp']), self.rng.choice([0, count, count + 1, MOST_WORD])
        return call._replace(tables=tables._replace(**{field: self.nudged(getattr(tables, field), row)}))

    def state_damage(self, call):
        if isinstance(call, Open) or self.rng.random() < .2:
            return call._replace(state=call.state[:self.rng.choice([self.rng.randrange(LEAST_STATE_WORDS - 1), LEAST_STATE_WORDS - 1])])
        if self.rng.random() < .4:
            return call._replace(given=self.rng.choice([0, 1, max(0, call.given - 1), call.given + 1, len(call.state),
                                                        len(call.state) + 1]))
        if not 0 < call.given <= len(call.state):
            return call
        state, given, at = list(call.state), call.given, self.rng.randrange(call.given)
        way = self.rng.randrange(5)
        if way == 0:
            state[at] = plan_word(self.rng.choice([SURVEY, YEAR, STATE, PLACE, PLACE, 1]), self.rng.choice([0, 1, 2, 3, 16, 17, 18, 33, 64, 65, 2025, 2026]))
        elif way == 1:
            state[at] = (state[at] + self.rng.choice([-2, -1, 1, 1, 2])) & MOST_WORD
        elif way == 2 and given > 2:
            state[2] = (state[2] + 16 * self.rng.choice([1, 1, 2, 3, 4])) & MOST_WORD
        elif way == 3 and 2 < given < len(state):
            state[2], state[given] = (state[2] + 1) & MOST_WORD, plan_word(PLACE, self.rng.randrange(len(self.tables.pos) + 2))
            given += 1
        else:
            words = state_words(self.survey, self.rng.choice(self.states))
            state[at] = words[min(at, len(words) - 1)]
        return call._replace(state=tuple(state), given=given)

    def survey_damage(self, call):
        """Another number for the call, of 28 bits or more, or for its state, whose other words may be wrong too."""
        if isinstance(call, Turn) and self.rng.random() < .3:
            call = self.state_damage(call)
        other = self.rng.choice([some_survey(self.rng), call.survey ^ 1, call.survey ^ 1 << self.rng.randrange(28)])
        if isinstance(call, Open) or self.rng.random() < .4:
            return call._replace(survey=call.survey % SURVEYS + SURVEYS * self.rng.choice([1, 1, 2, 15]))
        if self.rng.random() < .4 or not call.state:
            return call._replace(survey=other)
        return call._replace(state=(plan_word(SURVEY, other % SURVEYS),) + call.state[1:])

    def turn_damage(self, call):
        way = self.rng.randrange(4)
        if way == 0:
            return call._replace(quantum=self.rng.choice([0, MOST_QUANTUM + 1, MOST_WORD]))
        if way == 1:
            return call._replace(output=call.output[:self.rng.choice([0, max(0, self.right.least_output(self.plan) - 1)])])
        if way == 2:
            return call._replace(threshold=self.nudged(call.threshold, self.rng.choice([variable(1), MOST_WORD, self.some_term()])))
        return self.state_damage(call)

    def overlong(self, words):
        """A best-of list with its last row again and again, to as many rows as there may be or to one more."""
        rows = self.right.best_count(self.plan) + self.rng.randrange(2) - len(words) // width(self.plan)
        return words + words[-width(self.plan):] * rows

    def list_damage(self, call):
        field = self.rng.choice(['kept', 'made'])
        way = self.rng.randrange(6)
        if way == 5 and self.plan.kind == TOP and field == 'made':
            return call._replace(made=self.overlong(call.made))
        if way == 5 and self.plan.kind == TOP:
            kept = self.overlong(call.kept[:call.given])
            return call._replace(kept=kept, given=len(kept))
        if way == 0:
            return call._replace(given=self.rng.choice([0, 1, max(0, call.given - 1), call.given + 1, len(call.kept) + 1]))
        if way == 1:
            return call._replace(made=call.made * self.rng.choice([0, 2, 2, 12] if self.plan.kind == REGISTERS else [2, 2, 12]))
        if way == 2:
            return call._replace(kept=call.kept[:call.given])
        word = self.rng.choice([0, 1, UNBOUND, UNBOUND + 1, MOST_WORD, number(5), number(-1), number(-NUMBERS), self.some_term()])
        if self.plan.kind == REGISTERS:
            word = self.rng.choice([0, MOST_RANK, MOST_RANK + 1, MOST_RANK + 1, word])
        words = getattr(call, field)
        if way == 3 and words and self.plan.kind in (GROUP, REGISTERS):
            at = self.rng.randrange(len(words))
            return call._replace(**{field: words[:at] + (word,) + words[at + 1:]})
        return call._replace(**{field: self.nudged(words, word)})

    def report_damage(self, call):
        way = self.rng.randrange(4)
        if way == 3:
            call = call._replace(kept=call.kept[:1], given=self.rng.choice([1, 2]))    # two tests fail
        if way in (0, 3):
            return call._replace(report=call.report[:self.rng.choice([0, REPORT_WORDS - 1, REPORT_WORDS - 1])])
        if way == 1:
            return call._replace(given=self.rng.choice([0, 1, max(0, call.given - 1), call.given + 1, len(call.kept) + 1]))
        return call._replace(kept=self.nudged(call.kept, self.rng.choice([0, MOST_RANK, MOST_RANK + 1])))

    def damaged(self, call):
        ways = {Open: [self.table_damage, self.plan_damage, self.state_damage, self.survey_damage],
                Turn: [self.table_damage, self.plan_damage, self.turn_damage, self.state_damage, self.survey_damage],
                Merge: [self.plan_damage, self.list_damage, self.list_damage, self.list_damage],
                Report: [self.report_damage]}[type(call)]
        for _ in range(self.rng.choice([1, 1, 1, 2])):
            call = self.rng.choice(ways)(call)
        return call

    def all(self, damages):
        self.cuts()
        for _ in range(3):
            self.make(self.turn())
        for _ in range(2):
            self.make(self.wild_merge())
        if self.plan.kind == REGISTERS:
            self.make(self.wild_report())
            self.make(self.damaged(self.wild_report()))
        for _ in range(damages):
            opening = Open(self.tables, self.survey, self.words, self.filler(LEAST_STATE_WORDS))
            call = self.rng.choice([self.turn, self.turn, self.wild_merge, lambda: opening])()
            try:
                self.make(self.damaged(call))
            except TooLong:
                pass
        return self.calls
