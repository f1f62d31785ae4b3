"""The plans of a wood as the queries of as many owners, in one queue served by the engine's calls: every owner's finished list.

An owner's lists are taken as a phone takes them, rows joined end to end and others merged by the engine, and a best-of query is now and then sent
a threshold. Allowances are small, so that owners are set aside and topped up; who has come to its end leaves.
"""
from evaluation import DONE, LEAST_STATE_WORDS
from inputs import in_parts
from plan_reader import read_plan, width
from queueing import MOST_ENTRIES, PLAN_ROOM, STATE_ROOM, Entry
from words import ROWS, SURVEYS, TOP

NOBODY = Entry(0, 0, 0, 0, (0,) * PLAN_ROOM, (0,) * STATE_ROOM)
OUTPUT_PARTS = [1, 1, 2, 5, 40]
QUANTA = [1, 3, 10, 40, 1000000]


class Line:
    """A queue of one wood, and what each owner has so far."""

    def __init__(self, rng, engine, right, tables, planned):
        self.rng, self.engine, self.right, self.survey = rng, engine, right, (tables, rng.randrange(SURVEYS))
        self.plans = {owner: words for owner, words in enumerate(planned)}
        self.line, self.aside = (NOBODY,) * MOST_ENTRIES, (NOBODY,) * MOST_ENTRIES
        self.waiting = self.resting = 0
        self.kept, self.finished = {owner: () for owner in self.plans}, {}

    def lists(self):
        return self.line, self.waiting, self.aside, self.resting

    def queued(self, answer, line, aside):
        if answer.refused:
            raise ValueError(f'a call of a queue is refused by {answer.refused}')
        self.line, self.aside, self.waiting, self.resting = line, aside, answer.line_entries, answer.aside_entries

    def join(self, owner):
        words = self.plans[owner]
        opened, state = self.engine.open(*self.survey, words, (0,) * LEAST_STATE_WORDS)
        self.queued(*self.engine.join(*self.survey, *self.lists(), owner, self.rng.choice([0, 1, 7, 1000]), words, state[:opened.words]))

    def take(self, owner, made):
        """A turn's list, taken into what the owner has."""
        words, kept = self.plans[owner], self.kept[owner]
        if read_plan(words).kind == ROWS:
            self.kept[owner] = kept + made
            return
        merged, buffer = self.engine.merge(words, kept + (0,) * len(made), len(kept), made)
        if merged.refused:
            raise ValueError(f'a merge is refused by {merged.refused}')
        self.kept[owner] = buffer[:merged.words]

    def threshold(self, owner):
        plan, kept = read_plan(self.plans[owner]), self.kept[owner]
        full = plan.kind == TOP and len(kept) == self.right.least_output(plan)
        return in_parts(plan, kept)[-1] if full and self.rng.random() < .6 else ()

    def serve(self):
        owner = self.line[0].owner
        plan = read_plan(self.plans[owner])
        output = (0,) * (self.right.least_output(plan) + width(plan) * self.rng.choice(OUTPUT_PARTS))
        answer, line, aside, output = self.engine.serve(*self.survey, *self.lists(), self.rng.choice(QUANTA), self.threshold(owner), output)
        self.queued(answer, line, aside)
        self.take(owner, output[:answer.list_words])
        if answer.ending == DONE:
            self.finished[owner] = self.kept[owner]

    def top_up(self):
        owner = self.aside[self.rng.randrange(self.resting)].owner
        self.queued(*self.engine.top_up(*self.lists(), owner, self.rng.choice([1, 10, 200, 1 << 40])))

    def play(self):
        """All owners, from joining to leaving; answers each one's finished list."""
        coming = list(self.plans)
        while coming or self.waiting or self.resting:
            if coming and self.rng.random() < .4:
                self.join(coming.pop())
            elif self.resting and (not self.waiting or self.rng.random() < .3):
                self.top_up()
            elif self.waiting:
                self.serve()
        return self.finished
