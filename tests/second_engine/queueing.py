"""What joining, serving and topping up a queue answer, and both lists and the output at exit: an evaluation of the rules (docs/RULES.md) in Python.

It is written from the rules' text alone. The front entry's turn is one of evaluation.py. What the rules say is a method, so that a
misreading is a subclass with one other method (queueing_misreadings.py).
"""
from collections import namedtuple

from evaluation import DONE, MOST_QUANTUM, REFUSED, first_failing
from plan_reader import read_plan

MOST_ENTRIES = 32
PLAN_ROOM, STATE_ROOM = 256, 11

Entry = namedtuple('Entry', 'allowance owner plan_words state_words plan state')
Queued = namedtuple('Queued', 'refused line_entries aside_entries')
Service = namedtuple('Service', 'ending refused steps owner left state_words list_words line_entries aside_entries')

# The calls: a list is a buffer of entries and how many of them are given.
Join = namedtuple('Join', 'tables survey line waiting aside resting owner allowance plan state')
Serve = namedtuple('Serve', 'tables survey line waiting aside resting quantum threshold output')
Top_up = namedtuple('Top_up', 'line waiting aside resting owner amount')


def padded(words, room):
    """An array of an entry: the words, and zeros."""
    return tuple(words) + (0,) * (room - len(words))


def over(entries, buffer):
    """A buffer after a call: a list over its front, then what it held past it."""
    return tuple(entries) + tuple(buffer[len(entries):])


class Queueing:
    """The calls. They give their answer, and what they write as it is at exit."""

    def __init__(self, calls):
        self.calls = calls          # the evaluation of opening, turns and merging

    def plan_in(self, entry):
        """The words of an entry's plan; a count past its array is no plan."""
        return entry.plan[:entry.plan_words] if entry.plan_words <= len(entry.plan) else ()

    # Tests 17 and 18.

    def owners_right(self, line, aside, joining):
        owners = [entry.owner for entry in (*line, *aside)] + list(joining)
        return len(set(owners)) == len(owners)

    def steps_right(self, line, aside):
        return all(entry.allowance > 0 for entry in line) and all(entry.allowance == 0 for entry in aside)

    def entries_right(self, call, joining=()):
        line, aside = call.line[:call.waiting], call.aside[:call.resting]
        return self.owners_right(line, aside, joining) and self.steps_right(line, aside)

    def room_right(self, call, more):
        return min(len(call.line), len(call.aside)) >= MOST_ENTRIES and call.waiting + call.resting + more <= MOST_ENTRIES

    # Joining.

    def query_tests(self, call):
        """Tests 5, 6, 9, 22 and 10 of the plan and state that join."""
        plan = read_plan(call.plan)
        return self.calls.plan_tests(call.plan, plan) + self.calls.state_tests(call.tables, call.survey, call.plan, plan, call.state)

    def join_tests(self, call):
        return [(17, lambda: self.entries_right(call, (call.owner,))), (18, lambda: self.room_right(call, 1))]

    def joined(self, call):
        return Entry(call.allowance, call.owner, len(call.plan), len(call.state), padded(call.plan, PLAN_ROOM), padded(call.state, STATE_ROOM))

    def join(self, *call):
        call = Join(*call)
        refused = self.calls.tables_refused(call.tables) or first_failing(self.query_tests(call) + self.join_tests(call))
        if refused:
            return Queued(refused, 0, 0), call.line, call.aside
        line, aside = list(call.line[:call.waiting]), list(call.aside[:call.resting])
        (line if call.allowance else aside).append(self.joined(call))
        return Queued(0, len(line), len(aside)), over(line, call.line), over(aside, call.aside)

    # Serving.

    def turn(self, call, entry, quantum):
        return self.calls.turn(call.tables, call.survey, self.plan_in(entry), entry.state, entry.state_words, quantum, call.threshold, call.output)

    def front_refused(self, call, line):
        """The first of tests 1 to 11, 22 and 23 that fails on the front entry and the call; of an empty line, of 1 to 4, 23, 8 and 22."""
        if line:
            return self.turn(call, line[0], call.quantum)[0].refused
        return self.calls.tables_refused(call.tables) or first_failing(
            [(8, lambda: 1 <= call.quantum <= MOST_QUANTUM), (22, lambda: self.calls.number_right(call.survey))])

    def serve_tests(self, call, line):
        return [(17, lambda: self.entries_right(call)), (18, lambda: self.room_right(call, 0)), (19, lambda: bool(line))]

    def steps(self, call, entry):
        """The most steps of the turn."""
        return min(call.quantum, entry.allowance)

    def left(self, entry, turned):
        return entry.allowance - turned.steps

    def after(self, entry, turned, state):
        """The entry after its turn."""
        return entry._replace(allowance=self.left(entry, turned), state_words=turned.state_words, state=state)

    def goes(self, line, aside, entry, turned):
        """Where the entry goes, which was taken from the front of the line."""
        if turned.ending != DONE:
            (line if entry.allowance else aside).append(entry)

    def refused_service(self, call, number):
        return Service(REFUSED, number, 0, 0, 0, 0, 0, 0, 0), call.line, call.aside, call.output

    def serve(self, *call):
        call = Serve(*call)
        line, aside = list(call.line[:call.waiting]), list(call.aside[:call.resting])
        refused = self.front_refused(call, line) or first_failing(self.serve_tests(call, line))
        if refused:
            return self.refused_service(call, refused)
        front = line.pop(0)
        turned, state, output = self.turn(call, front, self.steps(call, front))
        self.goes(line, aside, self.after(front, turned, state), turned)
        return (self.service(front, turned, line, aside), over(line, call.line), over(aside, call.aside), output)

    def service(self, front, turned, line, aside):
        return Service(turned.ending, 0, turned.steps, front.owner, self.left(front, turned), turned.state_words, turned.list_words,
                       len(line), len(aside))

    # Topping up.

    def top_up_tests(self, call):
        known = lambda: call.amount > 0 and call.owner in [entry.owner for entry in call.aside[:call.resting]]
        return [(17, lambda: self.entries_right(call) and known()), (18, lambda: self.room_right(call, 0))]

    def comes_back(self, line, entry):
        line.append(entry)

    def top_up(self, *call):
        call = Top_up(*call)
        refused = first_failing(self.top_up_tests(call))
        if refused:
            return Queued(refused, 0, 0), call.line, call.aside
        line, aside = list(call.line[:call.waiting]), list(call.aside[:call.resting])
        entry = next(entry for entry in aside if entry.owner == call.owner)
        aside.remove(entry)
        self.comes_back(line, entry._replace(allowance=call.amount))
        return Queued(0, len(line), len(aside)), over(line, call.line), over(aside, call.aside)
