"""Random queues over a wood and calls of them, from a seed: good ones, and damaged ones.

The queries of a queue are random plans over one wood (plans.py), at any state of their runs. A damaged front entry or joining query is damaged
as a turn is (calls.py); the lists are damaged in their owners, steps, counts and lengths.
"""
import plans
from calls import Script, Turn, some_survey
from inputs import COLUMNS, state_words
from queueing import MOST_ENTRIES, PLAN_ROOM, STATE_ROOM, Entry, Join, Serve, Top_up, padded
from words import NUMBER, TEXT, VARIABLE, term, term_value

MOST_WIDE = (1 << 64) - 1
MOST_COUNT = (1 << 64) - 1


class Owners:
    """Calls over one wood. `right` is the evaluation of turns, with a limit on steps."""

    def __init__(self, rng, right, most_plans=4):
        self.rng, self.right, self.tables, self.survey = rng, right, plans.wood(rng), some_survey(rng)
        self.scripts = [Script(rng, right, self.tables, self.survey, plans.plan(rng, self.tables, right)) for _ in range(rng.randint(1, most_plans))]

    def filler(self, length):
        return tuple(self.rng.getrandbits(32) for _ in range(length))

    # Queues.

    def allowance(self, script):
        steps = len(script.states)
        return self.rng.choice([1, 2, self.rng.randint(1, steps), self.rng.randint(1, steps), steps, 1000000, 1 << 32, MOST_WIDE])

    def entry(self, owner, waits):
        script = self.rng.choice(self.scripts)
        state = tuple(state_words(self.survey, self.rng.choice(script.states)))
        plan, saved = padded(script.words, PLAN_ROOM), padded(state, STATE_ROOM)
        if self.rng.random() < .5:
            plan = script.words + self.filler(PLAN_ROOM - len(script.words))
            saved = state + self.filler(STATE_ROOM - len(state))
        return Entry(self.allowance(script) if waits else 0, owner, len(script.words), len(state), plan, saved)

    def nobodys(self):
        """What may stand behind a list."""
        return Entry(self.rng.choice([0, 1, MOST_WIDE]), self.rng.randrange(50), self.rng.choice([0, 14, 256, 257]), self.rng.choice([0, 2, 12]),
                     self.filler(1) * PLAN_ROOM, self.filler(1) * STATE_ROOM)

    def buffer(self, entries):
        room = MOST_ENTRIES + self.rng.choice([0, 0, 0, 1, 3])
        return tuple(entries) + tuple(self.nobodys() for _ in range(room - len(entries)))

    def lists(self, most=MOST_ENTRIES):
        """Line, its count, the list set aside, its count."""
        count = self.rng.choice([0, 1, 2, 2, 3, 3, 5, 9, most - 1, most])
        waiting = self.rng.choice([count, count, count // 2, self.rng.randint(0, count), 0])
        first = self.rng.choice([0, 0, 7, (1 << 32) - 50])
        owners = self.rng.sample(range(first, first + 50), count)
        return (self.buffer([self.entry(owner, True) for owner in owners[:waiting]]), waiting,
                self.buffer([self.entry(owner, False) for owner in owners[waiting:]]), count - waiting)

    def lent(self, lists):
        line, waiting, aside, resting = lists
        return line[:waiting] + aside[:resting]

    def newcomer(self, lists):
        known = {entry.owner for entry in self.lent(lists)}
        return self.rng.choice([owner for owner in range(60) if owner not in known])

    # Calls.

    def join(self):
        lists, script = self.lists(MOST_ENTRIES - 1), self.rng.choice(self.scripts)
        state = tuple(state_words(self.survey, self.rng.choice(script.states)))
        return Join(self.tables, self.survey, *lists, self.newcomer(lists), self.rng.choice([0, self.allowance(script), self.allowance(script)]),
                    script.words, state)

    def script_of(self, entry):
        words = entry.plan[:entry.plan_words]
        return next((script for script in self.scripts if script.words == words), None)

    def serve(self):
        lists = self.lists()
        script = self.script_of(lists[0][0]) if lists[1] else None
        turn = (script or self.scripts[0]).turn()
        return Serve(self.tables, self.survey, *lists, turn.quantum, turn.threshold, turn.output)

    def top_up(self):
        lists = self.lists()
        aside = lists[2][:lists[3]]
        owner = self.rng.choice(aside).owner if aside else self.newcomer(lists)
        return Top_up(*lists, owner, self.rng.choice([1, 5, 1 << 32, MOST_WIDE]))

    # Damage.

    def kinds_damage(self, turn):
        """A field of a wrong kind."""
        rows = list(turn.tables.rows)
        if rows:
            at = self.rng.randrange(len(rows))
            rows[at] = term(self.rng.choice([NUMBER, TEXT, VARIABLE]) if at % COLUMNS < COLUMNS - 1 else VARIABLE, term_value(rows[at]))
        return turn._replace(tables=turn.tables._replace(rows=tuple(rows)))

    def years_damage(self, turn):
        """A row's year outside 1 to 9,999."""
        rows = list(turn.tables.rows)
        if len(rows) >= COLUMNS:
            rows[COLUMNS * self.rng.randrange(len(rows) // COLUMNS)] = term(NUMBER, self.rng.choice([0, 10000, 1 << 29]))
        return turn._replace(tables=turn.tables._replace(rows=tuple(rows)))

    def place_damage(self, turn):
        """A place that the run may not stand at: survey, year and position come before the places."""
        state = list(turn.state)
        places = state[3:turn.given]
        if places:
            at = 3 + self.rng.randrange(len(places))
            state[at] = (state[at] + self.rng.choice([1, 2, 1000])) % (1 << 32)
        return turn._replace(state=tuple(state))

    def numbers_damage(self, turn):
        """Two row numbers exchanged, or one that is not there."""
        pos = list(turn.tables.pos)
        if pos:
            at, other = self.rng.randrange(len(pos)), self.rng.randrange(len(pos))
            pos[at], pos[other] = pos[other], self.rng.choice([pos[at], len(pos)])
        return turn._replace(tables=turn.tables._replace(pos=tuple(pos)))

    def variable_damage(self, script, turn):
        return turn._replace(words=script.other_variable(turn.words))

    def query_damages(self, script):
        """What may be wrong with tables, number, plan and state."""
        return [script.plan_damage, script.plan_damage, lambda turn: self.variable_damage(script, turn), script.table_damage, script.table_damage,
                self.kinds_damage, self.years_damage, self.numbers_damage, self.place_damage,
                script.state_damage, script.state_damage, script.state_damage, script.survey_damage]

    def join_damage(self, call):
        script = next((script for script in self.scripts if script.words == call.plan), None)
        if script is None or self.rng.random() < .4:
            return self.lists_damage(call, (call.owner,))
        turn = Turn(call.tables, call.survey, call.plan, call.state + self.filler(1), len(call.state), 1, (), ())
        turn = self.rng.choice(self.query_damages(script))(turn)
        return call._replace(tables=turn.tables, survey=turn.survey, plan=turn.words, state=turn.state[:turn.given])

    def serve_damage(self, call):
        front = call.line[0] if call.waiting and call.line else None
        script = self.script_of(front) if front else None
        if script is None or self.rng.random() < .35:
            return self.rng.choice([self.lists_damage, self.lists_damage, self.call_damage])(call)
        variable = lambda turn: self.variable_damage(script, turn)      # noqa: E731
        damages = self.query_damages(script) + [variable] + [script.turn_damage] * 6 + [script.state_damage] * 3
        turn = Turn(call.tables, call.survey, script.words, front.state, front.state_words, call.quantum, call.threshold, call.output)
        turn = self.rng.choice(damages)(turn)
        words = turn.words if self.rng.random() < .95 else turn.words + (0,) * 250
        plan = words[:PLAN_ROOM] + front.plan[len(words):]
        state = turn.state[:STATE_ROOM] + front.state[len(turn.state):]
        entry = front._replace(plan_words=len(words), state_words=turn.given, plan=plan, state=state)
        return call._replace(tables=turn.tables, survey=turn.survey, line=(entry,) + call.line[1:], quantum=turn.quantum,
                             threshold=turn.threshold, output=turn.output)

    def call_damage(self, call):
        """Tables, number or quantum, whatever the line has."""
        way = self.rng.randrange(3)
        if way == 0:
            return call._replace(quantum=self.rng.choice([0, 1000001, (1 << 32) - 1]))
        turn = Turn(call.tables, call.survey, (), (), 0, 1, (), ())
        if way == 1:
            return call._replace(survey=self.scripts[0].survey_damage(turn).survey)
        return call._replace(tables=self.scripts[0].table_damage(turn).tables)

    def top_up_damage(self, call):
        way = self.rng.randrange(5)
        if way == 0:
            return call._replace(amount=0)
        if way == 1:
            return call._replace(owner=self.rng.randrange(60))
        return self.shortened(call) if way == 2 else self.lists_damage(call)

    def shortened(self, call):
        """A buffer that has room for its entries, and not for 32."""
        return self.rng.choice([call._replace(line=call.line[:max(call.waiting, 1)]), call._replace(aside=call.aside[:max(call.resting, 1)]),
                                call._replace(line=call.line[:MOST_ENTRIES - 1])])

    def changed(self, call, name, **fields):
        """The call with another entry somewhere in a list."""
        entries, count = list(getattr(call, name)), min(len(getattr(call, name)), call.waiting if name == 'line' else call.resting)
        if not count:
            return call
        at = self.rng.randrange(count)
        entries[at] = entries[at]._replace(**fields)
        return call._replace(**{name: tuple(entries)})

    def lists_damage(self, call, joining=()):
        name, count = self.rng.choice([('line', 'waiting'), ('aside', 'resting')])
        owners = [entry.owner for entry in self.lent(call_lists(call))]
        way = self.rng.randrange(7)
        if way == 0:
            return self.changed(call, 'line', allowance=0)
        if way == 1:
            return self.changed(call, 'aside', allowance=self.rng.choice([1, 1 << 32, MOST_WIDE]))
        if way == 2 and owners:
            return self.changed(call, name, owner=self.rng.choice([*owners, *joining, *joining]))
        if way == 3:
            return call._replace(**{name: getattr(call, name)[:self.rng.choice([0, 1, MOST_ENTRIES - 1, MOST_ENTRIES - 1])]})
        if way == 4:
            more = self.rng.choice([1, 2, 32, 33, MOST_COUNT])
            return call._replace(**{count: min(MOST_COUNT, self.rng.choice([more, getattr(call, count) + more, len(getattr(call, name)) + 1]))})
        return self.crowded(call)

    def crowded(self, call):
        """As many entries as there may be or a few more, each by an owner of its own and in the list of its steps; now and then one past the 32nd is wrong."""
        every = self.rng.choice([31, 32, 33, 34])
        waiting = self.rng.choice([0, every // 2, every, self.rng.randint(0, every)])
        owners = iter(range(100, 200))
        line = [entry._replace(owner=next(owners), allowance=max(1, entry.allowance)) for entry in self.more(call.line, waiting)]
        aside = [entry._replace(owner=next(owners), allowance=0) for entry in self.more(call.aside, every - waiting)]
        if self.rng.random() < .6 and len(line) > MOST_ENTRIES:
            line[MOST_ENTRIES] = line[MOST_ENTRIES]._replace(allowance=0)
        return call._replace(line=tuple(line) + call.line[waiting:], waiting=waiting, aside=tuple(aside) + call.aside[every - waiting:],
                             resting=every - waiting)

    def more(self, entries, count):
        entries = list(entries[:count])
        return entries + [self.entry(0, True) for _ in range(count - len(entries))]

    def some(self):
        joins, serves, top_ups = (self.join, self.join_damage), (self.serve, self.serve_damage), (self.top_up, self.top_up_damage)
        make, damage = self.rng.choice([joins] * 4 + [serves] * 5 + [top_ups] * 2)
        call = make()
        for _ in range(self.rng.choice([0, 0, 1, 1, 1, 2])):
            call = damage(call)
        return call


def call_lists(call):
    return call.line, call.waiting, call.aside, call.resting
