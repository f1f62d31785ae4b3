"""Random calls of an adviser's view, from a seed: good ones, and damaged ones; and woods that differ in hidden rows alone.

Woods are those of plans.py, and stems of stands of farms; a grant has names that they have, so that some rows are visible and some hidden.
"""
from inputs import COLUMNS, MOST_ROWS, Tables, rows_of
from plans import YEARS, surveyed, tables_of, wood
from viewing import View
from words import MOST_VALUE, MOST_YEAR, NAME, UNBOUND, name, number, term, term_kind, text

SPARES = [0, 0, 0, 1, 2, 7]


class Grants:
    """Calls with grants, each made with the evaluation's help: it says how long the buffers have to be."""

    def __init__(self, rng, right):
        self.rng, self.right = rng, right

    def filler(self, length):
        return tuple(self.rng.getrandbits(32) for _ in range(length))

    # Woods and grants.

    def farms(self):
        """Stems that belong to stands, which belong to farms, by one predicate; and other predicates on all of them."""
        belongs, rng = name(10), self.rng
        for stem in range(1, rng.randrange(2, 9)):
            yield name(stem), belongs, name(100 + rng.randrange(3))
            yield name(stem), name(rng.choice([9, 12])), rng.choice([number(45), number(310), name(100), name(200)])
        for stand in range(100, 103):
            yield name(stand), belongs, name(200 + rng.randrange(2))
            yield name(stand), name(11), rng.choice([text(stand), name(200)])

    def wood(self):
        return tables_of(surveyed(self.rng, self.farms())) if self.rng.random() < .3 else wood(self.rng)

    def name_in(self, rows):
        """A name that a grant may have: a subject, what a row says of one, or another."""
        said = self.rng.choice(self.rng.choice(rows)) if rows else None
        if said is not None and term_kind(said) == NAME and self.rng.random() < .9:
            return said
        return name(self.rng.choice([0, 1, 5, 200, MOST_VALUE]))

    def grant(self, rows):
        return tuple(sorted({self.name_in(rows) for _ in range(self.rng.choice([0, 1, 1, 1, 2, 2, 3, 8]))}))

    def membership(self, rows):
        """A predicate, mostly one that rows have; no name now and then."""
        if rows and self.rng.random() < .8:
            return self.rng.choice(rows)[2]
        return self.rng.choice([name(0), name(MOST_VALUE), number(3), text(0), UNBOUND, self.rng.getrandbits(32)])

    # Calls.

    def lengths(self, call):
        """The words that are written to each buffer."""
        return [len(words) for words in self.right.made(call.tables, call.grant, call.membership)]

    def lent(self, call):
        """A call with buffers that are long enough."""
        return call._replace(**{field: self.filler(words + self.rng.choice(SPARES))
                                for field, words in zip(('rows', 'pos', 'osp'), self.lengths(call))})

    def call(self):
        tables = self.wood()
        rows = rows_of(tables)
        return self.lent(View(tables, self.grant(rows), self.membership(rows), (), (), ()))

    def seeing(self):
        """A call whose adviser sees some rows, if such a one is soon found."""
        for _ in range(20):
            call = self.call()
            if 0 < len(self.right.visible(rows_of(call.tables), call.grant, call.membership)) < len(call.tables.pos):
                break
        return call

    def room_damage(self, call):
        """One buffer of a word too few, or of none."""
        lengths = self.lengths(call)
        at = self.rng.choice([at for at, words in enumerate(lengths) if words] or [0])
        short = self.rng.choice([lengths[at] - 1, lengths[at] - 1, lengths[at] // 2, 0])
        return call._replace(**{('rows', 'pos', 'osp')[at]: call[3 + at][:max(0, short)]})

    def grant_damage(self, call):
        """A name twice, two exchanged, or a word that is no name."""
        grant, at = list(call.grant), self.rng.randrange(len(call.grant) + 1)
        more = self.rng.choice([number(0), text(5), UNBOUND, name(0), name(MOST_VALUE), term(1, MOST_VALUE)])
        way = self.rng.randrange(4)
        if way == 0 and grant:
            grant.insert(at, grant[max(0, at - 1)])
        elif way == 1 and len(grant) > 1:
            at = self.rng.randrange(len(grant) - 1)
            grant[at:at + 2] = grant[at + 1], grant[at]
        elif way == 2 and grant:
            grant[at - 1] |= self.rng.choice([1, 2, 3]) << 30
        else:
            grant.insert(at, more)
        return call._replace(grant=tuple(grant))

    def table_damage(self, call):
        """A kind, an order, a list or a length."""
        rows, pos, osp = map(list, call.tables)
        whole = len(rows) // COLUMNS                 # whole rows: another damage may have been there before
        way = self.rng.randrange(7)
        if way == 0 and rows:
            rows[self.rng.randrange(len(rows))] |= 3 << 30
        elif way == 1 and whole > 1:
            at = COLUMNS * self.rng.randrange(whole - 1)
            one, other = rows[at:at + COLUMNS], rows[at + COLUMNS:at + 2 * COLUMNS]
            rows[at:at + 2 * COLUMNS] = other + (one if self.rng.random() < .5 else other)
        elif way == 6 and whole:
            rows[COLUMNS * self.rng.randrange(whole)] = self.rng.choice([number(0), number(MOST_YEAR + 1), number(-1)])
        elif way == 2 and pos:
            pos[self.rng.randrange(len(pos))] = self.rng.choice([0, len(pos), len(pos) - 1])
        elif way == 3 and len(osp) > 1:
            at = self.rng.randrange(len(osp) - 1)
            osp[at:at + 2] = osp[at + 1], osp[at]
        elif way == 4:
            self.rng.choice([rows, pos, osp]).append(0)
        elif rows and pos and osp:
            self.rng.choice([rows, pos, osp]).pop()
        return call._replace(tables=Tables(tuple(rows), tuple(pos), tuple(osp)))

    def damaged(self):
        call = self.call()
        for _ in range(self.rng.choice([1, 1, 1, 2])):
            call = self.rng.choice([self.room_damage, self.grant_damage, self.grant_damage, self.table_damage])(call)
        return call

    def made_up(self):
        """Buffers that have nothing to do with each other."""
        words = [self.filler(self.rng.randrange(most)) for most in (10, 4, 4, 4, 10, 4, 4)]
        return View(Tables(*words[:3]), words[3], self.rng.getrandbits(32), *words[4:])

    def some(self):
        return self.rng.choice([self.call, self.call, self.damaged, self.damaged, self.damaged, self.made_up])()

    def twin(self, call):
        """The same call over a wood that differs in rows alone that are hidden where they stand: some left out, changed or new."""
        rows = rows_of(call.tables)
        seen = self.right.seen(rows, set(call.grant), call.membership)
        kept = [row for row in rows if seen(row)]
        for row in rows:
            if not seen(row) and self.rng.random() < .6:
                kept.append(row if self.rng.random() < .5 else (*row[:3], number(self.rng.randrange(1000))))
        for _ in range(self.rng.randrange(3)):
            subject = name(self.rng.choice([0, 1, 2, 77, MOST_VALUE]))
            row = (number(self.rng.choice(YEARS)), subject, name(self.rng.choice([0, 1, 100, 500])), number(self.rng.randrange(1000)))
            if not seen(row):
                kept.append(row)
        return call._replace(tables=tables_of(kept))

    def largest(self):
        """The most rows and one more; nothing, a few stems, a stand and all stands are granted."""
        for count in (MOST_ROWS - 1, MOST_ROWS, MOST_ROWS + 1):
            rows = [(number(2025 + row % 4 // 2), name(row // 2), name(10 + row % 2), name(200 + row % 7) if row % 2 == 0 else number(row % 1000))
                    for row in range(count)]
            tables = tables_of(rows)
            for grant in [(), (name(0), name(7), name(count // 2 - 1)), (name(203),), tuple(map(name, range(200, 207)))]:
                if count <= MOST_ROWS:
                    yield self.lent(View(tables, grant, name(10), (), (), ()))
                else:
                    yield View(tables, grant, name(10), self.filler(3), self.filler(1), self.filler(1))
