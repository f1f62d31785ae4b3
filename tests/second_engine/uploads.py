"""Random uploads and calls of making tables, from a seed: good ones, and damaged ones.

Rows are those of random woods (plans.py), drawn so that many come twice, with wrong kinds among them.
"""
from inputs import COLUMNS, MOST_ROWS, rows_of
from making import Make
from plans import wood
from words import MOST_VALUE, MOST_YEAR, NAME, NUMBER, TEXT, VARIABLE, is_variable, name, number, term, term_value

SPARES = [0, 0, 0, 1, 2, 7]


class Uploads:
    """Calls with uploads, each made with the evaluation's help: it says how long the buffers have to be."""

    def __init__(self, rng, right):
        self.rng, self.right = rng, right

    def filler(self, length):
        return tuple(self.rng.getrandbits(32) for _ in range(length))

    # Uploads.

    def wronged(self, row):
        """A row with a field of a wrong kind."""
        row, at = list(row), self.rng.randrange(COLUMNS)
        values = [0, 1, term_value(row[at]), MOST_VALUE]
        kinds = {0: [NAME, TEXT, VARIABLE], COLUMNS - 1: [VARIABLE]}.get(at, [NUMBER, TEXT, VARIABLE])
        row[at] = term(self.rng.choice(kinds), self.rng.choice(values))
        if at == 0 and self.rng.random() < .6:
            row[at] = number(self.rng.choice([0, MOST_YEAR + 1, -1, 1 << 28]))
        return tuple(row)

    def near(self, row):
        """A row that differs from another in one field by little, or by kind alone."""
        row, at = list(row), self.rng.randrange(COLUMNS)
        row[at] ^= self.rng.choice([1, 2]) if at < COLUMNS - 1 or self.rng.random() < .5 else 1 << 30
        return tuple(row) if not is_variable(row[3]) else (*row[:3], number(1))

    def rows(self):
        """Rows in the order in which they were measured."""
        own = rows_of(wood(self.rng)) or [(number(2026), name(1), name(2), number(3))]
        wrong, near = self.rng.choice([0, .1, .1, .5, 1]), self.rng.choice([0, .2, .6])
        rows = []
        for _ in range(self.rng.choice([0, 1, 2, 3] + [self.rng.randrange(4, 30)] * 8)):
            row = self.rng.choice(rows) if rows and self.rng.random() < .3 else self.rng.choice(own)
            row = self.near(row) if self.rng.random() < near and not is_variable(row[3]) else row
            rows.append(self.wronged(row) if self.rng.random() < wrong else row)
        order = self.rng.choice(['measured', 'measured', 'own', 'sorted', 'backwards'])
        if order == 'own':
            rows = own
        return sorted(rows, reverse=order == 'backwards') if order in ('sorted', 'backwards') else rows

    def upload(self):
        return tuple(word for row in self.rows() for word in row)

    # Calls.

    def lengths(self, upload):
        """The words that are written to each buffer."""
        tables, report = self.right.made(upload)
        return [len(words) for words in (*tables, report)]

    def call(self):
        upload = self.upload()
        return Make(upload, *(self.filler(words + self.rng.choice(SPARES)) for words in self.lengths(upload)))

    def room_damage(self, call):
        """One buffer of a word too few, or of none."""
        lengths = self.lengths(call.upload)
        at = self.rng.choice([at for at, words in enumerate(lengths) if words] or [0])
        short = self.rng.choice([lengths[at] - 1, lengths[at] - 1, lengths[at] // 2, 0])
        return call._replace(**{call._fields[1 + at]: call[1 + at][:max(0, short)]})

    def length_damage(self, call):
        """Words more or less than whole rows."""
        more = self.filler(self.rng.choice([1, 2, 3]))
        return call._replace(upload=self.rng.choice([call.upload + more, call.upload[:-1], call.upload[:-2], call.upload[:6], call.upload + more[:1]]))

    def word_damage(self, call):
        """Another bit in the upload, under the same buffers."""
        if not call.upload:
            return call._replace(upload=self.filler(COLUMNS))
        at = self.rng.randrange(len(call.upload))
        word = call.upload[at] ^ 1 << self.rng.choice([0, 1, 29, 30, 31])
        return call._replace(upload=call.upload[:at] + (word,) + call.upload[at + 1:])

    def damaged(self):
        call = self.call()
        for _ in range(self.rng.choice([1, 1, 1, 2])):
            call = self.rng.choice([self.room_damage, self.room_damage, self.length_damage, self.word_damage])(call)
        return call

    def made_up(self):
        """Buffers that have nothing to do with each other."""
        return Make(*(self.filler(self.rng.randrange(most)) for most in (17, 17, 5, 5, 9)))

    def some(self):
        return self.rng.choice([self.call, self.call, self.damaged, self.damaged, self.damaged, self.made_up])()

    def largest(self):
        """The most rows and one more, shuffled, some of them dropped; and the longest report."""
        for count in (MOST_ROWS - 1, MOST_ROWS, MOST_ROWS + 1):
            rows = [(number(2025 + row % 3), name(row // 2), name(10 + row % 2), number(row % 1000)) for row in range(count - count // 10)]
            rows += [self.rng.choice(rows) for _ in range(count // 20)]
            rows += [self.wronged(self.rng.choice(rows)) for _ in range(count - len(rows))]
            self.rng.shuffle(rows)
            upload = tuple(word for row in rows for word in row)
            yield Make(upload, *((0,) * (words + 1) for words in self.lengths(upload)))
        same = (number(2026), name(1), name(2), number(3)) * MOST_ROWS
        yield Make(same, *((0,) * words for words in self.lengths(same)))
        yield Make(same, *((0,) * (words - (at == 3)) for at, words in enumerate(self.lengths(same))))
        in_order = tuple(word for row in range(MOST_ROWS) for word in (number(2026), name(row), name(10), name(100)))
        yield Make(in_order, *((0,) * words for words in self.lengths(in_order)))
