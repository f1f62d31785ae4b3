"""What writing an adviser's view answers, and every buffer at exit: an evaluation of the rules (docs/RULES.md) in Python.

It is written from the rules' text alone. What the rules say is a method, so that a misreading is a subclass with one other method
(viewing_misreadings.py).
"""
from collections import namedtuple

from evaluation import Evaluation, first_failing, written
from inputs import COLUMNS, Tables, ascend, osp_key, pos_key, rows_of
from words import NAME, term_kind

View = namedtuple('View', 'tables grant membership rows pos osp')     # tables, an adviser's grant, and the three buffers
Viewed = namedtuple('Viewed', 'refused rows_words pos_words osp_words')


class Viewing:
    """The call. A buffer is a tuple of words; the call gives its answer and its written buffers as they are at exit."""

    def __init__(self):
        self.table_tests = Evaluation().table_tests

    def admits(self, row, grant, membership):
        """Whether a row says that its subject belongs to something granted."""
        return row[2] == membership and row[3] in grant

    def members(self, rows, grant, membership):
        """The subjects that belong to something granted, each with the year in which it does."""
        return {row[:2] for row in rows if self.admits(row, grant, membership)}

    def seen(self, rows, grant, membership):
        """A test of rows: whether they are visible."""
        members = self.members(rows, grant, membership)
        return lambda row: row[1] in grant or row[:2] in members

    def visible(self, rows, grant, membership):
        """The visible rows, in their order."""
        seen = self.seen(rows, set(grant), membership)
        return [row for row in rows if seen(row)]

    def tables(self, rows, visible):
        """The tables of the visible rows."""
        numbers = range(len(visible))
        return Tables([word for row in visible for word in row], sorted(numbers, key=lambda n: pos_key(visible[n])),
                      sorted(numbers, key=lambda n: osp_key(visible[n])))

    def made(self, tables, grant, membership):
        rows = [row for row in rows_of(tables) if len(row) == COLUMNS]
        return self.tables(rows, self.visible(rows, grant, membership))

    def names_right(self, grant):
        return all(term_kind(word) == NAME for word in grant)

    def order_right(self, grant):
        return ascend(grant)

    def asked(self, tables, made):
        """The words that each buffer has at least."""
        return [len(words) for words in made]

    def own_tests(self, tables, grant, membership, buffers):
        room = lambda: all(len(buffer) >= words
                           for buffer, words in zip(buffers, self.asked(tables, self.made(tables, grant, membership))))
        return [(20, lambda: self.names_right(grant) and self.order_right(grant)), (21, room)]

    def tests(self, tables, grant, membership, buffers):
        return [*self.table_tests(tables), *self.own_tests(tables, grant, membership, buffers)]

    def refused(self, number, tables, grant, membership, buffers):
        """The buffers of a call that is refused: they are as they were."""
        return buffers

    def view(self, tables, grant, membership, rows, pos, osp):
        buffers = (rows, pos, osp)
        number = first_failing(self.tests(tables, grant, membership, buffers))
        if number:
            return (Viewed(number, 0, 0, 0), *self.refused(number, tables, grant, membership, buffers))
        made = self.made(tables, grant, membership)
        return (Viewed(0, *map(len, made)), *(written(buffer, words) for buffer, words in zip(buffers, made)))
