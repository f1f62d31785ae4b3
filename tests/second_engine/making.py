"""What making tables from an upload answers, and every buffer at exit: an evaluation of the rules (docs/RULES.md) in Python.

It is written from the rules' text alone. What the rules say is a method, so that a misreading is a subclass with one other method
(making_misreadings.py).
"""
from collections import namedtuple

from evaluation import first_failing, written
from inputs import COLUMNS, MOST_ROWS, Tables, osp_key, pos_key, row_kinds_right, year_right

KEPT, WRONG_KIND, REPEAT = range(3)

Make = namedtuple('Make', 'upload rows pos osp report')     # an upload, and the four buffers
Made = namedtuple('Made', 'refused rows_words pos_words osp_words report_words')


class Making:
    """The call. A buffer is a tuple of words; the call gives its answer and its written buffers as they are at exit."""

    def rows_of(self, upload):
        """The whole rows of an upload."""
        return [tuple(upload[at:at + COLUMNS]) for at in range(0, len(upload) - COLUMNS + 1, COLUMNS)]

    def kinds_right(self, row):
        return row_kinds_right(row) and year_right(row[0])

    def fates(self, rows):
        """The fate of each row: kinds are tested first, then whether an earlier row is the same."""
        seen, fates = set(), []
        for row in rows:
            fates.append(WRONG_KIND if not self.kinds_right(row) else REPEAT if row in seen else KEPT)
            seen.add(row)
        return fates

    def tables(self, rows, fates):
        """The kept rows in ascending order, and their numbers in the two other orders."""
        kept = sorted(row for row, fate in zip(rows, fates) if fate == KEPT)
        numbers = range(len(kept))
        return Tables([word for row in kept for word in row], sorted(numbers, key=lambda n: pos_key(kept[n])),
                      sorted(numbers, key=lambda n: osp_key(kept[n])))

    def dropped(self, rows, fates):
        """Place and fate of each dropped row, in upload order."""
        return [(place, fate) for place, fate in enumerate(fates) if fate != KEPT]

    def report(self, dropped):
        return [word for place, fate in dropped for word in (place, fate)]

    def upload_right(self, upload):
        return len(upload) % COLUMNS == 0 and len(upload) // COLUMNS <= MOST_ROWS

    def asked(self, tables, report):
        """The words that each buffer has at least."""
        return [len(words) for words in (*tables, report)]

    def made(self, upload):
        """Tables and report of an upload's whole rows."""
        rows = self.rows_of(upload)
        fates = self.fates(rows)
        return self.tables(rows, fates), self.report(self.dropped(rows, fates))

    def tests(self, upload, buffers):
        room = lambda: all(len(buffer) >= words for buffer, words in zip(buffers, self.asked(*self.made(upload))))
        return [(15, lambda: self.upload_right(upload)), (16, room)]

    def refused(self, upload, buffers):
        """The buffers of a call that is refused: they are as they were."""
        return buffers

    def make(self, upload, rows, pos, osp, report):
        buffers = (rows, pos, osp, report)
        number = first_failing(self.tests(upload, buffers))
        if number:
            return (Made(number, 0, 0, 0, 0), *self.refused(upload, buffers))
        tables, told = self.made(upload)
        parts = [*tables, told]
        return (Made(0, *map(len, parts)), *(written(buffer, words) for buffer, words in zip(buffers, parts)))
