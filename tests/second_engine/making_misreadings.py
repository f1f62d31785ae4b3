"""Known misreadings of making tables, each as an evaluation with one other method, to see whether random uploads expose it."""
from evaluation import written
from inputs import COLUMNS, Tables, osp_key, pos_key, row_kinds_right
from making import KEPT, REPEAT, WRONG_KIND, Making
from words import NAME, number, term_kind, term_value


class RepeatIsWrong(Making):
    """a repeat is reported as 1"""
    def report(self, dropped):
        return super().report([(place, WRONG_KIND) for place, _ in dropped])


class LastKept(Making):
    """of two equal rows the last is kept"""
    def fates(self, rows):
        return super().fates(rows[::-1])[::-1]


class ReportSorted(Making):
    """the report is in the order of the rows, not of the upload"""
    def dropped(self, rows, fates):
        return sorted(super().dropped(rows, fates), key=lambda part: rows[part[0]])


class ReportByReason(Making):
    """the report has the wrong kinds first, then the repeats"""
    def dropped(self, rows, fates):
        return sorted(super().dropped(rows, fates), key=lambda part: part[1])


class OneWordARow(Making):
    """one word a dropped row: its place alone"""
    def report(self, dropped):
        return [place for place, _ in dropped]


class OneWordCounted(Making):
    """one word a dropped row is asked of the report, and two are written as far as there is room"""
    def asked(self, tables, report):
        return [len(words) for words in tables] + [len(report) // 2]

    def make(self, upload, rows, pos, osp, report):
        answer, *tables, told = super().make(upload, rows, pos, osp, report)
        return (answer, *tables, told[:len(report)])


class PlacesFromOne(Making):
    """places are counted from 1"""
    def report(self, dropped):
        return super().report([(place + 1, fate) for place, fate in dropped])


class PlacesOfKinds(Making):
    """a repeat's place is counted among the rows of right kinds"""
    def dropped(self, rows, fates):
        right = [place for place, fate in enumerate(fates) if fate != WRONG_KIND]
        return [(right.index(place) if fate == REPEAT else place, fate) for place, fate in super().dropped(rows, fates)]


class RepeatsFirst(Making):
    """repeats are tested before kinds, so that equal rows of wrong kinds are 1 and then 2"""
    def fates(self, rows):
        seen, fates = set(), []
        for row in rows:
            fates.append(REPEAT if row in seen else KEPT if self.kinds_right(row) else WRONG_KIND)
            seen.add(row)
        return fates


class NeighboursAlone(Making):
    """only a row equal to the one before it in the upload is a repeat"""
    def fates(self, rows):
        fates = super().fates(rows)
        return [KEPT if fate == REPEAT and rows[place] != rows[place - 1] else fate for place, fate in enumerate(fates)]


class FirstPairUnread(Making):
    """the first two rows of the sorted list are not compared"""
    def fates(self, rows):
        fates = super().fates(rows)
        right = sorted((row, place) for place, row in enumerate(rows) if self.kinds_right(row))
        if len(right) > 1 and fates[right[1][1]] == REPEAT:
            fates[right[1][1]] = KEPT
        return fates


class SecondsDropped(Making):
    """a row that comes twice is dropped both times"""
    def fates(self, rows):
        fates = super().fates(rows)
        return [REPEAT if fate == KEPT and rows.count(rows[place]) > 1 else fate for place, fate in enumerate(fates)]


class TextsNoObjects(Making):
    """an object is a name or a number"""
    def kinds_right(self, row):
        return super().kinds_right(row) and term_kind(row[3]) != 2


class PredicateUntested(Making):
    """the kind of a predicate is not tested"""
    def kinds_right(self, row):
        return super().kinds_right((*row[:2], NAME << 30, row[3]))


class YearsUntested(Making):
    """any number is a year"""
    def kinds_right(self, row):
        return row_kinds_right(row)


class YearKindUntested(Making):
    """a year may be of any kind"""
    def kinds_right(self, row):
        return super().kinds_right((number(term_value(row[0])), *row[1:]))


class OspAsPos(Making):
    """OSP is written as POS"""
    def tables(self, rows, fates):
        tables = super().tables(rows, fates)
        return tables._replace(osp=tables.pos)


class PlacesForNumbers(Making):
    """the lists name places in the upload, not row numbers"""
    def tables(self, rows, fates):
        kept = [place for place, fate in enumerate(fates) if fate == KEPT]
        by = lambda key: sorted(kept, key=lambda place: key(rows[place]))
        return Tables(super().tables(rows, fates).rows, by(pos_key), by(osp_key))


class RowsAsUploaded(Making):
    """the kept rows stand in upload order"""
    def tables(self, rows, fates):
        kept = [row for row, fate in zip(rows, fates) if fate == KEPT]
        return super().tables(rows, fates)._replace(rows=[word for row in kept for word in row])


class RowsBeforeRoom(Making):
    """rows are written before 16 refuses"""
    def refused(self, upload, buffers):
        rows, *others = buffers
        if not self.upload_right(upload):
            return buffers
        made = self.made(upload)[0].rows
        return (written(rows, made) if len(made) <= len(rows) else rows, *others)


class RoomForAll(Making):
    """each buffer is asked to have room for all rows of the upload"""
    def tests(self, upload, buffers):
        count = len(upload) // COLUMNS
        lengths = (3 * count, count, count, 2 * count)
        return [super().tests(upload, buffers)[0], (16, lambda: all(len(buffer) >= words for buffer, words in zip(buffers, lengths)))]


class RoomPastWords(Making):
    """an exact length does not suffice"""
    def asked(self, tables, report):
        return [words + 1 for words in super().asked(tables, report)]


class RoomFirst(Making):
    """16 is tested before 15"""
    def tests(self, upload, buffers):
        return super().tests(upload, buffers)[::-1]


class RestForgiven(Making):
    """words left over behind the last whole row are no fault"""
    def upload_right(self, upload):
        return super().upload_right(upload[:len(upload) - len(upload) % COLUMNS])


class TailsCleared(Making):
    """what a buffer has past the written words is cleared"""
    def make(self, upload, rows, pos, osp, report):
        answer, *buffers = super().make(upload, rows, pos, osp, report)
        if answer.refused:
            return (answer, *buffers)
        return (answer, *(written((0,) * len(buffer), buffer[:words]) for buffer, words in zip(buffers, answer[1:])))


ALL_MAKING_MISREADINGS = [
    RepeatIsWrong, LastKept, ReportSorted, ReportByReason, OneWordARow, OneWordCounted, PlacesFromOne, PlacesOfKinds, RepeatsFirst,
    NeighboursAlone, FirstPairUnread, SecondsDropped, TextsNoObjects, PredicateUntested, YearsUntested, YearKindUntested, OspAsPos, PlacesForNumbers,
    RowsAsUploaded, RowsBeforeRoom, RoomForAll, RoomPastWords, RoomFirst, RestForgiven, TailsCleared]
