"""Known misreadings of an adviser's view, each as an evaluation with one other method, to see whether random calls expose it."""
from evaluation import written
from inputs import Tables, ascend
from viewing import Viewing
from words import NAME, term_kind


class PredicateIgnored(Viewing):
    """any row with a granted object admits its subject"""
    def admits(self, row, grant, membership):
        return row[3] in grant


class ObjectIgnored(Viewing):
    """any row of membership admits its subject"""
    def admits(self, row, grant, membership):
        return bool(grant) and row[2] == membership


class DirectAlone(Viewing):
    """only granted subjects are visible"""
    def members(self, rows, grant, membership):
        return set()


class MembersAlone(Viewing):
    """only subjects that belong to something granted are visible"""
    def seen(self, rows, grant, membership):
        members = self.members(rows, grant, membership)
        return lambda row: row[:2] in members


class AcrossYears(Viewing):
    """membership counts in every year"""
    def members(self, rows, grant, membership):
        subjects = {row[1] for row in rows if self.admits(row, grant, membership)}
        return {row[:2] for row in rows if row[1] in subjects}


class OtherSubject(Viewing):
    """a row of membership admits the subject of the next row too"""
    def members(self, rows, grant, membership):
        return {other[:2] for row, after in zip(rows, rows[1:] + rows[-1:]) if self.admits(row, grant, membership) for other in (row, after)}


class Transitive(Viewing):
    """what belongs to a member is a member"""
    def members(self, rows, grant, membership):
        known, more = set(), super().members(rows, grant, membership)
        while more - known:
            known |= more
            more = super().members(rows, grant | {subject for _, subject in known}, membership)
        return known


class SubjectsMembers(Viewing):
    """what a granted subject belongs to is visible too"""
    def members(self, rows, grant, membership):
        return super().members(rows, grant, membership) | {(row[0], row[3]) for row in rows if row[1] in grant and row[2] == membership}


class FirstRowDecides(Viewing):
    """only the first row of a subject can admit it"""
    def members(self, rows, grant, membership):
        firsts = [row for before, row in zip([()] + rows, rows) if before[:2] != row[:2]]
        return super().members(firsts, grant, membership)


class AdmittingLeftOut(Viewing):
    """the row that admits a subject is left out"""
    def visible(self, rows, grant, membership):
        return [row for row in super().visible(rows, grant, membership) if row[1] in grant or not self.admits(row, grant, membership)]


class AdmittingAlone(Viewing):
    """of a subject that belongs to something granted, the row that says so is visible alone"""
    def visible(self, rows, grant, membership):
        return [row for row in rows if row[1] in grant or self.admits(row, grant, membership)]


class FromAdmittingOn(Viewing):
    """a subject is visible from the row on that admits it"""
    def visible(self, rows, grant, membership):
        admitted, kept = set(), []
        for row in rows:
            admitted |= {row[:2]} if row[1] in grant or self.admits(row, grant, membership) else set()
            kept += [row] if row[:2] in admitted else []
        return kept


class ObjectsVisible(Viewing):
    """a row is visible by its object too"""
    def visible(self, rows, grant, membership):
        seen = self.seen(rows, set(grant), membership)
        return [row for row in rows if seen(row) or row[3] in grant]


class OldNumbers(Viewing):
    """the lists keep the numbers that the rows had"""
    def tables(self, rows, visible):
        made, numbers = super().tables(rows, visible), [rows.index(row) for row in visible]
        return Tables(made.rows, [numbers[n] for n in made.pos], [numbers[n] for n in made.osp])


class OspAsPos(Viewing):
    """OSP is written as POS"""
    def tables(self, rows, visible):
        made = super().tables(rows, visible)
        return made._replace(osp=made.pos)


class ListsUnsorted(Viewing):
    """both lists count the rows as they stand"""
    def tables(self, rows, visible):
        made = super().tables(rows, visible)
        return Tables(made.rows, sorted(made.pos), sorted(made.osp))


class EqualGrants(Viewing):
    """a name may be granted twice"""
    def order_right(self, grant):
        return all(a <= b for a, b in zip(grant, grant[1:]))


class LastPairUnread(Viewing):
    """the last two granted names are not compared"""
    def order_right(self, grant):
        return ascend(grant[:-1])


class OrderUntested(Viewing):
    """the order of a grant is not tested"""
    def order_right(self, grant):
        return True


class NamesUntested(Viewing):
    """the kinds of granted words are not tested"""
    def names_right(self, grant):
        return True


class LastNameUntested(Viewing):
    """the kind of the last granted word is not tested"""
    def names_right(self, grant):
        return super().names_right(grant[:-1])


class EmptyRefused(Viewing):
    """an empty grant is refused by 20"""
    def names_right(self, grant):
        return bool(grant) and super().names_right(grant)


class EmptyShowsAll(Viewing):
    """an empty grant shows everything"""
    def visible(self, rows, grant, membership):
        return super().visible(rows, grant, membership) if grant else rows


class MembershipTested(Viewing):
    """a membership predicate that is no name is refused by 20"""
    def own_tests(self, tables, grant, membership, buffers):
        return [(20, lambda: term_kind(membership) == NAME), *super().own_tests(tables, grant, membership, buffers)]


class GrantFirst(Viewing):
    """20 is tested before the tests of the tables"""
    def tests(self, tables, grant, membership, buffers):
        own = self.own_tests(tables, grant, membership, buffers)
        return [own[0], *self.table_tests(tables), *own[1:]]


class RoomFirst(Viewing):
    """21 is tested before 20"""
    def own_tests(self, tables, grant, membership, buffers):
        return super().own_tests(tables, grant, membership, buffers)[::-1]


class RoomForAll(Viewing):
    """each buffer is asked to have room for all rows"""
    def asked(self, tables, made):
        return [len(words) for words in tables]


class RoomPastWords(Viewing):
    """an exact length does not suffice"""
    def asked(self, tables, made):
        return [words + 1 for words in super().asked(tables, made)]


class ListsUnasked(Viewing):
    """the lists' room is not tested: as much is written as there is room"""
    def asked(self, tables, made):
        return [len(made.rows), 0, 0]

    def view(self, tables, grant, membership, rows, pos, osp):
        answer, seen, *lists = super().view(tables, grant, membership, rows, pos, osp)
        return (answer, seen, *(words[:len(given)] for words, given in zip(lists, (pos, osp))))


class RowsBeforeRoom(Viewing):
    """rows are written before 21 refuses"""
    def refused(self, number, tables, grant, membership, buffers):
        made = self.made(tables, grant, membership).rows if number == 21 else ()
        return (written(buffers[0], made) if len(made) <= len(buffers[0]) else buffers[0], *buffers[1:])


class TailsCleared(Viewing):
    """what a buffer has past the written words is cleared"""
    def view(self, tables, grant, membership, rows, pos, osp):
        answer, *buffers = super().view(tables, grant, membership, rows, pos, osp)
        if answer.refused:
            return (answer, *buffers)
        return (answer, *(written((0,) * len(buffer), buffer[:words]) for buffer, words in zip(buffers, answer[1:])))


ALL_VIEWING_MISREADINGS = [
    PredicateIgnored, ObjectIgnored, DirectAlone, MembersAlone, AcrossYears, OtherSubject, Transitive, SubjectsMembers, FirstRowDecides, AdmittingLeftOut,
    AdmittingAlone, FromAdmittingOn, ObjectsVisible, OldNumbers, OspAsPos, ListsUnsorted, EqualGrants, LastPairUnread, OrderUntested,
    NamesUntested, LastNameUntested, EmptyRefused, EmptyShowsAll, MembershipTested, GrantFirst, RoomFirst, RoomForAll, RoomPastWords,
    ListsUnasked, RowsBeforeRoom, TailsCleared]
