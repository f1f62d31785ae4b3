"""Known misreadings of the rules, each as an evaluation with one other method, to see whether random plans expose it."""
import struct

from calls import Merge, Open, Report, Turn
from evaluation import DONE, FULL, LEAST_STATE_WORDS, Evaluation, Written, written
from inputs import NOTHING, in_parts, signed, split_record, survey_of
from plan_reader import read_plan, variables_right
from registers import MOST_RANK, PRIME
from words import GROUP, MOST_WORD, NUMBER, REGISTERS, ROWS, SURVEYS, TOP, UNBOUND, UNEQUAL, is_variable, number, term_kind, term_value

ALL = (ROWS, TOP, GROUP, REGISTERS)


class Misreading(Evaluation):
    """It concerns the steps, the rows they deliver, or else some calls; and plans of some endings."""
    concerns, endings = 'rows', ALL
    calls = Open, Turn, Merge

    def __init__(self, right):
        super().__init__(right.most_steps)
        self.right = right
        if self.concerns != 'steps':
            self.walks = right.walks
        if self.concerns == 'calls':
            self.delivered, self.checked = right.delivered, right.checked

    def walk(self, tables, words):
        return super().walk(tables, words) if self.concerns == 'steps' else self.right.walk(tables, words)

    def deliveries(self, tables, words):
        return self.right.deliveries(tables, words) if self.concerns == 'calls' else super().deliveries(tables, words)


# Conditions.

class NamesOrdered(Misreading):
    """names are ordered by <"""
    def ordered(self, a, b):
        return term_kind(a) == term_kind(b)


class ErrorIsFalse(Misreading):
    """an error in a condition is taken as false, so that "not" keeps the row"""
    def compared(self, operator, a, b):
        return super().compared(operator, a, b) is True


class LeftErrorDecides(Misreading):
    """an error on the left decides and, or"""
    def conjunction(self, x, y):
        return None if x is None else super().conjunction(x, y)

    def disjunction(self, x, y):
        return None if x is None else super().disjunction(x, y)


class ErrorDecidesOr(Misreading):
    """or(error, true) is error"""
    def disjunction(self, x, y):
        return None if x is None or y is None else x or y


class ErrorDecidesAnd(Misreading):
    """and(false, error) is error"""
    def conjunction(self, x, y):
        return None if x is None or y is None else x and y


class KeepsErrors(Misreading):
    """the filter keeps what is not false"""
    def keeps(self, truth):
        return truth is not False


class NumberIsNoText(Misreading):
    """number = text is false"""
    def equal(self, a, b):
        return a == b


class ErrorIsUnequal(Misreading):
    """number != text is true"""
    def compared(self, operator, a, b):
        return a != b if operator == UNEQUAL else super().compared(operator, a, b)


# Years.

class FirstForLatest(Misreading):
    """the first year is taken for the latest"""
    concerns = 'steps'

    def latest(self, there):
        return there[:1]


class EveryWithoutWord(Misreading):
    """every year is read where no year is said"""
    concerns = 'steps'

    def latest(self, there):
        return there


class YearSkipped(Misreading):
    """a year between two is skipped"""
    concerns = 'steps'

    def years_there(self, rows):
        there = super().years_there(rows)
        return there[:1] + there[2:] if len(there) > 2 else there


class YearsBackwards(Misreading):
    """the latest year is read first"""
    concerns = 'steps'

    def years(self, rows, plan):
        return super().years(rows, plan)[::-1]


class AcrossYears(Misreading):
    """deeper levels join rows of all years"""
    concerns = 'steps'

    def level(self, orders, year, branch, branch_number, places, bound, walk):
        if not places:
            return super().level(orders, year, branch, branch_number, places, bound, walk)
        order, prefix = self.prefix(branch.patterns[len(places)], bound)
        keys, rows = orders[order]
        deepest = len(places) + 1 == len(branch.patterns)
        found = [place for place, key in enumerate(keys) if key[1:len(prefix) + 1] == prefix]
        for place in found:
            now = self.matched(branch.patterns[len(places)], rows[place][1:], bound)
            self.step(walk, (year, branch_number, places + (place,)), now if deepest else None)
            if now is not None and not deepest:
                self.level(orders, year, branch, branch_number, places + (place,), now, walk)
        self.step(walk, (year, branch_number, places + (len(keys),)), None)


class NamedMustBeThere(Misreading):
    """a year without rows that a plan names is not read: the latest is"""
    concerns = 'steps'

    def years(self, rows, plan):
        there = self.years_there(rows)
        return super().years(rows, plan._replace(year=None) if plan.year and there and plan.year not in there else plan)


class YearUntested(Misreading):
    """a state's year is not compared with those that are read"""
    concerns = 'calls'
    calls = (Turn,)

    def year_read(self, tables, plan, state):
        return True


class YearsBeforeKinds(Misreading):
    """years are tested before kinds"""
    concerns = 'calls'
    calls = Open, Turn

    def __init__(self, right):
        super().__init__(right)
        self.checked = {}

    def table_tests(self, tables):
        lengths, kinds, years, *others = super().table_tests(tables)
        return [lengths, years, kinds, *others]


class YearsAfterOrder(Misreading):
    """years are tested after the rows' order"""
    concerns = 'calls'
    calls = Open, Turn

    def __init__(self, right):
        super().__init__(right)
        self.checked = {}

    def table_tests(self, tables):
        lengths, kinds, years, order, lists = super().table_tests(tables)
        return [lengths, kinds, order, years, lists]


class PlanYearFirst(Misreading):
    """a plan's year is tested before its variables"""
    concerns = 'calls'

    def plan_tests(self, words, plan):
        form, variables, year = super().plan_tests(words, plan)
        return [form, year, variables]


class AnyPlanYear(Misreading):
    """a plan may name any year"""
    concerns = 'calls'

    def plan_tests(self, words, plan):
        return super().plan_tests(words, plan)[:2]


# Steps and delivered rows.

class RepeatsIgnored(Misreading):
    """a variable repeated within a pattern is not tested"""
    concerns = 'steps'

    def matched(self, pattern, row, bound):
        fields = reversed(list(zip(pattern, row)))
        return {**{term_value(word): field for word, field in fields if is_variable(word)}, **bound}


class EmptyAtZero(Misreading):
    """an empty range lies at 0"""
    concerns = 'steps'

    def range(self, keys, prefix):
        first, end = super().range(keys, prefix)
        return (first, end) if first < end else (0, 0)


class EndTooEarly(Misreading):
    """a range's end is found by "before" where "not after" is meant"""
    concerns = 'steps'

    def range(self, keys, prefix):
        first, end = super().range(keys, prefix)
        return first, first if len(prefix) > 1 else end


class SubjectBeforeObject(Misreading):
    """subject and object fixed: read by subject, the object tested on the row"""
    concerns = 'steps'

    def prefix(self, pattern, bound):
        order, prefix = super().prefix(pattern, bound)
        return ('spo', prefix[1:]) if order == 'osp' and len(prefix) == 2 else (order, prefix)

    def matched(self, pattern, row, bound):
        fits = all(self.fixed(word, bound) in (None, field) for word, field in zip(pattern, row))
        return super().matched(pattern, row, bound) if fits else None


class BoundBefore(Misreading):
    """values bound in one branch are seen in the next"""
    def row(self, plan, bound):
        self.seen = {**getattr(self, 'seen', {}), **bound}
        return super().row(plan, self.seen)

    def deliveries(self, tables, words):
        self.seen = {}
        return super().deliveries(tables, words)


class BranchDuplicates(Misreading):
    """duplicates between branches are removed"""
    def deliveries(self, tables, words):
        delivered, states = super().deliveries(tables, words), self.walk(tables, words).states
        first = {}
        for (_, branch, _), row in zip(states, delivered):
            first.setdefault(row, branch)
        return [row if first[row] == branch else None for (_, branch, _), row in zip(states, delivered)]


class AllDuplicates(Misreading):
    """all duplicates are removed"""
    def deliveries(self, tables, words):
        seen, kept = set(), []
        for row in super().deliveries(tables, words):
            kept.append(None if row in seen else row)
            seen.add(row)
        return kept


# Lists.

class RawWords(Misreading):
    """row words are compared raw, so that unbound sorts last"""
    concerns, endings = 'calls', (TOP, GROUP)
    calls = Turn, Merge

    def key(self, word):
        return 0, word


class UnboundFirstFalling(Misreading):
    """unbound comes first by a falling key too"""
    concerns, endings = 'calls', (TOP,)
    calls = Turn, Merge

    def sort_key(self, plan, row):
        return tuple((-MOST_WORD, 0) if row[plan.columns.index(v)] == UNBOUND else value
                     for (_, v), value in zip(plan.keys, super().sort_key(plan, row)))


class TextsBeforeNumbers(Misreading):
    """texts are ordered before numbers"""
    concerns, endings = 'calls', (TOP, GROUP)
    calls = Turn, Merge

    def key(self, word):
        kind, value = super().key(word)
        return {2: 3, 3: 2}.get(kind, kind), value


class ZeroIsNone(Misreading):
    """a best-of list of 0 rows has none"""
    concerns, endings = 'calls', (TOP,)
    calls = Turn, Merge

    def best_count(self, plan):
        return plan.k


class ZeroIsMost(Misreading):
    """a best-of list of no given number has the most rows, 64"""
    concerns, endings = 'calls', (TOP,)
    calls = Turn, Merge

    def best_count(self, plan):
        return plan.k or 64


class LaterPushesOut(Misreading):
    """a later equal row pushes out the kept one"""
    concerns, endings = 'calls', (TOP,)
    calls = Turn, Merge

    def best(self, plan, rows):
        return super().best(plan, rows[::-1])


class TurnFirst(Misreading):
    """the turn's rows come first among equals in a merge"""
    concerns, endings = 'calls', (TOP,)
    calls = (Merge,)

    def best_of_both(self, plan, kept, made):
        return self.best(plan, made + kept)


class ThresholdNotAfter(Misreading):
    """rows equal to the threshold are kept"""
    concerns, endings = 'calls', (TOP,)
    calls = (Turn,)

    def passes_threshold(self, plan, row, threshold):
        return not threshold or self.sort_key(plan, row) <= self.sort_key(plan, threshold)


class BitsCompared(Misreading):
    """a condition compares numbers by their bits, so that i-3 is above i2"""
    def place(self, word):
        return term_value(word)


class BitsAsKeys(Misreading):
    """keys order numbers by their bits, so that i-1 comes last"""
    concerns, endings = 'calls', (TOP, GROUP)
    calls = Turn, Merge

    def key(self, word):
        return super().key(word)[0], term_value(word)


class LeastByBits(Misreading):
    """least and greatest go by a number's bits"""
    concerns, endings = 'calls', (GROUP,)
    calls = Turn, Merge

    def value(self, word):
        return term_value(word)

    def key(self, word):
        return self.right.key(word)

    def counted(self, value):
        return self.right.counted(value)


class SumOfBits(Misreading):
    """a sum counts a number's bits"""
    concerns, endings = 'calls', (GROUP,)
    calls = (Turn,)

    def counted(self, value):
        totals = super().counted(value)
        return totals._replace(sum=term_value(value)) if totals.numbers else totals


class SumsUnsigned(Misreading):
    """a sum may be up to 2^64 - 1, and is read without its sign"""
    concerns, endings = 'calls', (GROUP,)
    calls = (Merge,)

    def added_groups(self, plan, kept, made):
        groups = {}
        for keys, totals in map(split_record, in_parts(plan, kept) + in_parts(plan, made)):
            groups[keys] = self.added(groups.get(keys), totals._replace(sum=totals.sum % (1 << 64)))
        return groups

    def sum_fits(self, total):
        return 0 <= total < 1 << 64


class SumsWrap(Misreading):
    """a sum that leaves its range wraps around"""
    concerns, endings = 'calls', (GROUP,)
    calls = (Merge,)

    def sum_fits(self, total):
        return True


class LeastFromZero(Misreading):
    """least starts at 0"""
    concerns, endings = 'calls', (GROUP,)
    calls = Turn, Merge

    def added(self, a, b):
        totals = super().added(a, b)
        return totals._replace(least=number(0)) if totals.numbers else totals


class CarryDropped(Misreading):
    """the carry into a sum's high word is dropped"""
    concerns, endings = 'calls', (GROUP,)
    calls = Turn, Merge

    def sum(self, a, b):
        return signed((a + b & MOST_WORD) | ((a >> 32) + (b >> 32) & MOST_WORD) << 32)


class SingleFloats(Misreading):
    """sums are kept as single-precision floats"""
    concerns, endings = 'calls', (GROUP,)
    calls = Turn, Merge

    def sum(self, a, b):
        return int(struct.unpack('f', struct.pack('f', a + b))[0])


class TextsCounted(Misreading):
    """a text's value is counted among the numbers"""
    concerns, endings = 'calls', (GROUP,)
    calls = (Turn,)

    def counted(self, value):
        return super().counted(value if value == UNBOUND or term_kind(value) == 0 else number(term_value(value)))


class NoNumberNoRow(Misreading):
    """a row whose measured value is no number is left out of rows"""
    concerns, endings = 'calls', (GROUP,)
    calls = (Turn,)

    def groups(self, rows):
        return super().groups([row for row in rows if term_kind(row[-1]) == NUMBER])


class UnboundLeftOut(Misreading):
    """rows with an unbound group key are left out"""
    concerns, endings = 'calls', (GROUP,)
    calls = (Turn,)

    def groups(self, rows):
        return super().groups([row for row in rows if UNBOUND not in row[:-1]])


# The total of nothing.

class NoTotal(Misreading):
    """without rows there is no group, even where there is no group variable"""
    concerns, endings = 'calls', (GROUP,)
    calls = (Turn,)

    def has_total(self, plan, done, before):
        return False


class TotalOfUnfinished(Misreading):
    """an unfinished turn without rows has a record too"""
    concerns, endings = 'calls', (GROUP,)
    calls = (Turn,)

    def has_total(self, plan, done, before):
        return super().has_total(plan, True, before)


class TotalOfWholeAlone(Misreading):
    """the last turn has a record of no rows only where the turns before had no rows"""
    concerns, endings = 'calls', (GROUP,)
    calls = (Turn,)

    def has_total(self, plan, done, before):
        return super().has_total(plan, done, before) and all(row is None for row in before)


class TotalFromStart(Misreading):
    """the last turn has a record of no rows only where it is the first too"""
    concerns, endings = 'calls', (GROUP,)
    calls = (Turn,)

    def has_total(self, plan, done, before):
        return super().has_total(plan, done, before) and not before


class TotalWithKey(Misreading):
    """with one group variable no rows have a record, whose key is unbound"""
    concerns, endings = 'calls', (GROUP,)
    calls = (Turn,)

    def groups_of_turn(self, plan, rows, done, before=()):
        if done and not rows and len(plan.group) == 1:
            return {(UNBOUND,): self.nothing}
        return super().groups_of_turn(plan, rows, done, before)


class NothingIsZero(Misreading):
    """least and greatest of nothing are 0"""
    concerns, endings = 'calls', (GROUP,)
    calls = (Turn,)
    nothing = NOTHING._replace(least=number(0), greatest=number(0))


class NothingIsARow(Misreading):
    """nothing counts as a row"""
    concerns, endings = 'calls', (GROUP,)
    calls = (Turn,)
    nothing = NOTHING._replace(rows=1)


class NothingRefused(Misreading):
    """a record of 0 rows is refused, even without keys"""
    concerns, endings = 'calls', (GROUP,)
    calls = (Merge,)

    def may_be_nothing(self, keys):
        return False


class NothingWithKeyPasses(Misreading):
    """a record of 0 rows passes with keys too"""
    concerns, endings = 'calls', (GROUP,)
    calls = (Merge,)

    def may_be_nothing(self, keys):
        return True


class NothingNotMerged(Misreading):
    """a merged record of 0 rows is left out"""
    concerns, endings = 'calls', (GROUP,)
    calls = (Merge,)

    def added_groups(self, plan, kept, made):
        return {keys: totals for keys, totals in super().added_groups(plan, kept, made).items() if totals.rows}


# Pruning.

class Pruning(Misreading):
    """It concerns turns of best-of queries that were sent a threshold."""
    concerns, endings = 'calls', (TOP,)
    calls = (Turn,)


class NotPruned(Pruning):
    """a match that the threshold leaves out is finished"""
    def pruned(self, plan, walk, at, threshold):
        return False


class UnknownPruned(Pruning):
    """a key that a later pattern binds is compared as unbound"""
    def known(self, branch, bound, variable):
        return True


class NeverBoundUnknown(Pruning):
    """a key that the branch never binds is taken for unknown"""
    def known(self, branch, bound, variable):
        return variable in bound


class StrictlyPruned(Pruning):
    """a match that is equal to the threshold in all keys is finished"""
    def equal_left_out(self):
        return False


class WordsPruned(Pruning):
    """words are compared as they are, not by the order of keys"""
    def compared_by(self, falling, word):
        return -word if falling else word


class PrunedDropsLevel(Pruning):
    """a pruned step drops its level"""
    def place_on(self, walk, at):
        year, branch, places = walk.states[at]
        if len(places) == 1:
            return super().place_on(walk, at)
        return walk.number[year, branch, places[:-2] + (places[-2] + 1,)]


class UnprunedSteps(Pruning):
    """a turn answers the steps that it would have taken unpruned"""
    def steps(self, way, end, ending):
        return end - way[0]


# Turns, states and refusals.

class FullTakesStep(Misreading):
    """a step that delivers nothing because the output was full is used up"""
    concerns, endings = 'calls', (ROWS, GROUP)
    calls = (Turn,)

    def steps(self, way, end, ending):
        return super().steps(way, end, ending) + (ending == FULL)


class FullLosesRow(Misreading):
    """the row for which a full output had no space is lost"""
    concerns, endings = 'calls', (ROWS, GROUP)
    calls = (Turn,)

    def end_of_turn(self, plan, delivered, start, quantum, space):
        ending, end = super().end_of_turn(plan, delivered, start, quantum, space)
        return ending, end + 1 if ending == FULL and end + 1 < len(delivered) else end


class FullKnownGroup(Misreading):
    """full where the next row's group is there"""
    concerns, endings = 'calls', (GROUP,)
    calls = (Turn,)

    def lacks_space(self, wanted, held, space):
        return len(held) >= space


class FullAtOnce(Misreading):
    """full as soon as the output has no space, though the next step delivers nothing"""
    concerns, endings = 'calls', (ROWS, GROUP)
    calls = (Turn,)

    def end_of_turn(self, plan, delivered, start, quantum, space):
        ending, end = super().end_of_turn(plan, delivered, start, quantum, space)
        held = set()
        for at in range(start, end - 1):
            held |= {self.wanted(plan, at, delivered[at])} - {None}
            if len(held) >= space:
                return FULL, at + 1
        return ending, end


class DoneTakesStep(Misreading):
    """one more step on done"""
    concerns = 'calls'
    calls = (Turn,)

    def steps(self, way, end, ending):
        return super().steps(way, end, ending) + (ending == DONE)


class SavedEarly(Misreading):
    """the state is saved one step early"""
    concerns = 'calls'
    calls = (Turn,)

    def saved(self, end):
        return end - 1


class BelowEnd(Misreading):
    """a state's last place is accepted only below its range's end"""
    concerns = 'calls'
    calls = (Turn,)

    def accepts(self, tables, words, state):
        states, number = self.walk(tables, words).states, self.walk(tables, words).number
        if state not in number:
            return False
        year, branch, places = states[number[state] + 1] if number[state] + 1 < len(states) else (-1, -1, ())
        return (year, branch) == state[:2] and len(places) >= len(state[2])


class NumberNotCompared(Misreading):
    """a state of another survey is let pass"""
    concerns = 'calls'
    calls = (Turn,)

    def survey_right(self, survey, state):
        return self.number_right(survey)


class NumberCut(Misreading):
    """a survey's number is cut to 28 bits and not refused"""
    concerns = 'calls'
    calls = Open, Turn

    def number_right(self, survey):
        return True

    def survey_right(self, survey, state):
        return survey_of(state) == survey % SURVEYS

    def save(self, survey, state):
        return super().save(survey % SURVEYS, state)


class NumberAfterPlaces(Misreading):
    """the number of a state is tested after its places"""
    concerns = 'calls'
    calls = (Turn,)

    def state_tests(self, tables, survey, words, plan, state):
        shape, number, places = super().state_tests(tables, survey, words, plan, state)
        return [shape, places, number]


class NumberBeforeShape(Misreading):
    """the number of a state is tested before its shape"""
    concerns = 'calls'
    calls = (Turn,)

    def state_tests(self, tables, survey, words, plan, state):
        shape, _, places = super().state_tests(tables, survey, words, plan, state)
        return [(22, lambda: not state or self.survey_right(survey, state)), shape, places]


class SavedUnderZero(Misreading):
    """a turn saves its state under number 0"""
    concerns = 'calls'
    calls = (Turn,)

    def save(self, survey, state):
        return super().save(0, state)


class TenWords(Misreading):
    """a state buffer of ten words is served"""
    concerns = 'calls'
    calls = Open, Turn

    def room_right(self, state):
        return len(state) >= LEAST_STATE_WORDS - 1


class NumberBeforeRoom(Misreading):
    """an opening tests the survey's number before its buffer"""
    concerns = 'calls'
    calls = (Open,)

    def open(self, tables, survey, words, state):
        answer, buffer = super().open(tables, survey, words, state)
        return (Written(22, 0) if answer.refused == 7 and not self.number_right(survey) else answer), buffer


class SixBeforeFive(Misreading):
    """test 6 is made before test 5"""
    concerns = 'calls'

    def plan_tests(self, words, plan):
        return [(6, lambda: plan or not starts_wrong(words))] + super().plan_tests(words, plan)


class EqualRowsPass(Misreading):
    """the table check lets equal rows pass"""
    concerns = 'calls'
    calls = Open, Turn

    def __init__(self, right):
        super().__init__(right)
        self.checked = {}

    def rows_ascend(self, rows):
        return all(a <= b for a, b in zip(rows, rows[1:]))


class RefusalWrites(Misreading):
    """a merge writes what has space and then refuses by 14"""
    concerns, endings = 'calls', (TOP, GROUP)
    calls = (Merge,)

    def merge(self, words, kept, given, made):
        answer, buffer = super().merge(words, kept, given, made)
        if answer.refused == 14:
            buffer = written(kept, self.merged(read_plan(words), kept[:given], made)[:len(kept)])
        return answer, buffer


# Registers.

class Counted(Misreading):
    """a misreading of registers"""
    concerns, endings = 'calls', (REGISTERS,)
    calls = Turn, Merge, Report


class HighByteFirst(Counted):
    """the high byte of a word is hashed first"""
    def bytes_of(self, word):
        return word.to_bytes(4, 'big')


class MultipliedFirst(Counted):
    """a byte is mixed in after the product, as FNV-1 does"""
    def mixed(self, hashed, byte):
        return hashed * PRIME % (1 << 64) ^ byte


class RankWithoutOne(Counted):
    """a register has the leading zeros, and not one more"""
    def register_rank(self, bits):
        return super().register_rank(bits) - 1


class UnboundCounted(Counted):
    """an unbound value is hashed"""
    def is_counted(self, word):
        return True


class TouchedAlone(Counted):
    """a turn's list ends with the last register that was touched"""
    def registers(self, values):
        made = super().registers(values)
        while made and not made[-1]:
            made.pop()
        return made


class SumForGreater(Counted):
    """merging adds registers up"""
    def greater(self, a, b):
        return a + b


class SixtyTwoPasses(Counted):
    """a register of 62 passes test 12"""
    def most_rank(self):
        return MOST_RANK + 1


class NoneKeptRefused(Counted):
    """an empty kept list is refused by 12"""
    def kept_registers(self, words):
        return self.are_registers(words)


class NoneMadeTaken(Counted):
    """an empty list of a turn is merged"""
    def list_right(self, plan, words):
        return self.kept_registers(words)

    def merged_registers(self, kept, made):
        return super().merged_registers(kept, made) if made else list(kept)


class NoneUncounted(Counted):
    """a report on an empty kept list counts nothing"""
    calls = (Report,)

    def counted_registers(self, kept):
        return kept


class ListBeforeRoom(Counted):
    """a report tests its list before its buffer"""
    calls = (Report,)

    def report(self, kept, given, report):
        answer, buffer = super().report(kept, given, report)
        wrong = given > len(kept) or not self.kept_registers(kept[:given])
        return (answer._replace(refused=12) if answer.refused == 7 and wrong else answer), buffer


def starts_wrong(words):
    """Whether a plan with a wrong variable stands at the beginning, with words left over."""
    return any(plan and not variables_right(plan) for plan in (read_plan(words[:length]) for length in range(len(words))))


ALL_MISREADINGS = [
    NamesOrdered, ErrorIsFalse, LeftErrorDecides, ErrorDecidesOr, ErrorDecidesAnd, KeepsErrors, NumberIsNoText, ErrorIsUnequal,
    FirstForLatest, EveryWithoutWord, YearSkipped, YearsBackwards, AcrossYears, NamedMustBeThere, YearUntested, YearsBeforeKinds,
    YearsAfterOrder, PlanYearFirst, AnyPlanYear, RepeatsIgnored, EmptyAtZero, EndTooEarly, SubjectBeforeObject, BoundBefore,
    BranchDuplicates, AllDuplicates, RawWords, UnboundFirstFalling, TextsBeforeNumbers, BitsCompared, BitsAsKeys, LeastByBits,
    SumOfBits, SumsUnsigned, SumsWrap, ZeroIsNone, ZeroIsMost, LaterPushesOut, TurnFirst, ThresholdNotAfter, NotPruned,
    UnknownPruned, NeverBoundUnknown, StrictlyPruned, WordsPruned, PrunedDropsLevel, UnprunedSteps, LeastFromZero,
    CarryDropped, SingleFloats, TextsCounted, NoNumberNoRow, UnboundLeftOut, NoTotal, TotalOfUnfinished, TotalOfWholeAlone,
    TotalFromStart, TotalWithKey, NothingIsZero, NothingIsARow, NothingRefused, NothingWithKeyPasses, NothingNotMerged, FullTakesStep,
    FullLosesRow, FullKnownGroup, FullAtOnce, DoneTakesStep, SavedEarly, BelowEnd, NumberNotCompared, NumberCut, NumberAfterPlaces,
    NumberBeforeShape, SavedUnderZero, TenWords, NumberBeforeRoom, SixBeforeFive, EqualRowsPass, RefusalWrites, HighByteFirst, MultipliedFirst,
    RankWithoutOne, UnboundCounted, TouchedAlone, SumForGreater, SixtyTwoPasses, NoneKeptRefused, NoneMadeTaken, NoneUncounted, ListBeforeRoom]
