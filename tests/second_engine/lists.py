"""Best-of lists, groups and registers: of delivered rows, and merged."""
from inputs import NOTHING, Totals, ascend, delivered_term, in_parts, split_record, totals_right
from plan_reader import width
from registers import Registers
from words import GROUP, NUMBER, REGISTERS, ROWS, TOP, UNBOUND, number_value, term_kind, term_value, two_words

MOST_COUNT = (1 << 64) - 1
SUMS = 1 << 63                       # sums lie from -SUMS to SUMS - 1
DEFAULT_BEST = 10                   # rows of a best-of list whose plan gives no number, k = 0


class Lists(Registers):
    """Orders of rows and groups, their words, and merging."""
    nothing = NOTHING

    def key(self, word):
        """A word's position among the values of a key: unbound first, then names, numbers, texts, each by value."""
        return (0, 0) if word == UNBOUND else (1 + term_kind(word), self.value(word))

    def value(self, word):
        """What a word counts for among those of its kind."""
        return number_value(word) if term_kind(word) == NUMBER else term_value(word)

    def rank(self, falling, word):
        """A word's position by a key."""
        kind, value = self.key(word)
        return (-kind, -value) if falling else (kind, value)

    def sort_key(self, plan, row):
        return tuple(self.rank(falling, row[plan.columns.index(v)]) for falling, v in plan.keys)

    def best_count(self, plan):
        return plan.k or DEFAULT_BEST

    def best(self, plan, rows):
        """The first k by the keys; rows equal in all keys keep their order."""
        return sorted(rows, key=lambda row: self.sort_key(plan, row))[:self.best_count(plan)]

    def passes_threshold(self, plan, row, threshold):
        return not threshold or self.sort_key(plan, row) < self.sort_key(plan, threshold)

    def counted(self, value):
        """The totals of one row."""
        if term_kind(value) == NUMBER:
            return Totals(1, 1, self.value(value), value, value)
        return Totals(1, 0, 0, UNBOUND, UNBOUND)

    def added(self, a, b):
        if a is None or b is None:
            return a or b
        numbers = [t for t in (a, b) if t.numbers > 0]
        return Totals(a.rows + b.rows, a.numbers + b.numbers, self.sum(a.sum, b.sum),
                      min((t.least for t in numbers), key=self.value, default=UNBOUND),
                      max((t.greatest for t in numbers), key=self.value, default=UNBOUND))

    def sum(self, a, b):
        return a + b

    def groups(self, rows):
        groups = {}
        for *keys, value in rows:
            groups[tuple(keys)] = self.added(groups.get(tuple(keys)), self.counted(value))
        return groups

    def has_total(self, plan, done, before):
        """Whether a turn has a record even without rows: the one that is done, where there is no group variable. `before` is what
        the steps before the turn delivered."""
        return done and plan.group == ()

    def groups_of_turn(self, plan, rows, done, before=()):
        """The groups of a turn's rows, or that of nothing."""
        if not rows and self.has_total(plan, done, before):
            return {(): self.nothing}
        return self.groups(rows)

    def group_key(self, keys):
        return tuple(map(self.key, keys))

    def records(self, groups):
        """The words of groups, in ascending order of their keys."""
        return [word for keys in sorted(groups, key=self.group_key) for word in [
            *keys, *two_words(groups[keys].rows), *two_words(groups[keys].numbers), *two_words(groups[keys].sum),
            groups[keys].least, groups[keys].greatest]]

    def list_words(self, plan, rows, threshold, done, before=()):
        """The words of the list that a turn's rows make; done is whether it is the last turn."""
        if plan.kind == GROUP:
            return self.records(self.groups_of_turn(plan, rows, done, before))
        if plan.kind == REGISTERS:
            return self.registers(value for value, in rows)
        if plan.kind == TOP:
            rows = self.best(plan, [row for row in rows if self.passes_threshold(plan, row, threshold)])
        return [word for row in rows for word in row]

    # Merging.

    def may_be_nothing(self, keys):
        """Whether a record may have rows 0: only one without keys."""
        return not keys

    def record_right(self, keys, totals):
        return (totals.rows > 0 or self.may_be_nothing(keys)) and totals_right(totals, self.value)

    def list_right(self, plan, words):
        """Test 12 on a list that a turn made."""
        if plan.kind == REGISTERS:
            return self.are_registers(words)
        if plan.kind == ROWS or len(words) % width(plan) != 0:
            return False
        parts = in_parts(plan, words)
        if plan.kind == TOP:
            keys = [self.sort_key(plan, row) for row in parts]
            return (len(parts) <= self.best_count(plan) and all(map(delivered_term, words))
                    and all(a <= b for a, b in zip(keys, keys[1:])))
        groups = [split_record(record) for record in parts]
        return (all(delivered_term(w) for keys, _ in groups for w in keys) and ascend([self.group_key(keys) for keys, _ in groups])
                and all(self.record_right(*group) for group in groups))

    def kept_right(self, plan, words):
        """Test 12 on a kept list: before the first merge there are no registers."""
        return self.kept_registers(words) if plan.kind == REGISTERS else self.list_right(plan, words)

    def added_groups(self, plan, kept, made):
        groups = {}
        for keys, totals in map(split_record, in_parts(plan, kept) + in_parts(plan, made)):
            groups[keys] = self.added(groups.get(keys), totals)
        return groups

    def totals_fit(self, plan, kept, made):
        return all(max(t.rows, t.numbers) <= MOST_COUNT and self.sum_fits(t.sum) for t in self.added_groups(plan, kept, made).values())

    def sum_fits(self, total):
        return -SUMS <= total < SUMS

    def merged(self, plan, kept, made):
        if plan.kind == GROUP:
            return self.records(self.added_groups(plan, kept, made))
        if plan.kind == REGISTERS:
            return self.merged_registers(kept, made)
        return [word for row in self.best_of_both(plan, in_parts(plan, kept), in_parts(plan, made)) for word in row]

    def best_of_both(self, plan, kept, made):
        return self.best(plan, kept + made)
