"""What is wrong with a text's plan, in words: the cause behind a refusal by 5 or 6, looked for in the line that the engine's answers led to.

The engine decides whether a plan is refused, and by which number; what stands here only explains it. Where nothing is found, there is no cause to tell.
"""
FORM, VARIABLES = 5, 6
MOST_BRANCHES, MOST_PATTERNS, MOST_NODES, MOST_DEPTH = 4, 8, 31, 8
MOST_COLUMNS, MOST_BEST, MOST_KEYS, MOST_GROUP_KEYS, MOST_PLAN, MOST_VARIABLE = 16, 64, 4, 4, 256, 15
TRUE, AND, OR, NOT, COMPARISON, ROWS, TOP, RISING, FALLING, GROUP = 3, 4, 5, 6, 7, 8, 9, 10, 11, 12
VARIABLE_KIND = 3
LOW = (1 << 28) - 1
VALUE = (1 << 30) - 1


def variables_in(words):
    """The numbers of the variables among some terms."""
    return [word & VALUE for word in words if word >> 30 == VARIABLE_KIND]


def shape(condition):
    """How many nodes a condition has, how deep it is, and its terms."""
    nodes, deepest, terms, waiting, at = 0, 0, [], [1], 0
    while waiting:
        depth, kind = waiting.pop(), condition[at] >> 28
        nodes, deepest, at = nodes + 1, max(deepest, depth), at + 1
        if kind == COMPARISON:
            terms += condition[at:at + 2]
            at += 2
        waiting += [depth + 1] * {AND: 2, OR: 2, NOT: 1}.get(kind, 0)
    return nodes, deepest, terms


def unbound(variables, bound, where=''):
    """The first variable that cannot stand where it does."""
    for number in variables:
        if number > MOST_VARIABLE:
            return f'?{number} is no variable: there are ?0 to ?{MOST_VARIABLE}'
        if number not in bound:
            return f'?{number} stands in no pattern{where}'
    return None


def repeated(variables, what):
    return next((f'?{v} stands twice among {what}' for at, v in enumerate(variables) if v in variables[:at]), None)


class Ending:
    """The words of an ending: its kind, its columns or group variables, its keys, and what it measures."""

    def __init__(self, words):
        self.kind, self.best = words[0] >> 28, words[0] & LOW
        rows = words[1:] if self.kind == TOP else words
        count = rows[0] & LOW if self.kind != TOP or rows else 0
        self.columns = [word & VALUE for word in rows[1:1 + count]]
        self.keys = [word & LOW for word in rows[1 + count:]] if self.kind == TOP else []
        self.others = variables_in(rows[1 + count:]) if self.kind == GROUP else []

    def form(self):
        if self.kind == TOP and self.best > MOST_BEST:
            return f'top {self.best}: a best-of list has at most {MOST_BEST} rows'
        if self.kind in (ROWS, TOP) and not 1 <= len(self.columns) <= MOST_COLUMNS:
            return f'{len(self.columns)} variables: a row has 1 to {MOST_COLUMNS}'
        if self.kind == TOP and not 1 <= len(self.keys) <= MOST_KEYS:
            return f'{len(self.keys)} keys: a best-of list has 1 to {MOST_KEYS}'
        if self.kind == GROUP and len(self.columns) > MOST_GROUP_KEYS:
            return f'{len(self.columns)} variables to group by: there are at most {MOST_GROUP_KEYS}'
        return None

    def variables(self, bound):
        return (unbound(self.columns + self.others, bound)
                or repeated(self.columns, 'the columns' if self.kind != GROUP else 'the variables to group by')
                or next((f'the key ?{key} is not among the columns' for key in self.keys if key not in self.columns), None))


def branch_form(text, branch, line):
    if text.branches.index(branch) >= MOST_BRANCHES:
        return f'{len(text.branches)} branches: a plan has at most {MOST_BRANCHES}'
    patterns = len(branch.pattern_lines)
    if not 1 <= patterns <= MOST_PATTERNS:
        return f'{patterns} patterns: a branch has 1 to {MOST_PATTERNS}'
    if line != branch.condition_line:
        return None
    nodes, depth, _ = shape(branch.condition)
    if nodes > MOST_NODES:
        return f'the condition has {nodes} parts: at most {MOST_NODES} are read'
    return f'the condition is {depth} deep: at most {MOST_DEPTH} is read' if depth > MOST_DEPTH else None


def branch_variables(branch, line):
    if line != branch.condition_line:
        return unbound(variables_in(branch.terms), range(MOST_VARIABLE + 1))
    return unbound(variables_in(shape(branch.condition)[2]), variables_in(branch.terms), ' of its branch')


def form_cause(text, line):
    branch = branch_at(text, line)
    found = branch_form(text, branch, line) if branch else None
    if found or not text.branches:
        return found or "there is no 'branch'"
    if text.ending and line == text.ending_line:
        found = Ending(text.ending).form()
    if not found and not text.ending and not text.words:
        found = 'there is no ending: write rows, top, group or registers'
    words = len(text.plan())
    return found or (f'the plan has {words} words: at most {MOST_PLAN} are read' if words > MOST_PLAN else None)


def variables_cause(text, line):
    branch = branch_at(text, line)
    if branch:
        return branch_variables(branch, line)
    if text.ending and line == text.ending_line:
        return Ending(text.ending).variables({v for b in text.branches for v in variables_in(b.terms)})
    return None


def branch_at(text, line):
    """The branch that has a line; none for the ending's and what stands behind it."""
    if line in (None, text.ending_line, text.words_line):
        return None
    lines = [branch for branch in text.branches if line in (branch.line, branch.condition_line, *branch.pattern_lines)]
    return lines[0] if lines else None


def cause(text, number, line):
    """What is wrong in a line of a text that is refused by a number, or None."""
    find = {FORM: form_cause, VARIABLES: variables_cause}.get(number)
    return find(text, line) if find else None
