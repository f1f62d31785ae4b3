"""Woods and plans to keep, with what Jena says they deliver: the input and the expected output of the program trial_plans.

The input is a stream of little-endian words, a block for each wood: the words of the block that follow, the row count, 0, rows,
POS, OSP, and its plans. A plan is the words of it that follow, its number, 1 where it ends in groups and else 0, the words of a
row or record, the words of its cuts, for each cut its quantum and the words of its output, and the plan's own words.

The output has for each cut a line with the plan's number, its quantum and its output, and then the lines that the turn printer
has for rows or groups, however the cuts fall. Rows and groups are Jena's. SPARQL leaves open in which order rows come, and which
of the rows with equal keys a best-of list has: there the order of delivery decides, and the evaluation knows it.
"""
import os
import struct
from collections import defaultdict

from evaluation import MOST_QUANTUM
from plan_reader import read_plan, width
from words import GROUP, TOP, shown

MOST_STORED_ROWS = 24
NAMES = ('stdin', 'stdout')


# Lines.

def row_line(row):
    return ' '.join(['row', *map(shown, row)])


def group_line(keys, totals):
    return ' '.join(['group', *map(shown, keys), *map(str, totals[:3]), *map(shown, totals[3:])])


def list_line(words):
    return ' '.join(['list', *map(str, words)])


# What Jena answered, in the order of the rules.

def as_delivered(found, delivered):
    """Jena's rows, each at a place where the evaluation delivers it."""
    places = defaultdict(list)
    for at, row in enumerate(delivered):
        places[row].append(at)
    return sorted(found, key=lambda row: places[row].pop(0))


def best_as_delivered(right, plan, every, listed):
    """For each row of Jena's best-of list the first row left that has its keys, of all of Jena's rows as they are delivered."""
    left = defaultdict(list)
    for row in every:
        left[right.sort_key(plan, row)].append(row)
    return [left[right.sort_key(plan, row)].pop(0) for row in listed]


def result_lines(right, plan, every, listed, delivered):
    """The lines of Jena's answer: rows in order of delivery, best-of rows and groups in that of their keys."""
    if plan.kind == GROUP:
        return [group_line(keys, listed[keys]) for keys in sorted(listed, key=right.group_key)]
    rows = as_delivered(every, delivered)
    return list(map(row_line, best_as_delivered(right, plan, rows, listed) if plan.kind == TOP else rows))


# Cuts and words.

def cuts(right, plan, number):
    """Quanta, each with the words of an output: single steps, a few steps, and all steps with space for a few rows or groups."""
    least = right.least_output(plan)
    return [(1, least), (2 + number % 11, least), (MOST_QUANTUM, least if plan.kind == TOP else (1 + number % 8) * least)]


def with_length(words):
    return [len(words), *words]


def entry(right, number, words):
    """The words of a plan with its cuts."""
    plan = read_plan(words)
    cut_words = [word for cut in cuts(right, plan, number) for word in cut]
    return with_length([number, int(plan.kind == GROUP), width(plan), *with_length(cut_words), *words])


def block(tables, entries):
    """The bytes of a wood and its plans."""
    words = with_length([len(tables.pos), 0, *tables.rows, *tables.pos, *tables.osp, *entries])
    return struct.pack(f'<{len(words)}I', *words)


class Store:
    """The two files in the making: woods with the words of their plans, and lines."""

    def __init__(self):
        self.woods, self.lines, self.count = [], [], 0

    def plan(self, right, tables, words, every, listed, delivered):
        if not self.woods or self.woods[-1][0] is not tables:
            self.woods.append((tables, []))
        self.woods[-1][1].extend(entry(right, self.count, words))
        plan = read_plan(words)
        answer = result_lines(right, plan, every, listed, delivered)
        for quantum, output in cuts(right, plan, self.count):
            self.lines += [f'plan {self.count} quantum {quantum} output {output}', *answer]
        self.count += 1

    def files(self):
        """The bytes of each file, by its name."""
        return dict(zip(NAMES, (b''.join(block(*wood) for wood in self.woods),
                                ''.join(line + '\n' for line in self.lines).encode())))

    def write(self, folder):
        os.makedirs(folder, exist_ok=True)
        for name, data in self.files().items():
            with open(os.path.join(folder, name), 'wb') as file:
                file.write(data)

    def differing(self, folder):
        """The names of a folder's files that are not what is stored now."""
        return [name for name, data in self.files().items() if read(os.path.join(folder, name)) != data]


def read(path):
    """The bytes of a file, or None where there is none."""
    if not os.path.exists(path):
        return None
    with open(path, 'rb') as file:
        return file.read()
