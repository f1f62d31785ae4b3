"""What the engine makes of a text's rows, and says of its words, by the portable library: tables, what was dropped, and what an adviser sees; the number that
refuses them, and the line that is at fault; and woods grown from a seed.

The line is found by asking the engine about parts: of the rows so many from the front, of the plan a branch or the ending alone. Nothing
here knows the rules; what it needs of them is which number is about what.
"""
import ctypes
import functools
import os
import shutil
import subprocess
import sys

ROOT = os.path.normpath(os.path.join(os.path.dirname(os.path.abspath(__file__)), '..'))
PORTABLE = os.path.join(ROOT, 'portable')
REASONS = os.path.join(ROOT, 'tools', 'refusals.txt')
NAMES = {'darwin': 'libsotjarn_portable.dylib', 'win32': 'sotjarn_portable.dll'}
FIELD_KIND, ROW_ORDER, ROW_NUMBERS, FORM, VARIABLES, QUANTUM, YEAR = 2, 3, 4, 5, 6, 8, 23
STATE_WORDS, ROW_WORDS, MOST_STEMS = 11, 4, 32768
SURVEY = 0            # the number of a file's tables
WRONG_KIND, REPEAT = 1, 2           # why a row was dropped

# Words of plans, for questions about parts.
HEAD, BRANCH, ONE_PATTERN, TRUE, GROUP_OF_NONE, VARIABLE_0 = 0x10000000, 0x20000000, 0x20000001, [0x30000000], 0xC0000000, 0xC0000000


def is_variable(word):
    return word >> 30 == 3


class Missing(Exception):
    """Why the library is not there."""


class Refused(Exception):
    """An upload that is refused, by a number."""

    def __init__(self, number):
        super().__init__(number)
        self.number = number


class Written(ctypes.Structure):
    _fields_ = [('refused', ctypes.c_uint32), ('words', ctypes.c_size_t)]


class Turned(ctypes.Structure):
    _fields_ = [('ending', ctypes.c_uint32), ('refused', ctypes.c_uint32), ('steps', ctypes.c_uint32),
                ('state_words', ctypes.c_size_t), ('list_words', ctypes.c_size_t)]


class Made(ctypes.Structure):
    _fields_ = [('refused', ctypes.c_uint32), ('rows_words', ctypes.c_size_t), ('pos_words', ctypes.c_size_t),
                ('osp_words', ctypes.c_size_t), ('report_words', ctypes.c_size_t)]


class Tables(ctypes.Structure):
    _fields_ = [('refused', ctypes.c_uint32), ('rows_words', ctypes.c_size_t), ('pos_words', ctypes.c_size_t), ('osp_words', ctypes.c_size_t)]


@functools.lru_cache
def built():
    """The path of the portable library, made again by cargo where its source is newer."""
    path = os.path.join(PORTABLE, 'target', 'release', NAMES.get(sys.platform, 'libsotjarn_portable.so'))
    if shutil.which('cargo') is None:
        if os.path.exists(path):
            return path
        raise Missing("the portable library is not built, and 'cargo' is not on the path; install Rust with cargo (Debian: apt-get install cargo)")
    if not os.path.exists(path):
        print('wood: building the portable library: some seconds, once', file=sys.stderr)
    done = subprocess.run(['cargo', 'build', '--release', '--quiet', '--manifest-path', os.path.join(PORTABLE, 'Cargo.toml'),
                           '--target-dir', os.path.join(PORTABLE, 'target')], capture_output=True, text=True, check=False)
    if done.returncode != 0:
        raise Missing(f'the portable library could not be built:\n{done.stderr}')
    return path


def buffers(*lists):
    """Addresses and lengths of some lists of words, as the calls take them."""
    for words in lists:
        yield (ctypes.c_uint32 * max(1, len(words)))(*words)
        yield ctypes.c_size_t(len(words))


class Engine:
    """The calls of the library, as far as they are asked here."""

    def __init__(self):
        library = ctypes.CDLL(built())
        self.open_call, self.turn_call, self.least_call = library.sotjarn_open, library.sotjarn_turn, library.sotjarn_least_output
        self.open_call.restype, self.turn_call.restype, self.least_call.restype = Written, Turned, Written
        self.make_call = library.sotjarn_make
        self.make_call.restype = Made
        self.view_call = library.sotjarn_view
        self.view_call.restype = Tables
        self.grow_call = library.sotjarn_grow
        self.grow_call.restype = Tables

    def make(self, upload):
        """The rows that are kept of an upload, sorted, both lists of row numbers, and place and code of each row that is dropped."""
        words, count = [w for row in upload for w in row], len(upload)
        lent = list(buffers([0] * len(words), [0] * count, [0] * count, [0] * 2 * count))
        answer = self.make_call(*buffers(words), *lent)
        if answer.refused:
            raise Refused(answer.refused)
        lengths = (answer.rows_words, answer.pos_words, answer.osp_words, answer.report_words)
        rows, pos, osp, report = (buffer[:length] for buffer, length in zip(lent[::2], lengths))
        kept = [tuple(rows[at:at + ROW_WORDS]) for at in range(0, len(rows), ROW_WORDS)]
        return kept, pos, osp, list(zip(report[::2], report[1::2]))

    def view(self, rows, pos, osp, grant, membership):
        """The rows that a grant makes visible, and both lists of their numbers."""
        lent = list(buffers([0] * ROW_WORDS * len(rows), [0] * len(rows), [0] * len(rows)))
        tables = buffers([w for row in rows for w in row], pos, osp, grant)
        answer = self.view_call(*tables, ctypes.c_uint32(membership), *lent)
        if answer.refused:
            raise Refused(answer.refused)
        lengths = (answer.rows_words, answer.pos_words, answer.osp_words)
        seen, seen_pos, seen_osp = (buffer[:length] for buffer, length in zip(lent[::2], lengths))
        return [tuple(seen[at:at + ROW_WORDS]) for at in range(0, len(seen), ROW_WORDS)], seen_pos, seen_osp

    def grow(self, seed, stems, year):
        """The rows of a wood grown from a seed."""
        count = 2 * min(stems, MOST_STEMS)
        lent = list(buffers([0] * ROW_WORDS * count, [0] * count, [0] * count))
        answer = self.grow_call(*map(ctypes.c_uint32, (seed, stems, year)), *lent)
        if answer.refused:
            raise Refused(answer.refused)
        rows = lent[0][:answer.rows_words]
        return [tuple(rows[at:at + ROW_WORDS]) for at in range(0, len(rows), ROW_WORDS)]

    def open(self, rows, pos, osp, plan):
        """The number that refuses an opening, or 0."""
        return self.open_call(*buffers(rows, pos, osp), ctypes.c_uint32(SURVEY), *buffers(plan, [0] * STATE_WORDS)).refused

    def plan(self, plan):
        """The number that refuses a plan, or 0."""
        return self.least_call(*buffers(plan)).refused

    def all(self, rows, pos, osp, plan, quantum):
        """The number that refuses an opening or a first turn, or 0."""
        state = list(buffers([0] * STATE_WORDS))
        query = [*buffers(rows, pos, osp), ctypes.c_uint32(SURVEY), *buffers(plan)]
        opened = self.open_call(*query, *state)
        if opened.refused:
            return opened.refused
        output = [0] * self.least_call(*buffers(plan)).words
        return self.turn_call(*query, *state, ctypes.c_size_t(opened.words), ctypes.c_uint32(quantum), *buffers([], output)).refused


def reason(number):
    with open(REASONS, encoding='utf-8') as lines:
        return next(line.split(' ', 1)[1].strip() for line in lines if line.startswith(f'{number} '))


class Search:
    """The line of a text at fault for a number, by questions to the engine."""

    def __init__(self, engine, text, pos, osp):
        self.engine, self.text, self.pos, self.osp = engine, text, pos, osp

    def line(self, number):
        if number in (FIELD_KIND, ROW_ORDER) or number == YEAR and self.refused(len(self.text.rows)) == YEAR:
            return self.row(number)
        if number == YEAR:
            return self.text.read_line or self.text.words_line
        if number == ROW_NUMBERS:
            return self.list()
        if number in (FORM, VARIABLES):
            return self.part(number)
        return self.text.quantum_line if number == QUANTUM else None

    def refused(self, count):
        """The number that refuses so many rows from the front; 5 where they are right, since no plan is asked with them."""
        words = [w for row in self.text.rows[:count] for w in row]
        return self.engine.open(words, range(count), range(count), [])

    def row(self, number):
        """Of the rows from the front, the first with which they are refused."""
        first, last = 0, len(self.text.rows)
        while first + 1 < last:
            middle = (first + last) // 2
            first, last = (first, middle) if self.refused(middle) == number else (middle, last)
        return self.text.row_lines[last - 1]

    def list(self):
        rows = [w for row in self.text.rows for w in row]
        pos_given = self.text.lists.get('pos', self.pos)
        fault = 'pos' if self.engine.open(rows, pos_given, self.osp, []) == ROW_NUMBERS else 'osp'
        return self.text.list_lines[fault]

    def part(self, number):
        """The first branch with which those from the front are refused, or the ending, or what stands behind it."""
        def refuses(branches, ending):
            return self.engine.plan([HEAD | len(branches), *(w for words in branches for w in words), *ending]) == number      # in the latest year

        for count, branch in enumerate(self.text.branches, 1):
            if refuses([b.words() for b in self.text.branches[:count]], self.measured(branch.terms)):
                return self.in_branch(branch, refuses)
        if self.text.ending and refuses([self.all_bound()], self.text.ending):
            return self.text.ending_line
        return self.text.words_line or self.text.last_line

    def in_branch(self, branch, refuses):
        """The first pattern that is refused alone, or the condition where the branch passes without it, else the branch itself."""
        for at, line in enumerate(branch.pattern_lines):
            terms = branch.terms[3 * at:3 * at + 3]
            if refuses([[ONE_PATTERN, *terms, *TRUE]], self.measured(terms)):
                return line
        ending = self.measured(branch.terms)
        in_condition = refuses([branch.words()], ending) and not refuses([branch.words(condition=TRUE)], ending)
        return branch.condition_line if in_condition else branch.line

    def measured(self, terms):
        """An ending that measures a variable of some terms, so that only they can be at fault; ?0 where they have none."""
        return [GROUP_OF_NONE, min(filter(is_variable, terms), default=VARIABLE_0)]

    def all_bound(self):
        """A branch that binds what the branches of the text bind."""
        terms = sorted({w for branch in self.text.branches for w in branch.terms if is_variable(w)}) or [VARIABLE_0]
        terms += [terms[0]] * (-len(terms) % 3)
        return [BRANCH | len(terms) // 3, *terms, *TRUE]
