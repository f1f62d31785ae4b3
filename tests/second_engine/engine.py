"""The engine's calls, from a library with their C declarations, answering as the evaluation does."""
import faulthandler
import os
import subprocess
from ctypes import CDLL, POINTER, Structure, addressof, c_size_t, c_uint32, c_uint64, cast, sizeof

from evaluation import Turned, Written
from making import Made
from queueing import PLAN_ROOM, STATE_ROOM, Entry, Queued, Service
from registers import Reported
from viewing import Viewed

GUARD = 4
GUARD_WORD = 0xA5A5C3C3
WORDS = POINTER(c_uint32)


class CWritten(Structure):
    _fields_ = [('refused', c_uint32), ('words', c_size_t)]


class CTurned(Structure):
    _fields_ = [('ending', c_uint32), ('refused', c_uint32), ('steps', c_uint32), ('state_words', c_size_t),
                ('list_words', c_size_t)]


class CMade(Structure):
    _fields_ = [('refused', c_uint32), ('rows_words', c_size_t), ('pos_words', c_size_t), ('osp_words', c_size_t),
                ('report_words', c_size_t)]


class CEntry(Structure):
    _fields_ = [('allowance', c_uint64), ('owner', c_uint32), ('plan_words', c_uint32), ('state_words', c_uint32),
                ('plan', c_uint32 * PLAN_ROOM), ('state', c_uint32 * STATE_ROOM)]


class CQueued(Structure):
    _fields_ = [('refused', c_uint32), ('line_entries', c_size_t), ('aside_entries', c_size_t)]


class CService(Structure):
    _fields_ = [('ending', c_uint32), ('refused', c_uint32), ('steps', c_uint32), ('owner', c_uint32), ('left', c_uint64),
                ('state_words', c_size_t), ('list_words', c_size_t), ('line_entries', c_size_t), ('aside_entries', c_size_t)]


class CTables(Structure):
    _fields_ = [('refused', c_uint32), ('rows_words', c_size_t), ('pos_words', c_size_t), ('osp_words', c_size_t)]


class Touched(Exception):
    """A word changed that the call was not lent for writing."""


class Buffer:
    """Words lent to a call, with guard words before and behind."""

    def __init__(self, words):
        self.lent = tuple(words)
        self.array = (c_uint32 * (len(words) + 2 * GUARD))(*(GUARD_WORD,) * GUARD, *words, *(GUARD_WORD,) * GUARD)

    def arguments(self):
        return cast(addressof(self.array) + GUARD * sizeof(c_uint32), WORDS), len(self.lent)

    def words(self, name):
        """The words at exit."""
        words = tuple(self.array)
        if set(words[:GUARD] + words[len(words) - GUARD:]) != {GUARD_WORD}:
            raise Touched(f'a word beside {name}')
        return words[GUARD:len(words) - GUARD]

    def unchanged(self, name):
        if self.words(name) != self.lent:
            raise Touched(name)


GUARD_ENTRY = Entry(*(GUARD_WORD,) * 4, (GUARD_WORD,) * PLAN_ROOM, (GUARD_WORD,) * STATE_ROOM)
ENTRIES = POINTER(CEntry)


class EntryBuffer:
    """Entries lent to a call, with one before and one behind."""

    def __init__(self, entries):
        self.count = len(entries)
        self.array = (CEntry * (self.count + 2))(*(CEntry(*entry[:4], (c_uint32 * PLAN_ROOM)(*entry.plan), (c_uint32 * STATE_ROOM)(*entry.state))
                                                   for entry in (GUARD_ENTRY, *entries, GUARD_ENTRY)))

    def arguments(self):
        return cast(addressof(self.array) + sizeof(CEntry), ENTRIES), self.count

    def entries(self, name):
        """The entries at exit."""
        entries = tuple(Entry(e.allowance, e.owner, e.plan_words, e.state_words, tuple(e.plan), tuple(e.state)) for e in self.array)
        if entries[0] != GUARD_ENTRY or entries[-1] != GUARD_ENTRY:
            raise Touched(f'an entry beside {name}')
        return entries[1:-1]


def lent(tables, words):
    """The buffers that open and turn take first."""
    return [('rows', Buffer(tables.rows)), ('pos', Buffer(tables.pos)), ('osp', Buffer(tables.osp)), ('plan', Buffer(words))]


def surveyed(read, survey):
    """The arguments of tables, a survey's number and a plan."""
    return passed(read[:3]) + [survey] + passed(read[3:])


def passed(buffers):
    return [argument for _, buffer in buffers for argument in buffer.arguments()]


def check(buffers):
    for name, buffer in buffers:
        buffer.unchanged(name)


def shared(path, folder):
    """A shared library: a static one is linked into it."""
    if not path.endswith('.a'):
        return os.path.abspath(path)
    target = os.path.join(folder, 'libengine.so')
    subprocess.run(['cc', '-shared', '-o', target, '-Wl,--whole-archive', path, '-Wl,--no-whole-archive'], check=True)
    return target


class Engine:
    """The calls of a library."""

    def __init__(self, path, folder):
        faulthandler.enable()
        library = CDLL(shared(path, folder))
        table_types, survey_types = [WORDS, c_size_t] * 3, [WORDS, c_size_t] * 3 + [c_uint32]
        self.opening, self.turning, self.merging = library.sotjarn_open, library.sotjarn_turn, library.sotjarn_merge
        self.opening.restype, self.opening.argtypes = CWritten, survey_types + [WORDS, c_size_t] * 2
        turn_types = [WORDS, c_size_t] * 2 + [c_size_t, c_uint32] + [WORDS, c_size_t] * 2
        self.turning.restype, self.turning.argtypes = CTurned, survey_types + turn_types
        self.merging.restype, self.merging.argtypes = CWritten, [WORDS, c_size_t, WORDS, c_size_t, c_size_t, WORDS, c_size_t]
        self.reporting = library.sotjarn_report
        self.reporting.restype, self.reporting.argtypes = CWritten, [WORDS, c_size_t, c_size_t, WORDS, c_size_t]
        self.making = library.sotjarn_make
        self.making.restype, self.making.argtypes = CMade, [WORDS, c_size_t] * 5
        self.joining, self.serving, self.topping = library.sotjarn_join, library.sotjarn_serve, library.sotjarn_top_up
        lists = [ENTRIES, c_size_t, c_size_t] * 2
        self.joining.restype, self.joining.argtypes = CQueued, survey_types + lists + [c_uint32, c_uint64] + [WORDS, c_size_t] * 2
        self.serving.restype, self.serving.argtypes = CService, survey_types + lists + [c_uint32] + [WORDS, c_size_t] * 2
        self.topping.restype, self.topping.argtypes = CQueued, lists + [c_uint32, c_uint64]
        self.viewing = library.sotjarn_view
        self.viewing.restype, self.viewing.argtypes = CTables, table_types + [WORDS, c_size_t, c_uint32] + [WORDS, c_size_t] * 3

    def open(self, tables, survey, words, state):
        read, buffer = lent(tables, words), Buffer(state)
        answer = self.opening(*surveyed(read, survey), *buffer.arguments())
        check(read)
        return Written(answer.refused, answer.words), buffer.words('state')

    def turn(self, tables, survey, words, state, given, quantum, threshold, output):
        read, buffer, limit, made = lent(tables, words), Buffer(state), ('threshold', Buffer(threshold)), Buffer(output)
        answer = self.turning(*surveyed(read, survey), *buffer.arguments(), given, quantum, *limit[1].arguments(), *made.arguments())
        check(read + [limit])
        return (Turned(answer.ending, answer.refused, answer.steps, answer.state_words, answer.list_words), buffer.words('state'),
                made.words('output'))

    def merge(self, words, kept, given, made):
        read, buffer, taken = ('plan', Buffer(words)), Buffer(kept), ('list', Buffer(made))
        answer = self.merging(*read[1].arguments(), *buffer.arguments(), given, *taken[1].arguments())
        check([read, taken])
        return Written(answer.refused, answer.words), buffer.words('kept')

    def report(self, kept, given, report):
        read, buffer = ('kept', Buffer(kept)), Buffer(report)
        answer = self.reporting(*read[1].arguments(), given, *buffer.arguments())
        check([read])
        return Reported(answer.refused, answer.words), buffer.words('report')

    def make(self, upload, rows, pos, osp, report):
        read, buffers = ('upload', Buffer(upload)), [Buffer(rows), Buffer(pos), Buffer(osp), Buffer(report)]
        answer = self.making(*read[1].arguments(), *(argument for buffer in buffers for argument in buffer.arguments()))
        check([read])
        made = Made(answer.refused, answer.rows_words, answer.pos_words, answer.osp_words, answer.report_words)
        return (made, *(buffer.words(name) for name, buffer in zip(('rows', 'pos', 'osp', 'report'), buffers)))

    def join(self, tables, survey, line, waiting, aside, resting, owner, allowance, plan, state):
        read, own, other = lent(tables, plan) + [('state', Buffer(state))], EntryBuffer(line), EntryBuffer(aside)
        answer = self.joining(*passed(read[:3]), survey, *own.arguments(), waiting, *other.arguments(), resting, owner, allowance,
                              *passed(read[3:]))
        check(read)
        return Queued(answer.refused, answer.line_entries, answer.aside_entries), own.entries('line'), other.entries('aside')

    def serve(self, tables, survey, line, waiting, aside, resting, quantum, threshold, output):
        read, own, other = lent(tables, ())[:3] + [('threshold', Buffer(threshold))], EntryBuffer(line), EntryBuffer(aside)
        made = Buffer(output)
        answer = self.serving(*passed(read[:3]), survey, *own.arguments(), waiting, *other.arguments(), resting, quantum, *passed(read[3:]),
                              *made.arguments())
        check(read)
        served = Service(*(getattr(answer, name) for name in Service._fields))
        return served, own.entries('line'), other.entries('aside'), made.words('output')

    def top_up(self, line, waiting, aside, resting, owner, amount):
        own, other = EntryBuffer(line), EntryBuffer(aside)
        answer = self.topping(*own.arguments(), waiting, *other.arguments(), resting, owner, amount)
        return Queued(answer.refused, answer.line_entries, answer.aside_entries), own.entries('line'), other.entries('aside')

    def view(self, tables, grant, membership, rows, pos, osp):
        read, buffers = lent(tables, grant), [Buffer(rows), Buffer(pos), Buffer(osp)]
        answer = self.viewing(*passed(read), membership, *(argument for buffer in buffers for argument in buffer.arguments()))
        check(read)
        viewed = Viewed(answer.refused, answer.rows_words, answer.pos_words, answer.osp_words)
        return (viewed, *(buffer.words(name) for name, buffer in zip(('view rows', 'view pos', 'view osp'), buffers)))
