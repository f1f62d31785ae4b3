#!/usr/bin/env -S python3 -B
"""What the turn printer prints for files of words, by the evaluation, or by the engine's calls from a library.

    tests/second_engine/printed.py FILE             print it
    tests/second_engine/printed.py --write FILES    write it beside each file: NAME.expected for NAME.words
    tests/second_engine/printed.py --check FILES    compare it with what stands there; the exit code is 1 if any differs

The printer opens the query and runs turns until one is done or a call is refused. Rows are printed as they come; a best-of list,
groups or registers are merged turn by turn and printed at the end.
"""
import argparse
import struct
import sys
import tempfile

from engine import Engine
from evaluation import DONE, REFUSED, Evaluation, LEAST_STATE_WORDS
from inputs import COLUMNS, Tables, in_parts, split_record
from plan_reader import read_plan, width
from stored import group_line, list_line, row_line
from words import GROUP, REGISTERS, ROWS

MOST_BYTES = 65536
OUTPUT_RECORDS = 64
KEPT_WORDS = 8192
SURVEY = 0                   # the number that a file's tables stand under
ENDINGS = ('done', 'spent', 'full')


def parts_of(data):
    """Tables, quantum and plan of a file, or None where it is refused by 1."""
    if len(data) > MOST_BYTES or len(data) % 4 != 0 or len(data) < 8:
        return None
    count, quantum, *words = struct.unpack(f'<{len(data) // 4}I', data)
    if len(words) < (COLUMNS + 2) * count:
        return None
    tables = Tables(*(tuple(words[a * count:b * count]) for a, b in ((0, COLUMNS), (COLUMNS, COLUMNS + 1), (COLUMNS + 1, COLUMNS + 2))))
    return tables, quantum, tuple(words[(COLUMNS + 2) * count:])


def list_lines(plan, words):
    """The lines of a list: its rows, its groups, or its registers."""
    if plan.kind == REGISTERS:
        return [list_line(words)] if words else []
    if plan.kind == GROUP:
        return [group_line(*split_record(record)) for record in in_parts(plan, words)]
    return [row_line(row) for row in in_parts(plan, words)]


def lines(calls, data):
    """What is printed for the bytes of a file, where these are the calls."""
    parts = parts_of(data)
    if parts is None:
        return ['refused 1']
    tables, quantum, words = parts
    opened, state = calls.open(tables, SURVEY, words, (0,) * LEAST_STATE_WORDS)
    if opened.refused:
        return [f'refused {opened.refused}']
    return list(turns(calls, tables, quantum, words, state, opened.words))


def turns(calls, tables, quantum, words, state, given):
    """The lines of all turns of an opened query, and of its merged list."""
    plan = read_plan(words)
    output, kept, kept_words = (0,) * (OUTPUT_RECORDS * width(plan)), (0,) * KEPT_WORDS, 0
    ending, number = None, 0
    while ending != DONE:
        number += 1
        turned, state, output = calls.turn(tables, SURVEY, words, state, given, quantum, (), output)
        ending, given = turned.ending, turned.state_words
        if ending == REFUSED:
            yield f'refused {turned.refused}'
            return
        yield f'turn {number} steps {turned.steps} {ENDINGS[ending]}'
        made = output[:turned.list_words]
        if plan.kind == ROWS:
            yield from list_lines(plan, made)
            continue
        merged, kept = calls.merge(words, kept, kept_words, made)
        if merged.refused:
            yield f'refused {merged.refused}'
            return
        kept_words = merged.words
    yield from list_lines(plan, kept[:kept_words])


def printed(calls, path):
    with open(path, 'rb') as file:
        return ''.join(line + '\n' for line in lines(calls, file.read()))


def expected_path(path):
    return path.removesuffix('.words') + '.expected'


def write(calls, paths):
    for path in paths:
        with open(expected_path(path), 'w', encoding='utf-8') as file:
            file.write(printed(calls, path))
    return 0


def check(calls, paths):
    differing = []
    for path in paths:
        with open(expected_path(path), encoding='utf-8') as file:
            if file.read() != printed(calls, path):
                differing.append(path)
    for path in differing:
        print(f'{expected_path(path)} differs')
    print(f'{len(paths)} files, {len(differing)} differ')
    return 1 if differing else 0


def show(calls, paths):
    for path in paths:
        sys.stdout.write(printed(calls, path))
    return 0


def main():
    parser = argparse.ArgumentParser(description=__doc__, formatter_class=argparse.RawDescriptionHelpFormatter)
    parser.add_argument('files', nargs='+', metavar='FILE', help="a file in the turn printer's words")
    how = parser.add_mutually_exclusive_group()
    how.add_argument('--write', dest='how', action='store_const', const=write, help='write NAME.expected')
    how.add_argument('--check', dest='how', action='store_const', const=check, help='compare with NAME.expected')
    parser.add_argument('--engine', help="library with the engine's calls: shared, or static and linked here")
    parser.set_defaults(how=show)
    options = parser.parse_args()
    with tempfile.TemporaryDirectory() as folder:
        calls = Engine(options.engine, folder) if options.engine else Evaluation()
        return options.how(calls, options.files)


if __name__ == '__main__':
    sys.exit(main())
