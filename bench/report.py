"""Makes a table and a plot of what bench/bench measured: report.py [--docs] FOLDER."""
import math
import re
import sys
from collections import namedtuple

TARGETS = {'tables of ': 1.3, 'merge of ': 1.5, '': 1.0}  # times the plain C machine, by how a measure's name begins; C++ where tables are made
FIRST, OTHERS = 'dense', ('gaps', 'far cluster')          # woods
ONE = 'turn of 1 step'
MANY_TURNS = re.compile('in turns|pruned')                # measures that check the tables many times
BEGIN, END = '<!-- measured: begin -->\n', '<!-- measured: end -->\n'

# One line of what was measured, in nanoseconds, None where there is nothing.
Measure = namedtuple('Measure', 'name steps engine floor plain sqlite portable')


def number(text):
    return None if text == '-' else float(text)


def read(path):
    """For each wood a list of measures. What is of no wood stands with the first."""
    woods = {}
    with open(path) as f:
        for line in f:
            wood, name, steps, *times = line.rstrip('\n').split('\t')
            woods.setdefault(FIRST if wood == '-' else wood, []).append(Measure(name, int(steps), *map(number, times)))
    return woods


def span(ns):
    if ns is None:
        return '–'
    if ns < 1e4:
        return f'{ns:,.0f} ns'
    if ns < 1e6:
        return f'{ns / 1e3:.1f} µs'
    return f'{ns / 1e6:.2f} ms'


def ratio(a, b):
    return '–' if a is None or b is None else f'{a / b:.2f}'


def steps_alone(found, measure):
    """Nanoseconds a step of the engine, the floor and the plain machine: what a turn takes more than one of one step, by the further steps. None
    where the steps are too few to tell, or are those of many turns; so few steps of the floor's are lost in the check."""
    if measure.steps < 1000 or MANY_TURNS.search(measure.name):
        return None
    one = next(m for m in found if m.name == ONE)
    engine, floor, plain = ((a - b) / (measure.steps - 1) for a, b in zip(measure[2:5], one[2:5]))
    return engine, floor if measure.steps > 1000 else None, plain


def step_ratios(alone):
    """The engine's steps by the floor's, and by the plain machine's."""
    return f'{ratio(alone[0], alone[1])}, {ratio(alone[0], alone[2])}' if alone else '–'


def row(cells):
    return '| ' + ' | '.join(cells) + ' |'


def table(found):
    lines = [row(['measure', 'steps', 'Sotjarn', 'C floor', 'C plain, C++', 'SQLite', 'portable', 'Sotjarn / floor', 'Sotjarn / plain', 'SQLite / Sotjarn',
                  'portable / Sotjarn', 'ns a step: Sotjarn, floor, plain', 'steps alone / floor, / plain']), '|' + '---|' * 13]
    for m in found:
        alone = steps_alone(found, m)
        each = ', '.join('–' if ns is None else f'{ns:.1f}' for ns in alone) if alone else '–'
        lines.append(row([m.name, f'{m.steps:,}' if m.steps else '–', span(m.engine), span(m.floor), span(m.plain), span(m.sqlite), span(m.portable),
                          ratio(m.engine, m.floor), ratio(m.engine, m.plain), ratio(m.sqlite, m.engine), ratio(m.portable, m.engine), each,
                          step_ratios(alone)]))
    return '\n'.join(lines) + '\n'


def other_woods(woods):
    """The same queries on the other woods, a line a measure."""
    heads = [f'{w}: Sotjarn, floor, plain, SQLite | Sotjarn / floor, / plain | SQLite / Sotjarn | steps alone / floor, / plain' for w in OTHERS]
    lines = [row(['measure', *heads]), '|---|' + '---|---|---|---|' * len(OTHERS)]
    for beside in zip(*(woods[w] for w in OTHERS)):
        cells = [beside[0].name]
        for w, m in zip(OTHERS, beside):
            cells += [', '.join(map(span, (m.engine, m.floor, m.plain, m.sqlite))), f'{ratio(m.engine, m.floor)}, {ratio(m.engine, m.plain)}',
                      ratio(m.sqlite, m.engine), step_ratios(steps_alone(woods[w], m))]
        lines.append(row(cells))
    return '\n'.join(lines) + '\n'


def machine():
    with open('/proc/cpuinfo') as f:
        models = [line.split(':', 1)[1].strip() for line in f if line.startswith('model name')]
    return f'{models[0]}, {len(models)} cores' if models else 'unknown'


def marks(x, y):
    """How each is drawn at a place: the engine, the engine on another wood, the floor and SQLite."""
    return {'engine': f'<circle cx="{x:.1f}" cy="{y:.1f}" r="5" fill="#275"/>',
            'other': f'<circle cx="{x:.1f}" cy="{y:.1f}" r="7" fill="none" stroke="#7b9"/>',
            'floor': f'<path d="M{x:.1f} {y - 6:.1f}l6 6l-6 6l-6 -6z" fill="#46b"/>',
            'sqlite': f'<rect x="{x - 4:.1f}" y="{y - 4:.1f}" width="8" height="8" fill="#c80"/>'}


def legend(left):
    """The marks above the plot, each with its text."""
    out = []
    for at, mark, text in ((0, 'engine', 'Sotjarn'), (76, 'other', 'on the other woods'), (214, 'floor', 'C floor'), (290, 'sqlite', 'SQLite')):
        out.append(f'{marks(left + at, 18)[mark]}<text x="{left + at + 12}" y="22">{text}</text>')
    out.append(f'<text x="{left + 370}" y="22" fill="#444">line: C plain (tables: C++)</text>')
    return out


def plot(woods):
    """Times as multiples of the plain C machine's, or of C++'s, on a logarithmic scale; the engine's on the other woods as rings."""
    found = [m for m in woods[FIRST] if m.engine is not None and m.plain is not None]
    left, right, top, height_each = 310, 40, 40, 26
    width, bottom = 920, top + height_each * len(found)
    beside = [time / m.plain for m in found for time in (m.engine, m.floor, m.sqlite) if time is not None]
    most, least = max(3, math.ceil(math.log10(max(beside)))), min(-1, math.floor(math.log10(min(beside))))

    def x(value):
        return left + (math.log10(value) - least) / (most - least) * (width - left - right)

    out = [f'<svg xmlns="http://www.w3.org/2000/svg" width="{width}" height="{bottom + 60}" font-family="sans-serif" font-size="12">',
           f'<rect width="{width}" height="{bottom + 60}" fill="white"/>']
    for power in range(least, most + 1):
        at = x(10 ** power)
        out.append(f'<line x1="{at:.1f}" y1="{top}" x2="{at:.1f}" y2="{bottom}" stroke="#ddd"/>')
        out.append(f'<text x="{at:.1f}" y="{bottom + 18}" text-anchor="middle">{10 ** power:g}</text>')
    out.append(f'<line x1="{x(1):.1f}" y1="{top}" x2="{x(1):.1f}" y2="{bottom}" stroke="#444"/>')
    for i, m in enumerate(found):
        y = top + height_each * i + height_each / 2
        out.append(f'<text x="{left - 12}" y="{y + 4:.1f}" text-anchor="end">{m.name}</text>')
        for mark, time in (('sqlite', m.sqlite), ('floor', m.floor)):
            if time is not None:
                out.append(marks(x(time / m.plain), y)[mark])
        for other in (o for w in OTHERS for o in woods[w] if o.name == m.name):
            out.append(marks(x(other.engine / other.plain), y)['other'])
        out.append(marks(x(m.engine / m.plain), y)['engine'])
    out += legend(left)
    out.append(f'<text x="{(left + width - right) / 2}" y="{bottom + 42}" text-anchor="middle">'
               'time, as a multiple of that in plain C or C++ (less is faster)</text></svg>')
    return '\n'.join(out) + '\n'


def target(name):
    return next(most for begin, most in TARGETS.items() if name.startswith(begin))


def missed(wood, found):
    """What does not meet a target, in words. There is none against the floor."""
    lines = []
    for m in found:
        alone = steps_alone(found, m)
        if m.engine and m.plain and m.engine > target(m.name) * m.plain:
            lines.append(f'{wood}, {m.name}: {m.engine / m.plain:.2f} times that in plain C or C++')
        if alone and alone[0] > target(m.name) * alone[2]:
            lines.append(f'{wood}, {m.name}: its steps alone are {alone[0] / alone[2]:.2f} times those of the plain C machine')
        if m.engine and m.sqlite and m.sqlite < m.engine:
            lines.append(f'{wood}, {m.name}: SQLite is ahead, {span(m.sqlite)} against {span(m.engine)}')
    return lines


def put_into(path, text):
    with open(path) as f:
        page = f.read()
    before, rest = page.split(BEGIN)
    after = rest.split(END)[1]
    with open(path, 'w') as f:
        f.write(before + BEGIN + text + END + after)


def main(words):
    docs = words[:1] == ['--docs']
    folder = words[-1]
    woods = read(f'{folder}/results.tsv')
    text = f'Processor: {machine()}.\n\nDense:\n\n{table(woods[FIRST])}\nThe other woods:\n\n{other_woods(woods)}'
    for path, content in ((f'{folder}/table.md', text), (f'{folder}/plot.svg', plot(woods))):
        with open(path, 'w') as f:
            f.write(content)
    print()
    print(text)
    for wood, found in woods.items():
        for line in missed(wood, found):
            print(line)
    if docs:
        put_into('docs/PERFORMANCE.md', text)
        with open('docs/performance.svg', 'w') as f:
            f.write(plot(woods))


main(sys.argv[1:])
