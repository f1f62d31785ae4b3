"""A wood as TriG, a graph a year, a plan as SPARQL 1.1, and Apache Jena ARQ to answer it.

Names and texts are padded with zeros, so that code-point order is the order of their numbers. Where SPARQL leaves an engine
more freedom than the rules here, the query says what is meant: '=' between a number and a text is an error, each sort key
stands behind a key of its kind, and aggregates see the numbers alone.
"""
import glob
import os
import shutil
import subprocess
import sys
import zipfile

from inputs import Totals
from lists import DEFAULT_BEST
from words import (AND, COMPARISON, EQUAL, GROUP, NAME, NOT, NUMBER, NUMBERS, OPERATORS, REGISTERS, ROWS, TEXT, TOP, TRUE, UNBOUND, UNEQUAL,
                   VARIABLE, name, number, number_value, term_kind, term_value, text)

HERE = os.path.dirname(os.path.abspath(__file__))
NAMES = 'http://wood/'
NOWHERE = f'<{NAMES}nowhere>'
XSD = 'http://www.w3.org/2001/XMLSchema#'
PREFIX = f'PREFIX xsd: <{XSD}> '
PACKAGES = ['libapache-jena-java', 'libslf4j-java', 'default-jdk-headless']
JARS = '/usr/share/java'
LIBRARIES = [
    'commons-cli', 'commons-codec', 'commons-compress', 'commons-csv', 'commons-io', 'commons-lang3', 'dexx.collection', 'gson',
    'guava', 'httpclient', 'httpcore', 'jackson-annotations', 'jackson-core', 'jackson-databind', 'jakarta.json-api',
    'jcl-over-slf4j', 'jsonld-java', 'protobuf', 'slf4j-api', 'slf4j-nop', 'thrift', 'titanium-json-ld', 'xercesImpl']


# Terms.

def written_term(word):
    kind, value = term_kind(word), term_value(word)
    return {NAME: f'<{NAMES}{value:010}>', NUMBER: str(number_value(word)), TEXT: f'"{value:010}"', VARIABLE: f'?v{value}'}[kind]


def read_term(shown):
    """The word of a term as the driver prints it."""
    if shown == '-':
        return UNBOUND
    if shown.startswith('<'):
        return name(int(shown[1 + len(NAMES):-1]))
    value, datatype = shown.split('^^')
    return {XSD + 'integer': number, XSD + 'string': text}[datatype](int(value))


def graph(year):
    """The name of a year's graph."""
    return f'<{NAMES}year/{year}>'


def trig(rows):
    """Each year's rows in a graph of their own."""
    return ''.join(f"{graph(term_value(year))} {{ {' '.join(map(written_term, row))} . }}\n" for year, *row in rows)


# Queries.

def pattern(words):
    """A literal predicate is outside the grammar: one that no row has stands for it."""
    fields = list(map(written_term, words))
    if term_kind(words[1]) in (NUMBER, TEXT):
        fields[1] = NOWHERE
    return ' '.join(fields) + ' .'


def comparison(operator, a, b):
    plain = f'({a} {OPERATORS[operator]} {b})'
    if operator not in (EQUAL, UNEQUAL):
        return plain
    return f'IF(isLiteral({a}) && isLiteral({b}) && isNumeric({a}) != isNumeric({b}), ?undefined, {plain})'


def condition(node):
    if node.kind == TRUE:
        return 'true'
    if node.kind == COMPARISON:
        return comparison(node.operator, *map(written_term, node.parts))
    parts = list(map(condition, node.parts))
    return f'(! {parts[0]})' if node.kind == NOT else f"({parts[0]} {'&&' if node.kind == AND else '||'} {parts[1]})"


def branch(part):
    kept = '' if part.condition.kind == TRUE else f' FILTER({condition(part.condition)})'
    return '{ ' + ' '.join(map(pattern, part.patterns)) + kept + ' }'


def read_years(plan):
    """Which graphs are read: the one that a plan names, every one, or the one of which no other is later."""
    if plan.year:
        return f'VALUES ?year {{ {graph(plan.year)} }}'
    if plan.year == 0:
        return ''
    number_of = lambda year: f'xsd:integer(STRAFTER(STR({year}), "/year/"))'
    later = f'GRAPH ?later {{ ?s ?p ?o }} FILTER({number_of("?later")} > {number_of("?year")})'
    return f'FILTER NOT EXISTS {{ {later} }}'


def where(plan):
    """Each year's solutions over that year's graph, of all years that are read."""
    return 'WHERE { GRAPH ?year { ' + ' UNION '.join(map(branch, plan.branches)) + f' }} {read_years(plan)} }}'


def selected(variables):
    return ' '.join(f'?v{v}' for v in variables)


def rows_query(plan):
    return f'{PREFIX}SELECT {selected(plan.columns)} {where(plan)}'


def sort_key(falling, v):
    way, kind = 'DESC' if falling else 'ASC', f'IF(!BOUND(?v{v}), 0, IF(isIRI(?v{v}), 1, IF(isNumeric(?v{v}), 2, 3)))'
    return f'{way}({kind}) {way}(?v{v})'


def top_query(plan):
    return f"{rows_query(plan)} ORDER BY {' '.join(sort_key(*key) for key in plan.keys)} LIMIT {plan.k or DEFAULT_BEST}"


def measured(plan, function, number_as, other):
    return f'{function}(COALESCE(IF(isNumeric(?v{plan.measured}), {number_as}, {other}), {other}))'


def group_query(plan):
    value = f'?v{plan.measured}'
    totals = [('COUNT(*)', 'rows'), (measured(plan, 'SUM', 1, 0), 'numbers'), (measured(plan, 'SUM', value, 0), 'sum'),
              (measured(plan, 'MIN', value, NUMBERS), 'least'), (measured(plan, 'MAX', value, -NUMBERS - 1), 'greatest')]
    by = f' GROUP BY {selected(plan.group)}' if plan.group else ''
    return f"{PREFIX}SELECT {selected(plan.group)} {' '.join(f'({e} AS ?{n})' for e, n in totals)} {where(plan)}{by}"


def distinct_query(plan):
    """The set of values that registers are of."""
    return f'{PREFIX}SELECT DISTINCT {selected(plan.columns)} {where(plan)}'


def queries(plan):
    """The queries whose answers a plan is compared with: for a best-of list and for registers also all its rows."""
    return {ROWS: [rows_query], TOP: [rows_query, top_query], GROUP: [group_query], REGISTERS: [rows_query, distinct_query]}[plan.kind]


# Answers.

def group_of(plan, shown):
    """A group's keys and totals from an answer's line. Of no rows MIN and MAX are unbound; of rows without a number they are those of
    the values that stand for the others, and mean nothing."""
    rows, numbers, total = (int(field.split('^^')[0]) for field in shown[-5:-2])
    least, greatest = (read_term(field) if numbers or not rows else UNBOUND for field in shown[-2:])
    return tuple(map(read_term, shown[:len(plan.group)])), Totals(rows, numbers, total, least, greatest)


def groups_of(plan, lines):
    """The groups of an answer, as they are: without GROUP BY SPARQL has one always, over no solutions too."""
    return dict(group_of(plan, line) for line in lines)


def rows_of_answer(lines):
    return [tuple(map(read_term, line)) for line in lines]


class Jena:
    """The driver as a running program."""

    def __init__(self, folder):
        self.folder = folder
        path = os.pathsep.join([prepared(folder)] + jars())
        self.driver = subprocess.Popen(['java', '-cp', path, 'Driver'], stdin=subprocess.PIPE, stdout=subprocess.PIPE, text=True)

    def line(self, text):
        self.driver.stdin.write(text + '\n')
        self.driver.stdin.flush()
        return self.answer()

    def answer(self):
        line = self.driver.stdout.readline()
        if not line:
            raise RuntimeError('Jena ended')
        return line.rstrip('\n')

    def load(self, rows):
        path = os.path.join(self.folder, 'wood.trig')
        with open(path, 'w', encoding='utf-8') as file:
            file.write(trig(rows))
        if self.line('LOAD ' + path) != f'loaded {len(rows)}':
            raise RuntimeError('Jena did not load every row')

    def lines(self, query):
        answer = self.line('QUERY ' + query)
        if not answer.startswith('rows '):
            raise RuntimeError(f'Jena: {answer}\n{query}')
        return [self.answer().split('\t') for _ in range(int(answer[5:]))]

    def asked(self, plan):
        """All rows of a plan (none for groups), and its list: rows in order, or groups; for registers the set of values."""
        if plan.kind == GROUP:
            return None, groups_of(plan, self.lines(group_query(plan)))
        if plan.kind == REGISTERS:
            return rows_of_answer(self.lines(rows_query(plan))), rows_of_answer(self.lines(distinct_query(plan)))
        rows = rows_of_answer(self.lines(rows_query(plan)))
        return rows, rows_of_answer(self.lines(top_query(plan))) if plan.kind == TOP else rows

    def close(self):
        self.driver.stdin.close()
        self.driver.wait()


# Installing.

def jars():
    """Jena's jars and their libraries, each once (a jar with a version in its name is the same again)."""
    jena = [j for j in glob.glob(f'{JARS}/jena-*.jar') if not any(c.isdigit() for c in os.path.basename(j).replace('tdb2', ''))]
    return sorted(jena) + [j for j in (f'{JARS}/{name}.jar' for name in LIBRARIES) if os.path.exists(j)]


class JenaMissing(Exception):
    """Jena is not there, and could not be installed."""


def is_installed():
    return os.path.exists(f'{JARS}/jena-arq.jar') and shutil.which('java') and shutil.which('javac')


def install():
    """Installs Jena where it is missing; the list of packages may have to be fetched first."""
    for first in ([], ['update'], []):
        if is_installed():
            return
        if not shutil.which('apt-get'):
            break
        command = ['apt-get', '-q', *(first or ['install', '-y', *PACKAGES])]
        print(' '.join(command), file=sys.stderr, flush=True)
        subprocess.run(command, stdout=sys.stderr, stdin=subprocess.DEVNULL)
    if not is_installed():
        raise JenaMissing(f"Apache Jena and Java are missing: install them (Debian 12, as root: apt-get install {' '.join(PACKAGES)})")


def prepared(folder):
    """The compiled driver, and Jena's message bundles where its code looks for them: the jar has them under another path."""
    install()
    classes = os.path.join(folder, 'classes')
    os.makedirs(classes, exist_ok=True)
    with zipfile.ZipFile(f'{JARS}/jena-core.jar') as jar:
        for entry in jar.namelist():
            if entry.startswith('org/apache/jena/ext/xerces/') and entry.endswith('.properties'):
                for place in ('xerces/', 'org/apache/xerces/'):
                    target = os.path.join(classes, place + entry[len('org/apache/jena/ext/xerces/'):])
                    os.makedirs(os.path.dirname(target), exist_ok=True)
                    with open(target, 'wb') as file:
                        file.write(jar.read(entry))
    subprocess.run(['javac', '-cp', os.pathsep.join(jars()), '-d', classes, os.path.join(HERE, 'Driver.java')], check=True)
    return classes
