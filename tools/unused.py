"""What stands in crates/ without a use: names that a file imports and does not say, and definitions and laws that nothing reaches."""
import functools
import glob
import os
import re

import definitions

USE = re.compile(r'^ *(?P<how>pub |ghost )?use (?P<module>[^\s{};]+?)(?:\.\{(?P<names>[^}]*)\}| as (?P<alias>[^\s;]+))?;?$', re.M)
CLAUSES = re.compile(r'^ *(?:requires|ensures) .*?(?=^ *\{$)', re.M | re.S)
EDITED = re.compile(r'^file: (.*)$', re.M)
WORD = re.compile(r'\[\]|[^\s(){}\[\];,]+(?![^\s(){}\[\];,]|\s+:\s)')
NAMED = re.compile(r'`([^`\s]+)`')
MEMBERS = re.compile(r'^ *ghost \w+(?::| =) .*?;$', re.M | re.S)
TACTICS = re.compile(r'^ *#!?\[tactic\((.*?)\)\]$', re.M | re.S)
PATH = re.compile(r'\w+(?:::\w+)+')
CLAUSE = re.compile(r'^ *(?:requires|ensures) (?:\w+ )?(?=\{)', re.M)
# the pages that say what names were
HISTORY = ('docs/PORT.md', 'docs/DESIGN-PASS.md', 'docs/LOOK-BACK.md')
# what is written of the proof of a function, in a folder with its name
PROOFS = ('/Invariants.antt', '/Answers.antt', '/Proof.antt')


def files(*patterns):
    return sorted(path for pattern in patterns for path in glob.glob(pattern, root_dir=definitions.ROOT, recursive=True))


def bare(text):
    """A text without its comments."""
    return '\n'.join(definitions.COMMENT.sub('', line).rstrip() for line in text.split('\n'))


def clauses(text):
    """What the clauses and the ghost members of a file say, without their own names."""
    return CLAUSE.sub('', '\n'.join([*CLAUSES.findall(text), *MEMBERS.findall(text)]))


def words(text):
    """The names that a text says: no field behind a dot, and none that is given its type here."""
    return {word.rstrip('.') for word in WORD.findall(text) if not word.startswith('.')}


@functools.cache
def edits():
    """What the edits that must fail take from each file and put into it."""
    found = {}
    for path in files('crates/*/must-fail/*.edit'):
        text = definitions.read(path)
        file = os.path.join(os.path.dirname(os.path.dirname(path)), EDITED.search(text)[1].strip())
        found[file] = found.get(file, '') + re.sub('^(#|file:).*', '', text, flags=re.M) + '\n'
    return found


# Imports.

def listed(use):
    """The names that an import brings into its file, each as it stands there and as the file says it."""
    if use['names'] is None:
        name = use['alias'] or re.split(r'\.|::', use['module'])[-1]
        return [(name, name)]
    return [(name, name.split(' as ')[-1]) for name in (part.strip() for part in use['names'].split(',')) if name]


def says(said, name):
    """Whether the words of a file say a name; an operator is said by its symbols. What a tactic takes is said where the tactic is called."""
    return name in said or '◌' in (name[0], name[-1]) and said.issuperset(filter(None, name.split('◌')))


def imports(path):
    """Each name that a file imports and does not pass on, with its import and whether the file says it; what is imported for clauses, clauses say."""
    text = bare(definitions.read(path))
    body = USE.sub('', text) + '\n' + edits().get(path, '')
    ghost = {word.partition('.')[0] for word in words(body if path.endswith('.antt') else clauses(body))}
    code = ghost if path.endswith('.antt') else set(re.findall(r'\w+', body))
    for use in USE.finditer(text):
        if use['how'] != 'pub ':
            yield from ((use, name, says(ghost if use['how'] else code, here)) for name, here in listed(use))


# Definitions and laws.

def all_items():
    return [item for path in files('crates/*/specs/**/*.antt', 'crates/*/proofs/**/*.antt') for item in definitions.source(path).items]


def begun_with():
    """The theorems that function proofs give, worked cases (laws of no variable), and what clauses, tactics' lists, edits and pages name."""
    pages = {name for path in files('*.md', 'docs/**/*.md') if path not in HISTORY for name in NAMED.findall(definitions.read(path))}
    for item in all_items():
        proof = item.path.endswith(PROOFS)
        if item.public if proof else item.name in pages or item.kind == 'law' and item.closed:
            yield item
    for path in files('crates/*/src/**/*.rt'):
        text = definitions.read(path)
        yield from meant(path, clauses(bare(text)))
        yield from taken(path, text)
    for path, text in edits().items():
        yield from meant(path, text)


def taken(path, text):
    """The items that the tactics of a file's proofs take, each by its path."""
    for name in (name for attribute in TACTICS.findall(text) for name in PATH.findall(attribute)):
        crate, *folders, last = name.split('::')
        file = f"crates/{path.split('/')[1] if crate == 'crate' else crate}/{'/'.join(folders)}.antt"
        if os.path.exists(os.path.join(definitions.ROOT, file)):
            yield from (item for item in definitions.source(file).items if item.name == last)


def meant(path, text, item=None):
    """The items that a text in a file names, an operator by its symbol."""
    said = words(text)
    found = (definitions.source(path).meaning(word, item) for word in [*said, *(f'◌{word}◌' for word in said)])
    return {other for other in found if isinstance(other, definitions.Item) and other is not item}


def unreached():
    """The definitions and laws that none of these names, nor anything that they rest on."""
    ways = list(begun_with())
    found = set(ways)
    while ways:
        item = ways.pop()
        more = meant(item.path, ' '.join([item.around, item.statement, item.rest]), item) - found
        found |= more
        ways += more
    return [item for item in all_items() if item not in found]
