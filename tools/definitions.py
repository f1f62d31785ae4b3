"""Reads the definitions, laws and types of crates/: where each stands, its lines, and the names that it rests on."""
import functools
import glob
import os
import re
from dataclasses import dataclass, field

ROOT = os.path.realpath(os.path.join(os.path.dirname(os.path.abspath(__file__)), '..'))
HEADER = re.compile(r'(?P<opens>(?:(?:abbrev|unfoldable|opaque) )*)(?P<public>pub )?(?:(?P<kind>record|data) )?(?P<name>[^\s:{(]+)(?P<rest>.*)')
COMMENT = re.compile(r'(^|\s)(--|//)(\s|$).*')
IMPORT = re.compile(r'(?:pub |ghost )?use (\S+?)(?:\.\{(.*)\}| as (\S+))?;?')
HERE = re.compile(r'Rattle\.(\w+)\.(?:specs|proofs)\.declared\.(\w+).*|Rattle\.(\w+)\.(specs|proofs)\.(.+)')
TYPE = re.compile(r'((?:^//.*\n)*)((?:^#\[.*\n)*)^pub (?:struct|enum) (\w+)(?:\(.*\);| \{(?:.*\n)*?\})', re.M)
IN_TYPE = re.compile(r'(?<=[:(,] )\w+|(?<=\()\w+')
WORD = re.compile(r'[^\s(){};,]+')


@dataclass(eq=False)
class Item:
    """A definition, a law or a type, from the comment above it to its last line. The statement of a law ends where its proof begins."""
    path: str
    name: str
    kind: str                       # record, data, definition, law or type
    public: bool
    first: int
    last: int = 0
    around: str = ''                # the parameters of the modules that it stands in
    statement: str = ''
    rest: str = ''
    parts: list = field(default_factory=list)       # the fields of a record, the constructors of a data type

    @property
    def crate(self):
        return self.path.split('/')[1]

    @property
    def lines(self):
        return self.last - self.first + 1

    @property
    def closed(self):
        """Whether it speaks of no variable."""
        return not self.around and '→' not in self.statement

    def code_lines(self):
        """How many of its lines are not comments alone."""
        return sum(1 for line in read(self.path).splitlines()[self.first - 1:self.last] if COMMENT.sub('', line).strip())

    def rests_on(self, stated):
        """What it names, or its statement alone: other items, and pairs of a module and a name of the standard library."""
        if self.kind == 'type':
            return [types()[name] for name in IN_TYPE.findall(self.statement) if name in types() and name != self.name]
        text = ' '.join([self.around, self.statement, '' if stated else self.rest])
        fields = self.parts if self.kind == 'record' else []
        named = (source(self.path).meaning(name, self) for name in words(text, fields))
        return [meant for meant in named if meant is not None and meant is not self]


class Source:
    """A file: its items, and what it uses of others."""
    def __init__(self, path):
        self.path, self.items, self.uses, self.short = path, [], {}, {}
        modules, indents, item, comment, begun = [], [0], None, None, ''
        for number, line in enumerate(read(path).splitlines(), 1):
            code = COMMENT.sub('', line).rstrip()
            if not code:
                comment = (comment or number) if line.strip() else None
                continue
            text, indent = code.strip(), len(code) - len(code.lstrip())
            if begun:                                       # a list of names, or a module's parameters, over several lines
                text, indent = f'{begun} {text}', indents[-1]
            elif len(indents) == len(modules):              # the first line of a module
                indents.append(indent)
            while indent < indents[-1]:
                indents.pop()
                modules, item = modules[:len(indents) - 1], None
            depth = indent - indents[-1]
            if depth == 0 and re.match('(pub |ghost )?use |module |(unfoldable )?mutual$', text):
                begun = self.outer_line(text, modules)
                item = None
            elif depth == 0 and starts(text, item):
                item = made(HEADER.fullmatch(text), path, comment or number, ' '.join(modules))
                self.items.append(item)
            if item is not None:
                add_line(item, text, depth, number)
            comment = None

    def outer_line(self, text, modules):
        """Takes up an import, a module or a mutual block; answers the line as far as it goes if it goes on."""
        if text.endswith('mutual'):
            modules.append('')
        elif text.startswith('module '):
            if not text.endswith(' where'):
                return text
            modules.append(text.removesuffix('where'))
        elif '{' in text and '}' not in text:
            return text
        elif IMPORT.fullmatch(text):
            module, names, alias = IMPORT.fullmatch(text).groups()
            if names is None:
                self.short[alias or module.rpartition('.')[2]] = module
            for name in filter(None, (name.strip() for name in (names or '').split(','))):
                known, _, other = name.partition(' as ')
                self.uses[other or known] = (module, known)
        return ''

    def own(self, name, item=None):
        """An item of the file by its name or a constructor's; of several that which stands nearest above the item that names it."""
        found = [own for own in self.items if name == own.name or own.kind == 'data' and name in own.parts]
        above = [own for own in found if item is not None and own.first <= item.first and item.around.startswith(own.around)]
        return above[-1] if above else found[0] if found else None

    def meaning(self, name, item=None):
        """What a name means here: an item, a pair of a module and a name of the standard library, or None where it is bound."""
        alias, _, rest = name.partition('.')
        own = self.own(name, item) or self.own(alias, item)
        if own is not None:
            return own
        if rest and alias in self.short:
            return in_module(self.short[alias], rest.split('.')[0])
        used = next((n for n in (name, f'◌{name}◌', alias) if n in self.uses), None)
        return in_module(*self.uses[used]) if used else None


def starts(text, item):
    """Whether a line begins an item: a record, a data type, or a name with its type."""
    found = HEADER.fullmatch(text)
    if found is None or text.startswith(('unfolding ', 'pub mod ')):
        return False
    typed = re.match(r'(\s*\{[^{}:]*\})?\s*:(\s|$)', found['rest'])
    return bool(found['kind'] or found['opens'] or found['public'] or typed and (item is None or found['name'] != item.name))


def made(found, path, first, around):
    kind = found['kind'] or ('definition' if found['opens'] or '/specs/' in path else 'law')
    return Item(path, found['name'], kind, bool(found['public']), first, around=around)


def add_line(item, text, depth, number):
    """One line more of an item."""
    item.last = number
    if item.kind in ('record', 'data'):
        part = re.match(r'(?:pub )?([^\s:({]+)\s*:(\s|$)', text)
        if depth == 2 and part:
            item.parts.append(part[1])
    if item.kind in ('law', 'definition') and (item.rest or item.statement and depth == 0):
        item.rest += text + '\n'
    else:
        item.statement += text + '\n'


def words(text, fields=()):
    """The names that a text may speak of: no field behind a dot, no field or parameter that is given its value or its type here, and of a record's own fields
    none from its type on, where its name means the field."""
    found, own = WORD.findall(text), set()
    for word, after in zip(found, [*found[1:], '']):
        if after in (':', '='):
            own |= {word} & set(fields)
        elif not word.startswith('.') and word.partition('.')[0] not in own:
            yield word.rstrip('.')


def in_module(module, name):
    """A name of a module: an item of a file, or a type of the code, of which the toolchain makes modules; of other modules both as they stand."""
    here = HERE.fullmatch(module)
    if here is None or not os.path.exists(os.path.join(ROOT, 'crates', here[1] or here[3])):
        return module, name
    if here[2]:
        return types().get(here[2])
    path = f'crates/{here[3]}/{here[4]}/{here[5].replace(".", "/")}.antt'
    if os.path.exists(os.path.join(ROOT, path)):
        return source(path).meaning(name)
    return next((types()[part] for part in here[5].split('.') if part in types()), None)


@functools.cache
def read(path):
    with open(os.path.join(ROOT, path), encoding='utf-8') as file:
        return file.read()


@functools.cache
def source(path):
    return Source(path)


def sources(folder):
    """The files of definitions (specs) or of laws (proofs); the proofs of functions, which stand deeper, are none."""
    return [source(path) for path in sorted(glob.glob(f'crates/*/{folder}/*.antt', root_dir=ROOT))]


@functools.cache
def types():
    """The types of the code by their names, which mean one thing: definitions speak of them."""
    found = {}
    for path in sorted(glob.glob('crates/*/src/**/*.rt', root_dir=ROOT, recursive=True)):
        for match in TYPE.finditer(read(path)):
            first = read(path).count('\n', 0, match.start()) + 1
            text = '\n'.join(COMMENT.sub('', line) for line in match[0].splitlines())
            found[match[3]] = Item(path, match[3], 'type', True, first, first + match[0].count('\n'), statement=text)
    return found
