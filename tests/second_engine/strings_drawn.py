"""Random calls of the dictionary, from a seed: good ones, and damaged ones.

Strings have characters of all planes and the bounds of every row of Unicode's table 3-7, are beginnings of each other, come twice, or are empty.
"""
from numbering import NAMES, NOT_IN_IRIS, Find, Number, String, cut

# The least and the greatest character of each row of table 3-7, the neighbours of the surrogates, and such that UTF-16 or signed bytes put elsewhere.
EDGES = ''.join(map(chr, (0, 1, 0x1F, 0x20, 0x21, 0x41, 0x61, 0x62, 0x7A, 0x7E, 0x7F, 0x80, 0xE4, 0xFF, 0x7FF, 0x800, 0xFFF, 0x1000, 0x6728, 0xCFFF, 0xD000,
                          0xD7FF, 0xE000, 0xFFFD, 0xFFFF, 0x10000, 0x1F332, 0x3FFFF, 0x40000, 0xFFFFF, 0x100000, 0x10FFFF)))
PLAIN = 'abcxyz/:#0129-.'
NEARBY = 'aab\u00e4\ue000\U00010000'
MARKS = [bytes([mark]) for mark in b' "<>\\^`{|}']
IN_NO_IRI = [chr(point).encode() for point in sorted(NOT_IN_IRIS)] + 3 * MARKS

# Bytes that are no UTF-8, by what is wrong with them.
CUT_SHORT = (b'\xC2', b'\xDF', b'\xE0\xA0', b'\xE1\x80', b'\xED\x9F', b'\xEF\xBF', b'\xF0\x90\x80', b'\xF0\x9F', b'\xF1\x80\x80', b'\xF4\x8F\xBF', b'\xE6')
WRONG = (
    (b'\xC0\x80', b'\xC0\xAF', b'\xC1\xBF', b'\xE0\x80\x80', b'\xE0\x9F\xBF', b'\xF0\x80\x80\x80', b'\xF0\x8F\xBF\xBF'),        # overlong
    (b'\xED\xA0\x80', b'\xED\xAF\xBF', b'\xED\xB0\x80', b'\xED\xBF\xBF', b'\xED\xA0\x80\xED\xB0\x80'),                          # surrogates
    (b'\xF4\x90\x80\x80', b'\xF4\xBF\xBF\xBF', b'\xF5\x80\x80\x80', b'\xF7\xBF\xBF\xBF', b'\xF8\x88\x80\x80\x80', b'\xFF'),     # past 10FFFF
    (b'\x80', b'\xBF', b'\x80\x80', b'\xC3\xA4\xA4', b'\xF0\x9F\x8C\xB2\xB2'),                                                  # lone continuation
    CUT_SHORT,
    (b'\xC3a', b'\xE6\x9Ca', b'\xE6a\xA8', b'\xF0\x9F\x8Ca', b'\xF0a\x8C\xB2', b'\xE0\xC0\x80', b'\xF0\x90\xC0\x80', b'\xED\x7F\x80'),   # broken off
)
SPARES = [0, 0, 0, 1, 2, 7]
KINDS = [NAMES, NAMES, 1, 1, 1, 2, 256, 0xFFFFFFFF]


def joined(strings):
    """Strings as bytes and ends."""
    ends, length = [], 0
    for string in strings:
        length += len(string)
        ends.append(length)
    return b''.join(strings), tuple(ends)


class Strings:
    """Calls over random strings."""

    def __init__(self, rng):
        self.rng = rng

    # Strings.

    def character(self):
        way = self.rng.random()
        if way < .4:
            return self.rng.choice(PLAIN)
        if way < .6:
            return self.rng.choice(NEARBY)
        if way < .9:
            return self.rng.choice(EDGES)
        point = self.rng.randrange(1 << self.rng.choice([7, 8, 11, 12, 16, 16, 20])) + self.rng.choice([0, 0, 0x10000])
        return chr(point) if not 0xD800 <= point < 0xE000 else chr(point - 0x800)

    def string(self, kind, known):
        """A string of a kind, now and then near one that is known."""
        way = self.rng.random()
        if known and way < .25:
            text = self.rng.choice(known).decode('utf-8', 'ignore')
            text = text[:self.rng.randrange(len(text) + 1)] if self.rng.random() < .4 else text + self.character()
        elif known and way < .35:
            text = self.rng.choice(known).decode('utf-8', 'ignore')
        elif way < .5:
            text = self.rng.choice(['', 'http://ex/', 'abcdefgh', 'abcdefghijklmno', 'abcdefghijklmnopqrst']) + ''.join(
                self.rng.choice(PLAIN) for _ in range(self.rng.randrange(14)))
        else:
            text = ''.join(self.character() for _ in range(self.rng.choice([0, 1, 1, 2, 3, 5, 8])))
        if kind == NAMES:
            text = ''.join(character for character in text if ord(character) not in NOT_IN_IRIS) or self.rng.choice(['a', 'b', '\u00e4'])
        return text.encode()

    def strings(self, kind):
        found = []
        for _ in range(self.rng.choice([0, 1, 2, 3, 4, 5, 6, 8, 9, 10, 12, 20])):
            found.append(self.string(kind, found))
        return found

    def ascending(self, kind):
        return sorted(set(self.strings(kind)), key=lambda string: string.decode())

    def filler(self, length):
        return tuple(self.rng.getrandbits(32) for _ in range(length))

    # Calls.

    def numbering(self, kind, strings):
        data, ends = joined(strings)
        spare = lambda: self.rng.choice(SPARES)
        count = len(ends)
        return Number(kind, data, ends, self.rng.randbytes(len(data) + spare()), self.filler(count + spare()), self.filler(count + spare()),
                      self.filler(count + spare()))

    def sought(self, kind, strings):
        """What is looked for: mostly there, or near what is there, before all or behind all; not always a string."""
        way = self.rng.random()
        if strings and way < .45:
            return self.rng.choice(strings)
        if strings and way < .6:
            string = self.rng.choice(strings)
            return self.rng.choice([string[:-1], string + b'\0', string + b'a', string[:8], string + b'\xff'])
        return self.rng.choice([b'', b'\0', b'\xff' * 9, b'\xf4\x8f\xbf\xbf' * 3, self.string(kind, strings), self.string(kind, strings),
                                self.rng.choice(self.rng.choice(WRONG))])

    def lookup(self, kind, strings):
        data, ends = joined(strings)
        if self.rng.random() < .5:
            return Find(kind, data, ends, self.sought(kind, strings))
        count = len(ends)
        return String(kind, data, ends, self.rng.choice([0, self.rng.randrange(count + 1), self.rng.randrange(count + 1), max(count - 1, 0), count,
                                                         count + 1, 1 << 32, (1 << 64) - 1]))

    def kind(self):
        return self.rng.choice(KINDS)

    def good(self):
        kind = self.kind()
        return self.numbering(kind, self.strings(kind)) if self.rng.random() < .5 else self.lookup(kind, self.ascending(kind))

    # Damages.

    def string_damage(self, call):
        """A string that is no UTF-8, or has what no name has, or is empty."""
        strings = cut(call.bytes, call.ends)
        if not strings:
            strings = [b'a']
        at, own = self.rng.randrange(len(strings)), None
        for _ in range(self.rng.choice([1, 1, 1, 2])):
            own = strings[at] if own is None else own
            place = self.rng.choice([0, len(own), self.rng.randrange(len(own) + 1)])
            way, kinds = self.rng.random(), self.rng.choice(WRONG)
            place = len(own) if kinds is CUT_SHORT else place
            wrong = (self.rng.choice(kinds) if way < .6 else self.rng.choice(IN_NO_IRI) if way < .9 else b'')
            own = own[:place] + wrong + own[place:] if wrong else b''
        return self.with_strings(call, strings[:at] + [own] + strings[at + 1:])

    def cut_damage(self, call):
        """An end moved by a byte, which may cut a character."""
        if not call.ends:
            return call
        at = self.rng.randrange(len(call.ends))
        return call._replace(ends=call.ends[:at] + (min(max(0, call.ends[at] + self.rng.choice([-1, 1])), 0xFFFFFFFF),) + call.ends[at + 1:])

    def end_damage(self, call):
        """Ends that fall, pass the bytes, or stop before or behind their number."""
        count, length = len(call.ends), len(call.bytes)
        way = self.rng.randrange(6)
        if way == 0 or not count:
            return call._replace(ends=self.rng.choice([(), call.ends[:-1], (*call.ends, length + 1), (*call.ends, 0), (*call.ends, length)]))
        if way == 1:
            return call._replace(bytes=self.rng.choice([call.bytes + b'a', call.bytes[:-1]]))
        at = self.rng.randrange(count)
        if way == 2 and count > 1:
            at = self.rng.randrange(count - 1)
            return call._replace(ends=call.ends[:at] + (call.ends[at + 1], call.ends[at]) + call.ends[at + 2:])
        word = self.rng.choice([0, length, length + 1, 0xFFFFFFFF, 0x80000000, call.ends[at - 1]])
        return call._replace(ends=call.ends[:at] + (word,) + call.ends[at + 1:])

    def order_damage(self, call):
        """Two strings swapped, one again, or all in the order of UTF-16."""
        strings, way = cut(call.bytes, call.ends), self.rng.randrange(4)
        if len(strings) > 1 and way == 0:
            at = self.rng.randrange(len(strings) - 1)
            strings[at], strings[at + 1] = strings[at + 1], strings[at]
        elif strings and way == 1:
            at = self.rng.randrange(len(strings))
            strings.insert(at, strings[at])
        elif way == 2:
            strings = sorted(strings, key=lambda string: string.decode('utf-8', 'replace').encode('utf-16-be'))
        else:
            strings = sorted(strings, key=lambda string: [*string, 256])
        return self.with_strings(call, strings)

    def room_damage(self, call):
        """One buffer too short by one, or by more."""
        if not isinstance(call, Number):
            return call
        field = self.rng.choice(['out', 'cuts', 'numbers', 'places'])
        least = len(call.bytes) if field == 'out' else len(call.ends)
        short = self.rng.choice([least - 1, least - 1, least - 1, (least + 1) // 2, 0])
        return call._replace(**{field: getattr(call, field)[:max(0, short)]})

    def with_strings(self, call, strings):
        data, ends = joined(strings)
        if isinstance(call, Number):
            more = len(data) - len(call.bytes)
            call = call._replace(out=call.out + self.rng.randbytes(max(0, more)))
            for field in ('cuts', 'numbers', 'places'):
                buffer = getattr(call, field)
                call = call._replace(**{field: buffer + self.filler(max(0, len(ends) - len(call.ends)))})
        return call._replace(bytes=data, ends=ends)

    def damaged(self):
        call = self.good()
        ways = [self.string_damage, self.string_damage, self.cut_damage, self.end_damage, self.order_damage, self.room_damage]
        for _ in range(self.rng.choice([1, 1, 1, 2])):
            call = self.rng.choice(ways)(call)
        return call

    def other_kind(self):
        """A good call for texts, made for names."""
        return self.good()._replace(kind=NAMES)

    def last_damage(self):
        """One wrong thing alone, at the end of the last string, so that the order stays."""
        kind = self.kind()
        strings = self.ascending(kind) or [b'a']
        strings[-1] += self.rng.choice(MARKS) if kind == NAMES else self.rng.choice(self.rng.choice(WRONG))
        return self.rng.choice([self.numbering, self.lookup])(kind, strings)

    def without_ends(self):
        return self.good()._replace(ends=())

    def some(self):
        ways = [self.good] * 8 + [self.damaged] * 8 + [self.other_kind] * 3 + [self.last_damage] * 2 + [self.without_ends]
        return self.rng.choice(ways)()

    def largest(self):
        """Many strings: in order, shuffled, all the same, alike up to their last bytes, and beginnings of each other."""
        alike = [b'http://ex/stem/' + b'%06d' % n for n in range(20000)]
        shuffled = self.rng.sample(alike, len(alike)) + self.rng.choices(alike, k=2000)
        nested = [b'ab' * n for n in range(400)]
        for strings in (alike, alike[::-1], shuffled, [b'same'] * 5000, [b''] * 5000, self.rng.sample(nested, 400)):
            yield self.numbering(1, strings)
        yield self.numbering(NAMES, shuffled)
        for sought in (alike[0], alike[-1], alike[7777], b'http://ex/stem/', b'http://ex/stem/0077775', b'z'):
            yield Find(NAMES, *joined(alike), sought)
        yield String(1, *joined(nested), 399)
