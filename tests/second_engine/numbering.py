"""What the dictionary's calls answer, and every buffer at exit: an evaluation of their rules (docs/RULES.md) in Python.

It is written from the rules' text alone: Python's own decoder says what UTF-8 is, and strings are ordered by their code points. What the rules
say is a method, so that a misreading is a subclass with one other method (numbering_misreadings.py). Bytes are Python's, words are tuples.
"""
from collections import namedtuple

from evaluation import first_failing, written

NAMES = 0                           # every other kind is texts
MOST_STRINGS = (1 << 30) - 1
NOT_IN_IRIS = set(range(0x21)) | set(map(ord, '"<>\\^`{|}'))

Number = namedtuple('Number', 'kind bytes ends out cuts numbers places')
Find = namedtuple('Find', 'kind bytes ends sought')
String = namedtuple('String', 'kind bytes ends number')
Numbered = namedtuple('Numbered', 'refused bytes strings')
Found = namedtuple('Found', 'refused present number')
Bounds = namedtuple('Bounds', 'refused present start end')


def starts(ends):
    return (0, *ends[:-1])


def cut(data, ends):
    """The strings of some bytes, by their ends."""
    return [data[start:end] for start, end in zip(starts(ends), ends)]


class Numbering:
    """The calls. Each gives its answer; `number` its four written buffers too, as they are at exit."""

    # What a string is.

    def formed(self, string):
        try:
            string.decode('utf-8')
        except UnicodeDecodeError:
            return False
        return True

    def in_iri(self, point):
        return point not in NOT_IN_IRIS

    def points(self, string):
        """The code points of a string; a misreading may ask for those of one that is no UTF-8, whose odd bytes are then surrogates."""
        return [ord(character) for character in string.decode('utf-8', 'surrogateescape')]

    def name_right(self, string):
        return len(string) > 0 and all(map(self.in_iri, self.points(string)))

    def are_names(self, kind):
        return kind == NAMES

    def string_right(self, kind, string):
        return self.formed(string) and (not self.are_names(kind) or self.name_right(string))

    def key(self, string):
        """What strings are ordered by: code points; a beginning comes first."""
        return self.points(string)

    # What is given.

    def ends_right(self, data, ends):
        return all(start <= end for start, end in zip(starts(ends), ends)) and (ends[-1] if ends else 0) == len(data)

    def strings(self, data, ends):
        return cut(data, ends)

    def given_right(self, kind, data, ends):
        return self.ends_right(data, ends) and len(ends) <= MOST_STRINGS and all(self.string_right(kind, s) for s in self.strings(data, ends))

    def ascends(self, before, after):
        return self.key(before) < self.key(after)

    def dictionary_right(self, kind, data, ends):
        if not self.given_right(kind, data, ends):
            return False
        strings = self.strings(data, ends)
        return all(self.ascends(before, after) for before, after in zip(strings, strings[1:]))

    def room(self, call):
        count = len(call.ends)
        return len(call.out) >= len(call.bytes) and all(len(buffer) >= count for buffer in (call.cuts, call.numbers, call.places))

    # Numbering.

    def number_tests(self, call):
        return [(26, lambda: self.given_right(call.kind, call.bytes, call.ends)), (27, lambda: self.room(call))]

    def sorted_places(self, strings):
        return sorted(range(len(strings)), key=lambda place: self.key(strings[place]))

    def once(self, strings, places):
        """The dictionary's strings, and the number of each that is given."""
        own, number = [], {}
        for place in places:
            if strings[place] not in number:
                number[strings[place]] = len(own)
                own.append(strings[place])
        return own, [number[string] for string in strings]

    def number(self, call):
        refused = first_failing(self.number_tests(call))
        if refused:
            return Numbered(refused, 0, 0), call.out, call.cuts, call.numbers, call.places
        strings = self.strings(call.bytes, call.ends)
        places = self.sorted_places(strings)
        own, numbers = self.once(strings, places)
        data, ends, length = b''.join(own), [], 0
        for string in own:
            length += len(string)
            ends.append(length)
        return (Numbered(0, len(data), len(own)), data + call.out[len(data):], written(call.cuts, ends), written(call.numbers, numbers),
                written(call.places, places))

    # Looking up.

    def comes_before(self, string, sought):
        """A string of the dictionary before one that is looked for, which may be no UTF-8: by bytes."""
        return string < sought

    def rank(self, strings, sought):
        return sum(self.comes_before(string, sought) for string in strings)

    def find(self, call):
        if not self.dictionary_right(call.kind, call.bytes, call.ends):
            return (Found(28, 0, 0),)
        strings = self.strings(call.bytes, call.ends)
        return (Found(0, int(call.sought in strings), self.rank(strings, call.sought)),)

    def is_past(self, number, count):
        return number >= count

    def string(self, call):
        if not self.dictionary_right(call.kind, call.bytes, call.ends):
            return (Bounds(28, 0, 0, 0),)
        if self.is_past(call.number, len(call.ends)):
            return (Bounds(0, 0, 0, 0),)
        return (Bounds(0, 1, starts(call.ends)[call.number], call.ends[call.number]),)

    def answer(self, call):
        return {Number: self.number, Find: self.find, String: self.string}[type(call)](call)
