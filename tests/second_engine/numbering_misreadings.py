"""Known misreadings of the dictionary's rules, each as an evaluation with one other method, to see whether random calls expose it."""
import re

from evaluation import written
from numbering import NAMES, Bounds, Found, Numbered, Numbering, cut, starts

# Table 3-7, a character each, and what is no character but taken for one.
CHARACTER = (rb'[\x00-\x7F]|[\xC2-\xDF][\x80-\xBF]|\xE0[\xA0-\xBF][\x80-\xBF]|[\xE1-\xEC\xEE\xEF][\x80-\xBF]{2}|\xED[\x80-\x9F][\x80-\xBF]'
             rb'|\xF0[\x90-\xBF][\x80-\xBF]{2}|[\xF1-\xF3][\x80-\xBF]{3}|\xF4[\x80-\x8F][\x80-\xBF]{2}')


def taken_for_formed(more):
    """Strings of characters and of more than those."""
    return re.compile(rb'(?:' + CHARACTER + b'|' + more + rb')*')


class Lenient(Numbering):
    more = taken_for_formed(b'\xFF')

    def formed(self, string):
        return self.more.fullmatch(string) is not None


class OverlongTwo(Lenient):
    """overlong forms of two bytes are UTF-8"""
    more = taken_for_formed(rb'[\xC0\xC1][\x80-\xBF]')


class OverlongMore(Lenient):
    """overlong forms of three and four bytes are UTF-8"""
    more = taken_for_formed(rb'\xE0[\x80-\x9F][\x80-\xBF]|\xF0[\x80-\x8F][\x80-\xBF]{2}')


class Surrogates(Lenient):
    """surrogates are characters"""
    more = taken_for_formed(rb'\xED[\xA0-\xBF][\x80-\xBF]')


class PastLast(Lenient):
    """code points past 10FFFF are characters"""
    more = taken_for_formed(rb'\xF4[\x90-\xBF][\x80-\xBF]{2}|[\xF5-\xF7][\x80-\xBF]{3}')


class LoneContinuation(Lenient):
    """a continuation byte may stand alone"""
    more = taken_for_formed(rb'[\x80-\xBF]')


class CutShort(Lenient):
    """a string may end within a character"""
    more = taken_for_formed(rb'(?:[\xC2-\xDF]|\xE0[\xA0-\xBF]?|[\xE1-\xEC\xEE\xEF][\x80-\xBF]?|\xED[\x80-\x9F]?|\xF0(?:[\x90-\xBF][\x80-\xBF]?)?'
                            rb'|[\xF1-\xF3](?:[\x80-\xBF][\x80-\xBF]?)?|\xF4(?:[\x80-\x8F][\x80-\xBF]?)?)$')


class WholeAlone(Numbering):
    """the bytes are UTF-8 as a whole, and ends may cut a character"""
    def given_right(self, kind, data, ends):
        return self.ends_right(data, ends) and self.formed(data) and (kind != NAMES or all(map(self.name_right, cut(data, ends))))


class Utf16Order(Numbering):
    """strings are ordered as UTF-16"""
    def key(self, string):
        return list(string.decode('utf-8').encode('utf-16-be'))


class BeginningBehind(Numbering):
    """a beginning comes behind what it begins"""
    def key(self, string):
        return [*self.points(string), 0x110000]


class LengthFirst(Numbering):
    """shorter strings come first"""
    def key(self, string):
        return len(string), self.points(string)


class SignedBytes(Numbering):
    """bytes are signed"""
    def key(self, string):
        return [byte - 256 if byte > 127 else byte for byte in string]


class RepeatsTwice(Numbering):
    """repeats are numbered twice"""
    def once(self, strings, places):
        numbers = [0] * len(strings)
        for number, place in enumerate(places):
            numbers[place] = number
        return [strings[place] for place in places], numbers


class AsGiven(Numbering):
    """numbers stand in the order of the dictionary"""
    def once(self, strings, places):
        own, numbers = super().once(strings, places)
        return own, sorted(numbers)


class LastFirst(Numbering):
    """of equal strings the last place comes first"""
    def sorted_places(self, strings):
        return sorted(range(len(strings)), key=lambda place: (self.key(strings[place]), -place))


class RepeatsAscend(Numbering):
    """a dictionary may have a string twice"""
    def ascends(self, before, after):
        return self.key(before) <= self.key(after)


class OrderUnseen(Numbering):
    """a dictionary's order is not looked at"""
    def ascends(self, before, after):
        return True


class LookupUnseen(Numbering):
    """a dictionary is searched without a test of its strings"""
    def dictionary_right(self, kind, data, ends):
        return self.ends_right(data, ends)


class RankLow(Numbering):
    """what comes before all has rank 1"""
    def rank(self, strings, sought):
        return super().rank(strings, sought) or int(sought not in strings and bool(strings))


class RankHigh(Numbering):
    """what comes behind all has the last number as its rank"""
    def rank(self, strings, sought):
        rank = super().rank(strings, sought)
        return rank - 1 if rank and rank == len(strings) else rank


class RankBehind(Numbering):
    """a string that is there counts as before itself"""
    def rank(self, strings, sought):
        return super().rank(strings, sought) + (sought in strings)


class BeginningFound(Numbering):
    """a beginning of a string is found as that string"""
    def find(self, call):
        found, = super().find(call)
        strings = [] if found.refused else cut(call.bytes, call.ends)
        there = found.number < len(strings) and strings[found.number].startswith(call.sought)
        return (found._replace(present=1) if there else found,)


class SoughtTested(Numbering):
    """what is looked for has to be a string of the kind"""
    def find(self, call):
        return super().find(call) if self.string_right(call.kind, call.sought) else (Found(28, 0, 0),)


class EmptyTextRefused(Numbering):
    """the empty text is no string"""
    def string_right(self, kind, string):
        return len(string) > 0 and super().string_right(kind, string)


class EmptyName(Numbering):
    """a name may be empty"""
    def name_right(self, string):
        return all(map(self.in_iri, self.points(string)))


class SpaceInName(Numbering):
    """a name may have a blank"""
    def in_iri(self, point):
        return point == 0x20 or super().in_iri(point)


class ControlInName(Numbering):
    """a name may have control characters"""
    def in_iri(self, point):
        return point < 0x20 or super().in_iri(point)


class BraceInName(Numbering):
    """a name may have braces and bars"""
    def in_iri(self, point):
        return point in (0x7B, 0x7C, 0x7D) or super().in_iri(point)


class BackslashInName(Numbering):
    """a name may have a backslash, a caret or a backtick"""
    def in_iri(self, point):
        return point in (0x5C, 0x5E, 0x60) or super().in_iri(point)


class AsciiNames(Numbering):
    """a name is ASCII"""
    def in_iri(self, point):
        return point < 0x7F and super().in_iri(point)


class TextsAsNames(Numbering):
    """texts have no more characters than names"""
    def string_right(self, kind, string):
        return self.formed(string) and all(map(self.in_iri, self.points(string))) and (kind != NAMES or len(string) > 0)


class OtherKinds(Numbering):
    """only 1 is texts"""
    def are_names(self, kind):
        return kind != 1


class LastEndAnywhere(Numbering):
    """bytes may be left behind the last end"""
    def ends_right(self, data, ends):
        return all(start <= end for start, end in zip(starts(ends), ends)) and (ends[-1] if ends else 0) <= len(data)


class EndsFall(Numbering):
    """ends may fall as long as the last is the length"""
    def ends_right(self, data, ends):
        return all(end <= len(data) for end in ends) and (ends[-1] if ends else 0) == len(data)


class BytesWithoutEnds(Numbering):
    """without ends nothing is looked at"""
    def ends_right(self, data, ends):
        return not ends or super().ends_right(data, ends)


class EndsAscend(Numbering):
    """two ends may not be the same"""
    def ends_right(self, data, ends):
        return super().ends_right(data, ends) and all(start < end for start, end in zip(ends, ends[1:]))


class LastLeftOut(Numbering):
    """the last string is left out, since its end is the length"""
    def strings(self, data, ends):
        return [string for string, end in zip(cut(data, ends), ends) if end < len(data)]

    def once(self, strings, places):
        own, numbers = super().once(strings, places)
        return own, numbers


class RoomFirst(Numbering):
    """room is tested before the strings"""
    def number_tests(self, call):
        return super().number_tests(call)[::-1]


class RoomForOnce(Numbering):
    """room for the dictionary is enough"""
    def room(self, call):
        own = set(cut(call.bytes, call.ends))
        return (len(call.out) >= sum(map(len, own)) and len(call.cuts) >= len(own)
                and all(len(buffer) >= len(call.ends) for buffer in (call.numbers, call.places)))


class RoomUnseen(Numbering):
    """the spare words are not looked at"""
    def room(self, call):
        return super().room(call._replace(places=call.ends))


class RoomForHalf(Numbering):
    """half of the spare words are enough"""
    def room(self, call):
        return super().room(call._replace(places=2 * call.places))


class OneMore(Numbering):
    """ends need a word more than there are strings"""
    def room(self, call):
        return super().room(call) and len(call.cuts) > len(call.ends)


class Cleared(Numbering):
    """what is left of a buffer is cleared"""
    def number(self, call):
        answer, out, *words = super().number(call)
        if answer.refused:
            return (answer, out, *words)
        return (answer, out[:answer.bytes] + bytes(len(out) - answer.bytes), written((0,) * len(call.cuts), words[0][:answer.strings]), *words[1:])


class RefusalClears(Numbering):
    """a refused call clears the numbers"""
    def number(self, call):
        answer, out, cuts, numbers, places = super().number(call)
        return answer, out, cuts, (0,) * len(numbers) if answer.refused else numbers, places


class SizesGiven(Numbering):
    """the answer has the sizes of what was given"""
    def number(self, call):
        answer, *buffers = super().number(call)
        return (answer if answer.refused else Numbered(0, len(call.bytes), len(call.ends)), *buffers)


class OnePast(Numbering):
    """the number after the last has a string"""
    def string(self, call):
        bounds, = super().string(call)
        past = not bounds.refused and call.number == len(call.ends)
        return (Bounds(0, 1, len(call.bytes), len(call.bytes)) if past else bounds,)


class PastRefused(Numbering):
    """a number past the last is refused"""
    def string(self, call):
        bounds, = super().string(call)
        return (bounds if bounds.refused or bounds.present else Bounds(28, 0, 0, 0),)


class EndAsLength(Numbering):
    """the end of a string is its length"""
    def string(self, call):
        bounds, = super().string(call)
        return (bounds._replace(end=bounds.end - bounds.start),)


ALL_NUMBERING_MISREADINGS = [OverlongTwo, OverlongMore, Surrogates, PastLast, LoneContinuation, CutShort, WholeAlone, Utf16Order, BeginningBehind,
                             LengthFirst, SignedBytes, RepeatsTwice, AsGiven, LastFirst, RepeatsAscend, OrderUnseen, LookupUnseen, RankLow, RankHigh,
                             RankBehind, BeginningFound, SoughtTested, EmptyTextRefused, EmptyName, SpaceInName, ControlInName, BraceInName,
                             BackslashInName, AsciiNames, TextsAsNames, OtherKinds, LastEndAnywhere, EndsFall, BytesWithoutEnds, EndsAscend,
                             LastLeftOut, RoomFirst, RoomForOnce, RoomUnseen, RoomForHalf, OneMore, Cleared, RefusalClears, SizesGiven, OnePast,
                             PastRefused, EndAsLength]
