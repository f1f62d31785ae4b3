"""The dictionary's calls, from a library with their C declarations, answering as the evaluation does."""
import os
from array import array
from ctypes import CDLL, Structure, addressof, c_size_t, c_uint8, c_uint32, c_void_p

from engine import Touched, shared
from numbering import Bounds, Find, Found, Number, Numbered, String

GUARD = bytes(range(0xA0, 0xB0))        # before and behind what is lent
WORD = 4


class CNumbered(Structure):
    _fields_ = [('refused', c_uint32), ('bytes', c_size_t), ('strings', c_size_t)]


class CFound(Structure):
    _fields_ = [('refused', c_uint32), ('present', c_uint32), ('number', c_size_t)]


class CBounds(Structure):
    _fields_ = [('refused', c_uint32), ('present', c_uint32), ('start', c_size_t), ('end', c_size_t)]


class Lent:
    """Room for one buffer of a call after the other, which is written between guards."""

    def __init__(self, name):
        self.name, self.lent, self.room, self.address = name, b'', bytearray(), 0

    def put(self, lent):
        """Lends such bytes; answers their address."""
        self.lent = lent
        if len(self.room) < len(lent) + 2 * len(GUARD):
            self.room = bytearray(2 * len(lent) + 64)
            self.address = addressof((c_uint8 * len(self.room)).from_buffer(self.room)) + len(GUARD)
        self.room[:len(lent) + 2 * len(GUARD)] = GUARD + lent + GUARD
        return self.address

    def left(self):
        """What it holds at exit."""
        end = len(GUARD) + len(self.lent)
        if self.room[:len(GUARD)] != GUARD or self.room[end:end + len(GUARD)] != GUARD:
            raise Touched(f'a byte beside {self.name}')
        return bytes(self.room[len(GUARD):end])

    def unchanged(self):
        if self.left() != self.lent:
            raise Touched(self.name)


def packed(words):
    return array('I', words).tobytes()


def unpacked(data):
    return tuple(array('I', data))


class Dictionary:
    """The calls of a library."""

    def __init__(self, path, folder):
        os.makedirs(folder, exist_ok=True)
        self.name, library = os.path.basename(path), CDLL(shared(path, folder))
        given = [c_uint32] + [c_void_p, c_size_t] * 2
        self.numbering, self.finding, self.lending = library.sotjarn_number, library.sotjarn_find, library.sotjarn_string
        self.numbering.restype, self.numbering.argtypes = CNumbered, given + [c_void_p, c_size_t] * 4
        self.finding.restype, self.finding.argtypes = CFound, given + [c_void_p, c_size_t]
        self.lending.restype, self.lending.argtypes = CBounds, given + [c_size_t]
        self.bytes, self.ends, self.sought = Lent('bytes'), Lent('ends'), Lent('sought')
        self.written = [Lent(name) for name in ('out', 'cuts', 'numbers', 'places')]

    def given(self, call):
        return call.kind, self.bytes.put(call.bytes), len(call.bytes), self.ends.put(packed(call.ends)), len(call.ends)

    def number(self, call):
        arguments = [argument for buffer, lent in zip(self.written, (call.out, *map(packed, call[4:])))
                     for argument in (buffer.put(lent), len(lent) // (1 if buffer.name == 'out' else WORD))]
        answer = self.numbering(*self.given(call), *arguments)
        out, *words = [buffer.left() for buffer in self.written]
        return (Numbered(answer.refused, answer.bytes, answer.strings), out, *map(unpacked, words))

    def find(self, call):
        answer = self.finding(*self.given(call), self.sought.put(call.sought), len(call.sought))
        self.sought.unchanged()
        return (Found(answer.refused, answer.present, answer.number),)

    def string(self, call):
        answer = self.lending(*self.given(call), call.number)
        return (Bounds(answer.refused, answer.present, answer.start, answer.end),)

    def answer(self, call):
        answer = {Number: self.number, Find: self.find, String: self.string}[type(call)](call)
        self.bytes.unchanged()
        self.ends.unchanged()
        return answer
