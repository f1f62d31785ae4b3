"""Registers of values, their merging, and a report on them."""
from collections import namedtuple

from words import UNBOUND

REGISTERS_COUNT, MOST_RANK, REPORT_WORDS = 16, 61, 62
OFFSET_BASIS, PRIME = 14695981039346656037, 1099511628211

Reported = namedtuple('Reported', 'refused words')


class Registers:
    """What the rules say of registers, each point a method."""

    def mixed(self, hashed, byte):
        """FNV-1a: a byte more."""
        return (hashed ^ byte) * PRIME % (1 << 64)

    def hash(self, data):
        hashed = OFFSET_BASIS
        for byte in data:
            hashed = self.mixed(hashed, byte)
        return hashed

    def bytes_of(self, word):
        return word.to_bytes(4, 'little')

    def is_counted(self, word):
        return word != UNBOUND

    def register_rank(self, bits):
        """Of the 60 bits behind the top four: one more than the zeros that lead them."""
        return 1 + 60 - bits.bit_length()

    def picked(self, word):
        """The register that a value picks, and what it gives it."""
        hashed = self.hash(self.bytes_of(word))
        return hashed >> 60, self.register_rank(hashed % (1 << 60))

    def registers(self, values):
        made = [0] * REGISTERS_COUNT
        for at, rank in map(self.picked, filter(self.is_counted, values)):
            made[at] = max(made[at], rank)
        return made

    # Test 12, merging, and the report.

    def most_rank(self):
        return MOST_RANK

    def are_registers(self, words):
        return len(words) == REGISTERS_COUNT and all(word <= self.most_rank() for word in words)

    def kept_registers(self, words):
        return not words or self.are_registers(words)

    def greater(self, a, b):
        return max(a, b)

    def merged_registers(self, kept, made):
        return [self.greater(a, b) for a, b in zip(kept, made)] if kept else list(made)

    def counted_registers(self, kept):
        return kept or (0,) * REGISTERS_COUNT

    def report(self, kept, given, report):
        """The answer of a report, and its buffer at exit."""
        if len(report) < REPORT_WORDS:
            return Reported(7, 0), report
        if given > len(kept) or not self.kept_registers(kept[:given]):
            return Reported(12, 0), report
        registers = self.counted_registers(kept[:given])
        counts = tuple(sum(register == value for register in registers) for value in range(REPORT_WORDS))
        return Reported(0, REPORT_WORDS), counts + tuple(report[REPORT_WORDS:])
