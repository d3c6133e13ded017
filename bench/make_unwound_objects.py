#!/usr/bin/env python3
"""Writes many objects with unwind entries, of which some is reached by nothing: `make_unwound_objects.py FOLDER OBJECTS BYTES`.

They are objects of make_mixed_objects.py whose functions have each an entry of `__LD,__compact_unwind`, of five encodings,
each that of three functions in a row. Four functions in a hundred have a personality, which the library has, and
language-specific data of 16 bytes. Of sixteen functions the last four, and their data and strings, are reached by nothing
but each other; nor are the two behind a weak definition, where that of another object was taken. So `-dead_strip` leaves out
a third of the functions.
"""
import struct
import sys
from array import array

from make_mixed_objects import (
    EXTERNAL, FUNCTION_SIZE, PERSONALITY, SIZE_OF_ONE, UNSIGNED, Object, main)

DEBUG = 0x02000000
# the relocation of an address in a section of the object, behind the 24 bits of the section's number
LOCAL = 3 << 25
# frames with 0 to 3 pairs of saved registers, and one of 16 bytes without a frame
ENCODINGS, HAS_LSDA = (0x04000000, 0x04000001, 0x04000003, 0x04000007, 0x02001000), 0x40000000
ENTRY_SIZE, LSDA_SIZE = 32, 16


def has_lsda(i):
    return i % 25 == 7


def lsda_of(k, i):
    return struct.pack("<2Q", 0x9BFF, k << 32 | i)


class Unwound(Object):
    """The symbols of an object whose functions have unwind entries, and the addresses of their language-specific data."""

    SIZE_OF_ONE = SIZE_OF_ONE + ENTRY_SIZE + 8 + (LSDA_SIZE + 2 * 8 + 40) // 25

    def __init__(self, k, objects, count):
        self.lsdas, self.personality = {}, {}
        super().__init__(k, objects, count)
        self.add(self.personality, 0, PERSONALITY, EXTERNAL, 0, 0)

    def add_more(self, i, kind, start):
        if has_lsda(i):
            self.lsdas[i] = start + LSDA_SIZE * len(self.lsdas)
            self.add({}, i, b"GCC_except_table%d\0" % i, kind, 4, self.lsdas[i])

    def following(self, i):
        after = (i + 1) % self.count
        return (after + 4) % self.count if after % 16 == 12 else after

    def sections(self):
        tables = b"".join(lsda_of(self.k, i) for i in self.lsdas)
        return [*super().sections(), (b"__gcc_except_tab", b"__TEXT", tables, 2, (), 0),
                (b"__compact_unwind", b"__LD", *self.entries(), DEBUG)]

    def entries(self):
        """The entries, their alignment, and their relocations."""
        relocations, entries = array("I"), []
        for i in reversed(range(self.count)):
            at, encoding = ENTRY_SIZE * i, ENCODINGS[i // 3 % len(ENCODINGS)]
            if has_lsda(i):
                encoding |= HAS_LSDA
                relocations.extend((at + 24, LOCAL | 4, at + 16, UNSIGNED | self.personality[0]))
            relocations.extend((at, LOCAL | 1))
            entries.append(struct.pack("<QIIQQ", FUNCTION_SIZE * i, FUNCTION_SIZE, encoding, 0, self.lsdas.get(i, 0)))
        return b"".join(reversed(entries)), 3, relocations


if __name__ == "__main__":
    if len(sys.argv) != 4:
        sys.exit(__doc__)
    main(sys.argv[1], int(sys.argv[2]), int(sys.argv[3]), Unwound)
