#!/usr/bin/env python3
"""Writes many objects with what compilers' objects have, for measuring: `make_mixed_objects.py FOLDER OBJECTS BYTES`.

The objects are FOLDER/0000.o and so on, of about BYTES together; `_main` is in the first. FOLDER/library.tbd is a stub
library whose names they ask for. Each object has as many functions of 128 bytes as data of 32 and strings of 24, cut at
their symbols. A function takes the addresses of a datum and of a string of its object, loads that of a datum of another
object or of the library through a slot, and calls the next function of its object, one of another object, and, each
second, one of the library. A datum has one pointer or two: to a function, into a string or a datum of its object, to a
function or datum of another object, or to a function of the library. Every fourth function and every second datum is
local, every sixteenth function is a weak definition that four objects have, and every third string is in all objects.

So 50 MB have a million relocations and need some 200,000 fixups.
"""
import struct
import sys
from array import array

from make_many_objects import (
    BRANCH26, CPU_ARM64, EXTERNAL, IN_SECTION, MAGIC_64, NAME_SIZE, OBJECT, PAGE21, PAGEOFF12, PURE_AND_SOME_INSTRUCTIONS,
    SEGMENT_64, SUBSECTIONS_VIA_SYMBOLS, SYMTAB, unique)

GOT_PAGE21, GOT_PAGEOFF12 = (pcrel << 24 | 2 << 25 | 1 << 27 | kind << 28 for pcrel, kind in ((1, 5), (0, 6)))
UNSIGNED = 3 << 25 | 1 << 27
CSTRING_LITERALS, WEAK_DEFINITION = 2, 0x80
HEADERS, SECTION_HEADER = 32 + 72 + 24, 80

# stp x29, x30, [sp, #-16]!; adrp x0, 0; add x0, x0, #0; bl 0; adrp x1, 0; ldr x1, [x1]; bl 0; adrp x2, 0;
# add x2, x2, #0; bl 0 or nop; nop ...; ldp x29, x30, [sp], #16; ret
CALLING = array("I", [
    0xA9BF7BFD, 0x90000000, 0x91000000, 0x94000000, 0x90000001, 0xF9400021, 0x94000000, 0x90000002, 0x91000042, 0x94000000,
    *[0xD503201F] * 20, 0xA8C17BFD, 0xD65F03C0])
OWN_PAGE, OWN_OFFSET, OWN_CALL, SLOT_PAGE, SLOT_OFFSET, OTHER_CALL, STRING_PAGE, STRING_OFFSET, LIBRARY_CALL = range(1, 10)
STAYING = CALLING[:LIBRARY_CALL] + array("I", [0xD503201F]) + CALLING[LIBRARY_CALL + 1 :]
FUNCTION_SIZE, DATUM_SIZE, STRING_SIZE = 4 * len(CALLING), 32, 24
FIRST_POINTER, SECOND_POINTER = 8, 16
LIBRARY_NAMES, PERSONALITY = 200, b"___gxx_personality_v0\0"
# 8.5 relocations of code and 1.5 of data, three definitions and two symbols of other objects with their names
SIZE_OF_ONE = FUNCTION_SIZE + DATUM_SIZE + STRING_SIZE + 10 * 8 + 5 * (16 + NAME_SIZE)


def function_name(k, i):
    if k == i == 0:
        return b"_main\0".ljust(NAME_SIZE, b"\0")
    return b"_inlined_%06d_%07d\0" % (k // 4, i) if is_weak(i) else b"_function_%05d_%07d\0" % (k, i)


def is_weak(i):
    return i % 16 == 5


def datum_name(k, i):
    return b"_datum_of_%05d_%07d\0" % (k, i)


def library_name(i):
    return b"_library_has_%05d\0" % (i % LIBRARY_NAMES)


def string_of(k, i):
    return b"text %05d of all files\0" % i if i % 3 == 0 else b"text %05d of file%05d\0" % (i, k)


class Object:
    """The symbols of an object in its file's order (local, external, undefined), with the number of each."""

    SIZE_OF_ONE = SIZE_OF_ONE

    def __init__(self, k, objects, count):
        self.k, self.count = k, count
        self.rows, self.names = [], []
        self.functions, self.data, self.strings, self.others, self.slots, self.library = ([0] * count for _ in range(6))
        sizes = FUNCTION_SIZE * count, DATUM_SIZE * count
        for local in (True, False):
            kind = IN_SECTION if local else IN_SECTION | EXTERNAL
            for i in range(count):
                if (i % 4 == 3) == local:
                    weak = WEAK_DEFINITION if is_weak(i) else 0
                    self.add(self.functions, i, function_name(k, i), kind, 1, FUNCTION_SIZE * i, weak)
                if (i % 2 == 1) == local:
                    self.add(self.data, i, datum_name(k, i), kind, 2, sizes[0] + DATUM_SIZE * i)
                if local:
                    self.add(self.strings, i, b"l_.str.%d\0" % i, kind, 3, sum(sizes) + STRING_SIZE * i)
                    self.add_more(i, kind, sum(sizes) + STRING_SIZE * count)
        for i in range(count):
            # an external one of an object that changes from function to function
            other = (k + 1 + 7 * i) % objects
            self.add(self.others, i, function_name(other, i - i % 4 + i // 4 % 3), EXTERNAL, 0, 0)
            slot = library_name(k + i) if i % 8 == 1 else datum_name(other, i - i % 2)
            self.add(self.slots, i, slot, EXTERNAL, 0, 0)
            if i % 2 == 0:
                self.add(self.library, i, library_name(3 * k + i), EXTERNAL, 0, 0)
        places = self.functions, self.data, self.strings, self.others, self.slots, self.library
        self.rows, self.names, places = unique(self.rows, self.names, places)
        self.functions, self.data, self.strings, self.others, self.slots, self.library = places

    def add(self, places, i, name, kind, section, value, flags=0):
        places[i] = len(self.rows)
        self.rows.append((kind, section, flags, value))
        self.names.append(name)

    def add_more(self, i, kind, start):
        """Adds local symbols beside those of a function; what they name stands from an address on."""

    def following(self, i):
        """Which function and datum come after those of a number."""
        return (i + 1) % self.count

    def sections(self):
        """Of each section the name, the segment, the contents, the alignment, the relocations and the flags."""
        code = b"".join((CALLING if i % 2 == 0 else STAYING).tobytes() for i in range(self.count))
        strings = b"".join(string_of(self.k, i) for i in range(self.count))
        return [(b"__text", b"__TEXT", code, 2, self.code(), PURE_AND_SOME_INSTRUCTIONS),
                (b"__data", b"__DATA", *self.pointers(), 0),
                (b"__cstring", b"__TEXT", strings, 0, (), CSTRING_LITERALS)]

    def code(self):
        """The relocations of the code, the last one first, as an assembler writes them."""
        entries = array("I")
        for i in reversed(range(self.count)):
            at = FUNCTION_SIZE * i
            if i % 2 == 0:
                entries.extend((at + 4 * LIBRARY_CALL, BRANCH26 | self.library[i]))
            entries.extend((
                at + 4 * STRING_OFFSET, PAGEOFF12 | self.strings[i], at + 4 * STRING_PAGE, PAGE21 | self.strings[i],
                at + 4 * OTHER_CALL, BRANCH26 | self.others[i],
                at + 4 * SLOT_OFFSET, GOT_PAGEOFF12 | self.slots[i], at + 4 * SLOT_PAGE, GOT_PAGE21 | self.slots[i],
                at + 4 * OWN_CALL, BRANCH26 | self.functions[self.following(i)],
                at + 4 * OWN_OFFSET, PAGEOFF12 | self.data[i], at + 4 * OWN_PAGE, PAGE21 | self.data[i]))
        return entries

    def pointers(self):
        """The data, their alignment, and the relocations of their pointers."""
        entries, data = array("I"), []
        for i in reversed(range(self.count)):
            at = DATUM_SIZE * i
            if i % 2 == 0:
                goal = self.library[i] if i % 8 == 0 else self.slots[i]
                entries.extend((at + SECOND_POINTER, UNSIGNED | goal))
            goal, addend = (
                (self.functions[i], 0), (self.strings[i], 4), (self.data[self.following(i)], 8), (self.others[i], 0))[i % 4]
            entries.extend((at + FIRST_POINTER, UNSIGNED | goal))
            data.append(struct.pack("<4Q", self.k << 32 | i, addend, 0, i))
        return b"".join(reversed(data)), 3, entries


def file_of(made):
    """The file of an object."""
    sections = made.sections()
    table, names = [], bytearray(1)
    for (kind, section, flags, value), name in zip(made.rows, made.names):
        table.append(struct.pack("<IBBHQ", len(names), kind, section, flags, value))
        names += name
    names += bytes(-len(names) % 8)
    front_size = HEADERS + SECTION_HEADER * len(sections)
    contents = b"".join(section[2] for section in sections)
    size = len(contents)
    front = struct.pack("<8I", MAGIC_64, CPU_ARM64, 0, OBJECT, 2, front_size - 32, SUBSECTIONS_VIA_SYMBOLS, 0)
    front += struct.pack("<II16s4Q4I", SEGMENT_64, front_size - 32 - 24, b"", 0, size, front_size, size, 7, 7, len(sections), 0)
    address, place, relocations = 0, front_size + size, b""
    for name, segment, held, align, rows, flags in sections:
        front += struct.pack("<16s16sQQ8I", name, segment, address, len(held), front_size + address, align,
                             place + len(relocations) if rows else 0, len(rows) // 2, flags, 0, 0, 0)
        address += len(held)
        relocations += bytes(rows)
    symbols = place + len(relocations)
    front += struct.pack("<6I", SYMTAB, 24, symbols, len(table), symbols + 16 * len(table), len(names))
    return front + contents + relocations + b"".join(table) + bytes(names)


def library():
    of_objects = (*map(library_name, range(LIBRARY_NAMES)), PERSONALITY)
    names = ", ".join(["dyld_stub_binder", *(name[:-1].decode() for name in of_objects)])
    return f"""--- !tapi-tbd
tbd-version: 4
targets: [ arm64-macos ]
install-name: /usr/lib/library.dylib
exports:
  - targets: [ arm64-macos ]
    symbols: [ {names} ]
...
"""


def main(folder, objects, size, kind=Object):
    count = max(16, (size // objects - HEADERS - 3 * SECTION_HEADER) // kind.SIZE_OF_ONE // 4 * 4)
    for k in range(objects):
        with open(f"{folder}/{k:04}.o", "wb") as out:
            out.write(file_of(kind(k, objects, count)))
    with open(f"{folder}/library.tbd", "w") as out:
        out.write(library())


if __name__ == "__main__":
    if len(sys.argv) != 4:
        sys.exit(__doc__)
    main(sys.argv[1], int(sys.argv[2]), int(sys.argv[3]))
