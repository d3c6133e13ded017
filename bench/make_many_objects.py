#!/usr/bin/env python3
"""Writes many objects that call each other, for measuring: `make_many_objects.py FOLDER OBJECTS BYTES`.

The objects are FOLDER/0000.o and so on, of equal size and of about BYTES together; `_main` is in the first. Each has as
many functions of 128 bytes as data of 32, cut at their symbols. A function calls the next one of its object and one of
another object, and takes the addresses of a datum of its object and of one of another, by page and offset. Every
fourth function and every second datum is local.
The structures are those of mach-o/loader.h, mach-o/nlist.h and mach-o/reloc.h.
"""
import struct
import sys
from array import array

MAGIC_64, CPU_ARM64, OBJECT = 0xFEEDFACF, 0x0100000C, 1
SUBSECTIONS_VIA_SYMBOLS = 0x2000
SEGMENT_64, SYMTAB = 0x19, 0x2
PURE_AND_SOME_INSTRUCTIONS = 0x80000400
IN_SECTION, EXTERNAL = 0xE, 0x1
# r_pcrel, r_length 2, r_extern 1 and r_type, behind the 24 bits of r_symbolnum
BRANCH26, PAGE21, PAGEOFF12 = (pcrel << 24 | 2 << 25 | 1 << 27 | kind << 28 for pcrel, kind in ((1, 2), (1, 3), (0, 4)))
FRONT = 32 + 72 + 2 * 80 + 24

# stp x29, x30, [sp, #-16]!; adrp x0, 0; add x0, x0, #0; bl 0; adrp x1, 0; add x1, x1, #0; bl 0; nop ...;
# ldp x29, x30, [sp], #16; ret
FUNCTION = array("I", [
    0xA9BF7BFD, 0x90000000, 0x91000000, 0x94000000, 0x90000001, 0x91000021, 0x94000000,
    *[0xD503201F] * 23, 0xA8C17BFD, 0xD65F03C0])
OWN_PAGE, OWN_OFFSET, OWN_CALL, OTHER_PAGE, OTHER_OFFSET, OTHER_CALL = range(1, 7)
FUNCTION_SIZE, DATUM_SIZE = 4 * len(FUNCTION), 32
# each name takes 24 bytes with its NUL
NAME_SIZE = 24
# code, six relocations, a datum, two definitions and two symbols of other objects with their names
SIZE_OF_ONE = FUNCTION_SIZE + 6 * 8 + DATUM_SIZE + 4 * (16 + NAME_SIZE)


def function_name(k, i):
    return b"_main\0".ljust(NAME_SIZE, b"\0") if k == i == 0 else b"_function_%05d_%07d\0" % (k, i)


def datum_name(k, i):
    return b"_datum_of_%05d_%07d\0" % (k, i)


def symbols_of(k, objects, count):
    """The symbols in the file's order (local, external, undefined), with each function's, each datum's and each other
    object's place among them."""
    rows, names = [], []
    functions, data, other_functions, other_data = ([0] * count for _ in range(4))

    def add(places, i, name, kind, section, value):
        places[i] = len(rows)
        rows.append((kind, section, value))
        names.append(name)

    for local in (True, False):
        kind = IN_SECTION if local else IN_SECTION | EXTERNAL
        for i in range(count):
            if (i % 4 == 3) == local:
                add(functions, i, function_name(k, i), kind, 1, FUNCTION_SIZE * i)
            if (i % 2 == 1) == local:
                add(data, i, datum_name(k, i), kind, 2, FUNCTION_SIZE * count + DATUM_SIZE * i)
    for i in range(count):
        # an external one of an object that changes from function to function
        other = (k + 1 + 7 * i) % objects
        add(other_functions, i, function_name(other, i - i % 4 + i // 4 % 3), EXTERNAL, 0, 0)
        add(other_data, i, datum_name(other, i - i % 2), EXTERNAL, 0, 0)
    return rows, names, functions, data, other_functions, other_data


def unique(rows, names, places):
    """Where two functions need the same symbol of another object, it stands once."""
    first, kept_rows, kept_names, new = {}, [], [], []
    for row, name in zip(rows, names):
        if name not in first:
            first[name] = len(kept_rows)
            kept_rows.append(row)
            kept_names.append(name)
        new.append(first[name])
    return kept_rows, kept_names, [[new[place] for place in each] for each in places]


def object_of(k, objects, count):
    rows, names, *places = symbols_of(k, objects, count)
    rows, names, (functions, data, other_functions, other_data) = unique(rows, names, places)
    entries = array("I")
    for i in reversed(range(count)):
        at = FUNCTION_SIZE * i
        # the last one first, as an assembler writes them
        entries.extend((
            at + 4 * OTHER_CALL, BRANCH26 | other_functions[i],
            at + 4 * OTHER_OFFSET, PAGEOFF12 | other_data[i],
            at + 4 * OTHER_PAGE, PAGE21 | other_data[i],
            at + 4 * OWN_CALL, BRANCH26 | functions[(i + 1) % count],
            at + 4 * OWN_OFFSET, PAGEOFF12 | data[i],
            at + 4 * OWN_PAGE, PAGE21 | data[i]))
    table = b"".join(
        struct.pack("<IBBHQ", 1 + NAME_SIZE * at, kind, section, 0, value)
        for at, (kind, section, value) in enumerate(rows))
    strings = b"\0" + b"".join(names)
    strings += bytes(-len(strings) % 8)
    code_size, data_size = FUNCTION_SIZE * count, DATUM_SIZE * count
    relocations = FRONT + code_size + data_size
    symbols = relocations + 8 * 6 * count
    front = struct.pack("<8I", MAGIC_64, CPU_ARM64, 0, OBJECT, 2, FRONT - 32, SUBSECTIONS_VIA_SYMBOLS, 0)
    size = code_size + data_size
    front += struct.pack("<II16s4Q4I", SEGMENT_64, 72 + 2 * 80, b"", 0, size, FRONT, size, 7, 7, 2, 0)
    front += struct.pack(
        "<16s16sQQ8I", b"__text", b"__TEXT", 0, code_size, FRONT, 2, relocations, 6 * count, PURE_AND_SOME_INSTRUCTIONS,
        0, 0, 0)
    front += struct.pack(
        "<16s16sQQ8I", b"__data", b"__DATA", code_size, data_size, FRONT + code_size, 3, 0, 0, 0, 0, 0, 0)
    front += struct.pack("<6I", SYMTAB, 24, symbols, len(rows), symbols + len(table), len(strings))
    contents = FUNCTION.tobytes() * count + bytes((k + i) & 0xFF for i in range(DATUM_SIZE)) * count
    return front + contents + entries.tobytes() + table + strings


def main(folder, objects, size):
    count = max(4, (size // objects - FRONT) // SIZE_OF_ONE // 4 * 4)
    for k in range(objects):
        with open(f"{folder}/{k:04}.o", "wb") as out:
            out.write(object_of(k, objects, count))


if __name__ == "__main__":
    if len(sys.argv) != 4:
        sys.exit(__doc__)
    main(sys.argv[1], int(sys.argv[2]), int(sys.argv[3]))
