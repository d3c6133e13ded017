#!/usr/bin/env python3
"""Writes an object whose parts overlap, for measuring a reader: `make_hostile_object.py PATH FORM`.

    names       16,384 external definitions whose names are one string of 500 KB, each a byte shorter than the one before
    local       the same, of local symbols
    long        65,536 local definitions in a string of 2 MB
    sections    254 sections over the same 64 KiB of bytes
    strings     a section of 16 MB with strings of one byte
    empty       a section of 16 MB with empty strings
    texts       254 sections over the same 64 KiB of strings of one byte
    tables      254 sections that share one table of 100,000 relocations
    locals      1,000,000 pointers to addresses of the object
    rising      1,000,000 branches whose relocations stand in the order of their places
    scattered   the same, their relocations in no order
The structures are those of mach-o/loader.h, mach-o/nlist.h and mach-o/reloc.h.
"""
import struct
import sys

MAGIC_64, CPU_ARM64, OBJECT = 0xFEEDFACF, 0x0100000C, 1
SUBSECTIONS_VIA_SYMBOLS = 0x2000
SEGMENT_64, SYMTAB = 0x19, 0x2
CODE, CSTRINGS = 0x80000400, 0x2
LOCAL, EXTERNAL = 0x0E, 0x0F
NOP, RET = 0xD503201F, 0xD65F03C0
# r_pcrel 1, r_length 2, r_extern 1, r_type ARM64_RELOC_BRANCH26; r_length 3, ARM64_RELOC_UNSIGNED of section 1
BRANCH26, POINTER = 1 << 24 | 2 << 25 | 1 << 27 | 2 << 28, 3 << 25 | 1


def write_object(path, sections, contents, symbols, strings, relocations=()):
    """`sections` has the name, the segment's name and the flags of each, all over the same contents and relocations."""
    commands = 72 + 80 * len(sections) + 24
    front = 32 + commands
    relocation_offset = front + len(contents)
    symbol_offset = relocation_offset + 8 * len(relocations)
    string_offset = symbol_offset + 16 * len(symbols)
    out = bytearray(struct.pack("<8I", MAGIC_64, CPU_ARM64, 0, OBJECT, 2, commands, SUBSECTIONS_VIA_SYMBOLS, 0))
    size = len(contents) * len(sections)
    out += struct.pack(
        "<II16s4Q4I", SEGMENT_64, 72 + 80 * len(sections), b"", 0, size, front, len(contents), 7, 7, len(sections), 0)
    for i, (name, segment, flags) in enumerate(sections):
        out += struct.pack(
            "<16s16sQQ8I", name, segment, i * len(contents), len(contents), front, 2, relocation_offset if relocations else 0,
            len(relocations), flags, 0, 0, 0)
    out += struct.pack("<6I", SYMTAB, 24, symbol_offset, len(symbols), string_offset, len(strings))
    out += contents
    for relocation in relocations:
        out += struct.pack("<II", *relocation)
    for symbol in symbols:
        out += struct.pack("<IBBHQ", *symbol)
    out += strings
    with open(path, "wb") as file:
        file.write(out)


def overlapping(path, count, length, kind):
    code = struct.pack("<I", NOP) * (count - 1) + struct.pack("<I", RET)
    strings = b"\0" + b"_main\0" + b"a" * length + b"\0"
    symbols = [(7 + i, kind, 1, 0, 4 * i) for i in range(count - 1)]
    symbols.append((1, EXTERNAL, 1, 0, 0))
    write_object(path, [(b"__text", b"__TEXT", CODE)], code, symbols, strings)


def branches(path, count, scattered):
    """Branches to 100,000 functions."""
    names = [b"_f%05d\0" % i for i in range(100_000)]
    symbols = [(1 + 8 * i, EXTERNAL, 1, 0, 4 * (count // len(names)) * i) for i in range(len(names))]
    places = range(count)
    if scattered:
        places = (place * 700_001 % count for place in places)
    relocations = [(4 * place, BRANCH26 | place % len(names)) for place in places]
    write_object(
        path, [(b"__text", b"__TEXT", CODE)], struct.pack("<I", 0x94000000) * count, symbols, b"\0" + b"".join(names),
        relocations)


def main(path, form):
    if form == "names":
        overlapping(path, 16384, 500_000, EXTERNAL)
    elif form == "local":
        overlapping(path, 16384, 500_000, LOCAL)
    elif form == "long":
        overlapping(path, 65536, 2_000_000, LOCAL)
    elif form == "sections":
        names = [(b"__s%d" % i, b"__DATA", 0) for i in range(254)]
        write_object(path, names, bytes(1 << 16), [], b"\0")
    elif form == "strings":
        write_object(path, [(b"__cstring", b"__TEXT", CSTRINGS)], b"a\0" * (8 << 20), [], b"\0")
    elif form == "empty":
        write_object(path, [(b"__cstring", b"__TEXT", CSTRINGS)], bytes(16 << 20), [], b"\0")
    elif form == "texts":
        names = [(b"__s%d" % i, b"__TEXT", CSTRINGS) for i in range(254)]
        write_object(path, names, b"a\0" * (1 << 15), [], b"\0")
    elif form == "tables":
        names = [(b"__s%d" % i, b"__DATA", 0) for i in range(254)]
        relocations = [(8 * i, POINTER) for i in range(100_000)]
        write_object(path, names, bytes(800_000), [], b"\0", relocations)
    elif form == "locals":
        relocations = [(8 * i, POINTER) for i in range(1_000_000)]
        write_object(path, [(b"__data", b"__DATA", 0)], bytes(8_000_000), [], b"\0", relocations)
    elif form in ("rising", "scattered"):
        branches(path, 1_000_000, form == "scattered")
    else:
        sys.exit(f"no form {form}")


if __name__ == "__main__":
    main(sys.argv[1], sys.argv[2])
