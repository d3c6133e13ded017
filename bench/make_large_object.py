#!/usr/bin/env python3
"""Writes a large object, for measuring a reader: `make_large_object.py PATH [BYTES SYMBOLS RELOCATIONS]`.

It has 50,000,000 bytes, 100,000 symbols and 1,000,000 relocations where no numbers are given. Its one section is
code that may be cut at its symbols, which are external and stand at equal distances; each relocation is a BRANCH26
to one of them in turn, the last one first, as an assembler writes them.
The structures are those of mach-o/loader.h, mach-o/nlist.h and mach-o/reloc.h.
"""
import struct
import sys
from array import array

NOP, BL = 0xD503201F, 0x94000000
MAGIC_64, CPU_ARM64, OBJECT = 0xFEEDFACF, 0x0100000C, 1
SUBSECTIONS_VIA_SYMBOLS = 0x2000
SEGMENT_64, SYMTAB = 0x19, 0x2
PURE_AND_SOME_INSTRUCTIONS = 0x80000400
EXTERNAL_IN_SECTION = 0xF
# r_pcrel 1, r_length 2, r_extern 1, r_type ARM64_RELOC_BRANCH26, behind the 24 bits of r_symbolnum
BRANCH26 = 1 << 24 | 2 << 25 | 1 << 27 | 2 << 28
FRONT = 32 + 72 + 80 + 24


def main(path, size, symbols, relocations):
    names = [b"_function_%07d\0" % i for i in range(symbols)]
    strings = b"\0" + b"".join(names)
    strings += bytes(-len(strings) % 8)
    tables = 8 * relocations + 16 * symbols + len(strings)
    words = (size - FRONT - tables) // 4
    if words < max(symbols, relocations):
        sys.exit("too few bytes for so many symbols and relocations")
    code = array("I", [NOP]) * words
    entries = array("I")
    step = words // relocations
    for i in reversed(range(relocations)):
        code[step * i] = BL
        entries.extend((4 * step * i, BRANCH26 | i % symbols))
    table = bytearray()
    step = words // symbols
    for i in range(symbols):
        table += struct.pack("<IBBHQ", 1 + i * len(names[0]), EXTERNAL_IN_SECTION, 1, 0, 4 * step * i)
    relocation_offset = FRONT + 4 * words
    symbol_offset = relocation_offset + 8 * relocations
    string_offset = symbol_offset + len(table)
    front = struct.pack(
        "<8I", MAGIC_64, CPU_ARM64, 0, OBJECT, 2, FRONT - 32, SUBSECTIONS_VIA_SYMBOLS, 0)
    front += struct.pack("<II16s4Q4I", SEGMENT_64, 152, b"", 0, 4 * words, FRONT, 4 * words, 7, 7, 1, 0)
    front += struct.pack(
        "<16s16sQQ8I", b"__text", b"__TEXT", 0, 4 * words, FRONT, 2, relocation_offset, relocations,
        PURE_AND_SOME_INSTRUCTIONS, 0, 0, 0)
    front += struct.pack("<6I", SYMTAB, 24, symbol_offset, symbols, string_offset, len(strings))
    with open(path, "wb") as out:
        out.write(front)
        code.tofile(out)
        entries.tofile(out)
        out.write(table + strings)


if __name__ == "__main__":
    if len(sys.argv) not in (2, 5):
        sys.exit(__doc__)
    main(sys.argv[1], *(int(word) for word in sys.argv[2:] or ("50000000", "100000", "1000000")))
