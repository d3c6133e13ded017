#!/usr/bin/env python3
"""Writes the example's object, `make_main.py PATH`: a function that calls another one.

    _main: bl _f
           ret
    _f:    ret

It has a section, a relocation and two symbols (mach-o/loader.h, mach-o/reloc.h, mach-o/nlist.h).
"""
import struct
import sys

BL, RET = 0x94000000, 0xD65F03C0
MAGIC_64, CPU_ARM64, OBJECT, SUBSECTIONS_VIA_SYMBOLS = 0xFEEDFACF, 0x0100000C, 1, 0x2000
SEGMENT_64, SYMTAB = 0x19, 0x2
PURE_AND_SOME_INSTRUCTIONS = 0x80000400
EXTERNAL_IN_SECTION = 0xF

code = struct.pack("<III", BL, RET, RET)
# at 0: r_symbolnum 1, r_pcrel 1, r_length 2, r_extern 1, r_type 2 (ARM64_RELOC_BRANCH26)
relocations = struct.pack("<iI", 0, 1 | 1 << 24 | 2 << 25 | 1 << 27 | 2 << 28)
names = b"\0_main\0_f\0"
symbols = struct.pack("<IBBHQ", 1, EXTERNAL_IN_SECTION, 1, 0, 0)
symbols += struct.pack("<IBBHQ", 7, EXTERNAL_IN_SECTION, 1, 0, 8)

contents = 32 + 152 + 24
relocation_place = contents + len(code)
symbol_place = relocation_place + len(relocations)
name_place = symbol_place + len(symbols)

header = struct.pack("<8I", MAGIC_64, CPU_ARM64, 0, OBJECT, 2, 152 + 24, SUBSECTIONS_VIA_SYMBOLS, 0)
segment = struct.pack("<II16s4Q4I", SEGMENT_64, 152, b"", 0, len(code), contents, len(code), 7, 7, 1, 0)
section = struct.pack(
    "<16s16s2Q8I", b"__text", b"__TEXT", 0, len(code), contents, 2, relocation_place, 1,
    PURE_AND_SOME_INSTRUCTIONS, 0, 0, 0)
symtab = struct.pack("<6I", SYMTAB, 24, symbol_place, 2, name_place, len(names))

with open(sys.argv[1], "wb") as out:
    out.write(header + segment + section + symtab + code + relocations + symbols + names)
