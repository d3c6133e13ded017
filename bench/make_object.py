#!/usr/bin/env python3
"""Writes an object whose one section is code, for measuring: `make_object.py PATH BYTES [branches]`.

The section has `_main` at its start. Without `branches` its words are `nop` and the last one `ret`.
With it every word is a `bl` with a relocation, in turn to `_main` and to `_last`, the section's last word.
The structures are those of mach-o/loader.h, mach-o/nlist.h and mach-o/reloc.h.
"""
import struct
import sys
from array import array

NOP, RET, BL = 0xD503201F, 0xD65F03C0, 0x94000000
MAGIC_64, CPU_ARM64, OBJECT = 0xFEEDFACF, 0x0100000C, 1
SUBSECTIONS_VIA_SYMBOLS = 0x2000
SEGMENT_64, SYMTAB = 0x19, 0x2
PURE_AND_SOME_INSTRUCTIONS = 0x80000400
BRANCH26 = 2


def words(count, with_branches):
    code = array("I", [BL if with_branches else NOP]) * count
    if not with_branches:
        code[-1] = RET
    return code


def relocations(count):
    """One BRANCH26 a word, the last word first, as an assembler writes them."""
    # r_symbolnum 24, r_pcrel 1, r_length 2, r_extern 1, r_type 4, from the low bit
    flags = 1 << 24 | 2 << 25 | 1 << 27 | BRANCH26 << 28
    entries = array("I", [0, flags]) * count
    entries[0::2] = array("I", range(4 * (count - 1), -1, -4))
    entries[3::4] = array("I", [flags | 1]) * (count // 2)
    return entries


def main(path, size, with_branches):
    count = size // 4
    code = words(count, with_branches)
    entries = relocations(count) if with_branches else array("I")
    names = b"\0_main\0_last\0"
    names += bytes(-len(names) % 8)
    symbols = struct.pack("<IBBHQ", 1, 0xF, 1, 0, 0)
    symbols += struct.pack("<IBBHQ", 7, 0xE, 1, 0, size - 4)
    # the local symbol stands before the external one
    symbols = symbols[16:] + symbols[:16]
    command_sizes = 72 + 80 + 24
    text = 32 + command_sizes
    text += -text % 16
    relocation_offset = text + size
    symbol_offset = relocation_offset + 4 * len(entries)
    name_offset = symbol_offset + len(symbols)
    header = struct.pack("<IIIIIIII", MAGIC_64, CPU_ARM64, 0, OBJECT, 2, command_sizes, SUBSECTIONS_VIA_SYMBOLS, 0)
    segment = struct.pack("<II16sQQQQIIII", SEGMENT_64, 152, b"", 0, size, text, size, 7, 7, 1, 0)
    section = struct.pack(
        "<16s16sQQIIIIIIII", b"__text", b"__TEXT", 0, size, text, 2, relocation_offset if len(entries) else 0,
        len(entries) // 2, PURE_AND_SOME_INSTRUCTIONS, 0, 0, 0)
    symtab = struct.pack("<IIIIII", SYMTAB, 24, symbol_offset, 2, name_offset, len(names))
    with open(path, "wb") as out:
        front = header + segment + section + symtab
        out.write(front + bytes(text - len(front)))
        code.tofile(out)
        entries.tofile(out)
        out.write(symbols + names)


if __name__ == "__main__":
    if len(sys.argv) not in (3, 4) or sys.argv[3:] not in ([], ["branches"]):
        sys.exit(__doc__)
    main(sys.argv[1], int(sys.argv[2]), len(sys.argv) == 4)
