#!/usr/bin/env python3
"""Writes main.o and a static library libchain.a of COUNT members into FOLDER, for rounds of one member each.

    bench/make_chain.py FOLDER COUNT

`_main` calls `_f0`, and the function of each member calls that of the next one, so that a linker that loads members round
by round has as many rounds as there are members. The objects have the records of `loader.h`, `nlist.h` and
`mach-o/arm64/reloc.h`; the library has a table of contents as ranlib(1) writes it.
"""

import pathlib
import struct
import sys

RET = b"\xc0\x03\x5f\xd6"


def calling(name, target, more=b""):
    """An object with a function that calls another one, if there is one, has some instructions more, and returns."""
    text = (b"\x00\x00\x00\x94" if target else b"") + more + RET
    relocations = struct.pack("<iI", 0, 1 | 1 << 24 | 2 << 25 | 1 << 27 | 2 << 28) if target else b""
    strings = b"\0" + name + b"\0" + (target + b"\0" if target else b"")
    symbols = struct.pack("<IBBHQ", 1, 0x0F, 1, 0, 0)
    if target:
        symbols += struct.pack("<IBBHQ", len(name) + 2, 0x01, 0, 0, 0)
    start = 32 + 72 + 80 + 24
    places = [start, start + len(text), start + len(text) + len(relocations)]
    places.append(places[2] + len(symbols))
    header = struct.pack("<8I", 0xFEEDFACF, 0x0100000C, 0, 1, 2, start - 32, 0x2000, 0)
    segment = struct.pack(
        "<II16sQQQQIIII", 0x19, 152, b"", 0, len(text), start, len(text), 7, 7, 1, 0)
    section = struct.pack(
        "<16s16sQQ8I", b"__text", b"__TEXT", 0, len(text), start, 2, places[1] if target else 0, len(relocations) // 8,
        0x80000400, 0, 0, 0)
    table = struct.pack("<6I", 2, 24, places[2], len(symbols) // 16, places[3], len(strings))
    return header + segment + section + table + text + relocations + symbols + strings


def member(name, data):
    """A member of a library, behind its header, padded to an even size."""
    head = b"%-16s%-12d%-6d%-6d%-8s%-10d`\n" % (name, 0, 0, 0, b"644", len(data))
    return head + data + b"\n" * (len(data) % 2)


def library(members):
    """A library of named objects, each of which offers one name."""
    strings, offsets = b"", []
    for _, offered, _ in members:
        offsets.append(len(strings))
        strings += offered + b"\0"
    name = b"__.SYMDEF SORTED"
    size = len(name) + 4 + 8 * len(members) + 4 + len(strings)
    place = 8 + 60 + size + size % 2
    pairs, body = [], []
    for (label, offered, data), offset in zip(members, offsets):
        pairs.append((offered, struct.pack("<II", offset, place)))
        body.append(member(label, data))
        place += len(body[-1])
    table = b"".join(pair for _, pair in sorted(pairs))
    contents = struct.pack("<I", 8 * len(members)) + table + struct.pack("<I", len(strings)) + strings
    return b"!<arch>\n" + member(b"#1/%d" % len(name), name + contents) + b"".join(body)


def main(folder, count):
    folder = pathlib.Path(folder)
    (folder / "main.o").write_bytes(calling(b"_main", b"_f0"))
    members = []
    for i in range(count):
        target = b"_f%d" % (i + 1) if i + 1 < count else None
        members.append((b"m%d.o" % i, b"_f%d" % i, calling(b"_f%d" % i, target)))
    (folder / "libchain.a").write_bytes(library(members))


if __name__ == "__main__":
    if len(sys.argv) != 3:
        sys.exit(__doc__)
    main(sys.argv[1], int(sys.argv[2]))
