#!/usr/bin/env python3
"""Writes the chains of the pointers that `crates/part_tests/src/chains.rt` tests, and has LLVM list them: `llvm_chains.py [VERSION]`.

The writer here is by `fixup-chains.h` and stands apart from `fixup_chain`. The tests compare what `encode` answers with the
SHA-256 of what it writes, each of which has to stand there. An image is put together of the words and of the part that tells
the loader of them, and `llvm-objdump-VERSION --macho --chained-fixups --dyld-info` (19 unless told otherwise) has to list
just these pointers with what each leads to, and the imports in their order. LLVM 19 takes the place of a name of the wide
form from the bit that tells whether the name may be missing, and the other way round, so that there this script reads both by
the import that LLVM lists.
"""
import bisect
import hashlib
import re
import struct
import subprocess
import sys
import tempfile
from pathlib import Path
from typing import NamedTuple

TESTS = Path(__file__).resolve().parent.parent / "crates/part_tests/src/chains.rt"

PAGE = 0x4000
BASE = 0x1_0000_0000
CONST, DATA = BASE + PAGE, BASE + 0x1_0000
SEGMENTS = ((b"__PAGEZERO", 0, BASE), (b"__TEXT", BASE, PAGE), (b"__DATA_CONST", CONST, 0x8000),
            (b"__OTHER", 0x1_0000_c000, PAGE), (b"__DATA", DATA, 0x4000_8000), (b"__LINKEDIT", 0x1_4001_8000, 0))
# the one atom to which pointers lead that lead into one
ATOM = 0x400

FLAT, WEAK = 0xfffe, 0xfffd


class Pointer(NamedTuple):
    address: int
    # of a rebase the offset from the image's header; else None
    target: int | None = None
    name: bytes = b""
    ordinal: int = 0
    optional: bool = False
    addend: int = 0


def rebase(address, target):
    return Pointer(address, target)


def bind(address, name, ordinal, addend=0, optional=False):
    return Pointer(address, None, name, ordinal, optional, addend)


def import_of(pointer, wide):
    return pointer.name, pointer.addend if wide else 0, pointer.ordinal, pointer.optional


def starts_of(addresses):
    offsets, parts = [], b""
    for _, start, size in SEGMENTS:
        inside = addresses[bisect.bisect_left(addresses, start):bisect.bisect_left(addresses, start + size)]
        if not inside:
            offsets.append(0)
            continue
        firsts = [0xffff] * ((inside[-1] - start) // PAGE + 1)
        for address in reversed(inside):
            firsts[(address - start) // PAGE] = address % PAGE
        at = 4 + 4 * len(SEGMENTS) + len(parts)
        parts += bytes(-at % 8)
        offsets.append(at + -at % 8)
        parts += struct.pack("<IHHQIH", 22 + 2 * len(firsts), PAGE, 6, start - BASE, 0, len(firsts))
        parts += struct.pack(f"<{len(firsts)}H", *firsts)
    return struct.pack(f"<{len(SEGMENTS) + 1}I", len(SEGMENTS), *offsets) + parts


def encoded(pointers):
    """The word of each pointer with its address, and the part that tells of them. Addresses rise."""
    binds = [pointer for pointer in pointers if pointer.target is None]
    places, pool = {}, bytearray(1)
    for name in sorted({pointer.name for pointer in binds}):
        places[name] = len(pool)
        pool += name + b"\0"
    wide = len(pool) >= 1 << 23 or any(not 0 <= pointer.addend < 256 for pointer in binds)
    imports = sorted({import_of(pointer, wide) for pointer in binds})
    numbers = {imported: number for number, imported in enumerate(imports)}
    words = []
    for pointer, after in zip(pointers, [*pointers[1:], None]):
        near = after and after.address // PAGE == pointer.address // PAGE
        step = (after.address - pointer.address) // 4 if near else 0
        if pointer.target is None:
            addend = 0 if wide else pointer.addend
            words.append((pointer.address, numbers[import_of(pointer, wide)] | addend << 24 | step << 51 | 1 << 63))
        else:
            words.append((pointer.address, pointer.target | step << 51))
    rows = b""
    for name, addend, ordinal, optional in imports:
        if wide:
            rows += struct.pack("<Qq", ordinal | optional << 16 | places[name] << 32, addend)
        else:
            rows += struct.pack("<I", ordinal & 0xff | optional << 8 | places[name] << 9)
    starts = starts_of([pointer.address for pointer in pointers])
    starts += bytes(-len(starts) % (8 if wide else 4))
    at = 32 + len(starts)
    header = struct.pack("<8I", 0, 32, at, at + len(rows), len(imports), 3 if wide else 1, 0, 0)
    blob = header + starts + rows + pool
    return words, blob + bytes(-len(blob) % 8), imports


def digest_of(words, blob):
    return hashlib.sha256(b"".join(struct.pack("<QQ", *word) for word in words) + blob).hexdigest()


def padded(name, size=16):
    return name.ljust(size, b"\0")


def write_image(path, words, blob):
    """An image in which the words stand at their addresses, and the part is named by LC_DYLD_CHAINED_FIXUPS."""
    end = max((address + 8 for address, _ in words), default=DATA + 8)
    # each byte of the file stands as far from its first one as in memory, up to the last pointer
    linkedit = -(-max(end, DATA + 8) // PAGE) * PAGE - BASE
    commands = []
    for name, address, size in SEGMENTS:
        offset, filled = (address - BASE, min(size, linkedit - (address - BASE))) if address else (0, 0)
        if name == b"__LINKEDIT":
            offset, filled, size = linkedit, len(blob), -(-len(blob) // PAGE) * PAGE
        # LLVM counts segments by those that have sections; that of `__TEXT` stands at its end, behind the commands
        front = PAGE - 16 if name == b"__TEXT" else 0
        count = int(name not in (b"__PAGEZERO", b"__LINKEDIT"))
        command = struct.pack("<II16s4Q4I", 0x19, 72 + 80 * count, padded(name), address, size, offset, filled, 3, 3, count, 0)
        if count:
            command += struct.pack("<16s16sQQ8I", padded(b"__const"), padded(name), address + front, filled - front,
                                   offset + front, 3, *[0] * 6)
        commands.append(command)
    for number in range(1, 256):
        commands.append(struct.pack("<6I", 0xc, 48, 24, 0, 0x10000, 0x10000) + padded(b"/lib%d.dylib" % number, 24))
    commands.append(struct.pack("<4I", 0x8000_0034, 16, linkedit, len(blob)))
    text = struct.pack("<8I", 0xfeedfacf, 0x0100000c, 0, 2, len(commands), sum(map(len, commands)), 0x85, 0) + b"".join(commands)
    assert len(text) <= PAGE - 16, len(text)
    with path.open("wb") as file:
        file.write(text)
        for address, word in words:
            file.seek(address - BASE)
            file.write(struct.pack("<Q", word))
        file.seek(linkedit)
        file.write(blob)


def wide_import(blob, number):
    """The name of an import of the wide form, and whether it may be missing."""
    _, _, imports, names, _, _, _ = struct.unpack_from("<7I", blob)
    word = struct.unpack_from("<Q", blob, imports + 16 * number)[0]
    at = names + (word >> 32)
    return blob[at:blob.index(b"\0", at)].decode(), bool(word >> 16 & 1)


LINE = re.compile(r"\S+ +\S+ +(0x[0-9A-F]+) +(0x[0-9A-F]+) +"
                  r"(?:rebase +(0x[0-9A-F]+)|bind +(0x[0-9A-F]+) +(\S+) *(\S*?)( \(weak import\))?)")


def told(path, version, blob):
    """The fixup at each address, the format of the imports, and their names or addends, as LLVM lists them."""
    text = subprocess.run([f"llvm-objdump-{version}", "--macho", "--chained-fixups", "--dyld-info", path], check=True,
                          capture_output=True, text=True).stdout
    listed, header = text.split("chained fixups header")
    kind = int(re.search(r"imports_format *= *(\d)", header).group(1))
    fixups = {}
    for line in listed[listed.index("dyld information"):].splitlines()[2:]:
        found = LINE.fullmatch(line)
        if not found:
            sys.exit(f"not understood: {line!r}")
        address, word, target, addend, library, name, optional = found.groups()
        at = int(address, 16)
        if at in fixups:
            sys.exit(f"{address} is listed twice")
        if kind == 3 and not target:
            name, optional = wide_import(blob, int(word, 16) & 0xff_ffff)
        fixups[at] = ("rebase", int(target, 16)) if target else ("bind", library, name, bool(optional), int(addend, 16))
    imports = re.findall(r"addend *= *(-?\d+)" if kind == 3 else r"name_offset *= *\d+ \((.*)\)", header)
    return fixups, kind, imports


def wanted(pointer):
    if pointer.target is not None:
        return "rebase", BASE + pointer.target
    library = {FLAT: "flat-namespace", WEAK: "weak"}.get(pointer.ordinal, f"lib{pointer.ordinal}")
    return "bind", library, pointer.name.decode(), pointer.optional, pointer.addend % 2**64


def compare(version, pointers, known):
    """Whether the tests have the digest, and LLVM lists what was written."""
    words, blob, imports = encoded(pointers)
    digest = digest_of(words, blob)
    with tempfile.TemporaryDirectory() as folder:
        path = Path(folder) / "image"
        write_image(path, words, blob)
        fixups, kind, listed = told(path, version, blob)
    expected = {pointer.address: wanted(pointer) for pointer in pointers}
    wrong = [hex(at) for at in sorted({*fixups, *expected}) if fixups.get(at) != expected.get(at)]
    in_order = listed == [str(addend) if kind == 3 else name.decode() for name, addend, _, _ in imports]
    print(f"{digest[:16]} {'tested' if digest in known else 'NOT TESTED'}: {len(fixups)} pointers listed, {len(wrong)} differ "
          f"{' '.join(wrong[:4])}; format {kind}, {len(imports)} imports{'' if in_order else ' THAT DIFFER'}")
    return digest in known and not wrong and in_order


def shape(count, step, names, blocks, spread, low, last=b""):
    """Pointers `step` bytes apart, every second one bound, as the tests' `Shape` says."""
    pointers = []
    for k in range(count):
        number, address = k // 2 % names, DATA + k * step
        if k % 2:
            name = b"_" + b"a" * 500 * blocks + b"%04d" % number
            pointers.append(bind(address, name, number % 240 + 1, k % spread - low, number % 7 == 0))
        else:
            pointers.append(rebase(address, ATOM + 8 * k - k))
    return pointers + [bind(DATA + count * step, last, FLAT)] * bool(last)


def cases():
    puts, a, b, c, d, e = b"_puts", b"_a", b"_b", b"_c", b"_d", b"_e"
    several = [(CONST + 8, c, 240, 0, False), (CONST + 16, b, FLAT, 0, False), (CONST + 24, a, WEAK, 0, False),
               (CONST + 32, e, WEAK, 0, True)]
    for addend in (255, 256, -8):
        yield [bind(CONST, puts, 1, addend)]
    yield [rebase(CONST + place, ATOM + 0x28) for place in (0, 0x3ff8, 0x4000)]
    yield [bind(*row) for row in [(CONST, d, 1), *several, (CONST + 40, d, 1), (CONST + 52, c, 240, 3)]]
    yield [bind(*row) for row in [(CONST, d, 1, -1), *several, (CONST + 40, d, 1, 2**63 - 1), (CONST + 52, d, 1, -2**63)]]
    yield [bind(CONST, a, 254, 256), bind(CONST + 8, b, 253), bind(CONST + 16, c, 255, 1), bind(CONST + 24, d, FLAT)]
    yield [bind(CONST, puts, 1, 1), bind(CONST + 8, puts, 1, 2)]
    yield [rebase(CONST + 0x7ff8, 0), rebase(DATA, 0xf_ffff_ffff), rebase(DATA + 0x8000, ATOM + 8)]
    yield [rebase(DATA + 65_534 * PAGE + 0x3ff8, 5)]
    yield []
    yield shape(3000, 24, 40, 0, 256, 0)
    yield shape(3000, 24, 40, 0, 257, 0)
    yield shape(4000, 40, 100, 0, 3, 1)
    yield shape(4190, 8, 2095, 8, 1, 0)
    yield shape(4190, 8, 2094, 8, 1, 0)
    yield shape(4188, 8, 2094, 8, 1, 0, b"z" * 41)
    yield shape(4188, 8, 2094, 8, 1, 0, b"z" * 42)
    yield shape(9000, 5000, 7, 0, 2, 0)


def main():
    known = TESTS.read_text()
    version = sys.argv[1] if len(sys.argv) > 1 else "19"
    return all([compare(version, pointers, known) for pointers in cases()])


if __name__ == "__main__":
    sys.exit(not main())
