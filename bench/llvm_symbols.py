#!/usr/bin/env python3
"""Puts images together with the symbols that `crates/symbol_tests/src/cases.rt` wants, and has LLVM list them: `llvm_symbols.py [VERSION]`.

Each case of the tests has the symbols, strings and indirect table that `write_symbols` has to answer. Here an image is made
around them by `loader.h`, with sections of the case's names, of which `__stubs` and `__got` have a place for each number of
the indirect table. `llvm-nm-VERSION` (19 unless told otherwise) has to list the symbols that stand below, in the order of
the table, and `llvm-objdump-VERSION --macho --indirect-symbols` the names of stubs and slots.
"""
import ast
import re
import struct
import subprocess
import sys
import tempfile
from pathlib import Path

CASES = Path(__file__).resolve().parent.parent / "crates/symbol_tests/src/cases.rt"
# where the sections stand, behind all commands
BASE, PAGE, FRONT = 0x1_0000_0000, 0x4000, 0x3000

KINDS = ["000000010000026c (__TEXT,__text) non-external (was a private external) _hidden",
         "0000000100000270 (__TEXT,__text) non-external _entry",
         "0000000100004000 (__TEXT,__common) external _common",
         "0000000100000268 (__TEXT,__text) external _main",
         "0000000100000268 (__TEXT,__text) weak external _weak"]
SLOTS = ["_puts"], ["_puts", "_weak", "LOCAL"]
# symbols in the order of the table, and what stubs and slots lead to
EXPECTED = {
    "OF_ALL_KINDS": ([*KINDS, "                 (undefined) external _puts (from lib1)"], *SLOTS),
    "MAY_BE_MISSING": ([*KINDS, "                 (undefined) weak external _puts (from lib240)"], *SLOTS),
    "OF_ANY_IMAGE": ([*KINDS, "                 (undefined) external _puts (dynamically looked up)"], *SLOTS),
    "ONE_FUNCTION": (["0000000100000268 (__TEXT,__text) external _main"], [], []),
    "HELLO": (["0000000100000428 (__TEXT,__text) external _main",
               "                 (undefined) external _puts (from lib1)"], ["_puts"], ["_puts"]),
    "EMPTY": ([], [], []),
    "ONE_STRING": (["0000000100000300 (__TEXT,__cstring) non-external _own",
                    "0000000100000301 (__TEXT,__cstring) non-external (was a private external) _tail",
                    "0000000100000300 (__TEXT,__cstring) external _said"], [], []),
}


def cases():
    """Name, names of sections, rows of symbols, strings and indirect table of each case."""
    text = CASES.read_text()
    for found in re.finditer(r"pub const (\w+): Case = Case \{(.*?)\n\};", text, re.S):
        name, body = found.groups()
        image, wanted = body.split("wanted: Wanted {")
        sections = re.findall(r'\(\s*b"(__\w+)",\s*&\[(?:\(\(|\])', image[image.index("sections: &[\n") if "sections: &[\n" in
                              image else image.rindex("sections:"):])
        rows = [ast.literal_eval(row) for row in re.findall(r"\((?:0x)?\d[^()]*\)", wanted[:wanted.index("counts:")])]
        strings, indirect = (ast.literal_eval(re.search(rf'{field}: (b"[^"]*")', wanted).group(1))
                             for field in ("strings", "indirect"))
        counts = ast.literal_eval(re.search(r"counts: (\(.*?\))", wanted).group(1))
        yield name, sections, rows, counts, strings, indirect


def padded(name):
    return name.ljust(16, b"\0")


def image_of(stubs, sections, rows, counts, strings, indirect):
    """An image with one segment of these sections, so many stubs among them, and the tables in `__LINKEDIT`."""
    names = [name for name in sections if name not in ("__stubs", "__got")] + (["__stubs", "__got"] if indirect else [])
    order = {name: number for number, name in enumerate(sections)}
    names.sort(key=lambda name: order.get(name, len(order) + (name == "__got")))
    commands = b""
    for number, name in enumerate(names):
        flags, first, size, each, at = 0, 0, 0x100, 0, FRONT + 0x100 * number
        if name == "__text":
            flags = 0x8000_0400
        if name == "__stubs":
            flags, first, size, each = 0x8000_0408, 0, 12 * stubs, 12
        if name == "__got":
            flags, first, size = 6, stubs, 8 * (len(indirect) // 4 - stubs)
        commands += struct.pack("<16s16sQQ8I", padded(name.encode()), padded(b"__TEXT"), BASE + at, size, at, 2, 0, 0,
                                flags, first, each, 0)
    text = struct.pack("<II16s4Q4I", 0x19, 72 + 80 * len(names), padded(b"__TEXT"), BASE, 2 * PAGE, 0, PAGE, 5, 5,
                       len(names), 0) + commands
    symbols = b"".join(struct.pack("<IBBHQ", *row) for row in rows)
    size = len(symbols) + len(indirect) + len(strings)
    linkedit = struct.pack("<II16s4Q4I", 0x19, 72, padded(b"__LINKEDIT"), BASE + 2 * PAGE, PAGE, PAGE, size, 1, 1, 0, 0)
    places = PAGE, PAGE + len(symbols), PAGE + len(symbols) + len(indirect)
    symtab = struct.pack("<6I", 2, 24, places[0], len(rows), places[2], len(strings))
    local, seen, had = counts
    dysymtab = struct.pack("<20I", 0xb, 80, 0, local, local, seen, local + seen, had, 0, 0, 0, 0, 0, 0, places[1],
                           len(indirect) // 4, 0, 0, 0, 0)
    libraries = b"".join(struct.pack("<6I", 0xc, 40, 24, 2, 0x10000, 0x10000) + padded(b"/lib%d.dylib" % number)
                         for number in range(1, 256))
    whole = text + linkedit + symtab + dysymtab + libraries
    header = struct.pack("<8I", 0xfeedfacf, 0x0100000c, 0, 2, 4 + 255, len(whole), 0x85, 0)
    return (header + whole).ljust(PAGE, b"\0") + symbols + indirect + strings


def lines_of(*words):
    done = subprocess.run(words, capture_output=True, text=True)
    if done.returncode:
        sys.exit(done.stderr)
    return done.stdout.splitlines()


def compare(version, name, sections, rows, counts, strings, indirect):
    wanted, stubs, got = EXPECTED[name]
    with tempfile.TemporaryDirectory() as folder:
        path = Path(folder) / "image"
        path.write_bytes(image_of(len(stubs), sections, rows, counts, strings, indirect))
        listed = [line for line in lines_of(f"llvm-nm-{version}", "-p", "-m", path) if line and "no symbols" not in line]
        slots = lines_of(f"llvm-objdump-{version}", "--macho", "--indirect-symbols", path)
    tables, now = {"__stubs": [], "__got": []}, None
    for line in slots:
        found = re.search(r"Indirect symbols for \(__TEXT,(__\w+)\)", line)
        if found:
            now = found.group(1)
        elif line.startswith("0x"):
            tables[now].append(line.split()[-1])
    right = listed == wanted and tables["__stubs"] == stubs and tables["__got"] == got
    print(f"{name}: {len(listed)} symbols, {len(stubs)} stubs and {len(got)} slots {'listed' if right else 'DIFFER'}")
    if not right:
        print("\n".join([*listed, str(tables)]))
    return right


def main(version):
    found = list(cases())
    if {case[0] for case in found} != set(EXPECTED):
        sys.exit("the tests have other cases than these")
    if not all([compare(version, *case) for case in found]):
        sys.exit("LLVM lists other symbols")


if __name__ == "__main__":
    main(sys.argv[1] if len(sys.argv) > 1 else "19")
