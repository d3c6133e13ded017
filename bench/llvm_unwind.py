#!/usr/bin/env python3
"""Compares sections of unwinding with LLVM's account of them: `llvm_unwind.py [VERSION]`.

Has `call_times section` write the sections of some functions, puts each into an image by itself, and reads it by
`llvm-objdump-VERSION --macho --unwind-info` (19 unless told otherwise), which has to list a row for each function, with
its encoding, personality and data, one where a gap begins, and where they end. `speed_calls.py` says how `call_times` is
built.
"""
import re
import struct
import subprocess
import sys
import tempfile
from pathlib import Path

from speed_calls import command

# How many functions and encodings, and how many functions in a row have one.
SHAPES = [(1, 1, 1), (300, 5, 1), (511, 1, 1), (2000, 256, 1), (2000, 257, 1), (5000, 300, 4), (20_000, 40, 100)]


def image_of(section):
    """An image that has nothing but the section."""
    size = 72 + 80
    at = 32 + size

    def name(text):
        return text.encode().ljust(16, b"\0")

    segment = struct.pack("<2I16s4Q4I", 0x19, size, name("__TEXT"), 1 << 32, 1 << 30, 0, at + len(section), 5, 5, 1, 0)
    header = struct.pack("<16s16s2Q8I", name("__unwind_info"), name("__TEXT"), (1 << 32) + at, len(section), at, 2,
                         0, 0, 0, 0, 0, 0)
    return struct.pack("<8I", 0xfeed_facf, 0x0100_000c, 0, 2, 1, size, 0, 0) + segment + header + section


def functions_of(count, encodings, each):
    """What `call_times` makes: function, end, encoding, slot and data."""
    for number in range(count):
        function = 0x1000 + 32 * number
        has_data = number % 4 == 0
        yield (function, function + (16 if number % 3 == 0 else 32), 0x0400_0000 + number // each % encodings,
               8 * (number // 4 % 3 + 1) if has_data else 0, number + 1 if has_data else 0)


def expected(functions):
    """Slots, rows, data and where the functions end."""
    slots = sorted({slot for _, _, _, slot, _ in functions if slot})
    rows = []
    for (function, end, encoding, slot, data), following in zip(functions, functions[1:] + [None]):
        number = slots.index(slot) + 1 if slot else 0
        rows.append((function, encoding | number << 28 | (1 << 30 if data else 0)))
        if following and end < following[0]:
            rows.append((end, 0))
    return slots, rows, [(one[0], one[4]) for one in functions if one[4]], functions[-1][1]


def listed(text):
    """The same by LLVM's account."""
    slots = [int(slot, 16) for slot in re.findall(r"personality\[\d+\]: (0x\w+)", text)]
    rows = re.findall(r"function offset=(0x\w+), encoding(?:\[\d+\])?=(0x\w+)", text)
    data = re.findall(r"\[\d+\]: function offset=(0x\w+), LSDA offset=(0x\w+)", text)
    ends = re.findall(r"function offset=(0x\w+), 2nd level page offset=0x00000000", text)
    return slots, *[[(int(one, 16), int(two, 16)) for one, two in pairs] for pairs in (rows, data)], int(ends[-1], 16)


def main(version):
    with tempfile.TemporaryDirectory() as folder:
        for shape in SHAPES:
            path = Path(folder) / "image"
            subprocess.run(command("section", path, *shape), capture_output=True, check=True)
            path.write_bytes(image_of(path.read_bytes()))
            done = subprocess.run([f"llvm-objdump-{version}", "--macho", "--unwind-info", path], capture_output=True,
                                  text=True, check=True)
            functions = list(functions_of(*shape))
            if listed(done.stdout) != expected(functions):
                sys.exit(f"LLVM reads another section of {shape[0]} functions")
            print(f"{shape[0]:,} functions: {len(expected(functions)[1]):,} rows")


if __name__ == "__main__":
    main(sys.argv[1] if len(sys.argv) > 1 else "19")
