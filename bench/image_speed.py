#!/usr/bin/env python3
"""Times the reading of an image's pointers: `image_speed.py [RUNS]`.

Makes images with chained fixups, each fourth of which is a bind and each other one a rebase: 16 pages of 0x4000 bytes
with 2,048 pointers each, the same with 60 more segments, and 256 pages with 16 pointers each. Prints for each the least
time that the reading of 8 bytes took, the program's start and end included, and what the program counted.
`speed_calls.py` says how the program is built.
"""
import struct
import subprocess
import sys
import tempfile
import time

from speed_calls import command

PAGE = 0x4000
BASE = 0x1_0000_0000


def segment(name, address, size, offset, protection):
    return struct.pack("<II16sQQQQIIII", 0x19, 72, name, address, size, offset, size if protection else 0, protection,
                       protection, 0, 0)


def page(step):
    """The pointers of a page, `step` bytes from one to the next."""
    out = bytearray(PAGE)
    for at in range(0, PAGE, step):
        follows = step // 4 if at + step < PAGE else 0
        word = follows << 51 | (1 << 63 if at // step % 4 == 3 else at)
        struct.pack_into("<Q", out, at, word)
    return bytes(out)


def image(pages, step, more_segments):
    """An image whose second segment has pages of pointers; its fixups stand behind them."""
    segments = 2 + more_segments
    data, fixups = PAGE, PAGE + pages * PAGE
    starts = struct.pack("<IHHQIH", 22 + 2 * pages, PAGE, 6, PAGE, 0, pages) + bytes(2 * pages)
    table = struct.pack("<I", segments) + struct.pack(f"<{segments}I", 0, 4 + 4 * segments, *[0] * more_segments) + starts
    imports = 28 + len(table) + -len(table) % 4
    tables = struct.pack("<7I", 0, 28, imports, imports + 4, 1, 1, 0) + table
    tables += bytes(imports - len(tables)) + struct.pack("<I", 1 | 1 << 9) + b"\0_import\0"
    commands = segment(b"__TEXT", BASE, PAGE, 0, 5) + segment(b"__DATA", BASE + PAGE, pages * PAGE, data, 3)
    for k in range(more_segments):
        commands += segment(b"__MORE", BASE + fixups + k * PAGE, PAGE, 0, 1)
    commands += struct.pack("<4I", 0x80000034, 16, fixups, len(tables))
    header = struct.pack("<8I", 0xfeedfacf, 0x100000c, 0, 2, segments + 1, len(commands), 0, 0)
    text = (header + commands).ljust(PAGE, b"\0")
    return text + page(step) * pages + tables


def measure(name, pages, step, more_segments, runs):
    count = pages * PAGE // 8
    with tempfile.NamedTemporaryFile() as file:
        file.write(image(pages, step, more_segments))
        file.flush()
        least, printed = None, None
        for _ in range(runs):
            start = time.monotonic()
            printed = subprocess.run(command("image", file.name, BASE + PAGE, count), check=True, capture_output=True,
                                     text=True).stdout.strip()
            seconds = time.monotonic() - start
            least = min(least or seconds, seconds)
    print(f"{name}: {least * 1e9 / count:.0f} ns a pointer, {printed}")


def main(runs):
    measure("2,048 pointers a page", 16, 8, 0, runs)
    measure("2,048 pointers a page, 60 more segments", 16, 8, 60, runs)
    measure("16 pointers a page", 256, 1024, 0, runs)


if __name__ == "__main__":
    main(int(sys.argv[1]) if len(sys.argv) > 1 else 3)
