#!/usr/bin/env python3
"""Times calls over long tables: `table_speed.py [RUNS]`.

Reads archives of 50,000 members and 500,000 offers, of 500,000 pairs that name one string of 1 MB or its ends, of
50,000 names of 1,042 bytes that differ in their last 10, and of 30,000 names with one hash; lists the slots of a
million needs of 1,000 to 1,000,000 goals; numbers 200,000 names of 40 bytes that a million external symbols have;
lays out 500,000 atoms of 2,000 sections, and looks for a million of their addresses, without islands and with eight
areas; binds 240 libraries, each of which re-exports the next one and the last one the first; and looks 100,000 names of
47 bytes up in libraries of 200,000 names. Prints for each the least and the median milliseconds of the call.
`speed_calls.py` says how the program is built.
"""
import statistics
import struct
import subprocess
import sys
import tempfile
from pathlib import Path

from speed_calls import command


def header(name, size):
    return b"%-16s%-12s%-6s%-6s%-8s%-10d`\n" % (name, b"0", b"0", b"0", b"644", size)


def archive(names, strings, members):
    """An archive whose table gives the names at these places of the strings to its members in turn."""
    strings += bytes(len(strings) % 2)
    size = 8 + 8 * len(names) + len(strings)
    first = 8 + 60 + size
    pairs = b"".join(struct.pack("<2I", name, first + 64 * (i % members)) for i, name in enumerate(names))
    table = struct.pack("<I", len(pairs)) + pairs + struct.pack("<I", len(strings)) + strings
    return b"!<arch>\n" + header(b"__.SYMDEF", size) + table + (header(b"member.o", 4) + b"data") * members


MULTIPLIER = 0x9e37_79b9_7f4a_7c15
LOW = (1 << 64) - 1


def stepped(state, word):
    """The hash of `mo_ar` with one word more."""
    product = (state ^ word) * MULTIPLIER & LOW
    return product ^ product >> 32


def word_between(state, wanted):
    """The word with which one hash becomes another."""
    product = wanted ^ wanted >> 32
    return product * pow(MULTIPLIER, -1, 1 << 64) & LOW ^ state


def names_of_one_hash(count):
    """Names of 24 bytes, of which the second 8 make up for the first."""
    names = []
    number = 0
    while len(names) < count:
        first = b"%08d" % number
        second = word_between(stepped(24, int.from_bytes(first, "little")), 0x1234_5678_9abc_def1).to_bytes(8, "little")
        if 0 not in second:
            names.append(first + second + b"the same")
        number += 1
    return names


def archives():
    count = 500_000
    yield "50,000 members, 500,000 offers", archive(
        [12 * i for i in range(count)], b"".join(b"_%010d\0" % i for i in range(count)), 50_000)
    long = b"a" * 1_000_000 + b"\0"
    yield "500,000 pairs name one string of 1 MB", archive([0] * count, long, 1)
    yield "500,000 pairs name its ends", archive(list(range(count)), long, 1)
    yield "50,000 names of 1,042 bytes", archive(
        [1043 * i for i in range(50_000)], b"".join(b"in front" * 129 + b"%010d\0" % i for i in range(50_000)), 1)
    yield "30,000 names with one hash", archive(
        [25 * i for i in range(30_000)], b"".join(name + b"\0" for name in names_of_one_hash(30_000)), 1)


def run(*words):
    done = subprocess.run(command(*words), capture_output=True, text=True, check=True)
    return [int(line) for line in done.stderr.split()]


def tell_all(names, runs, *words):
    for name, times in zip(names, zip(*[run(*words) for _ in range(runs)])):
        print(f"{name}: {min(times)} ms, median {statistics.median(times):.0f} ms")


def tell(name, runs, *words):
    tell_all([name], runs, *words)


def main(runs):
    with tempfile.TemporaryDirectory() as folder:
        for name, contents in archives():
            path = Path(folder) / "archive.a"
            path.write_bytes(contents)
            tell(name, runs, "archive", path)
    for goals in (1_000, 30_000, 200_000, 1_000_000):
        tell(f"a million needs of {goals:,} goals", runs, "slots", 1_000_000, goals)
    tell("a million external symbols with 200,000 names", runs, "names", 1000, 200_000)
    tell_all(
        ["the sections of 500,000 atoms", "their layout", "a million addresses", "a million with islands"],
        runs, "places", 8, 250)
    tell("240 libraries in a ring are bound, of 200,160 names", runs, "closure", 240, 834)
    for libraries, names in ((40, 5_000), (1, 200_000)):
        tell(f"100,000 look-ups in {libraries} libraries of {names:,} names", runs, "providers", libraries, names)


if __name__ == "__main__":
    main(int(sys.argv[1]) if len(sys.argv) > 1 else 5)
