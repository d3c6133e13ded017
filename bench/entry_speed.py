#!/usr/bin/env python3
"""Times the reading of a million unwind entries of an object: `entry_speed.py [RUNS]`.

The object has as many functions of 16 bytes, each with a symbol and an entry of 32 bytes (`compact_unwind_encoding.h`), whose
relocations stand from the last one to the first, as an assembler writes them. Four objects: functions named by their section,
as clang names them; by symbols; the same with a personality and data in each fourth entry; and by their section in no order.
Prints for each the least and the median milliseconds of `unwind_of`, and the most memory that the program needed, the object
and its atoms included. `speed_calls.py` says how the program is built.
"""
import os
import statistics
import subprocess
import sys

from speed_calls import command

COUNT = 1_000_000
KINDS = ("by their section", "by symbols", "by symbols, with data", "in no order")


def run(kind):
    """The microseconds of a call, what it printed, and the bytes of memory that the program needed at most."""
    started = subprocess.Popen(command("entries", COUNT, kind), stdout=subprocess.PIPE, stderr=subprocess.PIPE, text=True)
    printed, timed = started.stdout.read(), started.stderr.read()
    _, status, usage = os.wait4(started.pid, 0)
    started.returncode = status
    if status != 0:
        sys.exit(f"{KINDS[kind]}: failed: {timed}")
    return int(timed), printed.split(), usage.ru_maxrss * 1024


def main(runs):
    for kind, name in enumerate(KINDS):
        timed, printed, peaks = zip(*[run(kind) for _ in range(runs)])
        if printed[0] != [str(COUNT), str(COUNT)]:
            sys.exit(f"{name}: {printed[0]}, not so many entries and atoms")
        least, median = min(timed) / 1e3, statistics.median(timed) / 1e3
        print(f"{name}: {least:.1f} ms, median {median:.1f} ms; {min(peaks) >> 20} MiB")


if __name__ == "__main__":
    main(int(sys.argv[1]) if len(sys.argv) > 1 else 9)
