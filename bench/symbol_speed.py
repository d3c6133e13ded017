#!/usr/bin/env python3
"""Times the writing of a million symbols with names of 30 bytes: `symbol_speed.py [RUNS]`.

They are those of one file, each at an atom of its own; every second one is seen by other images, and the others are local.
Prints the least and the median milliseconds of `write_symbols`, and how much more memory a program needs at most that writes
the symbols than one that only makes the file and its winners, in bytes a symbol beyond those of the answer. `speed_calls.py`
says how the program is built.
"""
import os
import statistics
import subprocess
import sys

from speed_calls import command

COUNT, NAME = 1_000_000, 30


def run(name):
    """What a call printed, what it said, and the bytes of memory that the program needed at most."""
    started = subprocess.Popen(command(name, COUNT), stdout=subprocess.PIPE, stderr=subprocess.PIPE, text=True)
    printed, timed = started.stdout.read(), started.stderr.read()
    _, status, usage = os.wait4(started.pid, 0)
    started.returncode = status
    if status != 0:
        sys.exit(f"{name}: failed: {timed}")
    return printed.split(), timed, usage.ru_maxrss * 1024


def main(runs):
    printed, timed, peaks = zip(*[run("symbols") for _ in range(runs)])
    made = min(run("named")[2] for _ in range(runs))
    symbols, strings, local, exported = map(int, printed[0])
    if (symbols, local, exported) != (16 * COUNT, COUNT // 2, COUNT // 2) or strings < (NAME + 1) * COUNT:
        sys.exit(f"wrote {printed[0]}")
    micros = [int(line) for line in timed]
    print(f"{symbols + strings} bytes: {min(micros) / 1e3:.1f} ms, median {statistics.median(micros) / 1e3:.1f} ms")
    print(f"{(min(peaks) - made - symbols - strings) / COUNT:.1f} bytes a symbol beyond the answer")


if __name__ == "__main__":
    main(int(sys.argv[1]) if len(sys.argv) > 1 else 9)
